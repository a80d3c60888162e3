//! The table of elements: children in order, attributes, numbers, an int's bounds.

use super::markup::Attribute;

/// The row of an element; of those that hold a number or text only, how they are judged.
#[derive(Debug, Clone, Copy, PartialEq, Eq)]
pub enum Row {
    Cdi,
    Identification,
    Acdi,
    Segment,
    Group,
    Int,
    Chars,
    Eventid,
    Float,
    Map,
    IntMap,
    Relation,
    IntRelation,
    Text,
    Min,
    Max,
    Number,
    Unknown,
}

impl Row {
    pub fn holds_children(self) -> bool {
        !matches!(self, Row::Text | Row::Min | Row::Max | Row::Number | Row::Unknown)
    }

    /// The kind of its record.
    pub fn kind(self) -> Option<i64> {
        match self {
            Row::Segment => Some(1),
            Row::Group => Some(2),
            Row::Int => Some(3),
            Row::Chars => Some(4),
            Row::Eventid => Some(5),
            Row::Float => Some(6),
            _ => None,
        }
    }

    /// Any number of them may stand in their parent.
    pub fn may_repeat(self) -> bool {
        self.kind().is_some() || matches!(self, Row::Relation | Row::IntRelation)
    }
}

const INSTANCE: &[u8] = b"http://www.w3.org/2001/XMLSchema-instance";
const LOCATION: &[u8] = b"http://openlcb.org/schema/cdi/1/3/cdi.xsd";

/// The children that a relation needs: its entries 1 and 2.
pub const BOTH: u8 = 0b110;

pub fn root(name: &[u8]) -> Row {
    if name == b"cdi" {
        Row::Cdi
    } else {
        Row::Unknown
    }
}

/// The entry of a child in its parent's row, from 1 on, and the child's own row.
pub fn child(parent: Row, name: &[u8]) -> Option<(u8, Row)> {
    match parent {
        Row::Cdi => match name {
            b"identification" => Some((1, Row::Identification)),
            b"acdi" => Some((2, Row::Acdi)),
            b"segment" => Some((3, Row::Segment)),
            _ => None,
        },
        Row::Identification => match name {
            b"manufacturer" => Some((1, Row::Text)),
            b"model" => Some((2, Row::Text)),
            b"hardwareVersion" => Some((3, Row::Text)),
            b"softwareVersion" => Some((4, Row::Text)),
            b"map" => Some((5, Row::Map)),
            _ => None,
        },
        Row::Segment | Row::Group => match name {
            b"name" => Some((1, Row::Text)),
            b"description" => Some((2, Row::Text)),
            b"repname" if parent == Row::Group => Some((3, Row::Text)),
            _ => Some((4, data(name)?)),
        },
        Row::Int => match name {
            b"min" => Some((3, Row::Min)),
            b"max" => Some((4, Row::Max)),
            b"default" => Some((5, Row::Number)),
            b"map" => Some((6, Row::IntMap)),
            _ => named(name),
        },
        Row::Float => match name {
            b"min" => Some((3, Row::Text)),
            b"max" => Some((4, Row::Text)),
            b"default" => Some((5, Row::Text)),
            b"map" => Some((6, Row::Map)),
            _ => named(name),
        },
        Row::Chars | Row::Eventid if name == b"map" => Some((3, Row::Map)),
        Row::Map if name == b"relation" => Some((3, Row::Relation)),
        Row::IntMap if name == b"relation" => Some((3, Row::IntRelation)),
        Row::Chars | Row::Eventid | Row::Map | Row::IntMap => named(name),
        Row::Relation | Row::IntRelation => match name {
            b"property" if parent == Row::IntRelation => Some((1, Row::Number)),
            b"property" => Some((1, Row::Text)),
            b"value" => Some((2, Row::Text)),
            _ => None,
        },
        Row::Acdi | Row::Text | Row::Min | Row::Max | Row::Number | Row::Unknown => None,
    }
}

/// A data element.
fn data(name: &[u8]) -> Option<Row> {
    match name {
        b"group" => Some(Row::Group),
        b"int" => Some(Row::Int),
        b"string" => Some(Row::Chars),
        b"eventid" => Some(Row::Eventid),
        b"float" => Some(Row::Float),
        _ => None,
    }
}

/// The first two entries of most rows.
fn named(name: &[u8]) -> Option<(u8, Row)> {
    match name {
        b"name" => Some((1, Row::Text)),
        b"description" => Some((2, Row::Text)),
        _ => None,
    }
}

/// What a tag's attributes say: origin or offset, space or size, replication; of 86, 9 and 10, which stand at the tag, the one that speaks; and
/// whether one is unknown or has a wrong text, 85 and 87, which stand at its name.
pub struct Fields {
    pub start: i64,
    pub extra: i64,
    pub copies: i64,
    pub fault: Option<u8>,
    pub wrong: bool,
}

/// The attributes of one tag, as they are asked for.
struct Given<'a, 'b> {
    attributes: &'b [Attribute<'a>],
    known: usize,
    missing: bool,
    fault: Option<u8>,
    wrong: bool,
}

impl<'a> Given<'a, '_> {
    /// Notes 9 or 10.
    fn blame(&mut self, number: u8) {
        self.fault = Some(self.fault.map_or(number, |least| least.min(number)));
    }

    fn find(&mut self, name: &[u8]) -> Option<&'a [u8]> {
        let found = self.attributes.iter().find(|attribute| attribute.name == name)?;
        self.known += 1;
        Some(found.value)
    }

    fn required(&mut self, name: &[u8]) -> Option<&'a [u8]> {
        let found = self.find(name);
        self.missing |= found.is_none();
        found
    }

    /// A number in this range, or the other one where it has a fault or isn't there.
    fn ranged(&mut self, text: Option<&[u8]>, least: i64, greatest: i64, other: i64) -> i64 {
        let Some(text) = text else { return other };
        match number(text) {
            Number::Value(value) if (least as i128..=greatest as i128).contains(&value) => return value as i64,
            Number::Not => self.blame(9),
            _ => self.blame(10),
        }
        other
    }

    fn optional(&mut self, name: &[u8], least: i64, greatest: i64, other: i64) -> i64 {
        let text = self.find(name);
        self.ranged(text, least, greatest, other)
    }

    fn offset(&mut self) -> i64 {
        self.optional(b"offset", i32::MIN as i64, i32::MAX as i64, 0)
    }

    /// A number in this range that must be there, or the other one.
    fn needed(&mut self, name: &[u8], least: i64, greatest: i64, other: i64) -> i64 {
        let text = self.required(name);
        self.ranged(text, least, greatest, other)
    }

    fn fixed(&mut self, name: &[u8], wanted: &[u8]) {
        self.wrong |= self.required(name).is_some_and(|value| value != wanted);
    }

    /// A size that is one of these texts of one digit, blanks at its ends aside, or 0.
    fn size(&mut self, text: &[u8], sizes: &[u8]) -> i64 {
        let token = if text.len() == 1 { text } else { trimmed(text) };
        match token {
            [digit] if sizes.contains(digit) => (digit - b'0') as i64,
            _ => {
                self.blame(10);
                0
            }
        }
    }

    fn int_size(&mut self) -> i64 {
        let text = self.find(b"size").unwrap_or(b"1");
        self.size(text, b"1248")
    }

    fn float_size(&mut self) -> i64 {
        self.wrong |= self.find(b"formatting").is_some_and(|text| !is_formatting(text));
        self.required(b"size").map_or(0, |text| self.size(text, b"248"))
    }

    /// The attributes of elements without a record.
    fn other_rows(&mut self, row: Row) {
        if row == Row::Cdi {
            self.fixed(b"xmlns:xsi", INSTANCE);
            self.fixed(b"xsi:noNamespaceSchemaLocation", LOCATION);
        }
        if row == Row::Acdi {
            self.optional(b"fixed", 0, 255, 0);
            self.optional(b"var", 0, 255, 0);
        }
    }

    /// Origin or offset, space or size, replication.
    fn numbers(&mut self, row: Row) -> (i64, i64, i64) {
        let most = i32::MAX as i64;
        match row {
            Row::Segment => (self.optional(b"origin", 0, most, 0), self.needed(b"space", 0, 255, 0), 1),
            Row::Group => (self.offset(), 0, self.optional(b"replication", 1, most, 1)),
            Row::Int => (self.offset(), self.int_size(), 1),
            Row::Chars => (self.offset(), self.needed(b"size", 1, 65_535, 1), 1),
            Row::Eventid => (self.offset(), 8, 1),
            Row::Float => (self.offset(), self.float_size(), 1),
            _ => {
                self.other_rows(row);
                (0, 0, 1)
            }
        }
    }
}

/// The attributes of an element by its row.
pub fn fields(row: Row, attributes: &[Attribute]) -> Fields {
    let mut given = Given { attributes, known: 0, missing: false, fault: None, wrong: false };
    let (start, extra, copies) = given.numbers(row);
    let fault = if given.missing { Some(86) } else { given.fault };
    Fields { start, extra, copies, fault, wrong: given.wrong || given.known < attributes.len() }
}

/// The names that the attributes of an element may have.
fn names(row: Row) -> &'static [&'static [u8]] {
    match row {
        Row::Cdi => &[b"xmlns:xsi", b"xsi:noNamespaceSchemaLocation"],
        Row::Acdi => &[b"fixed", b"var"],
        Row::Segment => &[b"space", b"origin"],
        Row::Group => &[b"replication", b"offset"],
        Row::Int | Row::Chars => &[b"size", b"offset"],
        Row::Eventid => &[b"offset"],
        Row::Float => &[b"size", b"offset", b"formatting"],
        _ => &[],
    }
}

/// The first attribute that is unknown or has a wrong text: the number of its fault, and its name.
pub fn first_wrong<'a>(row: Row, attributes: &[Attribute<'a>]) -> Option<(u8, &'a [u8])> {
    attributes.iter().find_map(|&Attribute { name, value }| {
        let good = match name {
            _ if !names(row).contains(&name) => return Some((85, name)),
            b"xmlns:xsi" => value == INSTANCE,
            b"xsi:noNamespaceSchemaLocation" => value == LOCATION,
            b"formatting" => is_formatting(value),
            _ => true,
        };
        (!good).then_some((87, name))
    })
}

/// `%`, digits, perhaps `.` and digits, `f`.
fn is_formatting(text: &[u8]) -> bool {
    let [b'%', middle @ .., b'f'] = text else { return false };
    let mut parts = middle.splitn(2, |&byte| byte == b'.');
    parts.all(|digits| digits.iter().all(u8::is_ascii_digit))
}

enum Number {
    Not,
    /// More than 64 bits, which no range allows.
    Huge,
    Value(i128),
}

/// The text without blanks at its ends.
fn trimmed(mut text: &[u8]) -> &[u8] {
    while let [b' ' | b'\t' | b'\n', rest @ ..] = text {
        text = rest;
    }
    while let [rest @ .., b' ' | b'\t' | b'\n'] = text {
        text = rest;
    }
    text
}

/// A number; most have neither blanks nor a plus, and are read at once.
fn number(text: &[u8]) -> Number {
    match bare_number(text) {
        Number::Not => spaced_number(text),
        number => number,
    }
}

/// A number that may have blanks at its ends and a plus.
#[cold]
fn spaced_number(text: &[u8]) -> Number {
    match trimmed(text) {
        [b'+', b'-', ..] => Number::Not,
        [b'+', digits @ ..] => bare_number(digits),
        text => bare_number(text),
    }
}

/// A number without blanks and plus.
fn bare_number(text: &[u8]) -> Number {
    let (negative, digits) = match text {
        [b'-', digits @ ..] => (true, digits),
        _ => (false, text),
    };
    if digits.is_empty() || !digits.iter().all(u8::is_ascii_digit) {
        return Number::Not;
    }
    let mut magnitude = 0u64;
    for digit in digits {
        let next = magnitude.checked_mul(10).and_then(|tens| tens.checked_add((digit - b'0') as u64));
        let Some(next) = next else { return Number::Huge };
        magnitude = next;
    }
    Number::Value(if negative { -(magnitude as i128) } else { magnitude as i128 })
}

/// The number in min, max, default and property of an int, or the number of its fault.
pub fn long_number(text: &[u8]) -> Result<i128, u8> {
    match number(text) {
        Number::Value(value) if value >= i64::MIN as i128 => Ok(value),
        Number::Not => Err(9),
        _ => Err(10),
    }
}

#[derive(Clone, Copy, Default)]
pub enum Bound {
    #[default]
    Missing,
    Faulty,
    Is {
        value: i128,
        place: usize,
    },
}

/// An int's size, 0 where it has a fault, and its bounds.
#[derive(Default)]
pub struct Bounds {
    pub size: i64,
    pub min: Bound,
    pub max: Bound,
}

impl Bounds {
    /// The place of the least fault of bounds that have no other: each must be storable, and then min at most max.
    pub fn fault(&self, int: usize) -> Option<usize> {
        if self.size == 0 || matches!(self.min, Bound::Faulty) || matches!(self.max, Bound::Faulty) {
            return None;
        }
        let bits = 8 * self.size as u32;
        let signed = matches!(self.min, Bound::Is { value: ..0, .. });
        let least = if signed { -(1i128 << (bits - 1)) } else { 0 };
        let greatest = (1i128 << (bits - signed as u32)) - 1;
        let unstored = |bound: &Bound| match *bound {
            Bound::Is { value, place } if value < least || value > greatest => Some(place),
            _ => None,
        };
        let (min, max) = (unstored(&self.min), unstored(&self.max));
        if min.is_some() || max.is_some() {
            return min.into_iter().chain(max).min();
        }
        match (self.min, self.max) {
            (Bound::Is { value: min, .. }, Bound::Is { value: max, .. }) if min > max => Some(int),
            (Bound::Missing, Bound::Is { value: max, .. }) if max < 0 => Some(int),
            _ => None,
        }
    }
}
