//! The table of elements and the faults against it: 81 to 88, 9 and 10, which are one stage.
//! Every fault is collected with its place; nothing inside an unknown element is judged.

use crate::number::{number, without_blanks, Number};
use crate::pieces::Attribute;
use crate::refusal::{least, refusal, Refusal};
use crate::refusal::{MISSING_ATTRIBUTE, MISSING_CHILD, OUT_OF_ORDER, STRAY_TEXT, TOO_OFTEN};
use crate::refusal::{UNKNOWN_ATTRIBUTE, UNKNOWN_ELEMENT, WRONG_TEXT};
use crate::text::is_blank;
use crate::tree::{Child, Element};

/// How often the children of one entry may stand.
#[derive(Debug, Clone, Copy, PartialEq, Eq)]
pub enum Count {
    Optional,
    One,
    Any,
}

/// One entry of a row's children: any mix of these rows.
pub struct Entry {
    pub rows: &'static [&'static Row],
    pub count: Count,
}

/// What an attribute's text must be.
pub enum Value {
    Fixed(&'static str),
    Number {
        least: i128,
        greatest: i128,
    },
    /// One of these texts, blanks at both ends dropped.
    Size(&'static [&'static str]),
    Formatting,
}

pub struct AttributeRule {
    pub name: &'static str,
    pub required: bool,
    pub value: Value,
}

pub enum Content {
    Children(&'static [Entry]),
    Text,
    Number,
}

/// The row of one element.
pub struct Row {
    pub name: &'static str,
    pub attributes: &'static [AttributeRule],
    pub content: Content,
}

const fn text_only(name: &'static str) -> Row {
    Row { name, attributes: &[], content: Content::Text }
}

const fn number_only(name: &'static str) -> Row {
    Row { name, attributes: &[], content: Content::Number }
}

const fn optional(rows: &'static [&'static Row]) -> Entry {
    Entry { rows, count: Count::Optional }
}

const fn one(rows: &'static [&'static Row]) -> Entry {
    Entry { rows, count: Count::One }
}

const fn any(rows: &'static [&'static Row]) -> Entry {
    Entry { rows, count: Count::Any }
}

const fn ranged(name: &'static str, required: bool, least: i128, greatest: i128) -> AttributeRule {
    AttributeRule { name, required, value: Value::Number { least, greatest } }
}

const fn offset() -> AttributeRule {
    ranged("offset", false, -2_147_483_648, 2_147_483_647)
}

pub const INT_SIZES: &[&str] = &["1", "2", "4", "8"];
pub const FLOAT_SIZES: &[&str] = &["2", "4", "8"];
pub const SCHEMA_INSTANCE: &str = "http://www.w3.org/2001/XMLSchema-instance";
pub const SCHEMA_LOCATION: &str = "http://openlcb.org/schema/cdi/1/3/cdi.xsd";
/// The range of the numbers in an int's min, max, default and properties.
pub const LEAST_NUMBER: i128 = -(1 << 63);
pub const GREATEST_NUMBER: i128 = (1 << 64) - 1;

static MANUFACTURER: Row = text_only("manufacturer");
static MODEL: Row = text_only("model");
static HARDWARE_VERSION: Row = text_only("hardwareVersion");
static SOFTWARE_VERSION: Row = text_only("softwareVersion");
static NAME: Row = text_only("name");
static DESCRIPTION: Row = text_only("description");
static REPNAME: Row = text_only("repname");
static VALUE: Row = text_only("value");
static TEXT_PROPERTY: Row = text_only("property");
static TEXT_MIN: Row = text_only("min");
static TEXT_MAX: Row = text_only("max");
static TEXT_DEFAULT: Row = text_only("default");
static NUMBER_PROPERTY: Row = number_only("property");
static NUMBER_MIN: Row = number_only("min");
static NUMBER_MAX: Row = number_only("max");
static NUMBER_DEFAULT: Row = number_only("default");

static TEXT_RELATION: Row =
    Row { name: "relation", attributes: &[], content: Content::Children(&[one(&[&TEXT_PROPERTY]), one(&[&VALUE])]) };
static NUMBER_RELATION: Row =
    Row { name: "relation", attributes: &[], content: Content::Children(&[one(&[&NUMBER_PROPERTY]), one(&[&VALUE])]) };
static TEXT_MAP: Row = Row {
    name: "map",
    attributes: &[],
    content: Content::Children(&[optional(&[&NAME]), optional(&[&DESCRIPTION]), any(&[&TEXT_RELATION])]),
};
static NUMBER_MAP: Row = Row {
    name: "map",
    attributes: &[],
    content: Content::Children(&[optional(&[&NAME]), optional(&[&DESCRIPTION]), any(&[&NUMBER_RELATION])]),
};

static DATA: [&Row; 5] = [&GROUP, &INT, &STRING, &EVENTID, &FLOAT];

static INT: Row = Row {
    name: "int",
    attributes: &[AttributeRule { name: "size", required: false, value: Value::Size(INT_SIZES) }, offset()],
    content: Content::Children(&[
        optional(&[&NAME]),
        optional(&[&DESCRIPTION]),
        optional(&[&NUMBER_MIN]),
        optional(&[&NUMBER_MAX]),
        optional(&[&NUMBER_DEFAULT]),
        optional(&[&NUMBER_MAP]),
    ]),
};
static STRING: Row = Row {
    name: "string",
    attributes: &[ranged("size", true, 1, 65_535), offset()],
    content: Content::Children(&[optional(&[&NAME]), optional(&[&DESCRIPTION]), optional(&[&TEXT_MAP])]),
};
static EVENTID: Row = Row {
    name: "eventid",
    attributes: &[offset()],
    content: Content::Children(&[optional(&[&NAME]), optional(&[&DESCRIPTION]), optional(&[&TEXT_MAP])]),
};
static FLOAT: Row = Row {
    name: "float",
    attributes: &[
        AttributeRule { name: "size", required: true, value: Value::Size(FLOAT_SIZES) },
        offset(),
        AttributeRule { name: "formatting", required: false, value: Value::Formatting },
    ],
    content: Content::Children(&[
        optional(&[&NAME]),
        optional(&[&DESCRIPTION]),
        optional(&[&TEXT_MIN]),
        optional(&[&TEXT_MAX]),
        optional(&[&TEXT_DEFAULT]),
        optional(&[&TEXT_MAP]),
    ]),
};
static GROUP: Row = Row {
    name: "group",
    attributes: &[ranged("replication", false, 1, 2_147_483_647), offset()],
    content: Content::Children(&[optional(&[&NAME]), optional(&[&DESCRIPTION]), optional(&[&REPNAME]), any(&DATA)]),
};
static SEGMENT: Row = Row {
    name: "segment",
    attributes: &[ranged("space", true, 0, 255), ranged("origin", false, 0, 2_147_483_647)],
    content: Content::Children(&[optional(&[&NAME]), optional(&[&DESCRIPTION]), any(&DATA)]),
};
static ACDI: Row = Row {
    name: "acdi",
    attributes: &[ranged("fixed", false, 0, 255), ranged("var", false, 0, 255)],
    content: Content::Children(&[]),
};
static IDENTIFICATION: Row = Row {
    name: "identification",
    attributes: &[],
    content: Content::Children(&[
        optional(&[&MANUFACTURER]),
        optional(&[&MODEL]),
        optional(&[&HARDWARE_VERSION]),
        optional(&[&SOFTWARE_VERSION]),
        optional(&[&TEXT_MAP]),
    ]),
};
pub static CDI: Row = Row {
    name: "cdi",
    attributes: &[
        AttributeRule { name: "xmlns:xsi", required: true, value: Value::Fixed(SCHEMA_INSTANCE) },
        AttributeRule { name: "xsi:noNamespaceSchemaLocation", required: true, value: Value::Fixed(SCHEMA_LOCATION) },
    ],
    content: Content::Children(&[optional(&[&IDENTIFICATION]), optional(&[&ACDI]), any(&[&SEGMENT])]),
};

/// `%`, any digits or none, optionally `.` and any digits or none, then `f`.
pub fn is_formatting(text: &[u8]) -> bool {
    let Some(rest) = text.strip_prefix(b"%") else { return false };
    let Some(middle) = rest.strip_suffix(b"f") else { return false };
    let points = middle.iter().filter(|byte| **byte == b'.').count();
    points <= 1 && middle.iter().all(|byte| byte.is_ascii_digit() || *byte == b'.')
}

/// The number of the fault of a numeric text, if it has one.
fn number_fault(text: &[u8], least: i128, greatest: i128) -> Option<u8> {
    match number(text) {
        Number::Not => Some(9),
        Number::Huge => Some(10),
        Number::Value(value) if value < least || value > greatest => Some(10),
        Number::Value(_) => None,
    }
}

/// The size that a text says: one of those listed, byte for byte once the blanks at both ends are dropped.
fn listed_size(text: &[u8], sizes: &[&str]) -> Option<i64> {
    let token = without_blanks(text);
    let found = sizes.iter().find(|size| size.as_bytes() == token)?;
    found.parse().ok()
}

/// The number of the fault of an attribute's text, if it has one.
pub fn value_fault(value: &Value, text: &[u8]) -> Option<u8> {
    match value {
        Value::Fixed(fixed) => (fixed.as_bytes() != text).then_some(WRONG_TEXT),
        Value::Number { least, greatest } => number_fault(text, *least, *greatest),
        Value::Size(sizes) => listed_size(text, sizes).is_none().then_some(10),
        Value::Formatting => (!is_formatting(text)).then_some(WRONG_TEXT),
    }
}

/// The number of the fault of an attribute by its own name and text, if it has one.
pub fn attribute_fault(given: &Attribute, rules: &[AttributeRule]) -> Option<u8> {
    match rules.iter().find(|rule| rule.name.as_bytes() == given.name) {
        None => Some(UNKNOWN_ATTRIBUTE),
        Some(rule) => value_fault(&rule.value, &given.value),
    }
}

/// Where such a fault stands: that of an unknown attribute and of a wrong fixed text at its name, others at the tag's `<`.
fn attribute_place(number: u8, given: &Attribute, element: &Element) -> usize {
    match number {
        UNKNOWN_ATTRIBUTE | WRONG_TEXT => given.name_place,
        _ => element.place,
    }
}

/// The required attributes that an element lacks.
pub fn missing_attributes<'a>(element: &Element, rules: &'a [AttributeRule]) -> Vec<&'a str> {
    let missing = |rule: &&AttributeRule| rule.required && attribute(element, rule.name).is_none();
    rules.iter().filter(missing).map(|rule| rule.name).collect()
}

/// The text of an element's attribute.
pub fn attribute<'a>(element: &'a Element, name: &str) -> Option<&'a [u8]> {
    let found = element.attributes.iter().find(|attribute| attribute.name == name.as_bytes());
    found.map(|attribute| attribute.value.as_slice())
}

/// The size of an int or a float, 1 where it isn't given; none where it is no size.
pub fn size_in(element: &Element, sizes: &[&str]) -> Option<i64> {
    attribute(element, "size").map_or(Some(1), |text| listed_size(text, sizes))
}

/// The child elements of an element, in order.
pub fn child_elements(element: &Element) -> Vec<&Element> {
    let mut elements = Vec::new();
    for child in &element.children {
        if let Child::Element(inner) = child {
            elements.push(inner);
        }
    }
    elements
}

/// The text that is an element's whole content, if that is exactly one run of text.
pub fn only_run(element: &Element) -> Option<&[u8]> {
    match element.children.as_slice() {
        [Child::Run { bytes, .. }] => Some(bytes),
        _ => None,
    }
}

/// The value of an element that holds a number in the range of such elements.
pub fn number_in(element: &Element) -> Option<i128> {
    match number(only_run(element)?) {
        Number::Value(value) if (LEAST_NUMBER..=GREATEST_NUMBER).contains(&value) => Some(value),
        _ => None,
    }
}

/// The number of the fault of an element whose whole content must be a number, if it has one.
pub fn number_fault_in(element: &Element) -> Option<u8> {
    only_run(element).map_or(Some(9), |text| number_fault(text, LEAST_NUMBER, GREATEST_NUMBER))
}

/// A child's entry in the parent's row, its own row, and whether it is out of order, or one too many, or both.
pub struct Standing {
    pub entry: usize,
    pub row: &'static Row,
    pub out_of_order: bool,
    pub too_often: bool,
}

/// The entry of a row that a child of this name has, and the child's own row.
pub fn find_row(entries: &'static [Entry], name: &[u8]) -> Option<(usize, &'static Row)> {
    entries.iter().enumerate().find_map(|(index, entry)| {
        let row = entry.rows.iter().find(|row| row.name.as_bytes() == name)?;
        Some((index, *row))
    })
}

/// Where each child element stands in the row; none for an unknown one.
pub fn standings(element: &Element, entries: &'static [Entry]) -> Vec<Option<Standing>> {
    // which entries stand before the child
    let mut earlier = vec![false; entries.len()];
    let mut standing = |child: &Element| {
        let (entry, row) = find_row(entries, &child.name)?;
        let out_of_order = earlier[entry + 1..].contains(&true);
        let too_often = entries[entry].count != Count::Any && earlier[entry];
        earlier[entry] = true;
        Some(Standing { entry, row, out_of_order, too_often })
    };
    child_elements(element).into_iter().map(&mut standing).collect()
}

/// The entries of which exactly one must stand and none does.
pub fn missing_children(standings: &[Option<Standing>], entries: &[Entry]) -> Vec<usize> {
    let stands = |index: usize| standings.iter().flatten().any(|standing| standing.entry == index);
    (0..entries.len()).filter(|index| entries[*index].count == Count::One && !stands(*index)).collect()
}

/// Collects the faults of this stage.
#[derive(Default)]
struct Judge {
    faults: Vec<Refusal>,
}

impl Judge {
    fn fault(&mut self, number: u8, place: usize) {
        self.faults.push(refusal(number, place));
    }

    fn attributes(&mut self, element: &Element, rules: &[AttributeRule]) {
        for given in &element.attributes {
            if let Some(number) = attribute_fault(given, rules) {
                self.fault(number, attribute_place(number, given, element));
            }
        }
        for _ in missing_attributes(element, rules) {
            self.fault(MISSING_ATTRIBUTE, element.place);
        }
    }

    /// Text that isn't blank and references between children.
    fn stray(&mut self, element: &Element) {
        for child in &element.children {
            match child {
                Child::Run { place, bytes } => {
                    if let Some(distance) = bytes.iter().position(|byte| !is_blank(*byte)) {
                        self.fault(STRAY_TEXT, place + distance);
                    }
                }
                Child::Reference { place, .. } => self.fault(STRAY_TEXT, *place),
                Child::Element(_) | Child::Comment | Child::Instruction => {}
            }
        }
    }

    fn children(&mut self, element: &Element, entries: &'static [Entry]) {
        self.stray(element);
        let standings = standings(element, entries);
        for (child, standing) in child_elements(element).into_iter().zip(&standings) {
            let Some(standing) = standing else {
                self.fault(UNKNOWN_ELEMENT, child.place);
                continue;
            };
            if standing.out_of_order {
                self.fault(OUT_OF_ORDER, child.place);
            }
            if standing.too_often {
                self.fault(TOO_OFTEN, child.place);
            }
            self.element(child, standing.row);
        }
        for _ in missing_children(&standings, entries) {
            self.fault(MISSING_CHILD, element.place);
        }
    }

    /// Every child of an element that holds text only is unknown.
    fn no_children(&mut self, element: &Element) {
        for child in child_elements(element) {
            self.fault(UNKNOWN_ELEMENT, child.place);
        }
    }

    fn number(&mut self, element: &Element) {
        self.no_children(element);
        if let Some(number) = number_fault_in(element) {
            self.fault(number, element.place);
        }
    }

    fn bounds(&mut self, int: &Element) {
        let Some(bounds) = bounds_to_test(int) else { return };
        let (least, greatest) = storable(bounds.size, bounds.signed());
        let mut stored = true;
        for (bound, element) in [(bounds.min, bounds.min_element), (bounds.max, bounds.max_element)] {
            if let (Some(value), Some(element)) = (bound, element) {
                if value < least || value > greatest {
                    self.fault(10, element.place);
                    stored = false;
                }
            }
        }
        if stored && bounds.min.unwrap_or(0) > bounds.max.unwrap_or(greatest) {
            self.fault(10, int.place);
        }
    }

    fn element(&mut self, element: &Element, row: &'static Row) {
        self.attributes(element, row.attributes);
        match row.content {
            Content::Children(entries) => self.children(element, entries),
            Content::Text => self.no_children(element),
            Content::Number => self.number(element),
        }
        if std::ptr::eq(row, &INT) {
            self.bounds(element);
        }
    }
}

/// The least and greatest value that a size can store.
pub fn storable(size: i64, signed: bool) -> (i128, i128) {
    let bits = 8 * size as u32;
    if signed {
        (-(1i128 << (bits - 1)), (1i128 << (bits - 1)) - 1)
    } else {
        (0, (1i128 << bits) - 1)
    }
}

/// An int's size, min and max where none of them has a fault.
pub struct Bounds<'a> {
    pub size: i64,
    pub min: Option<i128>,
    pub max: Option<i128>,
    min_element: Option<&'a Element>,
    max_element: Option<&'a Element>,
}

impl Bounds<'_> {
    /// An int is signed exactly if min is present and below zero.
    pub fn signed(&self) -> bool {
        self.min.is_some_and(|min| min < 0)
    }
}

/// One of an int's bounds: none if it has a fault, else its element and value if it is present.
fn bound<'a>(int: &'a Element, name: &str) -> Option<Option<(&'a Element, i128)>> {
    let Content::Children(entries) = INT.content else { return None };
    let standings = standings(int, entries);
    let named = |child: &&'a Element| child.name == name.as_bytes();
    let found: Vec<(usize, &Element)> =
        child_elements(int).into_iter().enumerate().filter(|(_, child)| named(child)).collect();
    match found.as_slice() {
        [] => Some(None),
        [(index, element)] => {
            let wrong = |standing: &Standing| standing.out_of_order || standing.too_often;
            if standings[*index].as_ref().is_none_or(wrong) || !element.attributes.is_empty() {
                return None;
            }
            Some(Some((element, number_in(element)?)))
        }
        _ => None,
    }
}

/// The bounds of an int, if its size, min and max have no fault but those of the bounds themselves.
pub fn bounds_to_test(int: &Element) -> Option<Bounds<'_>> {
    let size = size_in(int, INT_SIZES)?;
    let min = bound(int, "min")?;
    let max = bound(int, "max")?;
    Some(Bounds {
        size,
        min: min.map(|found| found.1),
        max: max.map(|found| found.1),
        min_element: min.map(|found| found.0),
        max_element: max.map(|found| found.0),
    })
}

/// All faults against the table of elements, in any order.
pub fn faults(root: &Element) -> Vec<Refusal> {
    let mut judge = Judge::default();
    if root.name == CDI.name.as_bytes() {
        judge.element(root, &CDI);
    } else {
        judge.fault(UNKNOWN_ELEMENT, root.place);
    }
    judge.faults
}

/// This stage: the least fault against the table of elements.
pub fn judge(root: &Element) -> Result<(), Refusal> {
    least(&faults(root)).map_or(Ok(()), Err)
}
