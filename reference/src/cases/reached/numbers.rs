//! Numbers and sizes with blanks or signs: those that only request R-1 accepts, and those that are refused for them. Only texts without a fault of
//! stages 4 to 7 are looked at; a refused spelling counts where it is the answer.

use super::Read;
use crate::cases::spellings::is_bare;
use crate::number::without_blanks;
use crate::reading::segments;
use crate::refusal::Refusal;
use crate::rules::{child_elements, find_row, judge, only_run, value_fault, Content, Row, Value};
use crate::rules::{CDI, GREATEST_NUMBER, LEAST_NUMBER};
use crate::text::is_blank;
use crate::tree::{Child, Element};
use crate::walk::{walk, Outcome};

/// A text with a number or a size that only R-1 accepts.
pub const ACCEPTED: &str = "spelled: a number or size that only R-1 accepts";
/// Such a text that is accepted as a whole.
pub const PLANNED: &str = "spelled: such a one in an accepted text";
/// A text whose answer is 9 or 10 for the blanks or signs of a number or size.
pub const REFUSED: &str = "misspelled: a number or size refused for blanks or signs";

/// What an accepted spelling may show, several at once.
const WAYS: [&str; 9] = [
    "a space at an end",
    "a tab at an end",
    "a newline at an end",
    "several blanks at an end",
    "blanks at both ends",
    "a plus without blanks",
    "a plus and blanks",
    "a minus and blanks",
    "zeros behind a plus",
];

/// What a refused one shows, one of these.
const FAULTS: [&str; 12] = [
    "blanks alone",
    "a sign alone",
    "a sign alone in blanks",
    "a blank behind the sign",
    "a blank between digits",
    "two signs",
    "a sign behind the digits",
    "other white space",
    "blanks beside a comment or an instruction",
    "blanks beside a reference",
    "a size with a sign",
    "a size with a leading zero",
];

/// What carries them: attributes, an int's or float's size by the element, and elements.
#[rustfmt::skip]
const CARRIERS: [&str; 13] = [
    "space", "origin", "fixed", "var", "replication", "offset", "size of a string", "size of an int",
    "size of a float", "min", "max", "default", "property",
];

fn spelled(what: &str) -> String {
    format!("spelled: {what}")
}

fn misspelled(what: &str) -> String {
    format!("misspelled: {what}")
}

/// All that is counted here.
pub fn labels() -> Vec<String> {
    let mut labels = vec![ACCEPTED.to_string(), PLANNED.to_string()];
    labels.extend(WAYS.iter().chain(&CARRIERS).map(|what| spelled(what)));
    labels.push(REFUSED.to_string());
    labels.extend(FAULTS.iter().chain(&CARRIERS).map(|what| misspelled(what)));
    labels
}

/// The rule of an element that holds a number.
static NUMBER: Value = Value::Number { least: LEAST_NUMBER, greatest: GREATEST_NUMBER };

/// What must be a number or a size: its element, what carries it there, and its rule.
struct Found<'a> {
    element: &'a Element,
    carrier: String,
    rule: &'static Value,
    /// None where the content of an element is more than one run.
    text: Option<&'a [u8]>,
}

fn carrier(element: &str, attribute: &str) -> String {
    match (attribute, element) {
        ("size", "int") => "size of an int".to_string(),
        ("size", _) => format!("size of a {element}"),
        _ => attribute.to_string(),
    }
}

/// Notes all such texts of an element and below it; nothing in an unknown element.
fn note<'a>(element: &'a Element, row: &'static Row, found: &mut Vec<Found<'a>>) {
    for rule in row.attributes {
        let given = element.attributes.iter().find(|given| given.name == rule.name.as_bytes());
        if let (Some(given), Value::Number { .. } | Value::Size(_)) = (given, &rule.value) {
            let carrier = carrier(row.name, rule.name);
            found.push(Found { element, carrier, rule: &rule.value, text: Some(&given.value) });
        }
    }
    match row.content {
        Content::Text => {}
        Content::Number => {
            found.push(Found { element, carrier: row.name.to_string(), rule: &NUMBER, text: only_run(element) });
        }
        Content::Children(entries) => {
            for child in child_elements(element) {
                if let Some((_, row)) = find_row(entries, &child.name) {
                    note(child, row, found);
                }
            }
        }
    }
}

/// The blanks before what isn't blank, that, and the blanks behind.
fn parts(text: &[u8]) -> (&[u8], &[u8], &[u8]) {
    let inner = without_blanks(text);
    let before = text.iter().take_while(|byte| is_blank(**byte)).count();
    (&text[..before], inner, &text[before + inner.len()..])
}

fn ways(text: &[u8]) -> Vec<&'static str> {
    let (before, inner, behind) = parts(text);
    let ends = [before, behind].concat();
    let shown = [
        ends.contains(&b' '),
        ends.contains(&b'\t'),
        ends.contains(&b'\n'),
        before.len() > 1 || behind.len() > 1,
        !before.is_empty() && !behind.is_empty(),
        inner.starts_with(b"+") && ends.is_empty(),
        inner.starts_with(b"+") && !ends.is_empty(),
        inner.starts_with(b"-"),
        inner.starts_with(b"+0") && inner.len() > 2,
    ];
    WAYS.into_iter().zip(shown).filter(|(_, shown)| *shown).map(|(way, _)| way).collect()
}

fn is_sign(byte: u8) -> bool {
    byte == b'+' || byte == b'-'
}

/// Digits, signs and blanks, with at least one of the last two.
fn is_of_blanks_and_signs(text: &[u8]) -> bool {
    let other = |byte: &u8| is_sign(*byte) || is_blank(*byte);
    text.iter().all(|byte| byte.is_ascii_digit() || other(byte)) && text.iter().any(other)
}

/// The fault of a text of digits, signs and blanks that is no number.
fn fault(text: &[u8]) -> &'static str {
    let (before, inner, behind) = parts(text);
    let Some((first, rest)) = inner.split_first() else { return "blanks alone" };
    let rest = if is_sign(*first) { rest } else { inner };
    let digits = rest.iter().take_while(|byte| byte.is_ascii_digit()).count();
    match without_blanks(&rest[digits..]).first() {
        _ if rest.is_empty() && before.is_empty() && behind.is_empty() => "a sign alone",
        _ if rest.is_empty() => "a sign alone in blanks",
        Some(next) if digits == 0 && is_sign(*next) => "two signs",
        Some(next) if is_sign(*next) => "a sign behind the digits",
        _ if digits == 0 => "a blank behind the sign",
        _ => "a blank between digits",
    }
}

/// Whether a text of digits, signs and blanks has white space too that is no blank.
fn has_other_white_space(text: &[u8]) -> bool {
    let Ok(text) = std::str::from_utf8(text) else { return false };
    let is_other = |found: char| !found.is_ascii() && (found.is_whitespace() || found == '\u{FEFF}');
    let left: String = text.chars().map(|found| if is_other(found) { ' ' } else { found }).collect();
    left != text && is_of_blanks_and_signs(left.as_bytes())
}

/// The fault of a text that is no size, if it has one by blanks, signs or zeros.
fn size_fault(text: &[u8]) -> Option<&'static str> {
    match without_blanks(text) {
        [b'+' | b'-', digits @ ..] if is_bare(digits) => Some("a size with a sign"),
        inner if is_bare(inner) => inner.starts_with(b"0").then_some("a size with a leading zero"),
        _ => text_fault(text),
    }
}

/// The fault of a text that is no number, if it has one by blanks and signs.
fn text_fault(text: &[u8]) -> Option<&'static str> {
    if has_other_white_space(text) {
        return Some("other white space");
    }
    is_of_blanks_and_signs(text).then(|| fault(text))
}

/// The fault of content that isn't one run and else is digits and blanks.
fn content_fault(element: &Element) -> Option<&'static str> {
    let (mut runs, mut refers, mut blank) = (Vec::new(), false, false);
    for child in &element.children {
        match child {
            Child::Run { bytes, .. } => runs.extend(bytes),
            Child::Reference { code, .. } => {
                refers = true;
                blank |= [0x9, 0xA, 0x20].contains(code);
            }
            Child::Comment | Child::Instruction => {}
            Child::Element(_) => return None,
        }
    }
    let blank = blank || runs.iter().any(|byte| is_blank(*byte));
    if element.children.is_empty() || !blank || !runs.iter().all(|byte| byte.is_ascii_digit() || is_blank(*byte)) {
        return None;
    }
    Some(if refers { "blanks beside a reference" } else { "blanks beside a comment or an instruction" })
}

impl Found<'_> {
    /// What it shows as a number or size that only R-1 accepts.
    fn accepted(&self) -> Vec<&'static str> {
        match self.text {
            Some(text) if value_fault(self.rule, text).is_none() && !is_bare(text) => ways(text),
            _ => Vec::new(),
        }
    }

    /// Why it is the answer, if it is refused by blanks or signs.
    fn refused(&self, answer: Refusal) -> Option<&'static str> {
        let is_size = matches!(self.rule, Value::Size(_));
        let number = self.text.map_or(Some(9), |text| value_fault(self.rule, text))?;
        if (answer.number, answer.place) != (number, self.element.place as u64) || (number == 10 && !is_size) {
            return None;
        }
        match self.text {
            None => content_fault(self.element),
            Some(text) if is_size => size_fault(text),
            Some(text) => text_fault(text),
        }
    }
}

/// What a case shows of this.
pub fn met(read: &Read) -> Vec<String> {
    let Some(root) = read.root.as_ref().filter(|root| root.name == CDI.name.as_bytes()) else { return Vec::new() };
    let mut found = Vec::new();
    note(root, &CDI, &mut found);
    let answer = judge(root).err();
    let planned = answer.is_none() && matches!(walk(&segments(root)), Outcome::Kept { .. });
    let mut met = Vec::new();
    for found in &found {
        let accepted = found.accepted();
        if !accepted.is_empty() {
            met.extend([ACCEPTED.to_string(), spelled(&found.carrier)]);
            met.extend(planned.then(|| PLANNED.to_string()));
            met.extend(accepted.into_iter().map(spelled));
        }
        if let Some(fault) = answer.and_then(|answer| found.refused(answer)) {
            met.extend([REFUSED.to_string(), misspelled(&found.carrier), misspelled(fault)]);
        }
    }
    met
}
