//! What each of 81 to 88 may stand for, and an int's bounds beside an unknown attribute. A case counts for what its answer is.

use super::tags::KNOWN;
use super::Read;
use crate::cases::damage::NAMES;
use crate::pieces::Kind;
use crate::refusal::{MISSING_ATTRIBUTE, MISSING_CHILD, OUT_OF_ORDER, STRAY_TEXT, TOO_OFTEN};
use crate::refusal::{UNKNOWN_ATTRIBUTE, UNKNOWN_ELEMENT, WRONG_TEXT};
use crate::rules::{attribute_fault, child_elements, find_row, judge, Content, Row, CDI};
use crate::text::is_blank;
use crate::tree::Element;

/// So many names at the end of `NAMES` no row has.
const NO_ELEMENTS: usize = 3;

const LABELS: [&str; 29] = [
    "81 of a root",
    "81 in acdi",
    "81 in an element of text only",
    "81 by a name that other rows have",
    "81 by a name that no row has",
    "82 of an element of text only",
    "82 of another",
    "83 of an element of text only",
    "83 of another",
    "84 without property",
    "84 without value",
    "84 without both",
    "85 by a name that other rows have",
    "85 by a name that no row has",
    "85 of an element of text only",
    "85 of a root",
    "85 behind another attribute",
    "85 of a bound",
    "86 of a root",
    "86 of a segment",
    "86 of a string",
    "86 of a float",
    "87 of a root's first attribute",
    "87 of a root's second attribute",
    "87 of a float",
    "88 by a reference",
    "88 behind blanks",
    "88 in acdi",
    "10 of an int's bounds, 85 in its tag",
];

/// All that is counted here.
pub fn labels() -> Vec<String> {
    LABELS.iter().map(|label| format!("cause: {label}")).collect()
}

/// An element on the way to the answer, with its row if it is known.
struct Way<'a> {
    element: &'a Element,
    row: Option<&'static Row>,
}

/// The elements around a place, from the root on: each the last child that begins at the place or before it and ends behind it.
fn way<'a>(root: &'a Element, place: u64, behind: impl Fn(&Element) -> bool) -> Vec<Way<'a>> {
    let mut way = vec![Way { element: root, row: (root.name == CDI.name.as_bytes()).then_some(&CDI) }];
    while let Some(Way { element, row }) = way.last() {
        let within = |child: &&Element| child.place as u64 <= place && !behind(child);
        let Some(child) = child_elements(element).into_iter().rfind(within) else { break };
        let entries = match row.map(|row| &row.content) {
            Some(Content::Children(entries)) => *entries,
            _ => &[],
        };
        way.push(Way { element: child, row: find_row(entries, &child.name).map(|(_, row)| row) });
    }
    way
}

fn holds_text_only(row: &Row) -> bool {
    !matches!(row.content, Content::Children(_))
}

fn has_child(element: &Element, name: &str) -> bool {
    child_elements(element).iter().any(|child| child.name == name.as_bytes())
}

fn known_element(name: &[u8]) -> bool {
    NAMES[..NAMES.len() - NO_ELEMENTS].iter().any(|known| known.as_bytes() == name)
}

fn unknown_element(last: &Way, parent: Option<&Way>) -> Vec<&'static str> {
    let name = if known_element(&last.element.name) {
        "81 by a name that other rows have"
    } else {
        "81 by a name that no row has"
    };
    match parent.and_then(|parent| parent.row) {
        None => vec!["81 of a root"],
        Some(row) if row.name == "acdi" => vec!["81 in acdi", name],
        Some(row) if holds_text_only(row) => vec!["81 in an element of text only", name],
        Some(_) => vec![name],
    }
}

fn missing_child(relation: &Element) -> &'static str {
    match (has_child(relation, "property"), has_child(relation, "value")) {
        (false, true) => "84 without property",
        (true, false) => "84 without value",
        _ => "84 without both",
    }
}

fn unknown_attribute(last: &Way, row: &Row, place: u64) -> Vec<&'static str> {
    let element = last.element;
    let Some(index) = element.attributes.iter().position(|given| given.name_place as u64 == place) else {
        return Vec::new();
    };
    let known = KNOWN.iter().any(|name| name.as_bytes() == element.attributes[index].name);
    let mut labels = vec![if known { "85 by a name that other rows have" } else { "85 by a name that no row has" }];
    labels.extend(holds_text_only(row).then_some("85 of an element of text only"));
    labels.extend((row.name == "cdi").then_some("85 of a root"));
    labels.extend((index > 0).then_some("85 behind another attribute"));
    labels.extend(["min", "max"].contains(&row.name).then_some("85 of a bound"));
    labels
}

fn missing_attribute(row: &Row) -> &'static str {
    match row.name {
        "cdi" => "86 of a root",
        "segment" => "86 of a segment",
        "string" => "86 of a string",
        _ => "86 of a float",
    }
}

fn wrong_text(last: &Way, place: u64) -> &'static str {
    match last.element.attributes.first() {
        _ if last.element.name != b"cdi" => "87 of a float",
        Some(first) if first.name_place as u64 == place => "87 of a root's first attribute",
        _ => "87 of a root's second attribute",
    }
}

fn stray(content: &[u8], parent: Option<&'static Row>, place: usize) -> Vec<&'static str> {
    let mut labels = Vec::new();
    labels.extend((content[place] == b'&').then_some("88 by a reference"));
    labels.extend(is_blank(content[place - 1]).then_some("88 behind blanks"));
    labels.extend(parent.is_some_and(|row| row.name == "acdi").then_some("88 in acdi"));
    labels
}

/// Whether this is an int whose tag has an unknown attribute and nothing else wrong.
fn is_unknown_beside_bounds(last: &Way) -> bool {
    let Some(row) = last.row.filter(|row| row.name == "int") else { return false };
    let faults: Vec<u8> =
        last.element.attributes.iter().filter_map(|given| attribute_fault(given, row.attributes)).collect();
    !faults.is_empty() && faults.iter().all(|number| *number == UNKNOWN_ATTRIBUTE)
}

/// Whether an element ends at this place or before it: by the pieces, where its end tag or its short tag ends.
fn ends_before(read: &Read, element: &Element, place: u64) -> bool {
    let mut depth = 0usize;
    for piece in read.pieces.iter().skip_while(|piece| piece.place < element.place) {
        match &piece.kind {
            Kind::StartTag { closed: false, .. } => depth += 1,
            Kind::EndTag { .. } => depth -= 1,
            _ => {}
        }
        if depth == 0 {
            return piece.end as u64 <= place;
        }
    }
    false
}

fn shown(read: &Read, root: &Element) -> Vec<&'static str> {
    let Err(answer) = judge(root) else { return Vec::new() };
    let way = way(root, answer.place, |child| ends_before(read, child, answer.place));
    let Some((last, around)) = way.split_last() else { return Vec::new() };
    let text_only = last.row.is_some_and(holds_text_only);
    match (answer.number, last.row) {
        (UNKNOWN_ELEMENT, _) => unknown_element(last, around.last()),
        (OUT_OF_ORDER, _) => vec![if text_only { "82 of an element of text only" } else { "82 of another" }],
        (TOO_OFTEN, _) => vec![if text_only { "83 of an element of text only" } else { "83 of another" }],
        (MISSING_CHILD, _) => vec![missing_child(last.element)],
        (UNKNOWN_ATTRIBUTE, Some(row)) => unknown_attribute(last, row, answer.place),
        (MISSING_ATTRIBUTE, Some(row)) => vec![missing_attribute(row)],
        (WRONG_TEXT, _) => vec![wrong_text(last, answer.place)],
        (STRAY_TEXT, row) => stray(read.content, row, answer.place as usize),
        (10, _) if is_unknown_beside_bounds(last) => vec!["10 of an int's bounds, 85 in its tag"],
        _ => Vec::new(),
    }
}

/// What a case shows of this.
pub fn met(read: &Read) -> Vec<String> {
    let Some(root) = &read.root else { return Vec::new() };
    shown(read, root).into_iter().map(|label| format!("cause: {label}")).collect()
}
