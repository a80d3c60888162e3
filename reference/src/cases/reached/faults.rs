//! Several faults against the table of elements at once: in one tag, in the content of one element, and at one place. A tag or an element counts
//! where one of its faults is the answer.

use super::Read;
use crate::refusal::{least, Refusal};
use crate::refusal::{MISSING_ATTRIBUTE, MISSING_CHILD, OUT_OF_ORDER, STRAY_TEXT, TOO_OFTEN};
use crate::refusal::{UNKNOWN_ATTRIBUTE, UNKNOWN_ELEMENT, WRONG_TEXT};
use crate::rules::{attribute_fault, faults, missing_attributes, missing_children, number_fault_in, standings};
use crate::rules::{child_elements, Content, Entry, Row, Standing, CDI};
use crate::text::is_blank;
use crate::tree::{Child, Element};

pub const TWO_IN_TAG: &str = "tag: two faults";
pub const THREE_IN_TAG: &str = "tag: three faults";
pub const TWO_IN_ELEMENT: &str = "element: two faults";
pub const THREE_IN_ELEMENT: &str = "element: three faults";

/// The faults that stand in a tag at an attribute of their own.
const IN_TAG: [u8; 4] = [UNKNOWN_ATTRIBUTE, WRONG_TEXT, 9, 10];
/// The faults that stand in an element at a child or a text of their own.
const IN_ELEMENT: [u8; 4] = [UNKNOWN_ELEMENT, OUT_OF_ORDER, TOO_OFTEN, STRAY_TEXT];
/// What may stand in a relation that lacks a child, its own tag included.
const BESIDE_MISSING: [u8; 5] = [UNKNOWN_ELEMENT, TOO_OFTEN, UNKNOWN_ATTRIBUTE, STRAY_TEXT, 9];
/// The pairs that one place may have.
const AT_ONE_PLACE: [(u8, u8); 8] = [
    (OUT_OF_ORDER, TOO_OFTEN),
    (OUT_OF_ORDER, 9),
    (OUT_OF_ORDER, 10),
    (TOO_OFTEN, 9),
    (TOO_OFTEN, 10),
    (MISSING_ATTRIBUTE, 9),
    (MISSING_ATTRIBUTE, 10),
    (9, 10),
];

fn before(whole: &str, one: u8, other: u8) -> String {
    format!("{whole}: {one} before {other}")
}

fn beside(whole: &str, one: u8, other: u8) -> String {
    format!("{whole}: {one} and {other}")
}

fn twice(number: u8) -> String {
    format!("tag: {number} twice")
}

/// The labels of each two of these in their two orders.
fn orders(whole: &str, numbers: &[u8]) -> Vec<String> {
    let pairs = numbers.iter().flat_map(|one| numbers.iter().map(move |other| (*one, *other)));
    pairs.filter(|(one, other)| one != other).map(|(one, other)| before(whole, one, other)).collect()
}

/// All that is counted here.
pub fn labels() -> Vec<String> {
    let mut labels = [TWO_IN_TAG, THREE_IN_TAG].map(String::from).to_vec();
    labels.extend(orders("tag", &IN_TAG));
    labels.extend(IN_TAG.map(|number| beside("tag", MISSING_ATTRIBUTE, number)));
    labels.extend([UNKNOWN_ATTRIBUTE, WRONG_TEXT].map(twice));
    labels.extend([TWO_IN_ELEMENT, THREE_IN_ELEMENT].map(String::from));
    labels.extend(orders("element", &IN_ELEMENT));
    labels.extend(BESIDE_MISSING.map(|number| beside("element", MISSING_CHILD, number)));
    labels.extend(AT_ONE_PLACE.map(|(one, other)| beside("one place", one, other)));
    labels
}

/// Faults in the order of the text.
struct Sequence {
    numbers: Vec<u8>,
    /// Whether the answer is one of them.
    speaks: bool,
}

impl Sequence {
    /// The labels of each two faults of different numbers.
    fn orders(&self, whole: &str, counted: &[u8]) -> Vec<String> {
        let mut met = Vec::new();
        for (index, one) in self.numbers.iter().enumerate() {
            let later = self.numbers[index + 1..].iter().filter(|other| *other != one);
            met.extend(later.map(|other| (one, other)));
        }
        let counts = |pair: &(&u8, &u8)| counted.contains(pair.0) && counted.contains(pair.1);
        met.into_iter().filter(counts).map(|(one, other)| before(whole, *one, *other)).collect()
    }

    fn has(&self, number: u8) -> bool {
        self.numbers.contains(&number)
    }
}

/// The faults of a tag's attributes as they are written.
fn of_tag(element: &Element, row: &Row, answer: Refusal) -> Sequence {
    let mut sequence = Sequence { numbers: Vec::new(), speaks: answer.place == element.place as u64 };
    for given in &element.attributes {
        if let Some(number) = attribute_fault(given, row.attributes) {
            sequence.numbers.push(number);
            sequence.speaks |= answer.place == given.name_place as u64;
        }
    }
    sequence
}

fn in_tag(element: &Element, row: &Row, answer: Refusal) -> Vec<String> {
    let sequence = of_tag(element, row, answer);
    let missing = missing_attributes(element, row.attributes).len();
    if !sequence.speaks || sequence.numbers.len() + missing < 2 {
        return Vec::new();
    }
    let mut met = vec![TWO_IN_TAG.to_string()];
    met.extend((sequence.numbers.len() + missing > 2).then(|| THREE_IN_TAG.to_string()));
    met.extend(sequence.orders("tag", &IN_TAG));
    if missing > 0 {
        met.extend(sequence.numbers.iter().map(|number| beside("tag", MISSING_ATTRIBUTE, *number)));
    }
    for number in [UNKNOWN_ATTRIBUTE, WRONG_TEXT] {
        let count = sequence.numbers.iter().filter(|other| **other == number).count();
        met.extend((count > 1).then(|| twice(number)));
    }
    met
}

/// The fault that a child speaks with, its attributes aside.
fn of_child(child: &Element, standing: &Option<Standing>) -> Option<u8> {
    match standing {
        None => Some(UNKNOWN_ELEMENT),
        Some(standing) if standing.out_of_order => Some(OUT_OF_ORDER),
        Some(standing) if standing.too_often => Some(TOO_OFTEN),
        Some(standing) if matches!(standing.row.content, Content::Number) => number_fault_in(child),
        Some(_) => None,
    }
}

fn is_stray(child: &Child) -> bool {
    match child {
        Child::Run { bytes, .. } => !bytes.iter().all(|byte| is_blank(*byte)),
        Child::Reference { .. } => true,
        Child::Element(_) | Child::Comment | Child::Instruction => false,
    }
}

/// The faults of an element's content in the order of the text.
fn of_content(element: &Element, standings: &[Option<Standing>], answer: Refusal) -> Sequence {
    let mut sequence = Sequence { numbers: Vec::new(), speaks: false };
    let mut standing = standings.iter();
    for child in &element.children {
        let (number, place) = match child {
            Child::Element(inner) => (standing.next().and_then(|standing| of_child(inner, standing)), inner.place),
            Child::Run { place, .. } | Child::Reference { place, .. } => {
                (is_stray(child).then_some(STRAY_TEXT), *place)
            }
            Child::Comment | Child::Instruction => continue,
        };
        let Some(number) = number else { continue };
        sequence.numbers.push(number);
        // Of stray text the answer stands behind the blanks of its run.
        let stray = number == STRAY_TEXT && answer.number == STRAY_TEXT && answer.place >= place as u64;
        sequence.speaks |= answer.place == place as u64 || stray;
    }
    sequence
}

fn in_content(element: &Element, row: &Row, entries: &'static [Entry], answer: Refusal) -> Vec<String> {
    let standings = standings(element, entries);
    let sequence = of_content(element, &standings, answer);
    let missing = missing_children(&standings, entries).len();
    let lacks = answer == Refusal { place: element.place as u64, number: MISSING_CHILD };
    let mut met = Vec::new();
    if lacks {
        let beside_it = |number: &u8| sequence.has(*number) || of_tag(element, row, answer).has(*number);
        met.extend(
            BESIDE_MISSING.iter().filter(|number| beside_it(number)).map(|n| beside("element", MISSING_CHILD, *n)),
        );
    }
    let count = sequence.numbers.len() + missing;
    if (sequence.speaks || lacks) && count > 1 {
        met.push(TWO_IN_ELEMENT.to_string());
        met.extend((count > 2).then(|| THREE_IN_ELEMENT.to_string()));
        met.extend(sequence.orders("element", &IN_ELEMENT));
    }
    met
}

fn in_element(element: &Element, row: &'static Row, answer: Refusal, met: &mut Vec<String>) {
    met.extend(in_tag(element, row, answer));
    let Content::Children(entries) = row.content else { return };
    met.extend(in_content(element, row, entries, answer));
    for (child, standing) in child_elements(element).into_iter().zip(standings(element, entries)) {
        if let Some(standing) = standing {
            in_element(child, standing.row, answer, met);
        }
    }
}

/// What a case shows of this.
pub fn met(read: &Read) -> Vec<String> {
    let Some(root) = read.root.as_ref().filter(|root| root.name == CDI.name.as_bytes()) else { return Vec::new() };
    let faults = faults(root);
    let Some(answer) = least(&faults) else { return Vec::new() };
    let there = |number: u8| faults.contains(&Refusal { number, ..answer });
    let pairs = AT_ONE_PLACE.iter().filter(|(one, other)| there(*one) && there(*other));
    let mut met: Vec<String> = pairs.map(|(one, other)| beside("one place", *one, *other)).collect();
    in_element(root, &CDI, answer, &mut met);
    met
}
