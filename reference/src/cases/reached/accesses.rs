//! Writes and reads of ints whose size, bounds or properties only request R-1 accepts, by the answer that they get.

use crate::access::Access;
use crate::answer::{answer, Case};
use crate::cases::spellings::is_bare;
use crate::cases::stats::label;
use crate::rules::{attribute, child_elements, only_run};
use crate::table::{locate, records_of};
use crate::text::content;
use crate::tree::{root, Element};

/// The answers that may turn on these.
const ANSWERS: [&str; 4] = ["written", "integer", "23", "24"];
const CARRIERS: [&str; 4] = ["size", "min", "max", "property"];

fn told(answer: &str, carrier: &str) -> String {
    format!("{answer}, with blanks or a plus in {carrier}")
}

/// All that is counted here.
pub fn labels() -> Vec<String> {
    ANSWERS.iter().flat_map(|answer| CARRIERS.map(|carrier| told(answer, carrier))).collect()
}

/// The element whose `<` stands at this place.
fn element_at(element: &Element, place: usize) -> Option<&Element> {
    if element.place == place {
        return Some(element);
    }
    child_elements(element).into_iter().find_map(|child| element_at(child, place))
}

/// The int that is asked for, if it is one.
fn int_of(access: &Access) -> Option<Element> {
    let met = locate(&access.table, access.n).ok()?;
    let place = records_of(&access.table)?[met.record].place as usize;
    let root = root(content(&access.text).ok()?).ok()?;
    element_at(&root, place).filter(|element| element.name == b"int").cloned()
}

/// The texts of all elements of this name in an element, and of its attribute of this name.
fn texts_of<'a>(element: &'a Element, name: &str) -> Vec<&'a [u8]> {
    let mut texts: Vec<&[u8]> = attribute(element, name).into_iter().collect();
    if element.name == name.as_bytes() {
        texts.extend(only_run(element));
    }
    texts.extend(child_elements(element).into_iter().flat_map(|child| texts_of(child, name)));
    texts
}

/// What a case shows of this.
pub fn met(case: &Case) -> Vec<String> {
    let (Case::Read { access } | Case::WriteInteger { access, .. }) = case else { return Vec::new() };
    let answer = label(&answer(case));
    if !ANSWERS.contains(&answer.as_str()) {
        return Vec::new();
    }
    let Some(int) = int_of(access) else { return Vec::new() };
    let is_dressed = |carrier: &&str| texts_of(&int, carrier).iter().any(|text| !is_bare(text));
    CARRIERS.into_iter().filter(is_dressed).map(|carrier| told(&answer, carrier)).collect()
}
