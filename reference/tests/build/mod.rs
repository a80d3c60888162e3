//! Texts for the tests: the first line, a root tag, what stands in it, and the zero at the end.
#![allow(dead_code)]

use reference::plan::planned;
use reference::refusal::Refusal;
use reference::{answer, Access, Answer, Case};

pub const FIRST: &str = "<?xml version=\"1.0\"?>\n";
pub const ROOT: &str = "<cdi xmlns:xsi=\"http://www.w3.org/2001/XMLSchema-instance\" \
xsi:noNamespaceSchemaLocation=\"http://openlcb.org/schema/cdi/1/3/cdi.xsd\">";
/// The place of the first byte inside the root.
pub const INSIDE: usize = 155;

/// A text with this between the first line and the zero.
pub fn lines(rest: &str) -> Vec<u8> {
    [FIRST.as_bytes(), rest.as_bytes(), &[0]].concat()
}

/// A text with this inside the root.
pub fn cdi(inside: &str) -> Vec<u8> {
    lines(&format!("{ROOT}{inside}</cdi>"))
}

/// A text with this inside a segment of space 1.
pub fn segment(inside: &str) -> Vec<u8> {
    cdi(&format!("<segment space='1'>{inside}</segment>"))
}

/// The place of the first byte inside that segment.
pub const IN_SEGMENT: usize = INSIDE + 19;

/// Number and place of the refusal of a text, or none.
pub fn refused(text: &[u8]) -> Option<(u8, u64)> {
    planned(text).err().map(|refusal| (refusal.number, refusal.place))
}

/// The refusal of this behind the first line; the place counts from there.
pub fn outside(rest: &str) -> Option<(u8, u64)> {
    refused(&lines(rest)).map(|(number, place)| (number, place - FIRST.len() as u64))
}

/// The refusal of this inside the root; the place counts from there.
pub fn inside(rest: &str) -> Option<(u8, i64)> {
    refused(&cdi(rest)).map(|(number, place)| (number, place as i64 - INSIDE as i64))
}

/// The refusal of this inside a segment; the place counts from there.
pub fn in_segment(rest: &str) -> Option<(u8, i64)> {
    refused(&segment(rest)).map(|(number, place)| (number, place as i64 - IN_SEGMENT as i64))
}

/// An access to variable n of a segment in space 1, with a window of so many bytes FF from address 0.
pub fn access(inside: &str, n: u64, window: usize) -> Access {
    let text = segment(inside);
    let table = planned(&text).map(|planned| planned.numbers).unwrap_or_default();
    Access { text, table, n, space: 1, first: 0, window: vec![0xFF; window] }
}

pub fn write_integer(access: &Access, value: i128) -> Answer {
    let (negative, magnitude) = (value < 0, value.unsigned_abs() as u64);
    answer(&Case::WriteInteger { access: access.clone(), negative, magnitude })
}

pub fn write_text(access: &Access, value: &[u8]) -> Answer {
    answer(&Case::WriteText { access: access.clone(), value: value.to_vec() })
}

pub fn write_event(access: &Access, value: u64) -> Answer {
    answer(&Case::WriteEvent { access: access.clone(), value })
}

pub fn read(access: &Access) -> Answer {
    answer(&Case::Read { access: access.clone() })
}

/// The number of a refusal.
pub fn number(answer: &Answer) -> Option<u8> {
    let of = |refusal: &Refusal| Some(refusal.number);
    match answer {
        Answer::PlanRefused { refusal, .. } | Answer::WriteRefused { refusal, .. } => of(refusal),
        Answer::LocateRefused { refusal } | Answer::ReadRefused { refusal } => of(refusal),
        _ => None,
    }
}
