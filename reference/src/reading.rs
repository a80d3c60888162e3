//! From the tree of a description that keeps the table of elements to its segments and data.

use crate::description::{Data, Detail, IntDetail, Kind, Segment};
use crate::number::{number, Number};
use crate::rules::{attribute, bounds_to_test, child_elements, number_in, size_in, storable, FLOAT_SIZES, INT_SIZES};
use crate::text::spelled;
use crate::tree::{Child, Element};

/// A numeric attribute, or what stands for it where it is absent.
fn numeric(element: &Element, name: &str, absent: i64) -> i64 {
    match attribute(element, name).map(number) {
        Some(Number::Value(value)) => value as i64,
        _ => absent,
    }
}

fn child<'a>(element: &'a Element, name: &str) -> Option<&'a Element> {
    child_elements(element).into_iter().find(|child| child.name == name.as_bytes())
}

/// The text of an element: runs and references in order, comments and instructions dropped.
pub fn decoded(element: &Element) -> Vec<u8> {
    let mut text = Vec::new();
    for child in &element.children {
        match child {
            Child::Run { bytes, .. } => text.extend_from_slice(bytes),
            Child::Reference { code, .. } => text.extend(spelled(*code)),
            Child::Element(_) | Child::Comment | Child::Instruction => {}
        }
    }
    text
}

/// The property elements of an element's map, if it has a map.
fn properties(element: &Element) -> Option<Vec<&Element>> {
    let map = child(element, "map")?;
    let relations = child_elements(map).into_iter().filter(|child| child.name == b"relation");
    Some(relations.filter_map(|relation| child(relation, "property")).collect())
}

fn int_detail(element: &Element) -> Detail {
    let Some(bounds) = bounds_to_test(element) else { return Detail::None };
    let signed = bounds.signed();
    let (_, greatest) = storable(bounds.size, signed);
    Detail::Int(IntDetail {
        signed,
        min: bounds.min.unwrap_or(0),
        max: bounds.max.unwrap_or(greatest),
        map: properties(element).map(|found| found.into_iter().filter_map(number_in).collect()),
    })
}

fn string_detail(element: &Element) -> Detail {
    Detail::String { map: properties(element).map(|found| found.into_iter().map(decoded).collect()) }
}

/// A data element's kind, size and detail.
fn sort(element: &Element) -> Option<(Kind, i64, Detail)> {
    match element.name.as_slice() {
        b"group" => Some((Kind::Group, 0, Detail::None)),
        b"int" => Some((Kind::Int, size_in(element, INT_SIZES)?, int_detail(element))),
        b"string" => Some((Kind::String, numeric(element, "size", 1), string_detail(element))),
        b"eventid" => Some((Kind::Eventid, 8, Detail::Eventid { map: child(element, "map").is_some() })),
        b"float" => Some((Kind::Float, size_in(element, FLOAT_SIZES)?, Detail::None)),
        _ => None,
    }
}

fn data(element: &Element, next: &mut usize) -> Vec<Data> {
    let mut members = Vec::new();
    for child in child_elements(element) {
        let Some((kind, size, detail)) = sort(child) else { continue };
        let record = *next;
        *next += 1;
        let inner = if kind == Kind::Group { data(child, next) } else { Vec::new() };
        members.push(Data {
            record,
            place: child.place,
            kind,
            offset: numeric(child, "offset", 0),
            size,
            replication: if kind == Kind::Group { numeric(child, "replication", 1) } else { 1 },
            members: inner,
            detail,
        });
    }
    members
}

/// The segments of a description, records numbered in document order.
pub fn segments(root: &Element) -> Vec<Segment> {
    let mut next = 0;
    let mut segments = Vec::new();
    for child in child_elements(root).into_iter().filter(|child| child.name == b"segment") {
        let record = next;
        next += 1;
        segments.push(Segment {
            record,
            place: child.place,
            origin: numeric(child, "origin", 0),
            space: numeric(child, "space", 0),
            members: data(child, &mut next),
        });
    }
    segments
}
