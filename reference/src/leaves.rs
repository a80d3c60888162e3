//! Single readings: the end of the content, characters, numbers, names, formatting, and the piece at a place.
//! They are asked by frames of their own, so that each reader of the proved side is compared by itself.

use crate::number::{number, Number};
use crate::pieces::{piece_at, refers, Attribute, Kind, Off};
use crate::rules::is_formatting;
use crate::text::{characters, content, is_utf8};

/// What a leaf frame asks.
#[derive(Debug, Clone, PartialEq, Eq)]
pub enum Leaf {
    Ending(Vec<u8>),
    Characters(Vec<u8>),
    Number(Vec<u8>),
    Formatting(Vec<u8>),
    Name(Vec<u8>),
    Piece { content: Vec<u8>, place: usize },
}

/// The element names in the order of the table of elements, those that hold text only behind the others.
#[rustfmt::skip]
pub const ELEMENTS: [&str; 23] = [
    "cdi", "identification", "acdi", "segment", "group", "int", "string", "eventid", "float", "map", "relation",
    "manufacturer", "model", "hardwareVersion", "softwareVersion", "name", "description", "repname", "min", "max",
    "default", "property", "value",
];

#[rustfmt::skip]
pub const ATTRIBUTES: [&str; 10] = [
    "xmlns:xsi", "xsi:noNamespaceSchemaLocation", "fixed", "var", "space", "origin", "replication", "offset", "size",
    "formatting",
];

/// The position of a name, counted from 1, or 0.
fn position(names: &[&str], name: &[u8]) -> usize {
    names.iter().position(|known| known.as_bytes() == name).map_or(0, |index| index + 1)
}

fn number_line(text: &[u8]) -> String {
    match number(text) {
        Number::Not => "number none".to_string(),
        Number::Value(value) if value.unsigned_abs() <= u64::MAX as u128 => format!("number {value}"),
        _ => "number large".to_string(),
    }
}

fn ending_line(text: &[u8]) -> String {
    match content(text) {
        Ok(content) => format!("end {}", content.len()),
        Err(refusal) => format!("refused {} {}", refusal.number, refusal.place),
    }
}

fn characters_line(bytes: &[u8]) -> String {
    let allowed = match characters(bytes) {
        Ok(()) => "good".to_string(),
        Err(refusal) => format!("bad {}", refusal.place),
    };
    format!("characters {allowed} {}", if is_utf8(bytes) { "utf8" } else { "not" })
}

fn attribute_words(attribute: &Attribute) -> String {
    let Attribute { name, value, name_place, value_place } = attribute;
    format!(" {name_place} {} {value_place} {}", name_place + name.len(), value_place + value.len())
}

fn piece_line(content: &[u8], place: usize) -> String {
    let piece = match piece_at(content, place) {
        Ok(piece) => piece,
        Err(Off::Malformed) => return "malformed".to_string(),
        Err(Off::Unsupported) => return "unsupported".to_string(),
    };
    let end = piece.end;
    match piece.kind {
        Kind::StartTag { name, attributes, closed } => {
            let form = if closed { "short" } else { "open" };
            let values = if refers(&attributes) { "refers" } else { "plain" };
            let words: String = attributes.iter().map(attribute_words).collect();
            format!("start {} {} {end} {form} {values}{words}", place + 1, place + 1 + name.len())
        }
        Kind::EndTag { name } => format!("finish {} {} {end}", place + 2, place + 2 + name.len()),
        Kind::Comment | Kind::Instruction => format!("remark {end}"),
        Kind::Reference { code } => format!("refer {code} {end}"),
        Kind::Run { .. } => format!("text {end}"),
    }
}

/// The line for a leaf frame.
pub fn leaf_line(leaf: &Leaf) -> String {
    match leaf {
        Leaf::Ending(text) => ending_line(text),
        Leaf::Characters(bytes) => characters_line(bytes),
        Leaf::Number(text) => number_line(text),
        Leaf::Formatting(text) => format!("formatting {}", if is_formatting(text) { "yes" } else { "no" }),
        Leaf::Name(name) => format!("name {} {}", position(&ELEMENTS, name), position(&ATTRIBUTES, name)),
        Leaf::Piece { content, place } => piece_line(content, *place),
    }
}
