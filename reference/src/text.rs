//! The text and its end: stages 1 to 3.
//! Stage 1 finds the content, stage 2 reads it as UTF-8 of XML characters, stage 3 compares the first line.

use crate::refusal::{refusal, Refusal};

/// The last place at which the first zero byte may stand.
pub const LAST_END: usize = 65_535;

/// The 22 bytes that begin every content.
pub const FIRST_LINE: &[u8] = b"<?xml version=\"1.0\"?>\n";

/// A code point and the number of bytes that spell it.
#[derive(Debug, Clone, Copy, PartialEq, Eq)]
pub struct Character {
    pub code: u32,
    pub length: usize,
}

const TAIL: (u8, u8) = (0x80, 0xBF);

/// The syntax of UTF-8 byte sequences of RFC 3629, section 4, row by row: the range of each byte.
const SEQUENCES: [&[(u8, u8)]; 9] = [
    &[(0x00, 0x7F)],
    &[(0xC2, 0xDF), TAIL],
    &[(0xE0, 0xE0), (0xA0, 0xBF), TAIL],
    &[(0xE1, 0xEC), TAIL, TAIL],
    &[(0xED, 0xED), (0x80, 0x9F), TAIL],
    &[(0xEE, 0xEF), TAIL, TAIL],
    &[(0xF0, 0xF0), (0x90, 0xBF), TAIL, TAIL],
    &[(0xF1, 0xF3), TAIL, TAIL, TAIL],
    &[(0xF4, 0xF4), (0x80, 0x8F), TAIL, TAIL],
];

fn fits(bytes: &[u8], row: &[(u8, u8)]) -> bool {
    bytes.len() >= row.len() && row.iter().zip(bytes).all(|(range, byte)| range.0 <= *byte && *byte <= range.1)
}

/// The code point that a fitting sequence of this length spells.
fn code_of(bytes: &[u8], length: usize) -> u32 {
    let first = bytes[0] as u32;
    let mut code = match length {
        1 => first,
        2 => first & 0x1F,
        3 => first & 0x0F,
        _ => first & 0x07,
    };
    for byte in &bytes[1..length] {
        code = code * 64 + (*byte as u32 & 0x3F);
    }
    code
}

/// The character that begins these bytes, if a well-formed sequence does.
pub fn character(bytes: &[u8]) -> Option<Character> {
    let row = SEQUENCES.iter().find(|row| fits(bytes, row))?;
    Some(Character { code: code_of(bytes, row.len()), length: row.len() })
}

/// Whether all of these bytes are UTF-8 by RFC 3629.
pub fn is_utf8(bytes: &[u8]) -> bool {
    let mut place = 0;
    while place < bytes.len() {
        let Some(found) = character(&bytes[place..]) else { return false };
        place += found.length;
    }
    true
}

/// The bytes of UTF-8 that spell a code point.
pub fn spelled(code: u32) -> Vec<u8> {
    let tail = |shift: u32| (0x80 | ((code >> shift) & 0x3F)) as u8;
    if code < 0x80 {
        vec![code as u8]
    } else if code < 0x800 {
        vec![(0xC0 | (code >> 6)) as u8, tail(0)]
    } else if code < 0x1_0000 {
        vec![(0xE0 | (code >> 12)) as u8, tail(6), tail(0)]
    } else {
        vec![(0xF0 | (code >> 18)) as u8, tail(12), tail(6), tail(0)]
    }
}

/// W3C's `Char` of XML 1.0.
pub fn is_xml_character(code: u32) -> bool {
    matches!(code, 0x9 | 0xA | 0xD | 0x20..=0xD7FF | 0xE000..=0xFFFD | 0x1_0000..=0x10_FFFF)
}

pub fn is_blank(byte: u8) -> bool {
    byte == b' ' || byte == b'\t' || byte == b'\n'
}

/// Stage 1: the bytes before the first zero byte.
pub fn content(text: &[u8]) -> Result<&[u8], Refusal> {
    let searched = text.len().min(LAST_END + 1);
    match text[..searched].iter().position(|byte| *byte == 0) {
        Some(end) => Ok(&text[..end]),
        None => Err(refusal(1, searched)),
    }
}

/// Whether a character may stand at this place of the content.
fn is_allowed(code: u32, place: usize) -> bool {
    let mark_at_start = code == 0xFEFF && place == 0;
    is_xml_character(code) && code != 0xD && !mark_at_start
}

/// Stage 2: every character of the content is allowed.
pub fn characters(content: &[u8]) -> Result<(), Refusal> {
    let mut place = 0;
    while place < content.len() {
        match character(&content[place..]) {
            Some(found) if is_allowed(found.code, place) => place += found.length,
            _ => return Err(refusal(2, place)),
        }
    }
    Ok(())
}

/// Stage 3: the first line.
pub fn first_line(content: &[u8]) -> Result<(), Refusal> {
    if content.len() < FIRST_LINE.len() || &content[..FIRST_LINE.len()] != FIRST_LINE {
        return Err(refusal(3, 0));
    }
    Ok(())
}
