//! Stages 1 to 3: the end of the content, its characters, its first line.

use super::{refused, Refusal};
use std::ffi::CStr;

/// One more than the last place where the zero may stand.
const LIMIT: usize = 65_536;

pub const FIRST_LINE: &[u8] = b"<?xml version=\"1.0\"?>\n";

/// Stage 1: the bytes before the first zero.
pub fn content(text: &[u8]) -> Result<&[u8], Refusal> {
    let searched = &text[..text.len().min(LIMIT)];
    match CStr::from_bytes_until_nul(searched) {
        Ok(content) => Ok(content.to_bytes()),
        Err(_) => refused(1, searched.len()),
    }
}

/// A control character, or the first byte of the characters from U+F000 on.
fn is_suspect(byte: u8) -> bool {
    (byte < b' ' && byte != b'\t' && byte != b'\n') || byte == 0xEF
}

/// Whether a character that isn't allowed, or a byte-order mark at the start, stands at a suspect byte.
fn is_bad(content: &[u8], place: usize) -> bool {
    match content[place..] {
        [0xEF, 0xBF, 0xBE | 0xBF, ..] => true,
        [0xEF, 0xBB, 0xBF, ..] => place == 0,
        [0xEF, ..] => false,
        _ => true,
    }
}

/// The place of the first character that isn't allowed, in well-formed UTF-8.
fn bad_character(content: &[u8]) -> Option<usize> {
    let blocks = content.chunks(64).enumerate();
    let suspects = blocks.filter(|(_, block)| block.iter().fold(false, |found, &byte| found | is_suspect(byte)));
    suspects
        .flat_map(|(index, block)| 64 * index..64 * index + block.len())
        .find(|&place| is_suspect(content[place]) && is_bad(content, place))
}

/// Stage 2: well-formed UTF-8 of characters that are allowed.
pub fn characters(content: &[u8]) -> Result<(), Refusal> {
    let formed = std::str::from_utf8(content).map_or_else(|error| error.valid_up_to(), str::len);
    if let Some(place) = bad_character(&content[..formed]) {
        return refused(2, place);
    }
    if formed < content.len() {
        return refused(2, formed);
    }
    Ok(())
}

/// Stage 3: the first line.
pub fn first_line(content: &[u8]) -> Result<(), Refusal> {
    if content.starts_with(FIRST_LINE) {
        Ok(())
    } else {
        refused(3, 0)
    }
}
