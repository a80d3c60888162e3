//! Cutting content into pieces, left to right: tags, comments, instructions, references and runs of text.
//! A piece that is malformed or unsupported ends the cutting, as nothing tells where the next one begins.

use std::collections::BTreeSet;

use crate::refusal::{refusal, Refusal};
use crate::text::{is_blank, is_xml_character, FIRST_LINE};

/// An attribute, and the places where its name and its value begin.
#[derive(Debug, Clone, PartialEq, Eq)]
pub struct Attribute {
    pub name: Vec<u8>,
    pub value: Vec<u8>,
    pub name_place: usize,
    pub value_place: usize,
}

#[derive(Debug, Clone, PartialEq, Eq)]
pub enum Kind {
    StartTag { name: Vec<u8>, attributes: Vec<Attribute>, closed: bool },
    EndTag { name: Vec<u8> },
    Comment,
    Instruction,
    Reference { code: u32 },
    Run { bytes: Vec<u8> },
}

/// A piece and where it stands: from `place` up to and without `end`.
#[derive(Debug, Clone, PartialEq, Eq)]
pub struct Piece {
    pub place: usize,
    pub end: usize,
    pub kind: Kind,
}

/// Why a piece could not be read.
#[derive(Debug, Clone, Copy, PartialEq, Eq)]
pub enum Off {
    Malformed,
    Unsupported,
}

type Cut<T> = Result<T, Off>;

/// Reads on in the content from a place.
struct Reader<'a> {
    content: &'a [u8],
    at: usize,
}

impl Reader<'_> {
    fn next(&self) -> Option<u8> {
        self.content.get(self.at).copied()
    }

    /// Whether these bytes come next.
    fn sees(&self, bytes: &[u8]) -> bool {
        self.content[self.at..].starts_with(bytes)
    }

    /// Passes these bytes if they come next.
    fn takes(&mut self, bytes: &[u8]) -> bool {
        let seen = self.sees(bytes);
        if seen {
            self.at += bytes.len();
        }
        seen
    }

    fn must(&mut self, bytes: &[u8]) -> Cut<()> {
        if self.takes(bytes) {
            Ok(())
        } else {
            Err(Off::Malformed)
        }
    }

    /// Passes bytes as long as they are of this sort and gives them back.
    fn while_in(&mut self, sort: impl Fn(u8) -> bool) -> Vec<u8> {
        let start = self.at;
        while self.next().is_some_and(&sort) {
            self.at += 1;
        }
        self.content[start..self.at].to_vec()
    }

    fn blanks(&mut self) -> usize {
        self.while_in(is_blank).len()
    }

    fn name(&mut self) -> Cut<Vec<u8>> {
        if self.next().is_some_and(begins_name) {
            Ok(self.while_in(continues_name))
        } else {
            Err(Off::Malformed)
        }
    }

    /// The place of the next such bytes.
    fn find(&self, bytes: &[u8]) -> Cut<usize> {
        let rest = &self.content[self.at..];
        let found = rest.windows(bytes.len()).position(|part| part == bytes);
        found.map(|distance| self.at + distance).ok_or(Off::Malformed)
    }
}

fn begins_name(byte: u8) -> bool {
    byte.is_ascii_alphabetic() || byte == b'_' || byte == b':'
}

fn continues_name(byte: u8) -> bool {
    begins_name(byte) || byte.is_ascii_digit() || byte == b'-' || byte == b'.'
}

fn comment(reader: &mut Reader) -> Cut<Kind> {
    reader.must(b"<!--")?;
    reader.at = reader.find(b"--")?;
    reader.must(b"-->")?;
    Ok(Kind::Comment)
}

fn instruction(reader: &mut Reader) -> Cut<Kind> {
    reader.must(b"<?")?;
    let target = reader.name()?;
    if target.eq_ignore_ascii_case(b"xml") {
        return Err(Off::Malformed);
    }
    if reader.takes(b"?>") {
        return Ok(Kind::Instruction);
    }
    if !reader.next().is_some_and(is_blank) {
        return Err(Off::Malformed);
    }
    reader.at += 1;
    reader.at = reader.find(b"?>")?;
    reader.must(b"?>")?;
    Ok(Kind::Instruction)
}

fn end_tag(reader: &mut Reader) -> Cut<Kind> {
    reader.must(b"</")?;
    let name = reader.name()?;
    reader.blanks();
    reader.must(b">")?;
    Ok(Kind::EndTag { name })
}

fn attribute(reader: &mut Reader) -> Cut<Attribute> {
    let name_place = reader.at;
    let name = reader.name()?;
    reader.blanks();
    reader.must(b"=")?;
    reader.blanks();
    let quote = match reader.next() {
        Some(byte) if byte == b'"' || byte == b'\'' => byte,
        _ => return Err(Off::Malformed),
    };
    reader.at += 1;
    let value_place = reader.at;
    let value = reader.while_in(|byte| byte != quote && byte != b'<');
    reader.must(&[quote])?;
    Ok(Attribute { name, value, name_place, value_place })
}

/// A start tag by every rule but one: a name may stand twice.
fn tag(reader: &mut Reader) -> Cut<Kind> {
    reader.must(b"<")?;
    let name = reader.name()?;
    let mut attributes = Vec::new();
    let closed = loop {
        let blanks = reader.blanks();
        if reader.takes(b">") {
            break false;
        }
        if reader.takes(b"/>") {
            break true;
        }
        if blanks == 0 {
            return Err(Off::Malformed);
        }
        attributes.push(attribute(reader)?);
    };
    Ok(Kind::StartTag { name, attributes, closed })
}

/// Whether a name stands twice.
fn is_twice(attributes: &[Attribute]) -> bool {
    let names: BTreeSet<&[u8]> = attributes.iter().map(|attribute| &attribute.name[..]).collect();
    names.len() < attributes.len()
}

fn start_tag(reader: &mut Reader) -> Cut<Kind> {
    let kind = tag(reader)?;
    match &kind {
        Kind::StartTag { attributes, .. } if is_twice(attributes) => Err(Off::Malformed),
        _ => Ok(kind),
    }
}

/// The start tag at a place whose one fault, if it has any, is a name that stands twice.
pub fn tag_at(content: &[u8], place: usize) -> Option<Piece> {
    let mut reader = Reader { content, at: place };
    let kind = tag(&mut reader).ok()?;
    Some(Piece { place, end: reader.at, kind })
}

/// Whether an attribute's value has a `&`.
pub fn refers(attributes: &[Attribute]) -> bool {
    attributes.iter().any(|attribute| attribute.value.contains(&b'&'))
}

/// Only a tag that keeps every other rule is unsupported for its `&`.
fn supported(kind: Kind) -> Cut<Kind> {
    match &kind {
        Kind::StartTag { attributes, .. } if refers(attributes) => Err(Off::Unsupported),
        _ => Ok(kind),
    }
}

/// The number that digits of this base spell, or any number above all characters if it is larger.
fn code_from(digits: &[u8], base: u32) -> u32 {
    let beyond = 0x11_0000;
    digits.iter().fold(0, |code, digit| {
        let value = (*digit as char).to_digit(base).unwrap_or(0);
        (code * base + value).min(beyond)
    })
}

fn numbered_reference(reader: &mut Reader) -> Cut<u32> {
    let (digits, base) = if reader.takes(b"x") {
        (reader.while_in(|byte| byte.is_ascii_hexdigit()), 16)
    } else {
        (reader.while_in(|byte| byte.is_ascii_digit()), 10)
    };
    let code = code_from(&digits, base);
    if digits.is_empty() || !is_xml_character(code) {
        return Err(Off::Malformed);
    }
    reader.must(b";")?;
    Ok(code)
}

const NAMED: [(&[u8], u8); 5] =
    [(b"&lt;", b'<'), (b"&gt;", b'>'), (b"&amp;", b'&'), (b"&quot;", b'"'), (b"&apos;", b'\'')];

fn reference(reader: &mut Reader) -> Cut<Kind> {
    for (spelling, byte) in NAMED {
        if reader.takes(spelling) {
            return Ok(Kind::Reference { code: byte as u32 });
        }
    }
    reader.must(b"&#")?;
    Ok(Kind::Reference { code: numbered_reference(reader)? })
}

fn run(reader: &mut Reader) -> Cut<Kind> {
    let bytes = reader.while_in(|byte| byte != b'<' && byte != b'&');
    if bytes.windows(3).any(|part| part == b"]]>") {
        return Err(Off::Malformed);
    }
    Ok(Kind::Run { bytes })
}

/// Reads the piece that begins here; which sort it is goes by its first bytes.
fn piece(reader: &mut Reader) -> Cut<Kind> {
    if reader.sees(b"<!--") {
        return comment(reader);
    }
    if reader.sees(b"<!DOCTYPE") || reader.sees(b"<![CDATA[") {
        return Err(Off::Unsupported);
    }
    if reader.sees(b"<!") {
        return Err(Off::Malformed);
    }
    if reader.sees(b"<?") {
        return instruction(reader);
    }
    if reader.sees(b"</") {
        return end_tag(reader);
    }
    match reader.next() {
        Some(b'<') => start_tag(reader),
        Some(b'&') => reference(reader),
        _ => run(reader),
    }
}

/// The piece that begins at a place of the content, whether or not its attributes are supported.
pub fn piece_at(content: &[u8], place: usize) -> Result<Piece, Off> {
    let mut reader = Reader { content, at: place };
    let kind = piece(&mut reader)?;
    Ok(Piece { place, end: reader.at, kind })
}

/// All pieces behind the first line, and the fault of the piece that ended the cutting early.
pub fn cut(content: &[u8]) -> (Vec<Piece>, Option<Refusal>) {
    let mut pieces = Vec::new();
    let mut reader = Reader { content, at: FIRST_LINE.len() };
    while reader.at < content.len() {
        let place = reader.at;
        match piece(&mut reader).and_then(supported) {
            Ok(kind) => pieces.push(Piece { place, end: reader.at, kind }),
            Err(Off::Malformed) => return (pieces, Some(refusal(4, place))),
            Err(Off::Unsupported) => return (pieces, Some(refusal(5, place))),
        }
    }
    (pieces, None)
}
