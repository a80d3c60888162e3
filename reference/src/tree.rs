//! The tree of elements: stages 4 to 7.
//! All faults of these stages are collected over the pieces; a content without any becomes a tree in memory.

use crate::pieces::{cut, Attribute, Kind, Piece};
use crate::refusal::{least, refusal, Refusal};
use crate::text::is_blank;

/// The greatest depth of an element; the root is at 1.
pub const DEPTH: usize = 24;
/// The greatest number of elements.
pub const ELEMENTS: usize = 4_096;

#[derive(Debug, Clone, PartialEq, Eq)]
pub struct Element {
    pub place: usize,
    pub name: Vec<u8>,
    pub attributes: Vec<Attribute>,
    pub children: Vec<Child>,
}

#[derive(Debug, Clone, PartialEq, Eq)]
pub enum Child {
    Element(Element),
    Run { place: usize, bytes: Vec<u8> },
    Reference { place: usize, code: u32 },
    Comment,
    Instruction,
}

/// What is open while the pieces are gone through, and the faults found so far.
#[derive(Default)]
struct Structure {
    open: Vec<Vec<u8>>,
    elements: usize,
    root_seen: bool,
    faults: Vec<Refusal>,
}

impl Structure {
    fn fault(&mut self, number: u8, place: usize) {
        self.faults.push(refusal(number, place));
    }

    fn start(&mut self, place: usize, name: &[u8], closed: bool) {
        if self.open.is_empty() && self.root_seen {
            self.fault(6, place);
        }
        self.root_seen = true;
        self.elements += 1;
        if self.open.len() + 1 > DEPTH || self.elements > ELEMENTS {
            self.fault(7, place);
        }
        if !closed {
            self.open.push(name.to_vec());
        }
    }

    fn end(&mut self, place: usize, name: &[u8]) {
        match self.open.pop() {
            Some(innermost) if innermost == name => {}
            _ => self.fault(6, place),
        }
    }

    fn run(&mut self, place: usize, bytes: &[u8]) {
        let stray = bytes.iter().position(|byte| !is_blank(*byte));
        if let (true, Some(distance)) = (self.open.is_empty(), stray) {
            self.fault(6, place + distance);
        }
    }

    fn piece(&mut self, piece: &Piece) {
        match &piece.kind {
            Kind::StartTag { name, closed, .. } => self.start(piece.place, name, *closed),
            Kind::EndTag { name } => self.end(piece.place, name),
            Kind::Run { bytes } => self.run(piece.place, bytes),
            Kind::Reference { .. } if self.open.is_empty() => self.fault(6, piece.place),
            Kind::Reference { .. } | Kind::Comment | Kind::Instruction => {}
        }
    }

    fn finish(&mut self, end_of_content: usize) {
        if !self.open.is_empty() || !self.root_seen {
            self.fault(6, end_of_content);
        }
    }
}

/// Reads one element whose start tag is the piece at `next`, and moves `next` behind its end tag.
fn element(pieces: &[Piece], next: &mut usize) -> Element {
    let piece = &pieces[*next];
    let Kind::StartTag { name, attributes, closed } = &piece.kind else {
        unreachable!("an element begins with its start tag");
    };
    *next += 1;
    let children = if *closed { Vec::new() } else { children(pieces, next) };
    Element { place: piece.place, name: name.clone(), attributes: attributes.clone(), children }
}

/// Reads the content of an element up to and with its end tag.
fn children(pieces: &[Piece], next: &mut usize) -> Vec<Child> {
    let mut children = Vec::new();
    loop {
        let piece = &pieces[*next];
        match &piece.kind {
            Kind::StartTag { .. } => {
                children.push(Child::Element(element(pieces, next)));
                continue;
            }
            Kind::EndTag { .. } => {
                *next += 1;
                return children;
            }
            Kind::Run { bytes } => children.push(Child::Run { place: piece.place, bytes: bytes.clone() }),
            Kind::Reference { code } => children.push(Child::Reference { place: piece.place, code: *code }),
            Kind::Comment => children.push(Child::Comment),
            Kind::Instruction => children.push(Child::Instruction),
        }
        *next += 1;
    }
}

/// Stages 4 to 7: the root element, or the least fault.
pub fn root(content: &[u8]) -> Result<Element, Refusal> {
    let (pieces, last) = cut(content);
    root_of(content, &pieces, last)
}

/// The same of a content that is cut: its pieces, and the fault that ended the cutting early.
pub fn root_of(content: &[u8], pieces: &[Piece], last: Option<Refusal>) -> Result<Element, Refusal> {
    let mut structure = Structure::default();
    for piece in pieces {
        structure.piece(piece);
    }
    structure.faults.extend(last);
    structure.finish(content.len());
    if let Some(fault) = least(&structure.faults) {
        return Err(fault);
    }
    let mut next = pieces.iter().position(|piece| matches!(piece.kind, Kind::StartTag { .. })).unwrap_or(0);
    Ok(element(pieces, &mut next))
}
