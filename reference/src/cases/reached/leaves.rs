//! Elements of text only that are plain, and those that aren't in exactly one way. Plain is one that stands in turn, has no attributes, holds
//! nothing or one run of text without `>`, is a good number without blanks and plus where one is asked, and whose tags have no blanks.

use super::Read;
use crate::cases::spellings::is_bare;
use crate::number::{number, Number};
use crate::pieces::{Kind, Piece};
use crate::rules::{find_row, Content, Entry, Row, CDI, GREATEST_NUMBER, LEAST_NUMBER};
use crate::text::is_blank;
use crate::tree::DEPTH;

const PLAIN: &str = "plain";
const UNKNOWN: &str = "an unknown name that begins as a known one";
const DEEP: &str = "at depth 25";
const MANY: &str = "element 4,097";

/// The ways that any such element may have.
const WAYS: [&str; 16] = [
    "an attribute",
    "a blank before `>` of its start tag",
    "a blank in its end tag",
    "a comment",
    "an instruction",
    "a reference",
    "a child",
    "`>` in its text",
    "`]]>` in its text",
    "short form",
    "another end tag",
    "an end tag that begins its name",
    "an end tag that its name begins",
    "out of order",
    "too often",
    "text of blanks",
];

/// The names of elements that must be numbers, and the ways in which they may be no plain ones.
const NUMBERS: [&str; 4] = ["min", "max", "default", "property"];
const OF_NUMBERS: [&str; 4] = ["not a number", "out of range", "empty", "with blanks or a plus"];

fn of_number(name: &str, way: &str) -> String {
    format!("{name} {way}")
}

/// All that is counted here.
pub fn labels() -> Vec<String> {
    let numbers = NUMBERS.iter().flat_map(|name| OF_NUMBERS.map(|way| of_number(name, way)));
    let others = [PLAIN].into_iter().chain(WAYS).chain([UNKNOWN, DEEP, MANY]);
    others.map(str::to_string).chain(numbers).map(|way| format!("leaf: {way}")).collect()
}

/// An element that is open: its row, if it is known, and the entries of the children that it had.
struct Open {
    row: Option<&'static Row>,
    had: Vec<usize>,
}

fn entries_of(row: &'static Row) -> &'static [Entry] {
    match row.content {
        Content::Children(entries) => entries,
        Content::Text | Content::Number => &[],
    }
}

fn holds_text_only(row: &Row) -> bool {
    !matches!(row.content, Content::Children(_))
}

/// An element of text only whose start tag is the first of these pieces.
struct Leaf<'a> {
    name: &'a [u8],
    numeric: bool,
    pieces: &'a [Piece],
    ways: Vec<String>,
}

impl Leaf<'_> {
    fn way(&mut self, way: &str) {
        if !self.ways.iter().any(|earlier| earlier == way) {
            self.ways.push(way.to_string());
        }
    }

    /// What its start tag shows; true where that is all of it.
    fn tag(&mut self) -> bool {
        let tag = &self.pieces[0];
        let Kind::StartTag { name, attributes, closed } = &tag.kind else { return true };
        let blank = tag.end - tag.place > name.len() + 2;
        if !attributes.is_empty() {
            self.way("an attribute");
        } else if *closed {
            self.way("short form");
        } else if blank {
            self.way("a blank before `>` of its start tag");
        }
        *closed
    }

    fn end(&mut self, tag: &Piece, name: &[u8]) {
        let own = self.name;
        if name != own {
            let begins = own.starts_with(name);
            let begun = name.starts_with(own);
            self.way(match (begins, begun) {
                (true, _) => "an end tag that begins its name",
                (_, true) => "an end tag that its name begins",
                _ => "another end tag",
            });
        } else if tag.end - tag.place > own.len() + 3 {
            self.way("a blank in its end tag");
        }
    }

    fn number(&mut self, text: &[u8]) {
        let way = match number(text) {
            _ if text.is_empty() => "empty",
            Number::Not => "not a number",
            Number::Value(value) if !(LEAST_NUMBER..=GREATEST_NUMBER).contains(&value) => "out of range",
            Number::Huge => "out of range",
            Number::Value(_) if is_bare(text) => return,
            Number::Value(_) => "with blanks or a plus",
        };
        self.way(&of_number(&String::from_utf8_lossy(self.name), way));
    }

    fn text(&mut self, text: &[u8]) {
        if self.numeric {
            return self.number(text);
        }
        if text.contains(&b'>') {
            self.way("`>` in its text");
        }
        if !text.is_empty() && text.iter().all(|byte| is_blank(*byte)) {
            self.way("text of blanks");
        }
    }

    /// What its content shows, up to a child or the end tag; false where neither comes.
    fn content(&mut self, read: &Read) -> bool {
        for (index, piece) in self.pieces.iter().enumerate().skip(1) {
            match &piece.kind {
                Kind::Comment => self.way("a comment"),
                Kind::Instruction => self.way("an instruction"),
                Kind::Reference { .. } => self.way("a reference"),
                Kind::Run { bytes } if index == 1 => self.run(bytes),
                Kind::Run { .. } => {}
                Kind::StartTag { .. } => {
                    self.way("a child");
                    return true;
                }
                Kind::EndTag { name } => {
                    if index == 1 {
                        self.text(b"");
                    }
                    self.end(piece, name);
                    return true;
                }
            }
        }
        self.cut_off(read)
    }

    /// A run behind the start tag: all of the content, if an end tag follows.
    fn run(&mut self, bytes: &[u8]) {
        if matches!(self.pieces.get(2), Some(Piece { kind: Kind::EndTag { .. }, .. })) {
            self.text(bytes);
        }
    }

    /// Whether the cutting ended in a run of this content, which only `]]>` does.
    fn cut_off(&mut self, read: &Read) -> bool {
        let Some(last) = self.pieces.last() else { return false };
        let in_run = read.fails(4, last.end) && !b"<&".contains(&read.content[last.end]);
        if in_run {
            self.way("`]]>` in its text");
        }
        in_run
    }

    /// Plain, or its one way; none where it has several or isn't whole.
    fn only(mut self, read: &Read) -> Option<String> {
        if !self.tag() && !self.content(read) {
            return None;
        }
        match self.ways.as_slice() {
            [] => Some(PLAIN.to_string()),
            [way] => Some(way.clone()),
            _ => None,
        }
    }
}

/// What goes over the pieces of a content.
struct Walk<'a> {
    read: &'a Read<'a>,
    open: Vec<Open>,
    met: Vec<String>,
}

impl Walk<'_> {
    /// A known child of text only: in order, not too often, and then by itself.
    fn leaf(&mut self, at: usize, entry: usize, row: &'static Row) {
        let place = self.read.pieces[at].place;
        if self.read.fails(7, place) {
            let way = if self.open.len() == DEPTH { DEEP } else { MANY };
            return self.met.push(way.to_string());
        }
        let Some(parent) = self.open.last() else { return };
        let numeric = matches!(row.content, Content::Number);
        let pieces = &self.read.pieces[at..];
        let mut leaf = Leaf { name: row.name.as_bytes(), numeric, pieces, ways: Vec::new() };
        if parent.had.iter().any(|other| *other > entry) {
            leaf.way("out of order");
        }
        if parent.had.contains(&entry) {
            leaf.way("too often");
        }
        self.met.extend(leaf.only(self.read));
    }

    /// An unknown child whose name begins as that of one of text only, and which is plain but for its name.
    fn unknown(&mut self, at: usize, entries: &'static [Entry], name: &[u8]) {
        let rows = entries.iter().flat_map(|entry| entry.rows.iter());
        let begun = rows.into_iter().any(|row| holds_text_only(row) && name.starts_with(row.name.as_bytes()));
        let leaf = Leaf { name, numeric: false, pieces: &self.read.pieces[at..], ways: Vec::new() };
        if begun && leaf.only(self.read).is_some_and(|way| way == PLAIN) {
            self.met.push(UNKNOWN.to_string());
        }
    }

    fn start(&mut self, at: usize, name: &[u8], closed: bool) {
        let known = match self.open.last() {
            None => (name == CDI.name.as_bytes()).then_some((0, &CDI)),
            Some(parent) => parent.row.and_then(|row| find_row(entries_of(row), name)),
        };
        let parent = self.open.last().and_then(|parent| parent.row);
        match (known, parent) {
            (Some((entry, row)), _) if holds_text_only(row) => self.leaf(at, entry, row),
            (None, Some(parent)) => self.unknown(at, entries_of(parent), name),
            _ => {}
        }
        if let (Some((entry, _)), Some(parent)) = (known, self.open.last_mut()) {
            parent.had.push(entry);
        }
        if !closed {
            self.open.push(Open { row: known.map(|found| found.1), had: Vec::new() });
        }
    }
}

/// What a case shows of this.
pub fn met(read: &Read) -> Vec<String> {
    let mut walk = Walk { read, open: Vec::new(), met: Vec::new() };
    for (at, piece) in read.pieces.iter().enumerate().filter(|(_, piece)| read.comes_to(piece.place)) {
        match &piece.kind {
            Kind::StartTag { name, closed, .. } => walk.start(at, name, *closed),
            Kind::EndTag { .. } => drop(walk.open.pop()),
            _ => {}
        }
    }
    walk.met.into_iter().map(|way| format!("leaf: {way}")).collect()
}
