//! Cutting the content into pieces, left to right.

use super::text::FIRST_LINE;

pub enum Piece<'a> {
    Start {
        name: &'a [u8],
        short: bool,
        /// An attribute's value has `&`.
        refers: bool,
    },
    End {
        name: &'a [u8],
    },
    /// A comment or an instruction.
    Remark,
    Reference,
    /// With the place of its first byte that isn't blank.
    Run {
        solid: Option<usize>,
    },
    Malformed,
    Unsupported,
}

#[derive(Clone, Copy)]
pub struct Attribute<'a> {
    pub name: &'a [u8],
    pub value: &'a [u8],
}

/// Cuts on from `at`; the attributes are those of the last start tag.
pub struct Cutter<'a> {
    pub content: &'a [u8],
    pub at: usize,
    pub attributes: Vec<Attribute<'a>>,
    /// Room for sorting names.
    names: Vec<&'a [u8]>,
}

const BLANK: u8 = 1;
const NAME_START: u8 = 2;
const NAME: u8 = 4;
/// What a run of text may hold and needn't be looked at.
const PLAIN: u8 = 8;

/// The classes of each byte.
static CLASSES: [u8; 256] = {
    let mut classes = [0; 256];
    let mut byte = 0;
    while byte < 256 {
        let b = byte as u8;
        let start = b.is_ascii_alphabetic() || b == b'_' || b == b':';
        let name = start || b.is_ascii_digit() || b == b'-' || b == b'.';
        let blank = b == b' ' || b == b'\t' || b == b'\n';
        let plain = b != b'<' && b != b'&' && b != b'>';
        classes[byte] = blank as u8 * BLANK + start as u8 * NAME_START + name as u8 * NAME + plain as u8 * PLAIN;
        byte += 1;
    }
    classes
};

fn is(byte: u8, class: u8) -> bool {
    CLASSES[byte as usize] & class != 0
}

/// Up to so many names are compared one with another; more are sorted.
const FEW: usize = 8;

impl<'a> Cutter<'a> {
    pub fn new(content: &'a [u8]) -> Self {
        Cutter { content, at: FIRST_LINE.len(), attributes: Vec::with_capacity(FEW), names: Vec::new() }
    }

    /// The next piece and its place, or none at the end of the content.
    pub fn next(&mut self) -> Option<(usize, Piece<'a>)> {
        let place = self.at;
        let first = *self.content.get(place)?;
        let piece = match first {
            b'<' => self.markup(),
            b'&' => self.reference(),
            _ => self.run(),
        };
        Some((place, piece.unwrap_or(Piece::Malformed)))
    }

    /// Where a part of the content begins.
    pub fn place_of(&self, part: &[u8]) -> usize {
        part.as_ptr() as usize - self.content.as_ptr() as usize
    }

    /// The next byte, or 0 at the end: the content has no zero.
    fn peek(&self) -> u8 {
        self.content.get(self.at).copied().unwrap_or(0)
    }

    fn sees(&self, word: &[u8]) -> bool {
        self.content[self.at..].starts_with(word)
    }

    /// Passes this byte, or there is no piece.
    fn pass(&mut self, byte: u8) -> Option<()> {
        let seen = self.peek() == byte;
        self.at += seen as usize;
        seen.then_some(())
    }

    /// Passes bytes of a class.
    fn span(&mut self, class: u8) -> &'a [u8] {
        let rest = &self.content[self.at..];
        let length = rest.iter().position(|&byte| !is(byte, class)).unwrap_or(rest.len());
        self.at += length;
        &rest[..length]
    }

    fn name(&mut self) -> Option<&'a [u8]> {
        is(self.peek(), NAME_START).then(|| self.span(NAME))
    }

    /// The piece that begins with `<`.
    fn markup(&mut self) -> Option<Piece<'a>> {
        self.at += 1;
        match self.peek() {
            b'/' => self.end_tag(),
            b'!' if self.sees(b"!--") => self.comment(),
            b'!' if self.sees(b"!DOCTYPE") || self.sees(b"![CDATA[") => Some(Piece::Unsupported),
            b'?' => self.instruction(),
            _ => self.start_tag(),
        }
    }

    fn end_tag(&mut self) -> Option<Piece<'a>> {
        self.at += 1;
        let name = self.name()?;
        self.span(BLANK);
        self.pass(b'>')?;
        Some(Piece::End { name })
    }

    /// Passes everything up to these two bytes and the bytes too.
    fn find(&mut self, word: &[u8; 2]) -> Option<()> {
        let distance = self.content[self.at..].windows(2).position(|two| two == word)?;
        self.at += distance + 2;
        Some(())
    }

    fn comment(&mut self) -> Option<Piece<'a>> {
        self.at += 3;
        self.find(b"--")?;
        self.pass(b'>')?;
        Some(Piece::Remark)
    }

    fn instruction(&mut self) -> Option<Piece<'a>> {
        self.at += 1;
        let target = self.name()?;
        if target.eq_ignore_ascii_case(b"xml") || !(self.sees(b"?>") || is(self.peek(), BLANK)) {
            return None;
        }
        self.find(b"?>")?;
        Some(Piece::Remark)
    }

    fn start_tag(&mut self) -> Option<Piece<'a>> {
        let name = self.name()?;
        self.attributes.clear();
        let mut refers = false;
        let short = loop {
            let blanks = self.span(BLANK);
            match self.peek() {
                b'>' => break false,
                b'/' => {
                    self.at += 1;
                    break true;
                }
                _ if blanks.is_empty() => return None,
                _ => {}
            }
            let attribute = self.attribute()?;
            refers |= attribute.value.contains(&b'&');
            self.attributes.push(attribute);
        };
        self.pass(b'>')?;
        if self.is_name_twice() {
            return None;
        }
        Some(Piece::Start { name, short, refers })
    }

    fn attribute(&mut self) -> Option<Attribute<'a>> {
        let name = self.name()?;
        self.span(BLANK);
        self.pass(b'=')?;
        self.span(BLANK);
        let quote = self.peek();
        if quote != b'"' && quote != b'\'' {
            return None;
        }
        self.at += 1;
        let rest = &self.content[self.at..];
        let length = rest.iter().position(|&byte| byte == quote || byte == b'<')?;
        self.at += length;
        self.pass(quote)?;
        Some(Attribute { name, value: &rest[..length] })
    }

    fn is_name_twice(&mut self) -> bool {
        let given = &self.attributes;
        if given.len() <= FEW {
            return (1..given.len()).any(|i| given[..i].iter().any(|earlier| earlier.name == given[i].name));
        }
        self.names.clear();
        self.names.extend(given.iter().map(|attribute| attribute.name));
        self.names.sort_unstable();
        self.names.windows(2).any(|two| two[0] == two[1])
    }

    fn reference(&mut self) -> Option<Piece<'a>> {
        self.at += 1;
        for word in [&b"lt;"[..], b"gt;", b"amp;", b"quot;", b"apos;"] {
            if self.sees(word) {
                self.at += word.len();
                return Some(Piece::Reference);
            }
        }
        self.pass(b'#')?;
        let base = if self.peek() == b'x' { 16 } else { 10 };
        self.at += (base == 16) as usize;
        let code = self.code(base)?;
        self.pass(b';')?;
        is_character(code).then_some(Piece::Reference)
    }

    /// The number of one or more digits, or some number beyond all characters.
    fn code(&mut self, base: u32) -> Option<u32> {
        let mut code = (self.peek() as char).to_digit(base)?;
        self.at += 1;
        while let Some(digit) = (self.peek() as char).to_digit(base) {
            code = (code * base + digit).min(0x11_0000);
            self.at += 1;
        }
        Some(code)
    }

    /// A run of text; `]]>` may not stand in it.
    fn run(&mut self) -> Option<Piece<'a>> {
        let from = self.at;
        let blanks = self.span(BLANK).len();
        loop {
            self.span(PLAIN);
            if self.peek() != b'>' {
                break;
            }
            if self.content[from..self.at].ends_with(b"]]") {
                return None;
            }
            self.at += 1;
        }
        let solid = from + blanks;
        Some(Piece::Run { solid: (solid < self.at).then_some(solid) })
    }
}

/// W3C's `Char`.
fn is_character(code: u32) -> bool {
    matches!(code, 0x9 | 0xA | 0xD | 0x20..=0xD7FF | 0xE000..=0xFFFD | 0x1_0000..=0x10_FFFF)
}
