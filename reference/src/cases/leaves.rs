//! Cases for single readings: good parts of each kind, and the same with a byte or a token changed.

use crate::answer::Case;
use crate::leaves::{Leaf, ATTRIBUTES, ELEMENTS};
use crate::random::Random;
use crate::text::LAST_END;

use super::damage::{TOKENS, VALUES};
use super::spellings::{dressed, misspelled};

const BLANKS: [&str; 6] = ["", " ", "\t", "\n", "  ", " \n\t"];

fn blanks(random: &mut Random) -> &'static str {
    random.pick(&BLANKS)
}

fn name(random: &mut Random) -> String {
    if random.chance(40) {
        return random.pick(&ELEMENTS).to_string();
    }
    if random.chance(30) {
        return random.pick(&ATTRIBUTES).to_string();
    }
    let mut name = random.pick(&["a", "Z", "_", ":", "x", "xml", "m"]).to_string();
    for _ in 0..random.below(6) {
        name.push_str(random.pick(&["a", "Z", "0", "9", "-", ".", "_", ":", "xmL"]));
    }
    name
}

fn attribute(random: &mut Random) -> String {
    let quote = random.pick(&["\"", "'"]);
    let value: String = (0..random.below(5))
        .map(|_| random.pick(&["a", ">", "/>", " ", "=", "\"", "'", "&amp;", "é", "1", "]]>", "\n"]))
        .filter(|part| *part != quote)
        .collect();
    format!("{}{}={}{quote}{value}{quote}", name(random), blanks(random), blanks(random))
}

fn start_tag(random: &mut Random) -> String {
    let mut tag = format!("<{}", name(random));
    for _ in 0..random.below(5) {
        let apart = if random.chance(95) { random.pick(&[" ", "\t", "\n", "  "]) } else { "" };
        tag = tag + apart + &attribute(random);
    }
    tag + blanks(random) + random.pick(&[">", "/>", "/>", ">", "/ >", ""])
}

fn end_tag(random: &mut Random) -> String {
    format!("</{}{}{}", name(random), blanks(random), random.pick(&[">", ">", ">", "/>", ""]))
}

fn comment(random: &mut Random) -> String {
    let inside: String =
        (0..random.below(6)).map(|_| random.pick(&["a", "-", ">", "->", " ", "é", "<", "&", "--"])).collect();
    format!("<!--{inside}{}", random.pick(&["-->", "-->", "-->", "--->", "--", "->"]))
}

fn instruction(random: &mut Random) -> String {
    let inside: String =
        (0..random.below(5)).map(|_| random.pick(&["a", "?", ">", " ", "é", "<", "&", "? >"])).collect();
    let target = if random.chance(25) {
        random.pick(&["xml", "XML", "xMl", "Xml-a", "xmlx", "xm"]).to_string()
    } else {
        name(random)
    };
    format!("<?{target}{}{inside}{}", random.pick(&["", " ", "\n", "\t "]), random.pick(&["?>", "?>", "?>", "?", ">"]))
}

fn reference(random: &mut Random) -> String {
    let zeros = "0".repeat(random.pick(&[0, 0, 0, 1, 7, 30]));
    let code = match random.below(6) {
        0 => random.below(0x30) as u64,
        1 => random.pick(&[0xD7FF, 0xD800, 0xDFFF, 0xE000, 0xFFFD, 0xFFFE, 0xFFFF, 0x1_0000, 0x10_FFFF, 0x11_0000]),
        2 => random.draw(),
        3 => (1 << 32) + random.below(0x80) as u64,
        _ => random.below(0x11_0000) as u64,
    };
    match random.below(8) {
        0 | 1 => random.pick(&["&lt;", "&gt;", "&amp;", "&quot;", "&apos;", "&Lt;", "&apo;", "&lt"]).to_string(),
        2 | 3 => format!("&#{zeros}{code}{}", random.pick(&[";", ";", ";", "", " ;"])),
        4 => format!("&#x{zeros}{code:X}{}", random.pick(&[";", ";", ";", "", "g;"])),
        5 => format!("&#x{zeros}{code:x};"),
        6 => format!("&#x{zeros}{code:x}{:x};", random.draw()),
        _ => random.pick(&["&#;", "&#x;", "&#X41;", "&#-1;", "&#+1;", "&# 1;", "&;", "&#1"]).to_string(),
    }
}

fn run(random: &mut Random) -> String {
    (0..1 + random.below(8))
        .map(|_| random.pick(&["a", " ", "\n", "]", "]]", ">", "]]>", "é", "\u{10000}", "-"]))
        .collect()
}

fn declaration(random: &mut Random) -> String {
    let beginnings = ["<!DOCTYPE", "<![CDATA[", "<!DOCTYP", "<![CDATA", "<!doctype", "<!-", "<!ELEMENT"];
    format!("{}{}", random.pick(&beginnings), random.pick(&["", ">", " x>", "]]>"]))
}

fn part(random: &mut Random) -> String {
    match random.below(10) {
        0 | 1 => start_tag(random),
        2 => end_tag(random),
        3 => comment(random),
        4 => instruction(random),
        5 | 6 => reference(random),
        7 => run(random),
        8 => declaration(random),
        _ => random.pick(&TOKENS).to_string(),
    }
}

/// Changes a byte, or puts a token somewhere.
fn damage(random: &mut Random, bytes: &mut Vec<u8>) {
    let place = random.below(bytes.len() + 1);
    if place == bytes.len() || random.chance(40) {
        let token = random.pick(&TOKENS).as_bytes();
        bytes.splice(place..place, token.iter().copied());
    } else if random.chance(30) {
        bytes.remove(place);
    } else {
        bytes[place] = random.pick(b"<>&;=\"'/?!-]# \nax0");
    }
}

fn piece(random: &mut Random) -> Leaf {
    let before = part(random).into_bytes();
    let mut behind = part(random).into_bytes();
    if random.chance(30) {
        damage(random, &mut behind);
    }
    if random.chance(60) {
        behind.extend(part(random).into_bytes());
    }
    if behind.is_empty() {
        behind.push(b'<');
    }
    let place = before.len();
    Leaf::Piece { content: [before, behind].concat(), place }
}

/// Bytes beside the digits, the signs and the blanks, and other white space.
#[rustfmt::skip]
const NEAR: [&[u8]; 18] = [
    b"/", b":", b"*", b",", b".", b"!", b"\x08", b"\x0B", b"\x0C", b"\r", b"\x1F", b"\0", b"\xA0", b"\x85",
    b"\xC2\xA0", b"\xE2\x80\x83", b"\xEF\xBB\xBF", b"\xEF\xBC\x8B",
];

/// Digits or none, perhaps behind a minus or zeros.
fn bare_number(random: &mut Random) -> String {
    let mut text = random.pick(&["", "-", "-", "00"]).to_string();
    for _ in 0..random.pick(&[0, 1, 1, 2, 3, 18, 19, 20, 21, 40]) {
        text.push((b'0' + random.below(10) as u8) as char);
    }
    text
}

/// A number in as many blanks as a text may have, or in fewer.
fn far_apart(random: &mut Random) -> Vec<u8> {
    let blanks = |random: &mut Random| random.pick(&[" ", "\n", "\t"]).repeat(random.below(LAST_END / 2));
    let number = random.pick(&["7", "+7", "-7", "7 7", "+ 7", "+", ""]);
    format!("{}{number}{}", blanks(random), blanks(random)).into_bytes()
}

fn number(random: &mut Random, turn: u64) -> Leaf {
    if turn.is_multiple_of(200) {
        return Leaf::Number(far_apart(random));
    }
    if random.chance(25) {
        return Leaf::Number(random.pick(&VALUES).as_bytes().to_vec());
    }
    let bare = bare_number(random);
    let text = match random.below(10) {
        0..=2 => bare,
        3..=7 => dressed(random, &bare),
        _ => misspelled(random, &bare),
    };
    let mut bytes = text.into_bytes();
    match random.below(20) {
        0..=2 => damage(random, &mut bytes),
        3 | 4 => {
            let place = random.below(bytes.len() + 1);
            bytes.splice(place..place, random.pick(&NEAR).iter().copied());
        }
        _ => {}
    }
    Leaf::Number(bytes)
}

/// The bytes of one character, or of something near one.
fn sequence(random: &mut Random) -> Vec<u8> {
    let codes = [0x7F, 0x80, 0x7FF, 0x800, 0xD7FF, 0xE000, 0xFEFF, 0xFFFD, 0xFFFE, 0xFFFF, 0x1_0000, 0x10_FFFF];
    let code = if random.chance(50) { random.pick(&codes) } else { random.below(0x3000) as u32 };
    let mut bytes = char::from_u32(code).unwrap_or('a').to_string().into_bytes();
    match random.below(12) {
        0 => bytes = random.pick(&[vec![0xED, 0xA0, 0x80], vec![0xED, 0xBF, 0xBF], vec![0xC0, 0x80], vec![0xC1, 0xBF]]),
        1 => bytes = random.pick(&[vec![0xE0, 0x9F, 0xBF], vec![0xF0, 0x8F, 0xBF, 0xBF], vec![0xF4, 0x90, 0x80, 0x80]]),
        2 => bytes.truncate(bytes.len() - 1),
        3 => bytes.push(random.byte()),
        4 => bytes[0] = random.byte(),
        _ => {}
    }
    bytes
}

fn characters(random: &mut Random) -> Leaf {
    let mut bytes = if random.chance(8) { vec![0xEF, 0xBB, 0xBF] } else { Vec::new() };
    for _ in 0..random.below(12) {
        if random.chance(60) {
            bytes.push(random.pick(b"abc <\t\n\x20\x7e"));
        } else {
            bytes.extend(sequence(random));
        }
    }
    Leaf::Characters(bytes)
}

/// The places of the first fault that every stream of such cases goes through.
pub const FAULT_PLACES: u64 = 41;

/// Bytes that begin no allowed character.
const FAULTS: [&[u8]; 12] = [
    b"\r",
    b"\x00",
    b"\x1f",
    b"\x80",
    b"\xbf",
    b"\xc3",
    b"\xff",
    b"\xc1\xbf",
    b"\xe0\x9f\xbf",
    b"\xed\xa0\x80",
    b"\xef\xbf\xbe",
    b"\xf4\x90\x80\x80",
];

/// A run of one-byte characters, a fault, and some more: the fault's place goes up by one with each turn, and the kind of fault with each round.
fn faulty_run(random: &mut Random, turn: u64) -> Leaf {
    let place = turn % FAULT_PLACES;
    let fault = FAULTS[(turn / FAULT_PLACES) as usize % FAULTS.len()];
    let mut bytes: Vec<u8> = (0..place).map(|_| random.pick(b"abz <&\t\n\x20\x7e\x7f")).collect();
    bytes.extend(fault);
    bytes.extend((0..random.below(20)).map(|_| random.pick(b"abc <\n\x80\xc3\xa4")));
    Leaf::Characters(bytes)
}

/// A long run with a character of several bytes somewhere, and at times a fault at its end.
fn long_run(random: &mut Random) -> Leaf {
    let mut bytes: Vec<u8> = (0..random.below(90)).map(|_| random.pick(b"abz <\t\n\x7f")).collect();
    bytes.extend(random.pick(&["ä", "€", "\u{10348}", ""]).bytes());
    bytes.extend((0..random.below(30)).map(|_| random.pick(b"abz <\t\n\x7f")));
    if random.chance(40) {
        bytes.extend(FAULTS[random.below(FAULTS.len())]);
    }
    Leaf::Characters(bytes)
}

fn ending(random: &mut Random, index: u64) -> Leaf {
    let edge = [LAST_END - 1, LAST_END, LAST_END + 1, LAST_END + 2];
    let length = if index % 50 == 0 { random.pick(&edge) } else { random.below(40) };
    let mut bytes: Vec<u8> = (0..length).map(|_| 1 + random.byte() % 255).collect();
    if random.chance(70) {
        bytes.push(0);
        bytes.extend((0..random.below(4)).map(|_| random.byte()));
    }
    Leaf::Ending(bytes)
}

fn formatting(random: &mut Random) -> Leaf {
    let parts = ["%", "%", "f", ".", "0", "5", "12", "", "%5.2f", "%f", "%.f", "%3f", "%.2f", "e", "F"];
    let text: String = (0..1 + random.below(3)).map(|_| random.pick(&parts)).collect();
    Leaf::Formatting(text.into_bytes())
}

fn some_name(random: &mut Random) -> Leaf {
    let mut bytes = name(random).into_bytes();
    if random.chance(25) {
        damage(random, &mut bytes);
    }
    Leaf::Name(bytes)
}

/// Case number `index`: half of them are pieces.
pub fn case(random: &mut Random, index: u64) -> Case {
    Case::Leaf(match index % 10 {
        0 => number(random, index / 10),
        1 => match index / 10 % 4 {
            0 => faulty_run(random, index / 40),
            1 => long_run(random),
            _ => characters(random),
        },
        2 => ending(random, index / 10),
        3 => formatting(random),
        4 => some_name(random),
        _ => piece(random),
    })
}
