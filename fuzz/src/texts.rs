//! Texts to be planned: samples and generated descriptions, whole or changed by bytes, tokens, attributes and elements, and texts of very many variables.

use reference::cases::damage::{by_byte, by_token, VALUES};
use reference::cases::describe::{Measure, USUAL};
use reference::cases::markup::{plain, root, segment, Node};
use reference::cases::texts::{accepted, aimed, damaged, long, CAUSES};
use reference::random::Random;

/// The samples that are short enough to be read in less than a millisecond or so.
const SAMPLES: [&[u8]; 9] = [
    include_bytes!("../../samples/input-board.xml"),
    include_bytes!("../../samples/signal-controller.xml"),
    include_bytes!("../../samples/worked.xml"),
    include_bytes!("../../samples/refused-attribute.xml"),
    include_bytes!("../../samples/refused-bounds.xml"),
    include_bytes!("../../samples/refused-formatting.xml"),
    include_bytes!("../../samples/refused-records.xml"),
    include_bytes!("../../samples/refused-segment.xml"),
    include_bytes!("../../samples/refused-text.xml"),
];
/// The long one, tried now and then.
const DESK: &[u8] = include_bytes!("../../samples/interlocking-desk.xml");

/// One text in so many is the long sample or near a limit.
const LONG_EVERY: usize = 150;
/// One text in so many has about a million variables.
const CROWDED_EVERY: usize = 400;

/// Descriptions with most children and attributes.
const FULL: Measure = Measure { full: 60, ..USUAL };

fn sample(random: &mut Random) -> Vec<u8> {
    [random.pick(&SAMPLES), b"\0"].concat()
}

/// A sample or a generated text, whole.
fn whole(random: &mut Random) -> Vec<u8> {
    match random.below(5) {
        0 | 1 => sample(random),
        2 => accepted(random, &FULL).0,
        _ => accepted(random, &USUAL).0,
    }
}

/// Where each attribute stands, from its name to the quote that ends it.
fn attributes(text: &[u8]) -> Vec<(usize, usize)> {
    let mut found = Vec::new();
    for equals in 1..text.len().saturating_sub(1) {
        let quote = text[equals + 1];
        if text[equals] != b'=' || (quote != b'"' && quote != b'\'') {
            continue;
        }
        let name = text[..equals].iter().rposition(|byte| b" \t\n<".contains(byte)).map_or(0, |blank| blank + 1);
        if let Some(length) = text[equals + 2..].iter().position(|byte| *byte == quote) {
            found.push((name, equals + 3 + length));
        }
    }
    found
}

/// Where the tag that begins here ends, and whether it has no end tag.
fn tag(text: &[u8], from: usize) -> Option<(usize, bool)> {
    let end = from + text[from..].iter().position(|byte| *byte == b'>')?;
    Some((end + 1, text[end - 1] == b'/'))
}

fn name(text: &[u8]) -> &[u8] {
    let length = text.iter().position(|byte| !byte.is_ascii_alphanumeric()).unwrap_or(text.len());
    &text[..length]
}

/// Where the element that begins here ends; some place behind it where it isn't well-formed.
fn element(text: &[u8], from: usize) -> Option<(usize, usize)> {
    let own = name(&text[from + 1..]);
    let (mut place, is_short) = tag(text, from)?;
    if is_short || own.is_empty() {
        return Some((from, place));
    }
    let mut depth = 1;
    while depth > 0 {
        place += text[place..].iter().position(|byte| *byte == b'<')?;
        let (end, is_short) = tag(text, place)?;
        let is_end = text[place + 1..].starts_with(b"/");
        let other = name(&text[place + 1 + is_end as usize..]);
        if other == own {
            depth = if is_end { depth - 1 } else { depth + !is_short as usize };
        }
        place = end;
    }
    Some((from, place))
}

/// Some element of the text behind its first line.
fn some_element(random: &mut Random, text: &[u8]) -> Option<(usize, usize)> {
    let starts: Vec<usize> = (22..text.len().saturating_sub(1))
        .filter(|place| text[*place] == b'<' && text[*place + 1].is_ascii_alphabetic())
        .collect();
    if starts.is_empty() {
        return None;
    }
    element(text, random.pick(&starts))
}

fn some_attribute(random: &mut Random, text: &[u8]) -> Option<(usize, usize)> {
    let found = attributes(text);
    (!found.is_empty()).then(|| random.pick(&found))
}

/// An attribute or an element of another text in the place of one of this.
fn exchanged(random: &mut Random, text: &mut Vec<u8>, other: &[u8]) {
    let of = |random: &mut Random, text: &[u8], whole: bool| match whole {
        true => some_element(random, text),
        false => some_attribute(random, text),
    };
    let elements = random.chance(50);
    let (Some(own), Some(new)) = (of(random, text, elements), of(random, other, elements)) else { return };
    let own = if random.chance(25) { own.0..own.0 } else { own.0..own.1 };
    text.splice(own, other[new.0..new.1].iter().copied());
}

/// Another value for an attribute.
fn revalued(random: &mut Random, text: &mut Vec<u8>) {
    let Some((from, to)) = some_attribute(random, text) else { return };
    let Some(equals) = text[from..to].iter().position(|byte| *byte == b'=') else { return };
    let value = random.pick(&VALUES);
    text.splice(from + equals + 2..to - 1, value.bytes());
}

/// One change of any kind.
fn change(random: &mut Random, text: &mut Vec<u8>, other: &[u8]) {
    let place = random.below(text.len() + 1);
    let far = (place + 1 + random.below(60)).min(text.len());
    match random.below(13) {
        0..=2 => by_byte(random, text, 1),
        3 | 4 => *text = by_token(random, text, 1),
        5 | 6 => exchanged(random, text, other),
        7 | 8 => revalued(random, text),
        9 => {
            // doubled
            let run = text[place..far].to_vec();
            text.splice(place..place, run);
        }
        10 => drop(text.drain(place..far)),
        11 => {
            text.truncate(place);
            if random.chance(70) {
                text.push(0);
            }
        }
        _ => text.insert(place, 0),
    }
}

/// Other bytes behind the first zero, or none.
fn behind_the_end(random: &mut Random, text: &mut Vec<u8>) {
    let Some(end) = text.iter().position(|byte| *byte == 0) else { return };
    text.truncate(end + 1);
    match random.below(50) {
        0 => text.resize(65_530 + random.below(20), random.pick(b"\0x")),
        1..=15 => text.extend((0..random.below(40)).map(|_| random.byte())),
        16..=30 => text.extend(b"<int size='9'/></cdi>\0"),
        31..=40 => text.extend(vec![0; random.below(9)]),
        _ => {}
    }
}

/// A text with one to four changes.
fn changed(random: &mut Random) -> Vec<u8> {
    let mut text = whole(random);
    let other = if random.chance(70) { sample(random) } else { text.clone() };
    for _ in 0..random.pick(&[1, 1, 1, 2, 2, 3, 4]) {
        change(random, &mut text, &other);
    }
    text
}

/// A million variables or about so many, in groups.
fn crowded(random: &mut Random) -> Vec<u8> {
    let (outer, inner) = random.pick(&[(1, 1_000_000), (1_000, 1_000), (1_000_000, 1), (100, 9_999), (31_250, 32)]);
    let more = random.pick(&[0, 0, 1, 2]);
    let size = random.pick(&[1, 2, 4, 8]);
    let offset = random.pick(&[0, 0, -size, 3]);
    let (space, origin) = (random.below(256), random.pick(&[0, 8, 5_000]));
    let variable = match random.below(3) {
        0 => Node::new("int").holding(Node::text("min", "0")).holding(Node::text("max", "9")),
        1 => Node::new("string"),
        _ => Node::new("int"),
    };
    let copied = Node::new("group").with("replication", inner);
    let copied = copied.holding(variable.with("size", size).with("offset", offset));
    let mut within = segment(space).with("origin", origin);
    within.push(Node::new("group").with("replication", outer).holding(copied));
    for _ in 0..more {
        within.push(Node::new("int"));
    }
    plain(&root().holding(within))
}

/// The long sample, or a text near a limit, with a change or without.
fn near_a_limit(random: &mut Random) -> Vec<u8> {
    let mut text = match random.below(3) {
        0 => [DESK, b"\0"].concat(),
        _ => long(random, &USUAL),
    };
    if random.chance(60) {
        let other = sample(random);
        change(random, &mut text, &other);
    }
    if random.chance(10) {
        text.retain(|byte| *byte != 0);
        text.resize(65_530 + random.below(20), b' ');
        text.push(0);
    }
    text
}

/// Any text.
pub fn text(random: &mut Random) -> Vec<u8> {
    if random.below(LONG_EVERY) == 0 {
        return near_a_limit(random);
    }
    if random.below(CROWDED_EVERY) == 0 {
        return crowded(random);
    }
    let mut text = match random.below(20) {
        0..=8 => changed(random),
        9..=12 => {
            let number = random.pick(&CAUSES);
            aimed(random, &USUAL, number)
        }
        13 => damaged(random, &USUAL),
        _ => whole(random),
    };
    if random.chance(20) {
        behind_the_end(random, &mut text);
    }
    text
}
