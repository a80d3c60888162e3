//! Values to be written and windows to hold them: of every kind, at every edge, and beyond.

use reference::access::{integer, Access, Value, Variable};
use reference::description::{Detail, IntDetail, Kind};
use reference::random::Random;
use reference::walk::Met;
use reference::Session;

/// Sequences at the edges of UTF-8.
#[rustfmt::skip]
const SEQUENCES: [&[u8]; 22] = [
    b"A", b"z", b"\xC2\x80", b"\xDF\xBF", b"\xE0\xA0\x80", b"\xED\x9F\xBF", b"\xEE\x80\x80", b"\xF0\x90\x80\x80",
    b"\xF4\x8F\xBF\xBF", b"\x01", b"\x7F", b"\0", b"\x80", b"\xBF", b"\xC1\xBF", b"\xC2", b"\xE0\x9F\xBF",
    b"\xED\xA0\x80", b"\xF0\x8F\xBF\xBF", b"\xF4\x90\x80\x80", b"\xF0\x9F\x98", b"\xFF",
];
/// The first so many of them are UTF-8 without a zero.
const GOOD: usize = 11;

/// Signs: 0 says that an integer isn't negative, every other number that it is.
const SIGNS: [u64; 6] = [1, 1, 2, 256, 1 << 32, u64::MAX];

/// A sign for a value; only an integer has one.
pub fn some_sign(random: &mut Random, value: &Value) -> u64 {
    match value {
        Value::Integer { negative: true, .. } => random.pick(&SIGNS),
        _ => 0,
    }
}

fn some_integer(random: &mut Random, int: &IntDetail) -> (bool, u64) {
    let property = int.map.as_ref().filter(|map| !map.is_empty()).map(|map| random.pick(map));
    let span = (int.max - int.min + 1).max(1);
    let value = match random.below(14) {
        0 => int.min,
        1 => int.max,
        2 => int.min - 1,
        3 => int.max + 1,
        4 => 0,
        5 => return (true, 0),
        6 => return (random.chance(50), u64::MAX - random.below(2) as u64),
        7 => random.pick(&[255, 256, 127, 128, -128, -129, 65_535, 65_536, 1 << 63, -(1 << 63), -(1 << 63) - 1]),
        8 | 9 => property.unwrap_or(int.min),
        10 => property.unwrap_or(int.max) + random.pick(&[-1, 1]),
        _ => int.min + (random.draw() as i128) % span,
    };
    (value < 0, value.unsigned_abs().min(u64::MAX as u128) as u64)
}

/// A text of about this length: letters, or good and bad sequences.
fn some_text(random: &mut Random, map: &Option<Vec<Vec<u8>>>, size: usize) -> Vec<u8> {
    if let Some(map) = map.as_ref().filter(|map| !map.is_empty() && random.chance(60)) {
        let mut text = random.pick(map);
        if random.chance(15) {
            text.push(b'x');
        }
        return text;
    }
    let length = match random.below(6) {
        0 => size - 1,
        1 => size,
        2 => 0,
        3 => size + random.below(20),
        _ => random.below(size.min(60) + 1),
    };
    let sorts = random.pick(&[1, 1, GOOD, GOOD, SEQUENCES.len()]);
    let mut text = Vec::with_capacity(length + 4);
    while text.len() < length {
        text.extend_from_slice(SEQUENCES[random.below(sorts)]);
    }
    if random.chance(50) {
        text.truncate(length);
    }
    text
}

/// A value for a variable; mostly of its own kind.
pub fn some_value(random: &mut Random, variable: &Variable) -> Value {
    let size = variable.met.size as usize;
    if random.chance(85) {
        match &variable.detail {
            Detail::Int(int) => {
                let (negative, magnitude) = some_integer(random, int);
                return Value::Integer { negative, magnitude };
            }
            Detail::Eventid { .. } => return Value::Event(random.draw()),
            Detail::String { map } => return Value::Text(some_text(random, map, size)),
            Detail::None => {}
        }
    }
    any_value(random, size)
}

/// A value of any kind.
pub fn any_value(random: &mut Random, size: usize) -> Value {
    match random.below(3) {
        0 => Value::Integer { negative: random.chance(30), magnitude: random.draw() >> random.below(64) },
        1 => Value::Event(random.pick(&[0, 1, u64::MAX, 0x0102_0304_0506_0708])),
        _ => Value::Text(some_text(random, &None, size)),
    }
}

/// What a window holds before it is lent: anything, zeros, letters with and without zeros, or sequences.
pub fn filled(random: &mut Random, length: usize) -> Vec<u8> {
    let sort = random.below(5);
    let mut bytes = Vec::with_capacity(length + 4);
    while bytes.len() < length {
        match sort {
            0 => bytes.push(random.byte()),
            1 => bytes.push(0),
            2 => bytes.push(0xFF),
            3 => bytes.push(random.pick(b"ABC\0")),
            _ => bytes.extend_from_slice(random.pick(&SEQUENCES)),
        }
    }
    bytes.truncate(length);
    bytes
}

/// Bytes as if a value near the variable's edges had been stored, now and then with others behind a text.
fn stored(random: &mut Random, variable: &Variable) -> Vec<u8> {
    let size = variable.met.size as usize;
    let mut bytes = match &variable.detail {
        Detail::Int(int) => {
            let (negative, magnitude) = some_integer(random, int);
            return integer(negative, magnitude).to_be_bytes()[16 - size..].to_vec();
        }
        Detail::String { map } => some_text(random, map, size),
        _ => return filled(random, size),
    };
    bytes.push(0);
    let behind = if random.chance(50) { 0 } else { random.byte() };
    bytes.resize(bytes.len().max(size), behind);
    bytes.truncate(size);
    bytes
}

/// Space, first address and length of a window: one that holds the variable, or misses it by a little or by far.
fn some_window(random: &mut Random, met: &Met) -> (u64, u64, usize) {
    let (space, address, size) = (met.space as u64, met.address as u64, met.size as usize);
    let before = random.pick(&[1, 1, 7, 64]).min(address);
    let behind = random.pick(&[1, 1, 9, 64]);
    let longer = before as usize + size;
    match random.below(36) {
        0..=10 => (space, address, size),
        11..=15 => (space, address - before, longer),
        16..=20 => (space, address, size + behind),
        21..=25 => (space, address - before, longer + behind),
        26 => (space, address, size - 1),
        27 => (space, address - before, longer - 1),
        28 => (space, address + 1, size - 1),
        29 => (space, address + 1, size + behind),
        30 => (space, address + random.below(2 * size) as u64, 0),
        31 => (random.pick(&[space + 1, space + 256, space | 1 << 32, u64::MAX, space ^ 1]), address, size),
        32 => (space, u64::MAX - random.below(size + 20) as u64, size + random.below(20)),
        33 => (space, address.wrapping_sub(random.pick(&[1 << 32, 1 << 63, u64::MAX, size as u64])), size),
        34 => (space, random.draw(), size),
        _ => (space, 0, longer),
    }
}

/// An access to variable n, whose window holds anything or a value that is near its edges. Text and table stand elsewhere.
pub fn some_access(random: &mut Random, n: u64, variable: &Variable) -> Access {
    let met = &variable.met;
    let (space, first, length) = some_window(random, met);
    let mut window = filled(random, length);
    let start = met.address - first as i128;
    let holds = start >= 0 && start + met.size as i128 <= length as i128;
    if holds && met.kind != Kind::Float && random.chance(60) {
        let bytes = stored(random, variable);
        window[start as usize..start as usize + met.size as usize].copy_from_slice(&bytes);
    }
    Access { text: Vec::new(), table: Vec::new(), n, space, first, window }
}

/// An access to no variable that is known.
pub fn any_access(random: &mut Random, n: u64) -> Access {
    let length = random.pick(&[0, 1, 8, 33]);
    let (space, first) = (random.below(256) as u64, random.pick(&[0, 1, 128, u64::MAX]));
    Access { text: Vec::new(), table: Vec::new(), n, space, first, window: filled(random, length) }
}

/// A session over the same window, with any journal and any number of edits.
pub fn any_session(random: &mut Random, access: &Access) -> Session {
    let Access { text, table, space, first, window, .. } = access.clone();
    let length = random.pick(&[0, 1, 9, 40, 200]);
    let standing = random.pick(&[0, 0, 1, 2, 63, 64, 65, u64::MAX]);
    Session { text, table, space, first, window, journal: filled(random, length), standing }
}
