//! Writes and reads: of every kind of variable, at every edge, and aimed at each refusal.

use crate::access::{integer, Access};
use crate::answer::{answer, Case};
use crate::description::{Data, Detail, Kind, Segment};
use crate::plan::{planned, Planned};
use crate::random::Random;
use crate::walk::{copy_out, Met};

use super::describe::{data, description, eventid, float, int, maybe_dress, string, Measure};
use super::markup::{content, segment, Node};
use super::stats::label;
use super::tables;
use super::texts::{accepted, aimed, CAUSES};

/// How often a generator tries to reach what it aims at.
const TRIES: usize = 40;

/// Texts with sequences at the edges of UTF-8 and of XML's characters.
#[rustfmt::skip]
const SEQUENCES: [&[u8]; 20] = [
    b"A", b"\xC3\xA9", b"\xE2\x82\xAC", b"\xF0\x9F\x98\x80", b"\x01", b"\x7F", b"\r", b"\xEF\xBF\xBE",
    b"\xEF\xBB\xBF", b"\xF4\x8F\xBF\xBF", b"\x00", b"\x80", b"\xC0\x80", b"\xED\xA0\x80", b"\xF4\x90\x80\x80",
    b"\xFF", b"\xC3", b"\xE2\x82", b"\xE0\x9F\xBF", b"\xF0\x8F\xBF\xBF",
];

/// A text, its plan, and the variables that a walk meets.
pub struct Target {
    pub text: Vec<u8>,
    pub planned: Planned,
    pub met: Vec<Met>,
}

/// A variable with many details.
pub fn focused(random: &mut Random, measure: &Measure) -> Node {
    let full = Measure { full: 50, ..*measure };
    match random.below(5) {
        0 | 1 => int(random, &full),
        2 => string(random, &full),
        3 => eventid(random, &full),
        _ => float(random, &full),
    }
}

/// An accepted text that has variables.
pub fn target(random: &mut Random, measure: &Measure) -> Target {
    loop {
        let mut node = if random.chance(60) {
            description(random, &Measure { data: 3, ..*measure })
        } else {
            super::markup::root()
        };
        let mut last = segment(random.below(256)).with("origin", random.between(0, 300));
        if random.chance(40) {
            if let Some(other) = data(random, measure, &mut 2, 3) {
                last.push(other);
            }
        }
        let focus = focused(random, measure);
        if random.chance(30) {
            let most = if random.chance(10) { 300 * measure.replication } else { measure.replication };
            let group = Node::new("group").with("replication", random.between(1, most));
            last.push(group.holding(focus));
        } else {
            last.push(focus);
        }
        node.push(last);
        maybe_dress(random, &mut node);
        let odd = random.pick(&[0, 0, 10]);
        let mut text = content(random, &node, odd);
        text.push(0);
        if random.chance(8) {
            text.extend([b'x', 0, 0xFF]);
        }
        let Ok(planned) = planned(&text) else { continue };
        if let Ok(copying) = copy_out(&planned.segments, 20_000) {
            if !copying.met.is_empty() {
                return Target { text, planned, met: copying.met };
            }
        }
    }
}

fn data_of(members: &[Data], record: usize) -> Option<&Data> {
    members.iter().find_map(|data| if data.record == record { Some(data) } else { data_of(&data.members, record) })
}

pub fn detail(segments: &[Segment], record: usize) -> Detail {
    let found = segments.iter().find_map(|segment| data_of(&segment.members, record));
    found.map_or(Detail::None, |data| data.detail.clone())
}

/// A window that holds the variable, often with bytes before and behind it.
fn holding_window(random: &mut Random, met: &Met) -> (u64, usize) {
    let before = random.pick(&[0, 0, 1, 7]).min(met.address) as u64;
    let behind = random.pick(&[0usize, 0, 1, 9]);
    (met.address as u64 - before, before as usize + met.size as usize + behind)
}

/// A window that misses the variable by a little or by far.
fn missing_window(random: &mut Random, met: &Met) -> (u64, usize) {
    let (address, size) = (met.address as u64, met.size as usize);
    match random.below(7) {
        0 => (address, size - 1),
        1 => (address + 1, size + 3),
        2 => (address.saturating_sub(3), size),
        3 => (address, 0),
        4 => (u64::MAX - random.below(20) as u64, size + random.below(20)),
        5 => (address.wrapping_sub(1 << 32), size),
        _ => (random.draw(), size),
    }
}

/// Bytes for a window: at random, zeros, letters, or a text where the variable stands.
pub fn fill(random: &mut Random, length: usize) -> Vec<u8> {
    let sort = random.below(5);
    let mut bytes = Vec::with_capacity(length);
    while bytes.len() < length {
        match sort {
            0 => bytes.push(random.byte()),
            1 => bytes.push(0),
            2 => bytes.push(0xFF),
            3 => bytes.push(random.pick(b"ABC\0")),
            _ => bytes.extend_from_slice(random.pick(&SEQUENCES)),
        }
    }
    bytes.truncate(length);
    bytes
}

/// An access to one of the target's variables whose window holds it.
fn access_to(random: &mut Random, target: &Target, n: usize) -> Access {
    let met = &target.met[n];
    let (first, length) = holding_window(random, met);
    Access {
        text: target.text.clone(),
        table: target.planned.numbers.clone(),
        n: n as u64,
        space: met.space as u64,
        first,
        window: fill(random, length),
    }
}

pub fn some_integer(random: &mut Random, detail: &Detail) -> (bool, u64) {
    let Detail::Int(int) = detail else { return (random.chance(20), random.draw()) };
    let property = int.map.as_ref().and_then(|map| (!map.is_empty()).then(|| random.pick(map)));
    let span = (int.max - int.min + 1).max(1);
    let value = match random.below(12) {
        0 => int.min,
        1 => int.max,
        2 => int.min - 1,
        3 => int.max + 1,
        4 => 0,
        5 => return (true, 0),
        6 => random.pick(&[u64::MAX as i128, -(u64::MAX as i128), 1 << 63, -(1 << 63), 255, 256, 128, -129]),
        7 | 8 => property.unwrap_or(int.min),
        9 => property.unwrap_or(int.max) + random.pick(&[-1, 1]),
        _ => int.min + (random.draw() as i128) % span,
    };
    (value < 0, value.unsigned_abs().min(u64::MAX as u128) as u64)
}

pub fn some_value_text(random: &mut Random, detail: &Detail, size: usize) -> Vec<u8> {
    let length = match random.below(5) {
        0 => size.saturating_sub(1),
        1 => size,
        2 => 0,
        _ => random.below(size.min(60) + 2),
    };
    if let Detail::String { map: Some(map) } = detail {
        if !map.is_empty() && random.chance(60) {
            return random.pick(map);
        }
    }
    if random.chance(50) {
        return vec![b'A' + random.below(26) as u8; length];
    }
    let mut text: Vec<u8> = Vec::new();
    let wild = random.chance(50);
    while text.len() < length {
        text.extend_from_slice(SEQUENCES[random.below(if wild { SEQUENCES.len() } else { 10 })]);
    }
    if random.chance(70) {
        text.truncate(length);
    }
    text
}

/// A write or a read of an access; mostly of the variable's own kind.
fn operation(random: &mut Random, access: Access, detail: &Detail, size: usize) -> Case {
    let own = match detail {
        Detail::Int(_) => 0,
        Detail::Eventid { .. } => 1,
        Detail::String { .. } => 2,
        Detail::None => random.below(3),
    };
    let which = if random.chance(88) { own } else { random.below(3) };
    match which {
        _ if random.chance(35) => Case::Read { access },
        0 => {
            let (negative, magnitude) = some_integer(random, detail);
            Case::WriteInteger { access, negative, magnitude }
        }
        1 => Case::WriteEvent { access, value: random.draw() },
        _ => Case::WriteText { access, value: some_value_text(random, detail, size) },
    }
}

/// Bytes as if a value near the edges of this variable had been stored, now and then with other bytes behind a text.
fn stored_bytes(random: &mut Random, detail: &Detail, size: usize) -> Vec<u8> {
    if let Detail::Int(_) = detail {
        let (negative, magnitude) = some_integer(random, detail);
        return integer(negative, magnitude).to_be_bytes()[16 - size..].to_vec();
    }
    let mut bytes = some_value_text(random, detail, size);
    bytes.push(0);
    let behind = if random.chance(50) { 0 } else { random.byte() };
    bytes.resize(bytes.len().max(size), behind);
    bytes.truncate(size);
    bytes
}

/// Puts such bytes where the variable stands in the window, if it stands there.
fn store(random: &mut Random, access: &mut Access, met: &Met, detail: &Detail) {
    let start = met.address - access.first as i128;
    if start < 0 || start + met.size as i128 > access.window.len() as i128 {
        return;
    }
    let bytes = stored_bytes(random, detail, met.size as usize);
    access.window[start as usize..start as usize + met.size as usize].copy_from_slice(&bytes);
}

/// Any access to a target, with the window, the table or n now and then off.
fn any_access(random: &mut Random, measure: &Measure) -> Case {
    let target = target(random, measure);
    let last = target.met.len() - 1;
    let n = if random.chance(60) { last } else { random.below(last + 1) };
    let met = target.met[n];
    let detail = detail(&target.planned.segments, met.record);
    let mut access = access_to(random, &target, n);
    if random.chance(15) {
        let (first, length) = missing_window(random, &met);
        (access.first, access.window) = (first, fill(random, length));
    }
    if random.chance(3) {
        access.space = random.pick(&[access.space + 1, access.space + 256, u64::MAX, 0]);
    }
    if random.chance(4) {
        tables::damage(random, &mut access.table);
    }
    if random.chance(4) {
        access.n = random.pick(&[last as u64 + 1, u64::MAX, last as u64 + 2]);
    }
    if random.chance(50) && met.kind != Kind::Float {
        store(random, &mut access, &met, &detail);
    }
    operation(random, access, &detail, met.size as usize)
}

/// An access to a text that is refused by one of its own causes.
fn refused_text(random: &mut Random, measure: &Measure, number: u8) -> Case {
    let text = aimed(random, measure, number);
    let table = if random.chance(50) { Vec::new() } else { accepted(random, measure).1.numbers };
    let length = random.below(20);
    let window = fill(random, length);
    let access = Access {
        text,
        table,
        n: random.below(3) as u64,
        space: random.below(256) as u64,
        first: random.below(500) as u64,
        window,
    };
    operation(random, access, &Detail::None, 8)
}

/// An access to an accepted text with a table that isn't its own.
fn other_table(random: &mut Random, measure: &Measure) -> Case {
    let target = target(random, measure);
    let mut access = access_to(random, &target, 0);
    match random.below(5) {
        0 => access.table.clear(),
        1 => access.table.extend([0; 8]),
        2 => access.table = accepted(random, measure).1.numbers,
        _ => tables::damage(random, &mut access.table),
    }
    let met = target.met[0];
    operation(random, access, &detail(&target.planned.segments, met.record), met.size as usize)
}

/// The outcomes that accesses aim at besides those causes and 20.
const AIMS: [&str; 12] = ["21", "22", "23", "24", "25", "26", "27", "28", "written", "integer", "event", "text"];

/// One access: aimed, or any.
pub fn access_case(random: &mut Random, measure: &Measure, crowds: bool) -> Case {
    let choice = random.below(100);
    if choice < 34 {
        let number = random.pick(&CAUSES);
        let number = if number == 12 && !crowds { 11 } else { number };
        return refused_text(random, measure, number);
    }
    if choice < 40 {
        return other_table(random, measure);
    }
    if choice < 64 {
        return any_access(random, measure);
    }
    let aim = random.pick(&AIMS);
    let mut case = any_access(random, measure);
    for _ in 0..TRIES {
        if label(&answer(&case)) == aim {
            break;
        }
        case = any_access(random, measure);
    }
    case
}
