//! Tables for locating: plans made without a text, damaged plans, and arbitrary numbers.

use crate::description::{Data, Detail, Kind, Segment};
use crate::random::Random;
use crate::table::{numbers, records, FIELDS};
use crate::walk::{walk, Outcome};

#[rustfmt::skip]
const EXTREMES: [i64; 22] = [
    0, 1, -1, 2, 7, 8, 9, 21, 22, 255, 256, 65_534, 65_535, 65_536, i32::MAX as i64, i32::MIN as i64,
    i32::MAX as i64 + 1, i32::MIN as i64 - 1, 1 << 32, (1 << 32) + 1, i64::MAX, i64::MIN,
];

/// How large a table may become.
#[derive(Debug, Clone, Copy)]
pub struct Measure {
    pub records: usize,
    pub depth: usize,
    pub large: bool,
}

pub const USUAL: Measure = Measure { records: 24, depth: 8, large: true };
pub const SMALL: Measure = Measure { records: 8, depth: 5, large: false };

/// A group with these members.
pub fn group(offset: i64, replication: i64, members: Vec<Data>) -> Data {
    Data { record: 0, place: 0, kind: Kind::Group, offset, size: 0, replication, members, detail: Detail::None }
}

pub fn variable(kind: Kind, offset: i64, size: i64) -> Data {
    Data { record: 0, place: 0, kind, offset, size, replication: 1, members: Vec::new(), detail: Detail::None }
}

pub fn segment(origin: i64, space: i64, members: Vec<Data>) -> Segment {
    Segment { record: 0, place: 0, origin, space, members }
}

/// Gives data elements their numbers and rising places.
fn number_data(members: &mut [Data], next: &mut usize, place: &mut dyn FnMut() -> usize) {
    for data in members {
        data.record = *next;
        data.place = place();
        *next += 1;
        number_data(&mut data.members, next, place);
    }
}

/// Gives segments and data elements their numbers and rising places.
pub fn number_all(segments: &mut [Segment], place: &mut dyn FnMut() -> usize) {
    let mut next = 0;
    for segment in segments {
        segment.record = next;
        segment.place = place();
        next += 1;
        number_data(&mut segment.members, &mut next, place);
    }
}

fn random_offset(random: &mut Random, large: bool) -> i64 {
    match random.below(10) {
        0..=3 => 0,
        4 | 5 => random.between(-9, 0),
        6..=8 => random.between(0, 30),
        _ if large => random.pick(&[i32::MAX as i64, i32::MIN as i64, 1_000_000, -1_000_000, 65_536]),
        _ => random.between(-40, 40),
    }
}

fn random_members(random: &mut Random, measure: &Measure, left: &mut usize, depth: usize) -> Vec<Data> {
    let mut members = Vec::new();
    for _ in 0..random.below(5) {
        if *left == 0 {
            break;
        }
        *left -= 1;
        let offset = random_offset(random, measure.large);
        let choice = if depth >= measure.depth { 4 + random.below(6) } else { random.below(10) };
        members.push(match choice {
            0..=3 => {
                let copies = match random.below(8) {
                    0 if measure.large => random.between(1, 2_147_483_647),
                    1 if measure.large => random.between(1, 5_000),
                    _ => random.between(1, 4),
                };
                group(offset, copies, random_members(random, measure, left, depth + 1))
            }
            4..=6 => variable(Kind::Int, offset, random.pick(&[1, 2, 4, 8])),
            7 => variable(
                Kind::String,
                offset,
                if measure.large { random.between(1, 65_535) } else { random.between(1, 40) },
            ),
            8 => variable(Kind::Eventid, offset, 8),
            _ => variable(Kind::Float, offset, random.pick(&[2, 4, 8])),
        });
    }
    members
}

/// Random segments; their walk may leave the limits.
pub fn random_segments(random: &mut Random, measure: &Measure) -> Vec<Segment> {
    let mut left = 1 + random.below(measure.records);
    let mut segments = Vec::new();
    for _ in 0..random.below(4) {
        let origin = random.pick(&[0, 1, 10, 100, 5_000, 2_147_483_647]);
        let members = random_members(random, measure, &mut left, 3);
        segments.push(segment(origin, random.between(0, 255), members));
    }
    let mut place = 21;
    number_all(&mut segments, &mut || {
        place += 1 + random.below(60);
        place
    });
    segments
}

/// Segments whose walk keeps the limits, and how many variables they have; seldom none.
pub fn kept_segments(random: &mut Random, measure: &Measure) -> (Vec<Segment>, u64) {
    loop {
        let segments = random_segments(random, measure);
        if let Outcome::Kept { variables } = walk(&segments) {
            if variables > 0 || random.chance(10) {
                return (segments, variables);
            }
        }
    }
}

/// A plan and how many variables it has.
pub fn plan(random: &mut Random, measure: &Measure) -> (Vec<i64>, u64) {
    let (segments, variables) = kept_segments(random, measure);
    (numbers(&records(&segments).unwrap_or_default()), variables)
}

/// Groups of the greatest replication nested this deep around members that cancel; variables or groups.
pub fn hostile(deep: usize, replication: i64, with_variables: bool) -> Vec<Segment> {
    let mut members = if with_variables {
        vec![variable(Kind::Int, 0, 8), variable(Kind::Int, -9, 1)]
    } else {
        vec![group(5, 1, Vec::new()), group(-5, replication, Vec::new())]
    };
    for _ in 0..deep {
        members = vec![group(0, replication, members)];
    }
    let mut segments = vec![segment(9, 0, members)];
    let mut place = 21;
    number_all(&mut segments, &mut || {
        place += 1;
        place
    });
    segments
}

/// The table of segments whose addresses are kept, whatever their count.
pub fn table_of(segments: &[Segment]) -> Vec<i64> {
    numbers(&records(segments).unwrap_or_default())
}

fn change_record(random: &mut Random, table: &mut Vec<i64>) {
    let count = table.len() / FIELDS;
    let (one, two) = (FIELDS * random.below(count), FIELDS * random.below(count));
    match random.below(4) {
        0 => drop(table.drain(one..one + FIELDS)),
        1 => {
            let copy = table[one..one + FIELDS].to_vec();
            table.splice(two..two, copy);
        }
        _ => {
            for field in 0..FIELDS {
                table.swap(one + field, two + field);
            }
        }
    }
}

/// One change to a table.
pub fn damage(random: &mut Random, table: &mut Vec<i64>) {
    if table.len() < FIELDS {
        table.push(random.between(-3, 30));
        return;
    }
    let chosen = random.below(table.len());
    match random.below(12) {
        0..=4 => table[chosen] = table[chosen].wrapping_add(random.pick(&[1, -1])),
        5 | 6 => table[chosen] = random.pick(&EXTREMES),
        7 => table[chosen] = random.draw() as i64,
        8 => table.truncate(table.len() - 1 - random.below(FIELDS)),
        9 => table.extend((0..1 + random.below(FIELDS)).map(|number| number as i64)),
        _ => change_record(random, table),
    }
}

/// A table of any numbers.
pub fn arbitrary(random: &mut Random, measure: &Measure) -> Vec<i64> {
    let length = random.below(measure.records * FIELDS) / random.pick(&[1, 8]) * random.pick(&[1, 8]);
    let small = random.chance(70);
    (0..length.min(measure.records * FIELDS))
        .map(|_| {
            if small {
                random.between(0, 9)
            } else if random.chance(50) {
                random.pick(&EXTREMES)
            } else {
                random.draw() as i64
            }
        })
        .collect()
}

/// A number of a variable: inside, at the ends, or beyond.
pub fn some_n(random: &mut Random, variables: u64) -> u64 {
    match random.below(12) {
        0 => 0,
        1 => variables.saturating_sub(1),
        2 => variables,
        3 => {
            let any = random.draw();
            random.pick(&[variables + 1, u64::MAX, any])
        }
        _ if variables > 0 => random.draw() % variables,
        _ => 0,
    }
}
