//! What backups come to: windows, rooms and sums at their ends, and each reason for each refusal, alone and beside others.

use crate::answer::{answer, Answer, Case};
use crate::backup::{check, faults_of, flag_of, is_of_blocks, length_of, number_of, sum, Fault, BLOCK, CHECK, PAYLOAD};
use crate::cases::stats::refusal_of;

/// Windows that are stored.
const STORED: [(usize, &str); 8] = [
    (1, "store: a window of 1 byte"),
    (501, "store: a window of 501 bytes"),
    (502, "store: a window of 502 bytes"),
    (503, "store: a window of 503 bytes"),
    (1_003, "store: a window of 1,003 bytes"),
    (1_004, "store: a window of 1,004 bytes"),
    (1_005, "store: a window of 1,005 bytes"),
    (70_000, "store: a window of 70,000 bytes"),
];

#[rustfmt::skip]
const STORE: [&str; 17] = [
    "store: space 0",
    "store: space 255",
    "store: the room is exact",
    "store: the room is larger",
    "store: a block whose sum is a multiple of 65,535",
    "store: a block whose check is 1",
    "store: a block whose check is 65,534",
    "store: 40, the window is empty",
    "store: 40, space 256",
    "store: 40, space 2^32",
    "store: 40, space 2^64 - 1",
    "store: 40, the window is empty and the space above 255",
    "store: 40, the room too short as well",
    "store: 41, one byte short",
    "store: 41, a block short",
    "store: 41, room for the window's bytes",
    "store: 41, room 0",
];

#[rustfmt::skip]
const RESTORE: [&str; 52] = [
    "restore: a window of 1 byte",
    "restore: one full block",
    "restore: several blocks, the last full",
    "restore: several blocks, the last with 1 byte",
    "restore: 100 blocks or more",
    "restore: space 0",
    "restore: space 255",
    "restore: the room is exact",
    "restore: the room is exact and less than all payloads",
    "restore: the room is larger",
    "restore: a block whose sum is a multiple of 65,535",
    "restore: a block whose check is 65,534",
    "restore: 42, empty",
    "restore: 42, shorter than a block",
    "restore: 42, one byte short",
    "restore: 42, one byte too long",
    "restore: 42, otherwise",
    "restore: 42, a bad block as well",
    "restore: 43, the only block",
    "restore: 43, the first of several",
    "restore: 43, between others",
    "restore: 43, the last of several",
    "restore: 43, FFFF for 0000",
    "restore: 43, the sum modulo 65,536",
    "restore: 43, one more or less",
    "restore: 43, only the first byte of the check is wrong",
    "restore: 43, only the second byte of the check is wrong",
    "restore: 43, the block breaks a rule of 44 too",
    "restore: 43, a block behind it is 44",
    "restore: 43, a good block before it fits into the room",
    "restore: 43, the room too short as well",
    "restore: 44, the only block",
    "restore: 44, the first of several",
    "restore: 44, between others",
    "restore: 44, the last of several",
    "restore: 44, a block behind it is 43",
    "restore: 44, a good block before it fits into the room",
    "restore: 44, the room too short as well",
    "restore: 44, several rules",
    "restore: 44 by the number alone, its last byte right",
    "restore: 44 by the number alone, its last byte wrong",
    "restore: 44 by the space alone",
    "restore: 44 by the length alone, 0",
    "restore: 44 by the length alone, 503",
    "restore: 44 by the length alone, more",
    "restore: 44 by the length alone, short before the last",
    "restore: 44 by the flag alone, 0 in the last",
    "restore: 44 by the flag alone, 1 before the last",
    "restore: 44 by the flag alone, 2 or more",
    "restore: 44 by the padding alone, its first byte",
    "restore: 44 by the padding alone, its last byte",
    "restore: 44 by the padding alone, between",
];

const SHORT: [&str; 2] = ["restore: 41, one byte short", "restore: 41, room 0"];

/// All that is counted here.
pub fn labels() -> Vec<String> {
    let stored = STORED.iter().map(|(_, thing)| *thing);
    stored.chain(STORE).chain(RESTORE).chain(SHORT).map(str::to_string).collect()
}

/// Of these things those that are so.
fn so<const N: usize>(things: [(bool, &'static str); N]) -> Vec<&'static str> {
    things.into_iter().filter(|(is, _)| *is).map(|(_, thing)| thing).collect()
}

/// Whether some block of good ones has this check.
fn has_check(blocks: &[u8], wanted: u16) -> bool {
    blocks.chunks(BLOCK).any(|block| check(block) == wanted)
}

/// What a window shows that is stored in so many bytes of the output.
fn stored(space: u64, window: &[u8], blocks: &[u8], room: usize) -> Vec<&'static str> {
    let mut shown: Vec<&str> =
        STORED.iter().filter(|(length, _)| *length == window.len()).map(|(_, thing)| *thing).collect();
    shown.extend(so([
        (space == 0, "store: space 0"),
        (space == 255, "store: space 255"),
        (room == blocks.len(), "store: the room is exact"),
        (room > blocks.len(), "store: the room is larger"),
        (has_check(blocks, 0), "store: a block whose sum is a multiple of 65,535"),
        (has_check(blocks, 1), "store: a block whose check is 1"),
        (has_check(blocks, 65_534), "store: a block whose check is 65,534"),
    ]));
    shown
}

/// What a window shows that isn't stored.
fn not_stored(number: u8, space: u64, window: &[u8], room: usize) -> Vec<&'static str> {
    let (empty, far) = (window.is_empty(), space > 255);
    let needed = BLOCK * window.len().div_ceil(PAYLOAD);
    if number == 40 {
        return so([
            (empty && !far, "store: 40, the window is empty"),
            (!empty && space == 256, "store: 40, space 256"),
            (!empty && space == 1 << 32, "store: 40, space 2^32"),
            (!empty && space == u64::MAX, "store: 40, space 2^64 - 1"),
            (empty && far, "store: 40, the window is empty and the space above 255"),
            (room < needed, "store: 40, the room too short as well"),
        ]);
    }
    so([
        (room + 1 == needed, "store: 41, one byte short"),
        (room + BLOCK == needed && room > 0, "store: 41, a block short"),
        (room >= window.len(), "store: 41, room for the window's bytes"),
        (room == 0, "store: 41, room 0"),
    ])
}

/// What a backup shows that is read back.
fn restored(backup: &[u8], length: usize, space: u8, room: usize) -> Vec<&'static str> {
    let count = backup.len() / BLOCK;
    let full = length == PAYLOAD * count;
    so([
        (length == 1, "restore: a window of 1 byte"),
        (full && count == 1, "restore: one full block"),
        (full && count > 1, "restore: several blocks, the last full"),
        (count > 1 && length == PAYLOAD * (count - 1) + 1, "restore: several blocks, the last with 1 byte"),
        (count >= 100, "restore: 100 blocks or more"),
        (space == 0, "restore: space 0"),
        (space == 255, "restore: space 255"),
        (room == length, "restore: the room is exact"),
        (room == length && !full, "restore: the room is exact and less than all payloads"),
        (room > length, "restore: the room is larger"),
        (has_check(backup, 0), "restore: a block whose sum is a multiple of 65,535"),
        (has_check(backup, 65_534), "restore: a block whose check is 65,534"),
    ])
}

/// What a backup shows whose length isn't a positive multiple of 512.
fn not_of_blocks(backup: &[u8]) -> Vec<&'static str> {
    let (count, over) = (backup.len() / BLOCK, backup.len() % BLOCK);
    let whole = &backup[..BLOCK * count];
    let bad = count > 1 && faults_of(whole)[..count - 1].iter().any(|faults| !faults.is_empty());
    so([
        (backup.is_empty(), "restore: 42, empty"),
        (count == 0 && over > 0, "restore: 42, shorter than a block"),
        (over == BLOCK - 1, "restore: 42, one byte short"),
        (count > 0 && over == 1, "restore: 42, one byte too long"),
        (count > 0 && over > 1 && over < BLOCK - 1, "restore: 42, otherwise"),
        (bad, "restore: 42, a bad block as well"),
    ])
}

/// A bad block: the backup that it is in, what is wrong with each block, where it stands, and the room.
struct Bad<'a> {
    backup: &'a [u8],
    faults: Vec<Vec<Fault>>,
    position: usize,
    room: usize,
}

impl Bad<'_> {
    fn block(&self) -> &[u8] {
        &self.backup[BLOCK * self.position..BLOCK * (self.position + 1)]
    }

    fn last(&self) -> bool {
        self.position + 1 == self.faults.len()
    }

    /// Whether a block behind it would be refused by this number.
    fn behind(&self, number: u8) -> bool {
        self.faults[self.position + 1..]
            .iter()
            .any(|faults| faults.first().is_some_and(|fault| fault.number() == number))
    }

    /// Where it stands: alone, first, between others or last.
    fn stands(&self, names: [&'static str; 4]) -> &'static str {
        match (self.position, self.last()) {
            (0, true) => names[0],
            (0, false) => names[1],
            (_, false) => names[2],
            (_, true) => names[3],
        }
    }

    /// Whether a program that stores each block as it is read would have changed the output by now.
    fn is_late(&self) -> bool {
        self.position > 0 && self.room >= PAYLOAD
    }

    /// Whether the room is too short whatever the last block holds.
    fn is_short(&self) -> bool {
        self.room <= PAYLOAD * (self.faults.len() - 1)
    }
}

/// What a block shows whose check is wrong.
fn wrong_check(bad: &Bad) -> Vec<&'static str> {
    let block = bad.block();
    let (right, told) = (check(block), u16::from_be_bytes([block[CHECK], block[CHECK + 1]]));
    let [high, low] = (right ^ told).to_be_bytes();
    let mut shown = so([
        (right == 0 && told == u16::MAX, "restore: 43, FFFF for 0000"),
        (sum(block) % 65_536 == told as u128, "restore: 43, the sum modulo 65,536"),
        (right.abs_diff(told) == 1, "restore: 43, one more or less"),
        (low == 0, "restore: 43, only the first byte of the check is wrong"),
        (high == 0, "restore: 43, only the second byte of the check is wrong"),
        (bad.faults[bad.position].len() > 1, "restore: 43, the block breaks a rule of 44 too"),
        (bad.behind(44), "restore: 43, a block behind it is 44"),
        (bad.is_late(), "restore: 43, a good block before it fits into the room"),
        (bad.is_short(), "restore: 43, the room too short as well"),
    ]);
    shown.push(bad.stands([
        "restore: 43, the only block",
        "restore: 43, the first of several",
        "restore: 43, between others",
        "restore: 43, the last of several",
    ]));
    shown
}

fn wrong_length(length: usize) -> &'static str {
    match length {
        0 => "restore: 44 by the length alone, 0",
        503 => "restore: 44 by the length alone, 503",
        504.. => "restore: 44 by the length alone, more",
        _ => "restore: 44 by the length alone, short before the last",
    }
}

fn wrong_flag(flag: u8) -> &'static str {
    match flag {
        0 => "restore: 44 by the flag alone, 0 in the last",
        1 => "restore: 44 by the flag alone, 1 before the last",
        _ => "restore: 44 by the flag alone, 2 or more",
    }
}

/// What a padding shows with one byte that isn't zero.
fn wrong_padding(padding: &[u8]) -> Option<&'static str> {
    let spoilt: Vec<usize> = (0..padding.len()).filter(|place| padding[*place] != 0).collect();
    match spoilt[..] {
        [0] => Some("restore: 44 by the padding alone, its first byte"),
        [place] if place + 1 == padding.len() => Some("restore: 44 by the padding alone, its last byte"),
        [_] => Some("restore: 44 by the padding alone, between"),
        _ => None,
    }
}

/// The rule that a block breaks and no other.
fn alone(bad: &Bad) -> Option<&'static str> {
    let block = bad.block();
    let [fault] = bad.faults[bad.position][..] else { return Some("restore: 44, several rules") };
    match fault {
        Fault::Check => None,
        Fault::Number if number_of(block) as u8 == bad.position as u8 => {
            Some("restore: 44 by the number alone, its last byte right")
        }
        Fault::Number => Some("restore: 44 by the number alone, its last byte wrong"),
        Fault::Space => Some("restore: 44 by the space alone"),
        Fault::Length => Some(wrong_length(length_of(block))),
        Fault::Flag => Some(wrong_flag(flag_of(block))),
        Fault::Padding => wrong_padding(&block[CHECK - PAYLOAD + length_of(block)..CHECK]),
    }
}

/// What a block shows whose check is right and that breaks a rule.
fn broken_rule(bad: &Bad) -> Vec<&'static str> {
    let mut shown = so([
        (bad.behind(43), "restore: 44, a block behind it is 43"),
        (bad.is_late(), "restore: 44, a good block before it fits into the room"),
        (bad.is_short(), "restore: 44, the room too short as well"),
    ]);
    shown.push(bad.stands([
        "restore: 44, the only block",
        "restore: 44, the first of several",
        "restore: 44, between others",
        "restore: 44, the last of several",
    ]));
    shown.extend(alone(bad));
    shown
}

/// What a backup shows that isn't read back, by number and place.
fn not_restored(number: u8, place: u64, backup: &[u8], room: usize) -> Vec<&'static str> {
    if !is_of_blocks(backup) {
        return not_of_blocks(backup);
    }
    let bad = Bad { backup, faults: faults_of(backup), position: place as usize, room };
    match number {
        43 => wrong_check(&bad),
        44 => broken_rule(&bad),
        _ => {
            let last = &backup[backup.len() - BLOCK..];
            let length = backup.len() / BLOCK * PAYLOAD - PAYLOAD + length_of(last);
            so([(room + 1 == length, SHORT[0]), (room == 0, SHORT[1])])
        }
    }
}

/// What a case shows of this.
pub fn met(case: &Case) -> Vec<String> {
    let answer = answer(case);
    let refusal = refusal_of(&answer);
    let shown = match (case, &answer, refusal) {
        (Case::Store { space, window, .. }, Answer::Stored { length, output }, _) => {
            stored(*space, window, &output[..*length as usize], output.len())
        }
        (Case::Store { space, window, room }, _, Some(refusal)) => {
            not_stored(refusal.number, *space, window, *room as usize)
        }
        (Case::Restore { backup, .. }, Answer::Restored { length, space, output }, _) => {
            restored(backup, *length as usize, *space, output.len())
        }
        (Case::Restore { backup, room }, _, Some(refusal)) => {
            not_restored(refusal.number, refusal.place, backup, *room as usize)
        }
        _ => Vec::new(),
    };
    shown.into_iter().map(str::to_string).collect()
}
