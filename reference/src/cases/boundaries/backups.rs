//! The boundary cases of backups.

use super::super::backups::{block_of, good, recheck, set_check, steer, CHECKS, FAR_SPACES, LENGTHS, MOST_BLOCKS};
use crate::answer::Case;
use crate::backup::{blocks_for, BLOCK, CHECK, HEAD, PAYLOAD};
use crate::frames::{BACKUP_LIMIT, BYTES_LIMIT, OUTPUT_LIMIT};

/// A window of bytes that differ.
fn window(length: usize) -> Vec<u8> {
    (0..length).map(|place| (1 + 37 * place + place / 256) as u8).collect()
}

fn store(space: u64, window: &[u8], room: usize) -> Case {
    Case::Store { space, window: window.to_vec(), room: room as u64 }
}

fn restore(backup: &[u8], room: usize) -> Case {
    Case::Restore { backup: backup.to_vec(), room: room as u64 }
}

/// The backup whose bytes are changed one by one: three blocks, the last of 100 bytes.
pub fn sample() -> Vec<u8> {
    good(253, &window(SAMPLE))
}

const SAMPLE: usize = 2 * PAYLOAD + 100;

/// Windows about the ends of blocks, in each space and room.
fn stored() -> Vec<Case> {
    let mut cases = Vec::new();
    for length in LENGTHS {
        let (window, needed) = (window(length), BLOCK * blocks_for(length));
        for room in [needed, needed - 1, needed + 1, needed - BLOCK, needed + BLOCK, length, 0] {
            cases.push(store(length as u64 % 256, &window, room));
        }
        for space in [0, 255] {
            cases.push(store(space, &window, needed));
        }
        for space in FAR_SPACES {
            cases.extend([needed, needed - 1].map(|room| store(space, &window, room)));
        }
    }
    for space in [0, 255, 256, 1 << 32, u64::MAX] {
        cases.extend([0, 1, 511, 512, 513].map(|room| store(space, &[], room)));
    }
    cases
}

/// Long windows up to the limit of a frame.
fn stored_long() -> Vec<Case> {
    let mut cases = Vec::new();
    for length in [65_535, 65_536, BYTES_LIMIT - 1] {
        cases.push(store(7, &window(length), BLOCK * blocks_for(length)));
    }
    let (window, needed) = (window(BYTES_LIMIT), BLOCK * blocks_for(BYTES_LIMIT));
    cases.extend([needed, needed - 1, OUTPUT_LIMIT as usize].map(|room| store(255, &window, room)));
    cases.push(store(256, &window, needed));
    cases
}

/// Windows whose checks are at the ends of their range, of even and odd lengths, steered by the first word or the last.
fn steered(check: u16) -> Vec<Vec<u8>> {
    let mut windows = Vec::new();
    for length in [2, 3, 501, 502, 503, 1_004, 1_005, 1_204] {
        for (fill, word) in [(0, 0), (0xFF, 250), (0x35, 100)] {
            let mut window = vec![fill; length];
            for position in 0..blocks_for(length) {
                steer(253, &mut window, position, word, check);
            }
            windows.push(window);
        }
    }
    windows
}

/// Such windows stored and read back, and with another check in one block.
fn checks() -> Vec<Case> {
    let mut cases = Vec::new();
    for check in CHECKS {
        for (turn, window) in steered(check).iter().enumerate() {
            cases.push(store(253, window, BLOCK * blocks_for(window.len())));
            let backup = good(253, window);
            cases.push(restore(&backup, window.len()));
            let position = turn % blocks_for(window.len());
            for other in [u16::MAX, 0, 1, 65_534] {
                let mut backup = backup.clone();
                set_check(block_of(&mut backup, position), other);
                cases.push(restore(&backup, window.len() + 9));
            }
        }
    }
    cases
}

/// Blocks of one byte again and again, none of them good, with that byte as the check and with the right check.
fn alike() -> Vec<Case> {
    let mut cases = Vec::new();
    for byte in [0, 1, 0xFF] {
        for count in 1..=2 {
            let mut backup = vec![byte; BLOCK * count];
            cases.push(restore(&backup, BLOCK));
            (0..count).for_each(|position| recheck(block_of(&mut backup, position)));
            cases.push(restore(&backup, BLOCK));
        }
    }
    cases
}

/// Good backups in each room.
fn restored() -> Vec<Case> {
    let mut cases = Vec::new();
    for length in LENGTHS {
        for (space, fill) in [(0, 0), (255, 0xFF), (7, 3)] {
            let bytes = if fill == 3 { window(length) } else { vec![fill; length] };
            let backup = good(space, &bytes);
            let payloads = PAYLOAD * blocks_for(length);
            for room in [length, length - 1, length + 1, payloads, backup.len(), 0] {
                cases.push(restore(&backup, room));
            }
        }
    }
    let longest = window(PAYLOAD * MOST_BLOCKS);
    let backup = good(9, &longest);
    cases.extend([longest.len(), longest.len() - 1, OUTPUT_LIMIT as usize].map(|room| restore(&backup, room)));
    let mut late = backup.clone();
    late[BLOCK * MOST_BLOCKS - 3] ^= 1;
    cases.push(restore(&late, longest.len()));
    recheck(block_of(&mut late, MOST_BLOCKS - 1));
    cases.push(restore(&late, longest.len()));
    cases.push(restore(&backup[..BLOCK * (MOST_BLOCKS - 1)], longest.len()));
    cases
}

/// One byte of the sample changed, at each of the 512 places of a block.
fn changed() -> Vec<Case> {
    let backup = sample();
    let changed = |place: usize| {
        let mut backup = backup.clone();
        let byte = &mut block_of(&mut backup, place % 3)[place];
        *byte = match place / 3 % 4 {
            0 => !*byte,
            1 => byte.wrapping_add(1),
            2 => *byte ^ 0x80,
            _ => byte.wrapping_sub(1),
        };
        restore(&backup, if place % 5 == 0 { SAMPLE - 1 } else { SAMPLE })
    };
    (0..BLOCK).map(changed).collect()
}

/// What a head or a padding may hold instead, by the first byte that is changed.
fn spoilt(position: usize, last: bool) -> Vec<(usize, Vec<u8>)> {
    let number = position as u32;
    let numbers = [number + 1, number.wrapping_sub(1), number | 1 << 8, number | 1 << 16, number | 1 << 24, u32::MAX];
    let mut all: Vec<(usize, Vec<u8>)> = numbers.map(|number| (0, number.to_be_bytes().to_vec())).to_vec();
    let lengths = [0u16, 1, 99, 100, 101, 246, 501, 502, 503, 504, 512, 758, 65_535];
    all.extend(lengths.map(|length| (4, length.to_be_bytes().to_vec())));
    all.extend([252, 254, 0, 255, 125].map(|space| (6, vec![space])));
    all.extend([0, 1, 2, 3, 128, 129, 255].map(|flag| (7, vec![flag])));
    if last {
        let padding = HEAD + SAMPLE % PAYLOAD;
        all.extend([padding, padding + 1, 300, CHECK - 2, CHECK - 1].map(|place| (place, vec![1])));
        all.push((padding, vec![0xFF; CHECK - padding]));
        all.push((padding + 1, vec![0x80, 0x80]));
    }
    all
}

fn put(backup: &mut [u8], position: usize, place: usize, bytes: &[u8]) {
    let block = block_of(backup, position);
    block[place..place + bytes.len()].copy_from_slice(bytes);
    recheck(block);
}

/// Each rule of 44 broken in each block, with the check right, in two rooms. A few of these are good: the last block may be longer.
fn rules() -> Vec<Case> {
    let backup = sample();
    let mut cases = Vec::new();
    for position in 0..3 {
        for (place, bytes) in spoilt(position, position == 2) {
            let mut backup = backup.clone();
            put(&mut backup, position, place, &bytes);
            cases.extend([PAYLOAD * 3, SAMPLE - 1].map(|room| restore(&backup, room)));
        }
    }
    cases
}

/// Lengths that aren't full, with nothing behind the payload, in each block.
fn short_payloads() -> Vec<Case> {
    let mut cases = Vec::new();
    for position in 0..3 {
        for length in [0, 1, 250, 501, 502] {
            let mut backup = good(0, &window(PAYLOAD * 3));
            let block = block_of(&mut backup, position);
            block[HEAD + length..CHECK].fill(0);
            put(&mut backup, position, 4, &(length as u16).to_be_bytes());
            cases.extend([PAYLOAD * 3, PAYLOAD * 2 + length].map(|room| restore(&backup, room)));
        }
    }
    cases
}

/// A backup of one block: any space is good there, and the flag is 1.
fn single() -> Vec<Case> {
    let backup = good(5, &window(100));
    let mut cases = Vec::new();
    for (place, bytes) in spoilt(0, true) {
        let mut backup = backup.clone();
        put(&mut backup, 0, place, &bytes);
        cases.push(restore(&backup, PAYLOAD));
    }
    cases
}

/// The check wrong in one block, a rule broken in another or in the same one, in any order.
fn orders() -> Vec<Case> {
    let backup = sample();
    let mut cases = Vec::new();
    for wrong in 0..3 {
        for broken in 0..3 {
            for (place, byte) in [(3, 9), (5, 0), (6, 1), (7, 7), (CHECK - 1, 1)] {
                let mut backup = backup.clone();
                put(&mut backup, broken, place, &[byte]);
                block_of(&mut backup, wrong)[CHECK] ^= 1;
                cases.extend([SAMPLE, 10].map(|room| restore(&backup, room)));
            }
        }
    }
    cases
}

/// Whole blocks exchanged, doubled, dropped and cut off, and two backups one behind the other.
fn moved() -> Vec<Case> {
    let backup = sample();
    let block = |position: usize| backup[BLOCK * position..BLOCK * (position + 1)].to_vec();
    #[rustfmt::skip]
    let orders: [&[usize]; 20] = [
        &[0], &[1], &[2], &[0, 1], &[0, 2], &[1, 2], &[2, 2], &[0, 0], &[1, 0, 2], &[0, 2, 1], &[2, 1, 0], &[1, 2, 0],
        &[0, 0, 1, 2], &[0, 1, 1, 2], &[0, 1, 2, 2], &[0, 1, 2, 0], &[0, 1, 2, 0, 1, 2], &[0, 1, 2, 1], &[0, 1, 0, 2], &[1, 1, 1],
    ];
    let mut cases = Vec::new();
    for order in orders {
        let moved: Vec<u8> = order.iter().flat_map(|position| block(*position)).collect();
        cases.push(restore(&moved, SAMPLE));
        // The same with the numbers made right.
        let mut numbered = moved.clone();
        (0..order.len()).for_each(|position| put(&mut numbered, position, 3, &[position as u8]));
        cases.push(restore(&numbered, PAYLOAD * 3));
    }
    cases
}

/// Lengths about the multiples of 512, of a good backup and of one whose first block is bad.
fn lengths() -> Vec<Case> {
    let backup = sample();
    let long = [sample(), vec![0; BLOCK]].concat();
    let mut cases = Vec::new();
    for length in [0, 1, 2, 255, 256, 502, 510, 511, 513, 1_023, 1_024, 1_025, 1_535, 1_536, 1_537, 1_792, 2_047] {
        cases.push(restore(&long[..length], SAMPLE));
        let mut bad = long[..length].to_vec();
        if let Some(byte) = bad.first_mut() {
            *byte = 1;
        }
        cases.push(restore(&bad, 0));
    }
    let mut most = backup.repeat(MOST_BLOCKS / 3 + 1);
    most.truncate(BACKUP_LIMIT);
    cases.push(restore(&most, SAMPLE));
    cases
}

/// Words of the payload exchanged, or FFFF for 0000: the check doesn't tell, so the bytes are another window's.
fn unnoticed() -> Vec<Case> {
    let mut cases = Vec::new();
    for (one, other) in [(HEAD, HEAD + 2), (HEAD, CHECK - 2), (0, 2), (2, HEAD), (4, 6)] {
        let mut backup = good(3, &window(PAYLOAD));
        (0..2).for_each(|byte| backup.swap(one + byte, other + byte));
        cases.push(restore(&backup, PAYLOAD));
    }
    for place in [0, 2, HEAD, 100, CHECK - 2] {
        let mut backup = good(3, &[0; 200]);
        backup[place..place + 2].fill(0xFF);
        cases.push(restore(&backup, PAYLOAD));
    }
    cases
}

/// The boundary cases of backups.
pub fn of_backup() -> Vec<Case> {
    [
        stored(),
        stored_long(),
        checks(),
        alike(),
        restored(),
        changed(),
        rules(),
        short_payloads(),
        single(),
        orders(),
        moved(),
        lengths(),
        unnoticed(),
    ]
    .into_iter()
    .flatten()
    .collect()
}
