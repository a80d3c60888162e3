//! Backups: windows about the ends of blocks and sums about the ends of the check's range; good backups, and such in which one thing or several are
//! changed, with the check left as it was or made right again.

use crate::answer::Case;
use crate::backup::{blocks_for, check, length_of, store, BLOCK, CHECK, HEAD, MODULUS, PAYLOAD};
use crate::frames::{BACKUP_LIMIT, BYTES_LIMIT, OUTPUT_LIMIT};
use crate::random::Random;

use super::accesses::fill;

/// The lengths of windows about the ends of blocks.
pub const LENGTHS: [usize; 13] = [1, 2, 3, 500, 501, 502, 503, 504, 1_003, 1_004, 1_005, 1_506, 1_507];
/// Spaces that a block has no room for; some of them have a good low byte.
pub const FAR_SPACES: [u64; 8] = [256, 257, 511, 1 << 16, 1 << 32, (1 << 32) + 5, 1 << 63, u64::MAX];
/// The greatest number of blocks that a frame holds.
pub const MOST_BLOCKS: usize = BACKUP_LIMIT / BLOCK;
/// The least and the greatest check, and those beside them.
pub const CHECKS: [u16; 4] = [0, 1, 65_533, 65_534];

/// The good backup of a window that isn't empty.
pub fn good(space: u8, window: &[u8]) -> Vec<u8> {
    let mut backup = vec![0; BLOCK * blocks_for(window.len())];
    store(space as u64, window, &mut backup).expect("a window that has a backup");
    backup
}

/// One block of a backup.
pub fn block_of(backup: &mut [u8], position: usize) -> &mut [u8] {
    &mut backup[BLOCK * position..BLOCK * (position + 1)]
}

pub fn set_check(block: &mut [u8], check: u16) {
    block[CHECK..].copy_from_slice(&check.to_be_bytes());
}

/// Makes the check right again.
pub fn recheck(block: &mut [u8]) {
    let right = check(block);
    set_check(block, right);
}

/// Sets one word of the payload of block `position` so that this check is right for the block; payloads of one byte stay as they are.
pub fn steer(space: u8, window: &mut [u8], position: usize, word: usize, check: u16) {
    let start = PAYLOAD * position;
    let words = PAYLOAD.min(window.len() - start) / 2;
    if words == 0 {
        return;
    }
    let place = start + 2 * (word % words);
    window[place..place + 2].fill(0);
    let without = crate::backup::check(block_of(&mut good(space, window), position)) as u128;
    let missing = (check as u128 + MODULUS - without) % MODULUS;
    window[place..place + 2].copy_from_slice(&(missing as u16).to_be_bytes());
}

fn some_space(random: &mut Random) -> u8 {
    match random.below(4) {
        0 => 0,
        1 => 255,
        _ => random.byte(),
    }
}

/// How long a window is: mostly at the ends of blocks or any length of up to four, seldom of many.
fn some_length(random: &mut Random, most: usize) -> usize {
    match random.below(300) {
        0..=4 => most,
        5 | 6 => most - random.below(PAYLOAD + 2),
        7 => PAYLOAD * (5 + random.below(30)) + random.pick(&[0, 1, 501]),
        8..=120 => random.pick(&LENGTHS),
        121..=150 => 1 + random.below(30),
        _ => 1 + random.below(2_000),
    }
}

/// A window's bytes; the checks of some have been steered to the ends of their range.
fn some_window(random: &mut Random, space: u8, length: usize) -> Vec<u8> {
    let mut window = fill(random, length);
    if random.chance(30) {
        let chosen = random.below(blocks_for(length));
        let all = random.chance(40);
        let check = random.pick(&CHECKS);
        for position in 0..blocks_for(length) {
            if position == chosen || all && position < 6 {
                steer(space, &mut window, position, random.below(PAYLOAD), check);
            }
        }
    }
    window
}

/// A room about the bytes that are stored.
fn some_room(random: &mut Random, needed: usize) -> u64 {
    let room = match random.below(200) {
        0 => OUTPUT_LIMIT as usize,
        1..=90 => needed,
        91..=110 => needed - 1,
        111..=115 => needed.saturating_sub(BLOCK),
        116..=120 => 0,
        121..=130 => random.below(needed),
        131..=145 => needed + 1,
        _ => needed + random.below(600),
    };
    (room as u64).min(OUTPUT_LIMIT)
}

fn store_case(random: &mut Random) -> Case {
    let space = some_space(random);
    let length = if random.chance(4) { 0 } else { some_length(random, BYTES_LIMIT) };
    let window = if length == 0 { Vec::new() } else { some_window(random, space, length) };
    let room = some_room(random, BLOCK * blocks_for(length).max(1));
    let space = if random.chance(8) { random.pick(&FAR_SPACES) } else { space as u64 };
    Case::Store { space, window, room }
}

/// A good backup of mostly few blocks.
fn some_good(random: &mut Random) -> Vec<u8> {
    let space = some_space(random);
    let length = some_length(random, PAYLOAD * MOST_BLOCKS);
    let window = some_window(random, space, length);
    good(space, &window)
}

/// A good backup of two to four blocks.
fn some_row(random: &mut Random) -> Vec<u8> {
    let space = some_space(random);
    let length = PAYLOAD * (1 + random.below(3)) + 1 + random.below(PAYLOAD);
    let window = some_window(random, space, length);
    good(space, &window)
}

fn count_of(backup: &[u8]) -> usize {
    backup.len() / BLOCK
}

/// Some block, often the last.
fn some_position(random: &mut Random, backup: &[u8]) -> usize {
    if random.chance(35) {
        count_of(backup) - 1
    } else {
        random.below(count_of(backup))
    }
}

/// Changes one byte of a block, whatever its check.
fn change_byte(random: &mut Random, block: &mut [u8]) {
    let place = match random.below(6) {
        0 => random.below(HEAD),
        1 => CHECK + random.below(2),
        2 => HEAD + length_of(block).min(PAYLOAD - 1),
        _ => random.below(BLOCK),
    };
    block[place] = match random.below(5) {
        0 => !block[place],
        1 => block[place].wrapping_add(1),
        2 => block[place] ^ (1 << random.below(8)),
        3 if block[place] != 0 => 0,
        _ => block[place] ^ (1 + random.below(255) as u8),
    };
}

/// A check near the right one, or one that another sum would have.
fn spoil_check(random: &mut Random, block: &mut [u8]) {
    let right = check(block);
    let other = match random.below(7) {
        0 => right.wrapping_add(1),
        1 => right.wrapping_sub(1),
        2 => right.swap_bytes(),
        3 => !right,
        4 => crate::backup::sum(block) as u16,
        _ if right == 0 => u16::MAX,
        _ => random.pick(&[0, u16::MAX]),
    };
    set_check(block, other);
}

/// Another block number: near, or with some of its bytes right.
fn other_number(random: &mut Random, position: u32) -> u32 {
    let byte = 1 << (8 * random.below(4));
    match random.below(4) {
        0 => position + 1,
        1 => position.wrapping_sub(1),
        2 => position ^ byte,
        _ => position | random.pick(&[1 << 8, 1 << 16, 1 << 24, 1 << 31, u32::MAX]),
    }
}

/// Another payload length; what stands behind a shorter one is now and then cleared.
fn change_length(random: &mut Random, block: &mut [u8]) {
    let length = length_of(block) as u16;
    let near = [length.wrapping_sub(1), length.wrapping_add(1), length.wrapping_add(256)];
    let other = if random.chance(25) {
        random.pick(&near)
    } else {
        random.pick(&[0, 1, 255, 256, 501, 502, 503, 504, 512, 65_535])
    };
    block[4..6].copy_from_slice(&other.to_be_bytes());
    if (other as usize) < PAYLOAD && random.chance(60) {
        block[HEAD + other as usize..CHECK].fill(0);
    }
}

/// Bytes behind the payload that aren't zero, if there is room for any.
fn spoil_padding(random: &mut Random, block: &mut [u8]) {
    let start = HEAD + length_of(block).min(PAYLOAD);
    if start >= CHECK {
        return;
    }
    let byte = random.pick(&[1, 0x80, 0xFF]);
    match random.below(5) {
        0 => block[start] = byte,
        1 => block[CHECK - 1] = byte,
        2 => block[start..CHECK].fill(byte),
        3 => {
            let chosen = start + random.below(CHECK - start);
            block[chosen] = byte;
        }
        _ => {
            block[start] = 0x80;
            block[CHECK - 1] = 0x80;
        }
    }
}

/// Breaks one of the rules of 44 in this block or the last, and makes the check right again.
fn break_rule(random: &mut Random, backup: &mut [u8], position: usize) {
    let rule = random.below(10);
    // Only the last block has a padding.
    let position = if rule > 7 { count_of(backup) - 1 } else { position };
    let block = block_of(backup, position);
    match rule {
        0 | 1 => block[..4].copy_from_slice(&other_number(random, position as u32).to_be_bytes()),
        2 => block[6] = block[6].wrapping_add(random.pick(&[1, 128, 255])),
        3..=5 => change_length(random, block),
        6 => block[7] ^= 1,
        7 => block[7] = random.pick(&[2, 3, 128, 129, 255]),
        _ => spoil_padding(random, block),
    }
    recheck(block);
}

/// One fault of 43 or 44, at this block or the last.
fn spoil(random: &mut Random, backup: &mut [u8], position: usize) {
    match random.below(6) {
        0 | 1 => change_byte(random, block_of(backup, position)),
        2 => spoil_check(random, block_of(backup, position)),
        _ => break_rule(random, backup, position),
    }
}

/// Whole blocks exchanged, doubled, dropped, turned round, or of two backups one behind the other.
fn move_blocks(random: &mut Random, backup: &[u8]) -> Vec<u8> {
    let mut blocks: Vec<&[u8]> = backup.chunks(BLOCK).collect();
    let (one, other) = (random.below(blocks.len()), random.below(blocks.len()));
    match random.below(6) {
        0 | 1 => blocks.swap(one, other),
        2 => blocks.insert(one, blocks[one]),
        3 => drop(blocks.remove(one)),
        4 => blocks.truncate(one),
        _ => blocks.extend(blocks.clone()),
    }
    blocks.truncate(MOST_BLOCKS);
    blocks.concat()
}

/// A length that isn't a positive multiple of 512, now and then of a backup with a bad block.
fn other_length(random: &mut Random, backup: &mut Vec<u8>, position: usize) {
    if random.chance(60) {
        spoil(random, backup, position);
    }
    match random.below(6) {
        0 => backup.clear(),
        1 => drop(backup.pop()),
        2 => backup.push(random.byte()),
        3 => backup.truncate(random.below(BLOCK)),
        4 => backup.truncate(random.below(backup.len())),
        _ => backup.extend(vec![0; 1 + random.below(BLOCK - 1)]),
    }
    backup.truncate(BACKUP_LIMIT);
}

/// What a check of sums doesn't notice: FFFF for 0000 in a word of the payload, or two words exchanged.
fn change_unnoticed(random: &mut Random, block: &mut [u8]) {
    let words = length_of(block) / 2;
    if words < 2 {
        return;
    }
    let place = |word: usize| HEAD + 2 * word;
    let (one, other) = (place(random.below(words)), place(random.below(words)));
    if block[one..one + 2] == [0, 0] {
        block[one..one + 2].fill(0xFF);
    } else {
        for byte in 0..2 {
            block.swap(one + byte, other + byte);
        }
    }
}

/// Blocks of any bytes, a small head on some, and any check or the right one.
fn wild(random: &mut Random) -> Vec<u8> {
    let count = 1 + random.below(3);
    let mut backup = fill(random, BLOCK * count);
    for position in 0..count {
        let block = block_of(&mut backup, position);
        if random.chance(60) {
            block[..HEAD].copy_from_slice(&[0, 0, 0, position as u8, 1, 246, 7, (position + 1 == count) as u8]);
        }
        if random.chance(80) {
            recheck(block);
        }
    }
    backup
}

/// A good backup with faults in two of its blocks or two in one.
fn with_several(random: &mut Random) -> Vec<u8> {
    let mut backup = some_row(random);
    for _ in 0..2 + random.below(2) {
        let position = random.below(count_of(&backup));
        spoil(random, &mut backup, position);
    }
    backup
}

fn some_backup(random: &mut Random) -> Vec<u8> {
    let mut backup = if random.chance(70) { some_good(random) } else { some_row(random) };
    let position = some_position(random, &backup);
    match random.below(100) {
        0..=34 => {}
        35..=52 => change_byte(random, block_of(&mut backup, position)),
        53..=56 => spoil_check(random, block_of(&mut backup, position)),
        57..=76 => break_rule(random, &mut backup, position),
        77..=82 => backup = move_blocks(random, &backup),
        83..=88 => other_length(random, &mut backup, position),
        89..=91 => change_unnoticed(random, block_of(&mut backup, position)),
        92..=97 => return with_several(random),
        _ => return wild(random),
    }
    backup
}

/// The bytes of the window if all blocks are good and full, but for what the last one says.
fn window_length(backup: &[u8]) -> usize {
    match count_of(backup) {
        0 => backup.len(),
        count => PAYLOAD * (count - 1) + length_of(&backup[BLOCK * (count - 1)..]).min(PAYLOAD),
    }
}

fn restore_case(random: &mut Random) -> Case {
    let backup = some_backup(random);
    let room = some_room(random, window_length(&backup).max(1));
    Case::Restore { backup, room }
}

/// One frame of storing or of reading back.
pub fn backup_case(random: &mut Random) -> Case {
    if random.chance(33) {
        store_case(random)
    } else {
        restore_case(random)
    }
}
