//! Backups of a window in blocks of 512 bytes, by request R-9: storing and reading back. Sums, lengths and places are wide numbers, so that nothing
//! wraps, and the lent output is touched only when nothing is refused any more.

use crate::refusal::{refusal, unplaced, Refusal};

/// "blocks of 512 bytes"
pub const BLOCK: usize = 512;
/// "502 bytes of payload"
pub const PAYLOAD: usize = 502;
/// Where the payload begins in a block.
pub const HEAD: usize = 8;
/// Where the check begins in a block: "the last two bytes"
pub const CHECK: usize = 510;
/// "modulo 65,535"
pub const MODULUS: u128 = 65_535;
/// "longer than 2^32 bytes"
const LONGEST: u128 = 1 << 32;
/// "of a space above 255"
const SPACES: u64 = 255;

/// Bytes as a number, big-endian.
fn number(bytes: &[u8]) -> u128 {
    bytes.iter().fold(0, |number, byte| number << 8 | *byte as u128)
}

/// "bytes 0 to 3 are the block number"
pub fn number_of(block: &[u8]) -> u128 {
    number(&block[0..4])
}

/// "4 to 5 the payload length"
pub fn length_of(block: &[u8]) -> usize {
    number(&block[4..6]) as usize
}

/// "6 the space"
pub fn space_of(block: &[u8]) -> u8 {
    block[6]
}

/// "7 is 1 in the last block and else 0"
pub fn flag_of(block: &[u8]) -> u8 {
    block[7]
}

/// The sum of the 255 words of 16 bits before the check.
pub fn sum(block: &[u8]) -> u128 {
    block[..CHECK].chunks(2).map(number).sum()
}

/// The check that is right for a block.
pub fn check(block: &[u8]) -> u16 {
    (sum(block) % MODULUS) as u16
}

/// Cause 40, by the window's length and space.
pub fn is_storable(space: u64, length: u128) -> bool {
    length > 0 && length <= LONGEST && space <= SPACES
}

/// How many blocks hold so many bytes.
pub fn blocks_for(length: usize) -> usize {
    length.div_ceil(PAYLOAD)
}

/// One block, with its check.
fn block(number: u32, payload: &[u8], space: u8, last: bool) -> Vec<u8> {
    let mut block = Vec::new();
    block.extend(number.to_be_bytes());
    block.extend((payload.len() as u16).to_be_bytes());
    block.push(space);
    block.push(last as u8);
    block.extend_from_slice(payload);
    block.resize(CHECK, 0);
    block.extend(check(&block).to_be_bytes());
    block
}

/// Stores a window at the front of the lent output and tells how many bytes that takes. Causes 40 and 41.
pub fn store(space: u64, window: &[u8], lent: &mut [u8]) -> Result<usize, Refusal> {
    if !is_storable(space, window.len() as u128) {
        return Err(unplaced(40));
    }
    let count = blocks_for(window.len());
    if lent.len() < BLOCK * count {
        return Err(unplaced(41));
    }
    for (position, payload) in window.chunks(PAYLOAD).enumerate() {
        let bytes = block(position as u32, payload, space as u8, position + 1 == count);
        lent[BLOCK * position..BLOCK * (position + 1)].copy_from_slice(&bytes);
    }
    Ok(BLOCK * count)
}

/// What may be wrong with a block.
#[derive(Debug, Clone, Copy, PartialEq, Eq, PartialOrd, Ord)]
pub enum Fault {
    Check,
    Number,
    Space,
    Length,
    Flag,
    Padding,
}

impl Fault {
    pub fn number(self) -> u8 {
        match self {
            Fault::Check => 43,
            _ => 44,
        }
    }
}

/// What a block is held to beside the rules that are the same for all.
#[derive(Debug, Clone, Copy)]
pub struct Due {
    pub position: u128,
    pub last: bool,
    /// The space of block 0.
    pub space: u8,
}

/// "the payload length from 1 to 502", "every block but the last is full"
fn length_is_good(length: usize, last: bool) -> bool {
    if last {
        (1..=PAYLOAD).contains(&length)
    } else {
        length == PAYLOAD
    }
}

/// The bytes of the 502 behind a payload of this length.
fn padding(block: &[u8], length: usize) -> &[u8] {
    &block[HEAD + length.min(PAYLOAD)..CHECK]
}

/// All that is wrong with a block, in the order of the request.
pub fn faults(block: &[u8], due: Due) -> Vec<Fault> {
    let length = length_of(block);
    let asked = [
        (number(&block[CHECK..]) != check(block) as u128, Fault::Check),
        (number_of(block) != due.position, Fault::Number),
        (space_of(block) != due.space, Fault::Space),
        (!length_is_good(length, due.last), Fault::Length),
        (flag_of(block) != due.last as u8, Fault::Flag),
        (padding(block, length).iter().any(|byte| *byte != 0), Fault::Padding),
    ];
    asked.into_iter().filter(|(is, _)| *is).map(|(_, fault)| fault).collect()
}

/// Whether reading comes to the blocks at all: cause 42.
pub fn is_of_blocks(backup: &[u8]) -> bool {
    !backup.is_empty() && backup.len() % BLOCK == 0
}

/// What is wrong with each block of a backup that is of blocks.
pub fn faults_of(backup: &[u8]) -> Vec<Vec<Fault>> {
    let count = backup.len() / BLOCK;
    let space = space_of(backup);
    let due = |position: usize| Due { position: position as u128, last: position + 1 == count, space };
    backup.chunks(BLOCK).enumerate().map(|(position, block)| faults(block, due(position))).collect()
}

/// The payload of a good block.
fn payload(block: &[u8]) -> &[u8] {
    &block[HEAD..HEAD + length_of(block)]
}

/// Stores the window's bytes at the front of the lent output and tells how many they are, and the space. Causes 42, 43, 44 and 41.
pub fn restore(backup: &[u8], lent: &mut [u8]) -> Result<(usize, u8), Refusal> {
    if !is_of_blocks(backup) {
        return Err(unplaced(42));
    }
    for (position, faults) in faults_of(backup).iter().enumerate() {
        if let Some(first) = faults.first() {
            return Err(refusal(first.number(), position));
        }
    }
    let window: Vec<u8> = backup.chunks(BLOCK).flat_map(payload).copied().collect();
    if lent.len() < window.len() {
        return Err(unplaced(41));
    }
    lent[..window.len()].copy_from_slice(&window);
    Ok((window.len(), space_of(backup)))
}
