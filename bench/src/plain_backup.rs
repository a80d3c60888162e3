//! A plain program that stores a window in blocks of 512 bytes and reads it back.

const BLOCK: usize = 512;
const PAYLOAD: usize = 502;
/// The bytes of a block before its payload, and those before its check.
const HEAD: usize = 8;
const FRONT: usize = 510;

/// The number of a refusal and its place.
pub type Refusal = (usize, usize);

/// The sum of the words before a block's check modulo 65,535. Words are summed as the processor has them and the sum is turned: 256 times a word with
/// its lowest byte first leaves what the word leaves.
fn check(block: &[u8]) -> u16 {
    let sum: u32 = block[..FRONT].chunks_exact(2).map(|word| u32::from(u16::from_le_bytes([word[0], word[1]]))).sum();
    (sum % 65_535 * 256 % 65_535) as u16
}

fn pair(block: &[u8], at: usize) -> u16 {
    u16::from_be_bytes([block[at], block[at + 1]])
}

/// Stores a window's bytes, of this space, and tells how many bytes the blocks have.
pub fn store(space: u64, window: &[u8], output: &mut [u8]) -> Result<usize, Refusal> {
    if window.is_empty() || window.len() as u64 > 1 << 32 || space > 255 {
        return Err((40, 0));
    }
    let blocks = window.len().div_ceil(PAYLOAD);
    let output = output.get_mut(..blocks * BLOCK).ok_or((41, 0))?;
    for (number, (payload, block)) in window.chunks(PAYLOAD).zip(output.chunks_exact_mut(BLOCK)).enumerate() {
        block[..4].copy_from_slice(&(number as u32).to_be_bytes());
        block[4..6].copy_from_slice(&(payload.len() as u16).to_be_bytes());
        block[6] = space as u8;
        block[7] = u8::from(number + 1 == blocks);
        let (used, padding) = block[HEAD..FRONT].split_at_mut(payload.len());
        used.copy_from_slice(payload);
        padding.fill(0);
        let sum = check(block);
        block[FRONT..].copy_from_slice(&sum.to_be_bytes());
    }
    Ok(blocks * BLOCK)
}

/// Is the block good at this position, if its check is?
fn is_good(block: &[u8], position: usize, last: bool, space: u8) -> bool {
    let number = u32::from_be_bytes([block[0], block[1], block[2], block[3]]);
    let used = usize::from(pair(block, 4));
    let range = if last { 1..=PAYLOAD } else { PAYLOAD..=PAYLOAD };
    number as usize == position
        && block[6] == space
        && range.contains(&used)
        && block[7] == u8::from(last)
        && block[HEAD + used..FRONT].iter().all(|&byte| byte == 0)
}

/// Reads a backup into the output, and tells the length and the space of the window. All blocks are judged before a byte is written.
pub fn read(backup: &[u8], output: &mut [u8]) -> Result<(usize, u64), Refusal> {
    if backup.is_empty() || backup.len() % BLOCK != 0 {
        return Err((42, 0));
    }
    let (end, space) = (backup.len() / BLOCK - 1, backup[6]);
    for (position, block) in backup.chunks_exact(BLOCK).enumerate() {
        if check(block) != pair(block, FRONT) {
            return Err((43, position));
        }
        if !is_good(block, position, position == end, space) {
            return Err((44, position));
        }
    }
    let size = end * PAYLOAD + usize::from(pair(backup, end * BLOCK + 4));
    let window = output.get_mut(..size).ok_or((41, 0))?;
    for (payload, block) in window.chunks_mut(PAYLOAD).zip(backup.chunks_exact(BLOCK)) {
        payload.copy_from_slice(&block[HEAD..HEAD + payload.len()]);
    }
    Ok((size, u64::from(space)))
}
