//! Storing a window in blocks and reading it back, proved and plain, in turns.

#[allow(dead_code)] // not every call is timed
#[path = "../../rust-backup/src/boundary.rs"]
mod boundary;

use crate::least;
use crate::plain_backup::{self, Refusal};
use boundary::{planksling_backup_read, planksling_backup_store};
use std::hint::black_box;

/// A window that no cache holds, and one that lies in the cache, of which a round makes many calls.
const LARGE: usize = 64 << 20;
const SMALL: usize = 64 << 10;
const CALLS: usize = 500;
const ROUNDS: usize = 40;
const SPACE: u64 = 253;

fn proved_store(space: u64, window: &[u8], output: &mut [u8]) -> Result<usize, Refusal> {
    let (mut stored, mut place) = (0, 0);
    let (to, room) = (output.as_mut_ptr(), output.len());
    let told =
        unsafe { planksling_backup_store(space, window.as_ptr(), window.len(), to, room, &mut stored, &mut place) };
    if told == 0 {
        Ok(stored)
    } else {
        Err((told, place))
    }
}

fn proved_read(backup: &[u8], output: &mut [u8]) -> Result<(usize, u64), Refusal> {
    let (mut length, mut space, mut place) = (0, 0, 0);
    let (to, room) = (output.as_mut_ptr(), output.len());
    let told =
        unsafe { planksling_backup_read(backup.as_ptr(), backup.len(), to, room, &mut length, &mut space, &mut place) };
    if told == 0 {
        Ok((length, space))
    } else {
        Err((told, place))
    }
}

#[inline(never)]
fn plain_store(space: u64, window: &[u8], output: &mut [u8]) -> Result<usize, Refusal> {
    plain_backup::store(space, window, output)
}

#[inline(never)]
fn plain_read(backup: &[u8], output: &mut [u8]) -> Result<(usize, u64), Refusal> {
    plain_backup::read(backup, output)
}

/// Bytes that look like nothing.
fn window(length: usize) -> Vec<u8> {
    (0..length as u64).map(|i| (i.wrapping_mul(0x9e37_79b9_7f4a_7c15) >> 56) as u8).collect()
}

/// Both store the same bytes, both read them back, and both refuse a changed byte and an output that is too short. The backup.
fn same(window: &[u8]) -> Vec<u8> {
    let blocks = window.len().div_ceil(502);
    let (mut mine, mut theirs) = (vec![1; blocks * 512], vec![2; blocks * 512]);
    assert_eq!(proved_store(SPACE, window, &mut mine), Ok(mine.len()));
    assert_eq!(plain_store(SPACE, window, &mut theirs), Ok(theirs.len()));
    assert!(mine == theirs, "{} bytes", window.len());
    let short = mine.len() - 1;
    assert_eq!(proved_store(SPACE, window, &mut theirs[..short]), Err((41, 0)));
    assert_eq!(plain_store(SPACE, window, &mut theirs[..short]), Err((41, 0)));
    let mut again = vec![3; window.len()];
    for read in [proved_read, plain_read] {
        again.fill(3);
        assert_eq!(read(&mine, &mut again), Ok((window.len(), SPACE)));
        assert!(again == window, "{} bytes", window.len());
        assert_eq!(read(&mine, &mut again[1..]), Err((41, 0)));
    }
    let changed = theirs.len() / 2;
    theirs[changed] ^= 1;
    for read in [proved_read, plain_read] {
        assert_eq!(read(&theirs, &mut again), Err((43, changed / 512)));
    }
    mine
}

fn tell(what: &str, bytes: usize, calls: usize, (proved, plain): (f64, f64)) {
    let shown = |seconds: f64| {
        let each = seconds / calls as f64;
        let (amount, unit) = if each < 1e-3 { (each * 1e6, "us") } else { (each * 1e3, "ms") };
        format!("{amount:.2} {unit}, {:.2} GB/s", bytes as f64 / each / 1e9)
    };
    println!("{what} {bytes} bytes: proved {}; plain {}; ratio {:.2}", shown(proved), shown(plain), proved / plain);
}

/// The least times of so many calls.
fn compare(length: usize, calls: usize) {
    let window = window(length);
    let backup = same(&window);
    let (mut mine, mut theirs) = (backup.clone(), backup.clone());
    let times = least(
        || (0..calls).for_each(|_| _ = black_box(proved_store(SPACE, black_box(&window), black_box(&mut mine)))),
        || (0..calls).for_each(|_| _ = black_box(plain_store(SPACE, black_box(&window), black_box(&mut theirs)))),
        ROUNDS,
    );
    tell("storing", length, calls, times);
    let (mut mine, mut theirs) = (window.clone(), window.clone());
    let times = least(
        || (0..calls).for_each(|_| _ = black_box(proved_read(black_box(&backup), black_box(&mut mine)))),
        || (0..calls).for_each(|_| _ = black_box(plain_read(black_box(&backup), black_box(&mut theirs)))),
        ROUNDS,
    );
    tell("reading", length, calls, times);
}

/// Does what the argument asks of backups; false where it asks nothing.
pub fn asked() -> bool {
    let asked = std::env::args().skip(1).eq(["backups"]);
    if asked {
        [1, 2, 501, 502, 503, 1_003, 1_004, 1_005, 70_000].into_iter().for_each(|length| _ = same(&window(length)));
        compare(LARGE, 1);
        compare(SMALL, CALLS);
    }
    asked
}
