//! What it costs to call the library: the boundary's own part of a call, and the Rust crate's iterator beside listing in batches.

use crate::answers::lent;
use crate::planning::ROOM;
use crate::{least, long, proved, texts};
use planksling::Table;
use std::hint::black_box;

/// A text as small as descriptions are.
const SMALL: usize = 2_000;
/// Variables of a batch, as many as the iterator lists at once.
const BATCH: usize = 128;
/// The most that the boundary may cost, in parts of a planning, and the iterator, in times of listing.
const PART: f64 = 0.02;
const TIMES: f64 = 1.3;

/// A call whose text is refused at its first byte, beside planning a small text: it has all of the boundary's work and next to none of planning's.
fn boundary() -> bool {
    const CALLS: usize = 1000;
    let text = texts::ordinary(SMALL);
    let (mut table, mut other) = (lent(ROOM), lent(ROOM));
    let many = |text: &[u8], table: &mut [i64]| {
        for _ in 0..CALLS {
            let _ = black_box(proved::plan(black_box(text), black_box(table)));
        }
    };
    let (refused, planned) = least(|| many(&[], &mut other), || many(&text, &mut table), 100);
    let (refused, planned) = (refused * 1e9 / CALLS as f64, planned * 1e9 / CALLS as f64);
    let part = refused / planned;
    println!(
        "planning {} bytes: {planned:.0} ns; a call that is refused at once: {refused:.1} ns, {part:.4} of it",
        text.len()
    );
    part <= PART
}

/// Goes through 1,000,000 variables by the iterator and by batches.
fn iterator() -> bool {
    let mut worst: f64 = 0.0;
    for (name, numbers) in long() {
        let table = Table::try_from(&numbers[..]).expect("a plan");
        let mut batch = [0; 5 * BATCH];
        let (mut mine, mut theirs) = (0, 0);
        let (iterated, listed) = least(
            || mine = black_box(&table).iter().map(|variable| variable.address).sum(),
            || {
                theirs = 0;
                let mut n = 0;
                loop {
                    let count = proved::list(black_box(&numbers), n, &mut batch);
                    if count == 0 {
                        break;
                    }
                    theirs += batch.chunks(5).take(count).map(|variable| variable[2]).sum::<u64>();
                    n += count as u64;
                }
            },
            40,
        );
        assert_eq!(mine, theirs, "{name}");
        let ratio = iterated / listed;
        println!(
            "iterating over 1,000,000, {name}: {:.2} ns, in batches of {BATCH} {:.2} ns, ratio {ratio:.2}",
            iterated * 1e3,
            listed * 1e3
        );
        worst = worst.max(ratio);
    }
    worst <= TIMES
}

/// Does what the arguments ask of the library; false where they ask nothing. The status is 1 where a bound is passed.
pub fn asked() -> bool {
    if !std::env::args().skip(1).eq(["library"]) {
        return false;
    }
    let (cheap, quick) = (boundary(), iterator());
    if !cheap || !quick {
        println!("FAILED: a call may cost {PART} of a planning, iterating {TIMES} times listing");
        std::process::exit(1);
    }
    true
}
