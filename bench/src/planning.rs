//! Planning: the proved planner beside the plain one, on the same texts in one run.

use crate::answers::{answer_all, lent};
use crate::planner::{self, Counts, Refusal};
use crate::proved::plan as proved;
use crate::{gate, growth, refusing, stack, texts};
use std::hint::black_box;
use std::time::Instant;

pub type Answer = Result<Counts, Refusal>;
type Planner = fn(&[u8], &mut [i64]) -> Answer;

/// The plain one, kept a call of its own as the proved one is.
#[inline(never)]
fn plain(text: &[u8], table: &mut [i64]) -> Answer {
    planner::plan(text, table)
}

/// The numbers of as many records as a text can have.
pub const ROOM: usize = 8 * 4095;

/// The answer of both with tables of so many numbers, which must be the same, and so must the tables.
pub fn agreed(what: &str, text: &[u8], room: usize) -> Answer {
    let (mut mine, mut theirs) = (lent(room), lent(room));
    let answer = proved(text, &mut mine);
    assert_eq!(answer, plain(text, &mut theirs), "{what}");
    assert!(mine == theirs, "{what}: the tables differ");
    answer
}

/// The time of one call, over so many.
fn time(plan: Planner, text: &[u8], table: &mut [i64], calls: usize) -> f64 {
    let begun = Instant::now();
    for _ in 0..calls {
        let _ = black_box(plan(black_box(text), black_box(table)));
    }
    begun.elapsed().as_secs_f64() / calls as f64
}

/// The same with so many frames more on the stack: where a frame lies makes up to a tenth of a time.
#[inline(never)]
fn deeper(frames: usize, plan: Planner, text: &[u8], table: &mut [i64], calls: usize) -> f64 {
    let frame = black_box([0_u8; 48]);
    let seconds = match frames.checked_sub(1) {
        None => time(plan, text, table, calls),
        Some(fewer) => deeper(fewer, plan, text, table, calls),
    };
    black_box(frame);
    seconds
}

/// How many depths of the stack are gone through, one in each round.
const DEPTHS: usize = 40;

/// The least times of the two, in turns, with a table of so many numbers.
pub fn least(text: &[u8], room: usize, calls: usize, rounds: usize) -> (f64, f64) {
    let mut table = lent(room);
    let mut best = (f64::MAX, f64::MAX);
    for round in 0..rounds {
        best.0 = best.0.min(deeper(round % DEPTHS, proved, text, &mut table, calls));
        best.1 = best.1.min(deeper(round % DEPTHS, plain, text, &mut table, calls));
    }
    best
}

pub fn told(answer: Answer) -> String {
    match answer {
        Ok(counts) => format!("{} records, {} variables", counts.records, counts.variables),
        Err(refusal) => format!("refused {} at {}", refusal.number, refusal.place),
    }
}

pub type Text = (&'static str, Vec<u8>);

/// The texts that planning is timed on.
pub fn texts() -> [Text; 6] {
    [
        ("2 KB", texts::ordinary(2_000)),
        ("15 KB", texts::ordinary(15_000)),
        ("60 KB", texts::ordinary(60_000)),
        ("1,000,000 variables", texts::million()),
        ("24 levels", texts::deepest()),
        ("a tag of 64 KB", texts::widest()),
    ]
}

/// Times both planners on a text.
fn compare((what, text): &Text) {
    let answer = agreed(what, text, ROOM);
    let (proved, plain) = least(text, ROOM, 1 + 100_000 / text.len(), 200);
    let (mine, theirs, ratio) = (proved * 1e6, plain * 1e6, proved / plain);
    println!("planning, {what} ({} bytes, {}):", text.len(), told(answer));
    println!("  proved {mine:.1} us, plain {theirs:.1} us, ratio {ratio:.2}");
}

/// Measures the stack of one proved call.
pub fn fathom((what, text): &Text) {
    let mut table = lent(ROOM);
    let bytes = stack::used(|| {
        let _ = black_box(proved(text, &mut table));
    });
    println!("stack of one proved call, {what}: {bytes} bytes");
}

fn measure() {
    let texts = texts();
    texts.iter().for_each(compare);
    texts.iter().for_each(fathom);
    fathom(&("a tag of 64 KB inside level 24", texts::steepest()));
}

/// Calls one planner many times on a text of this length, for a profiler to look at.
fn repeat(plan: Planner, length: usize, calls: usize) {
    let text = texts::ordinary(length);
    println!("{} bytes, {:.1} us", text.len(), 1e6 * time(plan, &text, &mut lent(ROOM), calls));
}

pub fn number(word: &str) -> usize {
    word.parse().expect("a number")
}

/// Does what the arguments ask of planning; false where they ask nothing.
pub fn asked() -> bool {
    let words: Vec<String> = std::env::args().skip(1).collect();
    let words: Vec<&str> = words.iter().map(String::as_str).collect();
    match words.as_slice() {
        ["planning"] => measure(),
        ["growth"] => growth::measure(),
        ["refused"] => refusing::measure(),
        ["gate"] => std::process::exit(!gate::passed() as i32),
        ["answers", "plain"] => answer_all(plain).expect("cases"),
        ["answers", "proved"] => answer_all(proved).expect("cases"),
        ["repeat", "plain", length, calls] => repeat(plain, number(length), number(calls)),
        ["repeat", "proved", length, calls] => repeat(proved, number(length), number(calls)),
        _ => return false,
    }
    true
}
