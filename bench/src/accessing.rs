//! Writing and reading: a call of each, and of the inner ones once text and table are known, beside planning the same text. All of them are proved.

use crate::answers::lent;
use crate::planning::{number, ROOM};
use crate::proved::{self, At, Of};
use crate::{stack, texts};
use std::hint::black_box;
use std::time::Instant;

/// More variables than the texts have.
const MOST: usize = 10_000;
const INT: u64 = 3;
/// How much of the window lies before the variable.
const BEFORE: u64 = 24;

/// A text, the table planned from it and the end of its content, as the check tells it: what the inner calls require.
pub struct Known {
    text: Vec<u8>,
    table: Vec<i64>,
    end: usize,
}

/// A variable, and where the window around it begins.
#[derive(Clone, Copy)]
pub struct Place {
    n: u64,
    space: u64,
    address: u64,
    size: usize,
    first: u64,
}

impl Place {
    pub fn at(self) -> At {
        At { n: self.n, space: self.space, first: self.first }
    }
}

impl Known {
    pub fn new(text: Vec<u8>) -> Known {
        let mut table = lent(ROOM);
        let counts = proved::plan(&text, &mut table).expect("a plan");
        table.truncate(8 * counts.records);
        let end = proved::check(&text, &table).expect("the table planned from the text");
        assert_eq!(end, text.len() - 1);
        Known { text, table, end }
    }

    /// To be checked by each call.
    fn unchecked(&self) -> Of<'_> {
        Of { text: &self.text, table: &self.table, end: None }
    }

    /// As it has been checked.
    pub fn checked(&self) -> Of<'_> {
        Of { end: Some(self.end), ..self.unchecked() }
    }

    fn write(&self, place: Place, window: &mut [u8], value: u64) -> usize {
        proved::write(self.unchecked(), place.at(), window, value)
    }

    pub fn write_known(&self, place: Place, window: &mut [u8], value: u64) -> usize {
        proved::write(self.checked(), place.at(), window, value)
    }

    fn read(&self, place: Place, window: &[u8]) -> (usize, u64) {
        proved::read(self.unchecked(), place.at(), window)
    }

    fn read_known(&self, place: Place, window: &[u8]) -> (usize, u64) {
        proved::read(self.checked(), place.at(), window)
    }

    /// The first int of this size, from the middle of all variables on, that accepts the value.
    pub fn chosen(&self, size: usize, value: u64) -> Place {
        let mut rows = vec![0; 5 * MOST];
        let all = proved::list(&self.table, 0, &mut rows);
        let place = |n: usize| {
            let [_, space, address, wide, kind] = rows[5 * n..5 * n + 5] else { unreachable!() };
            let first = address.saturating_sub(BEFORE);
            (kind == INT && wide == size as u64).then_some(Place { n: n as u64, space, address, size, first })
        };
        let is_accepted = |at: &Place| self.write(*at, &mut window(), value) == 0;
        (all / 2..all).filter_map(place).find(is_accepted).expect("an int that accepts the value")
    }
}

pub fn window() -> [u8; 64] {
    [0xa5; 64]
}

/// The window as it should be after a write: the value's lowest bytes, highest first, where the variable stands.
pub fn expected(at: Place, value: u64) -> [u8; 64] {
    let mut held = window();
    let from = (at.address - at.first) as usize;
    held[from..from + at.size].copy_from_slice(&value.to_be_bytes()[8 - at.size..]);
    held
}

type Write = fn(&Known, Place, &mut [u8], u64) -> usize;
type Read = fn(&Known, Place, &[u8]) -> (usize, u64);

/// What is written stands where it should and is read again; a value out of bounds changes nothing.
fn try_out(known: &Known, at: Place, value: u64, write: Write, read: Read) {
    let mut held = window();
    assert_eq!(write(known, at, &mut held, 1 << 40), 23);
    assert_eq!(held, window());
    assert_eq!(write(known, at, &mut held, value), 0);
    assert_eq!(held, expected(at, value));
    assert_eq!(read(known, at, &held), (0, value));
}

/// The seconds of one call, over so many.
pub fn time<T>(calls: usize, mut call: impl FnMut() -> T) -> f64 {
    let begun = Instant::now();
    for _ in 0..calls {
        let _ = black_box(call());
    }
    begun.elapsed().as_secs_f64() / calls as f64
}

/// One of the timed calls, by name.
fn call(name: &str, known: &Known, at: Place, value: u64, calls: usize) -> f64 {
    let mut held = expected(at, value);
    let mut table = lent(ROOM);
    let known = black_box(known);
    match name {
        "plan" => time(calls, || proved::plan(&known.text, black_box(&mut table))),
        "check" => time(calls, || proved::check(&known.text, &known.table)),
        "write" => time(calls, || known.write(at, black_box(&mut held), value)),
        "read" => time(calls, || known.read(at, black_box(&held))),
        "inner write" => time(calls, || known.write_known(at, black_box(&mut held), value)),
        "inner read" => time(calls, || known.read_known(at, black_box(&held))),
        _ => panic!("{name}: no such call"),
    }
}

const NAMES: [&str; 6] = ["plan", "check", "write", "read", "inner write", "inner read"];
/// Ints to write, by their size, with a value that they accept.
pub const INTS: [(&str, usize, u64); 2] =
    [("an int of 2 bytes with bounds", 2, 0x0102), ("an int of 1 byte with a map", 1, 2)];
const ROUNDS: usize = 200;

/// The least times of all calls, in turns.
fn least(known: &Known, at: Place, value: u64) -> [f64; 6] {
    let mut best = [f64::MAX; 6];
    for _ in 0..ROUNDS {
        for (least, name) in best.iter_mut().zip(NAMES) {
            let calls = if name.starts_with("inner") { 1000 } else { 1 + 100_000 / known.text.len() };
            *least = least.min(call(name, known, at, value, calls));
        }
    }
    best
}

fn compare(text: Vec<u8>) {
    let known = Known::new(text);
    for (what, size, value) in INTS {
        let at = known.chosen(size, value);
        try_out(&known, at, value, Known::write, Known::read);
        try_out(&known, at, value, Known::write_known, Known::read_known);
        let best = least(&known, at, value);
        let [plan, check, write, read, inner_write, inner_read] = best.map(|seconds| seconds * 1e6);
        println!("{} bytes, {} records, variable {}, {what}:", known.end + 1, known.table.len() / 8, at.n);
        println!("  plan {plan:.1} us, check {check:.1} us, check / plan {:.3}", check / plan);
        println!(
            "  write {write:.1} us, write / plan {:.3}; read {read:.1} us, read / plan {:.3}",
            write / plan,
            read / plan
        );
        println!("  inner write {inner_write:.3} us, inner / write {:.5}", inner_write / write);
        println!("  inner read {inner_read:.3} us, inner / read {:.5}", inner_read / read);
    }
    fathom(&known);
}

/// Measures the stack of one write.
fn fathom(known: &Known) {
    let (_, size, value) = INTS[0];
    let at = known.chosen(size, value);
    let bytes = |write: Write| stack::used(|| assert_eq!(write(known, at, &mut window(), value), 0));
    println!("  stack of one write: {} bytes, of an inner one {}", bytes(Known::write), bytes(Known::write_known));
}

/// Makes one call many times, on a text of this length and the int with bounds or with a map, for a profiler to look at.
fn repeat(name: &str, length: usize, which: &str, calls: usize) {
    let known = Known::new(texts::ordinary(length));
    let (_, size, value) = INTS.into_iter().find(|(what, ..)| what.ends_with(which)).expect("bounds or map");
    let at = known.chosen(size, value);
    println!("{name}: {:.3} us", 1e6 * call(name, &known, at, value, calls));
}

/// Does what the arguments ask of writing and reading; false where they ask nothing.
pub fn asked() -> bool {
    let words: Vec<String> = std::env::args().skip(1).collect();
    let words: Vec<&str> = words.iter().map(String::as_str).collect();
    match words.as_slice() {
        ["access"] => [2_000, 15_000, 60_000].into_iter().for_each(|length| compare(texts::ordinary(length))),
        ["access", name, length, which, calls] => repeat(name, number(length), which, number(calls)),
        _ => return false,
    }
    true
}
