//! The plain program that lists: it reads a description, plans it, and prints the count and a line for each variable, through a buffer.

use crate::plain::GROUP;
use crate::planner;
use crate::printing;
use std::io::{self, Read, StdoutLock, Write};

/// The numbers of 1,024 records.
const ROOM: usize = 8 * 1024;
const FULL: usize = 1 << 16;

/// `00` to `99`.
const PAIRS: [[u8; 2]; 100] = {
    let mut pairs = [[0; 2]; 100];
    let mut n = 0;
    while n < 100 {
        pairs[n] = [b'0' + n as u8 / 10, b'0' + n as u8 % 10];
        n += 1;
    }
    pairs
};

fn put_number(bytes: &mut Vec<u8>, mut n: u64) {
    let mut digits = [0; 20];
    let mut at = digits.len();
    while n >= 10 {
        at -= 2;
        digits[at..at + 2].copy_from_slice(&PAIRS[(n % 100) as usize]);
        n /= 100;
    }
    if n > 0 || at == digits.len() {
        at -= 1;
        digits[at] = b'0' + n as u8;
    }
    bytes.extend_from_slice(&digits[at..]);
}

/// A line whose digits are made here.
#[inline(always)]
fn by_hand(bytes: &mut Vec<u8>, numbers: [u64; 4], kind: &str) {
    for n in numbers {
        put_number(bytes, n);
        bytes.push(b' ');
    }
    bytes.extend_from_slice(kind.as_bytes());
    bytes.push(b'\n');
}

/// A line by Rust's own formatting.
fn formatted(bytes: &mut Vec<u8>, [n, space, address, size]: [u64; 4], kind: &str) {
    writeln!(bytes, "{n} {space} {address} {size} {kind}").expect("memory");
}

fn word(kind: i64) -> &'static str {
    match kind {
        3 => "int",
        4 => "string",
        5 => "eventid",
        _ => "float",
    }
}

struct Lister<'a, F> {
    records: &'a [[i64; 8]],
    form: F,
    met: u64,
    bytes: Vec<u8>,
    output: StdoutLock<'static>,
}

impl<F: Fn(&mut Vec<u8>, [u64; 4], &str)> Lister<'_, F> {
    fn flush(&mut self) -> io::Result<()> {
        self.output.write_all(&self.bytes)?;
        self.bytes.clear();
        Ok(())
    }

    fn all(&mut self) -> io::Result<()> {
        let mut i = 0;
        while i < self.records.len() {
            let [_, _, origin, space, _, next, ..] = self.records[i];
            self.members(i + 1, next as usize, origin, space)?;
            i = next as usize;
        }
        self.flush()
    }

    /// The variables of the records from one to before another; the address behind them.
    fn members(&mut self, from: usize, end: usize, origin: i64, space: i64) -> io::Result<i64> {
        let (mut i, mut address) = (from, origin);
        while i < end {
            let [kind, _, offset, size, copies, next, ..] = self.records[i];
            address += offset;
            if kind == GROUP {
                for _ in 0..copies {
                    address = self.members(i + 1, next as usize, address, space)?;
                }
            } else {
                (self.form)(&mut self.bytes, [self.met, space as u64, address as u64, size as u64], word(kind));
                self.met += 1;
                address += size;
                if self.bytes.len() >= FULL {
                    self.flush()?;
                }
            }
            i = next as usize;
        }
        Ok(address)
    }
}

/// Lists the description on standard input.
fn list(form: impl Fn(&mut Vec<u8>, [u64; 4], &str)) -> io::Result<()> {
    let mut text = Vec::new();
    io::stdin().take(65_536).read_to_end(&mut text)?;
    let mut table = vec![0; ROOM];
    let mut output = io::stdout().lock();
    match planner::plan(&text, &mut table) {
        Err(refusal) => writeln!(output, "refused {} at {}", refusal.number, refusal.place),
        Ok(counts) => {
            let records = &table.as_chunks().0[..counts.records];
            let mut bytes = Vec::with_capacity(FULL + 128);
            writeln!(bytes, "variables {}", counts.variables)?;
            Lister { records, form, met: 0, bytes, output }.all()
        }
    }
}

/// Does what the arguments ask of printing; false where they ask nothing.
pub fn asked() -> bool {
    let words: Vec<String> = std::env::args().skip(1).collect();
    match words.iter().map(String::as_str).collect::<Vec<_>>().as_slice() {
        ["printing"] => printing::measure().expect("two programs and a folder for their lines"),
        ["print"] => list(by_hand).expect("standard input and output"),
        ["print", "formatted"] => list(formatted).expect("standard input and output"),
        _ => return false,
    }
    true
}
