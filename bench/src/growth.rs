//! How the time of planning grows with the text: the time for each byte on texts of 1 to 64 KB, of one kind each. Where it grows as the text does,
//! a row is a constant.

use crate::kinds::{Kind, KINDS};
use crate::planning::{agreed, fathom, least, ROOM};
use crate::texts;

const ROUNDS: usize = 40;
/// The bytes of each text with its zero; the last is the longest that is read.
const LENGTHS: [usize; 7] = [1 << 10, 1 << 11, 1 << 12, 1 << 13, 1 << 14, 1 << 15, 1 << 16];

/// The text with blanks behind it, so that its zero stands at the last place where it may.
fn longest(mut text: Vec<u8>) -> Vec<u8> {
    text.pop();
    text.resize(LENGTHS[LENGTHS.len() - 1] - 1, b' ');
    text.push(0);
    text
}

/// The seconds of one call of each planner, and the bytes of the text.
struct Times {
    proved: f64,
    plain: f64,
    bytes: usize,
}

fn times(kind: &Kind, length: usize) -> Times {
    let text = (kind.text)(length);
    let text = if length == LENGTHS[LENGTHS.len() - 1] { longest(text) } else { text };
    let number = agreed(kind.name, &text, ROOM).map_or_else(|refusal| refusal.number, |_| 0);
    assert_eq!(number, kind.number, "{}", kind.name);
    let (proved, plain) = least(&text, ROOM, 1 + 100_000 / text.len(), ROUNDS);
    Times { proved, plain, bytes: text.len() }
}

/// A line of figures, one for each length.
fn line(what: &str, figures: impl Iterator<Item = f64>) {
    println!("{what:<46}{}", figures.map(|figure| format!(" {figure:>7.2}")).collect::<String>());
}

/// Prints the rows of a kind; the times of its longest text.
fn rows(kind: &Kind) -> Times {
    let mut all: Vec<Times> = LENGTHS.iter().map(|&length| times(kind, length)).collect();
    let each = |seconds: f64, bytes: usize| seconds * 1e9 / bytes as f64;
    line(&format!("{}, proved", kind.name), all.iter().map(|times| each(times.proved, times.bytes)));
    line("  plain", all.iter().map(|times| each(times.plain, times.bytes)));
    line("  ratio", all.iter().map(|times| times.proved / times.plain));
    all.remove(all.len() - 1)
}

/// The greatest time of the longest texts, by one of the planners.
fn greatest(who: &str, longest: &[Times], of: fn(&Times) -> f64) {
    let slowest = KINDS.iter().zip(longest).max_by(|one, other| of(one.1).total_cmp(&of(other.1)));
    if let Some((kind, times)) = slowest {
        println!("largest time of a text of 65,535 bytes, {who}: {:.0} us ({})", of(times) * 1e6, kind.name);
    }
}

pub fn measure() {
    let lengths = LENGTHS.map(|length| format!(" {:>4} KB", length >> 10)).concat();
    println!("{:<46}{lengths}", "time for each byte, in ns");
    let longest: Vec<Times> = KINDS.iter().map(rows).collect();
    greatest("proved", &longest, |times| times.proved);
    greatest("plain", &longest, |times| times.plain);
    fathom(&("a description of 60 KB", texts::ordinary(60_000)));
    fathom(&("a tag of 64 KB inside level 24, a name twice", texts::steepest()));
    fathom(&("a tag of 64 KB inside level 24, names that begin each other", texts::nested_names()));
}
