//! The check of the planner's speed: its time on each text beside the plain planner's, held to one bound. A call that is no longer inlined shows here.

use crate::planning::{agreed, least, texts, Text, ROOM};

/// The most that the proved planner may take, in times of the plain one.
const BOUND: f64 = 1.3;
const ROUNDS: usize = 100;
/// How often a text above the bound is timed again.
const AGAIN: usize = 3;

/// The seconds of one call of each.
#[derive(Clone, Copy)]
struct Times {
    proved: f64,
    plain: f64,
}

impl Times {
    fn of(text: &[u8]) -> Times {
        let (proved, plain) = least(text, ROOM, 1 + 100_000 / text.len(), ROUNDS);
        Times { proved, plain }
    }

    fn ratio(self) -> f64 {
        self.proved / self.plain
    }
}

/// The times of the least ratio, and how often the text was timed: once where that is within the bound.
fn timed(text: &[u8]) -> (Times, usize) {
    let mut best = Times::of(text);
    let mut count = 1;
    while best.ratio() > BOUND && count <= AGAIN {
        let next = Times::of(text);
        if next.ratio() < best.ratio() {
            best = next;
        }
        count += 1;
    }
    (best, count)
}

/// Times one text and prints its row; what it is called and its ratio, where that is above the bound.
fn row((what, text): &Text) -> Option<String> {
    let _ = agreed(what, text, ROOM);
    let (times, count) = timed(text);
    let (proved, plain, ratio) = (times.proved * 1e6, times.plain * 1e6, times.ratio());
    println!("{what:<20} {:>6} {proved:>10.1} {plain:>10.1} {ratio:>6.2} {count:>6}", text.len());
    (ratio > BOUND).then(|| format!("{what} ({ratio:.2})"))
}

/// Prints the table, and says which texts are above the bound. True where none is.
pub fn passed() -> bool {
    println!(
        "{:<20} {:>6} {:>10} {:>10} {:>6} {:>6}",
        "planning", "bytes", "proved, us", "plain, us", "ratio", "timed"
    );
    let above: Vec<String> = texts().iter().filter_map(row).collect();
    if above.is_empty() {
        println!("each text is planned in at most {BOUND} times the plain planner's time");
    } else {
        println!("FAILED: above {BOUND} times the plain planner's time: {}", above.join(", "));
    }
    above.is_empty()
}
