//! Edits and undos once text and table are known, beside a write of the same value. All of them are proved.

use crate::accessing::{expected, time, window, Known, Place, INTS};
use crate::{proved, texts};
use std::hint::black_box;

/// As much of a journal as is ever used.
const ROOM: usize = 65_536;
/// How many edits stand before the one that is timed: none, and as many as leave room for one more.
const STANDING: [u64; 2] = [0, 63];
const ROUNDS: usize = 200;
const CALLS: usize = 1_000;

/// A journal in which so many edits of one variable stand, and one more behind them, which is the one that is timed.
struct Kept<'a> {
    known: &'a Known,
    at: Place,
    value: u64,
    standing: u64,
    journal: Vec<u8>,
}

impl<'a> Kept<'a> {
    fn new(known: &'a Known, at: Place, value: u64, standing: u64) -> Kept<'a> {
        let mut kept = Kept { known, at, value, standing, journal: vec![0; ROOM] };
        for session in 0..=standing {
            kept.tried(session);
        }
        kept
    }

    /// An edit stores what a write does and stands; an undo gives the window back.
    fn tried(&mut self, session: u64) {
        let mut held = window();
        assert_eq!(self.edited(&mut held, session), (0, session + 1));
        assert_eq!(held, expected(self.at, self.value));
        assert_eq!(self.undone(&mut held, session + 1), (0, session));
        assert_eq!(held, window());
    }

    fn edited(&mut self, held: &mut [u8], session: u64) -> (usize, u64) {
        proved::edit((self.known.checked(), self.at.at()), held, &mut self.journal, session, self.value)
    }

    fn undone(&self, held: &mut [u8], session: u64) -> (usize, u64) {
        proved::undo((self.known.checked(), self.at.at()), held, &self.journal, session)
    }

    /// The least seconds of a write, of an edit and of an undo, in turns.
    fn least(&mut self) -> [f64; 3] {
        let mut best = [f64::MAX; 3];
        let mut held = window();
        let standing = self.standing;
        for _ in 0..ROUNDS {
            let times = [
                time(CALLS, || self.known.write_known(self.at, black_box(&mut held), self.value)),
                time(CALLS, || self.edited(black_box(&mut held), black_box(standing))),
                time(CALLS, || self.undone(black_box(&mut held), black_box(standing + 1))),
            ];
            for (least, seconds) in best.iter_mut().zip(times) {
                *least = least.min(seconds);
            }
        }
        best
    }
}

fn compare(text: Vec<u8>) {
    let bytes = text.len();
    let known = Known::new(text);
    for (what, size, value) in INTS {
        let at = known.chosen(size, value);
        println!("{bytes} bytes, {what}:");
        for standing in STANDING {
            let [write, edit, undo] = Kept::new(&known, at, value, standing).least().map(|seconds| seconds * 1e6);
            println!(
                "  {standing} standing: write {write:.3} us, edit {edit:.3} us, edit / write {:.2}; undo {undo:.3} us, undo / write {:.2}",
                edit / write,
                undo / write
            );
        }
    }
}

/// Does what the argument asks of edits; false where it asks nothing.
pub fn asked() -> bool {
    let asked = std::env::args().nth(1).is_some_and(|word| word == "sessions");
    if asked {
        [2_000, 15_000, 60_000].into_iter().for_each(|length| compare(texts::ordinary(length)));
    }
    asked
}
