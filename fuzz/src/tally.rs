//! How often each call was made, and how often it gave each answer.

use crate::calls::{Name, NAMES};
use crate::pages::Side;

/// The refusals that there are, in the order in which README.md has them.
#[rustfmt::skip]
pub const REFUSALS: [u8; 32] = [
    1, 2, 3, 4, 5, 6, 7, 81, 82, 83, 84, 85, 86, 87, 88, 9, 10, 11, 12, 13, 20, 21, 22, 23, 24, 25, 26, 27, 28, 30, 31, 35,
];

/// One more than the greatest of them.
const ANSWERS: usize = 89;

#[derive(Debug, Clone)]
pub struct Tally {
    /// Cases whose buffers end at the page that can't be touched, and those whose buffers begin behind it.
    pub cases: [u64; 2],
    /// Tables and texts whose groups were not copied out, since that would take too long.
    pub divided: u64,
    /// By call and answer, 0 for acceptance.
    answers: [[u64; ANSWERS]; NAMES.len()],
}

impl Default for Tally {
    fn default() -> Tally {
        Tally { cases: [0; 2], divided: 0, answers: [[0; ANSWERS]; NAMES.len()] }
    }
}

impl Tally {
    pub fn add_case(&mut self, side: Side) {
        self.cases[(side == Side::Begin) as usize] += 1;
    }

    pub fn add(&mut self, name: Name, answer: usize) {
        self.answers[name as usize][answer] += 1;
    }

    pub fn calls(&self) -> u64 {
        self.answers.iter().flatten().sum()
    }

    /// How often this was the answer of any call; 0 is acceptance.
    pub fn count(&self, answer: u8) -> u64 {
        self.answers.iter().map(|answers| answers[answer as usize]).sum()
    }

    /// How often the call of this number among the names was accepted.
    pub fn accepted(&self, name: usize) -> u64 {
        self.answers[name][0]
    }

    /// The refusals that never came.
    pub fn missing(&self) -> Vec<u8> {
        REFUSALS.into_iter().filter(|refusal| self.count(*refusal) == 0).collect()
    }

    /// Cases, calls and shares, a line for each.
    pub fn lines(&self, seconds: f64) -> Vec<String> {
        let calls = self.calls();
        let [end, begin] = self.cases;
        let mut lines = vec![
            format!("cases {} (buffers end at the page {end}, begin behind it {begin})", end + begin),
            format!("calls {calls} in {seconds:.1} s, {:.0} each second", calls as f64 / seconds.max(0.001)),
            format!("tables and texts too long to be copied out {}", self.divided),
        ];
        for (name, answers) in NAMES.iter().zip(&self.answers) {
            let (made, accepted) = (answers.iter().sum::<u64>(), answers[0]);
            lines.push(format!("{name:34} {made:>11} calls {accepted:>11} accepted"));
        }
        for answer in [0].into_iter().chain(REFUSALS) {
            let count = self.count(answer);
            let name = if answer == 0 { "accepted".to_string() } else { format!("refused {answer}") };
            lines.push(format!("{name:10} {count:>11} {:>8.4} %", 100.0 * count as f64 / calls.max(1) as f64));
        }
        lines
    }
}
