//! How often a stream of planning cases reaches what a planner may read in a way of its own and each cause of 81 to 88, one and several at once, and
//! one of writes and reads what turns on blanks and signs, and one of sessions or of backups each boundary, by the independent program's reading of
//! each case. A case counts once for each thing that it shows.

pub mod accesses;
pub mod backups;
pub mod causes;
pub mod faults;
pub mod leaves;
pub mod numbers;
pub mod rows;
pub mod sessions;
pub mod tags;

use std::collections::{BTreeMap, BTreeSet};

use crate::answer::Case;
use crate::pieces::{cut, Piece};
use crate::refusal::Refusal;
use crate::text::{characters, content, first_line};
use crate::tree::{root_of, Element};

/// The pieces of a content that passes stages 1 to 3, and its root or its fault of stages 4 to 7.
pub struct Read<'a> {
    pub content: &'a [u8],
    pub pieces: Vec<Piece>,
    pub root: Option<Element>,
    pub fault: Option<Refusal>,
}

impl<'a> Read<'a> {
    fn new(text: &'a [u8]) -> Option<Read<'a>> {
        let content = content(text).ok()?;
        characters(content).ok()?;
        first_line(content).ok()?;
        let (pieces, last) = cut(content);
        let root = root_of(content, &pieces, last);
        let fault = root.as_ref().err().copied();
        Some(Read { content, pieces, root: root.ok(), fault })
    }

    /// Whether planning comes to this place: behind the fault of these stages it needn't.
    fn comes_to(&self, place: usize) -> bool {
        self.fault.is_none_or(|fault| place as u64 <= fault.place)
    }

    /// Whether the fault is this one.
    fn fails(&self, number: u8, place: usize) -> bool {
        self.fault.is_some_and(|fault| fault.number == number && fault.place == place as u64)
    }
}

/// All that is counted of planning, in the order in which it is told.
pub fn labels() -> Vec<String> {
    [rows::labels(), tags::labels(), leaves::labels(), numbers::labels(), causes::labels(), faults::labels()].concat()
}

/// How many cases show each thing.
#[derive(Debug, Default)]
pub struct Reached {
    counts: BTreeMap<String, usize>,
}

impl Reached {
    pub fn add(&mut self, case: &Case) {
        let met = match case {
            Case::Plan { room, text } => planning(*room, text),
            Case::Session { .. } => sessions::met(case),
            Case::Store { .. } | Case::Restore { .. } => backups::met(case),
            _ => accesses::met(case),
        };
        for label in met.into_iter().collect::<BTreeSet<String>>() {
            *self.counts.entry(label).or_default() += 1;
        }
    }

    pub fn count(&self, label: &str) -> usize {
        self.counts.get(label).copied().unwrap_or(0)
    }

    /// One line for each thing, of planning, of writes and reads, of sessions and of backups where the stream has such cases.
    pub fn lines(&self) -> Vec<String> {
        let sorts = [labels(), accesses::labels(), sessions::labels(), backups::labels()];
        let shown = sorts.into_iter().filter(|labels| labels.iter().any(|label| self.count(label) > 0));
        shown.flatten().map(|label| format!("reached {} {label}", self.count(&label))).collect()
    }
}

/// What a planning case shows.
fn planning(room: u64, text: &[u8]) -> Vec<String> {
    let mut met = rows::met(room, text);
    if let Some(read) = Read::new(text) {
        met.extend(tags::met(&read));
        met.extend(leaves::met(&read));
        met.extend(numbers::met(&read));
        met.extend(causes::met(&read));
        met.extend(faults::met(&read));
    }
    met
}
