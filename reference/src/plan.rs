//! Planning: all stages in their order.

use crate::description::Segment;
use crate::reading::segments;
use crate::refusal::{refusal, unplaced, Refusal};
use crate::rules::judge;
use crate::table::{numbers, records, FIELDS};
use crate::text::{characters, content, first_line};
use crate::tree::root;
use crate::walk::{walk, Outcome};

/// What stages 1 to 12 give for an accepted text.
#[derive(Debug, Clone, PartialEq, Eq)]
pub struct Planned {
    pub segments: Vec<Segment>,
    /// Eight numbers per record.
    pub numbers: Vec<i64>,
    pub variables: u64,
}

impl Planned {
    pub fn records(&self) -> u64 {
        (self.numbers.len() / FIELDS) as u64
    }
}

/// Stages 1 to 10: the place of cdi and the segments.
pub fn described(text: &[u8]) -> Result<(usize, Vec<Segment>), Refusal> {
    let content = content(text)?;
    characters(content)?;
    first_line(content)?;
    let root = root(content)?;
    judge(&root)?;
    Ok((root.place, segments(&root)))
}

/// Stages 1 to 12, which need no table.
pub fn planned(text: &[u8]) -> Result<Planned, Refusal> {
    let (cdi, segments) = described(text)?;
    let variables = match walk(&segments) {
        Outcome::Left { segment } => {
            let left = segments.iter().find(|found| found.record == segment);
            return Err(refusal(11, left.map_or(0, |found| found.place)));
        }
        Outcome::TooMany => return Err(refusal(12, cdi)),
        Outcome::Kept { variables } => variables,
    };
    let records = records(&segments).unwrap_or_default();
    Ok(Planned { numbers: numbers(&records), segments, variables })
}

/// All stages: the records stand at the front of the table, the rest of it is unchanged.
/// A refusal leaves the table as it was.
pub fn plan_into(text: &[u8], table: &mut [i64]) -> Result<(u64, u64), Refusal> {
    let planned = planned(text)?;
    let Some(front) = table.get_mut(..planned.numbers.len()) else { return Err(unplaced(13)) };
    front.copy_from_slice(&planned.numbers);
    Ok((planned.records(), planned.variables))
}
