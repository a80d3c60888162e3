//! What the independent program says to everything that a text or a table can be asked; each is read once.

use reference::access::{detail_of, Variable};
use reference::description::{Detail, Segment};
use reference::plan::{planned, Planned};
use reference::table::{plan, variable_by_division};
use reference::walk::{copy_out, steps_for, walk, Met, Outcome};
use reference::Refusal;

/// A plan's variables: those that the walk meets that copies out every group, or, where it would be too long, each found by division.
pub struct Variables {
    segments: Vec<Segment>,
    count: u64,
    met: Option<Vec<Met>>,
}

impl Variables {
    fn of(segments: Vec<Segment>) -> Variables {
        let met = copy_out(&segments, steps_for(&segments)).ok().map(|copying| copying.met);
        let count = match (&met, walk(&segments)) {
            (Some(met), _) => met.len() as u64,
            (None, Outcome::Kept { variables }) => variables,
            _ => 0,
        };
        Variables { segments, count, met }
    }

    /// Of a table, if it is a plan.
    pub fn of_table(table: &[i64]) -> Option<Variables> {
        plan(table).map(Variables::of)
    }

    pub fn count(&self) -> u64 {
        self.count
    }

    /// Whether every group was copied out.
    pub fn is_copied_out(&self) -> bool {
        self.met.is_some()
    }

    /// Variable n.
    pub fn at(&self, n: u64) -> Option<Met> {
        match &self.met {
            Some(met) => usize::try_from(n).ok().and_then(|n| met.get(n).copied()),
            None => variable_by_division(&self.segments, n),
        }
    }

    /// The variables from n on, as many as there is room for or remain.
    pub fn from(&self, n: u64, room: usize) -> Vec<Met> {
        (0..room as u64).map_while(|more| self.at(n.checked_add(more)?)).collect()
    }
}

/// A text as the independent program reads it.
pub struct Description {
    /// The place of its first zero.
    pub end: usize,
    planned: Planned,
    pub variables: Variables,
}

impl Description {
    pub fn of(text: &[u8]) -> Result<Description, Refusal> {
        let planned = planned(text)?;
        let end = text.iter().position(|byte| *byte == 0).unwrap_or(text.len());
        let variables = Variables::of(planned.segments.clone());
        Ok(Description { end, planned, variables })
    }

    /// The numbers of its records.
    pub fn table(&self) -> &[i64] {
        &self.planned.numbers
    }

    pub fn records(&self) -> u64 {
        self.planned.records()
    }

    /// How many variables planning tells.
    pub fn count(&self) -> u64 {
        self.planned.variables
    }

    /// What writing and reading must know of variable n.
    pub fn variable(&self, n: u64) -> Option<Variable> {
        let met = self.variables.at(n)?;
        Some(Variable { met, detail: self.detail(&met) })
    }

    fn detail(&self, met: &Met) -> Detail {
        detail_of(&self.planned.segments, met.record)
    }
}
