//! The variables of a table, one after another.

use crate::calls::Plan;
use crate::limits::LISTED;
use crate::Variable;
use std::fmt;
use std::iter::FusedIterator;

/// How many variables are listed at a time.
const BATCH: usize = 128;

/// How many are listed first, and first after a jump: whoever jumps again has not paid for a whole batch.
const FEW: usize = 4;

/// An iterator over variables, in the order of their numbers.
///
/// Nothing is copied out beforehand: it lists a batch at a time into room of its own, however many variables there are. `nth`, and with it `skip` and
/// `step_by`, jumps over variables without listing them.
///
/// ```
/// use planksling::{Description, Kind};
///
/// # let text = include_str!(concat!(env!("CARGO_MANIFEST_DIR"), "/../samples/input-board.xml"));
/// let description: Description = text.parse()?;
/// let events = description.iter().filter(|variable| variable.kind == Kind::EventId);
/// assert_eq!(events.count(), 16);
/// assert_eq!(description.iter().len(), 43);
/// assert_eq!(description.iter().nth(42), description.variable(42).ok());
/// # Ok::<(), planksling::Refusal>(())
/// ```
#[derive(Clone)]
pub struct Variables<'a> {
    plan: &'a Plan<'a>,
    /// The number of the first variable in the batch.
    first: u64,
    /// How many variables there are in all.
    end: u64,
    /// Those of the batch that are still to be given are the ones from `given` to before `listed`.
    given: usize,
    listed: usize,
    /// How many are listed next.
    room: usize,
    // beside the others and not among them, so that a loop keeps those in registers
    batch: Box<[[u64; LISTED]; BATCH]>,
}

impl<'a> Variables<'a> {
    pub(crate) fn new(plan: &'a Plan<'a>, end: u64) -> Variables<'a> {
        Variables { plan, first: 0, end, given: 0, listed: 0, room: FEW, batch: Box::new([[0; LISTED]; BATCH]) }
    }

    /// The number of the variable that is given next.
    #[inline]
    fn number(&self) -> u64 {
        self.first + self.given as u64
    }

    /// How many are still to be given. They are at most 1,000,000, so that they fit.
    fn left(&self) -> usize {
        (self.end - self.number()) as usize
    }

    /// Lists a batch from variable n on; false where none is left.
    #[inline]
    fn refill(&mut self, n: u64) -> bool {
        self.first = n;
        self.given = 0;
        self.listed = self.plan.list(n, &mut self.batch[..self.room]);
        self.room = BATCH.min(4 * self.room);
        0 < self.listed
    }
}

impl Iterator for Variables<'_> {
    type Item = Variable;

    #[inline]
    fn next(&mut self) -> Option<Variable> {
        if self.listed <= self.given && !self.refill(self.number()) {
            return None;
        }
        let variable = Variable::told(self.number(), self.batch[self.given]);
        self.given += 1;
        Some(variable)
    }

    fn size_hint(&self) -> (usize, Option<usize>) {
        (self.left(), Some(self.left()))
    }

    fn nth(&mut self, skipped: usize) -> Option<Variable> {
        let held = self.listed - self.given;
        if skipped < held {
            self.given += skipped;
            return self.next();
        }
        if held < skipped {
            self.room = FEW;
        }
        let n = self.number().saturating_add(skipped as u64).min(self.end);
        self.refill(n);
        self.next()
    }

    fn count(self) -> usize {
        self.left()
    }

    fn last(mut self) -> Option<Variable> {
        self.nth(self.left().checked_sub(1)?)
    }

    #[inline]
    fn fold<A, F: FnMut(A, Variable) -> A>(mut self, begin: A, mut step: F) -> A {
        let mut folded = begin;
        loop {
            for (number, numbers) in (self.number()..).zip(&self.batch[self.given..self.listed]) {
                folded = step(folded, Variable::told(number, *numbers));
            }
            if !self.refill(self.first + self.listed as u64) {
                return folded;
            }
        }
    }
}

impl ExactSizeIterator for Variables<'_> {}

impl FusedIterator for Variables<'_> {}

impl fmt::Debug for Variables<'_> {
    fn fmt(&self, f: &mut fmt::Formatter<'_>) -> fmt::Result {
        f.debug_struct("Variables").field("left", &self.left()).finish_non_exhaustive()
    }
}
