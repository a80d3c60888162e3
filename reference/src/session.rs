//! Sessions over one text, table and window, by request R-6: edits that are kept in a lent journal with the bytes that they replaced, and undo.
//! Entries are walked one by one from byte 0 on, and their places are wide numbers, so that no sum wraps.

use crate::access::{detail_of, part, planned_as, write_to, Access, Value, Variable};
use crate::description::Segment;
use crate::refusal::{unplaced, Refusal};
use crate::table::variable_by_division;
use crate::walk::{copy_out, steps_for, Met};

/// "in the first 65,536 bytes of a lent journal"
pub const ROOM: usize = 65_536;
/// "keeps up to 64 accepted edits"
pub const EDITS: u64 = 64;
/// The bytes of number and size before an entry's old bytes.
pub const HEAD: u128 = 8;

/// What a session is over, its journal, and the session value.
#[derive(Debug, Clone, PartialEq, Eq)]
pub struct Session {
    pub text: Vec<u8>,
    pub table: Vec<i64>,
    pub space: u64,
    pub first: u64,
    pub window: Vec<u8>,
    pub journal: Vec<u8>,
    /// How many edits stand, as the caller says.
    pub standing: u64,
}

/// One call of a session.
#[derive(Debug, Clone, PartialEq, Eq)]
pub enum Operation {
    Edit { n: u64, value: Value },
    Undo,
}

/// An entry that lies in the journal: where it begins, its number and its size.
#[derive(Debug, Clone, Copy, PartialEq, Eq)]
pub struct Entry {
    pub start: u128,
    pub number: u64,
    pub size: u64,
}

impl Entry {
    /// The place behind its old bytes, where the next entry begins.
    pub fn end(&self) -> u128 {
        self.start + HEAD + self.size as u128
    }
}

/// The variables of a text whose table is exactly the one planned from it. Both stay as they are from call to call, so this is found once.
pub struct Known {
    segments: Vec<Segment>,
    /// Those that the walk meets that copies out, where it isn't too long.
    met: Option<Vec<Met>>,
}

impl Known {
    /// Causes 1 to 12 and 20.
    pub fn of(text: &[u8], table: &[i64]) -> Result<Known, Refusal> {
        let segments = planned_as(text, table)?.segments;
        let met = copy_out(&segments, steps_for(&segments)).ok().map(|copying| copying.met);
        Ok(Known { segments, met })
    }

    /// Variable n and its details.
    pub fn variable(&self, n: u64) -> Option<Variable> {
        let met = match &self.met {
            Some(met) => usize::try_from(n).ok().and_then(|n| met.get(n).copied()),
            None => variable_by_division(&self.segments, n),
        }?;
        Some(Variable { met, detail: detail_of(&self.segments, met.record) })
    }
}

/// Four bytes, big-endian.
fn number(bytes: &[u8]) -> u64 {
    bytes.iter().fold(0, |number, byte| number << 8 | *byte as u64)
}

impl Session {
    /// The journal's first 65,536 bytes, or all of it if it is shorter.
    pub fn room(&self) -> &[u8] {
        &self.journal[..self.journal.len().min(ROOM)]
    }

    /// The entry that begins at this place, if it lies in the journal.
    pub fn entry_at(&self, start: u128) -> Option<Entry> {
        let room = self.room();
        let head = usize::try_from(start).ok().and_then(|start| room.get(start..)?.get(..HEAD as usize))?;
        let entry = Entry { start, number: number(&head[..4]), size: number(&head[4..]) };
        (entry.end() <= room.len() as u128).then_some(entry)
    }

    /// Where entry number `count` begins, if every entry before it lies in the journal. As an entry has at least 8 bytes, the walk is short
    /// for any count.
    pub fn start_of(&self, count: u64) -> Option<u128> {
        let mut start = 0;
        for _ in 0..count {
            start = self.entry_at(start)?.end();
        }
        Some(start)
    }

    /// The access to variable n; what looks at the window alone needs no text and no table.
    fn access(&self, n: u64) -> Access {
        let (text, table, window) = (Vec::new(), Vec::new(), self.window.clone());
        Access { text, table, n, space: self.space, first: self.first, window }
    }

    /// Where the entry of a new edit goes, if fewer than 64 stand and there is room for it.
    fn place_for(&self, size: i64) -> Option<usize> {
        if self.standing >= EDITS {
            return None;
        }
        let start = self.start_of(self.standing)?;
        (start + HEAD + size as u128 <= self.room().len() as u128).then_some(start as usize)
    }

    /// Causes 21, 27, 22, 23, 25, 24, 26 and 30, or the value in the window and its entry in the journal.
    fn edit(&mut self, known: &Known, n: u64, value: &Value) -> Result<(), Refusal> {
        let variable = known.variable(n).ok_or(unplaced(21))?;
        let access = self.access(n);
        let window = write_to(&variable, &access, value)?;
        let size = variable.met.size;
        let start = self.place_for(size).ok_or(unplaced(30))?;
        let old = &access.window[part(&access, &variable.met)?];
        let entry = [&(n as u32).to_be_bytes(), &(size as u32).to_be_bytes(), old].concat();
        self.journal[start..start + entry.len()].copy_from_slice(&entry);
        self.window = window;
        self.standing += 1;
        Ok(())
    }

    /// The latest entry, if it lies in the journal and its number and size are those of a variable wholly inside the window, and where that is.
    fn latest(&self, known: &Known) -> Option<(Entry, std::ops::Range<usize>)> {
        let entry = self.entry_at(self.start_of(self.standing.checked_sub(1)?)?)?;
        let met = known.variable(entry.number)?.met;
        if met.size as u64 != entry.size {
            return None;
        }
        Some((entry, part(&self.access(entry.number), &met).ok()?))
    }

    /// Causes 31 and 35, or the latest entry's old bytes in the window. The journal stays as it is.
    fn undo(&mut self, known: &Known) -> Result<(), Refusal> {
        if self.standing == 0 {
            return Err(unplaced(31));
        }
        let (entry, part) = self.latest(known).ok_or(unplaced(35))?;
        let old = &self.journal[(entry.start + HEAD) as usize..entry.end() as usize];
        self.window[part].copy_from_slice(old);
        self.standing -= 1;
        Ok(())
    }

    /// One call. A refusal leaves session, window and journal as they were.
    pub fn perform(&mut self, known: &Result<Known, Refusal>, operation: &Operation) -> Result<(), Refusal> {
        let known = known.as_ref().map_err(|refusal| *refusal)?;
        match operation {
            Operation::Edit { n, value } => self.edit(known, *n, value),
            Operation::Undo => self.undo(known),
        }
    }
}
