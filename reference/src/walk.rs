//! The walk over segments and data, twice: by copying out every copy of every group, and by extents, which
//! multiply instead. The first is the definition and serves small totals and one in four of the large ones, the second all others; tests compare both.

use crate::description::{Data, Kind, Segment};

/// The greatest address.
pub const GREATEST_ADDRESS: i128 = 1 << 32;
/// The greatest number of variables.
pub const VARIABLES: u128 = 1_000_000;

/// What a stretch of the walk does, seen from the address at its start.
/// `low` and `high` are the extreme addresses of the stretch, its start among them: the start is an origin
/// or was reached by an earlier addition, so counting it in changes no answer.
#[derive(Debug, Clone, Copy, PartialEq, Eq)]
pub struct Extent {
    pub change: i128,
    pub low: i128,
    pub high: i128,
    /// Variables met; stays at the greatest u128 once it would pass it.
    pub variables: u128,
}

/// The stretch that does nothing.
pub const NOTHING: Extent = Extent { change: 0, low: 0, high: 0, variables: 0 };

/// A single addition.
fn addition(amount: i64) -> Extent {
    let change = amount as i128;
    Extent { change, low: change.min(0), high: change.max(0), variables: 0 }
}

/// The extent, or none if it reaches further than 2^32 from its start: no start keeps it from 0 to 2^32.
fn kept(extent: Extent) -> Option<Extent> {
    (extent.low >= -GREATEST_ADDRESS && extent.high <= GREATEST_ADDRESS).then_some(extent)
}

/// One stretch after another.
fn then(first: Extent, second: Extent) -> Option<Extent> {
    kept(Extent {
        change: first.change + second.change,
        low: first.low.min(first.change + second.low),
        high: first.high.max(first.change + second.high),
        variables: first.variables.saturating_add(second.variables),
    })
}

/// A stretch so many times over; its extremes lie in the first or in the last copy.
fn repeated(once: Extent, copies: i64) -> Option<Extent> {
    let last = once.change * (copies as i128 - 1);
    kept(Extent {
        change: once.change * copies as i128,
        low: once.low.min(last + once.low),
        high: once.high.max(last + once.high),
        variables: once.variables.saturating_mul(copies as u128),
    })
}

/// The extent of data elements one after another; none if no start keeps it from 0 to 2^32.
pub fn extent_of_list(members: &[Data]) -> Option<Extent> {
    members.iter().try_fold(NOTHING, |extent, member| then(extent, extent_of(member)?))
}

/// The extent of a data element over all its copies, its own offset included.
pub fn extent_of(data: &Data) -> Option<Extent> {
    let offset = kept(addition(data.offset))?;
    let rest = if data.kind == Kind::Group {
        repeated(extent_of_list(&data.members)?, data.replication)?
    } else {
        Extent { variables: 1, ..addition(data.size) }
    };
    then(offset, rest)
}

/// The extent of a segment, if its walk stays from 0 to 2^32.
pub fn extent_of_segment(segment: &Segment) -> Option<Extent> {
    let extent = extent_of_list(&segment.members)?;
    let origin = segment.origin as i128;
    (origin + extent.low >= 0 && origin + extent.high <= GREATEST_ADDRESS).then_some(extent)
}

/// What the whole walk comes to.
#[derive(Debug, Clone, PartialEq, Eq)]
pub enum Outcome {
    /// The address left 0 to 2^32 in the segment with this record number.
    Left {
        segment: usize,
    },
    TooMany,
    Kept {
        variables: u64,
    },
}

/// How many steps the walk that copies out may take before extents take its place.
pub const STEPS: usize = 5_000;

/// Enough to copy out a million variables one by one.
const ALL_STEPS: usize = 4_000_000;

/// A number that depends on all that is walked.
fn mixed(members: &[Data]) -> u64 {
    members.iter().fold(members.len() as u64, |sum, data| {
        let own = (data.offset as u64) ^ (data.size as u64) << 7 ^ (data.replication as u64) << 17;
        (sum ^ own ^ mixed(&data.members).rotate_left(9)).wrapping_mul(0x9E37_79B9_7F4A_7C15)
    })
}

/// The steps that a walk may take here: of the long walks that extents accept, one in four is copied out in full all the
/// same, so that what is compared with it isn't held to extents alone.
pub fn steps_for(segments: &[Segment]) -> usize {
    let sum = segments.iter().fold(0u64, |sum, segment| sum.wrapping_add(mixed(&segment.members)));
    if sum >> 62 == 0 && matches!(walk_by_extents(segments), Outcome::Kept { .. }) {
        ALL_STEPS
    } else {
        STEPS
    }
}

/// The whole walk: copied out where it is short, mostly by extents where it is long.
pub fn walk(segments: &[Segment]) -> Outcome {
    match copy_out(segments, steps_for(segments)) {
        Ok(copying) if copying.met.len() as u128 > VARIABLES => Outcome::TooMany,
        Ok(copying) => Outcome::Kept { variables: copying.met.len() as u64 },
        Err(Ended::Left { segment }) => Outcome::Left { segment },
        Err(Ended::TooLong) => walk_by_extents(segments),
    }
}

pub fn walk_by_extents(segments: &[Segment]) -> Outcome {
    let mut variables = 0u128;
    for segment in segments {
        match extent_of_segment(segment) {
            None => return Outcome::Left { segment: segment.record },
            Some(extent) => variables = variables.saturating_add(extent.variables),
        }
    }
    if variables > VARIABLES {
        return Outcome::TooMany;
    }
    Outcome::Kept { variables: variables as u64 }
}

/// A variable as the walk meets it.
#[derive(Debug, Clone, Copy, PartialEq, Eq)]
pub struct Met {
    pub record: usize,
    pub space: i64,
    pub address: i128,
    pub size: i64,
    pub kind: Kind,
}

/// Why a walk that copies out ended early.
#[derive(Debug, Clone, Copy, PartialEq, Eq)]
pub enum Ended {
    Left {
        segment: usize,
    },
    /// More steps than were allowed for.
    TooLong,
}

/// A walk that copies out: the current address, the variables met, and the change of each record's own copies.
pub struct Copying {
    segment: usize,
    space: i64,
    address: i128,
    steps_left: usize,
    pub met: Vec<Met>,
    /// For each record met: its number, the variables and the change over all its copies, each time it is walked.
    pub walked: Vec<(usize, usize, i128)>,
}

impl Copying {
    fn add(&mut self, amount: i64) -> Result<(), Ended> {
        self.step()?;
        self.address += amount as i128;
        if self.address < 0 || self.address > GREATEST_ADDRESS {
            return Err(Ended::Left { segment: self.segment });
        }
        Ok(())
    }

    fn step(&mut self) -> Result<(), Ended> {
        self.steps_left = self.steps_left.checked_sub(1).ok_or(Ended::TooLong)?;
        Ok(())
    }

    fn data(&mut self, data: &Data) -> Result<(), Ended> {
        let (start, met) = (self.address, self.met.len());
        self.add(data.offset)?;
        if data.kind == Kind::Group {
            for _copy in 0..data.replication {
                self.step()?;
                for member in &data.members {
                    self.data(member)?;
                }
            }
        } else {
            let (record, size, kind) = (data.record, data.size, data.kind);
            self.met.push(Met { record, space: self.space, address: self.address, size, kind });
            self.add(data.size)?;
        }
        self.walked.push((data.record, self.met.len() - met, self.address - start));
        Ok(())
    }

    fn segment(&mut self, segment: &Segment) -> Result<(), Ended> {
        self.segment = segment.record;
        self.space = segment.space;
        self.address = segment.origin as i128;
        let met = self.met.len();
        for member in &segment.members {
            self.data(member)?;
        }
        self.walked.push((segment.record, self.met.len() - met, self.address - segment.origin as i128));
        Ok(())
    }
}

/// The full walk, every copy copied out, within so many steps.
pub fn copy_out(segments: &[Segment], steps: usize) -> Result<Copying, Ended> {
    let mut copying =
        Copying { segment: 0, space: 0, address: 0, steps_left: steps, met: Vec::new(), walked: Vec::new() };
    for segment in segments {
        copying.segment(segment)?;
    }
    Ok(copying)
}
