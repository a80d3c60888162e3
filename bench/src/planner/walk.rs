//! The walk, by where a stretch of it may start and by how far it moves the address; copies are multiplied and not walked.

const LIMIT: i64 = 1 << 32;
const SEGMENT: i64 = 1;
const GROUP: i64 = 2;

/// A stretch of the walk: the least and the greatest address that it may start at without leaving 0 to 2^32, the change of the address,
/// and the variables.
#[derive(Debug, Clone, Copy)]
pub struct Stretch {
    least: i64,
    most: i64,
    pub change: i64,
    pub variables: u64,
}

pub const NOTHING: Stretch = Stretch { least: 0, most: LIMIT, change: 0, variables: 0 };

impl Stretch {
    /// One addition.
    fn step(by: i64, variables: u64) -> Stretch {
        let (least, most) = if by < 0 { (-by, LIMIT) } else { (0, LIMIT - by) };
        Stretch { least, most, change: by, variables }
    }

    fn may_start_at(self, address: i64) -> bool {
        self.least <= address && address <= self.most
    }

    /// Only those starts that lie, so far on, between these two; none if there are none.
    fn only(mut self, on: i64, least: i64, most: i64) -> Option<Stretch> {
        self.least = self.least.max(least - on);
        self.most = self.most.min(most - on);
        (self.least <= self.most).then_some(self)
    }

    /// Another stretch behind this one.
    pub fn followed_by(self, next: Stretch) -> Option<Stretch> {
        let mut both = self.only(self.change, next.least, next.most)?;
        both.change += next.change;
        both.variables = both.variables.saturating_add(next.variables);
        Some(both)
    }

    /// So many copies: where the first and the last may start, so may those between them.
    fn times(self, copies: i64) -> Option<Stretch> {
        let mut all = self.only(self.change * (copies - 1), self.least, self.most)?;
        all.change *= copies;
        all.variables = all.variables.saturating_mul(copies as u64);
        Some(all)
    }
}

/// What a record's element does, given what its members do once; none where the address must leave its limits.
pub fn of_record(record: &[i64; 8], members: Stretch) -> Option<Stretch> {
    let [kind, _, start, extra, copies, ..] = *record;
    match kind {
        SEGMENT => members.may_start_at(start).then_some(members),
        GROUP => Stretch::step(start, 0).followed_by(members.times(copies)?),
        _ => Stretch::step(start, 0).followed_by(Stretch::step(extra, 1)),
    }
}
