//! Seeded streams of cases: boundary cases at fixed positions, the others at random.
//! Case number i depends on the seed and on i alone.

pub mod accesses;
pub mod backups;
pub mod boundaries;
pub mod damage;
pub mod describe;
pub mod faults;
pub mod leaves;
pub mod markup;
pub mod reached;
pub mod sessions;
pub mod shapes;
pub mod spellings;
pub mod stats;
pub mod tables;
pub mod texts;

use crate::access::Access;
use crate::answer::Case;
use crate::description::{Data, Segment};
use crate::plan::described;
use crate::random::Random;
use crate::table::{read_segments, records_of};

/// The sorts of cases of a stream.
#[derive(Debug, Clone, Copy, PartialEq, Eq)]
pub enum Sort {
    Plan,
    Locate,
    Access,
    /// Plans, tables, writes and reads in turn; no sessions or backups, about which the definitions that compute such cases state nothing.
    All,
    Session,
    /// Storing and reading back.
    Backup,
    Leaf,
}

/// One case in so many is a boundary case.
const BOUNDARY_EVERY: u64 = 4;
/// So many of a hundred random planning cases are of the shapes that a planner may read in a way of their own.
const SHAPED: usize = 18;
/// So many of a hundred others have several faults in one tag or element.
const SEVERAL: usize = 20;
/// So many of a hundred others are damaged at random.
const DAMAGED: usize = 30;

pub struct Stream {
    seed: u64,
    sort: Sort,
    small: bool,
    plan: Vec<Case>,
    locate: Vec<Case>,
    access: Vec<Case>,
    session: Vec<Case>,
    backup: Vec<Case>,
}

impl Stream {
    pub fn new(seed: u64, sort: Sort, small: bool) -> Stream {
        let chosen = |cases: Vec<Case>| -> Vec<Case> {
            if small {
                cases.into_iter().filter(is_small).collect()
            } else {
                cases
            }
        };
        let of = |own: Sort, cases: fn() -> Vec<Case>| {
            if sort == own || sort == Sort::All {
                chosen(cases())
            } else {
                Vec::new()
            }
        };
        Stream {
            seed,
            sort,
            small,
            plan: of(Sort::Plan, boundaries::of_plan),
            locate: of(Sort::Locate, boundaries::of_locate),
            access: of(Sort::Access, boundaries::of_access),
            session: if sort == Sort::Session { boundaries::of_session() } else { Vec::new() },
            backup: if sort == Sort::Backup { boundaries::of_backup() } else { Vec::new() },
        }
    }

    /// Case number `index` of the stream.
    pub fn case(&self, index: u64) -> Case {
        match self.chosen_case(index) {
            Case::Plan { room, text } if self.small => Case::Plan { room: room.min(SMALL_ROOM), text },
            case => case,
        }
    }

    fn chosen_case(&self, index: u64) -> Case {
        let (sort, turn) = match self.sort {
            Sort::Leaf => return leaves::case(&mut Random::of_case(self.seed, index), index),
            Sort::All => ([Sort::Plan, Sort::Locate, Sort::Access][(index % 3) as usize], index / 3),
            sort => (sort, index),
        };
        let fixed = match sort {
            Sort::Plan => &self.plan,
            Sort::Locate => &self.locate,
            Sort::Session => &self.session,
            Sort::Backup => &self.backup,
            _ => &self.access,
        };
        if turn % BOUNDARY_EVERY == BOUNDARY_EVERY - 1 && !fixed.is_empty() {
            return fixed[(turn / BOUNDARY_EVERY) as usize % fixed.len()].clone();
        }
        self.random_case(sort, &mut Random::of_case(self.seed, index))
    }

    fn random_case(&self, sort: Sort, random: &mut Random) -> Case {
        loop {
            let case = match sort {
                Sort::Plan => plan_case(random, self.small),
                Sort::Locate => locate_case(random, self.small),
                Sort::Session => sessions::session_case(random),
                Sort::Backup => backups::backup_case(random),
                _ => accesses::access_case(random, self.measure(), !self.small),
            };
            if !self.small || is_small(&case) {
                return case;
            }
        }
    }

    fn measure(&self) -> &'static describe::Measure {
        if self.small {
            &describe::SMALL
        } else {
            &describe::USUAL
        }
    }
}

/// A room around what the records need.
fn some_room(random: &mut Random, records: u64) -> u64 {
    let needed = 8 * records;
    match random.below(5) {
        0 | 1 => needed,
        2 => needed + 1,
        3 => needed + random.below(40) as u64,
        _ => needed + 8,
    }
}

fn plan_case(random: &mut Random, small: bool) -> Case {
    let measure = if small { &describe::SMALL } else { &describe::USUAL };
    if !small && random.below(300) == 0 {
        return Case::Plan { room: random.pick(&[0, 400, 32_760, 40_000]), text: texts::long(random, measure) };
    }
    if !small && random.chance(SHAPED) {
        return shapes::case(random);
    }
    if random.chance(SEVERAL) {
        return Case::Plan { room: random.pick(&[0, 64, 200]), text: texts::with_several(random, measure) };
    }
    if random.chance(DAMAGED) {
        let text = texts::damaged(random, measure);
        return Case::Plan { room: random.below(300) as u64, text };
    }
    // Behind the causes: one turn of 13, two of acceptance.
    let aim = random.below(texts::CAUSES.len() + 3);
    if let Some(number) = texts::CAUSES.get(aim) {
        let number = if small && *number == 12 { 11 } else { *number };
        let room = random.pick(&[0, 1, 8, 64, 200]);
        return Case::Plan { room, text: texts::aimed(random, measure, number) };
    }
    let (text, planned) = texts::accepted(random, measure);
    let room = some_room(random, planned.records());
    if aim > texts::CAUSES.len() || planned.records() == 0 {
        return Case::Plan { room, text };
    }
    let needed = 8 * planned.records();
    Case::Plan { room: random.pick(&[0, needed - 1, needed - 8, needed / 2]), text }
}

/// A plan without a text, from a text, or hostile.
fn some_plan(random: &mut Random, small: bool) -> (Vec<i64>, u64) {
    let measure = if small { &tables::SMALL } else { &tables::USUAL };
    if random.chance(25) {
        let measure = if small { &describe::SMALL } else { &describe::USUAL };
        let (_, planned) = texts::accepted(random, measure);
        return (planned.numbers, planned.variables);
    }
    if random.chance(5) && !small {
        let replication = random.between(1, 2_147_483_647);
        let with_variables = random.chance(50);
        let deep = 1 + random.below(22);
        return (tables::table_of(&tables::hostile(deep, replication, with_variables)), 0);
    }
    tables::plan(random, measure)
}

fn locate_case(random: &mut Random, small: bool) -> Case {
    let measure = if small { &tables::SMALL } else { &tables::USUAL };
    if random.chance(8) {
        let n = tables::some_n(random, 3);
        return Case::Locate { table: tables::arbitrary(random, measure), n };
    }
    if random.chance(6) {
        // Whole and consistent, whether or not the limits are kept.
        let table = tables::table_of(&tables::random_segments(random, measure));
        return Case::Locate { table, n: tables::some_n(random, 3) };
    }
    let (mut table, variables) = some_plan(random, small);
    let n = tables::some_n(random, variables);
    if random.chance(30) {
        for _ in 0..1 + random.below(2) {
            tables::damage(random, &mut table);
        }
    }
    Case::Locate { table, n }
}

/// What small cases keep to.
const SMALL_TEXT: usize = 400;
const SMALL_BYTES: usize = 64;
const SMALL_NUMBERS: usize = 12 * 8 + 7;
const SMALL_ROOM: u64 = 13 * 8;
const SMALL_VARIABLES: u128 = 200;

/// The copies and variables that a full walk passes, about; stays at the greatest number once it would pass it.
fn steps(members: &[Data]) -> u128 {
    members.iter().fold(0u128, |sum, data| {
        let copies = data.replication.unsigned_abs() as u128;
        sum.saturating_add(1)
            .saturating_add(copies.saturating_mul(steps(&data.members).saturating_add((copies > 1) as u128)))
    })
}

fn walk_is_small(segments: &[Segment]) -> bool {
    let all = segments.iter().fold(0u128, |sum, segment| sum.saturating_add(steps(&segment.members)));
    all <= 2 * SMALL_VARIABLES
}

fn text_is_small(text: &[u8]) -> bool {
    text.len() <= SMALL_TEXT && described(text).map_or(true, |(_, segments)| walk_is_small(&segments))
}

/// Tables whose subtrees don't nest have no walk; of the others any replication counts, in range or not.
fn table_is_small(table: &[i64]) -> bool {
    let segments = records_of(table).and_then(|records| read_segments(&records));
    table.len() <= SMALL_NUMBERS && segments.is_none_or(|segments| walk_is_small(&segments))
}

fn access_is_small(access: &Access) -> bool {
    text_is_small(&access.text) && table_is_small(&access.table) && access.window.len() <= SMALL_BYTES
}

/// Whether a case is short and its full walk is small; sessions, backups and single readings are of one measure only.
pub fn is_small(case: &Case) -> bool {
    match case {
        Case::Plan { text, .. } => text_is_small(text),
        Case::Locate { table, .. } => table_is_small(table),
        Case::WriteInteger { access, .. } | Case::WriteEvent { access, .. } | Case::Read { access } => {
            access_is_small(access)
        }
        Case::WriteText { access, value } => access_is_small(access) && value.len() <= SMALL_BYTES,
        Case::Session { .. } | Case::Store { .. } | Case::Restore { .. } | Case::Leaf(_) => true,
    }
}
