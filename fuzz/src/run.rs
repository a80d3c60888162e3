//! A run over the cases of a seed, until its time is over or something is found.

use std::time::{Duration, Instant};

use crate::ask::{Asker, Difference};
use crate::calls::Calls;
use crate::cases::Cases;
use crate::pages::Side;
use crate::tally::Tally;

/// Where the page lies that can't be touched.
#[derive(Debug, Clone, Copy, PartialEq, Eq)]
pub enum Mode {
    Only(Side),
    /// Cases take turns.
    Both,
}

impl Mode {
    pub fn of_name(name: &str) -> Option<Mode> {
        match name {
            "end" => Some(Mode::Only(Side::End)),
            "begin" => Some(Mode::Only(Side::Begin)),
            "both" => Some(Mode::Both),
            _ => None,
        }
    }

    pub fn name(self) -> &'static str {
        match self {
            Mode::Only(Side::End) => "end",
            Mode::Only(Side::Begin) => "begin",
            Mode::Both => "both",
        }
    }

    pub fn side(self, index: u64) -> Side {
        match self {
            Mode::Only(side) => side,
            Mode::Both if index.is_multiple_of(2) => Side::End,
            Mode::Both => Side::Begin,
        }
    }
}

/// When a run is over.
#[derive(Debug, Clone, Copy)]
pub enum Until {
    Time(Duration),
    Cases(u64),
}

/// What was found, and in which case.
#[derive(Debug)]
pub struct Found {
    pub index: u64,
    pub side: Side,
    pub difference: Difference,
}

/// Makes case after case. Before each its number is told.
pub fn run(
    calls: &Calls,
    seed: u64,
    mode: Mode,
    until: Until,
    mut begins: impl FnMut(u64),
) -> (Tally, Duration, Option<Found>) {
    let start = Instant::now();
    let cases = Cases::new(seed);
    let mut asker = Asker::new(calls);
    let mut found = None;
    for index in 0.. {
        let over = match until {
            Until::Time(time) => start.elapsed() >= time,
            Until::Cases(count) => index >= count,
        };
        if over {
            break;
        }
        begins(index);
        let side = mode.side(index);
        if let Err(difference) = cases.make(&mut asker, index, side, false) {
            found = Some(Found { index, side, difference });
            break;
        }
    }
    (asker.tally, start.elapsed(), found)
}

/// Makes one case again and tells its calls.
pub fn replay(calls: &Calls, seed: u64, index: u64, side: Side) -> Result<Tally, Difference> {
    let mut asker = Asker::new(calls);
    Cases::new(seed).make(&mut asker, index, side, true)?;
    Ok(asker.tally)
}
