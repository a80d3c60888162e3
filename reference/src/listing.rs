//! What the program that lists prints for a text: the refusal, or every variable of the walk that copies out.

use crate::description::{Data, Kind};
use crate::plan::{plan_into, planned};
use crate::refusal::Refusal;
use crate::table::FIELDS;
use crate::walk::{copy_out, extent_of};

/// "uses a table of 1,024 records"
const RECORDS: usize = 1_024;

/// Enough for 1,000,000 variables unless each copy of a group has very many groups without variables.
const STEPS: usize = 100_000_000;

/// Groups without variables, which may have 2^31 - 1 copies each, as one group without members that does what all their copies do.
fn shortened(members: &mut [Data]) {
    for data in members {
        match extent_of(data) {
            Some(extent) if data.kind == Kind::Group && extent.variables == 0 => {
                data.offset = extent.change as i64;
                data.replication = 1;
                data.members.clear();
            }
            _ => shortened(&mut data.members),
        }
    }
}

fn refused(refusal: &Refusal) -> Vec<String> {
    vec![format!("refused {} at {}", refusal.number, refusal.place)]
}

/// The lines, without their newlines.
pub fn listing(text: &[u8]) -> Vec<String> {
    let (_, variables) = match plan_into(text, &mut [0; RECORDS * FIELDS]) {
        Ok(counts) => counts,
        Err(refusal) => return refused(&refusal),
    };
    let mut segments = planned(text).map(|planned| planned.segments).unwrap_or_default();
    segments.iter_mut().for_each(|segment| shortened(&mut segment.members));
    let Ok(walked) = copy_out(&segments, STEPS) else { return vec!["the walk is too long".to_string()] };
    let mut lines = vec![format!("variables {variables}")];
    lines.extend(
        walked
            .met
            .iter()
            .enumerate()
            .map(|(n, met)| format!("{n} {} {} {} {}", met.space, met.address, met.size, met.kind.name())),
    );
    lines
}
