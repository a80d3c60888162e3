//! Records and the table: writing the records of a description, the test whether a table is a plan,
//! and locating a variable in a plan.

use crate::description::{Data, Detail, Kind, Segment};
use crate::refusal::{unplaced, Refusal};
use crate::tree::DEPTH;
use crate::walk::{copy_out, extent_of, extent_of_list, extent_of_segment, steps_for, walk, Extent, Met, Outcome};

/// The numbers of one record.
pub const FIELDS: usize = 8;
/// The greatest number of records.
pub const RECORDS: usize = 4_095;
/// A segment's depth.
const SEGMENT_DEPTH: usize = 2;

/// One record by the names of its fields.
#[derive(Debug, Clone, Copy, PartialEq, Eq)]
pub struct Record {
    /// 1 segment, 2 group, 3 int, 4 string, 5 eventid, 6 float.
    pub kind: i64,
    pub place: i64,
    /// A segment's origin, else the offset.
    pub shift: i64,
    /// A segment's space, 0 for a group, else the size.
    pub extra: i64,
    pub replication: i64,
    /// Number of the record after its subtree.
    pub after: i64,
    /// Variables in all copies.
    pub variables: i64,
    /// Change of the current address over all copies.
    pub change: i64,
}

impl Record {
    pub fn fields(&self) -> [i64; FIELDS] {
        [self.kind, self.place, self.shift, self.extra, self.replication, self.after, self.variables, self.change]
    }

    pub fn of_fields(fields: &[i64]) -> Record {
        Record {
            kind: fields[0],
            place: fields[1],
            shift: fields[2],
            extra: fields[3],
            replication: fields[4],
            after: fields[5],
            variables: fields[6],
            change: fields[7],
        }
    }
}

/// The first field of a segment's record.
const SEGMENT: i64 = 1;

/// The record of a data element with these last two fields; the number of the record after its subtree is not known yet.
pub fn data_record(data: &Data, variables: i64, change: i64) -> Record {
    Record {
        kind: data.kind.field(),
        place: data.place as i64,
        shift: data.offset,
        extra: data.size,
        replication: data.replication,
        after: 0,
        variables,
        change,
    }
}

/// Puts the records of data elements behind those there are.
fn add_data(records: &mut Vec<Record>, members: &[Data]) -> Option<()> {
    for data in members {
        let extent = extent_of(data)?;
        records.push(data_record(data, data_count(extent), extent.change as i64));
        let own = records.len() - 1;
        add_data(records, &data.members)?;
        records[own].after = records.len() as i64;
    }
    Some(())
}

fn data_count(extent: Extent) -> i64 {
    extent.variables.min(i64::MAX as u128) as i64
}

/// The records of segments whose walk keeps the limits; none where it doesn't.
pub fn records(segments: &[Segment]) -> Option<Vec<Record>> {
    let mut records = Vec::new();
    for segment in segments {
        let extent = extent_of_segment(segment)?;
        let own = records.len();
        records.push(Record {
            kind: SEGMENT,
            place: segment.place as i64,
            shift: segment.origin,
            extra: segment.space,
            replication: 1,
            after: 0,
            variables: data_count(extent),
            change: extent.change as i64,
        });
        add_data(&mut records, &segment.members)?;
        records[own].after = records.len() as i64;
    }
    Some(records)
}

/// The numbers of records one after another.
pub fn numbers(records: &[Record]) -> Vec<i64> {
    records.iter().flat_map(Record::fields).collect()
}

/// The records of a table of whole records.
pub fn records_of(table: &[i64]) -> Option<Vec<Record>> {
    table.len().is_multiple_of(FIELDS).then(|| table.chunks(FIELDS).map(Record::of_fields).collect())
}

fn is_32_bit(number: i64) -> bool {
    i32::try_from(number).is_ok()
}

/// Whether a record's own fields are in the ranges of the table of elements.
fn in_range(record: &Record) -> bool {
    let origin = 0..=2_147_483_647;
    let replication = 1..=2_147_483_647;
    let variable = is_32_bit(record.shift) && record.replication == 1;
    match record.kind {
        1 => origin.contains(&record.shift) && (0..=255).contains(&record.extra) && record.replication == 1,
        2 => is_32_bit(record.shift) && record.extra == 0 && replication.contains(&record.replication),
        3 => variable && [1, 2, 4, 8].contains(&record.extra),
        4 => variable && (1..=65_535).contains(&record.extra),
        5 => variable && record.extra == 8,
        6 => variable && [2, 4, 8].contains(&record.extra),
        _ => false,
    }
}

fn places_rise(records: &[Record]) -> bool {
    let inside = records.iter().all(|record| (22..=65_534).contains(&record.place));
    inside && records.windows(2).all(|pair| pair[0].place < pair[1].place)
}

/// The number of the record after a subtree, if it lies behind its own record and not behind its parent's.
fn after(records: &[Record], own: usize, parent_after: usize) -> Option<usize> {
    let after = usize::try_from(records[own].after).ok()?;
    (own < after && after <= parent_after).then_some(after)
}

/// The data elements from record `next` up to and without `end`, at this depth.
fn read_data(records: &[Record], mut next: usize, end: usize, depth: usize) -> Option<Vec<Data>> {
    let mut members = Vec::new();
    while next < end {
        let record = &records[next];
        let kind = Kind::of_field(record.kind)?;
        let after = after(records, next, end)?;
        if depth > DEPTH || (kind != Kind::Group && after != next + 1) {
            return None;
        }
        members.push(Data {
            record: next,
            place: record.place as usize,
            kind,
            offset: record.shift,
            size: record.extra,
            replication: record.replication,
            members: read_data(records, next + 1, after, depth + 1)?,
            detail: Detail::None,
        });
        next = after;
    }
    Some(members)
}

/// The segments of a table whose subtrees nest; none where they don't.
pub fn read_segments(records: &[Record]) -> Option<Vec<Segment>> {
    let mut segments = Vec::new();
    let mut next = 0;
    while next < records.len() {
        let record = &records[next];
        let after = after(records, next, records.len())?;
        if record.kind != SEGMENT {
            return None;
        }
        segments.push(Segment {
            record: next,
            place: record.place as usize,
            origin: record.shift,
            space: record.extra,
            members: read_data(records, next + 1, after, SEGMENT_DEPTH + 1)?,
        });
        next = after;
    }
    Some(segments)
}

/// The segments of a table, if it is a plan.
pub fn plan(table: &[i64]) -> Option<Vec<Segment>> {
    let given = records_of(table)?;
    if given.len() > RECORDS || !given.iter().all(in_range) || !places_rise(&given) {
        return None;
    }
    let segments = read_segments(&given)?;
    let kept = matches!(walk(&segments), Outcome::Kept { .. });
    (kept && records(&segments)? == given).then_some(segments)
}

/// Variable n among data elements that are walked from an address.
fn locate_in(members: &[Data], mut n: u128, mut address: i128, space: i64) -> Option<Met> {
    for data in members {
        let extent = extent_of(data)?;
        if n >= extent.variables {
            n -= extent.variables;
            address += extent.change;
            continue;
        }
        address += data.offset as i128;
        if data.kind != Kind::Group {
            return Some(Met { record: data.record, space, address, size: data.size, kind: data.kind });
        }
        let once = extent_of_list(&data.members)?;
        let copy = n / once.variables;
        let start = address + copy as i128 * once.change;
        return locate_in(&data.members, n % once.variables, start, space);
    }
    None
}

/// Variable n of segments whose walk keeps the limits: the nth one met where the walk is short.
pub fn variable(segments: &[Segment], n: u64) -> Option<Met> {
    match copy_out(segments, steps_for(segments)) {
        Ok(copying) => usize::try_from(n).ok().and_then(|n| copying.met.get(n).copied()),
        Err(_) => variable_by_division(segments, n),
    }
}

/// Variable n of segments whose walk keeps the limits, each group's copy chosen by division.
pub fn variable_by_division(segments: &[Segment], n: u64) -> Option<Met> {
    let mut n = n as u128;
    for segment in segments {
        let extent = extent_of_segment(segment)?;
        if n < extent.variables {
            return locate_in(&segment.members, n, segment.origin as i128, segment.space);
        }
        n -= extent.variables;
    }
    None
}

/// Locates variable n of a table.
pub fn locate(table: &[i64], n: u64) -> Result<Met, Refusal> {
    let segments = plan(table).ok_or(unplaced(20))?;
    variable(&segments, n).ok_or(unplaced(21))
}
