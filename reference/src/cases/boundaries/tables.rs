//! The boundary cases of locating.

use super::super::tables::{self, group, hostile, number_all, table_of, variable};
use crate::answer::Case;
use crate::description::{Data, Kind, Segment};
use crate::table::{data_record, numbers, Record, FIELDS};

/// Segments with numbers and places, as a table.
fn numbered(mut segments: Vec<Segment>, first_place: usize) -> Vec<i64> {
    let mut place = first_place;
    number_all(&mut segments, &mut || {
        place += 1;
        place - 1
    });
    table_of(&segments)
}

fn table_with(members: Vec<Data>) -> Vec<i64> {
    numbered(vec![tables::segment(10, 1, members)], 22)
}

/// The table of a description with nested groups and every kind.
fn rich_table() -> Vec<i64> {
    let inner = group(-2, 3, vec![variable(Kind::Float, 1, 4), variable(Kind::String, 0, 7)]);
    let outer = group(4, 2, vec![variable(Kind::Eventid, -1, 8), inner, variable(Kind::Int, 0, 2)]);
    let first = tables::segment(100, 253, vec![variable(Kind::Int, 0, 1), outer, group(3, 5, Vec::new())]);
    let second = tables::segment(0, 0, vec![variable(Kind::String, 0, 10)]);
    numbered(vec![first, second], 155)
}

fn each_field_off() -> Vec<Case> {
    let table = rich_table();
    let mut cases = Vec::new();
    for index in 0..table.len() {
        for step in [1, -1] {
            let mut changed = table.clone();
            changed[index] += step;
            cases.push(Case::Locate { table: changed, n: (index % 9) as u64 });
        }
    }
    for more in 1..=9 {
        let mut longer = table.clone();
        longer.extend(std::iter::repeat_n(0, more));
        cases.push(Case::Locate { table: longer, n: 0 });
        cases.push(Case::Locate { table: table[..table.len() - more].to_vec(), n: 0 });
        cases.push(Case::Locate { table: vec![0; more], n: 0 });
    }
    for record in 1..table.len() / FIELDS {
        let mut swapped = table.clone();
        for field in 0..FIELDS {
            swapped.swap(FIELDS * (record - 1) + field, FIELDS * record + field);
        }
        cases.push(Case::Locate { table: swapped, n: 0 });
    }
    cases
}

fn each_variable() -> Vec<Case> {
    let table = rich_table();
    let mut cases: Vec<Case> = (0..24).map(|n| Case::Locate { table: table.clone(), n }).collect();
    for n in [0, 1, u64::MAX] {
        cases.push(Case::Locate { table: Vec::new(), n });
        cases.push(Case::Locate { table: table_with(Vec::new()), n });
    }
    cases.push(Case::Locate { table, n: u64::MAX });
    cases
}

fn table_ranges() -> Vec<Case> {
    let (high, low) = (i32::MAX as i64, i32::MIN as i64);
    let mut tables = Vec::new();
    for (kind, sizes) in [
        (Kind::Int, [0, 1, 2, 3, 4, 7, 8, 9]),
        (Kind::String, [0, 1, 2, 3, 65_534, 65_535, 65_536, -1]),
        (Kind::Eventid, [0, 1, 2, 4, 7, 8, 9, 16]),
        (Kind::Float, [0, 1, 2, 3, 4, 5, 8, 16]),
    ] {
        tables.extend(sizes.map(|size| table_with(vec![variable(kind, 0, size)])));
    }
    tables.extend([0, 1, 2, high - 1, high, high + 1].map(|copies| table_with(vec![group(0, copies, Vec::new())])));
    for offset in [low - 1, low, high, high + 1] {
        tables.push(numbered(
            vec![tables::segment(high, 1, vec![group(offset, 1, Vec::new()), group(1, 1, Vec::new())])],
            30,
        ));
        tables.push(numbered(
            vec![tables::segment(high, 1, vec![variable(Kind::Int, 0, 1), variable(Kind::Int, offset, 1)])],
            30,
        ));
    }
    for origin in [-1, 0, high, high + 1] {
        tables.push(numbered(vec![tables::segment(origin, 1, vec![group(1, 1, Vec::new())])], 30));
    }
    tables.extend(
        [-1, 0, 255, 256].map(|space| numbered(vec![tables::segment(3, space, vec![variable(Kind::Int, 0, 1)])], 30)),
    );
    tables.extend(
        [21, 22, 65_532, 65_533, 65_534, 65_535]
            .map(|place| numbered(vec![tables::segment(3, 1, vec![variable(Kind::Int, 0, 1)])], place)),
    );
    tables.extend([65_534, 65_535].map(|place| numbered(vec![tables::segment(3, 1, Vec::new())], place)));
    tables.into_iter().flat_map(|table| [0, 1].map(|n| Case::Locate { table: table.clone(), n })).collect()
}

fn table_walks() -> Vec<Case> {
    let high = i32::MAX as i64;
    let int = |offset| variable(Kind::Int, offset, 1);
    let mut cases = Vec::new();
    let mut add = |table: Vec<i64>, n: u64| cases.push(Case::Locate { table, n });
    for depth in [23usize, 24, 25, 26] {
        let mut members = vec![int(0)];
        for _ in 3..depth {
            members = vec![group(0, 2, members)];
        }
        // Only the nesting is at the edge: each group but the innermost is walked once.
        let mut once = vec![int(0)];
        for _ in 3..depth {
            once = vec![group(1, 1, once)];
        }
        add(table_with(once), 0);
        add(table_with(members), 5);
    }
    for count in [999_999u64, 1_000_000, 1_000_001] {
        let table = table_with(vec![group(0, count as i64 - 1, vec![int(0)]), int(0)]);
        for n in [0, 499_999, count - 2, count - 1, count, u64::MAX] {
            add(table.clone(), n);
        }
    }
    for (origin, offset) in [(0, 0), (0, -1), (1, -1), (1, -2)] {
        add(numbered(vec![tables::segment(origin, 1, vec![int(offset)])], 22), 0);
    }
    for last in [1, 2, 3] {
        let members = vec![group(high, 1, Vec::new()), group(last, 1, Vec::new()), variable(Kind::Int, -2, 2)];
        add(numbered(vec![tables::segment(high, 1, members)], 22), 0);
        let members = vec![group(high, 1, Vec::new()), int(last)];
        add(numbered(vec![tables::segment(high, 1, members)], 22), 0);
    }
    for origin in [30, 31, 32] {
        for n in [0, 8, 9, 10] {
            add(numbered(vec![tables::segment(origin, 1, vec![group(0, 10, vec![int(-4)])])], 22), n);
        }
    }
    for deep in [1, 2, 3, 19, 20, 21, 22] {
        for with_variables in [false, true] {
            for copies in [2, high] {
                for n in [0, 3, u64::MAX] {
                    add(table_of(&hostile(deep, copies, with_variables)), n);
                }
            }
        }
    }
    cases
}

/// Adds the records of a data element, its last two fields as arithmetic that wraps at 64 bits would give them.
fn wrapped_data(data: &Data, records: &mut Vec<Record>) -> (i64, i64) {
    let own = records.len();
    records.push(data_record(data, 1, data.offset.wrapping_add(data.size)));
    if data.kind == Kind::Group {
        let (variables, change) = wrapped_list(&data.members, records);
        records[own].variables = variables.wrapping_mul(data.replication);
        records[own].change = change.wrapping_mul(data.replication).wrapping_add(data.offset);
    }
    records[own].after = records.len() as i64;
    (records[own].variables, records[own].change)
}

fn wrapped_list(members: &[Data], records: &mut Vec<Record>) -> (i64, i64) {
    let mut sums = (0i64, 0i64);
    for data in members {
        let (variables, change) = wrapped_data(data, records);
        sums = (sums.0.wrapping_add(variables), sums.1.wrapping_add(change));
    }
    sums
}

/// The table of one segment with these members whose numbers wrap.
fn wrapped(members: Vec<Data>) -> Vec<i64> {
    let mut segments = vec![tables::segment(1, 1, members)];
    let mut place = 21;
    number_all(&mut segments, &mut || {
        place += 1;
        place
    });
    let mut records = vec![Record::of_fields(&[1, 22, 1, 1, 1, 0, 0, 0])];
    let (variables, change) = wrapped_list(&segments[0].members, &mut records);
    (records[0].variables, records[0].change) = (variables, change);
    records[0].after = records.len() as i64;
    numbers(&records)
}

/// A variable that holds records of its own.
fn holding(kind: Kind, size: i64, members: Vec<Data>) -> Data {
    Data { members, ..variable(kind, 0, size) }
}

/// Tables that are off in nothing but one rule: what may have a subtree, and the range of a variable's offset.
fn off_in_one_rule() -> Vec<Case> {
    let (high, low) = (i32::MAX as i64, i32::MIN as i64);
    let mut tables = Vec::new();
    for (kind, size) in [(Kind::Int, 1), (Kind::String, 5), (Kind::Eventid, 8), (Kind::Float, 4)] {
        let inner = variable(Kind::Int, 0, 2);
        tables.push(table_with(vec![holding(kind, size, vec![inner.clone()])]));
        tables.push(table_with(vec![holding(kind, size, vec![group(0, 1, Vec::new())]), inner]));
        for (origin, offset) in [(0, high), (0, high + 1), (high, low), (high, low - 1)] {
            let members = vec![group(9, 1, Vec::new()), variable(kind, offset, size)];
            tables.push(numbered(vec![tables::segment(origin, 1, members)], 40));
        }
    }
    // A segment in a segment, a variable at the top, and subtrees that overlap.
    let segment = |place, after| [1, place, 0, 1, 1, after, 0, 0];
    let empty = |place, after| [2, place, 0, 0, 1, after, 0, 0];
    tables.push([segment(30, 2), segment(31, 2)].concat());
    tables.push([segment(30, 1), segment(31, 2)].concat());
    tables.push([segment(30, 2), empty(31, 3), empty(32, 3)].concat());
    tables.push([segment(30, 3), empty(31, 2), empty(32, 3)].concat());
    tables.push([segment(30, 4), empty(31, 3), empty(32, 4), empty(33, 4)].concat());
    tables.push([segment(30, 4), empty(31, 4), empty(32, 4), empty(33, 4)].concat());
    tables.push(vec![3, 30, 0, 1, 1, 1, 1, 1]);
    tables.push(empty(30, 1).to_vec());
    tables.push(segment(30, 1).to_vec());
    tables.push(segment(30, 0).to_vec());
    tables.push(segment(30, 2).to_vec());
    tables.into_iter().flat_map(|table| [0, 1].map(|n| Case::Locate { table: table.clone(), n })).collect()
}

/// Tables that a test which wraps would take for plans.
fn wrapped_tables() -> Vec<Case> {
    let mut cases = Vec::new();
    for (copies, deep) in [(65_536, 2), (65_536, 4), (65_536, 8), (i32::MAX as i64, 3), (i32::MAX as i64, 21), (2, 21)]
    {
        for inner in
            [variable(Kind::Int, -1, 1), group(1, 1, Vec::new()), group(-1, 1, Vec::new()), variable(Kind::Int, 0, 1)]
        {
            let mut members = vec![inner];
            for _ in 0..deep {
                members = vec![group(0, copies, members)];
            }
            cases.push(Case::Locate { table: wrapped(members.clone()), n: 0 });
            members.push(variable(Kind::Int, 0, 1));
            cases.push(Case::Locate { table: wrapped(members), n: 0 });
        }
    }
    cases
}

/// Tables of the greatest number of records, and of one more.
fn long_tables() -> Vec<Case> {
    let table = |records: usize| table_with(vec![variable(Kind::Int, 0, 1); records - 1]);
    let mut cases: Vec<Case> = [0, 4_093, 4_094].map(|n| Case::Locate { table: table(4_095), n }).to_vec();
    cases.push(Case::Locate { table: table(4_096), n: 0 });
    cases
}

/// The boundary cases of locating.
pub fn of_locate() -> Vec<Case> {
    [
        each_field_off(),
        each_variable(),
        table_ranges(),
        table_walks(),
        off_in_one_rule(),
        wrapped_tables(),
        long_tables(),
    ]
    .into_iter()
    .flatten()
    .collect()
}
