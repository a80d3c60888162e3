//! Tables that are plans, nearly plans or anything at all, numbers of variables, and room to list in.

use reference::cases::tables::{arbitrary, damage, hostile, plan, random_segments, some_n, table_of, USUAL};
use reference::random::Random;

use crate::ask::LISTED;

/// Any table.
pub fn table(random: &mut Random) -> Vec<i64> {
    match random.below(20) {
        0..=2 => arbitrary(random, &USUAL),
        3 => table_of(&random_segments(random, &USUAL)),
        4 => {
            let replication = random.between(1, 2_147_483_647);
            let (deep, with_variables) = (1 + random.below(22), random.chance(50));
            table_of(&hostile(deep, replication, with_variables))
        }
        5..=7 => {
            let (mut table, _) = plan(random, &USUAL);
            damage(random, &mut table);
            table
        }
        _ => plan(random, &USUAL).0,
    }
}

/// A table that differs from this one by a little.
pub fn nearly(random: &mut Random, table: &[i64]) -> Vec<i64> {
    let mut other = table.to_vec();
    match random.below(8) {
        0 if table.len() > 1 => {
            let (one, two) = (random.below(table.len()), random.below(table.len()));
            other.swap(one, two);
        }
        1 => other.push(random.pick(&[0, 1, -1, i64::MIN])),
        2 => other.truncate(table.len().saturating_sub(1)),
        _ => damage(random, &mut other),
    }
    other
}

/// Numbers of variables of a table that has so many: the ends, beyond them, and some between.
pub fn some_numbers(random: &mut Random, count: u64) -> Vec<u64> {
    let mut numbers = vec![0, count.saturating_sub(1), count, random.pick(&[count + 1, u64::MAX])];
    numbers.extend((0..10).map(|_| some_number(random, count)));
    numbers
}

pub fn some_number(random: &mut Random, count: u64) -> u64 {
    if random.chance(3) {
        random.draw()
    } else {
        some_n(random, count)
    }
}

/// What a buffer holds before it is lent.
pub fn numbers(random: &mut Random, length: usize) -> Vec<u64> {
    (0..length).map(|_| random.draw()).collect()
}

pub fn integers(random: &mut Random, length: usize) -> Vec<i64> {
    (0..length).map(|_| random.draw() as i64).collect()
}

/// How many numbers are lent to list in: none, not enough for one, up to several batches, and some that end within a variable.
pub fn some_room(random: &mut Random) -> usize {
    match random.below(12) {
        0 => 0,
        1 => random.below(LISTED),
        2 => LISTED * random.below(300) + random.below(LISTED),
        3..=6 => LISTED * (1 + random.below(6)),
        _ => random.below(12 * LISTED),
    }
}
