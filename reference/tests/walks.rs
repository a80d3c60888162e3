//! The walk by extents against the walk that copies out, and locating against the variables met, on random trees.

use reference::cases::tables::{number_all, random_segments, Measure, SMALL};
use reference::description::Segment;
use reference::random::Random;
use reference::table::{locate, numbers, plan, records, variable, variable_by_division};
use reference::walk::{copy_out, walk, walk_by_extents, Copying, Ended, Outcome};

const STEPS: usize = 20_000;

/// Checks all that a walk which kept the addresses tells.
fn compare_kept(segments: &[Segment], copying: &Copying) {
    assert_eq!(walk_by_extents(segments), Outcome::Kept { variables: copying.met.len() as u64 });
    let records = records(segments).unwrap();
    for (record, variables, change) in &copying.walked {
        assert_eq!(records[*record].variables, *variables as i64);
        assert_eq!(records[*record].change as i128, *change);
    }
    let table = numbers(&records);
    assert_eq!(plan(&table).as_deref(), Some(segments));
    for (n, met) in copying.met.iter().enumerate() {
        assert_eq!(variable_by_division(segments, n as u64), Some(*met));
    }
    let count = copying.met.len() as u64;
    for n in [count, u64::MAX] {
        assert!(variable(segments, n).is_none() && variable_by_division(segments, n).is_none());
    }
    if let Some(last) = copying.met.last() {
        assert_eq!(locate(&table, count - 1), Ok(*last));
    }
    assert_eq!(locate(&table, count).unwrap_err().number, 21);
}

fn compare(segments: &[Segment]) -> &'static str {
    assert_eq!(walk(segments), walk_by_extents(segments));
    match copy_out(segments, STEPS) {
        Ok(copying) => {
            compare_kept(segments, &copying);
            "kept"
        }
        Err(Ended::Left { segment }) => {
            assert_eq!(walk_by_extents(segments), Outcome::Left { segment });
            assert!(records(segments).is_none());
            "left"
        }
        Err(Ended::TooLong) => "long",
    }
}

#[test]
fn extents_and_copies_agree() {
    let mut counts = std::collections::BTreeMap::new();
    for seed in 0..20_000 {
        let random = &mut Random::new(seed);
        let measure = if seed % 3 == 0 { SMALL } else { Measure { records: 12, depth: 24, large: seed % 3 == 1 } };
        let segments = random_segments(random, &measure);
        *counts.entry(compare(&segments)).or_insert(0) += 1;
    }
    assert!(counts["kept"] > 4_000 && counts["left"] > 2_000, "{counts:?}");
}

/// Moves the origin near 0 and near 2^32, so that both ends of the addresses are crossed.
#[test]
fn extents_and_copies_agree_at_both_ends() {
    let (mut kept, mut left) = (0, 0);
    for seed in 0..3_000 {
        let mut segments = random_segments(&mut Random::new(seed), &SMALL);
        let mut place = 21;
        number_all(&mut segments, &mut || {
            place += 1;
            place
        });
        for step in 0..12 {
            for segment in &mut segments {
                segment.origin = if seed % 2 == 0 { step * 3 } else { (1 << 32) - 220 + 20 * step };
            }
            match compare_any(&segments) {
                true => kept += 1,
                false => left += 1,
            }
        }
    }
    assert!(kept > 5_000 && left > 5_000, "{kept} {left}");
}

fn compare_any(segments: &[Segment]) -> bool {
    match copy_out(segments, STEPS) {
        Ok(copying) => {
            assert_eq!(walk_by_extents(segments), Outcome::Kept { variables: copying.met.len() as u64 });
            true
        }
        Err(Ended::Left { segment }) => {
            assert_eq!(walk_by_extents(segments), Outcome::Left { segment });
            false
        }
        Err(Ended::TooLong) => panic!("small trees have short walks"),
    }
}
