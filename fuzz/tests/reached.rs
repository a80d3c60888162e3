//! What a short run reaches.

use fuzz::calls::{LIBRARY, NAMES};
use fuzz::run::{run, Mode, Until};
use fuzz::tally::REFUSALS;

const CASES: u64 = 6_000;

#[test]
fn every_call_and_every_refusal_comes() {
    let (tally, _, found) = run(&LIBRARY, 1, Mode::Both, Until::Cases(CASES), |_| ());
    assert!(found.is_none(), "{found:?}");
    assert_eq!(tally.missing(), []);
    for (number, name) in NAMES.iter().enumerate() {
        assert!(tally.accepted(number) > 100, "{name} is accepted {} times", tally.accepted(number));
    }
    for refusal in REFUSALS {
        let share = tally.count(refusal) as f64 / tally.calls() as f64;
        assert!(share > 0.0005, "refusal {refusal} has a share of {share}");
    }
}

#[test]
fn a_seed_has_the_same_cases_each_time() {
    let counts = || run(&LIBRARY, 7, Mode::Both, Until::Cases(300), |_| ()).0.lines(1.0);
    assert_eq!(counts(), counts());
}
