//! The iterator against `variable(n)`, one by one.

mod texts;

use planksling::{Cause, Description, Kind, Table, Variable, MOST_VARIABLES};
use texts::{planned, segment, text, Numbers, WORKED};

/// Groups in groups, whose copies go up and down, and two segments.
fn nested() -> Description {
    let elements = concat!(
        "<segment space=\"1\" origin=\"5000\"><int/>",
        "<group replication=\"7\" offset=\"3\"><eventid/>",
        "<group replication=\"5\" offset=\"-4\"><int size=\"2\" offset=\"-9\"/><float size=\"4\"/></group>",
        "<group replication=\"3\"/><string size=\"11\" offset=\"1\"/></group><int size=\"8\"/></segment>",
        "<segment space=\"2\"/>",
        "<segment space=\"3\"><group replication=\"400\"><string size=\"3\"/><eventid offset=\"2\"/></group></segment>",
    );
    text(elements).parse().expect("a good description")
}

fn copies(count: usize) -> Description {
    if count == 0 {
        return planned("");
    }
    planned(&format!("<group replication=\"{count}\"><int size=\"2\"/></group>"))
}

/// All variables, each asked for by itself.
fn one_by_one(description: &Description) -> Vec<Variable> {
    (0..description.variable_count()).map(|n| description.variable(n).expect("a variable")).collect()
}

#[test]
fn equals_each_variable() {
    for description in [nested(), WORKED.parse().expect("T"), planned(""), text("").parse().expect("no segment")] {
        let all = one_by_one(&description);
        assert_eq!(description.iter().collect::<Vec<_>>(), all);
        let mut by_next = Vec::new();
        for variable in &description {
            by_next.push(variable);
        }
        assert_eq!(by_next, all);
        assert_eq!(description.table().into_iter().collect::<Vec<_>>(), all);
        // the table alone has the same variables, and counts them by itself
        let table = Table::try_from(description.table().numbers()).expect("a plan");
        assert_eq!(&table, description.table());
        assert_eq!(table.iter().collect::<Vec<_>>(), all);
        assert_eq!(description.variable(all.len() as u64).unwrap_err().cause, Cause::NoVariable);
        for (n, variable) in (0..).zip(&all) {
            assert_eq!(variable.number, n);
            let record = description.table().record(variable.record).expect("its record");
            assert_eq!(record[0] as u64, variable.kind.number());
            assert_eq!(record[3] as usize, variable.size);
        }
    }
    assert!(nested().iter().any(|variable| variable.kind == Kind::Float));
}

/// From nothing to past the fourth batch, so that each border is met on both sides.
#[test]
fn every_count() {
    for count in 0..=480 {
        let description = copies(count);
        let mut variables = description.iter();
        for n in 0..count as u64 {
            assert_eq!(variables.len(), count - n as usize);
            assert_eq!(variables.next(), description.variable(n).ok(), "{n} of {count}");
        }
        assert_eq!(variables.len(), 0);
        assert_eq!(variables.next(), None);
        assert_eq!(variables.next(), None);
        assert_eq!(variables.nth(3), None);
        assert_eq!(description.iter().count(), count);
        assert_eq!(description.iter().last(), count.checked_sub(1).and_then(|n| description.variable(n as u64).ok()));
        assert_eq!(description.iter().fold(0, |n, variable| n + usize::from(variable.number == n as u64)), count);
    }
}

#[test]
fn jumps() {
    let description = nested();
    let all = one_by_one(&description);
    let count = all.len() as u64;
    let mut numbers = Numbers::new(1);
    for _ in 0..300 {
        let mut variables = description.iter();
        let mut at = 0;
        while at < all.len() {
            let skipped = match numbers.below(5) {
                0 => numbers.below(3),
                1 => numbers.below(20),
                2 => numbers.below(150),
                3 => numbers.below(count),
                _ => 0,
            } as usize;
            at += skipped;
            assert_eq!(variables.nth(skipped), all.get(at).copied());
            at = all.len().min(at + 1);
            assert_eq!(variables.size_hint(), (all.len() - at, Some(all.len() - at)));
            if numbers.below(20) == 0 {
                // a copy goes on from the same variable, and what is left is the same by `fold`
                assert_eq!(variables.clone().collect::<Vec<_>>(), all[at..]);
                assert_eq!(variables.clone().count(), all.len() - at);
                assert_eq!(variables.clone().last(), all[at..].last().copied());
            }
        }
        assert_eq!(variables.next(), None);
        assert_eq!(variables.len(), 0);
    }
}

#[test]
fn steps_and_skips() {
    let description = nested();
    let all = one_by_one(&description);
    for step in (1..=140).chain([500, 881, 882, 883, usize::MAX]) {
        let stepped: Vec<Variable> = all.iter().copied().step_by(step).collect();
        assert_eq!(description.iter().step_by(step).collect::<Vec<_>>(), stepped);
        let skipped: Vec<Variable> = all.iter().copied().skip(step).collect();
        assert_eq!(description.iter().skip(step).collect::<Vec<_>>(), skipped);
    }
    assert_eq!(description.iter().nth(usize::MAX), None);
    let mut variables = description.iter();
    variables.next();
    assert_eq!(variables.nth(usize::MAX), None);
    assert_eq!(variables.next(), None);
}

#[test]
fn a_million() {
    let most = MOST_VARIABLES as usize;
    let description =
        planned("<group replication=\"250000\"><int/><int size=\"2\"/><group replication=\"2\"><int/></group></group>");
    assert_eq!((description.record_count(), description.variable_count()), (6, MOST_VARIABLES));
    assert_eq!(description.iter().len(), most);
    let mut met = 0;
    for variable in &description {
        let (copy, member) = (met / 4, met % 4);
        assert_eq!(variable.number, met);
        assert_eq!(variable.address, 128 + 5 * copy + [0, 1, 3, 4][member as usize]);
        met += 1;
    }
    assert_eq!(met, MOST_VARIABLES);
    assert_eq!(description.iter().map(|variable| variable.size).sum::<usize>(), 5 * most / 4);
    assert_eq!(description.iter().nth(most - 1), description.variable(MOST_VARIABLES - 1).ok());
    // a stored table counts the same
    let table = Table::try_from(description.table().numbers()).expect("a plan");
    assert_eq!(table.variable_count(), MOST_VARIABLES);
    assert_eq!(table.iter().step_by(1000).count(), 1000);
}

#[test]
fn a_million_and_one() {
    let text = segment("<group replication=\"1000000\"><int/></group><int/>");
    let refusal = text.parse::<Description>().unwrap_err();
    assert_eq!((refusal.cause, refusal.place), (Cause::TooManyVariables, text.find("<cdi").expect("cdi")));
}
