//! The test whether a table is a plan against a literal one that reads document 01 clause by clause
//! and walks by copying out, on small tables: plans, damaged plans and arbitrary numbers.

use reference::cases::tables::{arbitrary, damage, plan as random_plan, Measure, SMALL};
use reference::random::Random;
use reference::table::{plan, Record};

const STEPS: usize = 30_000;

struct Literal<'a> {
    records: &'a [Record],
    address: i128,
    variables: i64,
    steps: usize,
}

enum Verdict {
    Plan,
    NoPlan,
    TooLong,
}

impl Literal<'_> {
    /// Whether record j stands in the subtree of record i.
    fn holds(&self, i: usize, j: usize) -> bool {
        i < j && (j as i128) < self.records[i].after as i128
    }

    fn depth(&self, j: usize) -> usize {
        2 + (0..j).filter(|i| self.holds(*i, j)).count()
    }

    fn is_child(&self, i: usize, j: usize) -> bool {
        self.holds(i, j) && !(i + 1..j).any(|between| self.holds(between, j))
    }

    fn nests(&self) -> bool {
        let count = self.records.len();
        (0..count).all(|i| {
            let record = &self.records[i];
            let after = record.after as i128;
            let whole = after > i as i128 && after <= count as i128;
            let alone = record.kind == 1 || record.kind == 2 || after == i as i128 + 1;
            whole && alone && (0..count).all(|j| !self.holds(i, j) || self.records[j].after as i128 <= after)
        })
    }

    fn tops(&self) -> bool {
        (0..self.records.len()).all(|j| (self.records[j].kind == 1) == (self.depth(j) == 2))
            && (0..self.records.len()).all(|j| self.depth(j) <= 24)
    }

    fn ranges(&self) -> bool {
        self.records.iter().all(|record| {
            let offset = (-2_147_483_648..=2_147_483_647).contains(&record.shift);
            let once = record.replication == 1;
            match record.kind {
                1 => record.shift >= 0 && offset && record.extra >= 0 && record.extra <= 255 && once,
                2 => offset && record.extra == 0 && record.replication >= 1 && record.replication <= 2_147_483_647,
                3 => offset && once && matches!(record.extra, 1 | 2 | 4 | 8),
                4 => offset && once && record.extra >= 1 && record.extra <= 65_535,
                5 => offset && once && record.extra == 8,
                6 => offset && once && matches!(record.extra, 2 | 4 | 8),
                _ => false,
            }
        })
    }

    fn places(&self) -> bool {
        let places: Vec<i64> = self.records.iter().map(|record| record.place).collect();
        (0..places.len()).all(|j| (22..=65_534).contains(&places[j]) && (0..j).all(|i| places[i] < places[j]))
    }

    /// None if the address or the steps run out; else whether the fields are what the walk gives.
    fn add(&mut self, amount: i64) -> Result<(), Verdict> {
        if self.steps == 0 {
            return Err(Verdict::TooLong);
        }
        self.steps -= 1;
        self.address += amount as i128;
        if self.address < 0 || self.address > 1 << 32 {
            return Err(Verdict::NoPlan);
        }
        Ok(())
    }

    fn data(&mut self, j: usize) -> Result<(), Verdict> {
        let record = self.records[j];
        let (address, variables) = (self.address, self.variables);
        self.add(record.shift)?;
        if record.kind == 2 {
            for _ in 0..record.replication {
                self.add(0)?;
                self.members(j)?;
            }
        } else {
            self.variables += 1;
            self.add(record.extra)?;
        }
        self.fields(&record, variables, address)
    }

    fn members(&mut self, i: usize) -> Result<(), Verdict> {
        for j in i + 1..self.records.len() {
            if self.is_child(i, j) {
                self.data(j)?;
            }
        }
        Ok(())
    }

    fn fields(&self, record: &Record, variables: i64, address: i128) -> Result<(), Verdict> {
        let same = record.variables == self.variables - variables && record.change as i128 == self.address - address;
        if same {
            Ok(())
        } else {
            Err(Verdict::NoPlan)
        }
    }

    fn walks(&mut self) -> Result<(), Verdict> {
        for i in 0..self.records.len() {
            if self.records[i].kind == 1 {
                self.address = self.records[i].shift as i128;
                let (address, variables) = (self.address, self.variables);
                self.members(i)?;
                let record = self.records[i];
                self.fields(&record, variables, address)?;
            }
        }
        if self.variables <= 1_000_000 {
            Ok(())
        } else {
            Err(Verdict::NoPlan)
        }
    }
}

fn literally(table: &[i64]) -> Verdict {
    if !table.len().is_multiple_of(8) || table.len() / 8 > 4_095 {
        return Verdict::NoPlan;
    }
    let records: Vec<Record> = table.chunks(8).map(Record::of_fields).collect();
    let mut literal = Literal { records: &records, address: 0, variables: 0, steps: STEPS };
    if !(literal.ranges() && literal.places() && literal.nests() && literal.tops()) {
        return Verdict::NoPlan;
    }
    match literal.walks() {
        Ok(()) => Verdict::Plan,
        Err(verdict) => verdict,
    }
}

#[test]
fn both_tests_agree() {
    let (mut plans, mut others, mut long) = (0, 0, 0);
    for seed in 0..12_000u64 {
        let random = &mut Random::new(seed);
        let measure = if seed % 2 == 0 { SMALL } else { Measure { records: 10, depth: 26, large: seed % 4 == 1 } };
        let mut table = if seed % 10 == 9 { arbitrary(random, &measure) } else { random_plan(random, &measure).0 };
        for _ in 0..random.below(3) {
            damage(random, &mut table);
        }
        match literally(&table) {
            Verdict::Plan => {
                plans += 1;
                assert!(plan(&table).is_some(), "{table:?}");
            }
            Verdict::NoPlan => {
                others += 1;
                assert!(plan(&table).is_none(), "{table:?}");
            }
            Verdict::TooLong => long += 1,
        }
    }
    assert!(plans > 3_000 && others > 3_000 && long < 1_500, "{plans} {others} {long}");
}

#[test]
fn the_empty_table_is_a_plan() {
    assert_eq!(plan(&[]), Some(Vec::new()));
}
