//! Times the proved locator and listing beside plain Rust over the same tables, in one run, and prints ratios.

mod accessing;
mod answers;
mod backups;
mod characters;
mod editing;
mod gate;
mod growth;
mod kinds;
mod library;
mod plain;
mod plain_backup;
mod planner;
mod planning;
mod print;
mod printing;
mod proved;
mod refusing;
mod stack;
mod texts;

use std::hint::black_box;
use std::time::Instant;

#[inline(never)]
fn plain_find(table: &[i64], n: u64) -> u64 {
    plain::find(table, n).map_or(u64::MAX, |variable| variable[2])
}

fn plain_locate(table: &[i64], n: u64) -> u64 {
    if plain::is_plan(table) {
        plain_find(table, n)
    } else {
        u64::MAX
    }
}

/// A tree to make tables of.
enum Item {
    Group(i64, i64, Vec<Item>),
    Int(i64, i64),
}

fn write(items: &[Item], rows: &mut Vec<[i64; 8]>) -> (i64, i64) {
    let (mut count, mut change) = (0, 0);
    for item in items {
        let i = rows.len();
        let place = 22 + i as i64 * 15;
        match item {
            Item::Int(offset, size) => {
                rows.push([3, place, *offset, *size, 1, i as i64 + 1, 1, offset + size]);
            }
            Item::Group(offset, copies, members) => {
                rows.push([plain::GROUP, place, *offset, 0, *copies, 0, 0, 0]);
                let (each, step) = write(members, rows);
                rows[i][5] = rows.len() as i64;
                rows[i][6] = each * copies;
                rows[i][7] = offset + step * copies;
            }
        }
        count += rows[i][6];
        change += rows[i][7];
    }
    (count, change)
}

fn table(items: Vec<Item>) -> Vec<i64> {
    let mut rows = vec![[1, 22, 128, 253, 1, 0, 0, 0]];
    let (count, change) = write(&items, &mut rows);
    rows[0][5] = rows.len() as i64;
    rows[0][6] = count;
    rows[0][7] = change;
    rows.concat()
}

fn count(table: &[i64]) -> u64 {
    let (mut i, mut all) = (0, 0);
    while i < table.len() / 8 {
        all += table[i * 8 + 6];
        i = table[i * 8 + 5] as usize;
    }
    all as u64
}

/// The least times of the two, in turns, so that both meet the same machine.
fn least(mut a: impl FnMut(), mut b: impl FnMut(), rounds: usize) -> (f64, f64) {
    let mut best = (f64::MAX, f64::MAX);
    for _ in 0..rounds {
        let begun = Instant::now();
        a();
        best.0 = best.0.min(begun.elapsed().as_secs_f64());
        let begun = Instant::now();
        b();
        best.1 = best.1.min(begun.elapsed().as_secs_f64());
    }
    best
}

/// The least times of asking the two for all of `asked`.
fn in_turns(
    table: &[i64],
    asked: &[u64],
    proved: impl Fn(&[i64], u64) -> u64,
    plain: impl Fn(&[i64], u64) -> u64,
    rounds: usize,
) -> (f64, f64) {
    least(
        || {
            asked.iter().for_each(|&n| {
                black_box(proved(black_box(table), n));
            })
        },
        || {
            asked.iter().for_each(|&n| {
                black_box(plain(black_box(table), n));
            })
        },
        rounds,
    )
}

fn tell(what: &str, each: usize, (proved, plain): (f64, f64)) {
    let per = 1e9 / each as f64;
    println!("{what}: proved {:.2} ns, plain {:.2} ns, ratio {:.2}", proved * per, plain * per, proved / plain);
}

/// Tables of 1,000,000 variables.
fn long() -> [(&'static str, Vec<i64>); 3] {
    [
        ("100,000 copies of 10", table(vec![Item::Group(0, 100_000, (0..10).map(|k| Item::Int(k % 2, 2)).collect())])),
        ("1,000,000 copies of 1", table(vec![Item::Group(0, 1_000_000, vec![Item::Int(0, 4)])])),
        (
            "three levels of groups",
            table(vec![Item::Group(
                1,
                1000,
                vec![Item::Group(2, 50, vec![Item::Group(0, 5, (0..4).map(|_| Item::Int(1, 2)).collect())])],
            )]),
        ),
    ]
}

fn main() {
    let asked = [
        planning::asked,
        accessing::asked,
        editing::asked,
        backups::asked,
        library::asked,
        characters::asked,
        print::asked,
    ];
    if asked.into_iter().any(|asked| asked()) {
        return;
    }
    let wide = || (0..40).map(|k| Item::Int(k % 3, [1, 2, 4, 8][k as usize % 4])).collect::<Vec<_>>();
    let mut nested = vec![Item::Int(0, 1), Item::Int(1, 2)];
    for level in 0..20 {
        nested = vec![
            Item::Int(0, 1),
            Item::Group(1, if level % 4 == 0 { 3 } else { 1 + level % 2 }, nested),
            Item::Int(0, 4),
        ];
    }
    let tables = [
        ("three records", table(vec![Item::Group(6, 60000, vec![Item::Int(2, 1), Item::Int(1, 4)])])),
        ("groups of 40 elements", table((0..20).map(|_| Item::Group(4, 100, wide())).collect())),
        ("21 levels", table(nested)),
        ("4,095 records", table((0..4094).map(|k| Item::Int(k % 2, 4)).collect())),
    ];
    for (name, t) in &tables {
        assert!(plain::is_plan(t), "{name}");
        let all = count(t);
        let asked: Vec<u64> = (0..1000u64).map(|k| k.wrapping_mul(0x9e3779b97f4a7c15) % all).collect();
        for &n in asked.iter().chain(&[0, all - 1, all, u64::MAX >> 1]) {
            assert_eq!(proved::find(t, n), plain_find(t, n), "{name} {n}");
            assert_eq!(proved::locate(t, n), plain_locate(t, n), "{name} {n}");
        }
        tell(&format!("inner walk, {name}"), asked.len(), in_turns(t, &asked, proved::find, plain_find, 400));
        let few = &asked[..50];
        tell(&format!("locate, {name}"), few.len(), in_turns(t, few, proved::locate, plain_locate, 100));
    }
    for (name, t) in &long() {
        assert!(plain::is_plan(t), "{name}");
        let all = count(t) as usize;
        assert_eq!(all, 1_000_000);
        let mut mine = vec![0u64; all * 5];
        let mut theirs = vec![0u64; all * 5];
        let times = least(
            || assert_eq!(proved::list(t, 0, &mut mine), all),
            || assert_eq!(plain::list(t, &mut theirs), all),
            40,
        );
        assert!(mine == theirs, "{name}");
        tell(&format!("listing 1,000,000, {name}"), all, times);
        let mut batch = vec![0u64; 256 * 5];
        let mut sum = 0;
        let times = least(
            || {
                let mut n = 0;
                while n < all {
                    n += proved::list(t, n as u64, &mut batch);
                    sum += batch[0];
                }
            },
            || {
                black_box(plain::list(t, &mut theirs));
            },
            40,
        );
        black_box(sum);
        tell(&format!("listing in batches of 256, {name}"), all, times);
    }
}
