//! The same work in plain Rust: what a programmer writes who trusts the table.

pub const GROUP: i64 = 2;

/// Record, space, address, size, kind.
pub type Variable = [u64; 5];

fn at(table: &[i64], i: usize, which: usize) -> i64 {
    table[i * 8 + which]
}

#[inline(never)]
pub fn find(table: &[i64], n: u64) -> Option<Variable> {
    let records = table.len() / 8;
    let (mut i, mut left) = (0, n as i64);
    while i < records {
        let next = at(table, i, 5) as usize;
        if left < at(table, i, 6) {
            return find_in(table, i + 1, next, at(table, i, 2), left, at(table, i, 3));
        }
        left -= at(table, i, 6);
        i = next;
    }
    None
}

fn find_in(table: &[i64], from: usize, end: usize, origin: i64, n: i64, space: i64) -> Option<Variable> {
    let (mut i, mut address, mut left) = (from, origin, n);
    while i < end {
        let count = at(table, i, 6);
        if left < count {
            let start = address + at(table, i, 2);
            if at(table, i, 0) != GROUP {
                return Some([i as u64, space as u64, start as u64, at(table, i, 3) as u64, at(table, i, 0) as u64]);
            }
            let copies = at(table, i, 4);
            let (each, step) = (count / copies, (at(table, i, 7) - at(table, i, 2)) / copies);
            let copy = left / each;
            return find_in(table, i + 1, at(table, i, 5) as usize, start + copy * step, left % each, space);
        }
        left -= count;
        address += at(table, i, 7);
        i = at(table, i, 5) as usize;
    }
    None
}

/// Fills `out` with every variable, by the walk that copies out.
#[inline(never)]
pub fn list(table: &[i64], out: &mut [u64]) -> usize {
    let records = table.len() / 8;
    let (mut i, mut k) = (0, 0);
    while i < records {
        let next = at(table, i, 5) as usize;
        (_, k) = fill(table, i + 1, next, at(table, i, 2), at(table, i, 3), out, k);
        i = next;
    }
    k
}

/// The address and the number of variables behind the records from `from` to before `end`.
fn fill(
    table: &[i64],
    from: usize,
    end: usize,
    origin: i64,
    space: i64,
    out: &mut [u64],
    filled: usize,
) -> (i64, usize) {
    let (mut i, mut address, mut k) = (from, origin, filled);
    while i < end {
        let next = at(table, i, 5) as usize;
        address += at(table, i, 2);
        if at(table, i, 0) == GROUP {
            for _ in 0..at(table, i, 4) {
                (address, k) = fill(table, i + 1, next, address, space, out, k);
            }
        } else {
            let row = [i as u64, space as u64, address as u64, at(table, i, 3) as u64, at(table, i, 0) as u64];
            out[k * 5..k * 5 + 5].copy_from_slice(&row);
            address += at(table, i, 3);
            k += 1;
        }
        i = next;
    }
    (address, k)
}

/// What a stretch of the walk does: variables, change, lowest and highest address from its start.
#[derive(Clone, Copy)]
struct Reach {
    count: i64,
    change: i64,
    low: i64,
    high: i64,
}

const NOTHING: Reach = Reach { count: 0, change: 0, low: 0, high: 0 };
const LIMIT: i64 = 1 << 32;
const MOST: i64 = 1_000_000;

fn limited(it: &Reach) -> bool {
    it.high - it.low <= LIMIT && it.count <= MOST
}

fn joined(a: Reach, b: Reach) -> Reach {
    Reach {
        count: a.count + b.count,
        change: a.change + b.change,
        low: a.low.min(a.change + b.low),
        high: a.high.max(a.change + b.high),
    }
}

fn moved(by: i64) -> Reach {
    Reach { count: 0, change: by, low: by.min(0), high: by.max(0) }
}

fn repeated(r: i64, one: Reach) -> Option<Reach> {
    let last = one.change.checked_mul(r - 1)?;
    if last.abs() > LIMIT {
        return None;
    }
    Some(Reach {
        count: one.count.checked_mul(r)?,
        change: last + one.change,
        low: one.low.min(last + one.low),
        high: one.high.max(last + one.high),
    })
}

/// Whether a table is a plan.
#[inline(never)]
pub fn is_plan(table: &[i64]) -> bool {
    if table.len() % 8 != 0 || table.len() / 8 > 4095 {
        return false;
    }
    let records = table.len() / 8;
    let (mut i, mut total) = (0, 0);
    while i < records {
        let next = at(table, i, 5);
        let fits = at(table, i, 0) == 1
            && placed(table, i)
            && (0..=0x7fff_ffff).contains(&at(table, i, 2))
            && (0..=255).contains(&at(table, i, 3))
            && at(table, i, 4) == 1
            && next > i as i64
            && next <= records as i64;
        if !fits {
            return false;
        }
        let Some(whole) = items(table, i + 1, next as usize, 3) else { return false };
        let origin = at(table, i, 2);
        if at(table, i, 6) != whole.count || at(table, i, 7) != whole.change {
            return false;
        }
        if origin + whole.low < 0 || origin + whole.high > LIMIT {
            return false;
        }
        total += whole.count;
        if total > MOST {
            return false;
        }
        i = next as usize;
    }
    true
}

fn placed(table: &[i64], i: usize) -> bool {
    let place = at(table, i, 1);
    (22..=65534).contains(&place) && (i == 0 || at(table, i - 1, 1) < place)
}

fn items(table: &[i64], from: usize, end: usize, depth: u32) -> Option<Reach> {
    let (mut i, mut whole) = (from, NOTHING);
    while i < end {
        if depth > 24 || !item_fits(table, i, end) {
            return None;
        }
        let next = at(table, i, 5) as usize;
        let inside = items(table, i + 1, next, depth + 1)?;
        let body = if at(table, i, 0) == GROUP {
            repeated(at(table, i, 4), inside)?
        } else {
            Reach { count: 1, ..moved(at(table, i, 3)) }
        };
        let own = joined(moved(at(table, i, 2)), body);
        if !limited(&own) {
            return None;
        }
        if at(table, i, 6) != own.count || at(table, i, 7) != own.change {
            return None;
        }
        whole = joined(whole, own);
        if !limited(&whole) {
            return None;
        }
        i = next;
    }
    Some(whole)
}

fn item_fits(table: &[i64], i: usize, end: usize) -> bool {
    let (kind, extra, copies, next) = (at(table, i, 0), at(table, i, 3), at(table, i, 4), at(table, i, 5));
    let offset = at(table, i, 2);
    let sized = match kind {
        GROUP => extra == 0,
        3 => matches!(extra, 1 | 2 | 4 | 8),
        4 => (1..=65535).contains(&extra),
        5 => extra == 8,
        6 => matches!(extra, 2 | 4 | 8),
        _ => false,
    };
    let linked = if kind == GROUP {
        (1..=0x7fff_ffff).contains(&copies) && next > i as i64 && next <= end as i64
    } else {
        copies == 1 && next == i as i64 + 1
    };
    sized && linked && placed(table, i) && (-0x8000_0000..=0x7fff_ffff).contains(&offset)
}
