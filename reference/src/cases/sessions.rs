//! Sessions: mixes of edits and undos, journals around what their entries need, and session values and journals that no session left.

use crate::access::Value;
use crate::answer::Case;
use crate::description::Detail;
use crate::plan::planned;
use crate::random::Random;
use crate::refusal::Refusal;
use crate::session::{Known, Operation, Session, HEAD, ROOM};
use crate::walk::copy_out;

use super::accesses::{self, detail, fill, focused, some_integer, some_value_text, Target};
use super::describe::{Measure, USUAL};
use super::markup::{content, plain, root, segment, Node};
use super::tables;
use super::texts::{accepted, aimed, CAUSES};

/// The measure of most sessions' texts: each operation may plan its text anew.
const MEASURE: Measure = Measure { segments: 2, data: 5, depth: 4, replication: 4, string: 20, full: 25 };

/// How often a generator tries to reach what it aims at.
const TRIES: usize = 12;
/// A window that would be longer holds one variable only.
const WINDOW: i128 = 700;

/// A text with variables of several kinds in one segment.
fn mixed(random: &mut Random) -> Target {
    loop {
        let mut within = segment(random.below(256)).with("origin", random.between(6, 300));
        for _ in 0..2 + random.below(5) {
            let variable = focused(random, &MEASURE);
            if random.chance(15) {
                let group = Node::new("group").with("replication", random.between(1, 5));
                within.push(group.holding(variable));
            } else {
                within.push(variable);
            }
        }
        let odd = random.pick(&[0, 0, 5]);
        let mut text = content(random, &root().holding(within), odd);
        text.push(0);
        let Ok(planned) = planned(&text) else { continue };
        if let Ok(copying) = copy_out(&planned.segments, 1_000) {
            return Target { text, planned, met: copying.met };
        }
    }
}

/// A short text whose variables take nearly any value, for many operations.
fn short(random: &mut Random) -> Target {
    loop {
        let mut within = segment(random.below(256)).with("origin", random.between(2, 40));
        for _ in 0..1 + random.below(3) {
            let offset = random.pick(&[0, 0, 0, -1, -2, 3]);
            let node = match random.below(4) {
                0 | 1 => Node::new("int").with("size", random.pick(&["1", "2", "4", "8"])),
                2 => Node::new("eventid"),
                _ => Node::new("string").with("size", random.between(2, 12)),
            };
            within.push(if offset == 0 { node } else { node.with("offset", offset) });
        }
        let text = plain(&root().holding(within));
        let Ok(planned) = planned(&text) else { continue };
        if let Ok(copying) = copy_out(&planned.segments, 1_000) {
            return Target { text, planned, met: copying.met };
        }
    }
}

/// A text of the usual measure that has variables.
fn large(random: &mut Random) -> Target {
    loop {
        let (text, planned) = accepted(random, &USUAL);
        match copy_out(&planned.segments, 5_000) {
            Ok(copying) if !copying.met.is_empty() => return Target { text, planned, met: copying.met },
            _ => {}
        }
    }
}

fn some_target(random: &mut Random) -> Target {
    match random.below(10) {
        0 => large(random),
        1 | 2 => accesses::target(random, &MEASURE),
        3..=7 => mixed(random),
        _ => short(random),
    }
}

/// A space, and a window over its variables or one of them, often with bytes before and behind; now and then cut at an end, seldom elsewhere.
fn some_window(random: &mut Random, target: &Target) -> (u64, u64, usize) {
    let chosen = target.met[random.below(target.met.len())];
    let alike = || target.met.iter().filter(|met| met.space == chosen.space);
    let mut low = alike().map(|met| met.address).min().unwrap_or(0);
    let mut high = alike().map(|met| met.address + met.size as i128).max().unwrap_or(0);
    if high - low > WINDOW {
        (low, high) = (chosen.address, chosen.address + chosen.size as i128);
    }
    low -= random.pick(&[0, 0, 1, 6]).min(low);
    high += random.pick(&[0, 0, 1, 9]);
    if random.chance(20) {
        let cut = 1 + random.below(5) as i128;
        if random.chance(50) {
            low = (low + cut).min(high);
        } else {
            high = (high - cut).max(low);
        }
    }
    let (mut space, mut first) = (chosen.space as u64, low as u64);
    if random.chance(2) {
        space = random.pick(&[space + 1, space + 256, space + (1 << 32), u64::MAX]);
    } else if random.chance(2) {
        first = random.pick(&[u64::MAX, u64::MAX - 9, first.wrapping_sub(1 << 32), first + (1 << 32)]);
    }
    (space, first, (high - low) as usize)
}

/// A session in the making: its target, what is known of it, how it opens, how it stands now, and the operations so far.
struct Play {
    target: Target,
    known: Result<Known, Refusal>,
    opening: Session,
    now: Session,
    operations: Vec<Operation>,
}

impl Play {
    /// No edit stands, and the journal is as long as it may be.
    fn new(random: &mut Random, target: Target) -> Play {
        let (space, first, length) = some_window(random, &target);
        let (text, table) = (target.text.clone(), target.planned.numbers.clone());
        let known = Known::of(&text, &table);
        let window = fill(random, length);
        let opening = Session { text, table, space, first, window, journal: vec![0; ROOM], standing: 0 };
        Play { target, known, now: opening.clone(), opening, operations: Vec::new() }
    }

    /// One operation more; whether it is accepted or refused, it stays one of them.
    fn add(&mut self, operation: Operation) {
        let _ = self.now.perform(&self.known, &operation);
        self.operations.push(operation);
    }

    /// Whether the operation would be accepted now.
    fn accepts(&self, operation: &Operation) -> bool {
        self.now.clone().perform(&self.known, operation).is_ok()
    }

    /// The journal and the session value that the operations begin with.
    fn open_with(&mut self, journal: Vec<u8>, standing: u64) {
        (self.opening.journal, self.opening.standing) = (journal, standing);
        self.now = self.opening.clone();
        self.operations.clear();
    }

    fn case(self) -> Case {
        Case::Session { session: self.opening, operations: self.operations }
    }
}

/// A value for a variable, mostly of its own kind.
fn some_value(random: &mut Random, detail: &Detail, size: usize) -> Value {
    let own = match detail {
        Detail::Int(_) => 0,
        Detail::Eventid { .. } => 1,
        Detail::String { .. } => 2,
        Detail::None => random.below(3),
    };
    match if random.chance(93) { own } else { random.below(3) } {
        0 => {
            let (negative, magnitude) = some_integer(random, detail);
            Value::Integer { negative, magnitude }
        }
        1 => Value::Event(random.draw()),
        _ => Value::Text(some_value_text(random, detail, size)),
    }
}

/// An edit of variable n.
fn edit_of(random: &mut Random, target: &Target, n: usize) -> Operation {
    let met = target.met[n];
    let detail = detail(&target.planned.segments, met.record);
    Operation::Edit { n: n as u64, value: some_value(random, &detail, met.size as usize) }
}

/// An edit of any variable, or of none there is.
fn some_edit(random: &mut Random, target: &Target) -> Operation {
    let count = target.met.len();
    if random.chance(4) {
        let n = random.pick(&[count as u64, count as u64 + 1, 1 << 32, u64::MAX]);
        return Operation::Edit { n, value: Value::Event(random.draw()) };
    }
    let n = random.below(count);
    edit_of(random, target, n)
}

/// An edit that would be accepted, if some tries find one.
fn good_edit(random: &mut Random, play: &Play) -> Operation {
    let mut edit = some_edit(random, &play.target);
    for _ in 0..TRIES {
        if play.accepts(&edit) {
            break;
        }
        edit = some_edit(random, &play.target);
    }
    edit
}

fn add_undos(play: &mut Play, count: usize) {
    (0..count).for_each(|_| play.add(Operation::Undo));
}

/// Edits of any kind, and undos between them.
fn any_mix(random: &mut Random, play: &mut Play, count: usize) {
    let undos = random.pick(&[5, 25, 50]);
    for _ in 0..count {
        let operation = if random.chance(undos) { Operation::Undo } else { some_edit(random, &play.target) };
        play.add(operation);
    }
}

/// Runs of edits that would be accepted and runs of undos, some of them longer.
fn swinging(random: &mut Random, play: &mut Play, count: usize) {
    while play.operations.len() < count {
        for _ in 0..1 + random.below(8) {
            let edit = good_edit(random, play);
            play.add(edit);
        }
        let undos = random.below(10);
        add_undos(play, undos);
    }
    play.operations.truncate(count);
}

/// One variable again and again, also with the value that stands.
fn repeating(random: &mut Random, play: &mut Play, count: usize) {
    let n = random.below(play.target.met.len());
    let mut edit = edit_of(random, &play.target, n);
    for _ in 0..count {
        if random.chance(25) {
            play.add(Operation::Undo);
            continue;
        }
        if random.chance(60) {
            edit = edit_of(random, &play.target, n);
        }
        play.add(edit.clone());
    }
}

/// Edits until 64 stand and more of them, then some undos and edits around that number.
fn climbing(random: &mut Random, play: &mut Play) {
    let edits = 62 + random.below(12);
    for _ in 0..edits {
        let edit = good_edit(random, play);
        play.add(edit);
    }
    for _ in 0..random.below(5) {
        let undos = random.pick(&[0, 1, 2, 3]);
        add_undos(play, undos);
        for _ in 0..1 + random.below(5) {
            let edit = some_edit(random, &play.target);
            play.add(edit);
        }
    }
    if random.chance(20) {
        add_undos(play, 68);
    }
}

/// A journal of so many bytes that holds anything.
fn some_journal(random: &mut Random, length: usize) -> Vec<u8> {
    match random.below(3) {
        0 => vec![0; length],
        1 => vec![0xFF; length],
        _ => (0..length).map(|_| random.byte()).collect(),
    }
}

/// Where the entries of the edits end that are accepted where there is all room.
fn ends(play: &Play) -> Vec<usize> {
    let mut session = Session { journal: vec![0; ROOM], ..play.opening.clone() };
    let mut ends = Vec::new();
    for operation in &play.operations {
        if session.perform(&play.known, operation).is_ok() && *operation != Operation::Undo {
            ends.extend(session.start_of(session.standing).map(|end| end as usize));
        }
    }
    ends
}

/// How long a journal is lent: ample, any, or around the end of one of the entries; seldom about as long as the room.
fn journal_length(random: &mut Random, play: &Play) -> usize {
    let ends = ends(play);
    let most = ends.iter().copied().max().unwrap_or(0);
    match random.below(30) {
        0 if play.operations.len() < 20 => random.pick(&[65_535, 65_536, 65_537, 70_000]),
        1 => random.pick(&[0, 1, 7, 8, 9]),
        2..=4 => random.below(most + 20),
        5..=14 if !ends.is_empty() => random.pick(&ends) - random.pick(&[0, 1, 1]),
        _ => most + random.pick(&[0, 0, 1, 40]),
    }
}

fn count_of_operations(random: &mut Random) -> usize {
    match random.below(20) {
        0 => random.below(3),
        1 => 60 + random.below(141),
        _ => 3 + random.below(22),
    }
}

/// A session that begins with no edit standing.
fn fresh(random: &mut Random) -> Case {
    let long = random.chance(8);
    let target = if long { short(random) } else { some_target(random) };
    let mut play = Play::new(random, target);
    let count = count_of_operations(random);
    match random.below(10) {
        _ if long && random.chance(80) => climbing(random, &mut play),
        _ if long => any_mix(random, &mut play, 200),
        0..=4 => any_mix(random, &mut play, count),
        5..=7 => swinging(random, &mut play, count),
        _ => repeating(random, &mut play, count),
    }
    let length = journal_length(random, &play);
    play.opening.journal = some_journal(random, length);
    play.case()
}

/// An entry as bytes.
pub fn entry(number: u64, size: u64, old: &[u8]) -> Vec<u8> {
    [&(number as u32).to_be_bytes(), &(size as u32).to_be_bytes(), old].concat()
}

/// One of the target's variables, mostly one that stands in the window.
fn some_variable(random: &mut Random, play: &Play) -> usize {
    let mut n = random.below(play.target.met.len());
    for _ in 0..TRIES {
        let met = play.target.met[n];
        let start = met.address - play.opening.first as i128;
        let inside = start >= 0 && start + met.size as i128 <= play.opening.window.len() as i128;
        if inside && met.space as u64 == play.opening.space {
            break;
        }
        n = random.below(play.target.met.len());
    }
    n
}

/// The entry of variable n with any old bytes.
fn entry_of(random: &mut Random, play: &Play, n: usize) -> Vec<u8> {
    let size = play.target.met[n].size as usize;
    let old = fill(random, size);
    entry(n as u64, size as u64, &old)
}

fn entry_of_some(random: &mut Random, play: &Play) -> Vec<u8> {
    let n = some_variable(random, play);
    entry_of(random, play, n)
}

/// Changes an entry's number or its size.
fn spoil(random: &mut Random, entry: &mut [u8], variables: usize) {
    let size = u32::from_be_bytes([entry[4], entry[5], entry[6], entry[7]]);
    if random.chance(40) {
        let others = [variables as u32, variables as u32 + 1, random.below(variables) as u32, 1 << 31, u32::MAX];
        entry[..4].copy_from_slice(&random.pick(&others).to_be_bytes());
    } else {
        let others = [size + 1, size.saturating_sub(1), 0, 65_528, 65_535, 1 << 31, u32::MAX - 7, u32::MAX];
        entry[4..8].copy_from_slice(&random.pick(&others).to_be_bytes());
    }
}

/// Entries of variables one after another, one of them now and then with another number or size.
fn some_entries(random: &mut Random, play: &Play, count: usize) -> Vec<Vec<u8>> {
    let mut entries: Vec<Vec<u8>> = (0..count).map(|_| entry_of_some(random, play)).collect();
    if random.chance(45) {
        let chosen = if random.chance(60) { count - 1 } else { random.below(count) };
        spoil(random, &mut entries[chosen], play.target.met.len());
    }
    entries
}

/// So many entries that name anything and have few old bytes or none.
fn fillers(random: &mut Random, count: usize) -> Vec<u8> {
    let mut bytes = Vec::new();
    for _ in 0..count {
        let size = random.pick(&[0, 0, 1, 2]);
        let old = vec![random.byte(); size];
        bytes.extend(entry(random.below(9) as u64, size as u64, &old));
    }
    bytes
}

/// A session value near this one, or far from it.
fn some_standing(random: &mut Random, count: u64) -> u64 {
    match random.below(10) {
        0 => random.pick(&[0, 1, 63, 64, 65, 8_191, 8_192]),
        1 => random.pick(&[1 << 32, (1 << 32) + 1, 1 << 63, u64::MAX]),
        2 => count + 1,
        3 => count.saturating_sub(1),
        _ => count,
    }
}

/// Undos, and edits between them.
fn undoing(random: &mut Random, play: &mut Play, count: usize) {
    for _ in 0..count {
        let operation = if random.chance(70) { Operation::Undo } else { some_edit(random, &play.target) };
        play.add(operation);
    }
}

/// A journal with entries that no session of the case has left, the last of them whole, cut or with bytes behind.
fn handed_in(random: &mut Random) -> Case {
    let target = some_target(random);
    let mut play = Play::new(random, target);
    let count = 1 + random.below(7);
    let mut journal = some_entries(random, &play, count).concat();
    match random.below(10) {
        0 | 1 => drop(journal.pop()),
        2 => journal.truncate(journal.len() - random.below(journal.len().min(12))),
        3..=5 => journal.extend((0..random.below(60)).map(|_| random.byte())),
        _ => {}
    }
    let standing = some_standing(random, count as u64);
    play.open_with(journal, standing);
    let operations = 1 + random.below(count + 4);
    undoing(random, &mut play, operations);
    play.case()
}

/// Very many small entries, so that more edits stand than a session keeps, and those of variables behind them.
fn crowded(random: &mut Random) -> Case {
    let target = if random.chance(50) { mixed(random) } else { short(random) };
    let mut play = Play::new(random, target);
    let count = 1 + random.below(6);
    let before = 58 + random.below(14);
    let mut journal = fillers(random, before);
    journal.extend(some_entries(random, &play, count).concat());
    let all = (before + count) as u64;
    journal.extend((0..random.below(40)).map(|_| random.byte()));
    let standing = if random.chance(80) { all } else { some_standing(random, all) };
    play.open_with(journal, standing);
    let operations = 2 + random.below(count + 4);
    undoing(random, &mut play, operations);
    play.case()
}

/// A journal whose last entry, or the next one, ends at the room's end or a byte before or behind it.
fn at_the_end(random: &mut Random) -> Case {
    let target = if random.chance(50) { mixed(random) } else { short(random) };
    let mut play = Play::new(random, target);
    let length =
        if random.chance(35) { random.pick(&[65_535, 65_536, 65_537, 65_600, 70_000]) } else { 60 + random.below(200) };
    let n = some_variable(random, &play);
    let last = entry_of(random, &play, n);
    let room = length.min(ROOM);
    let shift = random.pick(&[0, 0, 1, 2]);
    // One entry whose old bytes end where the last one is to begin.
    let before = (room + 1).saturating_sub(last.len() + shift + HEAD as usize);
    let mut journal = entry(random.below(5) as u64, before as u64, &vec![random.byte(); before]);
    let stands = random.chance(60);
    if stands {
        journal.extend(last);
    }
    journal.resize(length, random.byte());
    play.open_with(journal, 1 + stands as u64);
    for _ in 0..if stands { 0 } else { 2 } {
        let edit = edit_of(random, &play.target, n);
        play.add(edit);
    }
    let operations = 1 + random.below(5);
    undoing(random, &mut play, operations);
    play.case()
}

/// A journal of any bytes and any session value.
fn wild(random: &mut Random) -> Case {
    let target = some_target(random);
    let mut play = Play::new(random, target);
    let length = random.below(300);
    let mut journal = some_journal(random, length);
    if random.chance(50) {
        // Small numbers, so that some entries lie in the journal.
        journal.iter_mut().enumerate().for_each(|(place, byte)| *byte = if place % 4 < 3 { 0 } else { *byte % 9 });
    }
    let standing = random.pick(&[1, 2, 3, 5, 9, 30, 63, 64, 65, 1 << 32, u64::MAX]);
    play.open_with(journal, standing);
    let operations = 1 + random.below(8);
    undoing(random, &mut play, operations);
    play.case()
}

/// A session over a text that is refused by one of its own causes, or with a table that isn't its own.
fn refused(random: &mut Random, cause: Option<u8>) -> Case {
    let target = some_target(random);
    let mut play = Play::new(random, target);
    let mut journal = entry_of_some(random, &play);
    journal.extend(fillers(random, 2));
    let standing = random.pick(&[0, 0, 1, 2, 64, 65, u64::MAX]);
    match cause {
        Some(number) => play.opening.text = aimed(random, &MEASURE, number),
        None => match random.below(4) {
            0 => play.opening.table.clear(),
            1 => play.opening.table.extend([0; 8]),
            _ => tables::damage(random, &mut play.opening.table),
        },
    }
    play.known = Known::of(&play.opening.text, &play.opening.table);
    play.open_with(journal, standing);
    let operations = 2 + random.below(6);
    any_mix(random, &mut play, operations);
    play.case()
}

/// One session.
pub fn session_case(random: &mut Random) -> Case {
    match random.below(100) {
        0..=49 => fresh(random),
        50..=64 => handed_in(random),
        65..=73 => crowded(random),
        74..=80 => at_the_end(random),
        81..=85 => wild(random),
        86..=94 => {
            let cause = random.pick(&CAUSES);
            refused(random, Some(cause))
        }
        _ => refused(random, None),
    }
}
