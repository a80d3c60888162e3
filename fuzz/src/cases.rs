//! Cases: what is asked of one text or of one table. Case number i of a seed is the same each time it is made.

use reference::access::{read_from, write_to, Access, ReadValue, Value, Variable};
use reference::answer::{answer, lent_table, Answer, Case};
use reference::cases::{Sort, Stream};
use reference::random::Random;
use reference::refusal::unplaced;
use reference::session::Known;
use reference::{Operation, Refusal};

use crate::accesses::{any_access, any_session, any_value, some_access, some_sign, some_value};
use crate::ask::{Asker, At, Difference, Verdict, FIELDS, LISTED};
use crate::oracle::{Description, Variables};
use crate::pages::Side;
use crate::tables::{integers, nearly, numbers, some_number, some_numbers, some_room, table};
use crate::texts::text;

/// How many settings of one text are written or read, by the calls that rely on a check; the first few also by those that plan the text again.
struct Measure {
    settings: usize,
    planned_again: usize,
    other_tables: usize,
}

const USUAL: Measure = Measure { settings: 40, planned_again: 8, other_tables: 3 };
/// For a text without variables.
const EMPTY: Measure = Measure { settings: 2, planned_again: 1, other_tables: 1 };
/// For one that takes long to read or to walk.
const SLOW: Measure = Measure { settings: 8, planned_again: 3, other_tables: 1 };

/// A text of more bytes or variables is slow.
const MANY_BYTES: usize = 8_192;
const MANY_VARIABLES: u64 = 10_000;

/// A table that every description fits into.
const MOST_NUMBERS: usize = 32_760;

/// Where cases come from, beside what is made here: the streams of the independent program.
pub struct Cases {
    seed: u64,
    plans: Stream,
    tables: Stream,
    accesses: Stream,
    sessions: Stream,
}

impl Cases {
    pub fn new(seed: u64) -> Cases {
        let of = |sort| Stream::new(seed, sort, false);
        let (plans, tables) = (of(Sort::Plan), of(Sort::Locate));
        Cases { seed, plans, tables, accesses: of(Sort::Access), sessions: of(Sort::Session) }
    }

    /// Makes one case. Where `tells` holds every call is printed before it is made.
    pub fn make(&self, asker: &mut Asker, index: u64, side: Side, tells: bool) -> Verdict {
        let random = &mut Random::of_case(self.seed, index);
        asker.begin(side, random.draw(), tells);
        match random.below(20) {
            0..=11 => {
                let text = text(random);
                of_text(asker, random, &text)?;
            }
            12 | 13 => self.of_plans(asker, random)?,
            14 | 15 => self.of_accesses(asker, random)?,
            16 => {
                if let Case::Locate { table, .. } = self.tables.case(random.draw()) {
                    of_table(asker, random, &table)?;
                }
            }
            17 => self.of_sessions(asker, random)?,
            _ => {
                let table = table(random);
                of_table(asker, random, &table)?;
            }
        }
        asker.end()
    }

    /// A planning case of the streams, and all else that its text can be asked.
    fn of_plans(&self, asker: &mut Asker, random: &mut Random) -> Verdict {
        let case = self.plans.case(random.draw());
        as_it_stands(asker, &case)?;
        match case {
            Case::Plan { text, .. } => of_text(asker, random, &text),
            _ => Ok(()),
        }
    }

    /// A write or a read of the streams, and now and then all else that its text can be asked.
    fn of_accesses(&self, asker: &mut Asker, random: &mut Random) -> Verdict {
        let case = self.accesses.case(random.draw());
        as_it_stands(asker, &case)?;
        match case {
            Case::WriteInteger { access, .. } | Case::Read { access } => of_text(asker, random, &access.text),
            _ => Ok(()),
        }
    }

    /// A session of the streams: each operation on what the one before has left, where text and table belong together by both calls.
    fn of_sessions(&self, asker: &mut Asker, random: &mut Random) -> Verdict {
        let Case::Session { mut session, operations } = self.sessions.case(random.draw()) else { return Ok(()) };
        asker.hold_text(&session.text);
        asker.hold_table(&session.table);
        let known = Known::of(&session.text, &session.table);
        let end = known.is_ok().then(|| session.text.iter().position(|byte| *byte == 0)).flatten();
        for operation in &operations {
            let mut after = session.clone();
            let wanted = after.perform(&known, operation).map(|()| after);
            let sign = match operation {
                Operation::Edit { value, .. } => some_sign(random, value),
                Operation::Undo => 0,
            };
            asker.perform(None, &session, operation, sign, &wanted)?;
            if end.is_some() {
                asker.perform(end, &session, operation, sign, &wanted)?;
            }
            session = wanted.unwrap_or(session);
        }
        Ok(())
    }
}

// ── cases of a stream, answered by the independent program as they stand ──

fn as_it_stands(asker: &mut Asker, case: &Case) -> Verdict {
    let answer = answer(case);
    match (case, &answer) {
        (Case::Plan { room, text }, Answer::Planned { records, variables, table }) => {
            asker.hold_text(text);
            let front = &table[..*records as usize * FIELDS];
            asker.plan(&lent_table(*room), &Ok((front, *variables)))
        }
        (Case::Plan { room, text }, Answer::PlanRefused { refusal, .. }) => {
            asker.hold_text(text);
            asker.plan(&lent_table(*room), &Err(*refusal))
        }
        (Case::WriteInteger { access, negative, magnitude }, _) => {
            let value = Value::Integer { negative: *negative, magnitude: *magnitude };
            write_as_it_stands(asker, access, &value, *negative as u64, &answer)
        }
        (Case::WriteEvent { access, value }, _) => write_as_it_stands(asker, access, &Value::Event(*value), 0, &answer),
        (Case::WriteText { access, value }, _) => {
            write_as_it_stands(asker, access, &Value::Text(value.clone()), 0, &answer)
        }
        (Case::Read { access }, _) => read_as_it_stands(asker, access, &answer),
        _ => Ok(()),
    }
}

fn write_as_it_stands(asker: &mut Asker, access: &Access, value: &Value, sign: u64, answer: &Answer) -> Verdict {
    asker.hold_text(&access.text);
    asker.hold_table(&access.table);
    let wanted = match answer {
        Answer::Written { window } => Ok(window.clone()),
        Answer::WriteRefused { refusal, .. } => Err(*refusal),
        _ => return Ok(()),
    };
    asker.write(At { end: None, access }, value, sign, &wanted)
}

fn read_as_it_stands(asker: &mut Asker, access: &Access, answer: &Answer) -> Verdict {
    asker.hold_text(&access.text);
    asker.hold_table(&access.table);
    let value = match answer.clone() {
        Answer::Integer { value, accepted } => ReadValue::Integer { value, accepted },
        Answer::Event { value, accepted } => ReadValue::Event { value, accepted },
        Answer::Text { bytes, accepted } => ReadValue::Text { bytes, accepted },
        Answer::ReadRefused { refusal } => return asker.read(At { end: None, access }, &Err(refusal)),
        _ => return Ok(()),
    };
    let met = Description::of(&access.text).ok().and_then(|description| description.variables.at(access.n));
    let start = met.map_or(0, |met| (met.address - access.first as i128) as usize);
    asker.read(At { end: None, access }, &Ok((value, start)))
}

// ── tables ──

/// Asks a table for everything, and tables that differ from it by a little for some of it.
fn of_table(asker: &mut Asker, random: &mut Random, table: &[i64]) -> Verdict {
    let count = everything_of_table(asker, random, table)?;
    for _ in 0..3 {
        let other = nearly(random, table);
        some_of_table(asker, random, &other, count)?;
    }
    Ok(())
}

/// Lends a table and asks whether it is a plan; its variables, if it is.
fn hold(asker: &mut Asker, table: &[i64]) -> Result<Option<Variables>, Difference> {
    let variables = Variables::of_table(table);
    asker.tally.divided += variables.as_ref().is_some_and(|variables| !variables.is_copied_out()) as u64;
    asker.hold_table(table);
    asker.check_plan(variables.is_some())?;
    Ok(variables)
}

/// Answers how many variables the table has, 0 where it is no plan.
fn everything_of_table(asker: &mut Asker, random: &mut Random, table: &[i64]) -> Result<u64, Difference> {
    let variables = hold(asker, table)?;
    let count = variables.as_ref().map_or(0, Variables::count);
    let numbers = if count == 0 { vec![0, random.draw()] } else { some_numbers(random, count) };
    for n in numbers {
        locate(asker, n, variables.as_ref())?;
        if random.chance(30) {
            list(asker, random, n, variables.as_ref())?;
        }
    }
    Ok(count)
}

fn some_of_table(asker: &mut Asker, random: &mut Random, table: &[i64], count: u64) -> Verdict {
    let variables = hold(asker, table)?;
    locate(asker, some_number(random, count), variables.as_ref())?;
    let n = some_number(random, count);
    list(asker, random, n, variables.as_ref())
}

/// Locates variable n, where the table is a plan also by the call that relies on that.
fn locate(asker: &mut Asker, n: u64, variables: Option<&Variables>) -> Verdict {
    let Some(variables) = variables else { return asker.locate(n, false, &Err(unplaced(20))) };
    let wanted = variables.at(n).ok_or(unplaced(21));
    asker.locate(n, false, &wanted)?;
    asker.locate(n, true, &wanted)
}

/// Lists from n on, in the same way.
fn list(asker: &mut Asker, random: &mut Random, n: u64, variables: Option<&Variables>) -> Verdict {
    let room = some_room(random);
    let before = numbers(random, room);
    let Some(variables) = variables else { return asker.list(n, &before, false, None) };
    let wanted = variables.from(n, room / LISTED);
    asker.list(n, &before, false, Some(&wanted))?;
    asker.list(n, &before, true, Some(&wanted))
}

// ── texts ──

/// Asks a text for everything.
fn of_text(asker: &mut Asker, random: &mut Random, text: &[u8]) -> Verdict {
    asker.hold_text(text);
    match Description::of(text) {
        Ok(description) => accepted(asker, random, text, &description),
        Err(refusal) => refused(asker, random, refusal),
    }
}

/// A text that is refused, whatever comes with it.
fn refused(asker: &mut Asker, random: &mut Random, refusal: Refusal) -> Verdict {
    for room in [random.below(40), random.pick(&[0, 1, 8, 64, 400])] {
        let before = integers(random, room);
        asker.plan(&before, &Err(refusal))?;
    }
    let table = if random.chance(50) { Vec::new() } else { table(random) };
    asker.hold_table(&table);
    asker.check(&Err(refusal))?;
    let n = some_number(random, 3);
    let access = any_access(random, n);
    let at = At { end: None, access: &access };
    for _ in 0..2 {
        let value = any_value(random, 8);
        asker.write(at, &value, random.below(2) as u64, &Err(refusal))?;
    }
    asker.read(at, &Err(refusal))?;
    refused_session(asker, random, &access, refusal)
}

/// An edit and an undo that are refused for their text or table, whatever journal comes with it.
fn refused_session(asker: &mut Asker, random: &mut Random, access: &Access, refusal: Refusal) -> Verdict {
    let session = any_session(random, access);
    let edit = Operation::Edit { n: access.n, value: any_value(random, 8) };
    asker.perform(None, &session, &edit, random.below(2) as u64, &Err(refusal))?;
    asker.perform(None, &session, &Operation::Undo, 0, &Err(refusal))
}

/// Rooms to plan into: exactly large enough, larger, and too small by one or by more.
fn rooms(random: &mut Random, needed: usize) -> Vec<usize> {
    let mut rooms = vec![needed, needed + 1 + random.below(39)];
    if random.below(40) == 0 {
        rooms.push(MOST_NUMBERS);
    }
    if needed > 0 {
        let any = random.below(needed);
        rooms.push(random.pick(&[0, needed - 1, needed - 1, needed - FIELDS, any]));
    }
    rooms
}

fn accepted(asker: &mut Asker, random: &mut Random, text: &[u8], description: &Description) -> Verdict {
    let table = description.table();
    for room in rooms(random, table.len()) {
        let before = integers(random, room);
        let wanted = if room < table.len() { Err(unplaced(13)) } else { Ok((table, description.count())) };
        asker.plan(&before, &wanted)?;
    }
    let measure = match description.count() {
        0 => EMPTY,
        count if text.len() > MANY_BYTES || count > MANY_VARIABLES => SLOW,
        _ => USUAL,
    };
    everything_of_table(asker, random, table)?;
    asker.check(&Ok(description.end))?;
    for turn in 0..measure.settings {
        let ways: &[bool] = if turn < measure.planned_again { &[true, false] } else { &[true] };
        setting(asker, random, description, ways)?;
    }
    for _ in 0..measure.other_tables {
        with_other_table(asker, random, description)?;
    }
    Ok(())
}

/// A text with a table that differs from its own by a little; now and then it doesn't.
fn with_other_table(asker: &mut Asker, random: &mut Random, description: &Description) -> Verdict {
    let other = nearly(random, description.table());
    some_of_table(asker, random, &other, description.count())?;
    if other == description.table() {
        return asker.check(&Ok(description.end));
    }
    asker.check(&Err(unplaced(20)))?;
    let n = some_number(random, description.count());
    let access = any_access(random, n);
    let at = At { end: None, access: &access };
    let value = any_value(random, 8);
    asker.write(at, &value, 0, &Err(unplaced(20)))?;
    asker.read(at, &Err(unplaced(20)))?;
    refused_session(asker, random, &access, unplaced(20))
}

// ── settings of a text with its own table, both of which are lent already ──

/// Writes or reads some setting. Each way says whether the call relies on the check.
fn setting(asker: &mut Asker, random: &mut Random, description: &Description, ways: &[bool]) -> Verdict {
    let (end, count) = (description.end, description.variables.count());
    let n = match random.below(25) {
        0 => random.pick(&[count, count + 1, u64::MAX]),
        1 => count.saturating_sub(1),
        _ => random.draw() % count.max(1),
    };
    match description.variable(n) {
        Some(variable) => of_variable(asker, random, &variable, (n, end), ways),
        None => of_no_variable(asker, random, (n, end), ways),
    }
}

fn of_variable(
    asker: &mut Asker,
    random: &mut Random,
    variable: &Variable,
    (n, end): (u64, usize),
    ways: &[bool],
) -> Verdict {
    let mut access = some_access(random, n, variable);
    if random.chance(50) {
        let value = some_value(random, variable);
        let sign = some_sign(random, &value);
        let wanted = write_to(variable, &access, &value);
        for is_checked in ways {
            asker.write(At { end: is_checked.then_some(end), access: &access }, &value, sign, &wanted)?;
        }
        // what was written is read
        match wanted {
            Ok(window) => access.window = window,
            Err(_) => return Ok(()),
        }
    }
    let start = (variable.met.address - access.first as i128) as usize;
    let wanted = read_from(variable, &access).map(|value| (value, start));
    for is_checked in ways {
        asker.read(At { end: is_checked.then_some(end), access: &access }, &wanted)?;
    }
    Ok(())
}

fn of_no_variable(asker: &mut Asker, random: &mut Random, (n, end): (u64, usize), ways: &[bool]) -> Verdict {
    let access = any_access(random, n);
    let value = any_value(random, 8);
    for is_checked in ways {
        let at = At { end: is_checked.then_some(end), access: &access };
        asker.write(at, &value, 0, &Err(unplaced(21)))?;
        asker.read(at, &Err(unplaced(21)))?;
    }
    Ok(())
}
