//! Makes one call after another with lent memory, and compares all that it tells and leaves with what is wanted of it.

use reference::access::{Access, ReadValue, Value};
use reference::description::Kind;
use reference::random::Random;
use reference::walk::Met;
use reference::{Operation, Refusal, Session};

use crate::calls::{Calls, Name};
use crate::pages::{Lent, Shelf, Side};
use crate::tally::Tally;

/// The numbers of a record and of a listed variable.
pub const FIELDS: usize = 8;
pub const LISTED: usize = 5;

/// The most that is lent at once.
pub const MOST_TEXT: usize = 1 << 17;
pub const MOST_NUMBERS: usize = 1 << 16;

/// A window that is read, and a journal that is taken back from, can't be written in one call of so many; in the others it is compared afterwards.
const FROZEN_EVERY: u64 = 16;

/// A text to be written is looked for in a description of fewer bytes, for one write of so many.
const SEARCHED: usize = 4_096;
const WITHIN_EVERY: u64 = 4;

/// An answer that isn't the one that is wanted, with the call that gave it.
#[derive(Debug)]
pub struct Difference {
    pub call: String,
    pub what: String,
}

pub type Verdict = Result<(), Difference>;

/// Text, table and window of a setting to be written or read. The end of the content is told where the call is to rely on it.
#[derive(Clone, Copy)]
pub struct At<'a> {
    pub end: Option<usize>,
    pub access: &'a Access,
}

pub struct Asker<'a> {
    calls: &'a Calls,
    side: Side,
    /// Whether every call is told before it is made.
    tells: bool,
    text: Shelf,
    table: Shelf,
    /// The table that is planned into.
    room: Shelf,
    /// What is listed.
    out: Shelf,
    window: Shelf,
    journal: Shelf,
    string: Shelf,
    /// Single numbers that are handed out, each in a page of its own.
    numbers: Vec<Shelf>,
    /// What they were before the call.
    marks: Vec<u64>,
    lent_text: Lent<u8>,
    lent_table: Lent<i64>,
    random: Random,
    made: u64,
    pub tally: Tally,
}

/// The number of a refusal, or 0.
fn told_by<T>(answer: &Result<T, Refusal>) -> usize {
    answer.as_ref().err().map_or(0, |refusal| refusal.number as usize)
}

fn place_by<T>(answer: &Result<T, Refusal>) -> Option<u64> {
    answer.as_ref().err().map(|refusal| refusal.place)
}

/// What is listed of a variable.
fn listed(met: &Met) -> [u64; LISTED] {
    [met.record as u64, met.space as u64, met.address as u64, met.size as u64, met.kind.field() as u64]
}

/// What is handed out of a value that was read: kind, negative, number, from, to, writable.
fn handed_out(value: &ReadValue, start: usize) -> [u64; 6] {
    let kind = |kind: Kind| kind.field() as u64;
    match value {
        ReadValue::Integer { value, accepted } => {
            [kind(Kind::Int), (*value < 0) as u64, value.unsigned_abs() as u64, 0, 0, *accepted as u64]
        }
        ReadValue::Text { bytes, accepted } => {
            [kind(Kind::String), 0, 0, start as u64, (start + bytes.len()) as u64, *accepted as u64]
        }
        ReadValue::Event { value, accepted } => [kind(Kind::Eventid), 0, *value, 0, 0, *accepted as u64],
    }
}

impl<'a> Asker<'a> {
    pub fn new(calls: &'a Calls) -> Asker<'a> {
        let mut text = Shelf::new(MOST_TEXT);
        let mut table = Shelf::new(8 * MOST_NUMBERS);
        let (lent_text, lent_table) = (text.lend(&[], Side::End), table.lend(&[], Side::End));
        Asker {
            calls,
            side: Side::End,
            tells: false,
            text,
            table,
            room: Shelf::new(8 * MOST_NUMBERS),
            out: Shelf::new(8 * MOST_NUMBERS),
            window: Shelf::new(MOST_TEXT),
            journal: Shelf::new(MOST_TEXT),
            string: Shelf::new(MOST_TEXT),
            numbers: (0..7).map(|_| Shelf::new(8)).collect(),
            marks: Vec::new(),
            lent_text,
            lent_table,
            random: Random::new(0),
            made: 0,
            tally: Tally::default(),
        }
    }

    /// Begins a case: where its buffers lie, and by what its marks are drawn.
    pub fn begin(&mut self, side: Side, seed: u64, tells: bool) {
        self.side = side;
        self.random = Random::new(seed);
        self.made = 0;
        self.tells = tells;
        self.hold_text(&[]);
        self.hold_table(&[]);
        self.tally.add_case(side);
    }

    /// Ends it: nothing else in any page was written.
    pub fn end(&mut self) -> Verdict {
        let Asker { text, table, room, out, window, journal, string, numbers, .. } = self;
        let shelves = [text, table, room, out, window, journal, string];
        let clean = shelves.into_iter().chain(numbers).all(Shelf::is_all_clean);
        let what = || "some byte beside a buffer of this case was written".to_string();
        if clean {
            Ok(())
        } else {
            Err(Difference { call: "the whole case".to_string(), what: what() })
        }
    }

    // ── memory ──

    /// Null for some empty buffers: what they point to is never looked at.
    fn or_null<T>(&mut self, lent: Lent<T>) -> Lent<T> {
        if lent.length == 0 && self.random.chance(50) {
            return Lent { at: std::ptr::null_mut(), length: 0 };
        }
        lent
    }

    /// Lends the text of the calls that follow; it can't be written.
    pub fn hold_text(&mut self, text: &[u8]) {
        let lent = self.text.lend(text, self.side);
        self.text.freeze();
        self.lent_text = self.or_null(lent);
    }

    /// Lends the table of the calls that follow; it can't be written.
    pub fn hold_table(&mut self, table: &[i64]) {
        let lent = self.table.lend(table, self.side);
        self.table.freeze();
        self.lent_table = self.or_null(lent);
    }

    /// So many numbers to be handed out, with marks in them.
    fn hand<const N: usize>(&mut self) -> [*mut u64; N] {
        self.marks.clear();
        std::array::from_fn(|number| {
            let mark = self.random.draw();
            self.marks.push(mark);
            self.numbers[number].lend(&[mark], self.side).at
        })
    }

    // ── what was told ──

    /// The call as far as it is known from what is lent.
    fn told(&self, name: Name, more: &str) -> String {
        use Name::*;
        let mut told = format!("{} ({:?})", name.text(), self.side);
        if !matches!(name, CheckPlan | Locate | LocateChecked | List | ListChecked) {
            let text = self.text.content::<u8>();
            told += &format!("\n  text of {} bytes: {}", text.len(), text.escape_ascii());
        }
        if name != Plan {
            let table = self.table.content::<i64>();
            told += &format!("\n  table of {} numbers: {table:?}", table.len());
        }
        format!("{told}\n  {more}")
    }

    fn differ<T>(&self, name: Name, more: &str, what: String) -> Result<T, Difference> {
        Err(Difference { call: self.told(name, more), what })
    }

    fn tell(&self, name: Name, more: &dyn Fn() -> String) {
        if self.tells {
            println!("{}", self.told(name, &more()));
        }
    }

    /// Compares the result and the numbers, none where one is left, and looks beside all buffers.
    fn judge(
        &mut self,
        name: Name,
        more: &dyn Fn() -> String,
        told: usize,
        wanted: usize,
        numbers: &[Option<u64>],
    ) -> Verdict {
        self.made += 1;
        if told != wanted {
            return self.differ(name, &more(), format!("returned {told}, and not {wanted}"));
        }
        for (number, wanted) in numbers.iter().enumerate() {
            let (is, mark) = (self.numbers[number].content::<u64>()[0], self.marks[number]);
            if is != wanted.unwrap_or(mark) {
                let should = wanted.map_or("left".to_string(), |wanted| wanted.to_string());
                let what = format!("number {number} of those handed out is {is}, was {mark}, and should be {should}");
                return self.differ(name, &more(), what);
            }
        }
        let Asker { text, table, room, out, window, journal, string, numbers, .. } = &*self;
        let shelves = [text, table, room, out, window, journal, string];
        if !shelves.into_iter().chain(numbers).all(Shelf::is_clean) {
            return self.differ(name, &more(), "a byte beside a buffer was written".to_string());
        }
        self.tally.add(name, if name == Name::ListChecked { 0 } else { told });
        Ok(())
    }

    // ── texts and tables ──

    /// Plans the text into a table of these numbers; the records, and how many variables they have, or the refusal of all stages.
    pub fn plan(&mut self, before: &[i64], wanted: &Result<(&[i64], u64), Refusal>) -> Verdict {
        let more = || format!("into a table of {} numbers", before.len());
        self.tell(Name::Plan, &more);
        let lent = self.room.lend(before, self.side);
        let room = self.or_null(lent);
        let [records, variables, place] = self.hand();
        let Lent { at, length } = self.lent_text;
        let call = self.calls.plan;
        // Safety: as the header asks; whether the call keeps to it is what is tried.
        let told = unsafe { call(at, length, room.at, room.length, records.cast(), variables, place.cast()) };
        let front = wanted.as_ref().map_or(&[][..], |(numbers, _)| numbers);
        let counts = wanted.as_ref().ok().map(|(numbers, count)| ((numbers.len() / FIELDS) as u64, *count));
        let numbers = [counts.map(|counts| counts.0), counts.map(|counts| counts.1), place_by(wanted)];
        self.judge(Name::Plan, &more, told, told_by(wanted), &numbers)?;
        let table = self.room.content::<i64>();
        if &table[..front.len()] != front || table[front.len()..] != before[front.len()..] {
            return self.differ(Name::Plan, &more(), format!("the table is {table:?}, and was {before:?}"));
        }
        Ok(())
    }

    /// Asks whether the table is a plan.
    pub fn check_plan(&mut self, wanted: bool) -> Verdict {
        let more = String::new;
        self.tell(Name::CheckPlan, &more);
        let Lent { at, length } = self.lent_table;
        let call = self.calls.check_plan;
        // Safety: as in `plan`.
        let told = unsafe { call(at, length) };
        self.judge(Name::CheckPlan, &more, told, if wanted { 0 } else { 20 }, &[])
    }

    /// Asks whether the table is the text's; the end of its content.
    pub fn check(&mut self, wanted: &Result<usize, Refusal>) -> Verdict {
        let more = String::new;
        self.tell(Name::Check, &more);
        let [end, place] = self.hand();
        let (text, table) = (self.lent_text, self.lent_table);
        let call = self.calls.check;
        // Safety: as in `plan`.
        let told = unsafe { call(text.at, text.length, table.at, table.length, end.cast(), place.cast()) };
        let numbers = [wanted.as_ref().ok().map(|end| *end as u64), place_by(wanted)];
        self.judge(Name::Check, &more, told, told_by(wanted), &numbers)
    }

    // ── variables of a table ──

    pub fn locate(&mut self, n: u64, is_checked: bool, wanted: &Result<Met, Refusal>) -> Verdict {
        let (name, call) = match is_checked {
            true => (Name::LocateChecked, self.calls.locate_checked),
            false => (Name::Locate, self.calls.locate),
        };
        let more = || format!("n {n}");
        self.tell(name, &more);
        let [record, space, address, size, kind] = self.hand();
        let Lent { at, length } = self.lent_table;
        // Safety: as in `plan`; the checked call is made with plans alone.
        let told = unsafe { call(at, length, n, record.cast(), space, address, size, kind) };
        let numbers = wanted.as_ref().map_or([None; LISTED], |met| listed(met).map(Some));
        self.judge(name, &more, told, told_by(wanted), &numbers)
    }

    /// Lists from n on into these numbers; the variables, or none where the table is no plan.
    pub fn list(&mut self, n: u64, before: &[u64], is_checked: bool, wanted: Option<&[Met]>) -> Verdict {
        let name = if is_checked { Name::ListChecked } else { Name::List };
        let more = || format!("n {n}, into {} numbers", before.len());
        self.tell(name, &more);
        let lent = self.out.lend(before, self.side);
        let out = self.or_null(lent);
        let [count] = self.hand();
        let table = self.lent_table;
        let listing = wanted.map_or(0, <[Met]>::len);
        // Safety: as in `plan`; the checked call is made with plans alone.
        if is_checked {
            let call = self.calls.list_checked;
            let told = unsafe { call(table.at, table.length, n, out.at, out.length) };
            self.judge(name, &more, told, listing, &[None])?;
        } else {
            let call = self.calls.list;
            let told = unsafe { call(table.at, table.length, n, out.at, out.length, count.cast()) };
            let refused = if wanted.is_some() { 0 } else { 20 };
            self.judge(name, &more, told, refused, &[wanted.map(|_| listing as u64)])?;
        }
        let front: Vec<u64> = wanted.unwrap_or_default().iter().flat_map(listed).collect();
        let list = self.out.content::<u64>();
        if list[..front.len()] != front || list[front.len()..] != before[front.len()..] {
            return self.differ(name, &more(), format!("listed {list:?}, and it was {before:?}"));
        }
        Ok(())
    }

    // ── values ──

    /// Writes a value; the window afterwards, or the refusal. A sign is any number but 0 where the integer is negative.
    pub fn write(&mut self, at: At, value: &Value, sign: u64, wanted: &Result<Vec<u8>, Refusal>) -> Verdict {
        let Access { n, space, first, window: before, .. } = at.access;
        let name = match (value, at.end) {
            (Value::Integer { .. }, None) => Name::WriteInteger,
            (Value::Event(_), None) => Name::WriteEvent,
            (Value::Text(_), None) => Name::WriteText,
            (Value::Integer { .. }, _) => Name::WriteIntegerChecked,
            (Value::Event(_), _) => Name::WriteEventChecked,
            (Value::Text(_), _) => Name::WriteTextChecked,
        };
        let more = || format!("n {n}, space {space}, first {first}, sign {sign}, {value:?}\n  window {before:?}");
        self.tell(name, &more);
        let lent = self.window.lend(before, self.side);
        let window = self.or_null(lent);
        let string = match value {
            Value::Text(bytes) => self.lend_string(bytes),
            _ => Lent { at: std::ptr::null_mut(), length: 0 },
        };
        let [place] = self.hand();
        let told = self.make_write(at, value, sign, window, string, place.cast());
        let place = at.end.map_or_else(|| place_by(wanted), |_| None);
        self.judge(name, &more, told, told_by(wanted), &[place])?;
        let after = wanted.as_ref().unwrap_or(before);
        if !self.window.holds(after) {
            let what = format!("the window is {:?}, and not {after:?}", self.window.content::<u8>());
            return self.differ(name, &more(), what);
        }
        match value {
            Value::Text(bytes) if !self.string.holds(bytes) => {
                self.differ(name, &more(), "the text to be written was changed".to_string())
            }
            _ => Ok(()),
        }
    }

    /// Lends a text to be written. Where the description itself has these bytes it is now and then a part of that: what is only read may be lent twice.
    fn lend_string(&mut self, bytes: &[u8]) -> Lent<u8> {
        let lent = self.string.lend(bytes, self.side);
        let text = self.text.content::<u8>();
        if !bytes.is_empty() && text.len() < SEARCHED && self.made.is_multiple_of(WITHIN_EVERY) {
            if let Some(place) = text.windows(bytes.len()).position(|part| part == bytes) {
                return Lent { at: self.lent_text.at.wrapping_add(place), length: bytes.len() };
            }
        }
        self.or_null(lent)
    }

    fn make_write(
        &self,
        At { end, access: Access { n, space, first, .. } }: At,
        value: &Value,
        sign: u64,
        window: Lent<u8>,
        string: Lent<u8>,
        place: *mut usize,
    ) -> usize {
        let Lent { at: text, length } = self.lent_text;
        let Lent { at: table, length: numbers } = self.lent_table;
        let (n, space, first) = (*n, *space, *first);
        let (held, bytes, from, count) = (window.at, window.length, string.at, string.length);
        let calls = self.calls;
        // Safety: as in `plan`; the checked calls are made with a text and its own table alone.
        #[rustfmt::skip]
        let told = unsafe {
            match (value, end) {
                (Value::Integer { magnitude, .. }, None) => (calls.write_integer)(
                    text, length, table, numbers, n, space, first, held, bytes, sign, *magnitude, place,
                ),
                (Value::Event(id), None) => (calls.write_event)(
                    text, length, table, numbers, n, space, first, held, bytes, *id, place,
                ),
                (Value::Text(_), None) => (calls.write_text)(
                    text, length, table, numbers, n, space, first, held, bytes, from, count, place,
                ),
                (Value::Integer { magnitude, .. }, Some(end)) => (calls.write_integer_checked)(
                    text, length, end, table, numbers, n, space, first, held, bytes, sign, *magnitude,
                ),
                (Value::Event(id), Some(end)) => (calls.write_event_checked)(
                    text, length, end, table, numbers, n, space, first, held, bytes, *id,
                ),
                (Value::Text(_), Some(end)) => (calls.write_text_checked)(
                    text, length, end, table, numbers, n, space, first, held, bytes, from, count,
                ),
            }
        };
        told
    }

    /// Reads a value; what it is, with the place in the window at which its variable begins, or the refusal.
    pub fn read(&mut self, at: At, wanted: &Result<(ReadValue, usize), Refusal>) -> Verdict {
        let Access { n, space, first, window: before, .. } = at.access;
        let name = if at.end.is_some() { Name::ReadChecked } else { Name::Read };
        let more = || format!("n {n}, space {space}, first {first}\n  window {before:?}");
        self.tell(name, &more);
        let lent = self.window.lend(before, self.side);
        if self.made.is_multiple_of(FROZEN_EVERY) {
            self.window.freeze();
        }
        let window = self.or_null(lent);
        let handed = self.hand();
        let told = self.make_read(at, window, handed);
        self.window.thaw();
        let value = wanted.as_ref().ok().map(|(value, start)| handed_out(value, *start));
        let mut numbers = [None; 7];
        if let Some(value) = value {
            numbers[..6].copy_from_slice(&value.map(Some));
        }
        numbers[6] = at.end.map_or_else(|| place_by(wanted), |_| None);
        self.judge(name, &more, told, told_by(wanted), &numbers)?;
        if !self.window.holds(before) {
            return self.differ(name, &more(), "the window was changed".to_string());
        }
        Ok(())
    }

    fn make_read(
        &self,
        At { end, access: Access { n, space, first, .. } }: At,
        window: Lent<u8>,
        [kind, negative, number, from, to, writable, place]: [*mut u64; 7],
    ) -> usize {
        let Lent { at: text, length } = self.lent_text;
        let Lent { at: table, length: numbers } = self.lent_table;
        let (n, space, first, held, bytes) = (*n, *space, *first, window.at, window.length);
        let calls = self.calls;
        // Safety: as in `make_write`.
        #[rustfmt::skip]
        let told = unsafe {
            match end {
                None => (calls.read)(
                    text, length, table, numbers, n, space, first, held, bytes,
                    kind, negative, number, from.cast(), to.cast(), writable, place.cast(),
                ),
                Some(end) => (calls.read_checked)(
                    text, length, end, table, numbers, n, space, first, held, bytes,
                    kind, negative, number, from.cast(), to.cast(), writable,
                ),
            }
        };
        told
    }

    // ── sessions ──

    /// Makes one call of a session; the session afterwards, or the refusal. The end of the content is told where the call is to rely on it.
    pub fn perform(
        &mut self,
        end: Option<usize>,
        before: &Session,
        operation: &Operation,
        sign: u64,
        wanted: &Result<Session, Refusal>,
    ) -> Verdict {
        let name = name_of(operation, end.is_some());
        let more = || {
            let Session { space, first, window, journal, standing, .. } = before;
            format!("{operation:?}, space {space}, first {first}, sign {sign}, session {standing}\n  window {window:?}\n  journal {journal:?}")
        };
        self.tell(name, &more);
        let lent = self.window.lend(&before.window, self.side);
        let window = self.or_null(lent);
        let lent = self.journal.lend(&before.journal, self.side);
        if *operation == Operation::Undo && self.made.is_multiple_of(FROZEN_EVERY) {
            self.journal.freeze();
        }
        let journal = self.or_null(lent);
        let string = match operation {
            Operation::Edit { value: Value::Text(bytes), .. } => self.lend_string(bytes),
            _ => Lent { at: std::ptr::null_mut(), length: 0 },
        };
        let [_, place] = self.hand();
        // the session's value is handed in, and left where the call is refused
        self.marks[0] = before.standing;
        let session = self.numbers[0].lend(&[before.standing], self.side).at;
        let told = self.make_call(end, before, operation, sign, (window, journal, string), (session, place.cast()));
        self.journal.thaw();
        let standing = wanted.as_ref().ok().map(|after| after.standing);
        let place = end.map_or_else(|| place_by(wanted), |_| None);
        self.judge(name, &more, told, told_by(wanted), &[standing, place])?;
        let after = wanted.as_ref().unwrap_or(before);
        if !self.window.holds(&after.window) {
            let what = format!("the window is {:?}, and not {:?}", self.window.content::<u8>(), after.window);
            return self.differ(name, &more(), what);
        }
        if !self.journal.holds(&after.journal) {
            let what = format!("the journal is {:?}, and not {:?}", self.journal.content::<u8>(), after.journal);
            return self.differ(name, &more(), what);
        }
        Ok(())
    }

    fn make_call(
        &self,
        end: Option<usize>,
        Session { space, first, .. }: &Session,
        operation: &Operation,
        sign: u64,
        (window, journal, string): (Lent<u8>, Lent<u8>, Lent<u8>),
        (session, place): (*mut u64, *mut usize),
    ) -> usize {
        let Lent { at: text, length } = self.lent_text;
        let Lent { at: table, length: numbers } = self.lent_table;
        let (space, first, held, bytes) = (*space, *first, window.at, window.length);
        let (kept, room, from, count) = (journal.at, journal.length, string.at, string.length);
        let calls = self.calls;
        // Safety: as in `make_write`.
        #[rustfmt::skip]
        let told = unsafe {
            match (operation, end) {
                (Operation::Undo, None) => (calls.undo)(
                    text, length, table, numbers, space, first, held, bytes, kept, room, session, place,
                ),
                (Operation::Undo, Some(end)) => (calls.undo_checked)(
                    text, length, end, table, numbers, space, first, held, bytes, kept, room, session,
                ),
                (Operation::Edit { n, value: Value::Integer { magnitude, .. } }, None) => (calls.edit_integer)(
                    text, length, table, numbers, *n, space, first, held, bytes, kept, room, session, sign, *magnitude, place,
                ),
                (Operation::Edit { n, value: Value::Event(id) }, None) => (calls.edit_event)(
                    text, length, table, numbers, *n, space, first, held, bytes, kept, room, session, *id, place,
                ),
                (Operation::Edit { n, value: Value::Text(_) }, None) => (calls.edit_text)(
                    text, length, table, numbers, *n, space, first, held, bytes, kept, room, session, from, count, place,
                ),
                (Operation::Edit { n, value: Value::Integer { magnitude, .. } }, Some(end)) => (calls.edit_integer_checked)(
                    text, length, end, table, numbers, *n, space, first, held, bytes, kept, room, session, sign, *magnitude,
                ),
                (Operation::Edit { n, value: Value::Event(id) }, Some(end)) => (calls.edit_event_checked)(
                    text, length, end, table, numbers, *n, space, first, held, bytes, kept, room, session, *id,
                ),
                (Operation::Edit { n, value: Value::Text(_) }, Some(end)) => (calls.edit_text_checked)(
                    text, length, end, table, numbers, *n, space, first, held, bytes, kept, room, session, from, count,
                ),
            }
        };
        told
    }
}

/// The call for an operation of a session.
fn name_of(operation: &Operation, is_checked: bool) -> Name {
    match (operation, is_checked) {
        (Operation::Undo, false) => Name::Undo,
        (Operation::Undo, true) => Name::UndoChecked,
        (Operation::Edit { value: Value::Integer { .. }, .. }, false) => Name::EditInteger,
        (Operation::Edit { value: Value::Event(_), .. }, false) => Name::EditEvent,
        (Operation::Edit { value: Value::Text(_), .. }, false) => Name::EditText,
        (Operation::Edit { value: Value::Integer { .. }, .. }, true) => Name::EditIntegerChecked,
        (Operation::Edit { value: Value::Event(_), .. }, true) => Name::EditEventChecked,
        (Operation::Edit { value: Value::Text(_), .. }, true) => Name::EditTextChecked,
    }
}
