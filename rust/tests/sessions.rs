//! Sessions: edits and undos in every order, journals that are short, full or of something else, and what a refusal leaves.

mod texts;

use planksling::{lent, Cause, Description, EventId, Refusal, Session, Value, Window};
use planksling::{JOURNAL_ROOM, MOST_EDITS};
use texts::{closed, planned, refusal, text, Numbers, WORKED};

/// What a window holds at the opening.
const AT_FIRST: u8 = 0xA5;

/// Every kind: an int of 2 bytes at 128, a string of 6, an eventid, an int from 3 to 9, a string with a map, a float, an eventid with a map.
const KINDS: &str = "<int size=\"2\"/><string size=\"6\"/><eventid/><int><min>3</min><max>9</max></int><string size=\"4\"><map><relation>\
    <property>on</property><value/></relation></map></string><float size=\"4\"/><eventid><map/></eventid>";

/// The bytes of these variables.
const SIZE: usize = 33;

fn window(bytes: usize) -> Window<Vec<u8>> {
    Window::new(253, 128, vec![AT_FIRST; bytes])
}

fn refused<T>(cause: Cause) -> Result<T, Refusal> {
    Err(refusal(cause, 0))
}

/// An entry as it stands in a journal.
fn entry(number: u32, old: &[u8]) -> Vec<u8> {
    [&number.to_be_bytes()[..], &(old.len() as u32).to_be_bytes(), old].concat()
}

/// All that a refused call must leave.
fn state(session: &Session<'_>) -> (Window<Vec<u8>>, Vec<u8>, u64) {
    session.clone().into_parts()
}

#[test]
fn one_edit_and_back() {
    let t: Description = WORKED.parse().expect("T");
    let mut session = Session::open(&t, Window::new(253, 128, vec![AT_FIRST; 40]));
    assert_eq!((session.standing(), session.journal().len(), session.latest()), (0, JOURNAL_ROOM, None));
    session.edit(4, 300).expect("an edit");
    assert_eq!(session.standing(), 1);
    assert_eq!(session.window().bytes[18..22], [AT_FIRST, 0x01, 0x2C, AT_FIRST]);
    assert_eq!(session.journal()[..10], entry(4, &[AT_FIRST; 2])[..]);
    assert!(session.journal()[10..].iter().all(|&byte| byte == 0));
    assert_eq!(session.read(4).expect("an int").value, 300.into());
    assert_eq!(session.latest().map(|entry| (entry.number, entry.old)), Some((4, &[AT_FIRST; 2][..])));
    session.undo().expect("an undo");
    assert_eq!((session.standing(), session.latest()), (0, None));
    // the entry's bytes stay until another edit is stored over them
    assert_eq!(session.journal()[..10], entry(4, &[AT_FIRST; 2])[..]);
    assert_eq!(session.undo(), refused(Cause::NothingToUndo));
    assert_eq!(session.description(), &t);
    assert_eq!(session.into_window(), Window::new(253, 128, vec![AT_FIRST; 40]));
}

#[test]
fn every_kind_and_their_entries() {
    let description = planned(KINDS);
    let mut session = Session::open(&description, window(SIZE));
    let values = [Value::from(0x0102), "ab".into(), EventId(7).into(), 9.into(), "on".into()];
    let sizes = [2, 6, 8, 1, 4];
    let mut entries = vec![];
    let mut windows = vec![session.window().clone()];
    for ((n, value), size) in (0..).zip(&values).zip(sizes) {
        session.edit(u64::from(n), value).expect("an edit");
        entries.extend(entry(n, &vec![AT_FIRST; size]));
        assert_eq!(&session.read(n.into()).expect("a value").value, value);
        assert_eq!(
            (session.journal()[..entries.len()].to_vec(), session.standing()),
            (entries.clone(), u64::from(n) + 1)
        );
        windows.push(session.window().clone());
    }
    // the latest first, and each leaves what was before it
    for n in (0..5).rev() {
        assert_eq!(session.window(), &windows[n + 1]);
        assert_eq!(session.latest().map(|entry| entry.number), Some(n as u64));
        session.undo().expect("an undo");
        assert_eq!((session.window(), session.standing()), (&windows[n], n as u64));
    }
}

/// One variable edited again and again: each undo brings back the value before.
#[test]
fn one_variable_many_times() {
    let description = planned("<int size=\"2\"/>");
    let mut session = Session::open(&description, window(2));
    // a value that is there already is an edit like any other
    let values = [1, 2, 2, 2, 5, 1];
    for value in values {
        session.edit(0, value).expect("an edit");
    }
    for (standing, value) in values.iter().enumerate().rev() {
        assert_eq!(
            (session.standing(), session.read(0).expect("an int").value),
            (standing as u64 + 1, (*value).into())
        );
        session.undo().expect("an undo");
    }
    assert_eq!(session.window(), &window(2));
    // the room is used again: with room for one edit there can be any number of them, one after another
    let mut session = Session::with_journal(&description, window(2), vec![9; 10]);
    for value in 0..200 {
        session.edit(0, value).expect("an edit");
        assert_eq!(session.edit(0, value + 1), refused(Cause::JournalFull));
        session.undo().expect("an undo");
    }
    assert_eq!((session.standing(), session.window()), (0, &window(2)));
}

/// Variables that share bytes: taking back restores the bytes, also those of the other one.
#[test]
fn variables_that_overlap() {
    let description = planned("<int size=\"4\"/><string offset=\"-3\" size=\"6\"/>");
    let mut session = Session::open(&description, window(7));
    session.edit(0, 0x0102_0304).expect("an edit");
    session.edit(1, "abc").expect("an edit");
    assert_eq!(session.window().bytes, b"\x01abc\0\0\0");
    session.undo().expect("an undo");
    assert_eq!(session.window().bytes, [1, 2, 3, 4, AT_FIRST, AT_FIRST, AT_FIRST]);
    session.undo().expect("an undo");
    assert_eq!(session.window(), &window(7));
}

#[test]
fn the_65th_edit() {
    let description = planned("<int/>");
    for room in [JOURNAL_ROOM, 64 * 9, 64 * 9 + 8, 1_000_000] {
        let mut session = Session::with_journal(&description, window(1), vec![3; room]);
        for value in 0..MOST_EDITS {
            assert_eq!(session.standing(), value);
            session.edit(0, value).expect("one of the first 64");
        }
        let before = state(&session);
        for value in [0, 63, 64] {
            assert_eq!(session.edit(0, value), refused(Cause::JournalFull));
            assert_eq!(state(&session), before);
        }
        // other refusals come first
        assert_eq!(session.edit(0, 256), refused(Cause::OutOfBounds));
        assert_eq!(session.edit(0, "x"), refused(Cause::OtherKind));
        assert_eq!(session.edit(1, 0), refused(Cause::NoVariable));
        assert_eq!(state(&session), before);
        // one less, and there is room for one
        session.undo().expect("an undo");
        session.edit(0, 200).expect("the 64th again");
        assert_eq!(session.edit(0, 201), refused(Cause::JournalFull));
        for _ in 0..MOST_EDITS {
            session.undo().expect("an undo");
        }
        assert_eq!(session.undo(), refused(Cause::NothingToUndo));
        assert_eq!(session.window(), &window(1));
        // nothing behind the entries was touched
        assert!(session.journal()[64 * 9..].iter().all(|&byte| byte == 3));
    }
}

#[test]
fn short_journals() {
    let description = planned("<int size=\"2\"/><eventid/>");
    for room in 0..=40 {
        let mut session = Session::with_journal(&description, window(10), vec![0xFF; room]);
        let mut left = room;
        // an int as long as there are 10 bytes, then an eventid needs 16
        for n in [0, 1, 0, 1, 0] {
            let (need, value) = if n == 0 { (10, Value::from(1)) } else { (16, EventId(1).into()) };
            let before = state(&session);
            let told = session.edit(n, value);
            if need <= left {
                left -= need;
                assert_eq!((told, session.standing()), (Ok(()), before.2 + 1), "{room}");
            } else {
                assert_eq!((told, state(&session)), (refused(Cause::JournalFull), before), "{room}");
            }
            assert_eq!(session.journal()[room - left..], vec![0xFF; left][..]);
        }
        while session.undo().is_ok() {}
        assert_eq!((session.window(), session.standing()), (&window(10), 0));
    }
}

/// The longest entries: one of 65,536 bytes fits alone, one of a byte more never.
#[test]
fn the_longest_strings() {
    for (size, fits) in [(65_528, true), (65_529, false), (65_535, false)] {
        let description = planned(&format!("<string size=\"{size}\"/>"));
        for room in [JOURNAL_ROOM, JOURNAL_ROOM + 100] {
            let mut session = Session::with_journal(&description, window(size), vec![1; room]);
            let before = state(&session);
            let told = session.edit(0, "x".repeat(size - 1));
            if fits {
                assert_eq!((told, session.standing()), (Ok(()), 1));
                assert_eq!(session.journal()[..JOURNAL_ROOM], entry(0, &vec![AT_FIRST; size])[..]);
                assert!(session.journal()[JOURNAL_ROOM..].iter().all(|&byte| byte == 1));
                assert_eq!(session.edit(0, ""), refused(Cause::JournalFull));
                session.undo().expect("an undo");
                assert_eq!((session.window(), session.standing()), (&window(size), 0));
            } else {
                assert_eq!((told, state(&session)), (refused(Cause::JournalFull), before));
            }
        }
        let mut session = Session::with_journal(&description, window(size), vec![1; JOURNAL_ROOM - 1]);
        let room_left = size + 8 < JOURNAL_ROOM;
        assert_eq!(session.edit(0, "").is_ok(), room_left);
    }
}

/// Every refusal of an edit, beside edits that stand: all is as it was.
#[test]
fn refused_edits() {
    let description = planned(KINDS);
    let mut session = Session::open(&description, window(SIZE));
    session.edit(0, 5).expect("an edit");
    let before = state(&session);
    let cases: [(u64, Value<'_>, Cause); 12] = [
        (7, 1.into(), Cause::NoVariable),
        (u64::MAX, 1.into(), Cause::NoVariable),
        (5, 1.into(), Cause::Withheld),
        (6, EventId(1).into(), Cause::Withheld),
        (0, "1".into(), Cause::OtherKind),
        (1, 1.into(), Cause::OtherKind),
        (2, 1.into(), Cause::OtherKind),
        (0, 65_536.into(), Cause::OutOfBounds),
        (3, 2.into(), Cause::OutOfBounds),
        (1, "abcdef".into(), Cause::UnstorableText),
        (1, "a\0".into(), Cause::UnstorableText),
        (4, "off".into(), Cause::NotInMap),
    ];
    for (n, value, cause) in cases {
        assert_eq!(session.edit(n, &value), refused(cause), "{n} {value}");
        assert_eq!(state(&session), before);
    }
    // a window that misses the variable, whatever the journal has; and both at once
    let mut part = Session::with_journal(&description, Window::new(253, 129, vec![0; 5]), vec![]);
    assert_eq!(part.edit(0, 5), refused(Cause::OutsideWindow));
    assert_eq!(part.edit(3, 5), refused(Cause::OutsideWindow));
    let mut other = Session::open(&description, Window::new(252, 128, vec![0; SIZE]));
    assert_eq!(other.edit(0, 5), refused(Cause::OutsideWindow));
    assert_eq!((other.standing(), &other.window().bytes), (0, &vec![0; SIZE]));
}

/// Journals of something else: undo accepts exactly where the latest entry lies in the journal and is that of a variable in the window.
#[test]
fn reopened_with_anything() {
    let description = planned(KINDS);
    let undone = |journal: &[u8], standing: u64| {
        let mut session = Session::reopen(&description, window(SIZE), journal.to_vec(), standing);
        let before = state(&session);
        let told = session.undo();
        if told.is_err() {
            assert_eq!(state(&session), before);
        } else {
            assert_eq!((session.standing(), session.journal()), (standing - 1, journal));
        }
        told.map(|()| session.into_window().bytes)
    };
    let bad = refused(Cause::BadEntry);
    assert_eq!(undone(&[], 0), refused(Cause::NothingToUndo));
    assert_eq!(undone(&[0xFF; 100], 0), refused(Cause::NothingToUndo));
    for standing in [1, 2, 64, 65, u64::MAX] {
        assert_eq!(undone(&[], standing), bad);
        assert_eq!(undone(&[0xFF; 100], standing), bad);
        // entries of size 0, of which no variable is
        assert_eq!(undone(&[0; 100], standing), bad);
    }
    // a good one, with any other number of edits; one that is cut off anywhere, one with another size or number
    let good = entry(0, &[1, 2]);
    assert_eq!(undone(&good, 1), Ok([&[1, 2][..], &[AT_FIRST; SIZE - 2]].concat()));
    for standing in [2, 257, 65_537, (1 << 32) + 1, (1 << 63) + 1, u64::MAX] {
        assert_eq!(undone(&good, standing), bad);
    }
    for length in 0..good.len() {
        assert_eq!(undone(&good[..length], 1), bad);
    }
    for other in [entry(0, &[1]), entry(0, &[1, 2, 3]), entry(1, &[1, 2]), entry(7, &[1, 2]), entry(u32::MAX, &[1, 2])]
    {
        assert_eq!(undone(&[other, vec![0; 50]].concat(), 1), bad);
    }
    // a size that leaves the journal, and one that leaves 32 bits with the place of its entry
    for size in [3_u32, 1000, 65_536, u32::MAX] {
        assert_eq!(undone(&[&[0; 4], &size.to_be_bytes()[..], &[1, 2]].concat(), 1), bad);
        let two = [&entry(0, &[1, 2])[..], &[0; 4], &size.to_be_bytes(), &[1, 2]].concat();
        assert_eq!(undone(&two, 2), bad);
        assert!(undone(&two, 1).is_ok());
    }
    // what entries before the latest are of doesn't matter, only where they end
    let strange = [entry(99, &[]), entry(u32::MAX, &[9; 30]), entry(3, &[4])].concat();
    assert!(undone(&strange, 3).is_ok());
    assert_eq!(undone(&strange, 2), bad);
    // nor the kind, nor whether the bytes could be written
    assert!(undone(&entry(5, &[1, 2, 3, 4]), 1).is_ok());
    assert!(undone(&entry(6, &[9; 8]), 1).is_ok());
    assert!(undone(&entry(3, &[0]), 1).is_ok());
    assert!(undone(&entry(1, b"\xFF\xFF\xFFabc"), 1).is_ok());
    // more edits than can be made: the latest one is taken back all the same
    let many = entry(3, &[4]).repeat(100);
    assert!(undone(&many, 100).is_ok());
    assert_eq!(undone(&many, 101), bad);
}

/// An entry of a variable that isn't wholly in the window.
#[test]
fn reopened_with_another_window() {
    let description = planned("<int size=\"2\"/><int size=\"2\"/>");
    for (space, first, bytes, inside) in
        [(253, 128, 4, true), (253, 129, 3, true), (253, 130, 2, true), (253, 131, 2, false), (253, 128, 3, false)]
            .into_iter()
            .chain([(252, 128, 4, false), (253 + 256, 128, 4, false), (253, u64::MAX, 4, false), (253, 130, 0, false)])
    {
        let opening = Window::new(space, first, vec![AT_FIRST; bytes]);
        let mut session = Session::reopen(&description, opening.clone(), entry(1, &[1, 2]), 1);
        let told = session.undo();
        assert_eq!(told.is_ok(), inside, "{space} {first} {bytes}");
        if inside {
            let at = (130 - first) as usize;
            assert_eq!(session.window().bytes[at..at + 2], [1, 2]);
        } else {
            assert_eq!((told, session.window(), session.standing()), (refused(Cause::BadEntry), &opening, 1));
        }
    }
}

/// Entries may fill the room exactly, and no byte behind it counts.
#[test]
fn the_end_of_the_room() {
    let description = planned("<int size=\"4\"/><string size=\"65516\"/>");
    let full = [entry(1, &vec![b'x'; 65_516]), entry(0, &[1, 2, 3, 4])].concat();
    assert_eq!(full.len(), JOURNAL_ROOM);
    let window = || Window::new(253, 128, vec![0; 4 + 65_516]);
    for behind in [0, 1, 100] {
        let journal = [&full[..], &vec![0; behind]].concat();
        let mut session = Session::reopen(&description, window(), journal, 2);
        session.undo().expect("it lies in the room");
        assert_eq!(session.window().bytes[..4], [1, 2, 3, 4]);
    }
    // a byte further it leaves the room, though not the journal
    let description = planned("<int size=\"4\"/><string size=\"65517\"/>");
    let journal = [entry(1, &vec![b'x'; 65_517]), entry(0, &[1, 2, 3, 4]), vec![0; 100]].concat();
    let window = Window::new(253, 128, vec![0; 4 + 65_517]);
    let mut session = Session::reopen(&description, window, journal, 2);
    assert_eq!(session.undo(), refused(Cause::BadEntry));
    assert_eq!(session.latest(), None);
}

/// With edits that a journal says to stand anywhere, one more is stored behind them, or refused.
#[test]
fn edits_behind_anything() {
    let description = planned("<int/>");
    let edited = |journal: Vec<u8>, standing| {
        let mut session = Session::reopen(&description, window(1), journal, standing);
        let before = state(&session);
        let told = session.edit(0, 7);
        if told.is_err() {
            assert_eq!(state(&session), before);
        }
        told.map(|()| session.into_parts().1)
    };
    let full = refused(Cause::JournalFull);
    assert_eq!(
        edited([entry(9, &[8; 5]), vec![2; 10]].concat(), 1),
        Ok([entry(9, &[8; 5]), entry(0, &[AT_FIRST]), vec![2]].concat())
    );
    assert_eq!(edited([entry(9, &[8; 5]), vec![2; 8]].concat(), 1), full);
    assert_eq!(edited(vec![0xFF; 100], 1), full);
    assert_eq!(edited(vec![0; 100], 12), full);
    assert!(edited(vec![0; 100], 11).is_ok());
    for standing in [64, 65, u64::MAX] {
        assert_eq!(edited(vec![0; JOURNAL_ROOM], standing), full);
    }
    assert!(edited(vec![0; JOURNAL_ROOM], 63).is_ok());
}

/// A session that is put away and reopened goes on as if it had not been.
#[test]
fn put_away_and_reopened() {
    let description = planned(KINDS);
    let mut session = Session::open(&description, window(SIZE));
    for (n, value) in [(0, Value::from(1)), (1, "a".into()), (2, EventId(3).into())] {
        session.edit(n, value).expect("an edit");
        let (window, journal, standing) = session.into_parts();
        session = Session::reopen(&description, window, journal, standing);
    }
    for _ in 0..3 {
        session.undo().expect("an undo");
        let (window, journal, standing) = session.into_parts();
        session = Session::reopen(&description, window, journal, standing);
    }
    assert_eq!((session.standing(), session.window()), (0, &window(SIZE)));
}

/// A session and the calls on lent memory side by side: both tell and leave the same.
struct Both<'d> {
    session: Session<'d>,
    text: Vec<u8>,
    window: Window<Vec<u8>>,
    journal: Vec<u8>,
    standing: u64,
}

impl<'d> Both<'d> {
    fn open(description: &'d Description, window: Window<Vec<u8>>, journal: Vec<u8>) -> Both<'d> {
        let session = Session::with_journal(description, window.clone(), journal.clone());
        Both { session, text: closed(description.text()), window, journal, standing: 0 }
    }

    fn edit(&mut self, n: u64, value: &Value<'_>) -> Result<(), Refusal> {
        let Both { session, text, window, journal, standing } = self;
        let table = session.description().table().numbers();
        let told = lent::edit(text, table, n, window, journal, standing, value);
        assert_eq!(session.edit(n, value), told);
        self.same();
        told
    }

    fn undo(&mut self) -> Result<(), Refusal> {
        let Both { session, text, window, journal, standing } = self;
        let table = session.description().table().numbers();
        let told = lent::undo(text, table, window, journal, standing);
        assert_eq!(session.undo(), told);
        self.same();
        told
    }

    fn same(&self) {
        assert_eq!(self.session.window(), &self.window);
        assert_eq!((self.session.journal(), self.session.standing()), (&self.journal[..], self.standing));
    }
}

/// A value for a variable of the mixes, good or not.
fn any_value(numbers: &mut Numbers, n: u64) -> Value<'static> {
    match (n + numbers.below(12) / 11) % 4 {
        0 => numbers.below(1 << 17).into(),
        1 => "é".repeat(numbers.below(7) as usize).into(),
        2 => EventId(numbers.below(1 << 31) << 20).into(),
        _ => Value::from(numbers.below(300) as i64 - 20),
    }
}

/// Any mix of edits and undos, refused ones included: the window is what the remaining edits alone make of the one at the opening.
#[test]
fn mixes() {
    // variables that overlap, some of them outside the window
    let elements = "<group replication=\"6\"><int size=\"2\"/><string offset=\"-1\" size=\"11\"/><eventid offset=\"-4\"/><int><min>-9</min></int></group>";
    let description = planned(elements);
    let mut numbers = Numbers::new(6);
    let (mut edits, mut undos, mut full, mut none) = (0, 0, 0, 0);
    for round in 0..60 {
        let opening = Window::new(253, 128 + numbers.below(8), vec![AT_FIRST; 60 + numbers.below(50) as usize]);
        let room = [0, 40, 300, 1_000, JOURNAL_ROOM][numbers.below(5) as usize];
        let mut both = Both::open(&description, opening.clone(), vec![round; room]);
        let mut remaining: Vec<(u64, Value<'_>)> = vec![];
        // some mixes grow and some shrink
        let share = 20 + numbers.below(60);
        for _ in 0..150 {
            if numbers.below(100) < share {
                let n = numbers.below(26);
                let value = any_value(&mut numbers, n);
                match both.edit(n, &value) {
                    Ok(()) => remaining.push((n, value)),
                    Err(refusal) => full += u32::from(refusal.cause == Cause::JournalFull),
                }
                edits += 1;
            } else {
                match both.undo() {
                    Ok(()) => drop(remaining.pop().expect("an edit that stands")),
                    Err(refusal) => {
                        assert_eq!((refusal.cause, remaining.len()), (Cause::NothingToUndo, 0));
                        none += 1;
                    }
                }
                undos += 1;
            }
            assert_eq!(both.standing, remaining.len() as u64);
            let mut alone = opening.clone();
            for (n, value) in &remaining {
                description.write(*n, &mut alone, value).expect("it was accepted");
            }
            assert_eq!(both.window, alone);
        }
    }
    // each way was taken often enough to be worth it
    assert!(
        [edits, undos].iter().all(|&count| 2000 < count) && 300 < full && 100 < none,
        "{edits} {undos} {full} {none}"
    );
}

/// The calls on lent memory refuse a text and a table first, with the text's place, and leave session, window and journal.
#[test]
fn lent_texts_and_tables() {
    let description: Description = WORKED.parse().expect("T");
    let good = closed(WORKED);
    let table = description.table().numbers();
    let elsewhere = text("<segment><int/></segment>");
    let cases: [(&[u8], &[i64], Refusal); 4] = [
        (WORKED.as_bytes(), table, refusal(Cause::NoEnd, 309)),
        (&closed(&elsewhere), table, refusal(Cause::MissingAttribute, 155)),
        (&good, &table[8..], refusal(Cause::NotAPlan, 0)),
        (&good, &[], refusal(Cause::NotAPlan, 0)),
    ];
    for (text, table, wanted) in cases {
        for standing in [0, 1, 64, u64::MAX] {
            let (mut window, mut journal, mut session) = (Window::new(253, 128, [7; 40]), [9; 50], standing);
            for value in [Value::from(1), "a".into(), EventId(1).into()] {
                assert_eq!(lent::edit(text, table, 0, &mut window, &mut journal, &mut session, value), Err(wanted));
            }
            assert_eq!(lent::undo(text, table, &mut window, &journal, &mut session), Err(wanted));
            assert_eq!((window.bytes, journal, session), ([7; 40], [9; 50], standing));
        }
    }
}

#[test]
fn shown_for_debugging() {
    let description = planned("<int/>");
    let session = Session::with_journal(&description, window(1), vec![0; 9]);
    assert_eq!(format!("{session:?}"), "Session { standing: 0, window: 1, journal: 9, .. }");
}
