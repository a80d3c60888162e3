//! Sessions with undo, by request R-6: each open point as it was decided, the promise on mixes of edits and undos, the frame, and the stream.

mod build;

use build::{cdi, segment};
use reference::access::{part, write_to, Access, Value};
use reference::cases::reached::{sessions, Reached};
use reference::cases::sessions::entry;
use reference::cases::stats::Shares;
use reference::cases::texts::CAUSES;
use reference::cases::{boundaries, Sort, Stream};
use reference::plan::planned;
use reference::session::{Known, ROOM};
use reference::{answer, frame, line, Answer, Case, Frames, Operation, Session};

const UNDO: Operation = Operation::Undo;

/// The segment of text T.
const T: &str = "<segment space=\"253\" origin=\"128\"><int/><group replication=\"3\" offset=\"2\"><eventid/>\
<int size=\"2\" offset=\"-1\"/></group><string size=\"10\"/></segment>";

fn int(n: u64, value: i128) -> Operation {
    let (negative, magnitude) = (value < 0, value.unsigned_abs() as u64);
    Operation::Edit { n, value: Value::Integer { negative, magnitude } }
}

fn event(n: u64, value: u64) -> Operation {
    Operation::Edit { n, value: Value::Event(value) }
}

fn text(n: u64, value: &[u8]) -> Operation {
    Operation::Edit { n, value: Value::Text(value.to_vec()) }
}

/// A fresh session over this text, with windows and journals of bytes FF.
fn over(text: Vec<u8>, space: u64, first: u64, window: usize, journal: usize) -> Session {
    let table = planned(&text).map(|planned| planned.numbers).unwrap_or_default();
    Session { text, table, space, first, window: vec![0xFF; window], journal: vec![0xFF; journal], standing: 0 }
}

/// A fresh session over what stands in a segment of space 1, from address 0 on.
fn session(inside: &str, window: usize, journal: usize) -> Session {
    over(segment(inside), 1, 0, window, journal)
}

/// The same with this journal and session value.
fn handed(session: &Session, journal: &[u8], standing: u64) -> Session {
    Session { journal: journal.to_vec(), standing, ..session.clone() }
}

/// What the line says of each operation, and the session at the end.
fn play(session: &Session, operations: &[Operation]) -> (String, Session) {
    let answer = answer(&Case::Session { session: session.clone(), operations: operations.to_vec() });
    let outcomes = line(&answer).split(' ').nth(1).unwrap().to_string();
    let Answer::Session { session, .. } = answer else { panic!() };
    (outcomes, session)
}

/// The outcome of one operation; where it is refused, nothing has changed.
fn told(session: &Session, operation: Operation) -> String {
    let (outcome, after) = play(session, &[operation]);
    assert!(outcome == "+" || after == *session);
    outcome
}

#[test]
fn point_1_one_number() {
    let fresh = session("<int/>", 1, 30);
    let (outcomes, after) = play(&fresh, &[int(0, 1), int(0, 2), int(0, 3), UNDO]);
    assert_eq!((outcomes.as_str(), after.standing), ("+,+,+,+", 2));
    // What the journal holds before the first edit doesn't matter.
    let other = handed(&fresh, &[7; 30], 0);
    assert_eq!(play(&other, &[int(0, 1), int(0, 2), int(0, 3), UNDO]).0, "+,+,+,+");
}

#[test]
fn point_2_entries_follow_one_another() {
    let fresh = session("<int/>", 1, 0);
    for size in [0, 3, 5] {
        let journal = [entry(9, size as u64, &[0x11; 5][..size]), vec![0xAA; 20]].concat();
        let (outcome, after) = play(&handed(&fresh, &journal, 1), &[int(0, 2)]);
        assert_eq!((outcome.as_str(), after.standing), ("+", 2));
        let start = 8 + size;
        assert_eq!(after.journal[start..start + 9], [0, 0, 0, 0, 0, 0, 0, 1, 0xFF]);
        assert_eq!(after.journal[..start], journal[..start]);
        assert_eq!(after.journal[start + 9..], journal[start + 9..]);
    }
}

#[test]
fn point_3_the_room() {
    let fresh = session("<int/>", 1, 0);
    for length in [ROOM - 1, ROOM, ROOM + 1, 70_000] {
        for end in [ROOM - 1, ROOM, ROOM + 1] {
            let before = end - 17;
            let mut journal = [entry(0, before as u64, &vec![1; before]), entry(0, 1, &[0x77])].concat();
            journal.resize(length, 0x55);
            let lies = end <= length.min(ROOM);
            let wanted = |refused: &str| if lies { "+".to_string() } else { refused.to_string() };
            assert_eq!(told(&handed(&fresh, &journal, 2), UNDO), wanted("35.0"), "{length} {end}");
            let (outcome, after) = play(&handed(&fresh, &journal, 1), &[int(0, 3)]);
            assert_eq!(outcome, wanted("30.0"), "{length} {end}");
            assert_eq!(after.journal[length.min(ROOM)..], journal[length.min(ROOM)..]);
        }
    }
    // No sum wraps: behind 9 bytes, 8 more and a size of 2^32 - 17 the entries don't begin anew at byte 0.
    let journal = [entry(0, 1, &[5]), entry(0, (1 << 32) - 17, &[])].concat();
    assert_eq!(told(&handed(&fresh, &journal, 3), UNDO), "35.0");
    assert_eq!(told(&handed(&fresh, &journal, 2), int(0, 1)), "30.0");
    for size in [(1 << 32) - 8, (1 << 32) - 1, 1 << 31] {
        let journal = [entry(0, size, &[]), entry(0, 1, &[5])].concat();
        assert_eq!(told(&handed(&fresh, &journal, 2), UNDO), "35.0");
        assert_eq!(told(&handed(&fresh, &journal, 1), int(0, 1)), "30.0");
    }
}

#[test]
fn point_4_the_latest_entry() {
    let fresh = session("<int/>", 1, 0);
    let journal = [entry(u32::MAX as u64, 2, &[1, 2]), entry(0, 1, &[0x42])].concat();
    let (outcomes, after) = play(&handed(&fresh, &journal, 2), &[UNDO, UNDO]);
    assert_eq!((outcomes.as_str(), after.standing, after.window), ("+,35.0", 1, vec![0x42]));
}

#[test]
fn point_5_cause_30() {
    let edits: Vec<Operation> = (0..65).map(|value| int(0, value)).collect();
    let (outcomes, after) = play(&session("<int/>", 1, 64 * 9), &edits);
    assert_eq!(outcomes, format!("{},30.0", ["+"; 64].join(",")));
    assert_eq!((after.standing, after.window), (64, vec![63]));
    assert_eq!(play(&session("<int/>", 1, 10 * 9 - 1), &edits[..10]).0, format!("{},30.0", ["+"; 9].join(",")));
    let ample = session("<int size='2'/>", 2, 1_000);
    for (standing, outcome) in [(63, "+"), (64, "30.0"), (65, "30.0"), (1 << 32, "30.0"), (u64::MAX, "30.0")] {
        assert_eq!(told(&handed(&ample, &[0; 1_000], standing), int(0, 1)), outcome);
    }
    for (length, outcome) in [(0, "30.0"), (9, "30.0"), (10, "+"), (11, "+")] {
        assert_eq!(told(&session("<int size='2'/>", 2, length), int(0, 1)), outcome);
    }
    // An entry before that doesn't lie in the journal.
    assert_eq!(told(&handed(&ample, &[0xFF; 1_000], 1), int(0, 1)), "30.0");
}

/// One of each kind, an int with bounds and a map first; the string's last byte is behind the window.
const KINDS: &str =
    "<int size='2'><min>-2</min><max>5</max><map><relation><property>3</property><value/></relation></map></int>\
<eventid/><float size='4'/><eventid><map/></eventid><string size='4'/>";

#[test]
fn point_6_the_order() {
    let asked = [
        (int(5, 1), "21.0"),
        (int(2, 1), "27.0"),
        (event(3, 1), "27.0"),
        (event(0, 1), "22.0"),
        (int(0, 6), "23.0"),
        (int(0, 1), "24.0"),
        (text(4, b"abcd"), "25.0"),
        (text(4, b"a"), "26.0"),
        (int(0, 3), "30.0"),
    ];
    for (journal, standing) in [(0, 0), (200, 64), (200, u64::MAX), (7, 1)] {
        let full = Session { standing, ..session(KINDS, 25, journal) };
        for (operation, outcome) in asked.clone() {
            assert_eq!(told(&full, operation.clone()), outcome);
            assert_eq!(told(&Session { table: Vec::new(), ..full.clone() }, operation.clone()), "20.0");
            assert_eq!(told(&Session { text: b"abc".to_vec(), ..full.clone() }, operation), "1.3");
        }
    }
}

#[test]
fn point_7_what_an_edit_stores() {
    let mut opening = session("<int/><string size='4'/>", 7, 40);
    opening.window = vec![1, 2, 3, 4, 5, 6, 7];
    let (outcomes, after) = play(&opening, &[text(1, b"A"), int(0, 9)]);
    assert_eq!((outcomes.as_str(), after.standing), ("+,+", 2));
    assert_eq!(after.window, [9, b'A', 0, 0, 0, 6, 7]);
    assert_eq!(after.journal[..12], [0, 0, 0, 1, 0, 0, 0, 4, 2, 3, 4, 5]);
    assert_eq!(after.journal[12..21], [0, 0, 0, 0, 0, 0, 0, 1, 1]);
    assert_eq!(after.journal[21..], [0xFF; 19]);
}

#[test]
fn point_8_the_value_that_stands() {
    let opening = session("<int/>", 1, 18);
    let (outcomes, after) = play(&opening, &[int(0, 255), int(0, 255), int(0, 255), UNDO, UNDO, UNDO]);
    assert_eq!((outcomes.as_str(), after.window), ("+,+,30.0,+,+,31.0", vec![0xFF]));
    assert_eq!(after.journal, [0, 0, 0, 0, 0, 0, 0, 1, 0xFF].repeat(2));
}

#[test]
fn point_9_what_undo_asks() {
    let opening = handed(&session("<int/>", 0, 0), &[], 0);
    for standing in [0, 1, 65] {
        let opening = Session { standing, ..opening.clone() };
        let other = |text: Vec<u8>| told(&Session { text, ..opening.clone() }, UNDO);
        assert_eq!(other(segment("<int/> x")), format!("88.{}", build::IN_SEGMENT + 7));
        assert_eq!(other(segment("<int offset='-1'/>")), format!("11.{}", build::INSIDE));
        assert_eq!(other(segment("<int size='2'/>")), "20.0");
        assert_eq!(told(&opening, UNDO), if standing == 0 { "31.0" } else { "35.0" });
    }
    // No variable of the entry's number, and one outside the window.
    for number in [1, 0] {
        assert_eq!(told(&handed(&opening, &entry(number, 1, &[1]), 1), UNDO), "35.0");
    }
}

#[test]
fn point_10_cause_31() {
    let opening = session("<int/>", 1, 0);
    for journal in [vec![], vec![0; 20], entry(0, 1, &[1])] {
        assert_eq!(told(&handed(&opening, &journal, 0), UNDO), "31.0");
        assert_ne!(told(&handed(&opening, &journal, 1), UNDO), "31.0");
    }
}

#[test]
fn point_11_cause_35() {
    let opening = session("<int/><int size='4'/>", 5, 0);
    let with = |journal: Vec<u8>, standing: u64| told(&handed(&opening, &journal, standing), UNDO);
    let good = entry(1, 4, &[1, 2, 3, 4]);
    assert_eq!(with(good.clone(), 1), "+");
    assert_eq!(with(good[..11].to_vec(), 1), "35.0");
    assert_eq!(with(good.clone(), 2), "35.0");
    for (number, size) in [(0, 4), (2, 4), (u32::MAX as u64, 4), (1, 3), (1, 0), (1, 5)] {
        assert_eq!(with(entry(number, size, &[1, 2, 3, 4, 5]), 1), "35.0", "{number} {size}");
    }
    let moved = |space: u64, first: u64, length: usize| {
        let window = vec![0; length];
        told(&Session { space, first, window, ..handed(&opening, &good, 1) }, UNDO)
    };
    assert_eq!(moved(1, 1, 4), "+");
    for (space, first, length) in [(1, 2, 4), (1, 0, 4), (1, 1, 3), (2, 1, 4), (257, 1, 4), (1, u64::MAX, 9), (1, 0, 0)]
    {
        assert_eq!(moved(space, first, length), "35.0", "{space} {first} {length}");
    }
}

#[test]
fn point_12_nothing_else() {
    let opening = session(KINDS, 26, 0);
    for (n, size) in [(0, 2), (1, 8), (2, 4), (3, 8), (4, 4)] {
        // Bytes that are no value of the variable.
        assert_eq!(told(&handed(&opening, &entry(n, size as u64, &vec![0xEE; size]), 1), UNDO), "+", "{n}");
    }
    let many = [entry(77, 0, &[]).repeat(99), entry(2, 4, &[1, 2, 3, 4])].concat();
    let (outcomes, after) = play(&handed(&opening, &many, 100), &[int(0, 3), UNDO, int(0, 3), UNDO]);
    assert_eq!((outcomes.as_str(), after.standing), ("30.0,+,30.0,35.0", 99));
    assert_eq!(after.window[10..14], [1, 2, 3, 4]);
}

#[test]
fn point_13_what_undo_leaves() {
    let opening = session("<int/><int/>", 2, 20);
    let (_, edited) = play(&opening, &[int(0, 1), int(1, 2)]);
    let (_, undone) = play(&edited, &[UNDO]);
    assert_eq!((&undone.window, undone.standing), (&vec![1, 0xFF], 1));
    assert_eq!(undone.journal, edited.journal);
    let (_, again) = play(&undone, &[int(0, 7)]);
    assert_eq!((again.window, again.standing), (vec![7, 0xFF], 2));
    assert_eq!(again.journal[9..18], [0, 0, 0, 0, 0, 0, 0, 1, 1]);
}

/// What each call may have changed, for any input: a refusal nothing, an undo one variable's bytes in the window, an edit these and its entry.
#[test]
fn point_14_for_any_input() {
    let stream = Stream::new(4, Sort::Session, false);
    for index in 0..1_500 {
        let Case::Session { session: mut now, operations } = stream.case(index) else { panic!() };
        let known = Known::of(&now.text, &now.table);
        for operation in &operations {
            let before = now.clone();
            let outcome = now.perform(&known, operation);
            if outcome.is_err() {
                assert!(now == before);
                continue;
            }
            let undo = *operation == UNDO;
            assert_eq!(now.standing, if undo { before.standing - 1 } else { before.standing + 1 });
            let start = before.start_of(before.standing - undo as u64).unwrap();
            let entry = now.entry_at(start).unwrap();
            let (start, end) = (start as usize, entry.end() as usize);
            let met = known.as_ref().ok().and_then(|known| known.variable(entry.number)).unwrap().met;
            let place = (met.address - now.first as i128) as usize;
            let behind = place + met.size as usize;
            assert!(now.window[..place] == before.window[..place] && now.window[behind..] == before.window[behind..]);
            if undo {
                assert!(now.journal == before.journal);
                assert!(now.window[place..behind] == now.journal[start + 8..end]);
            } else {
                assert!(now.journal[..start] == before.journal[..start] && now.journal[end..] == before.journal[end..]);
                assert!(now.journal[start + 8..end] == before.window[place..behind]);
            }
        }
    }
}

#[test]
fn point_15_sizes() {
    for (size, outcome) in [(65_527, "+"), (65_528, "+"), (65_529, "30.0"), (65_535, "30.0")] {
        let opening = session(&format!("<string size='{size}'/>"), size, 70_000);
        let (outcomes, after) = play(&opening, &[text(0, b"a"), UNDO]);
        assert_eq!(outcomes, format!("{outcome},{}", if outcome == "+" { "+" } else { "31.0" }));
        assert!(after.window == opening.window);
    }
    let mut far = session("<group replication='1000000'><int/></group>", 1, 9);
    far.first = 999_999;
    let (outcomes, after) = play(&far, &[int(999_999, 3)]);
    assert_eq!((outcomes.as_str(), &after.journal[..8]), ("+", &[0, 0x0F, 0x42, 0x3F, 0, 0, 0, 1][..]));
}

/// The eight variables of T, each edited; the bytes that two of them share come back in turn.
#[test]
fn the_worked_text() {
    let opening = over(cdi(T), 253, 128, 40, 200);
    let edits = [
        int(0, 200),
        event(1, 0x0102_0304_0506_0708),
        int(2, 300),
        event(3, 9),
        int(4, 1),
        event(5, 8),
        int(6, 65_535),
        text(7, b"Yard"),
    ];
    let (outcomes, all) = play(&opening, &edits);
    assert_eq!(outcomes, ["+"; 8].join(","));
    assert_eq!(all.window[..12], [200, 0xFF, 0xFF, 1, 2, 3, 4, 5, 6, 7, 1, 0x2C]);
    assert_eq!(all.journal[9 + 16..9 + 16 + 10], [0, 0, 0, 2, 0, 0, 0, 2, 8, 0xFF]);
    let (outcomes, some) = play(&all, &vec![UNDO; 6]);
    assert_eq!(outcomes, ["+"; 6].join(","));
    assert_eq!(some.window[..12], [200, 0xFF, 0xFF, 1, 2, 3, 4, 5, 6, 7, 8, 0xFF]);
    assert_eq!(play(&all, &vec![UNDO; 9]).0, format!("{},31.0", ["+"; 8].join(",")));
    assert_eq!(play(&all, &vec![UNDO; 8]).1.window, opening.window);
}

/// The window that these edits alone give.
fn applied(opening: &Session, known: &Known, edits: &[(u64, Value)]) -> Vec<u8> {
    let (text, table) = (Vec::new(), Vec::new());
    let mut access =
        Access { text, table, n: 0, space: opening.space, first: opening.first, window: opening.window.clone() };
    for (n, value) in edits {
        let variable = known.variable(*n).unwrap();
        access.window = write_to(&variable, &access, value).unwrap();
        assert!(part(&access, &variable.met).is_ok());
    }
    access.window
}

/// "After any mix of edits and undos, refused ones included, the window holds what the remaining edits alone, from the opening window, would give."
#[test]
fn the_promise() {
    let stream = Stream::new(2, Sort::Session, false);
    let (mut mixes, mut undos) = (0, 0);
    for index in 0..3_000 {
        let Case::Session { session: opening, operations } = stream.case(index) else { panic!() };
        let known = Known::of(&opening.text, &opening.table);
        if opening.standing != 0 || known.is_err() {
            continue;
        }
        mixes += 1;
        let (mut now, mut remaining) = (opening.clone(), Vec::new());
        for operation in &operations {
            let accepted = now.perform(&known, operation).is_ok();
            match operation {
                Operation::Edit { n, value } if accepted => remaining.push((*n, value.clone())),
                Operation::Undo if accepted => {
                    remaining.pop();
                    undos += 1;
                }
                _ => {}
            }
            assert_eq!(now.standing, remaining.len() as u64);
            // Under the premise undo is refused exactly where no edit stands.
            assert!(accepted || *operation != UNDO || remaining.is_empty());
            let known = known.as_ref().ok().unwrap();
            assert!(now.window == applied(&opening, known, &remaining));
        }
    }
    assert!(mixes > 1_000 && undos > 3_000, "{mixes} {undos}");
}

#[test]
fn the_line() {
    let opening = session("<int/>", 2, 9);
    let told = |operations: &[Operation]| {
        line(&answer(&Case::Session { session: opening.clone(), operations: operations.to_vec() }))
    };
    assert_eq!(told(&[]), "session - 0 0a99c907b6f64763 2804ddde49e161a6 cbf29ce484222325");
    assert_eq!(
        told(&[int(0, 7), int(0, 8), int(0, 256), UNDO]),
        "session +,30.0,23.0,+ 0 0a99c907b6f64763 e601f73a248ebab7 7429d6b39808d850"
    );
    assert_eq!(told(&[int(0, 7)]), "session + 1 0827c907b4e1d6db e601f73a248ebab7 36254acc88332032");
}

#[test]
fn bad_frames() {
    let place = |bytes: &[u8]| Frames::new(bytes).find_map(|case| case.err()).map(|bad| bad.place);
    let of = |journal: usize, operations: Vec<Operation>| {
        frame(&Case::Session { session: session("<int/>", 1, journal), operations })
    };
    assert_eq!(place(&of(70_000, vec![UNDO; 1_000])), None);
    assert!(place(&of(70_001, vec![])).is_some());
    assert!(place(&of(0, vec![UNDO; 1_001])).is_some());
    assert!(place(&of(0, vec![text(0, &[1; 70_000])])).is_none());
    assert!(place(&of(0, vec![text(0, &[1; 70_001])])).is_some());
    let good = of(20, vec![int(0, 1), event(0, 1), text(0, b"a"), UNDO]);
    assert_eq!(place(&good), None);
    for length in 1..good.len() {
        assert!(place(&good[..length]).is_some(), "{length}");
    }
    let last = good.len() - 1;
    for byte in [b'X', b'F', b'u', 0] {
        let other = [&good[..last], &[byte]].concat();
        assert_eq!(place(&other), Some(last as u64));
    }
    let mut sign = of(0, vec![int(0, 1)]);
    let at = sign.len() - 9;
    sign[at] = 2;
    assert_eq!(place(&sign), Some(at as u64));
}

#[test]
fn frames_round_trip() {
    let stream = Stream::new(11, Sort::Session, false);
    let cases: Vec<Case> = (0..1_000).map(|index| stream.case(index)).chain(boundaries::of_session()).collect();
    let bytes: Vec<u8> = cases.iter().flat_map(frame).collect();
    let back: Vec<Case> = Frames::new(bytes.as_slice()).map(|case| case.unwrap()).collect();
    assert!(back == cases);
}

/// Frames J are no part of the stream whose cases the definitions compute.
#[test]
fn all_has_no_sessions() {
    for small in [false, true] {
        let stream = Stream::new(1, Sort::All, small);
        assert!((0..600).all(|index| !matches!(stream.case(index), Case::Session { .. })));
    }
}

/// Of the stream of the gate: each outcome's share of the operations, each cause of a text, and each boundary.
#[test]
fn the_stream_of_sessions() {
    let stream = Stream::new(1, Sort::Session, false);
    let (mut shares, mut reached) = (Shares::default(), Reached::default());
    let (mut work, mut longest) = (0, 0);
    for index in 0..5_000 {
        let case = stream.case(index);
        shares.add(&case);
        reached.add(&case);
        let Case::Session { session, operations } = case else { panic!() };
        work += session.text.len() * operations.len();
        longest = longest.max(operations.len());
    }
    for label in ["edit", "undo", "20", "21", "22", "23", "24", "25", "26", "27", "30", "31", "35"] {
        assert!(shares.percent("session", label) >= 1.0, "{label}: {}", shares.percent("session", label));
    }
    let causes = CAUSES.map(|number| shares.percent("session", &number.to_string()));
    assert!(causes.iter().all(|percent| *percent > 0.0) && causes.iter().sum::<f64>() >= 1.0, "{causes:?}");
    for thing in sessions::labels() {
        assert!(reached.count(&thing) >= 20, "{thing}: {}", reached.count(&thing));
    }
    assert!(boundaries::of_session().len() <= 5_000 / 4);
    // The proved program plans the text anew for each operation.
    assert!(work <= 5_000 * 200_000 && longest == 1_000, "{work} {longest}");
}
