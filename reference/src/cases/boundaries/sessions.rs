//! The boundary cases of sessions.

use super::super::markup::{plain, root, segment, Node};
use super::super::sessions::entry;
use super::super::texts::nested;
use super::{cdi_with, copies, int_with, map_of, raw_text, root_tag};
use crate::access::Value;
use crate::answer::Case;
use crate::plan::planned;
use crate::session::{Operation, Session, ROOM};
use crate::text::FIRST_LINE;

const UNDO: Operation = Operation::Undo;

fn integer(n: u64, value: i128) -> Operation {
    let (negative, magnitude) = (value < 0, value.unsigned_abs().min(u64::MAX as u128) as u64);
    Operation::Edit { n, value: Value::Integer { negative, magnitude } }
}

fn event(n: u64, value: u64) -> Operation {
    Operation::Edit { n, value: Value::Event(value) }
}

fn text(n: u64, value: &[u8]) -> Operation {
    Operation::Edit { n, value: Value::Text(value.to_vec()) }
}

/// A session over these data elements from address 5 of space 7 on, with a window of so many bytes there and a journal of zeros.
fn over(data: &[Node], window: usize, journal: usize) -> Session {
    let within = data.iter().fold(segment(7).with("origin", 5), |within, node| within.holding(node.clone()));
    let text = plain(&root().holding(within));
    let table = planned(&text).map(|planned| planned.numbers).unwrap_or_default();
    let window = (0..window).map(|place| 0xA0 + (place % 64) as u8).collect();
    Session { text, table, space: 7, first: 5, window, journal: vec![0; journal], standing: 0 }
}

/// An int of one byte, an int of two, a string of four, an eventid, a float, and an eventid with a map, one behind the other.
fn all_kinds(journal: usize) -> Session {
    let data = [
        Node::new("int"),
        int_with("2", Some(-2), Some(5)).holding(map_of(&["3", "-1"])),
        Node::new("string").with("size", 4).holding(map_of(&["ab", "c"])),
        Node::new("eventid"),
        Node::new("float").with("size", "4"),
        Node::new("eventid").holding(map_of(&[])),
    ];
    over(&data, 27, journal)
}

/// Size and place in the window of each of these.
const KINDS: [(u64, usize); 6] = [(1, 0), (2, 1), (4, 3), (8, 7), (4, 15), (8, 19)];

fn case(session: &Session, operations: &[Operation]) -> Case {
    Case::Session { session: session.clone(), operations: operations.to_vec() }
}

fn with_journal(session: &Session, journal: Vec<u8>, standing: u64) -> Session {
    Session { journal, standing, ..session.clone() }
}

/// Each kind edited and taken back, and each refusal of writing with and without room.
fn kinds() -> Vec<Case> {
    let good = [integer(0, 9), integer(1, -1), text(2, b"c"), event(3, 8)];
    let bad = [
        integer(6, 9),
        integer(u64::MAX, 9),
        integer(1 << 32, 9),
        integer(4, 9),
        event(5, 9),
        event(0, 9),
        text(3, b"a"),
        integer(2, 1),
        integer(0, 256),
        integer(1, 6),
        integer(1, 0),
        text(2, b"abcd"),
        text(2, b"b"),
        text(2, b"\xFF"),
    ];
    let undone: Vec<Operation> = good.iter().cloned().chain(vec![UNDO; 5]).collect();
    let twice: Vec<Operation> = undone.iter().chain(&undone).cloned().collect();
    let mut cases = vec![case(&all_kinds(47), &undone), case(&all_kinds(47), &twice), case(&all_kinds(47), &[])];
    for (journal, standing) in [(200, 0), (0, 0), (200, 64), (200, u64::MAX), (8, 1)] {
        let session = Session { standing, ..all_kinds(journal) };
        cases.push(case(&session, &bad));
        cases.push(case(&session, &good));
        for (space, first, length) in [(8, 5, 27), (7, 6, 27), (7, 5, 6), (7, 4, 8), (7, u64::MAX, 27), (263, 5, 27)] {
            let window = vec![3; length];
            let moved = Session { space, first, window, ..session.clone() };
            cases.push(case(&moved, &[&bad[..], &good[..], &[UNDO]].concat()));
        }
    }
    cases
}

/// 64 edits and one more, in a journal of all room, of just enough and of a byte less; also with the value that stands.
fn full() -> Vec<Case> {
    let mut cases = Vec::new();
    for journal in [65 * 9, 64 * 9, 64 * 9 - 1, 63 * 9, 9, 8] {
        let session = over(&[Node::new("int")], 1, journal);
        for step in [0, 3] {
            let mut operations: Vec<Operation> = (0..66).map(|k| integer(0, k * step)).collect();
            operations.extend([UNDO, integer(0, 7), integer(0, 8), UNDO, UNDO, integer(0, 9)]);
            operations.extend(vec![UNDO; 66]);
            cases.push(case(&session, &operations));
        }
    }
    let turns: Vec<Operation> = (0..1_000).map(|k| if k % 2 == 0 { integer(0, k / 4) } else { UNDO }).collect();
    cases.push(case(&over(&[Node::new("int")], 1, 9), &turns));
    cases
}

/// Journals a byte shorter, as long as, and a byte longer than one or two entries of each kind need.
fn exact() -> Vec<Case> {
    let mut cases = Vec::new();
    for edit in [integer(0, 9), integer(1, -1), text(2, b"c"), event(3, 8)] {
        let Operation::Edit { n, .. } = edit else { continue };
        let need = 8 + KINDS[n as usize].0 as usize;
        for entries in [1, 2] {
            for length in [need * entries - 1, need * entries, need * entries + 1] {
                let mut operations = vec![edit.clone(); entries + 1];
                operations.extend(vec![UNDO; entries + 1]);
                operations.push(edit.clone());
                cases.push(case(&all_kinds(length), &operations));
            }
        }
    }
    cases
}

/// Entries that end about the room's end, in journals about as long as the room: edits and undos.
fn room_end() -> Vec<Case> {
    let mut cases = Vec::new();
    let session = over(&[Node::new("int")], 1, 0);
    for length in [ROOM - 1, ROOM, ROOM + 1, 70_000] {
        for end in [ROOM - 1, ROOM, ROOM + 1] {
            let before = end - 9 - 8;
            let mut journal = entry(0, before as u64, &vec![1; before]);
            journal.extend(entry(0, 1, &[0x77]));
            journal.resize(length, 0x55);
            cases.push(case(&with_journal(&session, journal.clone(), 2), &[UNDO, integer(0, 3), UNDO]));
            cases.push(case(&with_journal(&session, journal, 1), &[integer(0, 3), UNDO, UNDO]));
        }
    }
    cases
}

/// Strings whose entry is as long as the room, a byte less and more, and of the greatest size.
fn long_strings() -> Vec<Case> {
    let mut cases = Vec::new();
    for (size, length) in [
        (65_527, 65_535),
        (65_528, 65_535),
        (65_528, 65_536),
        (65_528, 65_537),
        (65_529, 65_536),
        (65_529, 70_000),
        (65_535, 70_000),
    ] {
        let session = over(&[Node::new("string").with("size", size)], size, length);
        cases.push(case(&session, &[text(0, b"AB"), UNDO, text(0, &vec![b'Z'; size - 1])]));
    }
    cases
}

/// Session values that no session gave, over journals of zeros and of entries of one byte.
fn session_values() -> Vec<Case> {
    let mut cases = Vec::new();
    let session = over(&[Node::new("int")], 1, 0);
    let ones = |count: usize| -> Vec<u8> { (0..count).flat_map(|k| entry(0, 1, &[k as u8])).collect() };
    let operations = [UNDO, UNDO, integer(0, 200), UNDO, integer(0, 201), integer(0, 202)];
    for journal in [Vec::new(), vec![0; 600], ones(70), ones(100)] {
        for standing in
            [1, 2, 62, 63, 64, 65, 66, 70, 71, 100, 101, (1 << 32) - 1, 1 << 32, (1 << 32) + 1, 1 << 63, u64::MAX]
        {
            cases.push(case(&with_journal(&session, journal.clone(), standing), &operations));
        }
    }
    // 7,281 entries of 9 bytes lie in the room.
    let all = [ones(7_281), vec![0, 0, 0, 0, 0, 0, 0]].concat();
    for standing in [7_281, 7_282] {
        cases.push(case(&with_journal(&session, all.clone(), standing), &[UNDO, UNDO]));
    }
    cases
}

/// The latest entry of each kind with its own number and size and with others, and the windows about it.
fn latest_entries() -> Vec<Case> {
    let session = all_kinds(0);
    let mut cases = Vec::new();
    for (n, (size, place)) in KINDS.into_iter().enumerate() {
        let own = |number: u64, said: u64| {
            let journal = entry(number, said, &vec![0xEE; size as usize]);
            case(&with_journal(&session, journal, 1), &[UNDO, UNDO])
        };
        cases.extend([n as u64, (n as u64 + 1) % 6, 6, u32::MAX as u64].map(|number| own(number, size)));
        let sizes = [0, size - 1, size + 1, 65_528, 1 << 31, (1 << 32) - 8, (1 << 32) - 1];
        cases.extend(sizes.map(|said| own(n as u64, said)));
        let address = 5 + place as u64;
        let length = size as usize;
        for (space, first, length) in [
            (7, address, length),
            (7, address, length - 1),
            (7, address + 1, length),
            (7, address - 1, length),
            (7, address - 1, length + 1),
            (7, address, 0),
            (8, address, length),
            (7 + (1 << 32), address, length),
            (7, u64::MAX, length),
            (7, address.wrapping_sub(1 << 32), length),
        ] {
            let journal = entry(n as u64, size, &vec![0xEE; size as usize]);
            let moved = Session { space, first, window: vec![0x11; length], ..with_journal(&session, journal, 1) };
            cases.push(case(&moved, &[UNDO, UNDO]));
        }
        // Cut by a byte, and behind an entry that leaves the journal.
        let whole = [entry(9, 0, &[]), entry(n as u64, size, &vec![0xEE; size as usize])].concat();
        cases.push(case(&with_journal(&session, whole[..whole.len() - 1].to_vec(), 2), &[UNDO]));
        let behind = [entry(9, u32::MAX as u64, &[]), whole].concat();
        cases.push(case(&with_journal(&session, behind, 3), &[UNDO, integer(0, 1)]));
    }
    cases
}

/// Sizes behind which sums of 32 bits would begin anew at byte 0, where a good entry stands, or at the one behind it.
fn wrapping_sizes() -> Vec<Case> {
    let session = over(&[Node::new("int")], 1, 0);
    let mut cases = Vec::new();
    for back in [17, 8, 7, 9, 1] {
        let size = (1 << 32) - back;
        let journal = [entry(0, 1, &[0x77]), entry(0, size, &[]), entry(0, 1, &[0x66]), vec![0; 20]].concat();
        for standing in [2, 3, 4] {
            let session = with_journal(&session, journal.clone(), standing);
            cases.push(case(&session, &[UNDO, integer(0, 3), UNDO]));
        }
        let first = [entry(0, size, &[]), entry(0, 1, &[0x66])].concat();
        for standing in [1, 2] {
            cases.push(case(&with_journal(&session, first.clone(), standing), &[integer(0, 3), UNDO]));
        }
    }
    cases
}

/// Texts refused by each of their own causes.
fn refused_texts() -> Vec<Vec<u8>> {
    let root = root_tag();
    let inside = [
        "<a/>",
        "<int/><name/>",
        "<name/><name/>",
        "<int><map><relation/></map></int>",
        "<int a=''/>",
        "<string/>",
        "<float size='2' formatting=''/>",
        "<int/> x",
    ];
    let within = |inside: &&str| raw_text(&format!("{root}<segment space='1'>{inside}</segment></cdi>"));
    let others = [
        Vec::new(),
        vec![0],
        [FIRST_LINE, b"\r\0"].concat(),
        raw_text("<a"),
        raw_text("<!DOCTYPE"),
        raw_text("<a>"),
        [nested(25, "a", true), vec![0]].concat(),
        raw_text(&format!("{root}<acdi var=''/></cdi>")),
        raw_text(&format!("{root}<acdi var='256'/></cdi>")),
        plain(&cdi_with(Node::new("int").with("offset", -1))),
        plain(&cdi_with(copies(1_000_001, Node::new("int")))),
    ];
    inside.iter().map(within).chain(others).collect()
}

/// What is asked before all else: the text's own causes and 20, with any session value and journal.
fn orders() -> Vec<Case> {
    let mut cases = Vec::new();
    let session = all_kinds(60);
    let operations = [UNDO, integer(0, 9), integer(9, 9), event(0, 9)];
    for (index, text) in refused_texts().into_iter().enumerate() {
        let standing = [0, 1, 64, u64::MAX][index % 4];
        cases.push(case(&Session { text, standing, ..session.clone() }, &operations));
    }
    for length in [0, 8, 55, 57, 64] {
        for standing in [0, 1] {
            let mut table = session.table.clone();
            table.resize(length, 0);
            cases.push(case(&Session { table, standing, ..session.clone() }, &operations));
        }
    }
    for index in 0..8 {
        let mut table = session.table.clone();
        table[7 * index] += 1;
        cases.push(case(&Session { table, ..session.clone() }, &operations));
    }
    cases
}

/// Variables that share bytes, taken back in turn, and one of a million.
fn others() -> Vec<Case> {
    let shared = [
        Node::new("int").with("size", "4"),
        Node::new("eventid").with("offset", -3),
        Node::new("int").with("offset", -6),
    ];
    let session = over(&shared, 9, 100);
    let edits = [integer(0, 0x0102_0304), event(1, u64::MAX), integer(2, 7), integer(0, 5), event(1, 0)];
    let mut cases = Vec::new();
    for undos in 0..=6 {
        cases.push(case(&session, &[&edits[..], &vec![UNDO; undos], &edits[1..3]].concat()));
    }
    let far = over(&[copies(1_000_000, Node::new("int"))], 0, 40);
    let far = Session { first: 5 + 999_998, window: vec![1, 2], ..far };
    cases.push(case(&far, &[integer(999_999, 200), integer(1_000_000, 200), integer(999_998, 9), UNDO, UNDO, UNDO]));
    cases
}

/// The boundary cases of sessions.
pub fn of_session() -> Vec<Case> {
    [
        kinds(),
        full(),
        exact(),
        room_end(),
        long_strings(),
        session_values(),
        latest_entries(),
        wrapping_sizes(),
        orders(),
        others(),
    ]
    .into_iter()
    .flatten()
    .collect()
}
