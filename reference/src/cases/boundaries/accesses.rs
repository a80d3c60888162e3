//! The boundary cases of writing and reading.

use super::super::markup::{plain, segment, Node};
use super::super::texts::nested;
use super::{cdi, cdi_with, content_of, copies, int_with, map_of, raw_text, root_tag};
use crate::access::Access;
use crate::answer::Case;
use crate::plan::planned;
use crate::table::locate;
use crate::text::FIRST_LINE;

/// An access to variable n of this one data element at address 5 of space 7, the window exactly the variable.
fn access_to(data: &Node, n: u64) -> Access {
    let text = plain(&cdi(segment(7).with("origin", 5).holding(data.clone())));
    let table = planned(&text).map(|planned| planned.numbers).unwrap_or_default();
    let (first, size) = locate(&table, n).map_or((5, 4), |met| (met.address as u64, met.size as usize));
    let window = (0..size).map(|place| 0xA0 + (place % 64) as u8).collect();
    Access { text, table, n, space: 7, first, window }
}

fn write_integer(access: Access, value: i128) -> Case {
    Case::WriteInteger { access, negative: value < 0, magnitude: value.unsigned_abs().min(u64::MAX as u128) as u64 }
}

fn integers() -> Vec<Case> {
    let mut cases = Vec::new();
    for (size, bytes) in [("1", 1u32), ("2", 2), ("4", 4), ("8", 8)] {
        let half = 1i128 << (8 * bytes - 1);
        let whole = 2 * half;
        let unsigned = access_to(&Node::new("int").with("size", size), 0);
        for value in [0, 1, -1, half - 1, half, whole - 1, whole, -half, u64::MAX as i128, -(u64::MAX as i128)] {
            cases.push(write_integer(unsigned.clone(), value));
        }
        cases.push(Case::WriteInteger { access: unsigned, negative: true, magnitude: 0 });
        let signed = access_to(&int_with(size, Some(-half), None), 0);
        for value in [0, -1, half - 1, half, -half, -half - 1, whole - 1] {
            cases.push(write_integer(signed.clone(), value));
        }
        let narrow = access_to(&int_with(size, Some(-3), Some(100)), 0);
        for value in [-4, -3, 0, 100, 101] {
            cases.push(write_integer(narrow.clone(), value));
        }
        for int in [
            int_with(size, None, None),
            int_with(size, Some(-half), None),
            int_with(size, Some(-3), Some(100)),
            int_with(size, Some(0), Some(100)),
        ] {
            let access = access_to(&int, 0);
            for bytes in [
                vec![0u8; 8],
                vec![0xFF; 8],
                vec![0x80, 0, 0, 0, 0, 0, 0, 0],
                vec![0x7F, 0xFF, 0xFF, 0xFF, 0xFF, 0xFF, 0xFF, 0xFF],
                vec![0, 0, 0, 0, 0, 0, 0, 100],
            ] {
                let window = bytes[8 - access.window.len()..].to_vec();
                let window = if bytes[0] != 0 { bytes[..window.len()].to_vec() } else { window };
                cases.push(Case::Read { access: Access { window, ..access.clone() } });
            }
        }
    }
    cases
}

/// An int of two bytes from -9 to 300 with a map, and the same with blanks and signs in its numbers.
fn mapped_ints() -> [Node; 2] {
    let bare = int_with("2", Some(-9), Some(300)).holding(map_of(&["007", "-0", "-9", "300", "0301", "7"]));
    let dressed = Node::new("int")
        .with("size", "\t2 ")
        .holding(Node::text("min", " -9\n"))
        .holding(Node::text("max", "+300 "))
        .holding(map_of(&[" +7 ", " -0", "\n-9\t", "+0300", "+0301 "]));
    [bare, dressed]
}

fn maps() -> Vec<Case> {
    let mut cases = Vec::new();
    for mapped in mapped_ints().map(|int| access_to(&int, 0)) {
        for value in [7, 0, -9, 300, 301, 8, -10, 1] {
            cases.push(write_integer(mapped.clone(), value));
        }
        for window in [[0, 7], [0, 0], [0xFF, 0xF7], [1, 0x2D], [0, 8]] {
            cases.push(Case::Read { access: Access { window: window.to_vec(), ..mapped.clone() } });
        }
    }
    let empty = access_to(&Node::new("int").holding(map_of(&[])), 0);
    cases.push(write_integer(empty.clone(), 0));
    cases.push(write_integer(empty.clone(), 256));
    cases.push(Case::Read { access: empty });
    let texts = access_to(
        &Node::new("string").with("size", 8).holding(map_of(&[
            "AB",
            "x<!--c-->y",
            "&lt;&#65;&#x20AC;",
            "",
            "<?p?>q",
            "&#13;",
            "A B",
        ])),
        0,
    );
    for value in [
        &b"AB"[..],
        b"ab",
        b"xy",
        b"<A\xE2\x82\xAC",
        b"",
        b"q",
        b"\r",
        b"A B",
        b"A",
        b"x<!--c-->y",
        b"ABCDEFGH",
        b"A\0",
    ] {
        cases.push(Case::WriteText { access: texts.clone(), value: value.to_vec() });
        let mut window = value.to_vec();
        window.resize(8, 0);
        cases.push(Case::Read { access: Access { window, ..texts.clone() } });
    }
    let none = access_to(&Node::new("string").with("size", 8).holding(map_of(&[])), 0);
    cases.push(Case::WriteText { access: none.clone(), value: Vec::new() });
    cases.push(Case::WriteText { access: none.clone(), value: b"A\0".to_vec() });
    cases.push(Case::Read { access: Access { window: vec![0; 8], ..none } });
    for event in
        [Node::new("eventid"), Node::new("eventid").holding(map_of(&[])), Node::new("eventid").holding(map_of(&["1"]))]
    {
        let access = access_to(&event, 0);
        cases.extend(every_operation(&access));
    }
    cases
}

/// Each write and the read of one access.
fn every_operation(access: &Access) -> Vec<Case> {
    let mut cases = vec![Case::Read { access: access.clone() }];
    for value in [0, 5, u64::MAX] {
        cases.push(Case::WriteEvent { access: access.clone(), value });
    }
    cases.push(write_integer(access.clone(), 5));
    cases.push(write_integer(access.clone(), -5));
    cases.push(Case::WriteText { access: access.clone(), value: b"5".to_vec() });
    cases.push(Case::WriteText { access: access.clone(), value: b"\xFF\0too long for it".to_vec() });
    cases
}

fn texts() -> Vec<Case> {
    let mut cases = Vec::new();
    for size in [1usize, 2, 4, 10] {
        let access = access_to(&Node::new("string").with("size", size), 0);
        for length in [0, size - 1, size, size + 1] {
            cases.push(Case::WriteText { access: access.clone(), value: vec![b'Z'; length] });
        }
        cases.push(Case::Read { access: access.clone() });
        for byte in [0u8, b'A', 0xFF, 0x80] {
            let mut window = vec![byte; size];
            cases.push(Case::Read { access: Access { window: window.clone(), ..access.clone() } });
            window[size - 1] = 0;
            cases.push(Case::Read { access: Access { window: window.clone(), ..access.clone() } });
            window[0] = 0;
            cases.push(Case::Read { access: Access { window, ..access.clone() } });
        }
    }
    let access = access_to(&Node::new("string").with("size", 10), 0);
    for value in [
        &b"\x01"[..],
        b"\xEF\xBF\xBE",
        b"\xEF\xBF\xBF",
        b"\r\n",
        b"\x7F",
        b"\xEF\xBB\xBF",
        b"\xED\x9F\xBF",
        b"\xEE\x80\x80",
        b"\xF4\x8F\xBF\xBF",
        b"\0",
        b"A\0B",
        b"\xC0\x80",
        b"\xC1\xBF",
        b"\xE0\x9F\xBF",
        b"\xED\xA0\x80",
        b"\xF0\x8F\xBF\xBF",
        b"\xF4\x90\x80\x80",
        b"\xF5",
        b"\xC3",
        b"A\xE2\x82",
        b"\x80",
        b"ABCDEFG\xC3\xA9",
        b"ABCDEFGH\xC3\xA9",
        b"ABCDEFGHI\xC3",
    ] {
        cases.push(Case::WriteText { access: access.clone(), value: value.to_vec() });
        let mut window = value.to_vec();
        window.resize(10, 0);
        cases.push(Case::Read { access: Access { window, ..access.clone() } });
    }
    cases
}

fn windows() -> Vec<Case> {
    let mut cases = Vec::new();
    let nodes = [
        Node::new("int").with("size", "4"),
        Node::new("string").with("size", 4),
        Node::new("eventid"),
        Node::new("float").with("size", "4"),
        copies(3, Node::new("int").with("size", "2").with("offset", -1)),
    ];
    for node in &nodes {
        let access = access_to(node, 0);
        let (first, size) = (access.first, access.window.len());
        let spots = [
            (first, size),
            (first - 1, size + 1),
            (first, size + 1),
            (first - 2, size + 5),
            (first, size - 1),
            (first + 1, size),
            (first + 1, size - 1),
            (first - 1, size),
            (first, 0),
            (0, 0),
            (0, size),
            (0, 64),
            (u64::MAX, size),
            (u64::MAX - 3, 30),
            (first.wrapping_sub(1 << 32), size),
            (1 << 32, size),
        ];
        for (first, length) in spots {
            let window = (0..length).map(|place| place as u8 * 3).collect::<Vec<u8>>();
            let moved = Access { first, window, ..access.clone() };
            cases.push(Case::Read { access: moved.clone() });
            cases.push(Case::WriteEvent { access: moved.clone(), value: 0x0102_0304_0506_0708 });
            cases.push(write_integer(moved.clone(), 9));
            cases.push(Case::WriteText { access: moved, value: b"abc".to_vec() });
        }
        for space in [6, 8, 0, 263, 7 + (1 << 32), u64::MAX] {
            cases.push(Case::Read { access: Access { space, ..access.clone() } });
            cases.push(write_integer(Access { space, ..access.clone() }, 9));
        }
        for n in [1, 2, 3, 4, u64::MAX] {
            cases.push(Case::Read { access: Access { n, first: 0, window: vec![1; 64], ..access.clone() } });
            cases.push(write_integer(Access { n, first: 0, window: vec![1; 64], ..access.clone() }, 300));
        }
    }
    cases
}

/// What stands in a segment and is refused by one of 82 to 88.
const IN_SEGMENT: [&str; 7] = [
    "<int/><name/>",
    "<name/><name/>",
    "<int><map><relation/></map></int>",
    "<int a=''/>",
    "<string/>",
    "<float size='2' formatting=''/>",
    "<int/> x",
];

/// Texts refused by each of their own causes, tables other than the planned one, and several causes at once.
fn orders() -> Vec<Case> {
    let mut cases = Vec::new();
    let access = access_to(&copies(2, Node::new("int").with("size", "2")), 1);
    let root = root_tag();
    let refused = [
        Vec::new(),
        vec![0],
        [FIRST_LINE, b"\r\0"].concat(),
        raw_text("<a"),
        raw_text("<!DOCTYPE"),
        raw_text("<a>"),
        [nested(25, "a", true), vec![0]].concat(),
        raw_text("<a/>"),
        raw_text(&format!("{root}<acdi var=''/></cdi>")),
        raw_text(&format!("{root}<acdi var='256'/></cdi>")),
        plain(&cdi_with(Node::new("int").with("offset", -1))),
        plain(&cdi_with(copies(1_000_001, Node::new("int")))),
    ];
    let within = |inside: &&str| raw_text(&format!("{root}<segment space='1'>{inside}</segment></cdi>"));
    for text in refused.into_iter().chain(IN_SEGMENT.iter().map(within)) {
        cases.extend(every_operation(&Access { text, ..access.clone() }));
    }
    for index in 0..access.table.len() {
        let mut table = access.table.clone();
        table[index] += 1;
        cases.push(Case::Read { access: Access { table, ..access.clone() } });
    }
    for length in [0, 8, 16, 23, 25, 32] {
        let mut table = access.table.clone();
        table.resize(length, 0);
        cases.extend(every_operation(&Access { table, ..access.clone() }));
    }
    let mut behind = access.clone();
    behind.text.extend(b"\xFF<a>\0");
    cases.extend(every_operation(&behind));
    // 20 before 21 before 27 before 22 before 23 and 25 before 24 before 26.
    let empty_map = map_of(&[]);
    for node in [
        Node::new("float").with("size", "4"),
        Node::new("eventid").holding(empty_map.clone()),
        int_with("1", Some(-2), Some(5)).holding(map_of(&["3"])),
        Node::new("string").with("size", 3).holding(map_of(&["ab"])),
    ] {
        let access = Access { space: 9, window: Vec::new(), ..access_to(&node, 0) };
        cases.extend(every_operation(&access));
        cases.extend(every_operation(&Access { n: 1, ..access.clone() }));
        cases.extend(every_operation(&Access { n: 1, table: Vec::new(), ..access.clone() }));
        for value in [3, 4, 6, -3] {
            cases.push(write_integer(access.clone(), value));
        }
        for value in [&b"ab"[..], b"cd", b"abc", b"\xFF"] {
            cases.push(Case::WriteText { access: access.clone(), value: value.to_vec() });
        }
    }
    cases
}

/// Blanks and signs: zero behind either makes no int signed, a string's size has them, its properties keep them.
fn spellings() -> Vec<Case> {
    let mut cases = Vec::new();
    for min in [" -5 ", "+0", " -0", "\n+5"] {
        let access = access_to(&Node::new("int").holding(Node::text("min", min)), 0);
        for value in [-6, -5, -1, 0, 4, 5, 127, 128, 255] {
            cases.push(write_integer(access.clone(), value));
        }
        for byte in [0, 4, 5, 0x7F, 0x80, 0xFA, 0xFB, 0xFF] {
            cases.push(Case::Read { access: Access { window: vec![byte], ..access.clone() } });
        }
    }
    let string = access_to(&Node::new("string").with("size", " +05\n").holding(map_of(&[" +7 ", "8"])), 0);
    for value in [&b" +7 "[..], b"7", b"+7", b"8", b" 8", b" +7  "] {
        cases.push(Case::WriteText { access: string.clone(), value: value.to_vec() });
        let mut window = value.to_vec();
        window.resize(5, 0);
        cases.push(Case::Read { access: Access { window, ..string.clone() } });
    }
    cases
}

/// A string of the greatest size, and a window as long.
fn long_strings() -> Vec<Case> {
    let access = access_to(&Node::new("string").with("size", 65_535), 0);
    let mut cases = Vec::new();
    for length in [0, 65_534, 65_535] {
        cases.push(Case::WriteText { access: access.clone(), value: vec![b'Z'; length] });
    }
    for last in [0, b'A'] {
        let mut window = vec![b'A'; 65_535];
        window[65_534] = last;
        cases.push(Case::Read { access: Access { window, ..access.clone() } });
    }
    for length in [65_535, 65_536] {
        let text = [content_of(length, true), vec![0]].concat();
        let table = planned(&text).map(|planned| planned.numbers).unwrap_or_default();
        let access = Access { text, table, n: 0, space: 1, first: 0, window: vec![1, 2] };
        cases.push(write_integer(access.clone(), 200));
        cases.push(Case::Read { access });
    }
    let far = access_to(&copies(1_000_000, Node::new("int")), 999_999);
    cases.push(write_integer(far.clone(), 200));
    cases.push(write_integer(Access { n: 1_000_000, ..far }, 200));
    let end = cdi(segment(7)
        .with("origin", 2_147_483_647)
        .holding(Node::new("int").with("size", "2").with("offset", 2_147_483_647)));
    let text = plain(&end);
    let table = planned(&text).map(|planned| planned.numbers).unwrap_or_default();
    for first in [(1u64 << 32) - 2, (1 << 32) - 1, (1 << 32) - 3] {
        cases.push(write_integer(
            Access { text: text.clone(), table: table.clone(), n: 0, space: 7, first, window: vec![9; 2] },
            513,
        ));
    }
    cases
}

/// The boundary cases of writing and reading.
pub fn of_access() -> Vec<Case> {
    [integers(), maps(), texts(), spellings(), windows(), orders(), long_strings()].into_iter().flatten().collect()
}
