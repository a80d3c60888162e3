//! Writing and reading: every kind, the ends of every range, windows at the ends of every number, and what a refusal leaves.

mod texts;

use planksling::{lent, Cause, Description, EventId, Integer, Refusal, Value, Window};
use texts::{closed, planned, refusal, text, Numbers};

/// What the bytes around a variable hold.
const AROUND: u8 = 0xA5;

fn window(bytes: usize) -> Window<Vec<u8>> {
    Window::new(253, 120, vec![AROUND; bytes])
}

/// Writes through the description, and through lent memory, which must tell and leave the same; tells what is left where it was accepted, having
/// looked at the bytes around the variable.
fn write(description: &Description, n: u64, value: Value<'_>) -> Result<Vec<u8>, Refusal> {
    let variable = description.variable(n).expect("a variable");
    let from = (variable.address - 120) as usize;
    let (mut mine, mut theirs) = (window(from + variable.size + 7), window(from + variable.size + 7));
    let told = description.write(n, &mut mine, &value);
    let text = closed(description.text());
    assert_eq!(lent::write(&text, description.table().numbers(), n, &mut theirs, &value), told);
    assert_eq!(mine, theirs);
    if let Err(refusal) = told {
        assert_eq!(mine, window(mine.bytes.len()), "a refused write");
        return Err(refusal);
    }
    let around = mine.bytes[..from].iter().chain(&mine.bytes[from + variable.size..]);
    assert!(around.copied().all(|byte| byte == AROUND));
    let reading = description.read(n, &mine).expect("what was written");
    assert_eq!((&reading.value, reading.writable), (&value, true));
    assert_eq!(lent::read(&text, description.table().numbers(), n, &mine), Ok(reading));
    Ok(mine.bytes[from..from + variable.size].to_vec())
}

fn refused(cause: Cause) -> Result<Vec<u8>, Refusal> {
    Err(refusal(cause, 0))
}

#[test]
fn integers_without_sign() {
    for size in [1, 2, 4, 8] {
        let description = planned(&format!("<int size=\"{size}\"/>"));
        let max = u64::MAX >> (64 - 8 * size);
        for value in [0, 1, 127, 128, max - 1, max] {
            assert_eq!(write(&description, 0, value.into()), Ok(value.to_be_bytes()[8 - size as usize..].to_vec()));
        }
        if size < 8 {
            assert_eq!(write(&description, 0, (max + 1).into()), refused(Cause::OutOfBounds));
        }
        for value in [Integer::from(-1), Integer::MIN, Integer::from(i64::MIN)] {
            assert_eq!(write(&description, 0, value.into()), refused(Cause::OutOfBounds));
        }
        assert_eq!(write(&description, 0, Integer::new(true, 0).into()), Ok(vec![0; size as usize]));
    }
}

#[test]
fn integers_with_sign() {
    for size in [1, 2, 4, 8] {
        let min = i64::MIN >> (64 - 8 * size);
        let max = i64::MAX >> (64 - 8 * size);
        let description = planned(&format!("<int size=\"{size}\"><min>{min}</min></int>"));
        for value in [min, min + 1, -1, 0, 1, max - 1, max] {
            assert_eq!(write(&description, 0, value.into()), Ok(value.to_be_bytes()[8 - size as usize..].to_vec()));
        }
        for value in [i128::from(min) - 1, i128::from(max) + 1] {
            let value = Integer::try_from(value).expect("an integer");
            assert_eq!(write(&description, 0, value.into()), refused(Cause::OutOfBounds));
        }
        for value in [Integer::MIN, Integer::MAX] {
            assert_eq!(write(&description, 0, value.into()), refused(Cause::OutOfBounds));
        }
    }
}

#[test]
fn integers_with_bounds_and_map() {
    let relations = "<relation><property>-3</property><value>a</value></relation><relation><property>7</property><value>b</value></relation>";
    let bounds = "<min>-5</min><max>9</max>";
    let description = planned(&format!("<int size=\"2\">{bounds}<map>{relations}</map></int><int><map/></int>"));
    assert_eq!(write(&description, 0, (-3).into()), Ok(vec![0xFF, 0xFD]));
    assert_eq!(write(&description, 0, 7.into()), Ok(vec![0, 7]));
    assert_eq!(write(&description, 0, 3.into()), refused(Cause::NotInMap));
    assert_eq!(write(&description, 0, 10.into()), refused(Cause::OutOfBounds));
    assert_eq!(write(&description, 0, (-6).into()), refused(Cause::OutOfBounds));
    // a map without relations admits nothing
    assert_eq!(write(&description, 1, 0.into()), refused(Cause::NotInMap));
    // what stands there is read, and couldn't be written
    let window = Window::new(253, 128, [0xFF, 0xFC]);
    let reading = description.read(0, &window).expect("an int");
    assert_eq!((reading.value, reading.writable), (Value::from(-4), false));
}

#[test]
fn events() {
    let description = planned("<eventid/><eventid><map/></eventid>");
    for id in [0, 1, 0x0102_0304_0506_0708, u64::MAX] {
        assert_eq!(write(&description, 0, EventId(id).into()), Ok(id.to_be_bytes().to_vec()));
    }
    assert_eq!(write(&description, 1, EventId(1).into()), refused(Cause::Withheld));
    let window = Window::new(253, 136, [9; 8]);
    let reading = description.read(1, &window).expect("an eventid");
    assert_eq!((reading.value, reading.writable), (EventId::from([9; 8]).into(), false));
}

#[test]
fn strings() {
    let relation = "<relation><property>a&amp;b</property><value>x</value></relation>";
    let elements =
        format!("<string size=\"1\"/><string size=\"10\"/><string size=\"6\"><map>{relation}</map></string>");
    let description = planned(&elements);
    assert_eq!(write(&description, 0, "".into()), Ok(vec![0]));
    assert_eq!(write(&description, 0, "x".into()), refused(Cause::UnstorableText));
    assert_eq!(write(&description, 1, "".into()), Ok(vec![0; 10]));
    assert_eq!(write(&description, 1, "123456789".into()), Ok(b"123456789\0".to_vec()));
    assert_eq!(write(&description, 1, "1234567890".into()), refused(Cause::UnstorableText));
    assert_eq!(write(&description, 1, "\u{1F682}\u{E9}\u{7F}".into()), Ok("\u{1F682}\u{E9}\u{7F}\0\0\0".into()));
    assert_eq!(write(&description, 1, "a\0b".into()), refused(Cause::UnstorableText));
    assert_eq!(write(&description, 1, "\0".into()), refused(Cause::UnstorableText));
    assert_eq!(write(&description, 2, "a&b".into()), Ok(b"a&b\0\0\0".to_vec()));
    assert_eq!(write(&description, 2, "a".into()), refused(Cause::NotInMap));
}

#[test]
fn the_longest_string() {
    let description = planned("<string size=\"65535\"/>");
    let text = "\u{E4}".repeat(32_767);
    assert_eq!(write(&description, 0, Value::from(&text)), Ok(closed(&text)));
    assert_eq!(write(&description, 0, Value::from(text + "x")), refused(Cause::UnstorableText));
}

#[test]
fn strings_that_are_no_text() {
    let description = planned("<string size=\"4\"/>");
    let read =
        |bytes: &[u8; 4]| description.read(0, &Window::new(253, 128, *bytes)).map(|reading| reading.value.to_string());
    let none = Err(refusal(Cause::UnreadableText, 0));
    assert_eq!(read(b"abc\0"), Ok("abc".into()));
    assert_eq!(read(b"a\0\xFFb"), Ok("a".into()));
    assert_eq!(read(b"abcd"), none);
    assert_eq!(read(b"\xC3\0aa"), none);
    assert_eq!(read(b"\xC0\x80\0\0"), none);
    assert_eq!(read(b"\xED\xA0\x80\0"), none);
}

#[test]
fn floats() {
    let description = planned("<float size=\"2\"/><float size=\"8\"/>");
    for n in 0..2 {
        for value in [Value::from(1), EventId(1).into(), "1".into()] {
            assert_eq!(write(&description, n, value), refused(Cause::Withheld));
        }
        let withheld = Err(refusal(Cause::Withheld, 0));
        assert_eq!(description.read(n, &window(80)), withheld);
    }
}

#[test]
fn other_kinds() {
    let description = planned("<int/><string size=\"5\"/><eventid/>");
    let values = [Value::from(1), Value::from("1"), Value::from(EventId(1))];
    for (n, variable) in (0..).zip(&description) {
        for value in &values {
            let told = write(&description, n, value.clone());
            assert_eq!(told.is_ok(), value.kind() == variable.kind);
            assert!(told.is_ok() || told == refused(Cause::OtherKind));
        }
    }
}

#[test]
fn no_variable() {
    let description = planned("<int/>");
    let mut window = window(20);
    for n in [1, 2, u64::MAX] {
        assert_eq!(description.write(n, &mut window, 1), Err(refusal(Cause::NoVariable, 0)));
        assert_eq!(description.read(n, &window), Err(refusal(Cause::NoVariable, 0)));
    }
    assert!(window.bytes.iter().all(|&byte| byte == AROUND));
}

/// A window around an int of 2 bytes at 128: which ones hold it.
#[test]
fn windows() {
    let description = planned("<int size=\"2\"/>");
    let outside = refusal(Cause::OutsideWindow, 0);
    let try_out = |space, first, bytes: usize, inside: bool| {
        let mut window = Window::new(space, first, vec![0; bytes]);
        let told = description.write(0, &mut window, 0x0102);
        assert_eq!(told, if inside { Ok(()) } else { Err(outside) }, "{space} {first} {bytes}");
        assert_eq!(description.read(0, &window).is_ok(), inside);
        if inside {
            let at = (128 - first) as usize;
            assert_eq!(window.bytes[at..at + 2], [1, 2]);
        }
        assert_eq!(window.bytes.iter().filter(|&&byte| byte != 0).count(), if inside { 2 } else { 0 });
    };
    for first in 120..=130 {
        for bytes in 0..=12 {
            try_out(253, first, bytes, first <= 128 && 130 <= first + bytes as u64);
        }
    }
    for space in [0, 252, 254, 509, 253 + 256, 253 + (1 << 32), u64::MAX] {
        try_out(space, 128, 2, false);
    }
    // no sum of these wraps
    for first in [u64::MAX, u64::MAX - 1, u64::MAX - 127, u64::MAX - 128, 1 << 63, (1 << 32) + 128, (1 << 32) - 1] {
        try_out(253, first, 300, false);
    }
    try_out(253, 0, 130, true);
    try_out(253, 0, 129, false);
}

/// Variables at the last addresses that there are.
#[test]
fn last_addresses() {
    let text = text("<segment space=\"255\" origin=\"2147483647\"><int offset=\"2147483647\"/><int/></segment>");
    let description: Description = text.parse().expect("a description");
    assert_eq!(description.variable(1).expect("the last byte").address, u64::from(u32::MAX));
    let mut window = Window::new(255, u64::from(u32::MAX) - 1, [0; 5]);
    description.write(0, &mut window, 8).expect("inside");
    description.write(1, &mut window, 9).expect("inside");
    assert_eq!(window.bytes, [8, 9, 0, 0, 0]);
    assert_eq!(description.read(1, &window).expect("inside").value, 9.into());
    let beyond = text.replace("<int/>", "<int size=\"2\"/>");
    assert_eq!(beyond.parse::<Description>().unwrap_err().cause, Cause::AddressOutOfRange);
}

/// Every way to lend a window's bytes.
#[test]
fn windows_owned_and_borrowed() {
    let description = planned("<int size=\"2\"/>");
    let mut array = Window::new(253, 128, [0; 2]);
    description.write(0, &mut array, 258).expect("an array");
    let mut vector = Window::new(253, 128, vec![0; 2]);
    description.write(0, &mut vector, 258).expect("a vector");
    let mut boxed = Window::new(253, 128, vec![0; 2].into_boxed_slice());
    description.write(0, &mut boxed, 258).expect("a box");
    let mut memory = [0; 4];
    let mut lent = Window::new(253, 128, &mut memory[1..3]);
    description.write(0, &mut lent, 258).expect("a slice");
    assert_eq!(description.read(0, &lent).expect("a slice").value, 258.into());
    assert_eq!(memory, [0, 1, 2, 0]);
    for bytes in [&array.bytes[..], &vector.bytes[..], &boxed.bytes[..], &memory[1..3]] {
        assert_eq!(description.read(0, &Window::new(253, 128, bytes)).expect("a slice").value, 258.into());
    }
}

/// Many writes to one window: each variable holds what was written to it last.
#[test]
fn many_writes() {
    let description = planned("<group replication=\"20\"><int size=\"4\"/><string size=\"9\"/><eventid/></group>");
    let mut window = Window::new(253, 128, vec![0; 20 * 21]);
    let mut numbers = Numbers::new(2);
    let mut held: Vec<Value> = vec![];
    for variable in &description {
        held.push(description.read(variable.number, &window).expect("zeros").value.into_owned());
    }
    for _ in 0..3000 {
        let n = numbers.below(60);
        let value = match n % 3 {
            0 => Value::from(numbers.below(1 << 34)),
            1 => Value::from("x".repeat(numbers.below(10) as usize)),
            _ => EventId(numbers.below(1 << 31) << 33).into(),
        };
        let before = window.clone();
        match description.write(n, &mut window, &value) {
            Ok(()) => held[n as usize] = value,
            Err(_) => assert_eq!(window, before),
        }
    }
    for (variable, value) in description.iter().zip(held) {
        let reading = description.read(variable.number, &window).expect("a value");
        assert_eq!((reading.value, reading.writable), (value, true));
    }
}
