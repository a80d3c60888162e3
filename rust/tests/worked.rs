//! The worked set of the specification, P1 to P12, as far as it goes through this interface: all of it does.

mod texts;

use planksling::{lent, Cause, Description, Refusal, Table, Value, Window};
use texts::{closed, planned, refusal, segment, WORKED};

const TABLE: [i64; 48] = [
    1, 155, 128, 253, 1, 6, 8, 40, //
    3, 189, 0, 1, 1, 2, 1, 1, //
    2, 195, 2, 0, 3, 5, 6, 29, //
    5, 229, 0, 8, 1, 4, 1, 8, //
    3, 239, -1, 2, 1, 5, 1, 1, //
    4, 274, 0, 10, 1, 6, 1, 10, //
];

const VARIABLES: &str = include_str!("../../samples/worked.list");

fn worked() -> Description {
    WORKED.parse().expect("T")
}

/// Writes into nine bytes at the first variable's address, which hold the letters `leftovers`.
fn written<'v>(elements: &str, value: impl Into<Value<'v>>) -> (Result<(), Refusal>, [u8; 9]) {
    let mut window = Window::new(253, 128, *b"leftovers");
    let told = planned(elements).write(0, &mut window, value);
    (told, window.bytes)
}

#[test]
fn p1_table_of_t() {
    assert_eq!(WORKED.len(), 309);
    let description = worked();
    assert_eq!(description.table().numbers(), TABLE);
    assert_eq!((description.record_count(), description.variable_count()), (6, 8));
    assert_eq!(description.text(), WORKED);
    // planned into a lent table
    let mut table = [-7; 50];
    let counts = lent::plan(&closed(WORKED), &mut table).expect("T");
    assert_eq!((counts.records, counts.variables), (6, 8));
    assert_eq!((&table[..48], &table[48..]), (&TABLE[..], &[-7, -7][..]));
}

#[test]
fn p2_variables_of_t() {
    let description = worked();
    let table = Table::try_from(&TABLE[..]).expect("a plan");
    let mut lines = VARIABLES.lines();
    assert_eq!(lines.next(), Some("variables 8"));
    assert_eq!(lines.clone().count(), 8);
    for (n, line) in (0..).zip(lines) {
        assert_eq!(description.variable(n).expect("a variable").to_string(), line);
        assert_eq!(table.variable(n), description.variable(n));
        assert_eq!(lent::locate(&TABLE, n), description.variable(n));
    }
    let records: Vec<usize> = description.iter().map(|variable| variable.record).collect();
    assert_eq!(records, [1, 3, 4, 3, 4, 3, 4, 5]);
}

#[test]
fn p3_no_variable_8() {
    let none = Err(refusal(Cause::NoVariable, 0));
    for n in [8, 9, 1 << 32, u64::MAX] {
        assert_eq!(worked().variable(n), none);
        assert_eq!(lent::locate(&TABLE, n), none);
    }
}

#[test]
fn p4_to_p7_integers() {
    assert_eq!(written("<int size=\"2\"/>", 300), (Ok(()), *b"\x01\x2Cftovers"));
    assert_eq!(written("<int><min>-5</min></int>", -1), (Ok(()), *b"\xFFeftovers"));
    assert_eq!(written("<int/>", 256), (Err(refusal(Cause::OutOfBounds, 0)), *b"leftovers"));
    assert_eq!(written("<int size=\"8\"/>", u64::MAX), (Ok(()), *b"\xFF\xFF\xFF\xFF\xFF\xFF\xFF\xFFs"));
}

#[test]
fn p8_bounds() {
    let text = segment("<int><min>-1</min><max>128</max></int>");
    let place = text.find("<max>").expect("max");
    assert_eq!(text.parse::<Description>(), Err(refusal(Cause::OutOfRange, place)));
}

#[test]
fn p9_and_p10_texts() {
    assert_eq!(written("<string size=\"4\"/>", "AB"), (Ok(()), *b"AB\0\0overs"));
    assert_eq!(written("<string size=\"4\"/>", "ABCD"), (Err(refusal(Cause::UnstorableText, 0)), *b"leftovers"));
}

#[test]
fn p11_and_p12_no_text() {
    assert_eq!(Description::try_from(&[][..]), Err(refusal(Cause::NoEnd, 0)));
    assert_eq!(Description::try_from(&[0]), Err(refusal(Cause::OtherFirstLine, 0)));
    // a str has its zero
    assert_eq!("".parse::<Description>(), Err(refusal(Cause::OtherFirstLine, 0)));
}
