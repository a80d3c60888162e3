//! The worked set of document 01, P1 to P12, and the slips it names.

mod build;

use build::*;
use reference::plan::planned;
use reference::{answer, line, Answer, Case};

const T: &str = "<segment space=\"253\" origin=\"128\"><int/><group replication=\"3\" offset=\"2\"><eventid/>\
<int size=\"2\" offset=\"-1\"/></group><string size=\"10\"/></segment>";

const TABLE: [i64; 48] = [
    1, 155, 128, 253, 1, 6, 8, 40, //
    3, 189, 0, 1, 1, 2, 1, 1, //
    2, 195, 2, 0, 3, 5, 6, 29, //
    5, 229, 0, 8, 1, 4, 1, 8, //
    3, 239, -1, 2, 1, 5, 1, 1, //
    4, 274, 0, 10, 1, 6, 1, 10,
];

fn written(answer: Answer) -> Vec<u8> {
    match answer {
        Answer::Written { window } => window,
        other => panic!("{}", line(&other)),
    }
}

#[test]
fn p1_the_table() {
    let text = cdi(T);
    assert_eq!(text.iter().position(|byte| *byte == 0), Some(309));
    let planned = planned(&text).unwrap();
    assert_eq!(planned.numbers, TABLE);
    assert_eq!((planned.records(), planned.variables), (6, 8));
    let Answer::Planned { table, .. } = answer(&Case::Plan { room: 60, text }) else { panic!() };
    assert_eq!(table[..48], TABLE);
    assert_eq!(table[48..], (48..60).map(|i| -7 - i).collect::<Vec<i64>>());
}

#[test]
fn p2_the_variables() {
    let lines: Vec<String> = (0..8).map(|n| line(&answer(&Case::Locate { table: TABLE.to_vec(), n }))).collect();
    assert_eq!(
        lines,
        [
            "found 1 253 128 1 int",
            "found 3 253 131 8 eventid",
            "found 4 253 138 2 int",
            "found 3 253 140 8 eventid",
            "found 4 253 147 2 int",
            "found 3 253 149 8 eventid",
            "found 4 253 156 2 int",
            "found 5 253 158 10 string",
        ]
    );
}

#[test]
fn p3_no_variable_eight() {
    assert_eq!(line(&answer(&Case::Locate { table: TABLE.to_vec(), n: 8 })), "refused 21 0");
}

#[test]
fn p4_to_p7_integers() {
    assert_eq!(written(write_integer(&access("<int size='2'/>", 0, 4), 300)), [1, 0x2C, 0xFF, 0xFF]);
    let mut signed = access("<int><min>-5</min></int>", 0, 1);
    signed.window = vec![0];
    assert_eq!(written(write_integer(&signed, -1)), [0xFF]);
    assert_eq!(number(&write_integer(&access("<int/>", 0, 1), 256)), Some(23));
    let mut wide = access("<int size='8'/>", 0, 8);
    wide.window = vec![0; 8];
    assert_eq!(written(write_integer(&wide, (1 << 64) - 1)), [0xFF; 8]);
}

#[test]
fn p8_bounds() {
    assert_eq!(in_segment("<int><min>-1</min><max>128</max></int>"), Some((10, 18)));
}

#[test]
fn p9_and_p10_texts() {
    let string = access("<string size='4'/>", 0, 6);
    assert_eq!(written(write_text(&string, b"AB")), [0x41, 0x42, 0, 0, 0xFF, 0xFF]);
    assert_eq!(number(&write_text(&string, b"ABCD")), Some(25));
}

#[test]
fn p11_and_p12_no_text() {
    assert_eq!(refused(b""), Some((1, 0)));
    assert_eq!(refused(b"\0"), Some((3, 0)));
}

#[test]
fn slips() {
    assert_eq!(in_segment("<int size='04'/>"), Some((10, 0)));
    let zero = access("<int><min>0</min></int>", 0, 1);
    assert_eq!(line(&read(&zero)), "integer 255 accepted");
}
