//! Texts of about as many records as a class of rows has room for, and of more.

use super::super::boundaries::root_tag;
use super::super::reached::rows::{Class, CLASSES};
use super::super::texts::ended;
use crate::answer::Case;
use crate::random::Random;
use crate::text::FIRST_LINE;

/// The bytes of the shortest record, `<int/>`.
const SHORTEST: usize = 6;

/// Markup that may stand in a segment, and its records.
const FORMS: [(&str, usize); 10] = [
    ("<int/>", 1),
    ("<eventid/>", 1),
    ("<group/>", 1),
    ("<string size='1'/>", 1),
    ("<float size='2'/>", 1),
    ("<int><name>x</name></int>", 1),
    ("<group replication='2'><int/></group>", 2),
    ("<group><group><int/></group></group>", 3),
    ("</segment><segment space='2'>", 1),
    ("\n  <int size='2' offset='1'>\n    <min>3</min>\n  </int>", 1),
];

/// Faults against the table of elements and of the walk, each in an element of its own.
const FAULTS: [&str; 8] = [
    "<a/>",
    "<name/>",
    "<int a=''/>",
    "x",
    "<int><min>x</min></int>",
    "<int size='3'/>",
    "<int offset='-2147483648'/>",
    "<group replication='1000001'><int offset='-1'/></group>",
];

/// What holds so many records in a segment, with this many bytes to spare beyond the shortest.
fn members(random: &mut Random, records: usize, mut spare: usize) -> String {
    let mut text = String::new();
    let mut left = records;
    while left > 0 {
        let (form, held) = random.pick(&FORMS);
        let more = form.len() - SHORTEST * held;
        let fits = held <= left && more <= spare;
        let (form, held, more) = if fits { (form, held, more) } else { ("<int/>", 1, 0) };
        text.push_str(form);
        left -= held;
        spare -= more;
    }
    text
}

/// Content of so many records in at most so many bytes.
fn content(random: &mut Random, records: usize, bytes: usize, behind: &str) -> Vec<u8> {
    let head = format!("{}<segment space='1' origin='9'>", root_tag());
    let tail = format!("{behind}</segment></cdi>");
    let taken = FIRST_LINE.len() + head.len() + tail.len() + SHORTEST * (records - 1);
    let most = bytes.saturating_sub(taken);
    let spare = random.below(most + 1);
    let members = members(random, records - 1, spare);
    [FIRST_LINE, head.as_bytes(), members.as_bytes(), tail.as_bytes()].concat()
}

/// Blanks or a comment behind the content, up to this length.
fn filled(random: &mut Random, mut content: Vec<u8>, length: usize) -> Vec<u8> {
    let left = length.saturating_sub(content.len());
    let filling =
        if left >= 7 && random.chance(50) { format!("<!--{}-->", "x".repeat(left - 7)) } else { " ".repeat(left) };
    content.extend(filling.bytes());
    content
}

/// As many records as the class has rows, one more, or many more.
fn some_records(random: &mut Random, class: &Class) -> usize {
    let rows = class.rows as usize;
    match random.below(3) {
        0 => rows,
        1 => rows + 1,
        _ => rows + 2 + random.below(3 * rows),
    }
}

/// The room for the table: it fits, is one record short, or none.
fn some_room(random: &mut Random, records: usize) -> u64 {
    let needed = 8 * records as u64;
    match random.below(3) {
        0 => needed + random.pick(&[0, 0, 1, 8]),
        1 => needed - 8,
        _ => 0,
    }
}

pub fn case(random: &mut Random) -> Case {
    let class = random.pick(&CLASSES);
    let records = some_records(random, &class);
    let room = some_room(random, records);
    let behind = if random.chance(8) { random.pick(&FAULTS) } else { "" };
    let content = content(random, records, class.bytes - 20, behind);
    if random.chance(65) {
        return Case::Plan { room, text: ended(random, content) };
    }
    let length = class.bytes - 1 + random.below(2);
    let mut text = filled(random, content, length);
    text.push(0);
    Case::Plan { room, text }
}
