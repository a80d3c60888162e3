//! Planning the samples, a text of about 15 KB that is refused by each cause with the fault near its beginning and near its end, and tags of 64 KB
//! with thousands of unknown attributes.

use crate::planner::Refusal;
use crate::planning::{agreed, least, told, ROOM};
use crate::texts;

const ROUNDS: usize = 100;

const SAMPLES: [(&str, &[u8]); 3] = [
    ("input-board.xml", include_bytes!("../../samples/input-board.xml")),
    ("signal-controller.xml", include_bytes!("../../samples/signal-controller.xml")),
    ("interlocking-desk.xml", include_bytes!("../../samples/interlocking-desk.xml")),
];

/// What each cause of a text but 1 and 3 refuses where it stands in a segment.
fn faults() -> [(u8, String); 17] {
    let deep = format!("{}<int/>{}", "<group>".repeat(22), "</group>".repeat(22));
    [
        (2, "\u{1}"),
        (4, "<int size='1' size='2'/>"),
        (5, "<![CDATA[x]]>"),
        (6, "</a>"),
        (7, &deep),
        (81, "<bit/>"),
        (82, "<group><int/><name/></group>"),
        (83, "<group><name/><name/></group>"),
        (84, "<int><map><relation/></map></int>"),
        (85, "<int color='red'/>"),
        (86, "<string/>"),
        (87, "<float size='4' formatting='%d'/>"),
        (88, "stray"),
        (9, "<int><min>x</min></int>"),
        (10, "<int size='3'/>"),
        (11, "<int offset='-2147483648'/>"),
        (12, "<group replication='1000001'><int offset='-1'/></group>"),
    ]
    .map(|(number, part)| (number, part.to_string()))
}

/// Times both planners on a text and a table of so many numbers.
fn compare(what: &str, text: &[u8], room: usize) -> Option<Refusal> {
    let answer = agreed(what, text, room);
    let (proved, plain) = least(text, room, 1 + 100_000 / text.len(), ROUNDS);
    let (mine, theirs, ratio) = (proved * 1e6, plain * 1e6, proved / plain);
    println!("{what:<22} {:>6} {mine:>10.2} {theirs:>10.2} {ratio:>6.2}  {}", text.len(), told(answer));
    answer.err()
}

/// The same for a text that this cause must refuse.
fn refuse(number: u8, whereabouts: &str, text: &[u8], room: usize) {
    let refusal = compare(&format!("{number}{whereabouts}"), text, room);
    assert_eq!(refusal.map(|refusal| refusal.number), Some(number));
}

/// The description with this before its first variable, or at the end of its last segment.
fn with(part: &str, late: bool) -> Vec<u8> {
    let text = String::from_utf8(texts::ordinary(15_000)).expect("a text");
    let place = if late { text.rfind("</segment>") } else { text.find("<string") };
    let (before, behind) = text.split_at(place.expect("a segment"));
    [before, part, behind].concat().into_bytes()
}

fn refuse_in_segment(number: u8, part: &str) {
    refuse(number, ", near the beginning", &with(part, false), ROOM);
    refuse(number, ", near the end", &with(part, true), ROOM);
}

pub fn measure() {
    println!("{:<22} {:>6} {:>10} {:>10} {:>6}", "planning", "bytes", "proved, us", "plain, us", "ratio");
    for (what, content) in SAMPLES {
        let refusal = compare(what, &[content, &[0]].concat(), ROOM);
        assert_eq!(refusal, None, "{what}");
    }
    let whole = texts::ordinary(15_000);
    let other_line = [b"<?xml version=\"1.1\"?>\n", &whole[22..]].concat();
    let [first, others @ ..] = faults();
    refuse(1, "", &whole[..whole.len() - 1], ROOM);
    refuse_in_segment(first.0, &first.1);
    refuse(3, "", &other_line, ROOM);
    others.iter().for_each(|(number, part)| refuse_in_segment(*number, part));
    refuse(85, ", a tag of 64 KB", &texts::widest(), ROOM);
    refuse(86, ", a tag of 64 KB", &texts::lacking(), ROOM);
    refuse(13, "", &whole, 8);
}
