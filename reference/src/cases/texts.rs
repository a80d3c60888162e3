//! Texts for planning: accepted ones, ones aimed at each refusal, and ones damaged at random.

use crate::plan::{planned, Planned};
use crate::random::Random;
use crate::text::FIRST_LINE;

use super::damage::{by_byte, by_token, structure, NAMES, TOKENS, VALUES};
use super::describe::{description, maybe_dress, shuffle, Measure};
use super::faults::{ground, plant_one, several};
use super::markup::{content, root, segment, Item, Node};
use super::spellings::{misspell, Rule};

/// How often a generator tries to reach what it aims at.
const TRIES: usize = 60;

/// The refusals that a text alone may have.
#[rustfmt::skip]
pub const CAUSES: [u8; 19] = [
    1, 2, 3, 4, 5, 6, 7, 81, 82, 83, 84, 85, 86, 87, 88, 9, 10, 11, 12,
];

#[rustfmt::skip]
const MALFORMED: [&str; 30] = [
    "]]>", "<!-- a --->", "<!-- a -- b -->", "<!--", "&#xD800;", "&#0;", "&;", "&nbsp;", "&#x110000;", "&#x;",
    "&#;", "&#X41;", "&#65", "&", "<!doctype x>", "<!", "<?XmL ?>", "<?p??>", "<? p?>", "<?p", "<",
    "<a b='1' b='2'/>", "<a b='1'c='2'/>", "<a b='<'/>", "<a b=1/>", "<1/>", "<é/>", "</ a>", "<a b='&' b=''/>",
    "<a/ >",
];
#[rustfmt::skip]
const UNSUPPORTED: [&str; 9] = [
    "<!DOCTYPE cdi>", "<![CDATA[x]]>", "<!DOCTYPE", "<![CDATA[", "<a b='&amp;'/>", "<a b='&'>", "<!DOCTYPEx",
    "<![CDATA[]]>", "<int size=\"&#49;\" offset='&'/>",
];
const MISPLACED: [&str; 7] = ["</cdi>", "</a>", "<a>", "<int>", "</segment>", "<a></b>", "</a></a>"];

/// Byte sequences at the edges of what stage 2 allows, on both sides.
#[rustfmt::skip]
const SEQUENCES: [&[u8]; 34] = [
    b"\r", b"\x01", b"\x08", b"\x0B", b"\x0C", b"\x1F", b"\x7F", b"\xC2\x80", b"\xC0\x80", b"\xC1\xBF", b"\xC2",
    b"\xC2\x41", b"\xDF\xBF", b"\xE0\x80\x80", b"\xE0\x9F\xBF", b"\xE0\xA0\x80", b"\xED\x9F\xBF", b"\xED\xA0\x80",
    b"\xED\xBF\xBF", b"\xEE\x80\x80", b"\xEF\xBB\xBF", b"\xEF\xBF\xBD", b"\xEF\xBF\xBE", b"\xEF\xBF\xBF",
    b"\xF0\x8F\xBF\xBF", b"\xF0\x90\x80\x80", b"\xF0\x9F\x98", b"\xF4\x8F\xBF\xBF", b"\xF4\x90\x80\x80",
    b"\xF5\x80\x80\x80", b"\xFF", b"\xFE", b"\x80", b"\xE2\x82",
];

pub fn oddness(random: &mut Random) -> usize {
    random.pick(&[0, 0, 4, 15])
}

/// Content with its zero, now and then with more bytes behind.
pub fn ended(random: &mut Random, mut content: Vec<u8>) -> Vec<u8> {
    content.push(0);
    if random.chance(10) {
        for _ in 0..random.below(12) {
            let byte = random.byte();
            content.push(byte);
        }
    }
    content
}

/// A description, as markup and as content.
fn described(random: &mut Random, measure: &Measure) -> (Node, Vec<u8>) {
    let mut node = description(random, measure);
    maybe_dress(random, &mut node);
    let odd = oddness(random);
    let content = content(random, &node, odd);
    (node, content)
}

/// An accepted text and its plan.
pub fn accepted(random: &mut Random, measure: &Measure) -> (Vec<u8>, Planned) {
    loop {
        let (_, content) = described(random, measure);
        let text = ended(random, content);
        if let Ok(planned) = planned(&text) {
            return (text, planned);
        }
    }
}

fn spliced(random: &mut Random, content: &[u8], from: usize, part: &[u8]) -> Vec<u8> {
    let place = from + random.below(content.len() + 1 - from);
    [&content[..place], part, &content[place..]].concat()
}

/// The content of a description with this as an item of one of its elements, or before or after the root.
fn with_item(random: &mut Random, measure: &Measure, raw: &str) -> Vec<u8> {
    let mut node = description(random, measure);
    let odd = oddness(random);
    let outside = random.below(6);
    if outside > 1 {
        let chosen = random.below(node.elements());
        if let Some(element) = node.element_mut(chosen) {
            let place = random.below(element.items.len() + 1);
            element.items.insert(place, Item::Raw(raw.to_string()));
        }
        return content(random, &node, odd);
    }
    let content = content(random, &node, odd);
    if outside == 0 {
        return [content.as_slice(), raw.as_bytes()].concat();
    }
    [FIRST_LINE, raw.as_bytes(), &content[FIRST_LINE.len()..]].concat()
}

fn without_zero(random: &mut Random, measure: &Measure) -> Vec<u8> {
    let (_, mut content) = described(random, measure);
    if random.chance(40) {
        content.truncate(random.below(content.len() + 1));
    }
    content
}

fn other_first_line(random: &mut Random, content: &[u8]) -> Vec<u8> {
    let rest = &content[FIRST_LINE.len()..];
    let lines: [&[u8]; 9] = [
        b"",
        b"\n",
        b"<?xml version='1.0'?>\n",
        b"<?xml version=\"1.1\"?>\n",
        b"<?xml version=\"1.0\" encoding=\"UTF-8\"?>\n",
        b" <?xml version=\"1.0\"?>\n",
        b"<?xml version=\"1.0\"?> \n",
        b"<?XML version=\"1.0\"?>\n",
        b"<?xml version=\"1.0\"?>",
    ];
    match random.below(3) {
        0 => content[..random.below(FIRST_LINE.len())].to_vec(),
        1 => {
            let mut changed = content.to_vec();
            changed[random.below(FIRST_LINE.len())] = b'!' + random.below(90) as u8;
            changed
        }
        _ => [random.pick(&lines), rest].concat(),
    }
}

fn misplaced(random: &mut Random, measure: &Measure) -> Vec<u8> {
    let (_, content) = described(random, measure);
    let more: [&str; 8] = ["<a/>", "<cdi>", "x", " \n x", "&#32;", "&amp;", "</cdi>", "<!---->\t."];
    match random.below(5) {
        0 => [content.as_slice(), random.pick(&more).as_bytes()].concat(),
        1 => [FIRST_LINE, random.pick(&["x", " &lt;", "</cdi>", "<a/>", "  y "]).as_bytes(), &content[22..]].concat(),
        2 => [FIRST_LINE, random.pick(&["", " ", "\n\n", "<!-- none -->", "<?p?>"]).as_bytes()].concat(),
        3 => content[..content.len().saturating_sub(6).max(22)].to_vec(),
        _ => {
            let raw = random.pick(&MISPLACED).to_string();
            with_item(random, measure, &raw)
        }
    }
}

/// Elements nested so deep, as groups of a description or as any elements.
pub fn nested(depth: usize, name: &str, short: bool) -> Vec<u8> {
    let mut content = FIRST_LINE.to_vec();
    let open = if short { depth - 1 } else { depth };
    content.extend(format!("<{name}>").repeat(open).bytes());
    if short {
        content.extend(format!("<{name}/>").bytes());
    }
    content.extend(format!("</{name}>").repeat(open).bytes());
    content
}

/// Groups nested to this depth inside a segment, the innermost holding nothing.
pub fn nested_groups(depth: usize, group: &str) -> Node {
    let mut node = Node::new(group);
    for _ in 3..depth {
        node = Node::new(group).holding(node);
    }
    root().holding(segment(1).holding(node))
}

fn too_deep(random: &mut Random, measure: &Measure) -> Vec<u8> {
    let depth = 25 + random.below(4);
    if measure.data < 10 || random.chance(60) {
        let name = random.pick(&["a", "_", ":", "b"]);
        let short = random.chance(50);
        return nested(depth, name, short);
    }
    let odd = oddness(random);
    content(random, &nested_groups(depth, "group"), odd)
}

/// A description whose structure, attributes or texts were changed.
fn restructured(random: &mut Random, measure: &Measure, changes: usize) -> Vec<u8> {
    let mut node = description(random, measure);
    for _ in 0..changes {
        structure(random, &mut node);
    }
    let odd = oddness(random);
    content(random, &node, odd)
}

#[rustfmt::skip]
const SCRAMBLED: [&str; 20] = [
    "2", "1", "-1", "127", "128", "-128", "-129", "255", "256", "-0", "x", "", "1<b/>", " 2", "+1", "\t-1 ", "+128",
    " 255\n", "+ 1", "+0",
];

/// An int whose children stand in any order and number, with values near its bounds.
fn scrambled_int(random: &mut Random) -> Vec<u8> {
    let mut int = Node::new("int");
    if random.chance(50) {
        int = int.with("size", random.pick(&["1", "1", "2", "4", "8", "3", " 2", "1\n", "+1"]));
    }
    if random.chance(25) {
        int = int.with(random.pick(&["offset", "a"]), random.pick(&VALUES));
        shuffle(random, &mut int);
    }
    for _ in 0..random.below(7) {
        let name = random.pick(&["min", "max", "min", "max", "name", "description", "default", "map", "a"]);
        let value = random.pick(&SCRAMBLED);
        let mut child = Node::text(name, if name == "map" { "" } else { value });
        if random.chance(12) {
            child = child.with("a", "");
        }
        int.push(child);
    }
    content(random, &root().holding(segment(1).holding(int)), 0)
}

/// A description in which most optional children and attributes stand, unless it is to be small.
fn full_description(random: &mut Random, measure: &Measure) -> Node {
    let full = Measure { full: measure.full.max(60), ..*measure };
    description(random, if measure.data < 10 { measure } else { &full })
}

/// A description in which the values of some attributes and texts lie on an edge.
fn revalued(random: &mut Random, measure: &Measure) -> Vec<u8> {
    let mut node = full_description(random, measure);
    for _ in 0..1 + random.below(3) {
        let chosen = random.below(node.elements());
        let Some(element) = node.element_mut(chosen) else { continue };
        let value = random.pick(&VALUES).to_string();
        if !element.loose {
            element.items = vec![Item::Raw(value)];
        } else if !element.attributes.is_empty() && element.name != "cdi" {
            let chosen = random.below(element.attributes.len());
            element.attributes[chosen].1 = value;
        } else if element.name != "cdi" {
            let name = random.pick(&["offset", "size", "replication", "origin"]);
            element.attributes.retain(|attribute| attribute.0 != name);
            element.attributes.push((name.to_string(), value));
        }
    }
    let odd = oddness(random);
    content(random, &node, odd)
}

/// A description with a number or a size, or two, that blanks and signs make none.
fn respelled(random: &mut Random, measure: &Measure, rule: Rule) -> Vec<u8> {
    let mut node = full_description(random, measure);
    for _ in 0..random.pick(&[1, 1, 2]) {
        misspell(random, &mut node, rule);
    }
    let odd = oddness(random);
    content(random, &node, odd)
}

/// A segment whose walk passes near the ends of the addresses, or copies very many times.
fn far_segment(random: &mut Random) -> Node {
    let origin = random.pick(&[0i64, 1, 5, 2_147_483_646, 2_147_483_647]);
    let copies = match random.below(4) {
        0 => 2_147_483_647,
        1 => random.between(1, 70_000),
        2 => random.pick(&[65_536i64, 65_537, 65_535, 1_073_741_824, 536_870_912, 2, 3]),
        _ => random.between(1, 5),
    };
    let offset = random.pick(&[0i64, 0, -1, 1, -5, 2_147_483_647, -2_147_483_648, 2_147_483_646, 65_535]);
    let inner = random.pick(&[0i64, -1, -2, -4, -8, -9, 7, 65_535, 2_147_483_647, -2_147_483_648]);
    let member = match random.below(4) {
        0 => Node::new("int").with("size", random.pick(&["1", "2", "4", "8"])).with("offset", inner),
        1 => Node::new("string").with("size", random.pick(&["1", "65535", "65534"])).with("offset", inner),
        2 => Node::new("group").with("offset", inner),
        _ => Node::new("eventid").with("offset", inner),
    };
    let mut group = Node::new("group").with("replication", copies).with("offset", offset).holding(member);
    if random.chance(30) {
        group.push(Node::new("group").with("offset", -inner.max(-2_147_483_647)));
    }
    if random.chance(30) {
        group = Node::new("group").with("replication", random.between(1, 9)).holding(group);
    }
    segment(random.below(256)).with("origin", origin).holding(group)
}

fn far(random: &mut Random, measure: &Measure) -> Vec<u8> {
    let mut node = if random.chance(50) { root() } else { description(random, measure) };
    let far = far_segment(random);
    node.push(far);
    let odd = oddness(random);
    content(random, &node, odd)
}

/// A description of more variables than are allowed, most of them in one place.
fn crowded(random: &mut Random, measure: &Measure) -> Vec<u8> {
    let copies = random.pick(&[1_000_001i64, 1_000_000, 2_147_483_647, 1_500_000, 999_999]);
    let group = Node::new("group").with("replication", copies).holding(Node::new("int").with("offset", -1));
    let mut node = if random.chance(50) { root() } else { description(random, measure) };
    let mut crowd = segment(random.below(256)).with("origin", 1);
    match random.below(3) {
        0 => crowd.push(group),
        1 => {
            let outer = Node::new("group").with("replication", random.between(2, 2_147_483_647));
            crowd.push(outer.holding(group));
        }
        _ => {
            crowd.push(group);
            crowd.push(Node::new("group").with("replication", random.between(1, 3)).holding(Node::new("int")));
        }
    }
    node.push(crowd);
    let odd = oddness(random);
    content(random, &node, odd)
}

/// A description with a fault of this number, and now and then with some other.
fn faulty(random: &mut Random, measure: &Measure, number: u8) -> Vec<u8> {
    let measure = Measure { full: measure.full.max(60), ..*measure };
    let mut node = ground(random, &measure);
    plant_one(random, &mut node, number);
    if random.chance(30) {
        structure(random, &mut node);
    }
    let odd = oddness(random);
    content(random, &node, odd)
}

/// A text with several faults against the table of elements in one tag or in one element.
pub fn with_several(random: &mut Random, measure: &Measure) -> Vec<u8> {
    let measure = Measure { full: measure.full.max(50), ..*measure };
    let node = several(random, &measure);
    let odd = oddness(random);
    let content = content(random, &node, odd);
    ended(random, content)
}

/// A text aimed at one of these refusals.
pub fn aimed(random: &mut Random, measure: &Measure, number: u8) -> Vec<u8> {
    let mut text = Vec::new();
    for _ in 0..TRIES {
        text = try_aimed(random, measure, number);
        if planned(&text).is_err_and(|refusal| refusal.number == number) {
            break;
        }
    }
    text
}

fn try_aimed(random: &mut Random, measure: &Measure, number: u8) -> Vec<u8> {
    let content = match number {
        1 => return without_zero(random, measure),
        2 => {
            let (_, content) = described(random, measure);
            let from = if random.chance(15) { 0 } else { 22 };
            let sequence = random.pick(&SEQUENCES);
            if random.chance(8) {
                [b"\xEF\xBB\xBF", content.as_slice()].concat()
            } else {
                spliced(random, &content, from, sequence)
            }
        }
        3 => {
            let (_, content) = described(random, measure);
            other_first_line(random, &content)
        }
        4 => {
            let raw = random.pick(&MALFORMED);
            with_item(random, measure, raw)
        }
        5 => {
            let raw = random.pick(&UNSUPPORTED);
            with_item(random, measure, raw)
        }
        6 => misplaced(random, measure),
        7 => too_deep(random, measure),
        9 | 10 | 81..=85 if random.chance(15) => scrambled_int(random),
        81..=88 if random.chance(20) => {
            let changes = 1 + random.below(3);
            restructured(random, measure, changes)
        }
        81..=88 => faulty(random, measure, number),
        9 if random.chance(40) => respelled(random, measure, Rule::Number),
        10 if random.chance(30) => respelled(random, measure, Rule::Size),
        9 | 10 => revalued(random, measure),
        11 => far(random, measure),
        _ => crowded(random, measure),
    };
    ended(random, content)
}

/// Tokens in any order behind the first line.
fn jumble(random: &mut Random) -> Vec<u8> {
    let mut content = FIRST_LINE.to_vec();
    for _ in 0..random.below(30) {
        let token = match random.below(5) {
            0 => format!("<{}>", random.pick(&NAMES)),
            1 => format!("</{}>", random.pick(&NAMES)),
            2 => format!("<{}/>", random.pick(&NAMES)),
            3 => random.pick(&VALUES).to_string(),
            _ => random.pick(&TOKENS).to_string(),
        };
        content.extend(token.bytes());
    }
    content
}

/// A text damaged at random, by structure, by token and by byte; some stay whole.
pub fn damaged(random: &mut Random, measure: &Measure) -> Vec<u8> {
    if random.chance(4) {
        return (0..random.below(60)).map(|_| random.byte()).collect();
    }
    let changes = random.below(4);
    let content = match random.below(16) {
        0 => jumble(random),
        1 | 2 => scrambled_int(random),
        _ => restructured(random, measure, changes),
    };
    let changes = random.pick(&[0, 0, 0, 1, 2]);
    let content = if changes == 0 { content } else { by_token(random, &content, changes) };
    let mut text = ended(random, content);
    let changes = random.pick(&[0, 0, 0, 1, 2, 3]);
    by_byte(random, &mut text, changes);
    text
}

/// A description filled up so that its end lies near 65,535.
fn filled(random: &mut Random, measure: &Measure) -> Vec<u8> {
    let (_, mut content) = described(random, measure);
    let end = 65_528 + random.below(12);
    let left = end.saturating_sub(content.len());
    let filling = match random.below(3) {
        0 => " ".repeat(left),
        1 => format!("<!--{}-->", "é".repeat(left / 2).chars().skip(4).collect::<String>()),
        _ => format!("<?p {}?>", "x".repeat(left.saturating_sub(6))),
    };
    content.extend(filling.bytes());
    content
}

/// A description of about as many elements as there may be.
fn filled_with_elements(random: &mut Random) -> Vec<u8> {
    let mut within = segment(random.below(256)).with("origin", 9);
    let count = 4_085 + random.below(14);
    for _ in 0..count {
        within.push(Node::new(random.pick(&["int", "int", "int", "eventid", "group", "name"])));
    }
    content(random, &root().holding(within), 0)
}

/// A long text near a limit, damaged near its end or not at all.
pub fn long(random: &mut Random, measure: &Measure) -> Vec<u8> {
    let content = if random.chance(60) { filled(random, measure) } else { filled_with_elements(random) };
    let mut text = ended(random, content);
    if random.chance(50) {
        let mut end = text.split_off(text.len() - 12);
        by_byte(random, &mut end, 1);
        text.extend(end);
    }
    text
}
