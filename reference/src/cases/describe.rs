//! Random descriptions that keep the table of elements, of many shapes.

use crate::random::Random;

use super::markup::{root, segment, Item, Node};
use super::spellings::dress;

/// How large a description may become.
#[derive(Debug, Clone, Copy)]
pub struct Measure {
    pub segments: usize,
    /// Data elements in all, about.
    pub data: usize,
    pub depth: usize,
    pub replication: i64,
    pub string: i64,
    /// How many times in a hundred an optional child or attribute stands.
    pub full: usize,
}

/// The usual measure.
pub const USUAL: Measure = Measure { segments: 3, data: 14, depth: 5, replication: 6, string: 40, full: 35 };
/// The measure of small cases.
pub const SMALL: Measure = Measure { segments: 2, data: 5, depth: 5, replication: 4, string: 12, full: 20 };

#[rustfmt::skip]
const WORDS: [&str; 16] = [
    "a", "AB", "Yard", "x y", "\n", " ", "é", "€", "😀", "&lt;", "&#65;", "&#x1F600;", "&apos;", "&#13;", "]]",
    "&#0010;",
];

/// The markup of some text: runs, references, comments and instructions.
pub fn some_text(random: &mut Random) -> String {
    let mut text = String::new();
    for _ in 0..random.below(4) {
        text.push_str(random.pick(&WORDS));
        if random.chance(8) {
            text.push_str(random.pick(&["<!--c-->", "<?p q?>", "<!---->"]));
        }
    }
    // `]]` before `>` never arises here, as no word begins with `>`.
    text
}

fn maybe_text(random: &mut Random, node: &mut Node, name: &str, percent: usize) {
    if random.chance(percent) {
        let raw = some_text(random);
        node.push(Node::text(name, &raw));
    }
}

/// A number as text, now and then with leading zeros or as minus zero.
pub fn spelled_number(random: &mut Random, value: i128) -> String {
    let most = random.pick(&[2, 2, 2, 25]);
    let zeros = if random.chance(15) { "0".repeat(1 + random.below(most)) } else { String::new() };
    if value == 0 && random.chance(20) {
        return format!("-{zeros}0");
    }
    if value < 0 {
        format!("-{zeros}{}", -value)
    } else {
        format!("{zeros}{value}")
    }
}

fn offset(random: &mut Random, node: Node) -> Node {
    if !random.chance(40) {
        return node;
    }
    let value = if random.chance(35) { random.between(-6, 0) } else { random.between(0, 20) };
    let spelled = spelled_number(random, value as i128);
    node.with("offset", spelled)
}

pub fn shuffle(random: &mut Random, node: &mut Node) {
    for last in (1..node.attributes.len()).rev() {
        let other = random.below(last + 1);
        node.attributes.swap(last, other);
    }
}

fn relation(property: &str, value: &str) -> Node {
    Node::new("relation").holding(Node::text("property", property)).holding(Node::text("value", value))
}

fn map(random: &mut Random, measure: &Measure, properties: Vec<String>) -> Node {
    let mut map = Node::new("map");
    maybe_text(random, &mut map, "name", measure.full / 3);
    maybe_text(random, &mut map, "description", measure.full / 3);
    for property in properties {
        let value = some_text(random);
        map.push(relation(&property, &value));
    }
    map
}

/// An int whose bounds keep the rules.
pub fn int(random: &mut Random, measure: &Measure) -> Node {
    let size = random.pick(&[1u32, 1, 2, 4, 8]);
    let mut node = Node::new("int");
    if size != 1 || random.chance(30) {
        node = node.with("size", size);
    }
    node = offset(random, node);
    maybe_text(random, &mut node, "name", measure.full / 2);
    maybe_text(random, &mut node, "description", measure.full / 3);
    let signed = random.chance(35);
    let (low, high) = if signed {
        (-(1i128 << (8 * size - 1)), (1i128 << (8 * size - 1)) - 1)
    } else {
        (0, (1i128 << (8 * size)) - 1)
    };
    let inside = |random: &mut Random| match random.below(4) {
        0 => low,
        1 => high,
        2 => (low + random.below(20) as i128).min(high),
        _ => low + (random.draw() as i128) % (high - low + 1),
    };
    let (one, two) = (inside(random), inside(random));
    let min = if signed { one.min(two).min(-1) } else { one.min(two) };
    let has_min = signed || random.chance(measure.full);
    let max = one.max(two);
    if has_min {
        let spelled = spelled_number(random, min);
        node.push(Node::text("min", &spelled));
    }
    if random.chance(measure.full) {
        let spelled = spelled_number(random, max);
        node.push(Node::text("max", &spelled));
    }
    if random.chance(measure.full / 2) {
        let spelled = spelled_number(random, one);
        node.push(Node::text("default", &spelled));
    }
    if random.chance(measure.full) {
        let mut properties = Vec::new();
        for _ in 0..random.below(4) {
            let value = inside(random);
            properties.push(spelled_number(random, value));
        }
        let map = map(random, measure, properties);
        node.push(map);
    }
    node
}

fn text_map(random: &mut Random, measure: &Measure, node: &mut Node) {
    if random.chance(measure.full) {
        let properties = (0..random.below(4)).map(|_| some_text(random)).collect();
        let map = map(random, measure, properties);
        node.push(map);
    }
}

pub fn string(random: &mut Random, measure: &Measure) -> Node {
    let size = if random.chance(10) { 1 } else { random.between(1, measure.string) };
    let spelled = spelled_number(random, size as i128);
    let mut node = offset(random, Node::new("string").with("size", spelled));
    maybe_text(random, &mut node, "name", measure.full / 2);
    maybe_text(random, &mut node, "description", measure.full / 3);
    text_map(random, measure, &mut node);
    node
}

pub fn eventid(random: &mut Random, measure: &Measure) -> Node {
    let mut node = offset(random, Node::new("eventid"));
    maybe_text(random, &mut node, "name", measure.full / 2);
    maybe_text(random, &mut node, "description", measure.full / 3);
    text_map(random, measure, &mut node);
    node
}

pub fn float(random: &mut Random, measure: &Measure) -> Node {
    let size = random.pick(&["2", "4", "8"]);
    let mut node = offset(random, Node::new("float").with("size", size));
    if random.chance(measure.full) {
        node = node.with("formatting", random.pick(&["%f", "%.f", "%5f", "%.2f", "%08.3f", "%12.f"]));
    }
    for (name, percent) in [("name", 2), ("description", 3), ("min", 2), ("max", 2), ("default", 2)] {
        maybe_text(random, &mut node, name, measure.full / percent);
    }
    text_map(random, measure, &mut node);
    node
}

fn group(random: &mut Random, measure: &Measure, left: &mut usize, depth: usize) -> Node {
    let mut node = offset(random, Node::new("group"));
    if random.chance(60) {
        let copies = random.between(1, measure.replication) as i128;
        let spelled = spelled_number(random, copies);
        node = node.with("replication", spelled);
    }
    for name in ["name", "description", "repname"] {
        maybe_text(random, &mut node, name, measure.full / 3);
    }
    for _ in 0..random.below(4) {
        if let Some(child) = data(random, measure, left, depth + 1) {
            node.push(child);
        }
    }
    node
}

/// A data element, as long as there may be more of them.
pub fn data(random: &mut Random, measure: &Measure, left: &mut usize, depth: usize) -> Option<Node> {
    *left = left.checked_sub(1)?;
    let choice = if depth >= measure.depth { 3 + random.below(7) } else { random.below(10) };
    let mut node = match choice {
        0..=2 => group(random, measure, left, depth),
        3..=5 => int(random, measure),
        6 | 7 => string(random, measure),
        8 => eventid(random, measure),
        _ => float(random, measure),
    };
    shuffle(random, &mut node);
    Some(node)
}

fn identification(random: &mut Random, measure: &Measure) -> Node {
    let mut node = Node::new("identification");
    for name in ["manufacturer", "model", "hardwareVersion", "softwareVersion"] {
        maybe_text(random, &mut node, name, measure.full);
    }
    text_map(random, measure, &mut node);
    node
}

fn acdi(random: &mut Random) -> Node {
    let mut node = Node::new("acdi");
    for name in ["fixed", "var"] {
        if random.chance(50) {
            node = node.with(name, random.between(0, 255));
        }
    }
    node
}

/// A segment holding this many data elements, about.
fn random_segment(random: &mut Random, measure: &Measure, left: &mut usize) -> Node {
    let mut node = segment(random.between(0, 255));
    if random.chance(70) {
        let origin = random.between(0, 900);
        let spelled = spelled_number(random, origin as i128);
        node = node.with("origin", spelled);
    }
    shuffle(random, &mut node);
    maybe_text(random, &mut node, "name", measure.full / 2);
    maybe_text(random, &mut node, "description", measure.full / 3);
    for _ in 0..1 + random.below(measure.data) {
        if let Some(child) = data(random, measure, left, 3) {
            node.push(child);
        }
    }
    node
}

/// A segment whose groups are nested deep, few of them replicated.
fn deep_segment(random: &mut Random, measure: &Measure) -> Node {
    let mut left = 6;
    let mut inner = int(random, measure);
    for _ in 0..1 + random.below(21) {
        let mut node = offset(random, Node::new("group"));
        if random.chance(15) {
            node = node.with("replication", random.between(1, 3));
        }
        for before in [true, false] {
            if !before {
                node.push(inner.clone());
            }
            if random.chance(10) {
                let member = data(random, measure, &mut left, measure.depth);
                node.items.extend(member.map(Item::Node));
            }
        }
        inner = node;
    }
    segment(random.between(0, 255)).with("origin", random.between(50, 900)).holding(inner)
}

/// So many of a hundred descriptions have numbers with blanks and plus signs.
const DRESSED: usize = 20;

/// Spells some of a description's numbers with blanks and plus signs, now and then.
pub fn maybe_dress(random: &mut Random, root: &mut Node) {
    if random.chance(DRESSED) {
        let percent = random.pick(&[10, 40, 100]);
        dress(random, root, percent);
    }
}

/// A whole description; most of them are accepted, some leave the addresses.
pub fn description(random: &mut Random, measure: &Measure) -> Node {
    let mut root = root();
    shuffle(random, &mut root);
    if random.chance(measure.full) {
        let node = identification(random, measure);
        root.push(node);
    }
    if random.chance(measure.full) {
        let node = acdi(random);
        root.push(node);
    }
    let mut left = measure.data;
    let segments = if random.chance(12) { 0 } else { 1 + random.below(measure.segments) };
    for _ in 0..segments {
        let node = random_segment(random, measure, &mut left);
        root.push(node);
    }
    if measure.data > 10 && random.chance(4) {
        let node = deep_segment(random, measure);
        root.push(node);
    }
    maybe_dress(random, &mut root);
    root
}
