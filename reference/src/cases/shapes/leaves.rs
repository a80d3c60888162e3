//! Descriptions in which one element of text only, or a few, aren't plain.

use super::super::damage::NAMES;
use super::super::describe::{description, Measure, USUAL};
use super::super::markup::{content, root, segment, Item, Node};
use super::super::spellings::{dressed, holds_within_int, is_bare, is_numeric, misspelled};
use super::super::texts::ended;
use super::usual_room;
use crate::answer::Case;
use crate::random::Random;

/// Descriptions in which most optional children stand.
const FULL: Measure = Measure { data: 10, full: 90, ..USUAL };

const BLANKS: [&str; 5] = [" ", "\n", "\t", "  ", "\n\t "];
const BEHIND: [&str; 8] = ["s", "2", "-a", ".", "x", "Version", ":", "_"];
const NOT_NUMBERS: [&str; 8] = ["x", "-", "+", "--1", "1.0", "0x1", "1>2", "\n"];
const BEYOND: [&str; 6] = [
    "18446744073709551616",
    "-9223372036854775809",
    "99999999999999999999",
    "-18446744073709551615",
    "340282366920938463463374607431768211457",
    "-1000000000000000000000000000000000000000",
];

/// An element of text only: its number in the description, and whether it must be a number.
struct Found {
    element: usize,
    name: String,
    text: String,
    numeric: bool,
}

/// Notes the elements of text only below a node, whose own number is `element`.
fn note(node: &Node, element: usize, within_int: bool, found: &mut Vec<Found>) {
    let mut next = element + 1;
    for item in &node.items {
        let Item::Node(child) = item else { continue };
        if !child.loose {
            let text = match child.items.as_slice() {
                [Item::Raw(raw)] => raw.clone(),
                _ => String::new(),
            };
            let numeric = is_numeric(&child.name, within_int);
            found.push(Found { element: next, name: child.name.clone(), text, numeric });
        }
        note(child, next, holds_within_int(&child.name, within_int), found);
        next += child.elements();
    }
}

/// A text that is plain in such an element.
fn plain_text(random: &mut Random, found: &Found) -> String {
    if found.numeric {
        return found.text.clone();
    }
    random.pick(&["Yard", "Line 7", "x", "€ é", "]]", "]", "12", "a\nb"]).to_string()
}

/// A name that neither begins this one nor is begun by it.
fn other_name(random: &mut Random, name: &str) -> String {
    loop {
        let other = random.pick(&NAMES);
        if !other.starts_with(name) && !name.starts_with(other) {
            return other.to_string();
        }
    }
}

/// The number spelled in another way, beyond its range, or none.
fn other_number(random: &mut Random, bare: &str) -> String {
    match random.below(9) {
        0 => random.pick(&NOT_NUMBERS).to_string(),
        1 => misspelled(random, bare),
        2 | 3 => random.pick(&BEYOND).to_string(),
        4 => dressed(random, bare),
        _ => String::new(),
    }
}

/// The text with something in it, before it or behind it.
fn with_inside(random: &mut Random, text: &str, inside: &str) -> String {
    let places: Vec<usize> = text.char_indices().map(|(place, _)| place).chain([text.len()]).collect();
    let place = random.pick(&places);
    format!("{}{inside}{}", &text[..place], &text[place..])
}

/// The element with something in its tags that a plain one hasn't.
fn by_tags(random: &mut Random, name: &str, text: &str) -> String {
    let blank = random.pick(&BLANKS);
    let behind = random.pick(&BEHIND);
    match random.below(8) {
        0 => format!("<{name} {}>{text}</{name}>", random.pick(&["a=''", "size='1'", "name=\"x\"  b='>'", "a = '/'"])),
        1 => format!("<{name}{blank}>{text}</{name}>"),
        2 => format!("<{name}>{text}</{name}{blank}>"),
        3 => format!("<{name}/>"),
        4 => format!("<{name}>{text}</{}>", other_name(random, name)),
        5 => format!("<{name}>{text}</{}>", &name[..1 + random.below(name.len() - 1)]),
        6 => format!("<{name}>{text}</{name}{behind}>"),
        _ => format!("<{name}{behind}>{text}</{name}{behind}>"),
    }
}

/// The element with something in its content that a plain one hasn't.
fn by_content(random: &mut Random, name: &str, text: &str, numeric: bool) -> String {
    let inside = match random.below(if numeric { 5 } else { 8 }) {
        0 => random.pick(&["<!---->", "<!-- c -->", "<!--</name>-->"]),
        1 => random.pick(&["<?p?>", "<?p </name>?>"]),
        2 => random.pick(&["&amp;", "&#49;", "&#x20;", "&lt;"]),
        3 => random.pick(&["<b/>", "<name>x</name>", "<b></b>"]),
        4 => random.pick(&["]]>", "]]]>"]),
        5 | 6 => random.pick(&[">", "]>", ">>", "->"]),
        _ => return format!("<{name}>{}</{name}>", random.pick(&BLANKS)),
    };
    format!("<{name}>{}</{name}>", with_inside(random, text, inside))
}

/// The markup of such an element that isn't plain.
fn spoiled(random: &mut Random, found: &Found) -> String {
    let name = found.name.as_str();
    let text = plain_text(random, found);
    if found.numeric && random.chance(70) {
        return format!("<{name}>{}</{name}>", other_number(random, &text));
    }
    match random.below(16) {
        0 => format!("<{name}>{text}</{name}>").repeat(2),
        1..=7 => by_content(random, name, &text, found.numeric),
        _ => by_tags(random, name, &text),
    }
}

/// Puts an element of text only behind a sibling that must stand behind it; false where there is none here.
fn put_behind(random: &mut Random, node: &mut Node) -> bool {
    let swaps = |two: &[Item]| match two {
        [Item::Node(one), Item::Node(two)] => !one.loose && one.name != two.name,
        _ => false,
    };
    let places: Vec<usize> = (1..node.items.len()).filter(|&at| swaps(&node.items[at - 1..=at])).collect();
    if places.is_empty() {
        return false;
    }
    let at = random.pick(&places);
    node.items.swap(at - 1, at);
    true
}

fn disordered(random: &mut Random) -> Node {
    loop {
        let mut node = description(random, &FULL);
        let chosen = random.below(node.elements());
        if node.element_mut(chosen).is_some_and(|element| put_behind(random, element)) {
            return node;
        }
    }
}

/// Whether it has this name and is a number, as it must be, without blanks and plus.
fn is_number(found: &Found, name: &str) -> bool {
    found.numeric && found.name == name && is_bare(found.text.as_bytes())
}

/// A description with one to three such elements.
fn with_spoiled(random: &mut Random) -> Node {
    let mut node = description(random, &FULL);
    for _ in 0..1 + random.below(3) {
        let mut found = Vec::new();
        note(&node, 0, false, &mut found);
        let wanted = random.pick(&["", "", "", "min", "max", "default", "default", "property"]);
        found.retain(|found| if wanted.is_empty() { !found.numeric } else { is_number(found, wanted) });
        if found.is_empty() {
            continue;
        }
        let chosen = &found[random.below(found.len())];
        let raw = spoiled(random, chosen);
        if let Some(item) = node.item_mut(chosen.element) {
            *item = Item::Raw(raw);
        }
    }
    node
}

/// Groups down to depth 23 or 24, and a plain element of text only in the last.
fn deep(random: &mut Random) -> Node {
    let mut node = Node::new("group").holding(Node::text(random.pick(&["name", "description", "repname"]), "x"));
    for _ in 3..23 + random.below(2) {
        node = Node::new("group").holding(node);
    }
    root().holding(segment(1).holding(node))
}

/// About as many elements as there may be, the last of them of text only.
fn crowded(random: &mut Random) -> Node {
    let mut within = segment(1);
    for _ in 0..4_091 + random.pick(&[0, 1, 1]) {
        within.push(Node::new("int"));
    }
    let last = Node::new("int").holding(Node::text("name", "x")).holding(Node::text("min", "1"));
    root().holding(within.holding(last))
}

pub fn case(random: &mut Random) -> Case {
    let node = match random.below(30) {
        0 => disordered(random),
        1..=4 => deep(random),
        5..=7 => crowded(random),
        _ => with_spoiled(random),
    };
    let odd = random.pick(&[0, 0, 0, 4]);
    let content = content(random, &node, odd);
    Case::Plan { room: usual_room(random), text: ended(random, content) }
}
