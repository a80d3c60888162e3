//! Other spellings of numbers and sizes: with blanks at the ends and a plus, and near them those that blanks and signs make none.

use crate::random::Random;

use super::markup::{Item, Node};

/// Blanks of each kind, one and several.
const BLANKS: [&str; 12] = [" ", " ", "\t", "\t", "\n", "\n", "  ", "\t\t", "\n\n", " \n", "\n\t ", "            "];
const SIGNS: [&str; 2] = ["+", "-"];
const TWO_SIGNS: [&str; 6] = ["+-", "-+", "++", "--", "+ -", "- -"];
/// White space that is no blank.
const NO_BLANKS: [&str; 6] = ["\u{A0}", "\u{A0}", "\u{A0}", "\u{85}", "\u{2003}", "\u{FEFF}"];
/// What makes a text more than one run.
const BESIDE: [&str; 10] =
    ["<!---->", "<!-- c -->", "<?p?>", "<?p q?>", "&#32;", "&#9;", "&#10;", "&#x20;", "&#49;", "<b/>"];

/// An optional minus and digits: a number without blanks and plus.
pub fn is_bare(text: &[u8]) -> bool {
    let digits = text.strip_prefix(b"-").unwrap_or(text);
    !digits.is_empty() && digits.iter().all(u8::is_ascii_digit)
}

pub fn blanks(random: &mut Random) -> &'static str {
    random.pick(&BLANKS)
}

/// The text with blanks before it, behind it, or both.
pub fn in_blanks(random: &mut Random, text: &str) -> String {
    match random.below(4) {
        0 => format!("{}{text}", blanks(random)),
        1 => format!("{text}{}", blanks(random)),
        _ => format!("{}{text}{}", blanks(random), blanks(random)),
    }
}

/// The same, so many times in a hundred.
fn maybe_in_blanks(random: &mut Random, text: String, percent: usize) -> String {
    if random.chance(percent) {
        in_blanks(random, &text)
    } else {
        text
    }
}

/// One of these before the text or behind it.
fn beside(random: &mut Random, text: &str, from: &[&str]) -> String {
    let other = random.pick(from);
    if random.chance(50) {
        format!("{other}{text}")
    } else {
        format!("{text}{other}")
    }
}

/// The number of a bare one, with blanks at its ends, a plus where it has no minus, or both.
pub fn dressed(random: &mut Random, bare: &str) -> String {
    if bare.starts_with('-') || random.chance(40) {
        return in_blanks(random, bare);
    }
    let signed = format!("{}{bare}", random.pick(&["+", "+", "+0", "+000"]));
    maybe_in_blanks(random, signed, 60)
}

/// No number, by blanks and signs.
pub fn misspelled(random: &mut Random, bare: &str) -> String {
    let digits = bare.trim_start_matches('-');
    let sign = random.pick(&SIGNS);
    let text = match random.below(10) {
        0 => return blanks(random).to_string(),
        1 => return sign.to_string(),
        2 => return in_blanks(random, sign),
        3 | 4 => format!("{sign}{}{digits}", blanks(random)),
        5 | 6 => format!("{digits}{}{}", blanks(random), random.below(100)),
        7 => format!("{}{digits}", random.pick(&TWO_SIGNS)),
        8 => format!("{digits}{}{sign}", random.pick(&["", "", " "])),
        _ => beside(random, bare, &NO_BLANKS),
    };
    maybe_in_blanks(random, text, 30)
}

/// No number as the content of an element: a comment, an instruction, a reference or a child beside blanks.
fn interrupted(random: &mut Random, bare: &str) -> String {
    let text = maybe_in_blanks(random, bare.to_string(), 80);
    let text = beside(random, &text, &BESIDE);
    maybe_in_blanks(random, text, 50)
}

/// No size, though some of these are numbers.
fn missized(random: &mut Random, size: &str) -> String {
    let text = match random.below(8) {
        0 => format!("0{size}"),
        1 => format!("+{size}"),
        2 => format!("{size}{}{size}", blanks(random)),
        3 => return blanks(random).to_string(),
        4 => random.pick(&SIGNS).to_string(),
        5 => format!("+{}{size}", blanks(random)),
        6 => format!("-{size}"),
        _ => beside(random, size, &NO_BLANKS),
    };
    maybe_in_blanks(random, text, 30)
}

/// What a text must be: a number or one of the listed sizes.
#[derive(Debug, Clone, Copy, PartialEq, Eq)]
pub enum Rule {
    Number,
    Size,
}

/// The text of such an attribute or element.
struct Spot<'a> {
    text: &'a mut String,
    rule: Rule,
    is_content: bool,
}

/// Whether an element's text must be a number.
pub fn is_numeric(name: &str, within_int: bool) -> bool {
    within_int && ["min", "max", "default", "property"].contains(&name)
}

/// Whether what this element holds stands within an int.
pub fn holds_within_int(name: &str, within_int: bool) -> bool {
    name == "int" || within_int && ["map", "relation"].contains(&name)
}

fn rule_of(element: &str, attribute: &str) -> Option<Rule> {
    match (element, attribute) {
        ("int" | "float", "size") => Some(Rule::Size),
        (_, "space" | "origin" | "fixed" | "var" | "replication" | "offset" | "size") => Some(Rule::Number),
        _ => None,
    }
}

/// Notes the bare numbers and sizes of a node.
fn note<'a>(node: &'a mut Node, within_int: bool, spots: &mut Vec<Spot<'a>>) {
    let Node { name, attributes, items, .. } = node;
    for (attribute, text) in attributes {
        if let Some(rule) = rule_of(name, attribute).filter(|_| is_bare(text.as_bytes())) {
            spots.push(Spot { text, rule, is_content: false });
        }
    }
    for item in items {
        match item {
            Item::Node(child) => note(child, holds_within_int(name, within_int), spots),
            Item::Raw(text) if is_numeric(name, within_int) && is_bare(text.as_bytes()) => {
                spots.push(Spot { text, rule: Rule::Number, is_content: true });
            }
            Item::Raw(_) => {}
        }
    }
}

/// Spells so many in a hundred of a description's numbers and sizes in another way.
pub fn dress(random: &mut Random, root: &mut Node, percent: usize) {
    let mut spots = Vec::new();
    note(root, false, &mut spots);
    for spot in spots {
        if !random.chance(percent) {
            continue;
        }
        *spot.text = match spot.rule {
            Rule::Number => dressed(random, spot.text),
            Rule::Size => in_blanks(random, spot.text),
        };
    }
}

/// Makes one of a description's numbers, or of its sizes, none; without such it stays as it is.
pub fn misspell(random: &mut Random, root: &mut Node, wanted: Rule) {
    let mut spots = Vec::new();
    note(root, false, &mut spots);
    spots.retain(|spot| spot.rule == wanted);
    if spots.is_empty() {
        return;
    }
    let chosen = random.below(spots.len());
    let spot = &mut spots[chosen];
    *spot.text = match spot.rule {
        Rule::Size => missized(random, spot.text),
        Rule::Number if spot.is_content && random.chance(30) => interrupted(random, spot.text),
        Rule::Number => misspelled(random, spot.text),
    };
}
