//! Tags of many attributes, their names distinct or one of them twice.

use super::super::describe::{self, data, shuffle};
use super::super::markup::{content, root, segment, Item, Node};
use super::super::reached::tags::{KNOWN, SPANS, WIDTHS};
use super::super::texts::{ended, oddness};
use super::usual_room;
use crate::answer::Case;
use crate::random::Random;

const ELEMENTS: [&str; 9] = ["int", "group", "string", "float", "eventid", "segment", "name", "acdi", "a"];
const VALUES: [&str; 9] = ["1", "2", "4", "", "x", "%f", "-3", "256", "'"];
/// Names that begin as known ones do, or as each other.
const BEGINNINGS: [&str; 7] = ["a", "size", "siz", "offset-", "replicatio", "xmlns:xsi.", "_"];

/// Distinct names that no attribute has.
fn unknown(random: &mut Random, width: usize) -> Vec<String> {
    let beginning = random.pick(&BEGINNINGS);
    let from = random.below(90);
    let mut names: Vec<String> = (0..width).map(|n| format!("{beginning}{}", from + n)).collect();
    swap_about(random, &mut names);
    names
}

fn swap_about(random: &mut Random, names: &mut [String]) {
    for last in (1..names.len()).rev() {
        let other = random.below(last + 1);
        names.swap(last, other);
    }
}

/// Distinct names, one or more of them known.
fn mixed(random: &mut Random, width: usize) -> Vec<String> {
    let mut known = KNOWN.map(String::from);
    swap_about(random, &mut known);
    let count = 1 + random.below(width.min(known.len()));
    let mut names = unknown(random, width);
    names[..count].clone_from_slice(&known[..count]);
    swap_about(random, &mut names);
    names
}

/// Two places: the first or the last among them, side by side, or neither.
fn two_places(random: &mut Random, width: usize) -> (usize, usize) {
    match random.below(10) {
        0 | 1 => (0, 1),
        2 | 3 => (width - 2, width - 1),
        4 | 5 => (0, width - 1),
        6..=8 if width >= 5 => {
            let first = 1 + random.below(width - 4);
            (first, first + 2 + random.below(width - 3 - first))
        }
        _ => {
            let first = random.below(width - 1);
            (first, first + 1 + random.below(width - 1 - first))
        }
    }
}

/// Puts the name of one place at another too.
fn double(random: &mut Random, names: &mut [String], known: bool) {
    let (first, second) = two_places(random, names.len());
    if let Some(place) = names.iter().position(|name| KNOWN.contains(&name.as_str()) == known) {
        names.swap(place, first);
    }
    names[second] = names[first].clone();
}

fn tag(random: &mut Random, names: Vec<String>) -> Node {
    let mut node = Node::new(random.pick(&ELEMENTS));
    for name in names {
        node = node.with(&name, random.pick(&VALUES));
    }
    node
}

fn some_names(random: &mut Random, width: usize, known: bool) -> Vec<String> {
    if known {
        mixed(random, width)
    } else {
        unknown(random, width)
    }
}

/// A tag of so many attributes, all of them distinct; with three it may be one that keeps the rules.
fn distinct(random: &mut Random, width: usize) -> Node {
    if width == 3 && random.chance(30) {
        let mut float = Node::new("float").with("size", 4).with("offset", 2).with("formatting", "%.2f");
        shuffle(random, &mut float);
        return float;
    }
    let known = random.chance(50);
    let names = some_names(random, width, known);
    tag(random, names)
}

fn twice(random: &mut Random, width: usize) -> Node {
    let known = random.chance(50);
    let mut names = some_names(random, width, known);
    double(random, &mut names, known);
    tag(random, names)
}

/// A tag whose attributes have about as many bytes as a search of one size takes.
fn spanning(random: &mut Random) -> Node {
    let [least, middle, most] = SPANS;
    let bytes = random.pick(&[least, middle, middle, most, most]) - 3 + random.below(8);
    let mut node = Node::new(random.pick(&ELEMENTS));
    let mut left = bytes;
    // ` b0009="v"` for each; the last value takes what is left
    for n in 0.. {
        let name = format!("b{n:04}");
        let value = random.pick(&["", "7", "xy"]);
        let more = 4 + name.len() + value.len();
        if left < more + 9 {
            node = node.with(&name, "z".repeat(left.saturating_sub(4 + name.len())));
            break;
        }
        left -= more;
        node = node.with(&name, value);
    }
    if random.chance(50) {
        let (first, second) = two_places(random, node.attributes.len());
        node.attributes[second].0 = node.attributes[first].0.clone();
    }
    node
}

pub fn case(random: &mut Random) -> Case {
    let mut within = segment(random.below(256)).with("origin", 50);
    let mut left = 3;
    for _ in 0..random.below(3) {
        within.items.extend(data(random, &describe::USUAL, &mut left, 4).map(Item::Node));
    }
    match random.below(20) {
        0 | 1 => within.items.extend(WIDTHS.map(|width| Item::Node(distinct(random, width)))),
        2 => within.push(distinct(random, 3)),
        3..=5 => within.push(spanning(random)),
        _ => {
            let width = random.pick(&WIDTHS);
            within.push(twice(random, width));
        }
    }
    let odd = oddness(random);
    let content = content(random, &root().holding(within), odd);
    Case::Plan { room: usual_room(random), text: ended(random, content) }
}
