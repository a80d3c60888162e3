//! The boundary cases of planning with blanks and signs in numbers and sizes.

use super::super::markup::{plain, root, segment, Node};
use super::{cdi, cdi_with, map_of};
use crate::answer::Case;

/// Spellings of numbers, and texts near them that are none.
const NUMBERS: [&str; 11] = ["\t7", "\n\t 7 \n", " +007 ", " -5 ", " ", " + ", "+ 7", "7 7", "+-7", "7+", "\u{A0}7"];
/// The same for sizes.
#[rustfmt::skip]
const SIZES: [&str; 13] = [
    " 4 ", "\n4", "4\t", "04", "+4", "-4", "4 4", " ", "+", "\u{A0}4", " 04 ", "+ 4", " x",
];
/// How many blanks or zeros stand where there are very many.
const FAR: usize = 60_000;

fn acdi(attribute: &str, number: &str) -> Node {
    root().holding(Node::new("acdi").with(attribute, number))
}

fn group(replication: &str) -> Node {
    cdi_with(Node::new("group").with("replication", replication))
}

fn int_at(offset: &str) -> Node {
    cdi_with(Node::new("int").with("offset", offset))
}

fn sized(element: &str, size: &str) -> Node {
    cdi_with(Node::new(element).with("size", size))
}

/// An int of this size with one such child.
fn int_of(size: &str, name: &str, number: &str) -> Node {
    cdi_with(Node::new("int").with("size", size).holding(Node::text(name, number)))
}

fn bounded(min: &str, max: &str) -> Node {
    cdi_with(Node::new("int").holding(Node::text("min", min)).holding(Node::text("max", max)))
}

/// The text as the value of each attribute and the content of each element that must be a number.
fn everywhere(number: &str) -> Vec<Node> {
    let mut nodes = vec![
        acdi("fixed", number),
        acdi("var", number),
        cdi(segment(number)),
        cdi(segment(0).with("origin", number)),
        group(number),
        int_at(number),
        sized("string", number),
        cdi_with(Node::new("int").holding(map_of(&[number]))),
    ];
    nodes.extend(["min", "max", "default"].map(|name| int_of("1", name, number)));
    nodes
}

/// The ends of ranges behind a plus or in blanks, zero behind each sign, and numbers of very many digits.
fn ranges() -> Vec<Node> {
    let mut nodes = Vec::new();
    nodes.extend(["+0", "-0", "+255", "+256", " 256 ", " -1"].map(|space| cdi(segment(space))));
    nodes.extend(["+0", "-0", " 0", "+1", "+2147483647", "+2147483648"].map(group));
    nodes.extend(["+0", "-0", "+04", " +65535 ", "+65536"].map(|size| sized("string", size)));
    nodes.extend(["+2147483647", "+2147483648", " -2147483648 ", " -2147483649 "].map(int_at));
    nodes.extend(
        [("+0", "255"), (" -0 ", "+255"), (" -1 ", "127"), ("\n-1", "+128"), ("+1", " 0")]
            .map(|(min, max)| bounded(min, max)),
    );
    nodes.extend(["+18446744073709551615", "+18446744073709551616"].map(|max| int_of(" 8\n", "max", max)));
    nodes.extend([" -9223372036854775808 ", " -9223372036854775809"].map(|min| int_of("\t8", "min", min)));
    for digits in [format!("{}5", "0".repeat(300)), format!("{}5", "0".repeat(FAR)), "9".repeat(300)] {
        let number = format!("+{digits}");
        nodes.extend([sized("string", &number), int_at(&number), bounded(&number, "7")]);
    }
    nodes
}

/// Very many blanks before, behind and around a number or a size, between digits, and alone.
fn far() -> Vec<Node> {
    let (all, half) = (" ".repeat(FAR), "\n".repeat(FAR / 2));
    let mut nodes = vec![sized("int", &format!("{half}2{half}")), sized("float", &format!("{half}04{half}"))];
    for text in
        [format!("{all}+7"), format!("-7{all}"), format!("{half}+7{half}"), format!("7{all}7"), format!("+{all}"), all]
    {
        nodes.extend([int_at(&text), int_of("1", "default", &text)]);
    }
    nodes
}

/// The boundary cases of these.
pub fn of_plan() -> Vec<Case> {
    let mut nodes: Vec<Node> = NUMBERS.into_iter().flat_map(everywhere).collect();
    nodes.extend(SIZES.into_iter().flat_map(|size| [sized("int", size), sized("float", size)]));
    nodes.extend(ranges());
    nodes.extend(far());
    nodes.iter().map(|node| Case::Plan { room: 64, text: plain(node) }).collect()
}
