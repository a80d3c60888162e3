//! Damage to descriptions: by structure, by token and by byte.

use crate::random::Random;

use super::markup::{Item, Node};

/// Tokens that are apt to break a rule, or almost.
#[rustfmt::skip]
pub const TOKENS: [&str; 92] = [
    "]]>", "]]", "]", "--", "-->", "<!--", "<!---->", "<!-- a --->", "<!-- a -- b -->", "<!--> -->", "&#13;",
    "&#xD800;", "&#xDFFF;", "&#xE000;", "&#0;", "&#1;", "&#9;", "&#x0A;", "&#x10FFFF;", "&#x110000;", "&#xFFFE;",
    "&#xFFFD;", "&#;", "&#x;", "&#X41;", "&#99999999999999999999;", "&#00000000000000000000065;", "&#x41", "&lt;",
    "&lt", "&LT;", "&nbsp;", "&", "&&", "& ", "<![CDATA[", "<![CDATA[x]]>", "<![CDATX[", "<!DOCTYPE",
    "<!DOCTYPE cdi>", "<!doctype x>", "<!", "<!->", "<?XmL ?>", "<?xml version=\"1.0\"?>", "<?xml-stylesheet ?>",
    "<?xMl?>", "<?p?>", "<?p??>", "<?p ??>", "<? p?>", "<?p", "<?p x", "?>", "<", ">", "/>", "</", "</cdi>",
    "</cdi >", "</ cdi>", "<cdi>", "<a>", "<a/>", "</a>", "<a b='1' b='2'/>", "<a b='1'c='2'/>", "<a b = '&'/>",
    "<a b='<'/>", "<a b=1/>", "<a b/>", "<a b='", "<1/>", "<é/>", "<a / >", " / ", "\"", "'", "=", "x", " ", "\n",
    "\u{FEFF}", "&#32;", "&#4294967361;", "&#x100000041;", "&#18446744073709551681;", "&#x10000000000000041;",
    "]]<!---->>", "]]&gt;", "]<?p?>]>", "]]]>",
];

/// Values that are apt to lie on the edge of a rule.
#[rustfmt::skip]
pub const VALUES: [&str; 79] = [
    "04", "+4", "-0", "-", "", "0", "1", "2", "3", "4", "8", "16", "-1", "--1", "1 ", " 1", "1.0", "0x1", "1e3",
    "A", "-00", "00000000000000000000000000000000000000001", "12345678901234567890",
    "1234567890123456789012345678901234567890", "-1234567890123456789012345678901234567890",
    "9999999999999999999999999999999", "127", "128", "-128", "-129", "255", "256", "-32768", "-32769", "32767",
    "65535", "65536", "2147483646", "2147483647", "2147483648", "-2147483647", "-2147483648", "-2147483649",
    "4294967295", "4294967296", "4294967297", "9223372036854775807", "9223372036854775808", "-9223372036854775808",
    "-9223372036854775809", "18446744073709551615", "18446744073709551616", "18446744073709551617",
    "340282366920938463463374607431768211457", "1\n", "٣", "%f", "%5.2f", "+", " ", "\t", " -", "+ 4", "- 1", "4 4",
    "+-1", "++1", "4+", "1-", "\u{A0}1", "1\u{A0}", " 4 ", "\t1", "\n8\n", "+0", "+007", " +2 ", "\n-1\t", "+256",
];

#[rustfmt::skip]
pub const NAMES: [&str; 26] = [
    "cdi", "identification", "manufacturer", "model", "hardwareVersion", "softwareVersion", "acdi", "segment",
    "group", "int", "string", "eventid", "float", "map", "relation", "property", "value", "name", "description",
    "repname", "min", "max", "default", "bit", "a", "Int",
];

#[rustfmt::skip]
const ATTRIBUTES: [&str; 12] = [
    "size", "offset", "space", "origin", "replication", "fixed", "var", "formatting", "xmlns:xsi",
    "xsi:noNamespaceSchemaLocation", "a", "Size",
];

fn spoil_attribute(random: &mut Random, node: &mut Node) {
    let count = node.attributes.len();
    if count == 0 || random.chance(25) {
        node.attributes.push((random.pick(&ATTRIBUTES).to_string(), random.pick(&VALUES).to_string()));
        return;
    }
    let chosen = random.below(count);
    match random.below(8) {
        0 => drop(node.attributes.remove(chosen)),
        1 => node.attributes.push(node.attributes[chosen].clone()),
        2 => node.attributes[chosen].0 = random.pick(&ATTRIBUTES).to_string(),
        3 => node.attributes[chosen].1.push_str(random.pick(&[" ", "0", "&amp;", "x", "\t", "\n", "+", " 1"])),
        _ => node.attributes[chosen].1 = random.pick(&VALUES).to_string(),
    }
}

fn spoil_items(random: &mut Random, node: &mut Node) {
    let count = node.items.len();
    let place = random.below(count + 1);
    if count == 0 || random.chance(20) {
        let raw = random.pick(&TOKENS).to_string();
        node.items.insert(place, Item::Raw(raw));
        return;
    }
    let chosen = random.below(count);
    match random.below(4) {
        0 => drop(node.items.remove(chosen)),
        1 => node.items.insert(place, node.items[chosen].clone()),
        2 => node.items.swap(chosen, place.min(count - 1)),
        _ => node.items.insert(place, Item::Node(Node::text(random.pick(&NAMES), random.pick(&VALUES)))),
    }
}

fn spoil_text(random: &mut Random, node: &mut Node) {
    node.items = match random.below(6) {
        0 => Vec::new(),
        1 => vec![Item::Raw(format!("1{}", random.pick(&["<!---->", "<?p?>", "&#49;", "<a/>", " "])))],
        _ => vec![Item::Raw(random.pick(&VALUES).to_string())],
    };
}

/// One change to the structure of a description.
pub fn structure(random: &mut Random, root: &mut Node) {
    let count = root.elements();
    let copied = root.element_mut(random.below(count)).cloned();
    let Some(node) = root.element_mut(random.below(count)) else { return };
    match random.below(13) {
        12 => {
            // Several faults in one tag.
            for _ in 0..2 + random.below(2) {
                spoil_attribute(random, node);
            }
        }
        0..=3 => spoil_attribute(random, node),
        4..=6 => spoil_items(random, node),
        7 => node.name = random.pick(&NAMES).to_string(),
        8 | 9 if !node.loose => spoil_text(random, node),
        8 | 9 => spoil_items(random, node),
        10 => node.items.clear(),
        _ => {
            // Some element of the description once more, elsewhere.
            let place = random.below(node.items.len() + 1);
            if let Some(copy) = copied.filter(|copy| copy.name != "cdi") {
                node.items.insert(place, Item::Node(copy));
            }
        }
    }
}

fn is_word(byte: u8) -> bool {
    byte.is_ascii_alphanumeric() || b"_:.-".contains(&byte) || byte >= 0x80
}

/// Cuts bytes into words, runs of blanks and single bytes.
fn tokens(content: &[u8]) -> Vec<Vec<u8>> {
    let sort = |byte: u8| {
        if is_word(byte) {
            1
        } else if b" \t\n".contains(&byte) {
            2
        } else {
            0
        }
    };
    let mut tokens: Vec<Vec<u8>> = Vec::new();
    for byte in content {
        match tokens.last_mut() {
            Some(last) if sort(*byte) != 0 && sort(*byte) == sort(last[0]) => last.push(*byte),
            _ => tokens.push(vec![*byte]),
        }
    }
    tokens
}

/// So many changes to the tokens behind the first line.
pub fn by_token(random: &mut Random, content: &[u8], changes: usize) -> Vec<u8> {
    let start = 22.min(content.len());
    let mut tokens = tokens(&content[start..]);
    for _ in 0..changes {
        let count = tokens.len();
        let place = random.below(count + 1);
        let other: Vec<u8> = match random.below(3) {
            0 => random.pick(&VALUES).as_bytes().to_vec(),
            1 => random.pick(&NAMES).as_bytes().to_vec(),
            _ => random.pick(&TOKENS).as_bytes().to_vec(),
        };
        if count == 0 {
            tokens.push(other);
            continue;
        }
        let chosen = random.below(count);
        match random.below(6) {
            0 => drop(tokens.remove(chosen)),
            1 => tokens.insert(place, tokens[chosen].clone()),
            2 => tokens.swap(chosen, place.min(count - 1)),
            3 => tokens[chosen] = other,
            _ => tokens.insert(place, other),
        }
    }
    [&content[..start], &tokens.concat()].concat()
}

/// So many changes to single bytes; the zero at the end is among them.
pub fn by_byte(random: &mut Random, text: &mut Vec<u8>, changes: usize) {
    for _ in 0..changes {
        let place = random.below(text.len() + 1);
        let byte = if random.chance(60) { random.pick(b"<>/=\"'&;#!?-[] \n0123456789ax\r\0") } else { random.byte() };
        if place == text.len() {
            text.push(byte);
            continue;
        }
        match random.below(5) {
            0 => drop(text.remove(place)),
            1 => text.insert(place, byte),
            2 => text[place] ^= 1 << random.below(8),
            3 => text.swap(place, place.saturating_sub(1)),
            _ => text[place] = byte,
        }
    }
}
