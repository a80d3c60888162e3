//! Faults against the table of elements, planted in descriptions: one of a wanted number, or several in one tag or in one element.

use crate::random::Random;
use crate::refusal::{MISSING_ATTRIBUTE, MISSING_CHILD, OUT_OF_ORDER, STRAY_TEXT, TOO_OFTEN};
use crate::refusal::{UNKNOWN_ATTRIBUTE, UNKNOWN_ELEMENT, WRONG_TEXT};
use crate::rules::{find_row, AttributeRule, Content, Count, Entry, Row, Value, CDI, SCHEMA_INSTANCE, SCHEMA_LOCATION};

use super::damage::{NAMES, VALUES};
use super::describe::{description, shuffle, Measure};
use super::markup::{root, segment, Item, Node};

/// Names that no row has for an attribute, or only some rows have.
#[rustfmt::skip]
const ATTRIBUTES: [&str; 24] = [
    "a", "b", "_", ":", "x-y", "Size", "siz", "size1", "offsets", "xmlns", "xmlns:xs", "xsi:schemaLocation", "name",
    "min", "size", "offset", "space", "origin", "replication", "fixed", "var", "formatting", "xmlns:xsi",
    "xsi:noNamespaceSchemaLocation",
];
const NOT_NUMBERS: [&str; 8] = ["x", "", " ", "+", "1 1", "0x1", "--1", "1.0"];
const BEYOND: [&str; 5] = ["-2147483649", "2147483648", "99999999999999999999", "4294967296", "-18446744073709551616"];
const NO_SIZES: [&str; 8] = ["3", "04", "+4", "", "x", "16", "0", "4 4"];
const NO_FORMATTINGS: [&str; 10] = ["", "%", "f", "%d", "%F", "%f ", " %f", "%1.2.3f", "%-1f", "4"];
const STRAYS: [&str; 14] =
    ["x", "0", " x", "\n\t x ", "é", "\u{A0}", "]]", "&amp;", "&#32;", "&#10;", " &#x20;", "\n&lt;", "=", "'"];
const TEXTS: [&str; 4] = ["", "x", "7", "&amp;"];
const NUMBERS: [&str; 8] =
    ["0", "1", "x", "", "1 1", "18446744073709551616", "-9223372036854775809", "+99999999999999999999"];
const ROOTS: [&str; 6] = ["CDI", "a", "segment", "cdi1", "cd", "int"];

/// An element of a description that the table knows: its number in document order, and its row.
#[derive(Clone, Copy)]
struct Known {
    number: usize,
    row: &'static Row,
}

/// Notes a node and all that is known below it.
fn note(node: &Node, number: usize, row: &'static Row, found: &mut Vec<Known>) {
    found.push(Known { number, row });
    let Content::Children(entries) = row.content else { return };
    let mut next = number + 1;
    for item in &node.items {
        let Item::Node(child) = item else { continue };
        if let Some((_, row)) = find_row(entries, child.name.as_bytes()) {
            note(child, next, row, found);
        }
        next += child.elements();
    }
}

fn is_text(rule: &AttributeRule) -> bool {
    matches!(rule.value, Value::Fixed(_) | Value::Formatting)
}

fn is_number(rule: &AttributeRule) -> bool {
    matches!(rule.value, Value::Number { .. })
}

fn is_ranged(rule: &AttributeRule) -> bool {
    !is_text(rule)
}

/// The faults that a tag of this row may have.
fn of_tag(row: &Row) -> Vec<u8> {
    let has = |sort: fn(&AttributeRule) -> bool| row.attributes.iter().any(sort);
    let possible = [
        (UNKNOWN_ATTRIBUTE, true),
        (MISSING_ATTRIBUTE, has(|rule| rule.required)),
        (WRONG_TEXT, has(is_text)),
        (9, has(is_number)),
        (10, has(is_ranged)),
    ];
    possible.into_iter().filter(|(_, holds)| *holds).map(|(number, _)| number).collect()
}

fn entries_of(row: &'static Row) -> &'static [Entry] {
    match row.content {
        Content::Children(entries) => entries,
        Content::Text | Content::Number => &[],
    }
}

fn holds_number(entry: &Entry) -> bool {
    entry.rows.iter().any(|row| matches!(row.content, Content::Number))
}

/// The faults that the content of an element of this row may have.
fn of_content(row: &'static Row) -> Vec<u8> {
    let entries = entries_of(row);
    let has = |sort: fn(&Entry) -> bool| entries.iter().any(sort);
    let numeric = matches!(row.content, Content::Number);
    let possible = [
        (UNKNOWN_ELEMENT, !numeric),
        (STRAY_TEXT, matches!(row.content, Content::Children(_))),
        (OUT_OF_ORDER, entries.len() > 1),
        (TOO_OFTEN, has(|entry| entry.count != Count::Any)),
        (MISSING_CHILD, has(|entry| entry.count == Count::One)),
        (9, numeric || has(holds_number)),
        (10, numeric || has(holds_number)),
    ];
    possible.into_iter().filter(|(_, holds)| *holds).map(|(number, _)| number).collect()
}

/// An attribute that the row lacks, at any place among the others.
fn add_unknown(random: &mut Random, node: &mut Node, row: &Row) {
    let stands = |name: &str| {
        let known = row.attributes.iter().any(|rule| rule.name == name);
        known || node.attributes.iter().any(|given| given.0 == name)
    };
    let names: Vec<&str> = ATTRIBUTES.into_iter().filter(|name| !stands(name)).collect();
    if names.is_empty() {
        return;
    }
    let place = random.below(node.attributes.len() + 1);
    node.attributes.insert(place, (random.pick(&names).to_string(), random.pick(&VALUES).to_string()));
}

fn remove_required(random: &mut Random, node: &mut Node, row: &Row) {
    let required: Vec<&str> = row.attributes.iter().filter(|rule| rule.required).map(|rule| rule.name).collect();
    let name = random.pick(&required);
    node.attributes.retain(|given| given.0 != name);
}

/// A text that is none of those that the rule allows: not the fixed one, no number, or beyond its range.
fn wrong_value(random: &mut Random, rule: &AttributeRule, number: u8) -> String {
    match rule.value {
        Value::Fixed(fixed) => match random.below(6) {
            0 => String::new(),
            1 => format!("{fixed} "),
            2 => format!("\n{fixed}"),
            3 => fixed.replace('3', "4"),
            4 => if fixed == SCHEMA_INSTANCE { SCHEMA_LOCATION } else { SCHEMA_INSTANCE }.to_string(),
            _ => fixed[..fixed.len() - 1].to_string(),
        },
        Value::Formatting => random.pick(&NO_FORMATTINGS).to_string(),
        Value::Size(_) => random.pick(&NO_SIZES).to_string(),
        Value::Number { .. } if number == 9 => random.pick(&NOT_NUMBERS).to_string(),
        Value::Number { .. } => random.pick(&BEYOND).to_string(),
    }
}

/// Gives one of the row's attributes of this sort a wrong text.
fn misvalue(random: &mut Random, node: &mut Node, row: &Row, number: u8, sort: fn(&AttributeRule) -> bool) {
    let rules: Vec<&AttributeRule> = row.attributes.iter().filter(|rule| sort(rule)).collect();
    let rule = rules[random.below(rules.len())];
    revalue(random, node, rule, number);
}

/// Gives an attribute a wrong text, whether or not it stood before.
fn revalue(random: &mut Random, node: &mut Node, rule: &AttributeRule, number: u8) {
    let value = wrong_value(random, rule, number);
    node.attributes.retain(|given| given.0 != rule.name);
    let place = random.below(node.attributes.len() + 1);
    node.attributes.insert(place, (rule.name.to_string(), value));
}

fn plant_in_tag(random: &mut Random, node: &mut Node, row: &Row, number: u8) {
    match number {
        UNKNOWN_ATTRIBUTE => add_unknown(random, node, row),
        MISSING_ATTRIBUTE => remove_required(random, node, row),
        WRONG_TEXT => misvalue(random, node, row, number, is_text),
        9 => misvalue(random, node, row, number, is_number),
        _ => misvalue(random, node, row, number, is_ranged),
    }
}

/// An element of one of an entry's rows; what it holds isn't always a number where it must be.
fn child_of(random: &mut Random, entry: &Entry) -> Node {
    let row = entry.rows[random.below(entry.rows.len())];
    let mut node = match row.content {
        Content::Text => Node::text(row.name, random.pick(&TEXTS)),
        Content::Number => Node::text(row.name, random.pick(&NUMBERS)),
        Content::Children(_) => Node::new(row.name),
    };
    for rule in row.attributes {
        if rule.required || random.chance(20) {
            node = node.with(rule.name, random.pick(&["2", "4", "2", "x", "300"]));
        }
    }
    node
}

/// The entry of an item, if it is a known child.
fn entry_of(item: &Item, entries: &'static [Entry]) -> Option<usize> {
    match item {
        Item::Node(child) => find_row(entries, child.name.as_bytes()).map(|(entry, _)| entry),
        Item::Raw(_) => None,
    }
}

/// The first place among the items where a child of this entry stands in order.
fn place_for(node: &Node, entries: &'static [Entry], entry: usize) -> usize {
    let later = |item: &Item| entry_of(item, entries).is_some_and(|other| other > entry);
    node.items.iter().position(later).unwrap_or(node.items.len())
}

fn add_unknown_child(random: &mut Random, node: &mut Node, row: &'static Row) {
    let entries = entries_of(row);
    let unknown = |name: &&str| find_row(entries, name.as_bytes()).is_none();
    let names: Vec<&str> = NAMES.into_iter().filter(unknown).collect();
    let mut child = Node::text(random.pick(&names), random.pick(&TEXTS));
    if random.chance(25) {
        child = child.with(random.pick(&ATTRIBUTES), random.pick(&VALUES));
    }
    let place = random.below(node.items.len() + 1);
    node.items.insert(place, Item::Node(child));
}

/// One of these entries, often one that must be a number where there is such.
fn some_entry(random: &mut Random, entries: &[Entry], from: &[usize]) -> usize {
    let numeric: Vec<usize> = from.iter().copied().filter(|entry| holds_number(&entries[*entry])).collect();
    let from = if numeric.is_empty() || random.chance(50) { from } else { &numeric };
    random.pick(from)
}

/// A child behind one that is listed later; an earlier one of its kind may stay.
fn put_behind(random: &mut Random, node: &mut Node, row: &'static Row) {
    let entries = entries_of(row);
    let all: Vec<usize> = (0..entries.len() - 1).collect();
    let early = some_entry(random, entries, &all);
    if random.chance(50) {
        node.items.retain(|item| entry_of(item, entries) != Some(early));
    }
    let from = place_for(node, entries, early);
    if from == node.items.len() {
        let late = early + 1 + random.below(entries.len() - 1 - early);
        node.push(child_of(random, &entries[late]));
    }
    let place = from + 1 + random.below(node.items.len() - from);
    let child = child_of(random, &entries[early]);
    node.items.insert(place, Item::Node(child));
}

/// One or two children more of an entry that may stand once, all in order; which entry that is.
fn put_again(random: &mut Random, node: &mut Node, row: &'static Row) -> usize {
    let entries = entries_of(row);
    let single: Vec<usize> = (0..entries.len()).filter(|entry| entries[*entry].count != Count::Any).collect();
    let entry = some_entry(random, entries, &single);
    let place = place_for(node, entries, entry);
    let stands = node.items.iter().any(|item| entry_of(item, entries) == Some(entry));
    for _ in stands as usize..2 {
        let child = child_of(random, &entries[entry]);
        node.items.insert(place, Item::Node(child));
    }
    entry
}

/// No child of one of the entries that must stand, or of all of them.
fn remove_needed(random: &mut Random, node: &mut Node, row: &'static Row) {
    let entries = entries_of(row);
    let needed: Vec<usize> = (0..entries.len()).filter(|entry| entries[*entry].count == Count::One).collect();
    let (all, chosen) = (random.chance(25), random.pick(&needed));
    let goes = |entry: usize| if all { needed.contains(&entry) } else { entry == chosen };
    node.items.retain(|item| !entry_of(item, entries).is_some_and(goes));
}

/// A child, or the element itself, that is no number or one beyond its range.
fn misnumber(random: &mut Random, node: &mut Node, row: &'static Row, number: u8) {
    let text = match number {
        9 => random.pick(&["x", "", " ", "+", "1 1", "1<!---->", "&#49;", "<a/>"]),
        _ => random.pick(&["18446744073709551616", "-9223372036854775809", "+99999999999999999999"]),
    };
    if matches!(row.content, Content::Number) {
        node.items = vec![Item::Raw(text.to_string())];
        return;
    }
    let entries = entries_of(row);
    let numeric: Vec<usize> = (0..entries.len()).filter(|entry| holds_number(&entries[*entry])).collect();
    let entry = random.pick(&numeric);
    node.items.retain(|item| entry_of(item, entries) != Some(entry));
    let place = place_for(node, entries, entry);
    node.items.insert(place, Item::Node(Node::text(entries[entry].rows[0].name, text)));
}

fn plant_in_content(random: &mut Random, node: &mut Node, row: &'static Row, number: u8) {
    match number {
        UNKNOWN_ELEMENT => add_unknown_child(random, node, row),
        OUT_OF_ORDER => put_behind(random, node, row),
        TOO_OFTEN => drop(put_again(random, node, row)),
        MISSING_CHILD => remove_needed(random, node, row),
        STRAY_TEXT => {
            let place = random.below(node.items.len() + 1);
            node.items.insert(place, Item::Raw(random.pick(&STRAYS).to_string()));
        }
        _ => misnumber(random, node, row, number),
    }
}

fn plant(random: &mut Random, node: &mut Node, row: &'static Row, number: u8) {
    let (tag, content) = (of_tag(row).contains(&number), of_content(row).contains(&number));
    if tag && (!content || random.chance(50)) {
        plant_in_tag(random, node, row, number);
    } else if content {
        plant_in_content(random, node, row, number);
    }
}

/// One of the known elements that this holds for: a row first, so that each has its turn.
fn chosen(random: &mut Random, root: &Node, holds: impl Fn(&'static Row) -> bool) -> Option<Known> {
    let mut known = Vec::new();
    note(root, 0, &CDI, &mut known);
    known.retain(|known| holds(known.row));
    let mut rows: Vec<&Row> = Vec::new();
    for found in &known {
        if !rows.iter().any(|row| std::ptr::eq(*row, found.row)) {
            rows.push(found.row);
        }
    }
    if rows.is_empty() {
        return None;
    }
    let row = random.pick(&rows);
    known.retain(|known| std::ptr::eq(known.row, row));
    Some(random.pick(&known))
}

/// A description with a data element or two and few other children, in which each row has its turn.
fn short(random: &mut Random) -> Node {
    let mut data = match random.below(5) {
        0 => Node::new("group").holding(Node::new("int")),
        1 => Node::new("string").with("size", random.below(9) + 1),
        2 => Node::new("eventid"),
        3 => Node::new("float").with("size", 4).with("formatting", "%f"),
        _ => Node::new("int").with("size", 2).holding(Node::text("max", "7")),
    };
    if data.name != "group" && random.chance(60) {
        let relation = Node::new("relation").holding(Node::text("property", "1")).holding(Node::text("value", "x"));
        data.push(Node::new("map").holding(relation));
    } else {
        data.items.insert(0, Item::Node(Node::text("name", "x")));
    }
    let mut root = root();
    for name in ["identification", "acdi"] {
        if random.chance(20) {
            root.push(Node::new(name));
        }
    }
    root.holding(segment(random.below(256)).holding(data))
}

/// A description to plant faults in: a short one where all must be small.
pub fn ground(random: &mut Random, measure: &Measure) -> Node {
    if measure.data < 10 && random.chance(80) {
        short(random)
    } else {
        description(random, measure)
    }
}

/// Plants a fault of this number in one of the elements that may have it, if there is one.
pub fn plant_one(random: &mut Random, root: &mut Node, number: u8) {
    if number == UNKNOWN_ELEMENT && random.chance(8) {
        root.name = random.pick(&ROOTS).to_string();
        return;
    }
    let may = |row: &'static Row| of_tag(row).contains(&number) || of_content(row).contains(&number);
    let Some(known) = chosen(random, root, may) else { return };
    if let Some(node) = root.element_mut(known.number) {
        plant(random, node, known.row, number);
    }
}

/// What has several faults in its tag.
#[rustfmt::skip]
const TAGS: [&str; 20] = [
    "float", "float", "float", "float", "float", "float", "float", "cdi", "cdi", "segment", "segment", "string",
    "string", "int", "group", "acdi", "eventid", "relation", "max", "name",
];
/// What has several faults in its content.
#[rustfmt::skip]
const HOLDERS: [&str; 20] = [
    "int", "int", "int", "int", "int", "int", "int", "relation", "relation", "relation", "relation", "segment",
    "group", "cdi", "identification", "map", "acdi", "string", "float", "eventid",
];

/// Two or three of these numbers, now and then one of them twice; those that take something away come last.
fn some_of(random: &mut Random, from: &[u8]) -> Vec<u8> {
    let count = 2 + random.chance(40) as usize;
    let mut numbers = Vec::new();
    while numbers.len() < count {
        let number = random.pick(from);
        if !numbers.contains(&number) || random.chance(20) {
            numbers.push(number);
        }
    }
    numbers.sort_by_key(|number| [MISSING_ATTRIBUTE, MISSING_CHILD].contains(number));
    numbers
}

fn spoil_tag(random: &mut Random, node: &mut Node, row: &Row) {
    for number in some_of(random, &of_tag(row)) {
        plant_in_tag(random, node, row, number);
    }
    if row.name == "cdi" && random.chance(40) {
        let rules = row.attributes.iter().filter(|rule| is_text(rule));
        rules.for_each(|rule| revalue(random, node, rule, WRONG_TEXT));
    }
    shuffle(random, node);
}

fn spoil_content(random: &mut Random, node: &mut Node, row: &'static Row) {
    for number in some_of(random, &of_content(row)) {
        plant_in_content(random, node, row, number);
    }
}

/// A relation that lacks a child and has one other fault, in its tag or in it.
fn spoil_relation(random: &mut Random, node: &mut Node, row: &'static Row) {
    let entries = entries_of(row);
    let numeric = entries.iter().any(holds_number);
    let mut kept = random.below(entries.len());
    if numeric && random.chance(40) {
        misnumber(random, node, row, 9);
        kept = 0;
    } else {
        match random.below(4) {
            0 => add_unknown(random, node, row),
            1 => kept = put_again(random, node, row),
            2 => add_unknown_child(random, node, row),
            _ => plant_in_content(random, node, row, STRAY_TEXT),
        }
    }
    node.items.retain(|item| entry_of(item, entries).is_none_or(|entry| entry == kept));
}

/// Gives an int bounds that cross, and an unknown attribute to it or to one of them.
fn cross_bounds(random: &mut Random, node: &mut Node, row: &'static Row) {
    let entries = entries_of(row);
    for (name, text) in [("min", "2"), ("max", "1")] {
        let Some((entry, bound)) = find_row(entries, name.as_bytes()) else { return };
        node.items.retain(|item| entry_of(item, entries) != Some(entry));
        let mut child = Node::text(name, text);
        if random.chance(20) {
            add_unknown(random, &mut child, bound);
        }
        let place = place_for(node, entries, entry);
        node.items.insert(place, Item::Node(child));
    }
    add_unknown(random, node, row);
}

/// A description with several faults in one tag, in the content of one element, or in both.
pub fn several(random: &mut Random, measure: &Measure) -> Node {
    let kind = random.below(100);
    let (crossed, tag, content) = (kind < 6, (6..58).contains(&kind), kind >= 50);
    let name = match kind {
        0..=5 => "int",
        _ if tag => random.pick(&TAGS),
        _ => random.pick(&HOLDERS),
    };
    loop {
        let mut root = ground(random, measure);
        let Some(known) = chosen(random, &root, |row| row.name == name) else { continue };
        let Some(node) = root.element_mut(known.number) else { continue };
        if crossed {
            cross_bounds(random, node, known.row);
        }
        if tag {
            spoil_tag(random, node, known.row);
        }
        if content && name == "relation" && random.chance(60) {
            spoil_relation(random, node, known.row);
        } else if content {
            spoil_content(random, node, known.row);
        }
        return root;
    }
}
