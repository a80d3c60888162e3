//! Markup as a tree that can be changed before it is written out, and writing it in many allowed ways.

use crate::random::Random;
use crate::rules::{SCHEMA_INSTANCE, SCHEMA_LOCATION};
use crate::text::FIRST_LINE;

#[derive(Debug, Clone)]
pub struct Node {
    pub name: String,
    pub attributes: Vec<(String, String)>,
    pub items: Vec<Item>,
    /// Whether blanks, comments and instructions between the items are without meaning.
    pub loose: bool,
}

/// A child element, or bytes that are written as they are.
#[derive(Debug, Clone)]
pub enum Item {
    Node(Node),
    Raw(String),
}

impl Node {
    /// An element with children.
    pub fn new(name: &str) -> Node {
        Node { name: name.to_string(), attributes: Vec::new(), items: Vec::new(), loose: true }
    }

    /// An element that holds this and nothing more.
    pub fn text(name: &str, raw: &str) -> Node {
        let items = if raw.is_empty() { Vec::new() } else { vec![Item::Raw(raw.to_string())] };
        Node { items, loose: false, ..Node::new(name) }
    }

    pub fn with(mut self, attribute: &str, value: impl ToString) -> Node {
        self.attributes.push((attribute.to_string(), value.to_string()));
        self
    }

    pub fn holding(mut self, child: Node) -> Node {
        self.items.push(Item::Node(child));
        self
    }

    pub fn push(&mut self, child: Node) {
        self.items.push(Item::Node(child));
    }

    /// How many elements there are, itself among them.
    pub fn elements(&self) -> usize {
        1 + self.items.iter().map(|item| if let Item::Node(node) = item { node.elements() } else { 0 }).sum::<usize>()
    }

    /// The element with this number in document order, itself being 0.
    pub fn element_mut(&mut self, number: usize) -> Option<&mut Node> {
        if number == 0 {
            return Some(self);
        }
        let mut left = number - 1;
        for item in &mut self.items {
            let Item::Node(node) = item else { continue };
            let elements = node.elements();
            if left < elements {
                return node.element_mut(left);
            }
            left -= elements;
        }
        None
    }

    /// The item that the element with this number is, in document order from 1 on.
    pub fn item_mut(&mut self, number: usize) -> Option<&mut Item> {
        let mut left = number.checked_sub(1)?;
        for item in &mut self.items {
            let Item::Node(node) = item else { continue };
            let elements = node.elements();
            if left == 0 {
                return Some(item);
            }
            if left < elements {
                let Item::Node(node) = item else { return None };
                return node.item_mut(left);
            }
            left -= elements;
        }
        None
    }
}

/// An empty root with its two attributes.
pub fn root() -> Node {
    Node::new("cdi").with("xmlns:xsi", SCHEMA_INSTANCE).with("xsi:noNamespaceSchemaLocation", SCHEMA_LOCATION)
}

pub fn segment(space: impl ToString) -> Node {
    Node::new("segment").with("space", space)
}

/// Writes markup; `odd` is how many times in a hundred something is written in a less plain way.
pub struct Writer<'a> {
    pub random: &'a mut Random,
    pub odd: usize,
    pub out: Vec<u8>,
}

impl Writer<'_> {
    fn put(&mut self, text: &str) {
        self.out.extend_from_slice(text.as_bytes());
    }

    fn blanks_or(&mut self, plain: &str) {
        let odd = self.odd;
        let text = if self.random.chance(odd) { self.random.pick(&[" ", "\t", "\n", "  ", " \n\t "]) } else { plain };
        self.put(text);
    }

    fn attribute(&mut self, name: &str, value: &str) {
        self.blanks_or(" ");
        self.put(name);
        self.blanks_or("");
        self.put("=");
        self.blanks_or("");
        let single = value.contains('"') || (!value.contains('\'') && self.random.chance(self.odd));
        let quote = if single { "'" } else { "\"" };
        self.put(quote);
        self.put(value);
        self.put(quote);
    }

    /// Something that may stand between children.
    fn between(&mut self) {
        let odd = self.odd;
        if self.random.chance(odd) {
            let text = self.random.pick(&[
                " ",
                "\n",
                "\t\n ",
                "<!---->",
                "<!-- a - b -->",
                "<!--> -->",
                "<!--<int>&amp;]]>-->",
                "<?p?>",
                "<?p ?>",
                "<?xml-stylesheet href='x'?>",
                "<?_ &<>?>",
                "<?xmlx a??>",
            ]);
            self.put(text);
        }
    }

    pub fn node(&mut self, node: &Node) {
        self.put("<");
        self.put(&node.name);
        for (name, value) in &node.attributes {
            self.attribute(name, value);
        }
        self.blanks_or("");
        let odd = self.odd;
        if node.items.is_empty() && !self.random.chance(odd) {
            return self.put("/>");
        }
        self.put(">");
        for item in &node.items {
            if node.loose {
                self.between();
            }
            match item {
                Item::Node(child) => self.node(child),
                Item::Raw(raw) => self.put(raw),
            }
        }
        if node.loose {
            self.between();
        }
        self.put("</");
        self.put(&node.name);
        self.blanks_or("");
        self.put(">");
    }
}

/// The content of a text: first line, perhaps something before and after the root, and the root.
pub fn content(random: &mut Random, root: &Node, odd: usize) -> Vec<u8> {
    let mut writer = Writer { random, odd, out: FIRST_LINE.to_vec() };
    writer.between();
    writer.node(root);
    writer.between();
    writer.out
}

/// The plain text of a root: no choices, zero at the end.
pub fn plain(root: &Node) -> Vec<u8> {
    let mut text = content(&mut Random::new(0), root, 0);
    text.push(0);
    text
}
