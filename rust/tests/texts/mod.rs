//! Descriptions for the tests.

#![allow(dead_code)] // each test file takes some of these

use planksling::{Cause, Description, Refusal};

/// The first line and the root's tag, 155 bytes.
pub const ROOT: &str = concat!(
    "<?xml version=\"1.0\"?>\n",
    "<cdi xmlns:xsi=\"http://www.w3.org/2001/XMLSchema-instance\" ",
    "xsi:noNamespaceSchemaLocation=\"http://openlcb.org/schema/cdi/1/3/cdi.xsd\">",
);

/// The text T of the worked set.
pub const WORKED: &str = include_str!("../../../samples/worked.xml");

/// A text with these elements in its root.
pub fn text(elements: &str) -> String {
    format!("{ROOT}{elements}</cdi>")
}

/// A text with these elements in one segment of space 253, from address 128 on.
pub fn segment(elements: &str) -> String {
    text(&format!("<segment space=\"253\" origin=\"128\">{elements}</segment>"))
}

/// The same, planned.
pub fn planned(elements: &str) -> Description {
    segment(elements).parse().expect("a good description")
}

/// The bytes of a text and a zero.
pub fn closed(text: &str) -> Vec<u8> {
    let mut bytes = text.as_bytes().to_vec();
    bytes.push(0);
    bytes
}

pub fn refusal(cause: Cause, place: usize) -> Refusal {
    Refusal { cause, place }
}

/// Numbers that look arbitrary and are the same in each run.
pub struct Numbers(u64);

impl Numbers {
    pub fn new(seed: u64) -> Numbers {
        Numbers(seed)
    }

    /// The next one, below `limit`.
    pub fn below(&mut self, limit: u64) -> u64 {
        self.0 = self.0.wrapping_mul(6364136223846793005).wrapping_add(1442695040888963407);
        (self.0 >> 33) % limit
    }
}
