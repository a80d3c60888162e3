//! Fixed cases at every boundary of document 01 and of requests, cycled through by every stream.

mod accesses;
mod backups;
mod causes;
mod plans;
mod sessions;
mod spellings;
mod tables;

pub use accesses::of_access;
pub use backups::{of_backup, sample};
pub use plans::of_plan;
pub use sessions::of_session;
pub use tables::of_locate;

use super::markup::{plain, root, segment, Node};
use crate::text::FIRST_LINE;

/// A root with this one segment.
pub(super) fn cdi(segment: Node) -> Node {
    root().holding(segment)
}

/// A root with this one data element.
pub(super) fn cdi_with(data: Node) -> Node {
    cdi(segment(1).holding(data))
}

/// A text with this raw markup behind the first line.
pub(super) fn raw_text(rest: &str) -> Vec<u8> {
    [FIRST_LINE, rest.as_bytes(), &[0]].concat()
}

/// Content of exactly so many bytes: a small description and a comment or blanks behind it.
pub(super) fn content_of(length: usize, comment: bool) -> Vec<u8> {
    let mut content = plain(&cdi_with(Node::new("int")));
    content.pop();
    let left = length - content.len();
    if comment {
        content.extend(format!("<!--{}-->", "x".repeat(left - 7)).bytes());
    } else {
        content.extend(" ".repeat(left).bytes());
    }
    content
}

pub(super) fn copies(replication: i64, member: Node) -> Node {
    Node::new("group").with("replication", replication).holding(member)
}

pub(super) fn int_with(size: &str, min: Option<i128>, max: Option<i128>) -> Node {
    let mut node = Node::new("int").with("size", size);
    if let Some(min) = min {
        node.push(Node::text("min", &min.to_string()));
    }
    if let Some(max) = max {
        node.push(Node::text("max", &max.to_string()));
    }
    node
}

/// A map with these properties.
pub(super) fn map_of(properties: &[&str]) -> Node {
    let mut map = Node::new("map");
    for property in properties {
        map.push(Node::new("relation").holding(Node::text("property", property)).holding(Node::text("value", "v")));
    }
    map
}

/// The root's start tag.
pub(in crate::cases) fn root_tag() -> String {
    let text = plain(&root());
    let content = String::from_utf8_lossy(&text[FIRST_LINE.len()..text.len() - 1]).into_owned();
    content.replace("/>", ">")
}
