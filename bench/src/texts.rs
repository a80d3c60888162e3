//! Descriptions to time: such as a node has, of about a given length, and the far ends of the rules.

use std::fmt::Write;

pub const HEAD: &str = "<?xml version=\"1.0\"?>\n<cdi xmlns:xsi=\"http://www.w3.org/2001/XMLSchema-instance\" \
    xsi:noNamespaceSchemaLocation=\"http://openlcb.org/schema/cdi/1/3/cdi.xsd\">\n";

const IDENTIFICATION: &str = "  <identification>\n    <manufacturer>Example Works</manufacturer>\n    <model>Signal Driver 8</model>\n    \
    <hardwareVersion>Rev C</hardwareVersion>\n    <softwareVersion>2.4.1</softwareVersion>\n  </identification>\n  <acdi/>\n";

const USER: &str = "  <segment space=\"251\" origin=\"1\">\n    <name>User Identification</name>\n    \
    <description>Lets the user add their own description of this node</description>\n    \
    <string size=\"63\">\n      <name>Node Name</name>\n      \
    <description>A short name that shows where this node stands, as on the front of its case</description>\n    </string>\n    \
    <string size=\"64\">\n      <name>Node Description</name>\n      \
    <description>What the node is for, in the words of the one who put it there</description>\n    </string>\n  </segment>\n";

/// One line of a signal head: a choice by map, a brightness with bounds, two events and a text.
fn line(text: &mut String, n: usize) {
    let _ = write!(
        text,
        "    <group replication=\"{copies}\" offset=\"{offset}\">\n      <name>Line {n}</name>\n      \
         <description>What output {n} does when an event is received, and how bright it is.</description>\n      \
         <repname>Output</repname>\n      <int size=\"1\">\n        <name>Function</name>\n        <default>0</default>\n        \
         <map>\n          <relation><property>0</property><value>Steady</value></relation>\n          \
         <relation><property>1</property><value>Flash &amp; hold</value></relation>\n          \
         <relation><property>2</property><value>Pulse, short</value></relation>\n        </map>\n      </int>\n      \
         <int size=\"2\" offset=\"1\">\n        <name>Brightness</name>\n        <min>0</min>\n        <max>{most}</max>\n      </int>\n      \
         <eventid>\n        <name>Turns on</name>\n        <description>When this event is received, the line goes on.</description>\n      \
         </eventid>\n      <eventid>\n        <name>Turns off</name>\n      </eventid>\n      \
         <!-- the label that a throttle shows -->\n      <string size=\"16\"><name>Label</name></string>\n    </group>\n",
        copies = 1 + n % 8,
        offset = n % 3,
        most = 255 + n * 16,
    );
}

/// A description of about this many bytes, and its zero.
pub fn ordinary(length: usize) -> Vec<u8> {
    let mut text =
        format!("{HEAD}{IDENTIFICATION}{USER}  <segment space=\"253\" origin=\"128\">\n    <name>Lines</name>\n");
    let end = "  </segment>\n</cdi>\n";
    let mut n = 1;
    while n == 1 || text.len() + end.len() + 600 < length {
        line(&mut text, n);
        n += 1;
    }
    text.push_str(end);
    text.push('\0');
    text.into_bytes()
}

/// 1,000,000 variables, by groups of groups.
pub fn million() -> Vec<u8> {
    let mut text = format!("{HEAD}<segment space=\"253\">\n<group replication=\"1000\"><group replication=\"50\">\n");
    for n in 0..20 {
        let _ = writeln!(text, "<int size=\"1\"><name>Value {n}</name></int>");
    }
    text.push_str("</group></group></segment></cdi>\0");
    text.into_bytes()
}

pub const SEGMENT: &str = "<segment space=\"253\">";

/// The start tags of all levels down to this one.
pub fn levels(last: usize) -> String {
    format!("{HEAD}{SEGMENT}{}", "<group replication=\"1\">".repeat(last - 2))
}

/// All 24 levels, and as many elements on the last as fit.
pub fn deepest() -> Vec<u8> {
    let mut text = levels(23);
    while text.len() < 64_500 {
        text.push_str("<int size=\"8\" offset=\"2\"/>");
    }
    text.push_str(&"</group>".repeat(21));
    text.push_str("</segment></cdi>\0");
    text.into_bytes()
}

/// Attributes of these names, up to this many bytes.
fn attributes(text: &mut String, length: usize, name: impl Fn(usize) -> String) {
    let mut n = 0;
    while text.len() < length {
        let _ = write!(text, " {}=''", name(n));
        n += 1;
    }
}

/// One tag of this element that takes nearly all the bytes that a text may have.
fn wide(element: &str) -> Vec<u8> {
    let mut text = levels(2);
    let _ = write!(text, "<{element}");
    attributes(&mut text, 65_000, |n| format!("a{n}"));
    text.push_str("/></segment></cdi>\0");
    text.into_bytes()
}

/// Such a tag whose attributes are all unknown.
pub fn widest() -> Vec<u8> {
    wide("int")
}

/// Such a tag that lacks an attribute too.
pub fn lacking() -> Vec<u8> {
    wide("string")
}

/// Such a tag inside an element of level 24, with a name that stands twice.
pub fn steepest() -> Vec<u8> {
    let mut text = levels(24);
    text.push_str("<int");
    attributes(&mut text, 65_000, |n| format!("a{n}"));
    text.push_str(" a1=''/>\0");
    text.into_bytes()
}

/// Such a tag there whose names are beginnings of each other.
pub fn nested_names() -> Vec<u8> {
    let mut text = levels(24);
    text.push_str("<int");
    attributes(&mut text, 65_000, |n| "a".repeat(n + 1));
    text.push_str("/>\0");
    text.into_bytes()
}
