//! Texts that are of one kind each and of any length, to see how the time grows with it.

use crate::texts::{levels, HEAD, SEGMENT};

/// What a kind is called, its text of at most so many bytes with the zero, and the number that refuses it, 0 for a plan.
pub struct Kind {
    pub name: &'static str,
    pub text: fn(usize) -> Vec<u8>,
    pub number: u8,
}

const fn accepted(name: &'static str, text: fn(usize) -> Vec<u8>) -> Kind {
    Kind { name, text, number: 0 }
}

const fn refused(number: u8, name: &'static str, text: fn(usize) -> Vec<u8>) -> Kind {
    Kind { name, text, number }
}

pub const KINDS: [Kind; 15] = [
    accepted("an ordinary description", ordinary),
    accepted("nests of 24 levels", nests),
    accepted("small elements on level 24", small),
    accepted("small groups", groups),
    accepted("maps", maps),
    accepted("comments", comments),
    accepted("blanks", blanks),
    accepted("blanks around a number of an attribute", spaced_offset),
    accepted("blanks around a number of an element", spaced_min),
    accepted("references", references),
    refused(85, "tags of 16 attributes", sixteen),
    refused(85, "one tag, distinct names", wide),
    refused(86, "one tag, distinct names, one missing", lacking),
    refused(85, "one tag, long beginnings", alike),
    refused(85, "one tag, names that begin each other", beginnings),
];

const END: &str = "</segment></cdi>\0";

/// As many parts between head and tail as fit.
fn filled(length: usize, head: &str, part: impl Fn(usize) -> String, tail: &str) -> Vec<u8> {
    let mut text = head.to_string();
    for n in 0.. {
        let part = part(n);
        if text.len() + part.len() + tail.len() > length {
            break;
        }
        text.push_str(&part);
    }
    text.push_str(tail);
    text.into_bytes()
}

/// Such parts in a segment.
fn in_segment(length: usize, part: impl Fn(usize) -> String) -> Vec<u8> {
    filled(length, &format!("{HEAD}{SEGMENT}"), part, END)
}

/// A variable as a description has it.
fn variable(n: usize) -> String {
    match n % 4 {
        0 => format!(
            "  <int size=\"2\" offset=\"{}\">\n    <name>Brightness {n}</name>\n    <min>0</min>\n    <max>{}</max>\n  </int>\n",
            n % 3,
            255 + n
        ),
        1 => format!("  <eventid>\n    <name>Turns on {n}</name>\n    <description>When received, it goes on.</description>\n  </eventid>\n"),
        2 => "  <int size=\"1\"><name>Function</name><default>0</default><map><relation><property>0</property><value>Steady</value>\
              </relation><relation><property>1</property><value>Flash &amp; hold</value></relation></map></int>\n"
            .to_string(),
        _ => "  <!-- the label that is shown -->\n  <string size=\"16\"><name>Label</name></string>\n".to_string(),
    }
}

fn ordinary(length: usize) -> Vec<u8> {
    in_segment(length, variable)
}

fn nests(length: usize) -> Vec<u8> {
    let nest = format!("{}<int/>{}", "<group offset=\"0\">".repeat(21), "</group>".repeat(21));
    in_segment(length, |_| nest.clone())
}

fn small(length: usize) -> Vec<u8> {
    let tail = format!("{}{END}", "</group>".repeat(21));
    filled(length, &levels(23), |_| "<int size=\"8\" offset=\"2\"/>".to_string(), &tail)
}

fn groups(length: usize) -> Vec<u8> {
    in_segment(length, |_| "<group replication=\"2\"><int size=\"2\"/></group>".to_string())
}

fn maps(length: usize) -> Vec<u8> {
    let relation = |n| format!("<relation><property>{n}</property><value>Value {n}</value></relation>");
    filled(length, &format!("{HEAD}{SEGMENT}<int size=\"2\"><map>"), relation, &format!("</map></int>{END}"))
}

fn comments(length: usize) -> Vec<u8> {
    in_segment(length, |_| "<!-- a remark between elements -->".to_string())
}

fn blanks(length: usize) -> Vec<u8> {
    in_segment(length, |n| if n % 32 == 31 { "\n" } else { " " }.to_string())
}

/// One number in as many blanks as fit, in a segment.
fn spaced(length: usize, before: &str, behind: &str) -> Vec<u8> {
    let (head, tail) = (format!("{HEAD}{SEGMENT}{before}"), format!("{behind}{END}"));
    let blanks = " ".repeat(length.saturating_sub(head.len() + tail.len() + 1) / 2);
    format!("{head}{blanks}4{blanks}{tail}").into_bytes()
}

fn spaced_offset(length: usize) -> Vec<u8> {
    spaced(length, "<int offset=\"", "\"/>")
}

fn spaced_min(length: usize) -> Vec<u8> {
    spaced(length, "<int><min>", "</min></int>")
}

fn references(length: usize) -> Vec<u8> {
    filled(length, &format!("{HEAD}{SEGMENT}<name>"), |_| "&amp;&#65;".to_string(), &format!("</name>{END}"))
}

fn sixteen(length: usize) -> Vec<u8> {
    let attributes = (0..16).map(|n| format!(" a{n}=''")).collect::<String>();
    in_segment(length, |_| format!("<int{attributes}/>"))
}

/// One tag with these names.
fn one_tag(length: usize, element: &str, name: fn(usize) -> String) -> Vec<u8> {
    filled(length, &format!("{HEAD}{SEGMENT}<{element}"), |n| format!(" {}=''", name(n)), &format!("/>{END}"))
}

fn wide(length: usize) -> Vec<u8> {
    one_tag(length, "int", |n| format!("a{n}"))
}

fn lacking(length: usize) -> Vec<u8> {
    one_tag(length, "string", |n| format!("a{n}"))
}

fn alike(length: usize) -> Vec<u8> {
    one_tag(length, "int", |n| format!("{}{n:04}", "a".repeat(40)))
}

fn beginnings(length: usize) -> Vec<u8> {
    one_tag(length, "int", |n| "a".repeat(n + 1))
}
