//! JSON, written. Hidden characters are escaped beyond what JSON asks for, so that a terminal can show it.

use crate::safe::is_hidden;
use std::fmt::{Display, Write};

/// An object that is being written.
pub struct Object {
    text: String,
}

impl Object {
    pub fn new() -> Object {
        Object { text: String::from("{") }
    }

    /// Adds what is JSON already.
    fn raw(mut self, key: &str, json: &str) -> Object {
        if 1 < self.text.len() {
            self.text.push(',');
        }
        self.text.push_str(&quoted(key));
        self.text.push(':');
        self.text.push_str(json);
        self
    }

    pub fn text(self, key: &str, text: &str) -> Object {
        self.raw(key, &quoted(text))
    }

    /// Adds a number or a truth value.
    pub fn plain(self, key: &str, value: impl Display) -> Object {
        self.raw(key, &value.to_string())
    }

    pub fn object(self, key: &str, object: Object) -> Object {
        self.raw(key, &object.finish())
    }

    pub fn texts(self, key: &str, texts: &[String]) -> Object {
        let texts: Vec<String> = texts.iter().map(|text| quoted(text)).collect();
        self.raw(key, &format!("[{}]", texts.join(",")))
    }

    pub fn finish(mut self) -> String {
        self.text.push('}');
        self.text
    }
}

/// A string of JSON.
fn quoted(text: &str) -> String {
    let mut json = String::with_capacity(text.len() + 2);
    json.push('"');
    for c in text.chars() {
        match c {
            '"' | '\\' => json.extend(['\\', c]),
            '\n' => json.push_str("\\n"),
            '\t' => json.push_str("\\t"),
            c if is_hidden(c) => escape(&mut json, c),
            c => json.push(c),
        }
    }
    json.push('"');
    json
}

/// A character by its number: one of 16 bits, or two.
fn escape(json: &mut String, c: char) {
    for unit in c.encode_utf16(&mut [0; 2]) {
        write!(json, "\\u{unit:04x}").expect("memory");
    }
}

#[cfg(test)]
mod tests {
    use super::Object;

    #[test]
    fn written() {
        let inner = Object::new().plain("b", true);
        let json =
            Object::new().text("a", "\"\\\n\u{1B}\u{E0001}ß").object("o", inner).texts("t", &["x".into(), "y".into()]);
        assert_eq!(
            json.plain("n", 5).finish(),
            r#"{"a":"\"\\\n\u001b\udb40\udc01ß","o":{"b":true},"t":["x","y"],"n":5}"#
        );
        assert_eq!(Object::new().texts("t", &[]).finish(), r#"{"t":[]}"#);
    }
}
