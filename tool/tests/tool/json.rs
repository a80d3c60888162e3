//! JSON, read: enough to know that what the tool prints is JSON, and to look at it.

use std::collections::BTreeMap;

#[derive(Clone, Debug, PartialEq)]
pub enum Json {
    Null,
    Truth(bool),
    Number(String),
    Text(String),
    List(Vec<Json>),
    Object(BTreeMap<String, Json>),
}

impl Json {
    /// The JSON of one line, with nothing behind it. Panics where it is none.
    #[track_caller]
    pub fn read(line: &str) -> Json {
        let mut reader = Reader { rest: line.strip_suffix('\n').expect("a line") };
        let json = reader.value().unwrap_or_else(|| panic!("no JSON from {:?} on: {line}", reader.rest));
        assert_eq!(reader.rest, "", "{line}");
        json
    }

    #[track_caller]
    pub fn get(&self, key: &str) -> &Json {
        let Json::Object(entries) = self else { panic!("no object: {self:?}") };
        entries.get(key).unwrap_or_else(|| panic!("no {key}: {self:?}"))
    }

    pub fn has(&self, key: &str) -> bool {
        matches!(self, Json::Object(entries) if entries.contains_key(key))
    }

    #[track_caller]
    pub fn text(&self, key: &str) -> &str {
        let Json::Text(text) = self.get(key) else { panic!("{key} is no text: {self:?}") };
        text
    }

    #[track_caller]
    pub fn number(&self, key: &str) -> u64 {
        let Json::Number(number) = self.get(key) else { panic!("{key} is no number: {self:?}") };
        number.parse().expect("a whole number")
    }
}

struct Reader<'a> {
    rest: &'a str,
}

impl Reader<'_> {
    fn take(&mut self, word: &str) -> Option<()> {
        self.rest = self.rest.strip_prefix(word)?;
        Some(())
    }

    fn next(&mut self) -> Option<char> {
        let c = self.rest.chars().next()?;
        self.rest = &self.rest[c.len_utf8()..];
        Some(c)
    }

    fn value(&mut self) -> Option<Json> {
        match self.rest.chars().next()? {
            '{' => self.object(),
            '[' => self.list(),
            '"' => self.text().map(Json::Text),
            'n' => self.take("null").map(|()| Json::Null),
            't' => self.take("true").map(|()| Json::Truth(true)),
            'f' => self.take("false").map(|()| Json::Truth(false)),
            _ => self.number(),
        }
    }

    /// A whole number: the tool prints no other.
    fn number(&mut self) -> Option<Json> {
        let end = self.rest.find(|c: char| !c.is_ascii_digit() && c != '-').unwrap_or(self.rest.len());
        let (number, rest) = self.rest.split_at(end);
        let digits = number.strip_prefix('-').unwrap_or(number);
        let good = !digits.is_empty() && !digits.contains('-') && (digits == "0" || !digits.starts_with('0'));
        self.rest = rest;
        good.then(|| Json::Number(number.to_string()))
    }

    fn text(&mut self) -> Option<String> {
        self.take("\"")?;
        let mut units: Vec<u16> = vec![];
        loop {
            match self.next()? {
                '"' => return String::from_utf16(&units).ok(),
                '\\' => units.push(self.escaped()?),
                c if c < ' ' => return None,
                c => units.extend(c.encode_utf16(&mut [0; 2]).iter()),
            }
        }
    }

    fn escaped(&mut self) -> Option<u16> {
        Some(match self.next()? {
            c @ ('"' | '\\' | '/') => c as u16,
            'b' => 8,
            'f' => 12,
            'n' => 10,
            'r' => 13,
            't' => 9,
            'u' => {
                let (digits, rest) = self.rest.split_at_checked(4)?;
                self.rest = rest;
                u16::from_str_radix(digits, 16).ok()?
            }
            _ => return None,
        })
    }

    fn list(&mut self) -> Option<Json> {
        self.take("[")?;
        let mut items = vec![];
        while self.take("]").is_none() {
            if !items.is_empty() {
                self.take(",")?;
            }
            items.push(self.value()?);
        }
        Some(Json::List(items))
    }

    fn object(&mut self) -> Option<Json> {
        self.take("{")?;
        let mut entries = BTreeMap::new();
        while self.take("}").is_none() {
            if !entries.is_empty() {
                self.take(",")?;
            }
            let key = self.text()?;
            self.take(":")?;
            if entries.insert(key, self.value()?).is_some() {
                return None;
            }
        }
        Some(Json::Object(entries))
    }
}
