//! Values as they are written in a call.

use planksling::{EventId, Integer, Kind, Value};

/// The value that a word says for a variable of this kind. A word that says none is a text, which the library refuses there, as it does for a float.
pub fn value(kind: Kind, word: &str) -> Value<'_> {
    let read = match kind {
        Kind::Int => integer(word).map(Value::from),
        Kind::EventId => event(word).map(Value::from),
        _ => None,
    };
    read.unwrap_or(Value::from(word))
}

/// How a value of this kind is written.
pub fn form(kind: Kind) -> &'static str {
    match kind {
        Kind::Int => "An int is written as a whole number in decimal: 250 or -5.",
        Kind::EventId => {
            "An event ID is written as 05.01.01.01.18.00.00.FF, as 0x05010101180000FF, or as a decimal number that \
             doesn't begin with 0."
        }
        _ => "A string is written as the text itself.",
    }
}

/// A whole number in decimal. One of more than 64 bits is out of every int's bounds, so it is handed over as one that is too: no int goes below -2^63.
fn integer(word: &str) -> Option<Integer> {
    let negative = word.starts_with('-');
    let digits = word.strip_prefix(['-', '+']).unwrap_or(word);
    if digits.is_empty() || !digits.bytes().all(|byte| byte.is_ascii_digit()) {
        return None;
    }
    Some(digits.parse().map_or(Integer::MIN, |magnitude| Integer::new(negative, magnitude)))
}

/// An event ID: eight bytes in hexadecimal with points between them, one number with 0x in front, or a decimal one. A decimal number that begins with 0
/// is none: it may be meant as hexadecimal.
fn event(word: &str) -> Option<EventId> {
    if word.contains('.') {
        return dotted(word);
    }
    let (digits, base) = match word.strip_prefix("0x") {
        Some(digits) => (digits, 16),
        None => (word, 10),
    };
    let good = digits.chars().all(|c| c.is_digit(base)) && (base == 16 || digits == "0" || !digits.starts_with('0'));
    if !good {
        return None;
    }
    u64::from_str_radix(digits, base).ok().map(EventId)
}

fn dotted(word: &str) -> Option<EventId> {
    let mut bytes = [0; 8];
    let mut parts = word.split('.');
    for byte in &mut bytes {
        let part = parts.next()?;
        if !(1..=2).contains(&part.len()) || !part.bytes().all(|digit| digit.is_ascii_hexdigit()) {
            return None;
        }
        *byte = u8::from_str_radix(part, 16).ok()?;
    }
    parts.next().is_none().then(|| EventId::from(bytes))
}

#[cfg(test)]
mod tests {
    use super::*;

    #[test]
    fn integers() {
        let good = [("0", 0), ("-0", 0), ("+7", 7), ("007", 7), ("-5", -5), ("18446744073709551615", u64::MAX.into())];
        for (word, number) in good {
            assert_eq!(integer(word).map(i128::from), Some(number), "{word}");
        }
        for word in ["18446744073709551616", "-18446744073709551616", "99999999999999999999999999"] {
            assert_eq!(integer(word), Some(Integer::MIN), "{word}");
        }
        for word in ["", "-", "+", "--5", "+-5", " 5", "5 ", "5.0", "0x5", "five", "٣"] {
            assert_eq!(integer(word), None, "{word}");
        }
    }

    #[test]
    fn events() {
        let id = EventId(0x0501_0101_1800_00FF);
        for word in ["05.01.01.01.18.00.00.FF", "5.1.1.1.18.0.0.ff", "0x05010101180000FF", "360570549375598847"] {
            assert_eq!(event(word), Some(id), "{word}");
        }
        assert_eq!(event("0"), Some(EventId(0)));
        assert_eq!(event("0xFFFFFFFFFFFFFFFF"), Some(EventId(u64::MAX)));
        let none = [
            "",
            "0x",
            ".",
            "01.02.03.04.05.06.07",
            "01.02.03.04.05.06.07.08.09",
            "01.02.03.04.05.06.07.108",
            "01..",
            "01.02.03.04.05.06.07.0G",
            "+1.02.03.04.05.06.07.08",
            "0x10000000000000000",
            "18446744073709551616",
            "-1",
            "+1",
            "0501010118000001",
            "1 ",
            "x",
        ];
        for word in none {
            assert_eq!(event(word), None, "{word}");
        }
    }
}
