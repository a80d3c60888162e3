//! Stages 1 and 2 and the numbers, against what the standard library says where it says the same.

use reference::number::{number, Number};
use reference::random::Random;
use reference::text::{character, characters, is_utf8, is_xml_character, spelled};

#[test]
fn every_character_is_read_and_spelled() {
    for code in 0..0x11_0000u32 {
        let Some(known) = char::from_u32(code) else { continue };
        let bytes = known.to_string().into_bytes();
        let found = character(&bytes).unwrap();
        assert_eq!((found.code, found.length), (code, bytes.len()));
        assert_eq!(spelled(code), bytes);
    }
}

/// All sequences of one and two bytes, and of three and four with the later ones at the edges.
#[test]
fn sequences_are_judged_as_the_standard_library_does() {
    let edges = [0x00u8, 0x41, 0x7F, 0x80, 0x81, 0x8F, 0x90, 0x9F, 0xA0, 0xBF, 0xC0, 0xC2, 0xE0, 0xED, 0xF0, 0xFF];
    let check = |bytes: &[u8]| assert_eq!(is_utf8(bytes), std::str::from_utf8(bytes).is_ok(), "{bytes:?}");
    for one in 0..=255 {
        check(&[one]);
        for two in 0..=255 {
            check(&[one, two]);
            for three in edges {
                check(&[one, two, three]);
                for four in edges {
                    check(&[one, two, three, four]);
                }
            }
        }
    }
}

#[test]
fn random_sequences_are_judged_alike() {
    let random = &mut Random::new(4);
    for _ in 0..200_000 {
        let length = random.below(9);
        let bytes: Vec<u8> = (0..length)
            .map(|_| {
                if random.chance(50) {
                    random.byte() | 0x80
                } else {
                    random.pick(b"A\xC3\xA9\xE2\x82\xAC\xF0\x9F\x98\x80\xED\xEF\xBF")
                }
            })
            .collect();
        let known = std::str::from_utf8(&bytes);
        assert_eq!(is_utf8(&bytes), known.is_ok());
        // Stage 2 stops at the first sequence that is broken, or earlier at a character that isn't allowed.
        if let (Err(refusal), Err(error)) = (characters(&bytes), known) {
            assert!(refusal.place as usize <= error.valid_up_to());
        }
    }
}

#[test]
fn xml_characters() {
    for (code, allowed) in [
        (0, false),
        (8, false),
        (9, true),
        (0xA, true),
        (0xB, false),
        (0xD, true),
        (0x1F, false),
        (0x20, true),
        (0x7F, true),
        (0x85, true),
        (0xD7FF, true),
        (0xD800, false),
        (0xDFFF, false),
        (0xE000, true),
        (0xFFFD, true),
        (0xFFFE, false),
        (0xFFFF, false),
        (0x1_0000, true),
        (0x1_FFFE, true),
        (0x10_FFFF, true),
        (0x11_0000, false),
    ] {
        assert_eq!(is_xml_character(code), allowed, "{code:x}");
    }
}

/// A number is what the standard library reads as one, but for the blanks at its ends: all texts of up to four of these bytes.
#[test]
fn numbers_are_judged_as_the_standard_library_does() {
    let bytes = b" \t\n+-07a\r";
    let mut texts = vec![Vec::new()];
    for _ in 0..4 {
        texts = texts.iter().flat_map(|text| bytes.iter().map(move |byte| [&text[..], &[*byte]].concat())).collect();
        for text in &texts {
            let trimmed = std::str::from_utf8(text).unwrap().trim_matches([' ', '\t', '\n']);
            let wanted = trimmed.parse().map_or(Number::Not, Number::Value);
            assert_eq!(number(text), wanted, "{text:?}");
        }
    }
}

#[test]
fn numbers() {
    assert_eq!(number(b"-0"), Number::Value(0));
    assert_eq!(number(b"0042"), Number::Value(42));
    assert_eq!(number(b"-9223372036854775809"), Number::Value(-9_223_372_036_854_775_809));
    assert_eq!(number("0".repeat(5_000).as_bytes()), Number::Value(0));
    assert_eq!(number(format!("{}7", "0".repeat(5_000)).as_bytes()), Number::Value(7));
    assert_eq!(number("9".repeat(30).as_bytes()), Number::Value(10i128.pow(30) - 1));
    assert_eq!(number("9".repeat(31).as_bytes()), Number::Huge);
    assert_eq!(number(format!("-{}", "9".repeat(60_000)).as_bytes()), Number::Huge);
    for text in ["+1", " 1", "1 ", "\t+01\n", "\n 1", "1\n\n"] {
        assert_eq!(number(text.as_bytes()), Number::Value(1), "{text:?}");
    }
    assert_eq!(number(b" -1 "), Number::Value(-1));
    assert_eq!(number(b"+0"), Number::Value(0));
    assert_eq!(number(format!(" +{} ", "9".repeat(31)).as_bytes()), Number::Huge);
    for text in ["", " ", "-", "+", " - ", "--1", "+-1", "+ 1", "1 1", "1-", "1+", "1.0", "٣", "-\n", "\r1", "\u{A0}1"]
    {
        assert_eq!(number(text.as_bytes()), Number::Not, "{text:?}");
    }
}
