//! Integers, values, kinds and causes by themselves.

use planksling::{Cause, EventId, Integer, Kind, UnknownNumber, Value};
use std::borrow::Cow;
use std::collections::HashSet;

#[test]
fn integers() {
    let in_order = [
        Integer::MIN,
        Integer::from(i64::MIN),
        Integer::from(i32::MIN),
        Integer::from(i16::MIN),
        Integer::from(i8::MIN),
        Integer::from(-1),
        Integer::default(),
        Integer::from(1_u8),
        Integer::from(u8::MAX),
        Integer::from(u16::MAX),
        Integer::from(u32::MAX),
        Integer::from(i64::MAX),
        Integer::MAX,
    ];
    for (i, a) in in_order.iter().enumerate() {
        for (j, b) in in_order.iter().enumerate() {
            assert_eq!(a.cmp(b), i.cmp(&j));
            assert_eq!(a == b, i == j);
        }
        let wide = i128::from(*a);
        assert_eq!(Integer::try_from(wide), Ok(*a));
        assert_eq!(a.to_string(), wide.to_string());
        assert_eq!(format!("{a:+8}"), format!("{wide:+8}"));
        assert_eq!(format!("{a:?}"), format!("Integer({wide})"));
        assert_eq!(i64::try_from(*a).ok(), i64::try_from(wide).ok());
        assert_eq!(u64::try_from(*a).ok(), u64::try_from(wide).ok());
        assert_eq!(u8::try_from(*a).ok(), u8::try_from(wide).ok());
        assert_eq!(i16::try_from(*a).ok(), i16::try_from(wide).ok());
        assert_eq!(Integer::new(a.is_negative(), a.magnitude()), *a);
    }
    assert_eq!(in_order.iter().collect::<HashSet<_>>().len(), in_order.len());
}

#[test]
fn integers_out_of_range() {
    let most = i128::from(u64::MAX);
    assert_eq!(Integer::try_from(most), Ok(Integer::MAX));
    assert_eq!(Integer::try_from(-most), Ok(Integer::MIN));
    for number in [most + 1, -most - 1, i128::MAX, i128::MIN] {
        assert!(Integer::try_from(number).is_err());
    }
    assert_eq!(Integer::try_from(u128::from(u64::MAX)), Ok(Integer::MAX));
    assert!(Integer::try_from(u128::MAX).is_err());
    assert!(!Integer::new(true, 0).is_negative());
}

#[test]
fn values() {
    let seven = Value::Integer(Integer::from(7));
    let all =
        [7_i8.into(), 7_i16.into(), 7_i32.into(), 7_i64.into(), 7_u8.into(), 7_u16.into(), 7_u32.into(), 7_u64.into()];
    assert!(all.iter().all(|value: &Value| *value == seven));
    assert_eq!(Value::from(Integer::from(7)), seven);
    let text = String::from("Track");
    let all =
        [Value::from("Track"), Value::from(&text), Value::from(text.clone()), Value::from(Cow::Borrowed("Track"))];
    for value in all {
        assert_eq!(value.as_text(), Some("Track"));
        assert_eq!(Value::from(&value), value);
        assert_eq!(value.clone().into_owned(), value);
        assert_eq!((value.kind(), value.as_integer(), value.as_event()), (Kind::String, None, None));
        assert_eq!(value.to_string(), "Track");
    }
    assert_eq!((seven.kind(), seven.as_integer(), seven.as_text()), (Kind::Int, Some(Integer::from(7)), None));
    let event = Value::from(EventId(7));
    assert_ne!(event, seven);
    assert_eq!((event.kind(), event.as_event(), event.as_integer()), (Kind::EventId, Some(EventId(7)), None));
    assert_eq!(event.to_string(), "00.00.00.00.00.00.00.07");
}

#[test]
fn events() {
    let id = EventId::from(0x0102_0304_0506_0708);
    assert_eq!(<[u8; 8]>::from(id), [1, 2, 3, 4, 5, 6, 7, 8]);
    assert_eq!((EventId::from([1, 2, 3, 4, 5, 6, 7, 8]), u64::from(id)), (id, id.0));
}

#[test]
fn kinds() {
    for number in 0..300 {
        match Kind::try_from(number) {
            Ok(kind) => assert_eq!((kind.number(), u64::from(kind)), (number, number)),
            Err(UnknownNumber(other)) => assert!(other == number && !(3..=6).contains(&number)),
        }
    }
    let names = [3, 4, 5, 6].map(|number| Kind::try_from(number).expect("a kind").to_string());
    assert_eq!(names, ["int", "string", "eventid", "float"]);
    assert!(Kind::try_from(u64::MAX).is_err());
}

/// The table of refusals in the repository's README has the same numbers and words, in the same order. It marks words as code that are none here. 40 to 44
/// are those of the crate of backups.
#[test]
fn causes() {
    let readme = include_str!("../../README.md");
    let rows = readme.lines().skip_while(|line| *line != "## Refusals").filter(|line| line.starts_with("| "));
    let told: Vec<(usize, String)> = rows
        .filter_map(|row| {
            let mut cells = row.trim_matches('|').split(" | ");
            let number = cells.next()?.trim().parse().ok()?;
            Some((number, cells.next()?.trim().replace('`', "")))
        })
        .filter(|(number, _)| !(40..=44).contains(number))
        .collect();
    let ours: Vec<(usize, String)> =
        Cause::ALL.iter().map(|cause| (cause.number(), cause.to_string().replace('`', ""))).collect();
    assert_eq!(ours, told);
}

#[test]
fn causes_by_number() {
    let known: Vec<usize> = (0..=300).filter(|&number| Cause::try_from(number).is_ok()).collect();
    let expected: Vec<usize> = (1..=7).chain(9..=13).chain(20..=28).chain([30, 31, 35]).chain(81..=88).collect();
    assert_eq!(known, expected);
    for cause in Cause::ALL {
        assert_eq!(Cause::try_from(cause.number()), Ok(*cause));
        assert_eq!(usize::from(*cause), cause.number());
        assert_eq!(cause.words(), cause.to_string());
    }
    assert_eq!(Cause::try_from(8).unwrap_err().to_string(), "8 names nothing here");
    assert!(Cause::try_from(usize::MAX).is_err());
}
