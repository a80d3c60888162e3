//! Descriptions and tables: what they are made from, refusals of texts, lent tables, and many threads.

mod texts;

use planksling::{
    lent, Cause, Counts, Description, Integer, Reading, Refusal, Session, Table, Value, Variable, Variables, Window,
};
use planksling::{Entry, EventId, Kind, FIELDS, MOST_NUMBERS, MOST_RECORDS, TEXT_LIMIT};
use std::collections::HashSet;
use texts::{closed, planned, refusal, segment, text, Numbers, WORKED};

/// T with blanks behind it up to this length.
fn padded(length: usize) -> String {
    WORKED.to_owned() + &" ".repeat(length - WORKED.len())
}

#[test]
fn every_way_in() {
    let bytes = closed(WORKED);
    let description = Description::try_from(bytes.clone()).expect("T");
    let others = [
        Description::try_from(bytes.as_slice()),
        Description::try_from(WORKED),
        Description::try_from(String::from(WORKED)),
        WORKED.parse(),
    ];
    for other in others {
        assert_eq!(other.as_ref(), Ok(&description));
    }
    let array: &[u8; 310] = bytes.as_slice().try_into().expect("310 bytes");
    assert_eq!(Description::try_from(array), Ok(description.clone()));
    // what stands behind the zero changes nothing, in a str too
    let longer = [&bytes[..], b"<cdi>\0\xFF"].concat();
    assert_eq!(Description::try_from(longer), Ok(description.clone()));
    assert_eq!(Description::try_from(format!("{WORKED}\0<cdi>")), Ok(description.clone()));
    // text and table can be taken from it, and give the same again
    assert_eq!(description.text().parse(), Ok(description.clone()));
    let table = description.clone().into_table();
    assert_eq!(table.clone().into_numbers(), description.table().numbers());
    assert_eq!(Table::try_from(table.clone().into_numbers()), Ok(table.clone()));
    assert_eq!(Table::try_from(table.as_ref()).map(Table::into_owned), Ok(table));
    assert_eq!(format!("{description:?}"), "Description { bytes: 309, records: 6, variables: 8 }");
    assert_eq!(format!("{:?}", description.iter()), "Variables { left: 8, .. }");
}

#[test]
fn the_zero() {
    // no zero at all
    for length in [0, 1, 100, TEXT_LIMIT - 1, TEXT_LIMIT, TEXT_LIMIT + 1, 5_000_000] {
        let place = length.min(TEXT_LIMIT);
        assert_eq!(Description::try_from(vec![b' '; length]), Err(refusal(Cause::NoEnd, place)));
    }
    assert_eq!(Description::try_from(WORKED.as_bytes()), Err(refusal(Cause::NoEnd, 309)));
    // the last place where it is in time, and the first where it isn't
    let last = padded(TEXT_LIMIT - 1);
    assert_eq!(Description::try_from(closed(&last)).expect("in time").text(), last);
    assert_eq!(last.parse::<Description>().expect("in time").variable_count(), 8);
    let late = padded(TEXT_LIMIT);
    assert_eq!(Description::try_from(closed(&late)), Err(refusal(Cause::NoEnd, TEXT_LIMIT)));
    assert_eq!(late.parse::<Description>(), Err(refusal(Cause::NoEnd, TEXT_LIMIT)));
    assert_eq!("x".repeat(3_000_000).parse::<Description>(), Err(refusal(Cause::NoEnd, TEXT_LIMIT)));
}

/// A text for each cause of planning.
#[test]
fn causes_of_texts() {
    let deep = "<group>".repeat(23) + &"</group>".repeat(23);
    let texts = [
        (segment("\r"), Cause::BadCharacter, "\r"),
        (" ".into(), Cause::OtherFirstLine, " "),
        (segment("<int></>"), Cause::Malformed, "</>"),
        (segment("<![CDATA[]]>"), Cause::Unsupported, "<![CDATA"),
        (segment("</group>"), Cause::NotOneTree, "</group>"),
        (segment(&deep), Cause::TooDeepOrMany, "<group></group>"),
        (segment("<byte/>"), Cause::UnknownElement, "<byte"),
        (segment("<int/><name/>"), Cause::ElementOutOfOrder, "<name"),
        (segment("<name> </name><name/>"), Cause::ElementTooOften, "<name/>"),
        (segment("<int><map><relation/></map></int>"), Cause::MissingChild, "<relation"),
        (segment("<int width=\"1\"/>"), Cause::UnknownAttribute, "width"),
        (segment("<string/>"), Cause::MissingAttribute, "<string"),
        (segment("<float size=\"2\" formatting=\"f\"/>"), Cause::WrongFixedText, "formatting"),
        (segment(" x "), Cause::StrayText, "x "),
        (segment("<int offset=\"x\"/>"), Cause::NotANumber, "<int"),
        (segment("<int size=\"3\"/>"), Cause::OutOfRange, "<int"),
        (segment("<int offset=\"-129\"/>"), Cause::AddressOutOfRange, "<segment"),
        (segment("<group replication=\"1000001\"><int/></group>"), Cause::TooManyVariables, "<cdi"),
    ];
    for (text, cause, at) in texts {
        let place = text.find(at).unwrap_or_else(|| panic!("{at}"));
        // the x of `xml` comes first
        let place = if cause == Cause::StrayText { text.rfind(at).unwrap_or(place) } else { place };
        assert_eq!(text.parse::<Description>(), Err(refusal(cause, place)), "{text}");
        let mut table = vec![-1; 100];
        assert_eq!(lent::plan(&closed(&text), &mut table), Err(refusal(cause, place)));
        assert!(table.iter().all(|&number| number == -1));
        // writing and reading plan the text again
        let mut window = Window::new(253, 128, [7; 9]);
        assert_eq!(lent::write(&closed(&text), &[], 0, &mut window, 1), Err(refusal(cause, place)));
        assert_eq!(lent::read(&closed(&text), &[], 0, &window), Err(refusal(cause, place)));
        assert_eq!(lent::check(&closed(&text), &[]), Err(refusal(cause, place)));
        assert_eq!(window.bytes, [7; 9]);
    }
}

/// Bytes that are a description but for one changed, added or left out: each way in tells the same, and nothing panics.
#[test]
fn changed_texts() {
    let good = closed(WORKED);
    let mut numbers = Numbers::new(3);
    for _ in 0..3000 {
        let mut text = good.clone();
        let at = numbers.below(text.len() as u64) as usize;
        match numbers.below(3) {
            0 => text[at] = numbers.below(256) as u8,
            1 => text.insert(at, numbers.below(256) as u8),
            _ => drop(text.remove(at)),
        }
        let told = Description::try_from(text.as_slice());
        let mut table = vec![0; MOST_NUMBERS];
        let counted = lent::plan(&text, &mut table);
        assert_eq!(told.as_ref().map(Description::variable_count), counted.as_ref().map(|counts| counts.variables));
        if let Ok(description) = told {
            assert_eq!(table[..FIELDS * description.record_count()], *description.table().numbers());
            assert_eq!(description.iter().count() as u64, description.variable_count());
        }
    }
}

#[test]
fn the_largest_table() {
    let ints = "<int/>".repeat(MOST_RECORDS - 1);
    let description = planned(&ints);
    assert_eq!(description.record_count(), MOST_RECORDS);
    assert_eq!(description.table().numbers().len(), MOST_NUMBERS);
    assert_eq!(description.iter().last(), description.variable(MOST_RECORDS as u64 - 2).ok());
    let more = segment(&(ints + "<int/>"));
    assert_eq!(more.parse::<Description>().unwrap_err().cause, Cause::TooDeepOrMany);
}

/// The stack that the documentation of the crate asks for is enough.
#[test]
fn a_small_stack() {
    let deep = "<group>".repeat(21) + &"<int/>".repeat(4000) + &"</group>".repeat(21);
    let few = "<int/>".repeat(100) + &" ".repeat(60_000);
    let attributes: String = (0..6000).map(|k| format!(" a{k}=''")).collect();
    let texts = [(deep, None), (few, None), (format!("<int{attributes}/>"), Some(Cause::UnknownAttribute))];
    for (elements, cause) in texts {
        let text = segment(&elements);
        let thread = std::thread::Builder::new().stack_size(640 * 1024);
        let told = thread.spawn(move || text.parse::<Description>()).expect("a thread").join().expect("an answer");
        assert_eq!(told.err().map(|refusal| refusal.cause), cause);
    }
}

#[test]
fn tables() {
    // the empty table is a plan, and the table of a description without segments
    let empty = Table::try_from(vec![]).expect("a plan");
    assert_eq!((empty.record_count(), empty.variable_count(), empty.iter().next()), (0, 0, None));
    assert_eq!(text("").parse::<Description>().expect("no segment").table(), &empty);
    assert_eq!(empty.record(0), None);

    let description = planned("<group replication=\"3\"><int/></group>");
    let numbers = description.table().numbers();
    let none = refusal(Cause::NotAPlan, 0);
    for i in 0..numbers.len() {
        let mut other = numbers.to_vec();
        other[i] = i64::MIN;
        assert!(!lent::is_plan(&other));
        assert_eq!(Table::try_from(other.as_slice()), Err(none));
        assert_eq!(lent::locate(&other, 0), Err(none));
        assert_eq!(lent::list(&other, 0, &mut [[0; 5]; 4]), Err(none));
        assert_eq!(Table::try_from(other), Err(none));
    }
    for length in 1..numbers.len() {
        assert_eq!(Table::try_from(&numbers[..length]), Err(none));
    }
    assert_eq!(Table::try_from(vec![0; 1_000_000]), Err(none));
    assert_eq!(description.table().record(usize::MAX), None);
}

#[test]
fn lent_tables() {
    let text = closed(WORKED);
    // as long as the records, one shorter, none, and longer
    let mut table = vec![-1; 48];
    let counts = lent::plan(&text, &mut table).expect("room");
    assert_eq!((counts.records, counts.variables), (6, 8));
    let mut short = vec![-1; 47];
    assert_eq!(lent::plan(&text, &mut short), Err(refusal(Cause::TableTooShort, 0)));
    assert_eq!(short, [-1; 47]);
    assert_eq!(lent::plan(&text, &mut []), Err(refusal(Cause::TableTooShort, 0)));
    let mut long = vec![-1; 60];
    lent::plan(&text, &mut long).expect("room");
    assert_eq!((&long[..48], &long[48..]), (&table[..], &[-1; 12][..]));

    assert_eq!(lent::check(&text, &table), Ok(309));
    let none = refusal(Cause::NotAPlan, 0);
    // writing and reading ask for exactly this table: not for one with numbers behind it, nor for another plan
    let mut window = Window::new(253, 128, [0xEE; 40]);
    let mut other = table.clone();
    other[1] -= 1;
    assert!(lent::is_plan(&other));
    for table in [&long[..], &other[..], &table[..40], &[]] {
        assert_eq!(lent::check(&text, table), Err(none));
        assert_eq!(lent::write(&text, table, 0, &mut window, 1), Err(none));
        assert_eq!(lent::read(&text, table, 0, &window), Err(none));
    }
    assert_eq!(window.bytes, [0xEE; 40]);
    assert_eq!(lent::write(&text, &table, 0, &mut window, 1), Ok(()));
    assert_eq!(lent::read(&text, &table, 0, &window).expect("an int").value, 1.into());
}

#[test]
fn lent_lists() {
    let description: Description = WORKED.parse().expect("T");
    let table = description.table().numbers();
    for n in (0..=9).chain([1 << 32, u64::MAX - 1]) {
        for room in 0..=9 {
            let mut out = vec![[77; 5]; room];
            let count = lent::list(table, n, &mut out).expect("a plan");
            assert_eq!(count, room.min(8_u64.saturating_sub(n) as usize));
            for (n, numbers) in (n..).zip(&out[..count]) {
                let variable = description.variable(n).expect("listed");
                let (record, size, kind) = (variable.record as u64, variable.size as u64, variable.kind.number());
                assert_eq!(*numbers, [record, variable.space, variable.address, size, kind]);
            }
            assert!(out[count..].iter().all(|numbers| *numbers == [77; 5]));
        }
    }
}

#[test]
fn threads_at_once() {
    let text = include_str!("../../samples/input-board.xml");
    let description: Description = text.parse().expect("a sample");
    let all: Vec<Variable> = description.iter().collect();
    std::thread::scope(|scope| {
        for thread in 0..8_u64 {
            let (description, all) = (&description, &all);
            scope.spawn(move || {
                for round in 0..20 {
                    assert_eq!(text.parse::<Description>().as_ref(), Ok(description));
                    assert_eq!(description.iter().collect::<Vec<_>>(), *all);
                    for variable in all.iter().filter(|variable| variable.kind == Kind::EventId) {
                        let mut window = Window::of(variable);
                        let id = EventId(thread << 32 | round);
                        description.write(variable.number, &mut window, id).expect("an eventid");
                        assert_eq!(description.read(variable.number, &window).expect("it").value, id.into());
                    }
                }
            });
        }
    });
}

#[test]
fn send_and_sync() {
    fn both<T: Send + Sync>() {}
    both::<Description>();
    both::<Table<'_>>();
    both::<Variables<'_>>();
    both::<(Variable, Kind, Counts)>();
    both::<(Value<'_>, Reading<'_>, Integer, EventId)>();
    both::<Window<Vec<u8>>>();
    both::<(Session<'_>, Entry<'_>)>();
    both::<(Refusal, Cause)>();
    // and a refusal can be handed on as any error
    let error: Box<dyn std::error::Error + Send + Sync> = refusal(Cause::NoEnd, 0).into();
    assert_eq!(error.to_string(), "refused 1 at 0: no zero byte at 65,535 or earlier");
}

#[test]
fn in_sets() {
    let t: Description = WORKED.parse().expect("T");
    let other = planned("<int/>");
    let set = HashSet::from([t.clone(), other.clone(), t.clone()]);
    assert_eq!(set.len(), 2);
    assert!(set.contains(&t) && set.contains(&other));
    let variables: HashSet<Variable> = t.iter().chain(&t).collect();
    assert_eq!(variables.len(), 8);
}
