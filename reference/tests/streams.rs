//! The streams of cases: frames that round-trip, shares of answers, and what small cases keep to.

use reference::cases::leaves::FAULT_PLACES;
use reference::cases::reached::{accesses, faults, labels as things, numbers, Reached};
use reference::cases::stats::Shares;
use reference::cases::texts::CAUSES;
use reference::cases::{boundaries, is_small, Sort, Stream};
use reference::plan::planned;
use reference::table::plan;
use reference::text::characters;
use reference::walk::{copy_out, steps_for, STEPS};
use reference::{answer, frame, line, Access, Case, Frames, Leaf};

#[test]
fn frames_round_trip() {
    for small in [false, true] {
        let stream = Stream::new(11, Sort::All, small);
        let cases: Vec<Case> = (0..3_000).map(|index| stream.case(index)).collect();
        let bytes: Vec<u8> = cases.iter().flat_map(frame).collect();
        let back: Vec<Case> = Frames::new(bytes.as_slice()).map(|case| case.unwrap()).collect();
        assert!(back == cases);
    }
}

#[test]
fn single_readings() {
    let stream = Stream::new(5, Sort::Leaf, false);
    let cases: Vec<Case> = (0..3_000).map(|index| stream.case(index)).collect();
    let bytes: Vec<u8> = cases.iter().flat_map(frame).collect();
    let back: Vec<Case> = Frames::new(bytes.as_slice()).map(|case| case.unwrap()).collect();
    assert!(back == cases);
    let told = |leaf: Leaf| line(&answer(&Case::Leaf(leaf)));
    let piece = |content: &str, place| told(Leaf::Piece { content: content.as_bytes().to_vec(), place });
    assert_eq!(piece("x<a b = '>' c=\"&amp;\"/>y", 1), "start 2 3 23 short refers 4 5 9 10 12 13 15 20");
    assert_eq!(piece("x<a b='1' b='2'/>", 1), "malformed");
    assert_eq!(piece("<a></a >", 3), "finish 5 6 8");
    assert_eq!(piece("<!--> -->", 0), "remark 9");
    assert_eq!(piece("<!-- a --->", 0), "malformed");
    assert_eq!(piece("&#13;", 0), "refer 13 5");
    assert_eq!(piece("a]]>", 0), "malformed");
    assert_eq!(piece("<![CDATA[", 0), "unsupported");
    assert_eq!(told(Leaf::Number(b"-0".to_vec())), "number 0");
    assert_eq!(told(Leaf::Number(b"\n +007\t".to_vec())), "number 7");
    assert_eq!(told(Leaf::Number(b"+ 7".to_vec())), "number none");
    assert_eq!(told(Leaf::Number(b"18446744073709551616".to_vec())), "number large");
    assert_eq!(told(Leaf::Name(b"offset".to_vec())), "name 0 8");
}

/// The stream of the gate has a first fault of characters at every place from 0 to 40.
#[test]
fn every_place_has_a_first_fault() {
    let stream = Stream::new(1, Sort::Leaf, false);
    let mut seen = [0; FAULT_PLACES as usize];
    for index in 0..80_000 {
        if let Case::Leaf(Leaf::Characters(bytes)) = stream.case(index) {
            if let Err(refusal) = characters(&bytes) {
                if let Some(count) = seen.get_mut(refusal.place as usize) {
                    *count += 1;
                }
            }
        }
    }
    assert!(seen.iter().all(|&count| count >= 20), "{seen:?}");
}

#[test]
fn bad_frames() {
    let good = frame(&Case::Locate { table: vec![1, -2], n: 3 });
    let place = |bytes: &[u8]| Frames::new(bytes).find_map(|case| case.err()).map(|bad| bad.place);
    assert_eq!(place(&good), None);
    assert_eq!(place(&good[..good.len() - 1]), Some(21));
    assert_eq!(place(b"X"), Some(0));
    assert_eq!(place(&[&good[..], b"x"].concat()), Some(good.len() as u64));
    let mut room = frame(&Case::Plan { room: 40_000, text: vec![0; 70_000] });
    assert_eq!(place(&room), None);
    room[8] += 1;
    assert_eq!(place(&room), Some(1));
    assert_eq!(place(&frame(&Case::Plan { room: 40_001, text: Vec::new() })), Some(1));
    assert_eq!(place(&frame(&Case::Plan { room: 0, text: vec![0; 70_001] })), Some(9));
    assert_eq!(place(&frame(&Case::Locate { table: vec![0; 40_001], n: 0 })), Some(1));
    let access = Access { text: Vec::new(), table: Vec::new(), n: 0, space: 0, first: 0, window: Vec::new() };
    let mut sign = frame(&Case::WriteInteger { access, negative: true, magnitude: 1 });
    assert_eq!(place(&sign), None);
    let at = sign.len() - 9;
    sign[at] = 2;
    assert_eq!(place(&sign), Some(at as u64));
}

fn shares(sort: Sort, count: u64) -> Shares {
    let stream = Stream::new(3, sort, false);
    let mut shares = Shares::default();
    for index in 0..count {
        shares.add(&stream.case(index));
    }
    shares
}

/// Of the first cases of a stream: how many long walks are copied out in full.
fn copied_out(sort: Sort, count: u64) -> usize {
    let stream = Stream::new(1, sort, false);
    let segments = |case| match case {
        Case::Plan { text, .. } => planned(&text).ok().map(|planned| planned.segments),
        Case::Locate { table, .. } => plan(&table),
        _ => None,
    };
    (0..count)
        .filter_map(|index| segments(stream.case(index)))
        .filter(|segments| steps_for(segments) > STEPS && copy_out(segments, STEPS).is_err())
        .filter(|segments| copy_out(segments, steps_for(segments)).is_ok())
        .count()
}

#[test]
fn some_long_walks_are_copied_out() {
    let counts = [copied_out(Sort::Plan, 5_000), copied_out(Sort::Locate, 5_000)];
    assert!(counts[0] >= 5 && counts[1] >= 25, "{counts:?}");
}

fn labels(numbers: impl IntoIterator<Item = u8>, words: &[&str]) -> Vec<String> {
    numbers.into_iter().map(|number| number.to_string()).chain(words.iter().map(|word| word.to_string())).collect()
}

#[test]
fn each_answer_has_its_share() {
    let wanted = [
        (Sort::Plan, "plan", labels(CAUSES.into_iter().chain([13]), &["planned"])),
        (Sort::Locate, "locate", labels(20..=21, &["found"])),
        (Sort::Access, "access", labels(CAUSES.into_iter().chain(20..=28), &["written", "integer", "event", "text"])),
    ];
    for (sort, kind, labels) in wanted {
        let shares = shares(sort, 6_000);
        for label in labels {
            assert!(shares.percent(kind, &label) >= 1.0, "{kind} {label} {}", shares.percent(kind, &label));
        }
        assert_eq!(shares.percent(kind, "8"), 0.0);
    }
}

/// What the first cases of a stream reach; each is also handed on.
fn reached(sort: Sort, count: u64, mut also: impl FnMut(&Case)) -> Reached {
    let stream = Stream::new(1, sort, false);
    let mut reached = Reached::default();
    for index in 0..count {
        let case = stream.case(index);
        reached.add(&case);
        also(&case);
    }
    reached
}

/// Each thing that a planner may read in a way of its own, by the independent program's reading; of numbers with blanks and signs and of several
/// faults at once, shares; and each of 81 to 88 as the answer.
#[test]
fn the_planning_stream_reaches_each_way() {
    let mut shares = Shares::default();
    let reached = reached(Sort::Plan, 20_000, |case| shares.add(case));
    for thing in things() {
        assert!(reached.count(&thing) >= 20, "{thing}: {}", reached.count(&thing));
    }
    for (thing, percent) in [
        (numbers::ACCEPTED, 4),
        (numbers::PLANNED, 2),
        (numbers::REFUSED, 4),
        (faults::TWO_IN_TAG, 5),
        (faults::THREE_IN_TAG, 2),
        (faults::TWO_IN_ELEMENT, 4),
        (faults::THREE_IN_ELEMENT, 1),
    ] {
        assert!(reached.count(thing) >= 200 * percent, "{thing}: {}", reached.count(thing));
    }
    for number in 81..=88 {
        let percent = shares.percent("plan", &number.to_string());
        assert!(percent >= 1.0, "{number}: {percent}");
    }
}

/// Small cases, which the definitions compute, have each cause too.
#[test]
fn small_cases_have_each_cause() {
    let stream = Stream::new(1, Sort::All, true);
    let mut shares = Shares::default();
    (0..3_000).for_each(|index| shares.add(&stream.case(index)));
    for number in CAUSES.into_iter().filter(|number| *number != 12) {
        for kind in ["plan", "access"] {
            let percent = shares.percent(kind, &number.to_string());
            assert!(percent >= 0.5, "{kind} {number}: {percent}");
        }
    }
}

/// Writes and reads of ints whose size, bounds or properties have blanks or a plus.
#[test]
fn the_access_stream_turns_on_blanks_and_signs() {
    let reached = reached(Sort::Access, 20_000, |_| ());
    for thing in accesses::labels() {
        assert!(reached.count(&thing) >= 20, "{thing}: {}", reached.count(&thing));
    }
}

/// A text with this in a segment.
fn in_segment(inside: &str) -> Vec<u8> {
    let head = "<?xml version=\"1.0\"?>\n<cdi xmlns:xsi='http://www.w3.org/2001/XMLSchema-instance' \
        xsi:noNamespaceSchemaLocation='http://openlcb.org/schema/cdi/1/3/cdi.xsd'><segment space='1'>";
    format!("{head}{inside}</segment></cdi>\0").into_bytes()
}

/// What one text shows.
fn all_shown(room: u64, inside: &str) -> Vec<String> {
    let mut reached = Reached::default();
    reached.add(&Case::Plan { room, text: in_segment(inside) });
    things().into_iter().filter(|thing| reached.count(thing) > 0).collect()
}

/// Whether a thing is about the causes 81 to 88 and what stands beside them.
fn is_of_causes(thing: &str) -> bool {
    ["cause: ", "tag: ", "element: ", "one place: "].iter().any(|start| thing.starts_with(start))
}

/// What one text shows, but for the bytes of attributes and the causes.
fn shown(room: u64, inside: &str) -> Vec<String> {
    let others = all_shown(room, inside).into_iter().filter(|thing| !is_of_causes(thing));
    others.filter(|thing| !thing.starts_with("attributes of")).collect()
}

#[test]
fn what_a_text_reaches() {
    for (inside, thing) in [
        ("<name>x</name>", "leaf: plain"),
        ("<name>x</name >", "leaf: a blank in its end tag"),
        ("<name >x</name>", "leaf: a blank before `>` of its start tag"),
        ("<name/>", "leaf: short form"),
        ("<name>a<!---->b</name>", "leaf: a comment"),
        ("<name>a]]>b</name>", "leaf: `]]>` in its text"),
        ("<name>a]>b</name>", "leaf: `>` in its text"),
        ("<name>x</nam>", "leaf: an end tag that begins its name"),
        ("<name>x</names>", "leaf: an end tag that its name begins"),
        ("<name>x", "leaf: another end tag"),
        ("<names>x</names>", "leaf: an unknown name that begins as a known one"),
        ("<int/><name>x</name>", "leaf: out of order"),
        ("<int><max></max></int>", "leaf: max empty"),
        ("<int><max> +1</max></int>", "leaf: max with blanks or a plus"),
        ("<int><min>18446744073709551616</min></int>", "leaf: min out of range"),
        ("<int><map><relation><property> </property></relation></map></int>", "leaf: property not a number"),
        ("<int a='' b='' c=''/>", "3 attributes, names distinct, all unknown"),
    ] {
        let shown: Vec<String> = shown(8, inside).into_iter().filter(|thing| !thing.contains("spelled")).collect();
        assert_eq!(shown, [thing], "{inside}");
    }
    let double = ["first", "last"].map(|spot| format!("3 attributes, a known name twice, with the {spot}"));
    assert_eq!(shown(8, "<int size='1' b='' size='2'/>"), double);
    // Several ways at once, no end, or an unknown parent show none.
    for inside in ["<name a='' >x</name >", "<name>x<!--", "<name>x<", "<a><name>x</name></a>"] {
        assert!(shown(8, inside).is_empty(), "{inside}: {:?}", shown(8, inside));
    }
}

/// What the numbers and sizes of one text show, without their sums.
fn spelled(inside: &str) -> Vec<String> {
    let sums = [numbers::ACCEPTED, numbers::PLANNED, numbers::REFUSED];
    let shown = shown(8, inside).into_iter().filter(|thing| thing.contains("spelled: "));
    shown.filter(|thing| !sums.contains(&thing.as_str())).collect()
}

#[test]
fn what_a_number_reaches() {
    for inside in ["<int offset='7'/>", "<int size='3'/>", "<int><max>7<!----></max></int>", "<a/><int offset=' '/>"] {
        assert!(spelled(inside).is_empty(), "{inside}: {:?}", spelled(inside));
    }
    let ends = ["a space at an end", "a tab at an end", "a newline at an end"].map(|way| format!("spelled: {way}"));
    for (inside, things) in [
        ("<int offset='+7'/>", vec!["spelled: a plus without blanks", "spelled: offset"]),
        ("<int size='2\t'/>", vec![&ends[1], "spelled: size of an int"]),
        ("<int><min> -5</min></int>", vec![&ends[0], "spelled: a minus and blanks", "spelled: min"]),
        (
            "<string size='\n+07'/>",
            vec![&ends[2], "spelled: a plus and blanks", "spelled: zeros behind a plus", "spelled: size of a string"],
        ),
    ] {
        assert_eq!(spelled(inside), things, "{inside}");
        let shown = shown(8, inside);
        assert!(
            [numbers::ACCEPTED, numbers::PLANNED].iter().all(|sum| shown.iter().any(|thing| thing == sum)),
            "{inside}"
        );
    }
    for (inside, fault, carrier) in [
        ("<string size=' '/>", "blanks alone", "size of a string"),
        ("<group replication='+'/>", "a sign alone", "replication"),
        ("<group replication=' -'/>", "a sign alone in blanks", "replication"),
        ("<int offset='+ 7'/>", "a blank behind the sign", "offset"),
        ("<int offset='7 7'/>", "a blank between digits", "offset"),
        ("<int offset='+ -7'/>", "two signs", "offset"),
        ("<int offset='7+'/>", "a sign behind the digits", "offset"),
        ("<int offset='\u{A0}7'/>", "other white space", "offset"),
        ("<int><max> <?p?>7</max></int>", "blanks beside a comment or an instruction", "max"),
        ("<int><default>7&#32;</default></int>", "blanks beside a reference", "default"),
        ("<float size='+4'/>", "a size with a sign", "size of a float"),
        ("<int size=' 04'/>", "a size with a leading zero", "size of an int"),
    ] {
        assert_eq!(spelled(inside), [fault, carrier].map(|what| format!("misspelled: {what}")), "{inside}");
        assert!(shown(8, inside).contains(&numbers::REFUSED.to_string()), "{inside}");
    }
}

#[test]
fn what_a_fault_reaches() {
    let two = [faults::TWO_IN_TAG, faults::TWO_IN_ELEMENT];
    let three = [faults::THREE_IN_TAG, faults::THREE_IN_ELEMENT];
    for (inside, wanted) in [
        ("<int/>", vec![]),
        ("<map/>", vec!["cause: 81 by a name that other rows have"]),
        ("<a/>", vec!["cause: 81 by a name that no row has"]),
        ("<name><a/></name>", vec!["cause: 81 in an element of text only", "cause: 81 by a name that no row has"]),
        ("<int a='' size='1' offset='x'/>", vec![two[0], "tag: 85 before 9"]),
        (
            "<float formatting='' a=''/>",
            vec!["cause: 86 of a float", two[0], three[0], "tag: 87 before 85", "tag: 86 and 85", "tag: 86 and 87"],
        ),
        ("<int><max>1</max><min>x</min></int>", vec!["cause: 82 of an element of text only", "one place: 82 and 9"]),
        (
            "<name/> x<name/><a/>",
            vec![
                "cause: 88 behind blanks",
                two[1],
                three[1],
                "element: 83 before 81",
                "element: 88 before 81",
                "element: 88 before 83",
            ],
        ),
        ("<int a=''><min>2</min><max>1</max></int>", vec!["cause: 10 of an int's bounds, 85 in its tag"]),
        (
            "<int><map><relation a=''>x</relation></map></int>",
            vec!["cause: 84 without both", two[1], three[1], "element: 84 and 85", "element: 84 and 88"],
        ),
        // An element that the answer is no part of.
        ("<a/><int b='' offset='x'/>", vec!["cause: 81 by a name that no row has"]),
    ] {
        let shown: Vec<String> = all_shown(8, inside).into_iter().filter(|thing| is_of_causes(thing)).collect();
        assert_eq!(shown, wanted, "{inside}");
    }
}

#[test]
fn which_texts_are_planned_twice() {
    let records = |count: usize, room: u64| shown(room, &"<int/>".repeat(count - 1));
    assert!(records(127, 8 * 127).is_empty());
    assert_eq!(records(128, 1_024), ["128 records in up to 4096 bytes, table fits"]);
    assert_eq!(records(129, 1_024), ["129 records in up to 4096 bytes, table one record short"]);
    assert_eq!(records(1_026, 0), ["more than 1025 records in up to 32768 bytes, table of length 0"]);
}

#[test]
fn a_default_stream_holds_every_boundary() {
    // One case in four of one in three of 20,000.
    let turns = 20_000 / 3 / 4;
    assert!(boundaries::of_plan().len() <= turns);
    assert!(boundaries::of_locate().len() <= turns);
    assert!(boundaries::of_access().len() <= turns);
}

#[test]
fn a_stream_is_fixed_by_its_seed() {
    let lines = |seed: u64| -> Vec<String> {
        let stream = Stream::new(seed, Sort::All, true);
        (0..300).map(|index| line(&answer(&stream.case(index)))).collect()
    };
    assert_eq!(lines(5), lines(5));
    assert_ne!(lines(5), lines(6));
}

#[test]
fn small_cases_are_small() {
    let stream = Stream::new(8, Sort::All, true);
    for index in 0..3_000 {
        let case = stream.case(index);
        assert!(is_small(&case));
        assert!(frame(&case).len() <= 1_600);
    }
}

/// The lines of all boundary cases of planning.
fn plan_lines() -> Vec<String> {
    boundaries::of_plan().iter().map(|case| line(&answer(case))).collect()
}

#[test]
fn the_boundaries_fall_on_both_sides() {
    let lines = plan_lines();
    let stands = |start: &str| assert!(lines.iter().any(|line| line.starts_with(start)), "{start}");
    for start in [
        "refused 1 0 ",
        "refused 1 65535 ",
        "refused 1 65536 ",
        "refused 3 0 ",
        "refused 6 22 ",
        "refused 7 ",
        "refused 11 155 ",
        "refused 12 22 ",
        "refused 13 0 ",
        "planned 4095 4094 ",
        "planned 0 0 ",
        "planned 3 1000000 ",
        "planned 24 0 ",
        "planned 23 1 ",
    ] {
        stands(start);
    }
}

/// Each boundary case is one that a frame may hold.
#[test]
fn the_boundaries_are_good_frames() {
    for cases in [boundaries::of_plan(), boundaries::of_locate(), boundaries::of_access()] {
        for case in cases {
            let back = Frames::new(frame(&case).as_slice()).next();
            assert!(back == Some(Ok(case)));
        }
    }
}
