//! Request R-1 of document 02: its open points as they were decided, each with its examples.

mod build;

use build::*;
use reference::plan::planned;
use reference::{line, Access};

/// What stands in the root with `#` for a number, and how far in the element that carries it begins.
#[rustfmt::skip]
const NUMBERS: [(&str, i64); 15] = [
    ("<acdi fixed='#'/>", 0),
    ("<acdi var='#'/>", 0),
    ("<segment space='#'/>", 0),
    ("<segment space='1' origin='#'/>", 0),
    ("<segment space='1'><group replication='#'/></segment>", 19),
    ("<segment space='1'><group offset='#'/></segment>", 19),
    ("<segment space='1'><int offset='#'/></segment>", 19),
    ("<segment space='1'><string size='2' offset='#'/></segment>", 19),
    ("<segment space='1'><eventid offset='#'/></segment>", 19),
    ("<segment space='1'><float size='2' offset='#'/></segment>", 19),
    ("<segment space='1'><string size='#'/></segment>", 19),
    ("<segment space='1'><int><min>#</min></int></segment>", 24),
    ("<segment space='1'><int><max>#</max></int></segment>", 24),
    ("<segment space='1'><int><default>#</default></int></segment>", 24),
    ("<segment space='1'><int><map><relation><property>#</property><value/></relation></map></int></segment>", 39),
];

const GOOD: [&str; 12] =
    [" 7", "7 ", "\t7", "7\t", "\n7\n", "  \t\n7\n\t  ", "+7", "+007", " +7", "+7\n", "\t +00007 \n", "007 "];

/// The table of a text but for the places, which blanks move.
fn fields(inside: &str) -> Vec<Vec<i64>> {
    let numbers = planned(&cdi(inside)).unwrap().numbers;
    numbers.chunks(8).map(|record| [&record[..1], &record[2..]].concat()).collect()
}

#[test]
fn points_1_2_the_form_in_each_place() {
    for (place, _) in NUMBERS {
        let wanted = fields(&place.replace('#', "7"));
        for spelled in GOOD {
            assert_eq!(fields(&place.replace('#', spelled)), wanted, "{place} {spelled:?}");
        }
    }
    for place in ["<group offset='#'/>", "<int offset='#'/>", "<eventid offset='#'/>"] {
        let at =
            |offset: &str| fields(&format!("<segment space='1' origin='9'>{}</segment>", place.replace('#', offset)));
        for spelled in [" -7", "-7 ", "\n-7\t", "  -007  "] {
            assert_eq!(at(spelled), at("-7"), "{place} {spelled:?}");
        }
    }
}

#[test]
fn point_3_no_numbers() {
    for (place, carrier) in NUMBERS {
        for none in [
            "", " ", "\n\t ", "+", "-", " +", "- ", " + ", "+ 7", "- 7", "-\t7", " +\n7 ", "7 7", "7\n7", "1 000",
            "++7", "--7", "+-7", "-+7", "+ -7", "7+", "7-", "7 +", " 7- ", "x", "7x", "+x", "0x7", "7.0", "7e0",
        ] {
            assert_eq!(inside(&place.replace('#', none)), Some((9, carrier)), "{place} {none:?}");
        }
    }
}

#[test]
fn point_4_other_white_space() {
    for white in ["\u{A0}", "\u{85}", "\u{2003}", "\u{3000}", "\u{FEFF}"] {
        for (place, carrier) in NUMBERS {
            for none in [format!("{white}7"), format!("7{white}"), white.to_string(), format!(" {white} 7")] {
                assert_eq!(inside(&place.replace('#', &none)), Some((9, carrier)), "{place} {none:?}");
            }
        }
        assert_eq!(in_segment(&format!("<int size='{white}4'/>")), Some((10, 0)));
        assert_eq!(in_segment(&format!("<float size='4{white}'/>")), Some((10, 0)));
    }
    assert_eq!(refused(&segment("<int offset='\r7'/>")), Some((2, IN_SEGMENT as u64 + 13)));
    assert_eq!(in_segment("<int><min>&#13;7</min></int>"), Some((9, 5)));
}

#[test]
fn point_5_zero_behind_a_sign() {
    for zero in ["+0", "-0", " +00 ", "\n-0"] {
        assert_eq!(in_segment(&format!("<group replication='{zero}'/>")), Some((10, 0)), "{zero:?}");
        assert_eq!(in_segment(&format!("<string size='{zero}'/>")), Some((10, 0)), "{zero:?}");
        assert_eq!(in_segment(&format!("<int offset='{zero}'/>")), None, "{zero:?}");
        assert_eq!(inside(&format!("<segment space='{zero}' origin='{zero}'/>")), None, "{zero:?}");
        let int = format!("<int><min>{zero}</min><max>255</max></int>");
        assert_eq!(in_segment(&int), None, "{zero:?}");
        assert_eq!(line(&read(&access(&int, 0, 1))), "integer 255 accepted", "{zero:?}");
    }
    let signed = "<int><min> -5 </min></int>";
    assert_eq!(line(&read(&access(signed, 0, 1))), "integer -1 accepted");
    assert_eq!(in_segment("<int><min>\t-5</min><max>128</max></int>"), Some((10, 19)));
}

#[test]
fn point_6_ranges_and_digits() {
    for (space, expected) in [("+255", None), (" 255 ", None), ("+256", Some((10, 0))), (" -1 ", Some((10, 0)))] {
        assert_eq!(inside(&format!("<segment space='{space}'/>")), expected, "{space:?}");
    }
    let five = format!("+{}5", "0".repeat(300));
    assert_eq!(fields(&format!("<segment space='1'><string size='{five}'/></segment>"))[1][2], 5);
    assert_eq!(in_segment(&format!("<int><min> {five}\n</min><max>+5</max></int>")), None);
    assert_eq!(in_segment(&format!("<int><min>{five}</min><max>+4</max></int>")), Some((10, 0)));
    for (offset, expected) in
        [("+2147483647", None), ("+2147483648", Some(10)), (" -2147483648", Some(11)), (" -2147483649", Some(10))]
    {
        let refusal = in_segment(&format!("<int offset='{offset}'/>")).map(|refusal| refusal.0);
        assert_eq!(refusal, expected, "{offset:?}");
    }
    for (max, expected) in [("+18446744073709551615", None), (" +18446744073709551616 ", Some((10, 14)))] {
        assert_eq!(in_segment(&format!("<int size='8'><max>{max}</max></int>")), expected, "{max:?}");
    }
    for (min, expected) in [(" -9223372036854775808 ", None), ("\n-9223372036854775809", Some((10, 14)))] {
        assert_eq!(in_segment(&format!("<int size='8'><min>{min}</min></int>")), expected, "{min:?}");
    }
    assert_eq!(in_segment(&format!("<int><default>+{}</default></int>", "9".repeat(60_000))), Some((10, 5)));
}

#[test]
fn point_7_sizes_are_tokens() {
    for (name, sizes) in [("int", &["1", "2", "4", "8"][..]), ("float", &["2", "4", "8"])] {
        let with = |size: &str| format!("<segment space='1'><{name} size='{size}'/></segment>");
        for size in sizes {
            for (before, behind) in [(" ", ""), ("", " "), ("\t", "\n"), (" \n\t ", "  ")] {
                let spelled = format!("{before}{size}{behind}");
                assert_eq!(fields(&with(&spelled)), fields(&with(size)), "{name} {spelled:?}");
            }
        }
        for none in [
            "", " ", "\n\t", "+", "-", " + ", "04", " 04 ", "+4", " +4", "-4", "4 4", "2\n4", "+ 4", "4+", "x", " x ",
            "3", " 16", "4.0", "0",
        ] {
            assert_eq!(inside(&with(none)), Some((10, 19)), "{name} {none:?}");
        }
    }
    assert_eq!(in_segment("<float size=' 1 '/>"), Some((10, 0)));
    // A size in blanks is one for the test of the bounds too.
    assert_eq!(in_segment("<int size='\t2 '><max>65535</max></int>"), None);
    assert_eq!(in_segment("<int size='\t2 '><max>65536</max></int>"), Some((10, 16)));
}

#[test]
fn point_8_a_string_has_a_number() {
    for size in ["+04", " 4", "04\n", "\t+4 ", "0004"] {
        assert_eq!(fields(&format!("<segment space='1'><string size='{size}'/></segment>"))[1][2], 4, "{size:?}");
    }
    let string = access("<string size=' +04 '/>", 0, 4);
    assert_eq!([b"abc".as_slice(), b"abcd"].map(|text| number(&write_text(&string, text))), [None, Some(25)]);
}

#[test]
fn point_9_one_run_of_text() {
    for (place, carrier) in NUMBERS.into_iter().filter(|(place, _)| place.contains(">#<")) {
        for none in [
            " <!---->7",
            "7 <!-- c -->",
            "<!----> 7 ",
            "<?p?> 7",
            " 7<?p q?>",
            "&#32;7",
            "7&#9;",
            " 7&#10;",
            "&#x20;7 ",
            "+&#55;",
            " &#55; ",
            "&#43;7",
            " <a/>7",
            "7 <a></a>",
            " <!----> ",
            "<!---->",
        ] {
            assert_eq!(inside(&place.replace('#', none)), Some((9, carrier)), "{place} {none:?}");
        }
    }
}

#[test]
fn point_10_other_texts_keep_their_blanks() {
    for (from, to, place) in
        [("=\"http://www", "=\" http://www", 5), ("instance\"", "instance \"", 5), ("cdi.xsd\"", "cdi.xsd\n\"", 59)]
    {
        assert_eq!(outside(&format!("{}</cdi>", ROOT.replace(from, to))), Some((87, place)), "{to}");
    }
    for formatting in [" %f", "%f ", "%+f", "%\t3f", "%3.2f\n"] {
        let float = format!("<float size='2' formatting='{formatting}'/>");
        assert_eq!(in_segment(&float), Some((87, 16)), "{formatting:?}");
    }
    let map = "<map><relation><property> +7 </property><value/></relation></map>";
    let string = access(&format!("<string size='9'>{map}</string>"), 0, 9);
    for (value, expected) in [(&b" +7 "[..], None), (b"7", Some(24)), (b"+7", Some(24)), (b" +7", Some(24))] {
        assert_eq!(number(&write_text(&string, value)), expected, "{value:?}");
    }
    // A float's bounds and properties are any text.
    assert_eq!(in_segment(&format!("<float size='2'><min>+ 1</min><max>1 1</max>{map}</float>")), None);
}

#[test]
fn point_11_properties_are_compared_as_numbers() {
    let relation = |property: &str| format!("<relation><property>{property}</property><value/></relation>");
    let relations: String = [" +7 ", "\n-3", "+0", " 0200\t"].map(relation).concat();
    let int = access(&format!("<int size=' 2'><min>\t-5 </min><map>{relations}</map></int>"), 0, 2);
    let numbers = [7, -3, 0, 200, 8, -4, 3, -6].map(|value| number(&write_integer(&int, value)));
    assert_eq!(numbers, [None, None, None, None, Some(24), Some(24), Some(24), Some(23)]);
    for (window, told) in [
        ([0, 7], "integer 7 accepted"),
        ([0xFF, 0xFD], "integer -3 accepted"),
        ([0, 200], "integer 200 accepted"),
        ([0, 8], "integer 8 not"),
    ] {
        assert_eq!(line(&read(&Access { window: window.to_vec(), ..int.clone() })), told);
    }
}

// Point 12 is about the lines of a log, which no call reads yet.

/// Very many blanks: before, behind and around, between digits, and alone.
#[test]
fn many_blanks() {
    let blanks = " \t\n".repeat(20_000);
    let half = &blanks[..30_000];
    for (number, expected) in [
        (format!("{blanks}+7"), None),
        (format!("7{blanks}"), None),
        (format!("{half}7{half}"), None),
        (format!("7{blanks}7"), Some(9)),
        (format!("+{blanks}7"), Some(9)),
        (blanks.clone(), Some(9)),
    ] {
        let attribute = in_segment(&format!("<int offset='{number}'/>"));
        assert_eq!(attribute, expected.map(|fault| (fault, 0)));
        let text = in_segment(&format!("<int><default>{number}</default></int>"));
        assert_eq!(text, expected.map(|fault| (fault, 5)));
    }
    assert_eq!(in_segment(&format!("<int size='{half}8{half}'/>")), None);
    assert_eq!(in_segment(&format!("<int size='{half}08{half}'/>")), Some((10, 0)));
    assert_eq!(in_segment(&format!("<int size='{blanks}'/>")), Some((10, 0)));
}
