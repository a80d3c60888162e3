//! The open points of document 01 as they were decided, each with its examples.

mod build;

use build::*;
use reference::cases::tables::hostile;
use reference::table::{locate, numbers, records};
use reference::{answer, line, Access, Answer, Case};

#[test]
fn r0_float_in_a_segment_and_comments_in_acdi() {
    assert_eq!(in_segment("<float size='4'/>"), None);
    assert_eq!(inside("<acdi> <!-- c --><?p?>\n</acdi>"), None);
}

#[test]
fn r1_the_last_end() {
    let text = |zero: usize| {
        let mut text = cdi("<segment space='1'/>");
        text.pop();
        text.resize(zero, b' ');
        text.push(0);
        text
    };
    assert_eq!(refused(&text(65_535)), None);
    assert_eq!(refused(&text(65_536)), Some((1, 65_536)));
    assert_eq!(refused(&text(65_535)[..65_535]), Some((1, 65_535)));
    assert_eq!(refused(&text(65_536)[..65_536]), Some((1, 65_536)));
    assert_eq!(refused(b"abc"), Some((1, 3)));
}

#[test]
fn r2_characters() {
    for bad in [
        &b"\xC0\x80"[..],
        b"\xC2",
        b"\xED\xA0\x80",
        b"\xF4\x90\x80\x80",
        b"\x80",
        b"\r",
        b"\xEF\xBF\xBE",
        b"\xEF\xBF\xBF",
        b"\x01",
        b"\x1F",
        b"\xE0\x9F\xBF",
    ] {
        assert_eq!(refused(&[b"\xC3\xA9a", bad, b"\0"].concat()), Some((2, 3)), "{bad:?}");
    }
    for good in [&b"\xEF\xBB\xBF"[..], b"\x7F", b"\xC2\x80", b"\t", b"\n", b"\xEF\xBF\xBD"] {
        assert_eq!(refused(&[b"a", good, b"\0"].concat()), Some((3, 0)), "{good:?}");
    }
    assert_eq!(refused(b"\xEF\xBB\xBFa\0"), Some((2, 0)));
}

#[test]
fn r3_first_line() {
    assert_eq!(refused(b"<?xml version=\"1.0\"?>\0"), Some((3, 0)));
    assert_eq!(refused(b"<?xml version='1.0'?>\n<a/>\0"), Some((3, 0)));
    assert_eq!(refused(b"<?xml version=\"1.0\"?>\n\0"), Some((6, 22)));
}

#[test]
fn r4_which_markup() {
    for (rest, number) in [
        ("<!DOCTYPE", 5),
        ("<!DOCTYPEx", 5),
        ("<![CDATA[", 5),
        ("<!DOCTYP", 4),
        ("<![CDATA", 4),
        ("<!x>", 4),
        ("<!", 4),
        ("<!-", 4),
        ("<!--", 4),
        ("<a", 4),
        ("<a b='", 4),
        ("</a", 4),
        ("<?p", 4),
        ("<?p ", 4),
        ("&lt", 4),
        ("<", 4),
        ("<>", 4),
        ("</>", 4),
        ("< a>", 4),
    ] {
        assert_eq!(outside(&format!(" {rest}")), Some((number, 1)), "{rest}");
    }
}

#[test]
fn r5_comments() {
    for bad in ["<!-- a --->", "<!-- a -- b -->", "<!--->", "<!---"] {
        assert_eq!(inside(bad), Some((4, 0)), "{bad}");
    }
    for good in ["<!---->", "<!--> -->", "<!-- - -->", "<!---a-->"] {
        assert_eq!(inside(good), None, "{good}");
    }
}

#[test]
fn r6_instructions() {
    for bad in ["<?xml?>", "<?XmL ?>", "<? p?>", "<?p??>", "<?p!?>", "<??>", "<?1?>"] {
        assert_eq!(inside(bad), Some((4, 0)), "{bad}");
    }
    for good in ["<?p?>", "<?p ?>", "<?p ??>", "<?xml-stylesheet a?>", "<?xmlx?>", "<?p\n<&]]>?>"] {
        assert_eq!(inside(good), None, "{good}");
    }
}

#[test]
fn r7_tags() {
    for bad in [
        "<a b='1'c='2'/>",
        "<a b/>",
        "<a b=1/>",
        "<a b='<'/>",
        "<a/ >",
        "<a b='1' b='1'/>",
        "<a 'b'/>",
        "</a b=''>",
        "<a b=''",
        "<1a/>",
        "<a b==''/>",
    ] {
        assert_eq!(inside(bad), Some((4, 0)), "{bad}");
    }
    assert_eq!(inside("<segment\n\tspace \n = '1'\torigin=\"2\" ></segment \n>"), None);
    assert_eq!(inside("<segment space='\">'/>"), Some((9, 0)));
}

#[test]
fn r8_ampersand_in_an_attribute() {
    assert_eq!(inside("<a b='&'/>"), Some((5, 0)));
    assert_eq!(inside("<a b='&amp;'>"), Some((5, 0)));
    assert_eq!(inside("<a b='&' b=''/>"), Some((4, 0)));
    assert_eq!(inside("<a b='&'c=''/>"), Some((4, 0)));
    assert_eq!(inside("<a b='&<'/>"), Some((4, 0)));
}

#[test]
fn r9_references() {
    for good in [
        "&lt;",
        "&gt;",
        "&amp;",
        "&quot;",
        "&apos;",
        "&#13;",
        "&#x41;",
        "&#xaF;",
        "&#000000000000000000000065;",
        "&#x10FFFF;",
        "&#9;",
        "&#xFFFD;",
    ] {
        assert_eq!(in_segment(&format!("<name>{good}</name>")), None, "{good}");
    }
    for bad in [
        "&#xD800;",
        "&#0;",
        "&#11;",
        "&#xFFFE;",
        "&#x110000;",
        "&#;",
        "&#x;",
        "&#X41;",
        "&nbsp;",
        "&LT;",
        "&",
        "&lt",
        "& lt;",
        "&#65 ;",
        "&#-5;",
        "&#4294967361;",
        "&#18446744073709551681;",
    ] {
        assert_eq!(in_segment(&format!("<name>{bad}</name>")), Some((4, 6)), "{bad}");
        assert_eq!(outside(bad), Some((4, 0)), "{bad}");
    }
}

#[test]
fn r10_r11_runs() {
    assert_eq!(in_segment("<name>a]]>b</name>"), Some((4, 6)));
    assert_eq!(in_segment("<name>]]&gt;]]<!---->></name>"), None);
    assert_eq!(outside("  x]]>"), Some((4, 0)));
    assert_eq!(outside(" \n x"), Some((6, 3)));
    assert_eq!(outside(" &#32;"), Some((6, 1)));
    assert_eq!(outside("<a/> \t."), Some((6, 6)));
}

#[test]
fn r12_r13_structure() {
    assert_eq!(outside("<a></b>"), Some((6, 3)));
    assert_eq!(outside("</a>"), Some((6, 0)));
    assert_eq!(outside("<a/><b/>"), Some((6, 4)));
    assert_eq!(outside("<a/><b"), Some((4, 4)));
    assert_eq!(outside("<a/><b c='&'/>"), Some((5, 4)));
    assert_eq!(outside("<a><b>"), Some((6, 6)));
    assert_eq!(outside(" "), Some((6, 1)));
    assert_eq!(outside("<!---->"), Some((6, 7)));
    let open = "<a>".repeat(24);
    assert_eq!(outside(&format!("{open}<a/>")), Some((7, 72)));
    assert_eq!(outside(&format!("{open}<a b='&'/>")), Some((5, 72)));
    assert_eq!(outside(&format!("{open}<a b='&'c=''/>")), Some((4, 72)));
    assert_eq!(outside(&format!("{open}{}", "</a>".repeat(24))), Some((81, 0)));
    let full = format!("<a>{}</a>", "<b/>".repeat(4_095));
    assert_eq!(outside(&full), Some((81, 0)));
    assert_eq!(outside(&format!("{full}<a/>")), Some((6, full.len() as u64)));
    assert_eq!(outside(&format!("<a>{}</a>", "<b/>".repeat(4_096))), Some((7, 3 + 4 * 4_095)));
}

#[test]
fn r14_r15_the_least_fault() {
    assert_eq!(in_segment("<int offset='x' a=''/>"), Some((9, 0)));
    assert_eq!(in_segment("<int offset='x' size='3'/>"), Some((9, 0)));
    assert_eq!(in_segment("<int><min>x</min></int><a/>"), Some((9, 5)));
    assert_eq!(in_segment("<a><int size='3'/></a>"), Some((81, 0)));
    assert_eq!(inside("<segment space='256'>x</segment>"), Some((10, 0)));
}

#[test]
fn r16_order() {
    assert_eq!(in_segment("<int/><name/>"), Some((82, 6)));
    assert_eq!(in_segment("<group><int/><repname/></group>"), Some((82, 13)));
    assert_eq!(in_segment("<name/><name/>"), Some((83, 7)));
    assert_eq!(in_segment("<int><max>1</max><min>0</min></int>"), Some((82, 17)));
    assert_eq!(in_segment("<int><map/><min>0</min><max>1</max></int>"), Some((82, 11)));
    assert_eq!(in_segment("<int><map><relation><value/><property>1</property></relation></map></int>"), Some((82, 28)));
    assert_eq!(in_segment("<int><map><relation><value/></relation></map></int>"), Some((84, 10)));
    assert_eq!(inside("<acdi/><identification/>"), Some((82, 7)));
}

#[test]
fn r17_stray_text() {
    assert_eq!(in_segment(" \n x <int/>"), Some((88, 3)));
    assert_eq!(in_segment("  &#32;"), Some((88, 2)));
    assert_eq!(inside("<acdi> x</acdi>"), Some((88, 7)));
    assert_eq!(inside("<acdi>&#32;</acdi>"), Some((88, 6)));
}

#[test]
fn r18_text_only() {
    assert_eq!(in_segment("<name a=''/>"), Some((85, 6)));
    assert_eq!(in_segment("<name>x<name/></name>"), Some((81, 7)));
    assert_eq!(in_segment("<name><!---->&lt;<?p?>x</name>"), None);
}

#[test]
fn r19_attributes() {
    assert_eq!(outside("<cdi/>"), Some((86, 0)));
    assert_eq!(outside(&format!("{}</cdi>", ROOT.replace("/1/3/", "/1/4/"))), Some((87, 59)));
    assert_eq!(outside(&format!("{}</cdi>", ROOT.replace("instance\"", "instance \""))), Some((87, 5)));
    for good in ["%f", "%.f", "%3f", "%3.f", "%.2f", "%03.22f"] {
        assert_eq!(in_segment(&format!("<float size='2' formatting='{good}'/>")), None, "{good}");
    }
    for bad in ["", "%", "f", "%F", "% f", "%f ", "%1.2.f", "%-3f", "%3"] {
        assert_eq!(in_segment(&format!("<float size='2' formatting='{bad}'/>")), Some((87, 16)), "{bad}");
    }
    assert_eq!(in_segment("<float/>"), Some((86, 0)));
    assert_eq!(in_segment("<float size='1'/>"), Some((10, 0)));
    assert_eq!(in_segment("<float size=''/>"), Some((10, 0)));
    assert_eq!(in_segment("<string/>"), Some((86, 0)));
    assert_eq!(in_segment("<string size=''/>"), Some((9, 0)));
    assert_eq!(in_segment("<string size='0'/>"), Some((10, 0)));
    assert_eq!(in_segment("<string size='0065535'/>"), None);
    assert_eq!(in_segment("<eventid size='8'/>"), Some((85, 9)));
}

#[test]
fn r20_r21_numbers_in_texts() {
    for bad in ["", " ", "1<!---->", "&#49;", "1<?p?>", "1<a/>", "<min>1</min>"] {
        assert_eq!(in_segment(&format!("<int><min>{bad}</min></int>")), Some((9, 5)), "{bad}");
        assert_eq!(
            in_segment(&format!("<int><map><relation><property>{bad}</property><value/></relation></map></int>")),
            Some((9, 20)),
            "{bad}"
        );
    }
    assert_eq!(in_segment("<int><default>18446744073709551616</default></int>"), Some((10, 5)));
    assert_eq!(in_segment("<int><default>18446744073709551615</default></int>"), None);
    assert_eq!(in_segment("<int><default>-9223372036854775809</default></int>"), Some((10, 5)));
    let map = "<map><relation><property>x<!---->&lt;</property><value/></relation></map>";
    for good in [
        format!("<string size='3'>{map}</string>"),
        format!("<eventid>{map}</eventid>"),
        format!("<float size='2'><min>a</min><max/>{map}</float>"),
    ] {
        assert_eq!(in_segment(&good), None, "{good}");
    }
    assert_eq!(inside(&format!("<identification>{map}</identification>")), None);
}

#[test]
fn r22_r23_bounds() {
    assert_eq!(in_segment("<int><min>2</min><max>1</max></int>"), Some((10, 0)));
    assert_eq!(in_segment("<int><min>-129</min><max>128</max></int>"), Some((10, 5)));
    assert_eq!(in_segment("<int><min>-1</min><max>128</max></int>"), Some((10, 18)));
    assert_eq!(in_segment("<int><max>-1</max></int>"), Some((10, 5)));
    assert_eq!(in_segment("<int><max>256</max></int>"), Some((10, 5)));
    assert_eq!(in_segment("<int><min>256</min></int>"), Some((10, 5)));
    assert_eq!(in_segment("<int><min>-0</min><max>255</max></int>"), None);
    // Faults elsewhere don't stop the test, those of size, min and max do.
    assert_eq!(in_segment("<int><min>2</min><max>1</max><a/></int>"), Some((10, 0)));
    assert_eq!(in_segment("<int><name a=''/><min>2</min><max>1</max></int>"), Some((10, 0)));
    assert_eq!(in_segment("<int>x<min>2</min><max>1</max></int>"), Some((10, 0)));
    assert_eq!(in_segment("<int><min>2</min><max>1</max><max>1</max></int>"), Some((83, 29)));
    assert_eq!(in_segment("<int><min>2</min><max a=''>1</max></int>"), Some((85, 22)));
    assert_eq!(in_segment("<int><min>2</min><max>x</max></int>"), Some((9, 17)));
    assert_eq!(in_segment("<int><default>0</default><min>2</min><max>1</max></int>"), Some((82, 25)));
    assert_eq!(in_segment("<int offset='x'><min>2</min><max>1</max></int>"), Some((9, 0)));
    assert_eq!(in_segment("<int size='3'><min>2</min><max>1</max></int>"), Some((10, 0)));
    assert_eq!(line(&read(&access("<int><min>-0</min></int>", 0, 1))), "integer 255 accepted");
}

#[test]
fn r24_r25_the_walk() {
    let at = |origin: &str, data: &str| {
        refused(&cdi(&format!("<segment space='1' origin='{origin}'>{data}</segment>"))).map(|refusal| refusal.0)
    };
    assert_eq!(at("0", "<int offset='-1'/>"), Some(11));
    assert_eq!(at("0", "<group offset='-1'/>"), Some(11));
    assert_eq!(at("0", "<group offset='-1'/><group offset='1'/>"), Some(11));
    assert_eq!(at("2147483647", "<int offset='2147483647' size='2'/>"), None);
    assert_eq!(at("2147483647", "<int offset='2147483647' size='4'/>"), Some(11));
    assert_eq!(at("5", "<group replication='2147483647' offset='-5'/>"), None);
    assert_eq!(at("5", "<group replication='2147483647' offset='-6'/>"), Some(11));
    assert_eq!(at("30", "<group replication='10'><int offset='-4'/></group>"), Some(11));
    assert_eq!(at("31", "<group replication='10'><int offset='-4'/></group>"), None);
    let crowd = |count: u32| format!("<group replication='{count}'><int/></group>");
    assert_eq!(at("0", &crowd(1_000_000)), None);
    let both =
        format!("<segment space='1'>{}</segment><segment space='2'><int offset='-1'/></segment>", crowd(1_000_001));
    assert_eq!(inside(&both).map(|refusal| refusal.0), Some(11));
    assert_eq!(refused(&segment(&crowd(1_000_001))), Some((12, 22)));
    let halves =
        format!("<segment space='1'>{}</segment><segment space='2'>{}</segment>", crowd(500_000), crowd(500_001));
    assert_eq!(refused(&cdi(&halves)), Some((12, 22)));
}

#[test]
fn r26_any_room() {
    let text = segment("<int/>");
    for (room, accepted) in [(0, false), (15, false), (16, true), (17, true), (23, true)] {
        match answer(&Case::Plan { room, text: text.clone() }) {
            Answer::Planned { table, .. } => {
                assert!(accepted);
                assert_eq!(table[16..], (16..room as i64).map(|number| -7 - number).collect::<Vec<i64>>());
            }
            Answer::PlanRefused { refusal, table } => {
                assert!(!accepted);
                assert_eq!((refusal.number, refusal.place), (13, 0));
                assert_eq!(table, (0..room as i64).map(|number| -7 - number).collect::<Vec<i64>>());
            }
            other => panic!("{other:?}"),
        }
    }
}

#[test]
fn r27_locating() {
    let table = numbers(&records(&hostile(20, 2_147_483_647, false)).unwrap());
    assert_eq!(locate(&table, 0).unwrap_err().number, 21);
    let table = numbers(&records(&hostile(20, 2_147_483_647, true)).unwrap());
    assert_eq!(locate(&table, 0).unwrap_err().number, 20);
    assert_eq!(locate(&[], u64::MAX).unwrap_err().number, 21);
    assert_eq!(locate(&[0; 7], 0).unwrap_err().number, 20);
    let segment = [1, 22, 0, 0, 1, 2, 1, 1];
    let int = [3, 23, 0, 1, 1, 2, 1, 1];
    assert!(locate(&[segment, int].concat(), 0).is_ok());
    assert_eq!(locate(&[&segment[..], &int, &[0]].concat(), 0).unwrap_err().number, 20);
}

#[test]
fn r28_windows() {
    let base = access("<int size='2' offset='5'/>", 0, 0);
    let number_at = |first: u64, length: usize, space: u64| {
        number(&read(&Access { first, space, window: vec![0; length], ..base.clone() }))
    };
    assert_eq!(number_at(5, 2, 1), None);
    assert_eq!(number_at(0, 7, 1), None);
    assert_eq!(number_at(0, 6, 1), Some(26));
    assert_eq!(number_at(6, 9, 1), Some(26));
    assert_eq!(number_at(5, 2, 2), Some(26));
    assert_eq!(number_at(5, 2, 257), Some(26));
    assert_eq!(number_at(u64::MAX - 1, 20, 1), Some(26));
    assert_eq!(number_at(5u64.wrapping_sub(1 << 32), 2, 1), Some(26));
}

#[test]
fn r29_kinds() {
    let numbers_for = |inside: &str| {
        let access = access(inside, 0, 0);
        [write_integer(&access, 1), write_event(&access, 1), write_text(&access, b"\0"), read(&access)]
            .map(|answer| number(&answer).unwrap())
    };
    assert_eq!(numbers_for("<int/>"), [26, 22, 22, 26]);
    assert_eq!(numbers_for("<eventid/>"), [22, 26, 22, 26]);
    assert_eq!(numbers_for("<string size='2'/>"), [22, 22, 25, 26]);
    assert_eq!(numbers_for("<float size='2'/>"), [27, 27, 27, 27]);
    assert_eq!(numbers_for("<eventid><map/></eventid>"), [27, 27, 27, 26]);
}

#[test]
fn r30_texts() {
    let string = access("<string size='6'/>", 0, 6);
    for good in [&b"\x01"[..], b"\xEF\xBF\xBE", b"\r", b"ABCDE", b""] {
        assert_eq!(number(&write_text(&string, good)), None, "{good:?}");
    }
    for bad in [&b"\0"[..], b"A\0", b"\xC0\x80", b"\xED\xA0\x80", b"\xFF", b"ABCDEF", b"\xC3"] {
        assert_eq!(number(&write_text(&string, bad)), Some(25), "{bad:?}");
    }
    let with = |window: &[u8]| line(&read(&Access { window: window.to_vec(), ..string.clone() }));
    assert_eq!(with(b"\x01\0\xFF\xFF\xFF\xFF"), "text 01 accepted");
    assert_eq!(with(b"\0\xFF\xFF\xFF\xFF\xFF"), "text - accepted");
    assert_eq!(with(b"ABCDEF"), "refused 28 0");
    assert_eq!(with(b"\xC3\0\0\0\0\0"), "refused 28 0");
}

#[test]
fn r31_flags() {
    let map = "<map><relation><property>1</property><value/></relation></map>";
    let flag = |inside: &str, window: &[u8]| line(&read(&Access { window: window.to_vec(), ..access(inside, 0, 0) }));
    assert_eq!(flag("<eventid/>", &[0, 0, 0, 0, 0, 0, 1, 2]), "event 258 accepted");
    assert_eq!(flag(&format!("<eventid>{map}</eventid>"), &[0xFF; 8]), "event 18446744073709551615 not");
    assert_eq!(flag(&format!("<string size='2'>{map}</string>"), b"1\0"), "text 31 accepted");
    assert_eq!(flag(&format!("<string size='2'>{map}</string>"), b"2\0"), "text 32 not");
    assert_eq!(flag(&format!("<int>{map}</int>"), &[1]), "integer 1 accepted");
    assert_eq!(flag(&format!("<int>{map}</int>"), &[2]), "integer 2 not");
    assert_eq!(flag("<int><min>-5</min><max>5</max></int>", &[0xFA]), "integer -6 not");
    assert_eq!(flag("<int size='2'><min>-5</min></int>", &[0xFF, 0xFB]), "integer -5 accepted");
}

#[test]
fn r32_the_exact_table() {
    let base = access("<int/>", 0, 1);
    for length in [0, 8, 15, 17, 24] {
        let mut table = base.table.clone();
        table.resize(length, 0);
        assert_eq!(number(&read(&Access { table, ..base.clone() })), Some(20));
    }
    assert_eq!(number(&read(&Access { n: 1, ..base.clone() })), Some(21));
    assert_eq!(number(&read(&Access { n: 1, table: Vec::new(), ..base.clone() })), Some(20));
    assert_eq!(number(&read(&Access { text: vec![0], table: Vec::new(), ..base })), Some(3));
}

#[test]
fn r33_properties() {
    let map = |properties: &[&str]| {
        let relations: String =
            properties.iter().map(|text| format!("<relation><property>{text}</property><value/></relation>")).collect();
        format!("<map>{relations}</map>")
    };
    let int = access(&format!("<int>{}</int>", map(&["007", "-0"])), 0, 1);
    assert_eq!([7, 0, 8].map(|value| number(&write_integer(&int, value))), [None, None, Some(24)]);
    let minus_zero = answer(&Case::WriteInteger { access: int, negative: true, magnitude: 0 });
    assert_eq!(number(&minus_zero), None);
    let string = access(&format!("<string size='9'>{}</string>", map(&["x<!--c-->y", "&lt;&#x20AC;", ""])), 0, 9);
    for (value, expected) in [
        (&b"xy"[..], None),
        (b"<\xE2\x82\xAC", None),
        (b"", None),
        (b"x", Some(24)),
        (b"x\0", Some(25)),
        (b"abcdefghi", Some(25)),
    ] {
        assert_eq!(number(&write_text(&string, value)), expected, "{value:?}");
    }
    for none in ["<int><map/></int>", "<int><map><name>1</name></map></int>"] {
        assert_eq!(number(&write_integer(&access(none, 0, 1), 1)), Some(24));
    }
}
