//! The boundary cases of planning.

use super::super::damage::TOKENS;
use super::super::markup::{plain, root, segment, Node};
use super::super::texts::{nested, nested_groups};
use super::{causes, cdi, cdi_with, content_of, copies, int_with, map_of, raw_text, root_tag, spellings};
use crate::answer::Case;
use crate::rules::{SCHEMA_INSTANCE, SCHEMA_LOCATION};
use crate::text::FIRST_LINE;

/// The room for texts whose room is no boundary.
const ROOM: u64 = 400;

fn plan(text: Vec<u8>) -> Case {
    Case::Plan { room: ROOM, text }
}

fn plan_node(root: &Node) -> Case {
    plan(plain(root))
}

fn ends() -> Vec<Case> {
    let mut cases = Vec::new();
    for length in [65_534, 65_535, 65_536] {
        cases.push(plan([content_of(length, length % 2 == 0), vec![0]].concat()));
    }
    for length in [65_535, 65_536, 70_000] {
        cases.push(plan(content_of(length, true)));
    }
    let far_zero = [content_of(66_000, false), vec![0]].concat();
    cases.push(plan(far_zero));
    let mut text = plain(&cdi_with(Node::new("int")));
    text.extend(b"\0\xFF<a>");
    cases.push(plan(text));
    for text in
        [&b""[..], b"\0", b"\0\0", b"<", FIRST_LINE, b"<?xml version=\"1.0\"?>\n\0", b"<?xml version=\"1.0\"?>\0"]
    {
        cases.push(plan(text.to_vec()));
    }
    for length in 0..24 {
        let mut text = plain(&cdi_with(Node::new("int")))[..length].to_vec();
        cases.push(plan(text.clone()));
        text.push(0);
        cases.push(plan(text));
    }
    cases
}

fn depths() -> Vec<Case> {
    let mut cases = Vec::new();
    for depth in [23, 24, 25, 26] {
        for short in [false, true] {
            cases.push(plan([nested(depth, "a", short), vec![0]].concat()));
        }
        cases.push(plan_node(&nested_groups(depth, "group")));
        cases.push(plan_node(&nested_groups(depth, "int")));
        let mut within = Node::new("int");
        for _ in 3..depth {
            within = Node::new("group").with("replication", 1).holding(within);
        }
        cases.push(plan_node(&cdi_with(within)));
    }
    // Malformed, unsupported and misplaced at depth 25.
    for inner in ["<a b='1' b='2'/>", "<a b='&'/>", "</b>", "<!DOCTYPE", "<a", "x", "<!---->"] {
        let open = "<a>".repeat(24);
        cases.push(plan(raw_text(&format!("{open}{inner}"))));
        cases.push(plan(raw_text(&format!("{open}{inner}{}", "</a>".repeat(24)))));
    }
    cases
}

/// A root with so many elements in all.
fn many(elements: usize) -> Node {
    let mut within = segment(0);
    for _ in 0..elements - 2 {
        within.push(Node::new("int"));
    }
    cdi(within)
}

fn counts() -> Vec<Case> {
    let mut cases = Vec::new();
    for room in [32_759, 32_760, 32_761, 32_768, 40_000] {
        cases.push(Case::Plan { room, text: plain(&many(4_096)) });
    }
    cases.push(plan_node(&many(4_097)));
    cases.push(plan_node(&many(4_098)));
    let unknown = |count: usize, behind: &str| plan(raw_text(&format!("<a>{}</a>{behind}", "<b/>".repeat(count - 1))));
    cases.extend([unknown(4_096, ""), unknown(4_097, ""), unknown(4_096, "<a/>"), unknown(4_095, "<a/>")]);
    cases
}

fn rooms() -> Vec<Case> {
    let mut cases = Vec::new();
    for records in [0usize, 1, 2, 3, 6] {
        let mut node = root();
        for _ in 0..records {
            node.push(segment(2));
        }
        let needed = 8 * records as u64;
        for room in [0, 1, 7, 8, 9, needed.saturating_sub(8), needed.saturating_sub(1), needed, needed + 1, needed + 8]
        {
            cases.push(Case::Plan { room, text: plain(&node) });
        }
    }
    // 11 and 12 speak before 13.
    cases.push(Case::Plan { room: 0, text: plain(&cdi_with(Node::new("int").with("offset", -1))) });
    cases.push(Case::Plan { room: 0, text: plain(&cdi_with(copies(1_000_001, Node::new("int")))) });
    cases
}

fn variables() -> Vec<Case> {
    let mut nodes = Vec::new();
    for count in [999_999, 1_000_000, 1_000_001] {
        nodes.push(cdi_with(copies(count, Node::new("int"))));
        nodes.push(
            cdi(segment(1).holding(copies(count - 500_000, Node::new("int"))))
                .holding(segment(2).holding(copies(500_000, Node::new("eventid")))),
        );
        nodes.push(cdi(segment(1)
            .with("origin", 1)
            .holding(copies(count - 1, Node::new("int").with("offset", -1)))
            .holding(Node::new("int"))));
    }
    nodes.push(cdi_with(copies(1_000, copies(1_000, Node::new("int")))));
    nodes.push(cdi_with(copies(1_000, copies(1_001, Node::new("int")))));
    nodes.push(cdi_with(copies(2_147_483_647, Node::new("group"))));
    nodes.push(cdi_with(copies(2_147_483_647, copies(2_147_483_647, Node::new("group").with("offset", 0)))));
    // 11 before 12, also where the count alone would be refused.
    nodes.push(cdi_with(copies(1_000_001, Node::new("string").with("size", 65_535))));
    nodes.push(
        root()
            .holding(segment(1).holding(copies(1_000_001, Node::new("int"))))
            .holding(segment(2).holding(Node::new("int").with("offset", -1))),
    );
    nodes.push(
        root()
            .holding(segment(1).holding(Node::new("int").with("offset", -1)))
            .holding(segment(2).holding(Node::new("int").with("offset", -1))),
    );
    // Counts that are 0 or 1 where arithmetic wraps at 32, 64 or 128 bits.
    for deep in [2, 4, 8] {
        let mut node = Node::new("int").with("offset", -1);
        let mut shift = Node::new("group").with("offset", 1);
        for _ in 0..deep {
            node = copies(65_536, node);
            shift = copies(65_536, shift);
        }
        nodes.push(cdi(segment(1).with("origin", 1).holding(node.clone())));
        nodes.push(cdi(segment(1).with("origin", 1).holding(node).holding(Node::new("int"))));
        nodes.push(cdi_with(shift));
    }
    nodes.extend((19..=22).flat_map(|deep| [cancelling(deep, true), cancelling(deep, false)]));
    let mut cases: Vec<Case> = nodes.iter().map(plan_node).collect();
    // The place of 12 is cdi's, wherever that stands.
    let crowd = "<segment space='1'><group replication='1000001'><int/></group></segment>";
    cases.push(plan(raw_text(&format!("\n<!-- c -->{}{crowd}</cdi>", root_tag()))));
    cases
}

/// Groups of the greatest replication nested around members that cancel.
fn cancelling(deep: usize, with_variables: bool) -> Node {
    let mut node = Node::new("group").with("replication", 2_147_483_647);
    if with_variables {
        node.push(Node::new("int").with("size", "8"));
        node.push(Node::new("int").with("offset", -9));
    } else {
        node.push(Node::new("group").with("offset", 5));
        node.push(Node::new("group").with("offset", -5));
    }
    for _ in 1..deep {
        node = copies(2_147_483_647, node);
    }
    cdi(segment(1).with("origin", 5).holding(node))
}

fn addresses() -> Vec<Case> {
    let high = 2_147_483_647i64;
    let low = -2_147_483_648i64;
    let at = |origin: i64| segment(3).with("origin", origin);
    let int = |size: &str, offset: i64| Node::new("int").with("size", size).with("offset", offset);
    let shift = |offset: i64| Node::new("group").with("offset", offset);
    let mut segments = Vec::new();
    for (origin, offset) in
        [(0, -1), (0, 0), (1, -1), (1, -2), (5, -5), (5, -6), (high, low), (high, low + 1), (high, high)]
    {
        segments.push(at(origin).holding(int("1", offset)));
        segments.push(at(origin).holding(shift(offset)));
        segments.push(at(origin).holding(int("2", offset)));
        segments.push(at(origin).holding(int("4", offset)));
    }
    // Up to 2^32 and one beyond, by a variable's size, by an offset, by a group, by its last copy.
    segments.push(at(high).holding(shift(high)).holding(shift(2)));
    segments.push(at(high).holding(shift(high)).holding(shift(3)));
    segments.push(at(high).holding(shift(high)).holding(shift(3)).holding(shift(-3)));
    segments.push(at(0).holding(copies(65_536, shift(65_536))));
    segments.push(at(1).holding(copies(65_536, shift(65_536))));
    segments.push(at(0).holding(copies(65_537, shift(65_535))));
    segments.push(at(1).holding(copies(65_537, shift(65_535))));
    segments.push(at(2).holding(copies(65_537, shift(65_535))));
    segments.push(at(0).holding(copies(65_537, Node::new("string").with("size", 65_535))));
    segments.push(at(1).holding(copies(65_537, Node::new("string").with("size", 65_535))));
    segments.push(at(2).holding(copies(65_537, Node::new("string").with("size", 65_535))));
    // Down to 0 and one below, in the last copy only; and a dip within each copy.
    segments.push(at(30).holding(copies(10, int("1", -4))));
    segments.push(at(31).holding(copies(10, int("1", -4))));
    segments.push(at(32).holding(copies(10, int("1", -4))));
    segments.push(at(3).holding(copies(10, shift(-3)).with("offset", 27)));
    segments.push(at(2).holding(copies(10, shift(-3)).with("offset", 27)));
    segments.push(at(2).holding(copies(4, int("8", -3)).with("offset", 1)));
    segments.push(at(1).holding(copies(4, int("8", -3)).with("offset", 1)));
    segments.push(at(0).holding(copies(high, Node::new("group")).with("offset", high)));
    segments.push(at(0).holding(copies(high, shift(2))));
    segments.push(at(0).holding(copies(high, shift(2))).holding(shift(2)));
    segments.push(at(0).holding(copies(high, shift(2))).holding(shift(3)));
    segments.push(at(0).holding(copies(2, copies(high, shift(1)))));
    segments.push(at(2).holding(copies(2, copies(high, shift(1)))));
    segments.push(at(3).holding(copies(2, copies(high, shift(1)))));
    segments.iter().map(|segment| plan_node(&cdi(segment.clone()))).collect()
}

/// Values around the ends of a range, and other spellings.
fn around(least: i128, greatest: i128) -> Vec<String> {
    let mut values: Vec<String> =
        [least - 1, least, least + 1, greatest - 1, greatest, greatest + 1].map(|value| value.to_string()).to_vec();
    values.push(format!("000000000000000000000000000000000000{greatest}"));
    let others = [
        "",
        "-",
        "-0",
        "+1",
        " 1",
        "1 ",
        "1\n",
        "0x1",
        "1.",
        "04",
        "12345678901234567890123456789012345678901",
        "-99999999999999999999",
        "18446744073709551617",
        "a",
    ];
    values.extend(others.map(str::to_string));
    values
}

fn attributes() -> Vec<Case> {
    let string = || Node::new("string");
    let sized = |name: &str, size: &str| Node::new(name).with("size", size);
    let mut cases = Vec::new();
    let mut each = |build: &dyn Fn(&str) -> Node, least: i128, greatest: i128| {
        cases.extend(around(least, greatest).iter().map(|value| plan_node(&build(value))));
    };
    let (high, low) = (2_147_483_647, -2_147_483_648);
    each(&|value| root().holding(Node::new("acdi").with("fixed", value)), 0, 255);
    each(&|value| root().holding(Node::new("acdi").with("var", value)), 0, 255);
    each(&|value| cdi(segment(value)), 0, 255);
    each(&|value| cdi(segment(0).with("origin", value)), 0, high);
    each(&|value| cdi_with(Node::new("group").with("replication", value)), 1, high);
    each(&|value| cdi_with(Node::new("group").with("offset", value)), low, high);
    each(&|value| cdi_with(Node::new("int").with("offset", value)), low, high);
    each(&|value| cdi_with(sized("int", value)), 1, 8);
    each(&|value| cdi_with(string().with("size", value)), 1, 65_535);
    each(&|value| cdi_with(sized("string", "9").with("offset", value)), low, high);
    each(&|value| cdi_with(Node::new("eventid").with("offset", value)), low, high);
    each(&|value| cdi_with(sized("float", value)), 2, 8);
    each(&|value| cdi_with(sized("float", "4").with("offset", value)), low, high);
    for formatting in [
        "%f", "%.f", "%1f", "%1.2f", "%00.00f", "f", "%", "%%f", "%-1f", "%1.2.3f", "%f ", " %f", "%F", "", "%1,2f",
        "%..f", "%1 f",
    ] {
        cases.push(plan_node(&cdi_with(sized("float", "2").with("formatting", formatting))));
    }
    for size in ["1", "2", "4", "8", "3", "16", "04", "4 "] {
        cases.push(plan_node(&cdi_with(sized("int", size))));
        cases.push(plan_node(&cdi_with(sized("float", size))));
    }
    cases
}

/// Bounds that can and can't be stored, for every size and both signs.
fn bounds() -> Vec<Case> {
    let mut pairs: Vec<(&str, Option<i128>, Option<i128>)> = Vec::new();
    for (size, bytes) in [("1", 1u32), ("2", 2), ("4", 4), ("8", 8)] {
        let half = 1i128 << (8 * bytes - 1);
        let whole = 2 * half;
        for max in [half - 1, half, -half, -1, 0, -half - 1] {
            pairs.push((size, Some(-1), Some(max)));
            pairs.push((size, Some(-half), Some(max)));
        }
        for min in [-half, -half - 1, -1, 0, 1, half, whole - 1, whole] {
            pairs.push((size, Some(min), None));
        }
        for max in [whole - 1, whole, 0, -1, half] {
            pairs.push((size, None, Some(max)));
            pairs.push((size, Some(0), Some(max)));
        }
        pairs.extend([(size, Some(7), Some(7)), (size, Some(8), Some(7)), (size, Some(-half - 1), Some(whole))]);
    }
    pairs.into_iter().map(|(size, min, max)| plan_node(&cdi_with(int_with(size, min, max)))).collect()
}

/// Numbers as the whole content of an element.
fn number_texts() -> Vec<Case> {
    let values = [
        "-9223372036854775808",
        "-9223372036854775809",
        "18446744073709551615",
        "18446744073709551616",
        "9223372036854775808",
        "",
        " 1",
        "1 ",
        "1<!---->",
        "<!---->1",
        "1<?p?>",
        "&#49;",
        "1<a/>",
        "<min>1</min>",
        "-",
        "-0",
        "--1",
        "+1",
        "1-",
        "\n",
        " 1 <!---->",
        "<!-- --> 1",
        " <?p?>1",
        "&#32;1",
        "1&#10;",
        "\t1<a/>",
        "12345678901234567890123456789012345678901",
        "-00000000000000000000000000000000000000000001",
    ];
    let mut cases = Vec::new();
    for value in values {
        let int = || Node::new("int").with("size", "8");
        for name in ["min", "max", "default"] {
            cases.push(plan_node(&cdi_with(int().holding(Node::text(name, value)))));
        }
        cases.push(plan_node(&cdi_with(int().holding(map_of(&[value])))));
        cases.push(plan_node(&cdi_with(Node::new("eventid").holding(map_of(&[value])))));
        cases.push(plan_node(&cdi_with(Node::new("float").with("size", "4").holding(Node::text("min", value)))));
    }
    cases
}

/// Markup at the edges of its rules, before, inside and after the root, and in a text.
fn markup() -> Vec<Case> {
    let root = root_tag();
    let mut cases = Vec::new();
    for token in TOKENS {
        cases.push(plan(raw_text(&format!("{token}{root}</cdi>"))));
        cases.push(plan(raw_text(&format!("{root}{token}</cdi>"))));
        cases.push(plan(raw_text(&format!("{root}</cdi>{token}"))));
        cases.push(plan(raw_text(&format!("{root}<identification><model>{token}</model></identification></cdi>"))));
    }
    cases
}

/// What stands in the root: rules of the table of elements kept and broken.
const IN_ROOT: [&str; 16] = [
    "<acdi> </acdi>",
    "<acdi><!----></acdi>",
    "<acdi>x</acdi>",
    "<acdi>&#32;</acdi>",
    "<acdi><a/></acdi>",
    "<acdi/><identification/>",
    "<identification/><identification/>",
    "<segment space='1'/><acdi/>",
    "<segment/>",
    "<segment space='1' space='2'/>",
    "<segment a='1'/>",
    "<segment space='x'><a/></segment>",
    "<a><segment/></a>",
    "<cdi/>",
    "x<segment/>",
    "<identification><map><relation><property>x</property><value/></relation></map></identification>",
];

/// The same in a segment.
const IN_SEGMENT: [&str; 57] = [
    "<name/><name/>",
    "<int/><name/>",
    "<description/><name/>",
    "<name a='1'/>",
    "<name><b/></name>",
    "<int><min>2</min><max>1</max></int>",
    "<int><max>1</max><min>2</min></int>",
    "<int><min>2</min><min>3</min><max>1</max></int>",
    "<int offset='x'><min>2</min><max>1</max></int>",
    "<int size='3'><min>2</min><max>1</max></int>",
    "<int><min>2</min><max a=''>1</max></int>",
    "<int><min>-1</min><max>128</max></int>",
    "<int><min>-129</min><max>128</max></int>",
    "<int><a/><min>2</min><max>1</max></int>",
    "<int><map/><min>2</min><max>1</max></int>",
    "<int><min>2</min><max>1</max><name/></int>",
    "<int>x<min>2</min><max>1</max></int>",
    "<int><min>-0</min><max>255</max></int>",
    "<int><min>-00</min><max>-0</max></int>",
    "<group><repname/><name/></group>",
    "<group><int/><repname/></group>",
    "<repname/>",
    "<string/>",
    "<float/>",
    "<eventid size='8'/>",
    "<int><map><relation/></map></int>",
    "<int><map><relation><value/><property>1</property></relation></map></int>",
    "<int><map><relation><property>1</property></relation></map></int>",
    "<int><map><relation><property/><property/><value/></relation></map></int>",
    "<int><map><relation><property>1</property><value/></relation><name/></map></int>",
    "<map/>",
    "x",
    "&amp;",
    " \n &#10;",
    "<bit/>",
    "<string size='4'><map><relation><property>x<!--c-->y&amp;</property><value/></relation></map></string>",
    "<int><map/><name/><min>2</min><max>1</max></int>",
    "<int><default>0</default><description/><min>2</min><max>1</max></int>",
    "<int><max>1</max><name/><min>2</min></int>",
    "<int><min a=''>x</min></int>",
    "<int><min a=''>2</min><max>1</max></int>",
    "<int><min>2<b/></min><max>1</max></int>",
    "<int><min>2</min><max>1</max><default>x</default></int>",
    "<int><min>2</min><max>1</max><map><relation/></map></int>",
    "<int a=''><min>2</min><max>1</max></int>",
    "<int><min>2</min><a><max>1</max></a></int>",
    "<int size=''><min>2</min><max>1</max></int>",
    "<int><min>99999999999999999999</min><max>1</max></int>",
    "<int><min>1</min><max>99999999999999999999</max></int>",
    "<int><max>1</max><max>1</max><min>2</min></int>",
    "<int><max>256</max><name/></int>",
    "<name><name/></name>",
    "<group><name><int/></name></group>",
    "<group><repname/><description/><name/></group>",
    "<string size='4'><map/><name/></string>",
    "<eventid><map/><map/></eventid>",
    "<float size='4'><max/><min/></float>",
];

/// Faults against the table of elements, several at once.
fn elements() -> Vec<Case> {
    let root = root_tag();
    let mut cases = Vec::new();
    for inside in IN_ROOT {
        cases.push(plan(raw_text(&format!("{root}{inside}</cdi>"))));
    }
    for inside in IN_SEGMENT {
        cases.push(plan(raw_text(&format!("{root}<segment space='1'>{inside}</segment></cdi>"))));
    }
    let (instance, location) = (SCHEMA_INSTANCE, SCHEMA_LOCATION);
    for tag in [
        "<cdi/>".to_string(),
        "<CDI/>".to_string(),
        "<a/>".to_string(),
        format!("<cdi xsi:noNamespaceSchemaLocation='{location}' xmlns:xsi='{instance}'/>"),
        format!("<cdi xmlns:xsi='{instance}'/>"),
        format!("<cdi xsi:noNamespaceSchemaLocation='{location}'/>"),
        format!("<cdi xsi:noNamespaceSchemaLocation='{location} ' xmlns:xsi='{instance}'/>"),
        format!("<cdi xsi:noNamespaceSchemaLocation='{location}' xmlns:xsi='{instance}' a=''/>"),
        format!("<cdi xsi:noNamespaceSchemaLocation='{location}' xmlns:xsi='{instance}/'/>"),
        format!("<cdi xsi:noNamespaceSchemaLocation='{}' xmlns:xsi='{instance}'/>", location.replace("/3/", "/4/")),
    ] {
        cases.push(plan(raw_text(&tag)));
    }
    cases
}

/// The boundary cases of planning.
pub fn of_plan() -> Vec<Case> {
    let groups = [
        ends(),
        depths(),
        rooms(),
        variables(),
        addresses(),
        attributes(),
        bounds(),
        number_texts(),
        spellings::of_plan(),
        causes::of_plan(),
        markup(),
        elements(),
        counts(),
    ];
    groups.into_iter().flatten().collect()
}
