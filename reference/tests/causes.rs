//! Request R-2 of document 02: its open points as they were decided, each with its examples. `^` marks the place of the refusal and is no part of
//! the text.

mod build;

use build::*;
use reference::refusal::{least, refusal};
use reference::rules::{SCHEMA_INSTANCE, SCHEMA_LOCATION};
use reference::Access;

/// The text without its mark, and where that stood.
fn unmarked(marked: &str) -> (String, usize) {
    let place = marked.find('^').expect("a mark");
    (marked.replacen('^', "", 1), place)
}

/// That this behind the first line is refused by the number at the mark.
fn outer(number: u8, marked: &str) {
    let (rest, place) = unmarked(marked);
    assert_eq!(outside(&rest), Some((number, place as u64)), "{marked}");
}

/// The same inside the root.
fn inner(number: u8, marked: &str) {
    let (rest, place) = unmarked(marked);
    assert_eq!(inside(&rest), Some((number, place as i64)), "{marked}");
}

/// The same inside a segment.
fn data(number: u8, marked: &str) {
    let (rest, place) = unmarked(marked);
    assert_eq!(in_segment(&rest), Some((number, place as i64)), "{marked}");
}

/// A root with these attributes and nothing in it.
fn root(attributes: &str) -> String {
    format!("<cdi {attributes}/>")
}

/// One of the root's attributes, with a mark before it and something behind its text.
fn of_root(mark: &str, name: &str, behind: &str) -> String {
    let text = if name == "xmlns:xsi" { SCHEMA_INSTANCE } else { SCHEMA_LOCATION };
    format!("{mark}{name}='{text}{behind}'")
}

const INSTANCE: &str = "xmlns:xsi";
const LOCATION: &str = "xsi:noNamespaceSchemaLocation";

/// The order of the numbers at one place.
const ORDER: [u8; 10] = [81, 82, 83, 84, 85, 86, 87, 88, 9, 10];

#[test]
fn point_1_the_order_at_one_place() {
    for (index, first) in ORDER.iter().enumerate() {
        for second in &ORDER[index..] {
            let faults = [refusal(*second, 7), refusal(*first, 7), refusal(81, 8)];
            assert_eq!(least(&faults), Some(refusal(*first, 7)), "{first} {second}");
        }
    }
    data(82, "<int><min>0</min><max>1</max>^<min>0</min></int>");
    data(82, "<int><max>1</max>^<min>x</min></int>");
    inner(82, "<segment space='1'/>^<acdi var='256'/>");
    data(83, "<int><min>0</min>^<min>x</min></int>");
    inner(83, "<acdi/>^<acdi fixed='256'/>");
    data(86, "^<string offset='x'/>");
    inner(86, "^<segment origin='-1'/>");
    data(86, "^<float offset='2147483648'/>");
    data(9, "^<int size='3' offset='x'/>");
    data(10, "^<int size='3'/>");
}

#[test]
fn point_2_the_smallest_place_speaks_first() {
    data(88, "<int>^x<a/></int>");
    data(81, "<int>^<a/>x</int>");
    data(9, "<int>^<min>x</min><a/></int>");
    data(10, "^<int size='3'><a/></int>");
    data(88, "^x<int a=''/>");
    data(85, "<int ^a=''/>x");
    data(83, "<name/>^<name/><bit/>");
    data(81, "<name/>^<bit/><name/>");
}

#[test]
fn point_3_the_attribute_name() {
    data(85, "<int ^foo=''/>");
    data(85, "<int\n\t  ^foo = 'x'/>");
    data(85, "<int size='2' ^a='' b='' c=''/>");
    data(85, "<int ^c='' b='' size='2' a=''/>");
    data(85, "<group replication='2' ^size='1' offset='3' space='1'/>");
    data(87, "<float size='2' ^formatting='%d'/>");
    data(87, "<float   ^formatting\n=\n'%d' size='2'/>");
    data(85, "<float ^a='' formatting='%d' size='2'/>");
    data(87, "<float size='2' ^formatting='%d' a=''/>");
    data(85, "<name ^a=''/>");
    data(85, "<name ^offset='x'>x</name>");
    inner(85, "<identification ^fixed=''/>");
    inner(85, "<acdi fixed='1' ^size='1'/>");
    data(85, "<eventid><map ^a=''/></eventid>");
    data(85, "<eventid><map><relation ^a=''><property/><value/></relation></map></eventid>");
}

#[test]
fn point_4_the_tag_speaks_before_its_attributes() {
    data(10, "^<int foo='' size='3'/>");
    data(10, "^<int size='3' foo=''/>");
    data(9, "^<int foo='' offset=''/>");
    inner(86, "^<segment foo=''/>");
    inner(86, "^<segment foo='' origin='x'/>");
    data(9, "<int>^<min a=''>x</min></int>");
    data(10, "<int>^<max a=''>18446744073709551616</max></int>");
    data(86, "^<float formatting='' a=''/>");
    data(9, "^<float formatting='' size='2' offset='x'/>");
    data(10, "^<float formatting='' size='1'/>");
    data(82, "<int/>^<name a=''/>");
    data(83, "<name/>^<name a=''/>");
}

#[test]
fn point_5_a_root_that_lacks_one() {
    outer(86, "^<cdi/>");
    for present in [INSTANCE, LOCATION] {
        for behind in ["", " "] {
            let given = of_root("", present, behind);
            outer(86, &format!("^{}", root(&given)));
            outer(86, &format!("^{}", root(&format!("a='' {given}"))));
            outer(86, &format!("^{}", root(&format!("{given} a=''"))));
        }
    }
}

#[test]
fn point_6_both_root_texts() {
    for (one, two) in [(INSTANCE, LOCATION), (LOCATION, INSTANCE)] {
        let tag = |first: String, second: String| root(&format!("{first} {second}"));
        outer(87, &tag(of_root("^", one, " "), of_root("", two, "/")));
        outer(87, &tag(of_root("^", one, " "), of_root("", two, "")));
        outer(87, &tag(of_root("", one, ""), of_root("^", two, "x")));
        outer(85, &root(&format!("^a='' {} {}", of_root("", one, "x"), of_root("", two, "x"))));
        outer(87, &root(&format!("{} a='' {}", of_root("^", one, "x"), of_root("", two, "x"))));
        outer(85, &root(&format!("{} ^a='' {}", of_root("", one, ""), of_root("", two, "x"))));
        outer(87, &root(&format!("{} {} a=''", of_root("", one, ""), of_root("^", two, "x"))));
        outer(85, &root(&format!("{} {} ^a=''", of_root("", one, ""), of_root("", two, ""))));
    }
}

#[test]
fn point_7_attributes_and_the_test_of_the_bounds() {
    data(10, "^<int a=''><min>2</min><max>1</max></int>");
    data(10, "^<int a='' size='2'><min>2</min><max>1</max></int>");
    data(85, "<int ^a=''><min>-1</min><max>128</max></int>");
    data(85, "<int><min ^a=''>2</min><max>1</max></int>");
    data(85, "<int><min>2</min><max ^a=''>1</max></int>");
    data(85, "<int><min>-1</min><max ^a=''>128</max></int>");
    data(10, "<int>^<min>256</min><max>300</max></int>");
    data(85, "<int><min ^a=''>256</min><max>300</max></int>");
    data(10, "^<int><min>2</min><max>1</max><default a=''>0</default></int>");
    data(10, "^<int><name a=''/><min>2</min><max>1</max></int>");
}

#[test]
fn point_8_unknown_elements() {
    outer(81, "^<CDI/>");
    outer(81, "^<segment space='1' a=''/>");
    outer(81, "\n^<a b=''>x<c/></a>");
    inner(81, "^<a><segment/></a>");
    inner(81, "^<int/>");
    inner(81, "<acdi>^<fixed/></acdi>");
    inner(81, "<acdi>^<acdi/></acdi>");
    inner(88, "<acdi>^x<a/></acdi>");
    data(81, "<name>^<b c=''>x</b></name>");
    data(81, "<name>x^<name/></name>");
    data(81, "<float size='2'><min>^<a/></min></float>");
    data(9, "<int>^<min><a/></min></int>");
    data(81, "^<repname/>");
    data(81, "^<map/>");
    data(81, "<group>^<min>x</min></group>");
    data(81, "<int>^<repname/></int>");
    inner(81, "<identification>^<name/></identification>");
}

#[test]
fn point_9_out_of_order_and_more() {
    data(82, "<name/><int/>^<name/>");
    data(82, "<int><name/><map/>^<name/></int>");
    data(82, "<int><min>0</min><max>1</max>^<min>x</min></int>");
    data(82, "<int><default>0</default>^<max>18446744073709551616</max></int>");
    data(83, "<int><default>0</default>^<default>x</default></int>");
    data(83, "<int><default>0</default>^<default>-9223372036854775809</default></int>");
    inner(82, "<acdi/><segment space='1'/>^<acdi fixed='x'/>");
    inner(82, "<acdi/>^<identification a=''/>");
    data(83, "<int><map><relation><property>1</property>^<property>x</property><value/></relation></map></int>");
}

#[test]
fn point_10_the_second_and_every_further_one() {
    data(83, "<name/>^<name/><name/>");
    data(83, "<group><repname/>^<repname/><repname/></group>");
    inner(83, "<identification/>^<identification/>");
    inner(83, "<acdi/>^<acdi/>");
    data(83, "<eventid><map/>^<map/></eventid>");
    data(83, "<int><map><name/>^<name/></map></int>");
    data(83, "<string size='1'><map><relation><property/><value/>^<value/></relation></map></string>");
    // Segments, relations and data stand as often as they like.
    assert_eq!(
        inside("<segment space='1'><int/><int/><float size='2'/><float size='2'/></segment><segment space='2'/>"),
        None
    );
    let relation = "<relation><property/><value/></relation>";
    assert_eq!(in_segment(&format!("<eventid><map>{relation}{relation}</map></eventid>")), None);
}

#[test]
fn point_11_missing_children() {
    let in_map = |number: u8, relation: &str| data(number, &format!("<int><map>{relation}</map></int>"));
    in_map(84, "^<relation/>");
    in_map(84, "^<relation><property>1</property></relation>");
    in_map(84, "^<relation><value/></relation>");
    in_map(84, "^<relation><property>x</property></relation>");
    in_map(84, "^<relation><a/><value/></relation>");
    in_map(84, "^<relation>x<value/></relation>");
    in_map(84, "^<relation a=''><value/></relation>");
    in_map(84, "^<relation><value/><value/></relation>");
    in_map(82, "<relation><value/>^<property>1</property></relation>");
    in_map(82, "<relation><value/>^<property>x</property></relation>");
    in_map(82, "<relation><value/>^<property>1</property><value/></relation>");
    in_map(88, "<relation>^x<property>1</property><value/></relation>");
    in_map(88, "^x<relation/>");
    // One inside an unknown element stands nowhere in the relation.
    in_map(84, "^<relation><a><property>1</property></a><value/></relation>");
}

#[test]
fn point_12_missing_attributes() {
    outer(86, "^<cdi/>");
    inner(86, "^<segment/>");
    inner(86, "^<segment origin='0'><a/></segment>");
    inner(86, "<segment space='1'/>\n ^<segment/>");
    data(86, "^<string/>");
    data(86, "^<string offset='1'/>");
    data(86, "^<float formatting='%f'/>");
    data(86, "<group>\t^<float/></group>");
    // Nothing else is required.
    assert_eq!(inside("<acdi/><segment space='1'><group/><int/><eventid/></segment>"), None);
}

#[test]
fn point_13_fixed_texts() {
    data(87, "<float size='4' ^formatting=''/>");
    data(87, "<group><float ^formatting='f' size='4'/></group>");
    data(10, "^<float size=''/>");
    data(10, "^<int size='5'/>");
    data(9, "^<string size=''/>");
    for tag in ["<int ^formatting='%f'/>", "<eventid ^formatting=''/>", "<group ^formatting='%f'/>"] {
        data(85, tag);
    }
    data(85, "<string size='1' ^formatting='%f'/>");
    inner(85, "<segment space='1' ^formatting='%f'/>");
    inner(85, &format!("<segment ^xmlns:xsi='{SCHEMA_INSTANCE}' space='1'/>"));
}

#[test]
fn point_14_stray_text() {
    data(88, " \n\t ^x <int/>");
    data(88, " ^&#32;");
    data(88, "<int/>^&amp;<a/>");
    data(88, "<!-- c -->^x");
    data(88, "<int>\n ^x</int>");
    inner(88, "^x");
    inner(88, "<acdi> \n^x</acdi>");
    inner(88, "<acdi>^&#10;</acdi>");
    inner(88, "<identification>^x<model/></identification>");
    data(88, "<eventid><map>^x</map></eventid>");
    data(88, "^\u{A0}<int/>");
}

#[test]
fn point_15_writing_and_reading() {
    let other = access("<int/>", 0, 8);
    for (marked, number) in [
        ("^<bit/>", 81),
        ("<int/>^<name/>", 82),
        ("<name/>^<name/>", 83),
        ("<int><map>^<relation/></map></int>", 84),
        ("<int ^a=''/>", 85),
        ("^<string/>", 86),
        ("<float size='2' ^formatting=''/>", 87),
        ("<int/>^x", 88),
    ] {
        let (rest, place) = unmarked(marked);
        let access = Access { text: segment(&rest), ..other.clone() };
        let told = [write_integer(&access, 1), write_event(&access, 1), write_text(&access, b"x"), read(&access)];
        let line = format!("refused {number} {}", IN_SEGMENT + place);
        assert!(told.iter().all(|answer| reference::line(answer).starts_with(&line)), "{marked}");
    }
}

/// Thousands of unknown attributes in one tag.
#[test]
fn many_attributes() {
    let many: String = (0..6_000).map(|n| format!(" a{n}=''")).collect();
    data(85, &format!("<int size='1' ^{}/>", &many[1..]));
    data(10, &format!("^<int{many} size='3'/>"));
    data(86, &format!("^<string{many}/>"));
    data(85, &format!("<float size='2' ^{} formatting=''/>", &many[1..]));
    data(87, &format!("<float size='2' ^formatting=''{many}/>"));
}
