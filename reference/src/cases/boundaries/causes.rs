//! The boundary cases of planning with each of 81 to 88, alone and beside others in one tag, in one element and at one place.

use super::{raw_text, root_tag};
use crate::answer::Case;
use crate::rules::{SCHEMA_INSTANCE, SCHEMA_LOCATION};

/// How many bytes the attributes of one tag take where there are very many.
const FAR: usize = 64_000;

/// What stands behind the first line.
const OUTSIDE: [&str; 6] =
    ["<CDI/>", "<segment space='1'/>", "<cdi a=''/>", "<a b=''>x<c/></a>", "<cdi><a/></cdi>", "<cdi1/>"];

/// What stands in the root.
const IN_ROOT: [&str; 34] = [
    "<identification a=''/>",
    "<identification>x</identification>",
    "<identification><name/></identification>",
    "<identification><model/><manufacturer/></identification>",
    "<identification><model/><model/></identification>",
    "<identification/><acdi/><identification/>",
    "<identification/><acdi/><identification a=''/>",
    "<acdi a=''/>",
    "<acdi fixed='x' a=''/>",
    "<acdi a='' var='256'/>",
    "<acdi>x<a/></acdi>",
    "<acdi><a/>x</acdi>",
    "<acdi><segment/></acdi>",
    "<acdi> \n&amp;</acdi>",
    "<acdi a=''>x</acdi>",
    "<acdi/><acdi/>",
    "<acdi/><acdi fixed='x'/>",
    "<acdi/><acdi var='256'/>",
    "<segment space='1'/><acdi fixed='x'/>",
    "<segment space='1'/><acdi fixed='256'/>",
    "<segment space='1'/><acdi var='-1'/>",
    "<acdi/><segment space='1'/><acdi/>",
    "<acdi fixed='1'/><segment space='1'/><acdi fixed='x' a=''/>",
    "<segment a='' origin='x'/>",
    "<segment origin='x' a=''/>",
    "<segment origin='-1' a=''/>",
    "<segment a='' space='1'/>",
    "<segment a='' space='x'/>",
    "<segment a='' space='256'/>",
    "<segment space='1' xmlns:xsi=''/>",
    "<segment space='1' formatting='%f' size='1'/>",
    "<int/>",
    "x<a/>",
    "<a/>x",
];

/// What stands in a segment.
const IN_SEGMENT: [&str; 59] = [
    "<int a='' b=''/>",
    "<int a='' size='3'/>",
    "<int size='3' a=''/>",
    "<int a='' offset='x'/>",
    "<int offset='x' a=''/>",
    "<int a='' offset='x' size='3'/>",
    "<int\n\t  a = ''/>",
    "<int formatting='%f'/>",
    "<int size='2' Size='2'/>",
    "<group size='1' replication='0'/>",
    "<eventid size='8' offset='x'/>",
    "<string a=''/>",
    "<string offset='x'/>",
    "<string offset='2147483648'/>",
    "<string a='' offset='x'/>",
    "<float formatting='%d'/>",
    "<float formatting='%d' size='2'/>",
    "<float size='2' formatting='%d'/>",
    "<float size='2' formatting='%d' a=''/>",
    "<float size='2' a='' formatting='%d'/>",
    "<float formatting='%d' size='1'/>",
    "<float size='1' formatting='%d'/>",
    "<float formatting='%d' size='2' offset='x'/>",
    "<float offset='x' size='2' formatting='%d'/>",
    "<float a='' formatting='%d' size='2' offset='x' b=''/>",
    "<float a='' formatting='%d'/>",
    "<float size='2' formatting='%d'>x<a/></float>",
    "<name a=''/><name/>",
    "<name/><name a=''/>",
    "<int/><name a=''/>",
    "<name/><int/><name/>",
    "<name/><bit/><name/>",
    "<int/>x<name/>",
    "<int/><name/>x",
    "<name/><name/>x<bit/>",
    "<bit/><int/><name/>&amp;",
    "<int><min a=''>18446744073709551616</min></int>",
    "<int><max>1</max><min>x</min></int>",
    "<int><max>1</max><min>18446744073709551616</min></int>",
    "<int><default>0</default><max>-9223372036854775809</max></int>",
    "<int><min>0</min><min>x</min></int>",
    "<int><min>0</min><min>18446744073709551616</min></int>",
    "<int><min>0</min><max>1</max><min>0</min></int>",
    "<int><min>0</min><max>1</max><min>x</min></int>",
    "<int a='' size='2'><min>2</min><max>1</max><b/></int>",
    "<int a=''><min>-1</min><max>128</max></int>",
    "<int><min>-1</min><max a=''>128</max></int>",
    "<int a=''><min b=''>2</min><max>1</max></int>",
    "<int><map><relation>x</relation></map></int>",
    "<int><map><relation a=''/></map></int>",
    "<int><map><relation a=''><value/></relation></map></int>",
    "<int><map><relation><property>x</property></relation></map></int>",
    "<int><map><relation><value/><value/></relation></map></int>",
    "<int><map><relation><a/><value/></relation></map></int>",
    "<int><map><relation><value/>&#32;</relation></map></int>",
    "<int><map>x<relation/></map></int>",
    "<int><map><relation><property>1</property><value/><property>x</property></relation></map></int>",
    "<int><map><relation><property>1</property><property>x</property><value/></relation></map></int>",
    "<int><map><relation><value/><property>x</property><value/></relation></map></int>",
];

/// Root tags with one text, both or none wrong, in both orders, with an unknown attribute before, between and behind them, and with one missing.
fn roots() -> Vec<String> {
    let mut tags = Vec::new();
    let texts = [("xmlns:xsi", SCHEMA_INSTANCE), ("xsi:noNamespaceSchemaLocation", SCHEMA_LOCATION)];
    for [one, two] in [[0, 1], [1, 0]] {
        for (behind_one, behind_two) in [("", ""), (" ", ""), ("", "/"), (" ", "/")] {
            let one = format!("{}='{}{behind_one}'", texts[one].0, texts[one].1);
            let two = format!("{}='{}{behind_two}'", texts[two].0, texts[two].1);
            tags.push(format!("<cdi {one} {two}/>"));
            tags.push(format!("<cdi a='' {one} {two}/>"));
            tags.push(format!("<cdi {one} a='' {two}/>"));
            tags.push(format!("<cdi {one} {two} a=''/>"));
            if behind_two.is_empty() {
                tags.push(format!("<cdi {one}/>"));
                tags.push(format!("<cdi a='' {one}/>"));
            }
        }
    }
    tags
}

/// Thousands of unknown attributes in one tag, alone and beside another fault before or behind them.
fn many() -> Vec<String> {
    let mut attributes = String::new();
    for n in 0.. {
        if attributes.len() >= FAR {
            break;
        }
        attributes.push_str(&format!(" a{n}=''"));
    }
    vec![
        format!("<int{attributes}/>"),
        format!("<int{attributes} size='3'/>"),
        format!("<string{attributes}/>"),
        format!("<float size='2'{attributes} formatting=''/>"),
    ]
}

/// The boundary cases of these.
pub fn of_plan() -> Vec<Case> {
    let root = root_tag();
    let in_segment = |inside: String| format!("{root}<segment space='1'>{inside}</segment></cdi>");
    let mut texts: Vec<String> = OUTSIDE.map(String::from).to_vec();
    texts.extend(roots());
    texts.extend(IN_ROOT.map(|inside| format!("{root}{inside}</cdi>")));
    texts.extend(IN_SEGMENT.map(String::from).into_iter().chain(many()).map(in_segment));
    texts.iter().map(|text| Case::Plan { room: 64, text: raw_text(text) }).collect()
}
