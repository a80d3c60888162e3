//! Tags by how many attributes they have, and by where a name stands twice among them.

use super::Read;
use crate::pieces::{tag_at, Attribute, Kind, Piece};

/// The numbers of attributes at which a reader may change its way.
pub const WIDTHS: [usize; 5] = [3, 4, 15, 16, 17];

/// The ten names of attributes in the table of elements.
#[rustfmt::skip]
pub const KNOWN: [&str; 10] = [
    "xmlns:xsi", "xsi:noNamespaceSchemaLocation", "fixed", "var", "space", "origin", "replication", "size", "offset",
    "formatting",
];

/// The bytes of all attributes of a tag, below which a search for a name twice may be of one size.
pub const SPANS: [usize; 3] = [40, 320, 5_120];

const SPOTS: [&str; 4] = ["with the first", "with the last", "side by side", "elsewhere"];

fn distinct(width: usize, known: bool) -> String {
    let names = if known { "a known one among them" } else { "all unknown" };
    format!("{width} attributes, names distinct, {names}")
}

fn double(width: usize, known: bool, spot: &str) -> String {
    let name = if known { "a known" } else { "an unknown" };
    format!("{width} attributes, {name} name twice, {spot}")
}

fn spanned(size: usize, twice: bool) -> String {
    let bytes = match size {
        0 => format!("fewer than {}", SPANS[0]),
        size if size < SPANS.len() => format!("{} to {}", SPANS[size - 1], SPANS[size] - 1),
        _ => format!("{} or more", SPANS[SPANS.len() - 1]),
    };
    format!("attributes of {bytes} bytes, {}", if twice { "a name twice" } else { "names distinct" })
}

/// Whether a name can stand twice in neither of the first, the last and two neighbouring places.
fn has_elsewhere(width: usize) -> bool {
    width >= 5
}

/// All that is counted here.
pub fn labels() -> Vec<String> {
    let mut labels = Vec::new();
    for width in WIDTHS {
        for known in [true, false] {
            labels.push(distinct(width, known));
            let spots = if has_elsewhere(width) { &SPOTS[..] } else { &SPOTS[..3] };
            labels.extend(spots.iter().map(|spot| double(width, known, spot)));
        }
    }
    labels.extend((0..=SPANS.len()).flat_map(|size| [false, true].map(|twice| spanned(size, twice))));
    labels
}

fn is_known(attribute: &Attribute) -> bool {
    KNOWN.iter().any(|name| name.as_bytes() == attribute.name)
}

/// The places of two attributes of one name, for each two of them.
fn doubles(attributes: &[Attribute]) -> Vec<(usize, usize)> {
    let mut doubles = Vec::new();
    for second in 0..attributes.len() {
        for first in 0..second {
            if attributes[first].name == attributes[second].name {
                doubles.push((first, second));
            }
        }
    }
    doubles
}

fn spots(width: usize, first: usize, second: usize) -> Vec<&'static str> {
    let holds = [first == 0, second == width - 1, second == first + 1];
    let mut spots: Vec<&str> = SPOTS.iter().zip(holds).filter(|(_, holds)| *holds).map(|(spot, _)| *spot).collect();
    if spots.is_empty() {
        spots.push(SPOTS[3]);
    }
    spots
}

fn by_width(attributes: &[Attribute], doubles: &[(usize, usize)]) -> Vec<String> {
    let width = attributes.len();
    match doubles {
        _ if !WIDTHS.contains(&width) => Vec::new(),
        [] => vec![distinct(width, attributes.iter().any(is_known))],
        [(first, second)] => {
            let known = is_known(&attributes[*first]);
            spots(width, *first, *second).into_iter().map(|spot| double(width, known, spot)).collect()
        }
        _ => Vec::new(),
    }
}

/// What a start tag shows of this, if it has attributes.
fn of_tag(tag: &Piece) -> Vec<String> {
    let Kind::StartTag { name, attributes, .. } = &tag.kind else { return Vec::new() };
    let Some(last) = attributes.last() else { return Vec::new() };
    let bytes = last.value_place + last.value.len() + 1 - (tag.place + 1 + name.len());
    let size = SPANS.iter().filter(|span| bytes >= **span).count();
    let doubles = doubles(attributes);
    let mut met = by_width(attributes, &doubles);
    met.push(spanned(size, !doubles.is_empty()));
    met
}

/// What a case shows of this.
pub fn met(read: &Read) -> Vec<String> {
    let mut met: Vec<String> = Vec::new();
    for piece in read.pieces.iter().filter(|piece| read.comes_to(piece.place)) {
        met.extend(of_tag(piece));
    }
    let last =
        read.fault.filter(|fault| fault.number == 4).and_then(|fault| tag_at(read.content, fault.place as usize));
    met.extend(last.iter().flat_map(of_tag));
    met
}
