//! A refusal: the number of its cause and its place.
//! Of the refusals of one stage the one with the smallest place speaks, and at one place the one whose number stands first in their order.

/// A child that the parent's row lacks, or a root other than cdi.
pub const UNKNOWN_ELEMENT: u8 = 81;
/// A child behind one that is listed later.
pub const OUT_OF_ORDER: u8 = 82;
/// The second of a child that may stand once, and every further one.
pub const TOO_OFTEN: u8 = 83;
pub const MISSING_CHILD: u8 = 84;
pub const UNKNOWN_ATTRIBUTE: u8 = 85;
pub const MISSING_ATTRIBUTE: u8 = 86;
/// The root's two texts, and the formatting of a float.
pub const WRONG_TEXT: u8 = 87;
pub const STRAY_TEXT: u8 = 88;

/// The numbers of planning as they rank at one place: those that replace 8 stand where it stood.
#[rustfmt::skip]
const ORDER: [u8; 20] = [
    1, 2, 3, 4, 5, 6, 7,
    UNKNOWN_ELEMENT, OUT_OF_ORDER, TOO_OFTEN, MISSING_CHILD,
    UNKNOWN_ATTRIBUTE, MISSING_ATTRIBUTE, WRONG_TEXT, STRAY_TEXT,
    9, 10, 11, 12, 13,
];

#[derive(Debug, Clone, Copy, PartialEq, Eq)]
pub struct Refusal {
    pub place: u64,
    pub number: u8,
}

/// A refusal by number and place.
pub fn refusal(number: u8, place: usize) -> Refusal {
    Refusal { place: place as u64, number }
}

/// A refusal whose place is 0, as for every number from 13 on that isn't 43, 44 or one of 81 to 88.
pub fn unplaced(number: u8) -> Refusal {
    Refusal { place: 0, number }
}

/// Where a number stands among those of one place.
fn rank(number: u8) -> usize {
    ORDER.iter().position(|other| *other == number).unwrap_or(ORDER.len())
}

/// The least of the collected faults, if there is any.
pub fn least(faults: &[Refusal]) -> Option<Refusal> {
    faults.iter().min_by_key(|fault| (fault.place, rank(fault.number))).copied()
}
