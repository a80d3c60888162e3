//! Refusals: the cause, which has a number, and the place.

use std::error::Error;
use std::fmt;

/// Why a call was refused. Each cause has the number that all interfaces of the library give.
///
/// The causes 1 to 12 and 81 to 88 are about a description and for its maker; the others are about the tables, numbers, values, windows and
/// journals that a caller hands in. They are ordered by their numbers. Later versions may add causes.
///
/// ```
/// use planksling::Cause;
///
/// assert_eq!(Cause::NoVariable.number(), 21);
/// assert_eq!(Cause::try_from(21), Ok(Cause::NoVariable));
/// assert_eq!(Cause::OutOfBounds.to_string(), "integer below min or above max");
/// ```
#[derive(Clone, Copy, Debug, PartialEq, Eq, PartialOrd, Ord, Hash)]
#[repr(u8)]
#[non_exhaustive]
pub enum Cause {
    /// 1: no zero byte ends the content in time. Place: the length of the text, at most 65,536.
    NoEnd = 1,
    /// 2: bytes that are no character, or a character that may not stand in a description. Place: its first byte.
    BadCharacter = 2,
    /// 3: the first line isn't `<?xml version="1.0"?>` with a newline. Place: 0.
    OtherFirstLine = 3,
    /// 4: markup that isn't well-formed. Place: the first byte of the piece.
    Malformed = 4,
    /// 5: a DOCTYPE, a CDATA section or `&` in an attribute. Place: the first byte of the piece.
    Unsupported = 5,
    /// 6: end tags that close nothing, things outside the root, an unclosed or no root. Place: that tag or byte, or the end of the content.
    NotOneTree = 6,
    /// 7: an element at depth 25, or element 4,097. Place: its `<`.
    TooDeepOrMany = 7,
    /// 9: no number stands where one must. Place: the `<` of the element that carries it.
    NotANumber = 9,
    /// 10: a number or a size out of its range, or min above max. Place: the `<` of the element that carries it, or of the int.
    OutOfRange = 10,
    /// 11: a variable below address 0 or beyond 2^32. Place: the `<` of the first such segment.
    AddressOutOfRange = 11,
    /// 12: more than 1,000,000 variables. Place: the `<` of `cdi`.
    TooManyVariables = 12,
    /// 13: the lent table has no room for the records. Place: 0, as for all causes that follow here up to 35.
    TableTooShort = 13,
    /// 20: the table isn't a plan; when writing and reading, not exactly the one planned from this text.
    NotAPlan = 20,
    /// 21: there is no variable of this number.
    NoVariable = 21,
    /// 22: the value is of another kind than the variable.
    OtherKind = 22,
    /// 23: the integer is below the variable's min or above its max.
    OutOfBounds = 23,
    /// 24: the variable has a map, and the value isn't one of its properties.
    NotInMap = 24,
    /// 25: the text has a zero byte in it, or leaves no room for its closing zero.
    UnstorableText = 25,
    /// 26: the window is of another space, or doesn't hold the whole variable.
    OutsideWindow = 26,
    /// 27: the variable is a float, which can be neither written nor read, or an eventid with a map, which can only be read.
    Withheld = 27,
    /// 28: the string's bytes are no text: no zero closes them, or what stands before it isn't UTF-8.
    UnreadableText = 28,
    /// 30: 64 edits stand, or the journal has no room for the entry of one more.
    JournalFull = 30,
    /// 31: no edit stands that could be taken back.
    NothingToUndo = 31,
    /// 35: the latest entry doesn't lie in the journal, or its number and size aren't those of a variable wholly inside the window.
    BadEntry = 35,
    /// 81: an element that its parent can't hold, or a root other than `cdi`. Place: its `<`.
    UnknownElement = 81,
    /// 82: an element behind one that must follow it. Place: its `<`.
    ElementOutOfOrder = 82,
    /// 83: an element that stands a second time in its parent. Place: its `<`.
    ElementTooOften = 83,
    /// 84: a relation without property or value. Place: the `<` of the relation.
    MissingChild = 84,
    /// 85: an attribute that its element doesn't have. Place: the first byte of its name.
    UnknownAttribute = 85,
    /// 86: a tag without an attribute that it must have. Place: the `<` of the tag.
    MissingAttribute = 86,
    /// 87: another text than the fixed one, of the root's attributes or a float's formatting. Place: the first byte of the attribute's name.
    WrongFixedText = 87,
    /// 88: text or a reference between elements. Place: its first byte that is no blank, or the `&`.
    StrayText = 88,
}

impl Cause {
    /// All causes, in the order in which the library's table of refusals lists them: 81 to 88 stand before 9.
    pub const ALL: &'static [Cause] = &[
        Cause::NoEnd,
        Cause::BadCharacter,
        Cause::OtherFirstLine,
        Cause::Malformed,
        Cause::Unsupported,
        Cause::NotOneTree,
        Cause::TooDeepOrMany,
        Cause::UnknownElement,
        Cause::ElementOutOfOrder,
        Cause::ElementTooOften,
        Cause::MissingChild,
        Cause::UnknownAttribute,
        Cause::MissingAttribute,
        Cause::WrongFixedText,
        Cause::StrayText,
        Cause::NotANumber,
        Cause::OutOfRange,
        Cause::AddressOutOfRange,
        Cause::TooManyVariables,
        Cause::TableTooShort,
        Cause::NotAPlan,
        Cause::NoVariable,
        Cause::OtherKind,
        Cause::OutOfBounds,
        Cause::NotInMap,
        Cause::UnstorableText,
        Cause::OutsideWindow,
        Cause::Withheld,
        Cause::UnreadableText,
        Cause::JournalFull,
        Cause::NothingToUndo,
        Cause::BadEntry,
    ];

    /// The cause's number.
    pub const fn number(self) -> usize {
        self as usize
    }

    /// The cause in a few words, as the library's table of refusals has it.
    pub const fn words(self) -> &'static str {
        match self {
            Cause::NoEnd => "no zero byte at 65,535 or earlier",
            Cause::BadCharacter => "byte sequence or character not allowed",
            Cause::OtherFirstLine => "first line differs",
            Cause::Malformed => "malformed markup",
            Cause::Unsupported => "unsupported: DOCTYPE, CDATA, `&` in an attribute",
            Cause::NotOneTree => {
                "end tag without its start, second root, text or reference outside the root; unclosed or no root"
            }
            Cause::TooDeepOrMany => "depth 25, or element 4,097",
            Cause::UnknownElement => "unknown element: one that its parent can't hold; a root other than cdi",
            Cause::ElementOutOfOrder => "element out of order: behind one that must follow it",
            Cause::ElementTooOften => "element too often: the second and every further one",
            Cause::MissingChild => "missing child: a relation without property or value",
            Cause::UnknownAttribute => "unknown attribute",
            Cause::MissingAttribute => "missing attribute",
            Cause::WrongFixedText => "wrong fixed text: of the root's two attributes, of a float's formatting",
            Cause::StrayText => "stray text or reference between elements",
            Cause::NotANumber => "not a number",
            Cause::OutOfRange => "number or size out of range; min above max",
            Cause::AddressOutOfRange => "address leaves 0 to 2^32",
            Cause::TooManyVariables => "more than 1,000,000 variables",
            Cause::TableTooShort => "8 times the records exceeds the table's length",
            Cause::NotAPlan => "not a plan; when writing and reading, not exactly the table planned from this text",
            Cause::NoVariable => "no variable n",
            Cause::OtherKind => "the value's kind isn't the variable's",
            Cause::OutOfBounds => "integer below min or above max",
            Cause::NotInMap => "map present and no property equal",
            Cause::UnstorableText => "text holds a zero byte, isn't UTF-8, or is longer than size - 1",
            Cause::OutsideWindow => "wrong space, or not wholly inside the window",
            Cause::Withheld => "a float; when writing, also an eventid with a map",
            Cause::UnreadableText => "no zero in the text, or not UTF-8 before it",
            Cause::JournalFull => "64 edits stand, or the journal lacks room for one more",
            Cause::NothingToUndo => "no edit stands",
            Cause::BadEntry => {
                "the latest entry doesn't lie in the journal, or isn't that of a variable inside the window"
            }
        }
    }
}

impl fmt::Display for Cause {
    fn fmt(&self, f: &mut fmt::Formatter<'_>) -> fmt::Result {
        f.pad(self.words())
    }
}

impl From<Cause> for usize {
    fn from(cause: Cause) -> usize {
        cause.number()
    }
}

impl TryFrom<usize> for Cause {
    type Error = UnknownNumber;

    fn try_from(number: usize) -> Result<Cause, UnknownNumber> {
        let known = Cause::ALL.iter().find(|cause| cause.number() == number);
        known.copied().ok_or(UnknownNumber(number as u64))
    }
}

/// A refusal: its cause, and the place in the text, counted in bytes from 0.
///
/// A refused call has changed no table, no window and no journal that was lent to it.
///
/// ```
/// use planksling::{Cause, Description};
///
/// let refusal = "not a description".parse::<Description>().unwrap_err();
/// assert_eq!(refusal.cause, Cause::OtherFirstLine);
/// assert_eq!(refusal.place, 0);
/// assert_eq!(refusal.to_string(), "refused 3 at 0: first line differs");
/// ```
#[derive(Clone, Copy, Debug, PartialEq, Eq, Hash)]
pub struct Refusal {
    /// Why.
    pub cause: Cause,
    /// Where in the text; 0 where the cause is about no place in it.
    pub place: usize,
}

impl Refusal {
    /// What a call told: 0, or the number of its refusal.
    pub(crate) fn told(number: usize, place: usize) -> Result<(), Refusal> {
        if number == 0 {
            return Ok(());
        }
        // Which numbers the calls return is proved of the library, and `Cause` has all of them.
        let cause = Cause::try_from(number).expect("the library returns only numbers that it lists");
        Err(Refusal { cause, place })
    }
}

impl fmt::Display for Refusal {
    fn fmt(&self, f: &mut fmt::Formatter<'_>) -> fmt::Result {
        write!(f, "refused {} at {}: {}", self.cause.number(), self.place, self.cause)
    }
}

impl Error for Refusal {}

/// A number that names no [`Cause`] or no [`Kind`](crate::Kind).
///
/// ```
/// use planksling::{Cause, UnknownNumber};
///
/// assert_eq!(Cause::try_from(8), Err(UnknownNumber(8)));
/// ```
#[derive(Clone, Copy, Debug, PartialEq, Eq, Hash)]
pub struct UnknownNumber(pub u64);

impl fmt::Display for UnknownNumber {
    fn fmt(&self, f: &mut fmt::Formatter<'_>) -> fmt::Result {
        write!(f, "{} names nothing here", self.0)
    }
}

impl Error for UnknownNumber {}
