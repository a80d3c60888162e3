//! A variable: where it lives, and what it is.

use crate::limits::LISTED;
use crate::UnknownNumber;
use std::fmt;

/// What a variable is. Its number is the one that stands in a table.
///
/// Later versions may add kinds, as later editions of the standard do.
///
/// ```
/// use planksling::Kind;
///
/// assert_eq!(Kind::try_from(5), Ok(Kind::EventId));
/// assert_eq!(Kind::EventId.number(), 5);
/// assert_eq!(Kind::EventId.to_string(), "eventid");
/// assert!(Kind::try_from(2).is_err());
/// ```
#[derive(Clone, Copy, Debug, PartialEq, Eq, PartialOrd, Ord, Hash)]
#[repr(u8)]
#[non_exhaustive]
pub enum Kind {
    /// 3: a whole number of 1, 2, 4 or 8 bytes.
    Int = 3,
    /// 4: a text.
    String = 4,
    /// 5: an event ID, 8 bytes.
    EventId = 5,
    /// 6: a float of 2, 4 or 8 bytes; it is located, and neither written nor read.
    Float = 6,
}

impl Kind {
    /// The kind's number in a table.
    pub const fn number(self) -> u64 {
        self as u64
    }

    /// The name of the element that describes such a variable.
    pub const fn name(self) -> &'static str {
        match self {
            Kind::Int => "int",
            Kind::String => "string",
            Kind::EventId => "eventid",
            Kind::Float => "float",
        }
    }
}

impl fmt::Display for Kind {
    fn fmt(&self, f: &mut fmt::Formatter<'_>) -> fmt::Result {
        f.pad(self.name())
    }
}

impl From<Kind> for u64 {
    fn from(kind: Kind) -> u64 {
        kind.number()
    }
}

impl TryFrom<u64> for Kind {
    type Error = UnknownNumber;

    #[inline]
    fn try_from(number: u64) -> Result<Kind, UnknownNumber> {
        match number {
            3 => Ok(Kind::Int),
            4 => Ok(Kind::String),
            5 => Ok(Kind::EventId),
            6 => Ok(Kind::Float),
            _ => Err(UnknownNumber(number)),
        }
    }
}

/// One variable: entry `number` of the walk that copies every group out.
///
/// Later versions may tell more of it, so it can't be made outside this crate.
///
/// ```
/// use planksling::{Description, Kind};
///
/// # let text = include_str!(concat!(env!("CARGO_MANIFEST_DIR"), "/../samples/worked.xml"));
/// let description: Description = text.parse()?;
/// let variable = description.variable(4)?;
/// assert_eq!((variable.space, variable.address, variable.size), (253, 147, 2));
/// assert_eq!(variable.kind, Kind::Int);
/// assert_eq!(variable.to_string(), "4 253 147 2 int");
/// # Ok::<(), planksling::Refusal>(())
/// ```
#[derive(Clone, Copy, Debug, PartialEq, Eq, Hash)]
#[non_exhaustive]
pub struct Variable {
    /// Its number, from 0.
    pub number: u64,
    /// The number of its record in the table; all copies of a variable share one.
    pub record: usize,
    /// Its space, from 0 to 255.
    pub space: u64,
    /// The address of its first byte, below 2^32.
    pub address: u64,
    /// How many bytes it has, from 1 to 65,535.
    pub size: usize,
    /// What it is.
    pub kind: Kind,
}

impl Variable {
    /// The variable that a call of the library told. Record and size are below 2^16 there, so that nothing is cut off.
    #[inline]
    pub(crate) fn told(number: u64, [record, space, address, size, kind]: [u64; LISTED]) -> Variable {
        // A variable of a plan has one of these kinds: that is proved of the library.
        let kind = Kind::try_from(kind).expect("the library lists only variables of these kinds");
        Variable { number, record: record as usize, space, address, size: size as usize, kind }
    }
}

/// The line that the program which lists prints: number, space, address, size and kind.
impl fmt::Display for Variable {
    fn fmt(&self, f: &mut fmt::Formatter<'_>) -> fmt::Result {
        write!(f, "{} {} {} {} {}", self.number, self.space, self.address, self.size, self.kind)
    }
}
