//! Refusals: the cause, which has a number, and the place.

use std::error::Error;
use std::fmt;

/// Why a call was refused. Each cause has the number that all interfaces of the library give. Later versions may add causes.
///
/// ```
/// use planksling_backup::{store, Cause};
///
/// assert_eq!(store(253, &[]).unwrap_err().cause, Cause::NotStorable);
/// assert_eq!(Cause::NotStorable.number(), 40);
/// assert_eq!(Cause::NotWhole.to_string(), "length not a positive multiple of 512");
/// ```
#[derive(Clone, Copy, Debug, PartialEq, Eq, PartialOrd, Ord, Hash)]
#[repr(u8)]
#[non_exhaustive]
pub enum Cause {
    /// 40: the window is empty, has more than 2^32 bytes, or its space is above 255. Place: 0.
    NotStorable = 40,
    /// 41: the lent output has no room for all blocks, or when reading for the window's bytes. Place: 0.
    NoRoom = 41,
    /// 42: the backup's length is 0 or no multiple of 512. Place: 0.
    NotWhole = 42,
    /// 43: the check of a block doesn't fit its bytes. Place: the block's position.
    BadCheck = 43,
    /// 44: number, space, length, flag or padding of a block isn't what it must be there. Place: the block's position.
    BadField = 44,
}

impl Cause {
    /// All causes, by their numbers.
    pub const ALL: &'static [Cause] =
        &[Cause::NotStorable, Cause::NoRoom, Cause::NotWhole, Cause::BadCheck, Cause::BadField];

    /// The cause's number.
    pub const fn number(self) -> usize {
        self as usize
    }

    /// The cause in a few words, as the library's table of refusals has it.
    pub const fn words(self) -> &'static str {
        match self {
            Cause::NotStorable => "window empty, longer than 2^32 bytes or of a space above 255",
            Cause::NoRoom => "lent output too small",
            Cause::NotWhole => "length not a positive multiple of 512",
            Cause::BadCheck => "the check of a block doesn't fit",
            Cause::BadField => "number, space, length, flag or padding of a block is wrong",
        }
    }
}

impl fmt::Display for Cause {
    fn fmt(&self, f: &mut fmt::Formatter<'_>) -> fmt::Result {
        f.pad(self.words())
    }
}

/// A refusal: its cause, and the position of the block that it is about, counted from 0.
///
/// A refused call has left the output that was lent to it as it was.
///
/// ```
/// use planksling_backup::read;
///
/// assert_eq!(read(&[0; 511]).unwrap_err().to_string(), "refused 42 at 0: length not a positive multiple of 512");
/// assert_eq!(read(&[0; 512]).unwrap_err().to_string(), "refused 44 at 0: number, space, length, flag or padding of a block is wrong");
/// ```
#[derive(Clone, Copy, Debug, PartialEq, Eq, Hash)]
pub struct Refusal {
    /// Why.
    pub cause: Cause,
    /// The position of the block; 0 where the cause is about none.
    pub place: usize,
}

impl Refusal {
    /// What a call told: 0, or the number of its refusal.
    pub(crate) fn told(number: usize, place: usize) -> Result<(), Refusal> {
        if number == 0 {
            return Ok(());
        }
        // Which numbers the calls return is proved of the library, and `Cause` has all of them.
        let known = Cause::ALL.iter().find(|cause| cause.number() == number);
        Err(Refusal { cause: *known.expect("the library returns only numbers that it lists"), place })
    }
}

impl fmt::Display for Refusal {
    fn fmt(&self, f: &mut fmt::Formatter<'_>) -> fmt::Result {
        write!(f, "refused {} at {}: {}", self.cause.number(), self.place, self.cause)
    }
}

impl Error for Refusal {}
