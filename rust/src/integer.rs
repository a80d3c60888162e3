//! Integers as the library takes and gives them.

use std::cmp::Ordering;
use std::fmt;
use std::num::TryFromIntError;

/// A whole number from -(2^64 - 1) to 2^64 - 1: a sign and a magnitude of 64 bits. Every one of them can be handed to a write.
///
/// It has one zero: minus zero is zero.
///
/// ```
/// use planksling::Integer;
///
/// let below = Integer::from(-5);
/// assert!(below.is_negative());
/// assert_eq!(below.magnitude(), 5);
/// assert_eq!(below.to_string(), "-5");
/// assert!(below < Integer::from(u64::MAX));
/// assert_eq!(i128::from(below), -5);
/// assert_eq!(i8::try_from(below), Ok(-5));
/// assert!(u8::try_from(below).is_err());
/// assert_eq!(Integer::try_from(1_i128 << 63), Ok(Integer::from(1_u64 << 63)));
/// assert!(Integer::try_from(1_i128 << 64).is_err());
/// ```
#[derive(Clone, Copy, Default, PartialEq, Eq, Hash)]
pub struct Integer {
    // never beside magnitude 0, so that equal numbers have equal fields
    negative: bool,
    magnitude: u64,
}

impl Integer {
    /// The smallest one, -(2^64 - 1).
    pub const MIN: Integer = Integer::new(true, u64::MAX);

    /// The largest one, 2^64 - 1.
    pub const MAX: Integer = Integer::new(false, u64::MAX);

    /// The number of this sign and magnitude.
    ///
    /// ```
    /// use planksling::Integer;
    ///
    /// assert_eq!(Integer::new(true, 0), Integer::from(0));
    /// ```
    pub const fn new(negative: bool, magnitude: u64) -> Integer {
        Integer { negative: negative && 0 < magnitude, magnitude }
    }

    /// Is it below zero?
    pub const fn is_negative(self) -> bool {
        self.negative
    }

    /// The number without its sign.
    pub const fn magnitude(self) -> u64 {
        self.magnitude
    }
}

impl fmt::Display for Integer {
    fn fmt(&self, f: &mut fmt::Formatter<'_>) -> fmt::Result {
        f.pad_integral(!self.negative, "", &self.magnitude.to_string())
    }
}

impl fmt::Debug for Integer {
    fn fmt(&self, f: &mut fmt::Formatter<'_>) -> fmt::Result {
        f.debug_tuple("Integer").field(&i128::from(*self)).finish()
    }
}

impl PartialOrd for Integer {
    fn partial_cmp(&self, other: &Integer) -> Option<Ordering> {
        Some(self.cmp(other))
    }
}

impl Ord for Integer {
    fn cmp(&self, other: &Integer) -> Ordering {
        i128::from(*self).cmp(&i128::from(*other))
    }
}

impl From<Integer> for i128 {
    fn from(integer: Integer) -> i128 {
        let magnitude = i128::from(integer.magnitude);
        if integer.negative {
            -magnitude
        } else {
            magnitude
        }
    }
}

impl TryFrom<i128> for Integer {
    type Error = TryFromIntError;

    fn try_from(number: i128) -> Result<Integer, TryFromIntError> {
        Ok(Integer::new(number < 0, u64::try_from(number.unsigned_abs())?))
    }
}

impl TryFrom<u128> for Integer {
    type Error = TryFromIntError;

    fn try_from(number: u128) -> Result<Integer, TryFromIntError> {
        Ok(Integer::new(false, u64::try_from(number)?))
    }
}

// To and from the signed types, and the unsigned ones.
macro_rules! convert {
    (signed $($from:ty)+) => {
        $(
            impl From<$from> for Integer {
                fn from(number: $from) -> Integer {
                    Integer::new(number < 0, number.unsigned_abs().into())
                }
            }
            convert!(back $from);
        )+
    };
    (unsigned $($from:ty)+) => {
        $(
            impl From<$from> for Integer {
                fn from(number: $from) -> Integer {
                    Integer::new(false, number.into())
                }
            }
            convert!(back $from);
        )+
    };
    (back $to:ty) => {
        impl TryFrom<Integer> for $to {
            type Error = TryFromIntError;

            fn try_from(integer: Integer) -> Result<$to, TryFromIntError> {
                <$to>::try_from(i128::from(integer))
            }
        }
    };
}

convert!(signed i8 i16 i32 i64);
convert!(unsigned u8 u16 u32 u64);
