//! One block: what it says, and what is wrong with it.

use crate::{Cause, BLOCK, PAYLOAD};
use std::fmt;

/// Where the payload begins, and where it ends at the latest.
const FROM: usize = 8;
const TO: usize = FROM + PAYLOAD;

/// A block of a backup, as it stands there, with the library's verdict.
#[derive(Clone, Copy, Debug, PartialEq, Eq)]
pub struct Block<'b> {
    /// Where it stands in the backup, counted from 0.
    pub position: usize,
    /// Its bytes.
    pub bytes: &'b [u8; BLOCK],
    /// Was it judged as the last block?
    pub(crate) is_last: bool,
    /// The space by which it was judged.
    pub(crate) wanted: u8,
    pub(crate) cause: Option<Cause>,
}

impl<'b> Block<'b> {
    fn pair(&self, at: usize) -> u16 {
        u16::from_be_bytes([self.bytes[at], self.bytes[at + 1]])
    }

    /// The number that it says.
    pub fn number(&self) -> u32 {
        u32::from(self.pair(0)) << 16 | u32::from(self.pair(2))
    }

    /// The length of its payload that it says; more than [`PAYLOAD`] is wrong.
    pub fn length(&self) -> u16 {
        self.pair(4)
    }

    /// The space that it says.
    pub fn space(&self) -> u8 {
        self.bytes[6]
    }

    /// Its flag, which is 1 in the last block and 0 in the others.
    pub fn flag(&self) -> u8 {
        self.bytes[7]
    }

    /// Its check.
    pub fn check(&self) -> u16 {
        self.pair(TO)
    }

    /// Its payload, as long as it says, at most [`PAYLOAD`] bytes. In a good block these are bytes of the window, from 502 times its position on.
    pub fn payload(&self) -> &'b [u8] {
        &self.bytes[FROM..self.end()]
    }

    fn end(&self) -> usize {
        FROM + usize::from(self.length()).min(PAYLOAD)
    }

    /// Is it good where it stands? That is the library's answer.
    pub fn is_good(&self) -> bool {
        self.cause.is_none()
    }

    /// Why it isn't good, [`BadCheck`](Cause::BadCheck) or [`BadField`](Cause::BadField). That is the library's answer.
    pub fn cause(&self) -> Option<Cause> {
        self.cause
    }

    /// What is wrong with it, for people: the check alone where that doesn't fit, else each field, in the order in which they are judged.
    ///
    /// ```
    /// use planksling_backup::{inspect, store};
    ///
    /// // the second block of a backup alone
    /// let backup = store(7, &[1; 503])?;
    /// let block = inspect(&backup[512..]).next().expect("a block");
    /// let faults: Vec<String> = block.faults().iter().map(|fault| fault.to_string()).collect();
    /// assert_eq!(faults, ["the number is 1 and not 0"]);
    /// # Ok::<(), planksling_backup::Refusal>(())
    /// ```
    pub fn faults(&self) -> Vec<Fault> {
        match self.cause {
            None => vec![],
            Some(Cause::BadCheck) => vec![Fault::Check { stored: self.check(), sum: self.sum() }],
            Some(_) => self.fields(),
        }
    }

    /// The fields that are wrong. Behind which byte the padding begins only a good length tells.
    fn fields(&self) -> Vec<Fault> {
        let Block { position, is_last, wanted, .. } = *self;
        let mut faults = vec![];
        if self.number() as usize != position {
            faults.push(Fault::Number { stored: self.number(), position });
        }
        if self.space() != wanted {
            faults.push(Fault::Space { stored: self.space(), wanted });
        }
        let is_length_good = self.is_length_good();
        if !is_length_good {
            faults.push(Fault::Length { stored: self.length(), is_last });
        }
        if self.flag() != u8::from(is_last) {
            faults.push(Fault::Flag { stored: self.flag(), is_last });
        }
        if is_length_good {
            faults.extend(self.stray().map(|at| Fault::Padding { at }));
        }
        faults
    }

    fn is_length_good(&self) -> bool {
        let length = usize::from(self.length());
        if self.is_last {
            (1..=PAYLOAD).contains(&length)
        } else {
            length == PAYLOAD
        }
    }

    /// The first byte behind the payload that isn't zero.
    fn stray(&self) -> Option<usize> {
        (self.end()..TO).find(|&at| self.bytes[at] != 0)
    }

    /// What its check must be.
    fn sum(&self) -> u16 {
        let sum: u32 = (0..TO).step_by(2).map(|at| u32::from(self.pair(at))).sum();
        (sum % 0xFFFF) as u16
    }
}

/// Something that is wrong with a block. What `Display` says is for people. Later versions may add variants and fields.
#[derive(Clone, Copy, Debug, PartialEq, Eq, Hash)]
#[non_exhaustive]
pub enum Fault {
    /// The check doesn't fit.
    #[non_exhaustive]
    Check {
        /// The check that stands there.
        stored: u16,
        /// The sum of the words before it, modulo 65,535.
        sum: u16,
    },
    /// The number isn't the position.
    #[non_exhaustive]
    Number {
        /// The number that stands there.
        stored: u32,
        /// Where the block stands.
        position: usize,
    },
    /// The space isn't the backup's.
    #[non_exhaustive]
    Space {
        /// The space that stands there.
        stored: u8,
        /// The backup's.
        wanted: u8,
    },
    /// The length isn't one of a payload, or of a full one.
    #[non_exhaustive]
    Length {
        /// The length that stands there.
        stored: u16,
        /// Is it the last block, which needn't be full?
        is_last: bool,
    },
    /// The flag isn't 1 in the last block, or not 0 in another.
    #[non_exhaustive]
    Flag {
        /// The flag that stands there.
        stored: u8,
        /// Is it the last block?
        is_last: bool,
    },
    /// A byte behind the payload isn't zero.
    #[non_exhaustive]
    Padding {
        /// The place of the first such byte in the block.
        at: usize,
    },
}

impl fmt::Display for Fault {
    fn fmt(&self, f: &mut fmt::Formatter<'_>) -> fmt::Result {
        match self {
            Fault::Check { stored, sum } => write!(f, "the check is 0x{stored:04X} and the sum 0x{sum:04X}"),
            Fault::Number { stored, position } => write!(f, "the number is {stored} and not {position}"),
            Fault::Space { stored, wanted } => write!(f, "the space is {stored} and not {wanted}"),
            Fault::Length { stored, is_last: true } => write!(f, "the length is {stored} and not 1 to {PAYLOAD}"),
            Fault::Length { stored, is_last: false } => {
                write!(f, "the length is {stored} and not {PAYLOAD} in a block before the last")
            }
            Fault::Flag { stored, is_last: true } => write!(f, "the flag is {stored} and not 1 in the last block"),
            Fault::Flag { stored, is_last: false } => {
                write!(f, "the flag is {stored} and not 0 in a block before the last")
            }
            Fault::Padding { at } => write!(f, "byte {at}, behind the payload, is not zero"),
        }
    }
}
