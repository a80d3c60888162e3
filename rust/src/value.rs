//! Values: what is written to a variable and read from it.

use crate::{Integer, Kind};
use std::borrow::Cow;
use std::fmt;

/// An event ID: 8 bytes, as one number of 64 bits with the first byte highest.
///
/// ```
/// use planksling::EventId;
///
/// let id = EventId::from([0x05, 0x01, 0x01, 0x01, 0x18, 0x00, 0x00, 0xFF]);
/// assert_eq!(id, EventId(0x0501_0101_1800_00FF));
/// assert_eq!(id.to_string(), "05.01.01.01.18.00.00.FF");
/// ```
#[derive(Clone, Copy, Debug, Default, PartialEq, Eq, PartialOrd, Ord, Hash)]
pub struct EventId(pub u64);

impl From<u64> for EventId {
    fn from(number: u64) -> EventId {
        EventId(number)
    }
}

impl From<EventId> for u64 {
    fn from(id: EventId) -> u64 {
        id.0
    }
}

impl From<[u8; 8]> for EventId {
    fn from(bytes: [u8; 8]) -> EventId {
        EventId(u64::from_be_bytes(bytes))
    }
}

impl From<EventId> for [u8; 8] {
    fn from(id: EventId) -> [u8; 8] {
        id.0.to_be_bytes()
    }
}

/// The 8 bytes in hexadecimal with points between them, as event IDs are usually printed.
impl fmt::Display for EventId {
    fn fmt(&self, f: &mut fmt::Formatter<'_>) -> fmt::Result {
        let [first, rest @ ..] = self.0.to_be_bytes();
        write!(f, "{first:02X}")?;
        rest.iter().try_for_each(|byte| write!(f, ".{byte:02X}"))
    }
}

/// A value of a variable.
///
/// Integers of every width up to 64 bits, event IDs and texts turn into one by `into`. A text is UTF-8 by its type, so of what makes a text
/// unstorable only a zero byte in it and its length are left. Later versions may add floats.
///
/// ```
/// use planksling::{EventId, Integer, Value};
///
/// assert_eq!(Value::from(-3), Value::Integer(Integer::from(-3)));
/// assert_eq!(Value::from(EventId(7)), Value::Event(EventId(7)));
/// assert_eq!(Value::from("Track 1").as_text(), Some("Track 1"));
/// assert_eq!(Value::from("Track 1"), Value::from(String::from("Track 1")));
/// ```
#[derive(Clone, Debug, PartialEq, Eq, Hash)]
#[non_exhaustive]
pub enum Value<'a> {
    /// Of an int.
    Integer(Integer),
    /// Of an eventid.
    Event(EventId),
    /// Of a string. One that is read is borrowed from the window.
    Text(Cow<'a, str>),
}

impl Value<'_> {
    /// The kind of variable that has such a value.
    pub const fn kind(&self) -> Kind {
        match self {
            Value::Integer(_) => Kind::Int,
            Value::Event(_) => Kind::EventId,
            Value::Text(_) => Kind::String,
        }
    }

    /// The integer, if it is one.
    pub const fn as_integer(&self) -> Option<Integer> {
        match self {
            Value::Integer(integer) => Some(*integer),
            _ => None,
        }
    }

    /// The event ID, if it is one.
    pub const fn as_event(&self) -> Option<EventId> {
        match self {
            Value::Event(id) => Some(*id),
            _ => None,
        }
    }

    /// The text, if it is one.
    pub fn as_text(&self) -> Option<&str> {
        match self {
            Value::Text(text) => Some(text),
            _ => None,
        }
    }

    /// The same value, borrowed from nothing: one that was read can then be kept while its window changes.
    ///
    /// ```
    /// use planksling::{Description, Window};
    ///
    /// # let text = include_str!(concat!(env!("CARGO_MANIFEST_DIR"), "/../samples/worked.xml"));
    /// let description: Description = text.parse()?;
    /// let mut window = Window::new(253, 158, [0; 10]);
    /// description.write(7, &mut window, "old")?;
    /// let old = description.read(7, &window)?.value.into_owned();
    /// description.write(7, &mut window, "new")?;
    /// description.write(7, &mut window, old)?;
    /// assert_eq!(description.read(7, &window)?.value, "old".into());
    /// # Ok::<(), planksling::Refusal>(())
    /// ```
    pub fn into_owned(self) -> Value<'static> {
        match self {
            Value::Integer(integer) => Value::Integer(integer),
            Value::Event(id) => Value::Event(id),
            Value::Text(text) => Value::Text(Cow::Owned(text.into_owned())),
        }
    }
}

/// The integer in decimal, the event ID as it is printed, or the text itself.
impl fmt::Display for Value<'_> {
    fn fmt(&self, f: &mut fmt::Formatter<'_>) -> fmt::Result {
        match self {
            Value::Integer(integer) => integer.fmt(f),
            Value::Event(id) => id.fmt(f),
            Value::Text(text) => text.fmt(f),
        }
    }
}

impl<'a> From<&'a Value<'_>> for Value<'a> {
    fn from(value: &'a Value<'_>) -> Value<'a> {
        match value {
            Value::Integer(integer) => Value::Integer(*integer),
            Value::Event(id) => Value::Event(*id),
            Value::Text(text) => Value::Text(Cow::Borrowed(text)),
        }
    }
}

impl From<Integer> for Value<'_> {
    fn from(integer: Integer) -> Self {
        Value::Integer(integer)
    }
}

impl From<EventId> for Value<'_> {
    fn from(id: EventId) -> Self {
        Value::Event(id)
    }
}

impl<'a> From<&'a str> for Value<'a> {
    fn from(text: &'a str) -> Value<'a> {
        Value::Text(Cow::Borrowed(text))
    }
}

impl From<String> for Value<'_> {
    fn from(text: String) -> Self {
        Value::Text(Cow::Owned(text))
    }
}

impl<'a> From<&'a String> for Value<'a> {
    fn from(text: &'a String) -> Value<'a> {
        Value::Text(Cow::Borrowed(text))
    }
}

impl<'a> From<Cow<'a, str>> for Value<'a> {
    fn from(text: Cow<'a, str>) -> Value<'a> {
        Value::Text(text)
    }
}

// From every integer that is an `Integer`.
macro_rules! integers {
    ($($from:ty)+) => {
        $(
            impl From<$from> for Value<'_> {
                fn from(number: $from) -> Self {
                    Value::Integer(number.into())
                }
            }
        )+
    };
}

integers!(i8 i16 i32 i64 u8 u16 u32 u64);

/// What was read: the value, and whether writing it now would be accepted.
///
/// A value that a node came up with by itself need not keep its bounds or stand in its map. Later versions may tell more of it.
///
/// ```
/// use planksling::{Description, Window};
///
/// # let text = include_str!(concat!(env!("CARGO_MANIFEST_DIR"), "/../samples/input-board.xml"));
/// let description: Description = text.parse()?;
/// // variable 5 has a map with 0 and 1
/// let window = Window::new(253, 147, [7]);
/// let reading = description.read(5, &window)?;
/// assert_eq!(reading.value, 7.into());
/// assert!(!reading.writable);
/// # Ok::<(), planksling::Refusal>(())
/// ```
#[derive(Clone, Debug, PartialEq, Eq, Hash)]
#[non_exhaustive]
pub struct Reading<'w> {
    /// The value.
    pub value: Value<'w>,
    /// Would writing this value now be accepted?
    pub writable: bool,
}
