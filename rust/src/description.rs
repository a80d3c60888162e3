//! A description: a text together with the table planned from it.

use crate::calls::Planned;
use crate::{Reading, Refusal, Table, Value, Variable, Variables, Window};
use std::borrow::Cow;
use std::fmt;
use std::str::FromStr;

/// A node's description, planned: its text and its table. Through it settings are located, written and read.
///
/// It is made by planning and in no other way, so that writing and reading need not ask again whether text and table belong together. From bytes it
/// is made by `try_from`: their content ends at the first zero byte, and there must be one at 65,535 or earlier. A `str` has no closing zero, so one is
/// put behind it, by `parse` as by `try_from`.
///
/// ```
/// use planksling::{Cause, Description, Window};
///
/// let text = r#"<?xml version="1.0"?>
/// <cdi xmlns:xsi="http://www.w3.org/2001/XMLSchema-instance"
///      xsi:noNamespaceSchemaLocation="http://openlcb.org/schema/cdi/1/3/cdi.xsd">
///   <segment space="253" origin="16">
///     <group replication="4">
///       <string size="8"><name>Label</name></string>
///       <int size="2"><name>Delay</name><max>5000</max></int>
///     </group>
///   </segment>
/// </cdi>"#;
/// let description: Description = text.parse()?;
/// assert_eq!(description.variable_count(), 8);
///
/// // variable 3 is the delay of the second copy
/// let delay = description.variable(3)?;
/// assert_eq!((delay.space, delay.address, delay.size), (253, 34, 2));
///
/// // the memory of space 253 from address 16 on
/// let mut window = Window::new(253, 16, vec![0; 40]);
/// description.write(3, &mut window, 250)?;
/// assert_eq!(description.read(3, &window)?.value, 250.into());
///
/// let refusal = description.write(3, &mut window, 5001).unwrap_err();
/// assert_eq!(refusal.cause, Cause::OutOfBounds);
/// # Ok::<(), planksling::Refusal>(())
/// ```
#[derive(Clone, PartialEq, Eq, Hash)]
pub struct Description {
    planned: Planned,
}

impl Description {
    /// The content of the text: what stands before its first zero byte.
    ///
    /// ```
    /// use planksling::Description;
    ///
    /// # let bytes = include_bytes!(concat!(env!("CARGO_MANIFEST_DIR"), "/../samples/worked.xml"));
    /// let mut text = bytes.to_vec();
    /// text.extend(b"\0what stands behind the zero changes no answer");
    /// let description = Description::try_from(text)?;
    /// assert_eq!(description.text().as_bytes(), bytes);
    /// # Ok::<(), planksling::Refusal>(())
    /// ```
    pub fn text(&self) -> &str {
        self.planned.content()
    }

    /// The table, which can be asked and stored without the text.
    pub fn table(&self) -> &Table<'static> {
        self.planned.table()
    }

    /// The table, to keep without the text.
    pub fn into_table(self) -> Table<'static> {
        self.planned.into_table()
    }

    /// How many records the table has: one for each segment and data element.
    pub fn record_count(&self) -> usize {
        self.table().record_count()
    }

    /// How many variables there are, all copies of groups counted.
    pub fn variable_count(&self) -> u64 {
        self.table().variable_count()
    }

    /// Variable n: where it lives, and what it is. Refused with [`NoVariable`](crate::Cause::NoVariable) where there are no more than n.
    ///
    /// ```
    /// use planksling::{Cause, Description};
    ///
    /// # let text = include_str!(concat!(env!("CARGO_MANIFEST_DIR"), "/../samples/worked.xml"));
    /// let description: Description = text.parse()?;
    /// assert_eq!(description.variable(7)?.address, 158);
    /// assert_eq!(description.variable(8).unwrap_err().cause, Cause::NoVariable);
    /// # Ok::<(), planksling::Refusal>(())
    /// ```
    pub fn variable(&self, n: u64) -> Result<Variable, Refusal> {
        self.table().variable(n)
    }

    /// All variables, in the order of their numbers.
    ///
    /// ```
    /// use planksling::Description;
    ///
    /// # let text = include_str!(concat!(env!("CARGO_MANIFEST_DIR"), "/../samples/worked.xml"));
    /// let description: Description = text.parse()?;
    /// let addresses: Vec<u64> = description.iter().map(|variable| variable.address).collect();
    /// assert_eq!(addresses, [128, 131, 138, 140, 147, 149, 156, 158]);
    /// for variable in &description {
    ///     assert_eq!(variable.space, 253);
    /// }
    /// # Ok::<(), planksling::Refusal>(())
    /// ```
    pub fn iter(&self) -> Variables<'_> {
        self.table().iter()
    }

    /// Writes a value to variable n in a window of the node's memory.
    ///
    /// An accepted write changes the variable's own bytes and no other, and reading it back gives the value; a refused one changes nothing. Refusals,
    /// in the order in which they are asked: [`NoVariable`](crate::Cause::NoVariable), [`Withheld`](crate::Cause::Withheld),
    /// [`OtherKind`](crate::Cause::OtherKind), [`OutOfBounds`](crate::Cause::OutOfBounds), [`UnstorableText`](crate::Cause::UnstorableText),
    /// [`NotInMap`](crate::Cause::NotInMap), [`OutsideWindow`](crate::Cause::OutsideWindow).
    ///
    /// ```
    /// use planksling::{Description, EventId, Window};
    ///
    /// # let text = include_str!(concat!(env!("CARGO_MANIFEST_DIR"), "/../samples/worked.xml"));
    /// let description: Description = text.parse()?;
    /// let mut window = Window::new(253, 128, [0; 40]);
    /// description.write(0, &mut window, 255)?;
    /// description.write(1, &mut window, EventId(0x0501_0101_1800_0001))?;
    /// description.write(7, &mut window, "Track 1")?;
    /// assert_eq!(&window.bytes[30..], b"Track 1\0\0\0");
    /// # Ok::<(), planksling::Refusal>(())
    /// ```
    pub fn write<'v, B: AsMut<[u8]>>(
        &self,
        n: u64,
        window: &mut Window<B>,
        value: impl Into<Value<'v>>,
    ) -> Result<(), Refusal> {
        self.planned.write(n, window.view_mut(), &value.into())
    }

    /// Reads variable n from a window of the node's memory. A text is borrowed from the window.
    ///
    /// Refusals, in the order in which they are asked: [`NoVariable`](crate::Cause::NoVariable), [`Withheld`](crate::Cause::Withheld),
    /// [`OutsideWindow`](crate::Cause::OutsideWindow), [`UnreadableText`](crate::Cause::UnreadableText).
    ///
    /// ```
    /// use planksling::{Cause, Description, Window};
    ///
    /// # let text = include_str!(concat!(env!("CARGO_MANIFEST_DIR"), "/../samples/worked.xml"));
    /// let description: Description = text.parse()?;
    /// let window = Window::new(253, 158, b"Track 1\0\0\0");
    /// let reading = description.read(7, &window)?;
    /// assert_eq!(reading.value.as_text(), Some("Track 1"));
    /// assert!(reading.writable);
    ///
    /// let window = Window::new(253, 158, b"Track 1234");
    /// assert_eq!(description.read(7, &window).unwrap_err().cause, Cause::UnreadableText);
    /// # Ok::<(), planksling::Refusal>(())
    /// ```
    pub fn read<'w, B: AsRef<[u8]>>(&self, n: u64, window: &'w Window<B>) -> Result<Reading<'w>, Refusal> {
        self.planned.read(n, window.view())
    }

    /// The text and its table, for the calls.
    pub(crate) fn planned(&self) -> &Planned {
        &self.planned
    }

    /// Plans a text that has no closing zero of its own.
    fn close(mut text: Vec<u8>) -> Result<Description, Refusal> {
        text.push(0);
        Description::try_from(text)
    }
}

/// How long the text is, and what it has: text and table themselves are long.
impl fmt::Debug for Description {
    fn fmt(&self, f: &mut fmt::Formatter<'_>) -> fmt::Result {
        f.debug_struct("Description")
            .field("bytes", &self.text().len())
            .field("records", &self.record_count())
            .field("variables", &self.variable_count())
            .finish()
    }
}

impl TryFrom<Vec<u8>> for Description {
    type Error = Refusal;

    fn try_from(text: Vec<u8>) -> Result<Description, Refusal> {
        Ok(Description { planned: Planned::plan(Cow::Owned(text))? })
    }
}

impl TryFrom<&[u8]> for Description {
    type Error = Refusal;

    fn try_from(text: &[u8]) -> Result<Description, Refusal> {
        Ok(Description { planned: Planned::plan(Cow::Borrowed(text))? })
    }
}

impl<const N: usize> TryFrom<&[u8; N]> for Description {
    type Error = Refusal;

    fn try_from(text: &[u8; N]) -> Result<Description, Refusal> {
        Description::try_from(text.as_slice())
    }
}

/// A zero is put behind the text.
impl TryFrom<String> for Description {
    type Error = Refusal;

    fn try_from(text: String) -> Result<Description, Refusal> {
        Description::close(text.into_bytes())
    }
}

/// A zero is put behind a copy of the text.
impl TryFrom<&str> for Description {
    type Error = Refusal;

    fn try_from(text: &str) -> Result<Description, Refusal> {
        let mut copy = Vec::with_capacity(text.len() + 1);
        copy.extend_from_slice(text.as_bytes());
        Description::close(copy)
    }
}

/// A zero is put behind a copy of the text.
impl FromStr for Description {
    type Err = Refusal;

    fn from_str(text: &str) -> Result<Description, Refusal> {
        Description::try_from(text)
    }
}

impl<'d> IntoIterator for &'d Description {
    type Item = Variable;
    type IntoIter = Variables<'d>;

    fn into_iter(self) -> Variables<'d> {
        self.iter()
    }
}
