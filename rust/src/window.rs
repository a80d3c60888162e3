//! Windows: parts of a node's memory.

use crate::Variable;

/// Part of a node's memory: a space, an address, and one byte for each address from there on.
///
/// The bytes are owned or borrowed, as a `Vec<u8>`, an array, `&[u8]` or `&mut [u8]`. Space and address are any numbers, and addresses don't wrap:
/// what would lie beyond the last one is out of reach. Writing and reading ask that the whole variable lies in the window.
///
/// ```
/// use planksling::{Cause, Description, Window};
///
/// # let text = include_str!(concat!(env!("CARGO_MANIFEST_DIR"), "/../samples/worked.xml"));
/// let description: Description = text.parse()?;
/// let mut memory = [0xEE; 32];
/// let mut window = Window::new(253, 128, &mut memory[..]);
/// description.write(2, &mut window, 300)?;
/// assert_eq!(memory[9..13], [0xEE, 0x01, 0x2C, 0xEE]);
///
/// let mut elsewhere = Window::new(253, 139, [0; 32]);
/// let refusal = description.write(2, &mut elsewhere, 300).unwrap_err();
/// assert_eq!(refusal.cause, Cause::OutsideWindow);
/// # Ok::<(), planksling::Refusal>(())
/// ```
#[derive(Clone, Copy, Debug, Default, PartialEq, Eq, Hash)]
pub struct Window<B> {
    /// Whose bytes they are.
    pub space: u64,
    /// The address of the first byte.
    pub first: u64,
    /// The bytes.
    pub bytes: B,
}

impl<B> Window<B> {
    /// The window of these bytes.
    pub const fn new(space: u64, first: u64, bytes: B) -> Window<B> {
        Window { space, first, bytes }
    }
}

impl Window<Vec<u8>> {
    /// A window of zeros that holds this variable and nothing else.
    ///
    /// ```
    /// use planksling::{Description, Window};
    ///
    /// # let text = include_str!(concat!(env!("CARGO_MANIFEST_DIR"), "/../samples/worked.xml"));
    /// let description: Description = text.parse()?;
    /// let variable = description.variable(2)?;
    /// let mut window = Window::of(&variable);
    /// description.write(variable.number, &mut window, 300)?;
    /// assert_eq!(window, Window::new(253, 138, vec![0x01, 0x2C]));
    /// # Ok::<(), planksling::Refusal>(())
    /// ```
    pub fn of(variable: &Variable) -> Window<Vec<u8>> {
        Window::new(variable.space, variable.address, vec![0; variable.size])
    }
}

impl<B: AsRef<[u8]>> Window<B> {
    /// The same window, borrowed.
    pub(crate) fn view(&self) -> Window<&[u8]> {
        Window::new(self.space, self.first, self.bytes.as_ref())
    }
}

impl<B: AsMut<[u8]>> Window<B> {
    /// The same window, borrowed to be written.
    pub(crate) fn view_mut(&mut self) -> Window<&mut [u8]> {
        Window::new(self.space, self.first, self.bytes.as_mut())
    }
}
