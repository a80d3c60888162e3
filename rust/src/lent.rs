//! The calls on memory that the caller lends, for programs that keep texts and tables by themselves, on the stack for instance.
//!
//! Each takes any text and any table and asks nothing of its caller. Writing, reading, editing and taking back plan the text again at each call to
//! be sure of the table; a [`Description`](crate::Description) does that once.
//!
//! ```
//! use planksling::{lent, Window, FIELDS};
//!
//! # let text = concat!(include_str!(concat!(env!("CARGO_MANIFEST_DIR"), "/../samples/worked.xml")), "\0").as_bytes();
//! let mut table = [0; 64];
//! let counts = lent::plan(text, &mut table)?;
//! assert_eq!((counts.records, counts.variables), (6, 8));
//! let table = &table[..FIELDS * counts.records];
//!
//! assert_eq!(lent::locate(table, 4)?.address, 147);
//! let mut window = Window::new(253, 147, [0; 2]);
//! lent::write(text, table, 4, &mut window, 300)?;
//! assert_eq!(lent::read(text, table, 4, &window)?.value, 300.into());
//!
//! // edits that can be taken back: a session is the number of those that stand
//! let (mut journal, mut session) = ([0; 100], 0);
//! lent::edit(text, table, 4, &mut window, &mut journal, &mut session, 301)?;
//! lent::undo(text, table, &mut window, &journal, &mut session)?;
//! assert_eq!(lent::read(text, table, 4, &window)?.value, 300.into());
//! # Ok::<(), planksling::Refusal>(())
//! ```

use crate::calls;
use crate::limits::LISTED;
use crate::{Reading, Refusal, Value, Variable, Window};

/// What planning counted. Later versions may count more.
#[derive(Clone, Copy, Debug, PartialEq, Eq, Hash)]
#[non_exhaustive]
pub struct Counts {
    /// The records, each eight numbers at the front of the table.
    pub records: usize,
    /// The variables, all copies of groups counted.
    pub variables: u64,
}

/// Plans a text: its records then stand at the front of the table, and the rest of the table is as it was. A refusal leaves all of it.
///
/// The content of the text ends at its first zero byte, which must stand at 65,535 or earlier. A table of [`MOST_NUMBERS`](crate::MOST_NUMBERS) has
/// room for every description; a shorter one may be refused with [`TableTooShort`](crate::Cause::TableTooShort).
pub fn plan(text: &[u8], table: &mut [i64]) -> Result<Counts, Refusal> {
    calls::plan(text, table)
}

/// Is the table exactly the one planned from the text? Then the answer is the end of its content, the place of its first zero; else it is the text's
/// refusal, or [`NotAPlan`](crate::Cause::NotAPlan).
pub fn check(text: &[u8], table: &[i64]) -> Result<usize, Refusal> {
    calls::check(text, table)
}

/// Is the table a plan? A [`Table`](crate::Table) remembers that it is.
///
/// ```
/// use planksling::lent::is_plan;
///
/// assert!(is_plan(&[]));
/// assert!(is_plan(&[1, 22, 0, 253, 1, 1, 0, 0]));
/// assert!(!is_plan(&[1, 22, 0, 256, 1, 1, 0, 0]));
/// ```
pub fn is_plan(table: &[i64]) -> bool {
    calls::check_plan(table).is_ok()
}

/// Variable n of a table; or [`NotAPlan`](crate::Cause::NotAPlan), [`NoVariable`](crate::Cause::NoVariable).
pub fn locate(table: &[i64], n: u64) -> Result<Variable, Refusal> {
    calls::locate(table, n)
}

/// Lists the variables n, n + 1, .. of a table, as many as there is room for or remain, and answers how many; or [`NotAPlan`](crate::Cause::NotAPlan).
/// Each is told by five numbers: record, space, address, size and kind.
///
/// ```
/// use planksling::lent::{list, plan};
///
/// # let text = concat!(include_str!(concat!(env!("CARGO_MANIFEST_DIR"), "/../samples/worked.xml")), "\0").as_bytes();
/// let mut table = [0; 48];
/// plan(text, &mut table)?;
/// let mut out = [[0; 5]; 3];
/// assert_eq!(list(&table, 6, &mut out)?, 2);
/// assert_eq!(out, [[4, 253, 156, 2, 3], [5, 253, 158, 10, 4], [0; 5]]);
/// # Ok::<(), planksling::Refusal>(())
/// ```
pub fn list(table: &[i64], n: u64, out: &mut [[u64; LISTED]]) -> Result<usize, Refusal> {
    calls::list(table, n, out)
}

/// Writes a value to variable n, as [`Description::write`](crate::Description::write) does. The table is exactly the records planned from the text.
///
/// Before its refusals come those of the text, and [`NotAPlan`](crate::Cause::NotAPlan) for another table.
pub fn write<'v, B: AsMut<[u8]>>(
    text: &[u8],
    table: &[i64],
    n: u64,
    window: &mut Window<B>,
    value: impl Into<Value<'v>>,
) -> Result<(), Refusal> {
    calls::write(text, table, n, window.view_mut(), &value.into())
}

/// Reads variable n, as [`Description::read`](crate::Description::read) does. The table is exactly the records planned from the text.
///
/// Before its refusals come those of the text, and [`NotAPlan`](crate::Cause::NotAPlan) for another table.
pub fn read<'w, B: AsRef<[u8]>>(
    text: &[u8],
    table: &[i64],
    n: u64,
    window: &'w Window<B>,
) -> Result<Reading<'w>, Refusal> {
    calls::read(text, table, n, window.view())
}

/// Writes a value to variable n so that it can be taken back, as [`Session::edit`](crate::Session::edit) does. The table is exactly the records planned
/// from the text; `session` is how many edits stand, 0 at first, and an accepted edit adds one.
///
/// Before its refusals come those of the text, and [`NotAPlan`](crate::Cause::NotAPlan) for another table.
pub fn edit<'v, B: AsMut<[u8]>>(
    text: &[u8],
    table: &[i64],
    n: u64,
    window: &mut Window<B>,
    journal: &mut [u8],
    session: &mut u64,
    value: impl Into<Value<'v>>,
) -> Result<(), Refusal> {
    calls::edit(text, table, n, window.view_mut(), journal, session, &value.into())
}

/// Takes the latest edit back, as [`Session::undo`](crate::Session::undo) does. What it takes back is right where text, table, window and journal are those
/// of the edits, `session` is what the last call left, and nothing else has written to these; any others may be handed in.
///
/// Before its refusals come those of the text, and [`NotAPlan`](crate::Cause::NotAPlan) for another table.
pub fn undo<B: AsMut<[u8]>>(
    text: &[u8],
    table: &[i64],
    window: &mut Window<B>,
    journal: &[u8],
    session: &mut u64,
) -> Result<(), Refusal> {
    calls::undo(text, table, window.view_mut(), journal, session)
}
