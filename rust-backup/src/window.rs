//! Windows into backups and back.

use crate::calls;
use crate::{Refusal, BLOCK, MOST, PAYLOAD};

/// The bytes of a window that was read back, and the space that they are of. Its first address isn't stored.
#[derive(Clone, Debug, PartialEq, Eq, Hash)]
pub struct Window {
    /// Whose bytes they are: 0 to 255.
    pub space: u64,
    /// The bytes.
    pub bytes: Vec<u8>,
}

/// What was read back into a lent output. Later versions may tell more.
#[derive(Clone, Copy, Debug, PartialEq, Eq, Hash)]
#[non_exhaustive]
pub struct Restored {
    /// The space of the window: 0 to 255.
    pub space: u64,
    /// How many bytes the window has. They stand at the front of the output.
    pub length: usize,
}

/// The bytes of the backup of a window with so many: a block for each 502, rounded up.
///
/// ```
/// use planksling_backup::room;
///
/// assert_eq!([1, 502, 503].map(room), [512, 512, 1024]);
/// ```
pub const fn room(length: usize) -> usize {
    length.div_ceil(PAYLOAD).saturating_mul(BLOCK)
}

/// Stores a window of this space. Its backup; or [`NotStorable`](crate::Cause::NotStorable).
///
/// ```
/// use planksling_backup::store;
///
/// let backup = store(253, b"abc")?;
/// assert_eq!(backup.len(), 512);
/// assert_eq!(backup[..12], [0, 0, 0, 0, 0, 3, 253, 1, b'a', b'b', b'c', 0]);
/// # Ok::<(), planksling_backup::Refusal>(())
/// ```
pub fn store(space: u64, window: &[u8]) -> Result<Vec<u8>, Refusal> {
    // what is refused for its length needs no room
    let room = if window.len() as u64 <= MOST { room(window.len()) } else { 0 };
    let mut backup = vec![0; room];
    let stored = store_into(space, window, &mut backup)?;
    backup.truncate(stored);
    Ok(backup)
}

/// Stores a window of this space at the front of the output, and answers how many bytes its backup has; what is behind it is as it was.
///
/// Or [`NotStorable`](crate::Cause::NotStorable), then [`NoRoom`](crate::Cause::NoRoom): the output is shorter than [`room`] tells. A refusal leaves all of
/// it.
pub fn store_into(space: u64, window: &[u8], output: &mut [u8]) -> Result<usize, Refusal> {
    calls::store(space, window, output)
}

/// Reads a backup. The window that was stored; or [`NotWhole`](crate::Cause::NotWhole), then the first bad block, with
/// [`BadCheck`](crate::Cause::BadCheck) or [`BadField`](crate::Cause::BadField).
pub fn read(backup: &[u8]) -> Result<Window, Refusal> {
    let mut bytes = vec![0; backup.len() / BLOCK * PAYLOAD];
    let Restored { space, length } = read_into(backup, &mut bytes)?;
    bytes.truncate(length);
    Ok(Window { space, bytes })
}

/// Reads a backup: the window's bytes then stand at the front of the output, and what is behind them is as it was.
///
/// Or the refusals of [`read`], then [`NoRoom`](crate::Cause::NoRoom): the output is shorter than the window. A refusal leaves all of it.
///
/// ```
/// use planksling_backup::{read_into, store, Cause};
///
/// let backup = store(253, b"abc")?;
/// let mut output = *b".....";
/// assert_eq!(read_into(&backup, &mut output[..2]).unwrap_err().cause, Cause::NoRoom);
/// let restored = read_into(&backup, &mut output)?;
/// assert_eq!((restored.space, restored.length, &output), (253, 3, b"abc.."));
/// # Ok::<(), planksling_backup::Refusal>(())
/// ```
pub fn read_into(backup: &[u8], output: &mut [u8]) -> Result<Restored, Refusal> {
    calls::read(backup, output)
}
