//! Sessions: edits that can be taken back.

use crate::limits::JOURNAL_ROOM;
use crate::{Description, Reading, Refusal, Value, Window};
use std::fmt;

/// Edits of one window that can be taken back, the latest first.
///
/// It keeps up to 64 accepted edits ([`MOST_EDITS`](crate::MOST_EDITS)) with the bytes that they replaced, in a journal of up to 65,536 bytes. After any
/// mix of edits and undos, refused ones included, the window holds what the edits that still stand would alone have made of the window at the opening.
/// That is proved of the library where each call gets the same description, window and journal, and nothing else writes to them. A session owns window
/// and journal and borrows the description, so nothing else can: they are lent for reading meanwhile, and given back at its end.
///
/// ```
/// use planksling::{Cause, Description, Session, Window};
///
/// # let text = include_str!(concat!(env!("CARGO_MANIFEST_DIR"), "/../samples/worked.xml"));
/// let description: Description = text.parse()?;
/// let mut session = Session::open(&description, Window::new(253, 128, vec![0; 40]));
/// session.edit(4, 300)?;
/// session.edit(7, "Track 1")?;
/// session.edit(4, 301)?;
/// assert_eq!(session.standing(), 3);
///
/// session.undo()?;
/// assert_eq!(session.read(4)?.value, 300.into());
/// session.undo()?;
/// session.undo()?;
/// assert_eq!(session.undo().unwrap_err().cause, Cause::NothingToUndo);
/// assert_eq!(session.into_window().bytes, [0; 40]);
/// # Ok::<(), planksling::Refusal>(())
/// ```
#[derive(Clone, PartialEq, Eq)]
pub struct Session<'d> {
    description: &'d Description,
    window: Window<Vec<u8>>,
    journal: Vec<u8>,
    standing: u64,
}

/// An entry of a journal: which variable was edited, and the bytes that it had before. Later versions may tell more of it.
#[derive(Clone, Copy, Debug, PartialEq, Eq, Hash)]
#[non_exhaustive]
pub struct Entry<'s> {
    /// The variable's number.
    pub number: u64,
    /// Its bytes before the edit.
    pub old: &'s [u8],
}

impl<'d> Session<'d> {
    /// Opens a session on this window, with a journal of all the bytes that can be used, [`JOURNAL_ROOM`].
    pub fn open(description: &'d Description, window: Window<Vec<u8>>) -> Session<'d> {
        Session::with_journal(description, window, vec![0; JOURNAL_ROOM])
    }

    /// Opens a session on this window, with this journal. Its bytes may be any; its length is the room that there is, up to [`JOURNAL_ROOM`]. An edit
    /// needs 8 bytes and the variable's size.
    ///
    /// ```
    /// use planksling::{Cause, Description, Session, Window};
    ///
    /// # let text = include_str!(concat!(env!("CARGO_MANIFEST_DIR"), "/../samples/worked.xml"));
    /// let description: Description = text.parse()?;
    /// // room for one int of 2 bytes
    /// let mut session = Session::with_journal(&description, Window::new(253, 128, vec![0; 40]), vec![0; 10]);
    /// session.edit(4, 300)?;
    /// assert_eq!(session.edit(4, 301).unwrap_err().cause, Cause::JournalFull);
    /// assert_eq!(session.read(4)?.value, 300.into());
    /// # Ok::<(), planksling::Refusal>(())
    /// ```
    pub fn with_journal(description: &'d Description, window: Window<Vec<u8>>, journal: Vec<u8>) -> Session<'d> {
        Session::reopen(description, window, journal, 0)
    }

    /// Goes on with a session that was put away: window, journal and number of standing edits are those of [`into_parts`](Session::into_parts).
    ///
    /// Others may be handed in, whatever they are. Then each call still accepts or is refused as it says, and [`undo`](Session::undo) is refused with
    /// [`BadEntry`](crate::Cause::BadEntry) where the latest entry doesn't fit; but an entry that fits and is of another window is taken back all the
    /// same, and what the window then holds is not promised.
    ///
    /// ```
    /// use planksling::{Cause, Description, Session, Window};
    ///
    /// # let text = include_str!(concat!(env!("CARGO_MANIFEST_DIR"), "/../samples/worked.xml"));
    /// let description: Description = text.parse()?;
    /// let mut session = Session::open(&description, Window::new(253, 128, vec![0; 40]));
    /// session.edit(4, 300)?;
    /// let (window, journal, standing) = session.into_parts();
    ///
    /// let mut session = Session::reopen(&description, window, journal, standing);
    /// session.undo()?;
    /// assert_eq!(session.read(4)?.value, 0.into());
    ///
    /// let mut other = Session::reopen(&description, session.into_window(), b"no journal".to_vec(), 1);
    /// assert_eq!(other.undo().unwrap_err().cause, Cause::BadEntry);
    /// # Ok::<(), planksling::Refusal>(())
    /// ```
    pub fn reopen(
        description: &'d Description,
        window: Window<Vec<u8>>,
        journal: Vec<u8>,
        standing: u64,
    ) -> Session<'d> {
        Session { description, window, journal, standing }
    }

    /// Writes a value to variable n, so that it can be taken back. A value that is there already is an edit too.
    ///
    /// Refusals are those of [`Description::write`], and behind them [`JournalFull`](crate::Cause::JournalFull): 64 edits stand, or the journal has no
    /// room for 8 bytes and the variable's size. A refused edit changes nothing.
    pub fn edit<'v>(&mut self, n: u64, value: impl Into<Value<'v>>) -> Result<(), Refusal> {
        let window = self.window.view_mut();
        self.description.planned().edit(n, window, &mut self.journal, &mut self.standing, &value.into())
    }

    /// Takes the latest edit back: its variable has its old bytes again, and no other byte of the window changes.
    ///
    /// Refused with [`NothingToUndo`](crate::Cause::NothingToUndo) where no edit stands. In a session that was [reopened](Session::reopen) with a
    /// journal of something else also with [`BadEntry`](crate::Cause::BadEntry). A refused undo changes nothing.
    pub fn undo(&mut self) -> Result<(), Refusal> {
        self.description.planned().undo(self.window.view_mut(), &self.journal, &mut self.standing)
    }

    /// Reads variable n from the window, as [`Description::read`] does.
    pub fn read(&self, n: u64) -> Result<Reading<'_>, Refusal> {
        self.description.read(n, &self.window)
    }

    /// How many edits stand: so many can be taken back.
    pub fn standing(&self) -> u64 {
        self.standing
    }

    /// The latest edit that stands, which [`undo`](Session::undo) would take back. There is none where no edit stands, or where it doesn't lie in the
    /// journal.
    ///
    /// ```
    /// use planksling::{Description, Session, Window};
    ///
    /// # let text = include_str!(concat!(env!("CARGO_MANIFEST_DIR"), "/../samples/worked.xml"));
    /// let description: Description = text.parse()?;
    /// let mut session = Session::open(&description, Window::new(253, 128, vec![0xEE; 40]));
    /// assert_eq!(session.latest(), None);
    /// session.edit(4, 300)?;
    /// let entry = session.latest().expect("an edit");
    /// assert_eq!((entry.number, entry.old), (4, &[0xEE, 0xEE][..]));
    /// # Ok::<(), planksling::Refusal>(())
    /// ```
    pub fn latest(&self) -> Option<Entry<'_>> {
        let mut rest = &self.journal[..self.journal.len().min(JOURNAL_ROOM)];
        let mut latest = None;
        for _ in 0..self.standing {
            let (entry, behind) = first(rest)?;
            (latest, rest) = (Some(entry), behind);
        }
        latest
    }

    /// The description that it is about.
    pub fn description(&self) -> &'d Description {
        self.description
    }

    /// The window as it is now.
    pub fn window(&self) -> &Window<Vec<u8>> {
        &self.window
    }

    /// The journal as it is now.
    pub fn journal(&self) -> &[u8] {
        &self.journal
    }

    /// Ends the session and gives the window back: the edits that stand stay.
    pub fn into_window(self) -> Window<Vec<u8>> {
        self.window
    }

    /// Puts the session away: window, journal, and how many edits stand. [`reopen`](Session::reopen) goes on with them.
    pub fn into_parts(self) -> (Window<Vec<u8>>, Vec<u8>, u64) {
        (self.window, self.journal, self.standing)
    }
}

/// The entry at the front of these bytes, and what is behind it: number and size, four bytes each with the highest first, then the old bytes.
fn first(bytes: &[u8]) -> Option<(Entry<'_>, &[u8])> {
    let (number, behind) = bytes.split_first_chunk()?;
    let (size, behind) = behind.split_first_chunk()?;
    let (old, behind) = behind.split_at_checked(u32::from_be_bytes(*size) as usize)?;
    Some((Entry { number: u32::from_be_bytes(*number).into(), old }, behind))
}

/// How many edits stand and what lengths there are: the bytes themselves are many.
impl fmt::Debug for Session<'_> {
    fn fmt(&self, f: &mut fmt::Formatter<'_>) -> fmt::Result {
        f.debug_struct("Session")
            .field("standing", &self.standing)
            .field("window", &self.window.bytes.len())
            .field("journal", &self.journal.len())
            .finish_non_exhaustive()
    }
}
