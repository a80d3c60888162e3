//! The file that holds a journal: what is needed to go on with a session, and to tell whether it belongs to a description and a window.
//!
//! Its bytes are the line `planksling journal 1`; then numbers of eight bytes, the highest first: the fingerprint of the description's text, space and
//! first address of the window, how many edits stand, and for each count of them from 0 on the fingerprint of the window, its space and its first
//! address when so many stood; then the journal itself without the zeros at its end.
//!
//! An edit writes this file first and then the window's; an undo writes the window's first. So a crash in between leaves in both cases a window that
//! lacks the latest edit of the journal, which its fingerprint tells, and that edit doesn't stand.

use crate::ending::Ending;
use crate::window_file::{self, name};
use planksling::{Description, Session, Window, JOURNAL_ROOM, MOST_EDITS};
use std::fs::File;
use std::io::{self, Read};
use std::path::Path;

/// The first line.
const LINE: &[u8] = b"planksling journal 1\n";

/// The most bytes that such a file has.
const MOST: usize = LINE.len() + 8 * (4 + 1 + MOST_EDITS as usize) + JOURNAL_ROOM;

pub struct JournalFile {
    /// The fingerprint of the description's text.
    text: u64,
    pub space: u64,
    pub first: u64,
    /// The fingerprints of the window, at the opening and behind each edit that stands.
    windows: Vec<u64>,
    journal: Vec<u8>,
}

/// A number that tells bytes from most others (FNV-1a). A single byte that differs is always told.
fn fingerprint<'b>(bytes: impl IntoIterator<Item = &'b u8>) -> u64 {
    let step = |print: u64, &byte: &u8| (print ^ u64::from(byte)).wrapping_mul(0x0100_0000_01B3);
    bytes.into_iter().fold(0xCBF2_9CE4_8422_2325, step)
}

/// The fingerprint of a window: of space, first address and bytes.
fn of_window(space: u64, first: u64, bytes: &[u8]) -> u64 {
    fingerprint(space.to_be_bytes().iter().chain(&first.to_be_bytes()).chain(bytes))
}

/// Takes a number from the front of these bytes.
fn number(bytes: &mut &[u8]) -> Option<u64> {
    let (number, rest) = bytes.split_first_chunk()?;
    *bytes = rest;
    Some(u64::from_be_bytes(*number))
}

impl JournalFile {
    /// A journal without edits.
    pub fn new(description: &Description, window: &Window<Vec<u8>>) -> JournalFile {
        JournalFile {
            text: fingerprint(description.text().as_bytes()),
            space: window.space,
            first: window.first,
            windows: vec![of_window(window.space, window.first, &window.bytes)],
            journal: vec![0; JOURNAL_ROOM],
        }
    }

    /// The journal in this file, if there is the file.
    pub fn read(file: &Path) -> Result<Option<JournalFile>, Ending> {
        let mut bytes = vec![];
        let read = File::open(file).and_then(|open| open.take(MOST as u64 + 1).read_to_end(&mut bytes));
        match read {
            Err(error) if error.kind() == io::ErrorKind::NotFound => Ok(None),
            Err(error) => Err(Ending::unreadable(&name(file), &error)),
            Ok(_) => match JournalFile::parsed(&bytes) {
                Some(journal) => Ok(Some(journal)),
                None => Err(Ending::NoFile(format!("{} is no journal of this tool", name(file)))),
            },
        }
    }

    fn parsed(bytes: &[u8]) -> Option<JournalFile> {
        let mut rest = bytes.strip_prefix(LINE)?;
        let (text, space, first) = (number(&mut rest)?, number(&mut rest)?, number(&mut rest)?);
        let standing = number(&mut rest).filter(|&standing| standing <= MOST_EDITS)?;
        let windows: Vec<u64> = (0..=standing).map(|_| number(&mut rest)).collect::<Option<_>>()?;
        if JOURNAL_ROOM < rest.len() {
            return None;
        }
        let mut journal = rest.to_vec();
        journal.resize(JOURNAL_ROOM, 0);
        Some(JournalFile { text, space, first, windows, journal })
    }

    fn bytes(&self) -> Vec<u8> {
        let standing = self.windows.len() as u64 - 1;
        let numbers = [self.text, self.space, self.first, standing];
        let numbers = numbers.iter().chain(&self.windows).flat_map(|number| number.to_be_bytes());
        let end = self.journal.iter().rposition(|&byte| byte != 0).map_or(0, |last| last + 1);
        LINE.iter().copied().chain(numbers).chain(self.journal[..end].iter().copied()).collect()
    }

    /// Is it of this description's text?
    pub fn is_of(&self, description: &Description) -> bool {
        self.text == fingerprint(description.text().as_bytes())
    }

    /// Is the window as the edits that stand left it? Where it is as it was before the latest one, a call was interrupted between the two files, and
    /// that edit doesn't stand: it is dropped.
    pub fn fits(&mut self, window: &[u8]) -> Fit {
        let print = of_window(self.space, self.first, window);
        match self.windows[..] {
            [.., last] if last == print => Fit::Good,
            [.., before, _] if before == print => {
                self.windows.pop();
                Fit::Interrupted
            }
            _ => Fit::Foreign,
        }
    }

    /// The session over this window, as the journal left it.
    pub fn session<'d>(&self, description: &'d Description, window: Vec<u8>) -> Session<'d> {
        let window = Window::new(self.space, self.first, window);
        Session::reopen(description, window, self.journal.clone(), self.windows.len() as u64 - 1)
    }

    /// Notes an edit that the session has made.
    pub fn edited(&mut self, session: &Session<'_>) {
        self.windows.push(of_window(self.space, self.first, &session.window().bytes));
        self.journal = session.journal().to_vec();
    }

    /// Notes that the session has taken the latest edit back. False where the window isn't what it was before that edit: then the journal is damaged.
    pub fn undone(&mut self, session: &Session<'_>) -> bool {
        self.windows.pop();
        self.windows.last() == Some(&of_window(self.space, self.first, &session.window().bytes))
    }

    /// Puts it into its file. A new one gets the owner and the permissions of the window's.
    pub fn write(&self, file: &Path, is_new: bool, window: &Path) -> Result<(), Ending> {
        match is_new {
            true => window_file::make(file, window, &self.bytes()),
            false => window_file::replace(file, &self.bytes()),
        }
    }
}

/// How a journal and a window go together.
#[derive(Clone, Copy, Debug, PartialEq, Eq)]
pub enum Fit {
    Good,
    Interrupted,
    Foreign,
}

#[cfg(test)]
mod tests {
    use super::*;

    fn journal() -> JournalFile {
        JournalFile { text: 1, space: 253, first: 2, windows: vec![3, 4], journal: vec![0; JOURNAL_ROOM] }
    }

    #[test]
    fn written_and_read() {
        let mut kept = journal();
        for used in [0, 1, 10, JOURNAL_ROOM] {
            kept.journal[..used].fill(7);
            let bytes = kept.bytes();
            assert_eq!(bytes.len(), LINE.len() + 6 * 8 + used);
            let read = JournalFile::parsed(&bytes).expect("a journal");
            assert_eq!((read.text, read.space, read.first, &read.windows), (1, 253, 2, &vec![3, 4]));
            assert_eq!((read.journal == kept.journal, read.bytes()), (true, bytes));
        }
        let mut most = journal();
        most.windows = vec![9; 65];
        most.journal.fill(1);
        assert_eq!(most.bytes().len(), MOST);
        assert!(JournalFile::parsed(&most.bytes()).is_some());
    }

    #[test]
    fn what_is_no_journal() {
        let bytes = journal().bytes();
        for length in 0..bytes.len() {
            assert!(JournalFile::parsed(&bytes[..length]).is_none(), "{length}");
        }
        let mut longer = bytes.clone();
        longer.resize(bytes.len() + JOURNAL_ROOM, 1);
        assert!(JournalFile::parsed(&longer).is_some());
        longer.push(1);
        assert!(JournalFile::parsed(&longer).is_none());
        // more edits than can stand
        let mut many = journal();
        many.windows = vec![9; 66];
        assert!(JournalFile::parsed(&many.bytes()).is_none());
        let standing = LINE.len() + 3 * 8;
        for byte in 1..=255 {
            let mut other = bytes.clone();
            other[standing] = byte;
            assert!(JournalFile::parsed(&other).is_none());
        }
    }

    #[test]
    fn fitting() {
        let windows: [&[u8]; 3] = [b"one", b"two", b"three"];
        let kept = || JournalFile { windows: windows.map(|bytes| of_window(253, 2, bytes)).to_vec(), ..journal() };
        let fit = |window: &[u8]| {
            let mut kept = kept();
            (kept.fits(window), kept.windows.len())
        };
        assert_eq!(fit(b"three"), (Fit::Good, 3));
        assert_eq!(fit(b"two"), (Fit::Interrupted, 2));
        assert_eq!(fit(b"one"), (Fit::Foreign, 3));
        assert_eq!(fit(b"thre"), (Fit::Foreign, 3));
        // an edit that changed nothing stands
        let mut same = kept();
        same.windows.push(of_window(253, 2, b"three"));
        assert_eq!((same.fits(b"three"), same.windows.len()), (Fit::Good, 4));
        // space and first address count
        for (space, first) in [(252, 2), (253, 3)] {
            assert_eq!(JournalFile { space, first, ..kept() }.fits(b"three"), Fit::Foreign);
        }
    }

    /// Every change of a single byte shows.
    #[test]
    fn fingerprints() {
        let bytes = *b"0123456789";
        for at in 0..bytes.len() {
            for byte in (0..=255).filter(|&byte| byte != bytes[at]) {
                let mut other = bytes;
                other[at] = byte;
                assert_ne!(fingerprint(&other), fingerprint(&bytes));
            }
        }
        assert_ne!(fingerprint(b"\0"), fingerprint(b"\0\0"));
        assert_eq!(fingerprint(b""), 0xCBF2_9CE4_8422_2325);
        assert_eq!(fingerprint(b"a"), 0xAF63_DC4C_8601_EC8C);
    }
}
