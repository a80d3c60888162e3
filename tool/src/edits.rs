//! Edits that can be taken back, over a window's file and a journal's.

use crate::arguments::Memory;
use crate::commands::{holds, told, Setting};
use crate::description_file::DescriptionFile;
use crate::ending::Ending;
use crate::journal_file::{Fit, JournalFile};
use crate::json::Object;
use crate::output::Output;
use crate::refused::{Held, Refused};
use crate::values;
use crate::window_file::{self, name, WINDOW};
use planksling::{Description, Refusal, Session};
use std::ffi::OsStr;
use std::io::Write;
use std::path::Path;

/// The two files of a session.
pub struct Files<'a> {
    pub window: &'a Path,
    pub journal: &'a Path,
}

impl Files<'_> {
    /// The journal, if it is of this description and this window. An edit that a call before couldn't finish is dropped, and that is noted.
    fn joined(&self, mut kept: JournalFile, of: &Description, window: &[u8]) -> Result<JournalFile, Ending> {
        let (journal, file) = (name(self.journal), name(self.window));
        if !kept.is_of(of) {
            return Err(Ending::NoFile(format!(
                "{journal} is the journal of another description, or of another version of this one"
            )));
        }
        match kept.fits(window) {
            Fit::Good => {}
            Fit::Interrupted => {
                let note = format!("planksling: the latest edit in {journal} is not in {file}, and doesn't stand\n");
                let _ = std::io::stderr().write_all(note.as_bytes());
            }
            Fit::Foreign => {
                return Err(Ending::NoFile(format!(
                    "{journal} doesn't belong to {file}, or something else has written to that since the last edit\n\
                     Remove {journal} to begin a new one; its edits then stay."
                )))
            }
        }
        Ok(kept)
    }

    /// Is the journal that of the window which is told? What isn't told is as the journal has it.
    fn suits(&self, kept: &JournalFile, memory: &Memory) -> Result<(), Ending> {
        let JournalFile { space, first, .. } = *kept;
        if memory.space.unwrap_or(space) == space && memory.first.unwrap_or(first) == first {
            return Ok(());
        }
        let journal = name(self.journal);
        Err(Ending::NoFile(format!("{journal} is the journal of a window of space {space}, from {first} on")))
    }
}

/// How many edits stand, in words.
fn stand(standing: u64) -> String {
    match standing {
        0 => "no edit stands".to_string(),
        1 => "1 edit stands".to_string(),
        _ => format!("{standing} edits stand"),
    }
}

/// An edit that is refused.
fn refused(setting: &Setting, session: &Session<'_>, refusal: Refusal) -> Ending {
    let Setting { file, description, variable } = setting;
    let refused = Refused::of_the_variable(file, description, *variable, Held::of(session.window()), refusal);
    Ending::Refused(Box::new(refused.beside_edits(session.standing())))
}

pub fn edit(
    setting: &Setting,
    word: &str,
    memory: &Memory,
    journal: &Path,
    json: bool,
    output: &mut Output,
) -> Result<(), Ending> {
    let files = Files { window: &memory.file, journal };
    let window = setting.window(memory)?;
    let found = JournalFile::read(journal)?;
    let is_first = found.is_none();
    let mut kept = match found {
        None => JournalFile::new(&setting.description, &window),
        Some(kept) => {
            files.suits(&kept, memory)?;
            files.joined(kept, &setting.description, &window.bytes)?
        }
    };
    let old = window.bytes;
    let mut session = kept.session(&setting.description, old.clone());
    let (number, value) = (setting.variable.number, values::value(setting.variable.kind, word));
    session.edit(number, &value).map_err(|refusal| refused(setting, &session, refusal))?;
    let changed = session.window().bytes != old;
    if changed {
        window_file::can_be_replaced(files.window)?;
    }
    // the journal first: what the window had is kept before it is gone
    kept.edited(&session);
    kept.write(journal, is_first, files.window)?;
    if changed {
        window_file::replace(files.window, &session.window().bytes)?;
    }
    let standing = session.standing();
    if json {
        let object = setting.object(&value).plain("changed", changed).plain("standing", standing);
        return output.line(&object.finish());
    }
    output.line(&format!("{}; {}", holds(number, &value, changed), stand(standing)))
}

pub fn undo(file: &OsStr, files: &Files<'_>, json: bool, output: &mut Output) -> Result<(), Ending> {
    let file = DescriptionFile::read(file)?;
    let description = file.plan()?;
    let old = window_file::read(files.window, &WINDOW)?;
    let journal = name(files.journal);
    let Some(kept) = JournalFile::read(files.journal)? else {
        return Err(Ending::NoFile(format!("{journal} can't be read: there is no such file")));
    };
    let mut kept = files.joined(kept, &description, &old)?;
    let mut session = kept.session(&description, old.clone());
    let number = session.latest().map(|entry| entry.number);
    let undone = session.undo();
    undone.map_err(|refusal| Ending::Refused(Box::new(Refused::of_the_journal(&file, &session, refusal))))?;
    if !kept.undone(&session) {
        return Err(Ending::NoFile(format!("{journal} is damaged: what it has kept isn't what the window had")));
    }
    // the window first: an edit that is in the window and not in the journal could never be taken back
    let changed = session.window().bytes != old;
    window_file::can_be_replaced(files.journal)?;
    if changed {
        window_file::replace(files.window, &session.window().bytes)?;
    }
    kept.write(files.journal, false, files.window)?;
    tell_undone(&session, number, changed, json, output)
}

/// Tells what the variable of an accepted undo holds again.
fn tell_undone(
    session: &Session<'_>,
    number: Option<u64>,
    changed: bool,
    json: bool,
    output: &mut Output,
) -> Result<(), Ending> {
    let variable = number.and_then(|number| session.description().variable(number).ok());
    // That the entry is of a variable is proved of the library.
    let variable = variable.expect("an accepted undo is of a variable");
    let standing = session.standing();
    // old bytes need not be a value that can be read
    let value = session.read(variable.number).ok().map(|reading| reading.value);
    if json {
        let object = Object::new().plain("number", variable.number).text("kind", variable.kind.name());
        let object = match &value {
            Some(value) => object.text("value", &value.to_string()),
            None => object,
        };
        return output.line(&object.plain("changed", changed).plain("standing", standing).finish());
    }
    let again = value.map_or_else(|| "has its old bytes".to_string(), |value| format!("is {}", told(&value)));
    output.line(&format!("variable {} {again} again; {}", variable.number, stand(standing)))
}
