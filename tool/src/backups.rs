//! Backups: a window's file stored in blocks, given back, and inspected.

use crate::commands::counted;
use crate::ending::Ending;
use crate::json::Object;
use crate::output::Output;
use crate::refused::Refused;
use crate::report::Report;
use crate::window_file::{self, name, Most, BACKUP, WINDOW};
use planksling_backup::{self as library, Cause, Refusal, BLOCK};
use std::path::Path;

/// How much is stored: the bytes of a window, and of which space they are.
fn amount(length: usize, space: u64) -> String {
    format!("{} of space {space}", counted(length as u64, "byte"))
}

/// The same with the blocks that hold it.
pub fn amount_in_blocks(length: usize, space: u64, blocks: usize) -> String {
    format!("{} in {}", amount(length, space), counted(blocks as u64, "block"))
}

/// A file with what it holds, for a program.
pub fn object(file: &Path, length: usize, space: u64) -> Object {
    Object::new().text("file", &file.to_string_lossy()).plain("space", space).plain("length", length)
}

fn refused(file: &Path, cause: Cause, block: Option<usize>, notes: Vec<String>) -> Refused {
    Refused::of_a_backup(&file.to_string_lossy(), cause, block, notes)
}

pub fn store(window: &Path, backup: &Path, space: u64, json: bool, output: &mut Output) -> Result<(), Ending> {
    let bytes = window_file::read(window, &WINDOW)?;
    let stored = library::store(space, &bytes).map_err(|refusal| {
        let held = format!("The window's file has {}.", amount(bytes.len(), space));
        Ending::Refused(Box::new(refused(window, refusal.cause, None, vec![held])))
    })?;
    let is_new = put(backup, &BACKUP, window, &stored, |old| match library::read(old) {
        Ok(_) => None,
        Err(_) => Some("is no good backup".to_string()),
    })?;
    let blocks = stored.len() / BLOCK;
    if json {
        let object = object(backup, bytes.len(), space).plain("blocks", blocks).plain("changed", is_new);
        return output.line(&object.finish());
    }
    let done = if is_new { "stored" } else { "unchanged" };
    output.line(&format!("{}: {done}, {}", name(backup), amount_in_blocks(bytes.len(), space, blocks)))
}

pub fn restore(backup: &Path, window: &Path, json: bool, output: &mut Output) -> Result<(), Ending> {
    let stored = window_file::read(backup, &BACKUP)?;
    let library::Window { space, bytes } = library::read(&stored).map_err(|refusal| {
        let mut notes = notes(&stored, refusal);
        notes.push("`planksling inspect` tells of each block.".to_string());
        Ending::Refused(Box::new(refused(backup, refusal.cause, block(refusal), notes)))
    })?;
    let is_new = put(window, &WINDOW, backup, &bytes, |old| {
        (old.len() != bytes.len()).then(|| format!("has {}, not {}", counted(old.len() as u64, "byte"), bytes.len()))
    })?;
    if json {
        return output.line(&object(window, bytes.len(), space).plain("changed", is_new).finish());
    }
    let done = if is_new { "restored" } else { "unchanged" };
    output.line(&format!("{}: {done}, {}", name(window), amount(bytes.len(), space)))
}

pub fn inspect(backup: &Path, json: bool, output: &mut Output) -> Result<(), Ending> {
    let stored = window_file::read(backup, &BACKUP)?;
    let answer = library::read(&stored).map_err(|refusal| {
        let notes = notes(&stored, refusal);
        refused(backup, refusal.cause, block(refusal), notes)
    });
    let is_good = answer.is_ok();
    let report = Report { file: backup, stored: &stored, answer };
    match report.tell(json, output).and_then(|()| output.flush()) {
        // a bad backup stays one, whoever reads that
        Ok(()) | Err(Ending::ReaderGone) if !is_good => Err(Ending::BadBackup),
        told => told,
    }
}

/// The block that a refusal is about.
fn block(Refusal { cause, place }: Refusal) -> Option<usize> {
    matches!(cause, Cause::BadCheck | Cause::BadField).then_some(place)
}

/// What a backup's bytes tell of its refusal.
fn notes(stored: &[u8], refusal: Refusal) -> Vec<String> {
    let blocks = library::inspect(stored);
    match block(refusal).and_then(|position| blocks.clone().nth(position)) {
        Some(block) => block.faults().iter().map(|fault| sentence(&fault.to_string())).collect(),
        None if stored.is_empty() => vec!["The file is empty.".to_string()],
        None => {
            let (whole, rest) = (counted(blocks.len() as u64, "block"), counted(blocks.rest().len() as u64, "byte"));
            vec![format!("The file has {} bytes: {whole} and {rest}.", stored.len())]
        }
    }
}

/// Words as a sentence of their own.
fn sentence(words: &str) -> String {
    let (first, rest) = words.split_at(1);
    format!("{}{rest}.", first.to_uppercase())
}

/// Puts these bytes into a file, if it hasn't them already: was that so? A new file gets the owner and the permissions of the other one. One that is there
/// and holds something is replaced where nothing speaks against its bytes.
fn put(
    file: &Path,
    most: &Most,
    like: &Path,
    bytes: &[u8],
    against: impl Fn(&[u8]) -> Option<String>,
) -> Result<bool, Ending> {
    let Some(old) = window_file::read_if_there(file, most)? else {
        return window_file::make(file, like, bytes).map(|()| true);
    };
    if old == bytes {
        return Ok(false);
    }
    if let Some(why) = against(&old).filter(|_| !old.is_empty()) {
        let file = name(file);
        return Err(Ending::NoFile(format!("{file} is there and {why}\nRemove it, or name another file.")));
    }
    window_file::replace(file, bytes).map(|()| true)
}
