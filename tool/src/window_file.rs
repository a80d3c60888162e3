//! The file that holds a window: one space of a node's memory, from some address on. Backups are kept in the same way.
//!
//! It is replaced as a whole or not at all. The new bytes go into a file beside it, and only when they are on the disk that file takes the name; so a
//! crash leaves the old bytes or the new ones under it.

use crate::ending::{reason, Ending};
use crate::safe::shown;
use planksling_backup::room;
use std::fs::{self, File, Metadata, OpenOptions};
use std::io::{self, Read, Write};
use std::os::unix::fs::{fchown, MetadataExt, OpenOptionsExt};
use std::path::{Path, PathBuf};

/// The most bytes of a file; a larger one isn't read.
pub struct Most {
    bytes: u64,
    words: &'static str,
}

pub const WINDOW: Most = Most { bytes: 64 << 20, words: "64 MiB, which is the most for a window" };

/// The backup of such a window.
pub const BACKUP: Most =
    Most { bytes: room(64 << 20) as u64, words: "68,445,696 bytes, which is the most for a backup" };

/// How many names are tried for the file beside.
const TRIES: u32 = 100;

/// A file's name as it may be shown.
pub fn name(file: &Path) -> String {
    shown(&file.to_string_lossy())
}

/// The bytes of a file.
pub fn read(file: &Path, most: &Most) -> Result<Vec<u8>, Ending> {
    let bytes = read_if_there(file, most)?;
    bytes.ok_or_else(|| Ending::unreadable(&name(file), &io::ErrorKind::NotFound.into()))
}

/// The bytes of a file, if there is the file.
pub fn read_if_there(file: &Path, most: &Most) -> Result<Option<Vec<u8>>, Ending> {
    let mut bytes = vec![];
    let read = File::open(file).and_then(|open| open.take(most.bytes + 1).read_to_end(&mut bytes));
    match read {
        Err(error) if error.kind() == io::ErrorKind::NotFound => Ok(None),
        Err(error) => Err(Ending::unreadable(&name(file), &error)),
        Ok(length) if most.bytes < length as u64 => {
            Err(Ending::NoFile(format!("{} has more than {}", name(file), most.words)))
        }
        Ok(_) => Ok(Some(bytes)),
    }
}

/// Are these two names of one file?
pub fn is_same(one: &Path, other: &Path) -> bool {
    let identity = |file| fs::metadata(file).ok().map(|data| (data.dev(), data.ino()));
    identity(one).is_some_and(|known| identity(other) == Some(known))
}

/// Puts a file with these bytes in the place of this one.
pub fn replace(file: &Path, bytes: &[u8]) -> Result<(), Ending> {
    let replaced = replaceable(file).and_then(|(real, old)| put(&real, &old, bytes));
    replaced.map_err(|error| unwritten(file, &error))
}

/// Could this file be replaced, as far as can be seen without doing it?
pub fn can_be_replaced(file: &Path) -> Result<(), Ending> {
    replaceable(file).map(drop).map_err(|error| unwritten(file, &error))
}

/// Makes a file with these bytes under a name that none has, with the owner and the permissions of another one.
pub fn make(file: &Path, like: &Path, bytes: &[u8]) -> Result<(), Ending> {
    let made = match fs::symlink_metadata(file) {
        Ok(_) => Err(io::Error::other("there is something of this name")),
        Err(_) => fs::metadata(like).and_then(|old| put(file, &old, bytes)),
    };
    made.map_err(|error| Ending::NoFile(format!("{} can't be made: {}", name(file), reason(&error))))
}

fn unwritten(file: &Path, error: &io::Error) -> Ending {
    Ending::NoFile(format!("{} can't be written, and is as it was: {}", name(file), reason(error)))
}

/// The file that a name leads to. A link stays, and what it leads to is replaced.
fn replaceable(file: &Path) -> io::Result<(PathBuf, Metadata)> {
    let real = fs::canonicalize(file)?;
    let old = fs::metadata(&real)?;
    if !old.is_file() {
        return Err(io::Error::other("it is no regular file"));
    }
    // who may not write to the file may not replace it either
    OpenOptions::new().write(true).open(&real)?;
    Ok((real, old))
}

/// Puts these bytes under a name that is no link, with the owner and the permissions of the old file.
fn put(file: &Path, old: &Metadata, bytes: &[u8]) -> io::Result<()> {
    let folder = match file.parent().ok_or(io::ErrorKind::NotFound)? {
        here if here.as_os_str().is_empty() => Path::new("."),
        folder => folder,
    };
    let (mut new, mut beside) = Beside::create(folder)?;
    new.write_all(bytes)?;
    keep_owner(&new, old)?;
    new.set_permissions(old.permissions())?;
    new.sync_all()?;
    fs::rename(&beside.path, file)?;
    beside.is_left = false;
    // The bytes are safe. That the new name is too needs the folder on the disk; where that can't be had nothing is lost.
    let _ = File::open(folder).and_then(|folder| folder.sync_all());
    Ok(())
}

fn keep_owner(new: &File, old: &Metadata) -> io::Result<()> {
    let made = new.metadata()?;
    if (made.uid(), made.gid()) == (old.uid(), old.gid()) {
        return Ok(());
    }
    fchown(new, Some(old.uid()), Some(old.gid()))
        .map_err(|error| io::Error::other(format!("its owner can't be kept, {}", reason(&error))))
}

/// A new file beside one. Where it doesn't take that one's name it is removed.
struct Beside {
    path: PathBuf,
    is_left: bool,
}

impl Beside {
    /// Makes an empty file under a name that none has in this folder. Nobody else may read it.
    fn create(folder: &Path) -> io::Result<(File, Beside)> {
        for number in 0..TRIES {
            let path = folder.join(format!(".planksling-{}-{number}", std::process::id()));
            match OpenOptions::new().write(true).create_new(true).mode(0o600).open(&path) {
                Err(error) if error.kind() == io::ErrorKind::AlreadyExists => continue,
                Err(error) => {
                    return Err(io::Error::other(format!("no file can be made beside it, {}", reason(&error))))
                }
                Ok(file) => return Ok((file, Beside { path, is_left: true })),
            }
        }
        Err(io::Error::other("no name is free for a file beside it"))
    }
}

impl Drop for Beside {
    fn drop(&mut self) {
        if self.is_left {
            let _ = fs::remove_file(&self.path);
        }
    }
}
