//! Why a command ended before it was done, with its status.

use crate::help::Command;
use crate::refused::Refused;
use std::io;

pub enum Ending {
    /// The library refused.
    Refused(Box<Refused>),
    /// A backup isn't good, and that was told on standard output.
    BadBackup,
    /// The words of the call are wrong: why, and which command was meant, if that is known.
    WrongCall(String, Option<Command>),
    /// A file can't be read or written: which, and why.
    NoFile(String),
    /// Who reads standard output has stopped, and wants no more.
    ReaderGone,
}

impl Ending {
    pub const REFUSED: u8 = 1;

    pub fn status(&self) -> u8 {
        match self {
            Ending::ReaderGone => 0,
            Ending::Refused(_) | Ending::BadBackup => Ending::REFUSED,
            Ending::WrongCall(..) => 2,
            Ending::NoFile(_) => 3,
        }
    }

    /// What is told on standard error.
    pub fn words(&self) -> String {
        match self {
            Ending::ReaderGone | Ending::BadBackup => String::new(),
            Ending::Refused(refused) => refused.plain(),
            Ending::WrongCall(why, command) => {
                let meant =
                    command.map_or_else(String::new, |command| format!("It is meant so: {}\n", command.usage()));
                let help = command.map_or_else(String::new, |command| format!(" {}", command.name()));
                format!("planksling: {why}\n{meant}`planksling help{help}` tells more.\n")
            }
            Ending::NoFile(why) => format!("planksling: {why}\n"),
        }
    }

    /// This file can't be read.
    pub fn unreadable(name: &str, error: &io::Error) -> Ending {
        Ending::NoFile(format!("{name} can't be read: {}", reason(error)))
    }
}

/// An error of the system in words, without its number.
pub fn reason(error: &io::Error) -> String {
    let words = match error.kind() {
        io::ErrorKind::NotFound => "there is no such file",
        io::ErrorKind::PermissionDenied => "that isn't permitted",
        io::ErrorKind::IsADirectory => "it is a folder",
        io::ErrorKind::StorageFull => "the disk is full",
        _ => {
            let words = error.to_string();
            return words.split(" (os error").next().unwrap_or_default().to_lowercase();
        }
    };
    words.to_string()
}
