//! The words of a call.

use crate::ending::Ending;
use crate::help::Command;
use crate::safe::shown;
use std::ffi::{OsStr, OsString};
use std::os::unix::ffi::OsStrExt;
use std::path::PathBuf;

/// A call that is well formed.
pub struct Arguments {
    pub call: Call,
    pub json: bool,
}

pub enum Call {
    List { file: OsString },
    Check { file: OsString },
    Show { file: OsString, number: u64 },
    Read { file: OsString, number: u64, window: Memory },
    Write { file: OsString, number: u64, value: String, window: Memory },
    Edit { file: OsString, number: u64, value: String, window: Memory, journal: PathBuf },
    Undo { file: OsString, window: PathBuf, journal: PathBuf },
    Store { window: PathBuf, backup: PathBuf, space: u64 },
    Restore { backup: PathBuf, window: PathBuf },
    Inspect { backup: PathBuf },
    Help(Option<Command>),
    Version,
}

/// A window that is kept in a file. Without a space it is of the variable's own, without an address it begins at 0.
pub struct Memory {
    pub file: PathBuf,
    pub space: Option<u64>,
    pub first: Option<u64>,
}

/// The words of a call, sorted.
#[derive(Default)]
struct Words<'a> {
    /// The command and what it is about.
    plain: Vec<&'a OsStr>,
    window: Option<&'a OsStr>,
    journal: Option<&'a OsStr>,
    space: Option<&'a OsStr>,
    first: Option<&'a OsStr>,
    json: bool,
    help: bool,
    version: bool,
}

/// Reads the words of a call, without the program's name.
pub fn read(words: &[OsString]) -> Result<Arguments, Ending> {
    let words = sorted(words)?;
    let json = words.json;
    if words.version {
        return Ok(Arguments { call: Call::Version, json });
    }
    let call = if words.help { Call::Help(command_of(words.plain.first())?) } else { words.call()? };
    Ok(Arguments { call, json })
}

fn wrong<T>(command: Option<Command>, why: String) -> Result<T, Ending> {
    Err(Ending::WrongCall(why, command))
}

/// A word as it may be shown.
fn told(word: &OsStr) -> String {
    shown(&word.to_string_lossy())
}

/// Options and other words apart. A minus with a digit behind it begins a number and no option.
fn sorted(words: &[OsString]) -> Result<Words<'_>, Ending> {
    let mut sorted = Words::default();
    let mut rest = words.iter();
    while let Some(word) = rest.next() {
        match word.as_bytes() {
            b"--" => sorted.plain.extend(rest.by_ref().map(OsString::as_os_str)),
            b"--json" => sorted.json = true,
            b"--help" | b"-h" => sorted.help = true,
            b"--version" => sorted.version = true,
            [b'-', b'-', ..] => sorted.option(word, &mut rest)?,
            [b'-', next, ..] if !next.is_ascii_digit() => return unknown(word),
            _ => sorted.plain.push(word),
        }
    }
    Ok(sorted)
}

fn unknown<T>(word: &OsStr) -> Result<T, Ending> {
    wrong(None, format!("there is no option `{}`; put `--` in front of a word that begins with -", told(word)))
}

/// The command of a word, if there is one.
fn command_of(word: Option<&&OsStr>) -> Result<Option<Command>, Ending> {
    let Some(word) = word else { return Ok(None) };
    match word.to_str().and_then(Command::named) {
        Some(command) => Ok(Some(command)),
        None => wrong(None, format!("there is no command `{}`", told(word))),
    }
}

impl<'a> Words<'a> {
    /// Takes an option that has a value: `--window FILE` or `--window=FILE`.
    fn option(&mut self, word: &'a OsStr, rest: &mut std::slice::Iter<'a, OsString>) -> Result<(), Ending> {
        let bytes = word.as_bytes();
        let end = bytes.iter().position(|&byte| byte == b'=').unwrap_or(bytes.len());
        let name = &bytes[..end];
        let held = match name {
            b"--window" => &mut self.window,
            b"--journal" => &mut self.journal,
            b"--space" => &mut self.space,
            b"--first" => &mut self.first,
            _ => return unknown(word),
        };
        let name = told(OsStr::from_bytes(name));
        if held.is_some() {
            return wrong(None, format!("{name} stands twice"));
        }
        *held = match bytes.get(end + 1..) {
            Some(value) => Some(OsStr::from_bytes(value)),
            None => rest.next().map(OsString::as_os_str),
        };
        match held {
            Some(_) => Ok(()),
            None => wrong(None, format!("{name} needs a value behind it")),
        }
    }

    /// The command with what it needs.
    fn call(&self) -> Result<Call, Ending> {
        let Some(command) = command_of(self.plain.first())? else {
            return wrong(None, "no command is given".to_string());
        };
        let words = &self.plain[1..];
        self.suits(command, words)?;
        let file = || words[0].to_os_string();
        Ok(match command {
            Command::List => Call::List { file: file() },
            Command::Check => Call::Check { file: file() },
            Command::Show => Call::Show { file: file(), number: number(command, words[1])? },
            Command::Read => {
                Call::Read { file: file(), number: number(command, words[1])?, window: self.memory(command)? }
            }
            Command::Write => Call::Write {
                file: file(),
                number: number(command, words[1])?,
                value: value(command, words[2])?,
                window: self.memory(command)?,
            },
            Command::Edit => Call::Edit {
                file: file(),
                number: number(command, words[1])?,
                value: value(command, words[2])?,
                window: self.memory(command)?,
                journal: named(command, "--journal", self.journal)?,
            },
            Command::Undo => Call::Undo {
                file: file(),
                window: named(command, "--window", self.window)?,
                journal: named(command, "--journal", self.journal)?,
            },
            Command::Store => {
                let Some(space) = self.space else { return wrong(Some(command), "store needs --space N".to_string()) };
                Call::Store {
                    window: named(command, "WINDOW", Some(words[0]))?,
                    backup: named(command, "BACKUP", Some(words[1]))?,
                    space: address(command, "--space", space)?,
                }
            }
            Command::Restore => Call::Restore {
                backup: named(command, "BACKUP", Some(words[0]))?,
                window: named(command, "WINDOW", Some(words[1]))?,
            },
            Command::Inspect => Call::Inspect { backup: named(command, "BACKUP", Some(words[0]))? },
            Command::Help => Call::Help(command_of(words.first())?),
        })
    }

    /// Has the command all words that it needs, and nothing that it doesn't take?
    fn suits(&self, command: Command, words: &[&OsStr]) -> Result<(), Ending> {
        let wanted = command.words();
        if let Some(missing) = wanted.get(words.len()) {
            return wrong(Some(command), format!("{} needs {missing}", command.name()));
        }
        // help takes a command or none
        let most = wanted.len().max(1);
        if let Some(word) = words.get(most) {
            let quotes = if wanted.contains(&"VALUE") { "; a text with blanks is put in quotes" } else { "" };
            return wrong(Some(command), format!("`{}` is a word too many{quotes}", told(word)));
        }
        let options = [
            ("--window", self.window, command.has_window(), "read, write, edit and undo"),
            ("--journal", self.journal, command.has_journal(), "edit and undo"),
            ("--space", self.space, command.has_space(), "read, write, edit and store"),
            ("--first", self.first, command.has_address(), "read, write and edit"),
        ];
        match options.iter().find(|(_, value, takes, _)| value.is_some() && !takes) {
            Some((name, _, _, those)) => wrong(Some(command), format!("{name} is for {those}")),
            None => Ok(()),
        }
    }

    fn memory(&self, command: Command) -> Result<Memory, Ending> {
        let file = named(command, "--window", self.window)?;
        let space = self.space.map(|word| address(command, "--space", word)).transpose()?;
        let first = self.first.map(|word| address(command, "--first", word)).transpose()?;
        Ok(Memory { file, space, first })
    }
}

/// The file that an option or a word names.
fn named(command: Command, option: &str, file: Option<&OsStr>) -> Result<PathBuf, Ending> {
    match file {
        None => wrong(Some(command), format!("{} needs {option} FILE", command.name())),
        Some(file) if file == "-" || file.is_empty() => {
            wrong(Some(command), format!("{option} needs the name of a file"))
        }
        Some(file) => Ok(PathBuf::from(file)),
    }
}

/// A number of digits alone, in this base. One above 64 bits is the largest of these: no variable, space or address is so large.
fn digits(word: &str, base: u32) -> Option<u64> {
    let good = !word.is_empty() && word.chars().all(|c| c.is_digit(base));
    good.then(|| u64::from_str_radix(word, base).unwrap_or(u64::MAX))
}

/// The number of a variable.
fn number(command: Command, word: &OsStr) -> Result<u64, Ending> {
    match word.to_str().and_then(|word| digits(word, 10)) {
        Some(number) => Ok(number),
        None => {
            wrong(Some(command), format!("`{}` is no number of a variable; they count 0, 1, 2 and so on", told(word)))
        }
    }
}

/// The number of an option, decimal or hexadecimal.
fn address(command: Command, option: &str, word: &OsStr) -> Result<u64, Ending> {
    let number = word.to_str().and_then(|word| match word.strip_prefix("0x") {
        Some(rest) => digits(rest, 16),
        None => digits(word, 10),
    });
    match number {
        Some(number) => Ok(number),
        None => wrong(Some(command), format!("{option} needs a number, as 128 or 0x80, and `{}` is none", told(word))),
    }
}

fn value(command: Command, word: &OsStr) -> Result<String, Ending> {
    match word.to_str() {
        Some(word) => Ok(word.to_string()),
        None => wrong(Some(command), "the value isn't UTF-8".to_string()),
    }
}
