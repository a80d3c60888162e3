//! What each command does.

use crate::arguments::{Call, Memory};
use crate::description_file::DescriptionFile;
use crate::edits::{self, Files};
use crate::ending::Ending;
use crate::help::{self, Command};
use crate::json::Object;
use crate::output::Output;
use crate::refused::{element, variable_object, Held, Refused};
use crate::safe::shown;
use crate::window_file::{self, WINDOW};
use crate::{backups, lines, values};
use planksling::{Description, Refusal, Value, Variable, Window};
use std::ffi::OsStr;
use std::io::Write;
use std::path::Path;

pub fn run(call: &Call, json: bool, output: &mut Output) -> Result<(), Ending> {
    match call {
        Call::List { file } => list(file, json, output),
        Call::Check { file } => check(file, json, output),
        Call::Show { file, number } => show(&Setting::find(file, *number)?, json, output),
        Call::Read { file, number, window } => read(&Setting::find(file, *number)?, window, json, output),
        Call::Write { file, number, value, window } => {
            are_others(Command::Write, &[("description", file.as_ref()), ("window", &window.file)])?;
            write(&Setting::find(file, *number)?, value, window, json, output)
        }
        Call::Edit { file, number, value, window, journal } => {
            let files = [("description", file.as_ref()), ("window", &*window.file), ("journal", journal)];
            are_others(Command::Edit, &files)?;
            edits::edit(&Setting::find(file, *number)?, value, window, journal, json, output)
        }
        Call::Undo { file, window, journal } => {
            are_others(Command::Undo, &[("description", file.as_ref()), ("window", window), ("journal", journal)])?;
            edits::undo(file, &Files { window, journal }, json, output)
        }
        Call::Store { window, backup, space } => {
            are_others(Command::Store, &[("window", window), ("backup", backup)])?;
            backups::store(window, backup, *space, json, output)
        }
        Call::Restore { backup, window } => {
            are_others(Command::Restore, &[("backup", backup), ("window", window)])?;
            backups::restore(backup, window, json, output)
        }
        Call::Inspect { backup } => backups::inspect(backup, json, output),
        Call::Help(command) => output.text(&help::text(*command)),
        Call::Version => output.text(help::VERSION),
    }
}

// ── descriptions ──

fn list(file: &OsStr, json: bool, output: &mut Output) -> Result<(), Ending> {
    let description = DescriptionFile::read(file)?.plan()?;
    if json {
        return each(&description, output, lines::put_json);
    }
    output.line(&format!("variables {}", description.variable_count()))?;
    each(&description, output, lines::put_plain)
}

/// A line for each variable.
#[inline]
fn each(description: &Description, output: &mut Output, put: impl Fn(&mut Vec<u8>, &Variable)) -> Result<(), Ending> {
    for variable in description {
        output.with(|bytes| put(bytes, &variable))?;
    }
    Ok(())
}

fn check(file: &OsStr, json: bool, output: &mut Output) -> Result<(), Ending> {
    let file = DescriptionFile::read(file)?;
    let description = file.plan()?;
    let (records, variables) = (description.record_count(), description.variable_count());
    if json {
        let object = Object::new().text("file", &file.name).plain("records", records).plain("variables", variables);
        return output.line(&object.finish());
    }
    let (records, variables) = (counted(records as u64, "record"), counted(variables, "variable"));
    output.line(&format!("{}: accepted, {records}, {variables}", shown(&file.name)))
}

/// So many of these.
pub fn counted(count: u64, word: &str) -> String {
    format!("{count} {word}{}", if count == 1 { "" } else { "s" })
}

// ── one variable ──

/// A variable, with the description that has it.
pub struct Setting {
    pub file: DescriptionFile,
    pub description: Description,
    pub variable: Variable,
}

impl Setting {
    /// Variable n of the description in this file.
    fn find(file: &OsStr, n: u64) -> Result<Setting, Ending> {
        let file = DescriptionFile::read(file)?;
        let description = file.plan()?;
        match description.variable(n) {
            Ok(variable) => Ok(Setting { file, description, variable }),
            Err(refusal) => Err(Ending::Refused(Box::new(Refused::of_the_number(&file, &description, refusal)))),
        }
    }

    /// The window in a file, which is of the variable's own space if none is given.
    pub fn window(&self, memory: &Memory) -> Result<Window<Vec<u8>>, Ending> {
        let space = memory.space.unwrap_or(self.variable.space);
        Ok(Window::new(space, memory.first.unwrap_or(0), window_file::read(&memory.file, &WINDOW)?))
    }

    fn refused(&self, window: &Window<Vec<u8>>, refusal: Refusal) -> Ending {
        let held = Held::of(window);
        let refused = Refused::of_the_variable(&self.file, &self.description, self.variable, held, refusal);
        Ending::Refused(Box::new(refused))
    }

    /// Its number, kind and a value, for a program. The value is a string, so that no reader of JSON rounds it.
    pub fn object(&self, value: &Value<'_>) -> Object {
        let kind = self.variable.kind.name();
        Object::new().plain("number", self.variable.number).text("kind", kind).text("value", &value.to_string())
    }
}

fn show(setting: &Setting, json: bool, output: &mut Output) -> Result<(), Ending> {
    let Setting { file, description, variable } = setting;
    let Variable { number, record, space, address, size, kind, .. } = variable;
    let spot = element(description, variable);
    if json {
        let object = variable_object(variable).plain("record", record).text("file", &file.name);
        let object = object.plain("line", spot.line).plain("column", spot.column);
        return output.line(&object.text("shown", &spot.shown).plain("mark", spot.before).finish());
    }
    output.line(&format!("variable {number}"))?;
    output.line(&format!("  kind     {kind}"))?;
    output.line(&format!("  space    {space}"))?;
    output.line(&format!("  address  {address} (0x{address:X})"))?;
    output.line(&format!("  size     {}", counted(*size as u64, "byte")))?;
    output.line(&format!("  record   {record}"))?;
    output.line(&format!("{}:{}:{}", shown(&file.name), spot.line, spot.column))?;
    output.text(&spot.lines("    "))
}

fn read(setting: &Setting, memory: &Memory, json: bool, output: &mut Output) -> Result<(), Ending> {
    let window = setting.window(memory)?;
    let reading = setting
        .description
        .read(setting.variable.number, &window)
        .map_err(|refusal| setting.refused(&window, refusal))?;
    if json {
        let object = setting.object(&reading.value).plain("writable", reading.writable);
        return output.line(&object.finish());
    }
    output.line(&shown(&reading.value.to_string()))?;
    output.flush()?;
    if !reading.writable {
        let _ = std::io::stderr().write_all(b"planksling: this value could not be written now\n");
    }
    Ok(())
}

/// A slip of the hand would write a setting into the description itself, or the one file into the other. `-` is standard input.
fn are_others(command: Command, files: &[(&str, &Path)]) -> Result<(), Ending> {
    let all: Vec<_> = files.iter().filter(|(_, file)| *file != Path::new("-")).collect();
    for (i, (name, file)) in all.iter().enumerate() {
        if let Some((other, _)) = all[..i].iter().find(|(_, other)| window_file::is_same(file, other)) {
            return Err(Ending::WrongCall(format!("the {name} is the {other}'s own file"), Some(command)));
        }
    }
    Ok(())
}

/// A value as it is told: a text in quotes.
pub fn told(value: &Value<'_>) -> String {
    match value {
        Value::Text(text) => format!("\"{}\"", shown(text)),
        other => other.to_string(),
    }
}

/// What a variable holds now.
pub fn holds(number: u64, value: &Value<'_>, is_new: bool) -> String {
    match is_new {
        true => format!("variable {number} is now {}", told(value)),
        false => format!("variable {number} was {} already", told(value)),
    }
}

fn write(setting: &Setting, word: &str, memory: &Memory, json: bool, output: &mut Output) -> Result<(), Ending> {
    let mut window = setting.window(memory)?;
    let (number, old) = (setting.variable.number, window.bytes.clone());
    let value = values::value(setting.variable.kind, word);
    setting.description.write(number, &mut window, &value).map_err(|refusal| setting.refused(&window, refusal))?;
    let is_new = window.bytes != old;
    if is_new {
        window_file::replace(&memory.file, &window.bytes)?;
    }
    if json {
        return output.line(&setting.object(&value).plain("changed", is_new).finish());
    }
    output.line(&holds(number, &value, is_new))
}
