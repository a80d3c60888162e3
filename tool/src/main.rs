//! `planksling`: the library as a tool for people. It lists, checks and shows what a description has, reads and writes settings in a window that is
//! kept in a file, takes edits back, keeps backups, and explains what is refused. The answers are the libraries'; here they are only asked for and told.

#![forbid(unsafe_code)]

mod arguments;
mod backups;
mod commands;
mod description_file;
mod edits;
mod ending;
mod help;
mod journal_file;
mod json;
mod lines;
mod output;
mod place;
mod refused;
mod report;
mod safe;
mod values;
mod window_file;
mod words;

use arguments::Arguments;
use ending::Ending;
use output::Output;
use std::io::Write;
use std::process::ExitCode;

fn main() -> ExitCode {
    let words: Vec<_> = std::env::args_os().skip(1).collect();
    let status = match arguments::read(&words) {
        Ok(arguments) => run(&arguments),
        Err(ending) => told(&ending),
    };
    ExitCode::from(status)
}

/// Runs one command and tells how it ended. The status.
fn run(Arguments { call, json }: &Arguments) -> u8 {
    let mut output = Output::new();
    let ended = commands::run(call, *json, &mut output).and_then(|()| output.flush());
    match ended {
        Ok(()) => 0,
        Err(Ending::Refused(refused)) if *json => match output.line(&refused.json()).and_then(|()| output.flush()) {
            Ok(()) | Err(Ending::ReaderGone) => Ending::REFUSED,
            Err(other) => told(&other),
        },
        Err(ending) => told(&ending),
    }
}

/// Tells on standard error why a command ended. The status. Where standard error can't be written the status alone tells it.
fn told(ending: &Ending) -> u8 {
    let words = ending.words();
    let _ = std::io::stderr().write_all(words.as_bytes());
    ending.status()
}
