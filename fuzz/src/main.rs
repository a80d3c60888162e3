//! The fuzzer's program. What tries the library is a process of its own, so that it can be told in which case it was ended.

use std::process::{Command, ExitCode};
use std::time::Duration;

use fuzz::calls::LIBRARY;
use fuzz::run::{replay, run, Mode, Until};
use fuzz::watch::{watch, Ended, Watched};

const USAGE: &str =
    "usage: run SECONDS SEED [end|begin|both]\n       run --cases COUNT SEED [end|begin|both]\n       run --replay SEED INDEX [end|begin]";

/// A run of so many calls must have every refusal.
const ENOUGH: u64 = 500_000;

/// So long the last case of a run may take.
const PATIENCE: Duration = Duration::from_secs(120);

/// So long a run of any number of cases may take.
const LONGEST: Duration = Duration::from_secs(3600);

/// What is to be tried.
#[derive(Clone, Copy)]
struct Task {
    until: Until,
    seed: u64,
    mode: Mode,
}

impl Task {
    fn of(words: &[&str]) -> Option<Task> {
        let (until, rest) = match words {
            ["--cases", count, rest @ ..] => (Until::Cases(count.parse().ok()?), rest),
            [seconds, rest @ ..] => (Until::Time(Duration::from_secs(seconds.parse().ok()?)), rest),
            [] => return None,
        };
        let (seed, mode) = match rest {
            [seed] => (seed, Mode::Both),
            [seed, mode] => (seed, Mode::of_name(mode)?),
            _ => return None,
        };
        Some(Task { until, seed: seed.parse().ok()?, mode })
    }

    fn longest(self) -> Duration {
        match self.until {
            Until::Time(time) => time + PATIENCE,
            Until::Cases(_) => LONGEST,
        }
    }

    fn tell_how_to_replay(self, index: u64) {
        let mode = Mode::Only(self.mode.side(index)).name();
        println!("to see it again: fuzz/run --replay {} {index} {mode}", self.seed);
    }
}

/// The run itself.
fn try_all(task: Task) -> ExitCode {
    let watched = Watched::open().expect("the watched file can be opened");
    let begins = |index| watched.iter().for_each(|watched| watched.begins(index));
    let (tally, time, found) = run(&LIBRARY, task.seed, task.mode, task.until, begins);
    println!("seed {}, mode {}", task.seed, task.mode.name());
    tally.lines(time.as_secs_f64()).iter().for_each(|line| println!("{line}"));
    if let Some(found) = found {
        println!("DIFFERENCE in case {}: {}\nin {}", found.index, found.difference.what, found.difference.call);
        task.tell_how_to_replay(found.index);
        return ExitCode::FAILURE;
    }
    println!("no difference");
    let missing = tally.missing();
    if missing.is_empty() {
        return ExitCode::SUCCESS;
    }
    println!("never refused by {missing:?}");
    if tally.calls() < ENOUGH {
        ExitCode::SUCCESS
    } else {
        ExitCode::FAILURE
    }
}

/// Starts the run that these words ask for and watches it.
fn start(words: &[&str], task: Task) -> std::io::Result<ExitCode> {
    let mut command = Command::new(std::env::current_exe()?);
    let index = match watch(command.arg("--try").args(words), task.longest())? {
        Ended::Status(0) => return Ok(ExitCode::SUCCESS),
        Ended::Status(_) => return Ok(ExitCode::FAILURE),
        Ended::Signal { signal, index } => {
            println!("ENDED by signal {signal} in case {index} of seed {}", task.seed);
            index
        }
        Ended::Late { index } => {
            println!("NO END of case {index} of seed {}", task.seed);
            index
        }
    };
    task.tell_how_to_replay(index);
    Ok(ExitCode::FAILURE)
}

fn again(seed: u64, index: u64, mode: Mode) -> ExitCode {
    match replay(&LIBRARY, seed, index, mode.side(index)) {
        Ok(tally) => {
            println!("no difference in {} calls", tally.calls());
            ExitCode::SUCCESS
        }
        Err(difference) => {
            println!("DIFFERENCE: {}\nin {}", difference.what, difference.call);
            ExitCode::FAILURE
        }
    }
}

/// None where the words are no command.
fn asked(words: &[&str]) -> Option<std::io::Result<ExitCode>> {
    match words {
        ["--try", rest @ ..] => Some(Ok(try_all(Task::of(rest)?))),
        ["--replay", seed, index] => Some(Ok(again(seed.parse().ok()?, index.parse().ok()?, Mode::Both))),
        ["--replay", seed, index, mode] => {
            Some(Ok(again(seed.parse().ok()?, index.parse().ok()?, Mode::of_name(mode)?)))
        }
        _ => Some(start(words, Task::of(words)?)),
    }
}

fn main() -> ExitCode {
    let words: Vec<String> = std::env::args().skip(1).collect();
    let words: Vec<&str> = words.iter().map(String::as_str).collect();
    match asked(&words) {
        Some(Ok(code)) => code,
        Some(Err(error)) => {
            eprintln!("fuzz: {error}");
            ExitCode::FAILURE
        }
        None => {
            eprintln!("{USAGE}");
            ExitCode::from(2)
        }
    }
}
