//! The commands of the reference program.

use std::io::{self, BufReader, BufWriter, Read, Write};
use std::process::ExitCode;

use reference::cases::reached::Reached;
use reference::cases::stats::Shares;
use reference::cases::{Sort, Stream};
use reference::listing::listing;
use reference::{answer, frame, line, Frames};

const USAGE: &str =
    "usage: reference answers | reference list | reference cases --seed S --count N --kind plan|locate|access|session|backup|all|leaf [--small] [--stats]";

/// Prints one line for each case of standard input.
fn answers() -> io::Result<ExitCode> {
    let mut output = BufWriter::new(io::stdout().lock());
    for case in Frames::new(BufReader::with_capacity(1 << 16, io::stdin().lock())) {
        match case {
            Ok(case) => writeln!(output, "{}", line(&answer(&case)))?,
            Err(bad) => {
                writeln!(output, "bad frame")?;
                output.flush()?;
                eprintln!("bad frame at byte {}: {}", bad.place, bad.why);
                return Ok(ExitCode::from(1));
            }
        }
    }
    output.flush()?;
    Ok(ExitCode::SUCCESS)
}

/// Prints the variables of the text on standard input, or its refusal, as the program `list` does.
fn list() -> io::Result<ExitCode> {
    let mut text = Vec::new();
    io::stdin().lock().read_to_end(&mut text)?;
    let mut output = BufWriter::new(io::stdout().lock());
    for line in listing(&text) {
        writeln!(output, "{line}")?;
    }
    output.flush()?;
    Ok(ExitCode::SUCCESS)
}

/// The options of `cases`.
struct Options {
    seed: u64,
    count: u64,
    sort: Sort,
    small: bool,
    stats: bool,
}

fn sort(word: &str) -> Option<Sort> {
    match word {
        "plan" => Some(Sort::Plan),
        "locate" => Some(Sort::Locate),
        "access" => Some(Sort::Access),
        "session" => Some(Sort::Session),
        "backup" => Some(Sort::Backup),
        "all" => Some(Sort::All),
        "leaf" => Some(Sort::Leaf),
        _ => None,
    }
}

fn options(words: &[&str]) -> Option<Options> {
    let (mut seed, mut count, mut kind, mut small, mut stats) = (None, None, None, false, false);
    let mut words = words.iter();
    while let Some(word) = words.next() {
        match *word {
            "--seed" => seed = Some(words.next()?.parse().ok()?),
            "--count" => count = Some(words.next()?.parse().ok()?),
            "--kind" => kind = Some(sort(words.next()?)?),
            "--small" => small = true,
            "--stats" => stats = true,
            _ => return None,
        }
    }
    Some(Options { seed: seed?, count: count?, sort: kind?, small, stats })
}

/// Writes the frames of a stream, or the shares of its answers and what its cases reach.
fn cases(options: &Options) -> io::Result<ExitCode> {
    let mut output = BufWriter::new(io::stdout().lock());
    let stream = Stream::new(options.seed, options.sort, options.small);
    let (mut shares, mut reached) = (Shares::default(), Reached::default());
    for index in 0..options.count {
        let case = stream.case(index);
        if options.stats {
            shares.add(&case);
            reached.add(&case);
        } else {
            output.write_all(&frame(&case))?;
        }
    }
    for line in shares.lines().into_iter().chain(reached.lines()) {
        writeln!(output, "{line}")?;
    }
    output.flush()?;
    Ok(ExitCode::SUCCESS)
}

fn main() -> ExitCode {
    let arguments: Vec<String> = std::env::args().skip(1).collect();
    let words: Vec<&str> = arguments.iter().map(String::as_str).collect();
    let done = match words.split_first() {
        Some((&"answers", [])) => answers(),
        Some((&"list", [])) => list(),
        Some((&"cases", rest)) => match options(rest) {
            Some(options) => cases(&options),
            None => usage(),
        },
        _ => usage(),
    };
    done.unwrap_or_else(|error| {
        eprintln!("{error}");
        ExitCode::from(1)
    })
}

fn usage() -> io::Result<ExitCode> {
    eprintln!("{USAGE}");
    Ok(ExitCode::from(2))
}
