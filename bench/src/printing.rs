//! Listing with printing: the proved program `list` beside plain ones that print the same bytes, each a process of its own that reads the
//! same text from a file.

use crate::texts;
use std::fs::File;
use std::io::{Read, Result};
use std::path::PathBuf;
use std::process::{Command, Stdio};
use std::time::Instant;

const ROUNDS: usize = 40;

extern "C" {
    /// Fills in what the processes that have ended used: seconds and microseconds of their own, the same in the system, and 14 other numbers.
    fn getrusage(who: i32, usage: &mut [i64; 18]) -> i32;
}

const CHILDREN: i32 = -1;

/// The seconds of processor that all runs together have taken.
fn processor() -> f64 {
    let mut usage = [0; 18];
    assert_eq!(unsafe { getrusage(CHILDREN, &mut usage) }, 0);
    (usage[0] + usage[2]) as f64 + (usage[1] + usage[3]) as f64 / 1e6
}

/// The seconds of a run by the clock, and those of the processor.
#[derive(Clone, Copy)]
struct Seconds {
    clock: f64,
    processor: f64,
}

impl Seconds {
    fn or_less(self, other: Seconds) -> Seconds {
        Seconds { clock: self.clock.min(other.clock), processor: self.processor.min(other.processor) }
    }
}

#[derive(Clone, Copy)]
enum To {
    Nowhere,
    File,
    Pipe,
}

struct Room {
    folder: PathBuf,
}

impl Room {
    /// A folder of its own, with the text in it.
    fn new() -> Result<Room> {
        let folder = std::env::temp_dir().join(format!("printing-{}", std::process::id()));
        std::fs::create_dir(&folder)?;
        std::fs::write(folder.join("text"), texts::million())?;
        Ok(Room { folder })
    }

    fn command(&self, words: &[String]) -> Result<Command> {
        let mut command = Command::new(&words[0]);
        command.args(&words[1..]).stdin(File::open(self.folder.join("text"))?);
        Ok(command)
    }

    fn time(&self, words: &[String], to: To) -> Result<Seconds> {
        let output = match to {
            To::Nowhere => Stdio::null(),
            To::File => File::create(self.folder.join("lines"))?.into(),
            To::Pipe => Stdio::piped(),
        };
        let mut command = self.command(words)?;
        command.stdout(output);
        let (begun, before) = (Instant::now(), processor());
        let mut child = command.spawn()?;
        if let Some(mut pipe) = child.stdout.take() {
            let mut part = vec![0; 1 << 16];
            while pipe.read(&mut part)? > 0 {}
        }
        let status = child.wait()?;
        let taken = Seconds { clock: begun.elapsed().as_secs_f64(), processor: processor() - before };
        assert!(status.success(), "{words:?}");
        Ok(taken)
    }

    /// All that a program prints.
    fn lines(&self, words: &[String]) -> Result<Vec<u8>> {
        Ok(self.command(words)?.stdout(Stdio::piped()).output()?.stdout)
    }

    /// The least times of the programs, in turns.
    fn least(&self, programs: &[Vec<String>], to: To) -> Result<Vec<Seconds>> {
        let mut best = vec![Seconds { clock: f64::MAX, processor: f64::MAX }; programs.len()];
        for _ in 0..ROUNDS {
            for (least, words) in best.iter_mut().zip(programs) {
                *least = least.or_less(self.time(words, to)?);
            }
        }
        Ok(best)
    }
}

impl Drop for Room {
    fn drop(&mut self) {
        let _ = std::fs::remove_dir_all(&self.folder);
    }
}

/// The words that run the proved program, and those that run the plain ones.
fn programs() -> Result<Vec<Vec<String>>> {
    let list = std::env::var("LIST").expect("LIST: the words that run the proved program, one to a line");
    let own = std::env::current_exe()?.to_string_lossy().into_owned();
    let words = |more: &[&str]| std::iter::once(own.as_str()).chain(more.iter().copied()).map(String::from).collect();
    let proved = list.lines().map(String::from).collect();
    Ok(vec![proved, words(&["print"]), words(&["print", "formatted"])])
}

pub fn measure() -> Result<()> {
    let room = Room::new()?;
    let programs = programs()?;
    let wanted = room.lines(&programs[0])?;
    for words in &programs[1..] {
        assert!(room.lines(words)? == wanted, "{words:?} prints other lines");
    }
    println!("listing with printing, {} bytes, {} lines", wanted.len(), wanted.iter().filter(|&&b| b == b'\n').count());
    for (what, to) in [("/dev/null", To::Nowhere), ("a file", To::File), ("a pipe", To::Pipe)] {
        let best = room.least(&programs, to)?;
        let proved = best[0];
        println!("to {what}: proved {:.1} ms, of processor {:.1} ms", proved.clock * 1e3, proved.processor * 1e3);
        for (name, plain) in ["plain", "plain, formatted"].iter().zip(&best[1..]) {
            println!(
                "  {name}: {:.1} ms, ratio {:.2}; of processor {:.1} ms, ratio {:.2}",
                plain.clock * 1e3,
                proved.clock / plain.clock,
                plain.processor * 1e3,
                proved.processor / plain.processor
            );
        }
    }
    Ok(())
}
