//! A process that tries calls may be ended by one of them. It tells the number of each case before it begins, and the one that watches it reads the last.

use std::fs::File;
use std::io;
use std::os::unix::fs::FileExt;
use std::os::unix::process::ExitStatusExt;
use std::process::Command;
use std::sync::atomic::{AtomicU64, Ordering};
use std::time::{Duration, Instant};

/// The variable that names the file for the numbers.
const FILE: &str = "PLANKSLING_FUZZ_FILE";

/// How often it is asked whether the process has ended.
const EVERY: Duration = Duration::from_millis(20);

/// The watched side.
pub struct Watched {
    file: File,
}

impl Watched {
    /// None where nobody watches.
    pub fn open() -> io::Result<Option<Watched>> {
        let Some(path) = std::env::var_os(FILE) else { return Ok(None) };
        Ok(Some(Watched { file: File::options().write(true).open(path)? }))
    }

    pub fn begins(&self, index: u64) {
        self.file.write_all_at(&index.to_be_bytes(), 0).expect("the watched file can be written");
    }
}

/// How a watched process ended. The index is that of its last case.
#[derive(Debug, Clone, Copy, PartialEq, Eq)]
pub enum Ended {
    Signal {
        signal: i32,
        index: u64,
    },
    /// It took longer than it may and was stopped.
    Late {
        index: u64,
    },
    Status(i32),
}

/// Runs a command to its end, or for no longer than this.
pub fn watch(command: &mut Command, longest: Duration) -> io::Result<Ended> {
    static WATCHED: AtomicU64 = AtomicU64::new(0);
    let own = (std::process::id(), WATCHED.fetch_add(1, Ordering::Relaxed));
    let file = std::env::temp_dir().join(format!("planksling-fuzz-{}-{}", own.0, own.1));
    std::fs::write(&file, u64::MAX.to_be_bytes())?;
    let ended = wait(command.env(FILE, &file), longest);
    let index = std::fs::read(&file).ok().and_then(|bytes| bytes.try_into().ok()).map_or(u64::MAX, u64::from_be_bytes);
    std::fs::remove_file(&file)?;
    Ok(match ended? {
        None => Ended::Late { index },
        Some(status) => match status.signal() {
            Some(signal) => Ended::Signal { signal, index },
            None => Ended::Status(status.code().unwrap_or(1)),
        },
    })
}

/// Its status, or none where it was stopped.
fn wait(command: &mut Command, longest: Duration) -> io::Result<Option<std::process::ExitStatus>> {
    let start = Instant::now();
    let mut process = command.spawn()?;
    loop {
        if let Some(status) = process.try_wait()? {
            return Ok(Some(status));
        }
        if start.elapsed() > longest {
            process.kill()?;
            process.wait()?;
            return Ok(None);
        }
        std::thread::sleep(EVERY);
    }
}
