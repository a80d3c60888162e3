//! Standard output, written in large parts.

use crate::ending::{reason, Ending};
use std::io::{self, IsTerminal, StdoutLock, Write};

/// How much is gathered before it is written.
const FULL: usize = 1 << 16;

pub struct Output {
    bytes: Vec<u8>,
    to: StdoutLock<'static>,
    is_terminal: bool,
}

impl Output {
    pub fn new() -> Output {
        let to = io::stdout().lock();
        let is_terminal = to.is_terminal();
        Output { bytes: Vec::with_capacity(FULL + FULL / 4), to, is_terminal }
    }

    /// Adds one line, which `put` puts behind the bytes, its newline included.
    #[inline]
    pub fn with(&mut self, put: impl FnOnce(&mut Vec<u8>)) -> Result<(), Ending> {
        put(&mut self.bytes);
        if FULL <= self.bytes.len() {
            return self.flush();
        }
        Ok(())
    }

    /// Adds a text that ends in a newline.
    pub fn text(&mut self, text: &str) -> Result<(), Ending> {
        self.with(|bytes| bytes.extend_from_slice(text.as_bytes()))
    }

    pub fn line(&mut self, line: &str) -> Result<(), Ending> {
        self.text(line)?;
        self.text("\n")
    }

    /// Writes what was gathered.
    pub fn flush(&mut self) -> Result<(), Ending> {
        let written = self.to.write_all(&self.bytes).and_then(|()| self.to.flush());
        self.bytes.clear();
        written.map_err(|error| match error.kind() {
            io::ErrorKind::BrokenPipe => Ending::ReaderGone,
            // a terminal that can't be written was closed
            _ if self.is_terminal => Ending::ReaderGone,
            _ => Ending::NoFile(format!("standard output can't be written: {}", reason(&error))),
        })
    }
}
