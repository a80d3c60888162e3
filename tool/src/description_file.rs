//! The file that holds a description.

use crate::ending::Ending;
use crate::refused::Refused;
use crate::safe::shown;
use planksling::{Description, TEXT_LIMIT};
use std::ffi::OsStr;
use std::fs::File;
use std::io::{self, Read};

/// What was read of a description's file. No more is read than can matter.
pub struct DescriptionFile {
    /// Its name as it was given.
    pub name: String,
    /// Its bytes, with a zero behind them if they had none.
    text: Vec<u8>,
    /// How many bytes the file has, as far as it was read, and whether it has more.
    pub length: usize,
    pub longer: bool,
}

impl DescriptionFile {
    /// Reads the file of this name; `-` is standard input.
    pub fn read(file: &OsStr) -> Result<DescriptionFile, Ending> {
        let name = file.to_string_lossy().into_owned();
        let read = if file == "-" { beginning(io::stdin().lock()) } else { File::open(file).and_then(beginning) };
        let mut text = read.map_err(|error| Ending::unreadable(&shown(&name), &error))?;
        let longer = TEXT_LIMIT < text.len();
        text.truncate(TEXT_LIMIT);
        let length = text.len();
        if !text.contains(&0) {
            text.push(0);
        }
        Ok(DescriptionFile { name, text, length, longer })
    }

    /// The content: what stands before the first zero.
    pub fn content(&self) -> &[u8] {
        self.text.split(|&byte| byte == 0).next().unwrap_or_default()
    }

    /// Plans it.
    pub fn plan(&self) -> Result<Description, Ending> {
        Description::try_from(&self.text[..])
            .map_err(|refusal| Ending::Refused(Box::new(Refused::of_the_text(self, refusal))))
    }
}

/// The bytes that can matter, and one more where there are more.
fn beginning(file: impl Read) -> io::Result<Vec<u8>> {
    let mut bytes = vec![];
    file.take(TEXT_LIMIT as u64 + 1).read_to_end(&mut bytes)?;
    Ok(bytes)
}
