//! What is told of a backup that is inspected: the library's answer, then each block, then what could be read.

use crate::backups::{amount_in_blocks, object};
use crate::commands::counted;
use crate::ending::Ending;
use crate::json::Object;
use crate::output::Output;
use crate::refused::Refused;
use crate::window_file::name;
use planksling_backup::{inspect, Block, Window};
use std::path::Path;

pub struct Report<'a> {
    pub file: &'a Path,
    /// The backup's bytes.
    pub stored: &'a [u8],
    /// The window, or why there is none.
    pub answer: Result<Window, Refused>,
}

impl Report<'_> {
    pub fn tell(&self, json: bool, output: &mut Output) -> Result<(), Ending> {
        output.text(&if json { self.answer_json() } else { self.answer_plain() })?;
        let blocks = inspect(self.stored);
        let (count, rest) = (blocks.len(), blocks.rest().len());
        let (mut good, mut readable) = (0, 0);
        for block in blocks {
            output.line(&if json { block_json(&block) } else { block_plain(&block) })?;
            if block.is_good() {
                good += 1;
                readable += block.payload().len();
            }
        }
        if json {
            let object = Object::new().plain("blocks", count).plain("bad", count - good);
            return output.line(&object.plain("readable", readable).plain("rest", rest).finish());
        }
        if 0 < rest {
            output.line(&format!("rest: {}, no whole block", counted(rest as u64, "byte")))?;
        }
        let readable = counted(readable as u64, "byte");
        output.line(&format!("{good} of {} good, {readable} readable", counted(count as u64, "block")))
    }

    fn answer_plain(&self) -> String {
        match &self.answer {
            Ok(Window { space, bytes }) => {
                let amount = amount_in_blocks(bytes.len(), *space, inspect(self.stored).len());
                format!("{}: good, {amount}\n", name(self.file))
            }
            Err(refused) => refused.plain(),
        }
    }

    fn answer_json(&self) -> String {
        let json = match &self.answer {
            Ok(Window { space, bytes }) => {
                object(self.file, bytes.len(), *space).plain("blocks", inspect(self.stored).len()).finish()
            }
            Err(refused) => refused.json(),
        };
        json + "\n"
    }
}

/// What is wrong with a block, in words.
fn faults(block: &Block<'_>) -> Vec<String> {
    block.faults().iter().map(|fault| fault.to_string()).collect()
}

fn block_plain(block: &Block<'_>) -> String {
    let verdict = match block.cause() {
        None => "good".to_string(),
        Some(cause) => format!("{}, {}", cause.number(), faults(block).join("; ")),
    };
    format!("block {}: number {}, length {}: {verdict}", block.position, block.number(), block.length())
}

fn block_json(block: &Block<'_>) -> String {
    let object = Object::new().plain("block", block.position).plain("number", block.number());
    let object = object.plain("length", block.length()).plain("space", block.space()).plain("flag", block.flag());
    let object = object.plain("good", block.is_good());
    match block.cause() {
        None => object.finish(),
        Some(cause) => object.plain("refused", cause.number()).texts("wrong", &faults(block)).finish(),
    }
}
