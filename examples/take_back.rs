//! Edits two settings of a node and takes the edits back, the latest first.
//!
//!     take_back [FILE]
//!
//! FILE is a description, without it samples/input-board.xml of the current folder; in another one settings 3 and 4 must be a string and an int of space
//! 253, in its first 512 bytes. The status is 1 where the file can't be read, or a call is refused that shouldn't be.

use planksling::{Description, Session, Window};
use std::error::Error;
use std::process::ExitCode;

const LABEL: u64 = 3;
const DEBOUNCE: u64 = 4;

fn tell(what: &str, session: &Session<'_>) -> Result<(), Box<dyn Error>> {
    let (label, debounce) = (session.read(LABEL)?.value, session.read(DEBOUNCE)?.value);
    println!("{what}: \"{label}\" and {debounce}, edits that stand: {}", session.standing());
    Ok(())
}

fn take_back(file: &str) -> Result<(), Box<dyn Error>> {
    let text = std::fs::read_to_string(file).map_err(|why| format!("{file}: {why}"))?;
    let description: Description = text.parse()?;

    // what a program has read from the node; the session owns it until it is given back
    let mut session = Session::open(&description, Window::new(253, 0, vec![0; 512]));
    tell("at first", &session)?;
    session.edit(DEBOUNCE, 250)?;
    session.edit(LABEL, "Platform 1")?;
    session.edit(DEBOUNCE, 300)?;
    tell("edited", &session)?;

    // a refused edit changes nothing, and needn't be taken back
    match session.edit(DEBOUNCE, 5001) {
        Ok(()) => return Err("5001 was accepted".into()),
        Err(refusal) => println!("5001: refused {}, {}", refusal.cause.number(), refusal.cause),
    }
    while 0 < session.standing() {
        session.undo()?;
        tell("one back", &session)?;
    }
    match session.undo() {
        Ok(()) => return Err("something was taken back".into()),
        Err(refusal) => println!("no more: refused {}, {}", refusal.cause.number(), refusal.cause),
    }
    if session.into_window().bytes != [0; 512] {
        return Err("the window isn't as it was at first".into());
    }
    Ok(())
}

fn main() -> ExitCode {
    let file = std::env::args().nth(1);
    match take_back(file.as_deref().unwrap_or("samples/input-board.xml")) {
        Ok(()) => ExitCode::SUCCESS,
        Err(why) => {
            eprintln!("take_back: {why}");
            ExitCode::FAILURE
        }
    }
}
