//! Changes two settings of a node: plans its description, lists three settings, writes two of them and reads them back, and shows a refusal.
//!
//!     configure [FILE]
//!
//! FILE is a description, without it samples/input-board.xml of the current folder; in another one settings 3 and 4 must be a string and an int in
//! the same window too. The example in C prints the same lines. The status is 1 where the file can't be read, or a call is refused that shouldn't be.

use planksling::{Description, Reading, Value, Window};
use std::error::Error;
use std::process::ExitCode;

/// The first setting that is listed, a string, and the next one, an int.
const LABEL: u64 = 3;
const DEBOUNCE: u64 = 4;

/// A value as it is printed here: texts in quotes.
fn shown(value: &Value<'_>) -> String {
    match value {
        Value::Text(text) => format!("\"{text}\""),
        other => other.to_string(),
    }
}

fn tell(n: u64, reading: &Reading<'_>) {
    let writable = if reading.writable { "writable" } else { "not writable" };
    println!("{n} is {}, {writable}", shown(&reading.value));
}

/// Writes a value, and reads it back.
fn set(
    description: &Description,
    n: u64,
    window: &mut Window<[u8; 288]>,
    value: Value<'_>,
) -> Result<(), Box<dyn Error>> {
    description.write(n, window, &value)?;
    println!("wrote {} to {n}", shown(&value));
    tell(n, &description.read(n, window)?);
    Ok(())
}

fn configure(file: &str) -> Result<(), Box<dyn Error>> {
    // a file has no closing zero
    let mut text = std::fs::read(file).map_err(|why| format!("{file}: {why}"))?;
    text.push(0);
    let description = match Description::try_from(text) {
        Ok(description) => description,
        Err(refusal) => {
            println!("refused {} at {}", refusal.cause.number(), refusal.place);
            return Err(refusal.into());
        }
    };
    println!("records {}, variables {}", description.record_count(), description.variable_count());

    for variable in description.iter().skip(LABEL as usize).take(3) {
        let (space, address, size) = (variable.space, variable.address, variable.size);
        println!("{}: space {space}, address {address}, size {size}, {}", variable.number, variable.kind);
    }

    // what a program has read from the node: space 253 from address 128 on
    let mut window = Window::new(253, 128, [0; 288]);
    set(&description, DEBOUNCE, &mut window, 250.into())?;
    set(&description, LABEL, &mut window, "Platform 1".into())?;

    // the debounce time is at most 5000, and a refused write changes nothing
    let before = window;
    match description.write(DEBOUNCE, &mut window, 5001) {
        Ok(()) => return Err("5001 was accepted".into()),
        Err(refusal) => println!("5001 to {DEBOUNCE}: refused {}, {}", refusal.cause.number(), refusal.cause),
    }
    if window != before {
        return Err("a refused write changed the window".into());
    }
    tell(DEBOUNCE, &description.read(DEBOUNCE, &window)?);
    Ok(())
}

fn main() -> ExitCode {
    let file = std::env::args().nth(1);
    match configure(file.as_deref().unwrap_or("samples/input-board.xml")) {
        Ok(()) => ExitCode::SUCCESS,
        Err(why) => {
            eprintln!("configure: {why}");
            ExitCode::FAILURE
        }
    }
}
