//! The samples of the repository, held to their stored lines: those that the program which lists prints.

mod texts;

use planksling::{lent, Cause, Description, Table, FIELDS};
use std::fs;
use std::path::{Path, PathBuf};
use texts::closed;

/// The records that the program which lists has room for.
const ROOM: usize = 1_024;

fn samples() -> Vec<PathBuf> {
    let folder = Path::new(env!("CARGO_MANIFEST_DIR")).join("../samples");
    let mut files: Vec<PathBuf> =
        fs::read_dir(folder).expect("samples").map(|file| file.expect("a file").path()).collect();
    files.retain(|file| file.extension().is_some_and(|end| end == "xml"));
    files.sort();
    files
}

/// What the program would print.
fn printed(text: &str) -> String {
    let mut table = vec![0; FIELDS * ROOM];
    let counts = match lent::plan(&closed(text), &mut table) {
        Ok(counts) => counts,
        Err(refusal) => return format!("refused {} at {}\n", refusal.cause.number(), refusal.place),
    };
    table.truncate(FIELDS * counts.records);
    let table = Table::try_from(table).expect("a plan");
    let lines = table.iter().map(|variable| format!("{variable}\n"));
    format!("variables {}\n", counts.variables) + &lines.collect::<String>()
}

#[test]
fn as_stored() {
    let files = samples();
    assert!(10 <= files.len(), "{} samples", files.len());
    for file in files {
        let text = fs::read_to_string(&file).expect("a sample");
        let stored = fs::read_to_string(file.with_extension("list")).expect("its lines");
        assert_eq!(printed(&text), stored, "{}", file.display());
    }
}

#[test]
fn as_descriptions() {
    for file in samples() {
        let text = fs::read_to_string(&file).expect("a sample");
        let stored = fs::read_to_string(file.with_extension("list")).expect("its lines");
        let told = text.parse::<Description>();
        // a description has room for every table
        if stored == "refused 13 at 0\n" {
            assert!(ROOM < told.expect("accepted").record_count());
            continue;
        }
        match told {
            Ok(description) => {
                let lines = description.iter().map(|variable| format!("{variable}\n"));
                let count = format!("variables {}\n", description.variable_count());
                assert_eq!(count + &lines.collect::<String>(), stored);
                assert_eq!(description.text(), text);
            }
            Err(refusal) => {
                assert_ne!(refusal.cause, Cause::TableTooShort);
                let head = format!("refused {} at {}", refusal.cause.number(), refusal.place);
                assert_eq!(stored.trim_end(), head);
                assert_eq!(refusal.to_string(), format!("{head}: {}", refusal.cause));
            }
        }
    }
}
