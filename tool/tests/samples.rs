//! Every sample, and what the tool says of it.

mod tool;

use planksling::{Cause, Description, Refusal};
use planksling_backup::Cause as OfBackups;
use std::collections::BTreeSet;
use std::fs;
use std::path::PathBuf;
use tool::json::Json;
use tool::{segment, Folder, Told, ROOT, SAMPLES};

/// The one description of samples/refusals that is accepted.
const ACCEPTED: &str = "settings";

/// The one backup there that is good.
const GOOD: &str = "good";

fn refusals() -> PathBuf {
    PathBuf::from(SAMPLES).join("refusals")
}

fn stored(name: &str) -> String {
    fs::read_to_string(refusals().join(name)).unwrap_or_else(|why| panic!("{name}: {why}"))
}

/// The names of the files in samples/refusals that end so, without that.
fn names(end: &str) -> Vec<String> {
    let entries = fs::read_dir(refusals()).expect("samples");
    let names = entries.map(|entry| entry.expect("a sample").file_name().into_string().expect("a name"));
    let mut names: Vec<String> = names.filter_map(|name| Some(name.strip_suffix(end)?.to_string())).collect();
    names.sort();
    names
}

/// A copy of samples/refusals, with the texts that are too large to be kept.
fn folder() -> Folder {
    let folder = Folder::new();
    for entry in fs::read_dir(refusals()).expect("samples") {
        let entry = entry.expect("a sample");
        fs::copy(entry.path(), folder.path.join(entry.file_name())).expect("a copy");
    }
    let letters = |count| format!("{ROOT}{}", "x".repeat(count));
    folder.put("1-no-room-for-the-zero.xml", letters(65_536 - ROOT.len()));
    folder.put("1-too-long.xml", letters(70_000));
    folder.put("7-element-4097.xml", segment(&"<int/>\n".repeat(4095)));
    folder
}

/// The refusal's number that a sample's name begins with.
fn number(name: &str) -> usize {
    let digits: String = name.chars().take_while(char::is_ascii_digit).collect();
    digits.parse().expect("a name that begins with a number")
}

/// The tool says what is stored, in words and as JSON, and both say the same.
fn holds(name: &str, told: &Told, json: &Told) {
    assert_eq!((told.status, json.status), (1, 1), "{name}");
    assert_eq!((&told.out[..], &json.err[..]), ("", ""), "{name}");
    assert_eq!(told.err, stored(&format!("{name}.told")), "{name}.told");
    assert_eq!(json.out, stored(&format!("{name}.json")), "{name}.json");
    let object = Json::read(&json.out);
    assert_eq!(object.number("refused"), number(name) as u64);
    let at = match (object.has("line"), object.has("block")) {
        (true, _) => format!(":{}:{}", object.number("line"), object.number("column")),
        (_, true) => format!(": block {}", object.number("block")),
        _ => String::new(),
    };
    let head = format!("{}{at}: refused {}: {}\n", object.text("file"), number(name), object.text("rule"));
    assert!(told.err.starts_with(&head), "{name}: {head}");
    let words = |text: &str| text.split_whitespace().collect::<Vec<_>>().join(" ");
    let said = words(&told.err);
    assert!(said.contains(&words(object.text("what"))) && said.contains(&words(object.text("mend"))), "{name}");
    let Json::List(notes) = object.get("notes") else { panic!("{name}: no notes") };
    assert!(notes.iter().all(|note| matches!(note, Json::Text(note) if said.contains(&words(note)))), "{name}");
}

#[test]
fn refused_descriptions() {
    let folder = folder();
    let told: BTreeSet<String> = names(".told").into_iter().collect();
    let texts = folder.names().into_iter().filter_map(|name| Some(name.strip_suffix(".xml")?.to_string()));
    let texts: Vec<String> = texts.filter(|name| name != ACCEPTED).collect();
    let calls = names(".args");
    assert_eq!(told, texts.iter().chain(&calls).cloned().collect());
    for name in &texts {
        let file = format!("{name}.xml");
        holds(name, &folder.run(&["check", &file]), &folder.run(&["check", "--json", &file]));
        // all commands refuse it in the same words
        let stored = stored(&format!("{name}.told"));
        let window = format!("--window={name}.told");
        for words in [vec!["list", &file], vec!["show", &file, "0"], vec!["read", &file, "0", &window]] {
            folder.run(&words).failed(1, &stored);
        }
        folder.run(&["write", &file, "0", "0", &window]).failed(1, &stored);
        folder.run(&["edit", &file, "0", "0", &window, "--journal=none.journal"]).failed(1, &stored);
        folder.run(&["undo", &file, &window, "--journal=none.journal"]).failed(1, &stored);
    }
}

#[test]
fn refused_calls() {
    let folder = folder();
    let files: Vec<String> = folder.names();
    let kept = files.iter().filter(|name| [".window", ".journal", ".backup"].iter().any(|end| name.ends_with(end)));
    let state = || kept.clone().map(|name| folder.state(name)).collect::<Vec<_>>();
    for name in names(".args") {
        let line = stored(&format!("{name}.args"));
        let before = state();
        holds(&name, &folder.run_line(&line), &folder.run_line(&format!("{line} --json")));
        assert!(before == state(), "{name} touched a window, a journal or a backup");
    }
    assert_eq!(folder.names(), files);
}

/// Of each backup the tool reports what is stored, in words and as JSON, and begins with what it says when giving the window back.
#[test]
fn inspected_backups() {
    let folder = folder();
    let backups = names(".backup");
    assert_eq!(backups, names(".report"));
    assert_eq!(backups, names(".report.json"));
    for name in backups {
        let file = format!("{name}.backup");
        let (told, json) = (folder.run(&["inspect", &file]), folder.run(&["inspect", &file, "--json"]));
        let status = i32::from(name != GOOD);
        assert_eq!((told.status, &told.err[..], json.status, &json.err[..]), (status, "", status, ""), "{name}");
        assert_eq!(told.out, stored(&format!("{name}.report")), "{name}.report");
        assert_eq!(json.out, stored(&format!("{name}.report.json")), "{name}.report.json");
        if name != GOOD {
            let refusal = stored(&format!("{name}.told"));
            let (refusal, _) = refusal.split_once("`planksling inspect`").expect("a word on inspecting");
            assert!(told.out.starts_with(refusal), "{name}");
            let first = Json::read(json.out.split_inclusive('\n').next().expect("a line"));
            assert_eq!(first.number("refused"), number(&name) as u64);
        }
    }
    folder.run_line("restore good.backup new.window").printed("new.window: restored, 1100 bytes of space 253\n");
    assert_eq!(folder.bytes("new.window"), folder.bytes("good.window"));
}

/// There is a sample of each refusal that the tool can tell. 13, 20 and 41 it can't: it lends room, and hands over the table it planned.
#[test]
fn every_refusal() {
    let told: BTreeSet<usize> = names(".told").iter().map(|name| number(name)).collect();
    let all = Cause::ALL.iter().map(|cause| cause.number());
    let all: BTreeSet<usize> = all.chain(OfBackups::ALL.iter().map(|cause| cause.number())).collect();
    let never = [Cause::TableTooShort.number(), Cause::NotAPlan.number(), OfBackups::NoRoom.number()];
    assert_eq!(told, all.difference(&BTreeSet::from(never)).copied().collect());
}

/// What the library itself says of a file's bytes, with a zero behind them.
fn asked(bytes: &[u8]) -> Result<Description, Refusal> {
    let bytes = &bytes[..bytes.len().min(65_536)];
    Description::try_from([bytes, b"\0"].concat())
}

/// Line and column of a place, counted once more. The end of the text is told behind its last character that is no newline.
fn counted(bytes: &[u8], place: usize) -> (u64, u64) {
    let content = bytes.split(|&byte| byte == 0).next().expect("a content");
    let content = &content[..content.len().min(65_536)];
    let mut before = String::from_utf8_lossy(&content[..place.min(content.len())]).into_owned();
    if place == content.len() {
        before.truncate(before.trim_end_matches('\n').len());
    }
    let lines: Vec<&str> = before.split('\n').collect();
    (lines.len() as u64, lines[lines.len() - 1].chars().count() as u64 + 1)
}

/// The tool's number, place, line and column are those of the library and of the text.
fn agrees(name: &str, bytes: &[u8], json: &Told) {
    let object = Json::read(&json.out);
    match asked(bytes) {
        Ok(description) => {
            assert_eq!(json.status, 0, "{name}");
            assert_eq!(object.number("variables"), description.variable_count(), "{name}");
            assert_eq!(object.number("records"), description.record_count() as u64, "{name}");
        }
        Err(Refusal { cause, place }) => {
            assert_eq!(json.status, 1, "{name}");
            assert_eq!((object.number("refused"), object.number("place")), (cause.number() as u64, place as u64));
            let at = (object.number("line"), object.number("column"));
            assert_eq!(at, counted(bytes, place), "{name}: {:?}", object);
            // what stands at the mark is what stands in the text there
            let marked = object.text("shown").chars().nth(object.number("mark") as usize);
            if let Some(c) = marked.filter(char::is_ascii) {
                assert_eq!(bytes.get(place).copied(), Some(c as u8), "{name}");
            }
        }
    }
}

#[test]
fn places_of_the_samples() {
    let folder = folder();
    for name in folder.names().iter().filter(|name| name.ends_with(".xml")) {
        agrees(name, &folder.bytes(name), &folder.run(&["check", "--json", name]));
    }
}

#[test]
fn lists_of_the_samples() {
    let folder = Folder::new();
    for entry in fs::read_dir(SAMPLES).expect("samples") {
        let path = entry.expect("a sample").path();
        if path.extension().is_none_or(|end| end != "xml") {
            continue;
        }
        let list = fs::read_to_string(path.with_extension("list")).expect("its list");
        let path = path.to_str().expect("a name");
        let told = folder.run(&["list", path]);
        match list.strip_prefix("refused ") {
            None => {
                told.printed(&list);
                lists_json(&list, &folder.run(&["list", path, "--json"]));
            }
            // the program `list` has a table of 1,024 records, the tool one for all
            Some("13 at 0\n") => assert_eq!(told.status, 0),
            Some(refusal) => {
                let (number, place) = refusal.trim().split_once(" at ").expect("a place");
                let json = Json::read(&folder.run(&["list", path, "--json"]).out);
                assert_eq!((told.status, json.number("refused").to_string()), (1, number.to_string()));
                assert_eq!(json.number("place").to_string(), place);
            }
        }
    }
}

/// As JSON the list has an object for each line but the first.
fn lists_json(list: &str, told: &Told) {
    assert_eq!(told.out.lines().count(), list.lines().count() - 1);
    for (line, json) in list.lines().skip(1).zip(told.out.split_inclusive('\n')) {
        let object = Json::read(json);
        let numbers = ["number", "space", "address", "size"].map(|key| object.number(key).to_string());
        assert_eq!(format!("{} {}", numbers.join(" "), object.text("kind")), line);
    }
}

/// Texts with one to three bytes changed, dropped or put in: the tool says what the library says, at the line and column of its place.
#[test]
fn changed_texts() {
    let folder = Folder::new();
    let good = fs::read(PathBuf::from(SAMPLES).join("input-board.xml")).expect("a sample");
    let mut state: u64 = 12;
    let mut below = |limit: usize| {
        state = state.wrapping_mul(6364136223846793005).wrapping_add(1442695040888963407);
        (state >> 33) as usize % limit
    };
    for round in 0..400 {
        let mut bytes = good.clone();
        for _ in 0..=below(3) {
            let at = below(bytes.len());
            let byte = [b'<', b'>', b'&', b'"', b'\n', b'\t', b' ', b'x', 0x1B, 0xC3, 0xFF, b'9'][below(12)];
            match below(4) {
                0 => drop(bytes.remove(at)),
                1 => bytes.insert(at, byte),
                2 => bytes.truncate(at.max(1)),
                _ => bytes[at] = byte,
            }
        }
        let json = folder.run_with(&bytes, &["check", "--json", "-"]);
        agrees(&format!("text {round}"), &bytes, &json);
        let plain = folder.run_with(&bytes, &["check", "-"]);
        assert_eq!(plain.status, json.status);
    }
}
