//! Turns a stream of cases into statements about the definitions: each says that the definitions compute to the answer
//! that the reference program gives. They are written as the specs of a crate into a folder that must not exist yet.

use std::fmt::Write as _;
use std::fs;
use std::io::{self, BufReader};
use std::path::Path;
use std::process::ExitCode;

use reference::{answer, Access, Answer, Case, Frames, Refusal};

/// How many statements stand in one file.
const PER_FILE: usize = 25;

const USES: &str =
    "use Rattle.std.specs.Prelude.{◌≡◌, refl, List, [], ◌∷◌, ◌++◌, true, false, ℕ, zero, suc, ◌+◌, ℤ, pos, negsuc}
use Rattle.cdi.specs.Lists.{ascii}
use Rattle.cdi.specs.Faults.{Answer, accepted, refused, fault}
use Rattle.cdi.specs.Walk.{Found}
use Rattle.cdi.specs.Plans.{locating}
use Rattle.cdi.specs.Planning.{Counts, planned, table_after}
use Rattle.cdi.specs.Values.{with_sign}
use Rattle.cdi.specs.Access.{Window, Value, integer, event, string, written, window_after, Reading, read}
use Rattle.cdi.specs.Worked.{all_pages}
";

/// What a frame asks, as one definition for each kind of frame, with the lent memory afterwards.
const ASKED: &str = "
-- number i of a lent table holds -7 - i
unfoldable pub lent_from : ℕ → ℕ → List ℤ
lent_from i zero = []
lent_from i (suc n) = negsuc (6 + i) ∷ lent_from (i + 1) n

unfoldable pub plans : ℕ → List ℕ → Answer Counts × List ℤ
plans room text = (planned text (lent_from 0 room), table_after text (lent_from 0 room))

unfoldable pub window : ℕ → ℕ → List ℕ → Window
window space first bytes = record { space = space; first = first; bytes = bytes }

unfoldable pub writes : List ℕ → List ℤ → ℕ → Window → Value → Answer (Unit {0}) × List ℕ
writes text table n w v = (written text table n w v, window_after text table n w v)

unfoldable pub asked : Unit {0}
unfolding all_pages lent_from plans window writes
asked = tt
";

fn plain(byte: u8) -> bool {
    byte == b'\n' || (b' '..=b'~').contains(&byte)
}

/// Bytes that are plain, as a quoted text.
fn quoted(bytes: &[u8]) -> String {
    let mut text = String::from("ascii \"");
    for byte in bytes {
        match byte {
            b'\n' => text.push_str("\\n"),
            b'"' => text.push_str("\\\""),
            b'\\' => text.push_str("\\\\"),
            _ => text.push(*byte as char),
        }
    }
    text.push('"');
    text
}

fn numbers(items: impl Iterator<Item = String>) -> String {
    let mut list = String::new();
    for item in items {
        let _ = write!(list, "{item} ∷ ");
    }
    list + "[]"
}

/// A list of bytes, in runs of plain ones and others.
fn bytes(all: &[u8]) -> String {
    let runs: Vec<String> = all
        .chunk_by(|a, b| plain(*a) == plain(*b))
        .map(|run| if plain(run[0]) { quoted(run) } else { numbers(run.iter().map(u8::to_string)) })
        .collect();
    match runs.split_last() {
        None => "[]".to_string(),
        Some((last, before)) => {
            before.iter().rev().fold(format!("({last})"), |rest, run| format!("(({run}) ++ {rest})"))
        }
    }
}

fn whole(number: i128) -> String {
    if number < 0 {
        format!("negsuc {}", -(number + 1))
    } else {
        format!("pos {number}")
    }
}

fn table(all: &[i64]) -> String {
    format!("({})", numbers(all.iter().map(|number| whole(*number as i128))))
}

fn refused(refusal: &Refusal) -> String {
    format!("refused (fault {} {})", refusal.number, refusal.place)
}

fn reading(value: &str, accepted: bool) -> String {
    format!("accepted (record {{ value = {value}; writable = {accepted} }})")
}

fn accessed(access: &Access) -> String {
    let Access { table: lent, n, space, first, window, .. } = access;
    format!("{} {n} (window {space} {first} {})", table(lent), bytes(window))
}

/// The text of a case, and what is asked of it; `text` is the name under which the statement finds it.
fn question(case: &Case, text: &str) -> (Vec<u8>, String) {
    match case {
        Case::Plan { room, text: own } => (own.clone(), format!("plans {room} {text}")),
        Case::Locate { table: lent, n } => (Vec::new(), format!("locating {} {n}", table(lent))),
        Case::WriteInteger { access, negative, magnitude } => (
            access.text.clone(),
            format!("writes {text} {} (integer (with_sign {negative} {magnitude}))", accessed(access)),
        ),
        Case::WriteEvent { access, value } => {
            (access.text.clone(), format!("writes {text} {} (event {value})", accessed(access)))
        }
        Case::WriteText { access, value } => {
            (access.text.clone(), format!("writes {text} {} (string {})", accessed(access), bytes(value)))
        }
        Case::Leaf(_) | Case::Session { .. } | Case::Store { .. } | Case::Restore { .. } => {
            unreachable!("single readings, sessions and backups are refused before")
        }
        Case::Read { access } => (access.text.clone(), format!("read {text} {}", accessed(access))),
    }
}

fn told(answer: &Answer) -> String {
    match answer {
        Answer::Planned { records, variables, table: lent } => {
            format!("(accepted (record {{ records = {records}; variables = {variables} }}), {})", table(lent))
        }
        Answer::PlanRefused { refusal, table: lent } => format!("({}, {})", refused(refusal), table(lent)),
        Answer::Found { record, space, address, size, kind } => {
            let kind = kind.field();
            format!("accepted (record {{ number = {record}; space = {space}; address = {address}; size = {size}; kind = {kind} }})")
        }
        Answer::LocateRefused { refusal } | Answer::ReadRefused { refusal } => refused(refusal),
        Answer::Written { window } => format!("(accepted tt, {})", bytes(window)),
        Answer::WriteRefused { refusal, window } => format!("({}, {})", refused(refusal), bytes(window)),
        Answer::Integer { value, accepted } => reading(&format!("integer ({})", whole(*value)), *accepted),
        Answer::Event { value, accepted } => reading(&format!("event {value}"), *accepted),
        Answer::Leaf { .. }
        | Answer::Session { .. }
        | Answer::Stored { .. }
        | Answer::Restored { .. }
        | Answer::BackupRefused { .. } => unreachable!("single readings, sessions and backups are refused before"),
        Answer::Text { bytes: value, accepted } => reading(&format!("string {}", bytes(value)), *accepted),
    }
}

fn statement(index: usize, case: &Case) -> String {
    let name = format!("text_{index}");
    let (text, asked) = question(case, &name);
    let told = told(&answer(case));
    format!(
        "\n{name} : List ℕ\n{name} = {}\n\ncase_{index} : {asked} ≡ {told}\nunfolding asked {name}\ncase_{index} = refl\n",
        bytes(&text)
    )
}

/// Whether nothing is stated about a case.
fn is_refused(case: &Case) -> bool {
    matches!(case, Case::Leaf(_) | Case::Session { .. } | Case::Store { .. } | Case::Restore { .. })
}

/// Writes the crate of statements.
fn put(folder: &Path, cases: &[Case]) -> io::Result<()> {
    fs::create_dir(folder)?;
    fs::create_dir(folder.join("src"))?;
    fs::create_dir(folder.join("specs"))?;
    fs::write(folder.join("src/lib.rt"), "// Statements about the definitions; no code.\n")?;
    fs::write(folder.join("specs/Asked.antt"), format!("-- What the frames ask.\n{USES}{ASKED}"))?;
    let crate_name = folder.file_name().map(|name| name.to_string_lossy().into_owned()).unwrap_or_default();
    let mut modules = String::from("pub mod Asked\n");
    for (part, cases) in cases.chunks(PER_FILE).enumerate() {
        let uses = format!("{USES}use Rattle.{crate_name}.specs.Asked.{{plans, window, writes, asked}}\n");
        let statements: String =
            cases.iter().enumerate().map(|(index, case)| statement(part * PER_FILE + index, case)).collect();
        fs::write(folder.join(format!("specs/Part{part}.antt")), format!("-- Statements.\n{uses}{statements}"))?;
        let _ = writeln!(modules, "pub mod Part{part}");
    }
    fs::write(folder.join("specs/Lib.antt"), modules)
}

fn main() -> ExitCode {
    let arguments: Vec<String> = std::env::args().skip(1).collect();
    let [folder] = arguments.as_slice() else {
        eprintln!("usage: statements FOLDER < cases");
        return ExitCode::from(2);
    };
    let cases: Result<Vec<Case>, _> = Frames::new(BufReader::new(io::stdin().lock())).collect();
    let cases = match cases {
        Ok(cases) => cases,
        Err(bad) => {
            eprintln!("bad frame at byte {}: {}", bad.place, bad.why);
            return ExitCode::from(1);
        }
    };
    if cases.iter().any(is_refused) {
        eprintln!("a frame of a single reading, a session or a backup, about which nothing is stated");
        return ExitCode::from(1);
    }
    if let Err(error) = put(Path::new(folder), &cases) {
        eprintln!("{folder}: {error}");
        return ExitCode::from(1);
    }
    println!("{} statements", cases.len());
    ExitCode::SUCCESS
}
