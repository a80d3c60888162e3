//! Descriptions that can't be read or are odd, and output that can't be written.

mod tool;

use std::ffi::OsStr;
use std::fs::{self, File};
use std::io::Read;
use std::os::unix::ffi::OsStrExt;
use std::os::unix::fs::PermissionsExt;
use std::process::Stdio;
use std::time::{Duration, Instant};
use tool::json::Json;
use tool::{segment, Folder, Told, ROOT};

const MANY: &str = "<group replication=\"1000000\"><int size=\"2\"/></group>\n";

#[test]
fn empty_file() {
    let folder = Folder::new();
    folder.put("a", "");
    folder.run(&["check", "a"]).failed(1, "a:1:1: refused 3: first line differs\n\n    ^\n");
    folder.run(&["list", "a"]).failed(1, "The file is empty.\n");
    folder.run(&["list", "-"]).failed(1, "-:1:1: refused 3");
}

#[test]
fn no_file() {
    let folder = Folder::new();
    folder.put("w", [0; 8]);
    let calls = ["list a", "check a", "show a 0", "read a 0 --window w", "write a 0 1 --window w"];
    let edits = ["edit a 0 1 --window w --journal j", "undo a --window w --journal j"];
    for words in calls.into_iter().chain(edits) {
        folder.run_line(words).failed(3, "planksling: a can't be read: there is no such file\n");
        folder.run_line(&format!("{words} --json")).failed(3, "there is no such file");
    }
    for words in ["store a b --space 1", "restore a b", "inspect a"] {
        folder.run_line(words).failed(3, "planksling: a can't be read: there is no such file\n");
        folder.run_line(&format!("{words} --json")).failed(3, "there is no such file");
    }
    folder.run(&["list", ""]).failed(3, " can't be read: there is no such file");
    folder.run(&["list", "a/b"]).failed(3, "a/b can't be read: there is no such file");
    folder.run(&["list", "w/b"]).failed(3, "w/b can't be read: not a directory");
    folder.run(&["list", &"long".repeat(100)]).failed(3, "can't be read: file name too long");
}

#[test]
fn a_folder() {
    let folder = Folder::new();
    folder.run(&["list", "."]).failed(3, "planksling: . can't be read: it is a folder\n");
    folder.run(&["check", "/"]).failed(3, "it is a folder");
    folder.shell("exec \"$0\" list - <.").failed(3, "- can't be read: it is a folder");
}

#[test]
fn a_file_that_may_not_be_read() {
    let folder = Folder::new();
    let file = folder.put("a", segment("<int/>\n"));
    fs::set_permissions(file, fs::Permissions::from_mode(0o000)).expect("permissions");
    folder.hand_over();
    folder.run_bound("list a").failed(3, "a can't be read: that isn't permitted");
}

/// Only the beginning of a large file is read: in little memory and at once.
#[test]
fn a_file_of_a_gigabyte() {
    let folder = Folder::new();
    let begun = Instant::now();
    let grown = |name, text: &str| {
        let file = File::options().write(true).open(folder.put(name, text)).expect("a file");
        file.set_len(1 << 30).expect("a sparse file");
    };
    grown("good", &segment("<int/>\n"));
    grown("open", &format!("{ROOT}<segment space=\"253\">\n"));
    grown("letters", &"x".repeat(100_000));
    let limited = |line: &str| folder.shell(&format!("ulimit -v 200000 && exec \"$0\" {line}"));
    // zeros follow, and the first one ends the text
    limited("list good").printed("variables 1\n0 253 0 1 int\n");
    limited("check open").failed(1, "open:4:22: refused 6");
    limited("check open").failed(1, "A zero byte ends the text here; what stands behind it doesn't count.\n");
    limited("check letters").failed(1, "refused 1: no zero byte at 65,535 or earlier\n");
    limited("check letters").failed(1, "The file has more than 65,536 bytes; no more were read.\n");
    // nor is more read of what has no end
    folder.shell("yes | \"$0\" check -").failed(1, "-:32768:2: refused 1");
    folder.shell("exec \"$0\" check /dev/zero").failed(1, "refused 3");
    assert!(begun.elapsed() < Duration::from_secs(20));
}

#[test]
fn the_largest_text_and_one_byte_more() {
    let folder = Folder::new();
    let filled = |length: usize| {
        let text = segment("<int/>\n");
        let rest = "<!---->".len();
        format!("{text}<!--{}-->", "x".repeat(length - text.len() - rest))
    };
    folder.put("a", filled(65_535));
    folder.run(&["list", "a"]).printed("variables 1\n0 253 0 1 int\n");
    folder.put("a", filled(65_535) + "\0");
    folder.run(&["list", "a"]).printed("variables 1\n0 253 0 1 int\n");
    for text in [filled(65_536), filled(65_536) + "\0", filled(65_537)] {
        folder.put("a", text);
        folder.run(&["list", "a"]).failed(1, "refused 1");
    }
}

/// A file's own zero ends its content; without one it gets one.
#[test]
fn closing_zero() {
    let folder = Folder::new();
    let text = segment("<int/>\n");
    for end in ["", "\0", "\0\0\0", "\0<int/> \u{1B} what stands behind changes nothing"] {
        folder.put("a", text.clone() + end);
        folder.run(&["list", "a"]).printed("variables 1\n0 253 0 1 int\n");
        folder.run_with((text.clone() + end).as_bytes(), &["list", "-"]).printed("variables 1\n0 253 0 1 int\n");
    }
}

#[test]
fn more_records_than_the_program_that_lists_takes() {
    let folder = Folder::new();
    folder.put("a", segment(&"<int/>".repeat(4094)));
    folder.run(&["check", "a"]).printed("a: accepted, 4095 records, 4094 variables\n");
}

#[test]
fn counts() {
    let folder = Folder::new();
    folder.put("a", format!("{ROOT}</cdi>"));
    folder.run(&["check", "a"]).printed("a: accepted, 0 records, 0 variables\n");
    folder.run(&["list", "a"]).printed("variables 0\n");
    folder.run(&["list", "a", "--json"]).printed("");
    folder.run(&["show", "a", "0"]).failed(1, "a: refused 21: no variable n\n");
    folder.run(&["show", "a", "0"]).failed(1, "The description has no variables.\n");
    folder.put("a", format!("{ROOT}<segment space=\"1\"/></cdi>"));
    folder.run(&["check", "a"]).printed("a: accepted, 1 record, 0 variables\n");
}

#[test]
fn a_reader_that_stops() {
    let folder = Folder::new();
    folder.put("a", segment(MANY));
    for words in [["list", "a"].as_slice(), &["list", "a", "--json"]] {
        let mut command = folder.command(words);
        let mut child = command.stdout(Stdio::piped()).stderr(Stdio::piped()).spawn().expect("a program");
        let mut begin = [0; 10];
        child.stdout.take().expect("standard output").read_exact(&mut begin).expect("a beginning");
        assert!(&begin == b"variables " || &begin == b"{\"number\":");
        let ended = child.wait_with_output().expect("an end");
        assert_eq!((ended.status.code(), &ended.stderr[..]), (Some(0), &b""[..]));
    }
    folder.shell("\"$0\" list a | head -n 1").printed("variables 1000000\n");
    // a refusal stays one, whoever reads it
    folder.put("b", "");
    folder.shell("{ sleep 0.3; \"$0\" check --json b; echo $? >status; } | true").printed("");
    assert_eq!(folder.bytes("status"), b"1\n");
}

#[test]
fn a_full_disk() {
    let folder = Folder::new();
    folder.put("a", segment("<int/>\n"));
    folder.put("many", segment(MANY));
    folder.put("bad", "");
    folder.put("w", [7]);
    let full = |words: &[&str]| {
        let file = File::create("/dev/full").expect("a full disk");
        Told::new(folder.command(words).stdout(file).output().expect("a program"))
    };
    let calls = ["list a", "list many", "check a", "show a 0", "read a 0 --window w", "help", "--version"];
    for line in calls.into_iter().chain(["list --json many", "check --json bad"]) {
        let words: Vec<&str> = line.split(' ').collect();
        full(&words).failed(3, "planksling: standard output can't be written: the disk is full\n");
    }
    // where nothing can be said the status is left
    let file = File::create("/dev/full").expect("a full disk");
    let ended = folder.command(&["check", "bad"]).stderr(file).status().expect("a program");
    assert_eq!(ended.code(), Some(1));
}

#[test]
fn a_million_variables() {
    let folder = Folder::new();
    folder.put("a", segment(MANY));
    let told = folder.run(&["list", "a"]);
    assert_eq!((told.status, told.out.lines().count()), (0, 1_000_001));
    assert!(told.out.starts_with("variables 1000000\n0 253 0 2 int\n1 253 2 2 int\n"));
    assert!(told.out.ends_with("\n999999 253 1999998 2 int\n"));
}

/// Names of files and texts that would make a terminal do things are shown harmlessly; `Told` looks at every answer.
#[test]
fn hostile_bytes() {
    let folder = Folder::new();
    let name = "\u{1B}[2J\u{9B}31m\u{202E}";
    folder.put(name, "\u{1B}]0;title\u{7}\u{1B}[31mred\r\n\u{9B}");
    folder.run(&["check", name]).failed(1, "\\x1B[2J\\u{9B}31m\\u{202E}:1:1: refused 2");
    folder.run(&["check", name]).failed(1, "\n    ·]0;title··[31mred·\n    ^\n");
    assert_eq!(Json::read(&folder.run(&["check", "--json", name]).out).text("file"), name);
    folder.run(&["check", "no\u{1B}file"]).failed(3, "no\\x1Bfile can't be read");
    folder.run(&["\u{1B}[2J"]).failed(2, "there is no command `\\x1B[2J`");
    folder.run(&["--\u{1B}[2J"]).failed(2, "there is no option `--\\x1B[2J`");
    folder.run(&["show", "a", "\u{1B}"]).failed(2, "`\\x1B` is no number");
    // a name that isn't UTF-8
    let name = OsStr::from_bytes(b"\xFF\x1B.xml");
    fs::write(folder.path.join(name), segment("<oops/>")).expect("a file");
    let output = folder.command(&["check"]).arg(name).output().expect("a program");
    Told::new(output).failed(1, "\u{FFFD}\\x1B.xml:5:1: refused 81");
}

/// Every byte at the refused place and before it, in words and as JSON.
#[test]
fn every_byte() {
    let folder = Folder::new();
    for byte in 1..=255 {
        let text = [ROOT.as_bytes(), b"<!-- ", &[byte], b" --><oops/></cdi>"].concat();
        let told = folder.run_with(&text, &["check", "-"]);
        assert_eq!(told.status, 1);
        let json = folder.run_with(&text, &["check", "--json", "-"]);
        assert_eq!(json.status, 1);
        assert!(Json::read(&json.out).has("refused"));
    }
}
