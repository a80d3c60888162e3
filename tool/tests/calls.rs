//! The words of a call: right ones in any order, and wrong ones.

mod tool;

use std::ffi::OsStr;
use std::os::unix::ffi::OsStrExt;
use tool::json::Json;
use tool::{segment, Folder, Told};

fn folder() -> Folder {
    let folder = Folder::new();
    folder.put("a", segment("  <int size=\"2\"><min>-9</min></int>\n\t<string size=\"9\"/>\n"));
    folder.put("w", [0; 11]);
    folder
}

#[test]
fn options_in_any_order() {
    let folder = folder();
    for line in [
        "write a 0 -5 --window w --space 253 --first 0",
        "--window w write a 0 -5",
        "write --first 0 a --window=w 0 --space=0xFD -5",
        "--space 253 --window w --first=0x0 write a 0 -5",
        "write --window w -- a 0 -5",
        "write --window w a 0 -- -5",
    ] {
        folder.put("w", [0; 11]);
        folder.run_line(line).printed("variable 0 is now -5\n");
    }
    for line in ["read a 0 --window w --json", "--json read --window w a 0", "read --json --json -- a 0"] {
        let line = if line.contains("--window") { line.to_string() } else { format!("--window w {line}") };
        assert_eq!(Json::read(&folder.run_line(&line).out).text("value"), "-5");
    }
    // a text that begins with a minus, and one with blanks
    folder.run(&["write", "--window", "w", "a", "1", "--", "--json"]).printed("variable 1 is now \"--json\"\n");
    folder.run(&["write", "--window", "w", "a", "1", "a b"]).printed("variable 1 is now \"a b\"\n");
    folder.run(&["write", "--window", "w", "a", "1", "-"]).printed("variable 1 is now \"-\"\n");
    folder.run(&["write", "--window", "w", "a", "1", "-7x"]).printed("variable 1 is now \"-7x\"\n");
}

#[test]
fn standard_input() {
    let folder = folder();
    let text = folder.bytes("a");
    folder.run_with(&text, &["list", "-"]).printed("variables 2\n0 253 0 2 int\n1 253 2 9 string\n");
    folder.run_with(&text, &["check", "-"]).printed("-: accepted, 3 records, 2 variables\n");
    folder.run_with(&text, &["read", "-", "0", "--window", "w"]).printed("0\n");
    // a file of that name
    folder.put("-", b"");
    folder.run(&["check", "./-"]).failed(1, "./-:1:1: refused 3");
}

#[test]
fn show() {
    let folder = folder();
    folder.run_line("show a 1").printed(concat!(
        "variable 1\n  kind     string\n  space    253\n  address  2 (0x2)\n  size     9 bytes\n  record   2\n",
        "a:6:2\n    \t<string size=\"9\"/>\n    \t^\n",
    ));
    let json = Json::read(&folder.run_line("show a 1 --json").out);
    assert_eq!(["number", "space", "address", "size", "record"].map(|key| json.number(key)), [1, 253, 2, 9, 2]);
    assert_eq!((json.text("kind"), json.number("line"), json.number("column")), ("string", 6, 2));
    folder.run_line("show a 2").failed(1, "The description has 2 variables, 0 to 1.\n");
    folder.run_line("show a 99999999999999999999999").failed(1, "refused 21");
}

#[test]
fn help() {
    let folder = Folder::new();
    for line in ["help", "--help", "-h"] {
        let told = folder.run_line(line);
        assert!(told.status == 0 && told.err.is_empty() && told.out.contains("planksling write FILE N VALUE"));
    }
    let commands = ["list", "check", "show", "read", "write", "edit", "undo", "store", "restore", "inspect", "help"];
    for command in commands {
        let told = folder.run(&["help", command]);
        assert!(told.status == 0 && told.out.starts_with(&format!("planksling {command} ")), "{told:?}");
        assert!(told.out.lines().skip(1).all(|line| line.chars().count() <= 80), "{command}");
        assert_eq!(folder.run(&[command, "--help"]), told);
        assert_eq!(folder.run(&["-h", command]), told);
    }
    let told = folder.run(&["help"]);
    assert!(told.out.lines().all(|line| line.chars().count() <= 80));
    let version = folder.run(&["--version"]);
    version.printed(concat!("planksling ", env!("CARGO_PKG_VERSION"), "\n"));
}

/// Each wrong call says what is wrong, and how it is meant where that is known; nothing is done.
#[test]
fn wrong_calls() {
    let folder = folder();
    let before = folder.state("w");
    let calls = [
        ("", "no command is given"),
        ("lst a", "there is no command `lst`"),
        ("help lst", "there is no command `lst`"),
        ("--help lst", "there is no command `lst`"),
        ("a", "there is no command `a`"),
        ("list", "list needs FILE"),
        ("list a b", "`b` is a word too many"),
        ("check", "check needs FILE"),
        ("show a", "show needs N"),
        ("show a -1", "`-1` is no number of a variable"),
        ("show a 1.5", "`1.5` is no number of a variable"),
        ("show a +1", "`+1` is no number of a variable"),
        ("show a 0x1", "`0x1` is no number of a variable"),
        ("show a one", "`one` is no number of a variable"),
        ("read a 0", "read needs --window FILE"),
        ("read a --window w", "read needs N"),
        ("read a 0 --window", "--window needs a value behind it"),
        ("read a 0 --window=", "--window needs the name of a file"),
        ("read a 0 --window -", "--window needs the name of a file"),
        ("read a 0 --window w --window w", "--window stands twice"),
        ("read a 0 --window w --space x", "--space needs a number, as 128 or 0x80, and `x` is none"),
        ("read a 0 --window w --space -1", "--space needs a number"),
        ("read a 0 --window w --first 0x", "--first needs a number"),
        ("read a 0 --window w --first 0xG", "--first needs a number"),
        ("read a 0 --window w --first=", "--first needs a number"),
        ("read a 0 1 --window w", "`1` is a word too many"),
        ("write a 0 --window w", "write needs VALUE"),
        ("write a 1 a b --window w", "`b` is a word too many; a text with blanks is put in quotes"),
        ("write a x 1 --window w", "`x` is no number of a variable"),
        ("write a 1 -x --window w", "there is no option `-x`; put `--` in front"),
        ("edit a 0 --window w --journal j", "edit needs VALUE"),
        ("edit a 0 1 --window w", "edit needs --journal FILE"),
        ("edit a 0 1 --journal j", "edit needs --window FILE"),
        ("edit a 0 1 --window w --journal -", "--journal needs the name of a file"),
        ("edit a 0 1 --window w --journal j --journal j", "--journal stands twice"),
        ("edit a 1 a b --window w --journal j", "`b` is a word too many; a text with blanks is put in quotes"),
        ("undo --window w --journal j", "undo needs FILE"),
        ("undo a --window w", "undo needs --journal FILE"),
        ("undo a --journal j", "undo needs --window FILE"),
        ("undo a 0 --window w --journal j", "`0` is a word too many"),
        ("undo a --window w --journal j --space 1", "--space is for read, write, edit and store"),
        ("undo a --window w --journal j --first 1", "--first is for read, write and edit"),
        ("write a 0 1 --window w --journal j", "--journal is for edit and undo"),
        ("list a --journal j", "--journal is for edit and undo"),
        ("list a --window w", "--window is for read, write, edit and undo"),
        ("check a --space 1", "--space is for read, write, edit and store"),
        ("show a 0 --first 1", "--first is for read, write and edit"),
        ("store", "store needs WINDOW"),
        ("store w", "store needs BACKUP"),
        ("store w b", "store needs --space N"),
        ("store w b --space", "--space needs a value behind it"),
        ("store w b --space x", "--space needs a number, as 128 or 0x80, and `x` is none"),
        ("store w b --space -1", "--space needs a number"),
        ("store w b c --space 1", "`c` is a word too many"),
        ("store - b --space 1", "WINDOW needs the name of a file"),
        ("store w - --space 1", "BACKUP needs the name of a file"),
        ("store w b --space 1 --first 0", "--first is for read, write and edit"),
        ("store b --window w --space 1", "store needs BACKUP"),
        ("store w b --window w --space 1", "--window is for read, write, edit and undo"),
        ("store w w --space 1", "the backup is the window's own file"),
        ("store w ./w --space 1", "the backup is the window's own file"),
        ("restore", "restore needs BACKUP"),
        ("restore b", "restore needs WINDOW"),
        ("restore - w", "BACKUP needs the name of a file"),
        ("restore b -", "WINDOW needs the name of a file"),
        ("restore b w --space 1", "--space is for read, write, edit and store"),
        ("restore w w", "the window is the backup's own file"),
        ("inspect", "inspect needs BACKUP"),
        ("inspect -", "BACKUP needs the name of a file"),
        ("inspect w w", "`w` is a word too many"),
        ("inspect w --space 1", "--space is for read, write, edit and store"),
        ("inspect w --journal j", "--journal is for edit and undo"),
        ("list a --jsn", "there is no option `--jsn`"),
        ("list a --json=yes", "there is no option `--json=yes`"),
        ("-x", "there is no option `-x`"),
        ("help list check", "`check` is a word too many"),
    ];
    for (line, words) in calls {
        let told = folder.run_line(line);
        told.failed(2, &format!("planksling: {words}"));
        assert!(told.err.contains("` tells more.\n"), "{line}: {}", told.err);
        assert_eq!(folder.state("w"), before);
    }
    folder
        .run_line("show a")
        .failed(2, "\nIt is meant so: planksling show FILE N [--json]\n`planksling help show` tells more.\n");
    // a value that isn't UTF-8 can't be handed to the library
    let output = folder.command(&["write", "a", "1", "--window", "w"]).arg(OsStr::from_bytes(b"\xFF")).output();
    Told::new(output.expect("a program")).failed(2, "the value isn't UTF-8");
    assert_eq!(folder.state("w"), before);
    assert_eq!(folder.names(), ["a", "w"]);
}
