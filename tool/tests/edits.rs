//! Edits and taking them back, over a window's file and a journal's.

mod tool;

use std::fs::{self, File};
use std::os::unix::fs::{symlink, MetadataExt, PermissionsExt};
use std::time::{Duration, SystemTime};
use tool::json::Json;
use tool::{is_root, segment, Folder, Told, NOBODY, ROOT, SAMPLES};

/// An int of 2 bytes at 0, a string of 8 at 2, an eventid at 10, a signed int at 18.
const ELEMENTS: &str =
    "<int size=\"2\"><max>5000</max></int><string size=\"8\"/><eventid/><int><min>-5</min></int><float size=\"4\"/>";

const SIZE: usize = 23;

/// The bytes of a journal's file before its entries, with so many edits.
const fn head(standing: usize) -> usize {
    21 + 8 * (4 + 1 + standing)
}

/// A folder with the description `a` and the window `w`, which holds `e` in each byte.
fn settings() -> Folder {
    let folder = Folder::new();
    folder.put("a", segment(ELEMENTS));
    folder.put("w", [b'e'; SIZE]);
    folder
}

fn age(folder: &Folder, name: &str) {
    let long_ago = SystemTime::UNIX_EPOCH + Duration::from_secs(1_000_000_000);
    File::options().write(true).open(folder.file(name)).and_then(|file| file.set_modified(long_ago)).expect("a time");
}

fn edit(folder: &Folder, n: &str, value: &str) -> Told {
    folder.run(&["edit", "a", "--window", "w", "--journal", "j", "--", n, value])
}

fn undo(folder: &Folder) -> Told {
    folder.run_line("undo a --window w --journal j")
}

/// The call fails so, and touches neither window nor journal.
#[track_caller]
fn touches_nothing(folder: &Folder, call: impl Fn() -> Told, status: i32, words: &str) {
    let names = folder.names();
    let state = || ["w", "j"].map(|name| folder.file(name).exists().then(|| folder.state(name)));
    let before = state();
    call().failed(status, words);
    assert!(before == state());
    assert_eq!(folder.names(), names);
}

#[test]
fn edits_and_back() {
    let folder = settings();
    edit(&folder, "0", "300").printed("variable 0 is now 300; 1 edit stands\n");
    assert_eq!(folder.names(), ["a", "j", "w"]);
    let first = folder.bytes("w");
    assert_eq!((&first[..2], &first[2..]), (&[1, 44][..], &[b'e'; SIZE - 2][..]));
    edit(&folder, "1", "Höhe").printed("variable 1 is now \"Höhe\"; 2 edits stand\n");
    edit(&folder, "0", "301").printed("variable 0 is now 301; 3 edits stand\n");
    edit(&folder, "2", "05.01.01.01.18.00.00.FF").printed("variable 2 is now 05.01.01.01.18.00.00.FF; 4 edits stand\n");
    edit(&folder, "3", "-5").printed("variable 3 is now -5; 5 edits stand\n");
    undo(&folder).printed("variable 3 is 101 again; 4 edits stand\n");
    undo(&folder).printed("variable 2 is 65.65.65.65.65.65.65.65 again; 3 edits stand\n");
    undo(&folder).printed("variable 0 is 300 again; 2 edits stand\n");
    // old bytes that are no text
    undo(&folder).printed("variable 1 has its old bytes again; 1 edit stands\n");
    assert_eq!(folder.bytes("w"), first);
    undo(&folder).printed("variable 0 is 25957 again; no edit stands\n");
    assert_eq!(folder.bytes("w"), [b'e'; SIZE]);
    touches_nothing(&folder, || undo(&folder), 1, "a: refused 31: no edit stands\n");
    // and on with the same journal
    edit(&folder, "0", "7").printed("variable 0 is now 7; 1 edit stands\n");
    undo(&folder).printed("variable 0 is 25957 again; no edit stands\n");
    assert_eq!(folder.names(), ["a", "j", "w"]);
}

#[test]
fn as_json() {
    let folder = settings();
    let told = |line: &str| Json::read(&folder.run_line(&format!("{line} --window w --journal j --json")).out);
    let json = told("edit a 0 300");
    assert_eq!((json.number("number"), json.text("kind"), json.text("value")), (0, "int", "300"));
    assert_eq!((json.get("changed"), json.number("standing")), (&Json::Truth(true), 1));
    let json = told("edit a 0 300");
    assert_eq!((json.get("changed"), json.number("standing")), (&Json::Truth(false), 2));
    assert_eq!(told("edit a 1 x").number("standing"), 3);
    let json = told("undo a");
    assert_eq!((json.number("number"), json.text("kind"), json.has("value")), (1, "string", false));
    assert_eq!((json.get("changed"), json.number("standing")), (&Json::Truth(true), 2));
    let json = told("undo a");
    assert_eq!((json.text("value"), json.get("changed"), json.number("standing")), ("300", &Json::Truth(false), 1));
    let json = told("undo a");
    assert_eq!((json.text("value"), json.get("changed"), json.number("standing")), ("25957", &Json::Truth(true), 0));
    assert_eq!(told("undo a").number("refused"), 31);
}

/// A value that is there already is an edit: the journal has it, and the window's file isn't touched.
#[test]
fn a_value_that_is_there() {
    let folder = settings();
    edit(&folder, "0", "300");
    age(&folder, "w");
    let before = folder.state("w");
    edit(&folder, "0", "300").printed("variable 0 was 300 already; 2 edits stand\n");
    undo(&folder).printed("variable 0 is 300 again; 1 edit stands\n");
    assert_eq!(folder.state("w"), before);
}

#[test]
fn refusals_touch_nothing() {
    let folder = settings();
    // without a journal and with one: a refused edit makes none
    for _ in 0..2 {
        for (number, n, value) in
            [(21, "5", "1"), (22, "0", "x"), (23, "0", "5001"), (25, "1", "12345678"), (27, "4", "1")]
        {
            touches_nothing(&folder, || edit(&folder, n, value), 1, &format!(": refused {number}: "));
        }
        edit(&folder, "0", "300");
    }
}

#[test]
fn the_65th_edit() {
    let folder = settings();
    for value in 1..=64 {
        let stand = if value == 1 { "1 edit stands".to_string() } else { format!("{value} edits stand") };
        edit(&folder, "0", &value.to_string()).printed(&format!("variable 0 is now {value}; {stand}\n"));
    }
    let words = "refused 30: 64 edits stand, or the journal lacks room for one more\n";
    touches_nothing(&folder, || edit(&folder, "0", "65"), 1, words);
    touches_nothing(&folder, || edit(&folder, "0", "65"), 1, "Edits that stand: 64. This one needs 10 bytes");
    undo(&folder).printed("variable 0 is 63 again; 63 edits stand\n");
    edit(&folder, "0", "66").printed("variable 0 is now 66; 64 edits stand\n");
    for _ in 0..64 {
        assert_eq!(undo(&folder).status, 0);
    }
    assert_eq!(folder.bytes("w"), [b'e'; SIZE]);
}

/// Long strings fill the journal before 64 edits stand.
#[test]
fn a_journal_without_room() {
    let folder = settings();
    folder.put("a", segment("<string size=\"30000\"/><int/><string size=\"65529\"/>"));
    folder.put("w", vec![b'e'; 100_000]);
    edit(&folder, "0", "one").printed("variable 0 is now \"one\"; 1 edit stands\n");
    edit(&folder, "0", "two").printed("variable 0 is now \"two\"; 2 edits stand\n");
    touches_nothing(&folder, || edit(&folder, "0", "three"), 1, "Edits that stand: 2. This one needs 30008 bytes");
    touches_nothing(&folder, || edit(&folder, "2", "never"), 1, "refused 30");
    edit(&folder, "1", "7").printed("variable 1 is now 7; 3 edits stand\n");
    undo(&folder).printed("variable 1 is 101 again; 2 edits stand\n");
    undo(&folder).printed("variable 0 is \"one\" again; 1 edit stands\n");
    undo(&folder).printed("variable 0 has its old bytes again; no edit stands\n");
    assert_eq!(folder.bytes("w"), vec![b'e'; 100_000]);
}

/// Space and first address are those of the first edit. Others don't go with the journal.
#[test]
fn space_and_first() {
    let folder = settings();
    folder.put("w", [b'e'; 8]);
    folder.run_line("edit a 1 x --window w --journal j --first 2").printed("variable 1 is now \"x\"; 1 edit stands\n");
    let words = "planksling: j is the journal of a window of space 253, from 2 on\n";
    for options in ["--first 0", "--space 252", "--space 252 --first 2", "--first 3 --space 253"] {
        let line = format!("edit a 1 y --window w --journal j {options}");
        touches_nothing(&folder, || folder.run_line(&line), 3, words);
    }
    let line = "edit a 1 y --window w --journal j --first 0x2 --space=253";
    folder.run_line(line).printed("variable 1 is now \"y\"; 2 edits stand\n");
    // not told, they are the journal's
    edit(&folder, "1", "z").printed("variable 1 is now \"z\"; 3 edits stand\n");
    touches_nothing(&folder, || edit(&folder, "0", "1"), 1, "refused 26");
    undo(&folder).printed("variable 1 is \"y\" again; 2 edits stand\n");
    // a variable of another space isn't in the window
    let two = format!("{ROOT}<segment space=\"1\"><int/></segment><segment space=\"2\"><int/></segment></cdi>");
    let folder = Folder::new();
    folder.put("a", two);
    folder.put("w", [9]);
    edit(&folder, "0", "1").printed("variable 0 is now 1; 1 edit stands\n");
    touches_nothing(&folder, || edit(&folder, "1", "1"), 1, "The window's file has one byte of space 1, at 0.\n");
}

#[test]
fn something_else_wrote_to_the_window() {
    let folder = settings();
    edit(&folder, "0", "300");
    edit(&folder, "1", "x");
    let words = "planksling: j doesn't belong to w, or something else has written to that since the last edit\n\
                 Remove j to begin a new one; its edits then stay.\n";
    let good = folder.bytes("w");
    for at in 0..SIZE {
        let mut other = good.clone();
        other[at] ^= 1;
        folder.put("w", &other);
        touches_nothing(&folder, || undo(&folder), 3, words);
        touches_nothing(&folder, || edit(&folder, "0", "5"), 3, words);
    }
    for length in [0, SIZE - 1, SIZE + 1] {
        let mut other = good.clone();
        other.resize(length, 0);
        folder.put("w", &other);
        touches_nothing(&folder, || undo(&folder), 3, words);
    }
    folder.put("w", &good);
    folder.run_line("write a 3 1 --window w");
    touches_nothing(&folder, || undo(&folder), 3, words);
    // as it says
    fs::remove_file(folder.file("j")).expect("a journal");
    edit(&folder, "0", "5").printed("variable 0 is now 5; 1 edit stands\n");
    undo(&folder).printed("variable 0 is 300 again; no edit stands\n");
}

#[test]
fn another_description() {
    let folder = settings();
    edit(&folder, "0", "300");
    let words = "planksling: j is the journal of another description, or of another version of this one\n";
    for other in [segment("<int size=\"2\"/>"), segment(&format!("{ELEMENTS} "))] {
        folder.put("a", other);
        touches_nothing(&folder, || undo(&folder), 3, words);
        touches_nothing(&folder, || edit(&folder, "0", "1"), 3, words);
    }
    // what stands behind a text's zero is no part of it
    folder.put("a", segment(ELEMENTS) + "\0more");
    undo(&folder).printed("variable 0 is 25957 again; no edit stands\n");
}

#[test]
fn no_journal() {
    let folder = settings();
    touches_nothing(&folder, || undo(&folder), 3, "planksling: j can't be read: there is no such file\n");
    let none = "planksling: j is no journal of this tool\n";
    for bytes in [&b""[..], b"no journal", b"planksling journal 2\n", &[0; 200], &[0xFF; 200_000]] {
        folder.put("j", bytes);
        touches_nothing(&folder, || undo(&folder), 3, none);
        touches_nothing(&folder, || edit(&folder, "0", "1"), 3, none);
    }
    for (journal, words) in [(".", "it is a folder"), ("/dev/zero", "is no journal"), ("w/j", "not a directory")] {
        let calls = ["edit a 0 1 --window w --journal", "undo a --window w --journal"];
        for call in calls {
            touches_nothing(&folder, || folder.run_line(&format!("{call} {journal}")), 3, words);
        }
    }
    let line = "edit a 0 1 --window w --journal none/j";
    touches_nothing(&folder, || folder.run_line(line), 3, "none/j can't be made: no file can be made beside it");
    symlink("nowhere", folder.file("lost")).expect("a link");
    let line = "edit a 0 1 --window w --journal lost";
    touches_nothing(&folder, || folder.run_line(line), 3, "lost can't be made: there is something of this name\n");
}

/// A journal that is cut off anywhere or has any byte changed: nothing wrong is ever written to the window.
#[test]
fn damaged_journals() {
    let folder = settings();
    edit(&folder, "0", "300");
    let before = folder.bytes("w");
    edit(&folder, "1", "x");
    let (good, window) = (folder.bytes("j"), folder.bytes("w"));
    assert_eq!(good.len(), head(2) + 10 + 16);
    let tried = |bytes: &[u8]| {
        folder.put("j", bytes);
        folder.put("w", &window);
        let told = undo(&folder);
        assert!([0, 1, 3].contains(&told.status), "{told:?}");
        let left = folder.bytes("w");
        // taken back rightly, or not at all
        assert!(left == if told.status == 0 { before.clone() } else { window.clone() }, "{told:?}");
        assert!(told.status == 0 || folder.bytes("j") == bytes);
        told
    };
    for length in 0..good.len() {
        tried(&good[..length]);
    }
    for at in 0..good.len() {
        for change in [1, 0x80, 0xFF] {
            let mut bytes = good.clone();
            bytes[at] ^= change;
            tried(&bytes);
        }
    }
    let changed = |at: usize| {
        let mut bytes = good.clone();
        bytes[at] ^= 1;
        tried(&bytes)
    };
    // a number, a size, an old byte
    let entry = head(2) + 10;
    changed(entry + 3).failed(1, "The latest entry is of variable 0, with size 8.\n");
    changed(entry + 7).failed(1, "The latest entry is of variable 1, with size 9.\n");
    changed(entry + 4).failed(1, "The latest entry doesn't lie in the journal.\n");
    changed(entry + 8).failed(3, "planksling: j is damaged: what it has kept isn't what the window had\n");
    // the window's space and first address
    changed(21 + 15).failed(3, "j doesn't belong to w");
    changed(21 + 23).failed(3, "j doesn't belong to w");
    // in an entry before the latest only its size matters for that
    assert_eq!(changed(head(2) + 3).status, 0);
    changed(head(2) + 7).failed(1, "refused 35");
}

/// Where a call ends between the two files, the journal has one edit that the window lacks: that one doesn't stand, and nothing is lost.
#[test]
fn interrupted_calls() {
    let folder = settings();
    edit(&folder, "0", "300");
    let (window, journal) = (folder.bytes("w"), folder.bytes("j"));
    edit(&folder, "1", "x");
    let later = folder.bytes("j");
    let note = "planksling: the latest edit in j is not in w, and doesn't stand\n";
    let interrupted = || {
        folder.put("w", &window);
        folder.put("j", &later);
    };
    interrupted();
    let told = undo(&folder);
    assert_eq!((&told.out[..], &told.err[..]), ("variable 0 is 25957 again; no edit stands\n", note));
    assert_eq!(folder.bytes("w"), [b'e'; SIZE]);
    interrupted();
    let told = edit(&folder, "1", "y");
    assert_eq!((&told.out[..], &told.err[..]), ("variable 1 is now \"y\"; 2 edits stand\n", note));
    undo(&folder).printed("variable 1 has its old bytes again; 1 edit stands\n");
    assert_eq!(folder.bytes("w"), window);
    // the room of that edit is used again, and its bytes stay in the journal until then
    assert_eq!(folder.bytes("j")[head(1)..head(1) + 10], journal[head(1)..]);
    undo(&folder).printed("variable 0 is 25957 again; no edit stands\n");
}

/// The window can't be written when the journal is, and the other way round. The next call finds what the other one left.
#[test]
fn one_of_the_files_cannot_be_replaced() {
    let folder = settings();
    fs::create_dir(folder.file("far")).expect("a folder");
    fs::rename(folder.file("w"), folder.file("far/w")).expect("moved");
    let mode = |bits| fs::set_permissions(folder.file("far"), fs::Permissions::from_mode(bits)).expect("permissions");
    folder.hand_over();
    if is_root() {
        std::os::unix::fs::chown(folder.file("far/w"), Some(NOBODY), Some(NOBODY)).expect("another owner");
    }
    let note = "planksling: the latest edit in j is not in far/w, and doesn't stand\n";
    // an edit: the journal is made, the window stays
    mode(0o555);
    let call = "edit a 0 300 --window far/w --journal j";
    folder.run_bound(call).failed(3, "far/w can't be written, and is as it was: no file can be made beside it");
    assert_eq!(folder.bytes("far/w"), [b'e'; SIZE]);
    mode(0o755);
    let told = folder.run_bound(call);
    assert_eq!((&told.out[..], &told.err[..]), ("variable 0 is now 300; 1 edit stands\n", note));
    // an undo: the window has its old bytes, and the journal stays
    fs::rename(folder.file("far/w"), folder.file("w")).expect("moved");
    fs::rename(folder.file("j"), folder.file("far/j")).expect("moved");
    mode(0o555);
    let call = "undo a --window w --journal far/j";
    folder.run_bound(call).failed(3, "far/j can't be written, and is as it was: no file can be made beside it");
    assert_eq!(folder.bytes("w"), [b'e'; SIZE]);
    mode(0o755);
    let told = folder.run_bound(call);
    assert!(told.status == 1 && told.err.contains("far/j is not in w") && told.err.contains("refused 31"), "{told:?}");
    // a journal that may not be written is seen before the window is touched
    folder.run_bound("edit a 0 5 --window w --journal far/j");
    let before = folder.state("w");
    fs::set_permissions(folder.file("far/j"), fs::Permissions::from_mode(0o444)).expect("permissions");
    folder.run_bound(call).failed(3, "far/j can't be written, and is as it was: that isn't permitted\n");
    assert_eq!(folder.state("w"), before);
    // and so is a window, before a journal is made
    fs::set_permissions(folder.file("w"), fs::Permissions::from_mode(0o444)).expect("permissions");
    let call = "edit a 0 6 --window w --journal new";
    folder.run_bound(call).failed(3, "w can't be written, and is as it was: that isn't permitted\n");
    assert!(!folder.file("new").exists());
}

#[test]
fn a_disk_that_takes_nothing() {
    let folder = settings();
    let full = |words: &str| folder.shell(&format!("trap '' XFSZ; ulimit -f 0; exec \"$0\" {words}"));
    let call = "edit a 0 300 --window w --journal j";
    touches_nothing(&folder, || full(call), 3, "j can't be made: ");
    edit(&folder, "0", "300");
    touches_nothing(&folder, || full("edit a 0 301 --window w --journal j"), 3, "j can't be written, and is as it was");
    touches_nothing(&folder, || full("undo a --window w --journal j"), 3, "w can't be written, and is as it was");
}

/// A new journal is for those who may use the window, and a link to a journal stays.
#[test]
fn the_file_of_the_journal() {
    let folder = settings();
    for mode in [0o600, 0o664] {
        let _ = fs::remove_file(folder.file("j"));
        fs::set_permissions(folder.file("w"), fs::Permissions::from_mode(mode)).expect("permissions");
        edit(&folder, "0", &mode.to_string());
        let [window, journal] = ["w", "j"].map(|name| fs::metadata(folder.file(name)).expect("a file"));
        assert_eq!((journal.mode(), journal.uid(), journal.gid()), (window.mode(), window.uid(), window.gid()));
    }
    fs::rename(folder.file("j"), folder.file("real")).expect("moved");
    symlink("real", folder.file("j")).expect("a link");
    undo(&folder).printed("variable 0 is 384 again; no edit stands\n");
    assert_eq!(fs::read_link(folder.file("j")).expect("a link").to_str(), Some("real"));
    assert_eq!(folder.names(), ["a", "j", "real", "w"]);
}

/// No file is taken for another one.
#[test]
fn one_file_twice() {
    let folder = settings();
    symlink("w", folder.file("link")).expect("a link");
    let calls = [
        ("edit a 0 1 --window a --journal j", "the window is the description's own file\n"),
        ("undo a --window a --journal j", "the window is the description's own file\n"),
        ("edit a 0 1 --window w --journal a", "the journal is the description's own file\n"),
        ("undo a --window w --journal ./a", "the journal is the description's own file\n"),
        ("edit a 0 1 --window w --journal w", "the journal is the window's own file\n"),
        ("undo a --window w --journal link", "the journal is the window's own file\n"),
    ];
    for (line, words) in calls {
        touches_nothing(&folder, || folder.run_line(line), 2, words);
    }
}

#[test]
fn no_window() {
    let folder = settings();
    for call in ["edit a 0 1 --journal j --window", "undo a --journal j --window"] {
        folder.run_line(&format!("{call} none")).failed(3, "none can't be read: there is no such file\n");
        folder.run_line(&format!("{call} .")).failed(3, ". can't be read: it is a folder\n");
    }
    // what is no file can't be replaced, and gets no journal
    let told = folder.shell("printf '\\001\\054' | \"$0\" edit a 0 1 --window /dev/stdin --journal j");
    told.failed(3, "/dev/stdin can't be written, and is as it was: ");
    assert_eq!(folder.names(), ["a", "w"]);
}

/// Many at once: there is no lock, so edits may be lost, but window and journal are never taken together where they aren't.
#[test]
fn many_at_once() {
    let folder = settings();
    let values = ["1", "2", "3", "4"];
    std::thread::scope(|scope| {
        for value in values {
            let folder = &folder;
            scope.spawn(move || {
                for _ in 0..8 {
                    assert!([0, 3].contains(&edit(folder, "0", value).status));
                    assert!([0, 1, 3].contains(&undo(folder).status));
                }
            });
        }
    });
    assert_eq!(folder.bytes("w")[2..], [b'e'; SIZE - 2]);
    assert_eq!(folder.names(), ["a", "j", "w"]);
}

/// Any mix of edits and undos: the window is what the remaining edits alone make of the first one.
#[test]
fn mixes() {
    let folder = settings();
    let mut state: u64 = 6;
    let mut below = |limit: usize| {
        state = state.wrapping_mul(6364136223846793005).wrapping_add(1442695040888963407);
        (state >> 33) as usize % limit
    };
    let values = [
        ("0", "0"),
        ("0", "5000"),
        ("0", "5001"),
        ("1", "abc"),
        ("1", "12345678"),
        ("2", "9"),
        ("3", "-5"),
        ("7", "1"),
    ];
    let mut remaining = vec![];
    for _ in 0..120 {
        if below(5) < 3 {
            let (n, value) = values[below(values.len())];
            if edit(&folder, n, value).status == 0 {
                remaining.push((n, value));
            }
        } else if undo(&folder).status == 0 {
            remaining.pop().expect("an edit that stands");
        }
    }
    folder.put("alone", [b'e'; SIZE]);
    for (n, value) in &remaining {
        assert_eq!(folder.run(&["write", "a", "--window", "alone", "--", n, value]).status, 0);
    }
    assert!(5 < remaining.len());
    assert_eq!(folder.bytes("w"), folder.bytes("alone"));
    for _ in &remaining {
        assert_eq!(undo(&folder).status, 0);
    }
    assert_eq!(folder.bytes("w"), [b'e'; SIZE]);
}

#[test]
fn the_sample_board() {
    let folder = Folder::new();
    let board = format!("{SAMPLES}/input-board.xml");
    folder.put("w", [0; 512]);
    let files = ["--window", "w", "--journal", "j"];
    let run = |words: &[&str]| folder.run(&[words, &files].concat());
    run(&["edit", &board, "4", "250"]).printed("variable 4 is now 250; 1 edit stands\n");
    run(&["edit", &board, "3", "Platform 1"]).printed("variable 3 is now \"Platform 1\"; 2 edits stand\n");
    run(&["undo", &board]).printed("variable 3 is \"\" again; 1 edit stands\n");
    run(&["undo", &board]).printed("variable 4 is 0 again; no edit stands\n");
    assert_eq!(folder.bytes("w"), [0; 512]);
}
