//! Windows stored as backups, given back, and backups inspected.

mod tool;

use std::fs::{self, File};
use std::os::unix::fs::{symlink, MetadataExt, PermissionsExt};
use std::time::{Duration, SystemTime};
use tool::json::Json;
use tool::{is_root, Folder, Told, NOBODY};

const BLOCK: usize = 512;

fn bytes(length: usize) -> Vec<u8> {
    (0..length).map(|i| (i * 31 + i / 256) as u8).collect()
}

/// A folder with the window `w` of so many bytes and its backup `b`, of space 253.
fn stored(length: usize) -> Folder {
    let folder = Folder::new();
    folder.put("w", bytes(length));
    assert_eq!(folder.run_line("store w b --space 253").status, 0);
    folder
}

fn age(folder: &Folder, name: &str) {
    let long_ago = SystemTime::UNIX_EPOCH + Duration::from_secs(1_000_000_000);
    File::options().write(true).open(folder.file(name)).and_then(|file| file.set_modified(long_ago)).expect("a time");
}

/// Puts a byte at a place of `b`, and gives that block the check that fits.
fn mended(folder: &Folder, at: usize, byte: u8) {
    let mut backup = folder.bytes("b");
    backup[at] = byte;
    let block = &mut backup[at / BLOCK * BLOCK..][..BLOCK];
    let sum: u64 = block[..510].chunks(2).map(|pair| u64::from(pair[0]) * 256 + u64::from(pair[1])).sum();
    block[510..].copy_from_slice(&((sum % 65_535) as u16).to_be_bytes());
    folder.put("b", backup);
}

fn changed(folder: &Folder, at: usize) {
    let mut backup = folder.bytes("b");
    backup[at] ^= 0x40;
    folder.put("b", backup);
}

/// What `inspect` prints of `b`, and that it ends with this status.
#[track_caller]
fn inspected(folder: &Folder, status: i32) -> String {
    let told = folder.run_line("inspect b");
    assert_eq!((told.status, &told.err[..]), (status, ""), "{}", told.out);
    told.out
}

/// The last lines of a report: those of the blocks and of what is readable.
fn lines(report: &str) -> Vec<&str> {
    report.lines().skip_while(|line| !line.starts_with("block ")).collect()
}

/// The objects of a report.
fn objects(told: &Told) -> Vec<Json> {
    told.out.split_inclusive('\n').map(Json::read).collect()
}

#[test]
fn there_and_back() {
    let folder = Folder::new();
    for (length, blocks) in [(1, "1 block"), (501, "1 block"), (502, "1 block"), (503, "2 blocks"), (1004, "2 blocks")]
    {
        let window = bytes(length);
        folder.put("w", &window);
        let amount = format!("{length} byte{} of space 253", if length == 1 { "" } else { "s" });
        folder.run_line("store w b --space 253").printed(&format!("b: stored, {amount} in {blocks}\n"));
        assert_eq!(folder.bytes("w"), window);
        let report = inspected(&folder, 0);
        assert!(report.starts_with(&format!("b: good, {amount} in {blocks}\nblock 0: number 0, length ")), "{report}");
        folder.run_line("restore b back").printed(&format!("back: restored, {amount}\n"));
        assert_eq!(folder.bytes("back"), window);
        assert_eq!(folder.names(), ["b", "back", "w"]);
        fs::remove_file(folder.file("back")).expect("a file");
    }
    // spaces, in decimal and not
    for (word, space) in [("0", 0), ("0xFD", 253), ("255", 255), ("0xff", 255)] {
        folder.run_line(&format!("store w b --space={word}"));
        assert_eq!((folder.bytes("b")[6], folder.bytes("b").len()), (space, 1024));
    }
}

#[test]
fn a_good_report() {
    let folder = stored(1014);
    let report = inspected(&folder, 0);
    let wanted = "b: good, 1014 bytes of space 253 in 3 blocks\nblock 0: number 0, length 502: good\n\
        block 1: number 1, length 502: good\nblock 2: number 2, length 10: good\n3 of 3 blocks good, 1014 bytes readable\n";
    assert_eq!(report, wanted);
    let objects = objects(&folder.run_line("inspect b --json"));
    assert_eq!(objects.len(), 5);
    assert_eq!(objects[0].text("file"), "b");
    assert_eq!(["space", "length", "blocks"].map(|key| objects[0].number(key)), [253, 1014, 3]);
    for (i, object) in objects[1..4].iter().enumerate() {
        let numbers = ["block", "number", "length", "space", "flag"].map(|key| object.number(key));
        assert_eq!(numbers, [i as u64, i as u64, [502, 502, 10][i], 253, u64::from(i == 2)]);
        assert_eq!((object.get("good"), object.has("wrong")), (&Json::Truth(true), false));
    }
    assert_eq!(["blocks", "bad", "readable", "rest"].map(|key| objects[4].number(key)), [3, 0, 1014, 0]);
}

#[test]
fn as_json() {
    let folder = stored(600);
    let object = Json::read(&folder.run_line("store w b --space 253 --json").out);
    assert_eq!((object.text("file"), object.get("changed")), ("b", &Json::Truth(false)));
    assert_eq!(["space", "length", "blocks"].map(|key| object.number(key)), [253, 600, 2]);
    let object = Json::read(&folder.run_line("--json store w b --space 251").out);
    assert_eq!((object.number("space"), object.get("changed")), (251, &Json::Truth(true)));
    let object = Json::read(&folder.run_line("restore b back --json").out);
    assert_eq!((object.text("file"), object.get("changed")), ("back", &Json::Truth(true)));
    assert_eq!(["space", "length"].map(|key| object.number(key)), [251, 600]);
    let object = Json::read(&folder.run_line("restore b back --json").out);
    assert_eq!(object.get("changed"), &Json::Truth(false));
}

/// A bad block is told at the top, and the report goes on behind it.
#[test]
fn a_changed_byte() {
    let folder = stored(1014);
    changed(&folder, 600);
    let report = inspected(&folder, 1);
    assert!(report.starts_with("b: block 1: refused 43: the check of a block doesn't fit\n"), "{report}");
    let told = lines(&report);
    assert_eq!(told[0], "block 0: number 0, length 502: good");
    assert!(told[1].starts_with("block 1: number 1, length 502: 43, the check is 0x"), "{report}");
    assert_eq!(told[2..], ["block 2: number 2, length 10: good", "2 of 3 blocks good, 512 bytes readable"]);
    let json = folder.run_line("inspect b --json");
    assert_eq!((json.status, &json.err[..]), (1, ""));
    let objects = objects(&json);
    assert_eq!((objects[0].number("refused"), objects[0].number("block")), (43, 1));
    assert_eq!((objects[2].get("good"), objects[2].number("refused")), (&Json::Truth(false), 43));
    assert_eq!(["blocks", "bad", "readable", "rest"].map(|key| objects[4].number(key)), [3, 1, 512, 0]);
    folder.run_line("restore b back").failed(1, "b: block 1: refused 43: the check of a block doesn't fit\n");
    folder.run_line("restore b back").failed(1, "`planksling inspect` tells of each block.\n");
    let json = Json::read(&folder.run_line("restore b back --json").out);
    assert_eq!((json.number("refused"), json.number("block"), json.text("file")), (43, 1, "b"));
    assert_eq!(folder.names(), ["b", "w"]);
}

/// Every byte of a backup, changed: the tool tells the block.
#[test]
fn every_byte_changed() {
    let folder = stored(600);
    let good = folder.bytes("b");
    for at in 0..good.len() {
        let mut backup = good.clone();
        backup[at] = backup[at].wrapping_add(1 + (at % 255) as u8);
        folder.put("b", backup);
        let objects = objects(&folder.run_line("inspect b --json"));
        assert_eq!((objects[0].number("refused"), objects[0].number("block")), (43, (at / BLOCK) as u64), "byte {at}");
        assert_eq!(objects[3].number("bad"), 1, "byte {at}");
    }
}

#[test]
fn each_field() {
    let cases = [
        (515, 7, "block 1: number 7, length 502: 44, the number is 7 and not 1"),
        (518, 9, "block 1: number 1, length 502: 44, the space is 9 and not 253"),
        (517, 0, "block 1: number 1, length 256: 44, the length is 256 and not 502 in a block before the last"),
        (519, 1, "block 1: number 1, length 502: 44, the flag is 1 and not 0 in a block before the last"),
        (1029, 0, "block 2: number 2, length 0: 44, the length is 0 and not 1 to 502"),
        (1028, 9, "block 2: number 2, length 2314: 44, the length is 2314 and not 1 to 502"),
        (1031, 0, "block 2: number 2, length 10: 44, the flag is 0 and not 1 in the last block"),
        (1042, 1, "block 2: number 2, length 10: 44, byte 18, behind the payload, is not zero"),
    ];
    for (at, byte, line) in cases {
        let folder = stored(1014);
        mended(&folder, at, byte);
        let report = inspected(&folder, 1);
        let rule = "number, space, length, flag or padding of a block is wrong";
        assert!(report.starts_with(&format!("b: block {}: refused 44: {rule}\n", at / BLOCK)), "{report}");
        assert_eq!(lines(&report)[at / BLOCK], line);
        assert!(lines(&report)[3].starts_with("2 of 3 blocks good, "), "{report}");
        // the same words, as a sentence
        let (_, words) = line.split_once("44, ").expect("words");
        let told = folder.run_line("restore b back");
        told.failed(1, &format!("refused 44: {rule}\n"));
        assert!(told.err.contains(&words[1..]), "{}", told.err);
    }
}

/// Blocks left out, doubled and exchanged, and those of another backup.
#[test]
fn blocks_at_other_places() {
    let folder = stored(1500);
    let good = folder.bytes("b");
    let part = |i: usize| &good[BLOCK * i..BLOCK * (i + 1)];
    let report = |blocks: &[&[u8]]| {
        folder.put("b", blocks.concat());
        inspected(&folder, 1)
    };
    let told = report(&[part(0), part(2)]);
    assert!(
        told.contains("\nblock 1: number 2, length 496: 44, the number is 2 and not 1\n1 of 2 blocks good, 502 "),
        "{told}"
    );
    let told = report(&[part(0), part(1)]);
    assert!(
        told.contains("\nblock 1: number 1, length 502: 44, the flag is 0 and not 1 in the last block\n"),
        "{told}"
    );
    let told = report(&[part(1), part(0), part(2)]);
    assert!(told.contains("\n1 of 3 blocks good, 496 bytes readable\n"), "{told}");
    let told = report(&[part(0), part(1), part(2), part(2)]);
    assert!(told.contains(
        "\nblock 2: number 2, length 496: 44, the length is 496 and not 502 in a block before the last; the flag"
    ));
    // block 0 says another space, and its check tells that it was changed
    folder.put("b", &good);
    changed(&folder, 6);
    assert_eq!(lines(&inspected(&folder, 1))[3], "2 of 3 blocks good, 998 bytes readable");
}

/// Files that are no row of whole blocks.
#[test]
fn other_lengths() {
    let folder = stored(1014);
    let good = folder.bytes("b");
    let words = "b: refused 42: length not a positive multiple of 512\n";
    for (length, rest) in [(1, 1), (511, 511), (513, 1), (1300, 276), (1535, 511)] {
        folder.put("b", &good[..length]);
        let report = inspected(&folder, 1);
        assert!(report.starts_with(words), "{report}");
        let count = length / BLOCK;
        let block = if count == 1 { "block" } else { "blocks" };
        let byte = if rest == 1 { "byte" } else { "bytes" };
        let noted = format!("\nThe file has {length} bytes: {count} {block} and {rest} {byte}.\n");
        assert!(report.contains(&noted), "{report}");
        let end = format!(
            "rest: {rest} {byte}, no whole block\n{count} of {count} {block} good, {} bytes readable\n",
            502 * count
        );
        assert!(report.ends_with(&end), "{report}");
        folder.run_line("restore b back").failed(1, words);
        assert!(!Json::read(&folder.run_line("restore b back --json").out).has("block"));
    }
    folder.put("b", [&good[..], b"\n"].concat());
    let report = inspected(&folder, 1);
    assert!(report.ends_with("rest: 1 byte, no whole block\n3 of 3 blocks good, 1014 bytes readable\n"), "{report}");
    folder.put("b", "");
    let report = inspected(&folder, 1);
    assert!(report.ends_with("\nThe file is empty.\n0 of 0 blocks good, 0 bytes readable\n"), "{report}");
    assert_eq!(folder.names(), ["b", "w"]);
}

#[test]
fn what_can_not_be_stored() {
    let folder = Folder::new();
    folder.put("w", bytes(5));
    folder.put("empty", "");
    let words = "refused 40: window empty, longer than 2^32 bytes or of a space above 255\n";
    for space in ["256", "0x100", "18446744073709551615", "99999999999999999999999"] {
        folder.run_line(&format!("store w b --space {space}")).failed(1, &format!("w: {words}"));
    }
    folder.run_line("store w b --space 256").failed(1, "The window's file has 5 bytes of space 256.\n");
    folder.run_line("store empty b --space 253").failed(1, &format!("empty: {words}"));
    let json = Json::read(&folder.run_line("store empty b --space 253 --json").out);
    assert_eq!((json.number("refused"), json.text("file"), json.has("block")), (40, "empty", false));
    assert_eq!(folder.names(), ["empty", "w"]);
}

/// A backup is replaced by a new one, as a whole; one that is the same isn't touched.
#[test]
fn replaced_as_a_whole() {
    let folder = stored(600);
    fs::set_permissions(folder.file("b"), fs::Permissions::from_mode(0o640)).expect("permissions");
    age(&folder, "b");
    let before = folder.state("b");
    folder.run_line("store w b --space 253").printed("b: unchanged, 600 bytes of space 253 in 2 blocks\n");
    assert!(folder.state("b") == before);
    let open = File::open(folder.file("b")).expect("a file");
    folder.put("w", bytes(700));
    folder.run_line("store w b --space 253").printed("b: stored, 700 bytes of space 253 in 2 blocks\n");
    let after = fs::metadata(folder.file("b")).expect("a file");
    assert_ne!(after.ino(), before.2);
    assert_eq!((open.metadata().expect("a file").ino(), after.mode() & 0o777), (before.2, 0o640));
    // the window too
    fs::set_permissions(folder.file("w"), fs::Permissions::from_mode(0o604)).expect("permissions");
    folder.put("w", [7; 700]);
    folder.run_line("restore b w").printed("w: restored, 700 bytes of space 253\n");
    assert_eq!(folder.bytes("w"), bytes(700));
    assert_eq!(fs::metadata(folder.file("w")).expect("a file").mode() & 0o777, 0o604);
    age(&folder, "w");
    let before = folder.state("w");
    folder.run_line("restore b w").printed("w: unchanged, 700 bytes of space 253\n");
    assert!(folder.state("w") == before);
    assert_eq!(folder.names(), ["b", "w"]);
}

/// A new file has the owner and the permissions of the one that it was made from.
#[test]
fn a_new_file() {
    let folder = Folder::new();
    fs::set_permissions(folder.put("w", bytes(9)), fs::Permissions::from_mode(0o640)).expect("permissions");
    if is_root() {
        folder.hand_over();
    }
    assert_eq!(folder.run_line("store w b --space 1").status, 0);
    assert_eq!(folder.run_line("restore b back").status, 0);
    for name in ["b", "back"] {
        let data = fs::metadata(folder.file(name)).expect("a file");
        assert_eq!(data.mode() & 0o777, 0o640);
        assert!(!is_root() || (data.uid(), data.gid()) == (NOBODY, NOBODY));
    }
}

/// Slips of the hand: another file isn't replaced by a backup, nor one of another length by a window.
#[test]
fn other_files_are_left() {
    let folder = stored(600);
    folder.put("text", "<?xml version=\"1.0\"?>\n");
    let mut damaged = folder.bytes("b");
    damaged[9] ^= 1;
    folder.put("damaged", damaged);
    let unmoved = |line: &str, file: &str, words: &str| {
        let before = folder.state(file);
        let told = folder.run_line(line);
        told.failed(3, &format!("planksling: {file} is there and {words}\nRemove it, or name another file.\n"));
        assert!(folder.state(file) == before);
    };
    unmoved("store w text --space 253", "text", "is no good backup");
    unmoved("store w damaged --space 253", "damaged", "is no good backup");
    // the two names exchanged
    unmoved("store b w --space 253", "w", "is no good backup");
    unmoved("restore b text", "text", "has 22 bytes, not 600");
    folder.run_line("restore w b").failed(1, "w: refused 42");
    // an empty file has nothing to lose
    folder.put("new", "");
    folder.run_line("store w new --space 253").printed("new: stored, 600 bytes of space 253 in 2 blocks\n");
    folder.put("new", "");
    folder.run_line("restore b new").printed("new: restored, 600 bytes of space 253\n");
}

#[test]
fn links() {
    let folder = stored(600);
    fs::create_dir(folder.file("far")).expect("a folder");
    fs::rename(folder.file("b"), folder.file("far/real")).expect("moved");
    symlink("far/real", folder.file("b")).expect("a link");
    folder.put("w", bytes(100));
    folder.run_line("store w b --space 253").printed("b: stored, 100 bytes of space 253 in 1 block\n");
    assert_eq!(fs::read_link(folder.file("b")).expect("a link").to_str(), Some("far/real"));
    assert_eq!(fs::metadata(folder.file("far/real")).expect("a file").len(), 512);
    folder.run_line("store b w --space 1").failed(3, "w is there and is no good backup");
    symlink("w", folder.file("v")).expect("a link");
    folder.run_line("store w v --space 1").failed(2, "the backup is the window's own file");
    // one that leads nowhere
    symlink("nowhere", folder.file("lost")).expect("a link");
    folder.run_line("store w lost --space 1").failed(3, "lost can't be made: there is something of this name");
    folder.run_line("restore b lost").failed(3, "lost can't be made: there is something of this name");
    assert!(!folder.names().contains(&"nowhere".to_string()));
}

#[test]
fn files_that_can_not_be_used() {
    let folder = stored(600);
    for line in ["store . b --space 1", "restore . w", "inspect ."] {
        folder.run_line(line).failed(3, "planksling: . can't be read: it is a folder\n");
    }
    folder.run_line("store w . --space 1").failed(3, ". can't be read: it is a folder");
    folder.run_line("store w none/b --space 1").failed(3, "none/b can't be made");
    folder
        .run_line("store /dev/zero c --space 1")
        .failed(3, "/dev/zero has more than 64 MiB, which is the most for a window\n");
    let words = "/dev/zero has more than 68,445,696 bytes, which is the most for a backup\n";
    for line in ["restore /dev/zero c", "inspect /dev/zero", "inspect /dev/zero --json", "store w /dev/zero --space 1"]
    {
        folder.run_line(line).failed(3, words);
    }
    folder
        .run_line("restore b /dev/null")
        .failed(3, "/dev/null can't be written, and is as it was: it is no regular file");
    assert_eq!(folder.names(), ["b", "w"]);
    // who may not write to a file may not replace it, and who may not read it is told so
    fs::set_permissions(folder.file("b"), fs::Permissions::from_mode(0o444)).expect("permissions");
    folder.hand_over();
    let before = folder.state("b");
    folder.run_bound("store w b --space 252").failed(3, "b can't be written, and is as it was: that isn't permitted\n");
    assert!(folder.state("b") == before);
    fs::set_permissions(folder.file("b"), fs::Permissions::from_mode(0o000)).expect("permissions");
    folder.run_bound("inspect b").failed(3, "b can't be read: that isn't permitted\n");
}

/// The largest window and its backup.
#[test]
fn as_much_as_fits() {
    let folder = Folder::new();
    File::create(folder.file("w")).and_then(|file| file.set_len(64 << 20)).expect("a sparse file");
    folder.run_line("store w b --space 255").printed("b: stored, 67108864 bytes of space 255 in 133683 blocks\n");
    let told = folder.run_line("inspect b");
    assert_eq!((told.status, told.out.lines().count()), (0, 133_685));
    assert!(told.out.ends_with(
        "\nblock 133682: number 133682, length 500: good\n133683 of 133683 blocks good, 67108864 bytes readable\n"
    ));
    folder.run_line("restore b back").printed("back: restored, 67108864 bytes of space 255\n");
    File::options().write(true).open(folder.file("w")).and_then(|file| file.set_len((64 << 20) + 1)).expect("one more");
    folder.run_line("store w c --space 255").failed(3, "w has more than 64 MiB");
    assert_eq!(folder.names(), ["b", "back", "w"]);
}

/// A reader that stops changes no status, and an output that can't be written is told.
#[test]
fn output() {
    let folder = Folder::new();
    folder.put("w", vec![1; 5_000_000]);
    folder.run_line("store w b --space 1");
    folder.shell("\"$0\" inspect b | head -n 1").printed("b: good, 5000000 bytes of space 1 in 9961 blocks\n");
    folder.shell("{ \"$0\" inspect b; echo $? >status; } | head -n 1 >/dev/null").printed("");
    assert_eq!(folder.bytes("status"), b"0\n");
    changed(&folder, 4_000_000);
    for line in ["inspect b", "inspect b --json"] {
        folder.shell(&format!("{{ \"$0\" {line}; echo $? >status; }} | head -n 1 >/dev/null")).printed("");
        assert_eq!(folder.bytes("status"), b"1\n");
        let file = File::create("/dev/full").expect("a full disk");
        let words: Vec<&str> = line.split(' ').collect();
        let told = Told::new(folder.command(&words).stdout(file).output().expect("a program"));
        told.failed(3, "planksling: standard output can't be written: the disk is full\n");
    }
}

/// Any bytes: the tool says what it says without a panic, in words and as JSON, and both tell the same.
#[test]
fn any_bytes() {
    let folder = stored(1200);
    let good = folder.bytes("b");
    let mut state: u64 = 5;
    let mut below = |limit: usize| {
        state = state.wrapping_mul(6364136223846793005).wrapping_add(1442695040888963407);
        (state >> 33) as usize % limit
    };
    for round in 0..200 {
        let mut backup =
            if round % 4 == 0 { (0..below(2000)).map(|_| below(256) as u8).collect() } else { good.clone() };
        for _ in 0..below(4) {
            if !backup.is_empty() {
                let at = below(backup.len());
                backup[at] = below(256) as u8;
            }
        }
        if below(3) == 0 {
            backup.truncate(below(backup.len() + 1));
        }
        folder.put("b", &backup);
        let (plain, json) = (folder.run_line("inspect b"), folder.run_line("inspect b --json"));
        assert_eq!(plain.status, json.status);
        let objects = objects(&json);
        let (blocks, bad) = (backup.len() / BLOCK, objects[objects.len() - 1].number("bad"));
        assert_eq!(objects.len(), blocks + 2);
        let (good, of) = (blocks as u64 - bad, if blocks == 1 { "block" } else { "blocks" });
        assert!(plain.out.contains(&format!("\n{good} of {blocks} {of} good, ")), "{}", plain.out);
        let is_whole = !backup.is_empty() && backup.len() % BLOCK == 0;
        assert_eq!(plain.status == 0, is_whole && bad == 0);
        assert_eq!(folder.run_line("restore b back").status, plain.status);
        let _ = fs::remove_file(folder.file("back"));
    }
}

/// Names that would make a terminal do things are shown harmlessly; `Told` looks at every answer.
#[test]
fn hostile_names() {
    let folder = Folder::new();
    let (window, backup) = ("\u{1B}[2Jw", "b\u{202E}\n");
    folder.put(window, bytes(3));
    folder
        .run(&["store", window, backup, "--space", "1"])
        .printed("b\\u{202E}\\n: stored, 3 bytes of space 1 in 1 block\n");
    assert!(folder.run(&["inspect", backup]).out.starts_with("b\\u{202E}\\n: good, "));
    let json = objects(&folder.run(&["inspect", backup, "--json"]));
    assert_eq!(json[0].text("file"), backup);
    folder.run(&["restore", window, "x"]).failed(1, "\\x1B[2Jw: refused 42");
}
