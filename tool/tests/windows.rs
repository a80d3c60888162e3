//! Reading and writing settings in a window's file.

mod tool;

use std::fs::{self, File};
use std::os::unix::fs::{chown, symlink, MetadataExt, PermissionsExt};
use std::time::{Duration, SystemTime};
use tool::json::Json;
use tool::{is_root, segment, Folder, NOBODY, ROOT, SAMPLES};

/// An int of 2 bytes at 0, a string of 8 at 2, an eventid at 10, a signed int at 18, an int of 8 bytes at 19, a float at 27, an int with a map at 31.
const ELEMENTS: &str = "<int size=\"2\"><max>5000</max></int><string size=\"8\"/><eventid/><int><min>-5</min></int>\
    <int size=\"8\"/><float size=\"4\"/><int><map><relation><property>1</property><value>on</value></relation></map></int>";

const SIZE: usize = 32;

/// A folder with the description `a` and the window `w`, which holds `e` in each byte and was written long ago.
fn settings() -> Folder {
    let folder = Folder::new();
    folder.put("a", segment(ELEMENTS));
    folder.put("w", [b'e'; SIZE]);
    age(&folder, "w");
    folder
}

fn age(folder: &Folder, name: &str) {
    let long_ago = SystemTime::UNIX_EPOCH + Duration::from_secs(1_000_000_000);
    File::options().write(true).open(folder.file(name)).and_then(|file| file.set_modified(long_ago)).expect("a time");
}

/// The window with these bytes from here on, and `e` in all others.
fn window(at: usize, bytes: &[u8]) -> Vec<u8> {
    let mut window = vec![b'e'; SIZE];
    window[at..at + bytes.len()].copy_from_slice(bytes);
    window
}

/// Each value is stored, changes no other byte, and is read back.
#[test]
fn values_of_each_kind() {
    let cases: &[(&str, &str, usize, &[u8], &str)] = &[
        ("0", "300", 0, &[1, 44], "300"),
        ("0", "+7", 0, &[0, 7], "7"),
        ("0", "-0", 0, &[0, 0], "0"),
        ("0", "005", 0, &[0, 5], "5"),
        ("1", "Track 1", 2, b"Track 1\0", "Track 1"),
        ("1", "", 2, &[0; 8], ""),
        ("1", "Höhe", 2, b"H\xC3\xB6he\0\0\0", "Höhe"),
        ("1", "12", 2, b"12\0\0\0\0\0\0", "12"),
        ("1", "a\n\u{1B}b", 2, b"a\n\x1Bb\0\0\0\0", "a\\n\\x1Bb"),
        ("2", "05.01.01.01.18.00.00.FF", 10, &[5, 1, 1, 1, 24, 0, 0, 255], "05.01.01.01.18.00.00.FF"),
        ("2", "0x05010101180000ff", 10, &[5, 1, 1, 1, 24, 0, 0, 255], "05.01.01.01.18.00.00.FF"),
        ("2", "256", 10, &[0, 0, 0, 0, 0, 0, 1, 0], "00.00.00.00.00.00.01.00"),
        ("3", "-5", 18, &[0xFB], "-5"),
        ("3", "127", 18, &[0x7F], "127"),
        ("4", "18446744073709551615", 19, &[255; 8], "18446744073709551615"),
        ("6", "1", 31, &[1], "1"),
    ];
    for (n, value, at, bytes, read) in cases {
        let folder = settings();
        let told = folder.run(&["write", "a", n, value, "--window", "w"]);
        assert_eq!((told.status, &told.err[..]), (0, ""), "{value}");
        assert!(told.out.starts_with(&format!("variable {n} is now ")), "{}", told.out);
        assert_eq!(folder.bytes("w"), window(*at, bytes), "{value}");
        folder.run(&["read", "a", n, "--window", "w"]).printed(&format!("{read}\n"));
        assert_eq!(folder.names(), ["a", "w"]);
        // the same once more changes nothing, and touches nothing
        age(&folder, "w");
        let before = folder.state("w");
        let told = folder.run(&["write", "a", n, value, "--window", "w"]);
        assert!(told.status == 0 && told.out.ends_with(" already\n"), "{told:?}");
        assert_eq!(folder.state("w"), before);
    }
}

#[test]
fn what_is_said() {
    let folder = settings();
    folder.run_line("write a 0 250 --window w").printed("variable 0 is now 250\n");
    folder.run_line("write a 0 250 --window w").printed("variable 0 was 250 already\n");
    folder.run_line("write a 1 x --window w").printed("variable 1 is now \"x\"\n");
    folder.run_line("write a 2 7 --window w").printed("variable 2 is now 00.00.00.00.00.00.00.07\n");
    let json = Json::read(&folder.run_line("write --json a 0 251 --window w").out);
    assert_eq!((json.number("number"), json.text("kind"), json.text("value")), (0, "int", "251"));
    assert_eq!(json.get("changed"), &Json::Truth(true));
    let json = Json::read(&folder.run_line("write --json a 0 251 --window w").out);
    assert_eq!(json.get("changed"), &Json::Truth(false));
    let json = Json::read(&folder.run_line("read --json a 0 --window w").out);
    assert_eq!((json.text("value"), json.get("writable")), ("251", &Json::Truth(true)));
    // exactly, whatever it is
    folder.run(&["write", "a", "1", "\"\\\n\u{1B}é", "--window", "w"]);
    let json = Json::read(&folder.run_line("read --json a 1 --window w").out);
    assert_eq!(json.text("value"), "\"\\\n\u{1B}é");
}

/// A value that could not be written is read all the same, with a word on it.
#[test]
fn values_that_could_not_be_written() {
    let folder = settings();
    let told = folder.run_line("read a 0 --window w");
    assert_eq!((told.status, &told.out[..]), (0, "25957\n"));
    assert_eq!(told.err, "planksling: this value could not be written now\n");
    let json = folder.run_line("read --json a 6 --window w");
    assert_eq!((Json::read(&json.out).get("writable"), &json.err[..]), (&Json::Truth(false), ""));
}

#[test]
fn refusals_touch_nothing() {
    let folder = settings();
    let before = folder.state("w");
    let refused = [
        (21, "write a 7 1"),
        (21, "write a 18446744073709551615 1"),
        (21, "write a 18446744073709551616 1"),
        (22, "write a 0 x"),
        (22, "write a 0 1.5"),
        (22, "write a 0 0x10"),
        (22, "write a 2 5.1"),
        (22, "write a 2 -1"),
        (22, "write a 2 0501010118000001"),
        (22, "write a 2 18446744073709551616"),
        (23, "write a 0 5001"),
        (23, "write a 0 -1"),
        (23, "write a 3 -6"),
        (23, "write a 3 128"),
        (23, "write a 4 18446744073709551616"),
        (23, "write a 4 -18446744073709551616"),
        (23, "write a 4 -1"),
        (24, "write a 6 0"),
        (25, "write a 1 12345678"),
        (26, "write a 0 1 --space 252"),
        (26, "write a 0 1 --first 1"),
        (26, "write a 0 1 --first 18446744073709551616"),
        (26, "write a 6 1 --first 0x20"),
        (27, "write a 5 1"),
        (27, "read a 5"),
        (28, "read a 1"),
    ];
    for (number, line) in refused {
        let told = folder.run_line(&format!("{line} --window w"));
        told.failed(1, &format!(": refused {number}: "));
        let json = folder.run_line(&format!("--json {line} --window w"));
        assert_eq!(Json::read(&json.out).number("refused"), number, "{line}");
        assert_eq!(folder.state("w"), before, "{line}");
        assert_eq!(folder.names(), ["a", "w"], "{line}");
    }
}

#[test]
fn a_window_of_the_wrong_size() {
    let folder = settings();
    for length in [0, 1, 9] {
        folder.put("short", vec![b'e'; length]);
        age(&folder, "short");
        let before = folder.state("short");
        for line in ["write a 1 x --window short", "read a 1 --window short"] {
            let told = folder.run_line(line);
            told.failed(1, "refused 26: wrong space, or not wholly inside the window\n");
            told.failed(1, "It needs 8 bytes of space 253, from 2 to 9.\n");
        }
        assert_eq!(folder.state("short"), before);
    }
    folder
        .run_line("write a 1 x --window short")
        .failed(1, "The window's file has 9 bytes of space 253, from 0 to 8.\n");
    // larger than it need be is well
    folder.put("long", [b'e'; 1000]);
    folder.run_line("write a 1 x --window long").printed("variable 1 is now \"x\"\n");
}

#[test]
fn space_and_first() {
    let folder = settings();
    folder.put("part", [b'e'; 8]);
    folder.run_line("write a 1 x --window part --first 2 --space 253").printed("variable 1 is now \"x\"\n");
    assert_eq!(folder.bytes("part"), b"x\0\0\0\0\0\0\0");
    folder.run_line("read a 1 --window=part --first=0x2 --space=0xFD").printed("x\n");
    // the space is the variable's own where none is given
    folder
        .put("two", format!("{ROOT}<segment space=\"1\"><int/></segment><segment space=\"2\"><int/></segment></cdi>"));
    folder.put("w", [9]);
    folder.run_line("read two 0 --window w").printed("9\n");
    folder.run_line("read two 1 --window w").printed("9\n");
    folder.run_line("read two 1 --window w --space 1").failed(1, "refused 26");
}

/// The file is replaced by a new one, with the owner and the permissions of the old.
#[test]
fn replaced_as_a_whole() {
    let folder = settings();
    for mode in [0o600, 0o644, 0o664, 0o640] {
        fs::set_permissions(folder.file("w"), fs::Permissions::from_mode(mode)).expect("permissions");
        let before = fs::metadata(folder.file("w")).expect("a file");
        // who has opened the old file still sees the old bytes
        let open = File::open(folder.file("w")).expect("a file");
        folder.run_line(&format!("write a 0 {mode} --window w")).printed(&format!("variable 0 is now {mode}\n"));
        let after = fs::metadata(folder.file("w")).expect("a file");
        assert_ne!(after.ino(), before.ino());
        assert_eq!(open.metadata().expect("a file").ino(), before.ino());
        assert_eq!((after.mode(), after.uid(), after.gid()), (before.mode(), before.uid(), before.gid()));
        assert_eq!(folder.names(), ["a", "w"]);
    }
}

/// Root's write leaves a file to its owner. Who can't leave it to its owner doesn't replace it. Only root can try this: it takes two owners.
#[test]
fn owners() {
    if !is_root() {
        return;
    }
    let folder = settings();
    folder.hand_over();
    folder.run_line("write a 3 1 --window w").printed("variable 3 is now 1\n");
    let data = fs::metadata(folder.file("w")).expect("a file");
    assert_eq!((data.uid(), data.gid()), (NOBODY, NOBODY));
    chown(folder.file("w"), Some(0), Some(0)).expect("another owner");
    fs::set_permissions(folder.file("w"), fs::Permissions::from_mode(0o666)).expect("permissions");
    let before = folder.state("w");
    let told = folder.run_bound("write a 3 2 --window w");
    told.failed(3, "w can't be written, and is as it was: its owner can't be kept, that isn't permitted\n");
    assert_eq!(folder.state("w"), before);
    assert_eq!(folder.names(), ["a", "w"]);
}

#[test]
fn a_link_to_a_window() {
    let folder = settings();
    fs::create_dir(folder.file("far")).expect("a folder");
    fs::rename(folder.file("w"), folder.file("far/real")).expect("moved");
    symlink("far/real", folder.file("near")).expect("a link");
    symlink("near", folder.file("w")).expect("a link to a link");
    folder.run_line("write a 0 300 --window w").printed("variable 0 is now 300\n");
    assert_eq!(fs::read_link(folder.file("w")).expect("a link").to_str(), Some("near"));
    assert_eq!(fs::read_link(folder.file("near")).expect("a link").to_str(), Some("far/real"));
    assert_eq!(folder.bytes("far/real"), window(0, &[1, 44]));
    assert_eq!(folder.names(), ["a", "far", "near", "w"]);
    assert_eq!(fs::read_dir(folder.file("far")).expect("a folder").count(), 1);
    // one that leads nowhere
    symlink("nowhere", folder.file("lost")).expect("a link");
    folder.run_line("write a 0 300 --window lost").failed(3, "lost can't be read: there is no such file\n");
    assert!(!folder.names().contains(&"nowhere".to_string()));
}

#[test]
fn no_window() {
    let folder = settings();
    for line in ["read a 0", "write a 0 1"] {
        folder.run_line(&format!("{line} --window none")).failed(3, "none can't be read: there is no such file\n");
        folder.run_line(&format!("{line} --window .")).failed(3, ". can't be read: it is a folder\n");
        folder.run_line(&format!("{line} --window /dev/zero")).failed(3, "/dev/zero has more than 64 MiB");
    }
    assert_eq!(folder.names(), ["a", "w"]);
    // what is no file can be read, and not be replaced
    folder.shell("printf '\\001\\054' | \"$0\" read a 0 --window /dev/stdin").printed("300\n");
    let told = folder.shell("printf '\\001\\054' | \"$0\" write a 0 1 --window /dev/stdin");
    told.failed(3, "/dev/stdin can't be written, and is as it was: ");
    folder.put("bytes", "ee");
    folder
        .run_line("write a 0 1 --window /proc/self/comm")
        .failed(3, "/proc/self/comm can't be written, and is as it was");
}

#[test]
fn a_window_of_64_mebibytes() {
    let folder = settings();
    let file = File::create(folder.file("w")).expect("a file");
    file.set_len(64 << 20).expect("a sparse file");
    folder.run_line("read a 0 --window w").printed("0\n");
    file.set_len((64 << 20) + 1).expect("a sparse file");
    age(&folder, "w");
    let words = "planksling: w has more than 64 MiB, which is the most for a window\n";
    folder.run_line("read a 0 --window w").failed(3, words);
    folder.run_line("write a 0 1 --window w").failed(3, words);
    file.set_len(1 << 30).expect("a sparse file");
    folder.run_line("write a 0 1 --window w").failed(3, words);
    assert_eq!(folder.names(), ["a", "w"]);
}

/// A folder in which nothing can be made, and a file that may not be written, for one whom permissions bind.
#[test]
fn a_window_that_cannot_be_replaced() {
    let folder = settings();
    folder.hand_over();
    let before = folder.state("w");
    fs::set_permissions(&folder.path, fs::Permissions::from_mode(0o555)).expect("permissions");
    let told = folder.run_bound("write a 0 1 --window w");
    told.failed(3, "w can't be written, and is as it was: no file can be made beside it, that isn't permitted\n");
    assert_eq!(folder.state("w"), before);
    fs::set_permissions(&folder.path, fs::Permissions::from_mode(0o755)).expect("permissions");
    fs::set_permissions(folder.file("w"), fs::Permissions::from_mode(0o444)).expect("permissions");
    let before = folder.state("w");
    folder
        .run_bound("write a 0 1 --window w")
        .failed(3, "w can't be written, and is as it was: that isn't permitted\n");
    assert_eq!(folder.state("w"), before);
    assert_eq!(folder.names(), ["a", "w"]);
    // it can be read, though
    folder.run_bound("read a 3 --window w").printed("101\n");
    fs::set_permissions(folder.file("w"), fs::Permissions::from_mode(0o644)).expect("permissions");
    folder.run_bound("write a 3 1 --window w").printed("variable 3 is now 1\n");
}

/// No room for the new file: the limit of a process on its files stands for a full disk.
#[test]
fn a_disk_that_takes_nothing() {
    let folder = settings();
    let before = folder.state("w");
    let told = folder.shell("trap '' XFSZ; ulimit -f 0; exec \"$0\" write a 0 1 --window w");
    told.failed(3, "w can't be written, and is as it was: ");
    assert_eq!(folder.state("w"), before);
    assert_eq!(folder.names(), ["a", "w"]);
}

/// Every write leaves a window of the same size, and nothing else in the folder; many at once lose nothing but each other's values.
#[test]
fn many_at_once() {
    let folder = settings();
    let values = ["0", "1", "300", "5000"];
    std::thread::scope(|scope| {
        for value in values {
            let folder = &folder;
            scope.spawn(move || {
                for _ in 0..10 {
                    assert_eq!(folder.run(&["write", "a", "0", value, "--window", "w"]).status, 0);
                }
            });
        }
    });
    let held = folder.run_line("read a 0 --window w").out;
    assert!(values.contains(&held.trim()), "{held}");
    assert_eq!(folder.bytes("w")[2..], window(0, &[])[2..]);
    assert_eq!(folder.names(), ["a", "w"]);
}

/// A description that is named as its own window stays as it is.
#[test]
fn the_description_as_window() {
    let folder = settings();
    symlink("a", folder.file("link")).expect("a link");
    let before = folder.state("a");
    for line in
        ["write a 0 1 --window a", "write a 0 1 --window ./a", "write a 0 1 --window link", "write link 0 1 --window a"]
    {
        folder.run_line(line).failed(2, "the window is the description's own file\n");
    }
    assert_eq!(folder.state("a"), before);
}

/// An accepted write is done, whether or not its answer can be told.
#[test]
fn an_answer_that_cannot_be_told() {
    let folder = settings();
    let told = folder.shell("exec \"$0\" write a 0 300 --window w >/dev/full");
    told.failed(3, "standard output can't be written: the disk is full\n");
    assert_eq!(folder.bytes("w"), window(0, &[1, 44]));
}

#[test]
fn the_sample_board() {
    let folder = Folder::new();
    let board = format!("{SAMPLES}/input-board.xml");
    folder.put("w", [0; 512]);
    folder.run(&["write", &board, "3", "Platform 1", "--window", "w"]).printed("variable 3 is now \"Platform 1\"\n");
    folder.run(&["write", &board, "4", "250", "--window", "w"]).printed("variable 4 is now 250\n");
    folder.run(&["read", &board, "3", "--window", "w"]).printed("Platform 1\n");
    assert_eq!(&folder.bytes("w")[126..148], b"\0\0Platform 1\0\0\0\0\0\0\0\xFA\0\0");
}
