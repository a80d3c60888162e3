//! The tool as a user runs it: its built program, in a folder of its own.

#![allow(dead_code)] // each test file takes some of these

pub mod json;

use std::ffi::OsStr;
use std::fs;
use std::io::Write;
use std::os::unix::fs::{chown, MetadataExt, PermissionsExt};
use std::os::unix::process::CommandExt;
use std::path::{Path, PathBuf};
use std::process::{Command, Output, Stdio};
use std::sync::atomic::{AtomicU32, Ordering};
use std::time::SystemTime;

/// The built program.
pub const PROGRAM: &str = env!("CARGO_BIN_EXE_planksling");

/// The repository's samples.
pub const SAMPLES: &str = concat!(env!("CARGO_MANIFEST_DIR"), "/../samples");

/// The first line and the root's tag.
pub const ROOT: &str = concat!(
    "<?xml version=\"1.0\"?>\n",
    "<cdi xmlns:xsi=\"http://www.w3.org/2001/XMLSchema-instance\"\n",
    "     xsi:noNamespaceSchemaLocation=\"http://openlcb.org/schema/cdi/1/3/cdi.xsd\">\n",
);

/// A description with these elements in a segment of space 253, from address 0 on.
pub fn segment(elements: &str) -> String {
    format!("{ROOT}<segment space=\"253\">\n{elements}</segment>\n</cdi>\n")
}

/// The number of a user without rights, and of its group.
pub const NOBODY: u32 = 65534;

/// Does root run the tests? No permission binds it.
pub fn is_root() -> bool {
    fs::metadata("/proc/self").expect("this process").uid() == 0
}

/// What a call told.
#[derive(Debug, PartialEq, Eq)]
pub struct Told {
    pub status: i32,
    pub out: String,
    pub err: String,
}

impl Told {
    /// What the program printed, which must be UTF-8 and harmless to a terminal.
    pub fn new(output: Output) -> Told {
        let text = |bytes| String::from_utf8(bytes).expect("the tool prints UTF-8");
        let told = Told {
            status: output.status.code().expect("a status"),
            out: text(output.stdout),
            err: text(output.stderr),
        };
        for text in [&told.out, &told.err] {
            let obeyed = text.chars().find(|&c| c.is_control() && c != '\n' && c != '\t' || c == '\u{202E}');
            assert_eq!(obeyed, None, "{text:?}");
        }
        assert!(!told.err.contains("panicked"), "{}", told.err);
        told
    }

    /// It ended with this status, and these words stand in what it said on standard error.
    #[track_caller]
    pub fn failed(&self, status: i32, words: &str) {
        assert!(self.status == status && self.err.contains(words), "{self:?}");
        assert_eq!(self.out, "");
    }

    /// It ended well and printed this.
    #[track_caller]
    pub fn printed(&self, out: &str) {
        assert_eq!((self.status, &self.out[..], &self.err[..]), (0, out, ""));
    }
}

/// A folder for one test, removed at its end.
pub struct Folder {
    pub path: PathBuf,
}

impl Folder {
    pub fn new() -> Folder {
        static MADE: AtomicU32 = AtomicU32::new(0);
        let name = format!("planksling-test-{}-{}", std::process::id(), MADE.fetch_add(1, Ordering::Relaxed));
        let path = std::env::temp_dir().join(name);
        fs::create_dir(&path).expect("a folder");
        Folder { path }
    }

    pub fn file(&self, name: &str) -> PathBuf {
        self.path.join(name)
    }

    pub fn put(&self, name: &str, bytes: impl AsRef<[u8]>) -> PathBuf {
        fs::write(self.file(name), bytes).expect("a file");
        self.file(name)
    }

    pub fn bytes(&self, name: &str) -> Vec<u8> {
        fs::read(self.file(name)).expect("a file")
    }

    /// The names of the files in it, in their order.
    pub fn names(&self) -> Vec<String> {
        let entries = fs::read_dir(&self.path).expect("a folder");
        let mut names: Vec<String> =
            entries.map(|entry| entry.expect("an entry").file_name().into_string().expect("a name")).collect();
        names.sort();
        names
    }

    /// A call in this folder.
    pub fn command(&self, words: &[&str]) -> Command {
        self.program(Path::new(PROGRAM), words)
    }

    fn program(&self, program: &Path, words: &[impl AsRef<OsStr>]) -> Command {
        let mut command = Command::new(program);
        command.args(words).current_dir(&self.path).stdin(Stdio::null());
        command
    }

    pub fn run(&self, words: &[&str]) -> Told {
        Told::new(self.command(words).output().expect("a program"))
    }

    /// A call whose words stand in one line, with blanks between them.
    pub fn run_line(&self, line: &str) -> Told {
        self.run(&line.split_whitespace().collect::<Vec<_>>())
    }

    /// A call with these bytes on standard input.
    pub fn run_with(&self, input: &[u8], words: &[&str]) -> Told {
        let mut command = self.command(words);
        let mut child =
            command.stdin(Stdio::piped()).stdout(Stdio::piped()).stderr(Stdio::piped()).spawn().expect("a program");
        // the tool may have read enough before all is written
        let _ = child.stdin.take().expect("standard input").write_all(input);
        Told::new(child.wait_with_output().expect("a program"))
    }

    /// A line of the shell, in which `$0` is the program.
    pub fn shell(&self, line: &str) -> Told {
        let words = ["-c", line, PROGRAM];
        Told::new(self.program(Path::new("/bin/sh"), &words).output().expect("a shell"))
    }

    /// A call by someone whom permissions bind: where root runs the tests, by nobody.
    pub fn run_bound(&self, line: &str) -> Told {
        let words: Vec<&str> = line.split_whitespace().collect();
        if !is_root() {
            return self.run(&words);
        }
        let place = Folder::new();
        let program = place.file("planksling");
        // by another process: a program that someone has open for writing can't be run, and a test beside may just start one with all that is open
        let copied = Command::new("cp").arg(PROGRAM).arg(&program).status().expect("cp");
        assert!(copied.success());
        for path in [&place.path, &program] {
            fs::set_permissions(path, fs::Permissions::from_mode(0o755)).expect("permissions");
        }
        let mut command = self.program(&program, &words);
        Told::new(command.uid(NOBODY).gid(NOBODY).output().expect("a program"))
    }

    /// Makes the folder and its files those of the one by whom `run_bound` calls.
    pub fn hand_over(&self) {
        if is_root() {
            for path in self.names().iter().map(|name| self.file(name)).chain([self.path.clone()]) {
                chown(path, Some(NOBODY), Some(NOBODY)).expect("another owner");
            }
        }
    }

    /// All that tells whether a file was touched.
    pub fn state(&self, name: &str) -> (Vec<u8>, SystemTime, u64, u32) {
        let data = fs::metadata(self.file(name)).expect("a file");
        (self.bytes(name), data.modified().expect("a time"), data.ino(), data.permissions().mode())
    }
}

impl Drop for Folder {
    fn drop(&mut self) {
        let _ = fs::set_permissions(&self.path, fs::Permissions::from_mode(0o755));
        let _ = fs::remove_dir_all(&self.path);
    }
}
