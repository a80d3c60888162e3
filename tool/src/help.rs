//! What the tool says of itself.

/// What can be asked for.
#[derive(Clone, Copy, PartialEq, Eq)]
pub enum Command {
    List,
    Check,
    Show,
    Read,
    Write,
    Edit,
    Undo,
    Store,
    Restore,
    Inspect,
    Help,
}

impl Command {
    const ALL: [Command; 11] = [
        Command::List,
        Command::Check,
        Command::Show,
        Command::Read,
        Command::Write,
        Command::Edit,
        Command::Undo,
        Command::Store,
        Command::Restore,
        Command::Inspect,
        Command::Help,
    ];

    /// The command of this name.
    pub fn named(name: &str) -> Option<Command> {
        Command::ALL.into_iter().find(|command| command.name() == name)
    }

    pub fn name(self) -> &'static str {
        match self {
            Command::List => "list",
            Command::Check => "check",
            Command::Show => "show",
            Command::Read => "read",
            Command::Write => "write",
            Command::Edit => "edit",
            Command::Undo => "undo",
            Command::Store => "store",
            Command::Restore => "restore",
            Command::Inspect => "inspect",
            Command::Help => "help",
        }
    }

    /// The words behind its name that it needs.
    pub fn words(self) -> &'static [&'static str] {
        match self {
            Command::List | Command::Check | Command::Undo => &["FILE"],
            Command::Show | Command::Read => &["FILE", "N"],
            Command::Write | Command::Edit => &["FILE", "N", "VALUE"],
            Command::Store => &["WINDOW", "BACKUP"],
            Command::Restore => &["BACKUP", "WINDOW"],
            Command::Inspect => &["BACKUP"],
            Command::Help => &[],
        }
    }

    /// Does it work on a window that an option names?
    pub fn has_window(self) -> bool {
        matches!(self, Command::Read | Command::Write) || self.has_journal()
    }

    /// Does it keep a journal?
    pub fn has_journal(self) -> bool {
        matches!(self, Command::Edit | Command::Undo)
    }

    /// Is it told at which address the window begins? To take an edit back, its journal tells that.
    pub fn has_address(self) -> bool {
        self.has_window() && self != Command::Undo
    }

    /// Is it told of which space the window is?
    pub fn has_space(self) -> bool {
        self.has_address() || self == Command::Store
    }

    pub fn usage(self) -> &'static str {
        match self {
            Command::List => "planksling list FILE [--json]",
            Command::Check => "planksling check FILE [--json]",
            Command::Show => "planksling show FILE N [--json]",
            Command::Read => "planksling read FILE N --window FILE [--space N] [--first N] [--json]",
            Command::Write => "planksling write FILE N VALUE --window FILE [--space N] [--first N] [--json]",
            Command::Edit => {
                "planksling edit FILE N VALUE --window FILE --journal FILE [--space N] [--first N] [--json]"
            }
            Command::Undo => "planksling undo FILE --window FILE --journal FILE [--json]",
            Command::Store => "planksling store WINDOW BACKUP --space N [--json]",
            Command::Restore => "planksling restore BACKUP WINDOW [--json]",
            Command::Inspect => "planksling inspect BACKUP [--json]",
            Command::Help => "planksling help [COMMAND]",
        }
    }

    fn about(self) -> &'static str {
        match self {
            Command::List => LIST,
            Command::Check => CHECK,
            Command::Show => SHOW,
            Command::Read => READ,
            Command::Write => WRITE,
            Command::Edit => EDIT,
            Command::Undo => UNDO,
            Command::Store => STORE,
            Command::Restore => RESTORE,
            Command::Inspect => INSPECT,
            Command::Help => HELP,
        }
    }
}

/// What `help` prints, of one command or of all.
pub fn text(command: Option<Command>) -> String {
    match command {
        None => ALL.to_string(),
        Some(command) => {
            let options = match command {
                Command::Read | Command::Write => [WINDOW, ADDRESS].concat(),
                Command::Edit => [WINDOW, JOURNAL, ADDRESS].concat(),
                Command::Undo => [WINDOW, JOURNAL].concat(),
                Command::Store => SPACE.to_string(),
                _ => return format!("{}\n\n{}", command.usage(), command.about()),
            };
            format!("{}\n\n{}\n{options}", command.usage(), command.about())
        }
    }
}

pub const VERSION: &str = concat!("planksling ", env!("CARGO_PKG_VERSION"), "\n");

const ALL: &str = "\
planksling lists, checks, reads and writes the settings (variables) of an
OpenLCB node by the node's description (CDI), takes edits back, keeps backups,
and explains what is refused.

  planksling list FILE              where each variable lives
  planksling check FILE             is the description accepted?
  planksling show FILE N            all that is known of variable N
  planksling read FILE N            its value in a window
  planksling write FILE N VALUE     gives it another value in a window
  planksling edit FILE N VALUE      the same, so that it can be taken back
  planksling undo FILE              takes the latest edit back
  planksling store WINDOW BACKUP    stores a window as a backup, in blocks
  planksling restore BACKUP WINDOW  gives the stored window back
  planksling inspect BACKUP         which blocks of a backup are good?
  planksling help [COMMAND]         this, or more on a command

  --json          answers and refusals as JSON, for programs
  --window FILE   for read, write, edit, undo: the node's memory, in a file
  --journal FILE  for edit and undo: what the edits replaced, in a file
  --space N       the space of that memory (the variable's own, if not given);
                  for store, which needs it, that of the window
  --first N       the address of its first byte (0, if not given)
  --              ends the options, for a value that begins with -
  --version       the tool's version

FILE is a description; - is standard input. It needs no closing zero.
The status is 0, or 1 for a refusal, 2 for a wrong call, 3 for a file that
can't be read or written.
";

const LIST: &str = "\
Prints `variables` and how many there are, then a line for each: its number
from 0, its space, its address, its size in bytes, and its kind. With --json
each variable is an object in a line of its own.
";

const CHECK: &str = "\
Tells whether the description is accepted, how many records its table has
(one for each segment and data element) and how many variables there are.
";

const SHOW: &str = "\
Tells all that the table has of variable N, counted from 0, and shows the line
of the description in which its element begins.
";

const READ: &str = "\
Prints the value of variable N in the window: an integer in decimal, an event
ID as 05.01.01.01.18.00.00.FF, a text as it is but for control characters,
which are written out (--json has them exactly). A value that could not be
written now, as it is out of bounds or not in the map, is noted on standard
error.
";

const WRITE: &str = "\
Writes VALUE to variable N in the window. For an int it is a whole number in
decimal, with a sign or without; for an eventid 05.01.01.01.18.00.00.FF,
0x05010101180000FF or a decimal number that doesn't begin with 0; for a string
the text itself, in quotes if it has blanks. Behind -- it may begin with -.

The file is replaced as a whole: a new one is written beside it and then takes
its name, with the same owner and permissions. A refusal, a failure or a value
that is there already leaves the file as it is.
";

const EDIT: &str = "\
Writes VALUE to variable N in the window, as `planksling write` does, and keeps
the bytes that it replaced in the journal, so that `planksling undo` takes the
edit back. A value that is there already is an edit too. At most 64 edits stand
at a time, in 65,536 bytes.

The journal belongs to this description and this window. The first edit makes
it. Where something else has written to the window since, that is told, and
nothing is changed.
";

const UNDO: &str = "\
Takes the latest edit back that stands in the journal: its variable has its old
bytes again, and no other byte of the window changes.

Where something else has written to the window since the last edit, that is
told, and nothing is changed.
";

const STORE: &str = "\
Stores the bytes of the file WINDOW, of this space of the node's memory, in
blocks of 512 bytes in the file BACKUP. Each block has a number and a check, so
that any change of a single byte is noticed. The address of the window's first
byte isn't stored.

BACKUP is made, or replaced as a whole where it is a good backup or empty. Any
other file is left as it is, and so is a backup of the same bytes.
";

const RESTORE: &str = "\
Reads the file BACKUP, and writes the bytes that were stored to the file WINDOW.
A backup that has a bad block is refused with the first one and its cause.

WINDOW is made, or replaced as a whole where it has as many bytes or is empty.
Any other file is left as it is, and so is one that has these bytes already.
";

const INSPECT: &str = "\
Tells whether the backup is good, or its first bad block and the cause; then a
line for each block, behind a bad one too, with its number and its length as
they stand there, and good or what is wrong with it; then how many blocks are
good, and how many of the window's bytes these have. All of it goes to standard
output. The status is 0 for a good backup, else 1.
";

const HELP: &str = "\
Tells what a command does; without COMMAND, what there is.
";

const WINDOW: &str = "  --window FILE   bytes of one space of the node's memory, at most 64 MiB
";

const SPACE: &str = "  --space N       the space that the window's bytes are of, 0 to 255, decimal or
                  hexadecimal with 0x in front
";

const JOURNAL: &str = "  --journal FILE  what the edits of this window replaced
";

const ADDRESS: &str = "  --space N       that space; the variable's own, if not given
  --first N       the address of the file's first byte; 0, if not given

Numbers of options are decimal, or hexadecimal with 0x in front.
";
