//! Cases and their answers: what is asked, what comes back, and the line that is printed for it.

use crate::access::{read, write, Access, ReadValue, Value};
use crate::backup::{restore, store};
use crate::description::Kind;
use crate::leaves::{leaf_line, Leaf};
use crate::plan::plan_into;
use crate::refusal::Refusal;
use crate::session::{Known, Operation, Session};
use crate::table::locate;

/// One question, as a frame of the stream gives it.
#[derive(Debug, Clone, PartialEq, Eq)]
pub enum Case {
    Plan { room: u64, text: Vec<u8> },
    Locate { table: Vec<i64>, n: u64 },
    WriteInteger { access: Access, negative: bool, magnitude: u64 },
    WriteEvent { access: Access, value: u64 },
    WriteText { access: Access, value: Vec<u8> },
    Read { access: Access },
    Session { session: Session, operations: Vec<Operation> },
    Store { space: u64, window: Vec<u8>, room: u64 },
    Restore { backup: Vec<u8>, room: u64 },
    Leaf(Leaf),
}

/// What one operation of a session came to, and the session value and the hashes of window and journal after it.
#[derive(Debug, Clone, Copy, PartialEq, Eq)]
pub struct Step {
    pub outcome: Result<(), Refusal>,
    pub standing: u64,
    pub window: u64,
    pub journal: u64,
}

/// One answer, with the lent memory as it is afterwards.
#[derive(Debug, Clone, PartialEq, Eq)]
pub enum Answer {
    Planned {
        records: u64,
        variables: u64,
        table: Vec<i64>,
    },
    PlanRefused {
        refusal: Refusal,
        table: Vec<i64>,
    },
    Found {
        record: u64,
        space: i64,
        address: i64,
        size: i64,
        kind: Kind,
    },
    LocateRefused {
        refusal: Refusal,
    },
    Written {
        window: Vec<u8>,
    },
    WriteRefused {
        refusal: Refusal,
        window: Vec<u8>,
    },
    Integer {
        value: i128,
        accepted: bool,
    },
    Event {
        value: u64,
        accepted: bool,
    },
    Text {
        bytes: Vec<u8>,
        accepted: bool,
    },
    ReadRefused {
        refusal: Refusal,
    },
    /// Each operation, and the session as it is at the end.
    Session {
        steps: Vec<Step>,
        session: Session,
    },
    /// How many bytes all blocks take.
    Stored {
        length: u64,
        output: Vec<u8>,
    },
    /// How many bytes the window has, and its space.
    Restored {
        length: u64,
        space: u8,
        output: Vec<u8>,
    },
    BackupRefused {
        refusal: Refusal,
        output: Vec<u8>,
    },
    /// The line for a single reading.
    Leaf {
        line: String,
    },
}

/// The table that is lent to the planner: number i holds -7 - i.
pub fn lent_table(room: u64) -> Vec<i64> {
    (0..room as i64).map(|number| -7 - number).collect()
}

fn answer_plan(room: u64, text: &[u8]) -> Answer {
    let mut table = lent_table(room);
    match plan_into(text, &mut table) {
        Ok((records, variables)) => Answer::Planned { records, variables, table },
        Err(refusal) => Answer::PlanRefused { refusal, table },
    }
}

fn answer_locate(table: &[i64], n: u64) -> Answer {
    match locate(table, n) {
        Ok(met) => Answer::Found {
            record: met.record as u64,
            space: met.space,
            address: met.address as i64,
            size: met.size,
            kind: met.kind,
        },
        Err(refusal) => Answer::LocateRefused { refusal },
    }
}

fn answer_write(access: &Access, value: Value) -> Answer {
    match write(access, &value) {
        Ok(window) => Answer::Written { window },
        Err(refusal) => Answer::WriteRefused { refusal, window: access.window.clone() },
    }
}

fn answer_read(access: &Access) -> Answer {
    match read(access) {
        Ok(ReadValue::Integer { value, accepted }) => Answer::Integer { value, accepted },
        Ok(ReadValue::Event { value, accepted }) => Answer::Event { value, accepted },
        Ok(ReadValue::Text { bytes, accepted }) => Answer::Text { bytes, accepted },
        Err(refusal) => Answer::ReadRefused { refusal },
    }
}

/// The operations in order, each on what the one before left.
fn answer_session(opening: &Session, operations: &[Operation]) -> Answer {
    let mut session = opening.clone();
    let known = Known::of(&session.text, &session.table);
    let mut step = |operation: &Operation| {
        let outcome = session.perform(&known, operation);
        let [window, journal] = [&session.window, &session.journal].map(|bytes| hash(bytes.iter().copied()));
        Step { outcome, standing: session.standing, window, journal }
    };
    let steps = operations.iter().map(&mut step).collect();
    Answer::Session { steps, session }
}

/// The output that is lent for a backup or a window: byte i holds (7 i + 3) mod 256.
pub fn lent_output(room: u64) -> Vec<u8> {
    (0..room).map(|place| ((7 * place + 3) % 256) as u8).collect()
}

fn answer_store(space: u64, window: &[u8], room: u64) -> Answer {
    let mut output = lent_output(room);
    match store(space, window, &mut output) {
        Ok(length) => Answer::Stored { length: length as u64, output },
        Err(refusal) => Answer::BackupRefused { refusal, output },
    }
}

fn answer_restore(backup: &[u8], room: u64) -> Answer {
    let mut output = lent_output(room);
    match restore(backup, &mut output) {
        Ok((length, space)) => Answer::Restored { length: length as u64, space, output },
        Err(refusal) => Answer::BackupRefused { refusal, output },
    }
}

pub fn answer(case: &Case) -> Answer {
    match case {
        Case::Plan { room, text } => answer_plan(*room, text),
        Case::Locate { table, n } => answer_locate(table, *n),
        Case::WriteInteger { access, negative, magnitude } => {
            answer_write(access, Value::Integer { negative: *negative, magnitude: *magnitude })
        }
        Case::WriteEvent { access, value } => answer_write(access, Value::Event(*value)),
        Case::WriteText { access, value } => answer_write(access, Value::Text(value.clone())),
        Case::Read { access } => answer_read(access),
        Case::Session { session, operations } => answer_session(session, operations),
        Case::Store { space, window, room } => answer_store(*space, window, *room),
        Case::Restore { backup, room } => answer_restore(backup, *room),
        Case::Leaf(leaf) => Answer::Leaf { line: leaf_line(leaf) },
    }
}

/// FNV-1a with 64 bits.
pub fn hash(bytes: impl IntoIterator<Item = u8>) -> u64 {
    let (basis, prime) = (14_695_981_039_346_656_037u64, 1_099_511_628_211u64);
    bytes.into_iter().fold(basis, |hash, byte| (hash ^ byte as u64).wrapping_mul(prime))
}

fn table_hash(table: &[i64]) -> String {
    format!("{:016x}", hash(table.iter().flat_map(|number| number.to_be_bytes())))
}

fn bytes_hash(bytes: &[u8]) -> String {
    format!("{:016x}", hash(bytes.iter().copied()))
}

fn flag(accepted: bool) -> &'static str {
    if accepted {
        "accepted"
    } else {
        "not"
    }
}

fn hex(bytes: &[u8]) -> String {
    if bytes.is_empty() {
        return "-".to_string();
    }
    bytes.iter().map(|byte| format!("{byte:02x}")).collect()
}

fn refused(refusal: &Refusal) -> String {
    format!("refused {} {}", refusal.number, refusal.place)
}

fn outcome(step: &Step) -> String {
    match step.outcome {
        Ok(()) => "+".to_string(),
        Err(refusal) => format!("{}.{}", refusal.number, refusal.place),
    }
}

fn session_line(steps: &[Step], session: &Session) -> String {
    let outcomes: Vec<String> = steps.iter().map(outcome).collect();
    let outcomes = if outcomes.is_empty() { "-".to_string() } else { outcomes.join(",") };
    let told = steps.iter().flat_map(|step| [step.standing, step.window, step.journal]);
    let all = hash(told.flat_map(u64::to_be_bytes));
    let (window, journal) = (bytes_hash(&session.window), bytes_hash(&session.journal));
    format!("session {outcomes} {} {window} {journal} {all:016x}", session.standing)
}

/// The line for an answer, without its newline.
pub fn line(answer: &Answer) -> String {
    match answer {
        Answer::Planned { records, variables, table } => format!("planned {records} {variables} {}", table_hash(table)),
        Answer::PlanRefused { refusal, table } => format!("{} {}", refused(refusal), table_hash(table)),
        Answer::Found { record, space, address, size, kind } => {
            format!("found {record} {space} {address} {size} {}", kind.name())
        }
        Answer::LocateRefused { refusal } | Answer::ReadRefused { refusal } => refused(refusal),
        Answer::Written { window } => format!("written {}", bytes_hash(window)),
        Answer::WriteRefused { refusal, window } => format!("{} {}", refused(refusal), bytes_hash(window)),
        Answer::Integer { value, accepted } => format!("integer {value} {}", flag(*accepted)),
        Answer::Event { value, accepted } => format!("event {value} {}", flag(*accepted)),
        Answer::Text { bytes, accepted } => format!("text {} {}", hex(bytes), flag(*accepted)),
        Answer::Session { steps, session } => session_line(steps, session),
        Answer::Stored { length, output } => format!("stored {length} {}", bytes_hash(output)),
        Answer::Restored { length, space, output } => format!("restored {length} {space} {}", bytes_hash(output)),
        Answer::BackupRefused { refusal, output } => format!("{} {}", refused(refusal), bytes_hash(output)),
        Answer::Leaf { line } => line.clone(),
    }
}
