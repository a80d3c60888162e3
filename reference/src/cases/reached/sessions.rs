//! What sessions come to: entries about the ends of journal and room, 64 standing edits, and each reason for 30 and 35.

use crate::answer::Case;
use crate::description::{Detail, Kind};
use crate::refusal::Refusal;
use crate::session::{Entry, Known, Operation, Session, EDITS, HEAD, ROOM};

pub const FULL: &str = "session: 30, 64 edits stand";
pub const EXACT: &str = "session: an edit whose entry ends with the journal";
pub const SHORT: &str = "session: 30, the journal is one byte short";
pub const ROOM_EXACT: &str = "session: an edit whose entry ends at byte 65,536";
pub const ROOM_SHORT: &str = "session: 30, the room of 65,536 is one byte short";
pub const BEYOND: &str = "session: an edit in a journal longer than the room";
pub const MANY: &str = "session: undo with more than 64 standing";

#[rustfmt::skip]
const THINGS: [&str; 33] = [
    FULL, EXACT, SHORT, ROOM_EXACT, ROOM_SHORT, BEYOND, MANY,
    "session: 30, more than 64 edits stand",
    "session: 30, an entry before doesn't lie in the journal",
    "session: the 64th edit",
    "session: an edit of the value that stands",
    "session: an edit of the variable of the entry before",
    "session: an edit over the room of one taken back",
    "session: undo of an int",
    "session: undo of a string",
    "session: undo of an eventid",
    "session: undo of an eventid with a map",
    "session: undo of a float",
    "session: undo of an entry that ends with the journal",
    "session: undo of an entry that ends at byte 65,536",
    "session: undo in a journal longer than the room",
    "session: undo of all edits, the window as it was opened",
    "session: 35, an entry before doesn't lie in the journal",
    "session: 35, the latest entry doesn't lie in the journal",
    "session: 35, the latest entry is one byte too long",
    "session: 35, the latest entry ends at byte 65,537",
    "session: 35, no such variable",
    "session: 35, another size",
    "session: 35, another space",
    "session: 35, not wholly inside the window",
    "session: a session value of 2^32 or more",
    "session: a size of 2^31 or more in the first entry",
    "session: 100 operations or more",
];

/// All that is counted here.
pub fn labels() -> Vec<String> {
    THINGS.map(str::to_string).to_vec()
}

/// What a refused edit of this size shows if it is refused by 30.
fn no_room(before: &Session, size: u128) -> Vec<&'static str> {
    if before.standing >= EDITS {
        return vec![if before.standing == EDITS { FULL } else { "session: 30, more than 64 edits stand" }];
    }
    let Some(start) = before.start_of(before.standing) else {
        return vec!["session: 30, an entry before doesn't lie in the journal"];
    };
    let room = before.room().len();
    if start + HEAD + size != room as u128 + 1 {
        return Vec::new();
    }
    if room == ROOM {
        vec![SHORT, ROOM_SHORT]
    } else {
        vec![SHORT]
    }
}

/// What an accepted edit shows.
fn edited(before: &Session, after: &Session, n: u64, undone: bool) -> Vec<&'static str> {
    let end = after.start_of(after.standing).unwrap_or(0);
    let latest = before.standing.checked_sub(1).and_then(|latest| before.entry_at(before.start_of(latest)?));
    let shown = [
        (end == after.journal.len() as u128, EXACT),
        (end == ROOM as u128, ROOM_EXACT),
        (after.journal.len() > ROOM, BEYOND),
        (after.standing == EDITS, "session: the 64th edit"),
        (after.window == before.window, "session: an edit of the value that stands"),
        (latest.is_some_and(|entry| entry.number == n), "session: an edit of the variable of the entry before"),
        (undone, "session: an edit over the room of one taken back"),
    ];
    shown.into_iter().filter(|(is, _)| *is).map(|(_, thing)| thing).collect()
}

/// What an accepted undo of this entry shows.
fn taken_back(known: &Known, before: &Session, entry: &Entry) -> Vec<&'static str> {
    let kind = match known.variable(entry.number) {
        Some(variable) if variable.detail == (Detail::Eventid { map: true }) => {
            "session: undo of an eventid with a map"
        }
        Some(variable) => match variable.met.kind {
            Kind::Int => "session: undo of an int",
            Kind::String => "session: undo of a string",
            Kind::Eventid => "session: undo of an eventid",
            _ => "session: undo of a float",
        },
        None => return Vec::new(),
    };
    let shown = [
        (true, kind),
        (before.standing > EDITS, MANY),
        (entry.end() == before.journal.len() as u128, "session: undo of an entry that ends with the journal"),
        (entry.end() == ROOM as u128, "session: undo of an entry that ends at byte 65,536"),
        (before.journal.len() > ROOM, "session: undo in a journal longer than the room"),
    ];
    shown.into_iter().filter(|(is, _)| *is).map(|(_, thing)| thing).collect()
}

/// What an entry shows that begins here and doesn't lie in the journal.
fn cut_off(before: &Session, start: u128) -> Vec<&'static str> {
    let mut shown = vec!["session: 35, the latest entry doesn't lie in the journal"];
    // With a byte more it would lie there.
    let mut longer = before.clone();
    longer.journal.insert(longer.journal.len().min(ROOM), 0);
    if longer.entry_at(start).is_some() {
        shown.push("session: 35, the latest entry is one byte too long");
    }
    let head = before.room().get(start as usize..start as usize + HEAD as usize);
    let size = head.map(|head| head[4..].iter().fold(0u128, |size, byte| size << 8 | *byte as u128));
    if size.is_some_and(|size| start + HEAD + size == ROOM as u128 + 1) && before.journal.len() >= ROOM {
        shown.push("session: 35, the latest entry ends at byte 65,537");
    }
    shown
}

/// What an undo shows that is refused by 35.
fn not_undone(known: &Known, before: &Session) -> Vec<&'static str> {
    let Some(start) = before.start_of(before.standing - 1) else {
        return vec!["session: 35, an entry before doesn't lie in the journal"];
    };
    let Some(entry) = before.entry_at(start) else { return cut_off(before, start) };
    let thing = match known.variable(entry.number) {
        None => "session: 35, no such variable",
        Some(variable) if variable.met.size as u64 != entry.size => "session: 35, another size",
        Some(variable) if variable.met.space as u64 != before.space => "session: 35, another space",
        Some(_) => "session: 35, not wholly inside the window",
    };
    vec![thing]
}

/// What one undo shows.
fn of_undo(known: &Known, before: &Session, outcome: Result<(), Refusal>) -> Vec<&'static str> {
    match outcome {
        Err(refusal) if refusal.number == 35 => not_undone(known, before),
        Err(_) => Vec::new(),
        Ok(()) => {
            let entry = before.start_of(before.standing - 1).and_then(|start| before.entry_at(start));
            entry.map(|entry| taken_back(known, before, &entry)).unwrap_or_default()
        }
    }
}

/// What the opening shows.
fn opened(session: &Session, operations: &[Operation]) -> Vec<&'static str> {
    let size = session.room().get(4);
    let shown = [
        (session.standing >= 1 << 32, "session: a session value of 2^32 or more"),
        (
            session.standing > 0 && size.is_some_and(|byte| *byte >= 0x80),
            "session: a size of 2^31 or more in the first entry",
        ),
        (operations.len() >= 100, "session: 100 operations or more"),
    ];
    shown.into_iter().filter(|(is, _)| *is).map(|(_, thing)| thing).collect()
}

/// What a case shows of this.
pub fn met(case: &Case) -> Vec<String> {
    let Case::Session { session: opening, operations } = case else { return Vec::new() };
    let known = Known::of(&opening.text, &opening.table);
    let mut shown = opened(opening, operations);
    let (mut now, mut undone, mut edits) = (opening.clone(), false, 0);
    for operation in operations {
        let before = now.clone();
        let outcome = now.perform(&known, operation);
        let Ok(known) = &known else { continue };
        match (operation, outcome) {
            (Operation::Edit { n, .. }, Ok(())) => {
                shown.extend(edited(&before, &now, *n, undone));
                edits += 1;
            }
            (Operation::Edit { n, .. }, Err(refusal)) if refusal.number == 30 => {
                let size = known.variable(*n).map_or(0, |variable| variable.met.size as u128);
                shown.extend(no_room(&before, size));
            }
            (Operation::Edit { .. }, Err(_)) => {}
            (Operation::Undo, outcome) => {
                shown.extend(of_undo(known, &before, outcome));
                undone |= outcome.is_ok();
            }
        }
    }
    if edits > 1 && opening.standing == 0 && now.standing == 0 && now.window == opening.window {
        shown.push("session: undo of all edits, the window as it was opened");
    }
    shown.into_iter().map(str::to_string).collect()
}
