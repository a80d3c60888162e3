//! Wrong calls in the place of right ones: a byte too far ends the process that tries them, and everything else that is wrong is told. Each is tried in
//! a process of its own, which is this program once more with the name of what is planted.

use std::process::{Command, Stdio};
use std::time::Duration;

use fuzz::calls::{Calls, LIBRARY};
use fuzz::run::{run, Mode, Until};
use fuzz::watch::{watch, Ended, Watched};

/// The variables that tell the other process what to do.
const PLANTED: &str = "PLANKSLING_FUZZ_PLANTED";
const MODE: &str = "PLANKSLING_FUZZ_MODE";
const COUNT: &str = "PLANKSLING_FUZZ_COUNT";

/// Its status where a difference was told.
const TOLD: i32 = 3;

/// The signal of memory that can't be touched, the same on every Linux.
const SEGMENTATION: i32 = 11;

const SEED: u64 = 1;
const CASES: u64 = 400;

// ── wrong calls: what is wrong is done beside what is right ──

#[rustfmt::skip]
mod wrong {
    use super::LIBRARY;

    pub unsafe extern "C" fn plan_reads_behind(
        text: *const u8, length: usize, table: *mut i64, numbers: usize, records: *mut usize, variables: *mut u64, place: *mut usize,
    ) -> usize {
        std::ptr::read_volatile(text.wrapping_add(length));
        (LIBRARY.plan)(text, length, table, numbers, records, variables, place)
    }

    pub unsafe extern "C" fn plan_reads_before(
        text: *const u8, length: usize, table: *mut i64, numbers: usize, records: *mut usize, variables: *mut u64, place: *mut usize,
    ) -> usize {
        std::ptr::read_volatile(text.wrapping_sub(1));
        (LIBRARY.plan)(text, length, table, numbers, records, variables, place)
    }

    pub unsafe extern "C" fn plan_writes_behind(
        text: *const u8, length: usize, table: *mut i64, numbers: usize, records: *mut usize, variables: *mut u64, place: *mut usize,
    ) -> usize {
        if numbers > 0 {
            std::ptr::write_volatile(table.add(numbers), 1);
        }
        (LIBRARY.plan)(text, length, table, numbers, records, variables, place)
    }

    pub unsafe extern "C" fn plan_writes_before(
        text: *const u8, length: usize, table: *mut i64, numbers: usize, records: *mut usize, variables: *mut u64, place: *mut usize,
    ) -> usize {
        if numbers > 0 {
            std::ptr::write_volatile(table.wrapping_sub(1), 1);
        }
        (LIBRARY.plan)(text, length, table, numbers, records, variables, place)
    }

    pub unsafe extern "C" fn plan_fills_the_table(
        text: *const u8, length: usize, table: *mut i64, numbers: usize, records: *mut usize, variables: *mut u64, place: *mut usize,
    ) -> usize {
        let told = (LIBRARY.plan)(text, length, table, numbers, records, variables, place);
        if told == 0 && numbers > 8 * *records {
            *table.add(8 * *records) = 0;
        }
        told
    }

    pub unsafe extern "C" fn plan_is_off_by_one(
        text: *const u8, length: usize, table: *mut i64, numbers: usize, records: *mut usize, variables: *mut u64, place: *mut usize,
    ) -> usize {
        let told = (LIBRARY.plan)(text, length, table, numbers, records, variables, place);
        *place += (told == 4) as usize;
        told
    }

    pub unsafe extern "C" fn check_leaves_place(
        text: *const u8, length: usize, table: *const i64, numbers: usize, end: *mut usize, _place: *mut usize,
    ) -> usize {
        let mut other = 0;
        (LIBRARY.check)(text, length, table, numbers, end, &mut other)
    }

    pub unsafe extern "C" fn check_writes_table(
        text: *const u8, length: usize, table: *const i64, numbers: usize, end: *mut usize, place: *mut usize,
    ) -> usize {
        if numbers > 0 {
            std::ptr::write_volatile(table.cast_mut(), *table);
        }
        (LIBRARY.check)(text, length, table, numbers, end, place)
    }

    pub unsafe extern "C" fn locate_writes_when_refused(
        table: *const i64, numbers: usize, n: u64, record: *mut usize, space: *mut u64, address: *mut u64, size: *mut u64, kind: *mut u64,
    ) -> usize {
        let told = (LIBRARY.locate)(table, numbers, n, record, space, address, size, kind);
        if told != 0 {
            *size = 0;
        }
        told
    }

    pub unsafe extern "C" fn locate_writes_twice_as_wide(
        table: *const i64, numbers: usize, n: u64, record: *mut usize, space: *mut u64, address: *mut u64, size: *mut u64, kind: *mut u64,
    ) -> usize {
        let told = (LIBRARY.locate)(table, numbers, n, record, space, address, size, kind);
        if told == 0 {
            std::ptr::write_volatile(kind.add(1), 0);
        }
        told
    }

    pub unsafe extern "C" fn event_writes_behind(
        text: *const u8, length: usize, table: *const i64, numbers: usize, n: u64, space: u64, first: u64, window: *mut u8, bytes: usize,
        id: u64, place: *mut usize,
    ) -> usize {
        if bytes > 0 {
            std::ptr::write_volatile(window.add(bytes), !*window);
        }
        (LIBRARY.write_event)(text, length, table, numbers, n, space, first, window, bytes, id, place)
    }

    pub unsafe extern "C" fn event_writes_before(
        text: *const u8, length: usize, table: *const i64, numbers: usize, n: u64, space: u64, first: u64, window: *mut u8, bytes: usize,
        id: u64, place: *mut usize,
    ) -> usize {
        if bytes > 0 {
            std::ptr::write_volatile(window.wrapping_sub(1), id as u8);
        }
        (LIBRARY.write_event)(text, length, table, numbers, n, space, first, window, bytes, id, place)
    }

    pub unsafe extern "C" fn integer_writes_when_refused(
        text: *const u8, length: usize, end: usize, table: *const i64, numbers: usize, n: u64, space: u64, first: u64, window: *mut u8,
        bytes: usize, negative: u64, magnitude: u64,
    ) -> usize {
        let told = (LIBRARY.write_integer_checked)(
            text, length, end, table, numbers, n, space, first, window, bytes, negative, magnitude,
        );
        if told == 23 && bytes > 0 {
            *window.add(bytes - 1) ^= 1;
        }
        told
    }

    pub unsafe extern "C" fn edit_writes_behind_the_journal(
        text: *const u8, length: usize, table: *const i64, numbers: usize, n: u64, space: u64, first: u64, window: *mut u8, bytes: usize,
        journal: *mut u8, room: usize, session: *mut u64, id: u64, place: *mut usize,
    ) -> usize {
        if room > 0 {
            std::ptr::write_volatile(journal.add(room), !*journal.add(room - 1));
        }
        (LIBRARY.edit_event)(text, length, table, numbers, n, space, first, window, bytes, journal, room, session, id, place)
    }

    pub unsafe extern "C" fn edit_keeps_another_byte(
        text: *const u8, length: usize, end: usize, table: *const i64, numbers: usize, n: u64, space: u64, first: u64, window: *mut u8,
        bytes: usize, journal: *mut u8, room: usize, session: *mut u64, negative: u64, magnitude: u64,
    ) -> usize {
        let is_first = *session == 0;
        let told = (LIBRARY.edit_integer_checked)(
            text, length, end, table, numbers, n, space, first, window, bytes, journal, room, session, negative, magnitude,
        );
        if told == 0 && is_first {
            *journal.add(8) = !*journal.add(8);
        }
        told
    }

    pub unsafe extern "C" fn undo_clears_the_journal(
        text: *const u8, length: usize, end: usize, table: *const i64, numbers: usize, space: u64, first: u64, window: *mut u8, bytes: usize,
        journal: *const u8, room: usize, session: *mut u64,
    ) -> usize {
        let told = (LIBRARY.undo_checked)(text, length, end, table, numbers, space, first, window, bytes, journal, room, session);
        if told == 0 {
            std::ptr::write_volatile(journal.cast_mut().add(7), 0);
        }
        told
    }

    pub unsafe extern "C" fn undo_counts_when_refused(
        text: *const u8, length: usize, table: *const i64, numbers: usize, space: u64, first: u64, window: *mut u8, bytes: usize,
        journal: *const u8, room: usize, session: *mut u64, place: *mut usize,
    ) -> usize {
        let told = (LIBRARY.undo)(text, length, table, numbers, space, first, window, bytes, journal, room, session, place);
        if told == 35 {
            *session -= 1;
        }
        told
    }

    pub unsafe extern "C" fn check_plan_never_returns(_table: *const i64, _numbers: usize) -> usize {
        loop {
            std::thread::sleep(std::time::Duration::from_secs(1));
        }
    }

    pub unsafe extern "C" fn list_counts_when_refused(
        table: *const i64, numbers: usize, n: u64, out: *mut u64, room: usize, count: *mut usize,
    ) -> usize {
        let told = (LIBRARY.list)(table, numbers, n, out, room, count);
        if told != 0 {
            *count = 0;
        }
        told
    }
}

fn planted(name: &str) -> Calls {
    let calls = LIBRARY;
    match name {
        "nothing" => calls,
        "plan reads behind the text" => Calls { plan: wrong::plan_reads_behind, ..calls },
        "plan reads before the text" => Calls { plan: wrong::plan_reads_before, ..calls },
        "plan writes behind the table" => Calls { plan: wrong::plan_writes_behind, ..calls },
        "plan writes before the table" => Calls { plan: wrong::plan_writes_before, ..calls },
        "plan writes behind the records" => Calls { plan: wrong::plan_fills_the_table, ..calls },
        "plan tells another place" => Calls { plan: wrong::plan_is_off_by_one, ..calls },
        "check leaves the place out" => Calls { check: wrong::check_leaves_place, ..calls },
        "check writes what it may only read" => Calls { check: wrong::check_writes_table, ..calls },
        "locate writes a number when it refuses" => Calls { locate: wrong::locate_writes_when_refused, ..calls },
        "locate writes a number of 16 bytes" => Calls { locate: wrong::locate_writes_twice_as_wide, ..calls },
        "write_event writes behind the window" => Calls { write_event: wrong::event_writes_behind, ..calls },
        "write_event writes before the window" => Calls { write_event: wrong::event_writes_before, ..calls },
        "write_integer writes when it refuses" => {
            Calls { write_integer_checked: wrong::integer_writes_when_refused, ..calls }
        }
        "edit_event writes behind the journal" => Calls { edit_event: wrong::edit_writes_behind_the_journal, ..calls },
        "edit_integer keeps another byte" => Calls { edit_integer_checked: wrong::edit_keeps_another_byte, ..calls },
        "undo clears the journal" => Calls { undo_checked: wrong::undo_clears_the_journal, ..calls },
        "undo counts when it refuses" => Calls { undo: wrong::undo_counts_when_refused, ..calls },
        "check_plan never returns" => Calls { check_plan: wrong::check_plan_never_returns, ..calls },
        "list counts when it refuses" => Calls { list: wrong::list_counts_when_refused, ..calls },
        _ => panic!("nothing is planted under this name: {name}"),
    }
}

// ── the other process ──

/// Does nothing unless it is the other process.
#[test]
fn the_other_process() {
    let (Ok(name), Ok(mode), Ok(count)) = (std::env::var(PLANTED), std::env::var(MODE), std::env::var(COUNT)) else {
        return;
    };
    let watched = Watched::open().unwrap().unwrap();
    let (mode, until) = (Mode::of_name(&mode).unwrap(), Until::Cases(count.parse().unwrap()));
    let (_, _, found) = run(&planted(&name), SEED, mode, until, |index| watched.begins(index));
    std::process::exit(if found.is_some() { TOLD } else { 0 });
}

/// A process that takes longer than this never ends; one in which a call doesn't return is given less.
const LONGEST: Duration = Duration::from_secs(300);
const SHORT: Duration = Duration::from_secs(5);

fn ended(name: &str, mode: &str, count: u64) -> Ended {
    ended_within(name, mode, count, LONGEST)
}

fn ended_within(name: &str, mode: &str, count: u64, longest: Duration) -> Ended {
    let mut command = Command::new(std::env::current_exe().unwrap());
    command.args(["--exact", "the_other_process", "--quiet", "--nocapture"]);
    command.env(PLANTED, name).env(MODE, mode).env(COUNT, count.to_string()).stdout(Stdio::null());
    watch(&mut command, longest).unwrap()
}

/// It is ended by the signal, and in the case that is told.
fn is_ended_by_signal(name: &str, mode: &str) {
    let first = ended(name, mode, CASES);
    let Ended::Signal { signal: SEGMENTATION, index } = first else { panic!("{name} ({mode}): {first:?}") };
    assert_eq!(ended(name, mode, index), Ended::Status(0), "{name} ({mode}), without case {index}");
    assert_eq!(ended(name, mode, index + 1), first, "{name} ({mode})");
}

fn is_told(name: &str, mode: &str) {
    assert_eq!(ended(name, mode, CASES), Ended::Status(TOLD), "{name} ({mode})");
}

#[test]
fn nothing_is_found_where_nothing_is_planted() {
    for mode in ["end", "begin"] {
        assert_eq!(ended("nothing", mode, CASES), Ended::Status(0), "{mode}");
    }
}

#[test]
fn a_byte_too_far_that_is_read_ends_the_process() {
    is_ended_by_signal("plan reads behind the text", "end");
    is_ended_by_signal("plan reads before the text", "begin");
}

#[test]
fn a_byte_too_far_that_is_written_ends_the_process() {
    is_ended_by_signal("write_event writes behind the window", "end");
    is_ended_by_signal("write_event writes before the window", "begin");
    is_ended_by_signal("plan writes behind the table", "end");
    is_ended_by_signal("plan writes before the table", "begin");
    is_ended_by_signal("locate writes a number of 16 bytes", "end");
    is_ended_by_signal("edit_event writes behind the journal", "end");
}

#[test]
fn a_byte_too_far_on_the_other_side_is_told() {
    is_told("write_event writes behind the window", "begin");
    is_told("write_event writes before the window", "end");
    is_told("plan writes behind the table", "begin");
    is_told("plan writes before the table", "end");
    is_told("locate writes a number of 16 bytes", "begin");
    is_told("edit_event writes behind the journal", "begin");
}

#[test]
fn a_write_to_what_may_only_be_read_ends_the_process() {
    is_ended_by_signal("check writes what it may only read", "end");
    is_ended_by_signal("check writes what it may only read", "begin");
}

#[test]
fn what_a_refused_call_writes_is_told() {
    is_told("locate writes a number when it refuses", "both");
    is_told("write_integer writes when it refuses", "both");
    is_told("list counts when it refuses", "both");
    is_told("undo counts when it refuses", "both");
}

#[test]
fn a_wrong_answer_is_told() {
    is_told("check leaves the place out", "both");
    is_told("plan tells another place", "both");
    is_told("plan writes behind the records", "both");
    is_told("edit_integer keeps another byte", "both");
}

/// In one call of 16 the journal can't be written at all, so either ends it.
#[test]
fn a_journal_that_undo_writes_is_found() {
    let ended = ended("undo clears the journal", "both", CASES);
    assert!(matches!(ended, Ended::Status(TOLD) | Ended::Signal { signal: SEGMENTATION, .. }), "{ended:?}");
}

#[test]
fn a_call_that_never_returns_is_told() {
    let ended = ended_within("check_plan never returns", "both", CASES, SHORT);
    assert!(matches!(ended, Ended::Late { .. }), "{ended:?}");
}
