//! The proved calls, by the library's own declarations, and as plain numbers: what is timed is the call.

#[allow(dead_code)] // not every call is timed
#[path = "../../rust/src/boundary.rs"]
mod boundary;

use crate::planner::{Counts, Refusal};
use crate::planning::Answer;
use boundary::*;

/// Plans a text into the table.
pub fn plan(text: &[u8], table: &mut [i64]) -> Answer {
    let (mut records, mut variables, mut place) = (0, 0, 0);
    let (rows, numbers) = (table.as_mut_ptr(), table.len());
    let number =
        unsafe { planksling_plan(text.as_ptr(), text.len(), rows, numbers, &mut records, &mut variables, &mut place) };
    if number == 0 {
        Ok(Counts { records, variables })
    } else {
        Err(Refusal { number: number as u8, place })
    }
}

/// Where a variable lives.
#[derive(Default)]
struct Found {
    record: usize,
    space: u64,
    address: u64,
    size: u64,
    kind: u64,
}

impl Found {
    /// Its address, or 2^64 - 1 where there is none.
    fn address(self, refusal: usize) -> u64 {
        if refusal == 0 {
            self.address
        } else {
            u64::MAX
        }
    }
}

/// The address of variable n of any table.
pub fn locate(table: &[i64], n: u64) -> u64 {
    let mut found = Found::default();
    let Found { record, space, address, size, kind } = &mut found;
    let told = unsafe { planksling_locate(table.as_ptr(), table.len(), n, record, space, address, size, kind) };
    found.address(told)
}

/// The address of variable n of a plan.
pub fn find(table: &[i64], n: u64) -> u64 {
    let mut found = Found::default();
    let Found { record, space, address, size, kind } = &mut found;
    let told = unsafe { planksling_locate_checked(table.as_ptr(), table.len(), n, record, space, address, size, kind) };
    found.address(told)
}

/// Lists the variables of a plan from n on.
pub fn list(table: &[i64], n: u64, out: &mut [u64]) -> usize {
    unsafe { planksling_list_checked(table.as_ptr(), table.len(), n, out.as_mut_ptr(), out.len()) }
}

/// The end of the content, or none.
pub fn check(text: &[u8], table: &[i64]) -> Option<usize> {
    let (mut end, mut place) = (0, 0);
    let (rows, numbers) = (table.as_ptr(), table.len());
    let told = unsafe { planksling_check(text.as_ptr(), text.len(), rows, numbers, &mut end, &mut place) };
    (told == 0).then_some(end)
}

/// A text, a table and where the content ends, if that is known: with it the calls that rely on the check are made.
#[derive(Clone, Copy)]
pub struct Of<'a> {
    pub text: &'a [u8],
    pub table: &'a [i64],
    pub end: Option<usize>,
}

/// A variable's number, and the space and first address of a window.
#[derive(Clone, Copy)]
pub struct At {
    pub n: u64,
    pub space: u64,
    pub first: u64,
}

/// Writes an integer that isn't negative, and tells the number of a refusal or 0.
pub fn write(Of { text, table, end }: Of, At { n, space, first }: At, window: &mut [u8], value: u64) -> usize {
    let (from, length, rows, numbers) = (text.as_ptr(), text.len(), table.as_ptr(), table.len());
    let (held, bytes) = (window.as_mut_ptr(), window.len());
    unsafe {
        match end {
            Some(end) => planksling_write_integer_checked(
                from, length, end, rows, numbers, n, space, first, held, bytes, 0, value,
            ),
            None => {
                let mut place = 0;
                planksling_write_integer(
                    from, length, rows, numbers, n, space, first, held, bytes, 0, value, &mut place,
                )
            }
        }
    }
}

/// Edits with an integer that isn't negative, and tells the number of a refusal or 0, and how many edits stand. Text and table have been checked.
pub fn edit(
    (Of { text, table, end }, At { n, space, first }): (Of, At),
    window: &mut [u8],
    journal: &mut [u8],
    standing: u64,
    value: u64,
) -> (usize, u64) {
    let mut session = standing;
    let told = unsafe {
        planksling_edit_integer_checked(
            text.as_ptr(),
            text.len(),
            end.expect("a text that has been checked"),
            table.as_ptr(),
            table.len(),
            n,
            space,
            first,
            window.as_mut_ptr(),
            window.len(),
            journal.as_mut_ptr(),
            journal.len(),
            &mut session,
            0,
            value,
        )
    };
    (told, session)
}

/// Takes the latest edit back, and tells the same.
pub fn undo(
    (Of { text, table, end }, At { space, first, .. }): (Of, At),
    window: &mut [u8],
    journal: &[u8],
    standing: u64,
) -> (usize, u64) {
    let mut session = standing;
    let told = unsafe {
        planksling_undo_checked(
            text.as_ptr(),
            text.len(),
            end.expect("a text that has been checked"),
            table.as_ptr(),
            table.len(),
            space,
            first,
            window.as_mut_ptr(),
            window.len(),
            journal.as_ptr(),
            journal.len(),
            &mut session,
        )
    };
    (told, session)
}

/// The number of a refusal or 0, and the magnitude.
pub fn read(Of { text, table, end }: Of, At { n, space, first }: At, window: &[u8]) -> (usize, u64) {
    let (content, length, rows, numbers) = (text.as_ptr(), text.len(), table.as_ptr(), table.len());
    let (held, bytes) = (window.as_ptr(), window.len());
    let [mut kind, mut negative, mut number, mut writable] = [0; 4];
    let [mut from, mut to, mut place] = [0; 3];
    let told = unsafe {
        match end {
            Some(end) => planksling_read_checked(
                content,
                length,
                end,
                rows,
                numbers,
                n,
                space,
                first,
                held,
                bytes,
                &mut kind,
                &mut negative,
                &mut number,
                &mut from,
                &mut to,
                &mut writable,
            ),
            None => planksling_read(
                content,
                length,
                rows,
                numbers,
                n,
                space,
                first,
                held,
                bytes,
                &mut kind,
                &mut negative,
                &mut number,
                &mut from,
                &mut to,
                &mut writable,
                &mut place,
            ),
        }
    };
    (told, number)
}
