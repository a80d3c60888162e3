//! The one module with `unsafe`: the library's calls with slices in place of pointers.
//!
//! What the calls ask of every caller is the same: each pointer is that of a slice or a reference that lives through the call, each length is that
//! slice's own, and what is written through is borrowed for that alone. Here they all come from `&` and `&mut` of the function that calls.
//!
//! The calls that end in `_checked` ask more, and two types keep it, whose fields nothing outside this module can set: a [`Plan`] is a table that is
//! a plan, a [`Planned`] a text with exactly the table that was planned from it.

#![allow(unsafe_code)]
#![deny(clippy::undocumented_unsafe_blocks)]

use crate::boundary::*;
use crate::limits::{FIELDS, LISTED, MOST_RECORDS};
use crate::{Counts, EventId, Integer, Kind, Reading, Refusal, Table, Value, Variable, Window};
use std::borrow::Cow;
use std::ffi::CStr;

/// The bytes of the shortest element that has a record.
const SHORTEST: usize = "<int/>".len();

// ── of any text and any table ──

/// Plans a text into a lent table.
pub(crate) fn plan(text: &[u8], table: &mut [i64]) -> Result<Counts, Refusal> {
    let (mut records, mut variables, mut place) = (0, 0, 0);
    // SAFETY: slices and references of this function.
    let told = unsafe {
        planksling_plan(
            text.as_ptr(),
            text.len(),
            table.as_mut_ptr(),
            table.len(),
            &mut records,
            &mut variables,
            &mut place,
        )
    };
    Refusal::told(told, place)?;
    Ok(Counts { records, variables })
}

/// Is the table exactly the one planned from the text? The end of the text's content.
pub(crate) fn check(text: &[u8], table: &[i64]) -> Result<usize, Refusal> {
    let (mut end, mut place) = (0, 0);
    // SAFETY: slices and references of this function.
    let told =
        unsafe { planksling_check(text.as_ptr(), text.len(), table.as_ptr(), table.len(), &mut end, &mut place) };
    Refusal::told(told, place)?;
    Ok(end)
}

/// Is the table a plan?
pub(crate) fn check_plan(table: &[i64]) -> Result<(), Refusal> {
    // SAFETY: a slice of this function.
    Refusal::told(unsafe { planksling_check_plan(table.as_ptr(), table.len()) }, 0)
}

/// Variable n of any table.
pub(crate) fn locate(table: &[i64], n: u64) -> Result<Variable, Refusal> {
    let (mut record, [mut space, mut address, mut size, mut kind]) = (0, [0; 4]);
    // SAFETY: a slice and references of this function.
    let told = unsafe {
        planksling_locate(table.as_ptr(), table.len(), n, &mut record, &mut space, &mut address, &mut size, &mut kind)
    };
    Refusal::told(told, 0)?;
    Ok(Variable::told(n, [record as u64, space, address, size, kind]))
}

/// Lists the variables from n on of any table; how many.
pub(crate) fn list(table: &[i64], n: u64, out: &mut [[u64; LISTED]]) -> Result<usize, Refusal> {
    let out = out.as_flattened_mut();
    let mut count = 0;
    // SAFETY: slices and a reference of this function.
    let told = unsafe { planksling_list(table.as_ptr(), table.len(), n, out.as_mut_ptr(), out.len(), &mut count) };
    Refusal::told(told, 0)?;
    Ok(count)
}

/// Writes a value to variable n of any text and table.
pub(crate) fn write(
    text: &[u8],
    table: &[i64],
    n: u64,
    Window { space, first, bytes }: Window<&mut [u8]>,
    value: &Value<'_>,
) -> Result<(), Refusal> {
    let (content, length, rows, numbers) = (text.as_ptr(), text.len(), table.as_ptr(), table.len());
    let (held, size) = (bytes.as_mut_ptr(), bytes.len());
    let mut place = 0;
    // SAFETY: slices and a reference of this function.
    let told = unsafe {
        match value {
            Value::Integer(integer) => {
                let (negative, magnitude) = (integer.is_negative().into(), integer.magnitude());
                planksling_write_integer(
                    content, length, rows, numbers, n, space, first, held, size, negative, magnitude, &mut place,
                )
            }
            Value::Event(EventId(id)) => {
                planksling_write_event(content, length, rows, numbers, n, space, first, held, size, *id, &mut place)
            }
            Value::Text(string) => {
                let (string, bytes) = (string.as_ptr(), string.len());
                planksling_write_text(
                    content, length, rows, numbers, n, space, first, held, size, string, bytes, &mut place,
                )
            }
        }
    };
    Refusal::told(told, place)
}

/// Reads variable n of any text and table.
pub(crate) fn read<'w>(
    text: &[u8],
    table: &[i64],
    n: u64,
    Window { space, first, bytes }: Window<&'w [u8]>,
) -> Result<Reading<'w>, Refusal> {
    let mut out = Out::default();
    let mut place = 0;
    // SAFETY: slices and references of this function.
    let told = unsafe {
        planksling_read(
            text.as_ptr(),
            text.len(),
            table.as_ptr(),
            table.len(),
            n,
            space,
            first,
            bytes.as_ptr(),
            bytes.len(),
            &mut out.kind,
            &mut out.negative,
            &mut out.number,
            &mut out.from,
            &mut out.to,
            &mut out.writable,
            &mut place,
        )
    };
    Refusal::told(told, place)?;
    Ok(out.reading(bytes))
}

/// Writes a value to variable n of any text and table, so that it can be taken back.
pub(crate) fn edit(
    text: &[u8],
    table: &[i64],
    n: u64,
    Window { space, first, bytes }: Window<&mut [u8]>,
    journal: &mut [u8],
    session: &mut u64,
    value: &Value<'_>,
) -> Result<(), Refusal> {
    let (content, length, rows, numbers) = (text.as_ptr(), text.len(), table.as_ptr(), table.len());
    let (held, size, kept, room) = (bytes.as_mut_ptr(), bytes.len(), journal.as_mut_ptr(), journal.len());
    let mut place = 0;
    // SAFETY: slices and references of this function.
    let told = unsafe {
        match value {
            Value::Integer(integer) => {
                let (negative, magnitude) = (integer.is_negative().into(), integer.magnitude());
                planksling_edit_integer(
                    content, length, rows, numbers, n, space, first, held, size, kept, room, session, negative,
                    magnitude, &mut place,
                )
            }
            Value::Event(EventId(id)) => planksling_edit_event(
                content, length, rows, numbers, n, space, first, held, size, kept, room, session, *id, &mut place,
            ),
            Value::Text(string) => {
                let (string, bytes) = (string.as_ptr(), string.len());
                planksling_edit_text(
                    content, length, rows, numbers, n, space, first, held, size, kept, room, session, string, bytes,
                    &mut place,
                )
            }
        }
    };
    Refusal::told(told, place)
}

/// Takes back the latest edit over any text and table.
pub(crate) fn undo(
    text: &[u8],
    table: &[i64],
    Window { space, first, bytes }: Window<&mut [u8]>,
    journal: &[u8],
    session: &mut u64,
) -> Result<(), Refusal> {
    let mut place = 0;
    // SAFETY: slices and references of this function.
    let told = unsafe {
        planksling_undo(
            text.as_ptr(),
            text.len(),
            table.as_ptr(),
            table.len(),
            space,
            first,
            bytes.as_mut_ptr(),
            bytes.len(),
            journal.as_ptr(),
            journal.len(),
            session,
            &mut place,
        )
    };
    Refusal::told(told, place)
}

/// What a read hands out.
#[derive(Default)]
struct Out {
    kind: u64,
    negative: u64,
    number: u64,
    from: usize,
    to: usize,
    writable: u64,
}

impl Out {
    /// The value of an accepted read from this window.
    fn reading(self, window: &[u8]) -> Reading<'_> {
        let value = match Kind::try_from(self.kind) {
            Ok(Kind::Int) => Value::Integer(Integer::new(self.negative != 0, self.number)),
            Ok(Kind::EventId) => Value::Event(EventId(self.number)),
            Ok(Kind::String) => {
                let text = window.get(self.from..self.to).and_then(|text| std::str::from_utf8(text).ok());
                // That it lies in the window and is UTF-8 is proved of the library.
                Value::Text(Cow::Borrowed(text.expect("a text that is read is UTF-8 and in the window")))
            }
            // So is it that nothing else is read.
            _ => unreachable!("what is read is an int, a string or an eventid"),
        };
        Reading { value, writable: self.writable != 0 }
    }
}

// ── of a table that is a plan ──

/// A table that is a plan: found so by the check, or made by planning.
#[derive(Clone, Debug, PartialEq, Eq, Hash)]
pub(crate) struct Plan<'a> {
    numbers: Cow<'a, [i64]>,
}

impl<'a> Plan<'a> {
    /// The table, if it is a plan.
    pub(crate) fn checked(numbers: Cow<'a, [i64]>) -> Result<Plan<'a>, Refusal> {
        check_plan(&numbers)?;
        Ok(Plan { numbers })
    }

    pub(crate) fn numbers(&self) -> &[i64] {
        &self.numbers
    }

    pub(crate) fn into_numbers(self) -> Vec<i64> {
        self.numbers.into_owned()
    }

    pub(crate) fn into_owned(self) -> Plan<'static> {
        Plan { numbers: Cow::Owned(self.into_numbers()) }
    }

    /// Variable n.
    pub(crate) fn locate(&self, n: u64) -> Result<Variable, Refusal> {
        let (mut record, [mut space, mut address, mut size, mut kind]) = (0, [0; 4]);
        // SAFETY: a slice and references of this function; the table is a plan.
        let told = unsafe {
            planksling_locate_checked(
                self.numbers.as_ptr(),
                self.numbers.len(),
                n,
                &mut record,
                &mut space,
                &mut address,
                &mut size,
                &mut kind,
            )
        };
        Refusal::told(told, 0)?;
        Ok(Variable::told(n, [record as u64, space, address, size, kind]))
    }

    /// Lists the variables from n on; how many.
    pub(crate) fn list(&self, n: u64, out: &mut [[u64; LISTED]]) -> usize {
        let out = out.as_flattened_mut();
        let (rows, numbers) = (self.numbers.as_ptr(), self.numbers.len());
        // SAFETY: slices of this function; the table is a plan.
        unsafe { planksling_list_checked(rows, numbers, n, out.as_mut_ptr(), out.len()) }
    }
}

// ── of a text and the table planned from it ──

/// A text and exactly the table that was planned from it. The text is its content and one zero behind it.
#[derive(Clone, PartialEq, Eq, Hash)]
pub(crate) struct Planned {
    text: String,
    table: Table<'static>,
}

impl Planned {
    /// Plans a text. Of an accepted one what stands behind its first zero is left out: it changes no answer.
    pub(crate) fn plan(text: Cow<'_, [u8]>) -> Result<Planned, Refusal> {
        // A record stands for an element, and the shortest one is `<int/>`.
        let most = MOST_RECORDS.min(text.len() / SHORTEST);
        let mut numbers = vec![0; FIELDS * most];
        let counts = plan(&text, &mut numbers)?;
        numbers.truncate(FIELDS * counts.records);
        numbers.shrink_to_fit();
        // An accepted text has a zero, and its content is UTF-8: that is proved of the library.
        let end = CStr::from_bytes_until_nul(&text).expect("an accepted text has a zero").count_bytes();
        let content = match text {
            Cow::Borrowed(text) => text[..=end].to_vec(),
            Cow::Owned(mut text) => {
                text.truncate(end + 1);
                text.shrink_to_fit();
                text
            }
        };
        let text = String::from_utf8(content).expect("an accepted text is UTF-8");
        // What planning makes is a plan: that is proved too.
        let plan = Plan { numbers: Cow::Owned(numbers) };
        Ok(Planned { text, table: Table::new(plan, counts.variables) })
    }

    /// The content, without the zero behind it.
    pub(crate) fn content(&self) -> &str {
        &self.text[..self.end()]
    }

    pub(crate) fn table(&self) -> &Table<'static> {
        &self.table
    }

    pub(crate) fn into_table(self) -> Table<'static> {
        self.table
    }

    /// The place of the text's first zero, which is its last byte.
    fn end(&self) -> usize {
        self.text.len() - 1
    }

    /// Writes a value to variable n.
    pub(crate) fn write(
        &self,
        n: u64,
        Window { space, first, bytes }: Window<&mut [u8]>,
        value: &Value<'_>,
    ) -> Result<(), Refusal> {
        let (content, length, end) = (self.text.as_ptr(), self.text.len(), self.end());
        let (rows, numbers) = (self.table.numbers().as_ptr(), self.table.numbers().len());
        let (held, size) = (bytes.as_mut_ptr(), bytes.len());
        // SAFETY: slices of this function; the table is the one planned from the text, whose first zero is at `end`.
        let told = unsafe {
            match value {
                Value::Integer(integer) => {
                    let (negative, magnitude) = (integer.is_negative().into(), integer.magnitude());
                    planksling_write_integer_checked(
                        content, length, end, rows, numbers, n, space, first, held, size, negative, magnitude,
                    )
                }
                Value::Event(EventId(id)) => planksling_write_event_checked(
                    content, length, end, rows, numbers, n, space, first, held, size, *id,
                ),
                Value::Text(string) => {
                    let (string, bytes) = (string.as_ptr(), string.len());
                    planksling_write_text_checked(
                        content, length, end, rows, numbers, n, space, first, held, size, string, bytes,
                    )
                }
            }
        };
        Refusal::told(told, 0)
    }

    /// Reads variable n.
    pub(crate) fn read<'w>(
        &self,
        n: u64,
        Window { space, first, bytes }: Window<&'w [u8]>,
    ) -> Result<Reading<'w>, Refusal> {
        let table = self.table.numbers();
        let mut out = Out::default();
        // SAFETY: slices and references of this function; the table is the one planned from the text, whose first zero is at `end`.
        let told = unsafe {
            planksling_read_checked(
                self.text.as_ptr(),
                self.text.len(),
                self.end(),
                table.as_ptr(),
                table.len(),
                n,
                space,
                first,
                bytes.as_ptr(),
                bytes.len(),
                &mut out.kind,
                &mut out.negative,
                &mut out.number,
                &mut out.from,
                &mut out.to,
                &mut out.writable,
            )
        };
        Refusal::told(told, 0)?;
        Ok(out.reading(bytes))
    }

    /// Writes a value to variable n, so that it can be taken back.
    pub(crate) fn edit(
        &self,
        n: u64,
        Window { space, first, bytes }: Window<&mut [u8]>,
        journal: &mut [u8],
        session: &mut u64,
        value: &Value<'_>,
    ) -> Result<(), Refusal> {
        let (content, length, end) = (self.text.as_ptr(), self.text.len(), self.end());
        let (rows, numbers) = (self.table.numbers().as_ptr(), self.table.numbers().len());
        let (held, size, kept, room) = (bytes.as_mut_ptr(), bytes.len(), journal.as_mut_ptr(), journal.len());
        // SAFETY: slices and a reference of this function; the table is the one planned from the text, whose first zero is at `end`.
        let told = unsafe {
            match value {
                Value::Integer(integer) => {
                    let (negative, magnitude) = (integer.is_negative().into(), integer.magnitude());
                    planksling_edit_integer_checked(
                        content, length, end, rows, numbers, n, space, first, held, size, kept, room, session,
                        negative, magnitude,
                    )
                }
                Value::Event(EventId(id)) => planksling_edit_event_checked(
                    content, length, end, rows, numbers, n, space, first, held, size, kept, room, session, *id,
                ),
                Value::Text(string) => {
                    let (string, bytes) = (string.as_ptr(), string.len());
                    planksling_edit_text_checked(
                        content, length, end, rows, numbers, n, space, first, held, size, kept, room, session, string,
                        bytes,
                    )
                }
            }
        };
        Refusal::told(told, 0)
    }

    /// Takes the latest edit back.
    pub(crate) fn undo(
        &self,
        Window { space, first, bytes }: Window<&mut [u8]>,
        journal: &[u8],
        session: &mut u64,
    ) -> Result<(), Refusal> {
        let table = self.table.numbers();
        // SAFETY: slices and a reference of this function; the table is the one planned from the text, whose first zero is at `end`.
        let told = unsafe {
            planksling_undo_checked(
                self.text.as_ptr(),
                self.text.len(),
                self.end(),
                table.as_ptr(),
                table.len(),
                space,
                first,
                bytes.as_mut_ptr(),
                bytes.len(),
                journal.as_ptr(),
                journal.len(),
                session,
            )
        };
        Refusal::told(told, 0)
    }
}
