//! The library's 23 calls as a table of functions, so that a wrong one can be put in a right one's place.

#[path = "../../rust/src/boundary.rs"]
mod boundary;

use boundary::*;

/// What is a `size_t` in C is handed over as a number of 64 bits.
const _: () = assert!(usize::BITS == 64);

/// Every call by its name, in the order in which they are told.
#[derive(Debug, Clone, Copy, PartialEq, Eq)]
pub enum Name {
    Plan,
    CheckPlan,
    Check,
    Locate,
    List,
    WriteInteger,
    WriteEvent,
    WriteText,
    Read,
    EditInteger,
    EditEvent,
    EditText,
    Undo,
    LocateChecked,
    ListChecked,
    WriteIntegerChecked,
    WriteEventChecked,
    WriteTextChecked,
    ReadChecked,
    EditIntegerChecked,
    EditEventChecked,
    EditTextChecked,
    UndoChecked,
}

/// The names in C.
#[rustfmt::skip]
pub const NAMES: [&str; 23] = [
    "planksling_plan", "planksling_check_plan", "planksling_check", "planksling_locate", "planksling_list",
    "planksling_write_integer", "planksling_write_event", "planksling_write_text", "planksling_read",
    "planksling_edit_integer", "planksling_edit_event", "planksling_edit_text", "planksling_undo",
    "planksling_locate_checked", "planksling_list_checked", "planksling_write_integer_checked",
    "planksling_write_event_checked", "planksling_write_text_checked", "planksling_read_checked",
    "planksling_edit_integer_checked", "planksling_edit_event_checked", "planksling_edit_text_checked",
    "planksling_undo_checked",
];

impl Name {
    pub fn text(self) -> &'static str {
        NAMES[self as usize]
    }
}

pub type Plan = unsafe extern "C" fn(*const u8, usize, *mut i64, usize, *mut usize, *mut u64, *mut usize) -> usize;
pub type CheckPlan = unsafe extern "C" fn(*const i64, usize) -> usize;
pub type Check = unsafe extern "C" fn(*const u8, usize, *const i64, usize, *mut usize, *mut usize) -> usize;
pub type Locate =
    unsafe extern "C" fn(*const i64, usize, u64, *mut usize, *mut u64, *mut u64, *mut u64, *mut u64) -> usize;
pub type List = unsafe extern "C" fn(*const i64, usize, u64, *mut u64, usize, *mut usize) -> usize;
pub type ListChecked = unsafe extern "C" fn(*const i64, usize, u64, *mut u64, usize) -> usize;
#[rustfmt::skip]
pub type WriteInteger = unsafe extern "C" fn(
    *const u8, usize, *const i64, usize, u64, u64, u64, *mut u8, usize, u64, u64, *mut usize,
) -> usize;
#[rustfmt::skip]
pub type WriteEvent = unsafe extern "C" fn(
    *const u8, usize, *const i64, usize, u64, u64, u64, *mut u8, usize, u64, *mut usize,
) -> usize;
#[rustfmt::skip]
pub type WriteText = unsafe extern "C" fn(
    *const u8, usize, *const i64, usize, u64, u64, u64, *mut u8, usize, *const u8, usize, *mut usize,
) -> usize;
#[rustfmt::skip]
pub type Read = unsafe extern "C" fn(
    *const u8, usize, *const i64, usize, u64, u64, u64, *const u8, usize,
    *mut u64, *mut u64, *mut u64, *mut usize, *mut usize, *mut u64, *mut usize,
) -> usize;
#[rustfmt::skip]
pub type WriteIntegerChecked = unsafe extern "C" fn(
    *const u8, usize, usize, *const i64, usize, u64, u64, u64, *mut u8, usize, u64, u64,
) -> usize;
#[rustfmt::skip]
pub type WriteEventChecked = unsafe extern "C" fn(
    *const u8, usize, usize, *const i64, usize, u64, u64, u64, *mut u8, usize, u64,
) -> usize;
#[rustfmt::skip]
pub type WriteTextChecked = unsafe extern "C" fn(
    *const u8, usize, usize, *const i64, usize, u64, u64, u64, *mut u8, usize, *const u8, usize,
) -> usize;
#[rustfmt::skip]
pub type ReadChecked = unsafe extern "C" fn(
    *const u8, usize, usize, *const i64, usize, u64, u64, u64, *const u8, usize,
    *mut u64, *mut u64, *mut u64, *mut usize, *mut usize, *mut u64,
) -> usize;

#[rustfmt::skip]
pub type EditInteger = unsafe extern "C" fn(
    *const u8, usize, *const i64, usize, u64, u64, u64, *mut u8, usize, *mut u8, usize, *mut u64, u64, u64, *mut usize,
) -> usize;
#[rustfmt::skip]
pub type EditEvent = unsafe extern "C" fn(
    *const u8, usize, *const i64, usize, u64, u64, u64, *mut u8, usize, *mut u8, usize, *mut u64, u64, *mut usize,
) -> usize;
#[rustfmt::skip]
pub type EditText = unsafe extern "C" fn(
    *const u8, usize, *const i64, usize, u64, u64, u64, *mut u8, usize, *mut u8, usize, *mut u64, *const u8, usize, *mut usize,
) -> usize;
#[rustfmt::skip]
pub type Undo = unsafe extern "C" fn(
    *const u8, usize, *const i64, usize, u64, u64, *mut u8, usize, *const u8, usize, *mut u64, *mut usize,
) -> usize;
#[rustfmt::skip]
pub type EditIntegerChecked = unsafe extern "C" fn(
    *const u8, usize, usize, *const i64, usize, u64, u64, u64, *mut u8, usize, *mut u8, usize, *mut u64, u64, u64,
) -> usize;
#[rustfmt::skip]
pub type EditEventChecked = unsafe extern "C" fn(
    *const u8, usize, usize, *const i64, usize, u64, u64, u64, *mut u8, usize, *mut u8, usize, *mut u64, u64,
) -> usize;
#[rustfmt::skip]
pub type EditTextChecked = unsafe extern "C" fn(
    *const u8, usize, usize, *const i64, usize, u64, u64, u64, *mut u8, usize, *mut u8, usize, *mut u64, *const u8, usize,
) -> usize;
#[rustfmt::skip]
pub type UndoChecked = unsafe extern "C" fn(
    *const u8, usize, usize, *const i64, usize, u64, u64, *mut u8, usize, *const u8, usize, *mut u64,
) -> usize;

#[derive(Clone, Copy)]
pub struct Calls {
    pub plan: Plan,
    pub check_plan: CheckPlan,
    pub check: Check,
    pub locate: Locate,
    pub list: List,
    pub write_integer: WriteInteger,
    pub write_event: WriteEvent,
    pub write_text: WriteText,
    pub read: Read,
    pub edit_integer: EditInteger,
    pub edit_event: EditEvent,
    pub edit_text: EditText,
    pub undo: Undo,
    pub locate_checked: Locate,
    pub list_checked: ListChecked,
    pub write_integer_checked: WriteIntegerChecked,
    pub write_event_checked: WriteEventChecked,
    pub write_text_checked: WriteTextChecked,
    pub read_checked: ReadChecked,
    pub edit_integer_checked: EditIntegerChecked,
    pub edit_event_checked: EditEventChecked,
    pub edit_text_checked: EditTextChecked,
    pub undo_checked: UndoChecked,
}

/// The calls of the archive.
pub const LIBRARY: Calls = Calls {
    plan: planksling_plan,
    check_plan: planksling_check_plan,
    check: planksling_check,
    locate: planksling_locate,
    list: planksling_list,
    write_integer: planksling_write_integer,
    write_event: planksling_write_event,
    write_text: planksling_write_text,
    read: planksling_read,
    edit_integer: planksling_edit_integer,
    edit_event: planksling_edit_event,
    edit_text: planksling_edit_text,
    undo: planksling_undo,
    locate_checked: planksling_locate_checked,
    list_checked: planksling_list_checked,
    write_integer_checked: planksling_write_integer_checked,
    write_event_checked: planksling_write_event_checked,
    write_text_checked: planksling_write_text_checked,
    read_checked: planksling_read_checked,
    edit_integer_checked: planksling_edit_integer_checked,
    edit_event_checked: planksling_edit_event_checked,
    edit_text_checked: planksling_edit_text_checked,
    undo_checked: planksling_undo_checked,
};
