//! The library's calls as they are linked. A slice is two arguments, its pointer and its length; the names are those of the library's own sources.

// What the library takes and tells in a `usize` is a `size_t` of C, which is one on every machine that it is built for.
extern "C" {
    // ── texts and tables ──

    pub(crate) fn planksling_plan(
        text: *const u8,
        text_length: usize,
        table: *mut i64,
        table_length: usize,
        records: *mut usize,
        variables: *mut u64,
        place: *mut usize,
    ) -> usize;

    pub(crate) fn planksling_check_plan(table: *const i64, table_length: usize) -> usize;

    pub(crate) fn planksling_check(
        text: *const u8,
        text_length: usize,
        table: *const i64,
        table_length: usize,
        end: *mut usize,
        place: *mut usize,
    ) -> usize;

    // ── variables of a table alone ──

    pub(crate) fn planksling_locate(
        table: *const i64,
        table_length: usize,
        n: u64,
        record_number: *mut usize,
        space: *mut u64,
        address: *mut u64,
        size: *mut u64,
        kind: *mut u64,
    ) -> usize;

    pub(crate) fn planksling_list(
        table: *const i64,
        table_length: usize,
        n: u64,
        out: *mut u64,
        out_length: usize,
        count: *mut usize,
    ) -> usize;

    pub(crate) fn planksling_locate_checked(
        table: *const i64,
        table_length: usize,
        n: u64,
        record_number: *mut usize,
        space: *mut u64,
        address: *mut u64,
        size: *mut u64,
        kind: *mut u64,
    ) -> usize;

    pub(crate) fn planksling_list_checked(
        table: *const i64,
        table_length: usize,
        n: u64,
        out: *mut u64,
        out_length: usize,
    ) -> usize;

    // ── values into a window ──

    pub(crate) fn planksling_write_integer(
        text: *const u8,
        text_length: usize,
        table: *const i64,
        table_length: usize,
        n: u64,
        space: u64,
        first: u64,
        window: *mut u8,
        window_length: usize,
        negative: u64,
        magnitude: u64,
        place: *mut usize,
    ) -> usize;

    pub(crate) fn planksling_write_event(
        text: *const u8,
        text_length: usize,
        table: *const i64,
        table_length: usize,
        n: u64,
        space: u64,
        first: u64,
        window: *mut u8,
        window_length: usize,
        id: u64,
        place: *mut usize,
    ) -> usize;

    pub(crate) fn planksling_write_text(
        text: *const u8,
        text_length: usize,
        table: *const i64,
        table_length: usize,
        n: u64,
        space: u64,
        first: u64,
        window: *mut u8,
        window_length: usize,
        string: *const u8,
        string_length: usize,
        place: *mut usize,
    ) -> usize;

    pub(crate) fn planksling_write_integer_checked(
        text: *const u8,
        text_length: usize,
        end: usize,
        table: *const i64,
        table_length: usize,
        n: u64,
        space: u64,
        first: u64,
        window: *mut u8,
        window_length: usize,
        negative: u64,
        magnitude: u64,
    ) -> usize;

    pub(crate) fn planksling_write_event_checked(
        text: *const u8,
        text_length: usize,
        end: usize,
        table: *const i64,
        table_length: usize,
        n: u64,
        space: u64,
        first: u64,
        window: *mut u8,
        window_length: usize,
        id: u64,
    ) -> usize;

    pub(crate) fn planksling_write_text_checked(
        text: *const u8,
        text_length: usize,
        end: usize,
        table: *const i64,
        table_length: usize,
        n: u64,
        space: u64,
        first: u64,
        window: *mut u8,
        window_length: usize,
        string: *const u8,
        string_length: usize,
    ) -> usize;

    // ── values out of a window ──

    pub(crate) fn planksling_read(
        text: *const u8,
        text_length: usize,
        table: *const i64,
        table_length: usize,
        n: u64,
        space: u64,
        first: u64,
        window: *const u8,
        window_length: usize,
        kind: *mut u64,
        negative: *mut u64,
        number: *mut u64,
        from: *mut usize,
        to: *mut usize,
        writable: *mut u64,
        place: *mut usize,
    ) -> usize;

    pub(crate) fn planksling_read_checked(
        text: *const u8,
        text_length: usize,
        end: usize,
        table: *const i64,
        table_length: usize,
        n: u64,
        space: u64,
        first: u64,
        window: *const u8,
        window_length: usize,
        kind: *mut u64,
        negative: *mut u64,
        number: *mut u64,
        from: *mut usize,
        to: *mut usize,
        writable: *mut u64,
    ) -> usize;

    // ── edits that can be taken back ──

    pub(crate) fn planksling_edit_integer(
        text: *const u8,
        text_length: usize,
        table: *const i64,
        table_length: usize,
        n: u64,
        space: u64,
        first: u64,
        window: *mut u8,
        window_length: usize,
        journal: *mut u8,
        journal_length: usize,
        session: *mut u64,
        negative: u64,
        magnitude: u64,
        place: *mut usize,
    ) -> usize;

    pub(crate) fn planksling_edit_event(
        text: *const u8,
        text_length: usize,
        table: *const i64,
        table_length: usize,
        n: u64,
        space: u64,
        first: u64,
        window: *mut u8,
        window_length: usize,
        journal: *mut u8,
        journal_length: usize,
        session: *mut u64,
        id: u64,
        place: *mut usize,
    ) -> usize;

    pub(crate) fn planksling_edit_text(
        text: *const u8,
        text_length: usize,
        table: *const i64,
        table_length: usize,
        n: u64,
        space: u64,
        first: u64,
        window: *mut u8,
        window_length: usize,
        journal: *mut u8,
        journal_length: usize,
        session: *mut u64,
        string: *const u8,
        string_length: usize,
        place: *mut usize,
    ) -> usize;

    pub(crate) fn planksling_undo(
        text: *const u8,
        text_length: usize,
        table: *const i64,
        table_length: usize,
        space: u64,
        first: u64,
        window: *mut u8,
        window_length: usize,
        journal: *const u8,
        journal_length: usize,
        session: *mut u64,
        place: *mut usize,
    ) -> usize;

    pub(crate) fn planksling_edit_integer_checked(
        text: *const u8,
        text_length: usize,
        end: usize,
        table: *const i64,
        table_length: usize,
        n: u64,
        space: u64,
        first: u64,
        window: *mut u8,
        window_length: usize,
        journal: *mut u8,
        journal_length: usize,
        session: *mut u64,
        negative: u64,
        magnitude: u64,
    ) -> usize;

    pub(crate) fn planksling_edit_event_checked(
        text: *const u8,
        text_length: usize,
        end: usize,
        table: *const i64,
        table_length: usize,
        n: u64,
        space: u64,
        first: u64,
        window: *mut u8,
        window_length: usize,
        journal: *mut u8,
        journal_length: usize,
        session: *mut u64,
        id: u64,
    ) -> usize;

    pub(crate) fn planksling_edit_text_checked(
        text: *const u8,
        text_length: usize,
        end: usize,
        table: *const i64,
        table_length: usize,
        n: u64,
        space: u64,
        first: u64,
        window: *mut u8,
        window_length: usize,
        journal: *mut u8,
        journal_length: usize,
        session: *mut u64,
        string: *const u8,
        string_length: usize,
    ) -> usize;

    pub(crate) fn planksling_undo_checked(
        text: *const u8,
        text_length: usize,
        end: usize,
        table: *const i64,
        table_length: usize,
        space: u64,
        first: u64,
        window: *mut u8,
        window_length: usize,
        journal: *const u8,
        journal_length: usize,
        session: *mut u64,
    ) -> usize;
}
