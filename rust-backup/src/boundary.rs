//! The library's calls as they are linked. A slice is two arguments, its pointer and its length; the names are those of the library's own sources.

// What the library takes and tells in a `usize` is a `size_t` of C, which is one on every machine that it is built for.
extern "C" {
    pub(crate) fn planksling_backup_store(
        space: u64,
        window: *const u8,
        window_length: usize,
        output: *mut u8,
        output_length: usize,
        stored: *mut usize,
        place: *mut usize,
    ) -> usize;

    pub(crate) fn planksling_backup_read(
        backup: *const u8,
        backup_length: usize,
        output: *mut u8,
        output_length: usize,
        length: *mut usize,
        space: *mut u64,
        place: *mut usize,
    ) -> usize;

    pub(crate) fn planksling_backup_judge(
        block: *const u8,
        block_length: usize,
        position: usize,
        behind: usize,
        space: u64,
    ) -> usize;
}
