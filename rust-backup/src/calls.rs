//! The one module with `unsafe`: the library's calls with slices in place of pointers.
//!
//! What the calls ask of every caller is the same: each pointer is that of a slice or a reference that lives through the call, each length is that
//! slice's own, and what is written through is borrowed for that alone. Here they all come from `&` and `&mut` of the function that calls.

#![allow(unsafe_code)]
#![deny(clippy::undocumented_unsafe_blocks)]

use crate::boundary::*;
use crate::{Refusal, Restored};

/// Stores a window at the front of the output. The number of bytes stored.
pub(crate) fn store(space: u64, window: &[u8], output: &mut [u8]) -> Result<usize, Refusal> {
    let (mut stored, mut place) = (0, 0);
    // SAFETY: slices and references of this function.
    let told = unsafe {
        planksling_backup_store(
            space,
            window.as_ptr(),
            window.len(),
            output.as_mut_ptr(),
            output.len(),
            &mut stored,
            &mut place,
        )
    };
    Refusal::told(told, place)?;
    Ok(stored)
}

/// Reads a backup to the front of the output.
pub(crate) fn read(backup: &[u8], output: &mut [u8]) -> Result<Restored, Refusal> {
    let (mut length, mut space, mut place) = (0, 0, 0);
    // SAFETY: slices and references of this function.
    let told = unsafe {
        planksling_backup_read(
            backup.as_ptr(),
            backup.len(),
            output.as_mut_ptr(),
            output.len(),
            &mut length,
            &mut space,
            &mut place,
        )
    };
    Refusal::told(told, place)?;
    Ok(Restored { space, length })
}

/// Judges one block, as the one at this position with so many behind it in a backup of this space.
pub(crate) fn judge(block: &[u8], position: usize, behind: usize, space: u64) -> Result<(), Refusal> {
    // SAFETY: a slice of this function.
    let told = unsafe { planksling_backup_judge(block.as_ptr(), block.len(), position, behind, space) };
    Refusal::told(told, position)
}
