//! How much stack a call needs: the stack below is painted, and what the call left of the paint tells how deep it went.

use std::ptr::{read_volatile, write_volatile};
use std::thread;

const WHOLE: usize = 16 << 20;
const PAINTED: usize = 8 << 20;
/// Below the painter's own frame.
const GAP: usize = 1024;
const PAINT: u64 = 0x5ca1_ab1e_dead_10cc;

/// The bytes of stack that a call needs, to 8 bytes, from the painter's frame down; at most `GAP` is counted and not the call's.
pub fn used(call: impl FnOnce() + Send) -> usize {
    thread::scope(|scope| {
        let painter = thread::Builder::new().stack_size(WHOLE).spawn_scoped(scope, || painted(call));
        painter.expect("a thread").join().expect("a thread that ends")
    })
}

#[inline(never)]
fn painted(call: impl FnOnce()) -> usize {
    let here = 0u64;
    let top = (&raw const here as usize - GAP) & !7;
    let bottom = top - PAINTED;
    // The thread has the whole stretch for its stack, and nothing of it is in use.
    (bottom..top).step_by(8).for_each(|at| unsafe { write_volatile(at as *mut u64, PAINT) });
    call();
    let lowest = (bottom..top).step_by(8).find(|&at| unsafe { read_volatile(at as *const u64) } != PAINT);
    lowest.map_or(0, |at| top + GAP - at)
}
