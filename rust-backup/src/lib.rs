//! Backups of a node's memory, in blocks that can be inspected one by one.
//!
//! [`store`] makes a backup of a window, [`read`] gives the window back or says which block is the first bad one and why. [`inspect`] goes through all
//! blocks of a backup, behind a bad one too, and tells what is wrong with each. What isn't accepted is a [`Refusal`] with its [`Cause`].
//!
//! ```
//! use planksling_backup::{inspect, read, store, Cause};
//!
//! let mut backup = store(253, &[7; 600])?;
//! assert_eq!(backup.len(), 1024);
//! let window = read(&backup)?;
//! assert_eq!((window.space, window.bytes), (253, vec![7; 600]));
//!
//! // a byte of block 0 changes
//! backup[100] = 8;
//! let refusal = read(&backup).unwrap_err();
//! assert_eq!((refusal.cause, refusal.place), (Cause::BadCheck, 0));
//! let good: Vec<bool> = inspect(&backup).map(|block| block.is_good()).collect();
//! assert_eq!(good, [false, true]);
//! # Ok::<(), planksling_backup::Refusal>(())
//! ```
//!
//! # Blocks
//!
//! A block has [`BLOCK`] bytes: its number, counted from 0, in bytes 0 to 3; the length of its payload in 4 and 5; the space in 6; in 7 a flag, 1 in the
//! last block and 0 in the others; then the payload, at most [`PAYLOAD`] bytes, with zeros behind it; in 510 and 511 the check, the sum of the 255 words of
//! 16 bits before it modulo 65,535. Numbers have their highest byte first. Every block but the last is full. The window's first address isn't stored.
//!
//! # What is behind it
//!
//! The answers come from a library in the language Rattle, in which every function is proved to meet its contract: what was stored reads back, any change
//! of a single byte is noticed, and a window has one backup. This crate declares its calls, hands slices over and gives the answers Rust's types; it is
//! tested and not proved. Whether a block is good is the library's answer too; which of its fields is wrong ([`Block::faults`]) is found here. `unsafe`
//! stands in one private module. It needs nothing of the crate `planksling`.
//!
//! Any bytes and numbers may be handed in, and no call panics or keeps anything of what is lent to it. A refused call leaves the lent output unchanged. All
//! types are [`Send`] and [`Sync`], and calls may run at the same time.

#![deny(missing_docs)]
#![deny(unsafe_code)]

mod block;
mod boundary;
mod calls;
mod inspection;
mod refusal;
mod window;

pub use block::{Block, Fault};
pub use inspection::{inspect, Blocks};
pub use refusal::{Cause, Refusal};
pub use window::{read, read_into, room, store, store_into, Restored, Window};

/// The bytes of a block.
pub const BLOCK: usize = 512;

/// The bytes of the window in a full block.
pub const PAYLOAD: usize = 502;

/// The most bytes of a window that can be stored.
pub const MOST: u64 = 1 << 32;
