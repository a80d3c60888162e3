//! Settings of an OpenLCB node, by the node's own description (CDI, a small XML text).
//!
//! A [`Description`] is a text and the compact table that is planned from it. It tells where each setting lives, which is called a [`Variable`] here,
//! and writes and reads settings in a [`Window`] of the node's memory without touching a byte that isn't theirs. A [`Table`] tells where settings live
//! without the text. A [`Session`] keeps what edits replaced, and takes them back. What isn't accepted is a [`Refusal`] with its [`Cause`] and its place.
//!
//! ```
//! use planksling::{Description, Kind, Window};
//!
//! # let file = concat!(env!("CARGO_MANIFEST_DIR"), "/../samples/input-board.xml");
//! let description: Description = std::fs::read_to_string(file)?.parse()?;
//! for variable in &description {
//!     println!("{variable}");
//! }
//!
//! let label = description.iter().find(|variable| variable.address == 128).expect("a variable at 128");
//! assert_eq!(label.kind, Kind::String);
//! let mut window = Window::of(&label);
//! description.write(label.number, &mut window, "Platform 1")?;
//! assert_eq!(description.read(label.number, &window)?.value, "Platform 1".into());
//! # Ok::<(), Box<dyn std::error::Error>>(())
//! ```
//!
//! # What is behind it
//!
//! The answers come from a library in the language Rattle, in which every function is proved to meet its contract. This crate only declares its
//! calls, hands slices over and gives the answers Rust's types; it is tested and not proved. `unsafe` stands in one private module.
//!
//! Any bytes, tables, numbers and windows may be handed in, and no call panics or keeps anything of what is lent to it. A refused call leaves lent
//! tables, windows and journals unchanged. All types are [`Send`] and [`Sync`], and calls may run at the same time.
//!
//! # Stack
//!
//! Planning works on the stack. Measured were 280 KB for a description of 60 KB, and 550 KB at most for any text that was tried; the calls of [`lent`]
//! that check a text need as much. Writing and reading through a [`Description`] or a [`Session`] need as much as the variable's own element asks
//! for, 240 KB at most where its tag is long. A thread of Rust has 2 MB by default; give a smaller one at least 640 KB. `docs/LIBRARY.md` has the figures.

#![deny(missing_docs)]
#![deny(unsafe_code)]

mod boundary;
mod calls;
mod description;
mod integer;
pub mod lent;
mod limits;
mod refusal;
mod session;
mod table;
mod value;
mod variable;
mod variables;
mod window;

pub use description::Description;
pub use integer::Integer;
pub use lent::Counts;
pub use limits::{FIELDS, JOURNAL_ROOM, LISTED, MOST_EDITS, MOST_NUMBERS, MOST_RECORDS, MOST_VARIABLES, TEXT_LIMIT};
pub use refusal::{Cause, Refusal, UnknownNumber};
pub use session::{Entry, Session};
pub use table::Table;
pub use value::{EventId, Reading, Value};
pub use variable::{Kind, Variable};
pub use variables::Variables;
pub use window::Window;
