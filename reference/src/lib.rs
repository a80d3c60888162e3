//! An independent reference for the answers of document 01 and of requests of document 02, written from their words in the
//! most literal way.
//! `answer` gives the answer to a case, `line` its line, `frame` the bytes of a case in the stream.

pub mod access;
pub mod answer;
pub mod backup;
pub mod cases;
pub mod description;
pub mod frames;
pub mod leaves;
pub mod listing;
pub mod number;
pub mod pieces;
pub mod plan;
pub mod random;
pub mod reading;
pub mod refusal;
pub mod rules;
pub mod session;
pub mod table;
pub mod text;
pub mod tree;
pub mod walk;

pub use access::Access;
pub use answer::{answer, line, Answer, Case};
pub use frames::{frame, BadFrame, Frames};
pub use leaves::Leaf;
pub use refusal::Refusal;
pub use session::{Operation, Session};
