//! Tries the library's calls through their C boundary: every answer, every number that is handed out and all lent memory is compared with the
//! independent program's answer in the same process. Every lent buffer ends at a page that can't be touched, or begins behind one.

pub mod accesses;
pub mod ask;
pub mod calls;
pub mod cases;
pub mod oracle;
pub mod pages;
pub mod run;
pub mod tables;
pub mod tally;
pub mod texts;
pub mod watch;
