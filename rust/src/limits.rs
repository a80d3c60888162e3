//! Numbers of the specification that a caller meets.

/// The zero byte that ends a text's content stands before this place.
pub const TEXT_LIMIT: usize = 65_536;

/// The numbers of one record.
pub const FIELDS: usize = 8;

/// No description has more records than this: one for each segment and data element.
pub const MOST_RECORDS: usize = 4_095;

/// A table of so many numbers has room for every description.
pub const MOST_NUMBERS: usize = FIELDS * MOST_RECORDS;

/// No description has more variables than this, all copies of groups counted.
pub const MOST_VARIABLES: u64 = 1_000_000;

/// The numbers that tell one variable in a list: record, space, address, size, kind.
pub const LISTED: usize = 5;

/// So many edits of a session stand at most.
pub const MOST_EDITS: u64 = 64;

/// So many bytes of a journal are used at most; what is behind them is never looked at.
pub const JOURNAL_ROOM: usize = 65_536;
