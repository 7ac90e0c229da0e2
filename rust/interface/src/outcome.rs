//! Outcome numbers.

pub const DONE: u32 = 0;
/// Fewer bytes lent than the shortest message has.
pub const TOO_FEW_LENT: u32 = 1;
pub const BAD_SIZE: u32 = 2;
/// The code word is not a request's.
pub const NOT_REQUEST: u32 = 3;
pub const NO_END: u32 = 4;
pub const RUNS_OVER: u32 = 5;
pub const SHORT_REQUEST: u32 = 6;
pub const NO_ROOM: u32 = 7;
/// Id 0, or request bytes longer than the value.
pub const BAD_TAG: u32 = 8;
pub const BAD_CURSOR: u32 = 9;
/// The code word is not a response's.
pub const NOT_RESPONSE: u32 = 10;
pub const NO_SUCH_TAG: u32 = 11;
pub const NOT_ANSWERED: u32 = 12;
pub const FEWER_STORED: u32 = 13;
pub const INVALID_BOARD: u32 = 14;
