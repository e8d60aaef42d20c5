//! The numbers returned, as document 01's table names them.

pub const TAKEN: u8 = 0;
pub const WRONG_VERSION: u8 = 1;
pub const NO_ROOM: u8 = 2;
pub const UNKNOWN_TYPE: u8 = 3;
pub const BAD_FIELD: u8 = 4;
pub const NO_MATCH: u8 = 5;
pub const REPLY_SHORT: u8 = 10;
/// Also of bytes that are no area of a plain engine (document 02, A12).
pub const NOT_A_STORE: u8 = 11;
pub const MESSAGE_LENGTH: u8 = 12;
pub const WRONG_CARRIER: u8 = 13;
pub const WRONG_MESSAGE_TYPE: u8 = 14;
pub const BUFFER_SHORT: u8 = 15;
/// Also of a message that a report does not have (document 02, A8).
pub const NO_SUCH_PART: u8 = 16;
/// Also where nothing stands behind a row, or no channel at a position.
pub const NO_SUCH_ROW: u8 = 17;
/// Of a plain engine: a request that would be taken passes its area's end (document 02, A12).
pub const AREA_FULL: u8 = 18;
/// Of a proposal: the tables of no part differ, or those of several (document 02, A14).
pub const NO_SINGLE_PART: u8 = 19;
/// Also of a caller's number that is none (document 02, A7).
pub const OUTSIDE_PLAN: u8 = 20;
pub const NOT_IN_KIND: u8 = 21;
pub const NO_SUCH_CHANNEL: u8 = 22;
