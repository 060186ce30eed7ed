//! The numbers of 01 that more than one place leans on, each named once.

/// K1: "6,538 bytes (594 descriptors) replaces 4,360 in rule 1 and refusals 3
/// and 9", the last of which K9 took away. So rule 1 "it is 4 to 6,538 bytes
/// long" and refusal 3 "response memory is under 6,538 bytes"; that "no full
/// answer passes" it (K9) follows, and no call tests it.
pub const BOUND: usize = 6_538;

/// Table header: "2 bytes data length, first session, last session S".
pub const HEADER: usize = 4;

/// "then 11-byte descriptors".
pub const ROW: usize = 11;

/// Descriptors that fit under the bound: K1's 594.
pub const ROWS_MAX: usize = (BOUND - HEADER) / ROW;

/// Refusal 1: "packet is not 12 bytes".
pub const PACKET: usize = 12;

/// "0 to 449,849".
pub const TOP_ADDRESS: u32 = 449_849;

/// "a file of 12-byte packets (at most 49,152 bytes)".
pub const LISTING_PACKETS: usize = 49_152;

/// Replay: "Bodies are at most 8,191 bytes", and so is a response memory.
pub const REPLAY_BODY: usize = 8_191;
