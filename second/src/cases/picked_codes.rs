//! K5's "row for each operation code": all 256 codes, with such bytes behind
//! them and in such states that a code answered as any other command, or as
//! none, prints another line.

use crate::cases::packets::{plain, Packet};
use crate::cases::picked_state::MEMORY;
use crate::cases::sheet::one_long_track;
use crate::cases::stream::Stream;
use crate::drive::State;
use crate::play::{Play, PLAYING};
use crate::sense;

/// Bytes 1 to 11 behind a code.
type Fields = [u8; 11];

/// A block of the disc, which is data. READ(10) names 12 blocks and READ(12)
/// 3,077, and PLAY may not; an eject, or the lock off; READ TOC by M:S:F, format
/// 0, 12 bytes; a pause; 42h without SubQ; MODE SENSE of no page, MODE SELECT of a
/// list that nobody lends; 4Ah with the Polled bit clear; 18 of any other answer
/// that is cut.
const ON_THE_DISC: Fields = [
    0x02, 0x00, 0x00, 0x12, 0x34, 0x00, 0x00, 0x0C, 0x05, 0xA5, 0x5A,
];

/// A block past the end of any disc, which SEEK, PLAY and both READs refuse. LoEj 0
/// and Start 1, or the lock on; the field that INQUIRY refuses and 4Ah wants, of no
/// class that is supported; READ TOC format 2, session 1.
const PAST_THE_END: Fields = [
    0x01, 0x02, 0x00, 0x01, 0x01, 0x01, 0x00, 0x28, 0x00, 0x5A, 0xA5,
];

/// A load, or the lock on; READ TOC format 1; MODE SENSE of page 01h, 256 bytes.
const LOADING: Fields = [
    0x00, 0x01, 0x00, 0x03, 0x00, 0x02, 0x01, 0x00, 0x03, 0xFF, 0xFF,
];

fn packet(code: u8, fields: Fields) -> Packet {
    let mut p = plain(code);
    p[1..].copy_from_slice(&fields);
    p
}

/// One packet for each of the 256 codes, each met by the same state.
fn all_codes(stream: &mut Stream, state: State, fields: Fields) {
    stream.memory(MEMORY, 0x11);
    for code in 0..=255 {
        stream.packet_from(state, &packet(code, fields));
    }
}

/// With nothing pending, so that each code is answered by what its row says:
/// loaded, under lock with a sense held and a play, and without these, closed and
/// empty, open with the disc in.
pub fn every_row(stream: &mut Stream) {
    stream.table(&one_long_track().bytes());
    let locked = State {
        lock: true,
        sense: sense::WRONG_MODE,
        play: Play::new(PLAYING, 5, 9),
        ..State::READY
    };
    all_codes(stream, locked, ON_THE_DISC);
    all_codes(stream, State::READY, ON_THE_DISC);
    all_codes(stream, State::READY, PAST_THE_END);
    all_codes(stream, State::EMPTY, PAST_THE_END);
    all_codes(stream, State::READY.opened(), LOADING);
}

/// With the power attention pending, the change attention and both, no sense
/// held; then with both and a sense held. Step 2 comes before step 3, so only
/// the rows of INQUIRY, REQUEST SENSE and 4Ah show here.
pub fn every_row_told(stream: &mut Stream) {
    stream.table(&one_long_track().bytes());
    let power = State::READY.power_on_without_change();
    let change = State {
        change: true,
        ..State::READY
    };
    let both = State {
        change: true,
        ..power
    };
    let held = State {
        sense: sense::PREVENTED,
        ..both
    };
    for state in [power, change, both, held] {
        all_codes(stream, state, ON_THE_DISC);
    }
}
