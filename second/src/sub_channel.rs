//! READ SUB-CHANNEL 42h, format 01h (K2): where the position stands on a disc.

use crate::address;
use crate::play::Play;
use crate::sense::{self, Sense};
use crate::table::Disc;

/// The one format that is answered.
pub const CURRENT_POSITION: u8 = 0x01;

#[derive(Clone, Copy, Debug, PartialEq, Eq)]
pub struct SubRequest {
    pub msf: bool,
    pub sub_q: bool,
    pub format: u8,
}

/// The full answer, never cut here. The disc is that of the table lent now.
pub fn full_answer(disc: &Disc, play: Play, request: SubRequest) -> Result<Vec<u8>, Sense> {
    // "SubQ 0 gives 0, status, 0000h only"
    if !request.sub_q {
        return Ok(vec![0, play.status, 0x00, 0x00]);
    }
    // "with SubQ 1 another format is 05/24/00"
    if request.format != CURRENT_POSITION {
        return Err(sense::BAD_FIELD);
    }
    let mut answer = vec![0, play.status, 0x00, 0x0C, CURRENT_POSITION];
    answer.extend(where_it_stands(disc, play.position, request.msf));
    Ok(answer)
}

/// "ADR/control, track, index, then absolute and relative address (4 bytes
/// each, or 0 M S F; relative MSF without the 150). Index is 1; without a track
/// it, ADR/control, track and relative address are 0."
fn where_it_stands(disc: &Disc, position: u32, msf: bool) -> Vec<u8> {
    let (head, relative) = match disc.track_of(position) {
        Some(track) => ([track.bits, track.number, 1], position - track.start),
        None => ([0, 0, 0], 0),
    };
    let mut bytes = head.to_vec();
    if msf {
        let time = address::to_msf(position).expect("refusal 2 tested it");
        bytes.extend([0, time.m, time.s, time.f]);
        let time = address::clock(relative);
        bytes.extend([0, time.m, time.s, time.f]);
    } else {
        bytes.extend(position.to_be_bytes());
        bytes.extend(relative.to_be_bytes());
    }
    bytes
}
