//! READ TOC 43h: the three formats over a fit disc.

use crate::address;
use crate::sense::{self, Sense};
use crate::table::Disc;

/// The number that asks for, and names, the lead-out.
pub const LEAD_OUT: u8 = 0xAA;

#[derive(Clone, Copy, Debug, PartialEq, Eq)]
pub struct TocRequest {
    pub msf: bool,
    pub format: u8,
    pub number: u8,
}

/// The full answer, never cut here: "length fields inside are never cut".
pub fn full_answer(disc: &Disc, request: TocRequest) -> Result<Vec<u8>, Sense> {
    match request.format {
        0 => tracks(disc, request),
        1 => Ok(last_session(disc, request.msf)),
        2 => sessions(disc, request.number),
        _ => Err(sense::BAD_FIELD),
    }
}

/// "8 bytes for each track numbered N or more, then the lead-out as AAh". K1:
/// "formats 0 and 1 pass over" B0h and C0h.
fn tracks(disc: &Disc, request: TocRequest) -> Result<Vec<u8>, Sense> {
    // "N over the last track and not AAh: 05/24/00; AAh gives the lead-out
    // only."
    if request.number > disc.last_track() && request.number != LEAD_OUT {
        return Err(sense::BAD_FIELD);
    }
    let mut body = Vec::new();
    for track in disc.tracks() {
        if track.number >= request.number {
            body.extend(entry(track.bits, track.number, track.start, request.msf));
        }
    }
    // "The lead-out takes ADR/control from the last session's A2."
    let bits = disc.last_session().lead_out_bits;
    body.extend(entry(bits, LEAD_OUT, disc.end(), request.msf));
    Ok(with_header(disc.first_track(), disc.last_track(), &body))
}

/// "Format 1: 000Ah, 1, S, then one such descriptor for the last session's
/// first track; N ignored."
fn last_session(disc: &Disc, msf: bool) -> Vec<u8> {
    let session = disc.last_session();
    let track = &session.tracks[0];
    let body = entry(track.bits, track.number, track.start, msf);
    with_header(1, session.number, &body)
}

/// "Format 2: header with 1 and S, then the table's descriptors of sessions N
/// and up; MSF ignored; N over S is 05/24/00." K1: "format 2 returns" B0h and
/// C0h.
fn sessions(disc: &Disc, number: u8) -> Result<Vec<u8>, Sense> {
    let last = disc.last_session().number;
    if number > last {
        return Err(sense::BAD_FIELD);
    }
    let mut body = Vec::new();
    for session in disc.sessions.iter().filter(|one| one.number >= number) {
        for row in &session.rows {
            body.extend(row.0);
        }
    }
    Ok(with_header(1, last, &body))
}

/// "0, ADR/control, number, 0, address (4 bytes, or 0 M S F)".
fn entry(bits: u8, number: u8, block: u32, msf: bool) -> [u8; 8] {
    let place = if msf {
        let time = address::to_msf(block).expect("rule 6 holds for it");
        [0, time.m, time.s, time.f]
    } else {
        block.to_be_bytes()
    };
    let [a, b, c, d] = place;
    [0, bits, number, 0, a, b, c, d]
}

/// "length, counting the bytes after its own two, as in every format".
fn with_header(first: u8, last: u8, body: &[u8]) -> Vec<u8> {
    let length = (body.len() + 2) as u16;
    let [high, low] = length.to_be_bytes();
    let mut answer = vec![high, low, first, last];
    answer.extend(body);
    answer
}
