//! One packet: "Packets test 1, 2, 3, 4, then the steps below". Nothing is
//! tested after the steps: K9 took 01's last test away.

use crate::answers::{self, Command, Outcome};
use crate::drive::State;
use crate::events;
use crate::limits::{BOUND, PACKET};
use crate::refusal::Refusal;
use crate::sense;
use crate::table::{self, Disc};

pub const INQUIRY: u8 = 0x12;
pub const REQUEST_SENSE: u8 = 0x03;
pub const EVENT_STATUS: u8 = 0x4A;

/// What a packet gives back; the response memory is changed in place.
#[derive(Clone, Copy, Debug, PartialEq, Eq)]
pub struct Reply {
    pub refusal: Option<Refusal>,
    pub status: u8,
    pub length: usize,
    pub start: u32,
    pub count: u32,
    pub next: State,
}

/// Lent are the disc table, the parameter list (K4), which 55h alone looks at,
/// and the response memory.
pub fn perform(state: State, table: &[u8], list: &[u8], packet: &[u8], memory: &mut [u8]) -> Reply {
    // "status 0, 0 bytes, start 0, count 0", and "Every refusal leaves state
    // and memory unchanged."
    let still = Reply {
        refusal: None,
        status: 0x00,
        length: 0,
        start: 0,
        count: 0,
        next: state,
    };
    let (bytes, disc) = match tests(state, table, packet, memory.len()) {
        Ok(passed) => passed,
        Err(refusal) => {
            return Reply {
                refusal: Some(refusal),
                ..still
            }
        }
    };
    let mut next = state;
    match steps(&mut next, disc.as_ref(), list, &bytes) {
        // "CHECK CONDITION is status 02h, no bytes, memory unchanged, the
        // triple held as sense"
        Err(told) => {
            next.sense = told;
            Reply {
                status: 0x02,
                next,
                ..still
            }
        }
        Ok(good) => {
            // "the bytes are the first n of the full answer, n the smaller of
            // the two lengths". K9: "no full answer passes K1's bound, so
            // refusal 3 covers it": the memory holds n bytes, whatever n is.
            let whole = good.answer.len();
            let n = good.allocation.map_or(whole, |limit| limit.min(whole));
            memory[..n].copy_from_slice(&good.answer[..n]);
            // "GOOD is status 00h and sets the sense to 00/00/00, but INQUIRY
            // leaves it." K7's 4Ah too "leaves the sense when GOOD".
            if ![INQUIRY, EVENT_STATUS].contains(&bytes[0]) {
                next.sense = sense::NONE;
            }
            Reply {
                length: n,
                start: good.start,
                count: good.count,
                next,
                ..still
            }
        }
    }
}

/// Refusals 1 to 4, the last with its rule (K6). "When not loaded, the table
/// isn't looked at."
fn tests(
    state: State,
    table: &[u8],
    packet: &[u8],
    memory: usize,
) -> Result<([u8; PACKET], Option<Disc>), Refusal> {
    let bytes: [u8; PACKET] = packet.try_into().map_err(|_| Refusal::PacketLength)?;
    if !state.is_sound() {
        return Err(Refusal::UnsoundState);
    }
    if memory < BOUND {
        return Err(Refusal::SmallMemory);
    }
    let disc = if state.loaded() {
        Some(table::read(table).map_err(Refusal::UnfitTable)?)
    } else {
        None
    };
    Ok((bytes, disc))
}

/// "Steps for a packet", 1 to 5. A disc is at hand exactly when loaded.
fn steps(state: &mut State, disc: Option<&Disc>, list: &[u8], p: &[u8; PACKET]) -> Outcome {
    // 1. "INQUIRY and REQUEST SENSE are performed even with an attention
    // pending." K7's 4Ah too: it "is performed while an attention is pending,
    // tells none".
    match p[0] {
        INQUIRY => return answers::inquiry(p),
        REQUEST_SENSE => return Ok(answers::request_sense(state, p)),
        EVENT_STATUS => return events::status_notification(state, p),
        _ => {}
    }
    // 2. "if the power attention is pending, else the change attention ..
    // That one stops being pending."
    if state.power {
        state.power = false;
        return Err(sense::POWERED_ON);
    }
    if state.change {
        state.change = false;
        return Err(sense::CHANGED);
    }
    // 3. "Unknown code: 05/20/00."
    let command = Command::from_packet(p).ok_or(sense::UNKNOWN_CODE)?;
    if !command.needs_disc() {
        return command.without_disc(state, list);
    }
    // 4. "02/3A/02 with the tray open, 02/3A/01 closed."
    match disc {
        Some(disc) => command.with_disc(&mut state.play, disc),
        None if state.tray_open => Err(sense::TRAY_OPEN),
        None => Err(sense::NO_MEDIUM),
    }
}
