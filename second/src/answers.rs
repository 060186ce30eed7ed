//! What each command of "Steps for a packet" answers, before any cutting.

use crate::drive::State;
use crate::mode_page::PageRequest;
use crate::play::Play;
use crate::sense::{self, Sense};
use crate::sub_channel::{self, SubRequest};
use crate::table::{Disc, Mode};
use crate::toc::{self, TocRequest};

/// A GOOD command's full answer and the named blocks.
#[derive(Clone, Debug, Default, PartialEq, Eq)]
pub struct Good {
    pub answer: Vec<u8>,
    /// None: "Without an allocation length n is the whole answer."
    pub allocation: Option<usize>,
    pub start: u32,
    pub count: u32,
}

/// GOOD, or CHECK CONDITION with a triple.
pub type Outcome = Result<Good, Sense>;

/// The commands behind steps 3 to 5, with their fields taken out.
#[derive(Clone, Copy, Debug, PartialEq, Eq)]
pub enum Command {
    TestReady,
    StartStop { eject_or_load: bool, start: bool },
    Lock(bool),
    Capacity,
    Seek(u32),
    Read { address: u32, count: u32 },
    Toc(TocRequest, usize),
    Play { address: u32, count: u32 },
    PauseResume { resume: bool },
    SubChannel(SubRequest, usize),
    ModeSense(PageRequest, usize),
    ModeSelect { length: usize },
}

fn long(bytes: &[u8]) -> u32 {
    bytes
        .iter()
        .fold(0, |sum, &byte| sum << 8 | u32::from(byte))
}

impl Command {
    /// None is step 3's "Unknown code". INQUIRY, REQUEST SENSE and K7's 4Ah never
    /// come here (step 1).
    pub fn from_packet(p: &[u8; 12]) -> Option<Command> {
        Some(match p[0] {
            0x00 => Command::TestReady,
            // "byte 4 bit 1 LoEj, bit 0 Start"
            0x1B => Command::StartStop {
                eject_or_load: p[4] & 2 != 0,
                start: p[4] & 1 != 0,
            },
            // "the lock becomes byte 4 bit 0"
            0x1E => Command::Lock(p[4] & 1 != 0),
            0x25 => Command::Capacity,
            // "count in 7 to 8 (28h) or 6 to 9 (A8h)"
            0x28 => Command::Read {
                address: long(&p[2..6]),
                count: long(&p[7..9]),
            },
            0xA8 => Command::Read {
                address: long(&p[2..6]),
                count: long(&p[6..10]),
            },
            0x2B => Command::Seek(long(&p[2..6])),
            // "byte 1 bit 1 MSF, byte 2 low nibble format, byte 6 number N,
            // length in 7 to 8"
            0x43 => Command::Toc(
                TocRequest {
                    msf: p[1] & 2 != 0,
                    format: p[2] & 0x0F,
                    number: p[6],
                },
                long(&p[7..9]) as usize,
            ),
            // K2: "Packet fields are 004's." Address in bytes 2 to 5, count in
            // 7 to 8.
            0x45 => Command::Play {
                address: long(&p[2..6]),
                count: long(&p[7..9]),
            },
            // Byte 8 bit 0 Resume.
            0x4B => Command::PauseResume {
                resume: p[8] & 1 != 0,
            },
            // Byte 1 bit 1 MSF, byte 2 bit 6 SubQ, byte 3 format, length in 7 to
            // 8. The track number in byte 6 is no rule's.
            0x42 => Command::SubChannel(
                SubRequest {
                    msf: p[1] & 2 != 0,
                    sub_q: p[2] & 0x40 != 0,
                    format: p[3],
                },
                long(&p[7..9]) as usize,
            ),
            // K4: byte 2 bits 7 to 6 page control and bits 5 to 0 page, length in 7
            // to 8.
            0x5A => Command::ModeSense(
                PageRequest {
                    control: p[2] >> 6,
                    page: p[2] & 0x3F,
                },
                long(&p[7..9]) as usize,
            ),
            // The list's length in 7 to 8; PF and SP are no rule's.
            0x55 => Command::ModeSelect {
                length: long(&p[7..9]) as usize,
            },
            _ => return None,
        })
    }

    /// "Needing one: 00h, 25h, 28h, 2Bh, 43h, A8h, and 1Bh with LoEj 0 and
    /// Start 1." K2's 42h, 45h and 4Bh too: "These commands need a disc." K4's
    /// 55h and 5Ah do not.
    pub fn needs_disc(self) -> bool {
        match self {
            Command::StartStop {
                eject_or_load,
                start,
            } => !eject_or_load && start,
            Command::Lock(_) => false,
            Command::ModeSense(..) | Command::ModeSelect { .. } => false,
            _ => true,
        }
    }

    /// A command that needs no disc; the state is moved where it says so.
    pub fn without_disc(self, state: &mut State, list: &[u8]) -> Outcome {
        match self {
            Command::Lock(on) => state.lock = on,
            Command::ModeSense(request, allocation) => {
                return Ok(Good {
                    answer: state.mode.sensed(request)?,
                    allocation: Some(allocation),
                    ..Good::default()
                })
            }
            Command::ModeSelect { length } => state.mode = state.mode.selected(length, list)?,
            Command::StartStop {
                eject_or_load: true,
                start,
            } => {
                if start && state.tray_open {
                    // "Load (1,1): closes an open tray; a closed one is GOOD."
                    *state = state.closed();
                } else if !start && !state.tray_open {
                    // "a closed one opens, or 05/53/02 if locked"
                    if state.lock {
                        return Err(sense::PREVENTED);
                    }
                    *state = state.opened();
                }
            }
            // "(0,0) is GOOD"
            _ => {}
        }
        Ok(Good::default())
    }

    /// A command that needs a disc, with the disc: "Field checks, range, then
    /// track mode." Where it is GOOD it may move the play record (K2).
    pub fn with_disc(self, play: &mut Play, disc: &Disc) -> Outcome {
        match self {
            Command::Capacity => Ok(capacity(disc)),
            Command::Seek(address) => {
                in_range(disc, address)?;
                *play = play.stopped();
                Ok(Good::default())
            }
            Command::Read { address, count } => {
                let good = read(disc, address, count)?;
                *play = play.stopped();
                Ok(good)
            }
            Command::Toc(request, allocation) => Ok(Good {
                answer: toc::full_answer(disc, request)?,
                allocation: Some(allocation),
                ..Good::default()
            }),
            Command::Play { address, count } => {
                lie_in(disc, Mode::Audio, address, count)?;
                *play = play.started(address, count);
                Ok(Good::default())
            }
            Command::PauseResume { resume } => {
                *play = play.resumed(resume).ok_or(sense::BAD_FIELD)?;
                Ok(Good::default())
            }
            Command::SubChannel(request, allocation) => {
                let answer = sub_channel::full_answer(disc, *play, request)?;
                *play = play.told();
                Ok(Good {
                    answer,
                    allocation: Some(allocation),
                    ..Good::default()
                })
            }
            // TEST UNIT READY, and 1Bh "(0,1) when loaded"
            _ => Ok(Good::default()),
        }
    }
}

/// "4 bytes L − 1, 4 bytes 2,048; no allocation length".
fn capacity(disc: &Disc) -> Good {
    let mut answer = (disc.end() - 1).to_be_bytes().to_vec();
    answer.extend(2_048u32.to_be_bytes());
    Good {
        answer,
        ..Good::default()
    }
}

/// "over L − 1 gives 05/21/00".
fn in_range(disc: &Disc, address: u32) -> Result<(), Sense> {
    if address < disc.end() {
        Ok(())
    } else {
        Err(sense::OUT_OF_RANGE)
    }
}

/// A GOOD READ names its blocks: "Start and count are 0 except after a GOOD
/// READ, where they are its address and count."
fn read(disc: &Disc, address: u32, count: u32) -> Outcome {
    lie_in(disc, Mode::Data, address, count)?;
    Ok(Good {
        start: address,
        count,
        ..Good::default()
    })
}

/// "Address over L − 1, or address plus count over L: 05/21/00. Then any block
/// outside a data track: 05/64/00." K2, of PLAY: "range and 05/64/00 follow READ
/// with audio in place of data". The sum is taken in 64 bits.
fn lie_in(disc: &Disc, mode: Mode, address: u32, count: u32) -> Result<(), Sense> {
    in_range(disc, address)?;
    let from = u64::from(address);
    let to = from + u64::from(count);
    if to > u64::from(disc.end()) {
        return Err(sense::OUT_OF_RANGE);
    }
    if disc.blocks(mode, from, to) != u64::from(count) {
        return Err(sense::WRONG_MODE);
    }
    Ok(())
}

/// "18 bytes, byte 0 70h, 2 key, 7 0Ah, 12 ASC, 13 ASCQ, others 0."
pub fn request_sense(state: &mut State, p: &[u8; 12]) -> Good {
    let told = if state.sense != sense::NONE {
        // "A held sense other than 00/00/00 is given, then cleared,
        // attentions untouched."
        state.sense
    } else if state.power {
        // "Otherwise a pending attention, power first, is given and cleared"
        state.power = false;
        sense::POWERED_ON
    } else if state.change {
        state.change = false;
        sense::CHANGED
    } else {
        sense::NONE
    };
    let mut answer = vec![0; 18];
    answer[0] = 0x70;
    answer[2] = told.key;
    answer[7] = 0x0A;
    answer[12] = told.asc;
    answer[13] = told.ascq;
    Good {
        answer,
        allocation: Some(usize::from(p[4])),
        ..Good::default()
    }
}

/// "byte 1 bit 0 set gives 05/24/00. 36 bytes: 05 80 00 21 1F 00 00 00, then
/// "LECTERN " (8), "PACKET TARGET   " (16), "0100"."
pub fn inquiry(p: &[u8; 12]) -> Outcome {
    if p[1] & 1 != 0 {
        return Err(sense::BAD_FIELD);
    }
    let mut answer = vec![0x05, 0x80, 0x00, 0x21, 0x1F, 0x00, 0x00, 0x00];
    answer.extend(b"LECTERN PACKET TARGET   0100");
    Ok(Good {
        answer,
        allocation: Some(usize::from(p[4])),
        ..Good::default()
    })
}
