//! K11: "The changer. A second device after 000's changer model". It is the first
//! device with an arm beside it: what it has of its own is asked of that device first
//! as a code that it does not know, so that the tests and the attention gate are that
//! device's own.

use crate::drive::State;
use crate::packet::{self, Reply};
use crate::refusal::Refusal;
use crate::sense::{self, Sense};

/// "1 to 31 slots".
pub const MOST_SLOTS: usize = 31;

pub const LOAD_UNLOAD: u8 = 0xA6;
pub const MECHANISM_STATUS: u8 = 0xBD;
const START_STOP: u8 = 0x1B;

/// A code that is none of the first device's: with nothing pending it answers 05/20/00
/// and writes no byte.
const UNKNOWN: u8 = LOAD_UNLOAD;

/// "The slot records stand beside one another in memory that the caller lends, each
/// with disc present and disc changed."
#[derive(Clone, Copy, Debug, Default, PartialEq, Eq)]
pub struct Slot {
    pub present: bool,
    pub changed: bool,
}

impl Slot {
    /// A slot by its byte, of which no other bit is looked at.
    pub fn of(byte: u8) -> Slot {
        Slot {
            present: byte & 0x80 != 0,
            changed: byte & 0x01 != 0,
        }
    }

    /// "present bit 7 and changed bit 0", in a status answer as in a line.
    pub fn byte(self) -> u8 {
        u8::from(self.present) << 7 | u8::from(self.changed)
    }
}

/// "The state gains the home slot of the disc in the drive."
#[derive(Clone, Copy, Debug, PartialEq, Eq)]
pub struct Changer {
    pub drive: State,
    pub home: u8,
}

/// Why 11 refuses.
#[derive(Clone, Copy, Debug, PartialEq, Eq)]
pub enum Obstacle {
    NoSlots,
    TooManySlots,
    OpenTray,
    HomeTaken,
    NoSuchHome,
}

/// What a packet gives back: a reply with the drive's next state, and the next home.
/// Slots and response memory are changed in place.
#[derive(Clone, Copy, Debug, PartialEq, Eq)]
pub struct Answer {
    pub reply: Reply,
    pub home: u8,
}

/// What a packet asks of the changer itself; every other is the first device's.
#[derive(Clone, Copy, Debug, PartialEq, Eq)]
enum Own {
    Move { pair: Option<Pair>, slot: usize },
    Status { allocation: usize },
    Tray,
}

/// "Load (LoUnlo 1, Start 1)", "Unload (1,0)".
#[derive(Clone, Copy, Debug, PartialEq, Eq)]
enum Pair {
    Load,
    Unload,
}

impl Own {
    /// A6h: byte 4 bit 1 LoUnlo, bit 0 Start; byte 8 the slot. BDh: length in 8 to 9.
    /// 1Bh: with LoEj 1 alone.
    fn of(p: &[u8]) -> Option<Own> {
        let low_bits = p[4] & 3;
        match p[0] {
            LOAD_UNLOAD => Some(Own::Move {
                pair: match low_bits {
                    0b11 => Some(Pair::Load),
                    0b10 => Some(Pair::Unload),
                    _ => None,
                },
                slot: usize::from(p[8]),
            }),
            MECHANISM_STATUS => Some(Own::Status {
                allocation: usize::from(u16::from_be_bytes([p[8], p[9]])),
            }),
            START_STOP if low_bits & 2 != 0 => Some(Own::Tray),
            _ => None,
        }
    }
}

/// Lent are the table of the disc that is in the drive as the call begins, the
/// parameter list, the response memory and the slots.
pub fn perform(
    changer: Changer,
    table: &[u8],
    list: &[u8],
    packet: &[u8],
    memory: &mut [u8],
    slots: &mut [Slot],
) -> Answer {
    let tested = tested(changer, table, packet, memory, slots);
    if tested.refusal.is_some() {
        return changer.answered(tested);
    }
    let Some(own) = Own::of(packet) else {
        // "A changer device will perform exactly like a single CD device" (000).
        let reply = packet::perform(changer.drive, table, list, packet, memory);
        return changer.answered(reply);
    };
    // An attention was told in its place.
    if tested.next.sense != sense::UNKNOWN_CODE {
        return changer.answered(tested);
    }
    match changer.works(own, slots) {
        Err(told) => changer.answered(Reply {
            next: State {
                sense: told,
                ..changer.drive
            },
            ..tested
        }),
        Ok((next, bytes)) => {
            memory[..bytes.len()].copy_from_slice(&bytes);
            next.answered(Reply {
                status: 0x00,
                length: bytes.len(),
                next: State {
                    sense: sense::NONE,
                    ..next.drive
                },
                ..tested
            })
        }
    }
}

/// "11, after 3": the first device tests 1 to 3 alone where its drive is empty, and 4
/// and the gate where it is as it is.
fn tested(
    changer: Changer,
    table: &[u8],
    packet: &[u8],
    memory: &mut [u8],
    slots: &[Slot],
) -> Reply {
    let unknown = vec![UNKNOWN; packet.len()];
    let emptied = State {
        disc_in: false,
        ..changer.drive
    };
    let first = packet::perform(emptied, &[], &[], &unknown, memory);
    let refusal = first
        .refusal
        .or(obstacle(changer, slots).map(|_| Refusal::Changer));
    if refusal.is_some() {
        return Reply {
            refusal,
            status: 0x00,
            next: changer.drive,
            ..first
        };
    }
    packet::perform(changer.drive, table, &[], &unknown, memory)
}

/// "11 .. for no slots, more than 31, an open tray, or a drive's disc whose home is
/// occupied or beyond the last."
pub fn obstacle(changer: Changer, slots: &[Slot]) -> Option<Obstacle> {
    if slots.is_empty() {
        return Some(Obstacle::NoSlots);
    }
    if slots.len() > MOST_SLOTS {
        return Some(Obstacle::TooManySlots);
    }
    if changer.drive.tray_open {
        return Some(Obstacle::OpenTray);
    }
    if !changer.drive.disc_in {
        return None;
    }
    match slots.get(usize::from(changer.home)) {
        None => Some(Obstacle::NoSuchHome),
        Some(home) => home.present.then_some(Obstacle::HomeTaken),
    }
}

impl Changer {
    /// "Power-on takes the slots as found and an empty closed drive", in both forms:
    /// with no disc to greet they leave the same.
    pub fn power_on(self) -> Changer {
        Changer {
            drive: State::EMPTY.power_on(),
            home: 0,
        }
    }

    pub fn power_on_without_change(self) -> Changer {
        Changer {
            drive: State::EMPTY.power_on_without_change(),
            home: 0,
        }
    }

    /// K2's outside call: it tests 2 alone, and moves no disc.
    pub fn move_on(self, k: u64) -> Result<Changer, Refusal> {
        let drive = self.drive.move_on(k)?;
        Ok(Changer { drive, ..self })
    }

    /// This reply, beside this changer's home.
    fn answered(self, reply: Reply) -> Answer {
        let home = self.home;
        Answer { reply, home }
    }

    /// One of its own commands behind the gate: what it leaves and the bytes that it
    /// gives.
    fn works(self, own: Own, slots: &mut [Slot]) -> Result<(Changer, Vec<u8>), Sense> {
        match own {
            // "The changer has no tray calls; its 1Bh with LoEj 1 is 05/24/00."
            Own::Tray => Err(sense::BAD_FIELD),
            Own::Status { allocation } => {
                let mut bytes = self.status(slots);
                bytes.truncate(allocation);
                Ok((self, bytes))
            }
            Own::Move { pair, slot } => {
                // "a locked drive 05/53/02, pair and slot first"
                let pair = pair.ok_or(sense::BAD_FIELD)?;
                if slot >= slots.len() {
                    return Err(sense::BAD_FIELD);
                }
                if self.drive.lock {
                    return Err(sense::PREVENTED);
                }
                let emptied = self.returned(slots);
                Ok(match pair {
                    Pair::Unload => (emptied, Vec::new()),
                    Pair::Load => (emptied.taken(slot, slots), Vec::new()),
                })
            }
        }
    }

    /// "returns the drive's disc to its home (present 1, changed kept; the state's home
    /// 0)". "A return is an opening with a disc for K2 and K7": as if the tray opened,
    /// the disc were lifted and the tray closed without it.
    fn returned(self, slots: &mut [Slot]) -> Changer {
        if !self.drive.disc_in {
            return self;
        }
        slots[usize::from(self.home)].present = true;
        let lifted = State {
            disc_in: false,
            ..self.drive.opened()
        };
        Changer {
            drive: lifted.closed(),
            home: 0,
        }
    }

    /// "takes the named slot's: present and changed go to 0 there, and it is a loading":
    /// as if the disc were laid and the tray closed with it. "From an empty slot, which
    /// stays as it was, it leaves an empty closed drive and is no loading."
    fn taken(self, slot: usize, slots: &mut [Slot]) -> Changer {
        if !slots[slot].present {
            return self;
        }
        slots[slot] = Slot::default();
        let laid = State {
            disc_in: true,
            tray_open: true,
            ..self.drive
        };
        Changer {
            drive: laid.closed(),
            home: slot as u8,
        }
    }

    /// "the header of 000 (no fault, ready, home slot or 0, byte 1 zero, address 0,
    /// slots, table length) and 4 bytes a slot, present bit 7 and changed bit 0 of the
    /// first".
    fn status(self, slots: &[Slot]) -> Vec<u8> {
        let current = if self.drive.disc_in { self.home } else { 0 };
        let [high, low] = (4 * slots.len() as u16).to_be_bytes();
        let mut bytes = vec![current, 0, 0, 0, 0, slots.len() as u8, high, low];
        for slot in slots {
            bytes.extend([slot.byte(), 0, 0, 0]);
        }
        bytes
    }
}
