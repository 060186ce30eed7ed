//! K14: "The register side, for the board. A crate above the first puts 004's ATAPI
//! registers around the target." One record, and the calls that change it where it
//! stands: a write of a register, a data read, a reset. Data go a byte a call.

use crate::drive::State;
use crate::limits::{BOUND, PACKET as PACKET_BYTES};
use crate::mode_page::LIST as LIST_BYTES;
use crate::packet;
use crate::refusal::Refusal;

/// "PACKET A0h", the one command that there is.
pub const PACKET: u8 = 0xA0;

/// "Reset puts 14h and EBh in the byte count": low 14h, high EBh.
pub const SIGNATURE: u16 = 0xEB14;

/// "0 and FFFFh count as 65,534".
const LONGEST_RUN: usize = 65_534;

const MODE_SELECT: u8 = 0x55;

/// The interrupt reason: bit 0 is CoD, bit 1 IO.
const COD: u8 = 0b01;
const IO: u8 = 0b10;

/// The registers that the host may write, by 004's addresses.
#[derive(Clone, Copy, Debug, PartialEq, Eq)]
pub enum Register {
    Data,
    Features,
    CountLow,
    CountHigh,
    Drive,
    Command,
}

impl Register {
    pub const ALL: [Register; 6] = [
        Register::Data,
        Register::Features,
        Register::CountLow,
        Register::CountHigh,
        Register::Drive,
        Register::Command,
    ];

    pub fn address(self) -> u8 {
        match self {
            Register::Data => 0,
            Register::Features => 1,
            Register::CountLow => 4,
            Register::CountHigh => 5,
            Register::Drive => 6,
            Register::Command => 7,
        }
    }

    /// 2 and 3 are not for the host to write.
    pub fn at(address: u8) -> Option<Register> {
        let mut all = Register::ALL.into_iter();
        all.find(|register| register.address() == address)
    }
}

/// A list or an answer on its way: "A run is the smaller of what remains and the host's
/// byte count limit". Nothing is counted but the bytes that have gone: the runs are cut
/// at every multiple of their size.
#[derive(Clone, Copy, Debug, PartialEq, Eq)]
pub struct Runs {
    size: usize,
    whole: usize,
    gone: usize,
}

impl Runs {
    fn new(limit: u16, whole: usize) -> Runs {
        Runs {
            size: run_size(limit),
            whole,
            gone: 0,
        }
    }

    /// Where the run that is on its way ends.
    fn end(self) -> usize {
        let next = (self.gone / self.size + 1) * self.size;
        next.min(self.whole)
    }

    /// The bytes left of it.
    fn left(self) -> usize {
        self.end() - self.gone
    }

    fn over(self) -> bool {
        self.gone == self.whole
    }

    /// None of the run's bytes has gone yet.
    fn begins(self) -> bool {
        self.gone % self.size == 0 && !self.over()
    }
}

/// "0 and FFFFh count as 65,534, an odd limit as one less, 1 as 2."
pub fn run_size(limit: u16) -> usize {
    match limit {
        0 | 0xFFFF => LONGEST_RUN,
        1 => 2,
        _ => usize::from(limit & !1),
    }
}

/// What is under way.
#[derive(Clone, Debug, PartialEq, Eq)]
pub enum Transfer {
    /// None: "status ends it (CoD 1, IO 1)".
    Idle,
    /// "PACKET A0h asks for 12 bytes (reason: CoD 1, IO 0)": those that came.
    Packet(Vec<u8>),
    /// "K4's list enters .. in runs (CoD 0; IO 0 ..)": its packet, and what came of it.
    List {
        packet: Vec<u8>,
        list: Vec<u8>,
        runs: Runs,
    },
    /// "answers leave in runs (CoD 0; .. IO .. 1)".
    Answer(Runs),
}

/// "the one register record". The status is the target's, of the last packet performed.
#[derive(Clone, Debug, PartialEq, Eq)]
pub struct Registers {
    pub transfer: Transfer,
    pub count: u16,
    pub features: u8,
    pub drive: u8,
    pub status: u8,
}

/// What a write gives back; the record and the response memory are changed in place.
#[derive(Clone, Copy, Debug, PartialEq, Eq)]
pub struct Written {
    pub refusal: Option<Refusal>,
    pub start: u32,
    pub count: u32,
    pub next: State,
}

impl Written {
    /// The target has not been asked, or has refused.
    fn still(state: State, refusal: Option<Refusal>) -> Written {
        Written {
            refusal,
            start: 0,
            count: 0,
            next: state,
        }
    }
}

/// What a completing write lends to the target.
struct Lent<'a> {
    state: State,
    table: &'a [u8],
    memory: &'a mut [u8],
}

impl Registers {
    pub const START: Registers = Registers {
        transfer: Transfer::Idle,
        count: SIGNATURE,
        features: 0,
        drive: 0,
        status: 0x00,
    };

    /// "reason: CoD 1, IO 0" for the packet, "CoD 0; IO 0 and 1" for list and answer,
    /// "CoD 1, IO 1" for status.
    pub fn reason(&self) -> u8 {
        match self.transfer {
            Transfer::Idle => COD | IO,
            Transfer::Packet(_) => COD,
            Transfer::List { .. } => 0,
            Transfer::Answer(_) => IO,
        }
    }

    /// Bytes left of the run; while the packet enters, of its twelve.
    pub fn left(&self) -> usize {
        match &self.transfer {
            Transfer::Idle => 0,
            Transfer::Packet(entered) => PACKET_BYTES.saturating_sub(entered.len()),
            Transfer::List { runs, .. } | Transfer::Answer(runs) => runs.left(),
        }
    }

    /// `I`, `P`, `L` or `A`.
    pub fn letter(&self) -> char {
        match self.transfer {
            Transfer::Idle => 'I',
            Transfer::Packet(_) => 'P',
            Transfer::List { .. } => 'L',
            Transfer::Answer(_) => 'A',
        }
    }

    /// Whether calls could have made this record. "A record that no call could have made is
    /// in no run": one with twelve bytes and still waiting, or with a list that its packet
    /// does not ask for.
    fn is_made(&self) -> bool {
        match &self.transfer {
            Transfer::Idle => true,
            Transfer::Packet(entered) => entered.len() < PACKET_BYTES,
            Transfer::List { packet, list, runs } => {
                takes_list(packet) && list.len() == runs.gone && runs.gone < LIST_BYTES
            }
            Transfer::Answer(runs) => !runs.over() && runs.whole <= BOUND,
        }
    }

    /// REG of a line.
    pub fn text(&self) -> String {
        format!(
            "{} {:02X} {:04X} {:02X} {:02X} {:02X} {}",
            self.letter(),
            self.reason(),
            self.count,
            self.features,
            self.drive,
            self.status,
            self.left(),
        )
    }

    /// "Reset puts 14h and EBh in the byte count and ends any transfer." It is a power-on
    /// of the target too, in the default form; features and drive stay.
    pub fn reset(&mut self, state: State) -> State {
        self.transfer = Transfer::Idle;
        self.count = SIGNATURE;
        self.status = 0x00;
        state.power_on()
    }

    /// A data read: the next byte of an answer run, out of the memory lent now. "15 ..
    /// for a data read outside answer runs"; then 3.
    pub fn read(&mut self, memory: &[u8]) -> Result<u8, Refusal> {
        let Transfer::Answer(mut runs) = self.transfer else {
            return Err(Refusal::OutOfTurn);
        };
        if !self.is_made() {
            return Err(Refusal::OutOfTurn);
        }
        if memory.len() < BOUND {
            return Err(Refusal::SmallMemory);
        }
        let byte = memory[runs.gone];
        runs.gone += 1;
        self.answers(runs);
        Ok(byte)
    }

    /// A write of a register. Lent are the disc table and the response memory: "The
    /// target performs a packet at the call that completes it and its list".
    pub fn write(
        &mut self,
        register: Register,
        value: u8,
        state: State,
        table: &[u8],
        memory: &mut [u8],
    ) -> Written {
        let lent = Lent {
            state,
            table,
            memory,
        };
        match register {
            Register::Data => self.data(value, lent),
            _ => Written::still(state, self.held(register, value).err()),
        }
    }

    /// "15 exactly for .. a command other than A0h, or any other write before status has
    /// ended a transfer".
    fn held(&mut self, register: Register, value: u8) -> Result<(), Refusal> {
        if self.transfer != Transfer::Idle {
            return Err(Refusal::OutOfTurn);
        }
        let [high, low] = self.count.to_be_bytes();
        match register {
            Register::Features => self.features = value,
            Register::CountLow => self.count = u16::from_be_bytes([high, value]),
            Register::CountHigh => self.count = u16::from_be_bytes([value, low]),
            Register::Drive => self.drive = value,
            Register::Command if value == PACKET => {
                self.transfer = Transfer::Packet(Vec::new());
            }
            Register::Command | Register::Data => return Err(Refusal::OutOfTurn),
        }
        Ok(())
    }

    /// A data write. "15 .. for .. a data write outside packet and list runs".
    fn data(&mut self, value: u8, lent: Lent) -> Written {
        let still = Written::still(lent.state, None);
        if !self.is_made() {
            return Written::still(lent.state, Some(Refusal::OutOfTurn));
        }
        match self.transfer.clone() {
            Transfer::Packet(mut packet) => {
                packet.push(value);
                if packet.len() < PACKET_BYTES {
                    self.transfer = Transfer::Packet(packet);
                    still
                } else if takes_list(&packet) {
                    let runs = Runs::new(self.count, LIST_BYTES);
                    self.enters(packet, Vec::new(), runs);
                    still
                } else {
                    self.performs(&packet, &[], lent)
                }
            }
            Transfer::List {
                packet,
                mut list,
                mut runs,
            } => {
                list.push(value);
                runs.gone += 1;
                if runs.over() {
                    return self.performs(&packet, &list, lent);
                }
                self.enters(packet, list, runs);
                still
            }
            _ => Written::still(lent.state, Some(Refusal::OutOfTurn)),
        }
    }

    /// A list on its way in. Each run's size is written to the byte count as it begins.
    fn enters(&mut self, packet: Vec<u8>, list: Vec<u8>, runs: Runs) {
        if runs.begins() {
            self.count = runs.left() as u16;
        }
        self.transfer = Transfer::List { packet, list, runs };
    }

    /// An answer on its way out, or all of it gone: then status ends the transfer.
    fn answers(&mut self, runs: Runs) {
        if runs.begins() {
            self.count = runs.left() as u16;
        }
        self.transfer = if runs.over() {
            Transfer::Idle
        } else {
            Transfer::Answer(runs)
        };
    }

    /// The call that completes the packet and its list. "A refusal by the target is
    /// handed on and ends the transfer": status 0 and no bytes are what it gives then.
    fn performs(&mut self, packet: &[u8], list: &[u8], lent: Lent) -> Written {
        let reply = packet::perform(lent.state, lent.table, list, packet, lent.memory);
        self.status = reply.status;
        self.answers(Runs::new(self.count, reply.length));
        Written {
            refusal: reply.refusal,
            start: reply.start,
            count: reply.count,
            next: reply.next,
        }
    }
}

/// "Only 55h asking for 16 bytes takes a list; else it is empty."
fn takes_list(packet: &[u8]) -> bool {
    let &[code, _, _, _, _, _, _, high, low, ..] = packet else {
        return false;
    };
    let asked = usize::from(u16::from_be_bytes([high, low]));
    code == MODE_SELECT && asked == LIST_BYTES
}
