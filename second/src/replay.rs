//! The `replay` stream: records of kind (1 byte), length (2 bytes) and body
//! in, one line for each call out.

use std::fmt::Write;

use crate::address::{self, Msf};
use crate::adler::adler32;
use crate::changer::{self, Answer, Changer, Slot};
use crate::cue;
use crate::drive::State;
use crate::limits::REPLAY_BODY;
use crate::mode_page::ModePage;
use crate::packet;
use crate::play::Play;
use crate::refusal::Refusal;
use crate::registers::{Register, Registers};
use crate::sense::Sense;
use crate::shelf::{self, TooLarge, Totals};
use crate::table;

pub const STATE: u8 = 0;
pub const TABLE: u8 = 1;
pub const MEMORY: u8 = 2;
pub const POWER_ON: u8 = 3;
pub const BUTTON: u8 = 4;
pub const LAY: u8 = 5;
pub const LIFT: u8 = 6;
pub const PACKET: u8 = 7;
pub const TO_MSF: u8 = 8;
pub const TO_ADDRESS: u8 = 9;
pub const PART: u8 = 10;
pub const POWER_ON_WITHOUT_CHANGE: u8 = 11;
pub const MOVE_ON: u8 = 12;
pub const LIST: u8 = 13;
pub const CUE_SHEET: u8 = 14;
pub const SLOTS: u8 = 15;
pub const HOME: u8 = 16;
pub const CHANGER_POWER_ON: u8 = 17;
pub const CHANGER_POWER_ON_WITHOUT_CHANGE: u8 = 18;
pub const CHANGER_PACKET: u8 = 19;
pub const CHANGER_MOVE_ON: u8 = 20;
pub const RESET: u8 = 21;
pub const WRITE: u8 = 22;
pub const READ: u8 = 23;
pub const SHELF: u8 = 24;

/// Whether a record of this kind is a call, and so has a line of its own: the
/// others set what the calls behind them meet.
pub fn is_call(kind: u8) -> bool {
    ![STATE, TABLE, MEMORY, LIST, SLOTS, HOME].contains(&kind)
}

/// Bytes of kind 0's body: five flags, the sense, K2's play record, K4's page and
/// K7's event.
pub const STATE_BYTES: usize = 20;

/// Bytes at the front of kind 24's body: the thirteen totals that it counts on from.
pub const SHELF_BYTES: usize = shelf::LINES * 8;

/// "At the start every byte is 0": so the play status is 00h, and refusal 2
/// covers it.
const START: State = State {
    play: Play::new(0, 0, 0),
    mode: ModePage::new(0, 0),
    event: 0,
    ..State::EMPTY
};

/// Anything that ends the run with the line `bad record`.
pub struct BadRecord;

/// "At the start: state all zero, no table, no memory." K4's parameter list is
/// "empty at the start"; of K11 no slots are lent then and the home is 0; K14's record
/// is as it stands behind a reset, and no other record touches it.
pub struct Bench {
    state: State,
    pub registers: Registers,
    home: u8,
    slots: Vec<Slot>,
    table: Vec<u8>,
    list: Vec<u8>,
    memory: Vec<u8>,
    pub lines: String,
}

impl Default for Bench {
    fn default() -> Bench {
        Bench {
            state: START,
            registers: Registers::START,
            home: 0,
            slots: Vec::new(),
            table: Vec::new(),
            list: Vec::new(),
            memory: Vec::new(),
            lines: String::new(),
        }
    }
}

/// Everything that must be printed for this stream.
pub fn run(input: &[u8]) -> String {
    let mut bench = Bench::default();
    let mut rest = input;
    while !rest.is_empty() {
        match take_record(rest).and_then(|(kind, body, after)| {
            bench.record(kind, body)?;
            Ok(after)
        }) {
            Ok(after) => rest = after,
            Err(BadRecord) => {
                bench.lines.push_str("bad record\n");
                break;
            }
        }
    }
    bench.lines
}

/// Kind and body of the first record, and what stands behind it. "A longer or
/// cut record" is bad.
pub fn take_record(bytes: &[u8]) -> Result<(u8, &[u8], &[u8]), BadRecord> {
    let [kind, high, low, rest @ ..] = bytes else {
        return Err(BadRecord);
    };
    let length = usize::from(u16::from_be_bytes([*high, *low]));
    if length > REPLAY_BODY || length > rest.len() {
        return Err(BadRecord);
    }
    let (body, after) = rest.split_at(length);
    Ok((*kind, body, after))
}

fn flag(byte: u8) -> Result<bool, BadRecord> {
    match byte {
        0 => Ok(false),
        1 => Ok(true),
        _ => Err(BadRecord),
    }
}

/// N of a line: the refusal's number, K6: "where N is 4 .. it is written `4.R`",
/// or 0.
fn number(refusal: Option<Refusal>) -> String {
    refusal.map_or("0".to_string(), |refusal| refusal.text('.'))
}

/// Kind 0's body: "tray, disc, lock, power, change as 0 or 1, key, ASC, ASCQ",
/// then K2's "play status (1 byte), position (4), end (4)", then K4's "recovery
/// byte, retry count", then K7's "media event (1)". The last four parts may be
/// anything.
fn state_of(body: &[u8; STATE_BYTES]) -> Result<State, BadRecord> {
    let &[tray, disc, lock, power, change, key, asc, ascq, status, ref numbers @ ..] = body;
    let [a, b, c, d, e, f, g, h, recovery, retries, event] = *numbers;
    Ok(State {
        tray_open: flag(tray)?,
        disc_in: flag(disc)?,
        lock: flag(lock)?,
        power: flag(power)?,
        change: flag(change)?,
        sense: Sense::new(key, asc, ascq),
        play: Play {
            status,
            position: u32::from_be_bytes([a, b, c, d]),
            end: u32::from_be_bytes([e, f, g, h]),
        },
        mode: ModePage::new(recovery, retries),
        event,
    })
}

/// Five digits, three hex bytes, the play record, the page's two bytes and the
/// event, a decimal: `01010 06 29 00 15 0 0 00 00 0`.
pub fn state_text(state: State) -> String {
    let digits = [
        state.tray_open,
        state.disc_in,
        state.lock,
        state.power,
        state.change,
    ]
    .map(|on| if on { '1' } else { '0' });
    let digits: String = digits.iter().collect();
    let (sense, play, mode) = (state.sense.text(), state.play.text(), state.mode.text());
    format!("{digits} {sense} {play} {mode} {}", state.event)
}

/// Kind 15's body: "a byte a slot: 80h present, 01h changed, no other bit; at most
/// 255".
fn slots_of(body: &[u8]) -> Result<Vec<Slot>, BadRecord> {
    if body.len() > 255 || body.iter().any(|byte| byte & 0x7E != 0) {
        return Err(BadRecord);
    }
    Ok(body.iter().map(|&byte| Slot::of(byte)).collect())
}

/// Kind 24's totals: 8 bytes each, high byte first, in the order of the lines.
fn totals_of(bytes: &[u8]) -> Totals {
    let mut totals = Totals::default();
    for (total, word) in totals.0.iter_mut().zip(bytes.chunks_exact(8)) {
        *total = u64::from_be_bytes(word.try_into().expect("a total is 8 bytes"));
    }
    totals
}

/// Capital hex, two digits a byte, "-" where no bytes.
pub fn hex(bytes: &[u8]) -> String {
    if bytes.is_empty() {
        return "-".to_string();
    }
    let mut text = String::with_capacity(bytes.len() * 2);
    for byte in bytes {
        write!(text, "{byte:02X}").expect("a String takes it");
    }
    text
}

impl Bench {
    pub fn record(&mut self, kind: u8, body: &[u8]) -> Result<(), BadRecord> {
        match (kind, body) {
            (STATE, body) => {
                self.state = state_of(body.try_into().map_err(|_| BadRecord)?)?;
            }
            (TABLE, table) => self.table = table.to_vec(),
            // K4: "kind 13, the parameter list lent from now on; prints nothing"
            (LIST, list) => self.list = list.to_vec(),
            (MEMORY, &[high, low, fill]) => {
                let length = usize::from(u16::from_be_bytes([high, low]));
                if length > REPLAY_BODY {
                    return Err(BadRecord);
                }
                self.memory = vec![fill; length];
            }
            // K3: "kind 3 is the default form (`o`), kind 11 the second form,
            // line `q 0 STATE`"
            (POWER_ON, []) => {
                self.moved('o', Ok(self.state.power_on()));
            }
            (POWER_ON_WITHOUT_CHANGE, []) => {
                self.moved('q', Ok(self.state.power_on_without_change()));
            }
            // K7: a refused press may hand back another state.
            (BUTTON, []) => {
                let (result, pressed) = (self.state.button(), self.state.pressed());
                self.moved_or('b', result, pressed);
            }
            (LAY, []) => self.moved('d', self.state.lay()),
            (LIFT, []) => self.moved('u', self.state.lift()),
            // K2: "kind 12, the outside call, body k (4 bytes), line `m N STATE`"
            (MOVE_ON, &[a, b, c, d]) => {
                let k = u32::from_be_bytes([a, b, c, d]);
                self.moved('m', self.state.move_on(k.into()));
            }
            (PACKET, packet) => self.packet(packet),
            (TO_MSF, &[a, b, c, d]) => {
                let result = address::to_msf(u32::from_be_bytes([a, b, c, d]));
                // "zeros" where refused
                let Msf { m, s, f } = result.unwrap_or(Msf::new(0, 0, 0));
                let number = number(result.err());
                self.line(format!("a {number} {m} {s} {f}"));
            }
            (TO_ADDRESS, &[m, s, f]) => {
                let result = Msf::new(m, s, f).address();
                let number = number(result.err());
                self.line(format!("c {number} {}", result.unwrap_or(0)));
            }
            (PART, &[session]) => {
                let result = table::session_part(&self.table, session);
                let number = number(result.err());
                let part = result.unwrap_or(&[]);
                let line = format!("s {number} {} {:08X}", part.len(), adler32(part));
                self.line(line);
            }
            (CUE_SHEET, sheet) => self.cue_sheet(sheet),
            (SLOTS, slots) => self.slots = slots_of(slots)?,
            (HOME, &[home]) => self.home = home,
            // K11: "the changer's power-on in its two forms"
            (CHANGER_POWER_ON, []) => {
                self.changer_moved('O', Ok(self.changer().power_on()));
            }
            (CHANGER_POWER_ON_WITHOUT_CHANGE, []) => {
                self.changer_moved('Q', Ok(self.changer().power_on_without_change()));
            }
            (CHANGER_MOVE_ON, &[a, b, c, d]) => {
                let k = u32::from_be_bytes([a, b, c, d]);
                self.changer_moved('M', self.changer().move_on(k.into()));
            }
            (CHANGER_PACKET, packet) => self.changer_packet(packet),
            // K14: "kind 21, reset, line `R N REG STATE`"
            (RESET, []) => {
                self.state = self.registers.reset(self.state);
                let registers = self.registers.text();
                self.line(format!("R 0 {registers} {}", state_text(self.state)));
            }
            (WRITE, &[register, value]) => {
                self.write(Register::at(register).ok_or(BadRecord)?, value);
            }
            (READ, []) => self.read(),
            (SHELF, body) => {
                let (totals, tables) = body.split_at_checked(SHELF_BYTES).ok_or(BadRecord)?;
                self.shelf(totals_of(totals), tables);
            }
            _ => return Err(BadRecord),
        }
        Ok(())
    }

    fn line(&mut self, text: String) {
        self.lines.push_str(&text);
        self.lines.push('\n');
    }

    /// A tray call, a power-on or the outside call: "state as handed in" where
    /// refused.
    fn moved(&mut self, letter: char, result: Result<State, Refusal>) {
        self.moved_or(letter, result, self.state);
    }

    /// Such a call, and the state that it hands back where it is refused.
    fn moved_or(&mut self, letter: char, result: Result<State, Refusal>, refused: State) {
        let number = number(result.err());
        self.state = result.unwrap_or(refused);
        self.line(format!("{letter} {number} {}", state_text(self.state)));
    }

    /// K12: "kind 14, a cue sheet (the body), turned into the response memory as it
    /// stands; line `t N LEN SUM`, SUM of the whole memory afterwards".
    fn cue_sheet(&mut self, sheet: &[u8]) {
        let result = cue::turn(sheet, &mut self.memory);
        let (number, length) = (number(result.err()), result.unwrap_or(0));
        self.line(format!("t {number} {length} {:08X}", adler32(&self.memory)));
    }

    /// K13: the tables of a stream counted on top of these totals, the line `h` and the
    /// thirteen, or `h too large`.
    fn shelf(&mut self, from: Totals, tables: &[u8]) {
        let text = match shelf::count(from, tables) {
            Ok(Totals(totals)) => totals.map(|total| total.to_string()).join(" "),
            Err(TooLarge) => "too large".to_string(),
        };
        self.line(format!("h {text}"));
    }

    /// K11: "State, table, list and memory are those of the other records."
    fn changer(&self) -> Changer {
        Changer {
            drive: self.state,
            home: self.home,
        }
    }

    /// STATE, the home, a decimal, and the slots, "two hex digits a slot or `-`".
    fn changer_text(&self) -> String {
        let slots: Vec<u8> = self.slots.iter().map(|slot| slot.byte()).collect();
        let state = state_text(self.state);
        format!("{state} {} {}", self.home, hex(&slots))
    }

    /// A power-on of the changer, or the outside call on it.
    fn changer_moved(&mut self, letter: char, result: Result<Changer, Refusal>) {
        let number = number(result.err());
        let next = result.unwrap_or(self.changer());
        (self.state, self.home) = (next.drive, next.home);
        self.line(format!("{letter} {number} {}", self.changer_text()));
    }

    fn changer_packet(&mut self, packet: &[u8]) {
        let (changer, table, list) = (self.changer(), &self.table, &self.list);
        let (memory, slots) = (&mut self.memory, &mut self.slots);
        let Answer { reply, home } = changer::perform(changer, table, list, packet, memory, slots);
        (self.state, self.home) = (reply.next, home);
        self.line(format!(
            "P {} {:02X} {} {} {} {} {} {:08X}",
            number(reply.refusal),
            reply.status,
            reply.length,
            reply.start,
            reply.count,
            self.changer_text(),
            hex(&self.memory[..reply.length]),
            adler32(&self.memory),
        ));
    }

    /// K14: "kind 22, a write: register .. and value, `w N START COUNT REG STATE SUM`".
    /// State, table and memory are those of the other records.
    fn write(&mut self, register: Register, value: u8) {
        let (registers, memory) = (&mut self.registers, &mut self.memory);
        let written = registers.write(register, value, self.state, &self.table, memory);
        self.state = written.next;
        self.line(format!(
            "w {} {} {} {} {} {:08X}",
            number(written.refusal),
            written.start,
            written.count,
            self.registers.text(),
            state_text(self.state),
            adler32(&self.memory),
        ));
    }

    /// K14: "kind 23, a data read, `r N BYTE REG SUM` (BYTE two hex digits, 00 where
    /// refused)".
    fn read(&mut self) {
        let result = self.registers.read(&self.memory);
        self.line(format!(
            "r {} {:02X} {} {:08X}",
            number(result.err()),
            result.unwrap_or(0x00),
            self.registers.text(),
            adler32(&self.memory),
        ));
    }

    fn packet(&mut self, packet: &[u8]) {
        let (table, list) = (&self.table, &self.list);
        let reply = packet::perform(self.state, table, list, packet, &mut self.memory);
        self.state = reply.next;
        self.line(format!(
            "p {} {:02X} {} {} {} {} {} {:08X}",
            number(reply.refusal),
            reply.status,
            reply.length,
            reply.start,
            reply.count,
            state_text(reply.next),
            hex(&self.memory[..reply.length]),
            adler32(&self.memory),
        ));
    }
}
