//! Writes replay records and counts the calls among them.

use crate::changer::Slot;
use crate::drive::State;
use crate::registers::{Register, Registers};
use crate::replay::{self, take_record, Bench};
use crate::shelf::Totals;

#[derive(Default)]
pub struct Stream {
    pub bytes: Vec<u8>,
    pub calls: usize,
    /// The cue sheets (K12) among them.
    pub sheets: usize,
    /// The shelves (K13) among them.
    pub shelves: usize,
    mirror: Mirror,
}

/// A bench that follows a stream, so that a host at the registers (K14) sees how far it is.
#[derive(Default)]
struct Mirror {
    bench: Bench,
    at: usize,
}

impl Mirror {
    fn follow(&mut self, bytes: &[u8]) {
        while let Ok((kind, body, after)) = take_record(&bytes[self.at..]) {
            if self.bench.record(kind, body).is_err() {
                return;
            }
            self.bench.lines.clear();
            self.at = bytes.len() - after.len();
        }
    }
}

impl Stream {
    pub fn new() -> Stream {
        Stream::default()
    }

    pub fn record(&mut self, kind: u8, body: &[u8]) {
        let length = u16::try_from(body.len()).expect("bodies are short");
        self.bytes.push(kind);
        self.bytes.extend(length.to_be_bytes());
        self.bytes.extend(body);
        self.calls += usize::from(replay::is_call(kind));
        self.sheets += usize::from(kind == replay::CUE_SHEET);
        self.shelves += usize::from(kind == replay::SHELF);
    }

    /// The records of another stream, behind these.
    pub fn join(&mut self, other: &Stream) {
        self.bytes.extend(&other.bytes);
        self.calls += other.calls;
        self.sheets += other.sheets;
        self.shelves += other.shelves;
    }

    pub fn state(&mut self, state: State) {
        let body = [
            u8::from(state.tray_open),
            u8::from(state.disc_in),
            u8::from(state.lock),
            u8::from(state.power),
            u8::from(state.change),
            state.sense.key,
            state.sense.asc,
            state.sense.ascq,
            state.play.status,
        ];
        let numbers = [state.play.position, state.play.end].map(u32::to_be_bytes);
        let page = [state.mode.recovery, state.mode.retries];
        let parts = [&body, numbers.as_flattened(), &page, &[state.event]];
        self.record(replay::STATE, &parts.concat());
    }

    pub fn table(&mut self, table: &[u8]) {
        self.record(replay::TABLE, table);
    }

    /// K4's parameter list, lent from now on.
    pub fn list(&mut self, list: &[u8]) {
        self.record(replay::LIST, list);
    }

    pub fn memory(&mut self, length: u16, fill: u8) {
        let [high, low] = length.to_be_bytes();
        self.record(replay::MEMORY, &[high, low, fill]);
    }

    pub fn power_on(&mut self) {
        self.record(replay::POWER_ON, &[]);
    }

    pub fn power_on_without_change(&mut self) {
        self.record(replay::POWER_ON_WITHOUT_CHANGE, &[]);
    }

    pub fn button(&mut self) {
        self.record(replay::BUTTON, &[]);
    }

    pub fn lay(&mut self) {
        self.record(replay::LAY, &[]);
    }

    pub fn lift(&mut self) {
        self.record(replay::LIFT, &[]);
    }

    /// K2's outside call.
    pub fn move_on(&mut self, k: u32) {
        self.record(replay::MOVE_ON, &k.to_be_bytes());
    }

    pub fn packet(&mut self, packet: &[u8]) {
        self.record(replay::PACKET, packet);
    }

    /// A packet met by a state set just before it.
    pub fn packet_from(&mut self, state: State, packet: &[u8]) {
        self.state(state);
        self.packet(packet);
    }

    pub fn to_msf(&mut self, address: u32) {
        self.record(replay::TO_MSF, &address.to_be_bytes());
    }

    pub fn to_address(&mut self, m: u8, s: u8, f: u8) {
        self.record(replay::TO_ADDRESS, &[m, s, f]);
    }

    pub fn part(&mut self, session: u8) {
        self.record(replay::PART, &[session]);
    }

    /// K12's cue sheet.
    pub fn cue_sheet(&mut self, sheet: &[u8]) {
        self.record(replay::CUE_SHEET, sheet);
    }

    /// K11's slots, lent from now on.
    pub fn slots(&mut self, slots: &[Slot]) {
        let bytes: Vec<u8> = slots.iter().map(|slot| slot.byte()).collect();
        self.record(replay::SLOTS, &bytes);
    }

    /// The home slot of the disc in the drive.
    pub fn home(&mut self, home: u8) {
        self.record(replay::HOME, &[home]);
    }

    pub fn changer_power_on(&mut self) {
        self.record(replay::CHANGER_POWER_ON, &[]);
    }

    pub fn changer_power_on_without_change(&mut self) {
        self.record(replay::CHANGER_POWER_ON_WITHOUT_CHANGE, &[]);
    }

    pub fn changer_packet(&mut self, packet: &[u8]) {
        self.record(replay::CHANGER_PACKET, packet);
    }

    /// A packet to the changer, its drive set just before it.
    pub fn changer_packet_from(&mut self, drive: State, packet: &[u8]) {
        self.state(drive);
        self.changer_packet(packet);
    }

    pub fn changer_move_on(&mut self, k: u32) {
        self.record(replay::CHANGER_MOVE_ON, &k.to_be_bytes());
    }

    /// K14's reset.
    pub fn reset(&mut self) {
        self.record(replay::RESET, &[]);
    }

    /// A write of a register.
    pub fn write(&mut self, register: Register, value: u8) {
        self.record(replay::WRITE, &[register.address(), value]);
    }

    /// A data read.
    pub fn read(&mut self) {
        self.record(replay::READ, &[]);
    }

    /// The register record as the records so far leave it.
    pub fn registers(&mut self) -> &Registers {
        self.mirror.follow(&self.bytes);
        &self.mirror.bench.registers
    }

    /// K13's tables, counted on top of these totals.
    pub fn shelf(&mut self, from: Totals, tables: &[u8]) {
        let totals = from.0.map(u64::to_be_bytes);
        self.record(replay::SHELF, &[totals.as_flattened(), tables].concat());
    }
}
