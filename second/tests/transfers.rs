//! K14: "The register side, for the board." What each register does in each part of a
//! transfer, the runs by every limit, the list, what is handed on, 15 and where it stands,
//! reset, that a packet at the registers is that packet, and that the streams have all of
//! it often.

mod common;

use common::{both, on, on_e, on_with};
use second::board::{self, Board};
use second::cases::bad::random_stream;
use second::cases::packets::*;
use second::cases::several::alone;
use second::cases::sheet::{any_fit, disc_e, fullest, small_fit, two_sessions};
use second::cases::stream::Stream;
use second::cases::{host, picked_registers, picked_registers_lists, picked_registers_refused};
use second::drive::State;
use second::examples;
use second::limits::BOUND;
use second::mode_page::ModePage;
use second::play::{Play, PLAYING};
use second::refusal::Refusal;
use second::registers::{run_size, Register, Registers, Transfer, Written, PACKET, SIGNATURE};
use second::replay::{self, take_record};
use second::rng::Rng;
use second::sense::Sense;
use second::stored;
use second::table::read;
use second::tally::{self, Transfers};

const READY: State = State::READY;
const EMPTY: State = State::EMPTY;

const NONE: Sense = Sense::new(0, 0, 0);
const UNKNOWN_CODE: Sense = Sense::new(5, 0x20, 0);
const LIST_LENGTH: Sense = Sense::new(5, 0x1A, 0);
const LIST_FIELD: Sense = Sense::new(5, 0x26, 0);
const CHANGED: Sense = Sense::new(6, 0x28, 0);
const POWERED_ON: Sense = Sense::new(6, 0x29, 0);

/// The interrupt reason: bit 0 is CoD, bit 1 IO.
const PACKET_WANTED: u8 = 0b01;
const LIST_RUN: u8 = 0b00;
const ANSWER_RUN: u8 = 0b10;
const STATUS: u8 = 0b11;

/// All registers but data.
const OTHERS: [Register; 5] = [
    Register::Features,
    Register::CountLow,
    Register::CountHigh,
    Register::Drive,
    Register::Command,
];

/// The registers with all that is lent to them: Table E, a memory of EEh.
#[derive(Clone, Debug, PartialEq)]
struct Rig {
    registers: Registers,
    state: State,
    table: Vec<u8>,
    memory: Vec<u8>,
}

impl Rig {
    fn new(state: State) -> Rig {
        Rig {
            registers: Registers::START,
            state,
            table: disc_e().bytes(),
            memory: vec![0xEE; BOUND],
        }
    }

    fn write(&mut self, register: Register, value: u8) -> Written {
        let (table, memory) = (&self.table, &mut self.memory);
        let written = self
            .registers
            .write(register, value, self.state, table, memory);
        self.state = written.next;
        written
    }

    fn read(&mut self) -> Result<u8, Refusal> {
        self.registers.read(&self.memory)
    }

    fn reset(&mut self) {
        self.state = self.registers.reset(self.state);
    }

    /// A write that no one refuses and that performs nothing.
    fn taken(&mut self, register: Register, value: u8) {
        let (state, memory) = (self.state, self.memory.clone());
        let written = self.write(register, value);
        assert_eq!(both(written.refusal), (0, 0), "{register:?} {value:02X}");
        assert_eq!((written.start, written.count), (0, 0));
        assert_eq!((self.state, &self.memory), (state, &memory));
    }

    fn limit(&mut self, limit: u16) {
        let [high, low] = limit.to_be_bytes();
        self.taken(Register::CountLow, low);
        self.taken(Register::CountHigh, high);
    }

    /// The command and all bytes of the packet but the last.
    fn begins(&mut self, packet: &Packet) {
        self.taken(Register::Command, PACKET);
        for &byte in &packet[..11] {
            self.taken(Register::Data, byte);
        }
    }

    /// A whole packet: what the write that completes it gives.
    fn packet(&mut self, packet: &Packet) -> Written {
        self.begins(packet);
        self.write(Register::Data, packet[11])
    }

    /// 55h for 16 and its list: what the write that completes it gives.
    fn select(&mut self, list: &[u8; 16]) -> Written {
        self.begins(&mode_select(16));
        self.taken(Register::Data, 0);
        for &byte in &list[..15] {
            self.taken(Register::Data, byte);
        }
        self.write(Register::Data, list[15])
    }

    /// The answer's runs, each as long as the byte count says when it begins.
    fn runs(&mut self) -> Vec<Vec<u8>> {
        let mut runs = Vec::new();
        while self.registers.reason() == ANSWER_RUN {
            let size = usize::from(self.registers.count);
            let mut run = Vec::new();
            for gone in 0..size {
                assert_eq!(self.registers.left(), size - gone);
                assert_eq!(self.registers.reason(), ANSWER_RUN);
                run.push(self.read().expect("an answer run gives its bytes"));
            }
            runs.push(run);
        }
        runs
    }

    /// Whatever is left of an answer.
    fn rest(&mut self) -> Vec<u8> {
        let mut bytes = Vec::new();
        while self.registers.reason() == ANSWER_RUN {
            bytes.push(self.read().expect("an answer run gives its bytes"));
        }
        bytes
    }

    /// The runs of a packet sent with this limit, which must be GOOD.
    fn good(&mut self, limit: u16, packet: &Packet) -> Vec<Vec<u8>> {
        self.limit(limit);
        let written = self.packet(packet);
        assert_eq!(both(written.refusal), (0, 0));
        assert_eq!(self.registers.status, 0);
        let runs = self.runs();
        assert_eq!(self.registers.reason(), STATUS);
        runs
    }

    /// The runs of the list that the registers ask for, each as long as the byte count says
    /// when it begins; the last byte is not written.
    fn list_runs(&mut self, list: &[u8; 16]) -> Vec<usize> {
        let mut runs = Vec::new();
        let mut rest = &list[..];
        while rest.len() > 1 {
            let size = usize::from(self.registers.count);
            runs.push(size);
            for gone in 0..size.min(rest.len() - 1) {
                assert_eq!(self.registers.left(), size - gone);
                assert_eq!(self.registers.reason(), LIST_RUN);
                self.taken(Register::Data, rest[0]);
                rest = &rest[1..];
            }
        }
        runs
    }

    /// In the middle of the packet, of its list or of its answer.
    fn in_packet() -> Rig {
        let mut rig = Rig::new(READY);
        rig.taken(Register::Command, PACKET);
        rig.taken(Register::Data, 0x12);
        rig
    }

    fn in_list() -> Rig {
        let mut rig = Rig::new(READY);
        rig.limit(6);
        rig.begins(&mode_select(16));
        rig.taken(Register::Data, 0);
        rig.taken(Register::Data, 0);
        rig
    }

    fn in_answer() -> Rig {
        let mut rig = Rig::new(READY);
        rig.limit(6);
        rig.packet(&inquiry(36));
        rig.read().expect("an answer run");
        rig
    }

    /// The number of a refused write, which changes nothing at all.
    fn refused(&mut self, register: Register, value: u8) -> u8 {
        let before = self.clone();
        let written = self.write(register, value);
        assert_eq!((written.start, written.count), (0, 0));
        assert_eq!(*self, before, "{register:?} {value:02X}");
        both(written.refusal).0
    }

    /// The number of a refused data read, which changes nothing at all.
    fn unread(&mut self) -> u8 {
        let before = self.clone();
        let refusal = self.read().expect_err("it is refused");
        assert_eq!(*self, before);
        refusal.number()
    }
}

fn sizes(runs: &[Vec<u8>]) -> Vec<usize> {
    runs.iter().map(Vec::len).collect()
}

/// 01's 36 bytes.
fn inquiry_answer() -> Vec<u8> {
    let mut bytes = vec![0x05, 0x80, 0x00, 0x21, 0x1F, 0, 0, 0];
    bytes.extend(b"LECTERN PACKET TARGET   0100");
    bytes
}

fn pending(state: State, power: bool, change: bool) -> State {
    State {
        power,
        change,
        ..state
    }
}

// The marked results.

/// INQUIRY of 36 bytes by limits 10, 5, 1 and 0.
#[test]
fn marked_inquiries() {
    for (limit, expected) in [
        (10, vec![10, 10, 10, 6]),
        (5, vec![4; 9]),
        (1, vec![2; 18]),
        (0, vec![36]),
    ] {
        let mut rig = Rig::new(READY);
        let runs = rig.good(limit, &inquiry(36));
        assert_eq!(sizes(&runs), expected, "limit {limit}");
        assert_eq!(runs.concat(), inquiry_answer());
    }
}

/// 00h: no run, status at once.
#[test]
fn marked_no_answer() {
    let mut rig = Rig::new(READY);
    rig.limit(16);
    assert_eq!(both(rig.packet(&test_ready()).refusal), (0, 0));
    assert_eq!(rig.registers.text(), "I 03 0010 00 00 00 0");
    assert_eq!(rig.unread(), 15);
}

/// 55h with its list by limit 4, then 5Ah, which tells what it set.
#[test]
fn marked_list() {
    let mut rig = Rig::new(READY);
    rig.limit(4);
    assert_eq!(both(rig.select(&page_list(0x25, 0x0A)).refusal), (0, 0));
    assert_eq!(rig.registers.text(), "I 03 0004 00 00 00 0");
    assert_eq!(rig.state.mode, ModePage::new(0x25, 0x0A));
    let mut answer = vec![0x00, 0x0E, 0, 0, 0, 0, 0, 0];
    answer.extend([0x01, 0x06, 0x25, 0x0A, 0, 0, 0, 0]);
    assert_eq!(rig.good(0, &mode_sense(0, 1, 16)).concat(), answer);
}

/// A read before a packet, a write of the byte count in a run, and ECh: 15.
#[test]
fn marked_refusals() {
    let mut rig = Rig::new(READY);
    assert_eq!(rig.unread(), 15);
    assert_eq!(rig.refused(Register::Command, 0xEC), 15);
    rig.limit(10);
    rig.packet(&inquiry(36));
    assert_eq!(rig.refused(Register::CountLow, 10), 15);
    assert_eq!(sizes(&rig.runs()), [10, 10, 10, 6]);
}

/// Reset in a run, then 00h: 06/29/00.
#[test]
fn marked_reset() {
    let mut rig = Rig::new(READY);
    rig.limit(10);
    rig.packet(&inquiry(36));
    assert_eq!(rig.read(), Ok(0x05));
    rig.reset();
    assert_eq!(rig.registers, Registers::START);
    assert_eq!(rig.registers.count, SIGNATURE);
    assert_eq!(both(rig.packet(&test_ready()).refusal), (0, 0));
    assert_eq!((rig.registers.status, rig.state.sense), (2, POWERED_ON));
    assert!(rig.state.change && !rig.state.power);
}

// The registers.

/// By 004's addresses; 2 and 3 are not for the host to write, and there are no others.
#[test]
fn registers_by_address() {
    let named: Vec<u8> = (0..=255).filter(|&at| Register::at(at).is_some()).collect();
    assert_eq!(named, [0, 1, 4, 5, 6, 7]);
    for register in Register::ALL {
        assert_eq!(Register::at(register.address()), Some(register));
    }
    for at in 0..=255 {
        let known = named.contains(&at);
        let line = replay::run(&[22, 0, 2, at, 0]);
        assert_eq!(line == "bad record\n", !known, "{at}");
    }
}

/// "Data go a byte a call, both ways": an odd run has no byte more.
#[test]
fn data_a_byte_a_call() {
    for length in 0..=36 {
        let mut rig = Rig::new(READY);
        rig.limit(0);
        rig.packet(&inquiry(length));
        for gone in 0..length {
            assert_eq!(rig.registers.left(), usize::from(length - gone));
            assert_eq!(rig.read(), Ok(inquiry_answer()[usize::from(gone)]));
        }
        assert_eq!(rig.unread(), 15);
    }
}

/// "Writes of features, byte count and drive while idle are held and have no other
/// effect": DMA, OVERLAP and DRV are not looked at.
#[test]
fn features_and_drive_are_held() {
    for value in 0..=255 {
        let mut rig = Rig::new(READY);
        rig.limit(10);
        rig.taken(Register::Features, value);
        rig.taken(Register::Drive, !value);
        let held = format!("I 03 000A {value:02X} {:02X} 00 0", !value);
        assert_eq!(rig.registers.text(), held);
        rig.packet(&inquiry(36));
        assert_eq!(sizes(&rig.runs()), [10, 10, 10, 6]);
        let after = format!("I 03 0006 {value:02X} {:02X} 00 0", !value);
        assert_eq!(rig.registers.text(), after);
    }
}

/// The byte count's low half is register 4, its high half register 5.
#[test]
fn byte_count_by_halves() {
    let mut rig = Rig::new(READY);
    rig.taken(Register::CountLow, 0x34);
    assert_eq!(rig.registers.count, 0xEB34);
    rig.taken(Register::CountHigh, 0x12);
    assert_eq!(rig.registers.count, 0x1234);
    rig.taken(Register::CountHigh, 0x00);
    assert_eq!(sizes(&rig.good(0x0010, &inquiry(36))), [16, 16, 4]);
    rig.taken(Register::CountHigh, 0x01);
    // 0104h: the low half is the last run's.
    rig.packet(&inquiry(36));
    assert_eq!(sizes(&rig.runs()), [36]);
}

/// "PACKET A0h asks for 12 bytes (reason: CoD 1, IO 0)": "12 to 1 bytes are left of the run
/// and the byte count stays as it was".
#[test]
fn packet_asks_for_twelve() {
    let mut rig = Rig::new(READY);
    rig.limit(0x0203);
    rig.taken(Register::Command, PACKET);
    for (left, byte) in (1..=12).rev().zip(inquiry(5)) {
        assert_eq!(rig.registers.text(), format!("P 01 0203 00 00 00 {left}"));
        rig.write(Register::Data, byte);
    }
    assert_eq!(rig.registers.text(), "A 02 0005 00 00 00 5");
}

/// "(reason: CoD 1, IO 0)", "(CoD 0; IO 0 and 1)", "(CoD 1, IO 1)".
#[test]
fn reason_in_each_part() {
    assert_eq!(Rig::new(READY).registers.reason(), STATUS);
    assert_eq!(Rig::in_packet().registers.reason(), PACKET_WANTED);
    assert_eq!(Rig::in_list().registers.reason(), LIST_RUN);
    assert_eq!(Rig::in_answer().registers.reason(), ANSWER_RUN);
    let letters = [Rig::in_packet(), Rig::in_list(), Rig::in_answer()];
    let letters = letters.map(|rig| rig.registers.letter());
    assert_eq!(letters, ['P', 'L', 'A']);
}

/// The status in the record is the target's byte, not 004's register: 02h for CHECK
/// CONDITION, 00h for GOOD, with no busy, ready or request in it.
#[test]
fn status_is_the_targets() {
    let mut rig = Rig::new(READY);
    assert_eq!(rig.registers.status, 0x00);
    rig.packet(&plain(0xFF));
    assert_eq!(
        (rig.registers.status, rig.state.sense),
        (0x02, UNKNOWN_CODE)
    );
    rig.packet(&inquiry(4));
    assert_eq!(rig.registers.text(), "A 02 0004 00 00 00 4");
    rig.runs();
    assert_eq!(rig.registers.status, 0x00);
}

/// "The status in the record stays until the next packet is performed; reset puts 00."
#[test]
fn status_until_the_next_packet() {
    let mut rig = Rig::new(READY);
    rig.packet(&plain(0xFF));
    rig.limit(16);
    assert_eq!(rig.registers.status, 0x02);
    rig.begins(&mode_select(16));
    assert_eq!(rig.registers.status, 0x02);
    rig.taken(Register::Data, 0);
    assert_eq!(rig.registers.text(), "L 00 0010 00 00 02 16");
    for byte in &page_list(0x01, 0)[..15] {
        rig.taken(Register::Data, *byte);
    }
    assert_eq!(rig.registers.status, 0x02);
    rig.write(Register::Data, 0);
    assert_eq!(rig.registers.status, 0x00);
    rig.packet(&plain(0xFF));
    assert_eq!(rig.registers.status, 0x02);
    rig.reset();
    assert_eq!(rig.registers.status, 0x00);
}

// The runs.

/// "0 and FFFFh count as 65,534, an odd limit as one less, 1 as 2": every limit there is.
#[test]
fn run_size_of_every_limit() {
    for limit in 0..=u16::MAX {
        let size = match limit {
            0 => 65_534,
            1 => 2,
            _ => usize::from(limit) / 2 * 2,
        };
        assert_eq!(run_size(limit), size, "{limit}");
    }
    assert_eq!((run_size(0), run_size(0xFFFF)), (65_534, 65_534));
    assert_eq!((run_size(1), run_size(2), run_size(3)), (2, 2, 2));
    assert_eq!((run_size(0xFFFE), run_size(0xFFFD)), (65_534, 65_532));
}

/// "A run is the smaller of what remains and the host's byte count limit", and "the last
/// leaves after exactly the quotient of length by run size, rounded up".
#[test]
fn runs_by_limit_and_length() {
    for limit in (0..=40).chain([255, 256, 0x7FFF, 0x8000, 0xFFFD, 0xFFFE, 0xFFFF]) {
        for length in 0..=36 {
            let mut rig = Rig::new(READY);
            let runs = rig.good(limit, &inquiry(length));
            let (size, length) = (run_size(limit), usize::from(length));
            assert_eq!(runs.len(), length.div_ceil(size), "{limit} {length}");
            for (place, run) in runs.iter().enumerate() {
                assert_eq!(run.len(), size.min(length - place * size));
            }
            assert_eq!(runs.concat(), inquiry_answer()[..length]);
        }
    }
}

/// 004 rounds an odd limit down unless it is the whole transfer; here it always counts as
/// one less: limit 5, answer 5 is 4 and 1.
#[test]
fn odd_limit_of_the_whole_answer() {
    for (limit, expected) in [
        (5, vec![4, 1]),
        (3, vec![2, 2, 1]),
        (7, vec![5]),
        (6, vec![5]),
    ] {
        let mut rig = Rig::new(READY);
        assert_eq!(sizes(&rig.good(limit, &inquiry(5))), expected);
    }
}

/// "6,538 bytes" in runs of 2,048, of an odd limit and in one; the runs joined are the
/// answer's bytes.
#[test]
fn longest_answer_in_runs() {
    let table = fullest().bytes();
    for (limit, count) in [(0x0800, 4), (0x00FF, 26), (0, 1), (6_537, 2), (6_538, 1)] {
        let mut rig = Rig::new(READY);
        rig.table = table.clone();
        let runs = rig.good(limit, &toc(false, 2, 0, 6_538));
        assert_eq!(runs.len(), count, "{limit}");
        assert_eq!(runs.concat(), table);
    }
}

/// "as held at the packet's end": nothing written while the packet enters counts, for it is
/// refused; what was written before A0h does.
#[test]
fn limit_as_held_at_the_packets_end() {
    let mut rig = Rig::new(READY);
    rig.limit(12);
    rig.begins(&inquiry(36));
    assert_eq!(rig.refused(Register::CountLow, 4), 15);
    assert_eq!(rig.refused(Register::CountHigh, 4), 15);
    rig.write(Register::Data, 0);
    // And what the runs write there does not count for this answer.
    assert_eq!(sizes(&rig.runs()), [12, 12, 12]);
    assert_eq!(sizes(&rig.good(13, &inquiry(36))), [12, 12, 12]);
    assert_eq!(sizes(&rig.good(20, &inquiry(36))), [20, 16]);
}

/// "each run's size is written there": the byte count while each run leaves.
#[test]
fn count_holds_each_runs_size() {
    let mut rig = Rig::new(READY);
    rig.limit(15);
    rig.packet(&inquiry(36));
    let mut counts = Vec::new();
    while rig.registers.reason() == ANSWER_RUN {
        counts.push((rig.registers.count, rig.registers.left()));
        rig.read().expect("an answer run");
    }
    let mut due: Vec<(u16, usize)> = Vec::new();
    for size in [14, 14, 8] {
        due.extend((1..=size).rev().map(|left| (size as u16, left)));
    }
    assert_eq!(counts, due);
    assert_eq!(rig.registers.text(), "I 03 0008 00 00 00 0");
}

/// "so the next packet without a new write takes the last run's size as its limit"; one
/// without an answer leaves the byte count as it was.
#[test]
fn next_limit_is_the_last_run() {
    let mut rig = Rig::new(READY);
    assert_eq!(sizes(&rig.good(10, &inquiry(36))), [10, 10, 10, 6]);
    rig.packet(&inquiry(36));
    assert_eq!(sizes(&rig.runs()), [6; 6]);
    rig.packet(&test_ready());
    rig.packet(&plain(0xFF));
    rig.packet(&inquiry(9));
    assert_eq!(sizes(&rig.runs()), [6, 3]);
    rig.packet(&inquiry(5));
    assert_eq!(sizes(&rig.runs()), [2, 2, 1]);
    rig.packet(&inquiry(3));
    assert_eq!(sizes(&rig.runs()), [2, 1]);
}

/// "The runs joined are the answer's bytes": of every command, as a packet by itself gives
/// them, with its state and memory.
#[test]
fn runs_are_the_answer() {
    for state in [READY, EMPTY, pending(READY, true, true)] {
        for packet in one_of_each() {
            for limit in [0, 1, 5, 8, 16] {
                let mut rig = Rig::new(state);
                rig.limit(limit);
                let written = rig.packet(&packet);
                if rig.registers.reason() == LIST_RUN {
                    continue;
                }
                let (reply, memory) = on_e(state, &packet);
                assert_eq!(written.refusal, reply.refusal);
                assert_eq!(rig.registers.status, reply.status);
                assert_eq!((rig.state, &rig.memory), (reply.next, &memory));
                assert_eq!((written.start, written.count), (reply.start, reply.count));
                assert_eq!(rig.runs().concat(), memory[..reply.length]);
            }
        }
    }
}

/// "Status ends a transfer the moment the registers show CoD 1, IO 1, after the last byte
/// of the last run": a packet may follow at once, with no read of a status between.
#[test]
fn status_ends_with_the_last_byte() {
    let mut rig = Rig::new(READY);
    rig.limit(4);
    rig.packet(&inquiry(6));
    for left in [4, 3, 2, 1, 2, 1] {
        assert_eq!(rig.registers.left(), left);
        assert_eq!(rig.refused(Register::Command, PACKET), 15);
        rig.read().expect("an answer run");
    }
    assert_eq!(rig.registers.text(), "I 03 0002 00 00 00 0");
    rig.taken(Register::Features, 1);
    rig.taken(Register::Command, PACKET);
}

/// "or at the completing write where there is no answer": GOOD, CHECK CONDITION, and an
/// answer that the packet's length cuts to nothing.
#[test]
fn no_answer_no_run() {
    for packet in [test_ready(), prevent(1), seek(7), inquiry(0), plain(0xFF)] {
        let mut rig = Rig::new(READY);
        rig.limit(0x0102);
        assert_eq!(both(rig.packet(&packet).refusal), (0, 0));
        let status = rig.registers.status;
        let text = format!("I 03 0102 00 00 {status:02X} 0");
        assert_eq!(rig.registers.text(), text);
        assert_eq!(rig.unread(), 15);
        rig.taken(Register::Command, PACKET);
    }
}

// The list.

/// "K4's list enters .. in runs", which "obey the limit too".
#[test]
fn list_runs_obey_the_limit() {
    for (limit, due) in [
        (1, vec![2; 8]),
        (2, vec![2; 8]),
        (3, vec![2; 8]),
        (4, vec![4; 4]),
        (5, vec![4; 4]),
        (6, vec![6, 6, 4]),
        (11, vec![10, 6]),
        (15, vec![14, 2]),
        (16, vec![16]),
        (17, vec![16]),
        (0, vec![16]),
        (0xFFFF, vec![16]),
    ] {
        let mut rig = Rig::new(READY);
        rig.limit(limit);
        rig.begins(&mode_select(16));
        rig.taken(Register::Data, 0);
        let list = page_list(0x35, 0x53);
        assert_eq!(rig.list_runs(&list), due, "limit {limit}");
        assert_eq!(rig.registers.left(), 1);
        assert_eq!(both(rig.write(Register::Data, list[15]).refusal), (0, 0));
        assert_eq!(rig.registers.reason(), STATUS);
        assert_eq!(rig.registers.count, *due.last().expect("a run") as u16);
        assert_eq!(rig.state.mode, ModePage::new(0x35, 0x53));
    }
}

/// "Only 55h asking for 16 bytes takes a list": by byte 0 and by bytes 7 and 8.
#[test]
fn only_55h_for_16_takes_a_list() {
    let asks = |packet: &Packet| {
        let mut rig = Rig::new(READY);
        rig.begins(packet);
        rig.write(Register::Data, packet[11]);
        rig.registers.reason() == LIST_RUN
    };
    for length in (0..=300).chain([0x1000, 0x1010, 0x0F10, 0xFF10, 0xFFFF]) {
        assert_eq!(asks(&mode_select(length)), length == 16, "{length}");
    }
    for code in 0..=255 {
        let mut packet = mode_select(16);
        packet[0] = code;
        assert_eq!(asks(&packet), code == 0x55, "{code:02X}");
    }
    // Nothing else of the packet is looked at.
    let packet = with_junk(&mut Rng::new(14), mode_select(16));
    assert!(asks(&packet));
}

/// "else it is empty": 0 is GOOD and leaves the page, another length is 05/1A/00, whatever
/// list kind 13 lends.
#[test]
fn other_lengths_find_no_list() {
    for (length, sense) in [
        (0, NONE),
        (8, LIST_LENGTH),
        (15, LIST_LENGTH),
        (17, LIST_LENGTH),
    ] {
        let page = ModePage::new(0x24, 0x42);
        let mut rig = Rig::new(State {
            mode: page,
            ..READY
        });
        rig.packet(&mode_select(length));
        assert_eq!((rig.state.sense, rig.state.mode), (sense, page));
        assert_eq!(rig.registers.reason(), STATUS);
    }
    let mut stream = Stream::new();
    stream.memory(BOUND as u16, 0);
    stream.state(EMPTY);
    stream.list(&page_list(0x24, 0x42));
    host::packet(&mut stream, &mode_select(0));
    host::select(&mut stream, &page_list(0x25, 0x52));
    let lines = replay::run(&stream.bytes);
    let with = |text: &str| lines.lines().filter(|line| line.contains(text)).count();
    assert_eq!((with("05 1A 00"), with("24 42"), with("25 52")), (0, 0, 1));
}

/// Each byte of the list stands where it was written: 8, 9 and 10 are looked at, 11 taken.
#[test]
fn list_bytes_in_their_places() {
    for place in 0..16 {
        for limit in [0, 6] {
            let mut list = page_list(0x04, 0x00);
            list[place] ^= 0x03;
            let mut rig = Rig::new(READY);
            rig.limit(limit);
            let written = rig.select(&list);
            assert_eq!(both(written.refusal), (0, 0));
            let (_, memory) = on_with(READY, &disc_e().bytes(), &list, &mode_select(16));
            let direct = on_with(READY, &disc_e().bytes(), &list, &mode_select(16)).0;
            assert_eq!(
                (rig.state, rig.registers.status),
                (direct.next, direct.status)
            );
            assert_eq!(rig.memory, memory);
            let wrong = [8, 9].contains(&place);
            assert_eq!(rig.state.sense == LIST_FIELD, wrong, "{place}");
        }
    }
}

/// "55h asking for 16 takes its list also with an attention pending": it is told once the
/// list is in, one for each packet.
#[test]
fn list_with_attentions_pending() {
    let mut rig = Rig::new(pending(READY, true, true));
    for (status, sense) in [(2, POWERED_ON), (2, CHANGED), (0, NONE)] {
        let before = rig.state;
        rig.begins(&mode_select(16));
        rig.taken(Register::Data, 0);
        assert_eq!(rig.registers.reason(), LIST_RUN);
        assert_eq!(rig.state, before);
        let list = page_list(0x11, 0x22);
        for &byte in &list[..15] {
            rig.taken(Register::Data, byte);
        }
        rig.write(Register::Data, list[15]);
        assert_eq!((rig.registers.status, rig.state.sense), (status, sense));
        assert_eq!(rig.registers.reason(), STATUS);
    }
    assert_eq!(rig.state.mode, ModePage::new(0x11, 0x22));
}

/// "or an unfit disc: the target tests at the end"; with a short memory, a state that 2
/// covers and no disc too.
#[test]
fn list_is_tested_at_the_end() {
    let list = page_list(0x30, 0x03);
    let mut unfit = Rig::new(READY);
    unfit.table = alone(6);
    assert_eq!(both(unfit.select(&list).refusal), (4, 6));
    let mut short = Rig::new(READY);
    short.memory.truncate(BOUND - 1);
    assert_eq!(both(short.select(&list).refusal), (3, 0));
    let unsound = State { event: 4, ..READY };
    assert_eq!(both(Rig::new(unsound).select(&list).refusal), (2, 0));
    let mut empty = Rig::new(EMPTY);
    assert_eq!(both(empty.select(&list).refusal), (0, 0));
    assert_eq!(empty.state.mode, ModePage::new(0x30, 0x03));
    for rig in [unfit, short] {
        assert_eq!(rig.registers.reason(), STATUS);
        assert_eq!((rig.registers.status, rig.state), (0, READY));
    }
}

// What the target is asked, and when.

/// "The target performs a packet at the call that completes it": it meets state, table and
/// memory as they are then.
#[test]
fn performed_by_the_completing_byte() {
    let mut rig = Rig::new(EMPTY);
    rig.begins(&capacity());
    rig.state = READY;
    rig.table = two_sessions().bytes();
    rig.memory = vec![0x11; BOUND + 1];
    let (reply, due) = on(READY, &two_sessions().bytes(), &capacity());
    rig.write(Register::Data, 0);
    assert_eq!(rig.state, reply.next);
    assert_eq!(rig.memory[..8], due[..8]);
    assert!(rig.memory[8..].iter().all(|&byte| byte == 0x11));
    assert_eq!(rig.runs().concat(), due[..8]);
}

/// "and its list": nothing is performed before the list's last byte.
#[test]
fn performed_by_the_lists_last_byte() {
    let mut rig = Rig::new(READY);
    rig.begins(&mode_select(16));
    rig.taken(Register::Data, 0);
    for &byte in &page_list(0x20, 0x02)[..15] {
        rig.taken(Register::Data, byte);
    }
    rig.state = pending(READY, false, true);
    rig.write(Register::Data, 0);
    assert_eq!(
        (rig.registers.status, rig.state),
        (
            2,
            State {
                sense: CHANGED,
                ..READY
            }
        )
    );
}

/// "READ's start and count reach the transport from the completing call", and from no other.
#[test]
fn start_and_count_from_the_completing_call() {
    for (packet, start, count) in [
        (read10(149, 1), 149, 1),
        (read12(0, 150), 0, 150),
        (read10(150, 0), 150, 0),
        (read10(149, 2), 0, 0),
        (seek(5), 0, 0),
        (inquiry(36), 0, 0),
    ] {
        let mut rig = Rig::new(READY);
        let written = rig.packet(&packet);
        assert_eq!((written.start, written.count), (start, count));
        rig.runs();
        // The next write names none.
        rig.taken(Register::Command, PACKET);
    }
}

/// "that call counts for demand 3, even if tray calls come between its runs; its response
/// bytes are those in the runs".
#[test]
fn tray_calls_between_runs() {
    let mut rig = Rig::new(READY);
    rig.limit(4);
    rig.packet(&toc(false, 0, 0, 28));
    let answer = rig.memory[..28].to_vec();
    let mut bytes = Vec::new();
    for turn in 0..28 {
        rig.state = match turn {
            4 | 9 => rig.state.button().expect("not locked"),
            6 => rig.state.lift().expect("an open tray"),
            7 => rig.state.lay().expect("an open tray"),
            14 => rig.state.power_on(),
            _ => rig.state,
        };
        let before = rig.state;
        bytes.push(rig.read().expect("an answer run"));
        assert_eq!(rig.state, before);
    }
    assert_eq!(bytes, answer);
    // The power-on came last: it and the loaded disc are told by the next packets.
    for sense in [POWERED_ON, CHANGED, NONE] {
        rig.packet(&test_ready());
        assert_eq!(rig.state.sense, sense);
    }
}

/// "the runs read the memory lent at that call".
#[test]
fn runs_read_the_memory_lent() {
    let mut rig = Rig::new(READY);
    rig.limit(4);
    rig.packet(&inquiry(10));
    let mut bytes = Vec::new();
    for turn in 0..10u8 {
        rig.memory = vec![0xEE; BOUND + usize::from(turn)];
        rig.memory[usize::from(turn)] = turn;
        bytes.push(rig.read().expect("an answer run"));
    }
    assert_eq!(bytes, [0, 1, 2, 3, 4, 5, 6, 7, 8, 9]);
    assert_eq!(rig.registers.reason(), STATUS);
}

/// "Until the transfer ends the response memory is handed on as it was left": no register
/// call writes to it but the one that performs a packet.
#[test]
fn memory_is_handed_on() {
    for mut rig in [
        Rig::new(READY),
        Rig::in_packet(),
        Rig::in_list(),
        Rig::in_answer(),
    ] {
        let memory = rig.memory.clone();
        for register in OTHERS {
            rig.write(register, 0x08);
        }
        let _ = rig.read();
        assert_eq!(rig.memory, memory);
        rig.reset();
        assert_eq!(rig.memory, memory);
    }
}

/// A packet at the registers is that packet: the same states, answers and memories, over
/// drawn packets, states, tables, limits and tray calls between.
#[test]
fn as_the_packets_themselves() {
    let mut rng = Rng::new(1_414);
    for _ in 0..300 {
        let table = any_fit(&mut rng).bytes();
        let marks = Marks::of(read(&table).ok().as_ref());
        let mut rig = Rig::new(second::cases::random::any_state(&mut rng, &marks));
        rig.table = table.clone();
        for _ in 0..12 {
            if rng.one_in(6) {
                rig.state = rig.state.button().unwrap_or(rig.state);
            }
            if rng.one_in(10) {
                rig.reset();
            }
            let packet = any_packet(&mut rng, &marks);
            let mut list = any_list(&mut rng);
            list.resize(16, 0);
            rig.limit(rng.long() as u16 >> rng.below(16));
            let (before, mut memory) = (rig.state, rig.memory.clone());
            let mut written = rig.packet(&packet);
            let takes = rig.registers.reason() == LIST_RUN;
            for &byte in list.iter().filter(|_| takes) {
                written = rig.write(Register::Data, byte);
            }
            let lent = if takes { &list[..] } else { &[] };
            let reply = second::packet::perform(before, &table, lent, &packet, &mut memory);
            assert_eq!(written.refusal, reply.refusal);
            assert_eq!((rig.state, &rig.memory), (reply.next, &memory));
            assert_eq!((written.start, written.count), (reply.start, reply.count));
            assert_eq!(rig.registers.status, reply.status);
            assert_eq!(rig.runs().concat(), memory[..reply.length]);
        }
    }
}

// The target's refusals.

/// "A refusal by the target is handed on": 2, 3, and 4 with its rule (K6).
#[test]
fn target_refusals_handed_on() {
    let unsound = State {
        play: Play::new(PLAYING, 9, 8),
        ..READY
    };
    assert_eq!(both(Rig::new(unsound).packet(&inquiry(36)).refusal), (2, 0));
    let mut short = Rig::new(READY);
    short.memory.truncate(BOUND - 1);
    assert_eq!(both(short.packet(&inquiry(36)).refusal), (3, 0));
    for rule in 1..=7 {
        let mut rig = Rig::new(READY);
        rig.table = alone(rule);
        assert_eq!(both(rig.packet(&test_ready()).refusal), (4, rule));
        rig.state = EMPTY;
        assert_eq!(both(rig.packet(&test_ready()).refusal), (0, 0));
    }
}

/// "and ends the transfer": CoD 1, IO 1, idle, status 0 also where it was 02h, the byte
/// count as it was, state and memory too.
#[test]
fn target_refusal_ends_the_transfer() {
    let mut rig = Rig::new(READY);
    rig.packet(&plain(0xFF));
    rig.limit(0x0304);
    rig.begins(&inquiry(36));
    rig.table = alone(2);
    let (state, memory) = (rig.state, rig.memory.clone());
    let written = rig.write(Register::Data, 0);
    assert_eq!(both(written.refusal), (4, 2));
    assert_eq!((written.start, written.count), (0, 0));
    assert_eq!(rig.registers.text(), "I 03 0304 00 00 00 0");
    assert_eq!((rig.state, &rig.memory), (state, &memory));
    assert_eq!(rig.unread(), 15);
    rig.table = disc_e().bytes();
    assert_eq!(sizes(&rig.good(0, &inquiry(36))), [36]);
}

// 15.

/// "15 exactly for a data read outside answer runs".
#[test]
fn fifteen_for_a_data_read() {
    for mut rig in [Rig::new(READY), Rig::in_packet(), Rig::in_list()] {
        assert_eq!(rig.unread(), 15);
    }
    assert_eq!(Rig::in_answer().read(), Ok(0x80));
    let mut rig = Rig::in_answer();
    assert_eq!(rig.rest(), inquiry_answer()[1..]);
    assert_eq!(rig.unread(), 15);
}

/// "a data write outside packet and list runs".
#[test]
fn fifteen_for_a_data_write() {
    for value in [0x00, 0xA0, 0xFF] {
        assert_eq!(Rig::new(READY).refused(Register::Data, value), 15);
        assert_eq!(Rig::in_answer().refused(Register::Data, value), 15);
    }
    Rig::in_packet().taken(Register::Data, 0xA0);
    Rig::in_list().taken(Register::Data, 0xA0);
}

/// "a command other than A0h": 004's soft reset, identify and service, and all others.
#[test]
fn fifteen_for_another_command() {
    for value in 0..=255 {
        let mut rig = Rig::new(READY);
        if value == 0xA0 {
            rig.taken(Register::Command, value);
        } else {
            assert_eq!(rig.refused(Register::Command, value), 15, "{value:02X}");
        }
    }
}

/// "or any other write before status has ended a transfer": every register but data, A0h
/// too, in packet, list and answer.
#[test]
fn fifteen_for_any_other_write() {
    for register in OTHERS {
        for value in [0x00, 0x02, 0x08, 0xA0, 0xFF] {
            for mut rig in [Rig::in_packet(), Rig::in_list(), Rig::in_answer()] {
                assert_eq!(rig.refused(register, value), 15, "{register:?} {value}");
            }
        }
    }
}

/// "the record stays as it was": what was refused leaves the transfer to go on as if it had
/// not been.
#[test]
fn fifteen_leaves_the_record() {
    let (mut plain, mut rig) = (Rig::new(READY), Rig::new(READY));
    plain.good(6, &inquiry(15));
    rig.limit(6);
    rig.taken(Register::Command, PACKET);
    for byte in inquiry(15) {
        assert_eq!(rig.unread(), 15);
        assert_eq!(rig.refused(Register::CountLow, 9), 15);
        rig.write(Register::Data, byte);
    }
    let mut bytes = Vec::new();
    while rig.registers.reason() == ANSWER_RUN {
        assert_eq!(rig.refused(Register::Data, 9), 15);
        assert_eq!(rig.refused(Register::Command, 0xA0), 15);
        bytes.push(rig.read().expect("an answer run"));
    }
    assert_eq!(bytes, inquiry_answer()[..15]);
    assert_eq!(rig, plain);
}

/// "A record that no call could have made is in no run: a data read or write there is 15."
#[test]
fn fifteen_in_a_record_that_none_made() {
    let list = |packet: Packet, came: usize| {
        let Transfer::List { runs, .. } = Rig::in_list().registers.transfer else {
            panic!("a list run");
        };
        Transfer::List {
            packet: packet.to_vec(),
            list: vec![0; came],
            runs,
        }
    };
    assert_eq!(Rig::in_list().registers.transfer, list(mode_select(16), 1));
    for transfer in [
        Transfer::Packet(vec![0x12; 12]),
        Transfer::Packet(vec![0x12; 13]),
        list(mode_select(16), 2),
        list(mode_select(16), 0),
        list(mode_select(8), 1),
        list(inquiry(16), 1),
    ] {
        let mut rig = Rig::new(READY);
        rig.registers.transfer = transfer;
        assert_eq!(rig.unread(), 15);
        assert_eq!(rig.refused(Register::Data, 0), 15);
        rig.reset();
        assert_eq!(rig.registers, Registers::START);
    }
}

/// "A data read in an answer run with response memory under 6,538 bytes is refused by 3,
/// the record as it was."
#[test]
fn three_at_a_data_read() {
    for length in [0, 1, 2, 36, BOUND - 1] {
        let mut rig = Rig::in_answer();
        let whole = rig.memory.clone();
        rig.memory.truncate(length);
        assert_eq!(rig.unread(), 3);
        rig.memory = whole;
        assert_eq!(rig.read(), Ok(0x80));
        rig.memory.push(0);
        assert_eq!(rig.read(), Ok(0x00));
    }
}

/// "15 is tested before 3."
#[test]
fn fifteen_before_three() {
    for mut rig in [Rig::new(READY), Rig::in_packet(), Rig::in_list()] {
        rig.memory.clear();
        assert_eq!(rig.unread(), 15);
    }
    let mut rig = Rig::in_answer();
    rig.memory.clear();
    assert_eq!(rig.refused(Register::Data, 0), 15);
    assert_eq!(rig.refused(Register::CountLow, 0), 15);
}

// Reset.

/// "Reset puts 14h and EBh in the byte count and ends any transfer", wherever it is.
#[test]
fn reset_ends_any_transfer() {
    for mut rig in [
        Rig::new(READY),
        Rig::in_packet(),
        Rig::in_list(),
        Rig::in_answer(),
    ] {
        rig.reset();
        assert_eq!(rig.registers.text(), "I 03 EB14 00 00 00 0");
        assert_eq!(rig.registers, Registers::START);
        assert_eq!(rig.unread(), 15);
        // Nothing of a packet or list that was cut off is left.
        rig.state = READY;
        assert_eq!(sizes(&rig.good(0, &inquiry(36))), [36]);
        assert_eq!(both(rig.select(&page_list(0x01, 0)).refusal), (0, 0));
        assert_eq!(rig.state.mode, ModePage::new(0x01, 0));
    }
}

/// As a limit the signature is 60,180.
#[test]
fn limit_behind_a_reset() {
    assert_eq!(SIGNATURE, 60_180);
    let mut rig = Rig::new(READY);
    rig.packet(&inquiry(36));
    assert_eq!(sizes(&rig.runs()), [36]);
}

/// "features and drive stay, the reason shows CoD 1, IO 1"; 004 puts 00h and 01h there.
#[test]
fn reset_leaves_features_and_drive() {
    let mut rig = Rig::new(READY);
    rig.taken(Register::Features, 0x5A);
    rig.taken(Register::Drive, 0xB0);
    rig.packet(&plain(0xFF));
    rig.taken(Register::Command, PACKET);
    rig.reset();
    assert_eq!(rig.registers.text(), "I 03 EB14 5A B0 00 0");
}

/// "Reset .. is also a power-on of the target, in the default form": of every state, refused
/// by nothing.
#[test]
fn reset_is_a_power_on() {
    let mut rng = Rng::new(29);
    let marks = Marks::of(None);
    for _ in 0..2_000 {
        let state = second::cases::random::any_state(&mut rng, &marks);
        let mut rig = Rig::new(state);
        rig.table.clear();
        rig.memory.clear();
        rig.reset();
        assert_eq!(rig.state, state.power_on());
    }
    let mut rig = Rig::new(READY);
    rig.reset();
    assert!(rig.state.power && rig.state.change);
    for sense in [POWERED_ON, CHANGED, NONE] {
        rig.packet(&test_ready());
        assert_eq!(rig.state.sense, sense);
    }
}

/// A reset between packets forgets what was told: attentions by the history of power-ons,
/// resets, loadings and packets, at the registers and by themselves.
#[test]
fn attentions_from_the_history() {
    let mut rng = Rng::new(306);
    let mut told = [0; 2];
    for _ in 0..400 {
        let mut rig = Rig::new(READY);
        rig.reset();
        let (mut power, mut change) = (true, true);
        for _ in 0..20 {
            match rng.below(5) {
                0 => {
                    rig.reset();
                    (power, change) = (true, rig.state.loaded());
                }
                1 => {
                    let closes = rig.state.tray_open;
                    rig.state = rig.state.button().expect("not locked");
                    change |= closes && rig.state.disc_in;
                }
                _ => {
                    rig.limit(rng.below(9) as u16);
                    rig.packet(&rng.pick(&[test_ready(), inquiry(5), seek(3)]));
                    match (rig.registers.status, rig.state.sense) {
                        (2, POWERED_ON) => (power, told[0]) = (false, told[0] + 1),
                        (2, CHANGED) => (change, told[1]) = (false, told[1] + 1),
                        _ => {}
                    }
                    for _ in 0..rng.below(7) {
                        let _ = rig.read();
                    }
                    if rig.registers.reason() == ANSWER_RUN && rng.one_in(3) {
                        rig.state = rig.state.button().expect("not locked");
                        change |= !rig.state.tray_open;
                    }
                    rig.rest();
                }
            }
            assert_eq!((rig.state.power, rig.state.change), (power, change));
        }
    }
    assert!(told.iter().all(|&count| count > 200), "{told:?}");
}

// The whole once more, by a plainer reading.

/// The record as plain fields, each changed as 02 and the drafts' flow say it, step by step.
#[derive(Clone, Debug)]
struct Plain {
    part: char,
    count: usize,
    features: u8,
    drive: u8,
    status: u8,
    left: usize,
    limit: usize,
    remains: usize,
    entered: Vec<u8>,
    place: usize,
}

impl Plain {
    fn new() -> Plain {
        Plain {
            part: 'I',
            count: 0xEB14,
            features: 0,
            drive: 0,
            status: 0,
            left: 0,
            limit: 0,
            remains: 0,
            entered: Vec::new(),
            place: 0,
        }
    }

    fn text(&self) -> String {
        let reason = match self.part {
            'P' => 1,
            'L' => 0,
            'A' => 2,
            _ => 3,
        };
        let Plain {
            part,
            count,
            features,
            drive,
            status,
            left,
            ..
        } = self;
        format!("{part} {reason:02X} {count:04X} {features:02X} {drive:02X} {status:02X} {left}")
    }

    /// The next run of what remains, or status.
    fn run(&mut self) {
        if self.remains == 0 {
            (self.part, self.left) = ('I', 0);
            return;
        }
        self.left = self.remains.min(self.limit);
        self.remains -= self.left;
        self.count = self.left;
    }

    /// One byte of the run has gone: true where the run was the last.
    fn went(&mut self) -> bool {
        self.left -= 1;
        if self.left > 0 {
            return false;
        }
        if self.remains == 0 {
            return true;
        }
        self.run();
        false
    }

    /// N of the line.
    fn write(&mut self, register: u8, value: u8, rig: &mut Rig) -> (u8, u8) {
        match (register, self.part) {
            (0, 'P') => {
                self.entered.push(value);
                self.left -= 1;
                if self.left > 0 {
                    return (0, 0);
                }
                self.limit = match self.count {
                    0 | 0xFFFF => 65_534,
                    1 => 2,
                    odd if odd % 2 == 1 => odd - 1,
                    even => even,
                };
                if self.entered[0] == 0x55 && self.entered[7..9] == [0, 16] {
                    (self.part, self.remains) = ('L', 16);
                    self.run();
                    return (0, 0);
                }
                self.perform(rig)
            }
            (0, 'L') => {
                self.entered.push(value);
                if self.went() {
                    return self.perform(rig);
                }
                (0, 0)
            }
            (1, 'I') => {
                self.features = value;
                (0, 0)
            }
            (4, 'I') => {
                (
                    self.count = self.count & 0xFF00 | usize::from(value),
                    (0, 0),
                )
                    .1
            }
            (5, 'I') => {
                (
                    self.count = self.count & 0xFF | usize::from(value) << 8,
                    (0, 0),
                )
                    .1
            }
            (6, 'I') => {
                self.drive = value;
                (0, 0)
            }
            (7, 'I') if value == 0xA0 => {
                (self.part, self.left) = ('P', 12);
                self.entered.clear();
                (0, 0)
            }
            _ => (15, 0),
        }
    }

    fn perform(&mut self, rig: &mut Rig) -> (u8, u8) {
        let (packet, list) = self.entered.split_at(12);
        let memory = &mut rig.memory;
        let reply = second::packet::perform(rig.state, &rig.table, list, packet, memory);
        rig.state = reply.next;
        self.status = reply.status;
        (self.part, self.remains, self.place) = ('A', reply.length, 0);
        self.run();
        both(reply.refusal)
    }

    fn read(&mut self, memory: &[u8]) -> Result<u8, u8> {
        if self.part != 'A' {
            return Err(15);
        }
        if memory.len() < 6_538 {
            return Err(3);
        }
        let byte = memory[self.place];
        self.place += 1;
        if self.went() {
            self.part = 'I';
        }
        Ok(byte)
    }

    fn reset(&mut self) {
        let (features, drive) = (self.features, self.drive);
        *self = Plain {
            features,
            drive,
            ..Plain::new()
        };
    }
}

/// Drawn calls, most of them in turn, on both readings: numbers, bytes, records, states and
/// memories are the same.
#[test]
fn by_a_plainer_reading() {
    let mut rng = Rng::new(2_806);
    let mut met = [0; 4];
    for _ in 0..60 {
        let table = small_fit(&mut rng).bytes();
        let marks = Marks::of(read(&table).ok().as_ref());
        let mut rig = Rig::new(second::cases::random::any_state(&mut rng, &marks));
        rig.table = table;
        let (mut plain, mut other) = (Plain::new(), rig.clone());
        for _ in 0..400 {
            let letter = rig.registers.letter();
            met["IPLA".find(letter).expect("one of four")] += 1;
            let in_turn = match letter {
                'I' => (7, 0xA0),
                'A' => (23, 0),
                _ => (0, rng.pick(&[0, 0, 1, 5, 6, 16, 36])),
            };
            let first = letter == 'P' && rig.registers.left() == 12;
            let code = rng.pick(&[0x12, 0x03, 0x43, 0x55, 0x5A, 0x25, 0x00, 0x4A]);
            let any = (rng.pick(&[0, 1, 4, 4, 5, 5, 6, 7, 23, 21]), rng.byte());
            let (call, value) = match rng.below(12) {
                0 => any,
                1 if letter == 'I' => (rng.pick(&[4, 5]), rng.pick(&[0, 0, 1, 7, 10, 255])),
                _ if first => (0, code),
                // 55h for 16, now and then.
                _ if letter == 'P' && rig.registers.left() == 4 => (0, 16),
                _ if letter == 'P' && rig.registers.left() == 5 => (0, 0),
                _ => in_turn,
            };
            if rng.one_in(300) {
                rig.memory.resize(rng.pick(&[0, BOUND - 1, BOUND]), 0x77);
                other.memory = rig.memory.clone();
            }
            match call {
                21 if rng.one_in(4) => {
                    rig.reset();
                    other.state = other.state.power_on();
                    plain.reset();
                }
                21 => {}
                23 => {
                    let due = plain.read(&other.memory);
                    assert_eq!(rig.read().map_err(|refusal| refusal.number()), due);
                }
                register => {
                    let due = plain.write(register, value, &mut other);
                    let register = Register::at(register).expect("one of six");
                    assert_eq!(both(rig.write(register, value).refusal), due);
                }
            }
            assert_eq!(rig.registers.text(), plain.text());
            assert_eq!((rig.state, &rig.memory), (other.state, &other.memory));
        }
    }
    assert!(met.iter().all(|&count| count > 1_000), "{met:?}");
}

// The lines.

/// The lines of kinds 21 to 23, from a stream's start on.
#[test]
fn line_forms() {
    let mut stream = vec![21, 0, 0, 23, 0, 0];
    for (register, value) in [(1, 0xC3), (6, 0xB0), (4, 2), (5, 0), (7, 0xA0), (0, 0x12)] {
        stream.extend([22, 0, 2, register, value]);
    }
    stream.extend([22, 0, 2, 7, 0xA0]);
    let state = "00010 00 00 00 15 0 0 00 00 0";
    let lines = [
        format!("R 0 I 03 EB14 00 00 00 0 {state}"),
        "r 15 00 I 03 EB14 00 00 00 0 00000001".to_string(),
        format!("w 0 0 0 I 03 EB14 C3 00 00 0 {state} 00000001"),
        format!("w 0 0 0 I 03 EB14 C3 B0 00 0 {state} 00000001"),
        format!("w 0 0 0 I 03 EB02 C3 B0 00 0 {state} 00000001"),
        format!("w 0 0 0 I 03 0002 C3 B0 00 0 {state} 00000001"),
        format!("w 0 0 0 P 01 0002 C3 B0 00 12 {state} 00000001"),
        format!("w 0 0 0 P 01 0002 C3 B0 00 11 {state} 00000001"),
        format!("w 15 0 0 P 01 0002 C3 B0 00 11 {state} 00000001"),
    ];
    assert_eq!(replay::run(&stream), lines.join("\n") + "\n");
}

/// "At the start `I 03 EB14 00 00 00 0`", before any reset.
#[test]
fn record_at_the_start() {
    assert_eq!(Registers::START.text(), "I 03 EB14 00 00 00 0");
    assert_eq!(
        replay::run(&[23, 0, 0]),
        "r 15 00 I 03 EB14 00 00 00 0 00000001\n"
    );
}

/// "kind 21 and 23 have an empty body, kind 22 two bytes": every other length is bad.
#[test]
fn register_kinds() {
    for (kind, length) in [(21, 0), (22, 2), (23, 0)] {
        for other in (0..=255usize).filter(|&other| other != length) {
            let mut record = vec![kind, 0, other as u8];
            record.resize(3 + other, 0);
            assert_eq!(replay::run(&record), "bad record\n", "{kind} {other}");
        }
    }
    assert_eq!(replay::run(&[22, 0, 2, 0, 0]).matches(' ').count(), 21);
    assert_eq!(replay::run(&[21, 0, 0]).matches(' ').count(), 18);
    assert_eq!(replay::run(&[23, 0, 0]).matches(' ').count(), 10);
}

/// `4.R` in a write's line, with START and COUNT 0; a READ's start and count in the line of
/// the write that completes it.
#[test]
fn lines_of_completing_writes() {
    let mut stream = Stream::new();
    stream.memory(BOUND as u16, 0);
    stream.state(READY);
    stream.table(&alone(7));
    host::packet(&mut stream, &read10(149, 1));
    stream.table(&disc_e().bytes());
    host::packet(&mut stream, &read10(149, 1));
    let lines = replay::run(&stream.bytes);
    let lines: Vec<&str> = lines.lines().collect();
    let state = "01000 00 00 00 15 0 0 00 00 0 198A0001";
    let record = "I 03 EB14 00 00 00 0";
    assert_eq!(lines[12], format!("w 4.7 0 0 {record} {state}"));
    assert_eq!(lines[25], format!("w 0 149 1 {record} {state}"));
    let others = lines
        .iter()
        .filter(|line| line.starts_with("w 0 0 0 P 01 "));
    assert_eq!((others.count(), lines.len()), (24, 26));
}

/// No other record touches the register record: with all kinds of them put between the calls
/// of a transfer, the records that its lines show are the same.
#[test]
fn no_other_record_touches_it() {
    let mut others = Stream::new();
    others.power_on();
    others.power_on_without_change();
    others.button();
    others.lay();
    others.lift();
    others.button();
    others.packet(&inquiry(36));
    others.move_on(1);
    others.to_msf(5);
    others.to_address(1, 2, 3);
    others.part(1);
    others.cue_sheet(&[0; 8]);
    others.changer_power_on();
    others.changer_packet(&test_ready());
    others.changer_move_on(1);
    others.record(replay::SHELF, &[0; 104]);
    others.list(&[0xFF; 16]);
    others.table(&[1]);
    others.state(EMPTY);
    let record_of = |lines: &str| -> Vec<String> {
        let words = lines.lines().filter(|line| "wrR".contains(&line[..1]));
        let place = |line: &str| match &line[..1] {
            "w" => 4,
            "R" => 2,
            _ => 3,
        };
        let record = |line: &str| -> Vec<String> {
            let words = line.split(' ').skip(place(line)).take(7);
            words.map(str::to_string).collect()
        };
        words.map(|line| record(line).join(" ")).collect()
    };
    let (mut with, mut without) = (Stream::new(), Stream::new());
    for stream in [&mut with, &mut without] {
        stream.memory(BOUND as u16, 0);
        stream.state(EMPTY);
    }
    let mut calls = Stream::new();
    host::limit(&mut calls, 6);
    host::packet(&mut calls, &inquiry(9));
    host::read(&mut calls, 9);
    host::select(&mut calls, &page_list(0x05, 0x50));
    let mut rest = &calls.bytes[..];
    while let Ok((kind, body, after)) = take_record(rest) {
        rest = after;
        with.record(kind, body);
        with.join(&others);
        without.record(kind, body);
    }
    let (with, without) = (replay::run(&with.bytes), replay::run(&without.bytes));
    assert_eq!(record_of(&with), record_of(&without));
    assert_eq!(record_of(&without).len(), 2 + 13 + 9 + 29);
}

/// The board's example: INQUIRY, the track list behind both attentions, the capacity; each
/// answer in as many runs as the quotient says, and P1's and P2's bytes.
#[test]
fn board_example() {
    let text = board::example();
    let lines: Vec<&str> = text.lines().collect();
    assert_eq!(lines.len(), 8);
    assert_eq!(lines[0], "code st runs data");
    assert_eq!(
        lines[1],
        format!("12 00 3 {}", replay::hex(&inquiry_answer()))
    );
    assert_eq!(lines[2], "43 02 0 -");
    assert_eq!(lines[3], "03 00 2 700006000000000A00000000290000000000");
    assert_eq!(lines[4], "43 02 0 -");
    assert_eq!(lines[5], "03 00 2 700006000000000A00000000280000000000");
    let list = "001A0102001401000000000000100200000000960010AA000000012C";
    assert_eq!(lines[6], format!("43 00 2 {list}"));
    assert_eq!(lines[7], "25 00 1 0000012B00000800");
    let kept = examples::files();
    assert!(kept.contains(&("board.expected".to_string(), text.clone().into())));
    // The same packets, as records.
    let mut stream = Stream::new();
    picked_registers::board_example(&mut stream);
    let printed = replay::run(&stream.bytes);
    let bytes = printed.lines().filter_map(|line| line.strip_prefix("r 0 "));
    let bytes: String = bytes.map(|line| &line[..2]).collect();
    let due: String = lines[1..]
        .iter()
        .filter_map(|line| line.split(' ').nth(3))
        .collect();
    assert_eq!(bytes, due.replace('-', ""));
}

/// A host that sends what it likes gets the bytes that a packet by itself gives.
#[test]
fn board_sends_any_packet() {
    for packet in [inquiry(7), mode_sense(1, 1, 16), toc(true, 2, 0, 59)] {
        let mut board = Board::with_disc_e();
        let sent = board.send(5, &packet);
        let (reply, memory) = on_e(READY, &packet);
        assert_eq!(sent.bytes, memory[..reply.length]);
        assert_eq!((sent.status, sent.runs), (0, reply.length.div_ceil(4)));
    }
}

// The streams.

/// One of each thing that is counted.
#[test]
fn tally_counts_the_registers() {
    let mut stream = Stream::new();
    stream.memory(BOUND as u16, 0);
    stream.state(EMPTY);
    stream.read();
    stream.write(Register::Data, 0);
    stream.write(Register::Command, 0xEC);
    stream.reset();
    stream.state(EMPTY);
    stream.write(Register::Features, 1);
    host::limit(&mut stream, 5);
    host::begin(&mut stream);
    stream.read();
    stream.write(Register::Drive, 1);
    stream.reset();
    stream.state(EMPTY);
    host::limit(&mut stream, 1);
    host::packet(&mut stream, &inquiry(3));
    stream.write(Register::Data, 0);
    stream.write(Register::CountLow, 0);
    stream.memory(0, 0);
    stream.read();
    stream.memory(BOUND as u16, 0);
    host::read(&mut stream, 3);
    host::limit(&mut stream, 0xFFFF);
    host::packet(&mut stream, &mode_select(16));
    stream.read();
    stream.write(Register::Command, 0xA0);
    host::enter(&mut stream, &page_list(0x01, 0));
    host::packet(&mut stream, &mode_select(16));
    stream.reset();
    host::select(&mut stream, &page_list(0x01, 0));
    host::select(&mut stream, &page_list(0x02, 0));
    stream.memory(1, 0);
    host::select(&mut stream, &page_list(0x01, 0));
    stream.memory(BOUND as u16, 0);
    host::limit(&mut stream, 0);
    host::packet(&mut stream, &inquiry(4));
    stream.reset();
    let due = Transfers {
        resets: [1, 1, 1, 1],
        held: 1 + 2 + 2 + 2 + 2,
        begun: 8,
        entered: [11 + 12 * 5 + 11, 15 * 4],
        performed: [1, 2, 2],
        refused: [0, 1, 0],
        bytes: 3,
        unread: 1,
        fifteen: [1; 9],
        lists: [5, 1, 1, 1, 1],
        transfers: [1, 1, 0, 4, 0, 1],
        runs: [1, 2, 0, 4, 0, 1],
    };
    assert_eq!(tally::transfers(&stream.bytes), due);
    let tail = "\
reset idle packet list answer
reset 1 1 1 1
write held A0h packet list GOOD answer CHECK 2 3 4
write 9 8 82 60 1 2 2 0 1 0
read byte 3
read 3 1
fifteen read-idle read-packet read-list data-idle data-answer command other-packet other-list other-answer
fifteen 1 1 1 1 1 1 1 1 1
list asked set wrong told refused
list 5 1 1 1 1
limit zero one odd even FFFEh FFFFh
limit 1 1 0 4 0 1
runs zero one odd even FFFEh FFFFh
runs 1 2 0 4 0 1
";
    assert!(tally::print(&stream.bytes).ends_with(tail));
}

/// The stored stream has each of them, and so have a few drawn ones; of the drawn, enough
/// for more than 100,000 calls over a hundred of 16,000 calls.
#[test]
fn streams_have_every_outcome() {
    let mut drawn = Transfers::default();
    let mut calls = 0;
    for seed in 1..=12 {
        let stream = random_stream(seed, 4_000).bytes;
        let lines = replay::run(&stream);
        calls += lines
            .lines()
            .filter(|line| "wrR".contains(&line[..1]))
            .count();
        drawn = sum(&drawn, &tally::transfers(&stream));
    }
    assert!(calls > 3_600, "{calls}");
    let stored = tally::transfers(&stored::stored_stream().bytes);
    for found in [stored, drawn] {
        let Transfers {
            resets,
            held,
            begun,
            entered,
            performed,
            refused,
            ..
        } = found;
        let Transfers {
            bytes,
            unread,
            fifteen,
            lists,
            transfers,
            runs,
            ..
        } = found;
        for counts in [
            &resets[..],
            &entered,
            &performed,
            &refused,
            &fifteen,
            &lists,
        ] {
            assert!(counts.iter().all(|&count| count > 0), "{found:?}");
        }
        for counts in [&transfers[..], &runs, &[held, begun, bytes, unread]] {
            assert!(counts.iter().all(|&count| count > 0), "{found:?}");
        }
    }
}

fn sum(one: &Transfers, other: &Transfers) -> Transfers {
    fn add<const N: usize>(one: [usize; N], other: [usize; N]) -> [usize; N] {
        std::array::from_fn(|place| one[place] + other[place])
    }
    Transfers {
        resets: add(one.resets, other.resets),
        held: one.held + other.held,
        begun: one.begun + other.begun,
        entered: add(one.entered, other.entered),
        performed: add(one.performed, other.performed),
        refused: add(one.refused, other.refused),
        bytes: one.bytes + other.bytes,
        unread: one.unread + other.unread,
        fifteen: add(one.fifteen, other.fifteen),
        lists: add(one.lists, other.lists),
        transfers: add(one.transfers, other.transfers),
        runs: add(one.runs, other.runs),
    }
}

/// The makers have every limit of a few bytes and at the top, every length of 0 to 40, the
/// longest answer, and 15 in every part.
#[test]
fn makers_have_every_boundary() {
    let mut stream = Stream::new();
    picked_registers::every_limit(&mut stream);
    picked_registers::answer_lengths(&mut stream);
    picked_registers::longest_answers(&mut stream);
    let lines = replay::run(&stream.bytes);
    let asked = |text: &str| lines.lines().any(|line| line.contains(text));
    for limit in (0..=9).chain([0xFFFD, 0xFFFE, 0xFFFF]) {
        assert!(asked(&format!(" P 01 {limit:04X} ")), "{limit}");
    }
    assert!(asked(" A 02 0800 ") && asked(" A 02 1989 ") && asked(" A 02 00FE "));
    let found = tally::transfers(&stream.bytes);
    assert!(found.bytes > 3 * 6_537);
    let mut stream = Stream::new();
    picked_registers_lists::list_out_of_turn(&mut stream);
    picked_registers_refused::reads_out_of_turn(&mut stream);
    picked_registers_refused::writes_out_of_turn(&mut stream);
    picked_registers_refused::other_commands(&mut stream);
    let fifteen = tally::transfers(&stream.bytes).fifteen;
    assert!(fifteen.iter().all(|&count| count > 0), "{fifteen:?}");
}
