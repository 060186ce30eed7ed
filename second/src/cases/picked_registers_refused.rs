//! K14's refusals and resets, picked by hand: 15 in every part of a transfer, what the
//! target refuses, 3 at a data read, and where a reset comes.

use crate::cases::host::{ask, ask_again, begin, enter, limit, packet, read, read_all, read_run};
use crate::cases::packets::{
    capacity, inquiry, mode_select, page_list, request_sense, test_ready, toc,
};
use crate::cases::picked_registers::{bench, GREETING};
use crate::cases::picked_state::MEMORY;
use crate::cases::several::alone;
use crate::cases::sheet::disc_e;
use crate::cases::stream::Stream;
use crate::drive::State;
use crate::play::Play;
use crate::registers::Register;
use crate::sense::Sense;

/// Every register but data, each with a value that would mean something while idle.
const OTHERS: [(Register, u8); 6] = [
    (Register::Features, 0x03),
    (Register::CountLow, 0x02),
    (Register::CountHigh, 0x01),
    (Register::Drive, 0x10),
    (Register::Command, 0xA0),
    (Register::Command, 0x08),
];

fn others(stream: &mut Stream) {
    for (register, value) in OTHERS {
        stream.write(register, value);
    }
}

/// At the very start: the record as a reset leaves it, a state that 2 covers, no memory.
/// All that is left of it is a limit.
pub fn at_the_start(stream: &mut Stream) {
    stream.read();
    stream.write(Register::Data, 0x12);
    packet(stream, &inquiry(36));
    stream.read();
    stream.write(Register::CountHigh, 0x00);
}

/// A data read while idle, while the packet enters, and behind the last byte.
pub fn reads_out_of_turn(stream: &mut Stream) {
    bench(stream, State::READY);
    stream.read();
    begin(stream);
    for byte in inquiry(2) {
        stream.read();
        enter(stream, &[byte]);
    }
    read(stream, 4);
}

/// A data write while idle and in an answer run, at its first byte, within it, at its last,
/// and at the first of the next; every other register there and while the packet enters.
pub fn writes_out_of_turn(stream: &mut Stream) {
    bench(stream, State::READY);
    stream.write(Register::Data, 0x12);
    limit(stream, 4);
    begin(stream);
    others(stream);
    enter(stream, &inquiry(6)[..11]);
    others(stream);
    enter(stream, &inquiry(6)[11..]);
    for _ in 0..6 {
        stream.write(Register::Data, 0xA0);
        stream.read();
    }
    stream.write(Register::Data, 0x00);
    packet(stream, &inquiry(5));
    others(stream);
    read(stream, 3);
    others(stream);
    read_all(stream);
    others(stream);
}

/// "a command other than A0h": 004's own, and each that is a bit away.
pub fn other_commands(stream: &mut Stream) {
    bench(stream, State::READY);
    for value in [
        0xEC, 0x08, 0xA1, 0xA2, 0x00, 0x20, 0x21, 0x90, 0xE0, 0xFF, 0xA4, 0xA8, 0xB0, 0x80,
    ] {
        stream.write(Register::Command, value);
    }
    packet(stream, &test_ready());
}

/// Every command there could be.
pub fn every_command(stream: &mut Stream) {
    bench(stream, State::READY);
    for value in (0..=255).filter(|&value| value != 0xA0) {
        stream.write(Register::Command, value);
    }
    ask_again(stream, &inquiry(3));
}

/// "A refusal by the target is handed on and ends the transfer": 2, 3 and 4 with its rule,
/// status 0 also behind a CHECK CONDITION, and the next packet goes.
pub fn target_refusals(stream: &mut Stream) {
    bench(stream, GREETING);
    packet(stream, &test_ready());
    stream.table(&alone(5));
    packet(stream, &inquiry(36));
    stream.read();
    stream.memory(MEMORY - 1, 0x7E);
    packet(stream, &inquiry(36));
    stream.state(State {
        play: Play::new(0x11, 9, 8),
        ..State::READY
    });
    packet(stream, &request_sense(18));
    stream.memory(MEMORY, 0x7E);
    stream.state(State::EMPTY);
    ask(stream, 0, &inquiry(3));
}

/// The rule of each kind of unfit table, at the registers.
pub fn every_rule(stream: &mut Stream) {
    bench(stream, State::READY);
    for rule in 1..=7 {
        stream.table(&alone(rule));
        packet(stream, &capacity());
        packet(stream, &mode_select(16));
        enter(stream, &page_list(0, 0));
    }
    stream.state(State::EMPTY);
    packet(stream, &capacity());
}

/// "response memory under 6,538 bytes is refused by 3, the record as it was. 15 is tested
/// before 3": in a run and out of it; with the memory back the run goes on.
pub fn memory_made_shorter(stream: &mut Stream) {
    bench(stream, State::READY);
    limit(stream, 4);
    packet(stream, &inquiry(6));
    read(stream, 1);
    for length in [0, 1, 6, MEMORY - 1] {
        stream.memory(length, 0x44);
        stream.read();
    }
    stream.write(Register::CountLow, 2);
    stream.write(Register::Data, 2);
    stream.memory(MEMORY, 0x55);
    read_run(stream);
    stream.memory(0, 0x00);
    read(stream, 2);
    stream.memory(8_191, 0x66);
    read_all(stream);
    stream.memory(MEMORY - 1, 0x00);
    stream.read();
    begin(stream);
    stream.read();
    stream.reset();
}

/// A reset in each part of a transfer: status 00h, both attentions, the byte count, and
/// features and drive as they were.
pub fn resets(stream: &mut Stream) {
    bench(stream, State::READY);
    stream.write(Register::Features, 0x02);
    stream.write(Register::Drive, 0xA0);
    // Status 02h, a lock and a byte count of its own.
    limit(stream, 3);
    packet(stream, &capacity_fault());
    stream.reset();
    begin(stream);
    stream.reset();
    begin(stream);
    enter(stream, &inquiry(4)[..11]);
    stream.reset();
    stream.reset();
    limit(stream, 2);
    packet(stream, &inquiry(4));
    stream.reset();
    limit(stream, 2);
    packet(stream, &inquiry(4));
    read(stream, 3);
    stream.reset();
    stream.read();
    packet(stream, &test_ready());
    packet(stream, &test_ready());
    packet(stream, &test_ready());
}

/// A packet that fails while something is held: an unknown code.
fn capacity_fault() -> [u8; 12] {
    let mut packet = capacity();
    packet[0] = 0x26;
    packet
}

/// Reset is a power-on of the target, never refused: of any tray and disc, any lock, sense,
/// record, page and event, with no memory lent.
pub fn resets_of_states(stream: &mut Stream) {
    bench(stream, State::READY);
    stream.memory(0, 0x00);
    for (tray_open, disc_in) in [(false, true), (false, false), (true, true), (true, false)] {
        stream.state(State {
            tray_open,
            disc_in,
            lock: true,
            sense: Sense::new(0xFF, 0xFF, 0xFF),
            play: Play::new(0x11, 7, 9),
            event: 3,
            ..State::READY
        });
        stream.reset();
    }
    stream.memory(MEMORY, 0x00);
}

/// A packet cut off by a reset is gone, wherever it was cut: the next begins at its first
/// byte.
pub fn packets_cut_off(stream: &mut Stream) {
    bench(stream, State::READY);
    for place in [0, 1, 5, 11] {
        begin(stream);
        enter(stream, &inquiry(36)[..place]);
        stream.reset();
        stream.state(State::READY);
    }
    ask_again(stream, &capacity());
}

/// Nothing but the register calls moves the record: power-ons, tray calls, states, tables,
/// memories, packets and lists while a packet enters, and while a list does.
pub fn record_kept(stream: &mut Stream) {
    bench(stream, State::READY);
    begin(stream);
    enter(stream, &mode_select(16)[..6]);
    stream.power_on();
    stream.power_on_without_change();
    stream.button();
    stream.lift();
    stream.lay();
    stream.button();
    stream.packet(&toc(false, 0, 0, 12));
    stream.packet(&mode_select(16));
    stream.move_on(1);
    stream.list(&[0xFF; 16]);
    enter(stream, &mode_select(16)[6..]);
    enter(stream, &page_list(0x34, 0x43)[..10]);
    stream.packet(&test_ready());
    stream.packet(&test_ready());
    stream.table(&disc_e().bytes());
    stream.memory(MEMORY, 0x99);
    enter(stream, &page_list(0x34, 0x43)[10..]);
    stream.packet(&test_ready());
}
