//! K14's answer runs, picked by hand: every limit, every length, what the byte count holds,
//! and what is handed on of the packet.

use crate::cases::cue_sheet::two_tracks;
use crate::cases::host::{
    ask, ask_again, begin, enter, limit, packet, read, read_all, read_run, select,
};
use crate::cases::packets::{
    capacity, event_status, inquiry, mode_select, mode_sense, one_of_each, page_list, plain,
    prevent, read10, read12, request_sense, seek, start_stop, test_ready, toc, EJECT,
};
use crate::cases::picked_state::MEMORY;
use crate::cases::sheet::{disc_e, fullest, two_sessions};
use crate::cases::stream::Stream;
use crate::drive::State;
use crate::registers::Register;

/// Table E, a memory and no list; the registers as a reset leaves them, and this drive.
pub fn bench(stream: &mut Stream, drive: State) {
    stream.table(&disc_e().bytes());
    stream.memory(MEMORY, 0xA0);
    stream.list(&[]);
    stream.reset();
    stream.state(drive);
}

/// Both attentions pending.
pub const GREETING: State = State {
    power: true,
    change: true,
    ..State::READY
};

/// The marks of the registers in one run: INQUIRY by limits 10, 5, 1 and 0, 00h, 55h with
/// its list by limit 4 and 5Ah, the refusals, and a reset in a run.
pub fn marked_registers(stream: &mut Stream) {
    bench(stream, State::READY);
    stream.read();
    for count in [10, 5, 1, 0] {
        ask(stream, count, &inquiry(36));
    }
    ask(stream, 16, &test_ready());
    limit(stream, 4);
    select(stream, &page_list(0x25, 0x0A));
    ask(stream, 0, &mode_sense(0, 1, 16));
    stream.write(Register::Command, 0xEC);
    limit(stream, 10);
    packet(stream, &inquiry(36));
    stream.write(Register::CountLow, 10);
    read(stream, 3);
    stream.reset();
    packet(stream, &test_ready());
}

/// The example of the board: a reset, then three packets, the sense asked for and the
/// packet sent again wherever one is not GOOD.
pub fn board_example(stream: &mut Stream) {
    stream.table(&disc_e().bytes());
    stream.memory(MEMORY, 0x00);
    stream.state(State::READY);
    stream.reset();
    let list = toc(false, 0, 0, 804);
    let sense = request_sense(18);
    for asked in [inquiry(36), list, sense, list, sense, list, capacity()] {
        ask(stream, 16, &asked);
    }
}

/// Limits next to every border: 0 to 9, around the answer's 36, with a high byte, and at
/// the top.
pub const LIMITS: [u16; 35] = [
    0, 1, 2, 3, 4, 5, 6, 7, 8, 9, 17, 18, 19, 34, 35, 36, 37, 38, 254, 255, 256, 257, 258, 511,
    0x1000, 0x2400, 0x7FFF, 0x8000, 0x8001, 0xEB14, 0xFF00, 0xFFFC, 0xFFFD, 0xFFFE, 0xFFFF,
];

/// INQUIRY by each of them, and a read behind the last byte.
pub fn every_limit(stream: &mut Stream) {
    bench(stream, State::READY);
    for count in LIMITS {
        ask(stream, count, &inquiry(36));
        stream.read();
    }
}

/// Limits at both ends, each with an answer of a few bytes.
pub fn limits_at_the_ends(stream: &mut Stream) {
    bench(stream, State::READY);
    for (count, length) in [
        (2, 3),
        (3, 5),
        (5, 5),
        (8, 8),
        (0x0103, 5),
        (0xFFFD, 2),
        (0xFFFE, 3),
        (0xFFFF, 3),
    ] {
        ask(stream, count, &inquiry(length));
    }
}

/// Answers of 0 to 6 bytes by limits 0 to 6.
pub fn short_answers(stream: &mut Stream) {
    bench(stream, State::READY);
    for length in 0..=6 {
        for count in 0..=6 {
            ask(stream, count, &inquiry(length));
        }
    }
}

/// Each length of 0 to 40, of three answers, by a limit that does not divide most of them.
pub fn answer_lengths(stream: &mut Stream) {
    bench(stream, State::READY);
    stream.table(&two_sessions().bytes());
    for length in 0..=40u8 {
        ask(stream, 8, &inquiry(length));
        ask(stream, 13, &request_sense(length));
        ask(stream, 7, &toc(false, 0, 0, length.into()));
        ask(stream, 16, &toc(false, 2, 0, length.into()));
    }
}

/// "The runs joined are the answer's bytes": 6,538 of them, in few runs, in many of an odd
/// limit, and in one; and one byte less.
pub fn longest_answers(stream: &mut Stream) {
    bench(stream, State::READY);
    stream.table(&fullest().bytes());
    for (count, length) in [(0x0800, 6_538), (0x00FF, 6_539), (0, 6_537)] {
        ask(stream, count, &toc(false, 2, 0, length));
        stream.read();
    }
}

/// What each command of the drive answers, at the registers and by itself.
pub fn every_packet(stream: &mut Stream) {
    for drive in [State::READY, State::EMPTY, GREETING] {
        bench(stream, drive);
        for asked in one_of_each() {
            stream.state(drive);
            ask(stream, 12, &asked);
            stream.state(drive);
            stream.packet(&asked);
        }
    }
}

/// No answer: status at once, GOOD or not, and the byte count as it was.
pub fn no_answers(stream: &mut Stream) {
    bench(stream, State::READY);
    ask(stream, 7, &test_ready());
    ask_again(stream, &prevent(1));
    ask_again(stream, &start_stop(EJECT));
    ask_again(stream, &inquiry(0));
    ask_again(stream, &plain(0xFF));
    stream.read();
}

/// "The byte count register holds what was written last": the size of each run, and so the
/// limit of the next packet where the host writes none.
pub fn count_left_behind(stream: &mut Stream) {
    bench(stream, State::READY);
    ask(stream, 5, &inquiry(11));
    // The last run had 3 bytes: an odd limit of 2.
    ask_again(stream, &inquiry(5));
    // And that one 1.
    ask_again(stream, &inquiry(3));
    stream.write(Register::CountHigh, 1);
    ask_again(stream, &inquiry(6));
    // Where nothing leaves, nothing is written.
    ask_again(stream, &test_ready());
    ask_again(stream, &request_sense(8));
}

/// One of the two bytes of the limit alone.
pub fn count_by_halves(stream: &mut Stream) {
    bench(stream, State::READY);
    stream.write(Register::CountHigh, 0);
    ask_again(stream, &inquiry(21));
    stream.write(Register::CountLow, 0xFF);
    stream.write(Register::CountHigh, 0xFF);
    stream.write(Register::CountHigh, 0x00);
    ask_again(stream, &inquiry(2));
    stream.write(Register::CountLow, 0);
    ask_again(stream, &inquiry(3));
    stream.write(Register::CountHigh, 2);
    stream.write(Register::CountLow, 4);
    ask_again(stream, &inquiry(3));
}

/// Features and drive hold what is written and have no other effect, 004's DMA and OVERLAP
/// bits and its DRV among them.
pub fn held_registers(stream: &mut Stream) {
    bench(stream, State::READY);
    for (features, drive) in [(0x03, 0xB0), (0xFF, 0xFF)] {
        stream.write(Register::Features, features);
        stream.write(Register::Drive, drive);
        ask(stream, 4, &inquiry(5));
    }
    stream.write(Register::Features, 0xA0);
    stream.write(Register::Drive, 0xA0);
    stream.reset();
    packet(stream, &test_ready());
}

/// READ's start and count come from the call that completes the packet, and from no other.
pub fn reads_name_blocks(stream: &mut Stream) {
    bench(stream, State::READY);
    for asked in [
        read10(149, 1),
        read12(0, 150),
        read10(150, 0),
        read10(149, 2),
        read12(300, 0),
        seek(5),
    ] {
        packet(stream, &asked);
        stream.read();
    }
}

/// The status stays until the next packet is performed; a reset puts 00.
pub fn status_kept(stream: &mut Stream) {
    bench(stream, State::READY);
    packet(stream, &plain(0xFF));
    limit(stream, 4);
    begin(stream);
    stream.write(Register::Features, 0);
    enter(stream, &request_sense(6));
    read_all(stream);
    packet(stream, &seek(300));
    stream.write(Register::Command, 0x08);
    begin(stream);
    enter(stream, &[0x12]);
    stream.reset();
    packet(stream, &test_ready());
    packet(stream, &mode_select(16));
    enter(stream, &page_list(0x02, 0));
}

/// "The target performs a packet at the call that completes it": it meets state, table and
/// memory as they are then, whatever they were when it began.
pub fn performed_at_the_last_byte(stream: &mut Stream) {
    bench(stream, State::EMPTY);
    let (begun, last) = (&capacity()[..11], &capacity()[11..]);
    begin(stream);
    enter(stream, begun);
    stream.state(State::READY);
    enter(stream, last);
    read_all(stream);
    begin(stream);
    enter(stream, begun);
    stream.table(&two_sessions().bytes());
    enter(stream, last);
    read_all(stream);
    begin(stream);
    enter(stream, begun);
    stream.button();
    enter(stream, last);
    begin(stream);
    enter(stream, begun);
    stream.button();
    stream.memory(MEMORY, 0x11);
    enter(stream, last);
    ask(stream, 5, &request_sense(18));
}

/// What comes between the runs moves the drive and not the transfer: tray calls, power-ons,
/// the outside call, other tables. "its response bytes are those in the runs".
pub fn calls_between_runs(stream: &mut Stream) {
    bench(stream, State::READY);
    limit(stream, 4);
    packet(stream, &inquiry(26));
    read_run(stream);
    stream.button();
    read_run(stream);
    stream.lift();
    stream.lay();
    read(stream, 1);
    stream.button();
    read(stream, 1);
    stream.power_on();
    stream.power_on_without_change();
    stream.move_on(3);
    read_run(stream);
    stream.table(&[]);
    stream.state(State::EMPTY);
    read_run(stream);
    stream.list(&[1; 16]);
    read_all(stream);
    ask(stream, 0, &event_status(0x10, 5));
}

/// "the runs read the memory lent at that call": another memory, one filled again, a packet
/// of the first device between, a cue sheet's table.
pub fn memory_between_runs(stream: &mut Stream) {
    bench(stream, State::READY);
    limit(stream, 6);
    packet(stream, &inquiry(30));
    read(stream, 4);
    stream.memory(MEMORY, 0xC3);
    read(stream, 4);
    stream.packet(&toc(false, 0, 0, 20));
    read(stream, 9);
    stream.memory(8_191, 0x3C);
    read(stream, 3);
    stream.packet(&inquiry(36));
    read(stream, 4);
    stream.cue_sheet(&two_tracks().bytes());
    read_all(stream);
    stream.read();
}
