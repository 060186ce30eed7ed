//! Tables picked by hand, broken and fit, and the parts of sessions.

use crate::cases::breaks::{breaks, Break};
use crate::cases::draft::{t134 as draft_t134, T134_PACKET, T135_PACKET};
use crate::cases::fits::fits;
use crate::cases::packets::{
    capacity, read10, read12, request_sense, seek, start_stop, test_ready, toc,
};
use crate::cases::picked_state::MEMORY;
use crate::cases::several;
use crate::cases::sheet::{disc_e, fullest, three_sessions, three_sittings};
use crate::cases::stream::Stream;
use crate::drive::State;
use crate::examples;
use crate::sense::Sense;

/// Every break picked by hand.
pub fn broken(stream: &mut Stream) {
    stream.memory(MEMORY, 0x99);
    meet(stream, &breaks());
}

/// Each break: the part is refused, a loaded packet too, an unloaded one not.
pub fn meet(stream: &mut Stream, list: &[Break]) {
    for (i, broken) in list.iter().enumerate() {
        stream.table(&broken.table);
        stream.part(1);
        // What is refused leaves the state.
        if [0, 3].contains(&(i % 5)) {
            stream.state(State::READY);
        }
        stream.packet(&test_ready());
        match i % 5 {
            0 => stream.part(0),
            1 => stream.part(255),
            2 => stream.packet_from(State::READY.power_on(), &request_sense(18)),
            3 => stream.packet(&start_stop(2)),
            _ => stream.packet_from(State::READY.opened(), &test_ready()),
        }
    }
}

/// A table for each rule from 1 on, that rule alone broken, then a fit one.
fn one_for_each_rule() -> Vec<Vec<u8>> {
    let mut tables: Vec<Vec<u8>> = (1..=7).map(several::alone).collect();
    tables.push(disc_e().bytes());
    tables
}

/// K6: each rule, and a fit table, behind each other: a call tells the rule of
/// the table lent to it, whatever an earlier call met.
pub fn rules_in_turn(stream: &mut Stream) {
    let tables = one_for_each_rule();
    stream.memory(MEMORY, 0x46);
    for before in &tables {
        for after in &tables {
            stream.table(before);
            stream.packet_from(State::READY, &test_ready());
            stream.part(1);
            stream.table(after);
            stream.part(1);
            stream.packet_from(State::READY, &test_ready());
        }
    }
}

/// K6: 1, 2, 3 and 10, and a call that is not refused, carry no rule, though a
/// broken table is lent and the call before told its rule.
pub fn other_numbers(stream: &mut Stream) {
    let stranger = State {
        sense: Sense::new(5, 0x24, 1),
        ..State::READY
    };
    for table in one_for_each_rule() {
        stream.table(&table);
        stream.memory(MEMORY, 0x46);
        for (state, length) in [(State::READY, 11), (stranger, 12), (State::EMPTY, 12)] {
            stream.packet_from(State::READY, &test_ready());
            stream.packet_from(state, &test_ready()[..length]);
        }
        stream.part(1);
        stream.memory(MEMORY - 1, 0x46);
        stream.packet_from(State::READY, &test_ready());
        stream.part(1);
        stream.table(&disc_e().bytes());
        stream.part(0);
    }
    stream.memory(MEMORY, 0x46);
}

/// Each fit table: parts, capacity, its ends, and the three formats.
pub fn fit(stream: &mut Stream) {
    for (_, sheet) in fits() {
        stream.table(&sheet.bytes());
        for session in [0, 1, 2, sheet.last, sheet.last + 1, 255] {
            stream.part(session);
        }
        stream.state(State::READY);
        stream.packet(&test_ready());
        stream.packet(&capacity());
        for format in 0..3 {
            stream.packet(&toc(false, format, sheet.last, 120));
            stream.packet(&toc(true, format, 0, 60));
        }
        stream.packet(&toc(true, 0, 0xAA, 804));
        stream.packet(&read10(0, 1));
        stream.packet(&seek(449_848));
        stream.packet(&seek(449_849));
    }
}

/// All session numbers on small tables and on the fullest.
pub fn parts(stream: &mut Stream) {
    for sheet in [three_sessions(), three_sittings(), fullest()] {
        stream.table(&sheet.bytes());
        for session in 0..=255 {
            if session < 102 || session % 50 == 5 {
                stream.part(session);
            }
        }
        let mut spoilt = sheet.clone();
        let last = spoilt.rows.len() - 1;
        spoilt.rows[last][2] = 1;
        stream.table(&spoilt.bytes());
        for session in [0, 1, sheet.last, sheet.last + 1, 255] {
            stream.part(session);
        }
    }
}

/// 004's Table 134: its packets as the example has them and as the draft
/// prints them, every session's part, and all that formats 0 and 2 ask for.
pub fn t134(stream: &mut Stream) {
    let sheet = draft_t134();
    stream.table(&sheet.bytes());
    stream.memory(MEMORY, 0x34);
    stream.state(State::READY.power_on_without_change());
    for packet in examples::t134() {
        stream.packet(&packet);
    }
    stream.packet(&T134_PACKET);
    stream.packet(&T135_PACKET);
    stream.packet(&T135_PACKET[..12]);
    for number in 0..=13 {
        stream.part(number);
        for format in 0..3 {
            stream.packet(&toc(number % 2 == 0, format, number, 323));
        }
    }
    stream.packet(&toc(true, 0, 0xAA, 804));
    // Each session's first and last block, and the gaps behind.
    for (first, end) in [
        (0, 9_513),
        (20_913, 38_258),
        (43_808, 56_825),
        (63_725, 82_901),
    ] {
        stream.packet(&read12(first, end - first));
        stream.packet(&read12(first, end - first + 1));
        stream.packet(&read10(end - 1, 1));
        stream.packet(&read10(end, 1));
        stream.packet(&seek(end));
    }
}
