//! K14's list runs, picked by hand: 55h asking for 16 bytes, by every limit, and what the
//! target finds at the end of it.

use crate::cases::host::{ask, begin, enter, limit, packet, read, read_all, select};
use crate::cases::packets::{
    inquiry, mode_select, mode_sense, page_list, request_sense, test_ready,
};
use crate::cases::picked_registers::{bench, GREETING};
use crate::cases::picked_state::MEMORY;
use crate::cases::several::alone;
use crate::cases::sheet::disc_e;
use crate::cases::stream::Stream;
use crate::drive::State;
use crate::mode_page::ModePage;
use crate::registers::Register;
use crate::sense::Sense;

/// A list with a byte of its own in every place that is not looked at.
pub fn full_list(recovery: u8, retries: u8) -> [u8; 16] {
    let mut list = page_list(recovery, retries);
    for place in (0..8).chain(12..16) {
        list[place] = 0xC0 + place as u8;
    }
    list
}

/// By each limit that cuts it otherwise; 5Ah tells what was set.
pub fn lists_by_limit(stream: &mut Stream) {
    bench(stream, State::READY);
    for (count, recovery) in (0u8..).zip([0x01, 0x04, 0x05, 0x06, 0x07, 0x10]) {
        limit(stream, count.into());
        select(stream, &full_list(recovery, count));
    }
    for count in [7, 8, 15, 16, 17, 18, 0x0100, 0xFFFE, 0xFFFF] {
        limit(stream, count);
        select(stream, &full_list(0x35, count as u8));
        ask(stream, count, &mode_sense(0, 1, 16));
    }
}

/// By each of these limits, good and wrong, with both attentions pending, with an unfit disc,
/// with a short memory, with a state that 2 covers, and with no disc in a tray that is open
/// or closed.
pub fn lists_in_every_case(stream: &mut Stream) {
    bench(stream, State::READY);
    let (good, wrong) = (full_list(0x10, 0x01), full_list(0x08, 0x01));
    for count in [1, 2, 3, 4, 5, 16, 0] {
        let unsound = State {
            event: 9,
            ..State::READY
        };
        let open = State {
            tray_open: true,
            ..State::EMPTY
        };
        for drive in [State::READY, GREETING, unsound, State::EMPTY, open] {
            stream.state(drive);
            limit(stream, count);
            select(stream, &good);
        }
        stream.state(State::READY);
        limit(stream, count);
        select(stream, &wrong);
        stream.table(&alone(3));
        limit(stream, count);
        select(stream, &good);
        stream.memory(MEMORY - 1, 0x00);
        limit(stream, count);
        select(stream, &wrong);
        stream.memory(MEMORY, 0x00);
        stream.table(&disc_e().bytes());
    }
}

/// By limits 4 and 0, each with 5Ah behind it; no answer comes of a list. One that is wrong,
/// by limit FFFFh.
pub fn lists_in_runs(stream: &mut Stream) {
    bench(stream, State::READY);
    for (count, recovery) in [(5, 0x24), (0, 0x31)] {
        limit(stream, count);
        select(stream, &full_list(recovery, 0x77));
        stream.read();
        ask(stream, 16, &mode_sense(0, 1, 12));
    }
    limit(stream, 0xFFFF);
    select(stream, &full_list(0x02, 0x77));
}

/// Wrong in a place, or right where it is not looked at: 05/26/00 once it is whole.
pub fn wrong_lists(stream: &mut Stream) {
    bench(stream, State::READY);
    limit(stream, 16);
    for (place, byte) in [(8, 0x81), (9, 0x0A), (10, 0x02), (11, 0xFF), (15, 0xFF)] {
        let mut list = full_list(0x00, 0x00);
        list[place] = byte;
        stream.state(State::READY);
        select(stream, &list);
    }
}

/// "the target tests at the end": with an attention pending the list goes in all the same,
/// and again for the next one.
pub fn lists_while_pending(stream: &mut Stream) {
    bench(stream, GREETING);
    limit(stream, 0);
    for _ in 0..2 {
        select(stream, &page_list(0x11, 0x22));
    }
    // It becomes pending while the list enters.
    packet(stream, &mode_select(16));
    enter(stream, &page_list(0x20, 0x02)[..9]);
    stream.power_on();
    enter(stream, &page_list(0x20, 0x02)[9..]);
    ask(stream, 0, &request_sense(18));
}

/// With an unfit disc, a short memory, a state that 2 covers, and without a disc: the list
/// goes in, and the number comes at its end.
pub fn lists_refused(stream: &mut Stream) {
    bench(stream, State::READY);
    limit(stream, 10);
    let list = page_list(0x30, 0x03);
    stream.table(&disc_e().bytes()[..58]);
    select(stream, &list);
    // The run before left 6 bytes as the limit.
    stream.memory(MEMORY - 1, 0x00);
    select(stream, &list);
    stream.memory(MEMORY, 0x00);
    stream.state(State {
        sense: Sense::new(9, 9, 9),
        ..State::READY
    });
    select(stream, &list);
    stream.state(State::EMPTY);
    select(stream, &list);
}

/// 55h asking for another length takes no list, nor does any other packet: the target finds
/// an empty one, also where kind 13 lends one.
pub fn no_lists(stream: &mut Stream) {
    bench(stream, State::READY);
    stream.list(&page_list(0x21, 0x12));
    for length in [0, 8, 15, 17, 0x1000, 0x0110] {
        packet(stream, &mode_select(length));
    }
    let mut other = mode_select(16);
    other[0] = 0x15;
    packet(stream, &other);
    packet(stream, &mode_sense(0, 1, 16));
    stream.reset();
    stream.list(&[]);
}

/// Data reads and other writes while the list enters are 15; the list is as it was.
pub fn list_out_of_turn(stream: &mut Stream) {
    bench(stream, State::READY);
    limit(stream, 6);
    packet(stream, &mode_select(16));
    let list = full_list(0x14, 0x41);
    for (place, byte) in (0..).zip(list) {
        if [0, 1, 5, 6, 7, 8, 14, 15].contains(&place) {
            stream.read();
            stream.write(Register::ALL[1 + place % 5], 0xA0);
        }
        enter(stream, &[byte]);
    }
    stream.read();
}

/// A list cut off by a reset is gone: the next one begins anew, and so does a packet.
pub fn lists_cut_off(stream: &mut Stream) {
    bench(stream, State::READY);
    for place in [0, 1, 15] {
        packet(stream, &mode_select(16));
        enter(stream, &full_list(0x15, 0x51)[..place]);
        stream.reset();
        stream.state(State::READY);
    }
    select(stream, &full_list(0x26, 0x62));
}

/// Every setting and every place: what each byte of a list is, by limits that put the page
/// into one run or cut it.
pub fn every_list_byte(stream: &mut Stream) {
    bench(stream, State::READY);
    for place in 0..16 {
        for flip in [0x01, 0x80] {
            let mut list = full_list(0x27, 0x72);
            list[place] ^= flip;
            stream.state(State {
                mode: ModePage::new(0x04, 0x40),
                ..State::READY
            });
            limit(stream, 10 + (place as u16 % 3));
            select(stream, &list);
        }
    }
    read_all(stream);
}

/// The packet before it and the packet behind it are as without it: a list is of its own
/// packet alone.
pub fn lists_between_packets(stream: &mut Stream) {
    bench(stream, State::READY);
    ask(stream, 6, &inquiry(8));
    limit(stream, 8);
    select(stream, &page_list(0x06, 0x60));
    ask(stream, 4, &mode_sense(0, 1, 12));
    packet(stream, &mode_select(0));
    packet(stream, &test_ready());
    begin(stream);
    read(stream, 1);
    stream.reset();
}
