//! K4's mode page, picked by hand: MODE SENSE and MODE SELECT at their
//! boundaries, the parameter lists lent, and what sets, keeps or restores the
//! page.

use crate::cases::packets::{
    capacity, inquiry, mode_select, mode_sense, named_bits, one_of_each, page_list, play, position,
    prevent, read10, request_sense, seek, start_stop, test_ready, toc, Packet, EJECT, LOAD,
};
use crate::cases::picked_power::FORMS;
use crate::cases::picked_state::{all_flags, MEMORY};
use crate::cases::sheet::disc_e;
use crate::cases::stream::Stream;
use crate::drive::State;
use crate::mode_page::{ModePage, SETTINGS};
use crate::play::{Play, STATUSES};
use crate::sense::{self, TRIPLES};

/// 5Ah for the current values, the whole answer.
fn current() -> Packet {
    mode_sense(0, 1, 16)
}

/// This state with these two bytes of the page.
fn with(state: State, recovery: u8, retries: u8) -> State {
    State {
        mode: ModePage::new(recovery, retries),
        ..state
    }
}

/// Table E, a memory and no list; then this state.
fn bench(stream: &mut Stream, state: State) {
    stream.table(&disc_e().bytes());
    stream.memory(MEMORY, 0x4D);
    stream.list(&[]);
    stream.state(state);
}

fn packets(stream: &mut Stream, list: &[Packet]) {
    for packet in list {
        stream.packet(packet);
    }
}

/// 55h of this list, its length in the packet.
fn select(stream: &mut Stream, list: &[u8]) {
    stream.list(list);
    stream.packet(&mode_select(list.len() as u16));
}

/// A sound list with another byte in this place.
fn list_with(place: usize, byte: u8) -> [u8; 16] {
    let mut list = page_list(0x24, 0x77);
    list[place] = byte;
    list
}

/// The marked results of K4, on Disc E: what 5Ah gives after a power-on, what 55h
/// sets and what it refuses, and what a power-on restores.
pub fn marked_mode(stream: &mut Stream) {
    bench(stream, State::READY);
    stream.power_on();
    packets(stream, &[test_ready(), test_ready()]);
    for control in 0..4 {
        stream.packet(&mode_sense(control, 1, 16));
    }
    packets(stream, &[mode_sense(0, 2, 16), mode_sense(3, 2, 16)]);
    select(stream, &page_list(0x05, 3));
    stream.packet(&current());
    select(stream, &page_list(0x04, 4)[..15]);
    stream.list(&[]);
    stream.packet(&mode_select(16));
    select(stream, &list_with(8, 0x81));
    select(stream, &page_list(0x02, 4));
    select(stream, &[]);
    stream.packet(&current());
    stream.power_on();
    packets(stream, &[test_ready(), test_ready(), current()]);
}

/// Every page control and page, 3Fh and 00h among them, with a page set that is
/// not the default: page 01h alone is answered, and saved values of it are not.
pub fn pages(stream: &mut Stream) {
    bench(stream, with(State::EMPTY, 0x35, 0xA7));
    for byte_2 in 0..=255u8 {
        stream.packet(&mode_sense(byte_2 >> 6, byte_2 & 0x3F, 16));
    }
}

/// Allocation lengths around 16: only bytes within them are written, and the
/// length inside is not cut. What fails, fails with any length.
pub fn page_lengths(stream: &mut Stream) {
    bench(stream, with(State::EMPTY, 0x27, 0xC8));
    for length in (0..18).chain([255, 256, 4_096, 0xFFFF]) {
        for control in 0..3 {
            stream.memory(MEMORY, length as u8);
            stream.packet(&mode_sense(control, 1, length));
        }
    }
    for length in [0, 1, 0xFFFF] {
        packets(
            stream,
            &[mode_sense(3, 1, length), mode_sense(0, 0x3F, length)],
        );
    }
}

/// 5Ah for each of the twenty settings, and for retry counts of every bit.
pub fn settings_sensed(stream: &mut Stream) {
    bench(stream, State::READY);
    for (i, setting) in SETTINGS.into_iter().enumerate() {
        let state = with(State::EMPTY, setting, (i * 13) as u8);
        stream.packet_from(state, &current());
    }
    for retries in (0..8).map(|bit| 1 << bit).chain([0xFF, 0x0A, 0x05]) {
        let state = with(State::READY, 0x20, retries);
        stream.packet_from(state, &current());
        packets(stream, &[mode_sense(1, 1, 12), mode_sense(2, 1, 12)]);
    }
}

/// 55h with each of the 256 recovery bytes: the twenty are set, the others leave
/// the page that was set last.
pub fn every_recovery(stream: &mut Stream) {
    bench(stream, with(State::EMPTY, 0x15, 0x2A));
    for recovery in 0..=255u8 {
        select(stream, &page_list(recovery, !recovery));
    }
    // Any retry count goes.
    for retries in [0, 1, 2, 0x7F, 0x80, 0xFE, 0xFF] {
        select(stream, &page_list(0x00, retries));
    }
}

/// Refusal 2 "covers a recovery byte outside the twenty": each of the 256 held,
/// met by a packet and by one of the other calls; the twenty settings and one in
/// eight by every call, power-on last.
pub fn every_recovery_held(stream: &mut Stream) {
    bench(stream, State::READY);
    for recovery in 0..=255u8 {
        stream.state(with(State::EMPTY.opened(), recovery, recovery ^ 0x5A));
        stream.packet(&mode_sense(0, 1, 12));
        let calls: [fn(&mut Stream); 4] = [Stream::lay, Stream::lift, Stream::button, |stream| {
            stream.move_on(1)
        }];
        if recovery % 8 == 2 || SETTINGS.contains(&recovery) {
            calls.iter().for_each(|call| call(stream));
            FORMS[usize::from(recovery % 2)](stream);
        } else {
            calls[usize::from(recovery / 2 % 4)](stream);
        }
    }
    // Whatever the packet.
    stream.list(&page_list(0x01, 1));
    for recovery in [0x02, 0x17, 0x40] {
        stream.state(with(State::READY, recovery, 0));
        packets(stream, &one_of_each());
    }
}

/// Refusal 2 by the recovery byte in its place: behind 1, before 3, 4 and 5 to 7.
pub fn recovery_in_order(stream: &mut Stream) {
    bench(stream, State::READY);
    let (fit, unfit) = (disc_e().bytes(), &disc_e().bytes()[..58]);
    stream.list(&page_list(0x01, 1));
    for n in 0..8u8 {
        stream.table(if n & 4 != 0 { unfit } else { &fit });
        stream.memory(if n & 2 != 0 { MEMORY - 1 } else { MEMORY }, n);
        for recovery in [0x08, 0x30] {
            for flags in [State::READY, State::EMPTY] {
                let state = State {
                    lock: true,
                    ..with(flags, recovery, 9)
                };
                let length = if n & 1 != 0 { 11 } else { 12 };
                stream.packet_from(state, &mode_select(16)[..length]);
                stream.packet_from(state, &current()[..length]);
                stream.packet(&request_sense(0)[..length]);
                for call in [Stream::button, Stream::lay, Stream::lift] {
                    stream.state(state);
                    call(stream);
                }
                stream.move_on(1);
            }
        }
    }
    stream.memory(MEMORY, 0);
}

/// Lists of many lengths against packets that say many: 0 and 16 alone are taken,
/// where both say so. Each list begins as a sound one of 16 does.
pub fn list_lengths(stream: &mut Stream) {
    bench(stream, with(State::EMPTY, 0x31, 0x13));
    // 10h in byte 7 is 4,096; 272 and 4,112 have 10h in byte 8 as well.
    let asked = [0, 1, 8, 15, 16, 17, 256, 272, 4_096, 4_112, 0xFFFF];
    for lent in [
        0, 1, 7, 8, 9, 12, 15, 16, 17, 24, 32, 272, 4_096, 4_112, 8_191,
    ] {
        let mut list = page_list(0x14, lent as u8).to_vec();
        list.resize(lent, 0x06);
        stream.list(&list);
        for length in asked.into_iter().chain([lent as u16]) {
            stream.packet(&mode_select(length));
        }
        // Taken or not, the page is another one again.
        stream.state(with(State::EMPTY, 0x31, 0x13));
    }
}

/// "its header not looked at": each bit of the list's first eight and last four
/// bytes, then all of them.
pub fn header_bits(stream: &mut Stream) {
    bench(stream, State::EMPTY);
    let mut all = page_list(0x26, 0x99);
    for (i, place) in (0..8).chain(12..16).enumerate() {
        all[place] = 0xFF;
        for bit in 0..8 {
            let n = i * 8 + bit;
            let mut list = page_list(SETTINGS[n % 20], n as u8);
            list[place] = 1 << bit;
            select(stream, &list);
        }
    }
    select(stream, &all);
    // Nor does it help a list that is wrong.
    all[10] = 0x36;
    select(stream, &all);
    stream.packet(&current());
}

/// "unless its page begins 01 06 and one of the twenty": each bit of these three
/// bytes turned over, and bytes that a draft has in their place.
pub fn page_bytes(stream: &mut Stream) {
    bench(stream, with(State::EMPTY, 0x10, 0x01));
    for bit in 0..24 {
        let mut list = page_list(0x24, 0x77);
        list[8 + bit / 8] ^= 0x80 >> (bit % 8);
        select(stream, &list);
    }
    for (place, byte) in [
        (8, 0x81),
        (8, 0x3F),
        (8, 0x00),
        (8, 0x06),
        (8, 0xFF),
        (9, 0x0A),
        (9, 0x05),
        (9, 0x07),
        (9, 0x08),
        (9, 0x01),
        (9, 0xFF),
        (10, 0x02),
        (10, 0x03),
        (10, 0x08),
        (10, 0x16),
        (10, 0x37),
        (10, 0x40),
        (10, 0x80),
        (10, 0xC0),
    ] {
        select(stream, &list_with(place, byte));
    }
    // The page in another place: behind a header of four bytes, or at the start.
    let page = [0x01, 0x06, 0x05, 0x03];
    for place in [0, 4, 7, 9, 10, 12] {
        let mut list = [0; 16];
        list[place..place + 4].copy_from_slice(&page);
        select(stream, &list);
    }
    // Two pages, the second wrong; and the list that is lent last counts.
    let mut two = page_list(0x11, 2);
    two[12..].copy_from_slice(&[0x0D, 0x06, 0xFF, 0xFF]);
    select(stream, &two);
    stream.list(&page_list(0x02, 9));
    select(stream, &page_list(0x30, 9));
}

/// PF, SP, DBD and every other bit behind the code turned over: page control, page
/// and lengths alone tell.
pub fn mode_bits(stream: &mut Stream) {
    bench(stream, State::EMPTY);
    stream.list(&page_list(0x25, 0xE1));
    let before = with(State::EMPTY, 0x06, 0x60);
    for packet in [current(), mode_sense(3, 1, 16), mode_select(16)] {
        for bit in 8..96 {
            let mut p = packet;
            p[bit / 8] ^= 0x80 >> (bit % 8);
            stream.packet_from(before, &p);
        }
    }
    let mut full = [current(), mode_sense(1, 1, 16), mode_select(16)];
    for packet in &mut full {
        let named = named_bits(packet[0]);
        for (byte, named) in packet.iter_mut().zip(named) {
            *byte |= !named;
        }
        stream.packet_from(before, packet);
    }
    let [.., mut none] = full;
    none[8] = 0;
    stream.packet(&none);
    stream.list(&[]);
    stream.packet(&none);
}

/// With an attention pending both are told it, and a list is not looked at, sound
/// or not; the next one is performed. No disc is needed, nor a closed tray.
pub fn mode_told_first(stream: &mut Stream) {
    bench(stream, State::READY);
    for flags in all_flags().filter(|flags| !flags.lock) {
        let state = with(flags, 0x21, 0x12);
        stream.list(&page_list(0x07, 0x70));
        stream.state(state);
        packets(stream, &[mode_select(16), mode_select(16), mode_select(16)]);
        stream.packet_from(state, &current());
        packets(stream, &[current(), mode_sense(3, 1, 4)]);
        stream.list(&page_list(0x22, 0x70));
        stream.packet_from(state, &mode_select(16));
        stream.packet(&mode_select(15));
    }
    // 03h and 12h leave the page, and give what they give.
    for form in FORMS {
        stream.state(with(State::READY, 0x21, 0x12));
        form(stream);
        stream.list(&page_list(0x07, 0x70));
        packets(stream, &[inquiry(5), current(), request_sense(18)]);
        packets(stream, &[mode_select(16), mode_select(16), current()]);
    }
}

/// Loaded with an unfit table both are refused by 4; not loaded, none is looked
/// at. A memory under the bound is refused by 3, also by 55h.
pub fn mode_unfit(stream: &mut Stream) {
    bench(stream, State::READY);
    stream.list(&page_list(0x30, 0x03));
    let states = [
        State::READY,
        State::EMPTY,
        State::READY.opened(),
        State::EMPTY.opened(),
    ];
    for table in [&[][..], &disc_e().bytes()[..58], &[0, 2, 1, 1]] {
        stream.table(table);
        for state in states {
            stream.state(with(state, 0x01, 0x02));
            packets(stream, &[mode_sense(3, 1, 16), mode_select(16), current()]);
        }
    }
    stream.table(&disc_e().bytes());
    for memory in [0, MEMORY - 1, MEMORY] {
        stream.memory(memory, 0x4D);
        for state in states {
            stream.state(with(state, 0x01, 0x02));
            packets(stream, &[mode_select(16), mode_select(0), current()]);
        }
    }
}

/// A held sense, each of the thirteen: cleared where they are GOOD, replaced where
/// they are not.
pub fn mode_senses(stream: &mut Stream) {
    bench(stream, State::READY);
    for held in TRIPLES {
        let state = State {
            sense: held,
            ..with(State::EMPTY, 0x11, 0x01)
        };
        stream.list(&page_list(0x10, 0x02));
        for packet in [mode_select(16), mode_select(8), current()] {
            stream.packet_from(state, &packet);
        }
        for packet in [mode_sense(3, 1, 0), mode_sense(1, 2, 0)] {
            stream.packet_from(state, &packet);
        }
        stream.list(&page_list(0x12, 0x02));
        stream.packet_from(state, &mode_select(16));
        stream.packet(&request_sense(18));
        stream.list(&[]);
        stream.packet_from(state, &mode_select(0));
    }
}

/// The page is kept by 55h that fails, by every other packet, by the tray, by a
/// loading and by the outside call.
pub fn page_kept(stream: &mut Stream) {
    bench(stream, State::READY);
    select(stream, &page_list(0x34, 0xFE));
    packets(stream, &one_of_each());
    // What these leave is undone: an open tray, the lock.
    packets(stream, &[start_stop(LOAD), test_ready(), prevent(0)]);
    for list in [
        &page_list(0x02, 1)[..],
        &list_with(9, 0x05),
        &page_list(0x01, 1)[..15],
    ] {
        select(stream, list);
        stream.packet(&current());
    }
    let moves: [fn(&mut Stream); 5] = [
        |stream| {
            stream.button();
            stream.packet(&current());
            stream.button();
        },
        |stream| packets(stream, &[start_stop(EJECT), current(), start_stop(LOAD)]),
        |stream| {
            stream.button();
            stream.lift();
            stream.packet(&current());
            stream.button();
            stream.packet(&current());
            stream.button();
            stream.lay();
            stream.button();
        },
        |stream| {
            packets(stream, &[prevent(1), start_stop(EJECT)]);
            stream.button();
            stream.packet(&prevent(0));
        },
        |stream| {
            packets(stream, &[play(150, 9), position(false), seek(9)]);
            stream.move_on(1);
            packets(stream, &[read10(0, 1), toc(false, 0, 0, 4), capacity()]);
        },
    ];
    for kept in moves {
        kept(stream);
        packets(stream, &[current(), current()]);
    }
    select(stream, &[]);
    stream.packet(&current());
}

/// Every setting of the flags with a page that is not the default: both forms of
/// power-on restore it, the tray calls leave it.
pub fn page_restored(stream: &mut Stream) {
    bench(stream, State::READY);
    for (flags, setting) in all_flags().zip(SETTINGS.into_iter().cycle()) {
        for call in [
            Stream::power_on,
            Stream::power_on_without_change,
            Stream::button,
            Stream::lay,
            Stream::lift,
        ] {
            stream.state(with(flags, setting, 0xB7));
            call(stream);
        }
    }
    for form in FORMS {
        stream.state(State::EMPTY);
        select(stream, &page_list(0x27, 0x72));
        stream.packet(&current());
        form(stream);
        packets(stream, &[test_ready(), current(), mode_sense(2, 1, 16)]);
    }
}

/// A list is lent while other packets run: it changes nothing and is still there.
pub fn list_unused(stream: &mut Stream) {
    bench(stream, State::READY);
    for list in [page_list(0x20, 0x41), [0xFF; 16]] {
        stream.list(&list);
        for packet in one_of_each() {
            stream.packet_from(with(State::READY, 0x04, 0x40), &packet);
        }
        stream.state(with(State::EMPTY, 0x04, 0x40));
        stream.button();
        stream.lay();
        stream.button();
        stream.move_on(2);
        stream.power_on();
        stream.part(1);
        packets(stream, &[test_ready(), test_ready()]);
        packets(stream, &[mode_select(16), mode_select(16), current()]);
    }
}

/// Nothing of a play hinders 55h, and it leaves the play record.
pub fn mode_while_playing(stream: &mut Stream) {
    bench(stream, State::READY);
    stream.list(&page_list(0x35, 0x53));
    for status in STATUSES {
        stream.state(State {
            play: Play::new(status, 160, 290),
            sense: sense::WRONG_MODE,
            ..State::READY
        });
        packets(stream, &[mode_select(16), current(), mode_sense(3, 1, 16)]);
        stream.move_on(7);
        stream.packet(&position(false));
    }
    stream.list(&[]);
}
