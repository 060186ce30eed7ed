//! Pairs of a table file and a packet file for the listing program.

use crate::cases::packets::{
    any_packet, event_status, inquiry, mode_select, mode_sense, one_of_each, pause, play, position,
    prevent, request_sense, resume, seek, start_stop, sub_channel, test_ready, toc, with_junk,
    Marks, Packet, EJECT, LOAD,
};
use crate::cases::several;
use crate::cases::sheet::{any_fit, fullest, most_sessions, three_sittings};
use crate::cases::spoil::{any_broken, spoil};
use crate::files::File;
use crate::limits::LISTING_PACKETS;
use crate::listing;
use crate::rng::Rng;
use crate::table;

pub struct Pair {
    pub table: Vec<u8>,
    pub packets: Vec<u8>,
}

impl Pair {
    /// Both under this name, and what the listing program must print.
    pub fn listed(self, name: &str) -> [File; 3] {
        let expected = listing::print(&self.table, &self.packets);
        [
            (format!("{name}.table"), self.table),
            (format!("{name}.packets"), self.packets),
            (format!("{name}.expected"), expected.into()),
        ]
    }
}

/// The pair with this number; each tenth takes its turn at a special shape.
pub fn pair(seed: u64, number: u64) -> Pair {
    let mut rng = Rng::new(seed.wrapping_mul(0x1_0001).wrapping_add(number));
    let rng = &mut rng;
    let fit = any_fit(rng).bytes();
    let table = match number % 10 {
        4 => empty_or_short(rng),
        5 => over_the_bound(rng),
        6 => {
            let sheet = any_fit(rng);
            let rule = rng.range(1, 9);
            spoil(rng, &sheet, &[rule])
        }
        7 => any_broken(rng),
        8 => at_the_bound(rng, fit),
        _ => fit,
    };
    let marks = Marks::of(table::read(&table).ok().as_ref());
    let n = rng.range(1, 60);
    let packets = match number % 10 {
        0 => Vec::new(),
        1 => {
            let mut packets = run_of_packets(rng, &marks, n);
            let cut = rng.range(1, 11);
            packets.truncate(packets.len() - cut);
            packets
        }
        2 => {
            let mut packets = run_of_packets(rng, &marks, LISTING_PACKETS / 12);
            if rng.one_in(3) {
                packets.truncate(LISTING_PACKETS - rng.range(1, 12));
            }
            packets
        }
        3 => {
            let mut packets = run_of_packets(rng, &marks, LISTING_PACKETS / 12);
            let more = rng.pick(&[1, 1, 11, 12, 13, 5_000]);
            packets.resize(LISTING_PACKETS + more, 0);
            packets
        }
        _ => {
            let mut packets = run_of_packets(rng, &marks, n);
            if rng.one_in(3) {
                let more = rng.range(1, 11);
                packets.extend(rng.bytes(more));
            }
            packets
        }
    };
    Pair { table, packets }
}

fn empty_or_short(rng: &mut Rng) -> Vec<u8> {
    let length = rng.pick(&[0, 0, 1, 3, 4]);
    [0, 2, 1, 1][..length].to_vec()
}

/// A fit table of 6,538 bytes, of the old bound's 4,360, or any.
fn at_the_bound(rng: &mut Rng, fit: Vec<u8>) -> Vec<u8> {
    match rng.below(4) {
        0 | 1 => fullest().bytes(),
        2 => most_sessions().bytes(),
        _ => fit,
    }
}

/// Its first 6,538 bytes are a fit table: cutting at the bound would show.
fn over_the_bound(rng: &mut Rng) -> Vec<u8> {
    let mut table = fullest().bytes();
    let more = rng.pick(&[1, 1, 11, 100, 6_000]);
    table.extend(rng.bytes(more));
    table
}

/// Packets that keep the drive loaded most of the time.
pub fn run_of_packets(rng: &mut Rng, marks: &Marks, n: usize) -> Vec<u8> {
    let mut packets = Vec::new();
    for i in 0..n {
        let packet = match rng.below(10) {
            _ if i == 0 && rng.one_in(2) => test_ready(),
            0 => start_stop(LOAD),
            1 => {
                let packet = rng.pick(&one_of_each());
                with_junk(rng, packet)
            }
            2 => request_sense(18),
            _ => any_packet(rng, marks),
        };
        packets.extend(packet);
    }
    packets
}

/// The stored pair: three sessions with B0h, C0h and both behind them, data and
/// audio, a short packet last.
pub fn stored_pair(seed: u64) -> Pair {
    let mut rng = Rng::new(seed);
    let table = three_sittings().bytes();
    let marks = Marks::of(table::read(&table).ok().as_ref());
    let mut packets = Vec::new();
    // K3: the power-on is told, and no change behind it.
    for packet in [test_ready(), request_sense(18), test_ready()] {
        packets.extend(packet);
    }
    // Each command twice; the packet behind the load among them is told of it.
    for packet in one_of_each().into_iter().chain(one_of_each()) {
        packets.extend(packet);
    }
    for packet in [
        start_stop(LOAD),
        test_ready(),
        request_sense(18),
        test_ready(),
        prevent(1),
        start_stop(EJECT),
        request_sense(18),
        prevent(0),
        start_stop(EJECT),
        test_ready(),
        request_sense(18),
        start_stop(LOAD),
        request_sense(18),
        test_ready(),
        // Formats 0 and 1 pass over B0h and C0h, format 2 returns them.
        toc(false, 0, 0, 804),
        toc(false, 1, 0, 804),
        toc(false, 2, 0, 804),
        toc(true, 2, 2, 804),
        toc(false, 2, 3, 60),
    ] {
        packets.extend(packet);
    }
    packets.extend(audio().concat());
    packets.extend(mode().concat());
    packets.extend(event().concat());
    packets.extend(run_of_packets(&mut rng, &marks, 700));
    packets.extend([0x12, 0, 0, 0, 36]);
    Pair { table, packets }
}

/// K2 on the three sittings: plays of one track, of two, to the last lead-out,
/// and those that fail; where they stand, paused and resumed. The listing has no
/// outside call, so a play stays where it begins.
fn audio() -> Vec<Packet> {
    vec![
        position(false),
        play(720, 100),
        position(false),
        position(true),
        pause(),
        sub_channel(false, false, 0, 16),
        pause(),
        resume(),
        play(4_499, 501),
        position(true),
        play(8_998, 2),
        sub_channel(true, true, 1, 15),
        play(8_998, 3),
        play(4_999, 2),
        play(700, 1),
        play(9, 1),
        play(9, 0),
        sub_channel(false, true, 2, 16),
        play(u32::MAX, 0),
        seek(4_600),
        pause(),
        resume(),
        position(false),
    ]
}

/// K4: the page by each page control, another page, and 55h, to which the listing
/// lends no list: 0 alone is the length of that.
fn mode() -> Vec<Packet> {
    let mut list: Vec<Packet> = (0..4).map(|control| mode_sense(control, 1, 16)).collect();
    list.extend([mode_sense(0, 1, 11), mode_sense(2, 1, 0)]);
    list.extend([0x00, 0x02, 0x0E, 0x3F].map(|page| mode_sense(0, page, 255)));
    list.extend([0, 16, 8, 0, 4_096].map(mode_select));
    list.push(mode_sense(3, 0x2A, 255));
    list
}

/// K7: 4Ah with no event waiting, and with those of an eject and of a load, which
/// are told once; short ones, other classes, and the Polled bit clear. The listing
/// has no button, so no press under lock.
fn event() -> Vec<Packet> {
    let (poll, mut not_polled) = (event_status(0x18, 8), event_status(0x18, 8));
    not_polled[1] = 0;
    vec![
        poll,
        poll,
        event_status(0x10, 8),
        prevent(1),
        start_stop(EJECT),
        poll,
        request_sense(18),
        prevent(0),
        start_stop(EJECT),
        event_status(0x10, 4),
        event_status(0x08, 8),
        event_status(0x10, 5),
        event_status(0x10, 8),
        start_stop(LOAD),
        not_polled,
        request_sense(18),
        event_status(0x07, 8),
        event_status(0x00, 3),
        poll,
        test_ready(),
        event_status(0xFF, 65_535),
    ]
}

/// K6: for each rule from 1 on a table that breaks it alone, three packets that
/// 4 refuses, and a short one that 1 does.
pub fn each_rule() -> Vec<Pair> {
    let mut packets = [test_ready(), request_sense(18), inquiry(36)].concat();
    packets.extend([0; 11]);
    let pair = |rule| Pair {
        table: several::alone(rule),
        packets: packets.clone(),
    };
    (1..=7).map(pair).collect()
}
