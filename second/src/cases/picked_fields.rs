//! Codes, fields, lengths and reads at their boundaries, picked by hand.

use crate::cases::packets::{
    capacity, inquiry, named_bits, one_of_each, plain, read10, read12, request_sense, seek, toc,
    with_junk, Marks, Packet, CODES, LENGTHS,
};
use crate::cases::picked_state::MEMORY;
use crate::cases::sheet::{
    disc_e, fullest, most_sessions, most_tracks, one_long_track, three_sittings, two_sessions,
    two_sittings, Sheet,
};
use crate::cases::stream::Stream;
use crate::drive::State;
use crate::rng::Rng;
use crate::table;

fn put_in(stream: &mut Stream, sheet: &Sheet) -> Marks {
    let bytes = sheet.bytes();
    stream.table(&bytes);
    stream.state(State::READY);
    Marks::of(table::read(&bytes).ok().as_ref())
}

/// All 256 operation codes, loaded; not loaded the known ones and one in four.
pub fn codes(stream: &mut Stream) {
    put_in(stream, &disc_e());
    for state in [State::READY, State::EMPTY, State::READY.opened()] {
        stream.memory(MEMORY, 0x11);
        for code in 0..=255u8 {
            if state.loaded() || CODES.contains(&code) || code % 4 == 1 {
                stream.packet_from(state, &plain(code));
            }
        }
    }
    stream.state(State::READY.power_on());
    for code in [0xFF, 0x04, 0xBE] {
        stream.packet(&plain(code));
    }
}

/// Every bit of every command turned over, then all unnamed ones at random.
pub fn bits(stream: &mut Stream) {
    put_in(stream, &disc_e());
    stream.memory(MEMORY, 0x77);
    for packet in packets_for_bits() {
        let named = named_bits(packet[0]);
        for bit in 8..96 {
            let mut p = packet;
            p[bit / 8] ^= 0x80 >> (bit % 8);
            let silent = named[bit / 8] & 0x80 >> (bit % 8) == 0;
            // Unnamed bits of 00h, 25h and the like: one in five is enough.
            if !silent || bit % 5 == 0 || packet[0] == 0x43 {
                stream.packet_from(State::READY, &p);
            }
        }
    }
    let mut rng = Rng::new(0xB175);
    for packet in one_of_each() {
        for _ in 0..4 {
            stream.packet_from(State::READY, &with_junk(&mut rng, packet));
        }
    }
}

fn packets_for_bits() -> Vec<Packet> {
    let mut list: Vec<Packet> = CODES.into_iter().map(plain).collect();
    list.extend([
        request_sense(18),
        inquiry(36),
        read10(149, 1),
        read12(149, 1),
        seek(299),
        toc(false, 0, 0, 20),
        toc(true, 1, 0, 20),
        toc(false, 2, 1, 40),
    ]);
    list
}

/// Allocation lengths around every answer's end.
pub fn lengths(stream: &mut Stream) {
    for sheet in [disc_e(), three_sittings()] {
        put_in(stream, &sheet);
        // Of the long ones, past every answer here, three are enough.
        let few = |length: &u16| *length < 256 || [804, 6_538, 65_535].contains(length);
        for length in LENGTHS.into_iter().filter(few) {
            stream.memory(MEMORY, length as u8);
            for format in 0..3 {
                stream.packet(&toc(false, format, 0, length));
                stream.packet(&toc(true, format, 1, length));
            }
            if length < 256 {
                stream.packet(&request_sense(length as u8));
                stream.packet(&inquiry(length as u8));
            }
            stream.packet(&capacity());
        }
    }
    // 99 tracks make 804 bytes, 99 sessions 4,360, and 6,538 with K1's rows.
    put_in(stream, &most_tracks());
    for length in [3, 4, 803, 804, 805, 65_535] {
        stream.memory(MEMORY, 0xD7);
        stream.packet(&toc(false, 0, 0, length));
        stream.packet(&toc(true, 0, 1, length));
    }
    put_in(stream, &most_sessions());
    stream.memory(MEMORY + 1, 0xD7);
    stream.packet(&toc(false, 2, 0, 4_359));
    put_in(stream, &fullest());
    // Around a header, a row, a session and the old bound; the whole and what is
    // next to it `picked_state::longest_answer` has.
    for length in [
        0, 1, 2, 3, 4, 5, 14, 15, 16, 69, 70, 71, 255, 256, 804, 4_361,
    ] {
        stream.memory(MEMORY + length % 2, 0xD7);
        stream.packet(&toc(length % 3 == 0, 2, (length % 2) as u8, length));
    }
    for number in [50, 97, 98] {
        stream.packet(&toc(false, 2, number, 6_537));
    }
    for format in 0..3 {
        stream.packet(&toc(true, format, 99, 65_535));
        stream.packet(&toc(true, format, 100, 65_535));
    }
    stream.memory(MEMORY, 0x00);
}

/// N for formats 0 to 2, with and without MSF.
pub fn toc_numbers(stream: &mut Stream) {
    for sheet in [disc_e(), two_sessions(), three_sittings()] {
        let mut numbers = put_in(stream, &sheet).numbers;
        numbers.extend([3, 4, 5, 6, 7, 8, 0x7F, 0x80, 0xA1, 0xA2, 0xAC, 0xFE]);
        // B0h and C0h are no track's number.
        numbers.extend([0xAF, 0xB0, 0xB1, 0xBF, 0xC0, 0xC1]);
        numbers.sort_unstable();
        numbers.dedup();
        for &number in &numbers {
            for format in 0..3 {
                stream.packet(&toc(false, format, number, 804));
                stream.packet(&toc(true, format, number, 804));
            }
        }
    }
    for sheet in [fullest(), most_tracks()] {
        put_in(stream, &sheet);
        for number in [0, 1, 50, 98, 99, 100, 0xA9, 0xAA, 0xAB, 0xFF] {
            for format in 0..3 {
                stream.packet(&toc(number % 2 == 0, format, number, 60));
            }
        }
        stream.packet(&toc(false, 0, 98, 804));
        stream.packet(&toc(false, 2, 98, 804));
    }
}

/// Formats 0 to 15 under every high nibble.
pub fn toc_formats(stream: &mut Stream) {
    put_in(stream, &two_sittings());
    for byte_2 in 0..=255 {
        stream.packet(&toc(byte_2 % 3 == 0, byte_2, byte_2 % 2, 24));
    }
    // The place where older packets keep the format is not looked at.
    for byte_9 in [0x40, 0x80, 0xC0] {
        let mut p = toc(false, 0, 1, 804);
        p[9] = byte_9;
        stream.packet(&p);
    }
}

/// READ and SEEK at every mark of small discs.
pub fn reads(stream: &mut Stream) {
    for sheet in [disc_e(), two_sessions(), three_sittings()] {
        let marks = put_in(stream, &sheet);
        stream.memory(MEMORY, 0x33);
        let mut addresses: Vec<u32> = marks
            .blocks
            .iter()
            .flat_map(|&mark| [mark.wrapping_sub(1), mark, mark + 1])
            .collect();
        addresses.extend([0x7FFF_FFFF, 0x8000_0000, u32::MAX - 1, u32::MAX]);
        addresses.sort_unstable();
        addresses.dedup();
        for &address in &addresses {
            stream.packet(&seek(address));
            let counts = counts_for(&marks, address);
            for (i, &count) in counts.iter().enumerate() {
                // Both codes where the count has 16 bits, in turn elsewhere.
                if count < 65_536 && (i + address as usize).is_multiple_of(2) {
                    stream.packet(&read10(address, count as u16));
                } else {
                    stream.packet(&read12(address, count));
                }
            }
        }
    }
}

/// Counts that end next to the marks above an address, and very large ones.
fn counts_for(marks: &Marks, address: u32) -> Vec<u32> {
    let mut counts = vec![0, 1, u32::MAX];
    if address >= marks.end {
        counts.extend([2, 0u32.wrapping_sub(address)]);
        return counts;
    }
    for &mark in marks.blocks.iter().filter(|&&mark| mark > address) {
        counts.extend([mark - address, mark - address + 1]);
    }
    counts.extend([marks.end - address - 1, 65_535, 65_536]);
    // address + count is 2^32, one less, and L past it.
    let round = 0u32.wrapping_sub(address);
    counts.extend([round, round.wrapping_sub(1), round.wrapping_add(marks.end)]);
    counts.sort_unstable();
    counts.dedup();
    counts
}

/// Counts up to 449,849 on one long track, and across the fullest disc.
pub fn long_reads(stream: &mut Stream) {
    let marks = put_in(stream, &one_long_track());
    for address in [0, 1, 150, 65_535, 65_536, 449_847, 449_848, 449_849] {
        let left = marks.end - address;
        for count in [
            left,
            left.wrapping_sub(1),
            left + 1,
            0x1_0000,
            0xFFFF,
            0xFFFF_FFFF,
            0u32.wrapping_sub(address),
        ] {
            stream.packet(&read12(address, count));
            stream.packet(&read10(address, count as u16));
        }
        stream.packet(&seek(address));
    }
    for sheet in [fullest(), most_tracks()] {
        let marks = put_in(stream, &sheet);
        // The first marks, the last ones and one in four between.
        let end = marks.blocks.len();
        let some = |i: &usize| *i < 8 || i % 4 == 1 || i + 8 >= end;
        for mark in (0..end).filter(some).map(|i| marks.blocks[i]) {
            stream.packet(&read10(mark, 1));
            stream.packet(&read10(mark.saturating_sub(1), 2));
            stream.packet(&read12(mark, 100));
            stream.packet(&read12(mark, 2_501));
        }
        stream.packet(&read12(0, marks.end));
        stream.packet(&read12(0, marks.end + 1));
    }
}
