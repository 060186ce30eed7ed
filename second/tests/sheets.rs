//! K12: "Masters arrive as cue sheets." Each sentence by exact sheets; drawn sheets against
//! a second reading over the bytes alone; what is written read back; that where 13 refuses
//! no fit table would do; 000's samples; the program; and what the streams have of it.

mod common;

use std::collections::BTreeSet;
use std::fs;
use std::process::{Command, Output};

use common::good_on;
use second::address::to_msf;
use second::cases::bad::random_stream;
use second::cases::cue_files;
use second::cases::cue_sheet::*;
use second::cases::mmc_sheets::{self, samples, Printed};
use second::cases::packets::{capacity, test_ready, toc};
use second::cases::random::sheet_scene;
use second::cases::sheet::{disc_e, place};
use second::cases::stream::Stream;
use second::cases::{picked_cue, picked_cue_entries};
use second::cue::{self, turn, Entry, Mark};
use second::drive::State;
use second::limits::BOUND;
use second::replay::{self, take_record};
use second::rng::Rng;
use second::tally::{self, Sheets};
use second::{examples, files, listing, stored, table};

// ---- the call, and what is due

/// A call with this memory: its number, the bytes written and the memory behind it, held
/// to "memory past the table stays as it was" and to refusals that leave all of it.
fn called(sheet: &[u8], mut memory: Vec<u8>) -> (u8, usize, Vec<u8>) {
    let before = memory.clone();
    let result = turn(sheet, &mut memory);
    let (number, length) = match result {
        Ok(length) => (0, length),
        Err(refusal) => (refusal.number(), 0),
    };
    assert_eq!(memory.len(), before.len());
    assert_eq!(memory[length..], before[length..], "past {length} bytes");
    (number, length, memory)
}

/// The table of a sheet, or the number that refuses it, in a memory a little too large.
fn turned(sheet: &[u8]) -> Result<Vec<u8>, u8> {
    match called(sheet, vec![0xE1; BOUND + 7]) {
        (0, length, memory) => Ok(memory[..length].to_vec()),
        (number, ..) => Err(number),
    }
}

fn number(cue: &Cue) -> u8 {
    turned(&cue.bytes()).err().unwrap_or(0)
}

/// The table of a sheet that has one.
fn table_of(cue: &Cue) -> Vec<u8> {
    turned(&cue.bytes()).expect("it is written")
}

/// The descriptors of a table.
fn rows(table: &[u8]) -> Vec<&[u8]> {
    table[4..].chunks(11).collect()
}

/// Frames of an address of rule 6, from its bytes.
fn frames(time: &[u8]) -> Option<u32> {
    let [m, s, f] = [0, 1, 2].map(|part| u32::from(time[part]));
    let frames = (m * 60 + s) * 75 + f;
    (s <= 59 && f <= 74 && m <= 99 && frames >= 150).then_some(frames)
}

/// 02's sentences and the readings over the bytes alone, in the order of test: the table
/// that is due, or the number.
fn due(sheet: &[u8], memory: usize) -> Result<Vec<u8>, u8> {
    if memory < 6_538 {
        return Err(14);
    }
    if !sheet.len().is_multiple_of(8) {
        return Err(12);
    }
    due_table(sheet).ok_or(13)
}

fn due_table(sheet: &[u8]) -> Option<Vec<u8>> {
    let count = sheet.len() / 8;
    let entry = |at: usize| &sheet[at * 8..at * 8 + 8];
    let is = |at: usize, tno: u8, index: u8| entry(at)[1..3] == [tno, index];
    if count < 3 || !is(0, 0, 0) || !is(count - 1, 0xAA, 1) {
        return None;
    }
    if (0..count).any(|at| entry(at)[0] % 16 != 1) {
        return None;
    }
    let (mut tracks, mut before): (Vec<u8>, Option<(u8, u32)>) = (Vec::new(), None);
    let mut ends = Vec::new();
    for one in (1..count - 1).map(entry).filter(|one| one[2] == 1) {
        let (tno, start) = (one[1], frames(&one[5..])?);
        let follows = before.is_none_or(|(last, at)| last + 1 == tno && at < start);
        if tno == 0 || tno > 99 || !follows {
            return None;
        }
        before = Some((tno, start));
        ends.push((tno, one[0] / 16));
        tracks.extend([1, 0x10 + one[0] / 16, 0, tno, 0, 0, 0, 0]);
        tracks.extend(&one[5..]);
    }
    let out = entry(count - 1);
    if before?.1 >= frames(&out[5..])? {
        return None;
    }
    let [(first, a0), (last, a1)] = [ends[0], ends[ends.len() - 1]];
    let length = (2 + 33 + tracks.len()) as u16;
    let mut table = length.to_be_bytes().to_vec();
    table.extend([1, 1]);
    table.extend([1, 0x10 + a0, 0, 0xA0, 0, 0, 0, 0, first, 0, 0]);
    table.extend([1, 0x10 + a1, 0, 0xA1, 0, 0, 0, 0, last, 0, 0]);
    table.extend([1, 0x10 + out[0] / 16, 0, 0xA2, 0, 0, 0, 0]);
    table.extend(&out[5..]);
    table.extend(tracks);
    Some(table)
}

/// Held to the second reading, and the number that comes.
fn held(sheet: &[u8]) -> u8 {
    let found = turned(sheet);
    assert_eq!(found, due(sheet, BOUND), "{sheet:02X?}");
    found.err().unwrap_or(0)
}

/// The three tracks with this change: the number.
fn changed(change: impl FnOnce(&mut Cue)) -> u8 {
    let cue = three_tracks().with(change);
    held(&cue.bytes())
}

// ---- one sheet, byte by byte

/// Table E's tracks as a sheet give Table E; the three tracks this table, byte by byte.
#[test]
fn table_e_from_a_sheet() {
    assert_eq!(table_of(&two_tracks()), disc_e().bytes());
    let table = [
        0, 0x44, 1, 1, //
        1, 0x14, 0, 0xA0, 0, 0, 0, 0, 1, 0, 0, //
        1, 0x1A, 0, 0xA1, 0, 0, 0, 0, 3, 0, 0, //
        1, 0x17, 0, 0xA2, 0, 0, 0, 0, 0, 28, 50, //
        1, 0x14, 0, 1, 0, 0, 0, 0, 0, 2, 0, //
        1, 0x10, 0, 2, 0, 0, 0, 0, 0, 7, 25, //
        1, 0x1A, 0, 3, 0, 0, 0, 0, 0, 15, 25,
    ];
    assert_eq!(table_of(&three_tracks()), table);
    let sheet = [
        [0x91, 0x00, 0, 0, 0, 0, 0, 0],
        [0x41, 0x01, 0, 0, 0, 0, 0, 0],
        [0x41, 0x01, 1, 0, 0, 0, 2, 0],
        [0xC1, 0x02, 0, 0, 0, 0, 6, 0],
        [0x01, 0x02, 1, 0, 0, 0, 7, 25],
        [0x21, 0x02, 2, 0, 0, 0, 11, 25],
        [0xA1, 0x03, 1, 0, 0, 0, 15, 25],
        [0x71, 0xAA, 1, 0, 0, 0, 28, 50],
    ];
    assert_eq!(three_tracks().lines, sheet);
}

// ---- the refusals

/// "12 for a length not a multiple of 8": every length up to 900, whatever the bytes.
#[test]
fn whole_entries() {
    let sheet = tracks_from(1, 99).bytes();
    for length in 0..=sheet.len() + 9 {
        let mut cut = sheet.clone();
        cut.resize(length, 0);
        let due = match length {
            _ if length % 8 != 0 => 12,
            _ if length == sheet.len() => 0,
            _ => 13,
        };
        assert_eq!(held(&cut), due, "{length}");
    }
    for more in 1..8 {
        let odd = [&sheet[..], &sheet[..more]].concat();
        assert_eq!(held(&odd), 12);
    }
}

/// "14 for output memory under 6,538 bytes", whatever the table's length.
#[test]
fn memory_under_the_bound() {
    for cue in [two_tracks(), tracks_from(1, 99)] {
        let sheet = cue.bytes();
        for length in [0, 1, 59, 1_126, 4_360, 6_000, 6_536, 6_537] {
            for fill in [0, 0xA5] {
                let memory = vec![fill; length];
                assert_eq!(called(&sheet, memory.clone()), (14, 0, memory));
            }
        }
        for length in [6_538, 6_539, 8_191, 70_000] {
            assert_eq!(called(&sheet, vec![7; length]).0, 0);
        }
    }
}

/// "Refusals, in order of test: 14 .., 12 .., 13": in every combination.
#[test]
fn refusals_in_order() {
    let (good, bad) = (
        three_tracks(),
        three_tracks().with(|cue| cue.lines[0][1] = 1),
    );
    for short in [false, true] {
        for cut in 0..8 {
            for (cue, unfit) in [(&good, false), (&bad, true)] {
                let sheet = cue.bytes();
                let memory = vec![0x3C; BOUND - usize::from(short)];
                let found = called(&sheet[cut..], memory).0;
                let due = match (short, cut > 0, unfit) {
                    (true, ..) => 14,
                    (_, true, _) => 12,
                    (.., true) => 13,
                    _ => 0,
                };
                assert_eq!(found, due, "{short} {cut} {unfit}");
            }
        }
    }
}

/// A refused sheet leaves every byte, also of a table that was written before.
#[test]
fn refused_leaves_the_memory() {
    let (_, length, memory) = called(&three_tracks().bytes(), vec![0x77; BOUND]);
    assert_eq!(length, 70);
    let sheet = two_tracks().bytes();
    for refused in [&sheet[8..], &sheet[..sheet.len() - 1], &sheet[..24], &[]] {
        let (number, length, after) = called(refused, memory.clone());
        assert!(number > 0 && length == 0);
        assert_eq!(after, memory);
    }
}

// ---- an entry's bytes

/// "control high": every control in every place; those of the lead-in and of entries
/// passed over are not looked at.
#[test]
fn control_is_the_high_nibble() {
    let plain = table_of(&three_tracks());
    for control in 0..16u8 {
        let with = |at: usize| {
            let cue = three_tracks().with(|cue| cue.lines[at][0] = control << 4 | 1);
            table_of(&cue)
        };
        for at in [LEAD_IN_AT].into_iter().chain(PASSED_AT) {
            assert_eq!(with(at), plain, "{at} {control}");
        }
        for (at, track) in TRACKS_AT.into_iter().zip(3..) {
            assert_eq!(rows(&with(at))[track][1], 0x10 | control);
        }
        let [first, last, out] = [TRACKS_AT[0], TRACKS_AT[2], LEAD_OUT_AT].map(with);
        assert_eq!(rows(&first)[0][1], 0x10 | control);
        assert_eq!(rows(&last)[1][1], 0x10 | control);
        assert_eq!(rows(&out)[2][1], 0x10 | control);
    }
}

/// "ADR low" and "every ADR is 1": every other is 13, in the lead-in, in a track, in an
/// entry passed over and in the lead-out.
#[test]
fn adr_is_the_low_nibble() {
    for at in 0..=LEAD_OUT_AT {
        for adr in 0..16 {
            let found = changed(|cue| cue.lines[at][0] = cue.lines[at][0] & 0xF0 | adr);
            assert_eq!(found, if adr == 1 { 0 } else { 13 }, "{at} {adr}");
        }
        // As in a table: ADR high, control low.
        let bits = three_tracks().lines[at][0];
        let found = changed(|cue| cue.lines[at][0] = bits.rotate_left(4));
        assert_eq!(found, if bits >> 4 == 1 { 0 } else { 13 });
    }
}

/// The lead-in's ADR counts, though its control and address do not.
#[test]
fn adr_of_the_lead_in() {
    for (bits, due) in [(0x01, 0), (0xF1, 0), (0x00, 13), (0x42, 13), (0x10, 13)] {
        assert_eq!(changed(|cue| cue.lines[LEAD_IN_AT][0] = bits), due);
    }
}

/// So does that of an entry passed over, whatever its index and TNO.
#[test]
fn adr_of_an_entry_passed_over() {
    for index in (0..=255).filter(|&index| index != 1) {
        for (bits, due) in [(0x41, 0), (0x42, 13), (0x43, 13), (0x14, 13)] {
            let mut passed = line(4, index ^ 0x55, index, [1, 2, 3]);
            passed[0] = bits;
            let found = changed(|cue| cue.lines.insert(4, passed));
            assert_eq!(found, due, "{index} {bits:02X}");
        }
    }
}

#[test]
fn adr_of_the_lead_out() {
    for (bits, due) in [(0x01, 0), (0xF1, 0), (0x00, 13), (0x42, 13), (0x15, 13)] {
        assert_eq!(changed(|cue| cue.lines[LEAD_OUT_AT][0] = bits), due);
    }
}

/// The whole byte: a track's number is what its POINT has, of every value alone.
#[test]
fn tno_is_the_track() {
    for tno in 0..=255 {
        let sheet = Cue::lay_out(tno, &[(0, 4)], (300, 0)).bytes();
        let found = turned(&sheet);
        assert_eq!(held(&sheet), if (1..=99).contains(&tno) { 0 } else { 13 });
        if let Ok(table) = found {
            let points: Vec<u8> = rows(&table).iter().map(|row| row[3]).collect();
            assert_eq!(points, [0xA0, 0xA1, 0xA2, tno]);
        }
    }
}

/// The whole byte: 1 alone is a track's start.
#[test]
fn index_1_is_a_start() {
    for index in 0..=255 {
        // Track 3 is there or not; track 2 passed over leaves a gap.
        let last = three_tracks().with(|cue| cue.lines[TRACKS_AT[2]][2] = index);
        assert_eq!(held(&last.bytes()), 0);
        let tracks = rows(&table_of(&last)).len() - 3;
        assert_eq!(tracks, if index == 1 { 3 } else { 2 }, "{index}");
        let found = changed(|cue| cue.lines[TRACKS_AT[1]][2] = index);
        assert_eq!(found, if index == 1 { 0 } else { 13 });
    }
}

/// Every data form and every SCMS, in every place: not looked at.
#[test]
fn data_form_and_scms() {
    let plain = table_of(&three_tracks());
    for at in 0..=LEAD_OUT_AT {
        for byte in 0..=255 {
            for part in [3, 4] {
                let cue = three_tracks().with(|cue| cue.lines[at][part] = byte);
                assert_eq!(table_of(&cue), plain);
            }
        }
    }
}

/// M, S, F in this order, "plain binary": every address is the one written.
#[test]
fn times_are_plain_binary() {
    for block in (0..449_849)
        .step_by(61)
        .chain([4_349, 4_350, 449_847, 449_848])
    {
        let time = to_msf(block).expect("in range");
        let [m, s, f] = [time.m, time.s, time.f];
        let mut cue = Cue::lay_out(1, &[(0, 4)], (300, 0));
        cue.set_time(2, TOP);
        cue.set_time(1, [m, s, f]);
        assert_eq!(rows(&table_of(&cue))[3][8..], [m, s, f]);
        cue.set_time(1, [0, 2, 0]);
        cue.set_time(2, [m, s, f]);
        match turned(&cue.bytes()) {
            Ok(table) => assert_eq!(rows(&table)[2][8..], [m, s, f]),
            Err(number) => assert_eq!((number, block), (13, 0)),
        }
    }
    // 10h is sixteen, 59h no second.
    let cue = two_tracks().with(|cue| cue.set_time(3, [0x10, 0x10, 0x10]));
    assert_eq!(rows(&table_of(&cue))[2][8..], [16, 16, 16]);
    let cue = two_tracks().with(|cue| cue.set_time(3, [0x10, 0x59, 0x10]));
    assert_eq!(number(&cue), 13);
}

// ---- first and last entry

/// "first the lead-in (TNO 0, index 0 ..)": every other TNO or index is 13, and so are a
/// sheet without it and one with anything before it.
#[test]
fn first_is_the_lead_in() {
    for byte in 0..=255 {
        let due = if byte == 0 { 0 } else { 13 };
        assert_eq!(changed(|cue| cue.lines[0][1] = byte), due, "TNO {byte}");
        assert_eq!(changed(|cue| cue.lines[0][2] = byte), due, "index {byte}");
    }
    let first = |cue: &mut Cue| {
        cue.lines.remove(0);
    };
    assert_eq!(changed(first), 13);
    for before in three_tracks().lines[1..].iter().copied() {
        assert_eq!(changed(|cue| cue.lines.insert(0, before)), 13);
    }
    // Twice is no more than once: the second is passed over.
    assert_eq!(changed(|cue| cue.lines.insert(0, cue.lines[0])), 0);
}

/// "address ignored", and its control: neither moves the table, or refuses.
#[test]
fn lead_in_is_not_looked_at() {
    let plain = table_of(&two_tracks());
    let mut rng = Rng::new(12);
    for round in 0..500 {
        let cue = two_tracks().with(|cue| {
            cue.lines[0] = [rng.byte() & 0xF0 | 1, 0, 0, rng.byte(), rng.byte(), 0, 0, 0];
            let time = match round % 3 {
                0 => [255, 255, 255],
                1 => [rng.byte(), rng.byte(), rng.byte()],
                _ => place(200),
            };
            cue.set_time(0, time);
        });
        assert_eq!(table_of(&cue), plain);
    }
}

/// "AAh index 1 last": every other TNO or index is 13, and so are a sheet without it and
/// one with anything behind it, a second lead-out too.
#[test]
fn last_is_the_lead_out() {
    for byte in 0..=255 {
        let tno = changed(|cue| cue.lines[LEAD_OUT_AT][1] = byte);
        assert_eq!(tno, if byte == 0xAA { 0 } else { 13 }, "TNO {byte}");
        let index = changed(|cue| cue.lines[LEAD_OUT_AT][2] = byte);
        assert_eq!(index, if byte == 1 { 0 } else { 13 }, "index {byte}");
    }
    let last = |cue: &mut Cue| {
        cue.lines.pop();
    };
    assert_eq!(changed(last), 13);
    for behind in three_tracks().lines {
        assert_eq!(changed(|cue| cue.lines.push(behind)), 13);
    }
}

// ---- between

/// "between, other indexes are passed over": the table is the same, whatever index, TNO,
/// address, data form and place.
#[test]
fn other_indexes_are_passed_over() {
    let plain = table_of(&three_tracks());
    let mut rng = Rng::new(13);
    for index in (0..=255).filter(|&index| index != 1) {
        for tno in 0..=255u8 {
            let at = 1 + usize::from(tno.wrapping_add(index)) % LEAD_OUT_AT;
            let time = [rng.byte(), rng.byte(), rng.byte()];
            let mut passed = line(rng.byte() & 0x0F, tno, index, time);
            passed[3] = rng.byte();
            let cue = three_tracks().with_line(at, passed);
            assert_eq!(table_of(&cue), plain, "{passed:02X?}");
        }
    }
    // All of them gone, and many of them together.
    let bare = three_tracks().with(|cue| {
        let last = cue.lines.len() - 1;
        let mut at = 0;
        cue.lines.retain(|line| {
            at += 1;
            at == 1 || at == last + 1 || line[2] == 1
        });
    });
    assert_eq!(bare.lines.len(), 5);
    assert_eq!(table_of(&bare), plain);
}

/// A second TNO 0 index 0 is passed over too, at every place between.
#[test]
fn second_lead_in_is_passed_over() {
    let plain = table_of(&three_tracks());
    for at in 1..=LEAD_OUT_AT {
        for time in [[0; 3], [0, 2, 0], [255; 3]] {
            let cue = three_tracks().with_line(at, line(9, 0, 0, time));
            assert_eq!(table_of(&cue), plain);
        }
    }
}

/// An index 1 of TNO 0 between is no track's: 13, at every place and time.
#[test]
fn index_1_of_tno_0_between() {
    for at in 1..=LEAD_OUT_AT {
        for block in (0..2_100).step_by(25) {
            let line = line(4, 0, 1, place(block));
            assert_eq!(changed(|cue| cue.lines.insert(at, line)), 13);
        }
    }
}

/// AAh between: index 1 is no track's, 13; another index is passed over.
#[test]
fn lead_out_number_between() {
    for at in 1..=LEAD_OUT_AT {
        for index in 0..=255 {
            let line = line(7, 0xAA, index, place(1_500));
            let found = changed(|cue| cue.lines.insert(at, line));
            assert_eq!(found, if index == 1 { 13 } else { 0 }, "{at} {index}");
        }
    }
}

// ---- the tracks

/// Tracks of these numbers, their starts rising with their places or with the numbers.
fn numbered(numbers: &[u8], by_number: bool) -> Cue {
    let mut cue = tracks_from(1, numbers.len() as u8);
    for (at, &number) in numbers.iter().enumerate() {
        cue.lines[at + 1][1] = number;
        if by_number {
            cue.set_time(at + 1, [number.min(98), 2, 0]);
        }
    }
    let out = numbers.len() + 1;
    cue.set_time(out, TOP);
    cue
}

/// "index 1 of each track in rising order", and a fit table's f, f + 1, .. l: of all orders
/// of up to four numbers from 1 to 5 those alone that rise by one.
#[test]
fn tracks_rise_by_one() {
    let mut orders: Vec<Vec<u8>> = vec![vec![]];
    for _ in 0..4 {
        for order in orders.clone() {
            for number in 1..=5 {
                orders.push([&order[..], &[number]].concat());
            }
        }
        orders.sort();
        orders.dedup();
    }
    assert_eq!(orders.len(), 781);
    for order in &orders[1..] {
        let rises = order.windows(2).all(|pair| pair[0] + 1 == pair[1]);
        for by_number in [false, true] {
            let found = held(&numbered(order, by_number).bytes());
            assert_eq!(found, if rises { 0 } else { 13 }, "{order:?}");
        }
    }
}

/// "1 to 99": every run of numbers that ends by 99, and none that begins with 0 or goes on
/// to 100; so 99 tracks at most.
#[test]
fn track_numbers_are_1_to_99() {
    for first in 0..=255u8 {
        for count in (1..=101u8).step_by(7).chain([2, 99, 100]) {
            let Some(last) = first.checked_add(count - 1) else {
                continue;
            };
            let found = held(&tracks_from(first, count).bytes());
            let fits = first > 0 && last <= 99;
            assert_eq!(found, if fits { 0 } else { 13 }, "{first} to {last}");
        }
    }
    assert_eq!(table_of(&tracks_from(1, 99)).len(), 1_126);
    assert_eq!(held(&tracks_from(1, 255).bytes()), 13);
}

/// Without a track there is no table: lead-in and lead-out alone, with anything passed
/// over between.
#[test]
fn a_sheet_without_a_track() {
    let bare = two_tracks().with(|cue| {
        cue.lines.drain(1..3);
    });
    assert_eq!(bare.lines.len(), 2);
    assert_eq!(held(&bare.bytes()), 13);
    for index in (0..=255).filter(|&index| index != 1) {
        let cue = bare.with_line(1, line(4, 1, index, [0, 2, 0]));
        assert_eq!(held(&cue.bytes()), 13);
    }
    assert_eq!(
        held(&bare.with_line(1, line(4, 1, 1, [0, 2, 0])).bytes()),
        0
    );
}

/// Nothing at all is whole entries, and so 13; as is one entry of any kind.
#[test]
fn an_empty_sheet() {
    assert_eq!(held(&[]), 13);
    for line in three_tracks().lines {
        assert_eq!(held(&line), 13);
    }
    assert_eq!(called(&[], vec![0; BOUND - 1]).0, 14);
}

/// Rule 6 of a track: from 00:02:00 to 99:59:74, seconds to 59, frames to 74.
#[test]
fn addresses_of_tracks() {
    let one = Cue::lay_out(1, &[(0, 4)], (300, 0)).with(|cue| cue.set_time(2, TOP));
    let two = two_tracks().with(|cue| cue.set_time(3, TOP));
    for m in [0, 1, 2, 98, 99, 100, 128, 255] {
        for s in [0, 1, 2, 3, 58, 59, 60, 61, 128, 255] {
            for f in [0, 1, 73, 74, 75, 76, 128, 255] {
                let fits = frames(&[m, s, f]);
                let first = held(&one.with(|cue| cue.set_time(1, [m, s, f])).bytes());
                let before_out = fits.is_some_and(|at| at < 449_999);
                assert_eq!(first == 0, before_out, "{m} {s} {f}");
                let second = held(&two.with(|cue| cue.set_time(2, [m, s, f])).bytes());
                let between = fits.is_some_and(|at| (151..449_999).contains(&at));
                assert_eq!(second == 0, between, "{m} {s} {f}");
            }
        }
    }
}

/// Rule 6 of the lead-out.
#[test]
fn addresses_of_the_lead_out() {
    let one = Cue::lay_out(1, &[(0, 4)], (300, 0));
    for m in [0, 1, 2, 98, 99, 100, 128, 255] {
        for s in [0, 1, 2, 3, 58, 59, 60, 61, 128, 255] {
            for f in [0, 1, 73, 74, 75, 76, 128, 255] {
                let found = held(&one.with(|cue| cue.set_time(2, [m, s, f])).bytes());
                let fits = frames(&[m, s, f]).is_some_and(|at| at > 150);
                assert_eq!(found == 0, fits, "{m} {s} {f}");
            }
        }
    }
}

/// Rule 7: starts rise, by a frame at least, over every border.
#[test]
fn starts_rise() {
    for block in [1, 74, 75, 4_349, 4_350, 100_000, 449_846] {
        for by in [-2, -1, 0, 1, 2] {
            let after = (block as i32 + by).max(0) as u32;
            let cue = Cue::lay_out(1, &[(block, 4), (after.min(449_848), 0)], (449_849, 0));
            let found = held(&cue.bytes());
            assert_eq!(found == 0, by > 0, "{block} {by}");
        }
    }
    for (blocks, due) in [
        ([1, 2, 3], 0),
        ([1, 3, 2], 13),
        ([2, 1, 3], 13),
        ([3, 2, 1], 13),
    ] {
        let cue = Cue::lay_out(1, &blocks.map(|block| (block, 0)), (9, 0));
        assert_eq!(held(&cue.bytes()), due);
    }
}

/// Rule 7: the lead-out behind the last start, by a frame at least.
#[test]
fn lead_out_behind_the_last_start() {
    for count in [1, 2, 98, 99] {
        let last = (u32::from(count) - 1) * 100;
        for (by, due) in [(0, 13), (1, 13), (2, 0), (50, 0)] {
            let out = usize::from(count) + 1;
            let Some(block) = (last + by).checked_sub(1) else {
                continue;
            };
            let cue = tracks_from(1, count).with(|cue| cue.set_time(out, place(block)));
            assert_eq!(held(&cue.bytes()), due, "{count} {by}");
        }
    }
}

// ---- the table

/// Sheets that are written, picked and drawn.
fn written() -> Vec<Cue> {
    let mut rng = Rng::new(14);
    let mut cues = picked_cue::written();
    cues.extend((0..400).map(|_| any_written(&mut rng)));
    cues
}

/// The data length counts what stands behind it; first and last session are 1.
#[test]
fn header_of_the_table() {
    for cue in written() {
        let table = table_of(&cue);
        let length = usize::from(u16::from_be_bytes([table[0], table[1]]));
        assert_eq!(length, table.len() - 2);
        assert_eq!(table.len(), 4 + 11 * (3 + cue.starts().len()));
        assert_eq!(table[2..4], [1, 1]);
    }
}

/// Each descriptor: session 1, ADR 1, TNO 0, MIN, SEC, FRAME and ZERO 0; in the order A0h,
/// A1h, A2h, tracks, and nothing more.
#[test]
fn descriptors_of_the_table() {
    for cue in written() {
        let table = table_of(&cue);
        let numbers = cue.starts().into_iter().map(|at| cue.lines[at][1]);
        let points: Vec<u8> = [0xA0, 0xA1, 0xA2].into_iter().chain(numbers).collect();
        assert_eq!(rows(&table).len(), points.len());
        for (row, point) in rows(&table).into_iter().zip(points) {
            assert_eq!((row[0], row[1] >> 4, row[2], row[3]), (1, 1, 0, point));
            assert_eq!(row[4..8], [0, 0, 0, 0]);
        }
    }
}

/// "A0 and A1 take the first and last track's control", their numbers, and "disc type" 0;
/// A2 takes the lead-out entry's control and address, a track its own.
#[test]
fn numbers_controls_and_addresses() {
    for cue in written() {
        let (starts, out) = (cue.starts(), cue.lines[cue.lines.len() - 1]);
        let (first, last) = (cue.lines[starts[0]], cue.lines[starts[starts.len() - 1]]);
        let table = table_of(&cue);
        let rows = rows(&table);
        assert_eq!(rows[0][1] & 0x0F, first[0] >> 4);
        assert_eq!(rows[0][8..], [first[1], 0, 0]);
        assert_eq!(rows[1][1] & 0x0F, last[0] >> 4);
        assert_eq!(rows[1][8..], [last[1], 0, 0]);
        assert_eq!(rows[2][1] & 0x0F, out[0] >> 4);
        assert_eq!(rows[2][8..], out[5..]);
        for (row, at) in rows[3..].iter().zip(starts) {
            let line = cue.lines[at];
            assert_eq!((row[1] & 0x0F, row[3]), (line[0] >> 4, line[1]));
            assert_eq!(row[8..], line[5..]);
        }
    }
}

/// "no B0h or C0h", though a fit table may have them.
#[test]
fn no_b0_and_no_c0() {
    for cue in written() {
        let table = table_of(&cue);
        assert!(rows(&table).iter().all(|row| row[3] < 0xB0));
        let mut more = table.clone();
        more.extend([1, 0x50, 0, 0xB0, 0, 0, 0, 0, 0, 0, 0]);
        let length = more.len() as u16 - 2;
        more[..2].copy_from_slice(&length.to_be_bytes());
        assert_eq!(table::broken_rule(&more), 0);
    }
}

/// What is written is the table's length, in a memory of any length from the bound on;
/// "memory past the table stays as it was".
#[test]
fn bytes_written_and_past() {
    let mut rng = Rng::new(15);
    for cue in written() {
        let table = table_of(&cue);
        for length in [BOUND, BOUND + 1, 8_191] {
            let mut memory = rng.bytes(300);
            memory.resize(length, rng.byte());
            let (number, bytes, after) = called(&cue.bytes(), memory.clone());
            assert_eq!((number, bytes), (0, table.len()));
            assert_eq!(after[..bytes], table);
            assert_eq!(after[bytes..], memory[bytes..]);
        }
    }
    // A shorter table over a longer one.
    let (_, _, memory) = called(&tracks_from(1, 99).bytes(), vec![9; BOUND]);
    let (_, length, after) = called(&two_tracks().bytes(), memory.clone());
    assert_eq!((length, &after[59..]), (59, &memory[59..]));
}

/// "The written table is fit", of one session, whatever the sheet.
#[test]
fn written_tables_are_fit() {
    let mut rng = Rng::new(16);
    let mut tables = 0;
    for _ in 0..20_000 {
        if let Ok(table) = turned(&any_sheet(&mut rng)) {
            let disc = table::read(&table).expect("it is fit");
            assert_eq!(disc.sessions.len(), 1);
            assert_eq!(table[3], 1);
            tables += 1;
        }
    }
    assert!((8_000..14_000).contains(&tables), "{tables}");
}

/// A sheet's tracks, as number, control and frames, and its lead-out's control and frames.
type Contents = (Vec<(u8, u8, u32)>, (u8, u32));

/// Of a sheet's bytes: index 1 between first and last entry, and the last.
fn contents(sheet: &[u8]) -> Option<Contents> {
    let entries: Vec<&[u8]> = sheet.chunks(8).collect();
    let [_, between @ .., out] = &entries[..] else {
        return None;
    };
    let mut tracks = Vec::new();
    for entry in between.iter().filter(|entry| entry[2] == 1) {
        tracks.push((entry[1], entry[0] >> 4, frames(&entry[5..])?));
    }
    Some((tracks, (out[0] >> 4, frames(&out[5..])?)))
}

/// Read back by the drive's own reader: "exactly the sheet's tracks, controls and
/// addresses". The same by what a drive tells of it: format 0, and 25h.
#[test]
fn read_back() {
    for cue in written() {
        let (table, sheet) = (table_of(&cue), cue.bytes());
        let disc = table::read(&table).expect("it is fit");
        let (tracks, (control, out)) = contents(&sheet).expect("as described");
        let found = disc
            .tracks()
            .map(|track| (track.number, track.bits & 0x0F, track.start + 150));
        assert_eq!(found.collect::<Vec<_>>(), tracks);
        let session = disc.last_session();
        assert_eq!(
            (session.lead_out_bits & 0x0F, session.lead_out + 150),
            (control, out)
        );
        let list = good_on(&table, &toc(false, 0, 0, 804));
        let mut due = vec![tracks[0].0, tracks[tracks.len() - 1].0];
        for &(number, control, start) in &tracks {
            due.extend([0, 0x10 | control, number, 0]);
            due.extend((start - 150).to_be_bytes());
        }
        due.extend([0, 0x10 | control, 0xAA, 0]);
        due.extend((out - 150).to_be_bytes());
        assert_eq!(list[2..], due);
        assert_eq!(good_on(&table, &capacity())[..4], (out - 151).to_be_bytes());
    }
}

// ---- 13 exactly when

/// Sheets drawn in every way, each held to the second reading over the bytes, with
/// memories of both kinds; each way of being nearly right is met refused.
#[test]
fn drawn_sheets_by_two_readings() {
    let mut rng = Rng::new(17);
    let mut numbers = [0; 15];
    for _ in 0..60_000 {
        let sheet = any_sheet(&mut rng);
        numbers[usize::from(held(&sheet))] += 1;
        if rng.one_in(10) {
            let length = rng.pick(&[0, BOUND - 1, BOUND, BOUND + 1]);
            let (number, ..) = called(&sheet, vec![1; length]);
            assert_eq!(number, due(&sheet, length).err().unwrap_or(0));
        }
    }
    let [written, lengths, unfit] = [0, 12, 13].map(|number| numbers[number]);
    assert!(written > 25_000 && lengths > 2_000 && unfit > 15_000);
    for (name, miss) in MISSES {
        let (mut refused, mut written) = (0, 0);
        for _ in 0..600 {
            let mut cue = any_written(&mut rng);
            miss(&mut rng, &mut cue);
            match held(&cue.bytes()) {
                0 => written += 1,
                _ => refused += 1,
            }
        }
        assert!(refused > 60, "{name}: {refused} refused, {written} written");
    }
}

/// Bytes drawn over and over from the few that mean something: short sheets of any kind.
#[test]
fn sheets_of_drawn_bytes() {
    let mut rng = Rng::new(18);
    let mut written = 0;
    for _ in 0..100_000 {
        let count = rng.range(2, 5);
        let mut cue = Cue { lines: Vec::new() };
        for at in 0..count {
            let tno = match at {
                0 => rng.pick(&[0, 0, 0, 0, 1]),
                _ if at == count - 1 => rng.pick(&[0xAA, 0xAA, 0xAA, 0xAA, 2]),
                _ => rng.pick(&[at as u8, at as u8, 0, 0xAA, 99, 100]),
            };
            let index = if at == 0 {
                0
            } else {
                rng.pick(&[1, 1, 1, 0, 2])
            };
            let time = [0, rng.pick(&[2, 2, 3, 59, 60]), rng.pick(&[0, 1, 74, 75])];
            let mut line = line(rng.byte() & 0x0F, tno, index, time);
            if rng.one_in(20) {
                line[0] ^= 1 << rng.below(4);
            }
            cue.lines.push(line);
        }
        written += usize::from(held(&cue.bytes()) == 0);
    }
    assert!(written > 700, "{written}");
}

/// Every table of one session that has these tracks, controls and addresses, as far as a
/// descriptor is left any freedom: the controls of A0 and A1, the disc type, MIN, SEC and
/// FRAME, B0h and C0h, and the numbers in A0 and A1. Some are drawn.
fn tables_with(rng: &mut Rng, sheet: &[u8]) -> Vec<Vec<u8>> {
    let entries: Vec<&[u8]> = sheet.chunks(8).collect();
    let starts: Vec<&[u8]> = entries[1..entries.len() - 1]
        .iter()
        .copied()
        .filter(|entry| entry[2] == 1)
        .collect();
    let (first, last) = match &starts[..] {
        [] => (1, 1),
        [one, .., other] => (one[1], other[1]),
        [one] => (one[1], one[1]),
    };
    let out = entries[entries.len() - 1];
    let mut tables = Vec::new();
    for round in 0..48 {
        let numbers = match round % 4 {
            0 | 1 => (first, last),
            2 => (
                first,
                first.wrapping_add(starts.len() as u8).wrapping_sub(1),
            ),
            _ => (rng.byte(), rng.byte()),
        };
        let free = |rng: &mut Rng| match round % 2 {
            0 => [0; 3],
            _ => [rng.byte(), rng.byte(), rng.byte()],
        };
        let mut row = |bits: u8, point: u8, p: &[u8]| {
            let [min, sec, frame] = free(rng);
            [&[1, bits, 0, point, min, sec, frame, 0], p].concat()
        };
        let disc_type = [0x00, 0x10, 0x20][round % 3];
        let mut table = vec![0, 0, 1, 1];
        table.extend(row(
            0x10 | round as u8 & 0x0F,
            0xA0,
            &[numbers.0, disc_type, 0],
        ));
        table.extend(row(0x1F ^ round as u8 & 0x0F, 0xA1, &[numbers.1, 0, 0]));
        table.extend(row(0x10 | out[0] >> 4, 0xA2, &out[5..]));
        for entry in &starts {
            table.extend(row(0x10 | entry[0] >> 4, entry[1], &entry[5..]));
        }
        for (point, bit) in [(0xB0, 1), (0xC0, 2)] {
            if (round / 12) & bit != 0 {
                table.extend(row(0x50, point, &[1, 2, 3]));
            }
        }
        let length = table.len() as u16 - 2;
        table[..2].copy_from_slice(&length.to_be_bytes());
        tables.push(table);
    }
    tables
}

/// "A sheet is refused exactly when no fit table has those tracks, controls and addresses":
/// where 13 refuses one that is as described, none of the tables that would have them is
/// fit; where a sheet is written, the freedom is there, and many are.
#[test]
fn no_fit_table_where_refused() {
    let mut rng = Rng::new(19);
    let (mut refused, mut written) = (0, 0);
    while refused < 2_500 {
        let sheet = any_sheet(&mut rng);
        let result = turned(&sheet);
        if result == Err(12) || !cue::is_described(&sheet) {
            continue;
        }
        let tables = tables_with(&mut rng, &sheet);
        let fit = tables
            .iter()
            .filter(|table| table::broken_rule(table) == 0)
            .count();
        match result {
            Ok(_) => {
                assert!(fit >= 36, "{fit} {sheet:02X?}");
                written += 1;
            }
            Err(_) => {
                assert_eq!(fit, 0, "{sheet:02X?}");
                refused += 1;
            }
        }
    }
    assert!(written > 2_500, "{written}");
}

/// What is and what is not "as described", where 13 refuses: first and last entry, ADR and
/// rising order are; numbers, gaps and addresses are for the table.
#[test]
fn described_or_not() {
    let described = |cue: &Cue| {
        assert_eq!(number(cue), 13);
        cue::is_described(&cue.bytes())
    };
    let with = |change: &dyn Fn(&mut Cue)| three_tracks().with(change);
    for change in [
        &(|cue: &mut Cue| cue.lines[0][1] = 1) as &dyn Fn(&mut Cue),
        &|cue| cue.lines[0][0] = 0x92,
        &|cue| cue.lines[1][0] = 0x42,
        &|cue| cue.lines[LEAD_OUT_AT][2] = 0,
        &|cue| cue.lines[TRACKS_AT[1]][1] = 1,
        &|cue| cue.lines[TRACKS_AT[2]][1] = 1,
        &|cue| cue.lines.clear(),
    ] {
        assert!(!described(&with(change)));
    }
    for change in [
        &(|cue: &mut Cue| cue.lines[TRACKS_AT[0]][1] = 0) as &dyn Fn(&mut Cue),
        &|cue| cue.lines[TRACKS_AT[2]][1] = 4,
        &|cue| cue.lines[TRACKS_AT[2]][1] = 0xAA,
        &|cue| cue.lines[TRACKS_AT[1]][6] = 60,
        &|cue| cue.set_time(LEAD_OUT_AT, place(1_000)),
        &|cue| cue.lines.retain(|line| line[2] != 1 || line[1] == 0xAA),
    ] {
        assert!(described(&with(change)));
    }
}

/// The reader's own value: tracks and lead-out as the entries have them.
#[test]
fn what_a_sheet_says() {
    let entries: Vec<Entry> = three_tracks()
        .lines
        .iter()
        .map(|&line| Entry(line))
        .collect();
    let master = cue::read(&entries).expect("as described");
    let numbers: Vec<u8> = master.tracks.iter().map(|track| track.number).collect();
    assert_eq!(numbers, [1, 2, 3]);
    let Mark {
        number,
        control,
        time,
    } = master.lead_out;
    assert_eq!((number, control), (0xAA, 7));
    assert_eq!([time.m, time.s, time.f], [0, 28, 50]);
    assert!(cue::read(&entries[1..]).is_none());
    assert!(cue::read(&[]).is_none());
}

/// No bound on a sheet's length: 100,000 entries, right and wrong in the last but one; and
/// as many tracks.
#[test]
fn no_bound_on_the_length() {
    let passed = line(5, 7, 2, [1, 2, 3]);
    for count in [1_000, 1_023, 1_024, 8_192, 8_193, 100_000] {
        let mut cue = tracks_from(1, 99);
        let more = vec![passed; count - cue.lines.len()];
        cue.lines.splice(50..50, more);
        assert_eq!(cue.lines.len(), count);
        assert_eq!(turned(&cue.bytes()), Ok(table_of(&tracks_from(1, 99))));
        cue.lines[count - 2][0] ^= 3;
        assert_eq!(number(&cue), 13);
    }
    for count in [594, 6_000, 70_000] {
        let tracks = vec![line(4, 1, 1, [0, 2, 0]); count];
        let mut cue = two_tracks();
        cue.lines.splice(1..3, tracks);
        assert_eq!(held(&cue.bytes()), 13);
    }
    assert_eq!(long_sheet(1_000).bytes().len(), 8_000);
    assert_eq!(table_of(&long_sheet(1_023)), table_of(&tracks_from(1, 99)));
}

// ---- 000's samples

/// P.2 to P.6 as printed: written, with these tracks.
#[test]
fn samples_written_as_printed() {
    let tracks = |table: &[u8]| -> Vec<(u8, u8, [u8; 3])> {
        rows(table)[2..]
            .iter()
            .map(|row| (row[3], row[1], [row[8], row[9], row[10]]))
            .collect()
    };
    let find = |name: &str| {
        let all = samples();
        let (_, cue) = all.iter().find(|(one, _)| one == name).expect("a sample");
        tracks(&turned(&cue.bytes()).expect("it is written"))
    };
    let out = |control: u8, time| (0xA2, 0x10 | control, time);
    assert_eq!(
        find("mmc-p2"),
        [
            out(4, [0x23, 0x37, 0x46]),
            (1, 0x14, [0, 2, 0]),
            (2, 0x14, [7, 0x31, 0]),
            (3, 0x14, [0x14, 0x20, 3]),
        ]
    );
    assert_eq!(
        find("mmc-p3"),
        [out(4, [0x56, 0x37, 0x46]), (1, 0x14, [0, 2, 0])]
    );
    assert_eq!(
        find("mmc-p4"),
        [
            out(4, [0x14, 0x37, 0x46]),
            (1, 0x14, [0, 2, 0]),
            (2, 0x14, [7, 0x31, 0]),
        ]
    );
    assert_eq!(
        find("mmc-p5"),
        [
            out(0, [0x10, 0, 0]),
            (1, 0x14, [0, 2, 0]),
            (2, 0x10, [5, 2, 0])
        ]
    );
    assert_eq!(
        find("mmc-p6"),
        [
            out(0, [0x10, 0, 0]),
            (5, 0x10, [0, 2, 0]),
            (6, 0x10, [5, 2, 0]),
            (7, 0x10, [8, 2, 0]),
        ]
    );
    for (_, cue) in samples() {
        held(&cue.bytes());
    }
}

/// T155 and P.1 as printed: refused by 13, for their times, and P.1 for its ADRs too.
#[test]
fn samples_refused_as_printed() {
    for (name, lines) in mmc_sheets::REFUSED {
        let cue = Cue {
            lines: lines.iter().map(|&(_, line)| line).collect(),
        };
        assert_eq!(number(&cue), 13, "{name}");
        // Without the entries of a catalogue code and of an ISRC, the times alone.
        let plain = cue.with(|cue| cue.lines.retain(|line| line[0] & 0x0F == 1));
        assert!(cue::is_described(&plain.bytes()));
        assert_eq!(number(&plain), 13, "{name}");
    }
    assert!(!cue::is_described(&samples()[1].1.bytes()));
}

/// Both as meant: written, six tracks each, the lead-out at 56:37:46.
#[test]
fn samples_as_decimals() {
    let all = samples();
    let decimal = all.iter().filter(|(name, _)| name.ends_with("-decimal"));
    let tables: Vec<Vec<u8>> = decimal.map(|(_, cue)| table_of(cue)).collect();
    let [t155, p1] = &tables[..] else {
        panic!("two of them");
    };
    let starts = |table: &[u8]| -> Vec<[u8; 3]> {
        rows(table)[2..]
            .iter()
            .map(|row| [row[8], row[9], row[10]])
            .collect()
    };
    assert_eq!(
        starts(t155),
        [
            [56, 37, 46],
            [0, 2, 0],
            [7, 31, 71],
            [14, 18, 3],
            [19, 9, 62],
            [27, 40, 10],
            [38, 55, 23],
        ]
    );
    assert_eq!(
        starts(p1),
        [
            [56, 37, 46],
            [0, 2, 0],
            [7, 31, 0],
            [14, 20, 3],
            [19, 6, 0],
            [27, 40, 0],
            [38, 55, 74],
        ]
    );
    let bits: Vec<u8> = rows(t155).iter().map(|row| row[1]).collect();
    assert_eq!(bits, [0x10, 0x10, 0x10, 0x10, 0x10, 0x10, 0x14, 0x14, 0x10]);
}

/// Each printed entry has the line behind the one before it, in the tables' places.
#[test]
fn samples_have_the_drafts_lines() {
    let tables: [(&[Printed], u16, u16); 7] = [
        (&mmc_sheets::T155, 4051, 4063),
        (&mmc_sheets::P1, 5444, 5463),
        (&mmc_sheets::P2, 5481, 5488),
        (&mmc_sheets::P3, 5496, 5499),
        (&mmc_sheets::P4, 5505, 5510),
        (&mmc_sheets::P5, 5516, 5521),
        (&mmc_sheets::P6, 5525, 5532),
    ];
    for (lines, from, to) in tables {
        let found = lines.iter().map(|&(line, _)| line);
        assert!((from..=to).eq(found), "{from}");
    }
}

// ---- the stream

/// K12: "line `t N LEN SUM`, SUM of the whole memory afterwards"; a written sheet changes
/// the memory that later calls see.
#[test]
fn lines_of_sheets() {
    let mut stream = Stream::new();
    let sheet = two_tracks().bytes();
    stream.cue_sheet(&sheet);
    stream.memory(BOUND as u16, 0);
    stream.cue_sheet(&sheet[1..]);
    stream.cue_sheet(&sheet[8..]);
    stream.cue_sheet(&sheet);
    stream.table(&disc_e().bytes());
    stream.packet_from(State::READY, &test_ready());
    stream.packet(&toc(false, 2, 0, 65_535));
    let mut memory = vec![0; BOUND];
    let sum = |memory: &[u8]| format!("{:08X}", second::adler::adler32(memory));
    let blank = sum(&memory);
    memory[..59].copy_from_slice(&disc_e().bytes());
    let full = sum(&memory);
    let state = "01000 00 00 00 15 0 0 00 00 0";
    let data = replay::hex(&disc_e().bytes());
    let lines = [
        "t 14 0 00000001".to_string(),
        format!("t 12 0 {blank}"),
        format!("t 13 0 {blank}"),
        format!("t 0 59 {full}"),
        format!("p 0 00 0 0 0 {state} - {full}"),
        format!("p 0 00 59 0 0 {state} {data} {full}"),
    ];
    assert_eq!(replay::run(&stream.bytes), lines.join("\n") + "\n");
}

/// A sheet moves nothing but the memory: with sheets put between all calls of a stream,
/// written and refused, the other lines are the same but for memory and sum.
#[test]
fn nothing_else_moves() {
    let bare = |line: &str| {
        // A packet's data and sum, and every line without one, but for the sum; a data
        // read's line (K14) but for the byte as well, which stands in the memory.
        let mut words: Vec<&str> = line.split(' ').collect();
        let end = words.len() - usize::from(["p", "P", "w", "r"].contains(&words[0]));
        if words[0] == "r" {
            words[2] = "";
        }
        words[..end].join(" ")
    };
    for seed in [8, 16] {
        let stream = random_stream(seed, 3_000).bytes;
        let (mut with, mut rest) = (Stream::new(), &stream[..]);
        let sheets = [
            three_tracks().bytes(),
            two_tracks().bytes()[8..].to_vec(),
            vec![1],
        ];
        let mut turn = sheets.iter().cycle();
        while let Ok((kind, body, after)) = take_record(rest) {
            rest = after;
            with.record(kind, body);
            with.cue_sheet(turn.next().expect("again and again"));
        }
        let is_no_sheet = |line: &&str| !line.starts_with("t ");
        let (plain, mixed) = (replay::run(&stream), replay::run(&with.bytes));
        let plain: Vec<String> = plain.lines().filter(is_no_sheet).map(bare).collect();
        let mixed: Vec<String> = mixed.lines().filter(is_no_sheet).map(bare).collect();
        assert!(plain.len() >= 3_000);
        assert_eq!(plain, mixed);
    }
}

/// What a stream has of sheets: facts of each sheet with its memory and its number.
fn facts(stream: &[u8]) -> BTreeSet<String> {
    let lines = replay::run(stream);
    let mut lines = lines.lines();
    let (mut rest, mut memory, mut facts) = (stream, 0, BTreeSet::new());
    while let Ok((kind, body, after)) = take_record(rest) {
        rest = after;
        if let (replay::MEMORY, [high, low, _]) = (kind, body) {
            memory = usize::from(u16::from_be_bytes([*high, *low]));
        }
        if !replay::is_call(kind) {
            continue;
        }
        let Some(line) = lines.next() else { break };
        if kind != replay::CUE_SHEET || line == "bad record" {
            continue;
        }
        let number = line.split(' ').nth(1).expect("a number");
        assert_eq!(number, due(body, memory).err().unwrap_or(0).to_string());
        facts.extend(facts_of(body, memory, number));
    }
    facts
}

/// Facts of one sheet: what is at a border, in which place, and the number that came.
fn facts_of(sheet: &[u8], memory: usize, number: &str) -> Vec<String> {
    let mut facts = vec![
        format!("memory {memory}: {number}"),
        format!("remainder {}: {number}", sheet.len() % 8),
        format!("entries {}: {number}", sheet.len() / 8),
    ];
    let unfit = cue::turn(sheet, &mut vec![0; BOUND])
        .err()
        .map(|one| one.number());
    facts.push(format!("of itself {}: {number}", unfit.unwrap_or(0)));
    if memory < BOUND || !sheet.len().is_multiple_of(8) || sheet.len() < 24 {
        return facts;
    }
    let entries: Vec<&[u8]> = sheet.chunks(8).collect();
    let last = entries.len() - 1;
    let mut before: Option<&[u8]> = None;
    for (at, entry) in entries.iter().enumerate() {
        let place = match (at, entry[2]) {
            (0, _) => "lead-in",
            _ if at == last => "lead-out",
            (_, 1) => "track",
            _ => "passed over",
        };
        facts.push(format!("{place} ADR {}: {number}", entry[0] & 0x0F));
        facts.push(format!("{place} control {}: {number}", entry[0] >> 4));
        facts.push(format!("{place} index {}: {number}", entry[2]));
        facts.push(format!("{place} TNO {}: {number}", entry[1]));
        let [m, s, f] = [entry[5], entry[6], entry[7]];
        facts.push(format!("{place} at {m}:{s}:{f}: {number}"));
        facts.push(format!("{place} second {s}: {number}"));
        facts.push(format!("{place} frame {f}: {number}"));
        if (entry[1], entry[2]) == (0, 0) && place == "passed over" {
            facts.push(format!("second lead-in: {number}"));
        }
        if let ("track" | "lead-out", Some(one)) = (place, before) {
            let by = i16::from(entry[1]) - i16::from(one[1]);
            if place == "track" {
                facts.push(format!("tracks by {by}: {number}"));
            }
            if let (Some(from), Some(to)) = (frames(&one[5..]), frames(&entry[5..])) {
                let by = (i64::from(to) - i64::from(from)).signum();
                let next = if to.abs_diff(from) <= 1 {
                    "next"
                } else {
                    "far"
                };
                facts.push(format!("{place} {by} {next}: {number}"));
            }
        }
        if place == "track" {
            facts.push(format!("form {}: {number}", entry[3]));
            facts.push(format!("SCMS {}: {number}", entry[4]));
            before = Some(entry);
        }
    }
    let tracks = entries[1..last]
        .iter()
        .filter(|entry| entry[2] == 1)
        .count();
    facts.push(format!("{tracks} tracks: {number}"));
    facts
}

/// What every stream must have of sheets.
fn often() -> Vec<String> {
    let mut list = vec!["second lead-in: 0".to_string()];
    let mut put = |texts: &[&str]| list.extend(texts.iter().map(|text| text.to_string()));
    put(&[
        "memory 0: 14",
        "memory 4360: 14",
        "memory 6537: 14",
        "memory 6538: 0",
    ]);
    put(&[
        "memory 6538: 12",
        "memory 6538: 13",
        "memory 6539: 0",
        "memory 8191: 0",
    ]);
    put(&["of itself 0: 14", "of itself 12: 14", "of itself 13: 14"]);
    put(&[
        "entries 0: 13",
        "entries 1: 13",
        "entries 2: 13",
        "entries 3: 0",
    ]);
    put(&[
        "1 tracks: 0",
        "99 tracks: 0",
        "99 tracks: 13",
        "100 tracks: 13",
    ]);
    put(&[
        "tracks by 1: 0",
        "tracks by 0: 13",
        "tracks by 2: 13",
        "tracks by -1: 13",
    ]);
    put(&[
        "track 1 next: 0",
        "track 0 next: 13",
        "track -1 far: 13",
        "lead-out 1 next: 0",
    ]);
    put(&["lead-out 0 next: 13", "lead-out -1 next: 13"]);
    put(&[
        "track TNO 0: 13",
        "track TNO 170: 13",
        "track TNO 99: 0",
        "track TNO 100: 13",
    ]);
    put(&[
        "passed over TNO 170: 0",
        "passed over TNO 0: 0",
        "passed over TNO 255: 0",
    ]);
    put(&[
        "passed over index 0: 0",
        "passed over index 2: 0",
        "passed over index 99: 0",
    ]);
    put(&[
        "passed over index 100: 0",
        "passed over index 255: 0",
        "lead-in index 1: 13",
    ]);
    put(&[
        "lead-in TNO 1: 13",
        "lead-out index 0: 13",
        "lead-out TNO 99: 13",
    ]);
    put(&[
        "track at 0:1:74: 13",
        "track at 0:2:0: 0",
        "track second 60: 13",
        "track frame 75: 13",
    ]);
    put(&[
        "lead-out second 60: 13",
        "lead-out frame 75: 13",
        "lead-out at 99:59:74: 0",
    ]);
    put(&[
        "track at 100:0:0: 13",
        "lead-out at 100:0:0: 13",
        "lead-in second 60: 0",
    ]);
    for remainder in 1..8 {
        list.push(format!("remainder {remainder}: 12"));
    }
    for place in ["lead-in", "passed over", "track", "lead-out"] {
        for control in 0..16 {
            list.push(format!("{place} control {control}: 0"));
        }
        for adr in [0, 2, 3, 4, 5, 8, 9, 15] {
            list.push(format!("{place} ADR {adr}: 13"));
        }
    }
    list
}

/// The streams have every boundary of sheets, and no line that the second reading does not
/// give; the stored one has more.
#[test]
fn streams_have_every_boundary() {
    let stored = facts(&stored::stored_stream().bytes);
    let mut more = often();
    for place in ["lead-in", "passed over", "track", "lead-out"] {
        more.extend((2..16).map(|adr| format!("{place} ADR {adr}: 13")));
    }
    more.extend((0..=255).map(|byte| format!("form {byte}: 0")));
    more.extend((0..=255).map(|byte| format!("SCMS {byte}: 0")));
    let others = (0..=255).filter(|&index| index != 1);
    more.extend(others.map(|index| format!("passed over index {index}: 0")));
    more.extend((1..=99).map(|tno| format!("track TNO {tno}: 0")));
    more.extend((100..=112).map(|tno| format!("track TNO {tno}: 13")));
    for fact in [
        "entries 1000: 0",
        "entries 1023: 0",
        "255 tracks: 13",
        "track at 99:59:73: 0",
        "track at 99:59:74: 13",
        "lead-out at 0:1:74: 13",
        "lead-out at 0:2:1: 0",
        "lead-out at 0:2:0: 13",
    ] {
        more.push(fact.to_string());
    }
    for fact in more {
        assert!(stored.contains(&fact), "{fact}");
    }
    let mut scenes = Stream::new();
    let mut rng = Rng::new(20);
    for _ in 0..400 {
        sheet_scene(&mut scenes, &mut rng);
    }
    let drawn = facts(&scenes.bytes);
    for fact in often() {
        assert!(drawn.contains(&fact), "{fact}");
    }
}

/// Sheets are many in the streams, half of them written, and come on top of the calls
/// asked for.
#[test]
fn streams_have_sheets() {
    for seed in [112, 113] {
        let stream = random_stream(seed, 16_000);
        assert!(stream.calls - stream.sheets >= 16_000);
        let Sheets {
            written,
            lengths,
            memories,
            undescribed,
            unfit,
        } = tally::sheets(&stream.bytes);
        let refused = lengths + memories + undescribed + unfit;
        assert_eq!(written + refused, stream.sheets);
        assert!(stream.sheets > 600, "{}", stream.sheets);
        assert!(written * 3 > refused * 2 && refused * 3 > written * 2);
        assert!(lengths > 20 && memories > 10 && undescribed > 100 && unfit > 40);
    }
    let stored = tally::sheets(&stored::stored_stream().bytes);
    assert!(stored.written > 400 && stored.undescribed > 150 && stored.unfit > 100);
}

/// The picked sheets stand in the stored stream as they are picked.
#[test]
fn picked_sheets_are_stored() {
    let stored = stored::stored_stream().bytes;
    for maker in [
        picked_cue::refusals_in_order as fn(&mut Stream),
        picked_cue::long_sheets,
        picked_cue::nothing_else_moved,
        picked_cue_entries::adrs,
        picked_cue_entries::track_orders,
        mmc_sheets::mmc_samples,
    ] {
        let mut stream = Stream::new();
        maker(&mut stream);
        let whole = stored.windows(stream.bytes.len());
        assert_eq!(whole.filter(|part| *part == stream.bytes).count(), 1);
    }
}

/// What `tally` counts of a small stream, and how it prints it.
#[test]
fn tally_counts_sheets() {
    let mut stream = Stream::new();
    let sheet = two_tracks().bytes();
    stream.cue_sheet(&sheet);
    stream.memory(BOUND as u16, 0);
    for _ in 0..2 {
        stream.cue_sheet(&sheet);
        stream.cue_sheet(&sheet[..31]);
    }
    stream.cue_sheet(&sheet[..24]);
    stream.cue_sheet(&[&sheet[..8], &sheet[24..]].concat());
    stream.cue_sheet(&[&sheet[..8], &sheet[24..]].concat());
    stream.power_on();
    let due = Sheets {
        written: 2,
        lengths: 2,
        memories: 1,
        undescribed: 1,
        unfit: 2,
    };
    assert_eq!(tally::sheets(&stream.bytes), due);
    let tail = "sheets written 12 13-not-described 13-no-fit-table 14\nsheets 2 2 1 2 1\n";
    assert!(tally::print(&stream.bytes).contains(tail));
}

// ---- the program

/// Runs this program on a sheet in a file of its own.
fn run(name: &str, sheet: &[u8]) -> Output {
    let dir = std::env::temp_dir().join(format!("second-cue-{}-{name}", std::process::id()));
    files::write(&dir, &[("sheet".into(), sheet.to_vec())]).expect("a folder to write in");
    let output = Command::new(env!("CARGO_BIN_EXE_second"))
        .arg("cue")
        .arg(dir.join("sheet"))
        .output()
        .expect("it runs");
    fs::remove_dir_all(dir).expect("it was made");
    output
}

/// A sheet's table on standard output, and nothing more.
#[test]
fn program_prints_the_table() {
    for (cue, name) in [two_tracks(), ninety_nine(), long_sheet(20_000)]
        .iter()
        .zip(["a", "b", "c"])
    {
        let output = run(name, &cue.bytes());
        assert_eq!(output.status.code(), Some(0));
        assert_eq!(
            output.stdout,
            due(&cue.bytes(), BOUND).expect("it is written")
        );
        assert!(output.stderr.is_empty());
    }
}

/// A refusal's one line on standard error, and status 1.
#[test]
fn program_prints_a_refusals_line() {
    let whole = "refused 12: the sheet is not whole entries of 8 bytes\n";
    let unfit = "refused 13: the sheet is not as described, or no fit table has its tracks, \
                 controls and addresses\n";
    let sheet = two_tracks().bytes();
    for (sheet, line, name) in [
        (&sheet[1..], whole, "d"),
        (&sheet[8..], unfit, "e"),
        (&[], unfit, "f"),
    ] {
        let output = run(name, sheet);
        assert_eq!(output.status.code(), Some(1));
        assert!(output.stdout.is_empty());
        assert_eq!(String::from_utf8_lossy(&output.stderr), line);
    }
    let lines = cue::LINES.map(|(refusal, line)| (refusal.number(), line));
    for (number, line) in lines {
        assert!(line.starts_with(&format!("refused {number}: ")));
    }
    assert_eq!(lines.map(|(number, _)| number), [14, 12, 13]);
    assert!(lines[0]
        .1
        .ends_with(": the output memory is under 6,538 bytes"));
}

/// The files that `make-cue` writes: tables and both lines, sheets longer than the bound,
/// and what is expected of each by the second reading.
#[test]
fn files_of_sheets() {
    let (mut tables, mut lines, mut longest) = (0, BTreeSet::new(), 0);
    for number in 0..240 {
        let [(_, sheet), (_, expected)] = cue_files::turned(5, number, "x");
        longest = longest.max(sheet.len());
        match due(&sheet, BOUND) {
            Ok(table) => {
                assert_eq!(expected, table);
                tables += 1;
            }
            Err(number) => {
                let line = String::from_utf8(expected).expect("a line");
                assert!(line.starts_with(&format!("refused {number}: ")));
                assert!(line.ends_with('\n') && line.lines().count() == 1);
                lines.insert(number);
            }
        }
    }
    assert!((60..180).contains(&tables), "{tables}");
    assert_eq!(lines, [12, 13].into());
    assert!(longest > 20_000, "{longest}");
}

/// The stored run: 99 tracks, entries passed over, several controls, data forms and SCMS.
#[test]
fn stored_run_of_the_program() {
    let files = stored::files();
    let find = |name: &str| {
        let kept = files.iter().find(|(one, _)| one == name);
        &kept.expect("it is kept").1
    };
    assert_eq!(find("crates/cuefile/args"), b"sheet\n");
    let sheet = find("crates/cuefile/data/sheet");
    let table = find("crates/cuefile/stdout");
    assert_eq!(due(sheet, BOUND).as_ref(), Ok(table));
    assert_eq!(table.len(), 1_126);
    let entries: Vec<&[u8]> = sheet.chunks(8).collect();
    let kinds = |part: usize| {
        entries
            .iter()
            .map(|one| one[part])
            .collect::<BTreeSet<u8>>()
    };
    assert!(entries.len() > 200 && kinds(0).len() > 4 && kinds(3).len() > 6);
    assert!(kinds(2).len() > 3 && kinds(4).len() == 2);
}

/// The examples: a listing for each sheet that has a table, the line for the others.
#[test]
fn examples_of_sheets() {
    let files = examples::files();
    let find = |name: String| {
        let found = files.iter().find(|(one, _)| *one == name);
        found.unwrap_or_else(|| panic!("{name}")).1.clone()
    };
    let packets = find("tracks.packets".to_string());
    assert_eq!(packets.len(), 60);
    for (name, cue) in samples() {
        assert_eq!(find(format!("{name}.cue")), cue.bytes());
        let listed = String::from_utf8(find(format!("{name}.listing"))).expect("text");
        match due(&cue.bytes(), BOUND) {
            Ok(table) => {
                assert_eq!(listed, listing::print(&table, &packets));
                assert!(listed.lines().count() == 6 && !listed.contains("refused"));
            }
            Err(13) => assert!(listed.starts_with("refused 13: ")),
            Err(other) => panic!("{name}: {other}"),
        }
    }
}
