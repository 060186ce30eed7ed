//! K10: twins, two fit tables of one session "whose full format 0 answers (N 0, block
//! addresses) are equal". What they may differ in is free; what the track list tells is
//! changed here too, singly, and so is the one session.

use crate::cases::sheet::{any_mode_5, fit, mode_5, Plan, Sheet, FREE, MODE_5};
use crate::limits::{PACKET, ROW};
use crate::rng::Rng;
use crate::table::{self, Disc};
use crate::toc::{self, TocRequest};

/// "full format 0 answers (N 0, block addresses)".
pub fn track_list(disc: &Disc) -> Vec<u8> {
    let request = TocRequest {
        msf: false,
        format: 0,
        number: 0,
    };
    toc::full_answer(disc, request).expect("N 0 is over no track")
}

/// Whether both are fit, of one session, with equal track lists, and not the same.
pub fn are_twins(one: &[u8], other: &[u8]) -> bool {
    let [Ok(first), Ok(second)] = [one, other].map(table::read) else {
        return false;
    };
    let single = first.sessions.len() == 1 && second.sessions.len() == 1;
    single && one != other && track_list(&first) == track_list(&second)
}

/// "every packet except READ TOC format 2": by byte 2's low nibble, whatever N is.
pub fn is_format_2(packet: &[u8]) -> bool {
    packet.len() == PACKET && packet[0] == 0x43 && packet[2] & 0x0F == 2
}

/// An edit of a sheet of one session.
pub type Way = fn(&mut Sheet);

/// The row of the last track: A0, A1, A2 and tracks come before B0h and C0h.
fn last_track(sheet: &Sheet) -> usize {
    let tracks = sheet.rows.iter().filter(|row| row[3] < 100);
    2 + tracks.count()
}

/// Takes the B0h or C0h away, or puts one in its place.
fn turn_over(sheet: &mut Sheet, point: u8, free: [u8; 7]) {
    match sheet.points(point)[..] {
        [at, ..] => {
            sheet.rows.remove(at);
        }
        [] => put(sheet, mode_5(1, point, point >> 4, free)),
    }
}

/// Puts a B0h or C0h in its place, B0h before C0h.
fn put(sheet: &mut Sheet, row: [u8; ROW]) {
    let before_c0 = sheet.points(MODE_5[1]).first().copied();
    let at = before_c0.filter(|_| row[3] == MODE_5[0]);
    sheet.rows.insert(at.unwrap_or(sheet.rows.len()), row);
}

/// Other free bytes in the B0h or C0h, where there is one.
fn other_bytes(sheet: &mut Sheet, point: u8) {
    for at in sheet.points(point) {
        sheet.rows[at][1] ^= 0x0F;
        sheet.rows[at][4..]
            .iter_mut()
            .for_each(|byte| *byte ^= 0x5A);
    }
}

/// 00h, 10h, 20h in turn.
fn next_type(sheet: &Sheet) -> u8 {
    (sheet.rows[0][9] + 0x10) % 0x30
}

/// What twins may differ in, each singly: controls, disc type, MIN, SEC and FRAME of
/// any descriptor, B0h and C0h.
pub const WAYS: [(&str, Way); 14] = [
    ("A0's control", |sheet| sheet.rows[0][1] ^= 0x04),
    ("A1's control", |sheet| sheet.rows[1][1] ^= 0x05),
    ("disc type", |sheet| sheet.rows[0][9] = next_type(sheet)),
    ("disc type, the third", |sheet| {
        sheet.rows[0][9] = next_type(sheet);
        sheet.rows[0][9] = next_type(sheet);
    }),
    ("MIN of A0", |sheet| sheet.rows[0][4] ^= 0xFF),
    ("SEC of A1", |sheet| sheet.rows[1][5] ^= 0x40),
    ("FRAME of A2", |sheet| sheet.rows[2][6] ^= 0x01),
    ("MIN of the first track", |sheet| sheet.rows[3][4] ^= 0x02),
    ("SEC and FRAME of the last track", |sheet| {
        let at = last_track(sheet);
        sheet.rows[at][5] ^= 0x80;
        sheet.rows[at][6] ^= 0x4A;
    }),
    ("B0h", |sheet| turn_over(sheet, 0xB0, FREE[4])),
    ("C0h", |sheet| turn_over(sheet, 0xC0, FREE[3])),
    ("B0h's bytes", |sheet| other_bytes(sheet, 0xB0)),
    ("C0h's bytes", |sheet| other_bytes(sheet, 0xC0)),
    ALL,
];

pub const ALL: (&str, Way) = ("all together", all_together);

/// Every free byte is another, but for B0h and C0h, which are there or not.
fn all_together(sheet: &mut Sheet) {
    for row in &mut sheet.rows {
        let free = free_bits(row[3]);
        row.iter_mut()
            .zip(free)
            .for_each(|(byte, bits)| *byte ^= bits);
    }
    sheet.rows[0][9] = next_type(sheet);
    turn_over(sheet, 0xB0, FREE[0]);
    turn_over(sheet, 0xC0, FREE[7]);
}

/// The bits of a row of this POINT that are free; A0's disc type has three values and
/// is left out.
pub fn free_bits(point: u8) -> [u8; ROW] {
    let mut bits = [0; ROW];
    bits[4..7].fill(0xFF);
    if point >= 0xA0 && point != 0xA2 {
        bits[1] = 0x0F;
    }
    if MODE_5.contains(&point) {
        bits[7..].fill(0xFF);
    }
    bits
}

/// A twin of a sheet of one session: another in one way, in all, or in any.
pub fn twin_of(rng: &mut Rng, sheet: &Sheet) -> Sheet {
    loop {
        let mut twin = sheet.clone();
        match rng.below(4) {
            0 => (WAYS[rng.below(WAYS.len())].1)(&mut twin),
            1 => all_together(&mut twin),
            _ => any_ways(rng, &mut twin),
        }
        if twin.rows != sheet.rows {
            return twin;
        }
    }
}

fn any_ways(rng: &mut Rng, sheet: &mut Sheet) {
    let often = rng.range(1, 4);
    for row in &mut sheet.rows {
        let free = free_bits(row[3]);
        for (byte, bits) in row.iter_mut().zip(free) {
            if rng.one_in(often) {
                *byte ^= rng.byte() & bits;
            }
        }
    }
    if rng.one_in(2) {
        sheet.rows[0][9] = rng.pick(&[0x00, 0x10, 0x20]);
    }
    for point in MODE_5 {
        match (rng.below(3), sheet.points(point).first()) {
            (0, Some(&at)) => {
                sheet.rows.remove(at);
            }
            (0, None) => {
                let row = any_mode_5(rng, sheet, 1, point);
                put(sheet, row);
            }
            _ => {}
        }
    }
}

/// A fit table of one session, small most often.
pub fn one_session(rng: &mut Rng) -> Sheet {
    let tracks = match rng.below(60) {
        0 => 99,
        1 => rng.range(1, 99),
        _ => rng.range(1, 6),
    };
    fit(rng, 1, tracks)
}

/// Tracks 5 to 9, data and audio, from block 10 on, then B0h and C0h. The controls of
/// A0, A1 and A2 are others than those of the first and the last track.
pub fn five_tracks() -> Sheet {
    let tracks = [
        (10, 0x14),
        (20, 0x10),
        (150, 0x16),
        (300, 0x11),
        (650, 0x18),
    ];
    let mut sheet = Sheet::lay_out(5, &[Plan::new(700, 0x1D, &tracks)]);
    sheet.rows[0][1] = 0x12;
    sheet.rows[1][1] = 0x1F;
    for (point, free) in MODE_5.into_iter().zip(FREE) {
        put(&mut sheet, mode_5(1, point, 4, free));
    }
    sheet
}

/// What the track list tells, each changed singly as far as a fit table allows: a track
/// more or less is another first or last one too.
pub const TOLD: [(&str, Way); 9] = [
    ("numbers", |sheet| {
        for at in 0..2 {
            sheet.rows[at][8] += 1;
        }
        let tracks = sheet.rows.iter_mut().filter(|row| row[3] < 100);
        tracks.for_each(|row| row[3] += 1);
    }),
    ("a first track less", |sheet| {
        sheet.rows[0][8] += 1;
        sheet.rows.remove(3);
    }),
    ("a last track less", |sheet| {
        sheet.rows[1][8] -= 1;
        sheet.rows.remove(last_track(sheet));
    }),
    ("first track's control", |sheet| sheet.rows[3][1] ^= 0x01),
    ("last track's control", |sheet| {
        let at = last_track(sheet);
        sheet.rows[at][1] ^= 0x08;
    }),
    ("first track's start", |sheet| sheet.rows[3][10] ^= 0x01),
    ("last track's start", |sheet| {
        let at = last_track(sheet);
        sheet.rows[at][10] ^= 0x01;
    }),
    ("lead-out's control", |sheet| sheet.rows[2][1] ^= 0x04),
    ("lead-out", |sheet| sheet.rows[2][10] ^= 0x01),
];

/// Four tracks of one session from 1 on: the second and the last have this control, the
/// others that one. `split` has the same track list.
pub fn whole(even: u8, odd: u8) -> Sheet {
    let tracks = [(0, odd), (400, even), (12_300, odd), (12_800, even)];
    Sheet::lay_out(1, &[Plan::new(13_000, 0x16, &tracks)])
}

/// The same tracks in two sessions, cut behind the second track, the first session's
/// lead-out here.
pub fn split(even: u8, odd: u8, lead_out: u32) -> Sheet {
    let [first, second] = [[(0, odd), (400, even)], [(12_300, odd), (12_800, even)]];
    let plans = [
        Plan::new(lead_out, 0x12, &first),
        Plan::new(13_000, 0x16, &second),
    ];
    Sheet::lay_out(1, &plans)
}

/// The same tracks in two sessions, cut behind the first track.
pub fn split_early(even: u8, odd: u8) -> Sheet {
    let first = Plan::new(300, 0x12, &[(0, odd)]);
    let rest = [(400, even), (12_300, odd), (12_800, even)];
    Sheet::lay_out(1, &[first, Plan::new(13_000, 0x16, &rest)])
}
