//! A table under construction: rows that can be edited before they are
//! written out, and fit ones drawn from the generator.

use std::collections::BTreeSet;

use crate::address;
use crate::limits::{HEADER, ROW, TOP_ADDRESS};
use crate::rng::Rng;

#[derive(Clone, Debug)]
pub struct Sheet {
    pub first: u8,
    pub last: u8,
    pub rows: Vec<[u8; ROW]>,
}

/// One session to be laid out: lead-out, its ADR/control, tracks.
pub struct Plan {
    pub lead_out: u32,
    pub lead_out_bits: u8,
    pub tracks: Vec<(u32, u8)>,
}

impl Plan {
    pub fn new(lead_out: u32, lead_out_bits: u8, tracks: &[(u32, u8)]) -> Plan {
        Plan {
            lead_out,
            lead_out_bits,
            tracks: tracks.to_vec(),
        }
    }
}

fn row(session: u8, bits: u8, point: u8, p: [u8; 3]) -> [u8; ROW] {
    [session, bits, 0, point, 0, 0, 0, 0, p[0], p[1], p[2]]
}

/// K1's two POINTs, in the order in which they may stand.
pub const MODE_5: [u8; 2] = [0xB0, 0xC0];

/// A B0h or C0h row (K1): ADR 5 and TNO 0; `free` is MIN to PFRAME.
pub fn mode_5(session: u8, point: u8, control: u8, free: [u8; 7]) -> [u8; ROW] {
    let mut row = row(session, 0x50 | control & 0x0F, point, [0; 3]);
    row[4..].copy_from_slice(&free);
    row
}

/// MIN to PFRAME for such rows. Most would break rule 3, 5, 6 or 7 in a row
/// that these look at.
pub const FREE: [[u8; 7]; 9] = [
    [0x04, 0x26, 0x3F, 0x02, 0x40, 0x02, 0x00],
    [0xC0, 0x00, 0x00, 0x00, 0x61, 0x2C, 0x00],
    [0, 0, 0, 0, 0, 0, 0],
    [0xFF; 7],
    [1, 2, 3, 0x80, 99, 59, 75],
    [0, 0, 0, 1, 0, 60, 0],
    [0, 0, 0, 0, 0, 2, 0],
    [0, 0, 0, 0, 99, 59, 74],
    [0, 0, 0, 0, 5, 0x30, 1],
];

/// The M:S:F of a block.
pub fn place(block: u32) -> [u8; 3] {
    let time = address::to_msf(block).expect("cases stay in the range");
    [time.m, time.s, time.f]
}

impl Sheet {
    /// Lays sessions out with tracks numbered from `first_track`.
    pub fn lay_out(first_track: u8, plans: &[Plan]) -> Sheet {
        let mut rows = Vec::new();
        let mut next = first_track;
        for (plan, session) in plans.iter().zip(1u8..) {
            let last = next + plan.tracks.len() as u8 - 1;
            let first_bits = plan.tracks[0].1;
            let last_bits = plan.tracks[plan.tracks.len() - 1].1;
            rows.push(row(session, first_bits, 0xA0, [next, 0, 0]));
            rows.push(row(session, last_bits, 0xA1, [last, 0, 0]));
            let out = place(plan.lead_out);
            rows.push(row(session, plan.lead_out_bits, 0xA2, out));
            for &(start, bits) in &plan.tracks {
                rows.push(row(session, bits, next, place(start)));
                next += 1;
            }
        }
        Sheet {
            first: 1,
            last: plans.len() as u8,
            rows,
        }
    }

    /// The table with a data length that is right.
    pub fn bytes(&self) -> Vec<u8> {
        let length = (self.rows.len() * ROW + HEADER - 2) as u16;
        self.bytes_with(length)
    }

    /// The table with the data length given.
    pub fn bytes_with(&self, data_length: u16) -> Vec<u8> {
        let mut bytes = data_length.to_be_bytes().to_vec();
        bytes.extend([self.first, self.last]);
        bytes.extend(self.rows.iter().flatten());
        bytes
    }

    pub fn set_address(&mut self, row: usize, m: u8, s: u8, f: u8) {
        self.rows[row][8..].copy_from_slice(&[m, s, f]);
    }

    /// Gives a row the address of a block.
    pub fn set_block(&mut self, row: usize, block: u32) {
        let [m, s, f] = place(block);
        self.set_address(row, m, s, f);
    }

    /// Puts a row behind the last one of its session.
    pub fn close(&mut self, row: [u8; ROW]) {
        let before = self.rows.iter().rposition(|one| one[0] == row[0]);
        self.rows.insert(before.map_or(0, |at| at + 1), row);
    }

    /// The rows with this POINT, by place.
    pub fn points(&self, point: u8) -> Vec<usize> {
        (0..self.rows.len())
            .filter(|&i| self.rows[i][3] == point)
            .collect()
    }

    /// The lead-out and track rows, by place.
    pub fn placed(&self) -> Vec<usize> {
        (0..self.rows.len())
            .filter(|&i| self.rows[i][3] == 0xA2 || self.rows[i][3] < 100)
            .collect()
    }
}

/// Table E, the disc of 01's marked results.
pub fn disc_e() -> Sheet {
    let plan = Plan::new(300, 0x10, &[(0, 0x14), (150, 0x10)]);
    Sheet::lay_out(1, &[plan])
}

/// Two sessions, data and audio, with a gap between them.
pub fn two_sessions() -> Sheet {
    Sheet::lay_out(
        1,
        &[
            Plan::new(900, 0x14, &[(0, 0x14), (400, 0x10), (600, 0x10)]),
            Plan::new(13_000, 0x16, &[(12_300, 0x14), (12_800, 0x16)]),
        ],
    )
}

/// Three sessions from track 5 on; the middle one is all audio.
pub fn three_sessions() -> Sheet {
    let mut sheet = Sheet::lay_out(
        5,
        &[
            Plan::new(700, 0x10, &[(10, 0x10), (20, 0x14), (300, 0x15)]),
            Plan::new(5_000, 0x12, &[(701, 0x11), (4_500, 0x18)]),
            Plan::new(9_000, 0x1F, &[(6_000, 0x1C), (6_001, 0x17), (8_998, 0x1B)]),
        ],
    );
    for (i, row) in sheet.rows.iter_mut().enumerate() {
        let at = i as u8;
        row[4..7].copy_from_slice(&[at, 0xFF - at, at.wrapping_mul(37)]);
    }
    for (place, kind) in sheet.points(0xA0).into_iter().zip([0x00, 0x10, 0x20]) {
        sheet.rows[place][9] = kind;
    }
    sheet
}

/// The two sessions, each closed by B0h and C0h (K1). Rows: A0 A1 A2, tracks
/// 1 2 3, B0h and C0h are 0 to 7; A0 A1 A2, tracks 4 5, B0h and C0h 8 to 14.
/// The addresses of B0h and C0h rise with the rest, so rules 5 to 7 would hold
/// of them too.
pub fn two_sittings() -> Sheet {
    let mut sheet = two_sessions();
    for (session, block) in [(1, 901), (2, 13_001)] {
        for (point, by) in MODE_5.into_iter().zip(0..) {
            let [m, s, f] = place(block + by);
            sheet.close(mode_5(session, point, 4, [0, 0, 0, 0, m, s, f]));
        }
    }
    sheet
}

/// The three sessions: B0h behind the first, C0h behind the middle one, both
/// behind the last (K1).
pub fn three_sittings() -> Sheet {
    let mut sheet = three_sessions();
    for (session, point, free) in [
        (1, 0xB0, FREE[0]),
        (2, 0xC0, FREE[3]),
        (3, 0xB0, FREE[4]),
        (3, 0xC0, FREE[1]),
    ] {
        sheet.close(mode_5(session, point, point >> 4, free));
    }
    sheet
}

/// One data track over the whole range: the longest reads.
pub fn one_long_track() -> Sheet {
    Sheet::lay_out(1, &[Plan::new(TOP_ADDRESS, 0x14, &[(0, 0x14)])])
}

/// One audio track over the whole range: the longest plays (K2).
pub fn one_long_audio() -> Sheet {
    Sheet::lay_out(1, &[Plan::new(TOP_ADDRESS, 0x10, &[(0, 0x10)])])
}

/// 99 sessions of one track: 396 descriptors, 4,360 bytes, the longest table
/// without B0h and C0h.
pub fn most_sessions() -> Sheet {
    let plans: Vec<Plan> = (0..99u32)
        .map(|i| {
            Plan::new(
                i * 4_000 + 2_500,
                0x14,
                &[(i * 4_000, 0x14 - (i % 3 == 1) as u8 * 4)],
            )
        })
        .collect();
    Sheet::lay_out(1, &plans)
}

/// The same, each session closed by B0h and C0h: K1's 594 descriptors, 6,538
/// bytes.
pub fn fullest() -> Sheet {
    let mut sheet = most_sessions();
    for session in 1..=99 {
        let at = usize::from(session);
        sheet.close(mode_5(session, 0xB0, session, FREE[at % 9]));
        sheet.close(mode_5(session, 0xC0, session >> 1, FREE[at % 7]));
    }
    sheet
}

/// One session of 99 tracks, every third audio.
pub fn most_tracks() -> Sheet {
    let tracks: Vec<(u32, u8)> = (0..99u32)
        .map(|i| (i * 100, if i % 3 == 2 { 0x10 } else { 0x14 }))
        .collect();
    Sheet::lay_out(1, &[Plan::new(9_900, 0x14, &tracks)])
}

/// A fit table with these numbers of sessions and tracks (sessions ≤ tracks
/// ≤ 99); B0h and C0h (K1) behind no session, behind all, or drawn for each.
pub fn fit(rng: &mut Rng, sessions: usize, tracks: usize) -> Sheet {
    let mut sheet = without_mode_5(rng, sessions, tracks);
    match rng.below(5) {
        0 | 1 => {}
        2 => close_some(rng, &mut sheet, 1),
        _ => close_some(rng, &mut sheet, 2),
    }
    sheet
}

/// A fit table of 6,538 bytes.
pub fn longest(rng: &mut Rng) -> Sheet {
    let mut sheet = without_mode_5(rng, 99, 99);
    close_some(rng, &mut sheet, 1);
    sheet
}

fn without_mode_5(rng: &mut Rng, sessions: usize, tracks: usize) -> Sheet {
    let mut shares = vec![1; sessions];
    for _ in sessions..tracks {
        let one = rng.below(sessions);
        shares[one] += 1;
    }
    let mut places = places(rng, sessions + tracks).into_iter();
    let mood = rng.below(4);
    let mut plans = Vec::new();
    for share in shares {
        let tracks: Vec<(u32, u8)> = (0..share)
            .map(|_| (places.next().expect("enough places"), bits(rng, mood)))
            .collect();
        let lead_out = places.next().expect("enough places");
        plans.push(Plan::new(lead_out, bits(rng, 3), &tracks));
    }
    let top_first = 100 - tracks;
    let first = match rng.below(3) {
        0 => 1,
        1 => top_first,
        _ => rng.range(1, top_first),
    };
    let mut sheet = Sheet::lay_out(first as u8, &plans);
    let noisy = rng.one_in(2);
    for row in &mut sheet.rows {
        if noisy {
            // "MIN, SEC and FRAME may hold anything."
            row[4..7].copy_from_slice(&rng.bytes(3));
        }
        if row[3] >= 0xA0 {
            row[1] = bits(rng, 3);
        }
        if row[3] == 0xA0 {
            row[9] = rng.pick(&[0x00, 0x10, 0x20]);
        }
    }
    sheet
}

/// Puts B0h and C0h behind sessions, each of them once in so many.
fn close_some(rng: &mut Rng, sheet: &mut Sheet, many: usize) {
    for session in 1..=sheet.last {
        for point in MODE_5 {
            if rng.one_in(many) {
                let row = any_mode_5(rng, sheet, session, point);
                sheet.close(row);
            }
        }
    }
}

/// A B0h or C0h with every free byte drawn, or the address of another row.
pub fn any_mode_5(rng: &mut Rng, sheet: &Sheet, session: u8, point: u8) -> [u8; ROW] {
    let free = if rng.one_in(3) {
        rng.pick(&FREE)
    } else {
        rng.bytes(7).try_into().expect("7 bytes")
    };
    let mut row = mode_5(session, point, rng.byte(), free);
    if rng.one_in(3) {
        row[7..].copy_from_slice(&rng.pick(&sheet.rows)[7..]);
    }
    row
}

/// A fit table of any size, small ones most often.
pub fn any_fit(rng: &mut Rng) -> Sheet {
    let (sessions, tracks) = match rng.below(60) {
        0 => (99, 99),
        1 => (1, 99),
        2 => {
            let sessions = rng.range(1, 99);
            (sessions, rng.range(sessions, 99))
        }
        _ => return small_fit(rng),
    };
    fit(rng, sessions, tracks)
}

/// A fit table of one to four sessions and at most seven tracks.
pub fn small_fit(rng: &mut Rng) -> Sheet {
    let (sessions, tracks) = if rng.one_in(3) {
        (1, rng.range(1, 6))
    } else {
        let sessions = rng.range(1, 4);
        (sessions, sessions + rng.below(4))
    };
    fit(rng, sessions, tracks)
}

/// ADR 1 and a control nibble: all data, all audio, either, or any.
fn bits(rng: &mut Rng, mood: usize) -> u8 {
    let control = match mood {
        0 => 0x4,
        1 => rng.pick(&[0x4, 0x4, 0x4, 0x0]),
        2 => rng.pick(&[0x0, 0x4]),
        _ => rng.byte() & 0x0F,
    };
    0x10 | control
}

/// n rising addresses: packed, close together, or over the whole range.
pub fn places(rng: &mut Rng, n: usize) -> Vec<u32> {
    let top = TOP_ADDRESS;
    match rng.below(5) {
        0 => (0..n as u32).collect(),
        1 => {
            let from = top + 1 - n as u32;
            (from..=top).collect()
        }
        2 | 3 => {
            let mut at = if rng.one_in(2) {
                0
            } else {
                rng.below(200) as u32
            };
            let step = rng.pick(&[3, 40, 2_000]);
            (0..n)
                .map(|_| {
                    let here = at;
                    at += 1 + rng.below(step) as u32;
                    here
                })
                .collect()
        }
        _ => {
            let mut set = BTreeSet::new();
            if rng.one_in(2) {
                set.insert(0);
            }
            if n > 1 && rng.one_in(2) {
                set.insert(top);
            }
            while set.len() < n {
                set.insert(rng.below(top as usize + 1) as u32);
            }
            set.into_iter().collect()
        }
    }
}
