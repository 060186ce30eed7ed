//! Cue sheets under construction (K12): entries that can be edited before they are
//! written out, sheets drawn from the generator that become tables, and near misses.

use crate::cases::sheet::{place, places};
use crate::cue::{ENTRY, LEAD_OUT};
use crate::limits::TOP_ADDRESS;
use crate::rng::Rng;

pub type Line = [u8; ENTRY];

#[derive(Clone, Debug, PartialEq, Eq)]
pub struct Cue {
    pub lines: Vec<Line>,
}

/// An entry with ADR 1, of data form and SCMS 0.
pub fn line(control: u8, tno: u8, index: u8, [m, s, f]: [u8; 3]) -> Line {
    [control << 4 | 1, tno, index, 0, 0, m, s, f]
}

impl Cue {
    /// Lead-in, index 1 of tracks numbered from `first` on, each with its block and
    /// control, and lead-out.
    pub fn lay_out(first: u8, tracks: &[(u32, u8)], lead_out: (u32, u8)) -> Cue {
        let mut lines = vec![line(tracks[0].1, 0, 0, [0; 3])];
        for (&(block, control), number) in tracks.iter().zip(first..=u8::MAX) {
            lines.push(line(control, number, 1, place(block)));
        }
        lines.push(line(lead_out.1, LEAD_OUT, 1, place(lead_out.0)));
        Cue { lines }
    }

    pub fn bytes(&self) -> Vec<u8> {
        self.lines.concat()
    }

    /// A copy with this change.
    pub fn with(&self, change: impl FnOnce(&mut Cue)) -> Cue {
        let mut other = self.clone();
        change(&mut other);
        other
    }

    /// A copy with this entry before the one at `at`.
    pub fn with_line(&self, at: usize, line: Line) -> Cue {
        self.with(|cue| cue.lines.insert(at, line))
    }

    /// The index 1 entries between first and last, by place.
    pub fn starts(&self) -> Vec<usize> {
        let between = 1..self.lines.len().saturating_sub(1);
        between.filter(|&at| self.lines[at][2] == 1).collect()
    }

    pub fn set_time(&mut self, at: usize, time: [u8; 3]) {
        self.lines[at][5..].copy_from_slice(&time);
    }
}

/// Tracks 1 to 3 with indexes 0 and 2 among them, all controls different: lead-in, then
/// 1/0, 1/1, 2/0, 2/1, 2/2, 3/1, and lead-out.
pub fn three_tracks() -> Cue {
    let tracks = [(0, 0x4), (400, 0x0), (1_000, 0xA)];
    let mut cue = Cue::lay_out(1, &tracks, (2_000, 0x7));
    cue.lines[0][0] = 0x91;
    cue.lines.insert(1, line(0x4, 1, 0, [0, 0, 0]));
    cue.lines.insert(3, line(0xC, 2, 0, place(300)));
    cue.lines.insert(5, line(0x2, 2, 2, place(700)));
    cue
}

/// The places of the three tracks' entries.
pub const LEAD_IN_AT: usize = 0;
pub const PASSED_AT: [usize; 3] = [1, 3, 5];
pub const TRACKS_AT: [usize; 3] = [2, 4, 6];
pub const LEAD_OUT_AT: usize = 7;

/// Two tracks and nothing passed over: Table E's.
pub fn two_tracks() -> Cue {
    Cue::lay_out(1, &[(0, 0x4), (150, 0x0)], (300, 0x0))
}

/// So many tracks of 100 blocks from this number on.
pub fn tracks_from(first: u8, count: u8) -> Cue {
    let tracks: Vec<(u32, u8)> = (0..count)
        .map(|i| (u32::from(i) * 100, i.wrapping_mul(5) & 0x0F))
        .collect();
    Cue::lay_out(first, &tracks, (u32::from(count) * 100, 0x3))
}

/// Another index than 1.
pub fn other_index(rng: &mut Rng) -> u8 {
    match rng.below(4) {
        0 => 0,
        1 => rng.pick(&[2, 3, 98, 99, 100, 254, 255]),
        _ => rng.byte().max(2),
    }
}

/// An entry to be passed over: of a track near, or of anything anywhere.
fn any_passed(rng: &mut Rng, near: Line) -> Line {
    let mut passed = near;
    passed[2] = other_index(rng);
    passed[0] = rng.byte() & 0xF0 | 1;
    if rng.one_in(2) {
        passed[1] = rng.pick(&[0, 1, 99, 100, LEAD_OUT, near[1].wrapping_add(1), 255]);
        let time = rng.bytes(3);
        passed[5..].copy_from_slice(&time);
    }
    passed
}

/// A sheet that becomes a table: few tracks most often, entries passed over among them;
/// lead-in, data forms and SCMS are anything in half of them.
pub fn any_written(rng: &mut Rng) -> Cue {
    let count = match rng.below(90) {
        0 => 99,
        1 => rng.range(1, 99),
        _ => rng.range(1, 6),
    };
    let first = match rng.below(3) {
        0 => 1,
        1 => 100 - count,
        _ => rng.range(1, 100 - count),
    };
    let blocks = places(rng, count + 1);
    let tracks: Vec<(u32, u8)> = blocks[..count]
        .iter()
        .map(|&block| (block, rng.byte() & 0x0F))
        .collect();
    let lead_out = (blocks[count], rng.byte() & 0x0F);
    let mut cue = Cue::lay_out(first as u8, &tracks, lead_out);
    if rng.one_in(2) {
        cue.lines[0][0] = rng.byte() & 0xF0 | 1;
        let time = rng.bytes(3);
        cue.set_time(0, time.try_into().expect("3 bytes"));
        for line in &mut cue.lines {
            line[3..5].copy_from_slice(&rng.bytes(2));
        }
    }
    for _ in 0..rng.below(2 + count.min(6)) {
        let at = rng.range(1, cue.lines.len() - 1);
        let passed = any_passed(rng, cue.lines[at]);
        cue.lines.insert(at, passed);
    }
    cue
}

/// What makes of a sheet one that is wrong in one thing, or nearly so.
pub type Miss = fn(&mut Rng, &mut Cue);

/// Any place of the sheet.
fn anywhere(rng: &mut Rng, cue: &Cue) -> usize {
    rng.below(cue.lines.len())
}

fn a_start(rng: &mut Rng, cue: &Cue) -> usize {
    rng.pick(&cue.starts())
}

/// A track's entry or the lead-out's.
fn an_address(rng: &mut Rng, cue: &Cue) -> usize {
    match rng.one_in(3) {
        true => cue.lines.len() - 1,
        false => a_start(rng, cue),
    }
}

fn another_adr(rng: &mut Rng, line: &mut Line) {
    let adr = rng.pick(&[0, 2, 3, 4, 5, 8, 9, 15]);
    line[0] = line[0] & 0xF0 | adr;
}

/// Gives an entry the time of another, a frame or a second off or not.
fn near_time(rng: &mut Rng, cue: &mut Cue, at: usize, other: usize) {
    let mut line = cue.lines[other];
    let off = rng.pick(&[0, 0, 1, 255]);
    let part = rng.pick(&[5, 6, 7, 7]);
    line[part] = line[part].wrapping_add(off);
    cue.lines[at][5..].copy_from_slice(&line[5..]);
}

/// Each way in which a sheet is nearly right, by what it changes; drawn from a sheet that
/// becomes a table. A few of what they make are right all the same.
pub const MISSES: [(&str, Miss); 27] = [
    ("lead-in's ADR", |rng, cue| {
        another_adr(rng, &mut cue.lines[0])
    }),
    ("a track's ADR", |rng, cue| {
        let at = a_start(rng, cue);
        another_adr(rng, &mut cue.lines[at]);
    }),
    ("ADR of one passed over", |rng, cue| {
        let at = a_start(rng, cue);
        let mut passed = any_passed(rng, cue.lines[at]);
        another_adr(rng, &mut passed);
        cue.lines.insert(at, passed);
    }),
    ("lead-out's ADR", |rng, cue| {
        let at = cue.lines.len() - 1;
        another_adr(rng, &mut cue.lines[at]);
    }),
    ("nibbles as in a table", |_, cue| {
        for line in &mut cue.lines {
            line[0] = line[0].rotate_left(4);
        }
    }),
    ("lead-in's TNO", |rng, cue| {
        cue.lines[0][1] = rng.pick(&[1, 0x80, LEAD_OUT, 255]);
    }),
    ("lead-in's index", |rng, cue| {
        cue.lines[0][2] = rng.pick(&[1, 2, 0x80, 255]);
    }),
    ("no lead-in", |_, cue| {
        cue.lines.remove(0);
    }),
    ("before the lead-in", |rng, cue| {
        let at = anywhere(rng, cue);
        let line = cue.lines[at];
        cue.lines.insert(0, line);
    }),
    ("lead-out's TNO", |rng, cue| {
        let at = cue.lines.len() - 1;
        cue.lines[at][1] = rng.pick(&[0, 99, 100, 0xA9, 0xAB, 0xA2, 0x2A]);
    }),
    ("lead-out's index", |rng, cue| {
        let at = cue.lines.len() - 1;
        cue.lines[at][2] = other_index(rng);
    }),
    ("no lead-out", |_, cue| {
        cue.lines.pop();
    }),
    ("behind the lead-out", |rng, cue| {
        let at = anywhere(rng, cue);
        let line = cue.lines[at];
        cue.lines.push(line);
    }),
    ("AAh between", |rng, cue| {
        let out = cue.lines[cue.lines.len() - 1];
        let at = rng.range(1, cue.lines.len() - 1);
        cue.lines.insert(at, out);
    }),
    ("TNO 0 between", |rng, cue| {
        let at = a_start(rng, cue);
        let mut line = cue.lines[at];
        line[1] = 0;
        cue.lines.insert(at, line);
    }),
    ("a gap", |rng, cue| {
        let at = a_start(rng, cue);
        for line in &mut cue.lines[at..] {
            if line[2] == 1 && line[1] != LEAD_OUT {
                line[1] += 1;
            }
        }
    }),
    ("a track twice", |rng, cue| {
        let at = a_start(rng, cue);
        let mut line = cue.lines[at];
        line[7] ^= 1;
        cue.lines.insert(at + rng.below(2), line);
    }),
    ("two numbers exchanged", |rng, cue| {
        let (one, other) = (a_start(rng, cue), a_start(rng, cue));
        let number = cue.lines[one][1];
        cue.lines[one][1] = cue.lines[other][1];
        cue.lines[other][1] = number;
    }),
    ("two tracks exchanged", |rng, cue| {
        let (one, other) = (a_start(rng, cue), a_start(rng, cue));
        cue.lines.swap(one, other);
    }),
    ("a track passed over", |rng, cue| {
        let at = a_start(rng, cue);
        cue.lines[at][2] = other_index(rng);
    }),
    ("numbers to either end", |rng, cue| {
        let starts = cue.starts();
        let from = match rng.one_in(3) {
            true => rng.below(2),
            false => 98 + rng.below(4) - starts.len().min(97),
        };
        for (at, number) in starts.into_iter().zip(from..) {
            cue.lines[at][1] = number as u8;
        }
    }),
    ("no track", |rng, cue| {
        for at in cue.starts() {
            cue.lines[at][2] = other_index(rng);
        }
    }),
    ("an address at a border", |rng, cue| {
        let at = an_address(rng, cue);
        let time = rng.pick(&[[0, 1, 74], [0, 2, 0], TOP, [100, 0, 0], [255, 59, 74]]);
        cue.set_time(at, time);
    }),
    ("a second or a frame too high", |rng, cue| {
        let at = an_address(rng, cue);
        match rng.one_in(2) {
            true => cue.lines[at][6] = rng.pick(&[59, 60, 60, 255]),
            false => cue.lines[at][7] = rng.pick(&[74, 75, 75, 255]),
        }
    }),
    ("starts", |rng, cue| {
        let (at, other) = (a_start(rng, cue), a_start(rng, cue));
        near_time(rng, cue, at, other);
    }),
    ("lead-out at the last start", |rng, cue| {
        let (last, out) = (cue.starts(), cue.lines.len() - 1);
        let last = last[last.len() - 1];
        match rng.one_in(2) {
            true => near_time(rng, cue, out, last),
            false => near_time(rng, cue, last, out),
        }
    }),
    ("any byte", |rng, cue| {
        for _ in 0..rng.range(1, 3) {
            let at = anywhere(rng, cue);
            cue.lines[at][rng.below(ENTRY)] ^= 1 << rng.below(8);
        }
    }),
];

/// A sheet that is wrong in its length: a few bytes more or less, or next to nothing.
fn any_length(rng: &mut Rng, mut sheet: Vec<u8>) -> Vec<u8> {
    match rng.below(4) {
        0 => sheet.truncate(rng.below(3 * ENTRY)),
        1 => sheet.truncate(rng.below(sheet.len())),
        _ => {
            let more = rng.range(1, 15);
            sheet.extend(rng.bytes(more));
        }
    }
    sheet
}

/// A sheet of any kind: half of them become tables.
pub fn any_sheet(rng: &mut Rng) -> Vec<u8> {
    let mut cue = any_written(rng);
    match rng.below(100) {
        0..=49 => cue.bytes(),
        50..=93 => {
            let (_, miss) = rng.pick(&MISSES);
            miss(rng, &mut cue);
            cue.bytes()
        }
        _ => any_length(rng, cue.bytes()),
    }
}

/// A long sheet that becomes a table: this many entries, 99 of them tracks, the others
/// with every other index and any TNO and address.
pub fn long_sheet(count: usize) -> Cue {
    let mut cue = tracks_from(1, 99);
    let more = count - cue.lines.len();
    for n in 0..more {
        let index = match (n % 255) as u8 {
            0 => 0,
            other => other + 1,
        };
        let mixed = (n as u8).wrapping_mul(13);
        let time = [mixed, mixed.wrapping_mul(3), mixed.wrapping_mul(11)];
        let at = 1 + n * 100 / more + n;
        cue.lines.insert(at, line(mixed & 0x0F, mixed, index, time));
    }
    cue
}

/// The sheet of the stored run: 99 tracks of several controls, an index 0 before most of
/// them and some of 2 to 99 behind, data forms and SCMS as 000 has them.
pub fn ninety_nine() -> Cue {
    let mut lines = vec![[0x41, 0, 0, 0x14, 0, 0, 0, 0]];
    for number in 1..=99u8 {
        let (block, data) = (u32::from(number - 1) * 4_500, number % 4 == 1);
        let control = match data {
            true => 0x4 | (number / 4) & 0x2,
            false => [0x0, 0x1, 0x2, 0x8, 0x9][usize::from(number % 5)],
        };
        let form = match data {
            true => [0x10, 0x11, 0x20, 0x21, 0x30][usize::from(number % 5)],
            false => [0x00, 0x40, 0xC0][usize::from(number % 3)],
        };
        let scms = if data || number % 7 > 2 { 0x00 } else { 0x80 };
        let mut put = |index: u8, time: [u8; 3]| {
            let mut entry = line(control, number, index, time);
            entry[3..5].copy_from_slice(&[form, scms]);
            lines.push(entry);
        };
        if number == 1 {
            put(0, [0; 3]);
        } else if number % 3 != 0 {
            put(0, place(block - 150));
        }
        put(1, place(block));
        for index in 2..=1 + number % 3 {
            put(index, place(block + u32::from(index) * 750));
        }
    }
    lines.push([0x01, LEAD_OUT, 1, 0x01, 0, 99, 0, 0]);
    Cue { lines }
}

/// The highest address, for a lead-out behind anything.
pub const TOP: [u8; 3] = [99, 59, 74];

/// A sheet whose one track starts a frame before the highest address.
pub fn at_the_top() -> Cue {
    Cue::lay_out(1, &[(TOP_ADDRESS - 1, 0x4)], (TOP_ADDRESS, 0x4))
}
