//! Tables one after the other (K13): of every kind, fit and not, for a shelf; and totals
//! that a shelf is counted on top of.

use crate::cases::sheet::{any_fit, disc_e, fit, longest, small_fit, Sheet};
use crate::cases::spoil::{any_broken, spoil};
use crate::limits::{BOUND, HEADER, REPLAY_BODY, ROW};
use crate::replay::SHELF_BYTES;
use crate::rng::Rng;
use crate::shelf::{self, Totals, LINES};
use crate::table;

/// The longest stream that a replay record holds behind its totals.
pub const ROOM: usize = REPLAY_BODY - SHELF_BYTES;

/// A table of this data length: Table E again and again behind it, so that bytes which are
/// not passed over are found as tables.
pub fn of_length(data_length: u16) -> Vec<u8> {
    let filler = disc_e().bytes();
    let body = filler.iter().cycle().take(usize::from(data_length));
    let mut table = data_length.to_be_bytes().to_vec();
    table.extend(body);
    table
}

/// Every track of it audio, or every one data.
pub fn all_audio(mut sheet: Sheet) -> Sheet {
    for row in tracks_of(&mut sheet) {
        row[1] &= !4;
    }
    sheet
}

pub fn all_data(mut sheet: Sheet) -> Sheet {
    for row in tracks_of(&mut sheet) {
        row[1] |= 4;
    }
    sheet
}

fn tracks_of(sheet: &mut Sheet) -> impl Iterator<Item = &mut [u8; ROW]> {
    sheet.rows.iter_mut().filter(|row| row[3] < 100)
}

/// A data length that makes a table unfit by rule 1: 0 or 1 often, else not 2 plus a
/// multiple of 11, within the bound.
pub fn odd_length(rng: &mut Rng, top: usize) -> u16 {
    if rng.one_in(3) {
        return rng.below(2) as u16;
    }
    loop {
        let length = rng.range(3, top);
        if !(length + 2 - HEADER).is_multiple_of(ROW) {
            return length as u16;
        }
    }
}

/// A table over the bound: by a byte, by a descriptor, by much, or as long as can be.
pub fn over_length(rng: &mut Rng) -> u16 {
    let least = BOUND as u16 - 1;
    match rng.below(6) {
        0 => least,
        1 => least + ROW as u16 - 1,
        2 => 0xFFFF,
        3 => rng.range(usize::from(least), 0xFFFF) as u16,
        _ => rng.range(usize::from(least), 9_000) as u16,
    }
}

/// A table whose data length is right and that is unfit by this rule, from 2 on.
pub fn broken_by(rng: &mut Rng, rule: u8) -> Vec<u8> {
    loop {
        let sheet = small_fit(rng);
        let mut rules = vec![usize::from(rule)];
        if rng.one_in(3) {
            rules.push(rng.range(usize::from(rule), 7));
        }
        let table = spoil(rng, &sheet, &rules);
        if table::broken_rule(&table) == rule {
            return table;
        }
    }
}

/// A small fit table: drawn as it comes, all audio, or all data.
pub fn small(rng: &mut Rng) -> Sheet {
    let sheet = small_fit(rng);
    match rng.below(5) {
        0 => all_audio(sheet),
        1 => all_data(sheet),
        _ => sheet,
    }
}

/// A table for a shelf, its length as its data length says: fit in half of the cases, and
/// unfit by every rule in the others; over the bound seldom.
pub fn any_table(rng: &mut Rng) -> Vec<u8> {
    match rng.below(100) {
        0..=39 => small(rng).bytes(),
        40..=49 => any_fit(rng).bytes(),
        50..=85 => {
            let rule = rng.range(2, 7) as u8;
            broken_by(rng, rule)
        }
        86..=95 => of_length(odd_length(rng, 300)),
        96 => of_length(odd_length(rng, BOUND - 2)),
        97 => longest(rng).bytes(),
        98 => {
            let tracks = rng.range(80, 99);
            let sessions = rng.range(1, tracks);
            fit(rng, sessions, tracks).bytes()
        }
        _ => of_length(over_length(rng)),
    }
}

/// So many of them, one after the other.
pub fn tables(rng: &mut Rng, count: usize) -> Vec<u8> {
    (0..count).flat_map(|_| any_table(rng)).collect()
}

/// The same, cut off somewhere: in its last table most often. Of nothing nothing is left.
pub fn cut_off(rng: &mut Rng, mut stream: Vec<u8>) -> Vec<u8> {
    let length = stream.len();
    if length == 0 {
        return stream;
    }
    let less = match rng.below(3) {
        0 => rng.range(1, length),
        1 => rng.range(1, length.min(12)),
        _ => rng.range(1, length.min(60)),
    };
    stream.truncate(length - less);
    stream
}

/// A few small tables for a replay record, cut off once in four; a long one once in a while.
pub fn any_shelf(rng: &mut Rng) -> Vec<u8> {
    let mut stream = match rng.below(120) {
        0 => longest(rng).bytes(),
        1 => of_length(rng.range(BOUND - 1, ROOM) as u16),
        2 => of_length(over_length(rng)),
        3 => return Vec::new(),
        4 => return rng.bytes(1),
        5 => return of_length(rng.below(2) as u16),
        6 => {
            let length = rng.range(2, 90);
            return rng.bytes(length);
        }
        _ => Vec::new(),
    };
    for _ in 0..rng.range(usize::from(stream.is_empty()), 3) {
        let table = match rng.below(20) {
            0..=10 => small(rng).bytes(),
            11..=16 => {
                let rule = rng.range(2, 7) as u8;
                broken_by(rng, rule)
            }
            17 => any_broken(rng),
            _ => of_length(odd_length(rng, 60)),
        };
        match rng.one_in(6) {
            true => stream.splice(0..0, table).for_each(drop),
            false => stream.extend(table),
        }
    }
    stream.truncate(ROOM);
    match rng.one_in(4) {
        true => cut_off(rng, stream),
        false => stream,
    }
}

/// Totals to count these tables on top of: none, some, or such that one of them, or each,
/// comes to 2^64 − 1 exactly, or would be one more.
pub fn any_totals(rng: &mut Rng, stream: &[u8]) -> Totals {
    let Ok(Totals(worth)) = shelf::count(Totals::default(), stream) else {
        return Totals::default();
    };
    let to_the_top = worth.map(|more| u64::MAX - more);
    let mut from = match rng.below(8) {
        0..=2 => return Totals::default(),
        3 => [0; LINES].map(|_| rng.word() >> rng.range(1, 63)),
        4 => to_the_top,
        _ => [0; LINES].map(|_| rng.below(1_000) as u64),
    };
    let mut moved: Vec<usize> = (0..LINES).filter(|&line| worth[line] > 0).collect();
    if moved.is_empty() {
        moved.push(rng.below(LINES));
    }
    let line = rng.pick(&moved);
    match rng.below(4) {
        0 | 1 => from[line] = to_the_top[line],
        2 => from[line] = to_the_top[line].saturating_add(1),
        _ => {}
    }
    Totals(from)
}
