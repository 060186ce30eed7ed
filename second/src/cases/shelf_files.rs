//! Streams of tables for the program that counts a shelf (K13).

use crate::cases::draft::t134;
use crate::cases::several::{alone, with_faults, Fault};
use crate::cases::sheet::{
    any_fit, disc_e, fullest, longest, most_tracks, one_long_audio, one_long_track, three_sessions,
    three_sittings, two_sessions, two_sittings,
};
use crate::cases::shelf_stream::{
    all_audio, all_data, any_table, broken_by, cut_off, odd_length, of_length, over_length, small,
    tables,
};
use crate::files::File;
use crate::limits::BOUND;
use crate::rng::Rng;
use crate::shelf::{self, Totals};

/// Sizes of the pieces that a program may read at a time.
const PIECES: [usize; 2] = [65_536, 131_072];

/// The stream with this number; twelve of each twenty take their turn at a special shape.
pub fn file(seed: u64, number: u64) -> Vec<u8> {
    let mut rng = Rng::new(seed.wrapping_mul(0x1_0005).wrapping_add(number));
    let (rng, turn) = (&mut rng, number / 20);
    match number % 20 {
        0 => tiny(rng, turn),
        1 => large(rng),
        2 => over_and_on(rng),
        3 => over_and_cut_off(rng),
        4 => {
            let count = rng.range(1, 12);
            let stream = tables(rng, count);
            cut_off(rng, stream)
        }
        5 => short_ones(rng),
        6 => every_rule(rng),
        7 => long_ones(rng),
        8 => fit_ones(rng, turn),
        9 => at_a_border(rng, turn),
        10 => {
            let length = rng.range(2, 3_000);
            rng.bytes(length)
        }
        11 => out_of_step(rng),
        _ => {
            let count = rng.range(5, 100);
            let stream = tables(rng, count);
            match rng.one_in(3) {
                true => cut_off(rng, stream),
                false => stream,
            }
        }
    }
}

/// Nothing, one byte, two, or a few.
fn tiny(rng: &mut Rng, turn: u64) -> Vec<u8> {
    match turn % 8 {
        0 => Vec::new(),
        1 => vec![rng.byte()],
        2 => vec![0, 0],
        3 => vec![rng.byte(), rng.byte().max(1)],
        4 => vec![0, 1, rng.byte()],
        5 => of_length(0xFFFF)[..2].to_vec(),
        6 => vec![0, 2, 1, rng.byte()],
        _ => {
            let length = rng.range(3, 12);
            rng.bytes(length)
        }
    }
}

/// Several hundred thousand bytes: no piece ends where a table does, or hardly ever.
fn large(rng: &mut Rng) -> Vec<u8> {
    let (mut stream, length) = (Vec::new(), rng.range(200_000, 500_000));
    while stream.len() < length {
        stream.extend(match rng.below(12) {
            0 => longest(rng).bytes(),
            1 => of_length(over_length(rng)),
            2..=5 => any_fit(rng).bytes(),
            _ => any_table(rng),
        });
    }
    match rng.one_in(2) {
        true => cut_off(rng, stream),
        false => stream,
    }
}

/// Tables over the bound, others before, between and behind.
fn over_and_on(rng: &mut Rng) -> Vec<u8> {
    let mut stream = Vec::new();
    for _ in 0..rng.range(1, 4) {
        let before = rng.below(3);
        stream.extend(tables(rng, before));
        stream.extend(of_length(over_length(rng)));
    }
    let behind = rng.range(1, 6);
    stream.extend(tables(rng, behind));
    stream
}

/// The last table is over the bound and cut off: behind its length, by a byte, anywhere.
fn over_and_cut_off(rng: &mut Rng) -> Vec<u8> {
    let before = rng.below(4);
    let (mut stream, last) = (tables(rng, before), of_length(over_length(rng)));
    let kept = match rng.below(5) {
        0 => rng.range(2, 5),
        1 => last.len() - 1,
        2 => BOUND - 1 + rng.below(3),
        _ => rng.range(2, last.len() - 1),
    };
    stream.extend(&last[..kept.min(last.len() - 1)]);
    stream
}

/// Tables of 2 and 3 bytes, alone, in a row, and between others.
fn short_ones(rng: &mut Rng) -> Vec<u8> {
    let mut stream = Vec::new();
    for _ in 0..rng.range(5, 60) {
        match rng.below(4) {
            0 => stream.extend(small(rng).bytes()),
            1 => stream.extend(of_length(odd_length(rng, 40))),
            _ => stream.extend(of_length(rng.below(2) as u16)),
        }
    }
    stream
}

/// Each rule broken, in turn and often, with fit ones between.
fn every_rule(rng: &mut Rng) -> Vec<u8> {
    let mut stream = Vec::new();
    for _ in 0..rng.range(2, 8) {
        stream.extend(of_length(odd_length(rng, 200)));
        for rule in 2..=7 {
            for _ in 0..rng.below(3) {
                stream.extend(broken_by(rng, rule));
            }
            if rng.one_in(3) {
                stream.extend(small(rng).bytes());
            }
        }
    }
    stream
}

/// Tables of 594 descriptors, one of them broken at its end, and one a byte over.
fn long_ones(rng: &mut Rng) -> Vec<u8> {
    let mut stream = Vec::new();
    for _ in 0..rng.range(1, 5) {
        let mut table = longest(rng).bytes();
        match rng.below(4) {
            0 => table[BOUND - 9] = 1,
            1 => stream.extend(of_length(BOUND as u16 - 1)),
            _ => {}
        }
        stream.extend(table);
    }
    stream
}

/// Fit ones alone: all audio, all data, or both; with L up to the top in some.
fn fit_ones(rng: &mut Rng, turn: u64) -> Vec<u8> {
    let mut stream = Vec::new();
    for _ in 0..rng.range(5, 40) {
        let sheet = any_fit(rng);
        let sheet = match turn % 3 {
            0 => all_audio(sheet),
            1 => all_data(sheet),
            _ => sheet,
        };
        stream.extend(sheet.bytes());
    }
    stream
}

/// A table begins where a piece of 64 or 128 KiB ends, a byte or two before or behind it.
fn at_a_border(rng: &mut Rng, turn: u64) -> Vec<u8> {
    let at = PIECES[(turn % 2) as usize] + (turn / 2 % 5) as usize - 2;
    let mut stream = Vec::new();
    // Before it are tables, and one that is as long as is needed.
    while stream.len() < at {
        let (table, left) = (any_table(rng), at - stream.len());
        if left < 20_000 {
            stream.extend(of_length(left as u16 - 2));
        } else if table.len() < left - 2 {
            stream.extend(table);
        }
    }
    let behind = rng.range(1, 30);
    stream.extend(tables(rng, behind));
    stream
}

/// Tables whose data length may be wrong: those behind are then cut elsewhere.
fn out_of_step(rng: &mut Rng) -> Vec<u8> {
    let mut stream = Vec::new();
    for _ in 0..rng.range(2, 30) {
        let mut table = any_table(rng);
        if rng.one_in(3) {
            let wrong = match rng.below(3) {
                0 => rng.range(0, 400) as u16,
                1 => table.len() as u16,
                _ => (table.len() as u16).wrapping_sub(3),
            };
            table[..2].copy_from_slice(&wrong.to_be_bytes());
        }
        stream.extend(table);
    }
    stream
}

/// It and what the program must print of it, under this name.
pub fn counted(seed: u64, number: u64, name: &str) -> [File; 2] {
    let stream = file(seed, number);
    let expected = printed(&stream);
    [
        (format!("{name}.tables"), stream),
        (format!("{name}.expected"), expected.into()),
    ]
}

/// The program's lines for a stream.
pub fn printed(stream: &[u8]) -> String {
    shelf::lines(shelf::count(Totals::default(), stream))
}

/// The shelf of the stored run: every rule alone and in other tables, fit ones of every
/// kind, tables of 2 and 3 bytes, one over the bound in the middle, and one cut off.
pub fn stored_shelf() -> Vec<u8> {
    let mut list = Vec::new();
    for rule in 2..=7 {
        list.push(disc_e().bytes());
        list.push(alone(rule));
    }
    list.extend([0, 1, 3, 12, 57].map(of_length));
    for rule in 2..=7 {
        for way in 0..3 {
            let fault = Fault {
                rule,
                session: 2,
                way,
            };
            list.push(with_faults(two_sittings(), vec![fault]));
        }
    }
    for sheet in [
        two_sessions(),
        three_sessions(),
        two_sittings(),
        three_sittings(),
        t134(),
        one_long_track(),
        one_long_audio(),
        most_tracks(),
        all_audio(three_sittings()),
        all_data(three_sessions()),
        all_audio(most_tracks()),
    ] {
        list.push(sheet.bytes());
    }
    list.push(of_length(BOUND as u16 - 1));
    list.push(fullest().bytes());
    let mut rng = Rng::new(0x5E1F);
    for _ in 0..40 {
        list.push(small(&mut rng).bytes());
    }
    list.extend([1, 0].map(of_length));
    list.push(two_sessions().bytes()[..100].to_vec());
    list.concat()
}
