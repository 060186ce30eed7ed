//! Files of cue sheets for the program that turns one into a table (K12).

use crate::cases::cue_sheet::{any_sheet, any_written, long_sheet, Cue, MISSES};
use crate::cue::{self, ENTRY};
use crate::files::File;
use crate::rng::Rng;

/// The sheet with this number; each twentieth takes its turn at a special shape: nothing,
/// a rest of an entry, and more than a replay record or the bound could hold.
pub fn file(seed: u64, number: u64) -> Vec<u8> {
    let mut rng = Rng::new(seed.wrapping_mul(0x1_0003).wrapping_add(number));
    let rng = &mut rng;
    match number % 20 {
        0 if number.is_multiple_of(60) => Vec::new(),
        0 => {
            let length = rng.range(1, ENTRY);
            rng.bytes(length)
        }
        1 => long(rng).bytes(),
        2 => {
            let mut cue = long(rng);
            let (_, miss) = rng.pick(&MISSES);
            miss(rng, &mut cue);
            cue.bytes()
        }
        3 => {
            let more = rng.range(1, ENTRY - 1);
            [any_written(rng).bytes(), rng.bytes(more)].concat()
        }
        _ => any_sheet(rng),
    }
}

/// A sheet of 99 tracks with 800 to 5,000 entries.
fn long(rng: &mut Rng) -> Cue {
    let count = rng.range(800, 5_000);
    long_sheet(count)
}

/// It and what the program must give, under this name: the table's bytes, or the
/// refusal's line.
pub fn turned(seed: u64, number: u64, name: &str) -> [File; 2] {
    let sheet = file(seed, number);
    let expected = cue::program(&sheet).unwrap_or_else(String::into_bytes);
    [
        (format!("{name}.cue"), sheet),
        (format!("{name}.expected"), expected),
    ]
}
