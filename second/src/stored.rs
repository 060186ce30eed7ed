//! The stored cases and their check.

use std::fs;
use std::path::Path;

use crate::appendix;
use crate::cases::bad;
use crate::cases::cue_sheet::ninety_nine;
use crate::cases::pairs::{each_rule, stored_pair};
use crate::cases::picked;
use crate::cases::random;
use crate::cases::shelf_files::{printed as counted, stored_shelf};
use crate::cases::stream::Stream;
use crate::cue;
use crate::examples;
use crate::files::File;
use crate::listing;
use crate::replay;
use crate::rng::Rng;

/// The seed of everything stored; 5 modulo 8 ends the stream with a bad flag.
pub const SEED: u64 = 0x01C_D0D;

/// Calls drawn for the stored stream behind the picked ones; K12's cue sheets, K13's
/// shelves, K11's scenes and K14's come on top.
pub const DRAWN: usize = 600;

/// Drawn shelves, changers and registers come behind one scene in so many: most of those
/// stored are picked.
const SHELVES: usize = 150;
const CHANGERS: usize = 6;
const REGISTERS: usize = 14;

pub fn stored_stream() -> Stream {
    let mut stream = Stream::new();
    picked::all(&mut stream);
    let mut rng = Rng::new(SEED);
    let picked = stream.calls - stream.sheets - stream.shelves;
    let calls = picked + DRAWN;
    random::fill_with(&mut stream, &mut rng, calls, SHELVES, CHANGERS, REGISTERS);
    bad::end(&mut stream, &mut rng, SEED);
    stream
}

/// Every stored file, made again. The crates keep one run each; a listing for
/// each broken rule stands beside this program.
pub fn files() -> Vec<File> {
    let stream = stored_stream().bytes;
    let pair = stored_pair(SEED);
    let printed = listing::print(&pair.table, &pair.packets);
    let expected = replay::run(&stream);
    let sheet = ninety_nine().bytes();
    let turned = cue::program(&sheet).expect("it has a table");
    let shelf = stored_shelf();
    let totals = counted(&shelf);
    let mut files = vec![
        ("crates/replay/stdin".into(), stream),
        ("crates/replay/stdout".into(), expected.into()),
        ("crates/listing/args".into(), "table\npackets\n".into()),
        ("crates/listing/data/table".into(), pair.table),
        ("crates/listing/data/packets".into(), pair.packets),
        ("crates/listing/stdout".into(), printed.into()),
        ("crates/cuefile/args".into(), "sheet\n".into()),
        ("crates/cuefile/data/sheet".into(), sheet),
        ("crates/cuefile/stdout".into(), turned),
        ("crates/shelftotals/stdin".into(), shelf),
        ("crates/shelftotals/stdout".into(), totals.into()),
    ];
    for (pair, rule) in each_rule().into_iter().zip(1..) {
        files.extend(pair.listed(&format!("second/listings/rule-{rule}")));
    }
    files
}

/// One line for each file that is missing or differs; the number looked at.
/// The page of Appendix A (K5) is looked at too, though `files` does not have it.
pub fn check(root: &Path) -> (usize, Vec<String>) {
    let mut all = files();
    for (name, bytes) in examples::files() {
        all.push((format!("examples/{name}"), bytes));
    }
    let mut lines = Vec::new();
    for (name, bytes) in &all {
        match fs::read(root.join(name)) {
            Ok(found) if found == *bytes => {}
            Ok(_) => lines.push(format!("differs: {name}")),
            Err(_) => lines.push(format!("missing: {name}")),
        }
    }
    lines.extend(appendix::check(root));
    (all.len() + 1, lines)
}
