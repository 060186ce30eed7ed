//! The example files for the README.

use crate::board;
use crate::cases::draft;
use crate::cases::mmc_sheets::samples;
use crate::cases::packets::{capacity, read10, request_sense, test_ready, toc, Packet};
use crate::cases::several::alone;
use crate::cases::sheet::{disc_e, two_sessions};
use crate::cases::shelf_files::printed;
use crate::cue;
use crate::files::File;
use crate::listing;

/// "Table E with 00h, 03h (length 18), 25h and READ(10) 149 for 2, unused
/// bytes 0".
pub fn four() -> Vec<Packet> {
    vec![test_ready(), request_sense(18), capacity(), read10(149, 2)]
}

/// The power-on told by 00h, then P1 to P10.
pub fn marked() -> Vec<Packet> {
    vec![
        test_ready(),
        capacity(),
        toc(false, 0, 0, 804),
        toc(false, 0, 0, 4),
        toc(true, 0, 0xAA, 804),
        toc(false, 0, 3, 804),
        read10(149, 1),
        read10(149, 2),
        read10(149, 152),
        read10(150, 0),
        read10(300, 0),
    ]
}

/// READ TOC in its three formats, after a 00h.
pub fn sessions() -> Vec<Packet> {
    vec![
        test_ready(),
        toc(false, 0, 0, 804),
        toc(false, 1, 0, 804),
        toc(false, 2, 0, 804),
    ]
}

/// 004's READ TOC over its Table 134: format 1 (its Table 135), also with MSF,
/// format 0, format 2 from the first and the last session; then the capacity.
/// Lengths and byte 9 as 004 prints them; the format stands in byte 2 too, the
/// one place where 01 looks for it.
pub fn t134() -> Vec<Packet> {
    let printed = |msf, format: u8, number| {
        let mut p = toc(msf, format, number, 0x1000);
        p[9] = format << 6;
        p
    };
    vec![
        test_ready(),
        printed(false, 1, 0),
        printed(true, 1, 0),
        printed(false, 0, 0),
        printed(false, 2, 1),
        printed(false, 2, 4),
        capacity(),
    ]
}

/// For the tables of cue sheets (K12): a 00h, the track list by block and by M:S:F, format
/// 2, and the capacity.
pub fn tracks() -> Vec<Packet> {
    vec![
        test_ready(),
        toc(false, 0, 0, 804),
        toc(true, 0, 0, 804),
        toc(false, 2, 0, 804),
        capacity(),
    ]
}

/// 000's samples of cue sheets, and what the listing program prints for the table of each
/// and these packets, or the refusal's line.
fn cue_sheets() -> Vec<File> {
    let mut files = vec![("tracks.packets".to_string(), tracks().concat())];
    for (name, cue) in samples() {
        let listed = match cue::program(&cue.bytes()) {
            Ok(table) => listing::print(&table, &tracks().concat()),
            Err(line) => line,
        };
        files.push((format!("{name}.cue"), cue.bytes()));
        files.push((format!("{name}.listing"), listed.into()));
    }
    files
}

/// A shelf of the discs above (K13): Table E, the two sessions, 004's Table 134, Table E with
/// its second track where the first one starts (rule 7), the tables of 000's sheets, and
/// Table E cut off behind its A0.
pub fn shelf() -> Vec<u8> {
    let mut tables = vec![
        disc_e().bytes(),
        two_sessions().bytes(),
        draft::t134().bytes(),
        alone(7),
    ];
    for (_, cue) in samples() {
        tables.extend(cue::table_of(&cue.bytes()));
    }
    tables.push(disc_e().bytes()[..15].to_vec());
    tables.concat()
}

pub fn files() -> Vec<File> {
    let mut files = vec![
        ("disc-e.table".into(), disc_e().bytes()),
        ("four.packets".into(), four().concat()),
        ("marked.packets".into(), marked().concat()),
        ("two-sessions.table".into(), two_sessions().bytes()),
        ("sessions.packets".into(), sessions().concat()),
        ("sff-8020i-t134.table".into(), draft::t134().bytes()),
        ("sff-8020i-t134.packets".into(), t134().concat()),
    ];
    files.extend(cue_sheets());
    files.push(("shelf.tables".into(), shelf()));
    files.push(("shelf.totals".into(), printed(&shelf()).into()));
    // K14: what the firmware example at the registers must print.
    files.push(("board.expected".into(), board::example().into()));
    files
}
