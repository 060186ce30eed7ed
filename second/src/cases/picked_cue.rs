//! K12, picked by hand: a sheet's length, the output memory, the order of the refusals,
//! what is written and what stays, and the written table lent to the drive.

use crate::cases::cue_sheet::{
    at_the_top, line, long_sheet, ninety_nine, three_tracks, tracks_from, two_tracks, Cue,
    LEAD_IN_AT, TRACKS_AT,
};
use crate::cases::packets::{
    capacity, event_status, inquiry, mode_sense, page_list, position, prevent, read10,
    request_sense, start_stop, test_ready, toc, EJECT,
};
use crate::cases::picked_state::MEMORY;
use crate::cases::sheet::{disc_e, most_tracks};
use crate::cases::stream::Stream;
use crate::cue::{table_of, ENTRY, LEAD_OUT};
use crate::drive::State;
use crate::events::PRESSED;
use crate::mode_page::ModePage;
use crate::play::{Play, PLAYING};
use crate::sense;

/// A sheet of whole entries that 13 refuses: its lead-in has ADR 2.
fn unfit() -> Cue {
    three_tracks().with(|cue| cue.lines[LEAD_IN_AT][0] = 0x92)
}

/// Sheets that become tables: of one track, of three, of 99, at the ends of the numbers
/// and of the addresses.
pub fn written() -> Vec<Cue> {
    vec![
        two_tracks(),
        three_tracks(),
        tracks_from(99, 1),
        tracks_from(1, 99),
        tracks_from(5, 3),
        at_the_top(),
        ninety_nine(),
    ]
}

/// Each of them in a fresh memory, then the shorter ones in one.
pub fn sheets_written(stream: &mut Stream) {
    for (cue, fill) in written()
        .iter()
        .zip([0x00, 0xFF, 0x5A, 0x01, 0xA5, 0x10, 0x77])
    {
        stream.memory(MEMORY, fill);
        stream.cue_sheet(&cue.bytes());
    }
    stream.memory(MEMORY + 1, 0x3C);
    for cue in written().iter().rev().filter(|cue| cue.lines.len() < 50) {
        stream.cue_sheet(&cue.bytes());
    }
}

/// Every length up to past a whole sheet's, cut from a right one and filled up.
pub fn sheet_lengths(stream: &mut Stream) {
    stream.memory(MEMORY, 0x12);
    let sheet = two_tracks().bytes();
    for length in 0..=sheet.len() + ENTRY {
        let mut cut = sheet.clone();
        cut.resize(length, 0x01);
        stream.cue_sheet(&cut);
    }
    // All remainders behind a long one, and bytes that are an entry's first.
    let long = tracks_from(1, 20).bytes();
    for less in 0..=ENTRY {
        stream.cue_sheet(&long[..long.len() - less]);
    }
    for more in 1..=ENTRY {
        let sheet = [&sheet[..], &sheet[sheet.len() - ENTRY..][..more]].concat();
        stream.cue_sheet(&sheet);
    }
}

/// Memories around the bound, with several fills: a sheet that is written, one that 12
/// and one that 13 refuses.
pub fn output_memories(stream: &mut Stream) {
    let (sheet, other) = (three_tracks().bytes(), unfit().bytes());
    for length in [0, 1, 4_360, 6_537, 6_538, 6_539, 8_191] {
        for fill in [0x00, 0xA5, 0xFF] {
            stream.memory(length, fill);
            stream.cue_sheet(&other);
            stream.cue_sheet(&sheet[1..]);
            stream.cue_sheet(&sheet);
            stream.cue_sheet(&other);
        }
    }
    stream.memory(MEMORY, 0xC3);
}

/// 14, 12 and 13 in every combination: memory, length and entries right or wrong.
pub fn refusals_in_order(stream: &mut Stream) {
    for (memory, fill) in [(MEMORY - 1, 0x21), (MEMORY, 0x22)] {
        for cut in [0, 1, 4, 7] {
            for cue in [three_tracks(), unfit(), tracks_from(99, 2)] {
                let sheet = cue.bytes();
                stream.memory(memory, fill);
                stream.cue_sheet(&sheet[..sheet.len() - cut]);
            }
            stream.memory(memory, fill);
            stream.cue_sheet(&[0xAA; ENTRY][cut..]);
            stream.cue_sheet(&[]);
        }
    }
}

/// A refused sheet behind a written one, and a shorter table over a longer: the memory
/// holds what it held, as its sum and an answer cut to nothing show.
pub fn memory_kept(stream: &mut Stream) {
    stream.memory(MEMORY, 0xE7);
    stream.state(State::READY);
    stream.table(&disc_e().bytes());
    for cue in [
        ninety_nine(),
        two_tracks(),
        three_tracks(),
        tracks_from(7, 1),
    ] {
        let sheet = cue.bytes();
        stream.cue_sheet(&sheet);
        for refused in [&unfit().bytes()[..], &sheet[..sheet.len() - 1], &[]] {
            stream.cue_sheet(refused);
        }
        stream.packet(&toc(false, 0, 0, 0));
        stream.packet(&capacity());
    }
    // What a packet answered is overwritten too, and stays past the table.
    stream.table(&most_tracks().bytes());
    stream.packet(&toc(false, 2, 0, 65_535));
    stream.cue_sheet(&two_tracks().bytes());
    stream.cue_sheet(&unfit().bytes());
    stream.memory(8_191, 0x18);
    stream.packet(&toc(true, 0, 0, 804));
    stream.cue_sheet(&three_tracks().bytes());
    stream.memory(MEMORY, 0xC3);
}

/// No bound on a sheet's length: 1,000 entries and 1,023, written; and one of 150, right
/// and wrong in its last entry but one.
pub fn long_sheets(stream: &mut Stream) {
    stream.memory(MEMORY, 0x66);
    stream.cue_sheet(&long_sheet(1_000).bytes());
    stream.memory(8_191, 0x99);
    stream.cue_sheet(&long_sheet(1_023).bytes());
    let mut cue = long_sheet(150);
    stream.cue_sheet(&cue.bytes());
    let at = cue.lines.len() - 2;
    cue.lines[at][0] ^= 0x02;
    stream.cue_sheet(&cue.bytes());
    stream.memory(MEMORY, 0xC3);
}

/// The drive with something in every part of its state, locked.
pub fn full() -> State {
    State {
        lock: true,
        power: true,
        change: true,
        sense: sense::WRONG_MODE,
        play: Play::new(PLAYING, 160, 290),
        mode: ModePage::new(0x35, 0x53),
        event: PRESSED,
        ..State::READY
    }
}

/// Sheets written and refused, in a drive with everything in its state, and each time what
/// tells a part of it: state, table and list are as they were.
pub fn nothing_else_moved(stream: &mut Stream) {
    stream.table(&disc_e().bytes());
    stream.list(&page_list(0x24, 0x10));
    stream.memory(MEMORY, 0xD2);
    let sheets = [three_tracks().bytes(), unfit().bytes(), vec![0; 9]];
    for sheet in &sheets {
        stream.state(full());
        for packet in [
            inquiry(5),
            event_status(0x10, 8),
            request_sense(18),
            test_ready(),
            test_ready(),
            position(false),
            mode_sense(0, 1, 16),
            capacity(),
            read10(149, 1),
            start_stop(EJECT),
            prevent(0),
            start_stop(EJECT),
        ] {
            stream.cue_sheet(sheet);
            stream.packet(&packet);
        }
        stream.part(1);
        stream.button();
        stream.cue_sheet(sheet);
        stream.lift();
        stream.power_on();
        stream.cue_sheet(sheet);
        stream.move_on(1);
    }
    // Met by the state of the very start's kind, by an empty drive, and with no table.
    for state in [
        State::EMPTY,
        State::READY.opened(),
        State {
            event: 4,
            ..State::READY
        },
    ] {
        stream.state(state);
        stream.table(&[]);
        stream.cue_sheet(&sheets[0]);
        stream.packet(&test_ready());
        stream.button();
    }
    stream.list(&[]);
    stream.table(&disc_e().bytes());
}

/// The table of a sheet lent to a loaded drive: its part, its size and the three formats.
pub fn lend_and_ask(stream: &mut Stream, sheet: &[u8]) {
    stream.memory(MEMORY, 0x44);
    stream.cue_sheet(sheet);
    let Ok(table) = table_of(sheet) else {
        return;
    };
    stream.table(&table);
    stream.part(1);
    stream.state(State::READY);
    stream.packet(&capacity());
    for packet in [
        toc(false, 0, 0, 804),
        toc(true, 0, 0xAA, 804),
        toc(true, 1, 0, 12),
        toc(false, 2, 0, 1_126),
    ] {
        stream.packet(&packet);
    }
}

/// The tables of the sheets that are written, each lent to a loaded drive; of the two with
/// 99 tracks one will do.
pub fn written_and_lent(stream: &mut Stream) {
    for cue in written().iter().filter(|cue| cue.lines.len() != 101) {
        lend_and_ask(stream, &cue.bytes());
    }
    // Two that differ in what is passed over have one table.
    let cue = three_tracks();
    let more = cue.with_line(TRACKS_AT[2], line(0xF, LEAD_OUT, 0, [255; 3]));
    for cue in [cue, more] {
        lend_and_ask(stream, &cue.bytes());
    }
    stream.table(&disc_e().bytes());
}
