//! K13, picked by hand: where a table ends, those that no disc could have, every total of
//! every kind of table, and totals at and past the end of 64 bits.

use crate::cases::breaks::breaks;
use crate::cases::draft::t134;
use crate::cases::packets::{
    capacity, event_status, inquiry, mode_select, mode_sense, page_list, position, prevent, read10,
    request_sense, start_stop, test_ready, toc, EJECT,
};
use crate::cases::picked_cue::full;
use crate::cases::picked_state::MEMORY;
use crate::cases::several::alone;
use crate::cases::sheet::{
    disc_e, fullest, mode_5, most_tracks, one_long_audio, one_long_track, three_sessions,
    three_sittings, two_sessions, two_sittings, Plan, Sheet, FREE,
};
use crate::cases::shelf_stream::{all_audio, all_data, of_length};
use crate::cases::stream::Stream;
use crate::drive::State;
use crate::limits::{BOUND, TOP_ADDRESS};
use crate::shelf::{count, Totals, AUDIO, DATA, FIT, LINES, NO_TRACK, TABLES, TRACKS, UNFIT};

/// Counted from nothing.
pub fn from_zero(stream: &mut Stream, tables: &[&[u8]]) {
    stream.shelf(Totals::default(), &tables.concat());
}

/// A disc with something in every total: a gap before the first track, a data and an audio
/// track, a gap, and a session of one more.
pub fn of_all() -> Sheet {
    Sheet::lay_out(
        3,
        &[
            Plan::new(90, 0x10, &[(20, 0x14), (50, 0x10)]),
            Plan::new(207, 0x14, &[(107, 0x16)]),
        ],
    )
}

/// One track of so many blocks from 0 on.
pub fn blocks(count: u32, bits: u8) -> Sheet {
    Sheet::lay_out(1, &[Plan::new(count, bits, &[(0, bits)])])
}

/// Nothing, single bytes, two bytes and three; Table E behind some.
pub fn shelf_ends(stream: &mut Stream) {
    let e = disc_e().bytes();
    from_zero(stream, &[]);
    for byte in [0x00, 0x01, 0xFF] {
        from_zero(stream, &[&[byte]]);
        from_zero(stream, &[&e, &[byte]]);
        from_zero(stream, &[&[0, byte]]);
        from_zero(stream, &[&[byte, 0]]);
        from_zero(stream, &[&[0, 1, byte]]);
        from_zero(stream, &[&[0, 2, byte]]);
        from_zero(stream, &[&[0, 2, 1, byte]]);
    }
    from_zero(stream, &[&e]);
    from_zero(stream, &[&e, &e, &e]);
}

/// A table of one track cut off at each place, and others behind a whole one; some of what
/// is left would be a whole table if its length said so.
pub fn cut_off_anywhere(stream: &mut Stream) {
    let (e, two) = (disc_e().bytes(), two_sessions().bytes());
    let short = blocks(7, 0x14).bytes();
    for length in 0..=short.len() {
        from_zero(stream, &[&short[..length]]);
    }
    for length in [1, 2, 3, 4, 15, 48, 59, 124] {
        from_zero(stream, &[&e, &two[..length]]);
    }
    from_zero(stream, &[&e[..48]]);
    from_zero(stream, &[&two[..70]]);
}

/// Every data length up to 16, of zeros and of Table E's bytes, with E behind it.
pub fn data_lengths(stream: &mut Stream) {
    let e = disc_e().bytes();
    for length in 0..=16 {
        from_zero(stream, &[&of_length(length), &e]);
    }
    for length in [0u16, 1, 2, 11, 13] {
        let zeros = [&length.to_be_bytes()[..], &vec![0; usize::from(length)]].concat();
        from_zero(stream, &[&zeros, &e]);
        from_zero(stream, &[&e, &zeros, &zeros, &e, &zeros]);
    }
    // E's own length in the other order, a byte less, a byte more.
    for length in [0x3900, 0x0038, 0x003A, 0x0139] {
        from_zero(stream, &[&disc_e().bytes_with(length), &e, &e]);
    }
    // The two shortest in a row, and as the last bytes of all.
    from_zero(stream, &[&[0, 0, 0, 0, 0, 1, 7, 0, 1, 0, 0, 0], &e]);
    from_zero(stream, &[&[0; 9]]);
    from_zero(stream, &[&e, &[0, 0]]);
    from_zero(stream, &[&e, &[0, 1, 0]]);
    from_zero(stream, &[&e, &[0, 1]]);
}

/// One over the bound is passed over whole and the next one found; cut off as well it
/// counts once.
pub fn over_the_bound(stream: &mut Stream) {
    let (e, bound) = (disc_e().bytes(), BOUND as u16);
    // A byte over, and 595 descriptors.
    from_zero(stream, &[&of_length(bound - 1), &e]);
    let mut row_over = fullest();
    row_over.rows.push(row_over.rows[593]);
    from_zero(stream, &[&e, &row_over.bytes(), &alone(7)]);
    // Cut off behind the length, in the next byte, and where E would fit.
    let long = of_length(0xFFFF);
    for length in [2, 3, 61] {
        from_zero(stream, &[&e, &long[..length]]);
    }
    for data_length in [bound - 1, 0x7FFF, 0x8000, 0xFFFE] {
        from_zero(stream, &[&of_length(data_length)[..120]]);
    }
}

/// 594 descriptors, and E behind them.
pub fn longest_table(stream: &mut Stream) {
    from_zero(stream, &[&fullest().bytes(), &disc_e().bytes()]);
}

/// Each rule broken alone, before and behind E; all in a row, both ways; and tables that
/// break several.
pub fn unfit_by_rule(stream: &mut Stream) {
    let e = disc_e().bytes();
    // Rule 1 by its length: those of `alone` have another length than they say.
    let of_rule = |rule: u8| match rule {
        1 => of_length(58),
        _ => alone(rule),
    };
    for rule in 1..=7 {
        from_zero(stream, &[&of_rule(rule)]);
        from_zero(stream, &[&e, &of_rule(rule), &of_rule(rule)]);
    }
    let up: Vec<Vec<u8>> = (1..=7).map(of_rule).collect();
    let down: Vec<Vec<u8>> = (1..=7).rev().map(of_rule).collect();
    for all in [up, down] {
        from_zero(stream, &[&all.concat(), &e]);
    }
    // So many of each that no two totals are the same.
    let many: Vec<Vec<u8>> = (1..=7)
        .flat_map(|rule| vec![of_rule(rule); usize::from(rule) + 1])
        .collect();
    from_zero(stream, &[&many.concat()]);
    // Of the others each fortieth whose length is as it says.
    let whole = |table: &Vec<u8>| table.len() < 400 && *table == of_said_length(table);
    let tables = breaks().into_iter().map(|broken| broken.table);
    let several: Vec<Vec<u8>> = tables.filter(whole).step_by(40).collect();
    for some in several.chunks(6) {
        from_zero(stream, &[&some.concat()]);
    }
}

/// As much of a table as its own data length says.
fn of_said_length(table: &[u8]) -> &[u8] {
    match table {
        [high, low, ..] => {
            let length = usize::from(u16::from_be_bytes([*high, *low])) + 2;
            &table[..length.min(table.len())]
        }
        _ => table,
    }
}

/// Tracks and blocks: audio, data and both, every control, gaps before the first track and
/// between sessions, B0h and C0h, one block and all that there may be.
pub fn every_kind(stream: &mut Stream) {
    let plan = |lead_out, tracks: &[(u32, u8)]| Plan::new(lead_out, 0x14, tracks);
    let mut list = vec![
        disc_e(),
        two_sessions(),
        three_sessions(),
        two_sittings(),
        three_sittings(),
        t134(),
        most_tracks(),
        of_all(),
        one_long_track(),
        one_long_audio(),
        all_audio(three_sittings()),
        all_data(three_sittings()),
        blocks(1, 0x14),
        blocks(1, 0x10),
        // A gap before the first track, of one block and of nearly all.
        Sheet::lay_out(1, &[plan(2, &[(1, 0x14)])]),
        Sheet::lay_out(1, &[plan(2, &[(1, 0x10)])]),
        Sheet::lay_out(9, &[plan(TOP_ADDRESS, &[(TOP_ADDRESS - 1, 0x10)])]),
        // Gaps between sessions, of one block and of nearly all.
        Sheet::lay_out(1, &[plan(1, &[(0, 0x14)]), plan(3, &[(2, 0x10)])]),
        Sheet::lay_out(
            98,
            &[
                plan(1, &[(0, 0x10)]),
                plan(TOP_ADDRESS, &[(TOP_ADDRESS - 1, 0x14)]),
            ],
        ),
        // 70,000 and 66,000 blocks: more than two bytes count.
        Sheet::lay_out(1, &[plan(136_000, &[(0, 0x10), (70_000, 0x14)])]),
    ];
    // Every control of track, lead-out, A0 and A1, in tracks of different lengths.
    for control in 0..16 {
        let tracks = [(5, 0x10 | control), (12, 0x14), (29, 0x10)];
        let mut sheet = Sheet::lay_out(1, &[Plan::new(60, 0x1F - control, &tracks)]);
        sheet.rows[0][1] = 0x1F - control;
        list.push(sheet);
    }
    // B0h and C0h whose bytes would be data, audio or starts.
    for free in [FREE[0], FREE[3], FREE[6]] {
        let mut sheet = of_all();
        for (session, point) in [(1, 0xB0), (1, 0xC0), (2, 0xC0)] {
            sheet.close(mode_5(session, point, free[5], free));
        }
        list.push(sheet);
    }
    for sheet in &list {
        from_zero(stream, &[&sheet.bytes()]);
    }
    // Some in one stream.
    let some: Vec<Vec<u8>> = list[7..20].iter().map(Sheet::bytes).collect();
    from_zero(stream, &[&some.concat()]);
}

/// Streams of whole tables, each alone and two together in both orders.
pub fn two_streams(stream: &mut Stream) {
    let parts = [
        [disc_e().bytes(), alone(4), of_length(1)].concat(),
        [of_all().bytes(), two_sessions().bytes()].concat(),
        [alone(2), of_length(0), three_sittings().bytes()].concat(),
    ];
    for one in &parts {
        from_zero(stream, &[one]);
        for other in &parts {
            from_zero(stream, &[one, other]);
        }
        // And the first on top of its totals.
        if let Ok(totals) = count(Totals::default(), one) {
            stream.shelf(totals, &parts[0]);
        }
    }
}

/// For each line a table that adds to it, and how much.
fn adding_to(line: usize) -> Vec<u8> {
    match line {
        TABLES | FIT | TRACKS | DATA => blocks(1, 0x14).bytes(),
        AUDIO => blocks(1, 0x10).bytes(),
        NO_TRACK => Sheet::lay_out(1, &[Plan::new(2, 0x14, &[(1, 0x14)])]).bytes(),
        UNFIT => of_length(1),
        rule => alone((rule - UNFIT + 1) as u8),
    }
}

/// Nothing but this total.
fn only(line: usize, total: u64) -> Totals {
    let mut totals = Totals::default();
    totals.0[line] = total;
    totals
}

/// Each total at 2^64 − 1 and around it, with a table that adds one to it: exactly there,
/// one past, and a table that adds nothing to it.
pub fn totals_at_the_top(stream: &mut Stream) {
    for line in 0..LINES {
        let table = adding_to(line);
        for less in [1, 0] {
            stream.shelf(only(line, u64::MAX - less), &table);
        }
        // A table that leaves it: E has no gap and is fit, a single byte is neither.
        let other = match line {
            TABLES => vec![],
            FIT | TRACKS | DATA | AUDIO | NO_TRACK => vec![0],
            _ => disc_e().bytes(),
        };
        stream.shelf(only(line, u64::MAX), &other);
        // All others at the top but for what the table adds.
        if let Ok(Totals(worth)) = count(Totals::default(), &table) {
            let mut from = worth.map(|more| u64::MAX - more);
            stream.shelf(Totals(from), &table);
            from[line] += 1;
            stream.shelf(Totals(from), &table);
        }
    }
}

/// The same by tables that add many tracks and blocks: to the end exactly, one past it,
/// and by far.
pub fn many_past_the_top(stream: &mut Stream) {
    let discs = [
        (TRACKS, most_tracks(), 99),
        (DATA, one_long_track(), 449_849),
        (AUDIO, one_long_audio(), 449_849),
        (
            NO_TRACK,
            Sheet::lay_out(
                1,
                &[Plan::new(TOP_ADDRESS, 0x14, &[(TOP_ADDRESS - 1, 0x14)])],
            ),
            449_848,
        ),
        (DATA, of_all(), 130),
        (AUDIO, of_all(), 40),
        (NO_TRACK, of_all(), 37),
        (TRACKS, of_all(), 3),
    ];
    for (line, sheet, adds) in discs {
        let table = sheet.bytes();
        for by in [adds, adds - 1] {
            stream.shelf(only(line, u64::MAX - by), &table);
        }
        if table.len() < 200 {
            stream.shelf(only(line, u64::MAX - adds / 2), &table);
            let twice = [&table[..], &table].concat();
            stream.shelf(only(line, u64::MAX - 2 * adds), &twice);
            stream.shelf(only(line, u64::MAX - 2 * adds + 1), &twice);
        }
    }
    // Over 32 bits and over 63 nothing happens.
    for from in [u64::from(u32::MAX), u64::MAX >> 1, 1 << 63] {
        stream.shelf(
            Totals([from; LINES]),
            &[&of_all().bytes()[..], &[0]].concat(),
        );
    }
}

/// Too large in the middle of a stream: whatever stands behind, whole, cut off or over the
/// bound, it is too large; and by the table cut off at the end.
pub fn too_large_in_the_middle(stream: &mut Stream) {
    let e = disc_e().bytes();
    let behind: [&[u8]; 5] = [&[], &e, &[0], &alone(5), &of_length(0xFFFF)[..90]];
    for line in 0..LINES {
        let table = adding_to(line);
        for (behind, place) in behind.iter().zip(0..) {
            if (line + place) % 3 == 0 || line < 1 {
                let tables = [&[0, 0], &table[..], behind].concat();
                stream.shelf(only(line, u64::MAX - u64::from(line == UNFIT)), &tables);
            }
        }
    }
    for line in [TABLES, UNFIT] {
        for tables in [&[0][..], &[0, 2, 1], &e[..58], &of_length(0xFFFF)[..70]] {
            for less in [1, 0] {
                stream.shelf(only(line, u64::MAX - less), tables);
            }
        }
    }
}

/// Totals that no shelf could have come to are counted on all the same: each has 8 bytes,
/// high byte first, in the order of the lines.
pub fn totals_in_order(stream: &mut Stream) {
    let of_line = |line: usize| {
        let bytes: [u8; 8] = std::array::from_fn(|at| (line * 8 + at) as u8 + 1);
        u64::from_be_bytes(bytes)
    };
    let totals = Totals(std::array::from_fn(of_line));
    for tables in [&[][..], &[0], &of_all().bytes(), &alone(6)] {
        stream.shelf(totals, tables);
    }
    for line in 0..LINES {
        stream.shelf(only(line, 1 << (line * 5)), &[]);
    }
    stream.shelf(Totals([u64::MAX; LINES]), &[]);
    stream.shelf(Totals([u64::MAX; LINES]), &[0]);
}

/// Shelves between packets, in a drive with something in every part of its state: state,
/// table, list and memory are as they were.
pub fn shelf_moves_nothing(stream: &mut Stream) {
    stream.table(&disc_e().bytes());
    stream.list(&page_list(0x24, 0x10));
    stream.memory(MEMORY, 0x6B);
    let tables = [of_all().bytes(), alone(6), vec![0]].concat();
    let top = only(TABLES, u64::MAX);
    for totals in [Totals::default(), top] {
        stream.state(full());
        stream.shelf(totals, &tables);
        for packet in [
            inquiry(5),
            event_status(0x10, 8),
            request_sense(18),
            test_ready(),
            test_ready(),
            position(false),
            mode_select(16),
            mode_sense(0, 1, 16),
            capacity(),
            toc(false, 0, 0, 804),
            read10(149, 1),
            start_stop(EJECT),
            prevent(0),
            start_stop(EJECT),
        ] {
            stream.packet(&packet);
            stream.shelf(totals, &tables);
        }
        stream.part(1);
        stream.button();
        stream.shelf(totals, &tables);
        stream.lift();
        stream.power_on();
        stream.shelf(totals, &[]);
        stream.move_on(1);
    }
    // Met by an empty drive, by one that 2 covers, with no table and no memory.
    let stranger = State {
        event: 4,
        ..State::READY
    };
    for state in [State::EMPTY, State::READY.opened(), stranger] {
        stream.state(state);
        stream.table(&[]);
        stream.memory(0, 0);
        stream.shelf(Totals::default(), &tables);
        stream.packet(&test_ready());
        stream.button();
    }
    stream.list(&[]);
    stream.memory(MEMORY, 0xC3);
    stream.table(&disc_e().bytes());
}
