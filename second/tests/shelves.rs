//! K13: "What our disc shelf holds." Each sentence by exact streams; drawn streams against a
//! plainer reading over the bytes alone, and block by block; what the totals keep to; totals
//! at the end of 64 bits; the program; and what the streams and the stored run have of it.

use std::collections::BTreeSet;
use std::fs::File;
use std::io::{self, Read, Write};
use std::process::{Command, Output, Stdio};

use second::cases::bad::random_stream;
use second::cases::breaks::{breaks, Break};
use second::cases::draft::t134;
use second::cases::fits::fits;
use second::cases::packets::{capacity, test_ready};
use second::cases::picked_shelf::{self, blocks, of_all};
use second::cases::random::{fill_with, shelf_scene};
use second::cases::several::{alone, with_faults, Fault};
use second::cases::sheet::{
    any_fit, disc_e, fullest, longest, mode_5, most_tracks, one_long_audio, one_long_track,
    small_fit, three_sittings, two_sessions, two_sittings, Plan, Sheet, FREE,
};
use second::cases::shelf_files;
use second::cases::shelf_stream::{
    all_audio, all_data, any_shelf, any_table, cut_off, of_length, tables,
};
use second::cases::stream::Stream;
use second::drive::State;
use second::limits::{BOUND, TOP_ADDRESS};
use second::replay::{self, take_record};
use second::rng::Rng;
use second::shelf::{self, count, items, lines, program, Item, Shelf, TooLarge, Totals, LINES};
use second::table;
use second::tally::{self, Shelves};
use second::{examples, stored};

// ---- a plainer reading, over the bytes

/// The tables of a stream by place and length; None for one that is cut off or too long.
fn plain_tables(stream: &[u8]) -> Vec<Option<&[u8]>> {
    let (mut list, mut at) = (Vec::new(), 0);
    while at < stream.len() {
        let left = stream.len() - at;
        let length = match left {
            1 => 2,
            _ => usize::from(stream[at]) * 256 + usize::from(stream[at + 1]) + 2,
        };
        let whole = length <= left && length <= 6_538;
        list.push(whole.then(|| &stream[at..at + length]));
        at += length;
    }
    list
}

fn frames(time: &[u8]) -> Option<usize> {
    let [m, s, f] = [0, 1, 2].map(|part| usize::from(time[part]));
    let frames = (m * 60 + s) * 75 + f;
    (s <= 59 && f <= 74 && m <= 99 && frames >= 150).then(|| frames - 150)
}

/// Rule 4 by a walk from descriptor to descriptor.
fn plain_rule_4(rows: &[&[u8]], sessions: u8) -> bool {
    let (mut at, mut due) = (0, None);
    for session in 1..=sessions {
        let is = |at: usize, point: u8| {
            let row = rows.get(at);
            row.is_some_and(|row| row[0] == session && row[3] == point)
        };
        if !(is(at, 0xA0) && is(at + 1, 0xA1) && is(at + 2, 0xA2)) {
            return false;
        }
        let (first, last) = (rows[at][8], rows[at + 1][8]);
        if first < 1 || first > last || last > 99 || due.is_some_and(|due| due != first) {
            return false;
        }
        at += 3;
        for number in first..=last {
            if !is(at, number) {
                return false;
            }
            at += 1;
        }
        at += usize::from(is(at, 0xB0));
        at += usize::from(is(at, 0xC0));
        due = Some(last + 1);
    }
    at == rows.len()
}

/// The first rule that a table breaks, or 0.
fn plain_rule(table: &[u8]) -> usize {
    let length = table.len();
    if !(4..=6_538).contains(&length) || !(length - 4).is_multiple_of(11) {
        return 1;
    }
    if usize::from(table[0]) * 256 + usize::from(table[1]) + 2 != length {
        return 1;
    }
    if table[2] != 1 || table[3] == 0 || table[3] > 99 {
        return 2;
    }
    let rows: Vec<&[u8]> = table[4..].chunks(11).collect();
    let free = |row: &[u8]| row[3] == 0xB0 || row[3] == 0xC0;
    for row in &rows {
        let sound = match free(row) {
            true => row[1] / 16 == 5 && row[2] == 0,
            false => row[1] / 16 == 1 && row[2] == 0 && row[7] == 0,
        };
        if !sound {
            return 3;
        }
    }
    if !plain_rule_4(&rows, table[3]) {
        return 4;
    }
    for row in &rows {
        let sound = match row[3] {
            0xA0 => row[9] % 16 == 0 && row[9] <= 0x20 && row[10] == 0,
            0xA1 => row[9] == 0 && row[10] == 0,
            _ => true,
        };
        if !sound {
            return 5;
        }
    }
    let placed = |row: &&&[u8]| row[3] == 0xA2 || row[3] < 0xA0;
    if rows
        .iter()
        .filter(placed)
        .any(|row| frames(&row[8..]).is_none())
    {
        return 6;
    }
    let mut reached = None;
    let mut out = None;
    for row in &rows {
        let start = frames(&row[8..]);
        if row[3] == 0xA2 {
            // The session before ends at its lead-out.
            if out.is_some_and(|out| reached >= Some(out)) {
                return 7;
            }
            reached = out.or(reached);
            out = start;
        } else if row[3] < 0xA0 {
            if reached.is_some() && reached >= start {
                return 7;
            }
            reached = start;
        }
    }
    if reached >= out {
        return 7;
    }
    0
}

/// Where each track of a fit table starts and whether it is data, and all borders: the
/// tracks' starts and the lead-outs. The last border is L.
fn marks(table: &[u8]) -> (Vec<(usize, bool)>, BTreeSet<usize>) {
    let (mut tracks, mut borders) = (Vec::new(), BTreeSet::new());
    for row in table[4..].chunks(11) {
        let start = frames(&row[8..]).unwrap_or(0);
        if row[3] < 0xA0 {
            tracks.push((start, row[1] % 8 >= 4));
        }
        if row[3] < 0xA0 || row[3] == 0xA2 {
            borders.insert(start);
        }
    }
    (tracks, borders)
}

/// The thirteen numbers of one table.
fn plain_worth(table: Option<&[u8]>) -> [u64; 13] {
    let mut worth = [0; 13];
    worth[0] = 1;
    let rule = table.map_or(1, plain_rule);
    if rule > 0 {
        worth[1 + rule] = 1;
        return worth;
    }
    let table = table.expect("it has no rule");
    worth[1] = 1;
    let points = table[4..].chunks(11).map(|row| row[3]);
    worth[9] = points.filter(|&point| point < 0xA0).count() as u64;
    // A track has what lies below the next border; what is left of L is nobody's.
    let (tracks, borders) = marks(table);
    worth[12] = *borders.last().expect("there is a lead-out") as u64;
    for (start, is_data) in tracks {
        let end = borders.range(start + 1..).next().expect("a lead-out");
        let blocks = (end - start) as u64;
        worth[if is_data { 10 } else { 11 }] += blocks;
        worth[12] -= blocks;
    }
    worth
}

/// What is due of a stream on top of these totals; None where one of them is too large.
fn due(from: [u64; 13], stream: &[u8]) -> Option<[u64; 13]> {
    let mut totals = from.map(u128::from);
    for table in plain_tables(stream) {
        for (total, more) in totals.iter_mut().zip(plain_worth(table)) {
            *total += u128::from(more);
        }
    }
    let fit = totals.iter().all(|&total| total < 1 << 64);
    fit.then(|| totals.map(|total| total as u64))
}

/// The totals of a stream from zeros, held to the plain reading.
fn held(stream: &[u8]) -> [u64; 13] {
    let Ok(Totals(found)) = count(Totals::default(), stream) else {
        panic!("no stream of a test is so long");
    };
    assert_eq!(Some(found), due([0; 13], stream));
    found
}

/// These tables, whole or not, one after the other.
fn on_a_shelf(tables: &[&[u8]]) -> [u64; 13] {
    held(&tables.concat())
}

/// What a stream adds to the first nine lines: tables, fit ones, and unfit ones by rule.
fn kinds(tables: &[&[u8]]) -> [u64; 9] {
    on_a_shelf(tables)[..9].try_into().expect("nine of them")
}

/// Tracks, data blocks, audio blocks and blocks of no track of one table.
fn of_disc(sheet: &Sheet) -> [u64; 4] {
    let totals = held(&sheet.bytes());
    assert_eq!(totals[..3], [1, 1, 0]);
    totals[9..].try_into().expect("four of them")
}

fn e() -> Vec<u8> {
    disc_e().bytes()
}

/// One session with these tracks.
fn disc(lead_out: u32, tracks: &[(u32, u8)]) -> Sheet {
    Sheet::lay_out(1, &[Plan::new(lead_out, 0x14, tracks)])
}

/// The picked tables that break a rule and are as long as they say.
fn whole_breaks() -> Vec<Break> {
    let mut list = breaks();
    list.retain(|broken| match broken.table[..] {
        [high, low, ..] => usize::from(high) * 256 + usize::from(low) + 2 == broken.table.len(),
        _ => false,
    });
    assert!(list.len() > 200);
    list
}

// ---- tables one after the other

/// "each its data length plus 2 long": its first two bytes, high byte first.
#[test]
fn a_tables_length() {
    assert_eq!(items(&e()), [Item::Whole(e())]);
    assert_eq!(kinds(&[&e()]), [1, 1, 0, 0, 0, 0, 0, 0, 0]);
    for length in [0, 1, 2, 3, 57, 255, 256, 257, 511, 6_536] {
        let table = of_length(length);
        assert_eq!(table.len(), usize::from(length) + 2);
        let stream = [&table[..], &e()].concat();
        let found = items(&stream);
        assert_eq!(found, [Item::Whole(table), Item::Whole(e())], "{length}");
        held(&stream);
    }
    // With the length itself in the two bytes, or one less, the next one is not found.
    for wrong in [0x3B, 0x38, 0x3A] {
        let stream = [disc_e().bytes_with(wrong), e()].concat();
        assert_eq!(held(&stream)[1], 0);
    }
}

#[test]
fn one_after_the_other() {
    let (e, two) = (e(), two_sessions().bytes());
    assert_eq!(
        on_a_shelf(&[&e, &two, &e]),
        [3, 3, 0, 0, 0, 0, 0, 0, 0, 9, 1_400, 800, 11_400]
    );
    let stream = [&e[..], &two, &alone(3), &e].concat();
    let whole = [e.clone(), two, alone(3), e.clone()].map(Item::Whole);
    assert_eq!(items(&stream), whole);
    // Nothing stands between, so a byte there moves all that is behind it.
    assert_eq!(on_a_shelf(&[&e, &[0], &e])[1], 1);
}

#[test]
fn an_empty_stream() {
    assert_eq!(on_a_shelf(&[]), [0; 13]);
    assert_eq!(items(&[]), []);
    // Drawn ones may be cut off where there is nothing to cut.
    assert_eq!(cut_off(&mut Rng::new(1), Vec::new()), []);
    assert_eq!(lines(count(Totals::default(), &[])), "0\n".repeat(13));
    let from = Totals([7; LINES]);
    assert_eq!(count(from, &[]), Ok(from));
    let top = Totals([u64::MAX; LINES]);
    assert_eq!(count(top, &[]), Ok(top));
}

#[test]
fn a_single_byte() {
    for byte in 0..=255 {
        assert_eq!(kinds(&[&[byte]]), [1, 0, 1, 0, 0, 0, 0, 0, 0]);
        assert_eq!(kinds(&[&e(), &[byte]]), [2, 1, 1, 0, 0, 0, 0, 0, 0]);
        assert_eq!(items(&[byte]), [Item::CutOff { over: false }]);
    }
}

/// Once, as rule 1, wherever it is cut, whatever rule it would break and whatever is there.
#[test]
fn cut_off_by_the_end() {
    let whole = [e(), two_sittings().bytes(), t134().bytes(), of_length(30)];
    for table in whole.iter().chain(&(2..=7).map(alone).collect::<Vec<_>>()) {
        for length in 1..table.len() {
            let cut = &table[..length];
            assert_eq!(kinds(&[cut]), [1, 0, 1, 0, 0, 0, 0, 0, 0]);
            assert_eq!(on_a_shelf(&[cut])[9..], [0; 4]);
            assert_eq!(kinds(&[&e(), cut]), [2, 1, 1, 0, 0, 0, 0, 0, 0]);
        }
        assert_eq!(items(table), [Item::Whole(table.clone())]);
    }
    // Whole descriptors behind a length that asks for more: fit by all but the length.
    let mut long = e();
    long[..2].copy_from_slice(&68u16.to_be_bytes());
    assert_eq!(kinds(&[&long]), [1, 0, 1, 0, 0, 0, 0, 0, 0]);
}

/// "as does one over the bound, which is skipped": whole, and the next one is found.
#[test]
fn over_the_bound() {
    for length in [6_537, 6_538, 6_547, 8_000, 0x7FFF, 0x8000, 0xFFFE, 0xFFFF] {
        let over = of_length(length);
        assert_eq!(kinds(&[&over]), [1, 0, 1, 0, 0, 0, 0, 0, 0]);
        assert_eq!(items(&over), [Item::Over]);
        assert_eq!(kinds(&[&over, &e()]), [2, 1, 1, 0, 0, 0, 0, 0, 0]);
        let found = kinds(&[&e(), &over, &alone(5), &over, &e()]);
        assert_eq!(found, [5, 2, 2, 0, 0, 0, 1, 0, 0]);
    }
    // 595 descriptors that keep every other rule for as long as they last.
    let mut sheet = fullest();
    sheet.rows.push(sheet.rows[593]);
    assert_eq!(kinds(&[&sheet.bytes(), &e()]), [2, 1, 1, 0, 0, 0, 0, 0, 0]);
    // The bound itself is within it.
    assert_eq!(items(&of_length(6_536)), [Item::Whole(of_length(6_536))]);
    assert_eq!(kinds(&[&of_length(6_536)]), [1, 0, 0, 1, 0, 0, 0, 0, 0]);
}

/// "cut off as well, it counts once".
#[test]
fn over_the_bound_and_cut_off() {
    for length in [6_537, 9_000, 0xFFFF] {
        let over = of_length(length);
        let last = over.len() - 1;
        for kept in [2, 3, 4, 59, 61, 120, 6_537, 6_538, last - 1, last] {
            let cut = &over[..kept];
            assert_eq!(kinds(&[cut]), [1, 0, 1, 0, 0, 0, 0, 0, 0]);
            assert_eq!(kinds(&[&e(), cut]), [2, 1, 1, 0, 0, 0, 0, 0, 0]);
            assert_eq!(items(cut), [Item::CutOff { over: true }]);
        }
    }
}

/// "A data length of 0 or 1 makes a table of 2 or 3 bytes: rule 1, and on."
#[test]
fn data_length_0_or_1() {
    let (none, one) = ([0, 0], [0, 1, 0x39]);
    assert_eq!(kinds(&[&none]), [1, 0, 1, 0, 0, 0, 0, 0, 0]);
    assert_eq!(kinds(&[&one]), [1, 0, 1, 0, 0, 0, 0, 0, 0]);
    assert_eq!(kinds(&[&none, &e()]), [2, 1, 1, 0, 0, 0, 0, 0, 0]);
    assert_eq!(kinds(&[&one, &e()]), [2, 1, 1, 0, 0, 0, 0, 0, 0]);
    let mixed = kinds(&[&none, &none, &one, &e(), &one, &none, &e(), &one]);
    assert_eq!(mixed, [8, 2, 6, 0, 0, 0, 0, 0, 0]);
    assert_eq!(kinds(&[&[0; 1_000]])[..3], [500, 0, 500]);
    assert_eq!(kinds(&[&[0; 1_001]])[..3], [501, 0, 501]);
    assert_eq!(items(&none), [Item::Whole(none.to_vec())]);
    // A length of 1 without its byte is cut off.
    assert_eq!(items(&[0, 1]), [Item::CutOff { over: false }]);
    // 2 is a table of four bytes, and rule 2 or 4 looks at it.
    assert_eq!(kinds(&[&[0, 2, 1, 0]]), [1, 0, 0, 1, 0, 0, 0, 0, 0]);
    assert_eq!(kinds(&[&[0, 2, 1, 1]]), [1, 0, 0, 0, 0, 1, 0, 0, 0]);
}

// ---- the thirteen lines

/// Line 1 counts every table, of any kind.
#[test]
fn line_1_tables() {
    for many in [1, 2, 9, 255, 256, 300] {
        assert_eq!(held(&e().repeat(many))[0], many as u64);
        assert_eq!(held(&alone(6).repeat(many))[0], many as u64);
    }
    let all = [&e()[..], &alone(2), &of_length(7_000), &[0, 0], &[9]];
    assert_eq!(on_a_shelf(&all)[0], 5);
}

#[test]
fn line_2_fit() {
    for (name, sheet) in fits() {
        let found = on_a_shelf(&[&sheet.bytes(), &alone(4), &sheet.bytes()]);
        assert_eq!(found[..3], [3, 2, 0], "{name}");
    }
}

/// Rule 1 of whole tables: a length that is not 4 plus a multiple of 11.
#[test]
fn line_3_rule_1() {
    for length in (0..=600).chain(6_500..=6_540) {
        let found = kinds(&[&of_length(length)]);
        let by_1 = !(length >= 2 && (length - 2) % 11 == 0 && length <= 6_536);
        assert_eq!(found[2], u64::from(by_1), "{length}");
    }
}

/// Each rule has its own line, in order.
#[test]
fn lines_4_to_9() {
    for rule in 2..=7u8 {
        let mut due = [0; 9];
        (due[0], due[usize::from(rule) + 1]) = (1, 1);
        assert_eq!(kinds(&[&alone(rule)]), due);
    }
    let many: Vec<Vec<u8>> = (2..=7)
        .flat_map(|rule| vec![alone(rule); usize::from(rule)])
        .collect();
    assert_eq!(kinds(&[&many.concat()]), [27, 0, 0, 2, 3, 4, 5, 6, 7]);
    for broken in whole_breaks() {
        let found = kinds(&[&broken.table, &e()]);
        assert_eq!(found[1 + usize::from(broken.rule)], 1, "{}", broken.name);
        assert_eq!(found[..2], [2, 1]);
    }
}

/// "by K6's rule": the first one, and no other line moves.
#[test]
fn one_rule_a_table() {
    for first in 2..=7u8 {
        for later in first + 1..=7 {
            for (here, there) in [(1, 2), (2, 1), (1, 1)] {
                let faults = [(first, here), (later, there)].map(|(rule, session)| Fault {
                    rule,
                    session,
                    way: 0,
                });
                let table = with_faults(two_sittings(), faults.to_vec());
                let mut due = [0; 13];
                (due[0], due[usize::from(first) + 1]) = (1, 1);
                assert_eq!(on_a_shelf(&[&table]), due);
            }
        }
    }
}

#[test]
fn line_10_tracks() {
    assert_eq!(of_disc(&disc_e())[0], 2);
    assert_eq!(of_disc(&two_sessions())[0], 5);
    assert_eq!(of_disc(&three_sittings())[0], 8);
    assert_eq!(of_disc(&most_tracks())[0], 99);
    assert_eq!(of_disc(&fullest())[0], 99);
    assert_eq!(of_disc(&t134())[0], 12);
    // Not the number of the last one.
    let high = Sheet::lay_out(97, &[Plan::new(9, 0x14, &[(0, 0x14), (4, 0x10)])]);
    assert_eq!(of_disc(&high), [2, 4, 5, 0]);
    assert_eq!(on_a_shelf(&[&e(), &high.bytes(), &e()])[9], 6);
}

#[test]
fn line_11_data() {
    assert_eq!(of_disc(&disc_e()), [2, 150, 150, 0]);
    assert_eq!(of_disc(&one_long_track()), [1, 449_849, 0, 0]);
    assert_eq!(of_disc(&blocks(1, 0x14)), [1, 1, 0, 0]);
    assert_eq!(of_disc(&two_sessions()), [5, 1_100, 500, 11_400]);
    for control in 0..16u8 {
        let sheet = disc(70, &[(0, 0x10 | control), (7, 0x10), (20, 0x14)]);
        let own = if control & 4 != 0 { 7 } else { 0 };
        assert_eq!(of_disc(&sheet), [3, 50 + own, 20 - own, 0], "{control}");
    }
}

#[test]
fn line_12_audio() {
    assert_eq!(of_disc(&one_long_audio()), [1, 0, 449_849, 0]);
    assert_eq!(of_disc(&blocks(1, 0x10)), [1, 0, 1, 0]);
    assert_eq!(of_disc(&all_audio(most_tracks())), [99, 0, 9_900, 0]);
    assert_eq!(of_disc(&most_tracks()), [99, 6_600, 3_300, 0]);
    // The control of A0, A1 and the lead-out does not count.
    let mut sheet = disc_e();
    for row in 0..3 {
        sheet.rows[row][1] ^= 4;
    }
    assert_eq!(of_disc(&sheet), [2, 150, 150, 0]);
}

#[test]
fn line_13_no_track() {
    assert_eq!(of_disc(&of_all()), [3, 130, 40, 37]);
    assert_eq!(of_disc(&all_audio(of_all())), [3, 0, 170, 37]);
    assert_eq!(of_disc(&all_data(of_all())), [3, 170, 0, 37]);
    // 004's disc: what lies between its four sessions.
    let between = (20_913 - 9_513) + (43_808 - 38_258) + (63_725 - 56_825);
    assert_eq!(of_disc(&t134())[3], between);
    assert_eq!(on_a_shelf(&[&of_all().bytes(), &of_all().bytes()])[12], 74);
}

/// "Blocks are those from 0 to L - 1": the lead-out itself is none of them.
#[test]
fn blocks_end_below_l() {
    for out in [1, 2, 3, 74, 75, 76, 65_535, 65_536, 65_537, TOP_ADDRESS] {
        let found = of_disc(&blocks(out, 0x14));
        assert_eq!(found, [1, u64::from(out), 0, 0]);
    }
    // The last session's lead-out, not the greatest start, and no block behind it.
    let sheet = disc(100, &[(0, 0x14), (99, 0x10)]);
    assert_eq!(of_disc(&sheet), [2, 99, 1, 0]);
}

#[test]
fn blocks_before_the_first_track() {
    for start in [0, 1, 2, 149, 150, 151, 70_000, TOP_ADDRESS - 1] {
        let sheet = disc(TOP_ADDRESS, &[(start, 0x10)]);
        let (start, end) = (u64::from(start), u64::from(TOP_ADDRESS));
        assert_eq!(of_disc(&sheet), [1, 0, end - start, start]);
    }
}

#[test]
fn blocks_between_sessions() {
    for gap in [1, 2, 150, 11_400, 70_000] {
        let plans = [
            Plan::new(50, 0x14, &[(0, 0x14)]),
            Plan::new(80 + gap, 0x14, &[(50 + gap, 0x10)]),
        ];
        let found = of_disc(&Sheet::lay_out(1, &plans));
        assert_eq!(found, [2, 50, 30, u64::from(gap)]);
    }
    // One behind each session but the last.
    let [_, data, audio, none] = of_disc(&fullest());
    assert_eq!((data + audio, none), (99 * 2_500, 98 * 1_500));
}

/// K1's two are descriptors, but no tracks, and their bytes are no address.
#[test]
fn b0_and_c0_are_no_tracks() {
    for free in FREE {
        let mut sheet = of_all();
        for (session, point) in [(1, 0xB0), (1, 0xC0), (2, 0xB0), (2, 0xC0)] {
            sheet.close(mode_5(session, point, free[5], free));
            assert_eq!(of_disc(&sheet), [3, 130, 40, 37]);
        }
    }
    let (bare, closed) = (of_disc(&two_sessions()), of_disc(&two_sittings()));
    assert_eq!(bare, closed);
}

/// An unfit table is in lines 1 and 3 to 9 alone.
#[test]
fn unfit_adds_nothing_more() {
    for broken in whole_breaks() {
        let found = held(&broken.table);
        assert_eq!(found[1], 0, "{}", broken.name);
        assert_eq!(found[9..], [0; 4], "{}", broken.name);
    }
    for rule in 2..=7 {
        let found = on_a_shelf(&[&alone(rule), &e(), &alone(rule)]);
        assert_eq!(found[9..], [2, 150, 150, 0]);
    }
}

/// 594 descriptors: fit, cut off by a byte, unfit in the last.
#[test]
fn the_longest_table() {
    let full = fullest().bytes();
    assert_eq!(full.len(), BOUND);
    let found = on_a_shelf(&[&full, &e(), &full]);
    assert_eq!(found[..3], [3, 3, 0]);
    assert_eq!(found[9], 2 * 99 + 2);
    assert_eq!(kinds(&[&full[..BOUND - 1]]), [1, 0, 1, 0, 0, 0, 0, 0, 0]);
    let mut sheet = fullest();
    sheet.rows[593][2] = 1;
    assert_eq!(kinds(&[&sheet.bytes(), &e()]), [2, 1, 0, 0, 1, 0, 0, 0, 0]);
    let mut rng = Rng::new(594);
    for _ in 0..6 {
        assert_eq!(held(&longest(&mut rng).bytes())[..2], [1, 1]);
    }
}

// ---- drawn streams

/// Every block from 0 on by itself: 0 for none, 1 for data, 2 for audio. Of the tracks of
/// all sessions, in order, the later one has it; none has it from the lead-out on.
fn painted(table: &[u8]) -> Vec<u8> {
    let (mut blocks, mut out) = (Vec::new(), 0);
    for row in table[4..].chunks(11) {
        let start = frames(&row[8..]).unwrap_or(0);
        if row[3] == 0xA2 {
            out = start;
            blocks.resize(out, 0);
        } else if row[3] < 0xA0 {
            blocks[start..out].fill(if row[1] % 8 >= 4 { 1 } else { 2 });
        }
    }
    blocks
}

/// Block by block, with the program's own track of a block and with tracks painted over one
/// another.
#[test]
fn block_by_block() {
    let by_block = |table: &[u8]| {
        let disc = table::read(table).expect("it is fit");
        let (mut data, mut audio, mut none) = (0, 0, 0);
        for block in 0..disc.end() {
            match disc.track_of(block) {
                Some(track) if track.is_data() => data += 1,
                Some(_) => audio += 1,
                None => none += 1,
            }
        }
        [data, audio, none]
    };
    let mut rng = Rng::new(131);
    let mut sheets = vec![
        disc_e(),
        three_sittings(),
        of_all(),
        blocks(1, 0x10),
        t134(),
    ];
    sheets.push(disc(TOP_ADDRESS, &[(400_000, 0x14), (440_000, 0x10)]));
    while sheets.len() < 60 {
        let sheet = small_fit(&mut rng);
        let disc = table::read(&sheet.bytes()).expect("it is fit");
        if disc.end() < 4_000 {
            sheets.push(sheet);
        }
    }
    for sheet in sheets {
        let found = held(&sheet.bytes());
        assert_eq!(found[10..], by_block(&sheet.bytes()));
        let blocks = painted(&sheet.bytes());
        let of = |kind: u8| blocks.iter().filter(|&&block| block == kind).count() as u64;
        assert_eq!(found[10..], [of(1), of(2), of(0)]);
    }
}

/// Drawn streams and files by both readings, and streams of drawn bytes.
#[test]
fn drawn_streams_by_a_second_reading() {
    let mut rng = Rng::new(132);
    let mut sums = [0; 13];
    for _ in 0..300 {
        let found = held(&any_shelf(&mut rng));
        for (sum, more) in sums.iter_mut().zip(found) {
            *sum += more;
        }
    }
    for _ in 0..12 {
        let many = rng.range(1, 30);
        held(&tables(&mut rng, many));
    }
    for _ in 0..300 {
        let length = rng.below(200);
        let mut bytes = rng.bytes(length);
        for high in bytes.iter_mut().step_by(2) {
            *high &= 1;
        }
        held(&bytes);
    }
    assert!(sums.iter().all(|&sum| sum > 8), "{sums:?}");
}

/// "The three block totals add up to the sum of the fit tables' last lead-outs."
#[test]
fn block_totals_add_up() {
    let mut rng = Rng::new(133);
    for _ in 0..40 {
        let many = rng.range(1, 12);
        let stream = tables(&mut rng, many);
        let found = held(&stream);
        let ends = plain_tables(&stream).into_iter().flatten();
        let discs = ends.filter_map(|table| table::read(table).ok());
        let sum: u64 = discs.map(|disc| u64::from(disc.end())).sum();
        assert_eq!(found[10] + found[11] + found[12], sum);
    }
}

/// Each table is fit or unfit by one rule.
#[test]
fn fit_and_unfit_add_up() {
    let mut rng = Rng::new(134);
    for _ in 0..200 {
        let found = held(&any_shelf(&mut rng));
        assert_eq!(found[0], found[1..9].iter().sum());
        assert!(found[9] >= found[1] && found[9] <= 99 * found[1]);
    }
    for number in [0, 2, 4, 5, 6, 10, 11, 12, 20, 31] {
        let found = held(&shelf_files::file(7, number));
        assert_eq!(found[0], found[1..9].iter().sum());
    }
}

/// Two streams of whole tables: the totals of both together are the sums, in either order,
/// and the second counted on top of the first.
#[test]
fn two_streams_add() {
    let mut rng = Rng::new(135);
    for _ in 0..60 {
        let [one, other] = [0, 1].map(|_| {
            let many = rng.below(5);
            tables(&mut rng, many)
        });
        let sum: Vec<u64> = held(&one)
            .iter()
            .zip(held(&other))
            .map(|(a, b)| a + b)
            .collect();
        assert_eq!(on_a_shelf(&[&one, &other])[..], sum);
        assert_eq!(on_a_shelf(&[&other, &one])[..], sum);
        let first = count(Totals::default(), &one).expect("it is small");
        let both = count(first, &other).expect("it is small");
        assert_eq!(both.0[..], sum);
    }
}

/// However a stream comes, its totals are the same: cut once at each place, a byte at a
/// time, and in drawn pieces.
#[test]
fn pieces_make_no_difference() {
    let in_pieces = |pieces: &[&[u8]]| {
        let mut shelf = Shelf::from(Totals::default());
        for piece in pieces {
            shelf.take(piece).expect("it is small");
        }
        shelf.end().expect("it is small").0
    };
    let stream = [
        &of_all().bytes()[..],
        &[0, 0],
        &alone(7),
        &[0, 1, 5],
        &e(),
        &e()[..50],
    ];
    let stream = stream.concat();
    let due = held(&stream);
    for at in 0..=stream.len() {
        let (one, other) = stream.split_at(at);
        assert_eq!(in_pieces(&[one, other]), due);
        assert_eq!(in_pieces(&[one, &[], other]), due);
    }
    let bytes: Vec<&[u8]> = stream.chunks(1).collect();
    assert_eq!(in_pieces(&bytes), due);
    let mut rng = Rng::new(136);
    for number in [2, 3, 4, 5, 7, 9, 11, 12] {
        let stream = shelf_files::file(9, number);
        let due = held(&stream);
        let (mut rest, mut pieces) = (&stream[..], Vec::new());
        while !rest.is_empty() {
            let top = rng.pick(&[1, 3, 90, 7_000]);
            let (piece, behind) = rest.split_at(rng.range(1, top).min(rest.len()));
            pieces.push(piece);
            rest = behind;
        }
        assert_eq!(in_pieces(&pieces), due);
        let over: Vec<&[u8]> = stream.chunks(6_539).collect();
        assert_eq!(in_pieces(&over), due);
    }
}

// ---- 64 bits

/// Totals with one of them at this.
fn only(line: usize, total: u64) -> [u64; 13] {
    let mut totals = [0; 13];
    totals[line] = total;
    totals
}

/// Counted on top of these totals, held to the plain reading.
fn on_top(from: [u64; 13], stream: &[u8]) -> Option<[u64; 13]> {
    let found = count(Totals(from), stream).ok().map(|Totals(found)| found);
    assert_eq!(found, due(from, stream));
    found
}

/// "Totals are 64-bit": 2^64 − 1 is still one, in each line, and over 32 bits is nothing.
#[test]
fn totals_have_64_bits() {
    let all = [
        &of_all().bytes()[..],
        &[0, 0],
        &(2..=7).flat_map(alone).collect::<Vec<u8>>(),
    ]
    .concat();
    let worth = held(&all);
    assert!(worth.iter().all(|&more| more > 0));
    for from in [u64::from(u32::MAX), 1 << 32, u64::MAX >> 1, 1 << 63] {
        let found = on_top([from; 13], &all).expect("none is too large");
        assert_eq!(found, worth.map(|more| from + more));
    }
    let top = worth.map(|more| u64::MAX - more);
    assert_eq!(on_top(top, &all), Some([u64::MAX; 13]));
    assert_eq!(on_top([u64::MAX; 13], &[]), Some([u64::MAX; 13]));
    let text = lines(Ok(Totals([u64::MAX; 13])));
    assert_eq!(text, "18446744073709551615\n".repeat(13));
}

/// One past is too large, whichever line it is, by a table that adds one and by one that
/// adds many; a total that is not moved may stand at the top.
#[test]
fn too_large() {
    let gap = disc(2, &[(1, 0x14)]).bytes();
    let mut adding: Vec<(usize, Vec<u8>)> = vec![
        (0, vec![0, 0]),
        (1, e()),
        (2, vec![3]),
        (9, e()),
        (9, most_tracks().bytes()),
        (10, blocks(1, 0x14).bytes()),
        (10, one_long_track().bytes()),
        (11, blocks(1, 0x10).bytes()),
        (11, one_long_audio().bytes()),
        (12, gap),
        (12, disc(TOP_ADDRESS, &[(TOP_ADDRESS - 1, 0x14)]).bytes()),
    ];
    adding.extend((2..=7).map(|rule| (usize::from(rule) + 1, alone(rule))));
    for (line, table) in adding {
        let worth = held(&table);
        let more = worth[line];
        let exactly = on_top(only(line, u64::MAX - more), &table).expect("exactly there");
        assert_eq!(exactly[line], u64::MAX);
        assert_eq!(on_top(only(line, u64::MAX - more + 1), &table), None);
        assert_eq!(on_top(only(line, u64::MAX), &table), None);
        // Every other line may be full but for what it adds.
        let mut full = worth.map(|more| u64::MAX - more);
        assert_eq!(on_top(full, &table), Some([u64::MAX; 13]));
        full[line] += 1;
        assert_eq!(on_top(full, &table), None);
        for other in (0..13).filter(|&other| worth[other] == 0) {
            assert!(on_top(only(other, u64::MAX), &table).is_some());
        }
    }
    assert_eq!(lines(Err(TooLarge)), "total too large\n");
}

/// What stands behind, or is cut off there, does not matter then; nor what stood before.
#[test]
fn too_large_in_the_middle() {
    let e = e();
    let long = of_length(0xFFFF);
    for behind in [&[][..], &e, &[0], &alone(5), &long, &long[..90]] {
        let stream = [&alone(3)[..], &e, behind].concat();
        for line in [1, 9, 10, 11] {
            assert_eq!(on_top(only(line, u64::MAX), &stream), None);
        }
        assert_eq!(on_top(only(4, u64::MAX), &stream), None);
        assert_eq!(on_top(only(0, u64::MAX - 1), &stream), None);
    }
    // By the table that is cut off at the end, and not without it.
    for cut in [&[0][..], &e[..58], &long[..2], &long[..9_000]] {
        let stream = [&e[..], cut].concat();
        assert_eq!(on_top(only(2, u64::MAX), &stream), None);
        assert!(on_top(only(2, u64::MAX), &e).is_some());
        assert!(on_top(only(2, u64::MAX - 1), &stream).is_some());
    }
    // A shelf that has stopped says so at once.
    let mut shelf = Shelf::from(Totals(only(0, u64::MAX)));
    assert_eq!(shelf.take(&e[..58]), Ok(()));
    assert_eq!(shelf.take(&e[58..]), Err(TooLarge));
}

// ---- replay

/// The lines of kind 24: totals of 8 bytes each, high byte first, in the order of the
/// lines; a body of under 104 bytes does not suit it, and its stream may be empty.
#[test]
fn lines_of_shelves() {
    let mut stream = Stream::new();
    stream.shelf(Totals::default(), &[]);
    stream.shelf(
        Totals::default(),
        &[&of_all().bytes()[..], &alone(4), &[1]].concat(),
    );
    stream.shelf(Totals([1, 2, 3, 4, 5, 6, 7, 8, 9, 10, 11, 12, 13]), &e());
    stream.shelf(Totals([u64::MAX; 13]), &[]);
    stream.shelf(Totals([u64::MAX; 13]), &[0]);
    assert_eq!((stream.calls, stream.shelves), (5, 5));
    let due = "h 0 0 0 0 0 0 0 0 0 0 0 0 0\n\
               h 3 1 1 0 0 1 0 0 0 3 130 40 37\n\
               h 2 3 3 4 5 6 7 8 9 12 161 162 13\n";
    let top = ["18446744073709551615"; 13].join(" ");
    let due = format!("{due}h {top}\nh too large\n");
    assert_eq!(replay::run(&stream.bytes), due);
    for length in 0..=110u8 {
        let mut record = vec![24, 0, length];
        record.resize(3 + usize::from(length), 0);
        let line = replay::run(&record);
        assert_eq!(line == "bad record\n", length < 104, "{length}");
    }
    for at in 0..104 {
        let mut record = vec![24, 0, 104];
        record.resize(107, 0);
        record[3 + at] = 1;
        let mut totals = ["0"; 13].map(String::from);
        totals[at / 8] = (1u64 << (8 * (7 - at % 8))).to_string();
        assert_eq!(replay::run(&record), format!("h {}\n", totals.join(" ")));
    }
    // As long as a body may be, and one more.
    let long = |length: usize| {
        let mut record = vec![24];
        record.extend((length as u16).to_be_bytes());
        record.resize(3 + length, 0);
        replay::run(&record)
    };
    assert!(long(8_191).starts_with("h 4044 0 4044 0 "));
    assert_eq!(long(8_192), "bad record\n");
}

/// A shelf moves nothing: with shelves put between all records of a stream, the other lines
/// are the same, memory and all.
#[test]
fn a_shelf_moves_nothing() {
    for seed in [8, 16] {
        let stream = random_stream(seed, 3_000).bytes;
        let (mut with, mut rest) = (Stream::new(), &stream[..]);
        let shelves = [
            (Totals::default(), of_all().bytes()),
            (Totals([u64::MAX; 13]), alone(3)),
            (Totals([5; 13]), vec![0]),
        ];
        let mut turn = shelves.iter().cycle();
        let mut added = 0;
        while let Ok((kind, body, after)) = take_record(rest) {
            rest = after;
            with.record(kind, body);
            let (totals, tables) = turn.next().expect("again and again");
            with.shelf(*totals, tables);
            added += 1;
        }
        let (plain, mixed) = (replay::run(&stream), replay::run(&with.bytes));
        let is_no_shelf = |line: &&str| !line.starts_with("h ");
        let plain: Vec<&str> = plain.lines().filter(is_no_shelf).collect();
        let mixed: Vec<&str> = mixed.lines().filter(is_no_shelf).collect();
        assert!(plain.len() >= 3_000 && added >= plain.len());
        assert_eq!(plain, mixed);
    }
    // Nothing of a shelf is left for the next one.
    let mut stream = Stream::new();
    stream.state(State::READY);
    stream.table(&e());
    stream.memory(BOUND as u16, 0);
    for _ in 0..2 {
        stream.shelf(
            Totals::default(),
            &[&two_sessions().bytes()[..], &[0]].concat(),
        );
        stream.packet(&test_ready());
        stream.packet(&capacity());
    }
    let lines = replay::run(&stream.bytes);
    let lines: Vec<&str> = lines.lines().collect();
    assert_eq!(lines[0], "h 2 1 1 0 0 0 0 0 0 5 1100 500 11400");
    assert_eq!((lines[0], lines[2]), (lines[3], lines[5]));
    assert!(lines[2].contains(" 0000012B00000800 "));
}

/// What a stream has of shelves: facts of each, with its line held to the plain reading.
fn facts(stream: &[u8]) -> BTreeSet<String> {
    let lines = replay::run(stream);
    let mut lines = lines.lines();
    let (mut rest, mut facts) = (stream, BTreeSet::new());
    while let Ok((kind, body, after)) = take_record(rest) {
        rest = after;
        if !replay::is_call(kind) {
            continue;
        }
        let Some(line) = lines.next() else { break };
        if kind != replay::SHELF || line == "bad record" {
            continue;
        }
        let (totals, tables) = body.split_at(104);
        let word = |word: &[u8]| word.iter().fold(0, |sum, &byte| sum << 8 | u64::from(byte));
        let from: Vec<u64> = totals.chunks(8).map(word).collect();
        let from: [u64; 13] = from.try_into().expect("thirteen of them");
        let due = due(from, tables);
        let text = match due {
            Some(totals) => totals.map(|total| total.to_string()).join(" "),
            None => "too large".to_string(),
        };
        assert_eq!(line, format!("h {text}"));
        facts.extend(facts_of(from, tables, due));
    }
    facts
}

fn facts_of(from: [u64; 13], stream: &[u8], totals: Option<[u64; 13]>) -> Vec<String> {
    let mut facts = vec![format!("{} bytes", stream.len().min(4))];
    let all = plain_tables(stream);
    facts.push(format!("{} tables", all.len().min(6)));
    // A line that a table moves, and where it comes to.
    let worth = all.iter().fold([0u128; 13], |mut sum, table| {
        for (sum, more) in sum.iter_mut().zip(plain_worth(*table)) {
            *sum += u128::from(more);
        }
        sum
    });
    for line in (0..13).filter(|&line| worth[line] > 0) {
        let many = if worth[line] == 1 { "1" } else { "many" };
        match u128::from(from[line]) + worth[line] {
            sum if sum == 1 << 64 => facts.push(format!("line {line} by {many}: one past")),
            sum if sum > 1 << 64 => facts.push(format!("line {line} by {many}: past")),
            sum if sum == (1 << 64) - 1 && totals.is_some() => {
                facts.push(format!("line {line} by {many}: at the top"));
            }
            _ => {}
        }
    }
    let mut at = 0;
    for (table, place) in all.iter().zip(1..) {
        let last = if place == all.len() {
            "last"
        } else {
            "before others"
        };
        let left = stream.len() - at;
        let said = match left {
            1 => None,
            _ => Some(usize::from(stream[at]) * 256 + usize::from(stream[at + 1])),
        };
        match (table, said) {
            (None, None) => facts.push("a single byte".to_string()),
            (None, Some(said)) => {
                let over = if said + 2 > 6_538 {
                    "over the bound"
                } else {
                    "within"
                };
                let cut = if said + 2 > left { "cut off" } else { "whole" };
                facts.push(format!("{over}, {cut}, {last}"));
                if said == 46 {
                    facts.push(format!("cut off behind {left} of 48"));
                }
            }
            (Some(table), _) => {
                let rule = plain_rule(table);
                facts.push(format!("rule {rule}, {last}"));
                if table.len() < 4 {
                    facts.push(format!("data length {}, {last}", table.len() - 2));
                }
                if rule == 0 {
                    facts.extend(facts_of_disc(table));
                }
            }
        }
        at += said.map_or(1, |said| said + 2);
    }
    facts
}

fn facts_of_disc(table: &[u8]) -> Vec<String> {
    let rows: Vec<&[u8]> = table[4..].chunks(11).collect();
    let mut facts = vec![format!("{} descriptors", rows.len())];
    facts.push(format!("{} sessions", table[3]));
    for row in &rows {
        match row[3] {
            0xB0 | 0xC0 => facts.push(format!("POINT {:02X}h", row[3])),
            0..=99 => facts.push(format!("control {}", row[1] % 16)),
            _ => {}
        }
    }
    let worth = plain_worth(Some(table));
    let has = |line: usize| worth[line] > 0;
    facts.push(format!(
        "data {}, audio {}, none {}",
        has(10),
        has(11),
        has(12)
    ));
    let (tracks, borders) = marks(table);
    facts.push(match tracks[0] {
        (0, true) => "begins with data".to_string(),
        (0, false) => "begins with audio".to_string(),
        _ => "begins with a gap".to_string(),
    });
    // Rule 7: the next session's first track is after the lead-out, not at it.
    if table[3] > 1 {
        facts.push("a gap between sessions".to_string());
    }
    facts.push(format!("L {}", borders.last().expect("a lead-out")));
    facts
}

/// What every stream must have of shelves.
fn often() -> Vec<String> {
    let mut list: Vec<String> = [
        "0 bytes",
        "1 bytes",
        "2 bytes",
        "3 bytes",
        "0 tables",
        "1 tables",
        "3 tables",
        "a single byte",
        "within, cut off, last",
        "over the bound, cut off, last",
        "over the bound, whole, before others",
        "over the bound, whole, last",
        "594 descriptors",
        "99 sessions",
        "POINT B0h",
        "POINT C0h",
        "data true, audio false, none false",
        "data false, audio true, none false",
        "data true, audio true, none true",
        "data false, audio true, none true",
        "data true, audio false, none true",
        "begins with data",
        "begins with audio",
        "begins with a gap",
        "a gap between sessions",
    ]
    .map(String::from)
    .to_vec();
    for rule in 0..=7 {
        list.push(format!("rule {rule}, before others"));
        list.push(format!("rule {rule}, last"));
    }
    for length in [0, 1] {
        list.push(format!("data length {length}, last"));
        list.push(format!("data length {length}, before others"));
    }
    for control in 0..16 {
        list.push(format!("control {control}"));
    }
    for line in 0..13 {
        list.push(format!("line {line} by 1: at the top"));
        list.push(format!("line {line} by 1: one past"));
    }
    for line in 9..13 {
        list.push(format!("line {line} by many: at the top"));
        list.push(format!("line {line} by many: one past"));
    }
    list
}

/// The streams have every boundary of shelves, and no line that the plain reading does not
/// give; the stored one has more.
#[test]
fn streams_have_every_boundary() {
    let stored = facts(&stored::stored_stream().bytes);
    let mut more = often();
    more.extend((2..48).map(|left| format!("cut off behind {left} of 48")));
    more.extend(["L 1", "L 2", "L 449849", "6 tables"].map(String::from));
    for line in 9..13 {
        more.push(format!("line {line} by many: past"));
    }
    // A whole one over the bound is the last of no picked shelf.
    more.retain(|fact| fact != "over the bound, whole, last");
    for fact in more {
        assert!(stored.contains(&fact), "{fact}");
    }
    let mut scenes = Stream::new();
    let mut rng = Rng::new(24);
    for _ in 0..240 {
        shelf_scene(&mut scenes, &mut rng);
    }
    let drawn = facts(&scenes.bytes);
    for fact in often() {
        assert!(drawn.contains(&fact), "{fact}");
    }
}

/// Shelves are some 5 in 100 of the calls, and come on top of those asked for.
#[test]
fn streams_have_shelves() {
    for seed in [112, 113] {
        let stream = random_stream(seed, 16_000);
        assert!(stream.calls - stream.sheets - stream.shelves >= 16_000);
        let found = tally::shelves(&stream.bytes);
        assert_eq!(found.streams, stream.shelves);
        assert!((500..1_500).contains(&found.streams), "{found:?}");
        assert_eq!(found.tables, found.fit + found.unfit.iter().sum::<usize>());
        assert!(found.fit > 300 && found.unfit.iter().all(|&many| many > 20));
        assert!(found.cut_off > 50 && found.over > 2 && found.too_large > 40);
    }
    let stored = tally::shelves(&stored::stored_stream().bytes);
    assert!(stored.streams > 400 && stored.too_large > 80 && stored.fit > 200);
}

/// The records of the other kinds are what they would be without shelves.
#[test]
fn other_kinds_stay() {
    let [with, without] = [16, usize::MAX].map(|many| {
        let mut stream = Stream::new();
        fill_with(
            &mut stream,
            &mut Rng::new(138),
            3_000,
            many,
            usize::MAX,
            usize::MAX,
        );
        stream
    });
    assert!(with.shelves > 20 && without.shelves == 0);
    let (mut rest, mut others) = (&with.bytes[..], Stream::new());
    while let Ok((kind, body, after)) = take_record(rest) {
        rest = after;
        if kind != replay::SHELF {
            others.record(kind, body);
        }
    }
    assert!(others.bytes == without.bytes);
    assert_eq!(others.calls, without.calls);
}

/// The picked shelves stand in the stored stream as they are picked.
#[test]
fn picked_shelves_are_stored() {
    let stored = stored::stored_stream().bytes;
    for maker in [
        picked_shelf::shelf_ends as fn(&mut Stream),
        picked_shelf::cut_off_anywhere,
        picked_shelf::data_lengths,
        picked_shelf::over_the_bound,
        picked_shelf::longest_table,
        picked_shelf::unfit_by_rule,
        picked_shelf::every_kind,
        picked_shelf::two_streams,
        picked_shelf::totals_at_the_top,
        picked_shelf::many_past_the_top,
        picked_shelf::too_large_in_the_middle,
        picked_shelf::totals_in_order,
        picked_shelf::shelf_moves_nothing,
    ] {
        let mut stream = Stream::new();
        maker(&mut stream);
        let whole = stored.windows(stream.bytes.len());
        assert_eq!(whole.filter(|part| *part == stream.bytes).count(), 1);
    }
}

/// What `tally` counts of a small stream, and how it prints it.
#[test]
fn tally_counts_shelves() {
    let mut stream = Stream::new();
    stream.shelf(Totals::default(), &[&e()[..], &alone(2), &[0]].concat());
    stream.shelf(
        Totals([u64::MAX; 13]),
        &[&e()[..], &alone(7), &alone(7)].concat(),
    );
    stream.shelf(
        Totals::default(),
        &[&of_length(7_000)[..], &[0, 0]].concat(),
    );
    stream.shelf(Totals::default(), &of_length(7_000)[..50]);
    stream.shelf(Totals::default(), &[]);
    stream.power_on();
    let due = Shelves {
        streams: 5,
        tables: 9,
        fit: 2,
        unfit: [4, 1, 0, 0, 0, 0, 2],
        cut_off: 2,
        over: 1,
        too_large: 1,
    };
    assert_eq!(tally::shelves(&stream.bytes), due);
    let tail = "shelves streams tables fit 1 2 3 4 5 6 7 cut-off over-the-bound too-large\n\
                shelves 5 9 2 4 1 0 0 0 0 2 2 1 1\n";
    let text = tally::print(&stream.bytes);
    assert!(text.contains(tail));
    // A total of 2 is no refusal by 2, and a shelf's line no sheet's.
    assert_eq!(tally::sheets(&stream.bytes), tally::Sheets::default());
    let mut two = Stream::new();
    two.shelf(Totals([2; 13]), &[]);
    assert_eq!(tally::modes(&two.bytes).unsound, 0);
    assert_eq!(tally::events(&two.bytes).unsound, 0);
}

// ---- the program

/// Runs this program with these words and this standard input.
fn run(words: &[&str], input: &[u8]) -> Output {
    let mut child = Command::new(env!("CARGO_BIN_EXE_second"))
        .args(words)
        .stdin(Stdio::piped())
        .stdout(Stdio::piped())
        .stderr(Stdio::piped())
        .spawn()
        .expect("it runs");
    let mut pipe = child.stdin.take().expect("it is a pipe");
    let input = input.to_vec();
    // From another thread: both pipes may be full.
    let writer = std::thread::spawn(move || pipe.write_all(&input));
    let output = child.wait_with_output().expect("it ends");
    writer.join().expect("it ends").expect("all of it is read");
    output
}

/// Thirteen lines of a bare number each, status 0, and nothing more.
#[test]
fn program_prints_thirteen_lines() {
    let output = run(&["shelf"], &[of_all().bytes(), alone(4), vec![7]].concat());
    assert_eq!(
        output.stdout,
        b"3\n1\n1\n0\n0\n1\n0\n0\n0\n3\n130\n40\n37\n"
    );
    assert_eq!(output.status.code(), Some(0));
    assert!(output.stderr.is_empty());
    assert_eq!(run(&["shelf"], &[]).stdout, b"0\n".repeat(13));
    // Longer than any piece that it reads at a time.
    for number in [1, 9, 29] {
        let stream = shelf_files::file(3, number);
        assert!(stream.len() > 65_536);
        let due = held(&stream).map(|total| format!("{total}\n")).concat();
        assert_eq!(run(&["shelf"], &stream).stdout, due.as_bytes());
    }
}

/// A reader that fails behind some bytes, once it has been interrupted.
struct Failing<'a>(&'a [u8], usize);

impl Read for Failing<'_> {
    fn read(&mut self, into: &mut [u8]) -> io::Result<usize> {
        self.1 += 1;
        if self.1 % 2 == 1 {
            return Err(io::ErrorKind::Interrupted.into());
        }
        match self.0 {
            [] => Err(io::ErrorKind::PermissionDenied.into()),
            bytes => {
                let count = bytes.len().min(into.len()).min(7);
                into[..count].copy_from_slice(&bytes[..count]);
                self.0 = &bytes[count..];
                Ok(count)
            }
        }
    }
}

/// Nothing on standard output, a line on standard error, status 1; an interruption is none.
#[test]
fn program_tells_a_read_error() {
    let folder = File::open(std::env::temp_dir()).expect("it is there");
    let output = Command::new(env!("CARGO_BIN_EXE_second"))
        .arg("shelf")
        .stdin(folder)
        .output()
        .expect("it runs");
    assert_eq!(output.status.code(), Some(1));
    assert!(output.stdout.is_empty());
    let line = String::from_utf8(output.stderr).expect("text");
    assert!(line.starts_with("standard input cannot be read: "));
    assert!(line.ends_with('\n') && line.lines().count() == 1);
    let error = program(&mut Failing(&e(), 0)).expect_err("it fails");
    assert_eq!(error.kind(), io::ErrorKind::PermissionDenied);
}

/// `pieces` copies what it reads, and the totals are the same behind it.
#[test]
fn pieces_are_the_whole() {
    for seed in ["0", "1", "77"] {
        let stream = shelf_files::file(4, 12);
        let copied = run(&["pieces", seed], &stream);
        assert_eq!(copied.stdout, stream);
        assert!(copied.stderr.is_empty());
    }
    assert!(run(&["pieces", "5"], &[]).stdout.is_empty());
    let stream = [shelf_files::file(4, 2), shelf_files::file(4, 6)].concat();
    let mut first = Command::new(env!("CARGO_BIN_EXE_second"))
        .args(["pieces", "9"])
        .stdin(Stdio::piped())
        .stdout(Stdio::piped())
        .spawn()
        .expect("it runs");
    let between = first.stdout.take().expect("it is a pipe");
    let mut pipe = first.stdin.take().expect("it is a pipe");
    let input = stream.clone();
    let writer = std::thread::spawn(move || pipe.write_all(&input));
    let counted = Command::new(env!("CARGO_BIN_EXE_second"))
        .arg("shelf")
        .stdin(between)
        .output()
        .expect("it runs");
    writer.join().expect("it ends").expect("all of it is read");
    assert!(first.wait().expect("it ends").success());
    let due = held(&stream).map(|total| format!("{total}\n")).concat();
    assert_eq!(counted.stdout, due.as_bytes());
}

/// The files that `make-shelf` writes: what is expected of each by the plain reading, and
/// what they have of every shape.
#[test]
fn files_of_shelves() {
    let (mut all, mut sizes, mut sums) = (BTreeSet::new(), Vec::new(), [0; 13]);
    for number in (0..60).chain([100, 120, 140, 149, 169]) {
        let [(name, stream), (_, expected)] = shelf_files::counted(5, number, "x");
        assert_eq!(name, "x.tables");
        let totals = held(&stream);
        let due = totals.map(|total| format!("{total}\n")).concat();
        assert_eq!(expected, due.as_bytes());
        for (sum, more) in sums.iter_mut().zip(totals) {
            *sum += more;
        }
        sizes.push(stream.len());
        for item in items(&stream) {
            all.insert(match item {
                Item::Whole(table) => format!("whole {}", table.len()),
                other => format!("{other:?}"),
            });
        }
        assert_eq!(shelf_files::file(5, number), stream);
    }
    assert!(sums.iter().all(|&sum| sum > 20), "{sums:?}");
    for one in [
        "whole 2",
        "whole 3",
        "whole 6538",
        "Over",
        "CutOff { over: false }",
        "CutOff { over: true }",
    ] {
        assert!(all.contains(one), "{one}");
    }
    assert!(sizes.contains(&0) && sizes.contains(&1) && sizes.contains(&2));
    assert!(sizes.iter().filter(|&&size| size > 131_072).count() > 3);
}

/// A table of some file begins at the end of a piece of 64 or 128 KiB, and around it.
#[test]
fn files_with_a_border() {
    let mut begun = BTreeSet::new();
    for turn in 0..10 {
        let stream = shelf_files::file(6, 9 + 20 * turn);
        let mut at = 0;
        while at + 1 < stream.len() {
            begun.insert(at);
            at += usize::from(u16::from_be_bytes([stream[at], stream[at + 1]])) + 2;
        }
    }
    for piece in [65_536, 131_072] {
        for at in piece - 2..=piece + 2 {
            assert!(begun.contains(&at), "{at}");
        }
    }
}

/// The stored run: every rule, fit tables of every kind, and all that is cut otherwise.
#[test]
fn stored_run_of_the_program() {
    let files = stored::files();
    let find = |name: &str| {
        let kept = files.iter().find(|(one, _)| one == name);
        &kept.expect("it is kept").1
    };
    let stream = find("crates/shelftotals/stdin");
    assert!(stream.len() < 40_000);
    let totals = held(stream);
    let due = totals.map(|total| format!("{total}\n")).concat();
    assert_eq!(find("crates/shelftotals/stdout"), due.as_bytes());
    assert!(totals.iter().all(|&total| total > 3), "{totals:?}");
    let found = facts_of([0; 13], stream, Some(totals));
    let mut wanted: Vec<String> = [
        "data length 0, before others",
        "data length 1, before others",
        "over the bound, whole, before others",
        "within, cut off, last",
        "594 descriptors",
        "POINT B0h",
        "POINT C0h",
        "data true, audio false, none false",
        "data false, audio true, none false",
        "data true, audio true, none false",
        "data true, audio true, none true",
        "begins with a gap",
        "a gap between sessions",
        "L 449849",
    ]
    .map(String::from)
    .to_vec();
    wanted.extend((0..=7).map(|rule| format!("rule {rule}, before others")));
    for fact in wanted {
        assert!(found.contains(&fact), "{fact}");
    }
    let once = found.iter().filter(|fact| *fact == "594 descriptors");
    assert_eq!(once.count(), 1);
}

/// The example: twelve tables of discs that the other examples have.
#[test]
fn examples_of_shelves() {
    let files = examples::files();
    let find = |name: &str| {
        let found = files.iter().find(|(one, _)| one == name);
        &found.expect("it is there").1
    };
    let stream = find("shelf.tables");
    let totals = held(stream);
    let text = totals.map(|total| format!("{total}\n")).concat();
    assert_eq!(find("shelf.totals"), text.as_bytes());
    assert_eq!(totals[..9], [12, 10, 1, 0, 0, 0, 0, 0, 1]);
    for name in ["disc-e.table", "two-sessions.table", "sff-8020i-t134.table"] {
        let table = Item::Whole(find(name).clone());
        assert!(items(stream).contains(&table), "{name}");
    }
    assert_eq!(items(stream).last(), Some(&Item::CutOff { over: false }));
}

/// Tens of thousands of tables are a matter of seconds: blocks are counted by track.
#[test]
fn many_tables() {
    let long = [one_long_track(), one_long_audio(), of_all()].map(|sheet| sheet.bytes());
    let mut shelf = Shelf::from(Totals::default());
    for _ in 0..7_000 {
        for table in &long {
            shelf.take(table).expect("it is small");
        }
    }
    let Totals(found) = shelf.end().expect("it is small");
    assert_eq!(found[..2], [21_000, 21_000]);
    assert_eq!(found[9..], [35_000, 3_149_853_000, 3_149_223_000, 259_000]);
    let mut rng = Rng::new(137);
    let mut any = Vec::new();
    while any.len() < 60_000 {
        any.extend(any_fit(&mut rng).bytes());
        any.extend(any_table(&mut rng));
    }
    held(&any);
}

/// The whole stream at once, as replay counts it, and by the program's own reader.
#[test]
fn program_and_count_agree() {
    for number in 0..24 {
        let stream = shelf_files::file(8, number);
        let text = program(&mut &stream[..]).expect("a slice can be read");
        let whole = shelf::lines(count(Totals::default(), &stream));
        assert_eq!(text, whole);
    }
}
