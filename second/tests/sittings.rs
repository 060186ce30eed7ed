//! K1: B0h and C0h behind a session's tracks, one test for each thing said.

mod common;

use common::{good_on, number, on};
use second::cases::draft::{t134, T134_PACKET, T135_PACKET};
use second::cases::mode_five::TAILS;
use second::cases::packets::{capacity, test_ready, toc};
use second::cases::sheet::{fullest, most_sessions, three_sessions, two_sessions, Sheet};
use second::drive::State;
use second::table::{broken_rule as rule, read, session_part};
use second::{examples, listing, sense};

const READY: State = State::READY;

/// A B0h or C0h that keeps to K1, with bytes that no other rule would take.
fn added(session: u8, point: u8) -> [u8; 11] {
    [session, 0x54, 0, point, 9, 99, 0xFF, 2, 0, 61, 80]
}

/// The two sessions (rows 0 to 5 and 6 to 10) with rows put in, later places
/// first.
fn with(rows: &[(usize, [u8; 11])]) -> Vec<u8> {
    let mut sheet = two_sessions();
    for &(at, row) in rows {
        sheet.rows.insert(at, row);
    }
    sheet.bytes()
}

/// B0h and C0h behind both sessions, with one byte of each set in turn.
fn with_byte(at: usize, value: u8) -> Vec<Vec<u8>> {
    let mut tables = Vec::new();
    for session in [1, 2] {
        for point in [0xB0, 0xC0] {
            let end = if session == 1 { 6 } else { 11 };
            let mut row = added(session, point);
            row[at] = value;
            tables.push(with(&[(end, row)]));
        }
    }
    tables
}

/// "ADR 5".
#[test]
fn adr_is_five() {
    for adr in 0..16u8 {
        for table in with_byte(1, adr << 4 | 4) {
            assert_eq!(rule(&table), if adr == 5 { 0 } else { 3 }, "{adr}");
        }
    }
    for row in 0..11 {
        let mut sheet = two_sessions();
        sheet.rows[row][1] = 0x54;
        assert_eq!(rule(&sheet.bytes()), 3);
    }
}

/// "and TNO 0".
#[test]
fn tno_is_zero() {
    for tno in [0, 1, 0x80, 0xFF] {
        for table in with_byte(2, tno) {
            assert_eq!(rule(&table), if tno == 0 { 0 } else { 3 });
        }
    }
}

/// "other bytes are free": control, and all from MIN to PFRAME.
#[test]
fn the_rest_is_free() {
    for control in 0..16 {
        for table in with_byte(1, 0x50 | control) {
            assert_eq!(rule(&table), 0);
        }
    }
    for at in 4..11 {
        for value in [0, 1, 0x7F, 0xFF] {
            for table in with_byte(at, value) {
                assert_eq!(rule(&table), 0, "{at} {value}");
            }
        }
    }
}

/// Rule 3 comes first and looks at POINT alone: not at the place, and ZERO
/// counts in every other row.
#[test]
fn by_point_wherever_it_stands() {
    for at in 0..=11 {
        for point in [0xB0, 0xC0] {
            let session = if at <= 6 { 1 } else { 2 };
            let mut row = added(session, point);
            let fit = at == 6 || at == 11;
            assert_eq!(rule(&with(&[(at, row)])), if fit { 0 } else { 4 });
            row[1] = 0x14;
            row[7] = 0;
            assert_eq!(rule(&with(&[(at, row)])), 3);
        }
    }
    for row in 0..11 {
        let mut sheet = two_sessions();
        sheet.rows.push(added(2, 0xB0));
        sheet.rows[row][7] = 2;
        assert_eq!(rule(&sheet.bytes()), 3);
    }
}

/// "After a session's tracks there may stand at most one POINT B0h".
#[test]
fn one_b0_after_the_tracks() {
    let b0 = |session| added(session, 0xB0);
    assert_eq!(rule(&with(&[(11, b0(2))])), 0);
    assert_eq!(rule(&with(&[(6, b0(1))])), 0);
    assert_eq!(rule(&with(&[(11, b0(2)), (6, b0(1))])), 0);
    assert_eq!(rule(&with(&[(11, b0(2)), (11, b0(2))])), 4);
    assert_eq!(rule(&with(&[(6, b0(1)), (6, b0(1))])), 4);
    for at in (0..6).chain(7..11) {
        let session = if at < 6 { 1 } else { 2 };
        assert_eq!(rule(&with(&[(at, b0(session))])), 4, "{at}");
    }
}

/// "and then at most one C0h descriptor".
#[test]
fn then_one_c0() {
    let row = |point| added(2, point);
    let tail = |points: &[u8]| {
        let mut sheet = two_sessions();
        sheet.rows.extend(points.iter().map(|&point| row(point)));
        rule(&sheet.bytes())
    };
    assert_eq!(tail(&[0xB0, 0xC0]), 0);
    assert_eq!(tail(&[0xB0, 0xC0, 0xC0]), 4);
    assert_eq!(tail(&[0xC0, 0xC0]), 4);
    assert_eq!(tail(&[0xB0, 0xB0, 0xC0]), 4);
    assert_eq!(tail(&[0xB0, 0xC0, 0xB0]), 4);
}

/// In every session, not only the last.
#[test]
fn c0_alone_but_not_before_b0() {
    for session in 1..=3 {
        for (points, due) in [
            (&[0xC0][..], 0),
            (&[0xB0], 0),
            (&[0xB0, 0xC0], 0),
            (&[0xC0, 0xB0], 4),
        ] {
            let mut sheet = three_sessions();
            for &point in points {
                sheet.close(added(session, point));
            }
            assert_eq!(rule(&sheet.bytes()), due, "{session} {points:02X?}");
        }
    }
}

/// "each with its session's number (rule 4)".
#[test]
fn their_sessions_number() {
    for number in [0, 1, 2, 3, 255] {
        for point in [0xB0, 0xC0] {
            let row = added(number, point);
            assert_eq!(rule(&with(&[(6, row)])), if number == 1 { 0 } else { 4 });
            assert_eq!(rule(&with(&[(11, row)])), if number == 2 { 0 } else { 4 });
        }
    }
    // The second of the two under another number.
    for number in [0, 1, 2, 3, 255] {
        for (at, session) in [(6, 1), (11, 2)] {
            let rows = [(at, added(number, 0xC0)), (at, added(session, 0xB0))];
            assert_eq!(rule(&with(&rows)), if number == session { 0 } else { 4 });
        }
    }
}

/// They have no rule of their own: ADR 5 breaks rule 3, ADR 1 rule 4.
#[test]
fn other_points_stay_unfit() {
    for point in [0xB1, 0xB2, 0xB3, 0xB4, 0xC1, 0xAF, 0xBF, 0xC2] {
        for (at, session) in [(6, 1), (11, 2)] {
            let mut row = added(session, point);
            assert_eq!(rule(&with(&[(at, row)])), 3);
            row[7] = 0;
            assert_eq!(rule(&with(&[(at, row)])), 3);
            row[1] = 0x14;
            assert_eq!(rule(&with(&[(at, row)])), 4);
        }
    }
}

/// The three sessions closed by the rows named, with these last three bytes.
fn closed(tail: &[u8], p: [u8; 3]) -> Sheet {
    let mut sheet = three_sessions();
    for session in 1..=3 {
        for &point in tail {
            let mut row = added(session, point);
            row[8..].copy_from_slice(&p);
            sheet.close(row);
        }
    }
    sheet
}

/// Outside rule 6, under and over every start, and no PSEC of A0.
const PLACES: [[u8; 3]; 8] = [
    [0, 0, 0],
    [0, 2, 0],
    [0, 2, 10],
    [0, 60, 0],
    [1, 2, 75],
    [99, 59, 74],
    [5, 0x30, 1],
    [255, 255, 255],
];

/// "Rules 5 to 7 .. pass over them": nothing of theirs is read.
#[test]
fn rules_5_to_7_pass_over() {
    let bare = read(&three_sessions().bytes()).expect("fit");
    for tail in TAILS {
        for p in PLACES {
            let disc = read(&closed(tail, p).bytes()).expect("fit");
            for (one, other) in disc.sessions.iter().zip(&bare.sessions) {
                assert_eq!(one.tracks, other.tracks);
                assert_eq!(one.lead_out, other.lead_out);
            }
        }
    }
    // The rules still hold of the other rows.
    for (change, due) in [((0, 10, 1), 5), ((3, 9, 60), 6), ((2, 9, 2), 7)] {
        let (row, at, value) = change;
        let mut sheet = closed(&[0xB0, 0xC0], [0, 2, 0]);
        sheet.rows[row][at] = value;
        assert_eq!(rule(&sheet.bytes()), due);
    }
}

/// "formats 0 and 1 pass over them": as on the same disc without them.
#[test]
fn formats_0_and_1_pass_over() {
    let bare = three_sessions().bytes();
    for tail in TAILS {
        for p in PLACES {
            let table = closed(tail, p).bytes();
            for msf in [false, true] {
                for (format, number) in [(0, 0), (0, 6), (0, 12), (0, 0xAA), (1, 0), (1, 0xB0)] {
                    let packet = toc(msf, format, number, 804);
                    assert_eq!(
                        good_on(&table, &packet),
                        good_on(&bare, &packet),
                        "{format} {number}"
                    );
                }
            }
            // B0h and C0h are over the last track.
            for asked in [0xB0, 0xC0] {
                let (reply, _) = on(READY, &table, &toc(false, 0, asked, 804));
                assert_eq!(reply.next.sense, sense::BAD_FIELD);
            }
            assert_eq!(good_on(&table, &capacity()), good_on(&bare, &capacity()));
        }
    }
}

/// "format 2 returns them", in their places and byte for byte.
#[test]
fn format_2_returns() {
    for tail in TAILS {
        let sheet = closed(tail, [0, 60, 0]);
        let table = sheet.bytes();
        for number in 0..=3u8 {
            let answer = good_on(&table, &toc(true, 2, number, 65_535));
            let rows = sheet.rows.iter().filter(|row| row[0] >= number);
            let due: Vec<u8> = rows.copied().flatten().collect();
            assert_eq!(answer[4..], due);
            let [high, low] = (due.len() as u16 + 2).to_be_bytes();
            assert_eq!(answer[..4], [high, low, 1, 3]);
        }
        assert_eq!(good_on(&table, &toc(false, 2, 1, 65_535)), table);
    }
}

/// A session's part runs to its B0h and C0h.
#[test]
fn a_part_includes() {
    for tail in TAILS {
        let sheet = closed(tail, [0, 60, 0]);
        let table = sheet.bytes();
        for session in 1..=3 {
            let rows = sheet.rows.iter().filter(|row| row[0] == session);
            let due: Vec<u8> = rows.copied().flatten().collect();
            assert_eq!(due[due.len() - 8], tail[tail.len() - 1]);
            assert_eq!(session_part(&table, session).expect("fit"), due);
        }
    }
    let t134 = t134().bytes();
    let sizes = [1, 2, 3, 4].map(|session| session_part(&t134, session).unwrap().len());
    assert_eq!(sizes, [88, 77, 77, 77]);
}

/// "6,538 bytes (594 descriptors) replaces 4,360".
#[test]
fn the_longest_table() {
    let full = fullest();
    assert_eq!((full.rows.len(), full.bytes().len()), (594, 6_538));
    assert_eq!(rule(&full.bytes()), 0);
    assert_eq!(
        good_on(&full.bytes(), &toc(false, 2, 0, 65_535)),
        full.bytes()
    );
    assert_eq!(session_part(&full.bytes(), 99).unwrap().len(), 66);
    // A row more, agreeing with itself, is too long; a row less is fit.
    let mut more = full.clone();
    more.rows.push(full.rows[593]);
    assert_eq!(rule(&more.bytes()), 1);
    let mut less = full.clone();
    less.rows.pop();
    assert_eq!(rule(&less.bytes()), 0);
    for length in [6_537, 6_539] {
        let mut odd = full.bytes();
        odd.resize(length, 0);
        assert_eq!(rule(&odd), 1);
        odd[..2].copy_from_slice(&(length as u16 - 2).to_be_bytes());
        assert_eq!(rule(&odd), 1);
    }
    // The old bound is met by nothing in particular.
    let mut old = most_sessions();
    assert_eq!((old.bytes().len(), rule(&old.bytes())), (4_360, 0));
    old.close(added(99, 0xB0));
    assert_eq!((old.bytes().len(), rule(&old.bytes())), (4_371, 0));
    // The listing cuts one byte past the new bound.
    let mut file = full.bytes();
    assert!(!listing::print(&file, &test_ready()).contains("refused"));
    file.push(0);
    assert!(listing::print(&file, &test_ready()).ends_with("\n1 refused 4 1\n"));
}

/// 004's Tables 134 and 135: LBA 63,725 is 14:11:50, and L is 82,901.
#[test]
fn t134_four_sessions() {
    let table = t134().bytes();
    assert_eq!(table.len(), 323);
    assert_eq!(table[..4], [0x01, 0x41, 0x01, 0x04]);
    let printed = examples::t134();
    let format_1 = [0, 0x0A, 1, 4, 0, 0x14, 0x0A, 0, 0, 0, 0xF8, 0xED];
    assert_eq!(good_on(&table, &printed[1]), format_1);
    let with_msf = [0, 0x0A, 1, 4, 0, 0x14, 0x0A, 0, 0, 14, 11, 50];
    assert_eq!(good_on(&table, &printed[2]), with_msf);
    let format_0 = good_on(&table, &printed[3]);
    assert_eq!(
        (format_0.len(), format_0[..4].to_vec()),
        (108, vec![0, 106, 1, 12])
    );
    assert_eq!(good_on(&table, &printed[4]), table);
    assert_eq!(good_on(&table, &printed[5])[4..], table[323 - 77..]);
    assert_eq!(good_on(&table, &capacity())[..4], 82_900u32.to_be_bytes());
    // As printed: byte 9 is not looked at, and thirteen numbers are no packet.
    assert_eq!(good_on(&table, &T134_PACKET), format_0);
    assert_eq!(number(READY, &table, &T135_PACKET), 1);
    // Without its B0h and C0h it is the table of 24 rows that 01 alone takes.
    let mut bare = t134();
    bare.rows.retain(|row| row[3] != 0xB0 && row[3] != 0xC0);
    assert_eq!(bare.bytes()[..4], [0x01, 0x0A, 0x01, 0x04]);
    assert_eq!(good_on(&bare.bytes(), &printed[1]), format_1);
}
