//! K1's B0h and C0h rows (ADR 5): fit tables that hold them, and tables that
//! they break.

use crate::cases::breaks::{add, Break};
use crate::cases::draft::t134;
use crate::cases::sheet::{
    disc_e, fullest, mode_5, most_sessions, most_tracks, three_sessions, three_sittings,
    two_sessions, two_sittings, Sheet, FREE, MODE_5,
};

/// Rows of `two_sittings`: its B0h and C0h, and all others.
const OF_MODE_5: [usize; 4] = [6, 7, 13, 14];
const OTHERS: [usize; 11] = [0, 1, 2, 3, 4, 5, 8, 9, 10, 11, 12];

/// POINTs near the two, 000's other ones of mode 5 first.
pub const NEAR: [u8; 11] = [
    0xB1, 0xB2, 0xB3, 0xB4, 0xC1, 0xA3, 0xAF, 0xBF, 0xC2, 0xCF, 0xD0,
];

/// What may close a session besides nothing.
pub const TAILS: [&[u8]; 3] = [&[0xB0], &[0xC0], &[0xB0, 0xC0]];

fn close(sheet: &mut Sheet, session: u8, points: &[u8], control: u8, free: [u8; 7]) {
    for &point in points {
        sheet.close(mode_5(session, point, control, free));
    }
}

pub fn fits() -> Vec<(&'static str, Sheet)> {
    let mut list = vec![
        ("two sittings", two_sittings()),
        ("three sittings", three_sittings()),
        ("T134", t134()),
    ];
    // In the first, the middle or the last session alone, and in all.
    for tail in TAILS {
        for session in 1..=3 {
            let mut sheet = three_sessions();
            close(&mut sheet, session, tail, session, FREE[0]);
            list.push(("one session closed", sheet));
        }
        let mut sheet = three_sessions();
        for session in 1..=3 {
            close(&mut sheet, session, tail, 15, FREE[1]);
        }
        list.push(("all sessions closed", sheet));
        let mut sheet = disc_e();
        close(&mut sheet, 1, tail, 0, FREE[2]);
        list.push(("E closed", sheet));
        let mut sheet = most_tracks();
        close(&mut sheet, 1, tail, 0, FREE[3]);
        list.push(("most tracks closed", sheet));
    }
    // "other bytes are free": together, then each alone.
    for free in FREE {
        let mut sheet = two_sessions();
        close(&mut sheet, 1, &MODE_5, free[6], free);
        close(&mut sheet, 2, &MODE_5, free[0], free);
        list.push(("free bytes", sheet));
    }
    let mut edit = |name, row: usize, at: usize, value: u8| {
        let mut sheet = two_sittings();
        sheet.rows[row][at] = value;
        list.push((name, sheet));
    };
    for row in OF_MODE_5 {
        for at in 4..11 {
            edit("one free byte FFh", row, at, 0xFF);
        }
        edit("ZERO 1", row, 7, 1);
    }
    for control in 0..16 {
        let row = OF_MODE_5[usize::from(control % 4)];
        edit("any control", row, 1, 0x50 | control);
    }
    list.extend(long());
    list
}

/// Past the old bound of 4,360 bytes, up to one row under the new one.
fn long() -> Vec<(&'static str, Sheet)> {
    let mut list = Vec::new();
    for (session, point) in [(1, 0xC0), (99, 0xB0)] {
        let mut sheet = most_sessions();
        sheet.close(mode_5(session, point, 4, FREE[5]));
        list.push(("397 descriptors", sheet));
    }
    for row in [4, 593] {
        let mut sheet = fullest();
        sheet.rows.remove(row);
        list.push(("593 descriptors", sheet));
    }
    list
}

/// An edited copy of `two_sittings`.
fn edit(list: &mut Vec<Break>, rule: u8, name: &'static str, change: impl FnOnce(&mut Sheet)) {
    let mut sheet = two_sittings();
    change(&mut sheet);
    add(list, rule, name, sheet.bytes());
}

/// The two sessions with one row more.
fn put(list: &mut Vec<Break>, rule: u8, name: &'static str, at: usize, row: [u8; 11]) {
    let mut sheet = two_sessions();
    sheet.rows.insert(at, row);
    add(list, rule, name, sheet.bytes());
}

/// A row with POINT and ADR 1, as rule 3 has it for others.
fn plain(session: u8, point: u8) -> [u8; 11] {
    [session, 0x14, 0, point, 0, 0, 0, 0, 0, 2, 0]
}

pub fn rule_3(list: &mut Vec<Break>) {
    for row in OF_MODE_5 {
        for adr in [0, 1, 2, 4, 6, 7, 13, 15] {
            edit(list, 3, "ADR in B0h or C0h", |sheet| {
                sheet.rows[row][1] = adr << 4 | 5
            });
        }
        for tno in [1, 5, 0x80, 0xFF] {
            edit(list, 3, "TNO in B0h or C0h", |sheet| {
                sheet.rows[row][2] = tno
            });
        }
        for point in NEAR {
            edit(list, 3, "another POINT with ADR 5", |sheet| {
                sheet.rows[row][3] = point
            });
        }
    }
    for row in OTHERS {
        edit(list, 3, "ADR 5 elsewhere", |sheet| {
            sheet.rows[row][1] = 0x54
        });
        edit(list, 3, "ZERO elsewhere", |sheet| sheet.rows[row][7] = 2);
        edit(list, 3, "TNO elsewhere", |sheet| sheet.rows[row][2] = 1);
    }
    // By POINT, wherever the row stands; rule 4 would be broken as well.
    for point in MODE_5 {
        for at in 0..=11 {
            let session = if at < 7 { 1 } else { 2 };
            put(list, 3, "ADR 1, anywhere", at, plain(session, point));
            let mut row = mode_5(session, point, 4, FREE[0]);
            row[2] = 1;
            put(list, 3, "TNO 1, anywhere", at, row);
        }
    }
    rule_3_before_4(list);
}

/// Two faults, one of them rule 4's.
fn rule_3_before_4(list: &mut Vec<Break>) {
    edit(list, 3, "C0h before B0h, one with ADR 1", |sheet| {
        sheet.rows.swap(6, 7);
        sheet.rows[7][1] = 0x14;
    });
    edit(list, 3, "C0h before B0h, TNO 1 in a later track", |sheet| {
        sheet.rows.swap(6, 7);
        sheet.rows[12][2] = 1;
    });
    edit(list, 3, "two B0h, the second with TNO 1", |sheet| {
        sheet.rows[14][3] = 0xB0;
        sheet.rows[14][2] = 1;
    });
    edit(list, 3, "another session's number and ADR 1", |sheet| {
        sheet.rows[6][0] = 2;
        sheet.rows[6][1] = 0x10;
    });
    edit(list, 3, "a track missing, ADR 1 in the last C0h", |sheet| {
        sheet.rows.remove(5);
        sheet.rows[13][1] = 0x14;
    });
    edit(list, 3, "B4h with ADR 5 behind C0h", |sheet| {
        sheet.close(mode_5(2, 0xB4, 4, FREE[0]))
    });
}

pub fn rule_4(list: &mut Vec<Break>) {
    rule_4_order(list);
    for row in OF_MODE_5 {
        for number in [0, 1, 2, 3, 99, 255] {
            if number != two_sittings().rows[row][0] {
                edit(list, 4, "another session's number", |sheet| {
                    sheet.rows[row][0] = number
                });
            }
        }
    }
    // One row more in every other place, and under the other number.
    for point in MODE_5 {
        for at in 0..=11 {
            for session in [1, 2] {
                if (at, session) != (6, 1) && (at, session) != (11, 2) {
                    let row = mode_5(session, point, 4, FREE[0]);
                    put(list, 4, "not behind the tracks", at, row);
                }
            }
        }
        for row in 0..11 {
            let mut sheet = two_sessions();
            let session = sheet.rows[row][0];
            sheet.rows[row] = mode_5(session, point, 4, FREE[7]);
            add(list, 4, "in place of another row", sheet.bytes());
        }
    }
    for point in NEAR {
        put(list, 4, "another POINT with ADR 1", 6, plain(1, point));
        put(list, 4, "another POINT with ADR 1", 11, plain(2, point));
        edit(list, 4, "another POINT behind C0h", |sheet| {
            sheet.close(plain(2, point))
        });
        edit(list, 4, "another POINT before B0h", |sheet| {
            sheet.rows.insert(6, plain(1, point))
        });
        edit(list, 4, "another POINT for C0h", |sheet| {
            sheet.rows[7] = plain(1, point)
        });
    }
    for row in OTHERS {
        edit(list, 4, "row missing", |sheet| {
            sheet.rows.remove(row);
        });
    }
    rule_4_whole(list);
}

/// Too many of the two, or in the other order.
fn rule_4_order(list: &mut Vec<Break>) {
    let wrong: [&[u8]; 10] = [
        &[0xC0, 0xB0],
        &[0xB0, 0xB0],
        &[0xC0, 0xC0],
        &[0xB0, 0xB0, 0xC0],
        &[0xB0, 0xC0, 0xC0],
        &[0xB0, 0xC0, 0xB0],
        &[0xC0, 0xB0, 0xC0],
        &[0xC0, 0xC0, 0xB0],
        &[0xB0, 0xC0, 0xB0, 0xC0],
        &[0xB0, 0xB0, 0xB0],
    ];
    for points in wrong {
        for session in 1..=3 {
            let mut sheet = three_sessions();
            close(&mut sheet, session, points, 4, FREE[6]);
            add(list, 4, "too many, or in another order", sheet.bytes());
        }
    }
    for (b0, c0) in [(6, 7), (13, 14)] {
        edit(list, 4, "C0h before B0h", |sheet| sheet.rows.swap(b0, c0));
        edit(list, 4, "a track behind B0h", |sheet| {
            sheet.rows.swap(b0 - 1, b0)
        });
    }
    edit(list, 4, "both behind the other session", |sheet| {
        for row in [6, 7] {
            sheet.rows[row][0] = 2;
        }
    });
}

/// Whole sessions and tables.
fn rule_4_whole(list: &mut Vec<Break>) {
    for tail in TAILS {
        let mut alone = two_sessions();
        alone.last = 3;
        close(&mut alone, 3, tail, 4, FREE[0]);
        // `close` puts what no session holds first: move it to the end.
        alone.rows.rotate_left(tail.len());
        add(list, 4, "a session of these alone", alone.bytes());
        alone.last = 1;
        alone.rows.drain(..11);
        for row in &mut alone.rows {
            row[0] = 1;
        }
        add(list, 4, "a table of these alone", alone.bytes());
        let mut bare = two_sessions();
        bare.rows.truncate(9);
        close(&mut bare, 2, tail, 4, FREE[0]);
        add(list, 4, "no tracks before them", bare.bytes());
    }
    edit(list, 4, "l counts the B0h", |sheet| sheet.rows[9][8] = 6);
    edit(list, 4, "l counts both", |sheet| sheet.rows[9][8] = 7);
    edit(list, 4, "S one more", |sheet| sheet.last = 3);
    edit(list, 4, "sessions exchanged", |sheet| {
        sheet.rows.rotate_left(8)
    });
    let mut exchanged = fullest();
    exchanged.rows.swap(592, 593);
    add(list, 4, "the fullest's last two", exchanged.bytes());
    let mut twice = most_sessions();
    twice.rows.push(twice.rows[395]);
    add(list, 4, "397 descriptors, a track twice", twice.bytes());
    let mut moved = fullest();
    moved.rows[588 + 4][0] = 98;
    add(list, 4, "the fullest's last B0h", moved.bytes());
}

/// "Rules 5 to 7 .. pass over them", and still look at the others.
pub fn rules_5_to_7(list: &mut Vec<Break>) {
    for a0 in [0, 8] {
        edit(list, 5, "A0 PSEC", |sheet| sheet.rows[a0][9] = 0x30);
        edit(list, 5, "A0 PFRAME", |sheet| sheet.rows[a0][10] = 1);
        edit(list, 5, "A1 PSEC", |sheet| sheet.rows[a0 + 1][9] = 0x10);
        edit(list, 5, "A1 PFRAME", |sheet| sheet.rows[a0 + 1][10] = 1);
    }
    for row in [2, 3, 5, 10, 11, 12] {
        for (m, s, f) in [(0, 1, 74), (0, 60, 0), (9, 2, 75), (100, 0, 0)] {
            edit(list, 6, "address", |sheet| sheet.set_address(row, m, s, f));
        }
    }
    for (row, block, name) in [
        (5, 900, "track 3 at its lead-out"),
        (5, 400, "track 3 at track 2"),
        (11, 900, "next session at the lead-out"),
        (11, 899, "next session before the lead-out"),
        (2, 12_300, "lead-out at the next session"),
        (10, 12_800, "last lead-out at the last track"),
        (12, 13_000, "track 5 at its lead-out"),
    ] {
        edit(list, 7, name, |sheet| sheet.set_block(row, block));
        // The same with B0h and C0h between, at places that could mislead.
        for (free, name) in [(6, "and B0h, C0h at 0"), (7, "and B0h, C0h at the top")] {
            edit(list, 7, name, |sheet| {
                sheet.set_block(row, block);
                for at in OF_MODE_5 {
                    sheet.rows[at][4..].copy_from_slice(&FREE[free]);
                }
            });
        }
    }
}
