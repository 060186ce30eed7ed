//! Tables picked by hand that break a rule, each with the first rule broken.

use crate::cases::mode_five;
use crate::cases::several;
use crate::cases::sheet::{disc_e, fullest, most_sessions, two_sessions, Sheet};
use crate::limits::BOUND;

pub struct Break {
    pub rule: u8,
    pub name: &'static str,
    pub table: Vec<u8>,
}

pub fn add(list: &mut Vec<Break>, rule: u8, name: &'static str, table: Vec<u8>) {
    list.push(Break { rule, name, table });
}

/// An edited copy of the two-session sheet.
fn edit(list: &mut Vec<Break>, rule: u8, name: &'static str, change: impl FnOnce(&mut Sheet)) {
    let mut sheet = two_sessions();
    change(&mut sheet);
    add(list, rule, name, sheet.bytes());
}

/// Rows of the two-session sheet: A0 A1 A2 and tracks 1 2 3 are 0 to 5, then
/// A0 A1 A2 and tracks 4 5 are 6 to 10.
pub fn breaks() -> Vec<Break> {
    let mut list = Vec::new();
    rule_1(&mut list);
    rule_2(&mut list);
    rule_3(&mut list);
    rule_4(&mut list);
    rule_5(&mut list);
    rule_6(&mut list);
    rule_7(&mut list);
    mode_five::rule_3(&mut list);
    mode_five::rule_4(&mut list);
    mode_five::rules_5_to_7(&mut list);
    several::two_rules(&mut list);
    several::three_rules(&mut list);
    list
}

pub fn rule_1(list: &mut Vec<Break>) {
    let e = disc_e().bytes();
    add(list, 1, "empty", vec![]);
    add(list, 1, "one byte", vec![0]);
    add(list, 1, "two bytes", vec![0, 0]);
    add(list, 1, "three bytes", vec![0, 1, 1]);
    add(list, 1, "four bytes, data length 0", vec![0, 0, 1, 1]);
    add(list, 1, "one byte short", e[..58].to_vec());
    let mut short = e[..58].to_vec();
    short[1] = 56;
    add(list, 1, "one byte short, data length agrees", short);
    add(list, 1, "one row short", e[..48].to_vec());
    let mut long = e.clone();
    long.push(0);
    add(list, 1, "one byte long", long.clone());
    long[1] = 58;
    add(list, 1, "one byte long, data length agrees", long);
    let mut row_more = e.clone();
    row_more.extend([0; 11]);
    add(list, 1, "one row long", row_more);
    for (wrong, name) in [
        (0x0038, "data length one less"),
        (0x003A, "data length one more"),
        (0x003B, "data length is the length"),
        (0x0000, "data length 0"),
        (0x0139, "data length 256 more"),
        (0x3900, "data length in the other order"),
    ] {
        add(list, 1, name, disc_e().bytes_with(wrong));
    }
    let full = fullest();
    let mut over = full.bytes();
    over.push(0);
    add(list, 1, "6,539 bytes", over.clone());
    over[0..2].copy_from_slice(&(BOUND as u16 - 1).to_be_bytes());
    add(list, 1, "6,539 bytes, data length agrees", over);
    let mut under = full.bytes()[..BOUND - 1].to_vec();
    add(list, 1, "6,537 bytes", under.clone());
    under[0..2].copy_from_slice(&(BOUND as u16 - 3).to_be_bytes());
    add(list, 1, "6,537 bytes, data length agrees", under);
    let mut row_over = full.clone();
    row_over.rows.push(full.rows[593]);
    add(
        list,
        1,
        "595 descriptors, data length agrees",
        row_over.bytes(),
    );
    let mut old = most_sessions().bytes();
    add(list, 1, "4,359 bytes", old[..4_359].to_vec());
    old.push(0);
    old[0..2].copy_from_slice(&4_359u16.to_be_bytes());
    add(list, 1, "4,361 bytes, data length agrees", old);
    add(list, 1, "8,191 bytes", vec![1; 8_191]);
}

pub fn rule_2(list: &mut Vec<Break>) {
    for first in [0, 2, 99, 255] {
        edit(list, 2, "first session", |sheet| sheet.first = first);
    }
    for last in [0, 100, 101, 128, 255] {
        edit(list, 2, "last session", |sheet| sheet.last = last);
    }
    add(list, 2, "four bytes, no sessions", vec![0, 2, 1, 0]);
    let mut both = fullest();
    both.last = 100;
    add(list, 2, "100 sessions on the fullest", both.bytes());
}

pub fn rule_3(list: &mut Vec<Break>) {
    for row in 0..11 {
        edit(list, 3, "TNO 1", |sheet| sheet.rows[row][2] = 1);
        edit(list, 3, "ZERO 1", |sheet| sheet.rows[row][7] = 1);
        edit(list, 3, "ADR 0", |sheet| sheet.rows[row][1] &= 0x0F);
    }
    for bits in [0x24, 0x34, 0x44, 0x54, 0x94, 0xF4, 0x41] {
        edit(list, 3, "ADR", |sheet| sheet.rows[3][1] = bits);
    }
    edit(list, 3, "TNO FFh", |sheet| sheet.rows[10][2] = 0xFF);
    edit(list, 3, "TNO 80h", |sheet| sheet.rows[0][2] = 0x80);
    edit(list, 3, "ZERO FFh", |sheet| sheet.rows[10][7] = 0xFF);
    edit(list, 3, "ZERO 80h", |sheet| sheet.rows[2][7] = 0x80);
}

pub fn rule_4(list: &mut Vec<Break>) {
    add(list, 4, "four bytes, one session", vec![0, 2, 1, 1]);
    edit(list, 4, "S one less", |sheet| sheet.last = 1);
    edit(list, 4, "S one more", |sheet| sheet.last = 3);
    edit(list, 4, "S 99", |sheet| sheet.last = 99);
    for row in 0..11 {
        edit(list, 4, "session up", |sheet| sheet.rows[row][0] += 1);
        edit(list, 4, "session down", |sheet| sheet.rows[row][0] -= 1);
        edit(list, 4, "row missing", |sheet| {
            sheet.rows.remove(row);
        });
        edit(list, 4, "row twice", |sheet| {
            sheet.rows.insert(row, sheet.rows[row])
        });
        edit(list, 4, "POINT 0", |sheet| sheet.rows[row][3] = 0);
        edit(list, 4, "POINT A3h", |sheet| sheet.rows[row][3] = 0xA3);
        edit(list, 4, "POINT top bit", |sheet| sheet.rows[row][3] ^= 0x80);
    }
    for row in 0..10 {
        edit(list, 4, "rows exchanged", |sheet| {
            sheet.rows.swap(row, row + 1)
        });
    }
    edit(list, 4, "f 0", |sheet| sheet.rows[0][8] = 0);
    edit(list, 4, "f 2", |sheet| sheet.rows[0][8] = 2);
    edit(list, 4, "f over l", |sheet| sheet.rows[0][8] = 4);
    edit(list, 4, "l 0", |sheet| sheet.rows[1][8] = 0);
    edit(list, 4, "l one less", |sheet| sheet.rows[1][8] = 2);
    edit(list, 4, "l one more", |sheet| sheet.rows[1][8] = 4);
    edit(list, 4, "l 100", |sheet| sheet.rows[1][8] = 100);
    edit(list, 4, "l 255", |sheet| sheet.rows[1][8] = 255);
    edit(list, 4, "second f one less", |sheet| sheet.rows[6][8] = 3);
    edit(list, 4, "second f one more", |sheet| sheet.rows[6][8] = 5);
    edit(list, 4, "second l one more", |sheet| sheet.rows[7][8] = 6);
    edit(list, 4, "session 2 starts again at 3", |sheet| {
        sheet.rows[6][8] = 3;
        sheet.rows[7][8] = 4;
        sheet.rows[9][3] = 3;
        sheet.rows[10][3] = 4;
    });
    edit(list, 4, "session 2 leaves out a number", |sheet| {
        sheet.rows[6][8] = 5;
        sheet.rows[7][8] = 6;
        sheet.rows[9][3] = 5;
        sheet.rows[10][3] = 6;
    });
    edit(list, 4, "sessions exchanged", |sheet| {
        sheet.rows.rotate_left(6)
    });
    // Whole sessions under another number, their tracks in good order.
    for (one, two) in [(2, 1), (1, 3), (0, 1), (2, 3), (1, 255), (0, 2)] {
        edit(list, 4, "sessions renumbered", |sheet| {
            for (i, row) in sheet.rows.iter_mut().enumerate() {
                row[0] = if i < 6 { one } else { two };
            }
        });
    }
    for one in [0, 1, 2] {
        edit(list, 4, "all in one session", |sheet| {
            for row in &mut sheet.rows {
                row[0] = one;
            }
        });
    }
    edit(list, 4, "B1h after the tracks", |sheet| {
        let mut more = sheet.rows[10];
        more[3] = 0xB1;
        sheet.rows.push(more);
    });
    edit(list, 4, "a track more at the end", |sheet| {
        let mut more = sheet.rows[10];
        more[3] = 6;
        sheet.rows.push(more);
    });
    edit(list, 4, "a session without tracks", |sheet| {
        let mut more = sheet.rows[6..9].to_vec();
        for row in &mut more {
            row[0] = 3;
        }
        more[0][8] = 6;
        more[1][8] = 5;
        sheet.rows.extend(more);
        sheet.last = 3;
    });
    let mut from_0 = disc_e();
    from_0.rows[0][8] = 0;
    from_0.rows[1][8] = 1;
    from_0.rows[3][3] = 0;
    from_0.rows[4][3] = 1;
    add(list, 4, "tracks 0 and 1", from_0.bytes());
    let mut to_100 = disc_e();
    to_100.rows[0][8] = 99;
    to_100.rows[1][8] = 100;
    to_100.rows[3][3] = 99;
    to_100.rows[4][3] = 100;
    add(list, 4, "tracks 99 and 100", to_100.bytes());
    let mut full = fullest();
    full.rows[590][3] = 0xA1;
    add(list, 4, "last A2 of the fullest", full.bytes());
}

pub fn rule_5(list: &mut Vec<Break>) {
    for row in [0, 6] {
        for second in [1, 0x0F, 0x11, 0x1F, 0x21, 0x30, 0x40, 0x80, 0xFF] {
            edit(list, 5, "A0 PSEC", |sheet| sheet.rows[row][9] = second);
        }
        edit(list, 5, "A0 PFRAME 1", |sheet| sheet.rows[row][10] = 1);
        edit(list, 5, "A0 PFRAME FFh", |sheet| sheet.rows[row][10] = 255);
    }
    for row in [1, 7] {
        for second in [1, 0x10, 0x20, 0xFF] {
            edit(list, 5, "A1 PSEC", |sheet| sheet.rows[row][9] = second);
        }
        edit(list, 5, "A1 PFRAME 1", |sheet| sheet.rows[row][10] = 1);
        edit(list, 5, "A1 PFRAME FFh", |sheet| sheet.rows[row][10] = 255);
    }
}

/// Addresses that rule 6 shuts out.
pub const OUTSIDE: [(u8, u8, u8); 16] = [
    (0, 0, 0),
    (0, 0, 74),
    (0, 1, 0),
    (0, 1, 74),
    (0, 1, 75),
    (0, 2, 75),
    (0, 2, 255),
    (0, 60, 0),
    (1, 60, 0),
    (0, 255, 0),
    (99, 59, 75),
    (99, 60, 0),
    (99, 60, 74),
    (100, 0, 0),
    (100, 2, 0),
    (255, 255, 255),
];

pub fn rule_6(list: &mut Vec<Break>) {
    for row in [2, 3, 5, 8, 9, 10] {
        for (m, s, f) in OUTSIDE {
            edit(list, 6, "address", |sheet| sheet.set_address(row, m, s, f));
        }
    }
}

pub fn rule_7(list: &mut Vec<Break>) {
    // Tracks at 0, 400, 600, lead-out 900; 12,300, 12,800, lead-out 13,000.
    for (row, block, name) in [
        (3, 400, "track 1 at track 2"),
        (3, 401, "track 1 after track 2"),
        (4, 0, "track 2 at track 1"),
        (4, 600, "track 2 at track 3"),
        (4, 601, "track 2 after track 3"),
        (5, 400, "track 3 at track 2"),
        (5, 900, "track 3 at its lead-out"),
        (5, 901, "track 3 after its lead-out"),
        (2, 600, "lead-out at the last track"),
        (2, 599, "lead-out before the last track"),
        (2, 0, "lead-out at 0"),
        (2, 12_300, "lead-out at the next session"),
        (2, 12_301, "lead-out in the next session"),
        (2, 449_849, "lead-out at the top"),
        (9, 900, "next session at the lead-out"),
        (9, 899, "next session before the lead-out"),
        (9, 601, "next session after the last track"),
        (9, 600, "next session at the last track"),
        (9, 12_800, "track 4 at track 5"),
        (10, 12_300, "track 5 at track 4"),
        (10, 13_000, "track 5 at its lead-out"),
        (10, 13_001, "track 5 after its lead-out"),
        (8, 12_800, "last lead-out at the last track"),
        (8, 899, "last lead-out before the first"),
    ] {
        edit(list, 7, name, |sheet| sheet.set_block(row, block));
    }
}
