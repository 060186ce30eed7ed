//! Random tables that break a rule, or nearly do.

use crate::cases::breaks::OUTSIDE;
use crate::cases::mode_five::NEAR;
use crate::cases::sheet::{any_mode_5, fullest, small_fit, Sheet, MODE_5};
use crate::limits::{BOUND, ROWS_MAX};
use crate::rng::Rng;

/// A small table with one to three rules broken, each rule as often the lowest.
pub fn any_broken(rng: &mut Rng) -> Vec<u8> {
    let sheet = small_fit(rng);
    // 7 twice as often: many of its ways leave a small table fit.
    let lowest = rng.range(1, 8).min(7);
    let mut rules = vec![lowest];
    for _ in 0..rng.below(3) {
        rules.push(rng.range(lowest, 7));
    }
    spoil(rng, &sheet, &rules)
}

/// Breaks each of these rules in one of many ways; 9, alone, is what K1 says of
/// B0h and C0h, 8 any byte. A few ways leave the table as fit as it was.
pub fn spoil(rng: &mut Rng, sheet: &Sheet, rules: &[usize]) -> Vec<u8> {
    let mut sheet = sheet.clone();
    // The highest first: it looks for rows that a lower one may take away.
    let mut rules = rules.to_vec();
    rules.sort_unstable();
    rules.dedup();
    for &rule in rules.iter().rev() {
        change(rng, &mut sheet, rule);
    }
    if rules[0] == 1 {
        return rule_1(rng, &sheet);
    }
    // Now and then the data length is left behind too.
    if rng.one_in(40) {
        return sheet.bytes_with(rng.word() as u16);
    }
    sheet.bytes()
}

/// Breaks a rule from 2 on; 1 is of the bytes written.
fn change(rng: &mut Rng, sheet: &mut Sheet, rule: usize) {
    match rule {
        1 => {}
        2 => match rng.below(3) {
            0 => sheet.first = rng.pick(&[0, 2, 3, 99, 128, 255]),
            1 => sheet.last = rng.pick(&[0, 100, 127, 128, 255]),
            _ => sheet.last = sheet.last.wrapping_add(rng.pick(&[1, 255, 128])),
        },
        3 => {
            let row = rng.below(sheet.rows.len());
            match rng.below(3) {
                0 => sheet.rows[row][1] ^= rng.range(1, 15) as u8 * 16,
                1 => sheet.rows[row][2] = rng.pick(&[1, 2, 0x80, 0xFF]),
                _ => sheet.rows[row][7] = rng.pick(&[1, 2, 0x80, 0xFF]),
            }
        }
        4 => rule_4(rng, sheet),
        5 => {
            let point = rng.pick(&[0xA0, 0xA1]);
            let row = rng.pick(&sheet.points(point));
            if rng.one_in(3) {
                sheet.rows[row][10] = rng.pick(&[1, 75, 0x80, 0xFF]);
            } else {
                let seconds = [
                    0, 1, 2, 0x0F, 0x10, 0x11, 0x20, 0x21, 0x30, 0x40, 0x90, 0xFF,
                ];
                sheet.rows[row][9] = rng.pick(&seconds);
            }
        }
        6 => {
            let row = rng.pick(&sheet.placed());
            let (m, s, f) = rng.pick(&OUTSIDE);
            match rng.below(5) {
                0 => sheet.rows[row][9] = rng.pick(&[60, 61, 99, 128, 255]),
                1 => sheet.rows[row][10] = rng.pick(&[75, 76, 99, 128, 255]),
                2 => sheet.rows[row][8] = rng.pick(&[99, 100, 128, 255]),
                _ => sheet.set_address(row, m, s, f),
            }
        }
        7 => rule_7(rng, sheet),
        9 => mode_five(rng, sheet),
        _ => anything(rng, sheet),
    }
}

fn rule_1(rng: &mut Rng, sheet: &Sheet) -> Vec<u8> {
    let whole = sheet.bytes();
    let right = (whole.len() - 2) as u16;
    match rng.below(10) {
        0 if rng.one_in(2) => vec![0, 2, 1, rng.pick(&[0, 1, 2, 99, 100])],
        0 => whole[..rng.below(5).min(whole.len())].to_vec(),
        1 => whole[..whole.len() - rng.range(1, 12)].to_vec(),
        2 => {
            let mut longer = whole;
            let n = rng.range(1, 12);
            longer.extend(rng.bytes(n));
            longer
        }
        3 => sheet.bytes_with(right.wrapping_add(1)),
        4 => sheet.bytes_with(right.wrapping_sub(1)),
        5 => sheet.bytes_with(right.wrapping_add(2)),
        6 => sheet.bytes_with(right ^ rng.pick(&[1, 0x8000, 0x0100, 0x00FF])),
        7 => sheet.bytes_with(right.swap_bytes()),
        8 => {
            // A longer or shorter table whose data length agrees.
            let mut odd = whole;
            let n = rng.range(1, 10);
            odd.extend(rng.bytes(n));
            let length = (odd.len() - 2) as u16;
            odd[..2].copy_from_slice(&length.to_be_bytes());
            odd
        }
        _ if rng.one_in(2) => over_the_bound(rng),
        _ => sheet.bytes_with(rng.word() as u16),
    }
}

/// 6,539 bytes, 595 descriptors, and so on: costly, so it comes seldom.
fn over_the_bound(rng: &mut Rng) -> Vec<u8> {
    let mut full = fullest();
    if rng.one_in(2) {
        full.rows.resize(ROWS_MAX + 1, [0x11; 11]);
        return full.bytes();
    }
    let mut bytes = full.bytes();
    bytes.push(rng.byte());
    if rng.one_in(2) {
        let length = (BOUND - 1) as u16;
        bytes[..2].copy_from_slice(&length.to_be_bytes());
    }
    bytes
}

fn rule_4(rng: &mut Rng, sheet: &mut Sheet) {
    let count = sheet.rows.len();
    let row = rng.below(count);
    match rng.below(14) {
        0 => sheet.rows[row][0] = sheet.rows[row][0].wrapping_add(1),
        1 => sheet.rows[row][0] = sheet.rows[row][0].wrapping_sub(1),
        2 => {
            sheet.rows.remove(row);
        }
        3 => sheet.rows.insert(row, sheet.rows[row]),
        4 => {
            let other = rng.below(count);
            sheet.rows.swap(row, other);
        }
        5 => {
            let points = [
                0, 1, 2, 99, 100, 0xA0, 0xA1, 0xA2, 0xA3, 0xAA, 0xB1, 0xC1, 0xFF,
            ];
            sheet.rows[row][3] = rng.pick(&points);
        }
        6 => sheet.last = sheet.last.wrapping_add(rng.pick(&[1, 255])),
        7 => {
            let mut more = sheet.rows[count - 1];
            more[3] = rng.pick(&[more[3] + 1, 0xB1, 0xC1, 0xA0]);
            sheet.rows.push(more);
        }
        8 => {
            // The numbers of all tracks moved without f and l.
            let by = rng.pick(&[1u8, 2, 255]);
            for one in sheet.rows.iter_mut().filter(|one| one[3] < 100) {
                one[3] = one[3].wrapping_add(by);
            }
        }
        9 | 10 => {
            // Track numbers moved from some session on, f and l with them: fit
            // from session 1 unless an end is passed.
            let from = if rng.one_in(2) { 1 } else { sheet.rows[row][0] };
            let by = rng.pick(&[1u8, 3, 255, 50]);
            for one in sheet.rows.iter_mut().filter(|one| one[0] >= from) {
                let at = match one[3] {
                    0xA0 | 0xA1 => 8,
                    0xA2 | 0xB0 | 0xC0 => continue,
                    _ => 3,
                };
                one[at] = one[at].wrapping_add(by);
            }
        }
        11 => {
            // Session numbers moved from some session on, or in one alone.
            let from = sheet.rows[row][0];
            let alone = rng.one_in(2);
            let by = rng.pick(&[1u8, 2, 255]);
            for one in sheet.rows.iter_mut() {
                if one[0] == from || one[0] > from && !alone {
                    one[0] = one[0].wrapping_add(by);
                }
            }
        }
        _ => {
            let rows = sheet.points(rng.pick(&[0xA0, 0xA1]));
            let row = rng.pick(&rows);
            let now = sheet.rows[row][8];
            let (up, down) = (now.wrapping_add(1), now.wrapping_sub(1));
            sheet.rows[row][8] = rng.pick(&[0, 1, 99, 100, 255, up, down]);
        }
    }
}

fn rule_7(rng: &mut Rng, sheet: &mut Sheet) {
    let rows = sheet.placed();
    let one = rng.pick(&rows);
    let other = rng.pick(&rows);
    let address = |row: &[u8; 11]| {
        (i64::from(row[8]) * 60 + i64::from(row[9])) * 75 + i64::from(row[10]) - 150
    };
    let there = address(&sheet.rows[other]);
    let by = rng.pick(&[0, 0, 1, -1]);
    let block = (there + by).clamp(0, 449_849) as u32;
    if rng.one_in(4) {
        let (a, b) = (sheet.rows[one], sheet.rows[other]);
        sheet.rows[one][8..].copy_from_slice(&b[8..]);
        sheet.rows[other][8..].copy_from_slice(&a[8..]);
    } else {
        sheet.set_block(one, block);
    }
}

/// B0h and C0h in wrong places, numbers and forms, or one more in its place.
fn mode_five(rng: &mut Rng, sheet: &mut Sheet) {
    let session = rng.range(1, usize::from(sheet.last)) as u8;
    let point = rng.pick(&MODE_5);
    let mut row = any_mode_5(rng, sheet, session, point);
    let held: Vec<usize> = MODE_5.iter().flat_map(|&one| sheet.points(one)).collect();
    if held.is_empty() || rng.one_in(3) {
        // A row more, sound or not, behind its session or anywhere.
        match rng.below(7) {
            0 => row[1] = row[1] & 0x0F | rng.byte() & 0xF0,
            1 => row[2] = rng.pick(&[1, 0x80, 0xFF]),
            2 => row[3] = rng.pick(&NEAR),
            3 => {
                row[1] = 0x14;
                row[3] = rng.pick(&NEAR);
                row[7] = 0;
            }
            4 => row[0] = rng.pick(&[0, session + 1, session - 1, 255]),
            _ => {}
        }
        if rng.one_in(2) {
            sheet.close(row);
        } else {
            let at = rng.below(sheet.rows.len() + 1);
            sheet.rows.insert(at, row);
        }
        return;
    }
    let one = rng.pick(&held);
    match rng.below(9) {
        0 => sheet.rows[one][1] ^= rng.range(1, 15) as u8 * 16,
        1 => sheet.rows[one][2] = rng.pick(&[1, 0x80, 0xFF]),
        2 => sheet.rows[one][0] = rng.pick(&[0, session, session + 1, 255]),
        3 => sheet.rows[one][3] = rng.pick(&[0xB0, 0xC0, 0xB1, 0xB4, 0xC1, 1, 0xA0]),
        4 => sheet.rows.insert(one, sheet.rows[one]),
        5 => sheet.rows.swap(one, one - 1),
        6 => {
            let moved = sheet.rows.remove(one);
            let at = rng.below(sheet.rows.len() + 1);
            sheet.rows.insert(at, moved);
        }
        7 => {
            // Fit: one fewer may stand, and any free byte.
            sheet.rows.remove(one);
        }
        _ => sheet.rows[one][rng.range(4, 10)] = rng.byte(),
    }
}

/// Any byte or bit of the table, named by a rule or not.
fn anything(rng: &mut Rng, sheet: &mut Sheet) {
    let row = rng.below(sheet.rows.len());
    let at = rng.below(11);
    match rng.below(3) {
        0 => sheet.rows[row][at] ^= 1 << rng.below(8),
        1 => sheet.rows[row][at] = rng.byte(),
        _ => sheet.rows[row] = rng.bytes(11).try_into().expect("11 bytes"),
    }
}
