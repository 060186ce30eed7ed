//! Tables that break chosen rules in chosen sessions, alone or together: which
//! rule is the first does not hang on which stands first (K6).

use crate::cases::breaks::{add, Break};
use crate::cases::sheet::{disc_e, three_sittings, two_sittings, Sheet};
use crate::limits::TOP_ADDRESS;

/// A rule broken in one of three ways, from rule 3 on in the session named.
#[derive(Clone, Copy)]
pub struct Fault {
    pub rule: u8,
    pub session: u8,
    pub way: usize,
}

pub const WAYS: usize = 3;

/// The sheet's table with these rules broken, the lowest of them last, so that
/// no other undoes it.
pub fn with_faults(mut sheet: Sheet, mut faults: Vec<Fault>) -> Vec<u8> {
    faults.sort_by_key(|fault| fault.rule);
    let places = sheet.points(0xA0);
    for &fault in faults.iter().rev() {
        break_in(&mut sheet, fault, places[usize::from(fault.session) - 1]);
    }
    let mut table = sheet.bytes();
    match faults[0] {
        Fault { rule: 2.., .. } => {}
        Fault { way: 0, .. } => table.push(0),
        Fault { way: 1, .. } => table.truncate(table.len() - 1),
        Fault { .. } => table[1] ^= 1,
    }
    table
}

/// Breaks a rule from 2 on in the session whose A0 is this row and that has two
/// tracks or more; every rule before it holds as it did.
fn break_in(sheet: &mut Sheet, fault: Fault, a0: usize) {
    let (a1, a2, track, next) = (a0 + 1, a0 + 2, a0 + 3, a0 + 4);
    let of_session = |row: &[u8; 11]| row[0] == fault.session;
    let end = sheet.rows.iter().rposition(of_session);
    match (fault.rule, fault.way) {
        (2, 0) => sheet.first = 2,
        (2, 1) => sheet.last = 0,
        (2, _) => sheet.last = 100,
        (3, 0) => sheet.rows[a0][7] = 1,
        (3, 1) => sheet.rows[next][2] = 1,
        // ADR 5 for 1, and 1 for 5 in a B0h or C0h.
        (3, _) => sheet.rows[end.expect("a session of the sheet")][1] ^= 0x40,
        (4, 0) => sheet.rows[track][3] = 77,
        (4, 1) => sheet.rows[a1][8] = 100,
        (4, _) => sheet.rows[a2][0] = 9,
        (5, 0) => sheet.rows[a0][10] = 1,
        (5, 1) => sheet.rows[a0][9] = 0x30,
        (5, _) => sheet.rows[a1][9] = 0x10,
        (6, 0) => sheet.rows[track][9] = 60,
        (6, 1) => sheet.rows[a2][10] = 75,
        (6, _) => sheet.set_address(track, 0, 1, 74),
        (7, 0) => sheet.set_block(next, 0),
        (7, 1) => {
            let [.., m, s, f] = sheet.rows[track];
            sheet.set_address(a2, m, s, f);
        }
        (7, _) => sheet.set_block(next, TOP_ADDRESS),
        _ => {}
    }
}

/// Table E with this rule broken and no other.
pub fn alone(rule: u8) -> Vec<u8> {
    let fault = Fault {
        rule,
        session: 1,
        way: 0,
    };
    with_faults(disc_e(), vec![fault])
}

/// Adds the sheet with the rules broken in the sessions beside them, in each
/// way; the first rule named is the lowest.
fn in_each_way(list: &mut Vec<Break>, name: &'static str, sheet: Sheet, rules: &[(u8, u8)]) {
    for way in 0..WAYS {
        let faults = rules
            .iter()
            .map(|&(rule, session)| Fault { rule, session, way });
        let table = with_faults(sheet.clone(), faults.collect());
        add(list, rules[0].0, name, table);
    }
}

/// Each two rules: the lower one late and the higher one early, the other way
/// round, and both in one session. Rules 1 and 2 are of no session.
pub fn two_rules(list: &mut Vec<Break>) {
    for first in 1..=7 {
        for later in first + 1..=7 {
            for (name, here, there) in [
                ("a rule late, a higher one early", 2, 1),
                ("a rule early, a higher one late", 1, 2),
                ("two rules in session 1", 1, 1),
                ("two rules in session 2", 2, 2),
            ] {
                if (first > 2 || here == 1) && (later > 2 || there == 1) {
                    in_each_way(list, name, two_sittings(), &[(first, here), (later, there)]);
                }
            }
        }
    }
}

/// Each three rules, the highest in the first session and the lowest in the
/// last.
pub fn three_rules(list: &mut Vec<Break>) {
    for first in 1..=7 {
        for second in first + 1..=7 {
            for third in second + 1..=7 {
                let rules = [(first, 3), (second, 2), (third, 1)];
                in_each_way(
                    list,
                    "three rules, the lowest last",
                    three_sittings(),
                    &rules,
                );
            }
        }
    }
}
