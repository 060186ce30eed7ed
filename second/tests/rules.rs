//! Each rule broken, each edge kept, and a plain re-reading of the rules.

use second::cases::breaks::{breaks, Break};
use second::cases::fits::fits;
use second::cases::several::{alone, three_rules, two_rules, with_faults, Fault, WAYS};
use second::cases::sheet::{any_fit, fullest, three_sessions, three_sittings};
use second::cases::spoil::{any_broken, spoil};
use second::rng::Rng;
use second::table::{broken_rule, read, session_part};

#[test]
fn breaks_break_their_rule_first() {
    let mut ways = [0; 8];
    for broken in breaks() {
        assert_eq!(read(&broken.table), Err(broken.rule), "{}", broken.name);
        ways[usize::from(broken.rule)] += 1;
    }
    assert!(ways[1..].iter().all(|&n| n >= 2), "{ways:?}");
}

#[test]
fn edges_are_fit() {
    for (name, sheet) in fits() {
        assert!(read(&sheet.bytes()).is_ok(), "{name}");
    }
    assert_eq!(fullest().bytes().len(), 6_538);
}

#[test]
fn drawn_tables_are_fit() {
    let mut rng = Rng::new(1);
    for _ in 0..2_000 {
        let sheet = any_fit(&mut rng);
        let disc = read(&sheet.bytes()).expect("fit");
        assert_eq!(disc.sessions.len(), usize::from(sheet.last));
    }
}

/// The rules said again over single bytes, with no rows and no runs: the first
/// broken one, or 0.
fn plainly(t: &[u8]) -> u8 {
    let n = t.len();
    let wrong = !(4..=6_538).contains(&n) || n % 11 != 4;
    if wrong || t[0] as usize * 256 + t[1] as usize + 2 != n {
        return 1;
    }
    if t[2] != 1 || t[3] == 0 || t[3] > 99 {
        return 2;
    }
    for at in (4..n).step_by(11) {
        // K1: ADR 5 where POINT is B0h or C0h, and any ZERO.
        let (adr, zero) = match t[at + 3] {
            0xB0 | 0xC0 => (5, t[at + 7]),
            _ => (1, 0),
        };
        if t[at + 1] >> 4 != adr || t[at + 2] != 0 || t[at + 7] != zero {
            return 3;
        }
    }
    match heads(t) {
        Some(heads) => plainly_5_to_7(t, &heads),
        None => 4,
    }
}

/// Rule 4: where each session's A0 stands and how many tracks it has, if it is
/// kept.
fn heads(t: &[u8]) -> Option<Vec<(usize, usize)>> {
    let (mut at, mut next, mut heads) = (4, None, Vec::new());
    for session in 1..=t[3] {
        let is = |at: usize, point: u8| {
            t.get(at..at + 11)
                .is_some_and(|row| row[0] == session && row[3] == point)
        };
        if !is(at, 0xA0) || !is(at + 11, 0xA1) || !is(at + 22, 0xA2) {
            return None;
        }
        let (f, l) = (t[at + 8], t[at + 19]);
        if f == 0 || f > l || l > 99 || next.unwrap_or(f) != f {
            return None;
        }
        heads.push((at, usize::from(l - f) + 1));
        at += 33;
        for track in f..=l {
            if !is(at, track) {
                return None;
            }
            at += 11;
        }
        // K1: one B0h may stand here, then one C0h.
        for point in [0xB0, 0xC0] {
            at += if is(at, point) { 11 } else { 0 };
        }
        next = Some(l + 1);
    }
    (at == t.len()).then_some(heads)
}

/// Rules 5 to 7 of sessions in order.
fn plainly_5_to_7(t: &[u8], heads: &[(usize, usize)]) -> u8 {
    for &(at, _) in heads {
        if !matches!(t[at + 9], 0 | 16 | 32) || t[at + 10] | t[at + 20] | t[at + 21] != 0 {
            return 5;
        }
    }
    // Tracks, then the lead-out, then the next session's: as they must rise.
    let placed = heads.iter().flat_map(|&(at, tracks)| {
        let starts = (0..tracks).map(move |i| at + 33 + i * 11);
        starts.chain([at + 22])
    });
    let (mut low, mut fallen) = (None, false);
    for at in placed {
        let (m, s, f) = (t[at + 8] as u32, t[at + 9] as u32, t[at + 10] as u32);
        let time = (m * 60 + s) * 75 + f;
        if s > 59 || f > 74 || !(150..450_000).contains(&time) {
            return 6;
        }
        fallen |= low.is_some_and(|low| time <= low);
        low = Some(time);
    }
    if fallen {
        7
    } else {
        0
    }
}

#[test]
fn two_readings_of_the_rules_agree() {
    let mut rng = Rng::new(2);
    let mut firsts = [0; 8];
    for i in 0..40_000 {
        let table = if i % 2 == 0 {
            let sheet = any_fit(&mut rng);
            spoil(&mut rng, &sheet, &[i / 2 % 9 + 1])
        } else {
            any_broken(&mut rng)
        };
        let rule = broken_rule(&table);
        assert_eq!(rule, plainly(&table), "{table:02X?}");
        firsts[usize::from(rule)] += 1;
    }
    for broken in breaks() {
        assert_eq!(plainly(&broken.table), broken.rule, "{}", broken.name);
    }
    for (name, sheet) in fits() {
        assert_eq!(plainly(&sheet.bytes()), 0, "{name}");
    }
    assert!(firsts.iter().all(|&n| n > 1_000), "{firsts:?}");
}

#[test]
fn parts_join_to_the_table() {
    for (_, sheet) in fits() {
        let table = sheet.bytes();
        let mut joined = table[..4].to_vec();
        for session in 1..=sheet.last {
            let part = session_part(&table, session).unwrap();
            assert_eq!((part[0], part[3]), (session, 0xA0));
            joined.extend(part);
        }
        assert_eq!(joined, table);
        for session in [0, sheet.last + 1, 255] {
            assert_eq!(session_part(&table, session).unwrap_err().number(), 10);
        }
    }
    for broken in breaks() {
        for session in [0, 1, 255] {
            let refused = session_part(&broken.table, session).unwrap_err();
            assert_eq!((refused.number(), refused.rule()), (4, broken.rule));
        }
    }
}

/// Each rule is tested over the whole table before the next, wherever in the
/// table the two are broken: 3 late and 4 early is 3.
#[test]
fn the_first_of_two_broken_rules() {
    let mut list = Vec::new();
    two_rules(&mut list);
    holds_first(&list);
    // Ways in which two rules are broken, by the lower one.
    let ways = |rule| list.iter().filter(|one| one.rule == rule).count();
    assert_eq!([1, 2, 3, 4, 5, 6].map(ways), [33, 30, 48, 36, 24, 12]);
}

#[test]
fn the_first_of_three_broken_rules() {
    let mut list = Vec::new();
    three_rules(&mut list);
    holds_first(&list);
    assert_eq!(list.len(), 35 * WAYS);
}

fn holds_first(list: &[Break]) {
    for broken in list {
        assert_eq!(broken_rule(&broken.table), broken.rule, "{}", broken.name);
    }
}

/// What the lists above are made of: each way alone breaks its rule and no lower
/// one.
#[test]
fn each_way_breaks_its_rule() {
    for rule in 1..=7 {
        assert_eq!(broken_rule(&alone(rule)), rule);
        for session in 1..=3 {
            for way in 0..WAYS {
                let fault = Fault { rule, session, way };
                for sheet in [three_sittings(), three_sessions()] {
                    assert_eq!(broken_rule(&with_faults(sheet, vec![fault])), rule);
                }
            }
        }
    }
}
