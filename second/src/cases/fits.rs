//! Fit tables picked by hand, at the edge of each rule.

use crate::cases::mode_five;
use crate::cases::sheet::{
    disc_e, fullest, most_sessions, most_tracks, one_long_track, three_sessions, two_sessions,
    Plan, Sheet,
};
use crate::limits::TOP_ADDRESS;

pub fn fits() -> Vec<(&'static str, Sheet)> {
    let mut list = vec![
        ("E", disc_e()),
        ("two sessions", two_sessions()),
        ("three sessions", three_sessions()),
        ("one long track", one_long_track()),
        ("fullest", fullest()),
        ("most sessions", most_sessions()),
        ("most tracks", most_tracks()),
    ];
    let mut edit = |name, change: &dyn Fn(&mut Sheet)| {
        let mut sheet = two_sessions();
        change(&mut sheet);
        list.push((name, sheet));
    };
    // "A0's PSEC is 00h, 10h or 20h"
    edit("A0 PSEC 10h", &|sheet| sheet.rows[0][9] = 0x10);
    edit("A0 PSEC 20h", &|sheet| sheet.rows[6][9] = 0x20);
    // "MIN, SEC and FRAME may hold anything."
    edit("MIN, SEC, FRAME FFh", &|sheet| {
        for row in &mut sheet.rows {
            row[4..7].copy_from_slice(&[0xFF; 3]);
        }
    });
    edit("every control", &|sheet| {
        for (i, row) in sheet.rows.iter_mut().enumerate() {
            row[1] = 0x10 | ((i as u8 * 3) & 0x0F);
        }
    });
    // Rule 7 with one block between.
    edit("next session one past", &|sheet| sheet.set_block(9, 901));
    edit("lead-out one before", &|sheet| sheet.set_block(2, 12_299));
    edit("lead-out one past", &|sheet| sheet.set_block(2, 601));
    edit("last track one before", &|sheet| sheet.set_block(5, 899));
    edit("tracks side by side", &|sheet| sheet.set_block(4, 599));
    edit("top lead-out", &|sheet| sheet.set_block(8, TOP_ADDRESS));
    // Rule 4 with high numbers.
    let plan = |out, tracks: &[(u32, u8)]| Plan::new(out, 0x14, tracks);
    list.push(("track 99", Sheet::lay_out(99, &[plan(1, &[(0, 0x14)])])));
    list.push((
        "tracks 98 and 99",
        Sheet::lay_out(
            98,
            &[plan(1, &[(0, 0x10)]), plan(TOP_ADDRESS, &[(2, 0x14)])],
        ),
    ));
    list.push((
        "all at the top",
        Sheet::lay_out(
            7,
            &[plan(
                TOP_ADDRESS,
                &[(TOP_ADDRESS - 2, 0x14), (TOP_ADDRESS - 1, 0x14)],
            )],
        ),
    ));
    list.extend(mode_five::fits());
    list
}
