//! K12, picked by hand: each byte of an entry in each place, the first and the last entry,
//! what is passed over, the tracks' numbers and the addresses.

use crate::cases::cue_sheet::{
    at_the_top, line, three_tracks, tracks_from, two_tracks, Cue, LEAD_IN_AT, LEAD_OUT_AT,
    PASSED_AT, TOP, TRACKS_AT,
};
use crate::cases::picked_state::MEMORY;
use crate::cases::sheet::place;
use crate::cases::stream::Stream;
use crate::cue::LEAD_OUT;

/// Each of the sheets, from one memory on.
fn each(stream: &mut Stream, fill: u8, cues: impl IntoIterator<Item = Cue>) {
    stream.memory(MEMORY, fill);
    for cue in cues {
        stream.cue_sheet(&cue.bytes());
    }
}

/// The four kinds of place: lead-in, passed over, track and lead-out.
fn places() -> impl Iterator<Item = usize> {
    [LEAD_IN_AT]
        .into_iter()
        .chain(PASSED_AT)
        .chain(TRACKS_AT)
        .chain([LEAD_OUT_AT])
}

/// Every control in every place but two of the three passed over.
pub fn controls(stream: &mut Stream) {
    let of = |at: usize| {
        (0..16).map(move |control| three_tracks().with(|cue| cue.lines[at][0] = control << 4 | 1))
    };
    let places = places().filter(|at| !PASSED_AT[1..].contains(at));
    each(stream, 0x31, places.flat_map(of));
    // All of them the same.
    each(
        stream,
        0x32,
        (0..16).map(|control| {
            three_tracks().with(|cue| {
                for line in &mut cue.lines {
                    line[0] = control << 4 | 1;
                }
            })
        }),
    );
}

/// Every ADR in each kind of place, beside the control 4, and nibbles as a table has them.
pub fn adrs(stream: &mut Stream) {
    let places = [LEAD_IN_AT, PASSED_AT[1], TRACKS_AT[1], LEAD_OUT_AT];
    let bits = places.map(|at| (0..16).map(move |adr| (at, 0x40 | adr)));
    let with = |(at, byte): (usize, u8)| three_tracks().with(|cue| cue.lines[at][0] = byte);
    each(stream, 0x33, bits.into_iter().flatten().map(with));
    let swapped = places.map(|at| [0x10, 0x12, 0x14].map(|byte| (at, byte)));
    each(stream, 0x34, swapped.into_iter().flatten().map(with));
    each(
        stream,
        0x35,
        [three_tracks(), tracks_from(1, 9)].map(|cue| {
            cue.with(|cue| {
                for line in &mut cue.lines {
                    line[0] = line[0].rotate_left(4);
                }
            })
        }),
    );
}

/// Every data form and every SCMS in tracks, and some in every place: they are not looked
/// at.
pub fn forms_and_scms(stream: &mut Stream) {
    stream.memory(MEMORY, 0x36);
    for from in [0, 86, 172] {
        let mut cue = tracks_from(1, 97);
        for (line, byte) in cue.lines.iter_mut().zip(from..) {
            line[3..5].copy_from_slice(&[byte as u8, 255 - byte as u8]);
        }
        stream.cue_sheet(&cue.bytes());
    }
    for at in places() {
        for byte in [0x80, 0xFF] {
            for part in [3, 4] {
                stream.cue_sheet(
                    &three_tracks()
                        .with(|cue| cue.lines[at][part] = byte)
                        .bytes(),
                );
            }
        }
    }
}

/// The first entry: every TNO and index but 0 and 0, another one before it, and none.
pub fn lead_ins(stream: &mut Stream) {
    let cue = two_tracks();
    let bits = (0..8).map(|bit| 1u8 << bit);
    each(
        stream,
        0x37,
        bits.flat_map(|bit| [1, 2].map(|part| (part, bit)))
            .map(|(part, byte)| cue.with(|cue| cue.lines[0][part] = byte)),
    );
    let firsts = [
        line(4, 0, 1, [0, 0, 0]),
        line(4, 0, 2, [0, 0, 0]),
        line(4, 1, 0, [0, 0, 0]),
        line(4, LEAD_OUT, 0, [0, 0, 0]),
        line(4, LEAD_OUT, 1, place(300)),
        line(4, 1, 1, [0, 2, 0]),
        [0x02, 0, 0, 0, 0, 0, 0, 0],
    ];
    each(
        stream,
        0x38,
        firsts.map(|first| cue.with(|cue| cue.lines[0] = first)),
    );
    each(stream, 0x39, firsts.map(|first| cue.with_line(0, first)));
    each(
        stream,
        0x3A,
        [cue.with(|cue| {
            cue.lines.remove(0);
        })],
    );
}

/// The lead-in's control and address are anything.
pub fn lead_in_anything(stream: &mut Stream) {
    let times = [
        [0, 2, 0],
        [0, 60, 75],
        [99, 59, 74],
        [100, 0, 0],
        [255, 255, 255],
        [97, 33, 10],
    ];
    let cue = two_tracks();
    each(
        stream,
        0x3B,
        times.into_iter().flat_map(|time| {
            [0x01, 0x41, 0xF1].map(|bits| {
                cue.with(|cue| {
                    cue.lines[0][0] = bits;
                    cue.set_time(0, time);
                })
            })
        }),
    );
}

/// The last entry: every TNO and index next to AAh and 1, one more behind it, and none.
pub fn lead_outs(stream: &mut Stream) {
    let cue = two_tracks();
    let bits = (0..8).map(|bit| 1u8 << bit);
    each(
        stream,
        0x3C,
        bits.flat_map(|bit| [1, 2].map(|part| (part, bit)))
            .map(|(part, bit)| cue.with(|cue| cue.lines[3][part] ^= bit)),
    );
    let tnos = [0, 1, 3, 99, 100, 0xA0, 0xA2, 0xB0, 255];
    each(
        stream,
        0x3D,
        tnos.map(|tno| cue.with(|cue| cue.lines[3][1] = tno)),
    );
    let lasts = [
        line(0, LEAD_OUT, 1, place(400)),
        line(0, LEAD_OUT, 1, place(300)),
        line(0, LEAD_OUT, 0, place(300)),
        line(0, LEAD_OUT, 2, place(300)),
        line(0, 3, 1, place(400)),
        line(0, 3, 0, place(400)),
        line(0, 2, 2, place(280)),
        line(0, 0, 0, [0, 0, 0]),
    ];
    each(
        stream,
        0x3E,
        lasts.map(|last| cue.with(|cue| cue.lines.push(last))),
    );
    each(
        stream,
        0x3F,
        [cue.with(|cue| {
            cue.lines.pop();
        })],
    );
}

/// Every index but 1 between, with any TNO and address and in any place: passed over.
pub fn passed_over(stream: &mut Stream) {
    stream.memory(MEMORY, 0x51);
    let others: Vec<u8> = (0..=255).filter(|&index| index != 1).collect();
    for some in others.chunks(15) {
        let mut cue = two_tracks();
        for &index in some {
            let (at, tno) = (1 + usize::from(index % 3), index.wrapping_mul(29));
            let time = [index, index.wrapping_mul(3), index.wrapping_add(70)];
            cue.lines.insert(at, line(index & 0xF, tno, index, time));
        }
        stream.cue_sheet(&cue.bytes());
    }
    // Next to 1 and to 99, and each bit, alone.
    for index in [
        0, 2, 3, 4, 8, 16, 32, 64, 98, 99, 100, 127, 128, 129, 254, 255,
    ] {
        let passed = line(index & 0xF, 2, index, [0, 3, 0]);
        stream.cue_sheet(&two_tracks().with_line(2, passed).bytes());
    }
    // Some TNOs under index 0, and those that mean something under others.
    let cue = two_tracks();
    for tno in [1, 2, 3, 99, 100, 0x7F, 0xA0, 0xA1, 0xA2, 0xB0, 0xC0, 0xFF] {
        stream.cue_sheet(&cue.with_line(2, line(0, tno, 0, [0, 1, 74])).bytes());
    }
    for (tno, turn) in [0, 1, 2, 3, 100, LEAD_OUT].into_iter().zip(0..) {
        for (index, by) in [0, 2, 99, 100, 255].into_iter().zip(0..) {
            let passed = line(9, tno, index, TOP);
            stream.cue_sheet(&cue.with_line(1 + (turn + by) % 3, passed).bytes());
        }
    }
    // Nothing but these between track and track, with times that fall and repeat.
    let many = (0..6).fold(cue.clone(), |cue, n| {
        cue.with_line(2, line(n, 2, 2 * n, place(100 - u32::from(n % 3))))
    });
    stream.cue_sheet(&many.bytes());
}

/// TNO 0 index 0 again, anywhere between: passed over as any other.
pub fn second_lead_ins(stream: &mut Stream) {
    let cue = three_tracks();
    let lead_in = cue.lines[LEAD_IN_AT];
    each(
        stream,
        0x52,
        (1..=LEAD_OUT_AT).map(|at| cue.with_line(at, lead_in)),
    );
    each(
        stream,
        0x53,
        [[0x01, 0, 0, 0, 0, 99, 99, 99], [0x02, 0, 0, 0, 0, 0, 0, 0]]
            .map(|again| cue.with_line(4, again)),
    );
}

/// An index 1 of TNO 0 or of AAh between is no track's.
pub fn no_tracks_between(stream: &mut Stream) {
    let cue = three_tracks();
    for (tno, fill) in [(0, 0x54), (LEAD_OUT, 0x55)] {
        each(
            stream,
            fill,
            (1..=LEAD_OUT_AT).map(|at| cue.with_line(at, line(0, tno, 1, place(50 * at as u32)))),
        );
        // In place of a track, alone, and with times that rise with the rest.
        each(
            stream,
            fill,
            TRACKS_AT.map(|at| cue.with(|cue| cue.lines[at][1] = tno)),
        );
        let alone = Cue::lay_out(tno, &[(0, 0)], (300, 0));
        let first = Cue::lay_out(tno, &[(0, 0), (150, 0)], (300, 0));
        let last = cue.with_line(LEAD_OUT_AT, line(7, tno, 1, place(1_999)));
        each(stream, fill, [alone, first, last]);
    }
}

/// Tracks in an order that is not f, f + 1, .. l: gaps, twice, falling; and with times
/// that go with the numbers or with the places.
pub fn track_orders(stream: &mut Stream) {
    let orders: [&[u8]; 22] = [
        &[1, 2, 3],
        &[1, 3],
        &[1, 2, 4],
        &[2, 4],
        &[1, 1],
        &[2, 2, 3],
        &[1, 2, 2],
        &[1, 2, 1],
        &[2, 1],
        &[3, 2, 1],
        &[1, 3, 2],
        &[2, 3, 1],
        &[1, 2, 3, 3],
        &[1, 2, 3, 5],
        &[5, 6, 7],
        &[5, 7, 6],
        &[98, 99],
        &[98, 99, 98],
        &[99, 98],
        &[1, 99],
        &[255, 0],
        &[99, 1],
    ];
    let laid = |order: &[u8], by_number: bool| {
        let mut cue = tracks_from(1, order.len() as u8);
        for (at, &number) in order.iter().enumerate() {
            cue.lines[at + 1][1] = number;
            if by_number {
                cue.set_time(at + 1, [number, 2, 0]);
            }
        }
        let out = order.len() + 1;
        cue.set_time(out, TOP);
        cue
    };
    each(
        stream,
        0x56,
        orders
            .iter()
            .flat_map(|order| [false, true].map(|by_number| laid(order, by_number))),
    );
}

/// Numbers over 112: next to a bit's, and those that a POINT or the lead-out has.
const HIGH: [u8; 14] = [
    0x7F, 0x80, 0x81, 0x99, 0xA0, 0xA1, 0xA2, 0xA9, LEAD_OUT, 0xAB, 0xB0, 0xC0, 0xE3, 0xFF,
];

/// Track numbers: every one up to 112 alone, and some over it; runs that end at 99, 100
/// and 255; 99 and 100 tracks, and 255.
pub fn track_numbers(stream: &mut Stream) {
    each(
        stream,
        0x57,
        (0..=112)
            .chain(HIGH)
            .map(|number| Cue::lay_out(number, &[(0, 0x4)], (300, 0))),
    );
    let runs = [
        (0, 2),
        (1, 2),
        (97, 3),
        (98, 2),
        (98, 3),
        (99, 2),
        (100, 2),
        (5, 3),
        (1, 99),
        (1, 100),
        (2, 99),
        (1, 255),
    ];
    each(
        stream,
        0x58,
        runs.map(|(first, count)| tracks_from(first, count)),
    );
}

/// A sheet without a track: nothing at all, one entry, lead-in and lead-out alone, with
/// entries passed over between, or with the lead-in twice.
pub fn without_track(stream: &mut Stream) {
    let cue = two_tracks();
    let (lead_in, lead_out) = (cue.lines[0], cue.lines[3]);
    let of = |lines: &[[u8; 8]]| Cue {
        lines: lines.to_vec(),
    };
    each(
        stream,
        0x59,
        [
            of(&[]),
            of(&[lead_in]),
            of(&[lead_out]),
            of(&[cue.lines[1]]),
            of(&[lead_in, lead_out]),
            of(&[lead_in, lead_in, lead_out]),
            of(&[lead_in, lead_out, lead_out]),
            of(&[lead_in, line(4, 1, 0, [0, 0, 0]), lead_out]),
            of(&[lead_in, line(4, 1, 2, [0, 2, 0]), lead_out]),
            of(&[lead_in, cue.lines[1]]),
            of(&[cue.lines[1], lead_out]),
            of(&[lead_in, cue.lines[1], lead_out]),
        ],
    );
}

/// Rule 6's borders.
const BORDERS: [[u8; 3]; 20] = [
    [0, 0, 0],
    [0, 1, 74],
    [0, 2, 0],
    [0, 2, 1],
    [0, 59, 74],
    [0, 60, 0],
    [0, 59, 75],
    [0, 2, 75],
    [1, 0, 0],
    [1, 0, 74],
    [1, 0, 75],
    [1, 60, 0],
    [1, 255, 255],
    [99, 59, 73],
    [99, 59, 74],
    [99, 59, 75],
    [99, 60, 0],
    [100, 0, 0],
    [100, 2, 0],
    [255, 255, 255],
];

/// A track's address at each border, the lead-out behind all, and of a first track.
pub fn track_addresses(stream: &mut Stream) {
    let one = Cue::lay_out(1, &[(0, 0x4)], (300, 0)).with(|cue| cue.set_time(2, TOP));
    each(
        stream,
        0x5A,
        BORDERS.map(|time| one.with(|cue| cue.set_time(1, time))),
    );
    let two = two_tracks().with(|cue| cue.set_time(3, TOP));
    each(
        stream,
        0x5B,
        BORDERS.map(|time| two.with(|cue| cue.set_time(2, time))),
    );
}

/// The lead-out's address at each border.
pub fn lead_out_addresses(stream: &mut Stream) {
    let one = Cue::lay_out(7, &[(0, 0x4)], (300, 0));
    each(
        stream,
        0x5C,
        BORDERS.map(|time| one.with(|cue| cue.set_time(2, time))),
    );
    let top = at_the_top();
    each(
        stream,
        0x5D,
        BORDERS.map(|time| top.with(|cue| cue.set_time(2, time))),
    );
}

/// Starts that rise by a frame, are equal and fall by a frame, over a second and a minute.
pub fn starts_rise(stream: &mut Stream) {
    stream.memory(MEMORY, 0x5E);
    for border in [1_000, 4_500 - 150, 75 * 10 - 150, 449_000] {
        for by in 0..3 {
            let cue = tracks_from(3, 3).with(|cue| {
                cue.set_time(2, place(border));
                cue.set_time(3, place(border + by - 1));
                cue.set_time(4, TOP);
            });
            stream.cue_sheet(&cue.bytes());
        }
    }
    // All at once, the first and the last exchanged, and the middle one out of place.
    for blocks in [
        [5, 5, 5],
        [9, 7, 5],
        [5, 9, 7],
        [7, 5, 9],
        [5, 7, 9],
        [5, 6, 7],
    ] {
        let cue = Cue::lay_out(1, &blocks.map(|block| (block, 0)), (10, 0));
        stream.cue_sheet(&cue.bytes());
    }
}

/// The lead-out at the last track's start, a frame before and behind, and at others'.
pub fn lead_out_behind(stream: &mut Stream) {
    let cue = tracks_from(1, 3);
    let blocks = [0, 50, 100, 150, 199, 200, 201, 300];
    each(
        stream,
        0x5F,
        blocks.map(|block| cue.with(|cue| cue.set_time(4, place(block)))),
    );
    let long = tracks_from(1, 99);
    each(
        stream,
        0x5F,
        [9_799, 9_800, 9_801].map(|block| long.with(|cue| cue.set_time(100, place(block)))),
    );
}
