//! The steps of a packet: attentions, sense, tray, fields, blocks.

mod common;

use common::{check, good, on, on_e, on_with};
use second::cases::packets::*;
use second::cases::picked_state::all_flags;
use second::cases::sheet::{any_fit, disc_e, three_sessions, two_sessions};
use second::drive::State;
use second::mode_page::ModePage;
use second::play::Play;
use second::refusal::Refusal;
use second::rng::Rng;
use second::sense::{self, Sense, NONE};
use second::table::{read, Disc};

const READY: State = State::READY;

#[test]
fn inquiry_leaves_sense_and_attentions() {
    for flags in all_flags() {
        let state = State {
            sense: sense::WRONG_MODE,
            ..flags
        };
        let (reply, memory) = on_e(state, &inquiry(255));
        assert_eq!((reply.status, reply.length, reply.next), (0, 36, state));
        assert_eq!(&memory[..8], [5, 0x80, 0, 0x21, 0x1F, 0, 0, 0]);
        assert_eq!(&memory[8..36], b"LECTERN PACKET TARGET   0100");
        let mut evpd = inquiry(36);
        evpd[1] = 1;
        let (reply, _) = on_e(state, &evpd);
        let next = State {
            sense: sense::BAD_FIELD,
            ..flags
        };
        assert_eq!((reply.status, reply.next), (2, next));
    }
}

#[test]
fn attentions_power_first_then_change() {
    let both = State {
        power: true,
        change: true,
        ..READY
    };
    for packet in [test_ready(), plain(0xFF), prevent(1), start_stop(2)] {
        let (first, _) = on_e(both, &packet);
        let told = State {
            sense: sense::POWERED_ON,
            change: true,
            ..READY
        };
        assert_eq!((first.status, first.next), (2, told));
        let (second, _) = on_e(first.next, &packet);
        let told = State {
            sense: sense::CHANGED,
            ..READY
        };
        assert_eq!((second.status, second.next), (2, told));
    }
}

#[test]
fn request_sense_tells_held_then_power_then_change() {
    let mut state = State {
        power: true,
        change: true,
        sense: sense::PREVENTED,
        ..READY
    };
    for due in [
        sense::PREVENTED,
        sense::POWERED_ON,
        sense::CHANGED,
        NONE,
        NONE,
    ] {
        for length in [0, 18, 255] {
            let (reply, memory) = on_e(state, &request_sense(length));
            assert_eq!(reply.next.sense, NONE);
            if length >= 18 {
                let expected = [
                    0x70, 0, due.key, 0, 0, 0, 0, 0x0A, 0, 0, 0, 0, due.asc, due.ascq, 0, 0, 0, 0,
                ];
                assert_eq!(memory[..reply.length], expected);
            } else {
                assert_eq!(reply.length, 0);
            }
        }
        state = on_e(state, &request_sense(0)).0.next;
    }
    assert_eq!(state, READY);
}

/// What 1Bh must do to a state without attentions, and the triple told.
fn moved_by(bits: u8, state: State) -> (State, Option<Sense>) {
    let (open, disc) = (state.tray_open, state.disc_in);
    match (bits, open) {
        (EJECT, false) if state.lock => (state, Some(Sense::new(5, 0x53, 2))),
        // K7: 3 where the tray opens with a disc, 2 where one is loaded.
        (EJECT, false) if disc => (tray(State { event: 3, ..state }, true), None),
        (EJECT, _) => (tray(state, true), None),
        (LOAD, true) => {
            let (change, event) = (disc, if disc { 2 } else { 0 });
            let loaded = State {
                change,
                event,
                ..state
            };
            (tray(loaded, false), None)
        }
        (1, true) => (state, Some(Sense::new(2, 0x3A, 2))),
        (1, false) if !disc => (state, Some(Sense::new(2, 0x3A, 1))),
        _ => (state, None),
    }
}

fn tray(state: State, tray_open: bool) -> State {
    State { tray_open, ..state }
}

#[test]
fn tray_by_packet() {
    for state in all_flags().filter(|one| !one.power && !one.change) {
        for bits in 0..4 {
            let (reply, _) = on_e(state, &start_stop(bits));
            let (next, told) = moved_by(bits, state);
            let sense = told.unwrap_or(NONE);
            assert_eq!(reply.next, State { sense, ..next }, "{bits} {state:?}");
            assert_eq!(reply.status, if told.is_some() { 2 } else { 0 });
            assert_eq!(reply.length, 0);
        }
        for (byte_4, lock) in [(0, false), (1, true), (0xFE, false), (0xFF, true)] {
            let (reply, _) = on_e(state, &prevent(byte_4));
            assert_eq!((reply.status, reply.next), (0, State { lock, ..state }));
        }
    }
}

#[test]
fn button_and_power_on() {
    for state in all_flags() {
        let (tray_open, disc_in) = (state.tray_open, state.disc_in);
        let next = State {
            tray_open: !tray_open,
            change: state.change || tray_open && disc_in,
            // K7: 2 where a disc is loaded, 3 where the tray opens with one.
            event: match (tray_open, disc_in) {
                (true, true) => 2,
                (false, true) => 3,
                _ => 0,
            },
            ..state
        };
        let due = if state.lock && !tray_open {
            Err(Refusal::Locked)
        } else {
            Ok(next)
        };
        assert_eq!(state.button(), due);
        // K7: refused, the press leaves event 1 behind.
        assert_eq!(state.pressed(), due.unwrap_or(State { event: 1, ..state }));
        for held in [NONE, sense::PREVENTED, sense::CHANGED, Sense::new(1, 2, 3)] {
            let on = State {
                sense: held,
                ..state
            };
            let next = State {
                tray_open,
                disc_in,
                lock: false,
                power: true,
                change: false,
                sense: Sense::new(0, 0, 0),
                play: Play::NONE,
                mode: ModePage::DEFAULT,
                event: 0,
            };
            assert_eq!(on.power_on_without_change(), next);
            // K3: the default form differs in the change attention alone.
            let change = !tray_open && disc_in;
            assert_eq!(on.power_on(), State { change, ..next });
        }
    }
}

#[test]
fn who_needs_a_disc() {
    let mut needing: Vec<Packet> = [0x00, 0x25, 0x28, 0x2B, 0x43, 0xA8].map(plain).to_vec();
    needing.push(start_stop(1));
    // K2: "These commands need a disc." Loaded, each of these is GOOD.
    needing.extend([play(150, 1), play(0, 0), position(true), plain(0x42)]);
    for packet in needing {
        assert_eq!(check(State::EMPTY, &packet), Sense::new(2, 0x3A, 1));
        assert_eq!(
            check(State::EMPTY.opened(), &packet),
            Sense::new(2, 0x3A, 2)
        );
        assert_eq!(check(READY.opened(), &packet), Sense::new(2, 0x3A, 2));
        assert_eq!(on_e(READY, &packet).0.status, 0);
    }
    // Nothing plays, so a pause has nothing to hold: 05/24/00 with a disc.
    for packet in [pause(), resume()] {
        assert_eq!(check(State::EMPTY, &packet), Sense::new(2, 0x3A, 1));
        assert_eq!(check(READY.opened(), &packet), Sense::new(2, 0x3A, 2));
        assert_eq!(check(READY, &packet), Sense::new(5, 0x24, 0));
    }
    for packet in [0, EJECT, LOAD]
        .map(start_stop)
        .into_iter()
        .chain([0, 1].map(prevent))
        // K4's two need none.
        .chain([mode_sense(0, 1, 16), mode_sense(1, 1, 0), mode_select(0)])
        // Nor does K7's.
        .chain([0x00, 0x08, 0x10].map(|classes| event_status(classes, 8)))
    {
        for state in [READY, State::EMPTY, State::EMPTY.opened(), READY.opened()] {
            assert_eq!(on_e(state, &packet).0.status, 0);
        }
    }
    for code in (0..=255).filter(|code| !CODES.contains(code)) {
        for state in [READY, State::EMPTY, READY.opened()] {
            assert_eq!(check(state, &plain(code)), Sense::new(5, 0x20, 0));
        }
    }
}

/// Each of 01's ten and K4's three as bytes: how it comes about, and that it may
/// be held. No list is lent.
#[test]
fn each_triple() {
    let locked = State {
        lock: true,
        ..READY
    };
    let loading = State {
        change: true,
        ..READY
    };
    let ways: [(State, Packet, [u8; 3]); 12] = [
        (READY, test_ready(), [0x00, 0x00, 0x00]),
        (State::EMPTY, test_ready(), [0x02, 0x3A, 0x01]),
        (READY.opened(), test_ready(), [0x02, 0x3A, 0x02]),
        (READY, plain(0xBE), [0x05, 0x20, 0x00]),
        (READY, seek(300), [0x05, 0x21, 0x00]),
        (READY, toc(false, 3, 0, 4), [0x05, 0x24, 0x00]),
        (locked, start_stop(EJECT), [0x05, 0x53, 0x02]),
        (READY, read10(150, 1), [0x05, 0x64, 0x00]),
        (loading, test_ready(), [0x06, 0x28, 0x00]),
        (READY.power_on(), test_ready(), [0x06, 0x29, 0x00]),
        (READY, mode_select(16), [0x05, 0x1A, 0x00]),
        (READY, mode_sense(3, 1, 16), [0x05, 0x39, 0x00]),
    ];
    for (state, packet, [key, asc, ascq]) in ways {
        let held = Sense::new(key, asc, ascq);
        let (reply, _) = on_e(state, &packet);
        assert_eq!((reply.refusal, reply.next.sense), (None, held));
        let holding = State {
            sense: held,
            ..READY
        };
        let (reply, memory) = on_e(holding, &request_sense(18));
        assert_eq!(reply.refusal, None);
        assert_eq!([memory[2], memory[12], memory[13]], [key, asc, ascq]);
    }
    let (reply, _) = on_with(READY, &disc_e().bytes(), &[0; 16], &mode_select(16));
    assert_eq!(reply.next.sense, Sense::new(0x05, 0x26, 0x00));
    let (reply, memory) = on_e(reply.next, &request_sense(18));
    assert_eq!(reply.refusal, None);
    assert_eq!([memory[2], memory[12], memory[13]], [0x05, 0x26, 0x00]);
}

#[test]
fn unnamed_bits_do_not_matter() {
    let mut rng = Rng::new(3);
    for packet in one_of_each() {
        for _ in 0..200 {
            let noisy = with_junk(&mut rng, packet);
            assert_eq!(on_e(READY, &packet), on_e(READY, &noisy));
        }
    }
}

#[test]
fn formats_one_and_two() {
    let table = two_sessions().bytes();
    let (reply, memory) = on(READY, &table, &toc(false, 1, 0xFF, 804));
    let expected = [0, 10, 1, 2, 0, 0x14, 4, 0, 0, 0, 0x30, 0x0C];
    assert_eq!(memory[..reply.length], expected);
    let (reply, memory) = on(READY, &table, &toc(true, 2, 0, 804));
    assert_eq!(memory[..reply.length], table);
    let (reply, memory) = on(READY, &table, &toc(true, 2, 2, 804));
    assert_eq!(memory[..4], [0, 57, 1, 2]);
    assert_eq!(memory[4..reply.length], table[70..]);
    assert_eq!(check(READY, &toc(false, 2, 2, 804)), sense::BAD_FIELD);
    for format in 3..16 {
        assert_eq!(check(READY, &toc(false, format, 0, 804)), sense::BAD_FIELD);
        let high = format << 4 | 1;
        assert_eq!(good(READY, &toc(false, high, 0, 2)), [0, 10]);
    }
}

/// "A block belongs to the track with the greatest start not above it, if it
/// lies below that track's session's lead-out; else to no track."
fn block_is_data(disc: &Disc, block: u32) -> bool {
    let mut owner = None;
    for session in &disc.sessions {
        for track in &session.tracks {
            if track.start <= block {
                owner = Some((track.bits, session.lead_out));
            }
        }
    }
    owner.is_some_and(|(bits, lead_out)| block < lead_out && bits & 4 != 0)
}

#[test]
fn reads_agree_with_the_block_rule() {
    let mut rng = Rng::new(4);
    let mut tables = vec![
        disc_e().bytes(),
        two_sessions().bytes(),
        three_sessions().bytes(),
    ];
    tables.extend((0..60).map(|_| any_fit(&mut rng).bytes()));
    for table in tables {
        let disc = read(&table).unwrap();
        let marks = Marks::of(Some(&disc));
        for _ in 0..120 {
            let address = marks.address(&mut rng);
            let count = marks.count(&mut rng, address);
            let (reply, _) = on(READY, &table, &read12(address, count));
            let end = u64::from(disc.end());
            let past = u64::from(address) + u64::from(count);
            let due = if u64::from(address) >= end || past > end {
                sense::OUT_OF_RANGE
            } else if (address..past as u32).all(|block| block_is_data(&disc, block)) {
                NONE
            } else {
                sense::WRONG_MODE
            };
            assert_eq!(reply.next.sense, due, "{address} {count}");
            let named = if due == NONE {
                (address, count)
            } else {
                (0, 0)
            };
            assert_eq!((reply.start, reply.count), named);
        }
    }
}

#[test]
fn sums_past_32_bits() {
    for (address, count) in [(1, u32::MAX), (149, u32::MAX - 148), (150, u32::MAX)] {
        assert_eq!(check(READY, &read12(address, count)), sense::OUT_OF_RANGE);
    }
    // Counts with one high bit: every byte of the field tells.
    for bit in 9..32 {
        assert_eq!(check(READY, &read12(0, 1 | 1 << bit)), sense::OUT_OF_RANGE);
    }
    assert_eq!(check(READY, &seek(300)), sense::OUT_OF_RANGE);
    assert_eq!(check(READY, &seek(u32::MAX)), sense::OUT_OF_RANGE);
    assert_eq!(good(READY, &seek(299)), []);
}
