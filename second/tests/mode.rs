//! K4: "Mode pages for the error recovery lab." MODE SENSE and MODE SELECT, the
//! page in the state and what keeps or restores it, the lists lent, and that the
//! streams have all of it often.

mod common;

use std::collections::BTreeSet;

use common::{both, number_of, on_with, told};
use second::cases::bad::random_stream;
use second::cases::packets::*;
use second::cases::picked_mode;
use second::cases::picked_state::all_flags;
use second::cases::sheet::{any_fit, disc_e};
use second::cases::stream::Stream;
use second::drive::State;
use second::limits::BOUND;
use second::mode_page::{ModePage, SETTINGS};
use second::packet::{perform, Reply};
use second::play::Play;
use second::replay::{self, take_record};
use second::rng::Rng;
use second::sense::{Sense, NONE, TRIPLES};
use second::table::read;
use second::tally::{self, Modes};
use second::{listing, stored};

const READY: State = State::READY;

const BAD_FIELD: Sense = Sense::new(5, 0x24, 0);
const LIST_LENGTH: Sense = Sense::new(5, 0x1A, 0);
const LIST_FIELD: Sense = Sense::new(5, 0x26, 0);
const NOT_SAVED: Sense = Sense::new(5, 0x39, 0);

/// 02's list, as it stands there.
const TWENTY: [u8; 20] = [
    0x00, 0x01, 0x04, 0x05, 0x06, 0x07, 0x10, 0x11, 0x14, 0x15, 0x20, 0x21, 0x24, 0x25, 0x26, 0x27,
    0x30, 0x31, 0x34, 0x35,
];

/// This state with these two bytes of the page.
fn with(state: State, recovery: u8, retries: u8) -> State {
    State {
        mode: ModePage::new(recovery, retries),
        ..state
    }
}

/// The four ways for tray and disc to stand, nothing pending.
fn places() -> [State; 4] {
    [READY, State::EMPTY, READY.opened(), State::EMPTY.opened()]
}

fn current() -> Packet {
    mode_sense(0, 1, 16)
}

/// A packet on Table E with this list lent.
fn lent(state: State, list: &[u8], packet: &[u8]) -> (Reply, Vec<u8>) {
    on_with(state, &disc_e().bytes(), list, packet)
}

/// What a GOOD packet leaves, and its bytes.
fn served(state: State, list: &[u8], packet: &[u8]) -> (State, Vec<u8>) {
    let (reply, memory) = lent(state, list, packet);
    assert_eq!((reply.refusal, reply.status), (None, 0), "{packet:02X?}");
    assert_eq!((reply.start, reply.count), (0, 0));
    assert_eq!(reply.next.sense, NONE);
    (reply.next, memory[..reply.length].to_vec())
}

/// A failing packet changes the held sense alone, and writes nothing.
fn fails(state: State, list: &[u8], packet: &[u8], triple: Sense) {
    let (reply, _) = lent(state, list, packet);
    assert_eq!((reply.refusal, reply.status), (None, 2), "{packet:02X?}");
    let sense = triple;
    assert_eq!(reply.next, State { sense, ..state }, "{packet:02X?}");
}

/// The marked results of K4 on Disc E, as one list: the sense held and the bytes
/// given, in turn.
#[test]
fn marked_results() {
    let bytes = |recovery, retries| {
        let mut bytes = vec![0x00, 0x0E, 0, 0, 0, 0, 0, 0];
        bytes.extend([0x01, 0x06, recovery, retries, 0, 0, 0, 0]);
        bytes
    };
    let (none, sixteen) = (vec![], |list: [u8; 16]| list.to_vec());
    let mut wrong_page = page_list(5, 3);
    wrong_page[8] = 0x81;
    let list: Vec<(Vec<u8>, Packet, Sense, Vec<u8>)> = vec![
        (none.clone(), current(), NONE, bytes(0, 0)),
        (none.clone(), mode_sense(1, 1, 16), NONE, bytes(0x37, 0xFF)),
        (none.clone(), mode_sense(2, 1, 16), NONE, bytes(0, 0)),
        (none.clone(), mode_sense(3, 1, 16), NOT_SAVED, vec![]),
        (none.clone(), mode_sense(0, 2, 16), BAD_FIELD, vec![]),
        (none.clone(), mode_sense(3, 2, 16), BAD_FIELD, vec![]),
        (sixteen(page_list(5, 3)), mode_select(16), NONE, vec![]),
        (none.clone(), current(), NONE, bytes(5, 3)),
        (vec![0; 15], mode_select(15), LIST_LENGTH, vec![]),
        (none.clone(), mode_select(16), LIST_LENGTH, vec![]),
        (sixteen(wrong_page), mode_select(16), LIST_FIELD, vec![]),
        (
            sixteen(page_list(2, 3)),
            mode_select(16),
            LIST_FIELD,
            vec![],
        ),
        (none.clone(), mode_select(0), NONE, vec![]),
        (none.clone(), current(), NONE, bytes(5, 3)),
    ];
    let mut state = told_all(READY.power_on());
    for (list, packet, sense, due) in list {
        let (reply, memory) = lent(state, &list, &packet);
        assert_eq!(reply.next.sense, sense, "{packet:02X?}");
        assert_eq!(memory[..reply.length], due);
        state = reply.next;
    }
    let state = told_all(state.power_on());
    assert_eq!(served(state, &[], &current()).1, bytes(0, 0));
}

/// The attentions told, so that nothing is pending.
fn told_all(mut state: State) -> State {
    while state.power || state.change {
        state = lent(state, &[], &test_ready()).0.next;
    }
    State {
        sense: NONE,
        ..state
    }
}

/// "The recovery byte is one of 000's twenty settings": 02's list is 000's Table
/// 102. There bits 7, 6 and 3 are reserved, and of the low three bits 0, 1, 4 and
/// 5 come with any of the others, 6 and 7 without bit 4 alone. Bits 2, 1 and 4 are
/// 004's PER, DTE and RC: so DTE comes with PER, and never with RC.
#[test]
fn the_twenty_of_000() {
    let by_bits = |byte: u8| {
        let (per, dte, rc) = (byte & 4 != 0, byte & 2 != 0, byte & 0x10 != 0);
        byte & 0b1100_1000 == 0 && (!dte || per) && !(rc && dte)
    };
    let by_the_rule = |byte: u8| {
        byte & 0b1100_1000 == 0
            && (matches!(byte & 7, 0 | 1 | 4 | 5) || byte & 0x10 == 0 && matches!(byte & 7, 6 | 7))
    };
    let found: Vec<u8> = (0..=255).filter(|&byte| by_bits(byte)).collect();
    assert_eq!(found, TWENTY);
    let found: Vec<u8> = (0..=255).filter(|&byte| by_the_rule(byte)).collect();
    assert_eq!(found, TWENTY);
    assert_eq!(SETTINGS, TWENTY);
    // "changeable (37h and FFh)": the bits that some setting has.
    assert_eq!(TWENTY.iter().fold(0, |mask, byte| mask | byte), 0x37);
}

/// "Page control asks for current, changeable (37h and FFh), default (both zero)
/// or saved values"; "05/24/00 for another page, then 05/39/00 for saved values".
#[test]
fn every_page_and_control() {
    for place in places() {
        let state = with(place, 0x26, 0xB4);
        for byte_2 in 0..=255u8 {
            let mut packet = current();
            packet[2] = byte_2;
            let due = match byte_2 {
                0x01 => [0x26, 0xB4],
                0x41 => [0x37, 0xFF],
                0x81 => [0x00, 0x00],
                0xC1 => {
                    fails(state, &[], &packet, NOT_SAVED);
                    continue;
                }
                _ => {
                    fails(state, &[], &packet, BAD_FIELD);
                    continue;
                }
            };
            let (next, bytes) = served(state, &[], &packet);
            assert_eq!((next, &bytes[10..12]), (state, &due[..]));
        }
    }
}

/// "Sense gives 00 0E and six zeros, then 01 06, recovery byte, retry count and
/// four zeros": each of the twenty, each retry count.
#[test]
fn sixteen_bytes() {
    for recovery in TWENTY {
        for retries in 0..=255 {
            let state = with(State::EMPTY, recovery, retries);
            let due = [
                0x00, 0x0E, 0, 0, 0, 0, 0, 0, 0x01, 0x06, recovery, retries, 0, 0, 0, 0,
            ];
            assert_eq!(served(state, &[], &current()), (state, due.to_vec()));
        }
    }
}

/// "the bytes are the first n of the full answer": n up to 16, the length inside
/// never cut; memory past n stays (`on_with` looks).
#[test]
fn sense_is_cut() {
    let state = with(READY, 0x31, 0x8A);
    let full = served(state, &[], &current()).1;
    for length in (0..=300).chain([4_096, 0xFFFF]) {
        let (next, bytes) = served(state, &[], &mode_sense(0, 1, length));
        assert_eq!((next, &bytes[..]), (state, &full[..16.min(length.into())]));
        fails(state, &[], &mode_sense(3, 1, length), NOT_SAVED);
        fails(state, &[], &mode_sense(1, 0x3F, length), BAD_FIELD);
    }
}

/// A GOOD MODE SELECT of 16 sets both bytes, whatever stood there; "one of the
/// twenty", any retry count.
#[test]
fn select_sets_the_page() {
    for place in places() {
        for recovery in 0..=255u8 {
            let state = with(place, 0x15, 0x51);
            let list = page_list(recovery, !recovery);
            if TWENTY.contains(&recovery) {
                let due = (with(place, recovery, !recovery), vec![]);
                assert_eq!(served(state, &list, &mode_select(16)), due);
            } else {
                fails(state, &list, &mode_select(16), LIST_FIELD);
            }
        }
    }
    for retries in 0..=255 {
        let (next, _) = served(READY, &page_list(0, retries), &mode_select(16));
        assert_eq!(next, with(READY, 0, retries));
    }
}

/// "A list is 0 bytes .. or 16": "05/1A/00 for another list length or one that
/// differs from the lent list's", whatever the list holds.
#[test]
fn list_lengths() {
    let state = with(State::EMPTY, 0x24, 0x42);
    let lengths = [0, 1, 2, 7, 8, 9, 12, 14, 15, 16, 17, 24, 32, 255, 256];
    let long = [272, 4_096, 4_112, 8_191, 0xFFFF];
    for lent in lengths.into_iter().chain(long) {
        for list in [vec![0; lent], vec![0xFF; lent], sound_for(lent)] {
            for asked in lengths.into_iter().chain(long) {
                let packet = mode_select(asked as u16);
                match (asked, lent) {
                    (0, 0) => assert_eq!(served(state, &list, &packet), (state, vec![])),
                    (16, 16) => {
                        let sets = list[8..11] == [0x01, 0x06, 0x07];
                        let next = lent_state(state, &list, &packet);
                        assert_eq!(next.mode == ModePage::new(0x07, 0x70), sets);
                        assert_eq!(next.sense, if sets { NONE } else { LIST_FIELD });
                    }
                    _ => fails(state, &list, &packet, LIST_LENGTH),
                }
            }
        }
    }
}

/// A list that begins as a sound one, of this length.
fn sound_for(length: usize) -> Vec<u8> {
    let mut list = page_list(0x07, 0x70).to_vec();
    list.resize(length, 0x01);
    list
}

fn lent_state(state: State, list: &[u8], packet: &[u8]) -> State {
    lent(state, list, packet).0.next
}

/// Length 0 with 16 lent is 05/1A/00 too, and so is 16 with none.
#[test]
fn both_lengths_count() {
    fails(READY, &page_list(5, 3), &mode_select(0), LIST_LENGTH);
    fails(READY, &[], &mode_select(16), LIST_LENGTH);
    // 16 in the wrong byte order is 4,096, and each byte of the length tells.
    let mut swapped = plain(0x55);
    swapped[7] = 0x10;
    fails(READY, &page_list(5, 3), &swapped, LIST_LENGTH);
    for bit in 0..16 {
        let packet = mode_select(16 ^ 1 << bit);
        fails(READY, &page_list(5, 3), &packet, LIST_LENGTH);
    }
}

/// "05/26/00 unless its page begins 01 06 and one of the twenty": bytes 8, 9 and
/// 10 in all their values, one at a time. 81h is not 01h.
#[test]
fn page_begins_01_06() {
    let state = with(State::EMPTY, 0x11, 0x22);
    for place in 8..11 {
        for byte in 0..=255u8 {
            let mut list = page_list(0x25, 0x52);
            list[place] = byte;
            let sound = match place {
                8 => byte == 0x01,
                9 => byte == 0x06,
                _ => TWENTY.contains(&byte),
            };
            if sound {
                let next = with(state, list[10], 0x52);
                assert_eq!(served(state, &list, &mode_select(16)).0, next);
            } else {
                fails(state, &list, &mode_select(16), LIST_FIELD);
            }
        }
    }
}

/// "its header not looked at", nor bytes 12 to 15: any bytes there.
#[test]
fn header_and_tail_are_free() {
    let mut rng = Rng::new(21);
    let due = with(READY, 0x34, 0x43);
    for round in 0..400 {
        let mut list = page_list(0x34, 0x43);
        for place in (0..8).chain(12..16) {
            list[place] = match round {
                0 => 0xFF,
                1..=96 => u8::from((round - 1) / 8 % 16 == place) << ((round - 1) % 8),
                _ => rng.byte(),
            };
        }
        assert_eq!(served(READY, &list, &mode_select(16)).0, due);
    }
}

/// PF, SP, DBD and every other bit that no rule names: 55h looks at bytes 7 to 8,
/// 5Ah at byte 2 and bytes 7 to 8.
#[test]
fn other_bits_of_the_packets() {
    let list = page_list(0x30, 0x03);
    let before = with(READY, 0x01, 0x10);
    for bit in 8..96 {
        let turned = |packet: Packet| {
            let mut packet = packet;
            packet[bit / 8] ^= 0x80 >> (bit % 8);
            packet
        };
        let (length, byte_2) = ((56..72).contains(&bit), (16..24).contains(&bit));
        let asked = |packet: Packet| lent(before, &list, &packet);
        let same = asked(mode_select(16)) == asked(turned(mode_select(16)));
        assert_eq!(same, !length, "{bit}");
        let same = asked(current()) == asked(turned(current()));
        // A longer allocation length changes nothing.
        assert_eq!(same, !byte_2 && bit != 67, "{bit}");
    }
}

/// "0 bytes (GOOD, nothing changes)": but a GOOD clears the sense.
#[test]
fn an_empty_list_changes_nothing() {
    for held in TRIPLES {
        for place in places() {
            let state = State {
                sense: held,
                ..with(place, 0x35, 0x99)
            };
            let due = State {
                sense: NONE,
                ..state
            };
            assert_eq!(served(state, &[], &mode_select(0)), (due, vec![]));
        }
    }
}

/// A held sense, any of the thirteen, is cleared where they are GOOD and replaced
/// where they are not.
#[test]
fn the_sense_held_before() {
    for held in TRIPLES {
        let state = State {
            sense: held,
            ..with(READY, 0x10, 0x01)
        };
        assert_eq!(served(state, &[], &current()).0, with(READY, 0x10, 0x01));
        let (next, _) = served(state, &page_list(4, 5), &mode_select(16));
        assert_eq!(next, with(READY, 4, 5));
        fails(state, &page_list(3, 5), &mode_select(16), LIST_FIELD);
        fails(state, &page_list(4, 5), &mode_select(12), LIST_LENGTH);
        fails(state, &[], &mode_sense(3, 1, 0), NOT_SAVED);
    }
}

/// Both meet the attention gate: told first, the list not looked at, the page as
/// it was. Then they are performed, loaded or not, the tray open or closed.
#[test]
fn the_gate_comes_first() {
    let lists: [&[u8]; 4] = [&[], &page_list(5, 3), &page_list(2, 3), &[1; 15]];
    for flags in all_flags() {
        let state = with(flags, 0x20, 0x02);
        let due = match (flags.power, flags.change) {
            (true, _) => Sense::new(6, 0x29, 0),
            (_, true) => Sense::new(6, 0x28, 0),
            _ => continue,
        };
        for list in lists {
            for packet in [current(), mode_sense(3, 2, 16), mode_select(16)] {
                let (reply, _) = lent(state, list, &packet);
                assert_eq!((reply.status, reply.next.sense), (2, due));
                assert_eq!(reply.next.mode, state.mode);
                let pending = (reply.next.power, reply.next.change);
                assert_eq!(pending, (false, flags.power && flags.change));
            }
        }
        let state = told_all(state);
        let (next, _) = served(state, lists[1], &mode_select(16));
        assert_eq!(next, with(state, 5, 3));
        assert_eq!(served(next, &[], &current()).1[10..12], [5, 3]);
    }
}

/// Refusals come before the gate and the list: 1, 2, 3, and 4 where loaded.
#[test]
fn refusals_come_before() {
    let (fit, unfit) = (disc_e().bytes(), &disc_e().bytes()[..58]);
    let list = page_list(5, 3);
    for packet in [current(), mode_select(16), mode_select(15)] {
        for place in places() {
            let state = with(place, 0x14, 0x41);
            let due = if place.loaded() { (4, 1) } else { (0, 0) };
            let (reply, _) = on_with(state, unfit, &list, &packet);
            assert_eq!(both(reply.refusal), due);
            if due != (0, 0) {
                assert_eq!((reply.status, reply.next), (0, state));
            }
            let mut memory = vec![7; BOUND - 1];
            let reply = perform(state, &fit, &list, &packet, &mut memory);
            assert_eq!(both(reply.refusal), (3, 0));
            assert_eq!((reply.next, memory), (state, vec![7; BOUND - 1]));
            let (reply, _) = on_with(state, &fit, &list, &packet[..11]);
            assert_eq!((both(reply.refusal), reply.next), ((1, 0), state));
        }
    }
}

/// 2 "covers a recovery byte outside the twenty": every call but power-on, with
/// any retry count.
#[test]
fn two_covers_the_recovery_byte() {
    let e = disc_e().bytes();
    for recovery in 0..=255u8 {
        let due = if TWENTY.contains(&recovery) { 0 } else { 2 };
        for retries in [0, 1, 0x80, 0xFF] {
            let closed = with(READY, recovery, retries);
            let open = with(READY.opened(), recovery, retries);
            for packet in one_of_each() {
                assert_eq!(told(closed, &e, &packet).0, due, "{packet:02X?}");
            }
            let (reply, _) = lent(closed, &page_list(0, 0), &mode_select(16));
            assert_eq!(both(reply.refusal), (due, 0));
            assert_eq!(number_of(&closed.button()), due);
            assert_eq!(number_of(&closed.move_on(1)), due);
            assert_eq!(number_of(&open.lift()), due);
            let bare = with(State::EMPTY.opened(), recovery, retries);
            assert_eq!(number_of(&bare.lay()), due);
            for next in [closed.power_on(), bare.power_on_without_change()] {
                assert_eq!(next.mode, ModePage::new(0, 0));
            }
        }
    }
}

/// 2 by the recovery byte stands in its place: behind 1, before 3, 4, 5, 6 and 7.
#[test]
fn recovery_in_its_place() {
    let bad = State {
        lock: true,
        ..with(READY, 0x12, 0)
    };
    let (fit, unfit) = (disc_e().bytes(), vec![0; 4]);
    for table in [&fit, &unfit] {
        for size in [BOUND - 1, BOUND] {
            for (length, due) in [(11, 1), (12, 2), (13, 1)] {
                let mut memory = vec![7; size];
                let packet = &[0; 13][..length];
                let reply = perform(bad, table, &page_list(1, 1), packet, &mut memory);
                assert_eq!(both(reply.refusal), (due, 0));
                assert_eq!((reply.next, memory), (bad, vec![7; size]));
            }
        }
    }
    for state in [bad, with(State::EMPTY, 0x12, 0)] {
        for open in [
            state,
            State {
                tray_open: true,
                ..state
            },
        ] {
            assert_eq!(number_of(&open.button()), 2);
            assert_eq!(number_of(&open.lay()), 2);
            assert_eq!(number_of(&open.lift()), 2);
        }
    }
    // Any of the three parts that 2 tests is enough.
    let stranger = Sense::new(5, 0x1A, 1);
    for (sense, play, mode, due) in [
        (stranger, Play::NONE, ModePage::DEFAULT, 2),
        (NONE, Play::new(0, 0, 0), ModePage::DEFAULT, 2),
        (NONE, Play::NONE, ModePage::new(0x36, 0), 2),
        (LIST_FIELD, Play::NONE, ModePage::new(0x27, 0xFF), 0),
    ] {
        let state = State {
            sense,
            play,
            mode,
            ..READY
        };
        assert_eq!(number_of(&state.button()), due);
    }
}

/// "refusal 2 admits these triples": thirteen, and no further one.
#[test]
fn thirteen_triples() {
    let ten = [
        [0x00, 0x00, 0x00],
        [0x02, 0x3A, 0x01],
        [0x02, 0x3A, 0x02],
        [0x05, 0x20, 0x00],
        [0x05, 0x21, 0x00],
        [0x05, 0x24, 0x00],
        [0x05, 0x53, 0x02],
        [0x05, 0x64, 0x00],
        [0x06, 0x28, 0x00],
        [0x06, 0x29, 0x00],
    ];
    let three = [[0x05, 0x1A, 0x00], [0x05, 0x26, 0x00], [0x05, 0x39, 0x00]];
    let known: BTreeSet<[u8; 3]> = ten.into_iter().chain(three).collect();
    let kept = TRIPLES.map(|one| [one.key, one.asc, one.ascq]);
    assert_eq!(BTreeSet::from(kept), known);
    for key in 0..16 {
        for asc in 0..=255 {
            for ascq in [0, 1, 2, 3, 0x80, 0xFF] {
                let state = State {
                    sense: Sense::new(key, asc, ascq),
                    ..READY
                };
                let due = if known.contains(&[key, asc, ascq]) {
                    0
                } else {
                    2
                };
                assert_eq!(number_of(&state.button()), due, "{state:?}");
            }
        }
    }
}

/// "Power-on restores defaults", both forms; nothing else does, and nothing but a
/// GOOD 55h of 16 changes the page: not the tray, a loading, the outside call, or
/// any other packet, whatever list is lent.
#[test]
fn what_keeps_the_page() {
    let mut rng = Rng::new(22);
    for flags in all_flags() {
        let state = with(flags, 0x34, 0x2F);
        for next in [state.power_on(), state.power_on_without_change()] {
            assert_eq!(next.mode, ModePage::DEFAULT);
        }
        for next in [state.button(), state.lay(), state.lift(), state.move_on(3)] {
            assert_eq!(next.unwrap_or(state).mode, state.mode);
        }
        for list in [vec![], page_list(1, 2).to_vec(), vec![0xFF; 16]] {
            for packet in one_of_each() {
                if packet != mode_select(16) || list != page_list(1, 2) {
                    assert_eq!(lent_state(state, &list, &packet).mode, state.mode);
                }
            }
        }
        for _ in 0..200 {
            let (list, packet) = (any_list(&mut rng), any_packet(&mut rng, &Marks::of(None)));
            let (reply, _) = lent(state, &list, &packet);
            let sets = packet[0] == 0x55 && reply.status == 0 && packet[8] == 16;
            let due = match sets && !state.power && !state.change {
                true => ModePage::new(list[10], list[11]),
                false => state.mode,
            };
            assert_eq!(reply.next.mode, due, "{packet:02X?} {list:02X?}");
        }
    }
}

/// "only 55h looks at it": any other packet gives the same whatever is lent.
#[test]
fn only_select_looks_at_the_list() {
    let mut rng = Rng::new(23);
    let lists = [vec![], page_list(1, 2).to_vec(), vec![0xFF; 300]];
    for _ in 0..300 {
        let table = any_fit(&mut rng).bytes();
        let marks = Marks::of(read(&table).ok().as_ref());
        for flags in all_flags() {
            let packet = any_packet(&mut rng, &marks);
            let state = with(flags, rng.pick(&TWENTY), rng.byte());
            let [one, two, three] = [0, 1, 2].map(|i| on_with(state, &table, &lists[i], &packet));
            if packet[0] != 0x55 || flags.power || flags.change {
                assert_eq!(one, two, "{packet:02X?}");
                assert_eq!(one, three, "{packet:02X?}");
            }
        }
    }
}

/// 55h and 5Ah leave the play record, tray, disc and lock, and nothing of a play
/// hinders them.
#[test]
fn the_rest_of_the_state_stays() {
    for status in [0x11, 0x12, 0x13, 0x15] {
        for flags in all_flags().filter(|flags| !flags.power && !flags.change) {
            let state = State {
                play: Play::new(status, 160, 290),
                ..with(flags, 0x04, 0x40)
            };
            let (next, _) = served(state, &page_list(0x05, 0x50), &mode_select(16));
            assert_eq!(next, with(state, 0x05, 0x50));
            for control in 0..3 {
                assert_eq!(served(state, &[], &mode_sense(control, 1, 16)).0, state);
            }
        }
    }
}

/// What no packet and no call makes out of a sound state: an unsound page.
#[test]
fn sound_pages_stay_sound() {
    let mut rng = Rng::new(24);
    let (e, mut state, mut set) = (disc_e().bytes(), READY, 0);
    for _ in 0..20_000 {
        let list = any_list(&mut rng);
        let packet = any_mode(&mut rng);
        let before = state.mode;
        state = on_with(state, &e, &list, &packet).0.next;
        assert!(TWENTY.contains(&state.mode.recovery));
        set += usize::from(state.mode != before);
        if rng.one_in(40) {
            state = state.button().unwrap_or(state);
        }
    }
    assert!(set > 1_000, "{set}");
}

/// "kind 13, the parameter list lent from now on; prints nothing; empty at the
/// start": the last one counts, packets leave it, and it is of any length.
#[test]
fn lists_in_a_stream() {
    let mut stream = Stream::new();
    stream.memory(6_538, 0);
    stream.state(State::EMPTY);
    stream.packet(&mode_select(16));
    stream.packet(&mode_select(0));
    stream.list(&page_list(0x01, 0x10));
    stream.list(&page_list(0x05, 0xA3));
    stream.packet(&mode_select(16));
    stream.packet(&mode_select(0));
    stream.packet(&current());
    stream.power_on();
    stream.packet(&test_ready());
    stream.packet(&mode_select(16));
    stream.list(&[]);
    stream.packet(&mode_select(16));
    stream.list(&[0; 8_191]);
    stream.packet(&mode_select(8_191));
    assert_eq!(stream.calls, 10);
    let states = [
        "p 0 02 0 0 0 00000 05 1A 00 15 0 0 00 00 0 -",
        "p 0 00 0 0 0 00000 00 00 00 15 0 0 00 00 0 -",
        "p 0 00 0 0 0 00000 00 00 00 15 0 0 05 A3 0 -",
        "p 0 02 0 0 0 00000 05 1A 00 15 0 0 05 A3 0 -",
        "p 0 00 16 0 0 00000 00 00 00 15 0 0 05 A3 0 000E000000000000010605A300000000",
        "o 0 00010 00 00 00 15 0 0 00 00 0",
        "p 0 02 0 0 0 00000 06 29 00 15 0 0 00 00 0 -",
        "p 0 00 0 0 0 00000 00 00 00 15 0 0 05 A3 0 -",
        "p 0 02 0 0 0 00000 05 1A 00 15 0 0 05 A3 0 -",
        "p 0 02 0 0 0 00000 05 1A 00 15 0 0 05 A3 0 -",
    ];
    let lines = replay::run(&stream.bytes);
    assert_eq!(lines.lines().count(), states.len());
    for (line, due) in lines.lines().zip(states) {
        assert!(line.starts_with(due), "{line}");
    }
}

/// The listing's lines have the form they had, and no list is lent.
#[test]
fn listing_of_the_page() {
    let packets = [
        test_ready(),
        current(),
        mode_sense(1, 1, 12),
        mode_sense(3, 1, 16),
        mode_sense(0, 0x3F, 16),
        mode_select(0),
        mode_select(16),
        mode_sense(2, 1, 255),
    ];
    let lines = listing::print(&disc_e().bytes(), &packets.concat());
    let due = "\
n st key asc ascq len data start count
1 02 06 29 00 0 - 0 0
2 00 00 00 00 16 000E0000000000000106000000000000 0 0
3 00 00 00 00 12 000E000000000000010637FF 0 0
4 02 05 39 00 0 - 0 0
5 02 05 24 00 0 - 0 0
6 00 00 00 00 0 - 0 0
7 02 05 1A 00 0 - 0 0
8 00 00 00 00 16 000E0000000000000106000000000000 0 0
";
    assert_eq!(lines, due);
}

/// The stored listing has both commands too, GOOD and not.
#[test]
fn stored_listing_has_the_page() {
    let files = stored::files();
    let find = |name: &str| &files.iter().find(|(one, _)| one == name).expect("kept").1;
    let packets = find("crates/listing/data/packets");
    let lines = String::from_utf8_lossy(find("crates/listing/stdout"));
    for code in [0x5A, 0x55] {
        let of_code = packets.chunks(12).zip(lines.lines().skip(1));
        let of_code = of_code.filter(|(packet, _)| packet[0] == code);
        let good = of_code
            .clone()
            .filter(|(_, line)| line.contains(" 00 00 00 00 "));
        let (good, all) = (good.count(), of_code.count());
        assert!(good > 3 && all - good > 3, "{code:02X}h {good} of {all}");
    }
}

/// The streams have every one of them often: 5Ah by each page control and of
/// another page, 55h by each outcome, both told or refused, and recovery bytes
/// that 2 covers.
#[test]
fn streams_have_the_page() {
    for stream in [stored::stored_stream(), random_stream(64, 17_000)] {
        let modes = tally::modes(&stream.bytes);
        let [current, changeable, default] = modes.sensed;
        assert!(current > 200 && changeable.min(default) > 30, "{modes:?}");
        assert!(modes.saved.min(modes.other_pages) > 30, "{modes:?}");
        assert!(modes.set > 150 && modes.empty > 25, "{modes:?}");
        assert!(modes.lengths.min(modes.lists) > 100, "{modes:?}");
        assert!(modes.other > 150 && modes.unsound > 30, "{modes:?}");
    }
}

/// The 55h of a stream, each with the list lent to it, and the recovery bytes of
/// kind 0 that a call meets.
struct Asked {
    /// The packet's length and the list.
    selects: Vec<(u16, Vec<u8>)>,
    controls: BTreeSet<u8>,
    held: BTreeSet<u8>,
    lengths: BTreeSet<u16>,
}

fn asked(stream: &[u8]) -> Asked {
    let mut asked = Asked {
        selects: Vec::new(),
        controls: BTreeSet::new(),
        held: BTreeSet::new(),
        lengths: BTreeSet::new(),
    };
    let (mut rest, mut list) = (stream, Vec::new());
    while let Ok((kind, body, after)) = take_record(rest) {
        rest = after;
        match (kind, body.first()) {
            (replay::LIST, _) => list = body.to_vec(),
            (replay::STATE, _) => drop(asked.held.insert(body[17])),
            (replay::PACKET, Some(0x55)) if body.len() == 12 => {
                let length = u16::from_be_bytes([body[7], body[8]]);
                asked.selects.push((length, list.clone()));
            }
            (replay::PACKET, Some(0x5A)) if body.len() == 12 => {
                asked.controls.insert(body[2]);
                asked.lengths.insert(u16::from_be_bytes([body[7], body[8]]));
            }
            _ => {}
        }
    }
    asked
}

/// The stored stream has every recovery byte, by 55h and by kind 0, every byte 2 of
/// 5Ah, and the lengths of lists, packets and allocations next to what counts.
#[test]
fn stored_stream_has_every_boundary() {
    let asked = asked(&stored::stored_stream().bytes);
    let all: BTreeSet<u8> = (0..=255).collect();
    assert_eq!((&asked.held, &asked.controls), (&all, &all));
    let of_16 = |list: &[u8], length| length == 16 && list.len() == 16;
    let pages = asked.selects.iter().filter(|(n, list)| of_16(list, *n));
    let recoveries: BTreeSet<u8> = pages.clone().map(|(_, list)| list[10]).collect();
    assert_eq!(recoveries, all);
    for begins in [[0x81, 0x06], [0x01, 0x0A], [0x01, 0x05]] {
        assert!(pages.clone().any(|(_, list)| list[8..10] == begins));
    }
    for place in (0..8).chain(12..16) {
        for bit in 0..8 {
            let set = |list: &[u8]| list[place] == 1 << bit;
            assert!(pages.clone().any(|(_, list)| set(list)), "{place} {bit}");
        }
    }
    let pairs: BTreeSet<(u16, usize)> = asked
        .selects
        .iter()
        .map(|(length, list)| (*length, list.len()))
        .collect();
    for lent in [0, 1, 7, 8, 9, 12, 15, 16, 17, 24, 32, 272, 8_191] {
        for length in [0, 8, 15, 16, 17, 256, 4_096, 65_535] {
            assert!(pairs.contains(&(length, lent)), "{length} {lent}");
        }
    }
    for length in (0..=17).chain([255, 256, 65_535]) {
        assert!(asked.lengths.contains(&length), "{length}");
    }
}

/// The marked results stand in the stored stream as they are picked.
#[test]
fn the_marked_list_is_stored() {
    let mut stream = Stream::new();
    picked_mode::marked_mode(&mut stream);
    let stored = stored::stored_stream().bytes;
    let whole = stored.windows(stream.bytes.len());
    assert_eq!(whole.filter(|part| *part == stream.bytes).count(), 1);
    let lines = replay::run(&stream.bytes);
    let good = lines.lines().filter(|line| line.starts_with("p 0 00 "));
    assert_eq!((good.count(), lines.lines().count()), (8, 21));
}

/// What `tally` counts of a small stream, and how it prints it.
#[test]
fn tally_counts_the_page() {
    let mut stream = Stream::new();
    stream.memory(6_538, 0);
    stream.packet(&current());
    stream.state(State::EMPTY.power_on_without_change());
    for control in [0, 0, 1, 2, 2, 2, 3] {
        stream.packet(&mode_sense(control, 1, 16));
    }
    stream.packet(&mode_sense(3, 2, 16));
    stream.packet(&mode_select(0));
    stream.packet(&mode_select(7));
    stream.list(&page_list(0x07, 1));
    stream.packet(&mode_select(16));
    stream.packet(&mode_select(0));
    stream.list(&page_list(0x08, 1));
    stream.packet(&mode_select(16));
    stream.packet(&mode_select(16)[..11]);
    stream.state(with(State::EMPTY, 0x08, 0));
    stream.packet(&current());
    stream.button();
    stream.power_on();
    let due = Modes {
        sensed: [1, 1, 3],
        saved: 1,
        other_pages: 1,
        set: 1,
        empty: 1,
        lengths: 2,
        lists: 1,
        // 2 by the play record, an attention, 2 by the recovery byte
        other: 3,
        unsound: 2,
    };
    assert_eq!(tally::modes(&stream.bytes), due);
    let tail = "\
5Ah current changeable default saved other-page
5Ah 1 1 3 1 1
55h set empty wrong-length wrong-list
55h 1 1 2 1
mode other unsound
mode 3 2
";
    assert!(tally::print(&stream.bytes).contains(tail));
}
