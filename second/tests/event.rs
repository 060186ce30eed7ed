//! K7: "The lab polls for events." GET EVENT STATUS NOTIFICATION, the media event
//! in the state and what makes, keeps or clears it, the press that 5 refuses, and
//! that the streams have all of it often.

mod common;

use std::collections::BTreeSet;

use common::{both, number_of, on, on_e, told};
use second::cases::bad::random_stream;
use second::cases::packets::*;
use second::cases::picked_event;
use second::cases::picked_state::all_flags;
use second::cases::sheet::disc_e;
use second::cases::stream::Stream;
use second::drive::State;
use second::limits::BOUND;
use second::mode_page::ModePage;
use second::packet::{perform, Reply};
use second::play::Play;
use second::refusal::Refusal;
use second::replay::{self, take_record};
use second::rng::Rng;
use second::sense::{Sense, TRIPLES};
use second::tally::{self, Events};
use second::{listing, stored};

const READY: State = State::READY;

const BAD_FIELD: Sense = Sense::new(5, 0x24, 0);

/// This state with this event.
fn with(state: State, event: u8) -> State {
    State { event, ..state }
}

/// The four ways for tray and disc to stand, no event waiting.
fn places() -> [State; 4] {
    [
        READY,
        State::EMPTY,
        with(READY.opened(), 0),
        State::EMPTY.opened(),
    ]
}

fn locked(state: State) -> State {
    State {
        lock: true,
        ..state
    }
}

/// 4Ah of both classes, the whole answer.
fn poll() -> Packet {
    event_status(0x18, 8)
}

/// 4Ah with the Polled bit clear.
fn not_polled(classes: u8, length: u16) -> Packet {
    let mut p = event_status(classes, length);
    p[1] = 0;
    p
}

/// What a GOOD packet on Table E leaves, and its bytes.
fn served(state: State, packet: &[u8]) -> (State, Vec<u8>) {
    let (reply, memory) = on_e(state, packet);
    assert_eq!((reply.refusal, reply.status), (None, 0), "{packet:02X?}");
    assert_eq!((reply.start, reply.count), (0, 0));
    (reply.next, memory[..reply.length].to_vec())
}

/// A failing packet changes the held sense alone, and writes nothing.
fn fails(state: State, packet: &[u8], triple: Sense) {
    let (reply, _) = on_e(state, packet);
    assert_eq!((reply.refusal, reply.status), (None, 2), "{packet:02X?}");
    let sense = triple;
    assert_eq!(reply.next, State { sense, ..state }, "{packet:02X?}");
}

/// The bytes that are due by 02's words: the class by going through the supported
/// ones from the lowest, those with an event waiting first.
fn due(state: State, classes: u8) -> Vec<u8> {
    let asked = |class: &&u8| classes >> **class & 1 == 1;
    let waits = |class: &&u8| **class == 4 && state.event != 0;
    let supported = [3, 4];
    let waiting = supported.iter().filter(asked).find(waits);
    match waiting.or(supported.iter().find(asked)) {
        None => vec![0x00, 0x02, 0x80, 0x18],
        Some(3) => vec![0x00, 0x06, 3, 0x18, 0, 0, 0, 0],
        Some(_) => {
            let status = match (state.disc_in, state.tray_open) {
                (false, false) => 0,
                (false, true) => 1,
                (true, false) => 2,
                (true, true) => 3,
            };
            vec![0x00, 0x06, 4, 0x18, state.event, status, 0, 0]
        }
    }
}

/// Whether 4Ah of these classes and this length clears the event.
fn clears(state: State, classes: u8, length: u16) -> bool {
    due(state, classes)[2] == 4 && length >= 5
}

/// The nine marks of the lab on Disc E, each with the bytes given, the sense held
/// and the event left.
#[test]
fn marked_results() {
    let external = vec![0x00, 0x06, 0x03, 0x18, 0, 0, 0, 0];
    let zeros = served(READY, &poll());
    assert_eq!(zeros, (READY, external.clone()));
    // A loading, told.
    let loading = READY.opened().button().expect("it closes");
    let loading = on_e(loading, &test_ready()).0.next;
    assert_eq!(loading.sense, Sense::new(6, 0x28, 0));
    let bytes = vec![0x00, 0x06, 0x04, 0x18, 0x02, 0x02, 0, 0];
    let told = (with(loading, 0), bytes.clone());
    assert_eq!(served(loading, &poll()), told);
    let alone = served(loading, &event_status(0x08, 8));
    assert_eq!(alone, (loading, external));
    let four = served(loading, &event_status(0x18, 4));
    assert_eq!(four, (loading, bytes[..4].to_vec()));
    let five = served(loading, &event_status(0x18, 5));
    assert_eq!(five, (with(loading, 0), bytes[..5].to_vec()));
    let none = served(loading, &event_status(0x01, 8));
    assert_eq!(none, (loading, vec![0x00, 0x02, 0x80, 0x18]));
    fails(loading, &not_polled(0x18, 8), BAD_FIELD);
    let locked = locked(loading);
    assert_eq!(locked.button(), Err(Refusal::Locked));
    assert_eq!(locked.pressed(), with(locked, 1));
    let opened = on_e(READY, &start_stop(EJECT)).0.next;
    assert_eq!(opened, with(READY.opened(), 3));
    assert_eq!(served(opened, &poll()).1[4..6], [0x03, 0x03]);
}

/// "The class answered is the lowest set bit of the classes both asked for and
/// supported that have an event waiting, or of all those where none has": all 256
/// class bytes with each event, in each place.
#[test]
fn every_class_byte() {
    for place in places() {
        for event in 0..4 {
            let state = with(place, event);
            for classes in 0..=255 {
                let (next, bytes) = served(state, &event_status(classes, 8));
                assert_eq!(bytes, due(state, classes), "{classes:02X}");
                let left = if bytes[2] == 4 { 0 } else { event };
                assert_eq!(next, with(state, left), "{classes:02X}");
            }
        }
    }
}

/// Asked 18h: media where an event waits, else external. Asked 08h: external, and a
/// waiting event stays. Asked 10h: media, event 0 where none waits. Other bits of
/// the byte are of classes that are not supported.
#[test]
fn which_class_is_answered() {
    for (classes, event, class) in [
        (0x18, 0, 3),
        (0x18, 1, 4),
        (0x18, 2, 4),
        (0x18, 3, 4),
        (0x08, 0, 3),
        (0x08, 2, 3),
        (0x10, 0, 4),
        (0x10, 3, 4),
        (0xFF, 0, 3),
        (0xFF, 1, 4),
        (0xEF, 1, 3),
        (0xF7, 0, 4),
        (0x00, 2, 0x80),
        (0xE7, 2, 0x80),
        (0x01, 0, 0x80),
        (0x02, 0, 0x80),
        (0x04, 0, 0x80),
        (0x20, 0, 0x80),
        (0x40, 0, 0x80),
        (0x80, 0, 0x80),
    ] {
        let (next, bytes) = served(with(READY, event), &event_status(classes, 8));
        assert_eq!(bytes[2], class, "{classes:02X}");
        assert_eq!(next.event, if class == 4 { 0 } else { event });
    }
}

/// "00 06, class, 18, event, status (bit 1 disc in, bit 0 tray open), 00 00; the
/// class external always reports zeros. With none supported: 00 02 80 18."
#[test]
fn the_bytes() {
    for (place, status) in places().into_iter().zip([0x02, 0x00, 0x03, 0x01]) {
        for event in 0..4 {
            let state = with(place, event);
            let media = served(state, &event_status(0x10, 8)).1;
            assert_eq!(media, [0x00, 0x06, 0x04, 0x18, event, status, 0x00, 0x00]);
            let external = served(state, &event_status(0x08, 8)).1;
            assert_eq!(external, [0x00, 0x06, 0x03, 0x18, 0, 0, 0, 0]);
            let none = served(state, &event_status(0x00, 8)).1;
            assert_eq!(none, [0x00, 0x02, 0x80, 0x18]);
        }
    }
}

/// "the bytes are the first n of the full answer": the length inside is never cut,
/// memory past n stays (`on_e` looks). "A media answer of at least five bytes clears
/// the event": of the bytes given.
#[test]
fn lengths_cut_and_clear() {
    for classes in [0x10, 0x18, 0x08, 0x00] {
        for event in 0..4 {
            let state = with(READY, event);
            let full = due(state, classes);
            for length in (0..=300).chain([0x0400, 0x0500, 0x0800, 0xFFFF]) {
                let (next, bytes) = served(state, &event_status(classes, length));
                assert_eq!(bytes, full[..full.len().min(length.into())], "{length}");
                let left = if clears(state, classes, length) {
                    0
                } else {
                    event
                };
                assert_eq!(next, with(state, left), "{classes:02X} {length}");
            }
        }
    }
}

/// What the next 4Ah tells: the event until an answer of five bytes gave it.
#[test]
fn told_until_five_bytes() {
    let state = with(READY.opened(), 3);
    for length in 0..5 {
        let (next, _) = served(state, &event_status(0x18, length));
        assert_eq!(next, state);
        assert_eq!(served(next, &poll()).1, [0, 6, 4, 0x18, 3, 3, 0, 0]);
    }
    for length in 5..10 {
        let (next, _) = served(state, &event_status(0x18, length));
        assert_eq!(next, with(state, 0));
        assert_eq!(served(next, &poll()).1, [0, 6, 3, 0x18, 0, 0, 0, 0]);
        let media = served(next, &event_status(0x10, 8)).1;
        assert_eq!(media, [0, 6, 4, 0x18, 0, 3, 0, 0]);
    }
}

/// "Polled bit clear is 05/24/00": bit 0 of byte 1 alone, whatever classes and
/// length; the event stays.
#[test]
fn polled_is_one_bit() {
    for event in 0..4 {
        let state = with(READY, event);
        for byte_1 in 0..=255 {
            let mut packet = poll();
            packet[1] = byte_1;
            if byte_1 & 1 == 0 {
                fails(state, &packet, BAD_FIELD);
            } else {
                assert_eq!(served(state, &packet), served(state, &poll()));
            }
        }
        for classes in 0..=255 {
            for length in [0, 4, 5, 8, 0xFFFF] {
                fails(state, &not_polled(classes, length), BAD_FIELD);
            }
        }
    }
}

/// 4Ah looks at byte 1 bit 0, byte 4 and bytes 7 to 8; the length is high byte
/// first.
#[test]
fn other_bits_of_the_packet() {
    let state = with(READY, 2);
    for packet in [poll(), event_status(0x08, 8), event_status(0x00, 8)] {
        let asked = on_e(state, &packet);
        for bit in 8..96 {
            let mut turned = packet;
            turned[bit / 8] ^= 0x80 >> (bit % 8);
            if ![1, 4, 7, 8].contains(&(bit / 8)) || (8..15).contains(&bit) {
                assert_eq!(on_e(state, &turned), asked, "{bit}");
            }
        }
        let mut full = packet;
        for (byte, named) in full.iter_mut().zip(named_bits(0x4A)) {
            *byte |= !named;
        }
        assert_eq!(on_e(state, &full), asked);
    }
    let mut swapped = poll();
    swapped[7..9].copy_from_slice(&[8, 0]);
    assert_eq!(served(state, &swapped), served(state, &poll()));
    swapped[7..9].copy_from_slice(&[1, 3]);
    assert_eq!(served(state, &swapped), served(state, &poll()));
}

/// "It is performed while an attention is pending, tells none": both stay, and are
/// told by what comes behind it, power first. So too where its field is refused.
#[test]
fn performed_while_pending() {
    for flags in all_flags() {
        for event in 0..4 {
            let state = with(flags, event);
            let (next, bytes) = served(state, &poll());
            assert_eq!(bytes, due(state, 0x18));
            assert_eq!((next.power, next.change), (flags.power, flags.change));
            assert_eq!(next, with(state, if event == 0 { event } else { 0 }));
            fails(state, &not_polled(0x18, 8), BAD_FIELD);
            let ready = on_e(next, &test_ready()).0.next;
            if flags.power {
                assert_eq!(ready.sense, Sense::new(6, 0x29, 0));
                assert_eq!(served(ready, &poll()).0, ready);
            } else if flags.change {
                assert_eq!(ready.sense, Sense::new(6, 0x28, 0));
            }
        }
    }
}

/// It "leaves the sense when GOOD", any of the thirteen, cut or not, whatever the
/// class; a fault holds its own.
#[test]
fn the_sense_is_left() {
    for held in TRIPLES {
        for place in places() {
            let state = State {
                sense: held,
                ..with(place, 1)
            };
            for classes in [0x00, 0x08, 0x10, 0x18, 0xFF] {
                for length in [0, 4, 5, 8] {
                    let (next, _) = served(state, &event_status(classes, length));
                    assert_eq!(next.sense, held);
                }
            }
            fails(state, &not_polled(0x18, 8), BAD_FIELD);
        }
    }
}

/// It needs no disc: 1, 2, 3, and 4 where loaded, come before it as before any
/// packet, and leave the event.
#[test]
fn refusals_come_before() {
    let (fit, unfit) = (disc_e().bytes(), &disc_e().bytes()[..58]);
    for packet in [poll(), not_polled(0x18, 8)] {
        for place in places() {
            let state = with(place, 2);
            let due = if place.loaded() { (4, 1) } else { (0, 0) };
            assert_eq!(told(state, unfit, &packet), due);
            let mut memory = vec![7; BOUND - 1];
            let reply = perform(state, &fit, &[], &packet, &mut memory);
            assert_eq!((both(reply.refusal), reply.next), ((3, 0), state));
            assert_eq!(memory, vec![7; BOUND - 1]);
            assert_eq!(told(state, &fit, &packet[..11]), (1, 0));
        }
    }
    for place in &places()[1..] {
        let (reply, _) = on(with(*place, 3), unfit, &poll());
        assert_eq!((reply.status, reply.next.event), (0, 0));
    }
}

/// 2 "also covers an event over 3": every call but power-on, which clears it.
#[test]
fn two_covers_the_event() {
    let e = disc_e().bytes();
    for event in 0..=255 {
        let due = if event > 3 { 2 } else { 0 };
        let (closed, open) = (with(READY, event), with(READY.opened(), event));
        let bare = with(State::EMPTY.opened(), event);
        for packet in one_of_each() {
            assert_eq!(told(closed, &e, &packet).0, due, "{event} {packet:02X?}");
        }
        assert_eq!(number_of(&closed.button()), due);
        assert_eq!(number_of(&closed.move_on(1)), due);
        assert_eq!(number_of(&open.lift()), due);
        assert_eq!(number_of(&bare.lay()), due);
        for next in [closed.power_on(), bare.power_on_without_change()] {
            assert_eq!(next.event, 0);
        }
    }
}

/// 2 by the event stands in its place: behind 1, before 3 to 7; a press under lock
/// then changes nothing. Any of the four parts that 2 tests is enough.
#[test]
fn event_in_its_place() {
    let bad = locked(with(READY, 4));
    for table in [disc_e().bytes(), vec![0; 4]] {
        for size in [BOUND - 1, BOUND] {
            for (length, due) in [(11, 1), (12, 2), (13, 1)] {
                let mut memory = vec![7; size];
                let reply = perform(bad, &table, &[], &[0; 13][..length], &mut memory);
                assert_eq!((both(reply.refusal), reply.next), ((due, 0), bad));
            }
        }
    }
    for place in places() {
        let bad = locked(with(place, 4));
        assert_eq!(number_of(&bad.button()), 2);
        assert_eq!(bad.pressed(), bad);
        assert_eq!((number_of(&bad.lay()), number_of(&bad.lift())), (2, 2));
    }
    for unknown in [
        State {
            sense: Sense::new(5, 0x24, 1),
            ..READY
        },
        State {
            play: Play::new(0, 0, 0),
            ..READY
        },
        State {
            mode: ModePage::new(0x36, 0),
            ..READY
        },
        with(READY, 4),
    ] {
        let unknown = locked(unknown);
        assert_eq!(unknown.button(), Err(Refusal::UnsoundState));
        assert_eq!(unknown.pressed(), unknown);
        assert_eq!(told(unknown, &disc_e().bytes(), &poll()), (2, 0));
    }
}

/// "2 loading, 3 opening with a disc": by button and by packet alike, whatever
/// event was there. An opening or closing without a disc leaves it, and so does
/// what moves no tray.
#[test]
fn what_the_tray_makes() {
    for event in 0..4 {
        for place in places() {
            let state = with(place, event);
            let moved = match (place.tray_open, place.disc_in) {
                (true, true) => 2,
                (false, true) => 3,
                _ => event,
            };
            assert_eq!(state.button().map(|next| next.event), Ok(moved));
            assert_eq!(state.pressed().event, moved);
            for (bits, moves) in [(EJECT, !place.tray_open), (LOAD, place.tray_open)] {
                let (next, _) = served(state, &start_stop(bits));
                assert_eq!(next.event, if moves { moved } else { event });
                assert_eq!(next.tray_open, place.tray_open != moves);
            }
            assert_eq!(served(state, &start_stop(0)).0, state);
            assert_eq!(on_e(state, &start_stop(1)).0.next.event, event);
            for next in [state.lay(), state.lift()] {
                assert_eq!(next.unwrap_or(state).event, event);
            }
        }
    }
}

/// "A press under refusal 5 now changes that event only": closed and locked, with a
/// disc or without, whatever else the state holds. Open, the lock stops nothing.
#[test]
fn press_under_lock() {
    for flags in all_flags().filter(|flags| flags.lock) {
        for event in 0..4 {
            for held in TRIPLES {
                let state = State {
                    sense: held,
                    play: Play::new(0x11, 150, 290),
                    mode: ModePage::new(0x27, 0x72),
                    ..with(flags, event)
                };
                if state.tray_open {
                    assert_eq!(state.button(), Ok(state.closed()));
                    assert_eq!(state.pressed(), state.closed());
                    continue;
                }
                assert_eq!(number_of(&state.button()), 5);
                assert_eq!(state.pressed(), with(state, 1));
                assert_eq!(state.pressed().pressed(), with(state, 1));
                let (next, bytes) = served(state.pressed(), &event_status(0x10, 8));
                assert_eq!(bytes[4..6], [1, if flags.disc_in { 2 } else { 0 }]);
                assert_eq!(next, with(state, 0));
            }
        }
    }
}

/// No other refusal changes the event, or anything else: a press of an unknown
/// state, laying, lifting, the outside call, and packets.
#[test]
fn other_refusals_leave_the_event() {
    let calls: [fn(&mut Stream); 5] = [
        Stream::button,
        Stream::lay,
        Stream::lift,
        |stream| stream.move_on(1),
        |stream| stream.packet(&poll()),
    ];
    let mut refused = 0;
    for event in 0..=255 {
        for flags in all_flags() {
            let state = with(flags, event);
            for call in calls {
                // No memory is lent, so 3 refuses the packet where 2 does not.
                let mut stream = Stream::new();
                stream.state(state);
                call(&mut stream);
                let line = replay::run(&stream.bytes);
                let number = line.split(' ').nth(1).expect("a number");
                let handed = state_in(line.trim_end());
                let left = if number == "5" { 1 } else { event };
                if number != "0" {
                    refused += 1;
                    let [tray, disc] = [flags.tray_open, flags.disc_in].map(u8::from);
                    assert_eq!(handed, Some([tray, disc, left]), "{line}");
                }
            }
        }
    }
    assert!(refused > 252 * 32 * 5, "{refused}");
}

/// "an eject packet under lock is no press": 05/53/02, and the event stays, with a
/// disc in or not.
#[test]
fn eject_under_lock_is_no_press() {
    for event in 0..4 {
        for place in [READY, State::EMPTY] {
            let state = locked(with(place, event));
            fails(state, &start_stop(EJECT), Sense::new(5, 0x53, 2));
            let (open, _) = served(locked(state.opened()), &start_stop(EJECT));
            assert_eq!(open, locked(state.opened()));
        }
    }
}

/// "power-on clears it": both forms, of any handed event, and makes none, loaded or
/// not.
#[test]
fn power_on_clears_the_event() {
    for flags in all_flags() {
        for event in 0..=255 {
            let state = with(flags, event);
            for next in [state.power_on(), state.power_on_without_change()] {
                assert_eq!(next.event, 0);
                assert_eq!(served(next, &poll()).1[2], 3);
            }
        }
    }
}

/// A later event takes the place of an earlier one, each after each.
#[test]
fn the_latest_is_kept() {
    let press = |state: State| State {
        lock: false,
        ..locked(state).pressed()
    };
    let button = |state: State| state.button().expect("it moves");
    let eject = |state: State| served(state, &start_stop(EJECT)).0;
    let load = |state: State| served(state, &start_stop(LOAD)).0;
    for (state, latest) in [
        (press(READY), 1),
        (button(press(READY)), 3),
        (eject(press(READY)), 3),
        (button(eject(press(READY))), 2),
        (load(button(READY)), 2),
        (press(load(eject(READY))), 1),
        (press(button(button(READY))), 1),
        (button(press(load(eject(READY)))), 3),
        (press(with(State::EMPTY, 3)), 1),
        (button(press(State::EMPTY)), 1),
        (press(button(with(State::EMPTY.opened(), 2))), 1),
    ] {
        assert_eq!(state.event, latest);
        let state = State {
            power: false,
            change: false,
            ..state
        };
        let (next, bytes) = served(state, &poll());
        assert_eq!((next.event, bytes[4]), (0, latest));
        assert_eq!(served(next, &poll()).1[2], 3);
    }
}

/// What was called, as far as the event is concerned.
#[derive(Debug)]
enum Made {
    PowerOn,
    Press,
    Packet(Packet, Reply),
    Other,
}

/// One of the calls on the drive, and the state that it hands back.
fn any_call(rng: &mut Rng, state: State, e: &[u8]) -> (State, Made) {
    match rng.below(15) {
        0 => (state.power_on(), Made::PowerOn),
        1 => (state.power_on_without_change(), Made::PowerOn),
        2..=4 => (state.pressed(), Made::Press),
        5 => (state.lay().unwrap_or(state), Made::Other),
        6 => (state.lift().unwrap_or(state), Made::Other),
        7 => (state.move_on(9).unwrap_or(state), Made::Other),
        n => {
            let packet = match n {
                8 => rng.pick(&one_of_each()),
                9 => any_event_status(rng),
                // The lock, so that a press is often refused.
                10..=12 => prevent(1),
                _ => any_packet(rng, &Marks::of(None)),
            };
            let (reply, _) = on(state, e, &packet);
            (reply.next, Made::Packet(packet, reply))
        }
    }
}

/// Over long runs the event is the latest of the three that came after the last
/// power-on and the last media answer of five bytes: kept here from what each call
/// shows. So it stays one that 2 takes.
#[test]
fn event_from_the_history() {
    let (mut rng, e) = (Rng::new(31), disc_e().bytes());
    let (mut state, mut latest) = (READY.power_on(), 0);
    let mut met = [0; 4];
    for _ in 0..60_000 {
        let before = state;
        let (next, made) = any_call(&mut rng, before, &e);
        let moved = before.tray_open != next.tray_open;
        match made {
            Made::PowerOn => latest = 0,
            Made::Press if before.lock && !before.tray_open => latest = 1,
            _ if moved && before.disc_in => latest = if next.tray_open { 3 } else { 2 },
            Made::Packet(packet, reply) if packet[0] == 0x4A && reply.status == 0 => {
                if due(before, packet[4])[2] == 4 && reply.length >= 5 {
                    latest = 0;
                }
            }
            _ => {}
        }
        assert_eq!(next.event, latest, "{before:?} {made:02X?}");
        met[usize::from(latest)] += 1;
        state = next;
    }
    assert!(met.iter().all(|&times| times > 3_000), "{met:?}");
}

/// Only 4Ah and a packet that moves the tray change the event.
#[test]
fn other_packets_leave_the_event() {
    let mut rng = Rng::new(32);
    for flags in all_flags() {
        for event in 0..4 {
            let state = with(flags, event);
            for _ in 0..100 {
                let packet = any_packet(&mut rng, &Marks::of(None));
                let next = on_e(state, &packet).0.next;
                if packet[0] != 0x4A && next.tray_open == flags.tray_open {
                    assert_eq!(next.event, event, "{packet:02X?}");
                }
            }
        }
    }
}

/// 4Ah leaves everything else: tray, disc, lock, attentions, play record and page.
#[test]
fn the_rest_of_the_state_stays() {
    let mut rng = Rng::new(33);
    for flags in all_flags() {
        for held in TRIPLES {
            let state = State {
                sense: held,
                play: Play::new(0x13, 160, 290),
                mode: ModePage::new(0x30, 0x99),
                ..with(flags, rng.byte() % 4)
            };
            let packet = any_event_status(&mut rng);
            let next = on_e(state, &packet).0.next;
            let left = State {
                sense: if packet[1] & 1 == 1 { held } else { BAD_FIELD },
                event: next.event,
                ..state
            };
            assert_eq!(next, left, "{packet:02X?}");
        }
    }
}

/// STATE's last word is the event, and a refused press prints 5 and event 1.
#[test]
fn events_in_a_stream() {
    let mut stream = Stream::new();
    stream.memory(6_538, 0);
    stream.table(&disc_e().bytes());
    stream.button();
    stream.state(with(READY, 2));
    stream.packet(&event_status(0x10, 4));
    stream.packet(&not_polled(0x10, 4));
    stream.packet(&poll());
    stream.state(locked(READY));
    stream.button();
    stream.packet(&start_stop(EJECT));
    stream.state(with(READY, 200));
    stream.button();
    stream.packet(&poll());
    stream.power_on_without_change();
    let lines = [
        "b 2 00000 00 00 00 00 0 0 00 00 0",
        "p 0 00 4 0 0 01000 00 00 00 15 0 0 00 00 2 00060418 ",
        "p 0 02 0 0 0 01000 05 24 00 15 0 0 00 00 2 - ",
        "p 0 00 8 0 0 01000 05 24 00 15 0 0 00 00 0 0006041802020000 ",
        "b 5 01100 00 00 00 15 0 0 00 00 1",
        "p 0 02 0 0 0 01100 05 53 02 15 0 0 00 00 1 - ",
        "b 2 01000 00 00 00 15 0 0 00 00 200",
        "p 2 00 0 0 0 01000 00 00 00 15 0 0 00 00 200 - ",
        "q 0 01010 00 00 00 15 0 0 00 00 0",
    ];
    let printed = replay::run(&stream.bytes);
    assert_eq!(printed.lines().count(), lines.len());
    for (line, due) in printed.lines().zip(lines) {
        assert!(line.starts_with(due), "{line}");
    }
}

/// The listing's lines have the form they had; its power-on leaves no event.
#[test]
fn listing_of_the_event() {
    let packets = [
        poll(),
        test_ready(),
        poll(),
        start_stop(EJECT),
        event_status(0x18, 4),
        poll(),
        start_stop(LOAD),
        not_polled(0x18, 8),
        event_status(0x10, 255),
        event_status(0x80, 255),
    ];
    let lines = listing::print(&disc_e().bytes(), &packets.concat());
    let due = "\
n st key asc ascq len data start count
1 00 00 00 00 8 0006031800000000 0 0
2 02 06 29 00 0 - 0 0
3 00 06 29 00 8 0006031800000000 0 0
4 00 00 00 00 0 - 0 0
5 00 00 00 00 4 00060418 0 0
6 00 00 00 00 8 0006041803030000 0 0
7 00 00 00 00 0 - 0 0
8 02 05 24 00 0 - 0 0
9 00 05 24 00 8 0006041802020000 0 0
10 00 05 24 00 4 00028018 0 0
";
    assert_eq!(lines, due);
}

/// The stored listing has 4Ah too, of each class and with the Polled bit clear.
#[test]
fn stored_listing_has_the_event() {
    let files = stored::files();
    let find = |name: &str| &files.iter().find(|(one, _)| one == name).expect("kept").1;
    let packets = find("crates/listing/data/packets");
    let lines = String::from_utf8_lossy(find("crates/listing/stdout"));
    for answer in [" 00060318", " 0006041802", " 0006041803", " 00028018", " -"] {
        let of_code = packets.chunks(12).zip(lines.lines().skip(1));
        let found = of_code.filter(|(packet, line)| packet[0] == 0x4A && line.contains(answer));
        assert!(found.count() > 0, "{answer}");
    }
}

/// The streams have every one of them often: 4Ah by class and event, cut, cleared
/// and kept, with the Polled bit clear, refused, presses under lock with a disc and
/// without, and events that 2 covers.
#[test]
fn streams_have_events() {
    for stream in [stored::stored_stream(), random_stream(72, 20_000)] {
        let events = tally::events(&stream.bytes);
        assert!(events.media.iter().all(|&times| times > 40), "{events:?}");
        assert!(events.external > 150 && events.none > 60, "{events:?}");
        assert!(events.short.min(events.kept) > 20, "{events:?}");
        assert!(events.cleared > 150, "{events:?}");
        assert!(events.not_polled.min(events.refused) > 60, "{events:?}");
        let [disc, none] = events.presses;
        assert!(disc.min(none) > 30 && events.unsound > 40, "{events:?}");
    }
}

/// The 4Ah of a stream with the state that meets it, and the events handed over.
struct Polls {
    /// The packet, and tray, disc and event that it meets.
    asked: Vec<(Packet, Option<[u8; 3]>)>,
    held: BTreeSet<u8>,
}

/// The state in a body of kind 0 or in a line: tray, disc and event.
fn state_of(body: &[u8]) -> [u8; 3] {
    [body[0], body[1], body[19]]
}

fn state_in(line: &str) -> Option<[u8; 3]> {
    let words: Vec<&str> = line.split(' ').collect();
    let from = match words[0] {
        "o" | "q" | "b" | "d" | "u" | "m" | "O" | "Q" | "M" => 2,
        "p" | "P" => 6,
        _ => return None,
    };
    let digits = words[from].as_bytes();
    let event = words[from + 9].parse().expect("a decimal");
    Some([digits[0] - b'0', digits[1] - b'0', event])
}

fn polls(stream: &[u8]) -> Polls {
    let lines = replay::run(stream);
    let mut lines = lines.lines();
    let (mut rest, mut state) = (stream, None);
    let mut polls = Polls {
        asked: Vec::new(),
        held: BTreeSet::new(),
    };
    while let Ok((kind, body, after)) = take_record(rest) {
        rest = after;
        if kind == replay::STATE && body.len() == replay::STATE_BYTES {
            state = Some(state_of(body));
            polls.held.insert(body[19]);
        }
        if !replay::is_call(kind) {
            continue;
        }
        if let (replay::PACKET, Ok(packet)) = (kind, Packet::try_from(body)) {
            if packet[0] == 0x4A {
                polls.asked.push((packet, state));
            }
        }
        state = lines.next().and_then(state_in).or(state);
    }
    polls
}

/// The stored stream has every class byte with and without an event waiting, every
/// event handed over, the lengths next to what counts for each class, and each
/// event in each place.
#[test]
fn stored_stream_has_every_boundary() {
    let polls = polls(&stored::stored_stream().bytes);
    let all: BTreeSet<u8> = (0..=255).collect();
    assert_eq!(polls.held, all);
    for waiting in [false, true] {
        let classes = polls.asked.iter().filter(|(packet, state)| {
            packet[1] & 1 == 1 && state.is_some_and(|[.., event]| (event != 0) == waiting)
        });
        let classes: BTreeSet<u8> = classes.map(|(packet, _)| packet[4]).collect();
        assert_eq!(classes, all);
    }
    let has = |classes: u8, length: u16, place: [u8; 3]| {
        polls.asked.iter().any(|(packet, state)| {
            let same = u16::from_be_bytes([packet[7], packet[8]]) == length;
            same && packet[..5] == [0x4A, 1, 0, 0, classes] && *state == Some(place)
        })
    };
    for length in (0..10).chain([255, 256, 65_535]) {
        for classes in [0x00, 0x08, 0x10, 0x18] {
            assert!(has(classes, length, [0, 1, 3]), "{classes:02X} {length}");
        }
    }
    for event in 0..4 {
        for (tray, disc) in [(0, 0), (0, 1), (1, 0), (1, 1)] {
            assert!(has(0x10, 8, [tray, disc, event]), "{tray}{disc} {event}");
            assert!(has(0x08, 8, [tray, disc, event]), "{tray}{disc} {event}");
        }
    }
    for bit in (8..15).chain(16..32).chain(40..56).chain(72..96) {
        let set = |packet: &Packet| packet[bit / 8] == 0x80 >> (bit % 8) | packet[bit / 8] & 1;
        let found = polls.asked.iter().any(|(packet, _)| set(packet));
        assert!(found, "{bit}");
    }
}

/// The marked results stand in the stored stream as they are picked.
#[test]
fn the_marked_list_is_stored() {
    let mut stream = Stream::new();
    picked_event::marked_event(&mut stream);
    let stored = stored::stored_stream().bytes;
    let whole = stored.windows(stream.bytes.len());
    assert_eq!(whole.filter(|part| *part == stream.bytes).count(), 1);
    let lines = replay::run(&stream.bytes);
    let good = lines.lines().filter(|line| line.starts_with("p 0 00 "));
    assert_eq!((good.count(), lines.lines().count()), (15, 27));
}

/// What `tally` counts of a small stream, and how it prints it.
#[test]
fn tally_counts_events() {
    let mut stream = Stream::new();
    stream.memory(6_538, 0);
    stream.table(&disc_e().bytes());
    stream.packet(&poll());
    stream.state(READY);
    for length in [8, 3, 2, 0] {
        stream.packet(&event_status(0x18, length));
    }
    stream.packet(&event_status(0x10, 8));
    for (event, length) in [(1, 8), (2, 4), (2, 5), (3, 3), (3, 2)] {
        stream.packet_from(with(READY, event), &event_status(0x10, length));
    }
    stream.packet(&event_status(0x07, 8));
    stream.packet(&not_polled(0x10, 8));
    stream.packet(&poll()[..11]);
    for place in [READY, State::EMPTY, State::EMPTY] {
        stream.state(locked(place));
        stream.button();
    }
    stream.state(with(READY, 4));
    stream.packet(&poll());
    stream.button();
    stream.power_on();
    let due = Events {
        external: 2,
        media: [1, 1, 2, 1],
        none: 1,
        short: 3,
        cleared: 2,
        kept: 2,
        not_polled: 1,
        // 2 by the play record, and by the event; a short packet is none
        refused: 2,
        presses: [1, 2],
        unsound: 2,
    };
    assert_eq!(tally::events(&stream.bytes), due);
    let tail = "\
4Ah external media-0 media-1 media-2 media-3 none short
4Ah 2 1 1 2 1 1 3
event cleared kept not-polled refused unsound
event 2 2 1 2 2
press with-disc without
press 1 2
";
    assert!(tally::print(&stream.bytes).contains(tail));
}
