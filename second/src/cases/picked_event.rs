//! K7's media event, picked by hand: GET EVENT STATUS NOTIFICATION at its
//! boundaries, what makes an event, keeps or clears it, and the presses under lock.

use crate::cases::packets::{
    event_status, inquiry, named_bits, one_of_each, prevent, request_sense, start_stop, test_ready,
    Packet, EJECT, LOAD,
};
use crate::cases::picked_power::FORMS;
use crate::cases::picked_state::{all_flags, MEMORY};
use crate::cases::sheet::disc_e;
use crate::cases::stream::Stream;
use crate::drive::State;
use crate::events::{LOADED, OPENED, PRESSED};
use crate::mode_page::ModePage;
use crate::play::{Play, PLAYING};
use crate::sense::{self, Sense, TRIPLES};

/// 4Ah of both classes, the whole answer.
fn poll() -> Packet {
    event_status(0x18, 8)
}

/// 4Ah of these classes with the Polled bit clear.
fn not_polled_of(classes: u8, length: u16) -> Packet {
    let mut p = event_status(classes, length);
    p[1] = 0;
    p
}

/// This state with this event.
fn with(state: State, event: u8) -> State {
    State { event, ..state }
}

/// The four ways for tray and disc to stand, no event waiting.
pub fn places() -> [State; 4] {
    [
        State::READY,
        State::EMPTY,
        with(State::READY.opened(), 0),
        State::EMPTY.opened(),
    ]
}

pub fn locked(state: State) -> State {
    State {
        lock: true,
        ..state
    }
}

/// Table E, a memory and no list; then this state.
fn bench(stream: &mut Stream, state: State) {
    stream.table(&disc_e().bytes());
    stream.memory(MEMORY, 0x4A);
    stream.list(&[]);
    stream.state(state);
}

fn packets(stream: &mut Stream, list: &[Packet]) {
    for packet in list {
        stream.packet(packet);
    }
}

/// A loading by button, told at once.
fn load(stream: &mut Stream) {
    stream.button();
    stream.button();
    stream.packet(&test_ready());
}

/// The nine marks of the lab in one run, on Disc E.
pub fn marked_event(stream: &mut Stream) {
    bench(stream, State::READY);
    // Nothing waits: class 3 and zeros.
    stream.packet(&poll());
    // A loading waits: class 4, event 2, status 02h; and it is told once.
    load(stream);
    packets(stream, &[poll(), poll()]);
    // The external class alone is asked for, then four bytes: it stays.
    load(stream);
    packets(stream, &[event_status(0x08, 8), event_status(0x18, 4)]);
    // Five bytes clear it.
    packets(stream, &[event_status(0x18, 5), poll()]);
    // No class is supported, and the Polled bit is clear: it stays.
    load(stream);
    packets(stream, &[event_status(0x01, 8), not_polled_of(0x18, 8)]);
    // A press under lock: number 5, event 1.
    stream.packet(&prevent(1));
    stream.button();
    packets(stream, &[poll(), prevent(0)]);
    // An eject with the disc in: event 3, status 03h.
    packets(stream, &[start_stop(EJECT), poll(), poll()]);
    stream.power_on();
    stream.packet(&poll());
}

/// All 256 class bytes, with no event waiting and with one: first those without
/// media, which leave it, then those with media, each after another event.
pub fn every_class(stream: &mut Stream) {
    bench(stream, State::READY);
    for classes in 0..=255 {
        stream.packet(&event_status(classes, 8));
    }
    stream.state(with(State::READY, LOADED));
    let asks_media = |classes: &u8| classes & 0x10 != 0;
    for classes in (0..=255).filter(|classes| !asks_media(classes)) {
        stream.packet(&event_status(classes, 8));
    }
    for classes in (0..=255).filter(asks_media) {
        let state = with(State::READY, 1 + classes % 3);
        stream.packet_from(state, &event_status(classes, 8));
    }
}

/// Lengths around four, five and eight, a waiting event asked for by media, by
/// both, by external and by none; then what a second 4Ah tells. Only bytes within
/// them are written, and the length inside is not cut.
pub fn event_lengths(stream: &mut Stream) {
    bench(stream, State::READY);
    for length in (0..10).chain([255, 256, 0x0400, 0x0500, 0xFFFF]) {
        for classes in [0x10, 0x18, 0x08, 0x00] {
            stream.memory(MEMORY, length as u8);
            stream.packet_from(with(State::READY, OPENED), &event_status(classes, length));
            stream.packet(&event_status(0x10, 8));
        }
    }
}

/// Every bit behind the code turned over, alone and with the rest of its byte:
/// Polled, classes and length alone tell.
pub fn event_bits(stream: &mut Stream) {
    bench(stream, State::READY);
    let before = with(State::READY, LOADED);
    for bit in 8..96 {
        let mut p = poll();
        p[bit / 8] ^= 0x80 >> (bit % 8);
        stream.packet_from(before, &p);
    }
    let named = named_bits(0x4A);
    for packet in [poll(), event_status(0x08, 8), not_polled_of(0x18, 8)] {
        let mut full = packet;
        for place in 1..12 {
            let mut p = packet;
            p[place] |= !named[place];
            full[place] = p[place];
            stream.packet_from(before, &p);
        }
        stream.packet_from(before, &full);
    }
}

/// The Polled bit clear, whatever the other bits of its byte, the classes and the
/// length: the event stays, and the next one tells it.
pub fn not_polled(stream: &mut Stream) {
    bench(stream, with(State::READY, PRESSED));
    for byte_1 in [0x00, 0x02, 0x04, 0x10, 0x80, 0xE0, 0xFE] {
        let mut p = poll();
        p[1] = byte_1;
        stream.packet(&p);
    }
    for classes in [0x00, 0x01, 0x08, 0x10, 0x18, 0xE7, 0xFF] {
        for length in [0, 4, 5, 8] {
            stream.packet(&not_polled_of(classes, length));
        }
    }
    packets(stream, &[poll(), not_polled_of(0x18, 8)]);
    for place in places() {
        stream.packet_from(with(place, OPENED), &not_polled_of(0x10, 8));
        packets(stream, &[request_sense(18), poll()]);
    }
}

/// Each event with each setting of the flags: class, event and status of the media
/// answer, then of the external one.
pub fn events_placed(stream: &mut Stream) {
    bench(stream, State::READY);
    for event in 0..4 {
        for flags in all_flags() {
            stream.packet_from(with(flags, event), &event_status(0x10, 8));
        }
        for place in places() {
            stream.packet_from(with(place, event), &event_status(0x08, 8));
            packets(stream, &[poll(), poll()]);
        }
    }
}

/// Refusal 2 "also covers an event over 3": each of the 256 handed over, met by
/// 4Ah and by one of the other calls; some of them by every call, power-on last.
pub fn every_event_held(stream: &mut Stream) {
    bench(stream, State::READY);
    let calls: [fn(&mut Stream); 6] = [
        Stream::button,
        Stream::lay,
        Stream::lift,
        |stream| stream.move_on(1),
        |stream| stream.packet(&test_ready()),
        |stream| stream.packet(&start_stop(LOAD)),
    ];
    for event in 0..=255u8 {
        stream.packet_from(with(State::EMPTY.opened(), event), &event_status(0x10, 4));
        calls[usize::from(event) % 6](stream);
    }
    for event in [3, 4, 7, 8, 64, 128, 255] {
        for place in [places()[2], State::EMPTY.opened(), locked(State::READY)] {
            stream.state(with(place, event));
            for call in calls {
                call(stream);
            }
        }
        FORMS[usize::from(event % 2)](stream);
    }
    // Whatever the packet.
    for event in [4, 0x82] {
        stream.state(with(State::READY, event));
        packets(stream, &one_of_each());
    }
}

/// Refusal 2 by the event in its place: behind 1, before 3, 4 and 5 to 7. A press
/// under lock then changes nothing.
pub fn event_in_order(stream: &mut Stream) {
    bench(stream, State::READY);
    let (fit, unfit) = (disc_e().bytes(), &disc_e().bytes()[..58]);
    for n in 0..8u8 {
        stream.table(if n & 4 != 0 { unfit } else { &fit });
        stream.memory(if n & 2 != 0 { MEMORY - 1 } else { MEMORY }, n);
        for event in [OPENED, 4] {
            for place in [State::READY, State::EMPTY] {
                let state = locked(with(place, event));
                let length = if n & 1 != 0 { 11 } else { 12 };
                stream.packet_from(state, &poll()[..length]);
                for call in [Stream::button, Stream::lay, Stream::lift] {
                    stream.state(state);
                    call(stream);
                }
            }
        }
    }
    stream.memory(MEMORY, 0);
}

/// With attentions pending it is performed and tells none: they are told by what
/// comes behind it, power first. So too where its field is refused.
pub fn event_while_pending(stream: &mut Stream) {
    bench(stream, State::READY);
    for flags in all_flags().filter(|flags| !flags.lock) {
        for packet in [poll(), not_polled_of(0x18, 8)] {
            stream.packet_from(with(flags, LOADED), &packet);
            packets(stream, &[packet, test_ready(), packet, test_ready()]);
        }
        stream.packet_from(flags, &poll());
        packets(stream, &[request_sense(18), poll(), request_sense(18)]);
    }
    for form in FORMS {
        stream.state(State::READY);
        form(stream);
        packets(stream, &[poll(), test_ready(), poll(), inquiry(5), poll()]);
        packets(stream, &[test_ready(), poll(), test_ready(), poll()]);
    }
}

/// A held sense, each of the thirteen: left where 4Ah is GOOD, cut or not, whatever
/// class; replaced where the Polled bit is clear.
pub fn event_senses(stream: &mut Stream) {
    bench(stream, State::READY);
    for held in TRIPLES {
        let state = State {
            sense: held,
            ..with(State::READY, OPENED)
        };
        stream.packet_from(state, &event_status(0x08, 8));
        packets(stream, &[event_status(0x00, 8), event_status(0x18, 0)]);
        packets(stream, &[poll(), poll(), request_sense(18)]);
        stream.packet_from(state, &not_polled_of(0x18, 8));
        packets(stream, &[poll(), request_sense(18), poll()]);
    }
}

/// Loaded with an unfit table it is refused by 4, and the event stays; not loaded,
/// no table is looked at. A memory under the bound is refused by 3.
pub fn event_unfit(stream: &mut Stream) {
    bench(stream, State::READY);
    for table in [&[][..], &disc_e().bytes()[..58], &[0, 2, 1, 1]] {
        stream.table(table);
        for place in places() {
            stream.packet_from(with(place, LOADED), &poll());
            packets(stream, &[not_polled_of(0x18, 8), poll()]);
        }
    }
    stream.table(&disc_e().bytes());
    for memory in [0, MEMORY - 1, MEMORY] {
        stream.memory(memory, 0x4A);
        for place in places() {
            stream.packet_from(with(place, LOADED), &poll());
            stream.packet(&poll());
            stream.packet(&poll()[..11]);
        }
    }
}

/// A state in which everything but the tray holds something, so that what a press
/// changes shows.
fn crowded(place: State) -> State {
    State {
        power: true,
        change: true,
        sense: sense::WRONG_MODE,
        play: Play::new(PLAYING, 160, 290),
        mode: ModePage::new(0x35, 0x53),
        ..locked(place)
    }
}

/// The button under lock, with a disc and without: closed it is refused by 5, once
/// and again, and the event becomes 1, whatever it was; nothing else changes. Open,
/// it closes.
pub fn presses_under_lock(stream: &mut Stream) {
    bench(stream, State::READY);
    for event in 0..4 {
        for place in places() {
            stream.state(locked(with(place, event)));
            stream.button();
            stream.button();
            packets(stream, &[event_status(0x10, 8), event_status(0x10, 8)]);
            stream.state(crowded(with(place, event)));
            stream.button();
            stream.packet(&poll());
            stream.button();
        }
    }
    // An unknown state: 2 comes first, and the event stays.
    for place in [State::READY, State::EMPTY] {
        for unknown in [
            State {
                sense: Sense::new(5, 0x53, 0),
                ..place
            },
            State {
                play: Play::new(PLAYING, 1, 0),
                ..place
            },
            State {
                mode: ModePage::new(0x02, 0),
                ..place
            },
            with(place, 4),
        ] {
            stream.state(locked(unknown));
            stream.button();
            stream.packet(&poll());
        }
    }
    // Laying and lifting under lock are refused and make no event.
    for call in [Stream::lay, Stream::lift] {
        stream.state(locked(State::READY));
        call(stream);
        stream.packet(&poll());
    }
}

/// "an eject packet under lock is no press": 05/53/02, and the event stays. With
/// the lock off it opens.
pub fn eject_under_lock(stream: &mut Stream) {
    bench(stream, State::READY);
    for event in 0..4 {
        for place in places() {
            stream.packet_from(locked(with(place, event)), &start_stop(EJECT));
            packets(stream, &[event_status(0x10, 4), prevent(0)]);
            packets(stream, &[start_stop(EJECT), event_status(0x10, 8)]);
        }
    }
}

/// What moves the tray or the disc, or does not, from each place and each event:
/// opening with a disc and closing with one make an event, by button and by packet;
/// all else leaves it.
pub fn tray_events(stream: &mut Stream) {
    bench(stream, State::READY);
    let moves: [fn(&mut Stream); 7] = [
        Stream::button,
        Stream::lay,
        Stream::lift,
        |stream| stream.packet(&start_stop(EJECT)),
        |stream| stream.packet(&start_stop(LOAD)),
        |stream| stream.packet(&start_stop(0)),
        |stream| stream.packet(&start_stop(1)),
    ];
    for event in 0..4 {
        for place in places() {
            for moved in moves {
                stream.state(with(place, event));
                moved(stream);
            }
            stream.packet(&poll());
        }
    }
}

/// A later event takes the place of an earlier one, each after each, with no 4Ah
/// between: the last alone is told.
pub fn latest_event(stream: &mut Stream) {
    let press: fn(&mut Stream) = |stream| {
        packets(stream, &[prevent(1); 2]);
        stream.button();
        stream.packet(&prevent(0));
    };
    let opening: fn(&mut Stream) = Stream::button;
    let eject: fn(&mut Stream) = |stream| stream.packet(&start_stop(EJECT));
    let load_by_packet: fn(&mut Stream) = |stream| packets(stream, &[start_stop(LOAD)]);
    for run in [
        &[press][..],
        &[press, opening],
        &[press, opening, Stream::button],
        &[press, eject, load_by_packet, press],
        &[opening, Stream::button, press],
        &[eject, Stream::button, opening],
        &[eject, Stream::lift],
        &[eject, Stream::lift, Stream::lay],
        &[eject, Stream::lift, Stream::button],
        &[eject, Stream::lift, Stream::button, press],
        &[eject, Stream::lift, Stream::button, press, opening],
        &[opening, Stream::lift, Stream::lay, load_by_packet],
        &[press, FORMS[0]],
        &[press, FORMS[1], eject, eject],
        &[opening, Stream::button, FORMS[0], press],
    ] {
        bench(stream, State::READY);
        for call in run {
            call(stream);
        }
        packets(stream, &[poll(), poll(), request_sense(18)]);
    }
}

/// "power-on clears it", in both forms, of any handed event, and makes none.
pub fn event_power_on(stream: &mut Stream) {
    bench(stream, State::READY);
    for form in FORMS {
        for event in [0, 1, 2, 3, 4, 255] {
            for place in places() {
                stream.state(with(place, event));
                form(stream);
                stream.packet(&event_status(0x10, 8));
            }
        }
    }
}

/// The event is kept by every other packet that moves no tray, GOOD or not, told
/// or refused, and by the outside call.
pub fn event_kept(stream: &mut Stream) {
    bench(stream, with(State::READY, PRESSED));
    let still = |p: &Packet| p[0] != 0x4A && (p[0] != 0x1B || p[4] < 2);
    for packet in one_of_each().iter().filter(|p| still(p)) {
        stream.packet(packet);
    }
    packets(stream, &[event_status(0x18, 4), prevent(0)]);
    stream.move_on(1);
    stream.lay();
    stream.lift();
    stream.packet(&test_ready()[..11]);
    for held in [sense::CHANGED, sense::POWERED_ON] {
        let pending = State {
            power: true,
            change: true,
            sense: held,
            ..with(State::EMPTY, OPENED)
        };
        stream.packet_from(pending, &test_ready());
        packets(stream, &[request_sense(18), request_sense(18), poll()]);
    }
}
