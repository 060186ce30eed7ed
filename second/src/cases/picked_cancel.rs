//! K8, picked by hand: "which calls cancel". Pairs of calls on states set outright,
//! each beside what it equals or does not: the state that was set, or the same
//! power-on alone.

use crate::cases::packets::{
    capacity, event_status, inquiry, mode_select, mode_sense, page_list, pause, plain, play,
    position, prevent, read10, read12, request_sense, resume, seek, start_stop, sub_channel,
    test_ready, toc, Packet, EJECT, LOAD,
};
use crate::cases::picked_event::{locked, places};
use crate::cases::picked_power::FORMS;
use crate::cases::picked_state::MEMORY;
use crate::cases::sheet::disc_e;
use crate::cases::stream::Stream;
use crate::drive::State;
use crate::events::PRESSED;
use crate::mode_page::ModePage;
use crate::play::{Play, COMPLETED, NO_STATUS, PAUSED, PLAYING, STATUSES};
use crate::sense::{self, Sense, TRIPLES};

/// Table E, a memory and a sound list.
fn bench(stream: &mut Stream) {
    stream.table(&disc_e().bytes());
    stream.memory(MEMORY, 0x14);
    stream.list(&page_list(0x15, 0x51));
}

/// Two calls from this state.
fn pair(stream: &mut Stream, state: State, first: fn(&mut Stream), second: fn(&mut Stream)) {
    stream.state(state);
    first(stream);
    second(stream);
}

/// Two packets from this state.
fn two_packets(stream: &mut Stream, state: State, first: Packet, second: Packet) {
    stream.packet_from(state, &first);
    stream.packet(&second);
}

/// This tray and disc, locked, with a sense, a play, a page and an event, and
/// nothing pending: what a call changes of them shows.
fn full(place: State) -> State {
    State {
        sense: sense::WRONG_MODE,
        play: Play::new(PLAYING, 160, 290),
        mode: ModePage::new(0x35, 0x53),
        event: PRESSED,
        ..locked(place)
    }
}

/// The record that a reset leaves, and others.
fn records() -> [Play; 5] {
    [
        Play::NONE,
        Play::new(PLAYING, 0, 0),
        Play::new(PAUSED, 5, 9),
        Play::new(COMPLETED, 300, 300),
        Play::new(NO_STATUS, 0, 449_849),
    ]
}

/// States of this tray and disc that 2 takes: every lock and attention, then each
/// sense, and records, pages and events.
fn sound(place: State) -> Vec<State> {
    let flags = (0..8u8).map(|n| State {
        lock: n & 4 != 0,
        power: n & 2 != 0,
        change: n & 1 != 0,
        ..full(place)
    });
    let mut list: Vec<State> = flags.collect();
    list.extend(TRIPLES.map(|sense| State { sense, ..place }));
    list.extend(records().map(|play| State { play, ..place }));
    let pages = [(0x00, 0xFF), (0x01, 0x00), (0x35, 0x53)];
    list.extend(pages.map(|(recovery, retries)| State {
        mode: ModePage::new(recovery, retries),
        ..place
    }));
    list.extend([1, 2, 3].map(|event| State { event, ..place }));
    list
}

/// States of this tray and disc that 2 covers, in each of its ways.
fn unsound(place: State) -> [State; 5] {
    let place = State {
        lock: false,
        ..full(place)
    };
    [
        State {
            sense: Sense::new(5, 0x53, 0),
            ..place
        },
        State {
            play: Play::new(0x14, 160, 290),
            ..place
        },
        State {
            play: Play::new(PLAYING, 1, 0),
            ..place
        },
        State {
            mode: ModePage::new(0x02, 0),
            ..place
        },
        State { event: 4, ..place },
    ]
}

/// A disc laid and lifted: the second line has the state that was set.
pub fn laid_and_lifted(stream: &mut Stream) {
    let [.., open] = places();
    for state in sound(open) {
        pair(stream, state, Stream::lay, Stream::lift);
    }
}

/// A disc lifted and laid again: so too.
pub fn lifted_and_laid(stream: &mut Stream) {
    let [_, _, open, _] = places();
    for state in sound(open) {
        pair(stream, state, Stream::lift, Stream::lay);
    }
}

/// A laying that is refused and a lifting that goes, and the twin: the disc is out,
/// or in, and was not.
pub fn one_refused(stream: &mut Stream) {
    let [_, _, with_disc, empty] = places();
    for state in [with_disc, locked(with_disc), full(with_disc)] {
        pair(stream, state, Stream::lay, Stream::lift);
    }
    for state in [empty, locked(empty), full(empty)] {
        pair(stream, state, Stream::lift, Stream::lay);
    }
}

/// Both refused, by a closed tray or by 2: nothing changes.
pub fn both_refused(stream: &mut Stream) {
    let [loaded, empty, open, open_empty] = places();
    let mut states = vec![loaded, empty, full(loaded), full(empty)];
    states.extend(unsound(open));
    states.extend(unsound(open_empty));
    for state in states {
        pair(stream, state, Stream::lay, Stream::lift);
        pair(stream, state, Stream::lift, Stream::lay);
    }
}

/// One packet of each of the sixteen commands, GOOD where a disc is loaded and
/// something plays, and one of an unknown code.
fn commands() -> [Packet; 17] {
    [
        test_ready(),
        request_sense(4),
        inquiry(5),
        start_stop(0),
        prevent(0),
        capacity(),
        read10(0, 1),
        seek(0),
        toc(false, 0, 0, 4),
        read12(149, 1),
        play(150, 1),
        pause(),
        position(false),
        mode_sense(0, 1, 12),
        mode_select(16),
        event_status(0x18, 8),
        plain(0x47),
    ]
}

/// Those that fail whatever is loaded: a field, a list.
fn failing() -> [Packet; 4] {
    let mut evpd = inquiry(5);
    evpd[1] = 1;
    let mut not_polled = event_status(0x18, 8);
    not_polled[1] = 0;
    [evpd, not_polled, mode_sense(3, 1, 16), mode_select(8)]
}

/// Others that leave a loaded and locked drive as it stands, GOOD or failing: tray,
/// range, track mode and fields.
fn others() -> [Packet; 13] {
    [
        start_stop(1),
        start_stop(LOAD),
        start_stop(EJECT),
        prevent(1),
        resume(),
        read10(149, 2),
        read10(300, 1),
        read12(0, 301),
        seek(300),
        toc(false, 5, 0, 4),
        play(0, 1),
        play(150, 151),
        sub_channel(false, true, 2, 16),
    ]
}

/// A power-on of this form alone, and behind each of these packets, from the same
/// state.
fn powered(stream: &mut Stream, form: fn(&mut Stream), state: State, packets: &[&[u8]]) {
    stream.state(state);
    form(stream);
    for packet in packets {
        stream.packet_from(state, packet);
        form(stream);
    }
}

/// Packets that leave tray and disc, GOOD and failing, each before either form, in
/// each place: what it left behind is gone.
pub fn packet_and_power_on(stream: &mut Stream) {
    bench(stream);
    for place in places() {
        let mut packets = commands().to_vec();
        packets.extend(failing());
        if place.loaded() {
            packets.extend(others());
        }
        let packets: Vec<&[u8]> = packets.iter().map(|packet| &packet[..]).collect();
        for form in FORMS {
            powered(stream, form, full(place), &packets);
        }
    }
    // Nothing plays: a pause fails, and 13h is told.
    for (status, packet) in [(NO_STATUS, pause()), (COMPLETED, position(true))] {
        let state = State {
            play: Play::new(status, 7, 9),
            ..State::READY
        };
        for form in FORMS {
            powered(stream, form, state, &[&packet]);
        }
    }
}

/// Packets that are told something, or leave it pending, before either form: it is
/// pending again as it is behind that power-on alone.
pub fn told_and_power_on(stream: &mut Stream) {
    bench(stream);
    let packets = [test_ready(), request_sense(4), inquiry(5)];
    let packets: Vec<&[u8]> = packets.iter().map(|packet| &packet[..]).collect();
    let [loaded, _, open, _] = places();
    for place in [loaded, open] {
        for (power, change) in [(true, true), (false, true)] {
            let state = State {
                power,
                change,
                ..place
            };
            for form in FORMS {
                powered(stream, form, state, &packets);
            }
        }
    }
}

/// Every command refused by 1, 2, 3 and 4, before either form.
pub fn refused_and_power_on(stream: &mut Stream) {
    bench(stream);
    let commands = commands();
    let whole: Vec<&[u8]> = commands.iter().map(|packet| &packet[..]).collect();
    let cut: Vec<&[u8]> = commands.iter().map(|packet| &packet[..11]).collect();
    let loaded = full(State::READY);
    for form in FORMS {
        powered(stream, form, loaded, &cut);
        powered(stream, form, unsound(State::READY)[1], &whole);
    }
    for [state, ..] in [State::READY, State::EMPTY].map(unsound) {
        powered(
            stream,
            FORMS[usize::from(state.disc_in)],
            state,
            &whole[..2],
        );
    }
    stream.memory(MEMORY - 1, 0x14);
    for form in FORMS {
        powered(stream, form, loaded, &whole);
    }
    stream.memory(MEMORY, 0x14);
    stream.table(&disc_e().bytes()[..58]);
    for form in FORMS {
        powered(stream, form, loaded, &whole);
    }
    stream.table(&disc_e().bytes());
}

/// The packets that move the tray, from every place and under lock, before either
/// form: where it moved, the two power-ons have another tray.
pub fn tray_and_power_on(stream: &mut Stream) {
    bench(stream);
    for place in places() {
        for lock in [false, true] {
            let state = State {
                lock,
                ..full(place)
            };
            for form in FORMS {
                powered(
                    stream,
                    form,
                    state,
                    &[&start_stop(EJECT), &start_stop(LOAD)],
                );
            }
        }
    }
}

/// One power-on after another, of one form and of two, and beside them the later one
/// alone: it decides. Loaded, the forms have different states.
pub fn two_power_ons(stream: &mut Stream) {
    let mut states = places().map(full).to_vec();
    states.extend(&unsound(State::READY)[..1]);
    for state in states {
        for later in FORMS {
            stream.state(state);
            later(stream);
            for earlier in FORMS {
                pair(stream, state, earlier, later);
            }
        }
    }
}

/// The button twice, in every place, locked and not: from a pending change, no record
/// and each event, and from others, so that what it leaves shows.
pub fn button_twice(stream: &mut Stream) {
    let [none, playing, paused, _, stopped] = records();
    for place in places() {
        for lock in [false, true] {
            for (change, event, play) in [
                (true, 0, none),
                (true, 1, none),
                (true, 2, none),
                (true, 3, none),
                (false, 2, none),
                (false, 3, none),
                (false, 0, none),
                (true, 2, playing),
                (true, 3, stopped),
                (true, 1, paused),
            ] {
                let state = State {
                    lock,
                    power: event == 0,
                    change,
                    event,
                    play,
                    ..full(place)
                };
                pair(stream, state, Stream::button, Stream::button);
            }
        }
        let [sense, ..] = unsound(place);
        pair(stream, sense, Stream::button, Stream::button);
    }
}

/// PREVENT and then ALLOW, in each place, locked and not, with a sense and without;
/// loaded, with something pending too.
pub fn prevent_and_allow(stream: &mut Stream) {
    bench(stream);
    for place in places() {
        for held in [sense::NONE, sense::BAD_FIELD] {
            for lock in [false, true] {
                for pending in 0..if place.loaded() { 4 } else { 1 } {
                    let state = State {
                        lock,
                        power: pending & 2 != 0,
                        change: pending & 1 != 0,
                        sense: held,
                        ..place
                    };
                    two_packets(stream, state, prevent(1), prevent(0));
                }
            }
        }
    }
    two_packets(stream, full(State::READY), prevent(1), prevent(0));
    two_packets(stream, unsound(State::READY)[0], prevent(1), prevent(0));
}

/// PLAY and then READ, from several records, with a sense and without; a PLAY of no
/// blocks; and one or the other failing.
pub fn play_and_read(stream: &mut Stream) {
    bench(stream);
    for play_of in [play(160, 10), play(160, 0)] {
        for record in [
            Play::NONE,
            Play::new(NO_STATUS, 160, 170),
            Play::new(PLAYING, 160, 170),
            Play::new(COMPLETED, 170, 170),
        ] {
            for held in [sense::NONE, sense::WRONG_MODE] {
                let state = State {
                    sense: held,
                    play: record,
                    ..State::READY
                };
                two_packets(stream, state, play_of, read10(0, 1));
            }
        }
    }
    two_packets(stream, State::READY, play(0, 1), read10(0, 1));
    two_packets(stream, State::READY, play(160, 10), read10(150, 1));
}

/// Pause and then resume, under each status, with a sense and without; then from the
/// other places and under an attention.
pub fn pause_and_resume(stream: &mut Stream) {
    bench(stream);
    for status in STATUSES {
        for held in [sense::NONE, sense::BAD_FIELD, sense::WRONG_MODE] {
            let state = State {
                sense: held,
                play: Play::new(status, 160, 290),
                ..State::READY
            };
            two_packets(stream, state, pause(), resume());
        }
    }
    let playing = Play::new(PLAYING, 160, 290);
    for (place, held) in places().into_iter().zip([
        sense::NONE,
        sense::NO_MEDIUM,
        sense::TRAY_OPEN,
        sense::NO_MEDIUM,
    ]) {
        let state = State {
            sense: held,
            play: playing,
            change: place.loaded(),
            ..place
        };
        two_packets(stream, state, pause(), resume());
    }
}
