//! K3's two forms of power-on, picked by hand: which attentions each of them
//! leaves, and what the calls behind it tell.

use crate::cases::packets::{
    capacity, inquiry, one_of_each, request_sense, start_stop, test_ready, toc, Packet, LOAD,
};
use crate::cases::picked_state::{all_flags, MEMORY};
use crate::cases::sheet::disc_e;
use crate::cases::stream::Stream;
use crate::drive::State;
use crate::sense::{self, Sense};

/// The default form and the second, as calls.
pub const FORMS: [fn(&mut Stream); 2] = [Stream::power_on, Stream::power_on_without_change];

fn lend_e(stream: &mut Stream) {
    stream.table(&disc_e().bytes());
    stream.memory(MEMORY, 0x3C);
}

fn packets(stream: &mut Stream, list: &[Packet]) {
    for packet in list {
        stream.packet(packet);
    }
}

/// Each form on every setting of the flags, under senses of the thirteen and
/// others: tray and disc alone decide what is pending. A 00h is told the power-on.
pub fn every_state(stream: &mut Stream) {
    lend_e(stream);
    for (held, part) in [
        (sense::NONE, 1),
        (sense::PREVENTED, 3),
        (sense::CHANGED, 1),
        (Sense::new(6, 0x28, 1), 1),
        (Sense::new(0xFF, 0xFF, 0xFF), 3),
    ] {
        // All of the flags under three senses, one in three under the others.
        for flags in all_flags().step_by(part) {
            for form in FORMS {
                stream.state(State {
                    sense: held,
                    ..flags
                });
                form(stream);
                stream.packet(&test_ready());
            }
        }
    }
}

/// Loaded, each form and packets until nothing is pending: the power-on, after
/// the default form the change too, then an answer. INQUIRY is told neither, and
/// REQUEST SENSE gives what is pending, power first.
pub fn told_in_turn(stream: &mut Stream) {
    lend_e(stream);
    for form in FORMS {
        for packet in one_of_each() {
            stream.state(State::READY);
            form(stream);
            packets(stream, &[packet; 3]);
        }
        let (ready, asked, none) = (test_ready(), request_sense(18), request_sense(0));
        for run in [
            [ready, asked, asked, asked, ready],
            [ready, none, ready, none, ready],
            [asked, ready, asked, asked, ready],
            [none, ready, ready, asked, ready],
            [inquiry(36), ready, inquiry(36), ready, inquiry(36)],
            [inquiry(5), asked, inquiry(5), asked, inquiry(5)],
            [capacity(), toc(false, 0, 0, 804), capacity(), asked, ready],
        ] {
            stream.state(State::READY);
            form(stream);
            packets(stream, &run);
        }
    }
}

/// Not loaded, each form: a disc in an open tray, an open tray, an empty closed
/// one. Told before the tray moves or after, by button or by packet: closing with
/// a disc in is a loading behind either form.
pub fn not_loaded(stream: &mut Stream) {
    lend_e(stream);
    let closings: [fn(&mut Stream); 4] = [
        Stream::button,
        |stream| packets(stream, &[start_stop(LOAD); 2]),
        |stream| {
            stream.packet(&test_ready());
            stream.button();
        },
        |stream| packets(stream, &[request_sense(0), start_stop(LOAD)]),
    ];
    for form in FORMS {
        for state in [State::READY.opened(), State::EMPTY.opened(), State::EMPTY] {
            for change in [false, true] {
                for close in closings {
                    stream.state(State { change, ..state });
                    form(stream);
                    close(stream);
                    packets(stream, &[test_ready(), test_ready(), request_sense(18)]);
                }
            }
        }
        // The disc is laid after the power-on, or lifted.
        stream.state(State::EMPTY);
        form(stream);
        stream.button();
        stream.lay();
        stream.button();
        packets(stream, &[test_ready(); 3]);
        form(stream);
        stream.button();
        stream.lift();
        stream.button();
        packets(stream, &[test_ready(); 3]);
    }
}

/// One power-on after another, each of either form: the last alone decides, also
/// where it meets the tray that was opened between, or what was told between.
pub fn one_after_another(stream: &mut Stream) {
    lend_e(stream);
    let between: [fn(&mut Stream); 5] = [
        |_| {},
        |stream| packets(stream, &[test_ready()]),
        |stream| packets(stream, &[test_ready(), test_ready()]),
        Stream::button,
        |stream| {
            stream.button();
            stream.button();
        },
    ];
    for first in FORMS {
        for last in FORMS {
            for state in [State::READY, State::READY.opened(), State::EMPTY] {
                for between in between {
                    stream.state(state);
                    first(stream);
                    between(stream);
                    last(stream);
                    packets(stream, &[test_ready(); 3]);
                }
            }
        }
    }
}

/// Each form on a drive to which nothing fit is lent: power-on looks at no table
/// and no memory. Both are there again when the attentions are told.
pub fn nothing_lent(stream: &mut Stream) {
    for form in FORMS {
        for table in [&[][..], &disc_e().bytes()[..58]] {
            stream.table(table);
            stream.memory(0, 0);
            stream.state(State::READY);
            form(stream);
            stream.packet(&test_ready());
            stream.memory(MEMORY, 0x3C);
            stream.packet(&test_ready());
            stream.table(&disc_e().bytes());
            packets(stream, &[test_ready(); 3]);
        }
    }
}
