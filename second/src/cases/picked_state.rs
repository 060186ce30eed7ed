//! States, attentions, refusals and tray calls, picked by hand.

use crate::cases::breaks::breaks;
use crate::cases::packets::{
    capacity, inquiry, one_of_each, prevent, read10, request_sense, start_stop, test_ready, toc,
    EJECT, LOAD,
};
use crate::cases::sheet::{disc_e, fullest, two_sittings};
use crate::cases::stream::Stream;
use crate::drive::State;
use crate::limits::BOUND;
use crate::sense::{self, Sense, TRIPLES};

pub const MEMORY: u16 = BOUND as u16;

/// All 32 settings of the five flags.
pub fn all_flags() -> impl Iterator<Item = State> {
    (0..32u8).map(|n| State {
        tray_open: n & 16 != 0,
        disc_in: n & 8 != 0,
        lock: n & 4 != 0,
        power: n & 2 != 0,
        change: n & 1 != 0,
        ..State::EMPTY
    })
}

/// Triples close to the thirteen, and far from them.
pub fn strangers() -> Vec<Sense> {
    let mut list = Vec::new();
    for known in TRIPLES {
        for (key, asc, ascq) in [(1, 0, 0), (0, 1, 0), (0, 0, 1), (0x80, 0, 0), (0, 0, 0x80)] {
            list.push(Sense::new(
                known.key ^ key,
                known.asc ^ asc,
                known.ascq ^ ascq,
            ));
        }
    }
    // One part from one of them, one from another.
    for (key, asc, ascq) in [
        (2, 0x28, 0),
        (6, 0x3A, 1),
        (5, 0x28, 0),
        (6, 0x20, 0),
        (5, 0x53, 0),
        (2, 0x3A, 0),
        (6, 0x26, 0),
        (5, 0x3A, 0),
        (2, 0x1A, 0),
        (0xFF, 0xFF, 0xFF),
    ] {
        list.push(Sense::new(key, asc, ascq));
    }
    list.retain(|sense| !sense.is_known());
    list
}

/// "At the start: state all zero, no table, no memory." The play status is 00h
/// then, so 2 refuses every call on the drive up to a power-on (K2).
pub fn from_nothing(stream: &mut Stream) {
    for packet in one_of_each() {
        stream.packet(&packet);
    }
    stream.packet(&[]);
    for session in [0, 1, 255] {
        stream.part(session);
    }
    stream.lay();
    stream.lift();
    stream.button();
    stream.move_on(0);
    stream.memory(MEMORY, 0xEE);
    stream.packet(&test_ready());
    stream.memory(0, 0);
    stream.power_on_without_change();
    for packet in [test_ready(), request_sense(18), inquiry(36)] {
        stream.packet(&packet);
    }
    stream.state(State::EMPTY);
    stream.lay();
    stream.lift();
    stream.move_on(1);
    stream.button();
    stream.lay();
    stream.lay();
    stream.button();
    stream.packet(&test_ready());
    stream.memory(MEMORY, 0xEE);
    stream.packet(&test_ready());
    stream.table(&disc_e().bytes());
    for packet in one_of_each() {
        stream.packet(&packet);
    }
    stream.power_on();
    for packet in one_of_each() {
        stream.packet(&packet);
    }
}

/// Every command and call against every setting of the flags, with nothing held and, not
/// locked, with one sense or the other: 05/53/02 where an even number of flags is set, else
/// 06/28/00.
pub fn attentions(stream: &mut Stream) {
    stream.table(&disc_e().bytes());
    stream.memory(MEMORY, 0x5A);
    for holds in [false, true] {
        let settings = (0..32u8).zip(all_flags());
        for (n, flags) in settings.filter(|(_, flags)| !(holds && flags.lock)) {
            let held = match (holds, n.count_ones() % 2) {
                (false, _) => sense::NONE,
                (true, 0) => sense::PREVENTED,
                (true, _) => sense::CHANGED,
            };
            let state = State {
                sense: held,
                ..flags
            };
            for packet in one_of_each() {
                stream.packet_from(state, &packet);
            }
        }
    }
    for held in [sense::NONE, sense::NO_MEDIUM, Sense::new(6, 0x29, 1)] {
        let holds = held != sense::NONE;
        for flags in all_flags().filter(|flags| !(holds && flags.change)) {
            let state = State {
                sense: held,
                ..flags
            };
            for call in [Stream::power_on, Stream::button, Stream::lay, Stream::lift] {
                stream.state(state);
                call(stream);
            }
        }
    }
    // Told one after the other, by packet or by REQUEST SENSE.
    for flags in all_flags().filter(|flags| !flags.lock) {
        for tell in [test_ready(), request_sense(18), request_sense(0)] {
            stream.state(flags);
            for _ in 0..2 {
                stream.packet(&tell);
                stream.packet(&inquiry(5));
                stream.packet(&request_sense(14));
            }
        }
    }
}

/// Each of the thirteen and many others, held.
pub fn senses(stream: &mut Stream) {
    for held in TRIPLES {
        let state = State {
            sense: held,
            ..State::READY
        };
        for packet in one_of_each() {
            stream.packet_from(state, &packet);
        }
        // An eject under lock, and a telling while something is held.
        stream.packet_from(
            State {
                lock: true,
                ..state
            },
            &start_stop(EJECT),
        );
        let pending = State {
            power: true,
            change: true,
            ..state
        };
        stream.packet_from(pending, &request_sense(18));
        for _ in 0..3 {
            stream.packet(&request_sense(18));
        }
    }
    for (i, held) in strangers().into_iter().enumerate() {
        let state = State {
            sense: held,
            ..State::READY
        };
        stream.packet_from(state, &test_ready());
        // Each meets one call more; the first of each five all of them.
        let calls: [fn(&mut Stream); 5] = [
            |stream| stream.packet(&request_sense(18)),
            |stream| stream.packet(&inquiry(36)),
            Stream::button,
            Stream::lay,
            Stream::lift,
        ];
        match i % 5 {
            0 => calls.iter().for_each(|call| call(stream)),
            n => calls[n](stream),
        }
        stream.power_on();
        stream.packet(&request_sense(18));
    }
}

/// Any of 1, 2, 3 and 4 together: the lowest is given, nothing changes.
pub fn refusal_order(stream: &mut Stream) {
    let unfit = breaks().pop().expect("there are some").table;
    let fit = disc_e().bytes();
    let stranger = Sense::new(5, 0x24, 1);
    for n in 0..16u8 {
        stream.table(if n & 8 != 0 { &unfit } else { &fit });
        stream.memory(if n & 4 != 0 { MEMORY - 1 } else { MEMORY }, n);
        let held = if n & 2 != 0 {
            stranger
        } else {
            sense::BAD_FIELD
        };
        for flags in [State::READY, State::EMPTY, State::READY.opened()] {
            let state = State {
                sense: held,
                ..flags
            };
            // 1 and 2 come first whatever the packet: one in four is enough there. And what
            // is refused leaves the state.
            let end = if n & 1 != 0 { 11 } else { 12 };
            let step = if n & 3 != 0 { 4 } else { 1 };
            let refused = n & 7 != 0;
            stream.state(state);
            for packet in one_of_each().iter().step_by(step) {
                match refused {
                    true => stream.packet(&packet[..end]),
                    false => stream.packet_from(state, &packet[..end]),
                }
            }
            for call in [Stream::button, Stream::lay, Stream::lift] {
                stream.state(State {
                    lock: true,
                    ..state
                });
                call(stream);
            }
        }
    }
    stream.table(&fit);
    stream.memory(MEMORY, 0);
}

/// "packet is not 12 bytes".
pub fn packet_lengths(stream: &mut Stream) {
    let mut long = vec![0; 8_191];
    for (i, byte) in long.iter_mut().enumerate().skip(12) {
        *byte = i as u8;
    }
    for code in [0x00, 0x12, 0xA8] {
        long[0] = code;
        for length in (0..=26).chain([255, 256, 268, 4_096]) {
            if code == 0 || length < 27 {
                stream.packet_from(State::READY, &long[..length]);
            }
        }
    }
    stream.packet(&long);
}

/// "response memory is under 6,538 bytes", the old 4,360 among them.
pub fn memories(stream: &mut Stream) {
    stream.table(&disc_e().bytes());
    for length in [0, 1, 36, 4_360, 6_537, 6_538, 6_539, 8_190, 8_191] {
        for fill in [0x00, 0xA5] {
            stream.memory(length, fill);
            // Where 3 comes whatever the packet, one in three is enough.
            let step = if length < MEMORY { 3 } else { 1 };
            for packet in one_of_each().iter().step_by(step) {
                stream.packet_from(State::READY, packet);
            }
            stream.packet(&toc(false, 2, 0, 65_535));
            stream.packet(&request_sense(3));
        }
    }
    stream.memory(MEMORY, 0xC3);
}

/// K9: "so refusal 3 covers it". Where 3 is not given the longest answer, of
/// 594 descriptors, comes whole; the allocation length alone cuts it.
pub fn longest_answer(stream: &mut Stream) {
    stream.table(&fullest().bytes());
    for (memory, lengths) in [
        (6_537, &[6_537, 6_538, 6_539, 65_535][..]),
        (6_538, &[6_539]),
        (8_191, &[6_537]),
    ] {
        for &length in lengths {
            stream.memory(memory, 0x9B);
            stream.packet_from(State::READY, &toc(false, 2, (length % 2) as u8, length));
        }
    }
    stream.memory(MEMORY, 0xC3);
}

/// Tray calls and packets in turn, with the disc and its table changing.
pub fn tray_traces(stream: &mut Stream) {
    let (e, two) = (disc_e().bytes(), two_sittings().bytes());
    stream.state(State::EMPTY);
    stream.power_on();
    for round in 0..6 {
        let table = if round % 2 == 0 { &e } else { &two };
        stream.packet(&test_ready());
        stream.packet(&request_sense(18));
        stream.packet(&start_stop(EJECT));
        stream.packet(&start_stop(EJECT));
        stream.lift();
        stream.lay();
        stream.table(table);
        if round % 3 == 0 {
            stream.packet(&start_stop(LOAD));
        } else {
            stream.button();
        }
        stream.packet(&inquiry(36));
        if round % 3 == 1 {
            stream.packet(&request_sense(18));
        }
        stream.packet(&capacity());
        stream.packet(&capacity());
        stream.packet(&start_stop(LOAD));
        stream.packet(&test_ready());
        stream.packet(&prevent(1));
        stream.button();
        stream.packet(&start_stop(EJECT));
        stream.packet(&request_sense(18));
        stream.packet(&read10(150, 1));
        stream.packet(&prevent(0));
        stream.button();
        // Opened and closed again without a telling between.
        stream.button();
        stream.button();
        stream.packet(&prevent(1));
        stream.packet(&prevent(1));
        stream.packet(&start_stop(EJECT));
        stream.button();
        stream.button();
        stream.packet(&test_ready());
        if round == 3 {
            stream.power_on();
        }
        stream.packet(&prevent(0));
        stream.packet(&prevent(0));
        stream.packet(&start_stop(0));
        stream.packet(&start_stop(1));
        stream.button();
        stream.lift();
        stream.button();
        stream.packet(&start_stop(1));
        stream.packet(&start_stop(0));
        stream.packet(&start_stop(LOAD));
        stream.button();
        stream.packet(&start_stop(1));
        stream.packet(&start_stop(LOAD));
        stream.packet(&test_ready());
        stream.packet(&start_stop(EJECT));
        stream.lay();
        stream.lay();
    }
    // Loaded with an unfit table: every packet is refused, the button not.
    stream.table(&e[..58]);
    stream.state(State::READY.power_on_without_change());
    for packet in one_of_each() {
        stream.packet(&packet);
    }
    stream.button();
    for packet in one_of_each() {
        stream.packet(&packet);
    }
    stream.packet(&start_stop(LOAD));
    stream.packet(&request_sense(18));
    stream.table(&e);
    stream.packet(&request_sense(18));
}
