//! K11's state, picked by hand: the slots and homes that 11 refuses, the order of the
//! tests, power-on, the outside call, and what is the first device's.

use crate::cases::breaks::breaks;
use crate::cases::packets::{
    capacity, event_status, inquiry, load, load_unload, mechanism_status, mode_select, one_of_each,
    page_list, plain, prevent, request_sense, start_stop, test_ready, unload, Packet, CODES, EJECT,
    LOAD,
};
use crate::cases::picked_changer::{bench, locked, packets, place, KINDS};
use crate::cases::picked_state::{all_flags, MEMORY};
use crate::cases::several::alone;
use crate::cases::sheet::disc_e;
use crate::cases::stream::Stream;
use crate::drive::State;
use crate::events::OPENED;
use crate::mode_page::ModePage;
use crate::play::{Play, COMPLETED, PAUSED, PLAYING};
use crate::sense::Sense;

/// The changer's two forms of power-on, as calls.
pub const CHANGER_FORMS: [fn(&mut Stream); 2] = [
    Stream::changer_power_on,
    Stream::changer_power_on_without_change,
];

/// This state with the tray open, and nothing else moved.
fn ajar(drive: State) -> State {
    State {
        tray_open: true,
        ..drive
    }
}

/// Nothing lent, from a state of zeros: 2 comes first, then 3, then 11 for no slots; the
/// outside call looks at the state alone, and power-on at nothing.
pub fn nothing_lent(stream: &mut Stream) {
    stream.table(&[]);
    stream.memory(0, 0);
    stream.list(&[]);
    let zeros = State {
        play: Play::new(0, 0, 0),
        ..State::EMPTY
    };
    for drive in [zeros, State::EMPTY, State::READY] {
        for memory in [0, MEMORY] {
            stream.memory(memory, 0x11);
            place(stream, drive, 0, &[]);
            packets(stream, &[test_ready(), load(0), mechanism_status(8)]);
            stream.changer_packet(&[]);
            stream.changer_move_on(0);
            for form in CHANGER_FORMS {
                form(stream);
            }
            packets(stream, &[test_ready(), inquiry(5)]);
        }
    }
}

/// 0 to 33 slots and 255, with a disc in the drive and without.
pub fn slot_counts(stream: &mut Stream) {
    bench(stream, State::READY, 0, &[0]);
    for count in (0..=33).chain([64, 127, 128, 255]) {
        let bytes = vec![0x00; count];
        place(stream, State::READY, 0, &bytes);
        packets(stream, &[mechanism_status(8), load_unload(2, 0)]);
        if count < 2 || count > 30 {
            place(stream, State::EMPTY, 0, &bytes);
            packets(stream, &[load(0), test_ready()]);
        }
    }
}

/// Every home byte of a disc in the drive with four empty slots; with 31, and of no disc,
/// those next to a border.
pub fn every_home(stream: &mut Stream) {
    bench(stream, State::READY, 0, &[0x00; 4]);
    for home in 0..=255 {
        stream.home(home);
        stream.changer_packet(&test_ready());
    }
    place(stream, State::READY, 0, &[0x00; 31]);
    for home in (27..=33).chain([62, 63, 64, 95, 127, 128, 159, 191, 223, 254, 255]) {
        stream.home(home);
        stream.changer_packet(&test_ready());
    }
    place(stream, State::EMPTY, 0, &[0x80, 0x81]);
    for home in [0, 1, 2, 3, 30, 31, 32, 127, 128, 254, 255] {
        stream.home(home);
        stream.changer_packet(&request_sense(0));
    }
}

/// A disc in the drive whose home has each kind of slot; with none in it no home is
/// looked at.
pub fn occupied_homes(stream: &mut Stream) {
    bench(stream, State::READY, 0, &KINDS);
    for drive in [State::READY, State::EMPTY] {
        for home in 0..6 {
            place(stream, drive, home, &KINDS);
            let list = [
                inquiry(1),
                load(home),
                mechanism_status(1),
                load(2),
                unload(),
            ];
            packets(stream, &list);
        }
    }
}

/// The tray open, with a disc in it or not: 11, whatever the packet, and nothing is told.
pub fn open_trays(stream: &mut Stream) {
    bench(stream, State::READY, 2, &KINDS);
    for flags in all_flags().filter(|flags| flags.tray_open) {
        stream.state(flags);
        packets(stream, &[load(0), mechanism_status(8)]);
    }
    for drive in [State::READY, State::EMPTY] {
        place(stream, ajar(drive), 2, &KINDS);
        for packet in one_of_each().iter().step_by(3) {
            stream.changer_packet(packet);
        }
        // The tray is the first device's: closed there, it is the changer's again.
        stream.button();
        packets(stream, &[load(1), load(1), test_ready()]);
    }
}

/// The four causes of 11 in one state or another, by themselves and together.
pub fn causes_together(stream: &mut Stream) {
    bench(stream, State::READY, 0, &[0]);
    for bytes in [
        &[][..],
        &[0x00],
        &[0x80],
        &[0x00; 31],
        &[0x00; 32],
        &[0x80; 32],
    ] {
        for drive in [
            State::READY,
            State::EMPTY,
            ajar(State::READY),
            ajar(State::EMPTY),
        ] {
            for home in [0, 31, 32] {
                place(stream, drive, home, bytes);
                stream.changer_packet(&mechanism_status(2));
            }
        }
    }
}

/// 1, 2, 3, 11 and 4 in their order: every combination of them, met by the three of the
/// changer's own and one of the first device's.
pub fn tests_in_order(stream: &mut Stream) {
    let e = disc_e().bytes();
    bench(stream, State::READY, 0, &[0]);
    for n in 0..32u8 {
        let on = |bit: u8| n & bit != 0;
        stream.table(if on(1) { &e[..58] } else { &e });
        stream.memory(if on(4) { MEMORY - 1 } else { MEMORY }, n);
        let drive = State {
            event: if on(8) { 4 } else { OPENED },
            ..State::READY
        };
        let length = if on(16) { 11 } else { 12 };
        for packet in [load(1), mechanism_status(9), start_stop(EJECT), capacity()] {
            place(stream, drive, u8::from(on(2)), &[0x00, 0x80]);
            stream.changer_packet(&packet[..length]);
        }
    }
    stream.memory(MEMORY, 0);
}

/// 11 for each cause before 4 by each rule, and behind 3.
pub fn eleven_in_place(stream: &mut Stream) {
    bench(stream, State::READY, 0, &[0]);
    for rule in 1..=7 {
        stream.table(&alone(rule));
        for (drive, home, bytes) in [
            (State::READY, 0, &[][..]),
            (State::READY, 0, &[0x00; 32]),
            (ajar(State::READY), 0, &[0x00]),
            (State::READY, 0, &[0x80]),
            (State::READY, 1, &[0x00]),
            (State::READY, 0, &[0x00]),
            (State::EMPTY, 0, &[0x00]),
        ] {
            place(stream, drive, home, bytes);
            packets(stream, &[test_ready(), load(0)]);
        }
    }
}

/// Fit tables and unfit ones, with a disc in the drive and without: 4 with its rule for
/// every packet, the changer's own too, where one is in as the call begins.
pub fn tables_looked_at(stream: &mut Stream) {
    bench(stream, State::READY, 2, &KINDS);
    for table in breaks().into_iter().skip(11).step_by(101) {
        stream.table(&table.table);
        for drive in [State::READY, State::EMPTY] {
            place(stream, drive, 2, &KINDS);
            packets(stream, &[load(0), test_ready()]);
        }
    }
    stream.table(&disc_e().bytes()[..58]);
    for drive in [State::READY, State::EMPTY] {
        place(stream, drive, 2, &KINDS);
        for packet in one_of_each().iter().step_by(2) {
            stream.changer_packet(packet);
        }
        packets(stream, &[mechanism_status(8), start_stop(EJECT), unload()]);
    }
}

/// Every command of the first device, on it and on the changer, from the same state:
/// loaded, empty, locked, told, full. The three of the changer's own tell them apart.
pub fn devices_alike(stream: &mut Stream) {
    bench(stream, State::READY, 2, &KINDS);
    stream.list(&page_list(0x14, 3));
    let full = State {
        play: Play::new(PLAYING, 160, 290),
        mode: ModePage::new(0x35, 0x53),
        event: OPENED,
        ..locked(State::READY)
    };
    for drive in [State::READY, State::EMPTY, full] {
        for told in [false, true] {
            let drive = State {
                power: told,
                change: told && drive.lock,
                ..drive
            };
            // Told, most packets show the same.
            let step = if told { 3 } else { 1 };
            for packet in one_of_each().iter().step_by(step) {
                stream.packet_from(drive, packet);
                stream.changer_packet_from(drive, packet);
            }
        }
    }
    stream.list(&[]);
}

/// All 256 codes on the changer with a disc in its drive; with none the known ones and one
/// in sixteen.
pub fn every_code(stream: &mut Stream) {
    bench(stream, State::READY, 2, &KINDS);
    for (drive, fill) in [(State::READY, 0x00), (State::EMPTY, 0x02)] {
        for code in 0..=255u8 {
            let known = CODES.contains(&code) || [0xA6, 0xBD].contains(&code);
            let mut p: Packet = [fill; 12];
            p[0] = code;
            // An unknown code leaves all but the sense.
            if known || drive.disc_in || code % 16 == 7 {
                if known {
                    place(stream, drive, 2, &KINDS);
                }
                stream.changer_packet(&p);
            }
        }
    }
}

/// "its 1Bh with LoEj 1 is 05/24/00": the four pairs, with a disc and without, locked and
/// not, told first; beside them the first device's.
pub fn no_tray_calls(stream: &mut Stream) {
    bench(stream, State::READY, 2, &KINDS);
    for drive in [State::READY, State::EMPTY] {
        for (lock, power, change) in [
            (false, false, false),
            (true, false, false),
            (false, true, false),
            (false, false, true),
            (true, true, true),
        ] {
            let drive = State {
                lock,
                power,
                change,
                ..drive
            };
            for low_bits in [0, 1, EJECT, LOAD, 0xFE, 0xFD] {
                stream.state(drive);
                packets(stream, &[start_stop(low_bits); 2]);
            }
        }
        stream.packet_from(drive, &start_stop(EJECT));
        stream.packet_from(drive, &start_stop(LOAD));
    }
}

/// Each form on every setting of the flags and on states that 2 and 11 refuse: an empty
/// closed drive, home 0, the slots as they were, power alone pending.
pub fn changer_power_ons(stream: &mut Stream) {
    bench(stream, State::READY, 2, &KINDS);
    let strange = State {
        sense: Sense::new(0xFF, 0, 1),
        play: Play::new(PAUSED, 9, 5),
        mode: ModePage::new(0x02, 7),
        event: 9,
        ..locked(State::READY)
    };
    for drive in all_flags().chain([strange]) {
        for form in CHANGER_FORMS {
            stream.home(3);
            stream.state(drive);
            form(stream);
        }
        stream.changer_packet(&test_ready());
    }
    let full = State {
        sense: Sense::new(5, 0x24, 0),
        play: Play::new(PLAYING, 160, 290),
        mode: ModePage::new(0x35, 0x53),
        event: OPENED,
        ..locked(State::READY)
    };
    for bytes in [&[][..], &[0x81], &[0x80; 31], &[0x01; 33]] {
        for home in [0, 30, 255] {
            for form in CHANGER_FORMS {
                place(stream, full, home, bytes);
                form(stream);
                packets(stream, &[test_ready(), load(0)]);
            }
        }
    }
}

/// One power-on after another, and the first device's between, which keeps the disc.
pub fn power_ons_in_turn(stream: &mut Stream) {
    bench(stream, State::READY, 2, &KINDS);
    for first in CHANGER_FORMS {
        for last in CHANGER_FORMS {
            place(stream, State::READY, 2, &KINDS);
            first(stream);
            packets(stream, &[test_ready(), load(1)]);
            stream.power_on();
            packets(stream, &[test_ready(), test_ready(), mechanism_status(24)]);
            last(stream);
            packets(stream, &[test_ready(), test_ready()]);
        }
    }
}

/// "The outside call tests 2 alone": a playing position moves on though 11, 3 and 4 would
/// refuse, home and slots stay.
pub fn outside_calls(stream: &mut Stream) {
    bench(stream, State::READY, 2, &KINDS);
    for status in [PLAYING, PAUSED, COMPLETED, 0x15, 0x14] {
        for (position, k) in [(160, 0), (160, 129), (160, 130), (290, 0), (160, u32::MAX)] {
            let drive = State {
                play: Play::new(status, position, 290),
                ..State::READY
            };
            place(stream, drive, 2, &KINDS);
            stream.changer_move_on(k);
        }
    }
    let playing = State {
        play: Play::new(PLAYING, 160, 290),
        ..State::READY
    };
    let empty = State {
        disc_in: false,
        ..playing
    };
    stream.table(&[]);
    for memory in [0, MEMORY] {
        stream.memory(memory, 0);
        for drive in [playing, ajar(playing), empty] {
            for bytes in [&[][..], &[0x80], &[0x01; 33]] {
                place(stream, drive, 7, bytes);
                stream.changer_move_on(1);
            }
        }
    }
    for event in [3, 4, 255] {
        place(stream, State { event, ..playing }, 2, &KINDS);
        stream.changer_move_on(1);
        stream.move_on(1);
    }
}

/// "On the first device A6h and BDh stay unknown", though slots are lent.
pub fn unknown_on_the_first(stream: &mut Stream) {
    bench(stream, State::READY, 2, &KINDS);
    for drive in [State::READY, State::EMPTY, ajar(State::READY)] {
        for (power, change) in [(false, false), (true, true)] {
            for packet in [load(0), unload(), mechanism_status(24), plain(0xA6)] {
                let pending = State {
                    power,
                    change,
                    ..drive
                };
                stream.packet_from(pending, &packet);
            }
        }
    }
    place(stream, State::READY, 2, &KINDS);
    stream.changer_packet(&mechanism_status(24));
}

/// One state for both devices, calls on each in turn: what the one leaves the other
/// meets, and the home waits while the first device lifts and lays.
pub fn devices_in_turn(stream: &mut Stream) {
    bench(stream, State::EMPTY, 0, &[0x80, 0x81, 0x00]);
    packets(stream, &[load(1), test_ready()]);
    stream.packet(&capacity());
    stream.packet(&prevent(1));
    packets(stream, &[load(0), event_status(0x10, 8)]);
    stream.button();
    packets(stream, &[event_status(0x10, 8), prevent(0), mode_select(0)]);
    stream.button();
    packets(stream, &[mechanism_status(20), test_ready()]);
    stream.lift();
    stream.button();
    packets(
        stream,
        &[mechanism_status(20), load(0), test_ready(), unload()],
    );
    stream.button();
    stream.lay();
    stream.button();
    // A disc with home 0, where the other stands again.
    packets(stream, &[test_ready(), load(2)]);
    stream.home(2);
    packets(
        stream,
        &[test_ready(), load(0), test_ready(), mechanism_status(20)],
    );
    stream.power_on();
    packets(stream, &[test_ready(), test_ready(), unload()]);
    stream.power_on_without_change();
    packets(stream, &[test_ready(), mechanism_status(20)]);
}
