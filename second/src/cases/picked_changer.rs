//! K11's LOAD/UNLOAD, picked by hand: its packet, what it moves and what it leaves.

use crate::cases::draft::t134;
use crate::cases::packets::{
    capacity, event_status, load, load_unload, mechanism_status, named_bits, play, position,
    prevent, read10, request_sense, test_ready, toc, unload, Packet,
};
use crate::cases::picked_state::MEMORY;
use crate::cases::sheet::{disc_e, two_sessions};
use crate::cases::stream::Stream;
use crate::changer::Slot;
use crate::drive::State;
use crate::events::{LOADED, OPENED, PRESSED};
use crate::mode_page::ModePage;
use crate::play::{Play, COMPLETED, PAUSED, PLAYING};
use crate::sense::{self, TRIPLES};

/// Slots by their bytes: 80h present, 01h changed.
pub fn slots(bytes: &[u8]) -> Vec<Slot> {
    bytes.iter().map(|&byte| Slot::of(byte)).collect()
}

/// Table E, a memory and no list; this drive, its disc's home and these slots.
pub fn bench(stream: &mut Stream, drive: State, home: u8, bytes: &[u8]) {
    stream.table(&disc_e().bytes());
    stream.memory(MEMORY, 0xA6);
    stream.list(&[]);
    place(stream, drive, home, bytes);
}

/// The drive, its disc's home and the slots alone.
pub fn place(stream: &mut Stream, drive: State, home: u8, bytes: &[u8]) {
    stream.slots(&slots(bytes));
    stream.home(home);
    stream.state(drive);
}

pub fn packets(stream: &mut Stream, list: &[Packet]) {
    for packet in list {
        stream.changer_packet(packet);
    }
}

pub fn locked(drive: State) -> State {
    State {
        lock: true,
        ..drive
    }
}

/// Of four slots: a disc, a changed disc, none, and none where one was changed.
pub const KINDS: [u8; 4] = [0x80, 0x81, 0x00, 0x01];

/// A disc in the drive and none in it, with a home that four slots leave open.
pub const DRIVES: [(State, u8); 2] = [(State::READY, 2), (State::EMPTY, 2)];

/// The marks of the changer in one run: a power-on, loads of one slot and another, of
/// an empty one and of the home, unloads, and the status between.
pub fn marked_changer(stream: &mut Stream) {
    bench(stream, State::READY, 2, &[0x81, 0x80, 0x00]);
    stream.changer_power_on();
    let status = mechanism_status(20);
    packets(stream, &[test_ready(), status, test_ready(), load(0)]);
    packets(stream, &[event_status(0x10, 8), test_ready(), test_ready()]);
    packets(stream, &[capacity(), status, load(1), test_ready(), status]);
    packets(
        stream,
        &[load(2), capacity(), event_status(0x10, 8), status],
    );
    packets(stream, &[load(1), request_sense(18), load(1), status]);
    packets(stream, &[test_ready(), unload(), status, unload(), status]);
    packets(stream, &[load(3), load_unload(2, 3), load_unload(1, 0)]);
    packets(
        stream,
        &[prevent(1), load(0), unload(), prevent(0), load(0)],
    );
    stream.changer_power_on_without_change();
    packets(stream, &[status, status]);
}

/// Each pair with every other bit of byte 4 off and on, a disc in the drive or none, of a
/// slot there is and of one beyond the last, locked and not.
pub fn every_pair(stream: &mut Stream) {
    bench(stream, State::READY, 2, &KINDS);
    for low_bits in 0..4u8 {
        for high_bits in [0x00, 0x04, 0x80, 0xFC] {
            for (drive, home) in DRIVES {
                for slot in [1, 4] {
                    let packet = load_unload(high_bits | low_bits, slot);
                    place(stream, drive, home, &KINDS);
                    stream.changer_packet(&packet);
                    if high_bits == 0 {
                        place(stream, locked(drive), home, &KINDS);
                        stream.changer_packet(&packet);
                    }
                }
            }
        }
    }
}

/// Every slot byte: Load with three slots, Unload with one; with 31 those next to a
/// border. The home is where the one before put the disc.
pub fn every_slot(stream: &mut Stream) {
    bench(stream, State::READY, 1, &[0x81, 0x00, 0x81]);
    for slot in 0..=255 {
        if slot < 4 {
            stream.state(State::READY);
        }
        stream.changer_packet(&load(slot));
    }
    place(stream, State::READY, 0, &[0x00]);
    for slot in 0..=255 {
        stream.changer_packet(&load_unload(2, slot));
    }
    place(stream, State::EMPTY, 0, &[0x81; 31]);
    for slot in [
        0, 1, 15, 16, 29, 30, 31, 32, 33, 47, 62, 63, 64, 95, 127, 128, 158, 254, 255,
    ] {
        stream.changer_packet_from(State::EMPTY, &load(slot));
    }
}

/// The last slot and the first beyond it, of few slots and of many.
pub fn last_slots(stream: &mut Stream) {
    bench(stream, State::READY, 0, &[0]);
    for count in [1, 2, 3, 4, 7, 8, 15, 16, 30, 31u8] {
        let mut bytes = vec![0x01; usize::from(count)];
        bytes[usize::from(count) - 1] = 0x81;
        place(stream, State::EMPTY, 0, &bytes);
        packets(stream, &[load(count), load_unload(2, count)]);
        packets(stream, &[load_unload(2, count - 1), load(count - 1)]);
    }
}

/// From each kind of slot to each, and back: the home's changed mark is kept, the named
/// slot's goes to 0, and every other slot stays.
pub fn changed_marks(stream: &mut Stream) {
    bench(stream, State::READY, 2, &KINDS);
    for home in [0x00, 0x01] {
        for named in KINDS {
            for (drive, at) in [(State::READY, 1), (State::EMPTY, 0)] {
                place(stream, drive, at, &[0x81, home, named, 0x01]);
                packets(stream, &[load(2), test_ready(), load_unload(2, 3)]);
            }
        }
        // Of the home slot: returned, then taken.
        place(stream, State::READY, 1, &[0x81, home, 0x81, 0x01]);
        packets(stream, &[load(1), test_ready(), unload()]);
    }
}

/// Loads of another slot, of the home and of an empty one, from a disc in the drive and
/// from none, with what they tell and what the status is between.
pub fn moves_in_turn(stream: &mut Stream) {
    let status = mechanism_status(24);
    bench(stream, State::READY, 2, &[]);
    for (drive, home) in [(State::READY, 2), (State::EMPTY, 9)] {
        for first in 0..4 {
            for second in 0..4 {
                place(stream, drive, home, &[0x80, 0x81, 0x00, 0x01]);
                packets(stream, &[load(first), test_ready(), load(second)]);
            }
            packets(stream, &[status, test_ready(), unload(), status]);
        }
    }
}

/// Unload with a disc and without, once and again, of each slot there is; the home of a
/// drive without one is left as it is.
pub fn unloads(stream: &mut Stream) {
    bench(stream, State::READY, 2, &KINDS);
    for slot in 0..4 {
        for (drive, home) in [(State::READY, 2), (State::READY, 3), (State::EMPTY, 3)] {
            place(stream, drive, home, &KINDS);
            packets(stream, &[load_unload(2, slot); 2]);
            stream.changer_packet(&mechanism_status(24));
        }
    }
    for home in [0, 1, 4, 31, 255] {
        place(stream, State::EMPTY, home, &KINDS);
        packets(stream, &[unload(), load(2), load(3), mechanism_status(1)]);
        packets(stream, &[load(0), test_ready(), unload()]);
    }
}

/// Under lock: pair and slot first, then 05/53/02, also where nothing would move; the
/// lock set and taken off by 1Eh.
pub fn locked_moves(stream: &mut Stream) {
    bench(stream, State::READY, 2, &KINDS);
    for (drive, home) in DRIVES {
        for low_bits in 0..4 {
            for slot in [0, 2, 3, 4, 255] {
                place(stream, locked(drive), home, &KINDS);
                stream.changer_packet(&load_unload(low_bits, slot));
            }
        }
        place(stream, drive, home, &KINDS);
        packets(stream, &[prevent(1), load(0), unload(), load(2)]);
        packets(stream, &[mechanism_status(24), prevent(0), load(2)]);
        packets(
            stream,
            &[prevent(1), prevent(1), unload(), prevent(0), unload()],
        );
    }
}

/// With attentions pending, each and both: they are told, power first, whatever is wrong
/// with the packet, and nothing moves.
pub fn moves_while_pending(stream: &mut Stream) {
    bench(stream, State::READY, 2, &KINDS);
    for (drive, home) in DRIVES {
        for (power, change) in [(true, false), (false, true), (true, true)] {
            let pending = State {
                power,
                change,
                ..drive
            };
            for packet in [load(0), unload(), load(4), load_unload(0, 0)] {
                place(stream, pending, home, &KINDS);
                packets(stream, &[packet; 3]);
            }
            place(stream, locked(pending), home, &KINDS);
            packets(stream, &[load(0); 2]);
        }
    }
}

/// A held sense, each of the thirteen: cleared by a GOOD move, replaced by a fault.
pub fn moves_and_senses(stream: &mut Stream) {
    bench(stream, State::READY, 2, &KINDS);
    for held in TRIPLES {
        for packet in [load(0), load(3), unload(), load(4)] {
            let drive = State {
                sense: held,
                ..State::READY
            };
            place(stream, drive, 2, &KINDS);
            stream.changer_packet(&packet);
        }
        place(stream, locked(State::READY), 2, &KINDS);
        packets(stream, &[unload(), request_sense(18)]);
    }
}

/// The media event behind a return, a take, both and neither, whatever it was.
pub fn move_events(stream: &mut Stream) {
    bench(stream, State::READY, 2, &KINDS);
    let poll = event_status(0x18, 8);
    for event in [0, PRESSED, LOADED, OPENED] {
        for (drive, home) in DRIVES {
            for packet in [load(0), load(2), load(3), unload(), load(4)] {
                place(stream, State { event, ..drive }, home, &KINDS);
                packets(stream, &[packet, poll, poll]);
            }
        }
    }
}

/// A play record behind a return, a take, both and neither; the mode page stays.
pub fn move_records(stream: &mut Stream) {
    bench(stream, State::READY, 2, &KINDS);
    for play in [
        Play::new(PLAYING, 160, 290),
        Play::new(PAUSED, 160, 290),
        Play::new(COMPLETED, 290, 290),
        Play::new(0x15, 160, 290),
    ] {
        for (drive, home) in DRIVES {
            let full = State {
                play,
                mode: ModePage::new(0x35, 0x53),
                sense: sense::WRONG_MODE,
                ..drive
            };
            for packet in [load(0), load(2), load(3), unload(), load_unload(1, 0)] {
                place(stream, full, home, &KINDS);
                stream.changer_packet(&packet);
            }
            place(stream, locked(full), home, &KINDS);
            stream.changer_packet(&load(0));
        }
    }
}

/// A play on the changer, returned and taken in the middle of it.
pub fn played_and_moved(stream: &mut Stream) {
    bench(stream, State::READY, 0, &[0x00, 0x80]);
    for packet in [load(0), load(1), unload()] {
        place(stream, State::READY, 0, &[0x00, 0x80]);
        stream.changer_packet(&play(150, 100));
        stream.changer_move_on(10);
        packets(stream, &[position(false), packet, position(false)]);
        stream.changer_move_on(10);
        packets(stream, &[position(false), play(150, 5), position(true)]);
    }
}

/// Another table lent for each disc: the one lent to a call is that of the disc in the
/// drive as it begins. A load looks at the disc that it returns.
pub fn tables_in_turn(stream: &mut Stream) {
    let tables = [disc_e(), two_sessions(), t134()].map(|sheet| sheet.bytes());
    bench(stream, State::EMPTY, 0, &[0x80, 0x81, 0x80, 0x00]);
    for slot in [0, 1, 2, 1, 3, 0] {
        stream.changer_packet(&load(slot));
        stream.table(tables.get(usize::from(slot)).unwrap_or(&tables[0]));
        packets(stream, &[test_ready(), capacity(), toc(false, 1, 0, 12)]);
        packets(stream, &[read10(0, 1), toc(true, 0, 0, 804)]);
    }
    // What the next disc's table is, the load does not ask.
    for table in [&[][..], &tables[0][..58]] {
        for (drive, home) in DRIVES {
            stream.table(table);
            place(stream, drive, home, &KINDS);
            packets(stream, &[load(0), test_ready(), unload()]);
            stream.table(&tables[0]);
            packets(stream, &[load(0), test_ready(), unload()]);
        }
    }
}

/// Every bit behind the code turned over, of Load and Unload, and all that no rule names
/// at once: byte 4's low two and byte 8 alone tell.
pub fn move_bits(stream: &mut Stream) {
    bench(stream, State::READY, 2, &KINDS);
    for packet in [load(1), load_unload(2, 1)] {
        for bit in 8..96 {
            let mut p = packet;
            p[bit / 8] ^= 0x80 >> (bit % 8);
            // Bits of bytes that no rule names: one in three is enough.
            if bit % 3 == 0 || [4, 8].contains(&(bit / 8)) {
                place(stream, State::READY, 2, &KINDS);
                stream.changer_packet(&p);
            }
        }
        let named = named_bits(0xA6);
        let mut full = packet;
        for place in 1..12 {
            full[place] |= !named[place];
        }
        place(stream, State::READY, 2, &KINDS);
        stream.changer_packet(&full);
    }
}

/// One disc taken through all slots of a full changer and back, each told, every total
/// kept.
pub fn all_in_turn(stream: &mut Stream) {
    bench(stream, State::EMPTY, 0, &[0x81; 6]);
    for slot in (0..6).chain([5, 4, 4, 0]) {
        packets(stream, &[load(slot), test_ready(), mechanism_status(32)]);
    }
    packets(stream, &[unload(), mechanism_status(32), unload()]);
}
