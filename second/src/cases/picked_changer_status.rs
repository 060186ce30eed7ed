//! K11's MECHANISM STATUS, picked by hand: its packet and each byte of its answer.

use crate::cases::packets::{
    event_status, load, mechanism_status, named_bits, request_sense, test_ready, unload,
};
use crate::cases::picked_changer::{bench, locked, packets, place, KINDS};
use crate::cases::picked_state::MEMORY;
use crate::cases::stream::Stream;
use crate::drive::State;
use crate::mode_page::ModePage;
use crate::play::{Play, COMPLETED, PAUSED, PLAYING};
use crate::sense::TRIPLES;

/// Lengths around the header's eight bytes and each slot's four, of one slot to three,
/// and of 31: only the bytes within them are written, and no length inside is cut.
pub fn status_lengths(stream: &mut Stream) {
    bench(stream, State::READY, 1, &[0x80]);
    for count in 1..=3 {
        let ends = (1..=3).flat_map(|slot| 4 * slot + 7..=4 * slot + 9);
        for length in (0..=12).chain(ends).chain([0x0100, 0x0800, 0xFFFF]) {
            stream.memory(MEMORY, length as u8 ^ 0x5A);
            place(stream, State::EMPTY, 1, &[0x81, 0x80, 0x01][..count]);
            stream.changer_packet(&mechanism_status(length));
        }
    }
    let most: Vec<u8> = (0..31).map(|slot| KINDS[slot % 4]).collect();
    place(stream, State::READY, 30, &most);
    for length in [0, 8, 128, 131, 132, 133, 0x0100, 0xFFFF] {
        stream.memory(MEMORY, length as u8);
        stream.changer_packet(&mechanism_status(length));
    }
}

/// The whole answer of few slots and of many, the home the last of them.
pub fn status_counts(stream: &mut Stream) {
    bench(stream, State::READY, 0, &[0]);
    for count in [1, 2, 3, 4, 5, 8, 15, 16, 17, 30, 31u8] {
        let mut bytes: Vec<u8> = (0..count)
            .map(|slot| KINDS[usize::from(slot) % 4])
            .collect();
        bytes[usize::from(count) - 1] = count & 1;
        place(stream, State::READY, count - 1, &bytes);
        stream.changer_packet(&mechanism_status(0xFFFF));
    }
}

/// The first byte: the home of the disc in the drive, each of 31; 0 with none, whatever
/// the state's home.
pub fn status_homes(stream: &mut Stream) {
    bench(stream, State::READY, 0, &[0x00; 31]);
    for home in 0..31 {
        stream.home(home);
        stream.changer_packet(&mechanism_status(6));
    }
    place(stream, State::EMPTY, 0, &KINDS);
    for home in [0, 1, 2, 3, 4, 30, 31, 32, 64, 128, 129, 255] {
        stream.home(home);
        stream.changer_packet(&mechanism_status(6));
    }
}

/// Kinds of slots in three places, a disc in the drive or none.
pub fn status_slots(stream: &mut Stream) {
    bench(stream, State::READY, 3, &[0]);
    for n in (0..64).step_by(3) {
        let bytes = [KINDS[n % 4], KINDS[n / 4 % 4], KINDS[n / 16], 0x01];
        let drive = [State::READY, State::EMPTY][n % 2];
        place(stream, drive, 3, &bytes);
        stream.changer_packet(&mechanism_status(24));
    }
}

/// It needs no disc, clears nothing and moves nothing: full drives, twice, and a load
/// between.
pub fn status_moves_nothing(stream: &mut Stream) {
    bench(stream, State::READY, 2, &KINDS);
    let status = mechanism_status(24);
    for play in [
        Play::new(PLAYING, 160, 290),
        Play::new(PAUSED, 160, 290),
        Play::new(COMPLETED, 290, 290),
    ] {
        for event in 0..4 {
            let drive = State {
                play,
                event,
                mode: ModePage::new(0x24, 0x42),
                ..locked(State::READY)
            };
            place(stream, drive, 2, &KINDS);
            packets(stream, &[status, status]);
            let empty = State {
                disc_in: false,
                ..drive
            };
            place(stream, empty, 2, &KINDS);
            stream.changer_packet(&status);
        }
    }
    place(stream, State::READY, 2, &KINDS);
    packets(stream, &[load(1), status, status, status, unload(), status]);
}

/// The gate and the sense: told first, each attention and both; a held sense cleared.
pub fn status_told_first(stream: &mut Stream) {
    bench(stream, State::READY, 2, &KINDS);
    for drive in [State::READY, State::EMPTY] {
        for (power, change) in [(true, false), (false, true), (true, true)] {
            let pending = State {
                power,
                change,
                ..drive
            };
            for length in [0, 24] {
                place(stream, pending, 2, &KINDS);
                packets(stream, &[mechanism_status(length); 3]);
            }
            place(stream, pending, 2, &KINDS);
            packets(stream, &[event_status(0x18, 8), request_sense(18)]);
            packets(stream, &[mechanism_status(1), test_ready()]);
        }
    }
    for held in TRIPLES {
        let drive = State {
            sense: held,
            ..State::READY
        };
        stream.changer_packet_from(drive, &mechanism_status(0));
    }
}

/// Every bit behind the code turned over, and all that no rule names at once: bytes 8 and
/// 9 alone tell.
pub fn status_bits(stream: &mut Stream) {
    bench(stream, State::READY, 2, &KINDS);
    for bit in 8..96 {
        let mut p = mechanism_status(9);
        p[bit / 8] ^= 0x80 >> (bit % 8);
        // Bits of bytes that no rule names: one in three is enough.
        if bit % 3 == 0 || (7..=10).contains(&(bit / 8)) {
            stream.changer_packet(&p);
        }
    }
    let named = named_bits(0xBD);
    let mut full = mechanism_status(9);
    for place in 1..12 {
        full[place] |= !named[place];
    }
    stream.changer_packet(&full);
}
