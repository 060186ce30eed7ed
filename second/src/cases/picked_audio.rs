//! K2's audio, picked by hand: PLAY, PAUSE/RESUME and READ SUB-CHANNEL at their
//! boundaries, the outside call, and what sets or leaves the play record.

use crate::cases::packets::{
    capacity, named_bits, pause, plain, play, position, prevent, read10, read12, request_sense,
    resume, seek, start_stop, sub_channel, test_ready, toc, Marks, Packet, EJECT, LOAD,
};
use crate::cases::picked_power::FORMS;
use crate::cases::picked_state::{all_flags, MEMORY};
use crate::cases::sheet::{
    disc_e, one_long_audio, one_long_track, three_sittings, two_sessions, Sheet,
};
use crate::cases::stream::Stream;
use crate::drive::State;
use crate::limits::TOP_ADDRESS;
use crate::play::{Play, COMPLETED, NO_STATUS, PAUSED, PLAYING, STATUSES};
use crate::sense;
use crate::table;

/// Loaded, nothing pending, with this record.
fn with(status: u8, position: u32, end: u32) -> State {
    State {
        play: Play::new(status, position, end),
        ..State::READY
    }
}

fn lend(stream: &mut Stream, sheet: &Sheet) -> Marks {
    let bytes = sheet.bytes();
    stream.table(&bytes);
    stream.memory(MEMORY, 0x2A);
    Marks::of(table::read(&bytes).ok().as_ref())
}

/// The marked results of K2, on Disc E, loaded, nothing pending.
pub fn marked_audio(stream: &mut Stream) {
    lend(stream, &disc_e());
    stream.state(State::READY);
    stream.packet(&play(150, 150));
    stream.packet(&position(false));
    stream.move_on(10);
    stream.packet(&position(false));
    stream.packet(&position(true));
    stream.packet(&sub_channel(false, false, 1, 16));
    stream.packet(&sub_channel(false, true, 2, 16));
    for packet in [play(149, 2), play(300, 0), play(150, 151)] {
        stream.packet(&packet);
    }
    for packet in [pause(), pause(), resume(), resume()] {
        stream.packet(&packet);
    }
    stream.move_on(140);
    for _ in 0..2 {
        stream.packet(&position(false));
    }
    for packet in [resume(), pause()] {
        stream.packet(&packet);
    }
}

/// Addresses next to a disc's marks, and the largest.
fn near(marks: &Marks) -> Vec<u32> {
    let next = |&mark: &u32| [mark.wrapping_sub(1), mark, mark + 1];
    let mut addresses: Vec<u32> = marks.blocks.iter().flat_map(next).collect();
    addresses.extend([449_849, 449_850, 0x7FFF_FFFF, 0x8000_0000, u32::MAX - 1]);
    addresses.sort_unstable();
    addresses.dedup();
    addresses
}

/// PLAY at every mark of discs with data and audio mixed, a pre-gap and gaps
/// between sessions, for counts that end next to the marks behind it. Count 0
/// leaves the record, and so does what fails: each meets another record.
pub fn plays(stream: &mut Stream) {
    for sheet in [disc_e(), two_sessions(), three_sittings()] {
        let marks = lend(stream, &sheet);
        for (i, address) in near(&marks).into_iter().enumerate() {
            let mut counts = vec![0, 1, 65_535];
            for &mark in marks.blocks.iter().filter(|&&mark| mark > address).take(3) {
                counts.extend([mark - address, mark - address + 1]);
            }
            counts.extend(marks.end.checked_sub(address));
            counts.sort_unstable();
            counts.dedup();
            for (j, count) in counts.into_iter().filter(|&n| n < 65_536).enumerate() {
                let status = STATUSES[(i + j) % 4];
                stream.packet_from(with(status, 7, 9), &play(address, count as u16));
            }
        }
    }
}

/// PLAY of the longest runs, on one audio track over the whole range and on one
/// data track; each bit of the address and of the count.
pub fn long_plays(stream: &mut Stream) {
    for sheet in [one_long_audio(), one_long_track()] {
        let marks = lend(stream, &sheet);
        stream.state(State::READY);
        for address in [0, 1, 384_313, 384_314, 384_315, 449_847, 449_848, 449_849] {
            let left = marks.end - address;
            for count in [0, 1, 2, 256, 65_534, 65_535, left, left + 1] {
                stream.packet(&play(address, count as u16));
            }
        }
        for address in [u32::MAX, u32::MAX - 65_534, 1 << 24, 1 << 31] {
            stream.packet(&play(address, 65_535));
            stream.packet(&play(address, 0));
        }
        // Each byte of the address and of the count tells.
        for bit in 0..19 {
            stream.packet(&play(1 << bit, 1));
            stream.packet(&play(0, 1 << (bit % 16)));
        }
    }
}

/// One PLAY after another, paused or not: the last one's run is what plays.
pub fn play_again(stream: &mut Stream) {
    lend(stream, &two_sessions());
    for first in STATUSES {
        stream.state(with(first, 450, 500));
        for packet in [
            play(600, 20),
            play(400, 500),
            pause(),
            play(899, 1),
            play(899, 0),
            play(899, 2),
            position(true),
        ] {
            stream.packet(&packet);
            stream.move_on(0);
        }
    }
}

/// PAUSE/RESUME in each status, twice, with each bit of byte 8, loaded and not.
pub fn pauses(stream: &mut Stream) {
    lend(stream, &disc_e());
    let held = |state| State {
        sense: sense::WRONG_MODE,
        ..state
    };
    for status in STATUSES {
        for (position, end) in [(0, 0), (160, 300), (300, 300), (TOP_ADDRESS, TOP_ADDRESS)] {
            for packet in [pause(), resume()] {
                stream.packet_from(held(with(status, position, end)), &packet);
                stream.packet(&packet);
                stream.packet(&resume());
                stream.packet(&pause());
            }
        }
        for bit in 0..8 {
            let mut packet = pause();
            packet[8] = 1 << bit;
            stream.packet_from(with(status, 160, 300), &packet);
            packet[8] ^= 0xFF;
            stream.packet_from(with(status, 160, 300), &packet);
        }
        for state in not_loaded(Play::new(status, 160, 300)) {
            stream.packet_from(state, &pause());
            stream.packet_from(state, &resume());
        }
    }
}

/// The three ways not to be loaded, with this record.
fn not_loaded(play: Play) -> [State; 3] {
    let open = |state: State| State {
        tray_open: true,
        ..state
    };
    [State::EMPTY, open(State::EMPTY), open(State::READY)].map(|state| State { play, ..state })
}

/// 42h where the position stands before the first track, at, before and behind
/// each track's start and lead-out, in gaps, at L and past it, by block address
/// and by M:S:F.
pub fn positions(stream: &mut Stream) {
    for sheet in [disc_e(), two_sessions(), three_sittings(), one_long_audio()] {
        let marks = lend(stream, &sheet);
        let mut places = near(&marks);
        places.extend([2, 74, 75, 76, 4_349, 4_350, 4_499, 4_500, 65_536, 449_848]);
        places.retain(|&place| place <= TOP_ADDRESS);
        for (i, place) in places.into_iter().enumerate() {
            let status = STATUSES[i % 4];
            for msf in [false, true] {
                stream.packet_from(with(status, place, TOP_ADDRESS), &position(msf));
            }
        }
    }
}

/// The track is that of the table lent now: a play that began on another disc,
/// or in a table that has no such block.
pub fn other_tables(stream: &mut Stream) {
    lend(stream, &two_sessions());
    stream.state(State::READY);
    stream.packet(&play(610, 280));
    for sheet in [disc_e(), three_sittings(), one_long_track(), two_sessions()] {
        stream.table(&sheet.bytes());
        stream.move_on(60);
        stream.packet(&position(false));
        stream.packet(&position(true));
    }
    stream.table(&disc_e().bytes()[..58]);
    stream.packet(&position(false));
    stream.move_on(1);
    stream.table(&two_sessions().bytes());
    stream.packet(&position(false));
}

/// The position at each status with every allocation length, SubQ on and off:
/// only bytes within it are written, and the length field is not cut.
pub fn sub_lengths(stream: &mut Stream) {
    lend(stream, &disc_e());
    for status in STATUSES {
        for length in [0, 1, 2, 3, 4, 5, 8, 12, 15, 16, 17, 255, 256, 0xFFFF] {
            for (msf, sub_q) in [(false, true), (true, true), (false, false)] {
                stream.memory(MEMORY, length as u8);
                let state = with(status, 160, 300);
                stream.packet_from(state, &sub_channel(msf, sub_q, 1, length));
            }
        }
    }
}

/// Every format, with SubQ 1 and 0: 01h alone is answered, and without SubQ any
/// is. What fails tells nothing: a completed play is told afterwards.
pub fn sub_formats(stream: &mut Stream) {
    lend(stream, &disc_e());
    for format in 0..=255 {
        let completed = with(COMPLETED, 300, 300);
        stream.packet_from(completed, &sub_channel(format % 2 == 1, true, format, 16));
        stream.packet(&sub_channel(false, false, format, 4));
    }
    // The track number is not looked at.
    for track in [1, 2, 3, 99, 100, 0xAA, 255] {
        let mut packet = position(false);
        packet[6] = track;
        stream.packet_from(with(PLAYING, 160, 300), &packet);
    }
}

/// 13h is told once: by a 42h of any length, with SubQ or without, and by no
/// other packet and no failing one.
pub fn told_once(stream: &mut Stream) {
    lend(stream, &disc_e());
    let header = |length| sub_channel(false, false, 1, length);
    let kept: [Packet; 8] = [
        test_ready(),
        sub_channel(false, true, 2, 16),
        request_sense(18),
        toc(false, 0, 0, 804),
        capacity(),
        play(300, 1),
        play(150, 0),
        pause(),
    ];
    for tells in [position(false), position(true), header(4), header(0)] {
        stream.state(with(COMPLETED, 300, 300));
        for packet in kept {
            stream.packet(&packet);
        }
        stream.packet(&tells);
        stream.packet(&tells);
        stream.move_on(5);
        stream.packet(&sub_channel(false, true, 1, 0));
        stream.packet(&position(false));
    }
    for status in STATUSES {
        stream.packet_from(with(status, 300, 300), &sub_channel(true, true, 1, 0));
        stream.packet(&position(false));
    }
}

/// The outside call in each status: k of 0 and 1, to the block before the end,
/// the end, one past it, and the largest; loaded and not.
pub fn moves(stream: &mut Stream) {
    lend(stream, &disc_e());
    for status in STATUSES {
        for (position, end) in [
            (0, 0),
            (0, 1),
            (150, 300),
            (299, 300),
            (300, 300),
            (0, TOP_ADDRESS),
            (TOP_ADDRESS - 1, TOP_ADDRESS),
            (TOP_ADDRESS, TOP_ADDRESS),
        ] {
            let left: u32 = end - position;
            let mut steps = vec![0, 1, left, left + 1, 1 << 31, u32::MAX];
            steps.extend(left.checked_sub(1));
            steps.extend([0u32.wrapping_sub(position), end.wrapping_sub(1)]);
            steps.sort_unstable();
            steps.dedup();
            for k in steps {
                stream.state(with(status, position, end));
                stream.move_on(k);
            }
        }
        for state in not_loaded(Play::new(status, 150, 300)) {
            stream.state(state);
            stream.move_on(149);
            stream.move_on(1);
        }
        // A step at a time, over the end and on.
        stream.state(with(status, 295, 300));
        for _ in 0..7 {
            stream.move_on(1);
        }
        for bit in 0..32 {
            stream.state(with(status, 0, TOP_ADDRESS));
            stream.move_on(1 << bit);
        }
    }
}

/// READ and SEEK in each status, also of count 0: GOOD, they set 15h alone;
/// failing, they leave the record.
pub fn stops(stream: &mut Stream) {
    lend(stream, &disc_e());
    for status in STATUSES {
        for packet in [
            read10(0, 1),
            read10(150, 0),
            read10(149, 1),
            read12(0, 150),
            read12(299, 0),
            seek(0),
            seek(150),
            seek(299),
            read10(149, 2),
            read10(300, 0),
            read12(150, 1),
            read12(0, 301),
            read12(u32::MAX, 0),
            seek(300),
            seek(u32::MAX),
        ] {
            stream.packet_from(with(status, 160, 290), &packet);
            stream.move_on(3);
        }
    }
}

/// Every setting of the flags under each status: both forms of power-on, the
/// button, laying and lifting, and the packets that move the tray or do not.
pub fn resets(stream: &mut Stream) {
    lend(stream, &disc_e());
    for status in STATUSES {
        for flags in all_flags() {
            let state = State {
                play: Play::new(status, 160, 290),
                ..flags
            };
            // With both pending or neither: the tray is moved by no attention.
            if flags.power != flags.change {
                continue;
            }
            for call in [
                Stream::power_on,
                Stream::power_on_without_change,
                Stream::button,
                Stream::lay,
                Stream::lift,
            ] {
                stream.state(state);
                call(stream);
            }
            if flags.power {
                continue;
            }
            for bits in [0, 1, EJECT, LOAD] {
                stream.packet_from(state, &start_stop(bits));
            }
            stream.packet_from(state, &prevent(1));
        }
    }
}

/// A play that the tray ends: opened and closed by button or packet, the disc
/// lifted and laid, the attentions told; then nothing plays.
pub fn tray_while_playing(stream: &mut Stream) {
    lend(stream, &disc_e());
    let moves: [fn(&mut Stream); 6] = [
        |stream| {
            stream.button();
            stream.move_on(1);
            stream.button();
        },
        |stream| {
            stream.packet(&start_stop(EJECT));
            stream.packet(&start_stop(LOAD));
        },
        |stream| {
            stream.button();
            stream.lift();
            stream.lay();
            stream.packet(&start_stop(LOAD));
        },
        |stream| {
            for packet in [prevent(1), start_stop(EJECT), start_stop(0), start_stop(1)] {
                stream.packet(&packet);
            }
            stream.button();
        },
        |stream| {
            stream.packet(&start_stop(LOAD));
            stream.packet(&prevent(0));
        },
        FORMS[0],
    ];
    for after in moves {
        for before in [play(150, 100), play(299, 1)] {
            stream.state(State::READY);
            stream.packet(&before);
            stream.move_on(1);
            after(stream);
            stream.move_on(1);
            for packet in [position(false), position(false), position(true)] {
                stream.packet(&packet);
            }
        }
    }
}

/// A closing without a disc leaves a record that stands there, an opening does
/// not; laying and lifting leave it.
pub fn tray_without_disc(stream: &mut Stream) {
    lend(stream, &disc_e());
    for status in STATUSES {
        let [closed, open, open_with] = not_loaded(Play::new(status, 5, 8));
        for close in [Stream::button, |stream: &mut Stream| {
            stream.packet(&start_stop(LOAD));
        }] {
            stream.state(open);
            close(stream);
            stream.move_on(1);
            stream.packet(&start_stop(LOAD));
            stream.button();
            stream.state(open_with);
            close(stream);
            stream.state(open_with);
            stream.lift();
            close(stream);
            stream.state(open);
            stream.lay();
            stream.packet(&start_stop(EJECT));
            close(stream);
        }
        for open in [Stream::button, |stream: &mut Stream| {
            stream.packet(&start_stop(EJECT));
        }] {
            stream.state(closed);
            open(stream);
        }
    }
}

/// With an attention pending each of the three is told it, and without a disc
/// refused by step 4: the record stays.
pub fn audio_told_first(stream: &mut Stream) {
    lend(stream, &disc_e());
    let three = [play(150, 1), pause(), resume(), position(false)];
    for status in STATUSES {
        let record = Play::new(status, 160, 290);
        for flags in all_flags().filter(|flags| !flags.lock) {
            for packet in three {
                let state = State {
                    play: record,
                    ..flags
                };
                stream.packet_from(state, &packet);
            }
        }
        // INQUIRY and REQUEST SENSE leave it too, and give no audio status.
        stream.state(with(status, 160, 290));
        stream.packet(&request_sense(18));
        stream.packet(&plain(0x12));
    }
}

/// All calls on the drive but power-on, met by one state, then a power-on.
fn all_calls(stream: &mut Stream, state: State, form: fn(&mut Stream)) {
    stream.state(state);
    stream.packet(&position(false));
    stream.button();
    stream.state(state);
    stream.lay();
    stream.lift();
    stream.move_on(1);
    form(stream);
}

/// Refusal 2 "also covers another status": each of the 256, met by a packet and an outside
/// call; those next to the four by every call.
pub fn every_status(stream: &mut Stream) {
    lend(stream, &disc_e());
    for status in 0..=255u8 {
        let near = |known: u8| (known ^ status).count_ones() < 2;
        if STATUSES.into_iter().any(near) || status % 32 == 0 {
            let form = FORMS[usize::from(status % 2)];
            all_calls(stream, with(status, 1, 2), form);
        } else {
            stream.packet_from(with(status, 1, 2), &position(false));
            stream.move_on(1);
        }
    }
}

/// "a position past its end, or an end over 449,849", in every status, and what
/// is just sound.
pub fn every_end(stream: &mut Stream) {
    lend(stream, &disc_e());
    for (i, status) in STATUSES.into_iter().chain([0x00, 0x14]).enumerate() {
        for (position, end) in [
            (0, 0),
            (1, 0),
            (5, 5),
            (6, 5),
            (0, TOP_ADDRESS),
            (TOP_ADDRESS, TOP_ADDRESS),
            (TOP_ADDRESS + 1, TOP_ADDRESS),
            (0, TOP_ADDRESS + 1),
            (TOP_ADDRESS + 1, TOP_ADDRESS + 1),
            (u32::MAX, 0),
            (0, u32::MAX),
            (u32::MAX, u32::MAX),
            (1 << 31, 1 << 31),
            (256, 255),
            (65_536, 65_535),
        ] {
            all_calls(stream, with(status, position, end), FORMS[i % 2]);
        }
    }
}

/// Refusal 2 by the record in its place: behind 1, before 3, 4 and 5 to 7.
pub fn record_in_order(stream: &mut Stream) {
    let (fit, unfit) = (disc_e().bytes(), &disc_e().bytes()[..58]);
    let records = [
        Play::new(0x14, 0, 0),
        Play::new(PLAYING, 2, 1),
        Play::new(PAUSED, 0, TOP_ADDRESS + 1),
        Play::NONE,
    ];
    for n in 0..8u8 {
        stream.table(if n & 4 != 0 { unfit } else { &fit });
        stream.memory(if n & 2 != 0 { MEMORY - 1 } else { MEMORY }, n);
        for play in records {
            for flags in [State::READY, State::EMPTY] {
                let state = State {
                    play,
                    lock: true,
                    ..flags
                };
                let length = if n & 1 != 0 { 11 } else { 12 };
                stream.packet_from(state, &position(true)[..length]);
                stream.packet_from(state, &test_ready()[..length]);
                for call in [Stream::button, Stream::lay, Stream::lift] {
                    stream.state(state);
                    call(stream);
                }
                stream.move_on(1);
            }
        }
    }
    stream.memory(MEMORY, 0);
}

/// Every bit behind the code of the three packets turned over.
pub fn audio_bits(stream: &mut Stream) {
    lend(stream, &disc_e());
    for (packet, state) in [
        (play(150, 2), with(PAUSED, 160, 290)),
        (pause(), with(PLAYING, 160, 290)),
        (resume(), with(PAUSED, 160, 290)),
        (position(false), with(COMPLETED, 170, 170)),
        (sub_channel(true, false, 3, 4), with(PLAYING, 160, 290)),
    ] {
        let named = named_bits(packet[0]);
        for bit in 8..96 {
            let mut p = packet;
            p[bit / 8] ^= 0x80 >> (bit % 8);
            let silent = named[bit / 8] & 0x80 >> (bit % 8) == 0;
            // Bits that no rule names: one in three is enough.
            if !silent || bit % 3 == 0 {
                stream.packet_from(state, &p);
            }
        }
        // All the bits that no rule names at once.
        let mut full = packet;
        for (byte, named) in full.iter_mut().zip(named) {
            *byte |= !named;
        }
        stream.packet_from(state, &full);
        stream.packet_from(with(NO_STATUS, 0, 0), &full);
    }
}
