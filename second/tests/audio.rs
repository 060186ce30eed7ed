//! K2: "Chapter 9 teaches audio." PLAY, PAUSE/RESUME and READ SUB-CHANNEL, the
//! play record and what moves it, and that the streams have all of it often.

mod common;

use common::{check, number_of, on, on_e, told};
use second::cases::bad::random_stream;
use second::cases::packets::*;
use second::cases::picked_state::all_flags;
use second::cases::sheet::{
    any_fit, disc_e, one_long_audio, three_sessions, three_sittings, two_sessions,
};
use second::cases::stream::Stream;
use second::drive::State;
use second::limits::BOUND;
use second::packet::perform;
use second::play::Play;
use second::rng::Rng;
use second::sense::{self, Sense, NONE};
use second::table::{read, Disc};
use second::tally::{self, Audio, Status};
use second::{listing, stored};

const READY: State = State::READY;
const STATUSES: [u8; 4] = [0x11, 0x12, 0x13, 0x15];
const TOP: u32 = 449_849;

const BAD_FIELD: Sense = Sense::new(5, 0x24, 0);
const OUT_OF_RANGE: Sense = Sense::new(5, 0x21, 0);
const WRONG_MODE: Sense = Sense::new(5, 0x64, 0);

/// Loaded, nothing pending, with this record.
fn with(status: u8, position: u32, end: u32) -> State {
    State {
        play: Play::new(status, position, end),
        ..READY
    }
}

/// What a GOOD packet on Table E leaves, and its bytes.
fn served(state: State, packet: &Packet) -> (State, Vec<u8>) {
    let (reply, memory) = on_e(state, packet);
    assert_eq!((reply.refusal, reply.status), (None, 0));
    assert_eq!(reply.next.sense, NONE);
    (reply.next, memory[..reply.length].to_vec())
}

/// A failing packet changes the held sense alone.
fn fails(state: State, packet: &Packet, triple: Sense) {
    let (reply, _) = on_e(state, packet);
    assert_eq!((reply.refusal, reply.status), (None, 2));
    let sense = triple;
    assert_eq!(reply.next, State { sense, ..state }, "{packet:02X?}");
}

fn moved(state: State, k: u64) -> State {
    state.move_on(k).expect("it is sound")
}

/// The marked results of K2 on Disc E, loaded, nothing pending.
#[test]
fn marked_results() {
    let (state, bytes) = served(READY, &play(150, 150));
    assert_eq!((state, bytes), (with(0x11, 150, 300), vec![]));
    let (state, bytes) = served(state, &position(false));
    assert_eq!(
        bytes,
        [0, 0x11, 0, 12, 1, 0x10, 2, 1, 0, 0, 0, 150, 0, 0, 0, 0]
    );
    let state = moved(state, 10);
    let (state, bytes) = served(state, &position(false));
    assert_eq!(
        bytes,
        [0, 0x11, 0, 12, 1, 0x10, 2, 1, 0, 0, 0, 160, 0, 0, 0, 10]
    );
    // 160 is 00:04:10; 10 blocks into the track are 00:00:10.
    let (state, bytes) = served(state, &position(true));
    assert_eq!(
        bytes,
        [0, 0x11, 0, 12, 1, 0x10, 2, 1, 0, 0, 4, 10, 0, 0, 0, 10]
    );
    let (state, bytes) = served(state, &sub_channel(false, false, 1, 16));
    assert_eq!(bytes, [0, 0x11, 0, 0]);
    fails(state, &sub_channel(false, true, 2, 16), BAD_FIELD);
    fails(state, &play(149, 2), WRONG_MODE);
    fails(state, &play(300, 0), OUT_OF_RANGE);
    fails(state, &play(150, 151), OUT_OF_RANGE);
    let (state, _) = served(state, &pause());
    assert_eq!(state, with(0x12, 160, 300));
    let (state, _) = served(state, &pause());
    assert_eq!(state, with(0x12, 160, 300));
    let (state, _) = served(state, &resume());
    assert_eq!(state, with(0x11, 160, 300));
    let state = moved(state, 140);
    assert_eq!(state, with(0x13, 300, 300));
    let lead_out = |status| vec![0, status, 0, 12, 1, 0, 0, 0, 0, 0, 1, 44, 0, 0, 0, 0];
    let (state, bytes) = served(state, &position(false));
    assert_eq!((state, bytes), (with(0x15, 300, 300), lead_out(0x13)));
    let (state, bytes) = served(state, &position(false));
    assert_eq!((state, bytes), (with(0x15, 300, 300), lead_out(0x15)));
    fails(state, &resume(), BAD_FIELD);
}

/// "A GOOD PLAY sets 11h, start, and start plus count as end", whatever played
/// before; it names no blocks and gives no bytes.
#[test]
fn play_sets_the_record() {
    for status in STATUSES {
        for (start, count) in [(150, 1), (150, 150), (299, 1), (200, 7)] {
            let (reply, _) = on_e(with(status, 5, 9), &play(start, count));
            assert_eq!(reply.next, with(0x11, start, start + u32::from(count)));
            assert_eq!((reply.length, reply.start, reply.count), (0, 0, 0));
        }
    }
    let longest = one_long_audio().bytes();
    for (start, count) in [(0, 65_535), (TOP - 65_535, 65_535), (TOP - 1, 1)] {
        let (reply, _) = on(READY, &longest, &play(start, count));
        assert_eq!(reply.next, with(0x11, start, start + u32::from(count)));
    }
}

/// "but count 0 leaves the record": GOOD where the address is in range, also in
/// a data track or a gap, the sense cleared; else 05/21/00.
#[test]
fn count_zero_leaves_the_record() {
    for status in STATUSES {
        let state = State {
            sense: sense::PREVENTED,
            ..with(status, 5, 9)
        };
        for address in [0, 149, 150, 299] {
            assert_eq!(served(state, &play(address, 0)).0, with(status, 5, 9));
        }
        for address in [300, 301, TOP, u32::MAX] {
            fails(state, &play(address, 0), OUT_OF_RANGE);
        }
    }
    let table = two_sessions().bytes();
    for address in [899, 900, 12_299, 12_999] {
        let (reply, _) = on(READY, &table, &play(address, 0));
        assert_eq!((reply.status, reply.next), (0, READY));
    }
}

/// FFFFFFFFh is an address like any other, and past every disc's end; each high
/// bit of the address and of the count tells.
#[test]
fn play_out_of_range() {
    let state = with(0x12, 5, 9);
    for count in [0, 1, 65_535] {
        fails(state, &play(u32::MAX, count), OUT_OF_RANGE);
    }
    for bit in 9..32 {
        fails(state, &play(150 | 1 << bit, 1), OUT_OF_RANGE);
    }
    for bit in 8..16 {
        fails(state, &play(150, 1 | 1 << bit), OUT_OF_RANGE);
    }
    // Range before track mode: block 0 is data, and 301 blocks are too many.
    fails(state, &play(0, 301), OUT_OF_RANGE);
    fails(state, &play(0, 300), WRONG_MODE);
}

/// "A block belongs to the track with the greatest start not above it, if it
/// lies below that track's session's lead-out; else to no track." Its ADR and
/// control, number and start.
fn owner(disc: &Disc, block: u32) -> Option<(u8, u8, u32)> {
    let mut owner = None;
    for session in &disc.sessions {
        for track in session.tracks.iter().filter(|one| one.start <= block) {
            let fields = (track.bits, track.number, track.start);
            owner = Some(fields).filter(|_| block < session.lead_out);
        }
    }
    owner
}

/// "range and 05/64/00 follow READ with audio in place of data": the value-4 bit
/// of a block's track is clear, and a block of no track is no audio.
#[test]
fn plays_agree_with_the_block_rule() {
    let mut rng = Rng::new(11);
    let mut tables = vec![
        disc_e().bytes(),
        two_sessions().bytes(),
        three_sessions().bytes(),
    ];
    tables.extend((0..60).map(|_| any_fit(&mut rng).bytes()));
    let mut good = 0;
    for table in tables {
        let disc = read(&table).expect("fit");
        let marks = Marks::of(Some(&disc));
        for n in 0..120 {
            let (address, count) = if n % 2 == 0 {
                marks.audio_run(&mut rng)
            } else {
                let address = marks.address(&mut rng);
                (address, marks.count(&mut rng, address) as u16)
            };
            let before = with(STATUSES[n % 4], 3, 4);
            let (reply, _) = on(before, &table, &play(address, count));
            let (end, past) = (u64::from(disc.end()), u64::from(address) + u64::from(count));
            let is_audio = |block| owner(&disc, block).is_some_and(|(bits, _, _)| bits & 4 == 0);
            let due = if u64::from(address) >= end || past > end {
                OUT_OF_RANGE
            } else if (address..past as u32).all(is_audio) {
                NONE
            } else {
                WRONG_MODE
            };
            let play = match (due == NONE, count) {
                (true, 1..) => Play::new(0x11, address, past as u32),
                _ => before.play,
            };
            let sense = due;
            assert_eq!(
                reply.next,
                State {
                    sense,
                    play,
                    ..READY
                }
            );
            good += usize::from(due == NONE && count > 0);
        }
    }
    assert!(good > 1_000, "{good}");
}

/// A play goes from one audio track into the next; not over a gap, into a data
/// track, or from before the first track.
#[test]
fn plays_across_tracks() {
    let two = two_sessions().bytes();
    for (address, count, due) in [
        (400, 500, NONE),
        (599, 2, NONE),
        (399, 2, WRONG_MODE),
        (899, 2, WRONG_MODE),
        (900, 1, WRONG_MODE),
        (12_299, 1, WRONG_MODE),
    ] {
        assert_eq!(on(READY, &two, &play(address, count)).0.next.sense, due);
    }
    let three = three_sessions().bytes();
    for (address, count, due) in [
        (9, 1, WRONG_MODE),
        (10, 10, NONE),
        (10, 11, WRONG_MODE),
        (700, 1, WRONG_MODE),
        (701, 4_299, NONE),
        (701, 4_300, WRONG_MODE),
        (8_998, 2, NONE),
        (8_998, 3, OUT_OF_RANGE),
    ] {
        assert_eq!(on(READY, &three, &play(address, count)).0.next.sense, due);
    }
}

/// "Pause or resume under 13h or 15h is 05/24/00, and changes nothing where it
/// already holds": GOOD then, the sense cleared.
#[test]
fn pause_and_resume() {
    for (position, end) in [(0, 0), (5, 9), (9, 9), (TOP, TOP)] {
        for (before, paused, resumed) in [(0x11, 0x12, 0x11), (0x12, 0x12, 0x11)] {
            let state = State {
                sense: sense::WRONG_MODE,
                ..with(before, position, end)
            };
            assert_eq!(served(state, &pause()).0, with(paused, position, end));
            assert_eq!(served(state, &resume()).0, with(resumed, position, end));
        }
        for nothing in [0x13, 0x15] {
            for packet in [pause(), resume()] {
                fails(with(nothing, position, end), &packet, BAD_FIELD);
            }
        }
    }
}

/// Byte 8 bit 0 alone is Resume.
#[test]
fn resume_is_one_bit() {
    for bit in 8..96 {
        let mut packet = pause();
        packet[bit / 8] |= 0x80 >> (bit % 8);
        let due = if bit == 71 { 0x11 } else { 0x12 };
        for before in [0x11, 0x12] {
            assert_eq!(served(with(before, 5, 9), &packet).0, with(due, 5, 9));
        }
    }
}

/// 42h's sixteen bytes by K2's words, for a position on this disc.
fn sixteen(disc: &Disc, play: Play, msf: bool) -> Vec<u8> {
    let place = play.position;
    let (bits, track, index, relative) = match owner(disc, place) {
        Some((bits, number, start)) => (bits, number, 1, place - start),
        None => (0, 0, 0, 0),
    };
    let mut bytes = vec![0, play.status, 0, 0x0C, 1, bits, track, index];
    for (number, lead) in [(place, 150), (relative, 0)] {
        if msf {
            let frames = number + lead;
            let (minute, rest) = (frames / 4_500, frames % 4_500);
            bytes.extend([0, minute as u8, (rest / 75) as u8, (rest % 75) as u8]);
        } else {
            let byte = |shift: u32| (number >> shift) as u8;
            bytes.extend([byte(24), byte(16), byte(8), byte(0)]);
        }
    }
    bytes
}

/// Where the position stands, by block address and by M:S:F: on tracks, in gaps,
/// before the first track, in the lead-out and past L.
#[test]
fn positions_by_both_addresses() {
    let mut rng = Rng::new(12);
    let mut tables = vec![
        disc_e().bytes(),
        three_sittings().bytes(),
        one_long_audio().bytes(),
    ];
    tables.extend((0..40).map(|_| any_fit(&mut rng).bytes()));
    let (mut inside, mut outside) = (0, 0);
    for table in tables {
        let disc = read(&table).expect("fit");
        let marks = Marks::of(Some(&disc));
        let mut places: Vec<u32> = (0..60).map(|_| marks.address(&mut rng)).collect();
        places.extend([0, 74, 75, 4_349, 4_350, 4_500, disc.end(), TOP]);
        for place in places.into_iter().filter(|&place| place <= TOP) {
            let play = Play::new(rng.pick(&STATUSES), place, TOP);
            for msf in [false, true] {
                let (reply, memory) = on(State { play, ..READY }, &table, &position(msf));
                assert_eq!(memory[..reply.length], sixteen(&disc, play, msf));
            }
            let found = owner(&disc, place).is_some();
            inside += usize::from(found);
            outside += usize::from(!found);
        }
    }
    assert!(inside > 300 && outside > 300, "{inside} {outside}");
}

/// The last block of the longest track is 99:57:73 from its start, at 99:59:73;
/// the lead-out's first block is at 99:59:74 and in no track.
#[test]
fn relative_time_is_without_the_150() {
    let table = one_long_audio().bytes();
    let shown = |position| {
        let (reply, memory) = on(with(0x11, position, TOP), &table, &long_position());
        memory[5..reply.length].to_vec()
    };
    assert_eq!(shown(0), [0x10, 1, 1, 0, 0, 2, 0, 0, 0, 0, 0]);
    assert_eq!(shown(149), [0x10, 1, 1, 0, 0, 3, 74, 0, 0, 1, 74]);
    let last = [0x10, 1, 1, 0, 99, 59, 73, 0, 99, 57, 73];
    assert_eq!(shown(TOP - 1), last);
    assert_eq!(shown(TOP), [0, 0, 0, 0, 99, 59, 74, 0, 0, 0, 0]);
}

/// 42h by M:S:F for more bytes than there are.
fn long_position() -> Packet {
    sub_channel(true, true, 1, 0xFFFF)
}

/// The track is that of the table lent now, whichever the play began on.
#[test]
fn the_table_lent_now() {
    let two = two_sessions().bytes();
    let (begun, _) = on(READY, &two, &play(610, 280));
    let state = moved(begun.next, 100);
    for sheet in [disc_e(), three_sessions(), two_sessions()] {
        let table = sheet.bytes();
        let disc = read(&table).expect("fit");
        let (reply, memory) = on(state, &table, &position(false));
        assert_eq!(memory[..reply.length], sixteen(&disc, state.play, false));
    }
    // Disc E ends at 300.
    let (_, memory) = on(state, &disc_e().bytes(), &position(false));
    assert_eq!(memory[4..12], [1, 0, 0, 0, 0, 0, 2, 0xC6]);
}

/// "SubQ 0 gives 0, status, 0000h only", with any format; "with SubQ 1 another
/// format is 05/24/00".
#[test]
fn sub_q_and_format() {
    for format in 0..=255 {
        for status in STATUSES {
            for msf in [false, true] {
                let state = with(status, 160, 300);
                let (_, bytes) = served(state, &sub_channel(msf, false, format, 0xFFFF));
                assert_eq!(bytes, [0, status, 0, 0]);
                let asked = sub_channel(msf, true, format, 0xFFFF);
                if format == 1 {
                    assert_eq!(served(state, &asked).1.len(), 16);
                } else {
                    fails(state, &asked, BAD_FIELD);
                }
            }
        }
    }
}

/// Byte 2 bit 6 is SubQ, byte 1 bit 1 MSF; the track number in byte 6 and every
/// other bit but those of format and length is not looked at.
#[test]
fn sub_channel_bits() {
    let state = with(0x11, 160, 300);
    let (_, sound) = served(state, &position(false));
    for bit in (8..96).filter(|bit| ![3, 7, 8].contains(&(bit / 8))) {
        let mut packet = position(false);
        packet[bit / 8] ^= 0x80 >> (bit % 8);
        let (_, bytes) = served(state, &packet);
        match bit {
            14 => assert_eq!(bytes[8..], [0, 0, 4, 10, 0, 0, 0, 10]),
            17 => assert_eq!(bytes, [0, 0x11, 0, 0]),
            _ => assert_eq!(bytes, sound, "{bit}"),
        }
    }
    // Without SubQ no other bit asks for it.
    for bit in (8..96).filter(|bit| ![7, 8].contains(&(bit / 8))) {
        let mut packet = sub_channel(false, false, 1, 16);
        packet[bit / 8] ^= 0x80 >> (bit % 8);
        let (_, bytes) = served(state, &packet);
        assert_eq!(bytes.len(), if bit == 17 { 16 } else { 4 }, "{bit}");
    }
}

/// "the bytes are the first n of the full answer"; the length 000Ch is not cut.
#[test]
fn sub_channel_lengths() {
    for status in STATUSES {
        let state = with(status, 160, 300);
        for msf in [false, true] {
            let (_, full) = served(state, &position(msf));
            for length in (0..=40).chain([255, 256, 0xFFFF]) {
                let (_, bytes) = served(state, &sub_channel(msf, true, 1, length));
                assert_eq!(bytes, full[..full.len().min(length.into())]);
                let (_, bytes) = served(state, &sub_channel(msf, false, 1, length));
                let header = [0, status, 0, 0];
                assert_eq!(bytes, header[..4.min(length.into())]);
            }
        }
    }
}

/// "13h turns to 15h after a GOOD 42h": of any length, SubQ or not; the answer
/// still says 13h, position and end stay. A failing one, or any other packet,
/// leaves it.
#[test]
fn completed_is_told_once() {
    for (msf, sub_q, length) in [
        (false, true, 16),
        (true, true, 1),
        (false, true, 0),
        (false, false, 4),
        (true, false, 0),
    ] {
        let packet = sub_channel(msf, sub_q, 1, length);
        let (next, bytes) = served(with(0x13, 7, 9), &packet);
        assert_eq!(next, with(0x15, 7, 9));
        assert_eq!(bytes.get(1), (length > 1).then_some(&0x13));
        for status in [0x11, 0x12, 0x15] {
            let before = with(status, 7, 9);
            assert_eq!(served(before, &packet).0, before);
        }
    }
    fails(
        with(0x13, 7, 9),
        &sub_channel(false, true, 3, 16),
        BAD_FIELD,
    );
    for packet in [
        test_ready(),
        request_sense(18),
        capacity(),
        toc(true, 1, 0, 12),
        prevent(0),
        start_stop(0),
        start_stop(1),
        play(150, 0),
    ] {
        assert_eq!(served(with(0x13, 7, 9), &packet).0, with(0x13, 7, 9));
    }
}

/// The outside call a block at a time: "at most to the end, where the status
/// becomes 13h".
fn step_by_step(mut play: Play, k: u64) -> Play {
    if play.status != 0x11 {
        return play;
    }
    for _ in 0..k.min(1_000) {
        play.position += u32::from(play.position < play.end);
    }
    if play.position == play.end {
        play.status = 0x13;
    }
    play
}

#[test]
fn moves_go_block_by_block() {
    for status in STATUSES {
        for end in 0..12 {
            for position in 0..=end {
                let state = with(status, position, end);
                for k in (0..15).chain([1_000, 1 << 32, u64::MAX]) {
                    let play = step_by_step(state.play, k);
                    assert_eq!(moved(state, k), State { play, ..READY });
                }
            }
        }
    }
    // Far on, and not at the end yet.
    for k in [65_535, 65_536, 300_000, TOP - 1] {
        assert_eq!(moved(with(0x11, 0, TOP), k.into()), with(0x11, k, TOP));
    }
    // At the top, where a sum would come round past 32 bits.
    for k in [0, 1, 2, u64::from(u32::MAX), u64::MAX] {
        let state = with(0x11, TOP - 1, TOP);
        let play = step_by_step(state.play, k);
        assert_eq!(moved(state, k), State { play, ..READY });
    }
}

/// "wherever the new position is the end the status is 13h, k = 0 too", and only
/// there.
#[test]
fn the_end_completes() {
    assert_eq!(moved(with(0x11, 9, 9), 0), with(0x13, 9, 9));
    assert_eq!(moved(with(0x11, 0, 0), 0), with(0x13, 0, 0));
    assert_eq!(moved(with(0x11, 8, 9), 0), with(0x11, 8, 9));
    assert_eq!(moved(with(0x11, 8, 9), 1), with(0x13, 9, 9));
    assert_eq!(moved(with(0x12, 9, 9), 0), with(0x12, 9, 9));
    assert_eq!(moved(with(0x15, 9, 9), 7), with(0x15, 9, 9));
    // Paused at the end, it plays on where it is resumed.
    let (state, _) = served(with(0x12, 9, 9), &resume());
    assert_eq!(
        (state, moved(state, 0)),
        (with(0x11, 9, 9), with(0x13, 9, 9))
    );
}

/// The outside call looks at the record alone: open or closed, locked, with
/// something pending or a sense held, all else stays.
#[test]
fn moves_in_any_state() {
    for flags in all_flags() {
        for held in sense::TRIPLES {
            let state = |play| State {
                sense: held,
                play,
                ..flags
            };
            let before = state(Play::new(0x11, 3, 9));
            assert_eq!(moved(before, 4), state(Play::new(0x11, 7, 9)));
            assert_eq!(moved(before, 6), state(Play::new(0x13, 9, 9)));
        }
    }
}

/// "A GOOD READ or SEEK sets 15h": the status alone, also for count 0. Failing,
/// they leave the record.
#[test]
fn reads_and_seeks_stop_a_play() {
    for status in STATUSES {
        let before = with(status, 160, 290);
        for packet in [
            read10(0, 1),
            read10(150, 0),
            read12(0, 150),
            read12(299, 0),
            seek(0),
            seek(150),
            seek(299),
        ] {
            assert_eq!(served(before, &packet).0, with(0x15, 160, 290));
        }
        for (packet, triple) in [
            (read10(149, 2), WRONG_MODE),
            (read12(150, 1), WRONG_MODE),
            (read10(300, 0), OUT_OF_RANGE),
            (read12(0, 301), OUT_OF_RANGE),
            (seek(300), OUT_OF_RANGE),
        ] {
            fails(before, &packet, triple);
        }
    }
}

/// No other packet touches the record: only 45h, 4Bh, 42h, READ, SEEK, and 1Bh
/// where it moves the tray.
#[test]
fn other_packets_leave_the_record() {
    for status in STATUSES {
        let before = with(status, 160, 290);
        for packet in one_of_each() {
            if [0x28, 0x2B, 0x42, 0x45, 0x4B, 0xA8].contains(&packet[0]) || packet == eject() {
                continue;
            }
            assert_eq!(on_e(before, &packet).0.next.play, before.play);
        }
        // Under lock an eject opens nothing.
        let locked = State {
            lock: true,
            ..before
        };
        fails(locked, &eject(), Sense::new(5, 0x53, 2));
    }
}

fn eject() -> Packet {
    start_stop(EJECT)
}

/// "Power-on, loading and opening set 15h, position 0 and end 0", whatever played;
/// a closing without a disc, laying and lifting leave the record.
#[test]
fn what_resets_the_record() {
    for status in STATUSES {
        let record = Play::new(status, 160, 290);
        for flags in all_flags() {
            let state = State {
                play: record,
                ..flags
            };
            assert_eq!(state.power_on().play, Play::new(0x15, 0, 0));
            assert_eq!(state.power_on_without_change().play, Play::new(0x15, 0, 0));
            let due = |moved: bool, resets: bool| match moved && resets {
                true => Play::new(0x15, 0, 0),
                false => record,
            };
            // Opening, or closing with a disc in.
            let (open, disc) = (state.tray_open, state.disc_in);
            let resets = !open || disc;
            if let Ok(next) = state.button() {
                assert_eq!(next.play, due(true, resets), "{state:?}");
            }
            for next in [state.lay(), state.lift()].into_iter().flatten() {
                assert_eq!(next.play, record);
            }
            if state.power || state.change {
                continue;
            }
            for bits in 0..4 {
                let moved = bits == EJECT && !open && !state.lock || bits == LOAD && open;
                let (reply, _) = on_e(state, &start_stop(bits));
                assert_eq!(reply.next.play, due(moved, resets), "{bits} {state:?}");
            }
        }
    }
}

/// With an attention pending each of the three is told it and the record stays;
/// without a disc they get 02/3A.
#[test]
fn audio_passes_the_gate_first() {
    for status in STATUSES {
        for flags in all_flags() {
            let state = State {
                play: Play::new(status, 160, 290),
                ..flags
            };
            for packet in [play(150, 1), pause(), resume(), position(true)] {
                let due = match (state.power, state.change) {
                    (true, _) => Sense::new(6, 0x29, 0),
                    (_, true) => Sense::new(6, 0x28, 0),
                    _ if state.tray_open => Sense::new(2, 0x3A, 2),
                    _ if !state.disc_in => Sense::new(2, 0x3A, 1),
                    _ => continue,
                };
                assert_eq!(check(state, &packet), due);
                assert_eq!(on_e(state, &packet).0.next.play, state.play);
            }
        }
    }
}

/// What 2 covers of the record, by K2's words.
fn unsound(play: Play) -> bool {
    ![0x11, 0x12, 0x13, 0x15].contains(&play.status) || play.position > play.end || play.end > TOP
}

/// "2 also covers another status, a position past its end, or an end over
/// 449,849": every call but power-on, in every status.
#[test]
fn two_covers_the_record() {
    let e = disc_e().bytes();
    let ends = [
        (0, 0),
        (1, 0),
        (5, 5),
        (6, 5),
        (TOP, TOP),
        (TOP, TOP + 1),
        (TOP + 1, TOP + 1),
        (0, u32::MAX),
        (u32::MAX, u32::MAX),
        (u32::MAX, 0),
    ];
    for status in 0..=255 {
        for (position, end) in ends {
            let state = with(status, position, end);
            let due = if unsound(state.play) { 2 } else { 0 };
            for packet in [test_ready(), inquiry(36), request_sense(0)] {
                assert_eq!(told(state, &e, &packet), (due, 0), "{state:?}");
            }
            assert_eq!(number_of(&state.move_on(1)), due);
            assert_eq!(number_of(&state.button()), due);
            let open = State {
                tray_open: true,
                ..state
            };
            assert_eq!(number_of(&open.lift()), due);
            let bare = State {
                disc_in: false,
                ..open
            };
            assert_eq!(number_of(&bare.lay()), due);
            for next in [state.power_on(), bare.power_on_without_change()] {
                assert_eq!(next.play, Play::NONE);
            }
        }
    }
    // A sense that is none of the thirteen is covered as before, by this call too.
    let stranger = State {
        sense: Sense::new(0, 0, 0x15),
        ..with(0x11, 1, 2)
    };
    assert_eq!(number_of(&stranger.move_on(1)), 2);
}

/// 2 by the record stands in its place: behind 1, before 3, 4, 5, 6 and 7.
#[test]
fn two_in_its_place() {
    let bad = State {
        lock: true,
        ..with(0x14, 0, 0)
    };
    let (fit, unfit) = (disc_e().bytes(), vec![0; 4]);
    for table in [&fit, &unfit] {
        for size in [BOUND - 1, BOUND] {
            for (length, due) in [(11, 1), (12, 2), (13, 1)] {
                let mut memory = vec![7; size];
                let reply = perform(bad, table, &[], &[0; 13][..length], &mut memory);
                assert_eq!(reply.refusal.map_or(0, |one| one.number()), due);
                assert_eq!((reply.next, memory), (bad, vec![7; size]));
            }
        }
    }
    for state in [
        bad,
        State {
            disc_in: false,
            ..bad
        },
    ] {
        assert_eq!(number_of(&state.button()), 2);
        assert_eq!(number_of(&state.lay()), 2);
        assert_eq!(number_of(&state.lift()), 2);
    }
}

/// What no packet and no call makes out of a sound state: an unsound one.
#[test]
fn sound_states_stay_sound() {
    let mut rng = Rng::new(13);
    for _ in 0..400 {
        let table = any_fit(&mut rng).bytes();
        let marks = Marks::of(read(&table).ok().as_ref());
        let mut state = READY;
        for _ in 0..40 {
            let packet = if rng.one_in(2) {
                any_audio(&mut rng, &marks)
            } else {
                any_packet(&mut rng, &marks)
            };
            state = on(state, &table, &packet).0.next;
            state = moved(state, u64::from(rng.long() >> rng.below(32)));
            if rng.one_in(8) {
                state = state.button().unwrap_or(state);
            }
            assert!(!unsound(state.play) && state.sense.is_known());
        }
    }
}

/// The listing's lines have the form they had: a play, where it stands, and a
/// seek that stops it.
#[test]
fn listing_of_a_play() {
    let packets = [
        test_ready(),
        play(150, 150),
        position(true),
        pause(),
        sub_channel(false, false, 0, 4),
        seek(0),
        resume(),
        position(false),
    ];
    let lines = listing::print(&disc_e().bytes(), &packets.concat());
    let due = "\
n st key asc ascq len data start count
1 02 06 29 00 0 - 0 0
2 00 00 00 00 0 - 0 0
3 00 00 00 00 16 0011000C011002010000040000000000 0 0
4 00 00 00 00 0 - 0 0
5 00 00 00 00 4 00120000 0 0
6 00 00 00 00 0 - 0 0
7 02 05 24 00 0 - 0 0
8 00 00 00 00 16 0015000C011002010000009600000000 0 0
";
    assert_eq!(lines, due);
}

/// The streams have every one of them often: plays begun and not, 42h that tell
/// each status, outside calls that leave each, and those that 2 refuses.
#[test]
fn streams_have_audio() {
    for stream in [stored::stored_stream(), random_stream(56, 17_000)] {
        let audio = tally::audio(&stream.bytes);
        assert!(audio.plays > 250 && audio.failed > 300, "{audio:?}");
        assert!(
            audio.pauses > 100 && audio.refused_pauses > 100,
            "{audio:?}"
        );
        assert!(audio.refused_moves > 30, "{audio:?}");
        for Status { told, left } in audio.by_status {
            assert!(told > 100 && left > 40, "{audio:?}");
        }
    }
}

/// The stored listing has the three commands too, GOOD and not.
#[test]
fn stored_listing_has_audio() {
    let files = stored::files();
    let find = |name: &str| &files.iter().find(|(one, _)| one == name).expect("kept").1;
    let packets = find("crates/listing/data/packets");
    let lines = String::from_utf8_lossy(find("crates/listing/stdout"));
    for code in [0x45, 0x4B, 0x42] {
        let of_code = packets.chunks(12).zip(lines.lines().skip(1));
        let of_code = of_code.filter(|(packet, _)| packet[0] == code);
        let good = of_code
            .clone()
            .filter(|(_, line)| line.contains(" 00 00 00 00 "));
        let (good, all) = (good.count(), of_code.count());
        assert!(good > 3 && all - good > 3, "{code:02X}h {good} of {all}");
    }
}

/// What `tally` counts of a small stream, and how it prints it.
#[test]
fn tally_counts_audio() {
    let mut stream = Stream::new();
    stream.memory(6_538, 0);
    stream.table(&disc_e().bytes());
    stream.move_on(1);
    stream.state(READY);
    for packet in [play(150, 9), play(150, 0), play(0, 1), pause(), pause()] {
        stream.packet(&packet);
    }
    for packet in [position(false), resume(), sub_channel(true, false, 0, 2)] {
        stream.packet(&packet);
    }
    stream.move_on(1);
    stream.move_on(8);
    for packet in [position(false), position(false), resume()] {
        stream.packet(&packet);
    }
    let told_and_left = |left| Status { told: 1, left };
    let due = Audio {
        plays: 1,
        failed: 2,
        pauses: 3,
        refused_pauses: 1,
        by_status: [1, 0, 1, 0].map(told_and_left),
        refused_moves: 1,
    };
    assert_eq!(tally::audio(&stream.bytes), due);
    let tail = "audio 1 2 3 1 1\nstatus told left\n11h 1 1\n12h 1 0\n13h 1 1\n15h 1 0\n";
    assert!(tally::print(&stream.bytes).contains(tail));
}
