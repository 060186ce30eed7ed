//! Random scenes: each sets up a bench and makes a run of calls on it.

use crate::address::to_msf;
use crate::cases::cue_sheet::any_sheet;
use crate::cases::host;
use crate::cases::packets::{
    any_audio, any_event_status, any_list, any_mode, any_packet, capacity, event_status, inquiry,
    load_unload, mechanism_status, mode_select, mode_sense, one_of_each, pause, play, position,
    prevent, read12, request_sense, resume, seek, start_stop, test_ready, toc, with_junk, Marks,
    Packet, EJECT, LOAD,
};
use crate::cases::picked_changer_state::CHANGER_FORMS;
use crate::cases::picked_power::FORMS;
use crate::cases::picked_state::{strangers, MEMORY};
use crate::cases::sheet::{any_fit, fit, longest, small_fit, Sheet};
use crate::cases::shelf_stream::{any_shelf, any_totals};
use crate::cases::spoil::{any_broken, spoil};
use crate::cases::stream::Stream;
use crate::cases::twin_tables::{is_format_2, one_session, twin_of};
use crate::changer::Slot;
use crate::cue;
use crate::drive::State;
use crate::events::NO_EVENT;
use crate::limits::TOP_ADDRESS;
use crate::mode_page::{ModePage, SETTINGS};
use crate::play::{Play, STATUSES};
use crate::registers::Register;
use crate::rng::Rng;
use crate::sense::{self, Sense, TRIPLES};
use crate::table::{self, Mode};

/// Adds scenes until the stream has at least this many calls, not counting cue sheets,
/// shelves, the changer's scenes and those at the registers. Those (K12, K13, K11, K14) are
/// drawn apart and come on top: the other scenes are what they would be without them.
pub fn fill(stream: &mut Stream, rng: &mut Rng, calls: usize) {
    fill_with(stream, rng, calls, 16, 8, 24);
}

/// The same, with shelves, a changer and the registers behind one scene in so many.
pub fn fill_with(
    stream: &mut Stream,
    rng: &mut Rng,
    calls: usize,
    shelves: usize,
    changers: usize,
    registers: usize,
) {
    let mut apart = Rng::new(rng.clone().word());
    let mut farther = Rng::new(apart.clone().word());
    let mut farthest = Rng::new(farther.clone().word());
    let mut outside = Rng::new(farthest.clone().word());
    let mut beside = 0;
    while stream.calls - stream.sheets - stream.shelves - beside < calls {
        scene(stream, rng);
        if apart.one_in(16) {
            sheet_scene(stream, &mut apart);
        }
        if farther.one_in(shelves) {
            shelf_scene(stream, &mut farther);
        }
        if farthest.one_in(changers) {
            let before = stream.calls;
            changer_scene(stream, &mut farthest);
            beside += stream.calls - before;
        }
        if outside.one_in(registers) {
            let before = stream.calls;
            register_scene(stream, &mut outside);
            beside += stream.calls - before;
        }
    }
}

fn scene(stream: &mut Stream, rng: &mut Rng) {
    match rng.below(96) {
        0..=11 => disc_scene(stream, rng),
        12..=18 => trace_scene(stream, rng),
        19..=27 => spoilt_scene(stream, rng),
        28..=30 => address_scene(stream, rng),
        31..=33 => state_scene(stream, rng),
        34 | 35 => memory_scene(stream, rng),
        36 => length_scene(stream, rng),
        37 | 38 => part_scene(stream, rng),
        39 if rng.one_in(3) => full_scene(stream, rng),
        39 | 40 => chaos_scene(stream, rng),
        41..=46 => power_on_scene(stream, rng),
        47..=55 => audio_scene(stream, rng),
        70..=75 => mode_scene(stream, rng),
        76..=81 => event_scene(stream, rng),
        82..=88 => cancel_scene(stream, rng),
        91..=95 => twin_scene(stream, rng),
        _ => broken_scene(stream, rng),
    }
}

fn lend_memory(stream: &mut Stream, rng: &mut Rng) {
    let length = if rng.one_in(4) {
        rng.pick(&[MEMORY + 1, 7_000, 8_191])
    } else {
        MEMORY
    };
    let fill = rng.byte();
    stream.memory(length, fill);
}

/// The thirteen, and now and then a triple outside them.
fn any_sense(rng: &mut Rng) -> Sense {
    match rng.below(8) {
        0 => rng.pick(&strangers()),
        1 => Sense::new(rng.byte(), rng.byte(), rng.byte()),
        2 | 3 => sense::NONE,
        _ => rng.pick(&TRIPLES),
    }
}

/// A sound play record (K2): on or next to a mark, the end as near or far.
fn sound_play(rng: &mut Rng, marks: &Marks) -> Play {
    if rng.one_in(6) {
        return Play::NONE;
    }
    let position = match rng.below(4) {
        0 => rng.below(TOP_ADDRESS as usize + 1) as u32,
        1 => marks.audio_run(rng).0.min(TOP_ADDRESS),
        _ => (rng.pick(&marks.blocks) + rng.below(3) as u32).saturating_sub(1),
    };
    let position = position.min(TOP_ADDRESS);
    let left = (TOP_ADDRESS - position) as usize;
    let ahead = match rng.below(4) {
        0 => 0,
        1 => left,
        2 => rng.below(left + 1),
        _ => rng.below(left.min(30) + 1),
    };
    Play::new(rng.pick(&STATUSES), position, position + ahead as u32)
}

/// A play record that refusal 2 covers, in one of its three ways.
fn unsound_play(rng: &mut Rng, marks: &Marks) -> Play {
    let sound = sound_play(rng, marks);
    match rng.below(4) {
        0 => Play {
            status: rng.pick(&[0x00, 0x10, 0x14, 0x16, 0xFF]),
            ..sound
        },
        1 => Play {
            status: rng.byte(),
            end: TOP_ADDRESS + 1,
            ..sound
        },
        2 => Play {
            position: sound.end + 1 + rng.below(3) as u32,
            ..sound
        },
        _ => Play::new(sound.status, rng.long(), rng.long() >> 1),
    }
}

/// The page (K4) with one of the twenty settings, the default one often.
fn sound_page(rng: &mut Rng) -> ModePage {
    if rng.one_in(3) {
        return ModePage::DEFAULT;
    }
    ModePage::new(rng.pick(&SETTINGS), rng.byte())
}

/// The page with any recovery byte, or one next to a setting.
fn any_page(rng: &mut Rng) -> ModePage {
    let recovery = match rng.one_in(2) {
        true => rng.pick(&SETTINGS) ^ 1 << rng.below(8),
        false => rng.byte(),
    };
    ModePage::new(recovery, rng.byte())
}

/// A media event (K7), none in half of the cases.
fn sound_event(rng: &mut Rng) -> u8 {
    if rng.one_in(2) {
        return NO_EVENT;
    }
    rng.below(4) as u8
}

/// Any byte in the event's place, or the first that 2 covers.
fn any_event(rng: &mut Rng) -> u8 {
    match rng.one_in(2) {
        true => 4,
        false => rng.byte(),
    }
}

/// Any state, now and then one that 2 covers.
pub fn any_state(rng: &mut Rng, marks: &Marks) -> State {
    State {
        tray_open: rng.one_in(2),
        disc_in: rng.below(4) > 0,
        lock: rng.one_in(3),
        power: rng.one_in(4),
        change: rng.one_in(4),
        sense: any_sense(rng),
        play: if rng.one_in(10) {
            unsound_play(rng, marks)
        } else {
            sound_play(rng, marks)
        },
        mode: if rng.one_in(12) {
            any_page(rng)
        } else {
            sound_page(rng)
        },
        event: if rng.one_in(12) {
            any_event(rng)
        } else {
            sound_event(rng)
        },
    }
}

/// Loaded, mostly with nothing pending, with a sense of the thirteen, a sound
/// play record, a sound page and an event from 0 to 3.
fn loaded_state(rng: &mut Rng, marks: &Marks) -> State {
    State {
        lock: rng.one_in(3),
        power: rng.one_in(12),
        change: rng.one_in(12),
        sense: if rng.one_in(2) {
            sense::NONE
        } else {
            rng.pick(&TRIPLES)
        },
        play: sound_play(rng, marks),
        mode: sound_page(rng),
        event: sound_event(rng),
        ..State::READY
    }
}

/// How far K2's outside call moves: a little, or far past any end.
fn any_step(rng: &mut Rng) -> u32 {
    match rng.below(6) {
        0 => 0,
        1 => rng.long(),
        2 => rng.below(500_000) as u32,
        3 => 1,
        _ => rng.below(40) as u32,
    }
}

fn lend(stream: &mut Stream, sheet: &Sheet) -> Marks {
    let bytes = sheet.bytes();
    stream.table(&bytes);
    Marks::of(table::read(&bytes).ok().as_ref())
}

/// A power-on by either form of K3.
fn any_power_on(stream: &mut Stream, rng: &mut Rng) {
    if rng.one_in(2) {
        stream.power_on();
    } else {
        stream.power_on_without_change();
    }
}

/// Packets on a fit disc.
fn disc_scene(stream: &mut Stream, rng: &mut Rng) {
    let marks = lend(stream, &any_fit(rng));
    if rng.one_in(2) {
        lend_memory(stream, rng);
    }
    stream.state(loaded_state(rng, &marks));
    for _ in 0..rng.range(10, 40) {
        if rng.one_in(6) {
            stream.state(loaded_state(rng, &marks));
        }
        stream.packet(&any_packet(rng, &marks));
    }
}

/// A long trace of tray calls and packets, the table changing with the disc.
pub fn trace_scene(stream: &mut Stream, rng: &mut Rng) {
    let mut marks = lend(stream, &any_fit(rng));
    stream.state(State {
        sense: sense::NONE,
        play: sound_play(rng, &marks),
        mode: sound_page(rng),
        event: sound_event(rng),
        ..any_state(rng, &marks)
    });
    for _ in 0..rng.range(20, 80) {
        match rng.below(25) {
            20 | 21 => stream.move_on(any_step(rng)),
            22 => select(stream, rng),
            23 | 24 => stream.packet(&any_event_status(rng)),
            0 => any_power_on(stream, rng),
            1..=3 => stream.button(),
            4 => stream.lay(),
            5 => {
                stream.lift();
                stream.lay();
                if rng.one_in(3) {
                    marks = lend(stream, &any_fit(rng));
                }
            }
            6 => stream.lift(),
            7 | 8 => stream.packet(&start_stop(EJECT)),
            9 | 10 => stream.packet(&start_stop(LOAD)),
            11..=14 => {
                let packet = rng.pick(&one_of_each());
                stream.packet(&with_junk(rng, packet));
            }
            _ => stream.packet(&any_packet(rng, &marks)),
        }
    }
}

/// A table with a rule broken, or nearly.
fn spoilt_scene(stream: &mut Stream, rng: &mut Rng) {
    for _ in 0..rng.range(1, 6) {
        let sheet = any_fit(rng);
        let rule = rng.range(1, 9);
        let table = spoil(rng, &sheet, &[rule]);
        stream.table(&table);
        let last = sheet.last;
        for _ in 0..rng.range(1, 3) {
            let session = rng.pick(&[0, 1, last, last.wrapping_add(1), 255]);
            stream.part(session);
        }
        let marks = Marks::of(table::read(&table).ok().as_ref());
        stream.state(loaded_state(rng, &marks));
        stream.packet(&test_ready());
        stream.packet(&any_packet(rng, &marks));
        if rng.one_in(3) {
            stream.state(any_state(rng, &marks));
            stream.packet(&any_packet(rng, &marks));
            stream.button();
            stream.packet(&any_packet(rng, &marks));
        }
    }
}

/// Many tables with one rule broken or several, each met by a part and a packet
/// in either order; a few are fit, and a few calls are refused by less than 4.
pub fn broken_scene(stream: &mut Stream, rng: &mut Rng) {
    let marks = Marks::of(None);
    for _ in 0..rng.range(5, 15) {
        let table = if rng.one_in(10) {
            small_fit(rng).bytes()
        } else {
            any_broken(rng)
        };
        stream.table(&table);
        stream.state(loaded_state(rng, &marks));
        let (session, packet) = (rng.pick(&[0, 1, 2, 255]), any_packet(rng, &marks));
        if rng.one_in(2) {
            stream.part(session);
            stream.packet(&packet);
        } else {
            stream.packet(&packet);
            stream.part(session);
        }
        if rng.one_in(6) {
            stream.state(any_state(rng, &marks));
            stream.packet(&packet[..rng.range(11, 12)]);
        }
    }
}

fn address_scene(stream: &mut Stream, rng: &mut Rng) {
    for _ in 0..rng.range(5, 30) {
        let address = match rng.below(4) {
            0 if rng.one_in(2) => rng.range(449_847, 449_852) as u32,
            0 => rng.long(),
            1 => (rng.below(100) * 4_500 + rng.below(3)) as u32,
            _ => rng.below(449_900) as u32,
        };
        match rng.below(4) {
            0 => stream.to_msf(address),
            1 => {
                // There and back.
                stream.to_msf(address);
                if let Ok(time) = to_msf(address) {
                    stream.to_address(time.m, time.s, time.f);
                }
            }
            2 => {
                let m = rng.pick(&[0, 1, 50, 98, 99, 100, 255]);
                let s = rng.pick(&[0, 1, 2, 3, 58, 59, 60, 255]);
                let f = rng.pick(&[0, 1, 73, 74, 75, 255]);
                stream.to_address(m, s, f);
            }
            _ => {
                let (m, s, f) = (rng.below(102), rng.below(63), rng.below(78));
                stream.to_address(m as u8, s as u8, f as u8);
            }
        }
    }
}

/// Fresh states before each call, the sense often unknown.
fn state_scene(stream: &mut Stream, rng: &mut Rng) {
    let marks = lend(stream, &any_fit(rng));
    for _ in 0..rng.range(5, 20) {
        stream.state(any_state(rng, &marks));
        for _ in 0..rng.range(1, 3) {
            match rng.below(9) {
                8 => stream.move_on(any_step(rng)),
                0 => stream.button(),
                1 => stream.lay(),
                2 => stream.lift(),
                3 => any_power_on(stream, rng),
                4 => stream.packet(&rng.pick(&one_of_each())),
                _ => stream.packet(&any_packet(rng, &marks)),
            }
        }
    }
}

/// Power-ons of any state, loaded ones most often, and behind each a few calls
/// that tell what it left.
pub fn power_on_scene(stream: &mut Stream, rng: &mut Rng) {
    let marks = lend(stream, &any_fit(rng));
    for _ in 0..rng.range(3, 10) {
        stream.state(if rng.one_in(3) {
            loaded_state(rng, &marks)
        } else {
            any_state(rng, &marks)
        });
        any_power_on(stream, rng);
        for _ in 0..rng.range(2, 6) {
            match rng.below(11) {
                10 => stream.move_on(any_step(rng)),
                0 => stream.button(),
                1 => any_power_on(stream, rng),
                2 => stream.packet(&start_stop(LOAD)),
                3 | 4 => stream.packet(&test_ready()),
                5 | 6 => stream.packet(&rng.pick(&one_of_each())),
                _ => stream.packet(&any_packet(rng, &marks)),
            }
        }
    }
}

/// Plays on a fit disc with audio on it (K2): begun, moved on, paused, asked
/// for, stopped by READ and SEEK, ended by the tray, and met by another table.
pub fn audio_scene(stream: &mut Stream, rng: &mut Rng) {
    let mut marks = lend(stream, &with_audio(rng));
    stream.state(State {
        power: false,
        change: false,
        ..loaded_state(rng, &marks)
    });
    for _ in 0..rng.range(15, 50) {
        match rng.below(24) {
            0..=3 => {
                let (address, count) = marks.audio_run(rng);
                stream.packet(&play(address, count));
            }
            4 | 5 => to_the_end(stream, rng, &marks),
            6 | 7 => {
                stream.packet(&pause());
                stream.packet(&position(rng.one_in(2)));
            }
            8..=11 => stream.move_on(any_step(rng)),
            12..=14 => stream.packet(&position(rng.one_in(2))),
            15..=18 => stream.packet(&any_audio(rng, &marks)),
            19 => stream.packet(&seek(marks.address(rng))),
            20 => {
                let address = marks.address(rng);
                stream.packet(&read12(address, marks.count(rng, address)));
            }
            21 => another_record(stream, rng, &marks),
            22 if rng.one_in(3) => marks = lend(stream, &with_audio(rng)),
            22 => stream.packet(&any_packet(rng, &marks)),
            _ => tray_or_power(stream, rng),
        }
    }
}

/// A play that is moved to its end or next to it, and asked for.
fn to_the_end(stream: &mut Stream, rng: &mut Rng, marks: &Marks) {
    let (address, count) = marks.audio_run(rng);
    stream.packet(&play(address, count));
    stream.move_on((u32::from(count) + rng.below(3) as u32).saturating_sub(1));
    stream.packet(&position(rng.one_in(2)));
}

/// A record set outright; now and then one that 2 covers, until another is set.
fn another_record(stream: &mut Stream, rng: &mut Rng, marks: &Marks) {
    if rng.one_in(3) {
        stream.state(State {
            play: unsound_play(rng, marks),
            ..State::READY
        });
        stream.move_on(any_step(rng));
        stream.packet(&any_audio(rng, marks));
    }
    stream.state(State {
        play: sound_play(rng, marks),
        ..State::READY
    });
}

/// The page set, asked for and refused (K4), the drive loaded or not, with other
/// calls between that leave it and power-ons that restore it.
pub fn mode_scene(stream: &mut Stream, rng: &mut Rng) {
    let marks = lend(stream, &small_fit(rng));
    stream.state(any_sound_state(rng, &marks));
    for _ in 0..rng.range(10, 30) {
        match rng.below(20) {
            0..=6 => {
                select(stream, rng);
                stream.packet(&mode_sense(0, 1, 16));
            }
            7..=11 => stream.packet(&any_mode(rng)),
            12 => stream.list(&any_list(rng)),
            13 => another_page(stream, rng, &marks),
            14 => tray_or_power(stream, rng),
            15 => stream.button(),
            16 => rng.pick(&[Stream::lay, Stream::lift])(stream),
            17 => stream.move_on(any_step(rng)),
            18 => stream.packet(&rng.pick(&one_of_each())),
            _ => stream.packet(&any_packet(rng, &marks)),
        }
    }
}

/// Any state that 2 does not cover, seldom with something pending.
fn any_sound_state(rng: &mut Rng, marks: &Marks) -> State {
    State {
        tray_open: rng.one_in(3),
        disc_in: rng.below(3) > 0,
        ..loaded_state(rng, marks)
    }
}

/// A list, and 55h of its length or, now and then, of another.
fn select(stream: &mut Stream, rng: &mut Rng) {
    let list = any_list(rng);
    let length = if rng.one_in(8) { 16 } else { list.len() };
    stream.list(&list);
    stream.packet(&mode_select(length as u16));
}

/// A page set outright; now and then one that 2 covers, until another is set.
fn another_page(stream: &mut Stream, rng: &mut Rng, marks: &Marks) {
    let state = any_sound_state(rng, marks);
    if rng.one_in(3) {
        let mode = any_page(rng);
        stream.state(State { mode, ..state });
        stream.packet(&any_mode(rng));
        stream.button();
    }
    stream.state(state);
}

/// The lab's polling (K7): the tray opened and closed by button and packet, pressed
/// under lock, with a disc and without, and 4Ah between, power-ons and tellings too.
pub fn event_scene(stream: &mut Stream, rng: &mut Rng) {
    let marks = lend(stream, &small_fit(rng));
    stream.state(any_sound_state(rng, &marks));
    for _ in 0..rng.range(12, 36) {
        match rng.below(24) {
            0..=3 => stream.button(),
            4 => stream.packet(&start_stop(EJECT)),
            5 => stream.packet(&start_stop(LOAD)),
            6 => rng.pick(&[Stream::lay, Stream::lift])(stream),
            7..=9 => locked_press(stream, rng),
            10..=14 => stream.packet(&any_event_status(rng)),
            15..=17 => stream.packet(&event_status(0x18, 8)),
            18 => another_event(stream, rng, &marks),
            19 => tray_or_power(stream, rng),
            20 => stream.packet(&test_ready()),
            21 => stream.packet(&request_sense(18)),
            22 => stream.packet(&rng.pick(&one_of_each())),
            _ => stream.packet(&any_packet(rng, &marks)),
        }
    }
}

/// The lock on, told first where something is pending, and a press; most often it
/// is asked for what it made, and the lock taken off.
fn locked_press(stream: &mut Stream, rng: &mut Rng) {
    for _ in 0..rng.range(1, 2) {
        stream.packet(&prevent(1));
    }
    stream.button();
    if rng.below(4) > 0 {
        stream.packet(&any_event_status(rng));
    }
    if rng.below(3) > 0 {
        stream.packet(&prevent(0));
    }
}

/// An event set outright; now and then one that 2 covers, until another is set.
fn another_event(stream: &mut Stream, rng: &mut Rng, marks: &Marks) {
    let state = any_sound_state(rng, marks);
    if rng.one_in(3) {
        let event = any_event(rng);
        stream.state(State { event, ..state });
        stream.packet(&any_event_status(rng));
        stream.button();
    }
    stream.state(state);
}

/// Pairs of calls on a state set outright (K8): a call and what may take it back; two
/// power-ons; a packet and a power-on, beside the same power-on alone. The table is
/// unfit or the memory short now and then.
pub fn cancel_scene(stream: &mut Stream, rng: &mut Rng) {
    let marks = lend(stream, &with_audio(rng));
    let short = rng.one_in(8);
    match rng.below(8) {
        0 => stream.table(&any_broken(rng)),
        1 | 2 => stream.list(&any_list(rng)),
        _ if short => stream.memory(MEMORY - 1, 0),
        _ => {}
    }
    for _ in 0..rng.range(3, 9) {
        let state = match rng.below(3) {
            0 => any_state(rng, &marks),
            1 => loaded_state(rng, &marks),
            _ => any_sound_state(rng, &marks),
        };
        match rng.below(10) {
            0..=2 => disc_and_back(stream, rng, state),
            3 => undone(stream, rng, state, &marks),
            4 => later_power_on(stream, rng, state),
            _ => packet_and_power_on(stream, rng, state, &marks),
        }
    }
    if short {
        lend_memory(stream, rng);
    }
}

/// A disc laid and lifted, or lifted and laid, most often with the tray open.
fn disc_and_back(stream: &mut Stream, rng: &mut Rng, state: State) {
    let lays = rng.one_in(2);
    stream.state(State {
        tray_open: state.tray_open || rng.below(4) > 0,
        disc_in: lays == rng.one_in(6),
        ..state
    });
    let [first, second] = match lays {
        true => [Stream::lay, Stream::lift],
        false => [Stream::lift, Stream::lay],
    };
    first(stream);
    second(stream);
}

/// Another call and the one that seems to undo it, from a state in which nothing may
/// be left to reset.
fn undone(stream: &mut Stream, rng: &mut Rng, state: State, marks: &Marks) {
    stream.state(State {
        sense: if rng.one_in(3) {
            state.sense
        } else {
            sense::NONE
        },
        play: if rng.one_in(3) {
            Play::NONE
        } else {
            state.play
        },
        ..state
    });
    let (address, count) = marks.audio_run(rng);
    let pairs = [
        [prevent(1), prevent(0)],
        [pause(), resume()],
        [play(address, count), read12(marks.address(rng), 0)],
        [start_stop(EJECT), start_stop(LOAD)],
    ];
    match rng.below(pairs.len() + 3) {
        n if n < pairs.len() => pairs[n].iter().for_each(|packet| stream.packet(packet)),
        _ => {
            stream.button();
            stream.button();
        }
    }
}

/// Two power-ons of any forms, and the later one alone.
fn later_power_on(stream: &mut Stream, rng: &mut Rng, state: State) {
    let later = rng.pick(&FORMS);
    stream.state(state);
    any_power_on(stream, rng);
    later(stream);
    stream.state(state);
    later(stream);
}

/// A packet and a power-on, and that power-on alone, in either order.
fn packet_and_power_on(stream: &mut Stream, rng: &mut Rng, state: State, marks: &Marks) {
    let form = rng.pick(&FORMS);
    let packet = match rng.below(4) {
        0 => rng.pick(&one_of_each()),
        1 => start_stop(rng.pick(&[EJECT, LOAD])),
        _ => any_packet(rng, marks),
    };
    let length = if rng.one_in(12) { 11 } else { 12 };
    let before = rng.one_in(2);
    for alone in [before, !before] {
        stream.state(state);
        if !alone {
            stream.packet(&packet[..length]);
        }
        form(stream);
    }
}

/// One run of calls on a disc of one session and on a twin of it (K10), from the same
/// memory, list and state: packets, a state set before each, or a history of any calls.
/// Format 2 comes last, if at all.
pub fn twin_scene(stream: &mut Stream, rng: &mut Rng) {
    let sheet = one_session(rng);
    let twin = twin_of(rng, &sheet);
    let marks = Marks::of(table::read(&sheet.bytes()).ok().as_ref());
    let mut run = Stream::new();
    let short = rng.one_in(16);
    match short {
        true => run.memory(MEMORY - 1, 0),
        false => lend_memory(&mut run, rng),
    }
    run.list(&any_list(rng));
    match rng.one_in(2) {
        true => packets_from_states(&mut run, rng, &marks),
        false => history(&mut run, rng, &marks),
    }
    if rng.one_in(2) {
        let number = rng.pick(&[0, 0, 0, 0, 1, 1, 1, 2, 0xAA]);
        let length = rng.pick(&[5, 16, 48, 6_538, 6_538, 6_538, 6_538, 65_535]);
        let state = loaded_state(rng, &marks);
        run.packet_from(state, &toc(rng.one_in(2), 2, number, length));
    }
    for sheet in [&sheet, &twin] {
        stream.table(&sheet.bytes());
        stream.join(&run);
    }
    if short {
        lend_memory(stream, rng);
    }
}

/// Any packet but format 2, most often one whose answer the disc decides.
fn told_packet(rng: &mut Rng, marks: &Marks) -> Packet {
    let address = marks.address(rng);
    let packet = match rng.below(12) {
        0 => toc(rng.one_in(2), 0, rng.pick(&marks.numbers), 804),
        1 => toc(rng.one_in(2), 0, 0, 804),
        2 => toc(rng.one_in(2), 1, rng.byte(), 12),
        3 => read12(address, marks.count(rng, address)),
        4 => seek(address),
        5 => capacity(),
        6 | 7 => any_audio(rng, marks),
        _ => any_packet(rng, marks),
    };
    match is_format_2(&packet) {
        true => told_packet(rng, marks),
        false => packet,
    }
}

fn packets_from_states(run: &mut Stream, rng: &mut Rng, marks: &Marks) {
    for _ in 0..rng.range(6, 18) {
        run.state(match rng.below(8) {
            0 => any_state(rng, marks),
            _ => loaded_state(rng, marks),
        });
        let length = if rng.one_in(30) { 11 } else { 12 };
        run.packet(&told_packet(rng, marks)[..length]);
    }
}

fn history(run: &mut Stream, rng: &mut Rng, marks: &Marks) {
    run.state(match rng.below(4) {
        0 => any_state(rng, marks),
        _ => loaded_state(rng, marks),
    });
    for _ in 0..rng.range(8, 24) {
        match rng.below(20) {
            0 => any_power_on(run, rng),
            1 => tray_or_power(run, rng),
            2 => run.button(),
            3 => {
                // The disc taken out and put in again.
                run.packet(&start_stop(EJECT));
                run.lift();
                run.lay();
                run.button();
            }
            4 | 5 => run.move_on(any_step(rng)),
            6 => run.packet(&start_stop(rng.pick(&[EJECT, LOAD, LOAD]))),
            7 => to_the_end(run, rng, marks),
            8 => run.packet(&test_ready()),
            9 => run.packet(&any_event_status(rng)),
            10 => select(run, rng),
            _ => run.packet(&told_packet(rng, marks)),
        }
    }
}

/// Cue sheets (K12), half of them to be written, into one memory and another, too short
/// now and then; the table of some lent and met by a packet.
pub fn sheet_scene(stream: &mut Stream, rng: &mut Rng) {
    lend_memory(stream, rng);
    for _ in 0..rng.range(12, 40) {
        let short = rng.one_in(20);
        if short {
            let length = rng.pick(&[0, 1, 4_360, MEMORY - 1, MEMORY - 1, MEMORY - 1]);
            stream.memory(length, rng.byte());
        }
        let sheet = any_sheet(rng);
        stream.cue_sheet(&sheet);
        if short || rng.one_in(30) {
            lend_memory(stream, rng);
        }
        if let (true, Ok(table)) = (rng.one_in(40), cue::table_of(&sheet)) {
            stream.table(&table);
            let marks = Marks::of(table::read(&table).ok().as_ref());
            stream.state(loaded_state(rng, &marks));
            stream.packet(&told_packet(rng, &marks));
        }
    }
}

/// Shelves (K13): a few tables each, from no totals, from some, and up to the end of 64
/// bits.
pub fn shelf_scene(stream: &mut Stream, rng: &mut Rng) {
    for _ in 0..rng.range(12, 40) {
        let tables = any_shelf(rng);
        let totals = any_totals(rng, &tables);
        stream.shelf(totals, &tables);
    }
}

/// A changer (K11): loads and unloads of every pair and slot, the status, what is the
/// first device's on both devices, other discs' tables between, the lock, power-ons,
/// outside calls, and now and then slots, a home or a tray that 11 refuses.
pub fn changer_scene(stream: &mut Stream, rng: &mut Rng) {
    let mut marks = lend(stream, &with_audio(rng));
    lend_memory(stream, rng);
    let mut count = stage(stream, rng, &marks);
    for _ in 0..rng.range(20, 50) {
        match rng.below(48) {
            0..=17 => move_and_tell(stream, rng, count),
            18..=21 => stream.changer_packet(&any_move(rng, count)),
            22..=26 => stream.changer_packet(&any_status(rng, count)),
            27 => stream.changer_packet(&start_stop(rng.pick(&[0, 1, EJECT, LOAD]))),
            28..=30 => stream.changer_packet(&any_audio(rng, &marks)),
            31 => stream.changer_packet(&any_event_status(rng)),
            32 => stream.changer_packet(&rng.pick(&one_of_each())),
            33..=35 => stream.changer_packet(&any_packet(rng, &marks)),
            36 | 37 => stream.changer_move_on(any_step(rng)),
            38 => rng.pick(&CHANGER_FORMS)(stream),
            39 => locked_move(stream, rng, count),
            40 => marks = lend(stream, &with_audio(rng)),
            41 => unfit_between(stream, rng, &mut marks, count),
            42 => tray_between(stream, rng, count),
            43 => on_the_first(stream, rng, &marks),
            44 => refused_between(stream, rng, &marks, count),
            _ => count = stage(stream, rng, &marks),
        }
    }
    lend_memory(stream, rng);
}

/// Slots, a drive and its disc's home set outright; their number. One in six has something
/// that 11 refuses, one in twelve a state that 2 does.
fn stage(stream: &mut Stream, rng: &mut Rng, marks: &Marks) -> usize {
    let few = rng.range(1, 8);
    let count = rng.pick(&[1, 2, 3, few, few, few, few, 30, 31, 31]);
    let mut slots: Vec<Slot> = (0..count).map(|_| any_slot(rng)).collect();
    let mut home = rng.below(count);
    slots[home].present = false;
    let mut drive = State {
        tray_open: false,
        disc_in: rng.below(3) > 0,
        lock: rng.one_in(10),
        ..loaded_state(rng, marks)
    };
    match rng.below(24) {
        0 => slots[home].present = true,
        1 => home = rng.pick(&[count, count + 1, 31, 32, 127, 128, 255]),
        2 => drive.tray_open = true,
        3 => slots.resize(rng.pick(&[0, 32, 33, 40, 255]), Slot::default()),
        4 | 5 => drive = any_state(rng, marks),
        _ => {}
    }
    stream.slots(&slots);
    stream.home(home as u8);
    stream.state(drive);
    if rng.one_in(3) {
        stream.changer_move_on(any_step(rng));
    }
    slots.len()
}

/// Two in three with a disc, one in three changed.
fn any_slot(rng: &mut Rng) -> Slot {
    Slot {
        present: rng.below(3) > 0,
        changed: rng.one_in(3),
    }
}

/// A slot of so many, or one beyond the last.
fn any_slot_byte(rng: &mut Rng, count: usize) -> u8 {
    let within = rng.below(count.max(1)) as u8;
    let beyond = rng.pick(&[count as u8, (count + 1) as u8, 31, 32, 255]);
    let any = rng.byte();
    rng.pick(&[within, within, within, within, within, within, beyond, any])
}

/// A6h of any pair, Load most often, with anything in what no rule names now and then.
fn any_move(rng: &mut Rng, count: usize) -> Packet {
    let low_bits = rng.pick(&[3, 3, 3, 3, 3, 2, 2, 1, 0]);
    let packet = load_unload(low_bits, any_slot_byte(rng, count));
    match rng.one_in(4) {
        true => with_junk(rng, packet),
        false => packet,
    }
}

/// A move, and most often what it leaves to be told is told at once, by one packet or the
/// other; 4Ah tells the event.
fn move_and_tell(stream: &mut Stream, rng: &mut Rng, count: usize) {
    let low_bits = rng.pick(&[3, 3, 2]);
    let slot = rng.below(count.max(1)) as u8;
    stream.changer_packet(&load_unload(low_bits, slot));
    match rng.below(6) {
        0 => {}
        1 => stream.changer_packet(&request_sense(18)),
        2 => stream.packet(&test_ready()),
        3 => {
            stream.changer_packet(&event_status(0x18, 8));
            stream.changer_packet(&test_ready());
        }
        _ => stream.changer_packet(&test_ready()),
    }
}

/// BDh of any length, near the header's end and each slot's.
fn any_status(rng: &mut Rng, count: usize) -> Packet {
    let whole = 8 + 4 * count as u16;
    let inside = rng.below(usize::from(whole) + 4) as u16;
    let length = rng.pick(&[
        0,
        1,
        6,
        7,
        8,
        9,
        inside,
        inside,
        inside,
        whole - 1,
        whole,
        whole,
        whole,
        whole + 1,
        0x0100,
        0xFFFF,
    ]);
    let packet = mechanism_status(length);
    match rng.one_in(4) {
        true => with_junk(rng, packet),
        false => packet,
    }
}

/// Under lock: a move or two, and most often the lock taken off.
fn locked_move(stream: &mut Stream, rng: &mut Rng, count: usize) {
    for _ in 0..rng.range(1, 2) {
        stream.changer_packet(&prevent(1));
    }
    for _ in 0..rng.range(1, 2) {
        stream.changer_packet(&any_move(rng, count));
    }
    if rng.below(4) > 0 {
        stream.changer_packet(&prevent(0));
        stream.changer_packet(&prevent(0));
    }
}

/// A broken table lent for a few packets.
fn unfit_between(stream: &mut Stream, rng: &mut Rng, marks: &mut Marks, count: usize) {
    stream.table(&any_broken(rng));
    for _ in 0..rng.range(1, 4) {
        stream.changer_packet(&match rng.below(4) {
            0 => any_status(rng, count),
            1 => any_packet(rng, marks),
            _ => any_move(rng, count),
        });
    }
    *marks = lend(stream, &with_audio(rng));
}

/// The first device's tray opened, the changer asked, and closed again, with the disc that
/// was in it, without it or with another.
fn tray_between(stream: &mut Stream, rng: &mut Rng, count: usize) {
    stream.button();
    stream.changer_packet(&any_move(rng, count));
    if rng.one_in(2) {
        stream.changer_packet(&rng.pick(&one_of_each()));
    }
    match rng.below(4) {
        0 => stream.lift(),
        1 => stream.lay(),
        _ => {}
    }
    stream.button();
    for _ in 0..rng.below(3) {
        stream.changer_packet(&test_ready());
    }
}

/// A call on the first device, which shares the state.
fn on_the_first(stream: &mut Stream, rng: &mut Rng, marks: &Marks) {
    match rng.below(6) {
        0 => any_power_on(stream, rng),
        1 => stream.move_on(any_step(rng)),
        2 => stream.packet(&load_unload(3, rng.byte() % 4)),
        3 => stream.packet(&mechanism_status(16)),
        _ => stream.packet(&any_packet(rng, marks)),
    }
}

/// A packet of another length, or a short memory, for a call or two.
fn refused_between(stream: &mut Stream, rng: &mut Rng, marks: &Marks, count: usize) {
    let length = rng.pick(&[0, 11, 11, 13]);
    let mut packet = any_move(rng, count).to_vec();
    packet.resize(length, 0);
    stream.changer_packet(&packet);
    stream.memory(rng.pick(&[0, MEMORY - 1, MEMORY - 1]), rng.byte());
    stream.changer_packet(&any_move(rng, count));
    stream.changer_packet(&any_packet(rng, marks));
    lend_memory(stream, rng);
}

/// The registers (K14): packets by any limit with their lists and answers, what is out of
/// turn, and other calls, resets and other memories between. A transfer may be left open, so
/// that the next scene finds it.
pub fn register_scene(stream: &mut Stream, rng: &mut Rng) {
    let mut marks = lend(stream, &small_fit(rng));
    lend_memory(stream, rng);
    stream.state(if rng.one_in(4) {
        any_state(rng, &marks)
    } else {
        loaded_state(rng, &marks)
    });
    if rng.one_in(200) {
        long_answer(stream, rng);
    }
    for _ in 0..rng.range(4, 9) {
        match rng.below(24) {
            0..=14 => any_transfer(stream, rng, &marks),
            15 | 16 => out_of_turn(stream, rng),
            17 => stream.reset(),
            18 => stream.state(loaded_state(rng, &marks)),
            19 => stream.state(any_state(rng, &marks)),
            20 | 21 => between_runs(stream, rng, &marks),
            22 => unfit_for_a_packet(stream, rng, &marks),
            _ => marks = lend(stream, &small_fit(rng)),
        }
    }
    lend_memory(stream, rng);
}

/// Limits at every border, and a few drawn.
fn any_limit(rng: &mut Rng) -> u16 {
    let (small, any) = (rng.below(40) as u16, rng.long() as u16);
    let odd = (rng.below(20) as u16) << 1 | 1;
    let borders = rng.pick(&[0, 1, 2, 3, 0x7FFF, 0x8000, 0xFFFD, 0xFFFE, 0xFFFF]);
    rng.pick(&[small, odd, borders, borders, 16, any])
}

/// A packet most often of a short answer, or a 55h that takes a list.
fn register_packet(rng: &mut Rng, marks: &Marks) -> Packet {
    let length = rng.below(41);
    let packet = match rng.below(20) {
        0..=2 => inquiry(length as u8),
        3 | 4 => request_sense(length as u8),
        5..=7 => toc(rng.one_in(2), rng.below(3) as u8, 0, length as u16),
        8..=10 => mode_select(16),
        11 => mode_select(rng.pick(&[0, 8, 15, 17, 0x1000])),
        12 => mode_sense(rng.byte() % 4, 1, length as u16),
        13 => test_ready(),
        14 => capacity(),
        15 => any_event_status(rng),
        16 => rng.pick(&one_of_each()),
        _ => any_packet(rng, marks),
    };
    match rng.one_in(6) {
        true => with_junk(rng, packet),
        false => packet,
    }
}

/// A transfer from where the registers are: one that is open is most often ended first.
/// Now and then something is out of turn or comes between two of its bytes.
fn any_transfer(stream: &mut Stream, rng: &mut Rng, marks: &Marks) {
    end_of_transfer(stream, rng);
    if rng.below(4) > 0 {
        host::limit(stream, any_limit(rng));
    }
    if rng.one_in(6) {
        let register = rng.pick(&[Register::Features, Register::Drive]);
        stream.write(register, rng.byte());
    }
    host::begin(stream);
    let packet = register_packet(rng, marks);
    for byte in packet {
        disturbed(stream, rng, marks);
        host::enter(stream, &[byte]);
    }
    entered_list(stream, rng, marks);
    let top = rng.pick(&[5, 40, 100, 100, 100]);
    for _ in 0..top {
        if stream.registers().letter() != 'A' {
            break;
        }
        disturbed(stream, rng, marks);
        stream.read();
    }
    if rng.one_in(8) {
        stream.read();
    }
}

/// The list that the registers ask for, if they do: sound or wrong, now and then cut off.
fn entered_list(stream: &mut Stream, rng: &mut Rng, marks: &Marks) {
    let mut list = any_list(rng);
    list.resize(16, 0x00);
    for byte in list {
        if stream.registers().letter() != 'L' || rng.one_in(200) {
            return;
        }
        disturbed(stream, rng, marks);
        host::enter(stream, &[byte]);
    }
}

/// Something out of turn, or a call of another kind, one time in fifty.
fn disturbed(stream: &mut Stream, rng: &mut Rng, marks: &Marks) {
    match rng.below(150) {
        0 | 1 => out_of_turn(stream, rng),
        2 => between_runs(stream, rng, marks),
        _ => {}
    }
}

/// Ends what is open: an answer by its bytes, or anything by a reset; now and then not.
fn end_of_transfer(stream: &mut Stream, rng: &mut Rng) {
    if stream.registers().letter() == 'I' || rng.one_in(16) {
        return;
    }
    if rng.below(3) > 0 {
        for _ in 0..60 {
            if stream.registers().letter() != 'A' {
                break;
            }
            stream.read();
        }
    }
    if stream.registers().letter() != 'I' {
        stream.reset();
    }
}

/// Any register call, most of them refused by 15 wherever the registers are.
fn out_of_turn(stream: &mut Stream, rng: &mut Rng) {
    for _ in 0..rng.range(1, 3) {
        match rng.below(6) {
            0 => stream.read(),
            1 => stream.write(Register::Data, rng.byte()),
            2 => stream.write(Register::Command, rng.pick(&[0xEC, 0x08, 0xA1, 0xA0])),
            3 => stream.write(Register::Command, rng.byte()),
            _ => stream.write(rng.pick(&Register::ALL), rng.byte()),
        }
    }
}

/// What may come between two runs: a tray call, a power-on, a packet of its own, another
/// memory, a reset, or a list lent that no packet here is to find.
fn between_runs(stream: &mut Stream, rng: &mut Rng, marks: &Marks) {
    match rng.below(12) {
        0 => stream.button(),
        1 => {
            stream.button();
            stream.button();
        }
        2 => any_power_on(stream, rng),
        3 | 4 => stream.packet(&any_packet(rng, marks)),
        5 => lend_memory(stream, rng),
        6..=8 => short_memory(stream, rng),
        9 => stream.reset(),
        10 => stream.list(&any_list(rng)),
        _ => stream.move_on(any_step(rng)),
    }
}

/// A data read and a data write with too short a memory, which is then long enough again.
fn short_memory(stream: &mut Stream, rng: &mut Rng) {
    let length = rng.pick(&[0, 1, 36, MEMORY - 1, MEMORY - 1]);
    stream.memory(length, rng.byte());
    stream.read();
    if rng.one_in(2) {
        stream.write(Register::Data, rng.byte());
    }
    lend_memory(stream, rng);
}

/// A packet that the target refuses, by 2, 3 or 4.
fn unfit_for_a_packet(stream: &mut Stream, rng: &mut Rng, marks: &Marks) {
    end_of_transfer(stream, rng);
    let sheet = small_fit(rng);
    match rng.below(3) {
        0 => {
            stream.table(&any_broken(rng));
            stream.state(loaded_state(rng, marks));
        }
        1 => stream.memory(MEMORY - 1, rng.byte()),
        _ => stream.state(State {
            event: 4,
            ..loaded_state(rng, marks)
        }),
    }
    host::packet(stream, &register_packet(rng, marks));
    entered_list(stream, rng, marks);
    stream.table(&sheet.bytes());
    lend_memory(stream, rng);
    stream.state(loaded_state(rng, marks));
}

/// The longest answer there is, all of it.
fn long_answer(stream: &mut Stream, rng: &mut Rng) {
    stream.table(&longest(rng).bytes());
    stream.reset();
    stream.state(State::READY);
    host::ask(stream, any_limit(rng), &toc(false, 2, 0, 6_538));
}

/// A small fit table with an audio track, but for a few.
fn with_audio(rng: &mut Rng) -> Sheet {
    loop {
        let sheet = small_fit(rng);
        let disc = table::read(&sheet.bytes()).expect("it is fit");
        if disc.tracks().any(|track| track.is(Mode::Audio)) || rng.one_in(8) {
            return sheet;
        }
    }
}

/// The tray opened and closed again, or a power-on; most often what is told then
/// is told at once.
fn tray_or_power(stream: &mut Stream, rng: &mut Rng) {
    match rng.below(3) {
        0 => any_power_on(stream, rng),
        1 => {
            stream.button();
            stream.button();
        }
        _ => {
            stream.packet(&start_stop(EJECT));
            stream.packet(&start_stop(LOAD));
        }
    }
    for _ in 0..rng.below(4) {
        stream.packet(&test_ready());
    }
}

/// Memories around the bound.
fn memory_scene(stream: &mut Stream, rng: &mut Rng) {
    let marks = lend(stream, &any_fit(rng));
    for _ in 0..rng.range(3, 8) {
        let any = rng.below(8_192) as u16;
        let length = rng.pick(&[0, 1, 4_360, MEMORY - 1, MEMORY, MEMORY + 1, 8_191, any]);
        let fill = rng.byte();
        stream.memory(length, fill);
        stream.state(any_state(rng, &marks));
        stream.packet(&any_packet(rng, &marks));
        stream.state(loaded_state(rng, &marks));
        stream.packet(&any_packet(rng, &marks));
    }
    lend_memory(stream, rng);
}

/// Packets that are not 12 bytes.
fn length_scene(stream: &mut Stream, rng: &mut Rng) {
    let marks = lend(stream, &any_fit(rng));
    for _ in 0..rng.range(3, 12) {
        let mut packet = any_packet(rng, &marks).to_vec();
        let length = match rng.below(6) {
            0..=2 => rng.below(12),
            3 => 13,
            4 => rng.range(14, 60),
            _ => 12,
        };
        packet.resize(length, 0);
        stream.state(if rng.one_in(3) {
            any_state(rng, &marks)
        } else {
            loaded_state(rng, &marks)
        });
        stream.packet(&packet);
    }
}

fn part_scene(stream: &mut Stream, rng: &mut Rng) {
    for _ in 0..rng.range(1, 5) {
        let sheet = any_fit(rng);
        stream.table(&sheet.bytes());
        for session in [0, 1, sheet.last, sheet.last + 1, 255] {
            stream.part(session);
        }
        let session = rng.range(1, usize::from(sheet.last)) as u8;
        stream.part(session);
    }
}

/// The largest tables: full answers, cut answers, and one byte or bit wrong.
fn full_scene(stream: &mut Stream, rng: &mut Rng) {
    let (sessions, tracks) = rng.pick(&[(99, 99), (1, 99), (50, 99), (98, 99), (98, 98)]);
    let sheet = if rng.below(3) > 0 {
        longest(rng)
    } else {
        fit(rng, sessions, tracks)
    };
    let marks = lend(stream, &sheet);
    lend_memory(stream, rng);
    stream.state(State::READY);
    let number = rng.pick(&[0, 1, sheet.last, 97]);
    let length = rng.pick(&[804, 4_360, 6_537, 6_538, 6_539, 65_535]);
    stream.packet(&toc(rng.one_in(2), 2, number, length));
    stream.packet(&toc(rng.one_in(2), 0, 0, length));
    stream.packet(&capacity());
    for _ in 0..rng.range(10, 30) {
        // Long answers only now and then.
        let mut packet = any_packet(rng, &marks);
        if packet[0] == 0x43 && rng.below(8) > 0 {
            packet[7] = 0;
        }
        stream.packet(&packet);
    }
    for _ in 0..3 {
        let session = rng.pick(&[0, 1, 2, sheet.last, sheet.last + 1, 255]);
        stream.part(session);
    }
    let rule = rng.range(1, 9);
    stream.table(&spoil(rng, &sheet, &[rule]));
    stream.part(sheet.last);
    stream.state(State::READY);
    stream.packet(&test_ready());
}

/// Anything after anything.
fn chaos_scene(stream: &mut Stream, rng: &mut Rng) {
    let mut marks = Marks::of(None);
    for _ in 0..rng.range(10, 40) {
        match rng.below(18) {
            16 => stream.move_on(any_step(rng)),
            17 => stream.list(&any_list(rng)),
            0 => marks = lend(stream, &any_fit(rng)),
            1 => {
                let sheet = any_fit(rng);
                let rule = rng.range(1, 9);
                stream.table(&spoil(rng, &sheet, &[rule]));
            }
            2 | 3 => stream.state(any_state(rng, &marks)),
            4 => stream.state(loaded_state(rng, &marks)),
            5 => lend_memory(stream, rng),
            6 => any_power_on(stream, rng),
            7 => stream.button(),
            8 => stream.lay(),
            9 => stream.lift(),
            10 => stream.part(rng.below(5) as u8),
            11 => stream.to_msf(rng.below(460_000) as u32),
            _ => stream.packet(&any_packet(rng, &marks)),
        }
    }
}
