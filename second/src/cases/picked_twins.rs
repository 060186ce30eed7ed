//! K10, picked by hand: "how much of a disc the track list tells". One run of calls on
//! each of several tables, from the same memory, list and state: twins, which no packet
//! but format 2 tells apart, and, for each condition, tables that it is needed for.

use crate::cases::packets::{
    capacity, event_status, inquiry, mode_select, mode_sense, one_of_each, page_list, pause, plain,
    play, position, prevent, read10, read12, request_sense, resume, seek, start_stop, sub_channel,
    test_ready, toc, Packet, EJECT, LOAD,
};
use crate::cases::picked_state::MEMORY;
use crate::cases::sheet::{disc_e, Sheet};
use crate::cases::stream::Stream;
use crate::cases::twin_tables::{
    five_tracks, is_format_2, split, split_early, whole, Way, ALL, TOLD, WAYS,
};
use crate::drive::State;
use crate::events::PRESSED;
use crate::mode_page::ModePage;
use crate::play::{Play, COMPLETED, NO_STATUS, PAUSED, PLAYING};
use crate::sense::{self, Sense};

const READY: State = State::READY;

/// This run with each table lent in turn, from the same memory, list and state.
fn on_each(stream: &mut Stream, tables: &[Vec<u8>], state: State, run: impl Fn(&mut Stream)) {
    for table in tables {
        stream.table(table);
        stream.memory(MEMORY, 0xA1);
        stream.list(&page_list(0x24, 0x10));
        stream.state(state);
        run(stream);
    }
}

/// The packets with each table lent in turn, loaded and with nothing pending.
fn packets_on(stream: &mut Stream, tables: &[Vec<u8>], packets: &[Packet]) {
    on_each(stream, tables, READY, |stream| {
        packets.iter().for_each(|packet| stream.packet(packet));
    });
}

/// The table of a sheet, and those that the ways make of it.
fn with_others(sheet: &Sheet, ways: &[(&str, Way)]) -> Vec<Vec<u8>> {
    let mut tables = vec![sheet.bytes()];
    for (_, way) in ways {
        let mut other = sheet.clone();
        way(&mut other);
        tables.push(other.bytes());
    }
    tables
}

/// The five tracks, and what is another in every free thing.
fn two_of_five() -> Vec<Vec<u8>> {
    with_others(&five_tracks(), &[ALL])
}

/// A whole list that the disc tells, N 0 and block addresses.
fn track_list() -> Packet {
    toc(false, 0, 0, 804)
}

/// Format 2 of all: it gives the table itself.
fn whole_table() -> Packet {
    toc(false, 2, 0, 6_538)
}

/// Blocks next to every border of the five tracks.
fn borders() -> Vec<u32> {
    let marks = [10u32, 20, 150, 300, 650, 700];
    let near = marks.iter().flat_map(|mark| [mark - 1, *mark, mark + 1]);
    [0].into_iter().chain(near).collect()
}

/// Each thing that twins may differ in, singly and all together: the list, format 1, a
/// READ, a PLAY, 42h, 25h and what they leave are alike; format 2, last, tells.
pub fn each_way(stream: &mut Stream) {
    let packets = [
        track_list(),
        toc(true, 1, 0, 12),
        capacity(),
        read12(299, 1),
        play(20, 130),
        position(false),
        whole_table(),
    ];
    packets_on(stream, &with_others(&five_tracks(), &WAYS), &packets);
    // A table without B0h and C0h, and one that gets both.
    let packets = [track_list(), toc(false, 1, 0, 12), whole_table()];
    packets_on(stream, &with_others(&disc_e(), &[ALL]), &packets);
}

/// 43h but of format 2: every number near a border, MSF or not, formats 1 and 3 to 15,
/// and lengths that cut.
pub fn lists_alike(stream: &mut Stream) {
    let mut packets = Vec::new();
    for number in [0, 1, 5, 6, 9, 10, 0xA0, 0xAA, 0xB0] {
        packets.extend([false, true].map(|msf| toc(msf, 0, number, 804)));
        packets.push(toc(number % 2 == 0, 1, number, 804));
    }
    packets.extend([3, 4, 5, 8, 10, 15].map(|format| toc(false, format, 0, 804)));
    packets.push(toc(false, 0xF0, 0, 804));
    packets.push(toc(true, 0xE1, 0, 804));
    for length in [0, 4, 11, 51, 52, 53] {
        packets.push(toc(length > 51, 0, 0, length));
        packets.push(toc(true, 1, 0, length));
    }
    packets_on(stream, &two_of_five(), &packets);
}

/// 25h, and SEEK, READ and PLAY of one block and of two next to every border.
pub fn blocks_alike(stream: &mut Stream) {
    let mut packets = vec![capacity()];
    for block in borders() {
        packets.push(read10(block, 1));
        packets.push(read12(block, 2));
        packets.push(play(block, 1 + (block % 2) as u16));
    }
    packets.extend([read12(0, 701), play(20, 0), read12(700, 0), read10(9, 0)]);
    packets.extend([play(300, 400), play(300, 401)]);
    packets.extend([9, 300, 699, 700, u32::MAX].map(seek));
    packets_on(stream, &two_of_five(), &packets);
}

/// 42h next to every border, by block address and by M:S:F, under each status.
pub fn positions_alike(stream: &mut Stream) {
    on_each(stream, &two_of_five(), READY, |stream| {
        let statuses = [PLAYING, PAUSED, COMPLETED, NO_STATUS];
        for (block, status) in borders().into_iter().zip(statuses.into_iter().cycle()) {
            stream.state(State {
                play: Play::new(status, block, 449_849),
                ..READY
            });
            stream.packet(&position(block % 2 == 0));
        }
        stream.packet(&position(false));
        stream.packet(&position(true));
        for (sub_q, format) in [(false, 1), (true, 0), (true, 2)] {
            stream.packet(&sub_channel(false, sub_q, format, 16));
        }
        for length in [0, 4, 15] {
            stream.packet(&sub_channel(true, true, 1, length));
        }
    });
}

/// A loaded drive with a sense, a play, a page and an event, locked.
fn full() -> State {
    State {
        lock: true,
        sense: sense::WRONG_MODE,
        play: Play::new(PLAYING, 160, 290),
        mode: ModePage::new(0x35, 0x53),
        event: PRESSED,
        ..READY
    }
}

/// One of each command but format 2, and unknown codes.
fn commands() -> Vec<Packet> {
    let mut packets = one_of_each();
    packets.retain(|packet| !is_format_2(packet));
    packets.extend([0x08, 0xBE, 0xFF].map(plain));
    packets
}

/// Every command from one full state.
pub fn commands_alike(stream: &mut Stream) {
    on_each(stream, &two_of_five(), full(), |stream| {
        for packet in commands() {
            stream.packet_from(full(), &packet);
        }
        stream.packet_from(full(), &mode_sense(1, 1, 16));
        stream.packet_from(full(), &event_status(0x10, 8));
    });
}

/// With attentions pending, every command: told alike, or performed.
pub fn pending_alike(stream: &mut Stream) {
    for (power, change) in [(true, false), (false, true), (true, true)] {
        let state = State {
            power,
            change,
            ..full()
        };
        on_each(stream, &two_of_five(), state, |stream| {
            for packet in commands()
                .into_iter()
                .step_by(2 + usize::from(power != change))
            {
                stream.packet_from(state, &packet);
            }
            let free = State {
                sense: sense::NONE,
                ..state
            };
            stream.packet_from(free, &request_sense(18));
            stream.packet(&track_list());
            stream.packet(&toc(true, 1, 0, 12));
        });
    }
}

/// Refused by 1, 2 and 3, alike.
pub fn refused_alike(stream: &mut Stream) {
    on_each(stream, &two_of_five(), READY, |stream| {
        for packet in [track_list(), whole_table(), read10(299, 1)] {
            stream.packet(&packet[..11]);
            stream.packet_from(
                State {
                    sense: Sense::new(5, 0x64, 1),
                    ..READY
                },
                &packet,
            );
            stream.state(READY);
        }
        stream.memory(MEMORY - 1, 0xA1);
        for packet in [track_list(), whole_table(), play(20, 1)] {
            stream.packet(&packet);
        }
    });
}

/// A history: power-ons, tray calls, loadings of the same disc, plays and packets.
fn history(stream: &mut Stream) {
    stream.power_on();
    for packet in [test_ready(), test_ready(), track_list(), play(20, 130)] {
        stream.packet(&packet);
    }
    stream.move_on(129);
    stream.packet(&position(true));
    stream.move_on(1);
    stream.packet(&position(false));
    stream.packet(&prevent(1));
    stream.button();
    stream.packet(&event_status(0x18, 8));
    stream.packet(&prevent(0));
    stream.packet(&start_stop(EJECT));
    stream.packet(&track_list());
    stream.lift();
    stream.lay();
    stream.packet(&start_stop(LOAD));
    stream.packet(&request_sense(18));
    stream.packet(&toc(true, 1, 0, 12));
    stream.packet(&mode_select(16));
    stream.packet(&read12(10, 10));
    stream.packet(&play(640, 60));
    stream.packet(&pause());
    stream.packet(&position(false));
    stream.packet(&resume());
    stream.move_on(20);
    stream.packet(&seek(699));
    stream.packet(&position(true));
    stream.button();
    stream.button();
    stream.power_on_without_change();
    for packet in [inquiry(5), capacity(), toc(true, 0, 9, 804), capacity()] {
        stream.packet(&packet);
    }
}

/// Whole runs of calls: from a loaded drive, from one with its tray open, from an empty
/// one, and from a state that 2 covers up to the power-on.
pub fn histories_alike(stream: &mut Stream) {
    let unsound = State { event: 4, ..full() };
    on_each(stream, &two_of_five(), full(), history);
    on_each(stream, &two_of_five(), READY.opened(), |stream| {
        for packet in [start_stop(LOAD), request_sense(18), track_list()] {
            stream.packet(&packet);
        }
    });
    on_each(stream, &two_of_five(), unsound, |stream| {
        stream.packet(&track_list());
        stream.power_on_without_change();
        stream.packet(&track_list());
        stream.packet(&track_list());
    });
    on_each(stream, &two_of_five(), State::EMPTY, |stream| {
        stream.packet(&track_list());
        stream.button();
        stream.lay();
        stream.packet(&capacity());
        stream.button();
        for packet in [capacity(), capacity(), track_list()] {
            stream.packet(&packet);
        }
    });
}

/// Not loaded no table is looked at: any two tables, fit or not.
pub fn not_loaded_alike(stream: &mut Stream) {
    let tables = [five_tracks().bytes(), disc_e().bytes()[..58].to_vec()];
    for state in [READY.opened(), State::EMPTY, State::EMPTY.opened()] {
        on_each(stream, &tables, state, |stream| {
            for packet in [track_list(), whole_table(), capacity(), read10(299, 1)] {
                stream.packet(&packet);
            }
            stream.packet(&position(false));
        });
    }
}

/// Format 2 of twins: told apart with N 0 and 1, by MSF or not and under any high
/// nibble, as far as the bytes given differ; alike where N is over 1, where an attention
/// is told first, and where the difference is cut off.
pub fn format_2_apart(stream: &mut Stream) {
    let pending = State {
        power: true,
        ..READY
    };
    // A0's control is byte 5; C0h's bytes are the last row; B0h and C0h the length too.
    for (way, lengths) in [(WAYS[0], [5, 6]), (WAYS[12], [104, 105]), (ALL, [1, 2])] {
        let tables = with_others(&five_tracks(), &[way]);
        on_each(stream, &tables, READY, |stream| {
            for number in [0, 1, 2, 0xAA] {
                stream.packet(&toc(number == 1, 2, number, 6_538));
                stream.memory(MEMORY, 0xA1);
            }
            for length in lengths {
                stream.packet(&toc(false, 0xF2, 0, length));
                stream.memory(MEMORY, 0xA1);
            }
            stream.packet_from(pending, &whole_table());
        });
    }
}

/// Of two sessions: the list is alike, and format 1, a READ, a PLAY or a 42h in the gap
/// tell. One session beside two, two cut in two places, and two with another lead-out
/// between, on which format 1 does not tell.
pub fn two_sessions_apart(stream: &mut Stream) {
    let packets = [
        track_list(),
        toc(false, 1, 0, 12),
        capacity(),
        read10(900, 1),
        play(900, 1),
        seek(900),
    ];
    for (even, odd) in [(0x14, 0x10), (0x10, 0x14)] {
        let tables = [
            whole(even, odd),
            split_early(even, odd),
            split(even, odd, 900),
            split(even, odd, 901),
        ];
        on_each(
            stream,
            &tables.map(|sheet| sheet.bytes()),
            READY,
            |stream| {
                packets.iter().for_each(|packet| stream.packet(packet));
                for msf in [false, true] {
                    stream.state(State {
                        play: Play::new(PAUSED, 900, 1_000),
                        ..READY
                    });
                    stream.packet(&position(msf));
                }
            },
        );
    }
}

/// A table, and each that differs from it in one thing that the list tells.
fn told_apart(stream: &mut Stream, packets: &[Packet]) {
    packets_on(stream, &with_others(&five_tracks(), &TOLD), packets);
}

/// What the list tells, each another: it tells it, by block address and by M:S:F, with
/// N 0, with N 1 and with N 5, the first track.
pub fn told_by_the_list(stream: &mut Stream) {
    let packets = [
        track_list(),
        toc(false, 0, 1, 804),
        toc(true, 0, 0, 804),
        toc(true, 0, 5, 804),
    ];
    told_apart(stream, &packets);
}

/// N 6, over the first track, and AAh tell less: what the tracks before have is not told.
/// So does N 2 on E; and where track 1 is the only one it is over it, 05/24/00.
pub fn number_too_high(stream: &mut Stream) {
    told_apart(
        stream,
        &[6, 9, 0xAA].map(|number| toc(false, 0, number, 804)),
    );
    let ways = [TOLD[2], TOLD[3], TOLD[4], TOLD[5], TOLD[6]];
    let packets = [0, 1, 2, 0xAA].map(|number| toc(false, 0, number, 804));
    packets_on(stream, &with_others(&disc_e(), &ways), &packets);
}

/// A cut list tells less, a byte less too: the whole has 52.
pub fn list_cut(stream: &mut Stream) {
    told_apart(
        stream,
        &[51, 12, 4, 2].map(|length| toc(false, 0, 0, length)),
    );
}

/// Two states, two lists, two memories, or tables that are not fit: an answer tells.
pub fn unequal_apart(stream: &mut Stream) {
    let silent = State {
        sense: sense::NONE,
        play: Play::NONE,
        ..full()
    };
    let tables = two_of_five();
    let halves = [(full(), 0, 1), (silent, 1, 2)];
    for (table, (state, fill, retries)) in tables.iter().zip(halves) {
        stream.table(table);
        stream.memory(MEMORY, fill);
        stream.list(&page_list(0x24, retries));
        for packet in [request_sense(18), position(false), mode_select(16)] {
            stream.packet_from(state, &packet);
        }
    }
    // Two that break rule 3, and one that breaks 5, behind a fit one.
    let edit = |place: usize, byte: u8| {
        let mut table = tables[0].clone();
        table[place] = byte;
        table
    };
    let tables = [tables[0].clone(), edit(6, 1), edit(11, 1), edit(13, 0x30)];
    on_each(stream, &tables, READY, |stream| {
        stream.packet(&track_list());
        stream.packet(&inquiry(36));
    });
}

/// A session's part is no packet: it is the table's own, and tells twins apart.
pub fn parts_apart(stream: &mut Stream) {
    on_each(
        stream,
        &with_others(&five_tracks(), &WAYS),
        READY,
        |stream| {
            stream.part(1);
            stream.part(2);
        },
    );
}
