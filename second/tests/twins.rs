//! K10: "How much of a disc the track list tells." Twins are two fit tables of one
//! session with equal full format 0 answers. That every packet but format 2 is answered
//! alike, over drawn twins, states, packets, lists and memories and over histories; what
//! the list determines; and that each condition is needed, by exact answers.

mod common;

use std::collections::BTreeSet;

use common::{good_on, on, told};
use second::address::to_msf;
use second::cases::bad::random_stream;
use second::cases::packets::*;
use second::cases::picked_twins;
use second::cases::random::{any_state, twin_scene};
use second::cases::sheet::{any_fit, disc_e, most_tracks, Sheet};
use second::cases::spoil::any_broken;
use second::cases::stream::Stream;
use second::cases::twin_tables::*;
use second::drive::State;
use second::limits::BOUND;
use second::mode_page::ModePage;
use second::packet::{perform, Reply};
use second::play::Play;
use second::refusal::Refusal;
use second::replay::{self, take_record};
use second::rng::Rng;
use second::sense;
use second::stored;
use second::table;
use second::tally::{self, Twins};

const READY: State = State::READY;

/// The full format 0 answer (N 0, block addresses).
fn list_on(table: &[u8]) -> Vec<u8> {
    good_on(table, &toc(false, 0, 0, 65_535))
}

/// The same by the papers, from the bytes of a fit table of one session: first track,
/// last track, ADR/control, number and start of each, then those of the lead-out.
fn list_of(table: &[u8]) -> Vec<u8> {
    let rows: Vec<&[u8]> = table[4..].chunks(11).collect();
    let entry = |row: &[u8], number: u8| {
        let [m, s, f] = [8, 9, 10].map(|place| u32::from(row[place]));
        let block = (m * 60 + s) * 75 + f - 150;
        let mut entry = vec![0, row[1], number, 0];
        entry.extend(block.to_be_bytes());
        entry
    };
    let mut list = vec![0, 0, rows[0][8], rows[1][8]];
    for row in rows.iter().filter(|row| row[3] <= 99) {
        list.extend(entry(row, row[3]));
    }
    list.extend(entry(rows[2], 0xAA));
    let length = list.len() as u16 - 2;
    list[..2].copy_from_slice(&length.to_be_bytes());
    list
}

/// What the way makes of a sheet.
fn by((_, way): (&str, Way), sheet: &Sheet) -> Sheet {
    let mut other = sheet.clone();
    way(&mut other);
    other
}

/// The five tracks, and their twin in every free thing.
fn two_of_five() -> [Vec<u8>; 2] {
    [five_tracks(), by(ALL, &five_tracks())].map(|sheet| sheet.bytes())
}

fn marks_of(table: &[u8]) -> Marks {
    Marks::of(table::read(table).ok().as_ref())
}

/// Drawn twins, and the numbers of their disc.
fn drawn(rng: &mut Rng) -> ([Vec<u8>; 2], Marks) {
    let sheet = one_session(rng);
    let tables = [sheet.bytes(), twin_of(rng, &sheet).bytes()];
    let marks = marks_of(&tables[0]);
    (tables, marks)
}

/// What a call gives back, and the whole memory behind it.
fn sent(table: &[u8], lent: &Lent, state: State, packet: &[u8]) -> (Reply, Vec<u8>) {
    let mut memory = lent.memory.clone();
    let reply = perform(state, table, &lent.list, packet, &mut memory);
    (reply, memory)
}

/// The list and the memory that both calls are lent.
struct Lent {
    list: Vec<u8>,
    memory: Vec<u8>,
}

impl Lent {
    fn drawn(rng: &mut Rng) -> Lent {
        let length = rng.pick(&[BOUND, BOUND, BOUND, BOUND, BOUND + 1, 7_000, BOUND - 1]);
        let mut memory = vec![rng.byte(); length];
        memory[..200].copy_from_slice(&rng.bytes(200));
        Lent {
            list: any_list(rng),
            memory,
        }
    }

    fn plain() -> Lent {
        Lent {
            list: page_list(0x24, 0x10).to_vec(),
            memory: vec![0xA1; BOUND],
        }
    }
}

/// The packet gets the same answer, state and memory with either table lent.
fn alike(tables: &[Vec<u8>; 2], lent: &Lent, state: State, packet: &[u8]) -> Reply {
    let [one, other] = [0, 1].map(|half: usize| sent(&tables[half], lent, state, packet));
    assert_eq!(one, other, "{state:?} {packet:02X?} {tables:02X?}");
    one.0
}

/// The packets on the five tracks and their twin, loaded with nothing pending.
fn all_alike(packets: impl IntoIterator<Item = Packet>) {
    let (tables, lent) = (two_of_five(), Lent::plain());
    for packet in packets {
        alike(&tables, &lent, READY, &packet);
    }
}

/// Whether the packet has two answers with these tables lent.
fn told_apart(tables: [&[u8]; 2], packet: &Packet) -> bool {
    let [one, other] = tables.map(|table| sent(table, &Lent::plain(), READY, packet));
    one != other
}

/// A loaded drive with something in every part of its state.
fn full() -> State {
    State {
        lock: true,
        sense: sense::WRONG_MODE,
        play: Play::new(0x11, 160, 290),
        mode: ModePage::new(0x35, 0x53),
        event: 1,
        ..READY
    }
}

// ---- twins

/// Whatever is drawn for a twin keeps the rules, has one session and another table, and
/// the same list; this list is the papers'.
#[test]
fn twins_have_equal_lists() {
    let mut rng = Rng::new(100);
    for _ in 0..2_000 {
        let ([one, other], _) = drawn(&mut rng);
        assert_eq!(
            [&one, &other].map(|table| table::broken_rule(table)),
            [0, 0]
        );
        assert_eq!([one[3], other[3]], [1, 1]);
        assert_ne!(one, other);
        assert_eq!(list_on(&one), list_of(&one));
        assert_eq!(list_on(&one), list_on(&other));
        assert!(are_twins(&one, &other));
    }
}

/// Whatever is drawn: twins, a state, sound or not, a packet but format 2, a list and a
/// memory. Many of each outcome, and of each command on a loaded drive.
#[test]
fn every_packet_alike() {
    let mut rng = Rng::new(101);
    let (mut good, mut codes) = ([0; 256], [0; 3]);
    for n in 0..40_000 {
        let (tables, marks) = drawn(&mut rng);
        let mut state = any_state(&mut rng, &marks);
        if n % 3 > 0 {
            (state.tray_open, state.disc_in) = (false, true);
            (state.power, state.change) = (n % 9 == 1, n % 27 == 2);
        }
        let packet = any_packet(&mut rng, &marks);
        if is_format_2(&packet) {
            continue;
        }
        let lent = Lent::drawn(&mut rng);
        let reply = alike(&tables, &lent, state, &packet);
        if state.loaded() && reply.refusal.is_none() {
            codes[usize::from(reply.status)] += 1;
            good[usize::from(packet[0])] += usize::from(reply.status == 0);
        }
    }
    assert!(codes[0] > 6_000 && codes[2] > 6_000, "{codes:?}");
    for code in CODES {
        assert!(good[usize::from(code)] > 40, "{code:02X}");
    }
}

/// Each free thing singly, and every free bit of every row: each packet of a list that
/// asks for all that a disc decides is answered alike.
fn each_alike(bases: &[Sheet], ways: impl Fn(&Sheet) -> Vec<Sheet>) {
    for base in bases {
        let marks = marks_of(&base.bytes());
        let mut packets = vec![capacity(), toc(true, 1, 0, 12), toc(false, 1, 0, 12)];
        for number in [0, 1, marks.numbers[11], 0xAA] {
            packets.extend([false, true].map(|msf| toc(msf, 0, number, 804)));
        }
        for &mark in &marks.blocks {
            for block in [mark.saturating_sub(1), mark] {
                packets.extend([read10(block, 1), play(block, 1), seek(block)]);
            }
        }
        for other in ways(base) {
            let tables = [base.bytes(), other.bytes()];
            assert!(are_twins(&tables[0], &tables[1]));
            let lent = Lent::plain();
            for packet in &packets {
                alike(&tables, &lent, READY, packet);
            }
            for &mark in &marks.blocks {
                let playing = State {
                    play: Play::new(0x11, mark, 449_849),
                    ..READY
                };
                alike(&tables, &lent, playing, &position(mark % 2 == 0));
            }
            assert!(told_apart(
                [&tables[0], &tables[1]],
                &toc(false, 2, 0, 6_538)
            ));
        }
    }
}

fn bases() -> [Sheet; 3] {
    [five_tracks(), disc_e(), by(ALL, &disc_e())]
}

/// A twin for each of these bits of the rows of these POINTs.
fn with_bits(sheet: &Sheet, points: impl Fn(u8) -> bool, bytes: &[usize]) -> Vec<Sheet> {
    let mut twins = Vec::new();
    for at in (0..sheet.rows.len()).filter(|&at| points(sheet.rows[at][3])) {
        for &byte in bytes {
            let free = free_bits(sheet.rows[at][3])[byte];
            for bit in (0..8).map(|shift| 1 << shift).filter(|bit| free & bit != 0) {
                let mut twin = sheet.clone();
                twin.rows[at][byte] ^= bit;
                twins.push(twin);
            }
        }
    }
    twins
}

/// A0's and A1's control, each of the four bits.
#[test]
fn controls_not_told() {
    each_alike(&bases(), |base| {
        let twins = with_bits(base, |point| [0xA0, 0xA1].contains(&point), &[1]);
        assert_eq!(twins.len(), 8);
        twins
    });
}

/// The disc type, each of the three.
#[test]
fn disc_type_not_told() {
    for kind in [0x00, 0x10, 0x20] {
        let typed = bases().map(|mut sheet| {
            sheet.rows[0][9] = kind;
            sheet
        });
        each_alike(&typed, |base| {
            WAYS[2..4].iter().map(|&way| by(way, base)).collect()
        });
    }
}

/// MIN, SEC and FRAME of every descriptor.
#[test]
fn min_sec_frame_not_told() {
    each_alike(&bases(), |base| with_bits(base, |_| true, &[4, 5, 6]));
}

/// B0h and C0h, there or not, one or both.
#[test]
fn b0_and_c0_not_told() {
    each_alike(&bases(), |base| {
        let mut twins: Vec<Sheet> = WAYS[9..11].iter().map(|&way| by(way, base)).collect();
        twins.push(by(WAYS[10], &twins[0]));
        twins
    });
}

/// The free bytes of B0h and C0h: control and MIN to PFRAME.
#[test]
fn b0_and_c0_bytes_not_told() {
    each_alike(&bases()[..1], |base| {
        let twins = with_bits(base, |point| point >= 0xB0, &[1, 4, 5, 6, 7, 8, 9, 10]);
        assert_eq!(twins.len(), 2 * 60);
        twins
    });
}

/// Every way, singly; and all together on a disc of 99 tracks.
#[test]
fn each_way_alike() {
    each_alike(&bases()[..1], |base| WAYS.map(|way| by(way, base)).to_vec());
    each_alike(&[most_tracks()], |base| vec![by(ALL, base)]);
}

/// 43h of format 0, every N, MSF or not, and every length.
#[test]
fn format_0_alike() {
    all_alike((0..=255).flat_map(|number| [false, true].map(|msf| toc(msf, 0, number, 804))));
    all_alike((0..=60).map(|length| toc(length % 2 == 0, 0, (length % 3) as u8, length)));
    all_alike((0..16).map(|nibble| toc(false, nibble << 4, 0, 804)));
}

/// Format 1 and those that are none.
#[test]
fn format_1_and_others_alike() {
    for format in (0..16).filter(|&format| format != 2) {
        all_alike((0..=255).map(|number| toc(number % 2 == 0, format, number, 804)));
    }
    all_alike((0..=13).flat_map(|length| [false, true].map(|msf| toc(msf, 1, 0, length))));
}

/// 25h, and SEEK to every block and past the end.
#[test]
fn capacity_and_seek_alike() {
    all_alike([capacity()]);
    all_alike((0..=701).chain([449_849, u32::MAX]).map(seek));
}

/// READ of every block, and of runs of two from it, by both codes.
#[test]
fn reads_alike() {
    let blocks = || 0..=701;
    all_alike(blocks().flat_map(|block| [read10(block, 1), read12(block, 2)]));
    all_alike(blocks().map(|block| read12(block, 700 - block.min(700))));
    all_alike([
        read12(1, u32::MAX),
        read10(700, 0),
        read12(699, 0),
        read10(0, 65_535),
    ]);
}

/// PLAY likewise.
#[test]
fn plays_alike() {
    all_alike((0..=701).flat_map(|block| [play(block, 1), play(block, 2)]));
    all_alike((0..=701).map(|block| play(block, (701 - block) as u16)));
    all_alike([
        play(20, 0),
        play(u32::MAX, 0),
        play(300, 400),
        play(300, 401),
    ]);
}

/// 42h at every block and under each status.
#[test]
fn positions_alike() {
    let (tables, lent) = (two_of_five(), Lent::plain());
    for block in (0..=701).chain([449_849]) {
        for (status, msf) in [(0x11, false), (0x12, true), (0x13, false), (0x15, true)] {
            let state = State {
                play: Play::new(status, block, 449_849),
                ..READY
            };
            alike(&tables, &lent, state, &position(msf));
        }
    }
    for (format, length) in (0..8).flat_map(|format| (0..18).map(move |n| (format, n))) {
        let packet = sub_channel(length % 2 == 0, format % 4 > 0, format / 2, length);
        alike(&tables, &lent, full(), &packet);
    }
}

/// Every operation code, the bytes behind it drawn, from a full state and others.
#[test]
fn commands_alike() {
    let (tables, mut rng) = (two_of_five(), Rng::new(102));
    let marks = marks_of(&tables[0]);
    for code in 0..=255 {
        for n in 0..40 {
            let mut packet: Packet = rng.bytes(12).try_into().expect("12 bytes");
            packet[0] = code;
            if n % 2 == 0 {
                // Few bits set, so that more of them are GOOD.
                packet[1..].iter_mut().for_each(|byte| *byte &= 0x11);
            }
            if is_format_2(&packet) {
                continue;
            }
            let state = match n % 4 {
                0 => full(),
                1 => READY,
                _ => any_state(&mut rng, &marks),
            };
            alike(&tables, &Lent::plain(), state, &packet);
        }
    }
}

/// "States may have attentions pending": the first packet is told them, or performed
/// where it is 03h, 12h or 4Ah, and the next are answered as behind that.
#[test]
fn attentions_alike() {
    let (tables, lent) = (two_of_five(), Lent::plain());
    let mut tellings = 0;
    for pending in 1..4u8 {
        for held in [sense::NONE, sense::WRONG_MODE] {
            let state = State {
                power: pending & 2 != 0,
                change: pending & 1 != 0,
                sense: held,
                ..full()
            };
            for packet in one_of_each() {
                let reply = alike(&tables, &lent, state, &packet);
                let told = [sense::POWERED_ON, sense::CHANGED].contains(&reply.next.sense);
                tellings += usize::from(reply.status == 2 && told);
                if is_format_2(&packet) {
                    // Told first, format 2 too.
                    assert!(told);
                }
                for next in [toc(false, 0, 0, 804), toc(true, 1, 0, 12), capacity()] {
                    alike(&tables, &lent, reply.next, &next);
                }
            }
        }
    }
    assert!(tellings > 100, "{tellings}");
}

/// 1, 2 and 3 refuse alike, format 2 too.
#[test]
fn refusals_alike() {
    let tables = two_of_five();
    let mut short = Lent::plain();
    short.memory.truncate(BOUND - 1);
    let unsound = State { event: 4, ..READY };
    for packet in one_of_each() {
        let reply = alike(&tables, &Lent::plain(), full(), &packet[..11]);
        assert_eq!(reply.refusal, Some(Refusal::PacketLength));
        let reply = alike(&tables, &Lent::plain(), unsound, &packet);
        assert_eq!(reply.refusal, Some(Refusal::UnsoundState));
        let reply = alike(&tables, &short, full(), &packet);
        assert_eq!(reply.refusal, Some(Refusal::SmallMemory));
    }
}

// ---- histories

/// A call on the drive, or another list from now on.
enum Call {
    Packet(Vec<u8>),
    List(Vec<u8>),
    Tray(fn(State) -> Result<State, Refusal>),
    PowerOn(fn(State) -> State),
    MoveOn(u64),
}

fn any_call(rng: &mut Rng, marks: &Marks) -> Call {
    match rng.below(24) {
        0 => Call::PowerOn(State::power_on),
        1 => Call::PowerOn(State::power_on_without_change),
        2 | 3 => Call::Tray(State::button),
        4 => Call::Tray(State::lay),
        5 => Call::Tray(State::lift),
        6 => Call::MoveOn(rng.below(400) as u64),
        7 => Call::List(any_list(rng)),
        8 => Call::Packet(start_stop(rng.pick(&[EJECT, LOAD])).to_vec()),
        9 => Call::Packet(test_ready().to_vec()),
        10 => Call::Packet(any_audio(rng, marks).to_vec()),
        11 => Call::Packet(position(rng.one_in(2)).to_vec()),
        12 => {
            let (address, count) = marks.audio_run(rng);
            Call::Packet(play(address, count).to_vec())
        }
        13 => Call::Packet(seek(marks.address(rng)).to_vec()),
        _ => loop {
            let packet = any_packet(rng, marks);
            if !is_format_2(&packet) {
                return Call::Packet(packet.to_vec());
            }
        },
    }
}

/// Every answer, state and memory of a run with these tables lent in turn.
fn history(
    tables: &[Vec<u8>],
    state: State,
    calls: &[Call],
) -> Vec<(Option<Reply>, State, Vec<u8>)> {
    let (mut state, mut lent, mut seen) = (state, Lent::plain(), Vec::new());
    for (call, table) in calls.iter().zip(tables.iter().cycle()) {
        let mut answer = None;
        match call {
            Call::Packet(packet) => {
                let (reply, memory) = sent(table, &lent, state, packet);
                (answer, state, lent.memory) = (Some(reply), reply.next, memory);
            }
            Call::List(list) => lent.list = list.clone(),
            Call::Tray(call) => {
                state = match call(state) {
                    Ok(next) => next,
                    Err(Refusal::Locked) => state.pressed(),
                    Err(_) => state,
                };
            }
            Call::PowerOn(form) => state = form(state),
            Call::MoveOn(k) => state = state.move_on(*k).unwrap_or(state),
        }
        seen.push((answer, state, lent.memory.clone()));
    }
    seen
}

/// Over histories: two runs of calls without format 2 from one state, one table lent in
/// each, agree throughout, from any state, also one that 2 covers; and so does a run in
/// which both are lent in turn.
#[test]
fn histories_alike() {
    let mut rng = Rng::new(103);
    let (mut loadings, mut good) = (0, 0);
    for _ in 0..600 {
        let (tables, marks) = drawn(&mut rng);
        let state = any_state(&mut rng, &marks);
        let calls: Vec<Call> = (0..40).map(|_| any_call(&mut rng, &marks)).collect();
        let one = history(&tables[..1], state, &calls);
        assert_eq!(one, history(&tables[1..], state, &calls));
        assert_eq!(one, history(&tables, state, &calls));
        let mut before = state;
        for (answer, after, _) in one {
            loadings += usize::from(!before.loaded() && after.loaded());
            good += usize::from(answer.is_some_and(|reply| reply.length > 0));
            before = after;
        }
    }
    assert!(loadings > 300 && good > 1_500, "{loadings} {good}");
}

/// "When not loaded, the table isn't looked at": any two tables, fit or not, whatever the
/// packet, format 2 too.
#[test]
fn not_loaded_any_tables() {
    let mut rng = Rng::new(104);
    for n in 0..4_000 {
        let tables = [any_broken(&mut rng), any_fit(&mut rng).bytes()];
        let marks = marks_of(&tables[1]);
        let state = State {
            tray_open: n % 3 > 0,
            disc_in: n % 3 == 1,
            ..any_state(&mut rng, &marks)
        };
        let packet = any_packet(&mut rng, &marks);
        alike(&tables, &Lent::drawn(&mut rng), state, &packet);
    }
}

// ---- format 2

/// Format 2 of all is the table itself, with N 0 and with N 1, MSF ignored, under every
/// high nibble: so it tells twins apart exactly where their bytes differ.
#[test]
fn format_2_tells() {
    let mut rng = Rng::new(105);
    for _ in 0..300 {
        let ([one, other], _) = drawn(&mut rng);
        for number in [0, 1] {
            for byte_2 in [0x02, rng.byte() & 0xF0 | 2] {
                let packet = toc(rng.one_in(2), byte_2, number, 6_538);
                let answers = [&one, &other].map(|table| good_on(table, &packet));
                assert_eq!(answers, [one.clone(), other.clone()]);
            }
        }
        // Cut, it tells exactly where the bytes that are left differ.
        for length in (0..one.len() as u16 + 2).step_by(3) {
            let packet = toc(false, 2, 0, length);
            let cut = |table: &[u8]| table[..table.len().min(length.into())].to_vec();
            let apart = told_apart([&one, &other], &packet);
            assert_eq!(apart, cut(&one) != cut(&other));
        }
    }
    for (name, way) in WAYS {
        let twin = by((name, way), &five_tracks()).bytes();
        let apart = told_apart([&five_tracks().bytes(), &twin], &toc(false, 2, 0, 6_538));
        assert!(apart, "{name}");
    }
}

/// "Format 2 goes by byte 2's low nibble, also where N makes it a fault": N over 1 is
/// 05/24/00 for both, so it is excepted and tells nothing.
#[test]
fn format_2_with_a_fault() {
    let (tables, lent) = (two_of_five(), Lent::plain());
    for byte_2 in 0..=255u8 {
        for number in [2, 3, 99, 100, 0xAA, 0xFF] {
            let packet = toc(number % 2 == 0, byte_2, number, 6_538);
            let reply = alike(&tables, &lent, READY, &packet);
            if byte_2 & 0x0F == 2 {
                assert_eq!((reply.status, reply.next.sense), (2, sense::BAD_FIELD));
                assert!(is_format_2(&packet));
            }
        }
        let apart = told_apart([&tables[0], &tables[1]], &toc(false, byte_2, 0, 6_538));
        assert_eq!(apart, byte_2 & 0x0F == 2, "{byte_2:02X}");
    }
}

/// The session's part is no packet: it has the rows themselves.
#[test]
fn session_part_tells() {
    for (_, way) in WAYS {
        let tables = [five_tracks(), by(("", way), &five_tracks())].map(|one| one.bytes());
        let [one, other] = [0, 1].map(|half: usize| table::session_part(&tables[half], 1));
        assert_eq!(one, Ok(&tables[0][4..]));
        assert_ne!(one, other);
    }
}

// ---- what the list determines

/// First and last track, number, ADR/control and start of each, and the lead-out's, as a
/// reader takes them from an answer, by block address or by M:S:F.
fn told_by(answer: &[u8], msf: bool) -> Vec<(u8, u8, u32)> {
    let mut told = vec![(answer[2], answer[3], 0)];
    for entry in answer[4..].chunks(8) {
        let block = match msf {
            false => u32::from_be_bytes(entry[4..].try_into().expect("four")),
            true => {
                let [m, s, f] = [5, 6, 7].map(|place| u32::from(entry[place]));
                (m * 60 + s) * 75 + f - 150
            }
        };
        told.push((entry[2], entry[1], block));
    }
    told
}

/// Each thing that the list tells, another singly: the answer is another. And the reader
/// has every one of them from it.
#[test]
fn list_determines() {
    for base in [five_tracks(), disc_e()] {
        let list = list_on(&base.bytes());
        for way in TOLD {
            let other = by(way, &base).bytes();
            assert_eq!(table::broken_rule(&other), 0, "{}", way.0);
            assert_ne!(list_on(&other), list, "{}", way.0);
        }
    }
    let told = told_by(&list_on(&five_tracks().bytes()), false);
    let tracks = [
        (5, 9, 0),
        (5, 0x14, 10),
        (6, 0x10, 20),
        (7, 0x16, 150),
        (8, 0x11, 300),
        (9, 0x18, 650),
        (0xAA, 0x1D, 700),
    ];
    assert_eq!(told, tracks);
}

/// Pairs of fit tables of one session, near each other or not.
fn pairs(seed: u64) -> Vec<[Vec<u8>; 2]> {
    let mut rng = Rng::new(seed);
    let mut list = Vec::new();
    for n in 0..3_000 {
        let sheet = one_session(&mut rng);
        let other = match n % 4 {
            0 => twin_of(&mut rng, &sheet),
            1 => one_session(&mut rng),
            _ => by(rng.pick(&TOLD), &sheet),
        };
        let tables = [sheet, other].map(|sheet| sheet.bytes());
        if tables.iter().all(|table| table::broken_rule(table) == 0) {
            list.push(tables);
        }
    }
    assert!(list.len() > 2_000);
    list
}

/// Two lists are equal exactly where the same things are told by them, and by what is
/// read off the tables.
#[test]
fn lists_by_what_they_tell() {
    let mut met = [0; 2];
    for [one, other] in pairs(106) {
        let lists = [&one, &other].map(|table| list_on(table));
        assert_eq!(lists, [&one, &other].map(|table| list_of(table)));
        let [first, second] = [&lists[0], &lists[1]].map(|list| told_by(list, false));
        assert_eq!(first == second, lists[0] == lists[1]);
        met[usize::from(first == second)] += 1;
    }
    assert!(met.iter().all(|&times| times > 300), "{met:?}");
}

/// "MSF in place of block addresses": it tells as much. Every address of a fit table has
/// one M:S:F, so the answers are equal by the one exactly where by the other.
#[test]
fn msf_loses_nothing() {
    let mut met = [0; 2];
    for [one, other] in pairs(107) {
        let answers = |msf| [&one, &other].map(|table| good_on(table, &toc(msf, 0, 0, 804)));
        let (blocks, times) = (answers(false), answers(true));
        assert_eq!(blocks[0] == blocks[1], times[0] == times[1]);
        assert_eq!(told_by(&blocks[0], false), told_by(&times[0], true));
        met[usize::from(times[0] == times[1])] += 1;
    }
    assert!(met.iter().all(|&times| times > 300), "{met:?}");
    // All of them have one, and no two the same.
    let all: BTreeSet<[u8; 3]> = (0..=449_849)
        .filter_map(|block| to_msf(block).ok())
        .map(|time| [time.m, time.s, time.f])
        .collect();
    assert_eq!(all.len(), 449_850);
}

/// N 1, and any N up to the first track, gives the same bytes as N 0: no track has a
/// number under 1. So nothing is lost.
#[test]
fn number_one_loses_nothing() {
    let mut rng = Rng::new(108);
    for _ in 0..2_000 {
        let table = one_session(&mut rng).bytes();
        let (first, last) = (table[12], table[23]);
        let list = list_on(&table);
        let asked = |number| on(READY, &table, &toc(false, 0, number, 804)).0;
        for number in [1, rng.range(1, first.into()) as u8, first] {
            assert_eq!(good_on(&table, &toc(false, 0, number, 804)), list);
        }
        // And the next does not, if it is not a fault.
        let next = asked(first + 1);
        match first == last {
            true => assert_eq!(next.next.sense, sense::BAD_FIELD),
            false => assert_eq!(next.length, list.len() - 8),
        }
    }
}

/// The ways of `TOLD` that N, asked of the five tracks, tells.
fn told_with(number: u8) -> Vec<&'static str> {
    let base = five_tracks().bytes();
    let apart = |way| {
        let other = by(way, &five_tracks()).bytes();
        told_apart([&base, &other], &toc(false, 0, number, 804))
    };
    let ways = TOLD.into_iter().filter(|&way| apart(way));
    ways.map(|(name, _)| name).collect()
}

/// Over the first track N loses what the tracks before N have: the first's control and
/// start with 6, the last's with AAh, and everything but a number that it reaches with
/// one over the last track, which is 05/24/00.
#[test]
fn higher_numbers_lose() {
    let all = TOLD.map(|(name, _)| name).to_vec();
    let without = |word: &str| -> Vec<&str> {
        let kept = all.iter().filter(|name| !name.starts_with(word));
        kept.copied().collect()
    };
    for number in 0..=255u8 {
        let due = match number {
            0..=5 => all.clone(),
            6..=9 => without("first track's"),
            // The numbers are 6 to 10 there.
            10 => vec!["numbers"],
            0xAA => {
                let rest = without("first track's");
                rest.into_iter()
                    .filter(|name| !name.starts_with("last track's"))
                    .collect()
            }
            _ => vec![],
        };
        assert_eq!(told_with(number), due, "{number}");
    }
    // On E, where track 1 is the first, N 2 loses already.
    let [e, other] = [disc_e(), by(TOLD[3], &disc_e())].map(|sheet| sheet.bytes());
    let apart = [0, 1, 2, 0xAA].map(|n| told_apart([&e, &other], &toc(false, 0, n, 804)));
    assert_eq!(apart, [true, true, false, false]);
    assert!(!told_apart([&e, &other], &capacity()));
    let bytes = [&e, &other].map(|table| good_on(table, &toc(false, 0, 0, 12)));
    assert_eq!(bytes.map(|bytes| bytes[5]), [0x14, 0x15]);
}

/// A cut answer tells exactly what stands in the bytes that are left: at every length
/// under the whole something is lost, the lead-out's last byte at least.
#[test]
fn cut_list_loses() {
    let base = five_tracks().bytes();
    let whole = list_on(&base);
    assert_eq!(whole.len(), 52);
    for way in TOLD {
        let other = by(way, &five_tracks()).bytes();
        let list = list_on(&other);
        for length in 0..=60u16 {
            let cut = |list: &[u8]| list[..list.len().min(length.into())].to_vec();
            let apart = told_apart([&base, &other], &toc(false, 0, 0, length));
            assert_eq!(apart, cut(&whole) != cut(&list), "{} {length}", way.0);
        }
        if way.0 == "lead-out" {
            let apart = |length| told_apart([&base, &other], &toc(false, 0, 0, length));
            assert!((0..52).all(|length| !apart(length)) && apart(52));
        }
    }
}

// ---- the other conditions

/// Two sessions: the list is alike, and format 1 tells one session from two, and where
/// the second begins.
#[test]
fn two_sessions_by_format_1() {
    let [one, two, early] = [
        whole(0x14, 0x10),
        split(0x14, 0x10, 900),
        split_early(0x14, 0x10),
    ]
    .map(|sheet| sheet.bytes());
    for table in [&one, &two, &early] {
        assert_eq!(table::broken_rule(table), 0);
        assert_eq!(list_on(table), list_of(&one));
        let times = good_on(table, &toc(true, 0, 0, 804));
        assert_eq!(times, good_on(&one, &toc(true, 0, 0, 804)));
    }
    let told = [&one, &two, &early].map(|table| good_on(table, &toc(false, 1, 0, 12)));
    let due: [[u8; 12]; 3] = [
        [0, 10, 1, 1, 0, 0x10, 1, 0, 0, 0, 0, 0],
        [0, 10, 1, 2, 0, 0x10, 3, 0, 0, 0, 0x30, 0x0C],
        [0, 10, 1, 2, 0, 0x14, 2, 0, 0, 0, 0x01, 0x90],
    ];
    assert_eq!(told, due);
    // 25h and SEEK are alike all the same: they go by the last lead-out.
    for packet in [capacity(), seek(900), seek(12_999), seek(13_000)] {
        assert!(!told_apart([&one, &two], &packet));
        assert!(!told_apart([&two, &early], &packet));
    }
}

/// Two sessions with another lead-out between: format 1 does not tell, a READ, a PLAY or
/// a 42h in the gap does.
#[test]
fn two_sessions_by_the_gap() {
    for (even, packet) in [(0x14, read10(900, 1)), (0x10, play(900, 1))] {
        let odd = even ^ 4;
        let [one, narrow, wide] = [
            whole(even, odd),
            split(even, odd, 900),
            split(even, odd, 901),
        ]
        .map(|sheet| sheet.bytes());
        for format in [0, 1] {
            assert!(!told_apart([&narrow, &wide], &toc(true, format, 0, 804)));
        }
        let status = |table: &[u8], packet| on(READY, table, packet).0.status;
        assert_eq!(
            [&narrow, &wide, &one].map(|table| status(table, &packet)),
            [2, 0, 0]
        );
        let (reply, _) = on(READY, &narrow, &packet);
        assert_eq!(reply.next.sense, sense::WRONG_MODE);
        // Other blocks tell nothing: those of a track of both, and of the gap of both.
        for block in [899, 901, 12_299, 12_300] {
            for packet in [read10(block, 1), play(block, 1)] {
                assert!(!told_apart([&narrow, &wide], &packet), "{block}");
            }
        }
        let paused = State {
            play: Play::new(0x12, 900, 1_000),
            ..READY
        };
        let shown = [&narrow, &wide].map(|table| {
            let (reply, memory) = on(paused, table, &position(false));
            memory[..reply.length].to_vec()
        });
        let [gap, track]: [[u8; 16]; 2] = [
            [0, 0x12, 0, 12, 1, 0, 0, 0, 0, 0, 0x03, 0x84, 0, 0, 0, 0],
            [
                0, 0x12, 0, 12, 1, even, 2, 1, 0, 0, 0x03, 0x84, 0, 0, 0x01, 0xF4,
            ],
        ];
        assert_eq!(shown, [gap, track]);
    }
}

/// Equal states: with two, 03h tells the sense and 42h the play, with either twin.
#[test]
fn unequal_states_tell() {
    let (tables, lent) = (two_of_five(), Lent::plain());
    let silent = State {
        sense: sense::NONE,
        play: Play::NONE,
        ..full()
    };
    let shown = |state: State, packet: Packet| {
        let reply = alike(&tables, &lent, state, &packet);
        let (_, memory) = sent(&tables[1], &lent, state, &packet);
        memory[..reply.length].to_vec()
    };
    let senses = [full(), silent].map(|state| shown(state, request_sense(18)));
    let triples = senses.map(|bytes| [2, 12, 13].map(|place| bytes[place]));
    assert_eq!(triples, [[0x05, 0x64, 0x00], [0x00, 0x00, 0x00]]);
    let [playing, none]: [[u8; 16]; 2] = [
        [0, 0x11, 0, 12, 1, 0x16, 7, 1, 0, 0, 0, 160, 0, 0, 0, 10],
        [0, 0x15, 0, 12, 1, 0, 0, 0, 0, 0, 0, 0, 0, 0, 0, 0],
    ];
    assert_eq!(shown(full(), position(false)), playing);
    assert_eq!(shown(silent, position(false)), none);
}

/// Equal memories and lists: what an answer does not reach stays unequal, and a list sets
/// the page.
#[test]
fn unequal_memory_or_list_tells() {
    let [one, other] = two_of_five();
    let list = toc(false, 0, 0, 804);
    let filled = |fill| Lent {
        memory: vec![fill; BOUND],
        ..Lent::plain()
    };
    let [zeros, ones] = [(&one, 0), (&other, 1)].map(|(table, fill)| {
        let (reply, memory) = sent(table, &filled(fill), READY, &list);
        (reply, memory[..52].to_vec(), memory[52..].to_vec())
    });
    assert_eq!((zeros.0, &zeros.1), (ones.0, &ones.1));
    assert_ne!(zeros.2, ones.2);
    let pages = [(&one, 1), (&other, 2)].map(|(table, retries)| {
        let lent = Lent {
            list: page_list(0x24, retries).to_vec(),
            ..Lent::plain()
        };
        sent(table, &lent, READY, &mode_select(16)).0.next.mode
    });
    assert_eq!(pages, [1, 2].map(|retries| ModePage::new(0x24, retries)));
}

/// Fit tables: every packet tells an unfit one from a fit one and tells which rule it
/// breaks; two that break one rule are refused alike, whatever else they have.
#[test]
fn unfit_tables_tell() {
    let [one, _] = two_of_five();
    let edit = |place: usize, byte: u8| {
        let mut table = one.clone();
        table[place] = byte;
        table
    };
    // TNO of A0, ZERO of A0, and a disc type 30h.
    let [third, third_too, fifth] = [edit(6, 1), edit(11, 1), edit(13, 0x30)];
    for packet in one_of_each() {
        let numbers = [&one, &third, &third_too, &fifth].map(|table| told(READY, table, &packet));
        assert_eq!(numbers, [(0, 0), (4, 3), (4, 3), (4, 5)]);
        alike(
            &[third.clone(), third_too.clone()],
            &Lent::plain(),
            full(),
            &packet,
        );
    }
}

// ---- the streams

/// Twins as a stream prints them, and what tells them apart.
#[test]
fn twins_in_a_stream() {
    let [one, other] = [disc_e(), by(WAYS[0], &disc_e())].map(|sheet| sheet.bytes());
    let mut stream = Stream::new();
    for table in [&one, &other] {
        stream.table(table);
        stream.memory(6_538, 0);
        stream.state(full());
        for packet in [toc(false, 0, 0, 804), toc(true, 1, 0, 12), read10(149, 1)] {
            stream.packet(&packet);
        }
        stream.packet(&toc(false, 2, 0, 15));
    }
    let state = "01100 00 00 00 11 160 290 35 53 1";
    let stopped = "01100 00 00 00 15 160 290 35 53 1";
    let list = "001A010200140100000000000010020000000096".to_string() + "0010AA000000012C";
    let first = "000A01010014010000000200";
    let alike = [
        format!("p 0 00 28 0 0 {state} {list} "),
        format!("p 0 00 12 0 0 {state} {first} "),
        format!("p 0 00 0 149 1 {stopped} - "),
    ];
    let rows = ["14", "10"].map(|bits| format!("0039010101{bits}00A000000000010000"));
    let printed = replay::run(&stream.bytes);
    let lines: Vec<&str> = printed.lines().collect();
    for (half, row) in lines.chunks(4).zip(rows) {
        let due = format!("p 0 00 15 0 0 {stopped} {row} ");
        for (line, due) in half.iter().zip(alike.iter().chain([&due])) {
            assert!(line.starts_with(due), "{line}");
        }
    }
    assert_eq!(lines[..3], lines[4..7]);
    assert_ne!(lines[3], lines[7]);
}

/// A table and what a stream does until the next: kind, body, and a call's line.
type Half<'a> = (&'a [u8], Vec<(u8, &'a [u8], Option<&'a str>)>);

fn halves<'a>(stream: &'a [u8], lines: &'a str) -> Vec<Half<'a>> {
    let (mut rest, mut lines) = (stream, lines.lines());
    let mut halves: Vec<Half> = Vec::new();
    while let Ok((kind, body, after)) = take_record(rest) {
        rest = after;
        let line = replay::is_call(kind).then(|| lines.next()).flatten();
        match (kind, halves.last_mut()) {
            (replay::TABLE, _) => halves.push((body, Vec::new())),
            (_, Some((_, records))) => records.push((kind, body, line)),
            _ => {}
        }
    }
    halves
}

/// Two tables of a stream, behind one another, that are twins by the papers.
fn are_twins_by_the_papers(one: &[u8], other: &[u8]) -> bool {
    let fit = |table: &[u8]| table::broken_rule(table) == 0 && table[3] == 1;
    fit(one) && fit(other) && one != other && list_of(one) == list_of(other)
}

/// What twins were met by in a stream, the lines held to the law: code and format, how it
/// came out, and whether something was pending.
fn met_in(stream: &[u8]) -> BTreeSet<(u8, String)> {
    let lines = replay::run(stream);
    let mut met = BTreeSet::new();
    for pair in halves(stream, &lines).windows(2) {
        let [(one, first), (other, second)] = pair else {
            continue;
        };
        let same = first
            .iter()
            .zip(second)
            .all(|(a, b)| (a.0, a.1) == (b.0, b.1));
        let set = [replay::MEMORY, replay::LIST, replay::STATE];
        let begins: Vec<u8> = first.iter().take(3).map(|record| record.0).collect();
        let whole = second.len() >= first.len() && begins == set;
        if !same || !whole || !are_twins_by_the_papers(one, other) {
            continue;
        }
        for (&(kind, body, line), &(.., again)) in first.iter().zip(second) {
            let Some(line) = line.filter(|_| kind != replay::PART) else {
                continue;
            };
            if kind == replay::PACKET && is_format_2(body) {
                // The memories may differ from here on.
                if line != again.expect("a call too") {
                    break;
                }
                continue;
            }
            assert_eq!(Some(line), again, "{body:02X?}");
            let words: Vec<&str> = line.split(' ').collect();
            let code = if kind == replay::PACKET {
                body[0]
            } else {
                0xFF
            };
            let end = if kind == replay::PACKET { 3 } else { 2 };
            met.insert((code, words[..end].join(" ")));
        }
    }
    met
}

/// By the lines alone: whatever twins are met by in the streams, the lines are the same,
/// and there are GOOD answers of every command among them.
#[test]
fn lines_keep_to_it() {
    for stream in [
        stored::stored_stream(),
        random_stream(96, 40_000),
        random_stream(97, 40_000),
    ] {
        let met = met_in(&stream.bytes);
        for code in CODES {
            assert!(met.contains(&(code, "p 0 00".to_string())), "{code:02X}");
        }
        for line in ["o 0", "q 0", "b 0", "b 5", "d 0", "u 0", "m 0"] {
            assert!(met.contains(&(0xFF, line.to_string())), "{line}");
        }
        assert!(met.contains(&(0x43, "p 0 02".to_string())));
    }
}

/// The picked runs stand in the stored stream as they are picked.
#[test]
fn picked_twins_are_stored() {
    let stored = stored::stored_stream().bytes;
    for (maker, calls) in [
        (picked_twins::each_way as fn(&mut Stream), 111),
        (picked_twins::histories_alike, 102),
        (picked_twins::two_sessions_apart, 64),
        (picked_twins::told_by_the_list, 40),
    ] {
        let mut stream = Stream::new();
        maker(&mut stream);
        assert_eq!(stream.calls, calls);
        let whole = stored.windows(stream.bytes.len());
        assert_eq!(whole.filter(|part| *part == stream.bytes).count(), 1);
    }
}

/// The streams have twins often, and no line tells them apart but format 2's.
#[test]
fn streams_have_twins() {
    for stream in [stored::stored_stream(), random_stream(104, 17_000)] {
        let twins = tally::twins(&stream.bytes);
        assert!(twins.runs > 20 && twins.calls > 500, "{twins:?}");
        assert!(twins.told > 5 && twins.untold > 2, "{twins:?}");
        assert!(twins.met.iter().all(|&times| times > 1), "{twins:?}");
        assert!(twins.others > 10, "{twins:?}");
        assert_eq!(twins.unlike, 0);
    }
    let (mut scenes, mut rng) = (Stream::new(), Rng::new(109));
    for _ in 0..200 {
        twin_scene(&mut scenes, &mut rng);
    }
    let twins = tally::twins(&scenes.bytes);
    assert_eq!((twins.runs, twins.unlike), (200, 0));
    assert_eq!(twins.calls, scenes.calls);
}

/// What `tally` counts of a small stream, and how it prints it.
#[test]
fn tally_counts_twins() {
    let [one, twin] = [disc_e(), by(ALL, &disc_e())].map(|sheet| sheet.bytes());
    let other = by(TOLD[8], &disc_e()).bytes();
    let mut run = Stream::new();
    run.memory(6_538, 0);
    run.list(&[]);
    run.state(READY);
    run.power_on_without_change();
    run.packet(&[]);
    for packet in [
        toc(false, 2, 0, 804),
        toc(false, 0, 0, 804),
        toc(true, 1, 0, 804),
        toc(true, 3, 0, 804),
        capacity(),
        read10(0, 1),
        play(150, 1),
        position(false),
        prevent(0),
        toc(false, 2, 2, 804),
        toc(false, 2, 0, 804),
        test_ready(),
    ] {
        run.packet(&packet);
    }
    run.part(1);
    let mut stream = Stream::new();
    // Twins; then no twins, since the list tells; then the run again, but not as long.
    for table in [&one, &twin, &other] {
        stream.table(table);
        stream.join(&run);
    }
    stream.packet(&test_ready());
    stream.table(&one);
    stream.join(&run);
    stream.table(&twin);
    stream.packet(&test_ready());
    let due = Twins {
        runs: 1,
        calls: 28,
        met: [1, 1, 1, 1, 1, 1, 1, 2, 1],
        others: 1,
        unlike: 0,
        told: 1,
        untold: 2,
    };
    assert_eq!(tally::twins(&stream.bytes), due);
    let tail = "\
twins runs calls other-calls unlike format-2-told format-2-not
twins 1 28 1 0 1 2
met 43h-0 43h-1 43h-other 25h-2Bh READ PLAY 42h other refused
met 1 1 1 1 1 1 1 2 1
";
    assert!(tally::print(&stream.bytes).contains(tail));
}
