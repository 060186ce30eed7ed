//! K3: "A loaded drive should greet with both attentions." The two forms of
//! power-on, what is told behind them, and that the streams have both.

mod common;

use common::{check, on_e};
use second::cases::bad::random_stream;
use second::cases::packets::*;
use second::cases::picked_state::all_flags;
use second::cases::sheet::disc_e;
use second::cases::stream::Stream;
use second::drive::State;
use second::mode_page::ModePage;
use second::play::Play;
use second::replay::{self, take_record};
use second::sense::{self, Sense, NONE};
use second::tally::{self, PowerOns};
use second::{listing, stored};

const READY: State = State::READY;
const POWERED_ON: Sense = Sense::new(6, 0x29, 0);
const CHANGED: Sense = Sense::new(6, 0x28, 0);

/// A form of power-on.
type Form = fn(State) -> State;

const DEFAULT: Form = State::power_on;
const SECOND: Form = State::power_on_without_change;

/// Held before a power-on: some of the thirteen, and two that are none of them.
fn held() -> [Sense; 5] {
    let [near, far] = [(6, 0x29, 1), (0xFF, 0xFF, 0xFF)].map(|(a, b, c)| Sense::new(a, b, c));
    [NONE, sense::PREVENTED, CHANGED, near, far]
}

/// What a power-on restores (K4): pages that 2 takes, and some that it covers.
fn mode_pages() -> [ModePage; 4] {
    [(0, 0), (0x35, 0xFF), (0x02, 0), (0xFF, 0x01)].map(|(a, b)| ModePage::new(a, b))
}

/// What a power-on resets (K2): sound records, and unsound ones, which it does
/// not refuse.
fn records() -> [Play; 7] {
    [
        Play::NONE,
        Play::new(0x11, 150, 300),
        Play::new(0x12, 7, 7),
        Play::new(0x13, 300, 300),
        Play::new(0x15, 3, 4),
        Play::new(0, 0, 0),
        Play::new(0x11, 2, 1),
    ]
}

/// Events of K7, sound and not.
const EVENTS: [u8; 7] = [3, 0, 2, 255, 1, 4, 2];

/// Every state that a power-on may meet.
fn all_states() -> impl Iterator<Item = State> {
    held()
        .into_iter()
        .flat_map(|sense| all_flags().map(move |flags| (sense, flags)))
        .zip(records().into_iter().cycle())
        .zip(mode_pages().into_iter().cycle())
        .zip(EVENTS.into_iter().cycle())
        .map(|((((sense, flags), play), mode), event)| State {
            sense,
            play,
            mode,
            event,
            ..flags
        })
}

/// The senses held after each of these packets, one after the other.
fn told(mut state: State, packets: &[Packet]) -> Vec<Sense> {
    let mut list = Vec::new();
    for packet in packets {
        state = on_e(state, packet).0.next;
        list.push(state.sense);
    }
    list
}

/// Power-on and nothing else, as both forms leave it, with this change
/// attention.
fn greeted(state: State, change: bool) -> State {
    State {
        tray_open: state.tray_open,
        disc_in: state.disc_in,
        lock: false,
        power: true,
        change,
        sense: Sense::new(0, 0, 0),
        play: Play::NONE,
        mode: ModePage::DEFAULT,
        event: 0,
    }
}

/// "Power-on with a loaded disc now leaves both attentions pending by default":
/// whatever was locked, pending or held.
#[test]
fn default_form_loaded() {
    let loaded = |state: &State| !state.tray_open && state.disc_in;
    let states: Vec<State> = all_states().filter(loaded).collect();
    assert_eq!(states.len(), 40);
    for state in states {
        assert_eq!(state.power_on(), greeted(state, true), "{state:?}");
    }
}

/// A disc in an open tray is not loaded, and no disc is not: the power attention
/// alone, also where a change was pending.
#[test]
fn default_form_not_loaded() {
    let not_loaded = |state: &State| state.tray_open || !state.disc_in;
    let states: Vec<State> = all_states().filter(not_loaded).collect();
    assert_eq!(states.len(), 120);
    for state in states {
        assert_eq!(state.power_on(), greeted(state, false), "{state:?}");
    }
}

/// "A second form .. keeps 01's behaviour": "change attention not", loaded or not.
#[test]
fn second_form_in_every_state() {
    for state in all_states() {
        let next = state.power_on_without_change();
        assert_eq!(next, greeted(state, false), "{state:?}");
    }
}

/// 00h twice, then GOOD, behind the default form; once behind the second.
#[test]
fn told_twice_or_once() {
    let three = [test_ready(); 3];
    assert_eq!(told(READY.power_on(), &three), [POWERED_ON, CHANGED, NONE]);
    let second = READY.power_on_without_change();
    assert_eq!(told(second, &three), [POWERED_ON, NONE, NONE]);
}

/// Any packet but INQUIRY, REQUEST SENSE and 4Ah is told, also one that needs no
/// disc.
#[test]
fn any_other_packet_is_told() {
    for packet in one_of_each() {
        if [0x03, 0x12, 0x4A].contains(&packet[0]) {
            continue;
        }
        let two = [packet; 2];
        assert_eq!(told(READY.power_on(), &two), [POWERED_ON, CHANGED]);
        let second = told(READY.power_on_without_change(), &two);
        assert_eq!(second[0], POWERED_ON);
        assert_ne!(second[1], CHANGED, "{packet:02X?}");
    }
}

/// REQUEST SENSE gives the power-on, then the change; a length of 0 clears too.
#[test]
fn request_sense_gives_both() {
    for (form, due) in [
        (DEFAULT, [POWERED_ON, CHANGED, NONE]),
        (SECOND, [POWERED_ON, NONE, NONE]),
    ] {
        let (mut state, mut silent) = (form(READY), form(READY));
        for due in due {
            let (reply, memory) = on_e(state, &request_sense(18));
            assert_eq!((reply.status, reply.length), (0, 18));
            assert_eq!(Sense::new(memory[2], memory[12], memory[13]), due);
            state = reply.next;
            silent = on_e(silent, &request_sense(0)).0.next;
            assert_eq!(state, silent);
        }
        assert_eq!(state, READY);
    }
    // A sense held since a telling is given first, and is no second telling.
    let after = on_e(READY.power_on(), &test_ready()).0.next;
    let (reply, memory) = on_e(after, &request_sense(18));
    assert_eq!([memory[2], memory[12]], [6, 0x29]);
    assert_eq!(check(reply.next, &test_ready()), CHANGED);
}

/// INQUIRY is told neither, wherever it comes.
#[test]
fn inquiry_is_told_neither() {
    for form in [DEFAULT, SECOND] {
        let (reply, _) = on_e(form(READY), &inquiry(36));
        assert_eq!((reply.status, reply.next), (0, form(READY)));
    }
    let between = [inquiry(36), test_ready(), inquiry(36), test_ready()];
    let due = [NONE, POWERED_ON, POWERED_ON, CHANGED];
    assert_eq!(told(READY.power_on(), &between), due);
}

/// A disc in an open tray: closing it, by button or packet, is a loading behind
/// either form, and is told after the power-on.
#[test]
fn closing_behind_either_form() {
    for form in [DEFAULT, SECOND] {
        let open = form(READY.opened());
        assert!(open.power && !open.change);
        let closed = open.button().expect("it closes");
        assert_eq!(
            told(closed, &[test_ready(); 3]),
            [POWERED_ON, CHANGED, NONE]
        );
        let by_packet = [start_stop(LOAD), start_stop(LOAD), test_ready()];
        assert_eq!(told(open, &by_packet), [POWERED_ON, NONE, CHANGED]);
        // Without a disc there is none.
        let empty = form(State::EMPTY.opened()).button().expect("it closes");
        assert!(!empty.change);
    }
}

/// Causes before one telling count as one: a default power-on, and the tray
/// opened and closed.
#[test]
fn power_on_and_loading_are_told_once() {
    let mut state = READY.power_on();
    for _ in 0..2 {
        state = state.button().expect("it moves");
    }
    assert_eq!(told(state, &[test_ready(); 3]), [POWERED_ON, CHANGED, NONE]);
}

/// One power-on after another: the last alone decides.
#[test]
fn last_power_on_decides() {
    for state in all_states() {
        for first in [DEFAULT, SECOND] {
            for last in [DEFAULT, SECOND] {
                assert_eq!(last(first(state)), last(state));
            }
        }
    }
    let opened = READY.power_on().button().expect("it opens");
    assert!(opened.change);
    assert!(!opened.power_on().change);
}

/// No table and no memory is looked at, and no unknown sense: never refused.
#[test]
fn nothing_is_looked_at() {
    for stranger in [[0, 0, 0], [1, 2, 3]] {
        // A play record of zeros is none that a call but power-on takes, and a
        // recovery byte or an event of FFh none either.
        let rest = [0, 0, 0, 0, 0, 0, 0, 0, 0, 0xFF, 0xFF, 0xFF];
        let state = [[0, 1, 1, 0, 0].as_slice(), &stranger, &rest].concat();
        for (kind, line) in [
            (3, "o 0 01011 00 00 00 15 0 0 00 00 0\n"),
            (11, "q 0 01010 00 00 00 15 0 0 00 00 0\n"),
        ] {
            let mut stream = Stream::new();
            stream.record(replay::STATE, &state);
            stream.record(kind, &[]);
            assert_eq!(replay::run(&stream.bytes), line);
        }
    }
}

/// "A second form, which the listing program calls": the second packet finds
/// nothing pending.
#[test]
fn listing_calls_the_second_form() {
    let packets = [test_ready(), capacity(), test_ready()].concat();
    let lines = listing::print(&disc_e().bytes(), &packets);
    let due = "\
n st key asc ascq len data start count
1 02 06 29 00 0 - 0 0
2 00 00 00 00 8 0000012B00000800 0 0
3 00 00 00 00 0 - 0 0
";
    assert_eq!(lines, due);
}

/// Both forms are met by a loaded drive, by an open tray with a disc and by a
/// tray without one, each often.
#[test]
fn streams_have_both_forms() {
    for stream in [stored::stored_stream(), random_stream(40, 17_000)] {
        for met in tally::power_ons(&stream.bytes) {
            let PowerOns {
                loaded,
                disc_in_open_tray,
                closed_empty,
                open_empty,
            } = met;
            assert!(loaded > 100 && disc_in_open_tray > 50, "{met:?}");
            assert!(closed_empty > 20 && open_empty > 20, "{met:?}");
        }
    }
}

/// The state that a line shows, as kind 0 has it.
fn state_in(line: &str) -> Option<Vec<u8>> {
    let words: Vec<&str> = line.split(' ').collect();
    let from = match words[0] {
        "o" | "q" | "b" | "d" | "u" | "m" | "O" | "Q" | "M" => 2,
        "p" | "P" => 6,
        _ => return None,
    };
    let mut state: Vec<u8> = words[from].bytes().map(|digit| digit - b'0').collect();
    for word in &words[from + 1..from + 5] {
        state.push(u8::from_str_radix(word, 16).expect("a hex byte"));
    }
    for word in &words[from + 5..from + 7] {
        let number: u32 = word.parse().expect("a decimal");
        state.extend(number.to_be_bytes());
    }
    for word in &words[from + 7..from + 9] {
        state.push(u8::from_str_radix(word, 16).expect("a hex byte"));
    }
    state.push(words[from + 9].parse().expect("a decimal"));
    Some(state)
}

/// The kinds that set what the calls meet.
const SET: [u8; 4] = [replay::STATE, replay::TABLE, replay::MEMORY, replay::LIST];

/// The answers in these lines: a packet's words without the flags.
fn answers(lines: &str) -> Vec<String> {
    let packets = lines.lines().filter(|line| line.starts_with("p "));
    packets
        .map(|line| {
            let mut words: Vec<&str> = line.split(' ').collect();
            words.remove(6);
            words.join(" ")
        })
        .collect()
}

/// Of the second form's power-ons of a loaded drive in a stream, how many there
/// are, and how many are answered otherwise later, before the next power-on or
/// the next state set, if they are made by the default form.
fn told_apart(stream: &[u8]) -> (usize, usize) {
    let lines = replay::run(stream);
    let mut lines = lines.lines();
    // Kinds 0 to 2 and 13 as they stand.
    let mut set = [vec![0; replay::STATE_BYTES], vec![], vec![0, 0, 0], vec![]];
    let (mut loaded, mut apart) = (0, 0);
    let mut rest = stream;
    while let Ok((kind, body, after)) = take_record(rest) {
        rest = after;
        if let Some(place) = SET.iter().position(|&one| one == kind) {
            set[place] = body.to_vec();
        }
        if !replay::is_call(kind) {
            continue;
        }
        if kind == replay::POWER_ON_WITHOUT_CHANGE && set[0][..2] == [0, 1] {
            loaded += 1;
            let run = |form| answers(&replay::run(&behind(&set, form, after)));
            apart += usize::from(run(kind) != run(replay::POWER_ON));
        }
        let line = lines.next().expect("each call has one");
        if line == "bad record" {
            break;
        }
        if let Some(state) = state_in(line) {
            set[0] = state;
        }
    }
    (loaded, apart)
}

/// A stream of its own: what is set, a power-on by this kind, and the records up
/// to the next state or power-on.
fn behind(set: &[Vec<u8>; 4], form: u8, mut rest: &[u8]) -> Vec<u8> {
    let mut stream = Stream::new();
    for (kind, body) in SET.into_iter().zip(set) {
        stream.record(kind, body);
    }
    stream.record(form, &[]);
    while let Ok((kind, body, after)) = take_record(rest) {
        if [
            replay::STATE,
            replay::POWER_ON,
            replay::POWER_ON_WITHOUT_CHANGE,
        ]
        .contains(&kind)
        {
            break;
        }
        stream.record(kind, body);
        rest = after;
    }
    stream.bytes
}

/// The second form comes where the calls behind it show that it was not the
/// default form.
#[test]
fn answers_tell_the_forms_apart() {
    for stream in [stored::stored_stream(), random_stream(48, 17_000)] {
        let (loaded, apart) = told_apart(&stream.bytes);
        assert!(apart > 50, "{apart} of {loaded}");
    }
}
