//! K8: "Exercise 14 asks which calls cancel." Laws over drawn states, packets,
//! tables, lists and memories and over every setting of what matters; what does not
//! cancel by exact states. Two states are the same where every part is: attentions,
//! held sense, tray, disc, lock, play record, mode page and media event.

mod common;

use std::collections::BTreeSet;

use common::{both, number_of};
use second::cases::bad::random_stream;
use second::cases::packets::*;
use second::cases::picked_cancel;
use second::cases::picked_state::all_flags;
use second::cases::random::any_state;
use second::cases::sheet::{disc_e, small_fit};
use second::cases::spoil::any_broken;
use second::cases::stream::Stream;
use second::drive::State;
use second::limits::BOUND;
use second::mode_page::ModePage;
use second::packet::{perform, Reply};
use second::play::Play;
use second::replay::{self, take_record};
use second::rng::Rng;
use second::sense::{self, Sense, NONE};
use second::stored;
use second::table;
use second::tally::{self, Behind, Pairs};

const READY: State = State::READY;

/// A form of power-on, the default one and the second.
type Form = fn(State) -> State;

const DEFAULT: Form = State::power_on;
const SECOND: Form = State::power_on_without_change;
const FORMS: [Form; 2] = [DEFAULT, SECOND];

/// What laying and lifting hand back, refused or not.
fn lay(state: State) -> State {
    state.lay().unwrap_or(state)
}

fn lift(state: State) -> State {
    state.lift().unwrap_or(state)
}

fn pressed_twice(state: State) -> State {
    state.pressed().pressed()
}

/// A packet on Table E, and the state behind it.
fn sent(state: State, packet: &Packet) -> State {
    let (e, mut memory) = (disc_e().bytes(), vec![0; BOUND]);
    let reply = perform(state, &e, &[], packet, &mut memory);
    assert_eq!(reply.refusal, None, "{state:?}");
    reply.next
}

fn both_sent(state: State, packets: [Packet; 2]) -> State {
    packets.iter().fold(state, sent)
}

/// Senses that a packet of these may leave, and one that none does.
const SENSES: [Sense; 5] = [
    NONE,
    sense::BAD_FIELD,
    sense::NO_MEDIUM,
    sense::TRAY_OPEN,
    sense::LIST_FIELD,
];

fn records() -> [Play; 8] {
    [
        Play::NONE,
        Play::new(0x11, 0, 0),
        Play::new(0x11, 160, 170),
        Play::new(0x12, 160, 170),
        Play::new(0x13, 170, 170),
        Play::new(0x15, 160, 170),
        Play::new(0x15, 0, 170),
        Play::new(0x15, 170, 170),
    ]
}

/// States that 2 takes: every flag, sense, record and event of these, with a page.
fn settings() -> impl Iterator<Item = State> {
    let parts = SENSES.into_iter().flat_map(|sense| {
        records()
            .into_iter()
            .flat_map(move |play| (0..4).map(move |event| (sense, play, event)))
    });
    parts.flat_map(|(sense, play, event)| {
        all_flags().map(move |flags| State {
            sense,
            play,
            event,
            mode: ModePage::new(0x35, event),
            ..flags
        })
    })
}

/// Those with nothing pending.
fn quiet() -> impl Iterator<Item = State> {
    settings().filter(|state| !state.power && !state.change)
}

/// The settings, and drawn states, of which 2 covers some.
fn states(seed: u64) -> impl Iterator<Item = State> {
    let mut rng = Rng::new(seed);
    let marks = Marks::of(None);
    settings().chain((0..20_000).map(move |_| any_state(&mut rng, &marks)))
}

/// The triples that 01 and K4 list, and K4's twenty settings.
const TRIPLES: [[u8; 3]; 13] = [
    [0x00, 0x00, 0x00],
    [0x02, 0x3A, 0x01],
    [0x02, 0x3A, 0x02],
    [0x05, 0x20, 0x00],
    [0x05, 0x21, 0x00],
    [0x05, 0x24, 0x00],
    [0x05, 0x53, 0x02],
    [0x05, 0x64, 0x00],
    [0x06, 0x28, 0x00],
    [0x06, 0x29, 0x00],
    [0x05, 0x1A, 0x00],
    [0x05, 0x26, 0x00],
    [0x05, 0x39, 0x00],
];
const SETTINGS: &str = "00 01 04 05 06 07 10 11 14 15 20 21 24 25 26 27 30 31 34 35";

/// Refusal 2 by the papers, not by the drive: the held sense, K2's record, K4's
/// recovery byte and K7's event.
fn covered_by_2(state: State) -> bool {
    let Sense { key, asc, ascq } = state.sense;
    let Play {
        status,
        position,
        end,
    } = state.play;
    let recovery = format!("{:02X}", state.mode.recovery);
    !TRIPLES.contains(&[key, asc, ascq])
        || ![0x11, 0x12, 0x13, 0x15].contains(&status)
        || position > end
        || end > 449_849
        || !SETTINGS.split(' ').any(|setting| setting == recovery)
        || state.event > 3
}

fn with_disc(state: State, disc_in: bool) -> State {
    State { disc_in, ..state }
}

// ---- laying and lifting

/// "Laying a disc, where it isn't refused, and lifting it gives back the same state."
/// It isn't where the tray is open, without one, and 2 takes the state.
#[test]
fn laying_then_lifting() {
    let (mut went, mut not) = (0, 0);
    for state in states(1) {
        let free = !covered_by_2(state) && state.tray_open && !state.disc_in;
        match state.lay() {
            Ok(laid) => {
                assert!(free, "{state:?}");
                assert_eq!(laid.lift(), Ok(state));
                went += 1;
            }
            Err(_) => {
                assert!(!free, "{state:?}");
                not += 1;
            }
        }
    }
    assert!(went > 2_500 && not > 10_000, "{went} {not}");
}

/// So does lifting, where it isn't refused, and laying.
#[test]
fn lifting_then_laying() {
    let (mut went, mut not) = (0, 0);
    for state in states(2) {
        let free = !covered_by_2(state) && state.tray_open && state.disc_in;
        match state.lift() {
            Ok(lifted) => {
                assert!(free, "{state:?}");
                assert_eq!(lifted.lay(), Ok(state));
                went += 1;
            }
            Err(_) => {
                assert!(!free, "{state:?}");
                not += 1;
            }
        }
    }
    assert!(went > 4_000 && not > 10_000, "{went} {not}");
}

/// A laying refused by 6 and a lifting that goes: the disc is out, nothing else moved.
#[test]
fn refused_laying_then_lifting() {
    let mut met = 0;
    for state in states(3).filter(|&state| !covered_by_2(state) && state.tray_open && state.disc_in)
    {
        assert_eq!(number_of(&state.lay()), 6);
        let back = lift(lay(state));
        assert_eq!(back, with_disc(state, false));
        assert_ne!(back, state);
        met += 1;
    }
    assert!(met > 4_000, "{met}");
}

/// A lifting refused by 7 and a laying that goes: the disc is in.
#[test]
fn refused_lifting_then_laying() {
    let mut met = 0;
    for state in
        states(4).filter(|&state| !covered_by_2(state) && state.tray_open && !state.disc_in)
    {
        assert_eq!(number_of(&state.lift()), 7);
        let back = lay(lift(state));
        assert_eq!(back, with_disc(state, true));
        assert_ne!(back, state);
        met += 1;
    }
    assert!(met > 2_500, "{met}");
}

/// A closed tray refuses both, so that nothing changes.
#[test]
fn closed_tray_refuses_both() {
    let mut met = 0;
    for state in states(5).filter(|&state| !covered_by_2(state) && !state.tray_open) {
        assert_eq!((number_of(&state.lay()), number_of(&state.lift())), (6, 7));
        assert_eq!([lift(lay(state)), lay(lift(state))], [state; 2]);
        met += 1;
    }
    assert!(met > 5_000, "{met}");
}

/// 2 refuses laying, lifting and the button, one after the other in any order, and a
/// packet: nothing changes, wherever the tray is.
#[test]
fn two_refuses_both() {
    let mut met = [0; 4];
    let unsound = states(6).filter(|&state| covered_by_2(state));
    for state in unsound {
        for call in [State::lay, State::lift, State::button] {
            assert_eq!(number_of(&call(state)), 2);
        }
        assert_eq!([lift(lay(state)), lay(lift(state))], [state; 2]);
        assert_eq!(pressed_twice(state), state);
        met[usize::from(state.tray_open) * 2 + usize::from(state.disc_in)] += 1;
    }
    assert!(met.iter().all(|&times| times > 400), "{met:?}");
}

// ---- a packet, then a power-on

/// What a packet call is lent, and the packet.
struct Lent {
    table: Vec<u8>,
    list: Vec<u8>,
    memory: usize,
    packet: Vec<u8>,
}

impl Lent {
    /// Now and then a packet of another length, a short memory or an unfit table.
    fn drawn(rng: &mut Rng) -> Lent {
        let table = match rng.below(8) {
            0 => Vec::new(),
            1 => any_broken(rng),
            2 => disc_e().bytes(),
            _ => small_fit(rng).bytes(),
        };
        let marks = Marks::of(table::read(&table).ok().as_ref());
        let mut packet = match rng.below(6) {
            0 => rng.pick(&one_of_each()),
            1 => start_stop(rng.pick(&[EJECT, LOAD])),
            _ => any_packet(rng, &marks),
        }
        .to_vec();
        if rng.one_in(16) {
            packet.resize(rng.pick(&[0, 6, 11, 13, 16]), 0);
        }
        Lent {
            table,
            list: any_list(rng),
            memory: rng.pick(&[BOUND, BOUND, BOUND, BOUND, BOUND + 1, 7_000, BOUND - 1, 0]),
            packet,
        }
    }

    fn call(&self, state: State) -> Reply {
        let mut memory = vec![0x14; self.memory];
        perform(state, &self.table, &self.list, &self.packet, &mut memory)
    }
}

/// Drawn states, each with a packet call that it meets.
fn met_by_packets(seed: u64, mut each: impl FnMut(State, &Lent, Reply)) {
    let (mut rng, marks) = (Rng::new(seed), Marks::of(None));
    for n in 0..12_000 {
        let mut state = any_state(&mut rng, &marks);
        if n % 2 == 0 {
            // Nothing is told, so that the packet is performed.
            (state.power, state.change) = (false, false);
        }
        let lent = Lent::drawn(&mut rng);
        each(state, &lent, lent.call(state));
    }
}

fn same_place(one: State, other: State) -> bool {
    (one.tray_open, one.disc_in) == (other.tray_open, other.disc_in)
}

/// Power-on of this form behind each drawn packet that leaves tray and disc as they
/// were; there are many of each outcome.
fn power_on_behind_packets(form: Form, seed: u64) {
    let (mut good, mut failed, mut refused) = (0, 0, [0; 5]);
    met_by_packets(seed, |state, lent, reply| {
        if !same_place(state, reply.next) {
            return;
        }
        let again = form(reply.next);
        assert_eq!(again, form(state), "{state:?} {:02X?}", lent.packet);
        match (both(reply.refusal).0, reply.status) {
            (0, 0) => good += 1,
            (0, _) => failed += 1,
            (number, _) => refused[usize::from(number)] += 1,
        }
    });
    assert!(good > 1_000 && failed > 1_000, "{good} {failed}");
    let few = refused[1..].iter().any(|&times| times < 200);
    assert!(!few, "{refused:?}");
}

/// "Power-on after a packet that leaves tray and disc as they were equals power-on
/// alone, in the same form of K3": the default form, whatever the packet, the table,
/// the list and the memory, refused or not.
#[test]
fn packet_then_default_form() {
    power_on_behind_packets(DEFAULT, 11);
}

/// And the second form.
#[test]
fn packet_then_second_form() {
    power_on_behind_packets(SECOND, 12);
}

/// What a packet leaves behind, part by part, and that a power-on takes it away: the
/// state behind the packet is another, that behind the power-on is not.
#[test]
fn each_part_is_taken_away() {
    let playing = State {
        play: Play::new(0x11, 160, 170),
        ..READY
    };
    let event = State { event: 2, ..READY };
    let told = State {
        power: true,
        change: true,
        ..READY
    };
    for (state, packet) in [
        (READY, prevent(1)),
        (READY, play(160, 10)),
        (playing, pause()),
        (playing, read10(0, 1)),
        (READY, read10(150, 1)),
        (READY, plain(0x47)),
        (event, event_status(0x10, 8)),
        (told, test_ready()),
        (
            State {
                power: false,
                ..told
            },
            request_sense(18),
        ),
        (told, request_sense(0)),
    ] {
        let next = sent(state, &packet);
        assert_ne!(next, state, "{packet:02X?}");
        for form in FORMS {
            assert_eq!(form(next), form(state), "{packet:02X?}");
        }
    }
    let mut memory = vec![0; BOUND];
    let (e, list) = (disc_e().bytes(), page_list(0x05, 0x33));
    let set = perform(READY, &e, &list, &mode_select(16), &mut memory).next;
    assert_eq!(set.mode, ModePage::new(0x05, 0x33));
    for form in FORMS {
        assert_eq!(form(set), form(READY));
    }
}

/// An eject of a closed tray and a power-on, and the power-on alone: another tray, and
/// with a disc in, in the default form, another change attention. Everywhere else, an
/// eject is as any packet.
#[test]
fn eject_then_power_on() {
    let mut met = [0; 2];
    for state in quiet() {
        let next = sent(state, &start_stop(EJECT));
        let moves = !state.tray_open && !state.lock;
        for form in FORMS {
            let (again, alone) = (form(next), form(state));
            let due = State {
                tray_open: alone.tray_open || moves,
                change: alone.change && !moves,
                ..alone
            };
            assert_eq!(again, due);
            assert_eq!(again == alone, !moves, "{state:?}");
        }
        met[usize::from(moves)] += 1;
    }
    assert_eq!(met, [3 * 320, 320]);
}

/// A load of an open tray likewise, locked or not: it is closed then.
#[test]
fn load_then_power_on() {
    let mut met = [0; 2];
    for state in quiet() {
        let next = sent(state, &start_stop(LOAD));
        let moves = state.tray_open;
        for (form, greets) in FORMS.into_iter().zip([true, false]) {
            let (again, alone) = (form(next), form(state));
            let due = State {
                tray_open: false,
                change: greets && state.disc_in,
                ..alone
            };
            assert_eq!(again, due);
            assert_eq!(again == alone, !moves, "{state:?}");
        }
        met[usize::from(moves)] += 1;
    }
    assert_eq!(met, [640, 640]);
}

/// The condition is exact: wherever a packet moves tray or disc, the two power-ons
/// differ, in each form. It is the tray, and the packet a GOOD 1Bh with LoEj.
#[test]
fn moved_then_power_on_differs() {
    let mut moved = [0; 2];
    met_by_packets(13, |state, lent, reply| {
        if same_place(state, reply.next) {
            return;
        }
        assert_eq!(state.disc_in, reply.next.disc_in);
        assert_eq!((both(reply.refusal), reply.status), ((0, 0), 0));
        let [load, eject] = [(0x1B, 3), (0x1B, 2)];
        let due = if state.tray_open { load } else { eject };
        assert_eq!((lent.packet[0], lent.packet[4] & 3), due);
        for form in FORMS {
            assert_ne!(form(reply.next), form(state), "{state:?}");
        }
        moved[usize::from(state.tray_open)] += 1;
    });
    assert!(moved.iter().all(|&times| times > 50), "{moved:?}");
}

// ---- two power-ons

/// The later decides: in form g behind one in any form f it is g's alone, and so twice
/// in one form is once. Of any state, also of one that 2 covers.
#[test]
fn later_power_on_decides() {
    let mut unsound = 0;
    for state in states(14) {
        for earlier in FORMS {
            for later in FORMS {
                assert_eq!(later(earlier(state)), later(state), "{state:?}");
            }
        }
        unsound += usize::from(covered_by_2(state));
    }
    assert!(unsound > 3_000, "{unsound}");
}

/// The two forms give different states exactly on a loaded drive: the change attention,
/// and nothing else. So with another form on each side a power-on behind a packet is
/// not the power-on alone.
#[test]
fn forms_differ_when_loaded() {
    let mut met = [0; 2];
    for state in states(15) {
        let loaded = state.disc_in && !state.tray_open;
        let [default, second] = FORMS.map(|form| form(state));
        assert_eq!(default != second, loaded, "{state:?}");
        let due = State {
            change: loaded,
            ..second
        };
        assert_eq!((default, second.change), (due, false));
        met[usize::from(loaded)] += 1;
    }
    assert!(met.iter().all(|&times| times > 5_000), "{met:?}");
    let behind = sent(READY, &test_ready());
    assert_ne!(DEFAULT(behind), SECOND(READY));
    assert_ne!(SECOND(behind), DEFAULT(READY));
}

// ---- the button twice

/// The settings of this tray, disc and lock.
fn placed(tray_open: bool, disc_in: bool, lock: bool) -> impl Iterator<Item = State> {
    settings().filter(move |state| {
        (state.tray_open, state.disc_in, state.lock) == (tray_open, disc_in, lock)
    })
}

/// Presses twice, each setting: this becomes of it, and these many are the same again.
fn pressed_each(place: [bool; 3], same: usize, becomes: impl Fn(State) -> State) {
    let [tray_open, disc_in, lock] = place;
    let mut found = 0;
    for state in placed(tray_open, disc_in, lock) {
        let twice = pressed_twice(state);
        assert_eq!(twice, becomes(state), "{state:?}");
        found += usize::from(twice == state);
    }
    // 5 senses, 8 records, 4 events, power and change: 640 settings of a place.
    assert_eq!(placed(tray_open, disc_in, lock).count(), 640);
    assert_eq!(found, same);
}

/// Loaded and not locked: opened and closed, so a change is pending, no play, event 2.
/// The same state exactly where all three were so: 5 senses, power pending or not.
#[test]
fn button_twice_loaded() {
    pressed_each([false, true, false], 10, |state| State {
        change: true,
        play: Play::NONE,
        event: 2,
        ..state
    });
}

/// Closed, empty and not locked: only the record is reset, which an opening does. The
/// same exactly where there was none: 5 senses, 4 events, each attention or not.
#[test]
fn button_twice_closed_empty() {
    pressed_each([false, false, false], 80, |state| State {
        play: Play::NONE,
        ..state
    });
}

/// Open with a disc, not locked: closed and opened, so event 3.
#[test]
fn button_twice_open_with_a_disc() {
    pressed_each([true, true, false], 10, |state| State {
        change: true,
        play: Play::NONE,
        event: 3,
        ..state
    });
}

/// Open and empty, not locked: the record alone, by the opening.
#[test]
fn button_twice_open_empty() {
    pressed_each([true, false, false], 80, |state| State {
        play: Play::NONE,
        ..state
    });
}

/// Open and locked: it closes, and the second press is refused by 5, event 1. Never the
/// same state, with a disc in or not.
#[test]
fn button_twice_open_and_locked() {
    for disc_in in [false, true] {
        pressed_each([true, disc_in, true], 0, |state| {
            let closed = State {
                tray_open: false,
                event: 1,
                ..state
            };
            match disc_in {
                true => State {
                    change: true,
                    play: Play::NONE,
                    ..closed
                },
                false => closed,
            }
        });
    }
    for state in placed(true, true, true) {
        assert_eq!(number_of(&state.pressed().button()), 5);
    }
}

/// Closed and locked: refused by 5 twice, event 1. The same exactly where it was 1.
#[test]
fn button_twice_closed_and_locked() {
    for disc_in in [false, true] {
        pressed_each([false, disc_in, true], 160, |state| State {
            event: 1,
            ..state
        });
        for state in placed(false, disc_in, true) {
            assert_eq!(number_of(&state.button()), 5);
        }
    }
}

// ---- packets

/// The settings on which the two packets give back the same state, each setting held
/// to what becomes of it.
fn sent_each(
    settings: impl Iterator<Item = State>,
    packets: [Packet; 2],
    becomes: impl Fn(State) -> State,
) -> Vec<State> {
    let mut same = Vec::new();
    for state in settings {
        let next = both_sent(state, packets);
        assert_eq!(next, becomes(state), "{state:?}");
        if next == state {
            same.push(state);
        }
    }
    same
}

/// PREVENT and ALLOW of a drive that is not locked, holds no sense and has nothing
/// pending, in any place: the same state.
#[test]
fn prevent_then_allow() {
    let free = |state: &State| !state.lock && state.sense == NONE;
    let due = quiet().filter(free).count();
    assert_eq!(due, 4 * 8 * 4);
    let same = sent_each(quiet().filter(free), [prevent(1), prevent(0)], |state| {
        state
    });
    assert_eq!(same.len(), due);
}

/// With a sense held it is cleared, so it is not; on a locked drive the lock is off
/// then.
#[test]
fn prevent_then_allow_held_or_locked() {
    let other = |state: &State| state.lock || state.sense != NONE;
    let same = sent_each(quiet().filter(other), [prevent(1), prevent(0)], |state| {
        State {
            lock: false,
            sense: NONE,
            ..state
        }
    });
    assert_eq!(same, []);
    let held = State {
        sense: sense::BAD_FIELD,
        ..READY
    };
    let locked = State {
        lock: true,
        ..READY
    };
    for state in [held, locked] {
        assert_eq!(both_sent(state, [prevent(1), prevent(0)]), READY);
    }
    // There the twin cancels.
    assert_eq!(both_sent(locked, [prevent(0), prevent(1)]), locked);
}

/// With an attention pending PREVENT is told it. One alone: ALLOW is performed. Both:
/// it is told the change, and the lock stays as it was. Never the same state.
#[test]
fn prevent_then_allow_while_pending() {
    let pending = settings().filter(|state| state.power || state.change);
    let same = sent_each(pending, [prevent(1), prevent(0)], |state| {
        let told = State {
            power: false,
            change: false,
            ..state
        };
        match state.power && state.change {
            true => State {
                sense: sense::CHANGED,
                ..told
            },
            false => State {
                lock: false,
                sense: NONE,
                ..told
            },
        }
    });
    assert_eq!(same, []);
}

/// The settings of a loaded drive with nothing pending.
fn quiet_and_loaded() -> impl Iterator<Item = State> {
    quiet().filter(|state| state.disc_in && !state.tray_open)
}

/// A GOOD PLAY and a GOOD READ: 15h, but position and end are the PLAY's, and the sense
/// is cleared. So from no play it is another state, and the same exactly where the
/// record had all three and no sense was held.
#[test]
fn play_then_read() {
    let stopped = Play::new(0x15, 160, 170);
    let packets = [play(160, 10), read10(0, 1)];
    let same = sent_each(quiet_and_loaded(), packets, |state| State {
        sense: NONE,
        play: stopped,
        ..state
    });
    assert!(same
        .iter()
        .all(|state| state.play == stopped && state.sense == NONE));
    // Locked or not, and each event.
    assert_eq!(same.len(), 8);
    let next = both_sent(READY, packets);
    assert_eq!(next.play.text(), "15 160 170");
    assert_ne!(next, READY);
}

/// A PLAY of no blocks leaves the record, and the READ its position and end: the same
/// exactly where the status was 15h and no sense was held.
#[test]
fn play_of_no_blocks_then_read() {
    let packets = [play(160, 0), read12(0, 0)];
    let same = sent_each(quiet_and_loaded(), packets, |state| State {
        sense: NONE,
        play: Play {
            status: 0x15,
            ..state.play
        },
        ..state
    });
    assert!(same.iter().all(|state| state.play.status == 0x15));
    // Four records, locked or not, and each event.
    assert_eq!(same.len(), 32);
}

fn has_status(status: u8) -> impl Fn(&State) -> bool {
    move |state| state.play.status == status
}

/// Pause and resume of a drive that plays: the same state where no sense was held.
#[test]
fn pause_then_resume_playing() {
    let playing = quiet_and_loaded().filter(has_status(0x11));
    let same = sent_each(playing, [pause(), resume()], |state| State {
        sense: NONE,
        ..state
    });
    assert!(same.iter().all(|state| state.sense == NONE));
    // Two records, locked or not, and each event.
    assert_eq!(same.len(), 16);
}

/// From paused it plays: never the same state. There resume and pause cancel.
#[test]
fn pause_then_resume_paused() {
    let paused = || quiet_and_loaded().filter(has_status(0x12));
    let same = sent_each(paused(), [pause(), resume()], |state| State {
        sense: NONE,
        play: Play::new(0x11, state.play.position, state.play.end),
        ..state
    });
    assert_eq!(same, []);
    let twin = sent_each(paused(), [resume(), pause()], |state| State {
        sense: NONE,
        ..state
    });
    assert_eq!(twin.len(), 8);
}

/// Under 13h and 15h both fail: 05/24/00 is held, and so it is the same exactly where
/// that was held before.
#[test]
fn pause_then_resume_without_a_play() {
    for (status, due) in [(0x13, 8), (0x15, 32)] {
        let silent = quiet_and_loaded().filter(has_status(status));
        let same = sent_each(silent, [pause(), resume()], |state| State {
            sense: sense::BAD_FIELD,
            ..state
        });
        assert!(same.iter().all(|state| state.sense == sense::BAD_FIELD));
        assert_eq!(same.len(), due);
    }
}

/// Not loaded both fail for want of a disc: the same exactly where that sense was held
/// before. With an attention pending the first is told it: never the same.
#[test]
fn pause_then_resume_not_loaded() {
    let not_loaded = quiet().filter(|state| state.tray_open || !state.disc_in);
    let same = sent_each(not_loaded, [pause(), resume()], |state| State {
        sense: match state.tray_open {
            true => sense::TRAY_OPEN,
            false => sense::NO_MEDIUM,
        },
        ..state
    });
    // Three places, 8 records, locked or not, and each event.
    assert_eq!(same.len(), 3 * 64);
    for state in settings().filter(|state| state.power || state.change) {
        assert_ne!(both_sent(state, [pause(), resume()]), state);
    }
}

/// Packets that are refused, by 1 to 4, change nothing, so any two of them leave the
/// same state.
#[test]
fn refused_packets_change_nothing() {
    let mut refused = [0; 5];
    met_by_packets(16, |state, lent, reply| {
        if let (number @ 1.., _) = both(reply.refusal) {
            assert_eq!(reply.next, state);
            assert_eq!(lent.call(reply.next), reply);
            refused[usize::from(number)] += 1;
        }
    });
    let few = refused[1..].iter().any(|&times| times < 200);
    assert!(!few, "{refused:?}");
}

// ---- the streams

/// Pairs as a stream prints them: the states, in whole.
#[test]
fn pairs_in_a_stream() {
    let mut stream = Stream::new();
    stream.table(&disc_e().bytes());
    stream.memory(6_538, 0);
    let full = State {
        lock: true,
        power: true,
        change: true,
        sense: sense::WRONG_MODE,
        play: Play::new(0x12, 5, 9),
        mode: ModePage::new(0x35, 0x53),
        event: 1,
        ..READY
    };
    for (disc_in, calls) in [
        (false, [Stream::lay, Stream::lift]),
        (true, [Stream::lift, Stream::lay]),
        (true, [Stream::lay, Stream::lift]),
        (true, [Stream::button, Stream::button]),
    ] {
        stream.state(State {
            tray_open: true,
            disc_in,
            ..full
        });
        calls.iter().for_each(|call| call(&mut stream));
    }
    for form in [Stream::power_on, Stream::power_on_without_change] {
        stream.state(full);
        form(&mut stream);
        stream.packet_from(full, &test_ready());
        form(&mut stream);
        stream.packet_from(READY, &start_stop(EJECT));
        form(&mut stream);
    }
    let lines = [
        "d 0 11111 05 64 00 12 5 9 35 53 1",
        "u 0 10111 05 64 00 12 5 9 35 53 1",
        "u 0 10111 05 64 00 12 5 9 35 53 1",
        "d 0 11111 05 64 00 12 5 9 35 53 1",
        "d 6 11111 05 64 00 12 5 9 35 53 1",
        "u 0 10111 05 64 00 12 5 9 35 53 1",
        "b 0 01111 05 64 00 15 0 0 35 53 2",
        "b 5 01111 05 64 00 15 0 0 35 53 1",
        "o 0 01011 00 00 00 15 0 0 00 00 0",
        "p 0 02 0 0 0 01101 06 29 00 12 5 9 35 53 1 - ",
        "o 0 01011 00 00 00 15 0 0 00 00 0",
        "p 0 00 0 0 0 11000 00 00 00 15 0 0 00 00 3 - ",
        "o 0 11010 00 00 00 15 0 0 00 00 0",
        "q 0 01010 00 00 00 15 0 0 00 00 0",
        "p 0 02 0 0 0 01101 06 29 00 12 5 9 35 53 1 - ",
        "q 0 01010 00 00 00 15 0 0 00 00 0",
        "p 0 00 0 0 0 11000 00 00 00 15 0 0 00 00 3 - ",
        "q 0 11010 00 00 00 15 0 0 00 00 0",
    ];
    let printed = replay::run(&stream.bytes);
    assert_eq!(printed.lines().count(), lines.len());
    for (line, due) in printed.lines().zip(lines) {
        assert!(line.starts_with(due), "{line}");
    }
}

/// The state in a body of kind 0 as a line has it.
fn text_of(body: &[u8]) -> String {
    let flags: String = body[..5].iter().map(|flag| flag.to_string()).collect();
    let long = |from: usize| u32::from_be_bytes(body[from..from + 4].try_into().expect("four"));
    let [key, asc, ascq, status] = [5, 6, 7, 8].map(|place| body[place]);
    format!(
        "{flags} {key:02X} {asc:02X} {ascq:02X} {status:02X} {} {} {:02X} {:02X} {}",
        long(9),
        long(13),
        body[17],
        body[18],
        body[19]
    )
}

/// The state in the line of a call on the drive.
fn state_in(line: &str) -> Option<String> {
    let words: Vec<&str> = line.split(' ').collect();
    let from = match words[0] {
        "o" | "q" | "b" | "d" | "u" | "m" | "O" | "Q" | "M" => 2,
        "p" | "P" => 6,
        _ => return None,
    };
    Some(words[from..from + 10].join(" "))
}

/// A call on the drive: its record, its line, and the states before and behind it.
struct Step<'a> {
    kind: u8,
    body: &'a [u8],
    line: String,
    before: String,
    after: String,
    /// Nothing on the drive stands between it and the call before: no state was set.
    at_once: bool,
}

fn steps(stream: &[u8]) -> Vec<Step<'_>> {
    let lines = replay::run(stream);
    let mut lines = lines.lines();
    let (mut rest, mut list) = (stream, Vec::new());
    let mut state = text_of(&[0; replay::STATE_BYTES]);
    let mut at_once = false;
    while let Ok((kind, body, after)) = take_record(rest) {
        rest = after;
        if kind == replay::STATE && body.len() == replay::STATE_BYTES {
            (state, at_once) = (text_of(body), false);
        }
        if !replay::is_call(kind) {
            continue;
        }
        let Some(line) = lines.next() else { break };
        if let Some(after) = state_in(line) {
            list.push(Step {
                kind,
                body,
                line: line.to_string(),
                before: state,
                after: after.clone(),
                at_once,
            });
            (state, at_once) = (after, true);
        }
    }
    list
}

/// The line of a power-on of a drive with this tray and disc, by 01 and K3.
fn power_on_line(kind: u8, place: &str) -> String {
    let (letter, greets) = match kind {
        replay::POWER_ON => ('o', place == "01"),
        _ => ('q', false),
    };
    let change = u8::from(greets);
    format!("{letter} 0 {place}01{change} 00 00 00 15 0 0 00 00 0")
}

const POWER_ONS: [u8; 2] = [replay::POWER_ON, replay::POWER_ON_WITHOUT_CHANGE];

/// By the lines alone: a disc laid and lifted, and lifted and laid, leaves the state
/// that was printed before; a power-on is what tray and disc before the packet or
/// power-on in front of it say, where that packet left them.
#[test]
fn lines_keep_the_laws() {
    let mut met = [0; 4];
    for stream in [stored::stored_stream(), random_stream(80, 20_000)] {
        for pair in steps(&stream.bytes).windows(2) {
            let [first, second] = pair else { continue };
            if !second.at_once {
                continue;
            }
            let went = first.line[2..].starts_with("0 ");
            let place = &first.before[..2];
            match (first.kind, second.kind) {
                (replay::LAY, replay::LIFT) | (replay::LIFT, replay::LAY) if went => {
                    assert_eq!(second.after, first.before);
                    met[usize::from(first.kind == replay::LIFT)] += 1;
                }
                (replay::PACKET, kind) if POWER_ONS.contains(&kind) => {
                    let moved = first.after[..2] != *place;
                    let alone = power_on_line(kind, place);
                    assert_eq!(second.line != alone, moved, "{}", second.line);
                    met[2] += usize::from(!moved);
                }
                (earlier, kind) if [earlier, kind].iter().all(|kind| POWER_ONS.contains(kind)) => {
                    assert_eq!(second.line, power_on_line(kind, place));
                    met[3] += 1;
                }
                _ => {}
            }
        }
    }
    let [laid, lifted, packets, power_ons] = met;
    assert!(
        laid > 60 && lifted > 60 && packets > 600 && power_ons > 80,
        "{met:?}"
    );
}

/// How a packet came out: `0 00`, `0 02`, or the number that refused it.
fn outcome(line: &str) -> String {
    let words: Vec<&str> = line.split(' ').collect();
    match words[1] {
        "0" => words[1..3].join(" "),
        number => number[..1].to_string(),
    }
}

/// The stored stream has, before each form of power-on, every command and an unknown
/// one GOOD, failing and refused by 1 to 4 on a loaded drive, and each in the other
/// places; and the same power-on alone on each of those states.
#[test]
fn stored_stream_has_every_pair() {
    let stored = stored::stored_stream();
    let steps = steps(&stored.bytes);
    let (mut pairs, mut alone) = (BTreeSet::new(), BTreeSet::new());
    for step in steps.iter().filter(|step| !step.at_once) {
        alone.insert((step.kind, step.before.clone()));
    }
    for pair in steps.windows(2) {
        let [first, second] = pair else { continue };
        let known = second.at_once && first.kind == replay::PACKET;
        let beside = alone.contains(&(second.kind, first.before.clone()));
        if known && beside && POWER_ONS.contains(&second.kind) {
            let place = first.before[..2].to_string();
            let code = first.body[0];
            pairs.insert((code, second.kind, place, outcome(&first.line)));
        }
    }
    for code in CODES.into_iter().chain([0x47]) {
        for form in POWER_ONS {
            let has = |place: &str, outcome: &str| {
                pairs.contains(&(code, form, place.to_string(), outcome.to_string()))
            };
            for number in ["1", "2", "3", "4"] {
                assert!(has("01", number), "{code:02X} {number}");
            }
            // 00h, 03h, 1Eh and 25h have no failure of their own on a loaded drive.
            let fails = ![0x00, 0x03, 0x1E, 0x25].contains(&code);
            assert!(has("01", "0 02") || !fails, "{code:02X}");
            assert!(has("01", "0 00") || code == 0x47, "{code:02X}");
            for place in ["00", "10", "11"] {
                assert!(
                    has(place, "0 00") || has(place, "0 02"),
                    "{code:02X} {place}"
                );
            }
        }
    }
    // The tray moved, both ways.
    for form in POWER_ONS {
        for place in ["00", "01", "10", "11"] {
            let moved = steps.windows(2).any(|pair| {
                let moves = pair[0].before.starts_with(place) && pair[0].kind == replay::PACKET;
                let other = pair[0].after[..1] != pair[0].before[..1];
                moves && other && pair[1].at_once && pair[1].kind == form
            });
            assert!(moved, "{place}");
        }
    }
}

/// The picked pairs stand in the stored stream as they are picked.
#[test]
fn picked_pairs_are_stored() {
    let stored = stored::stored_stream().bytes;
    for (maker, calls) in [
        (picked_cancel::laid_and_lifted as fn(&mut Stream), 64),
        (picked_cancel::lifted_and_laid, 64),
        (picked_cancel::one_refused, 12),
        (picked_cancel::button_twice, 168),
    ] {
        let mut stream = Stream::new();
        maker(&mut stream);
        assert_eq!(stream.calls, calls);
        let whole = stored.windows(stream.bytes.len());
        assert_eq!(whole.filter(|part| *part == stream.bytes).count(), 1);
    }
}

/// The streams have the pairs often.
#[test]
fn streams_have_pairs() {
    for stream in [stored::stored_stream(), random_stream(88, 17_000)] {
        let pairs = tally::pairs(&stream.bytes);
        let discs = pairs.laid_and_lifted.min(pairs.lifted_and_laid);
        assert!(discs > 20 && pairs.pressed_twice > 50, "{pairs:?}");
        for behind in pairs.power_ons {
            assert!(behind.still > 100 && behind.power_on > 10, "{pairs:?}");
            assert!(behind.moved > 3, "{pairs:?}");
        }
    }
}

/// What `tally` counts of a small stream, and how it prints it.
#[test]
fn tally_counts_pairs() {
    let mut stream = Stream::new();
    stream.memory(6_538, 0);
    stream.table(&disc_e().bytes());
    // Refused by 2; then the power-on alone, behind none.
    stream.packet(&test_ready());
    stream.power_on();
    stream.power_on_without_change();
    stream.power_on_without_change();
    stream.state(State::EMPTY.opened());
    stream.power_on();
    // Went and taken back, twice over; what is refused begins no pair.
    stream.state(State::EMPTY.opened());
    for call in [Stream::lay, Stream::lift, Stream::lift, Stream::lay] {
        call(&mut stream);
    }
    stream.lift();
    stream.list(&[]);
    stream.lay();
    // A state between, or a call that is not on the drive.
    stream.state(State::EMPTY.opened());
    stream.lift();
    stream.state(State::EMPTY.opened());
    stream.lay();
    stream.to_msf(0);
    stream.lift();
    for _ in 0..3 {
        stream.button();
    }
    for (form, packet) in [
        (Stream::power_on as fn(&mut Stream), start_stop(EJECT)),
        (Stream::power_on_without_change, start_stop(EJECT)),
        (Stream::power_on_without_change, start_stop(0)),
    ] {
        stream.packet_from(READY, &packet);
        form(&mut stream);
    }
    let due = Pairs {
        laid_and_lifted: 2,
        lifted_and_laid: 1,
        pressed_twice: 2,
        power_ons: [
            Behind {
                still: 1,
                moved: 1,
                power_on: 0,
            },
            Behind {
                still: 1,
                moved: 1,
                power_on: 2,
            },
        ],
    };
    assert_eq!(tally::pairs(&stream.bytes), due);
    let tail = "\
pair laid-lifted lifted-laid pressed-twice
pair 2 1 2
behind packet packet-that-moved power-on
behind-o 1 1 0
behind-q 1 1 2
";
    assert!(tally::print(&stream.bytes).contains(tail));
}
