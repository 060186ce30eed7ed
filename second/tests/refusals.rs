//! Every refusal number and the rule that 4 carries (K6), the order of the
//! tests, and what K9 says of the bound.

mod common;

use std::collections::BTreeSet;

use common::{both, good_on, number, number_of, told};
use second::cases::bad::random_stream;
use second::cases::breaks::breaks;
use second::cases::fits::fits;
use second::cases::packets::{
    inquiry, one_of_each, request_sense, start_stop, sub_channel, test_ready, toc, Packet,
};
use second::cases::picked_state::strangers;
use second::cases::several::alone;
use second::cases::sheet::{any_fit, disc_e, fullest, longest, most_tracks, Sheet};
use second::drive::State;
use second::packet::perform;
use second::refusal::Refusal;
use second::rng::Rng;
use second::sense::{self, Sense, TRIPLES};
use second::table::{broken_rule, read, session_part};
use second::toc::{full_answer, TocRequest};
use second::{replay, stored};

const READY: State = State::READY;

#[test]
fn one_wrong_length() {
    let table = disc_e().bytes();
    let long = [0; 40];
    for length in (0..40).filter(|&length| length != 12) {
        assert_eq!(number(READY, &table, &long[..length]), 1);
    }
    assert_eq!(number(READY, &table, &long[..12]), 0);
}

#[test]
fn two_unknown_sense() {
    let table = disc_e().bytes();
    // Some by hand: what `strangers` leaves out hangs on the triples as they are kept.
    let near = [(0, 0, 1), (2, 0x3A, 0), (5, 0x53, 0), (6, 0x29, 1)];
    // Next to K4's three too.
    let next = [(5, 0x1B, 0), (5, 0x26, 1), (6, 0x26, 0), (5, 0x38, 0)];
    let near = near.into_iter().chain(next);
    let near = near.map(|(key, asc, ascq)| Sense::new(key, asc, ascq));
    for held in strangers().into_iter().chain(near) {
        let state = State {
            sense: held,
            ..READY
        };
        for packet in one_of_each() {
            assert_eq!(number(state, &table, &packet), 2);
        }
        for open in [state, state.opened()] {
            assert_eq!(number_of(&open.button()), 2);
            assert_eq!(number_of(&open.lay()), 2);
            assert_eq!(number_of(&open.lift()), 2);
            assert_eq!(open.power_on().sense, sense::NONE);
            assert_eq!(open.power_on_without_change().sense, sense::NONE);
        }
    }
    for held in TRIPLES {
        let state = State {
            sense: held,
            ..READY
        };
        assert_eq!(number(state, &table, &test_ready()), 0);
    }
}

#[test]
fn three_small_memory() {
    let table = disc_e().bytes();
    for packet in one_of_each() {
        for (length, due) in [
            (0, 3),
            (4_360, 3),
            (6_537, 3),
            (6_538, 0),
            (6_539, 0),
            (8_191, 0),
        ] {
            let mut memory = vec![7; length];
            let reply = perform(READY, &table, &[], &packet, &mut memory);
            assert_eq!(reply.refusal.map_or(0, Refusal::number), due);
        }
    }
}

#[test]
fn four_unfit_table_only_while_loaded() {
    for broken in breaks() {
        for packet in [test_ready(), inquiry(36), start_stop(2)] {
            assert_eq!(number(READY, &broken.table, &packet), 4);
            assert_eq!(number(READY.power_on(), &broken.table, &packet), 4);
            assert_eq!(number(State::EMPTY, &broken.table, &packet), 0);
            assert_eq!(number(READY.opened(), &broken.table, &packet), 0);
        }
    }
}

/// K6: "Refusal 4 carries that number to every caller": to each packet and to
/// the session part, whatever the number asked for.
#[test]
fn four_carries_the_rule() {
    for broken in breaks() {
        let due = (4, broken.rule);
        for packet in one_of_each() {
            assert_eq!(told(READY, &broken.table, &packet), due, "{}", broken.name);
        }
        for session in [0, 1, 2, 99, 255] {
            let refused = session_part(&broken.table, session).err();
            assert_eq!(both(refused), due, "{}", broken.name);
        }
        assert_eq!(broken_rule(&broken.table), broken.rule);
    }
}

/// K6: "or 0 for fit", and no rule with 1, 2, 3, 10 or where nothing is refused,
/// though the table breaks one.
#[test]
fn only_four_carries_a_rule() {
    let stranger = State {
        sense: Sense::new(0, 0, 1),
        ..READY
    };
    let packet = test_ready();
    for rule in 1..=7 {
        let table = alone(rule);
        assert_eq!(told(READY, &table, &packet), (4, rule));
        assert_eq!(told(READY, &table, &packet[..11]), (1, 0));
        assert_eq!(told(stranger, &table, &packet), (2, 0));
        let short = perform(READY, &table, &[], &packet, &mut [0; 6_537]);
        assert_eq!(both(short.refusal), (3, 0));
        assert_eq!(told(State::EMPTY, &table, &packet), (0, 0));
    }
    let fit = disc_e().bytes();
    assert_eq!(broken_rule(&fit), 0);
    assert_eq!(told(READY, &fit, &packet), (0, 0));
    assert_eq!(both(session_part(&fit, 1).err()), (0, 0));
    assert_eq!(both(session_part(&fit, 0).err()), (10, 0));
}

/// K6: the rule is that of the table of this call, not of an earlier one.
#[test]
fn each_call_tells_its_own_rule() {
    let fit = disc_e().bytes();
    let tables: Vec<Vec<u8>> = [fit].into_iter().chain((1..=7).map(alone)).collect();
    for before in &tables {
        for (after, rule) in tables.iter().zip(0..) {
            let due = if rule == 0 { (0, 0) } else { (4, rule) };
            told(READY, before, &test_ready());
            assert_eq!(told(READY, after, &test_ready()), due);
            let _ = session_part(before, 1);
            assert_eq!(both(session_part(after, 1).err()), due);
        }
    }
}

#[test]
fn one_to_four_in_order() {
    let (fit, unfit) = (disc_e().bytes(), vec![0; 4]);
    for n in 0..16 {
        let table = if n & 8 != 0 { &unfit } else { &fit };
        let mut memory = vec![0; if n & 4 != 0 { 6_537 } else { 6_538 }];
        let state = State {
            sense: Sense::new(0, 0, n as u8 / 2 % 2),
            ..READY
        };
        let packet = vec![0; if n & 1 != 0 { 13 } else { 12 }];
        let reply = perform(state, table, &[], &packet, &mut memory);
        let due = (0..4)
            .find(|bit| n & 1 << bit != 0)
            .map_or(0, |bit| bit + 1);
        assert_eq!(reply.refusal.map_or(0, Refusal::number), due);
    }
}

#[test]
fn five_six_seven_tray() {
    let empty = State::EMPTY;
    for state in [empty, READY, empty.opened(), READY.opened()] {
        let (open, disc) = (state.tray_open, state.disc_in);
        for lock in [false, true] {
            let state = State { lock, ..state };
            let laid = State {
                disc_in: true,
                ..state
            };
            let lifted = State {
                disc_in: false,
                ..state
            };
            assert_eq!(
                number_of(&state.button()),
                if lock && !open { 5 } else { 0 }
            );
            assert_eq!(state.lay().ok(), (open && !disc).then_some(laid));
            assert_eq!(state.lift().ok(), (open && disc).then_some(lifted));
            assert!([0, 6].contains(&number_of(&state.lay())));
            assert!([0, 7].contains(&number_of(&state.lift())));
        }
    }
}

/// K9: "Other numbers stay." 8 and 10 are met in `marked` and `rules`, K11's in `changers`,
/// K12's in `sheets`, K14's in `transfers`.
#[test]
fn numbers_in_use() {
    let all = [
        Refusal::PacketLength,
        Refusal::UnsoundState,
        Refusal::SmallMemory,
        Refusal::UnfitTable(1),
        Refusal::Locked,
        Refusal::CannotLay,
        Refusal::CannotLift,
        Refusal::BadAddress,
        Refusal::NoSession,
        Refusal::Changer,
        Refusal::SheetLength,
        Refusal::UnfitSheet,
        Refusal::SmallOutput,
        Refusal::OutOfTurn,
    ];
    let numbers = [1, 2, 3, 4, 5, 6, 7, 8, 10, 11, 12, 13, 14, 15];
    assert_eq!(all.map(Refusal::number), numbers);
    let met: BTreeSet<u8> = given().into_iter().map(|(_, number)| number).collect();
    assert_eq!(met, (0..=8).chain(10..=15).collect());
}

/// "Packets test 1, 2, 3, 4, then the steps below", and K9: nothing more.
#[test]
fn packets_give_0_to_4() {
    let packets = given().into_iter().filter(|(letter, _)| letter == "p");
    let met: Vec<u8> = packets.map(|(_, number)| number).collect();
    assert_eq!(met, [0, 1, 2, 3, 4]);
}

/// The numbers given in the stored stream and a drawn one, each with the letter
/// of its line; K6: behind a 4, and only there, stands a rule of 1 to 7.
fn given() -> BTreeSet<(String, u8)> {
    let streams = [stored::stored_stream(), random_stream(9, 20_000)];
    let mut given = BTreeSet::new();
    for lines in streams.map(|stream| replay::run(&stream.bytes)) {
        for line in lines.lines().filter(|&line| line != "bad record") {
            let mut words = line.split(' ');
            let letter = words.next().expect("a letter").to_string();
            let word = words.next().expect("a number");
            // A shelf's totals (K13) are no numbers of refusal.
            if letter == "h" {
                continue;
            }
            let (number, rule) = word.split_once('.').unwrap_or((word, "0"));
            let number: u8 = number.parse().expect("digits");
            let rules = if number == 4 { 1..=7 } else { 0..=0 };
            assert!(rules.contains(&rule.parse().expect("digits")), "{line}");
            given.insert((letter, number));
        }
    }
    given
}

/// One packet of each, then those with an allocation length at its greatest,
/// with the most bytes that each may give: under that length, so nothing is cut.
fn whole_answers() -> Vec<(Packet, usize)> {
    let mut list: Vec<(Packet, usize)> = one_of_each().into_iter().map(|p| (p, 6_538)).collect();
    list.extend([(request_sense(255), 254), (inquiry(255), 254)]);
    for msf in [false, true] {
        list.push((sub_channel(msf, true, 1, u16::MAX), 16));
        list.push((sub_channel(msf, false, 1, u16::MAX), 4));
    }
    for number in 0..=255 {
        for format in 0..4 {
            list.push((toc(false, format, number, u16::MAX), 6_538));
            list.push((toc(true, format, number, u16::MAX), 6_538));
        }
    }
    list
}

/// K9: "with a fit table no full answer passes K1's bound", nor does one where
/// the drive is not loaded.
#[test]
fn no_answer_passes_the_bound() {
    let mut rng = Rng::new(9);
    let picked = fits().into_iter().map(|(_, sheet)| (READY, sheet.bytes()));
    let drawn: Vec<Sheet> = (0..30).map(|_| any_fit(&mut rng)).collect();
    let drawn = drawn.iter().map(|sheet| (READY, sheet.bytes()));
    let unloaded = [State::EMPTY, State::EMPTY.opened(), READY.opened()];
    let unloaded = unloaded.map(|state| (state, fullest().bytes()));
    let packets = whole_answers();
    let mut memory = vec![0; 8_191];
    for (state, table) in picked.chain(drawn).chain(unloaded) {
        for (packet, most) in &packets {
            let reply = perform(state, &table, &[], packet, &mut memory);
            assert_eq!(reply.refusal, None);
            assert!(reply.length <= *most, "{packet:02X?}");
        }
    }
}

/// K1's "6,538 bytes (594 descriptors)": format 2 gives such a table back.
#[test]
fn the_bound_is_reached() {
    let mut rng = Rng::new(594);
    for sheet in [fullest(), longest(&mut rng), longest(&mut rng)] {
        let table = sheet.bytes();
        assert_eq!((sheet.rows.len(), table.len()), (594, 6_538));
        for number in [0, 1] {
            for msf in [false, true] {
                let packet = toc(msf, 2, number, u16::MAX);
                assert_eq!(good_on(&table, &packet), table);
            }
        }
    }
}

/// K9: "so refusal 3 covers it": where 3 is not given, the allocation length
/// alone cuts an answer, and how much longer the memory is changes nothing.
#[test]
fn memory_holds_every_answer() {
    for sheet in [disc_e(), most_tracks(), fullest()] {
        let table = sheet.bytes();
        let disc = read(&table).expect("fit");
        for (format, number) in [(0, 0), (0, 0xAA), (1, 0), (2, 0), (2, 1)] {
            let request = TocRequest {
                msf: true,
                format,
                number,
            };
            let full = full_answer(&disc, request).expect("GOOD");
            for length in [0, 4, 804, 4_360, 6_537, 6_538, 6_539, 65_535] {
                let due = &full[..full.len().min(usize::from(length))];
                for size in [6_538, 6_539, 8_191, 70_000] {
                    let mut memory = vec![0xEE; size];
                    let packet = toc(true, format, number, length);
                    let reply = perform(READY, &table, &[], &packet, &mut memory);
                    assert_eq!((reply.refusal, reply.length), (None, due.len()));
                    let mut whole = due.to_vec();
                    whole.resize(size, 0xEE);
                    assert!(memory == whole, "{size} {length}");
                }
            }
        }
    }
}
