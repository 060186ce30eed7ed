//! K11: "The changer." LOAD/UNLOAD and MECHANISM STATUS, what they move and leave, the
//! slots and homes that 11 refuses, what is the first device's, what a run keeps to, and
//! that the streams have all of it often.

mod common;

use std::collections::BTreeSet;

use common::{both, on_with};
use second::cases::bad::random_stream;
use second::cases::packets::*;
use second::cases::picked_changer::slots;
use second::cases::picked_state::all_flags;
use second::cases::several::alone;
use second::cases::sheet::{any_fit, disc_e, small_fit, two_sessions};
use second::cases::stream::Stream;
use second::cases::{picked_changer, picked_changer_state, picked_changer_status};
use second::changer::{self, obstacle, Answer, Changer, Obstacle, Slot};
use second::drive::State;
use second::limits::BOUND;
use second::mode_page::{ModePage, SETTINGS};
use second::packet::Reply;
use second::play::{Play, PLAYING, STATUSES};
use second::refusal::Refusal;
use second::replay::{self, take_record};
use second::rng::Rng;
use second::sense::{Sense, TRIPLES};
use second::stored;
use second::table::read;
use second::tally::{self, Changes};

const READY: State = State::READY;
const EMPTY: State = State::EMPTY;

const NONE: Sense = Sense::new(0, 0, 0);
const NO_MEDIUM: Sense = Sense::new(2, 0x3A, 1);
const UNKNOWN_CODE: Sense = Sense::new(5, 0x20, 0);
const BAD_FIELD: Sense = Sense::new(5, 0x24, 0);
const PREVENTED: Sense = Sense::new(5, 0x53, 2);
const CHANGED: Sense = Sense::new(6, 0x28, 0);
const POWERED_ON: Sense = Sense::new(6, 0x29, 0);

/// A disc, a changed disc, an empty slot, and an empty one that is marked changed.
const KINDS: [u8; 4] = [0x80, 0x81, 0x00, 0x01];

/// A changer with all that is lent to it: Table E, no list, a memory of EEh.
#[derive(Clone, Debug, PartialEq)]
struct Rig {
    drive: State,
    home: u8,
    slots: Vec<Slot>,
    table: Vec<u8>,
    list: Vec<u8>,
    memory: Vec<u8>,
}

impl Rig {
    fn new(drive: State, home: u8, bytes: &[u8]) -> Rig {
        Rig {
            drive,
            home,
            slots: slots(bytes),
            table: disc_e().bytes(),
            list: Vec::new(),
            memory: vec![0xEE; BOUND],
        }
    }

    fn changer(&self) -> Changer {
        Changer {
            drive: self.drive,
            home: self.home,
        }
    }

    fn packet(&mut self, packet: &[u8]) -> Reply {
        let changer = self.changer();
        let Answer { reply, home } = changer::perform(
            changer,
            &self.table,
            &self.list,
            packet,
            &mut self.memory,
            &mut self.slots,
        );
        (self.drive, self.home) = (reply.next, home);
        reply
    }

    /// The bytes of a GOOD packet; nothing past them is written.
    fn good(&mut self, packet: &[u8]) -> Vec<u8> {
        let before = self.memory.clone();
        let reply = self.packet(packet);
        assert_eq!((reply.refusal, reply.status), (None, 0), "{packet:02X?}");
        assert_eq!((reply.start, reply.count), (0, 0));
        assert_eq!(self.memory[reply.length..], before[reply.length..]);
        self.memory[..reply.length].to_vec()
    }

    /// The sense of a CHECK CONDITION, which changes nothing but it and what it tells.
    fn check(&mut self, packet: &[u8]) -> Sense {
        let before = self.clone();
        let reply = self.packet(packet);
        assert_eq!((reply.refusal, reply.status), (None, 2), "{packet:02X?}");
        assert_eq!((reply.length, reply.start, reply.count), (0, 0, 0));
        let held = self.drive.sense;
        let drive = State {
            sense: held,
            power: before.drive.power && held != POWERED_ON,
            change: before.drive.change && held != CHANGED,
            ..before.drive
        };
        assert_eq!(*self, Rig { drive, ..before }, "{packet:02X?}");
        held
    }

    /// The number and the rule of a refusal, which changes nothing; zeros for none.
    fn refused(&mut self, packet: &[u8]) -> (u8, u8) {
        let before = self.clone();
        let reply = self.packet(packet);
        if reply.refusal.is_some() {
            assert_eq!((reply.status, reply.length), (0, 0));
            assert_eq!((reply.start, reply.count), (0, 0));
            assert_eq!(*self, before, "{packet:02X?}");
        }
        both(reply.refusal)
    }

    fn bytes(&self) -> Vec<u8> {
        self.slots.iter().map(|slot| slot.byte()).collect()
    }

    /// Home and slots as they stand.
    fn place(&self) -> (u8, Vec<u8>) {
        (self.home, self.bytes())
    }

    /// Discs in the slots and in the drive.
    fn discs(&self) -> usize {
        let present = self.slots.iter().filter(|slot| slot.present).count();
        present + usize::from(self.drive.disc_in)
    }
}

fn locked(drive: State) -> State {
    State {
        lock: true,
        ..drive
    }
}

fn pending(drive: State, power: bool, change: bool) -> State {
    State {
        power,
        change,
        ..drive
    }
}

fn ajar(drive: State) -> State {
    State {
        tray_open: true,
        ..drive
    }
}

/// Everything but tray, disc and attentions holds something.
fn full(drive: State) -> State {
    State {
        sense: BAD_FIELD,
        play: Play::new(PLAYING, 160, 290),
        mode: ModePage::new(0x35, 0x53),
        event: 1,
        ..drive
    }
}

// LOAD/UNLOAD: the packet.

/// Byte 4 bit 1 LoUnlo, bit 0 Start; its other bits are not looked at.
#[test]
fn pair_by_two_bits() {
    for byte_4 in 0..=255u8 {
        let mut rig = Rig::new(READY, 2, &KINDS);
        let packet = load_unload(byte_4, 0);
        match byte_4 & 3 {
            3 => {
                assert_eq!(rig.good(&packet), []);
                assert_eq!(rig.place(), (0, vec![0x00, 0x81, 0x80, 0x01]));
            }
            2 => {
                assert_eq!(rig.good(&packet), []);
                assert_eq!(rig.place(), (0, vec![0x80, 0x81, 0x80, 0x01]));
            }
            // "other pairs are 05/24/00"
            _ => assert_eq!(rig.check(&packet), BAD_FIELD),
        }
    }
}

/// "A slot beyond the last (counted from 0, tested in Unload too) is 05/24/00": the whole
/// of byte 8.
#[test]
fn slot_in_byte_eight() {
    for count in [1, 2, 7, 16, 30, 31] {
        for slot in 0..=255u8 {
            for low_bits in [2, 3] {
                let mut rig = Rig::new(EMPTY, 5, &vec![0x81; count]);
                let packet = load_unload(low_bits, slot);
                if usize::from(slot) >= count {
                    assert_eq!(rig.check(&packet), BAD_FIELD);
                    continue;
                }
                rig.good(&packet);
                let taken = low_bits == 3;
                assert_eq!(rig.drive.disc_in, taken);
                assert_eq!(rig.home, if taken { slot } else { 5 });
                assert_eq!(rig.bytes()[usize::from(slot)] == 0x00, taken);
            }
        }
    }
}

/// "Bits of a packet that no rule names are not looked at", Immed among them.
#[test]
fn unnamed_bits_not_looked_at() {
    let mut rng = Rng::new(110);
    for packet in [load(0), load(2), load(3), unload(), mechanism_status(13)] {
        for _ in 0..40 {
            let mut plain = Rig::new(full(READY), 2, &KINDS);
            let mut junk = plain.clone();
            plain.packet(&packet);
            junk.packet(&with_junk(&mut rng, packet));
            assert_eq!(plain, junk);
        }
    }
}

// LOAD/UNLOAD: what it moves.

/// "takes the named slot's: present and changed go to 0 there".
#[test]
fn load_takes_the_named_disc() {
    for mark in [0x80, 0x81] {
        let mut rig = Rig::new(EMPTY, 0, &[0x81, mark, 0x01]);
        assert_eq!(rig.good(&load(1)), []);
        assert_eq!(rig.place(), (1, vec![0x81, 0x00, 0x01]));
        assert!(rig.drive.disc_in && !rig.drive.tray_open);
    }
}

/// "first returns the drive's disc to its home (present 1, changed kept; the state's home
/// 0), then takes the named slot's".
#[test]
fn load_returns_first() {
    for (mark, back) in [(0x00, 0x80), (0x01, 0x81)] {
        let mut rig = Rig::new(READY, 3, &[0x80, 0x81, 0x00, mark]);
        rig.good(&load(1));
        assert_eq!(rig.place(), (1, vec![0x80, 0x00, 0x00, back]));
        assert!(rig.drive.disc_in);
    }
}

/// Of the home slot: "returned, then taken: a loading, changed goes to 0".
#[test]
fn load_of_the_home_slot() {
    for mark in [0x00, 0x01] {
        let mut rig = Rig::new(full(READY), 1, &[0x81, mark, 0x81]);
        rig.good(&load(1));
        assert_eq!(rig.place(), (1, vec![0x81, 0x00, 0x81]));
        assert!(rig.drive.disc_in && rig.drive.change);
        assert_eq!((rig.drive.play, rig.drive.event), (Play::NONE, 2));
    }
}

/// "From an empty slot, which stays as it was, it leaves an empty closed drive and is no
/// loading": GOOD, the drive's disc returned all the same.
#[test]
fn load_from_an_empty_slot() {
    for mark in [0x00, 0x01] {
        let mut rig = Rig::new(READY, 0, &[0x00, mark]);
        assert_eq!(rig.good(&load(1)), []);
        assert_eq!(rig.place(), (0, vec![0x80, mark]));
        assert_eq!(rig.drive, State { event: 3, ..EMPTY });
        // With no disc in the drive nothing is moved at all.
        let mut rig = Rig::new(full(EMPTY), 9, &[0x80, mark]);
        let before = rig.clone();
        rig.good(&load(1));
        let drive = State {
            sense: NONE,
            ..before.drive
        };
        assert_eq!(rig, Rig { drive, ..before });
    }
}

/// "Unload (1,0) only returns the disc", whatever slot there is it names.
#[test]
fn unload_only_returns() {
    for slot in 0..4 {
        let mut rig = Rig::new(READY, 3, &KINDS);
        assert_eq!(rig.good(&load_unload(2, slot)), []);
        assert_eq!(rig.place(), (0, vec![0x80, 0x81, 0x00, 0x81]));
        assert_eq!(rig.drive, State { event: 3, ..EMPTY });
    }
}

/// U3: with no disc in the drive "GOOD, nothing moves", and it is no opening.
#[test]
fn unload_of_an_empty_drive() {
    let mut rig = Rig::new(full(EMPTY), 7, &KINDS);
    let before = rig.clone();
    rig.good(&unload());
    let drive = State {
        sense: NONE,
        ..before.drive
    };
    assert_eq!(rig, Rig { drive, ..before });
}

/// "With no disc in the drive the state's home is looked at by nothing and left as it is
/// by a packet that takes none": any byte.
#[test]
fn home_left_without_a_disc() {
    for home in 0..=255 {
        let mut rig = Rig::new(EMPTY, home, &KINDS);
        for packet in [unload(), load(2), mechanism_status(24), prevent(0)] {
            rig.good(&packet);
            assert_eq!(rig.place(), (home, KINDS.to_vec()));
        }
        assert_eq!(rig.check(&test_ready()), NO_MEDIUM);
        assert_eq!(rig.check(&load(4)), BAD_FIELD);
        rig.good(&load(1));
        assert_eq!(rig.home, 1);
    }
}

/// "A return is an opening with a disc for K2 and K7": the record is reset and the event
/// 3; the tray stays closed.
#[test]
fn return_is_an_opening() {
    for event in 0..4 {
        for packet in [unload(), load(2), load(3)] {
            let drive = State {
                event,
                ..full(READY)
            };
            let mut rig = Rig::new(drive, 2, &[0x80, 0x81, 0x00, 0x01]);
            rig.good(&packet);
            let takes = packet == load(2);
            let due = State {
                disc_in: takes,
                change: takes,
                sense: NONE,
                play: Play::NONE,
                event: if takes { 2 } else { 3 },
                ..drive
            };
            assert_eq!(rig.drive, due);
        }
    }
}

/// A take "is a loading for demand 3", in every respect: attention, record, event 2. So
/// too behind a return.
#[test]
fn take_is_a_loading() {
    for event in 0..4 {
        for drive in [READY, EMPTY] {
            let drive = State {
                event,
                ..full(drive)
            };
            let mut rig = Rig::new(drive, 2, &KINDS);
            rig.good(&load(1));
            let due = State {
                disc_in: true,
                change: true,
                sense: NONE,
                play: Play::NONE,
                event: 2,
                ..drive
            };
            assert_eq!(rig.drive, due);
            assert_eq!(rig.check(&test_ready()), CHANGED);
            assert_eq!(rig.good(&test_ready()), []);
        }
    }
}

/// What 4Ah tells behind a move: event and disc, the tray never open (U13).
#[test]
fn event_told_behind_a_move() {
    let poll = event_status(0x10, 8);
    for (drive, packet, told) in [
        (READY, load(0), [2, 2]),
        (READY, unload(), [3, 0]),
        (READY, load(3), [3, 0]),
        (EMPTY, load(0), [2, 2]),
        (EMPTY, load(3), [0, 0]),
        (EMPTY, unload(), [0, 0]),
    ] {
        let mut rig = Rig::new(drive, 2, &KINDS);
        rig.good(&packet);
        assert_eq!(rig.good(&poll)[4..6], told, "{packet:02X?}");
        assert_eq!(rig.drive.event, 0);
    }
}

/// No move changes the mode page or the lock.
#[test]
fn page_and_lock_stay() {
    for packet in [load(0), load(2), load(3), unload()] {
        for drive in [READY, EMPTY] {
            let mut rig = Rig::new(full(drive), 2, &KINDS);
            rig.good(&packet);
            assert_eq!(rig.drive.mode, ModePage::new(0x35, 0x53));
            assert!(!rig.drive.lock && !rig.drive.power);
        }
    }
}

/// "a locked drive 05/53/02, pair and slot first": also where nothing would move.
#[test]
fn lock_behind_pair_and_slot() {
    for drive in [READY, EMPTY] {
        for low_bits in 0..4 {
            for slot in 0..=5 {
                let mut rig = Rig::new(locked(drive), 2, &KINDS);
                let wrong = low_bits < 2 || slot > 3;
                let due = if wrong { BAD_FIELD } else { PREVENTED };
                assert_eq!(rig.check(&load_unload(low_bits, slot)), due);
            }
        }
        let mut rig = Rig::new(drive, 2, &KINDS);
        rig.good(&prevent(1));
        assert_eq!(rig.check(&unload()), PREVENTED);
        rig.good(&prevent(0));
        rig.good(&unload());
    }
}

/// A GOOD move clears a held sense, a fault replaces it: each of the thirteen.
#[test]
fn moves_and_the_sense() {
    for held in TRIPLES {
        for drive in [READY, EMPTY] {
            let drive = State {
                sense: held,
                ..drive
            };
            for packet in [load(0), load(3), unload(), mechanism_status(0)] {
                let mut rig = Rig::new(drive, 2, &KINDS);
                rig.good(&packet);
                assert_eq!(rig.drive.sense, NONE);
            }
            let mut rig = Rig::new(drive, 2, &KINDS);
            assert_eq!(rig.check(&load(4)), BAD_FIELD);
        }
    }
}

// MECHANISM STATUS.

/// "the header of 000 (no fault, ready, home slot or 0, byte 1 zero, address 0, slots,
/// table length) and 4 bytes a slot, present bit 7 and changed bit 0 of the first".
#[test]
fn status_byte_by_byte() {
    let mut rig = Rig::new(READY, 2, &KINDS);
    let due = [
        0x02, 0, 0, 0, 0, 0x04, 0x00, 0x10, 0x80, 0, 0, 0, 0x81, 0, 0, 0, 0, 0, 0, 0, 0x01, 0, 0, 0,
    ];
    assert_eq!(rig.good(&mechanism_status(0xFFFF)), due);
    rig.drive.disc_in = false;
    rig.slots.truncate(1);
    let due = [0, 0, 0, 0, 0, 1, 0, 4, 0x80, 0, 0, 0];
    assert_eq!(rig.good(&mechanism_status(12)), due);
}

/// Number of slots in byte 5, 4 for each in bytes 6 and 7: up to 31, 132 bytes in all.
#[test]
fn status_of_every_count() {
    for count in 1..=31u8 {
        let bytes: Vec<u8> = (0..count)
            .map(|slot| KINDS[usize::from(slot) % 4])
            .collect();
        let mut rig = Rig::new(EMPTY, 200, &bytes);
        let answer = rig.good(&mechanism_status(0xFFFF));
        assert_eq!(answer[..8], [0, 0, 0, 0, 0, count, 0, 4 * count]);
        let tables: Vec<[u8; 4]> = bytes.iter().map(|&slot| [slot, 0, 0, 0]).collect();
        assert_eq!(answer[8..], *tables.as_flattened());
    }
}

/// Byte 0 is the home of the disc in the drive, and 0 with none, "whatever the state's
/// home".
#[test]
fn status_home_or_0() {
    for home in 0..31 {
        let mut rig = Rig::new(READY, home, &[0x00; 31]);
        assert_eq!(rig.good(&mechanism_status(1)), [home]);
    }
    for home in 0..=255 {
        let mut rig = Rig::new(EMPTY, home, &KINDS);
        assert_eq!(rig.good(&mechanism_status(1)), [0]);
    }
}

/// The length stands in bytes 8 and 9; "a short length cuts", and no length inside.
#[test]
fn status_cut() {
    let mut rig = Rig::new(READY, 2, &KINDS);
    let whole = rig.good(&mechanism_status(24));
    assert_eq!(whole.len(), 24);
    for length in 0..40 {
        let n = usize::from(length).min(24);
        assert_eq!(rig.good(&mechanism_status(length)), whole[..n]);
    }
    for length in [0x0100, 0x0800, 0xFF00, 0xFFFF] {
        assert_eq!(rig.good(&mechanism_status(length)), whole);
    }
    let mut elsewhere = mechanism_status(0);
    elsewhere[7] = 24;
    assert_eq!(rig.good(&elsewhere), []);
    elsewhere[10] = 24;
    assert_eq!(rig.good(&elsewhere), []);
}

/// "it clears nothing": all but the sense is as it was, with a disc or without, locked,
/// playing, with an event.
#[test]
fn status_changes_the_sense_alone() {
    for drive in [full(READY), full(EMPTY), locked(full(READY))] {
        let mut rig = Rig::new(drive, 2, &KINDS);
        let answer = rig.good(&mechanism_status(24));
        assert_eq!(answer[1..8], [0, 0, 0, 0, 4, 0, 16]);
        assert_eq!(rig.place(), (2, KINDS.to_vec()));
        assert_eq!(
            rig.drive,
            State {
                sense: NONE,
                ..drive
            }
        );
    }
}

// The gate, 1Bh, and what is the first device's.

/// A6h, BDh and 1Bh with LoEj 1 "meet the gate": told first, power before change, whatever
/// is wrong with them; nothing moves.
#[test]
fn told_first() {
    for packet in [
        load(0),
        unload(),
        load(200),
        load_unload(0, 0),
        mechanism_status(24),
        start_stop(EJECT),
        start_stop(LOAD),
    ] {
        for drive in [READY, EMPTY, locked(READY)] {
            let mut rig = Rig::new(pending(drive, true, true), 2, &KINDS);
            assert_eq!(rig.check(&packet), POWERED_ON);
            assert_eq!(rig.check(&packet), CHANGED);
            assert_ne!(rig.packet(&packet).next.sense.key, 6);
        }
    }
}

/// They "need no disc": on an empty drive none of them is 02/3A/01.
#[test]
fn own_commands_need_no_disc() {
    let mut rig = Rig::new(EMPTY, 0, &[0x00]);
    assert_eq!(rig.good(&unload()), []);
    assert_eq!(rig.good(&load(0)), []);
    assert_eq!(rig.good(&mechanism_status(6)), [0, 0, 0, 0, 0, 1]);
    assert_eq!(rig.check(&start_stop(EJECT)), BAD_FIELD);
    assert_eq!(rig.check(&test_ready()), NO_MEDIUM);
}

/// "The changer has no tray calls; its 1Bh with LoEj 1 is 05/24/00", locked or not; with
/// LoEj 0 it is the first device's.
#[test]
fn no_tray_calls() {
    for byte_4 in 0..=255u8 {
        for drive in [READY, EMPTY, locked(READY)] {
            let mut rig = Rig::new(drive, 2, &KINDS);
            let packet = start_stop(byte_4);
            match (byte_4 & 3, drive.disc_in) {
                (2 | 3, _) => assert_eq!(rig.check(&packet), BAD_FIELD),
                (1, false) => assert_eq!(rig.check(&packet), NO_MEDIUM),
                _ => assert_eq!(rig.good(&packet), []),
            }
        }
    }
}

/// "On the first device A6h and BDh stay unknown."
#[test]
fn unknown_on_the_first_device() {
    for packet in [load(0), unload(), mechanism_status(24), plain(0xA6)] {
        for drive in [READY, EMPTY, READY.opened()] {
            let (reply, _) = on_with(drive, &disc_e().bytes(), &[], &packet);
            assert_eq!((reply.status, reply.next.sense), (2, UNKNOWN_CODE));
        }
    }
}

/// Whether a packet is one of the changer's own.
fn is_own(packet: &[u8]) -> bool {
    match packet[0] {
        0xA6 | 0xBD => true,
        0x1B => packet[4] & 2 != 0,
        _ => false,
    }
}

/// A rig that 11 does not refuse, its drive any closed one that 2 does not.
fn any_rig(rng: &mut Rng) -> Rig {
    let count = rng.pick(&[1, 2, 3, 5, 8, 31]);
    let bytes: Vec<u8> = (0..count).map(|_| rng.pick(&KINDS)).collect();
    let home = rng.below(count) as u8;
    let drive = State {
        disc_in: rng.below(3) > 0,
        lock: rng.one_in(6),
        power: rng.one_in(8),
        change: rng.one_in(8),
        sense: rng.pick(&TRIPLES),
        play: Play::new(rng.pick(&STATUSES), 150, 150 + rng.below(140) as u32),
        mode: ModePage::new(rng.pick(&SETTINGS), rng.byte()),
        event: rng.below(4) as u8,
        ..EMPTY
    };
    let mut rig = Rig::new(drive, home, &bytes);
    rig.slots[usize::from(home)].present &= !drive.disc_in;
    rig
}

fn any_changer_packet(rng: &mut Rng, marks: &Marks, count: usize) -> Packet {
    let slot = rng.below(count + 2) as u8;
    match rng.below(8) {
        0..=2 => load(slot),
        3 => load_unload(rng.byte() & 3, slot),
        4 => mechanism_status(rng.below(4 * count + 12) as u16),
        5 => rng.pick(&one_of_each()),
        _ => any_packet(rng, marks),
    }
}

/// "Everything else is the first device's": the same reply and memory from the same state,
/// over drawn states and packets; home and slots stay.
#[test]
fn other_packets_are_the_first_devices() {
    let (mut rng, marks) = (Rng::new(111), Marks::of(None));
    let mut met = BTreeSet::new();
    for _ in 0..20_000 {
        let mut rig = any_rig(&mut rng);
        rig.list = any_list(&mut rng);
        let packet = any_packet(&mut rng, &marks);
        if is_own(&packet) {
            continue;
        }
        let place = rig.place();
        let (due, memory) = on_with(rig.drive, &rig.table, &rig.list, &packet);
        assert_eq!(rig.packet(&packet), due, "{packet:02X?}");
        assert_eq!((&rig.memory, rig.place()), (&memory, place));
        met.insert((packet[0], due.status));
    }
    for code in CODES {
        assert!(met.contains(&(code, 0)), "{code:02X}");
    }
}

/// Of the 256 codes A6h, BDh and 1Bh alone are not as on the first device.
#[test]
fn every_other_code_alike() {
    for code in 0..=255 {
        for fill in [0x00, 0x02, 0x03] {
            let mut packet = [fill; 12];
            packet[0] = code;
            for drive in [READY, EMPTY, full(READY)] {
                let mut rig = Rig::new(drive, 2, &KINDS);
                let (first, _) = on_with(drive, &rig.table, &[], &packet);
                let alike = rig.packet(&packet) == first;
                assert_eq!(alike, !is_own(&packet), "{packet:02X?}");
            }
        }
    }
}

/// "INQUIRY gives the same 36 bytes", and 4Ah's status is of the drive alone.
#[test]
fn inquiry_is_the_same() {
    let mut rig = Rig::new(EMPTY, 0, &KINDS);
    assert_eq!(
        rig.good(&inquiry(36))[8..],
        *b"LECTERN PACKET TARGET   0100"
    );
    assert_eq!(rig.good(&event_status(0x10, 6))[4..], [0, 0]);
    rig.good(&load(0));
    assert_eq!(rig.good(&event_status(0x10, 6))[4..], [2, 2]);
}

// Refusals.

/// "11 .. for no slots, more than 31": 1 and 31 are not refused.
#[test]
fn eleven_by_the_number_of_slots() {
    for count in 0..=255 {
        for drive in [READY, EMPTY] {
            for packet in [load(0), mechanism_status(8), test_ready(), inquiry(5)] {
                let mut rig = Rig::new(drive, 0, &vec![0x00; count]);
                let due = if (1..=31).contains(&count) { 0 } else { 11 };
                assert_eq!(rig.refused(&packet), (due, 0));
            }
        }
    }
}

/// "an open tray", with a disc in it or not, whatever the packet.
#[test]
fn eleven_by_an_open_tray() {
    for flags in all_flags() {
        let mut rig = Rig::new(flags, 2, &KINDS);
        let due = if flags.tray_open { 11 } else { 0 };
        assert_eq!(rig.refused(&mechanism_status(8)), (due, 0));
    }
    for packet in one_of_each() {
        assert_eq!(Rig::new(ajar(EMPTY), 2, &KINDS).refused(&packet), (11, 0));
    }
}

/// "a drive's disc whose home is occupied or beyond the last": every home byte. With no
/// disc in the drive none is looked at.
#[test]
fn eleven_by_the_home() {
    for count in [1, 4, 30, 31] {
        for home in 0..=255u8 {
            for mark in KINDS {
                let bytes = vec![mark; count];
                let open = usize::from(home) < count && mark & 0x80 == 0;
                let due = if open { 0 } else { 11 };
                let mut rig = Rig::new(READY, home, &bytes);
                assert_eq!(rig.refused(&inquiry(5)), (due, 0));
                let mut rig = Rig::new(EMPTY, home, &bytes);
                assert_eq!(rig.refused(&inquiry(5)), (0, 0));
            }
        }
    }
}

/// The causes by themselves; two of them are one number.
#[test]
fn causes_of_eleven() {
    let why = |drive, home, bytes: &[u8]| {
        let rig = Rig::new(drive, home, bytes);
        obstacle(rig.changer(), &rig.slots)
    };
    assert_eq!(why(READY, 0, &[]), Some(Obstacle::NoSlots));
    assert_eq!(why(READY, 0, &[0; 32]), Some(Obstacle::TooManySlots));
    assert_eq!(why(ajar(READY), 0, &[0]), Some(Obstacle::OpenTray));
    assert_eq!(why(READY, 0, &[0x80]), Some(Obstacle::HomeTaken));
    assert_eq!(why(READY, 1, &[0]), Some(Obstacle::NoSuchHome));
    assert_eq!(why(READY, 0, &[0]), None);
    assert_eq!(why(EMPTY, 9, &[0x80]), None);
    assert_eq!(Refusal::Changer.number(), 11);
}

/// "tests 1, 2, 3, 11, 4": every combination of them, on the changer's own packets and on
/// others.
#[test]
fn tests_in_order() {
    for n in 0..32u8 {
        let on = |bit: u8| n & bit != 0;
        for packet in [load(0), mechanism_status(8), start_stop(LOAD), inquiry(36)] {
            let drive = State {
                event: if on(2) { 4 } else { 0 },
                ..READY
            };
            let mut rig = Rig::new(drive, 0, if on(8) { &[0x80] } else { &[0x00] });
            rig.memory.truncate(if on(4) { BOUND - 1 } else { BOUND });
            rig.table.truncate(if on(16) { 58 } else { 59 });
            let length = if on(1) { 11 } else { 12 };
            let due = match n.trailing_zeros() {
                0 => (1, 0),
                1 => (2, 0),
                2 => (3, 0),
                3 => (11, 0),
                4 => (4, 1),
                _ => (0, 0),
            };
            assert_eq!(rig.refused(&packet[..length]), due);
        }
    }
}

/// 4 "only where a disc is in the drive at that moment", with the first broken rule: a load
/// looks at the disc that it returns, not at the one that it takes.
#[test]
fn four_with_a_disc_alone() {
    for rule in 1..=7 {
        for packet in [load(0), unload(), mechanism_status(8), test_ready()] {
            let mut rig = Rig::new(READY, 2, &KINDS);
            rig.table = alone(rule);
            assert_eq!(rig.refused(&packet), (4, rule));
            let mut rig = Rig::new(EMPTY, 2, &KINDS);
            rig.table = alone(rule);
            assert_eq!(rig.refused(&packet), (0, 0));
        }
        let mut rig = Rig::new(EMPTY, 2, &KINDS);
        rig.table = alone(rule);
        rig.good(&load(0));
        assert_eq!(rig.refused(&unload()), (4, rule));
        rig.table = two_sessions().bytes();
        assert_eq!(rig.check(&unload()), CHANGED);
        rig.good(&unload());
    }
}

/// A table of another disc lent behind each load: capacity is that of the table lent to
/// the call.
#[test]
fn one_table_a_call() {
    let mut rig = Rig::new(EMPTY, 0, &[0x80, 0x80]);
    for (slot, sheet, last) in [(0, disc_e(), 299), (1, two_sessions(), 12_999)] {
        rig.good(&load(slot));
        rig.table = sheet.bytes();
        assert_eq!(rig.check(&capacity()), CHANGED);
        let due = read(&rig.table).expect("it is fit").end() - 1;
        assert_eq!(rig.good(&capacity())[..4], due.to_be_bytes());
        assert_eq!(due, last);
    }
}

// Power-on and the outside call.

fn any_drive(rng: &mut Rng) -> State {
    let flags: Vec<State> = all_flags().collect();
    State {
        sense: Sense::new(rng.byte() & 7, rng.byte(), rng.byte() & 3),
        play: Play::new(rng.byte(), rng.long(), rng.long()),
        mode: ModePage::new(rng.byte(), rng.byte()),
        event: rng.byte(),
        ..rng.pick(&flags)
    }
}

/// "Power-on takes the slots as found and an empty closed drive": any state, home 0, power
/// alone pending in both forms, all else as a power-on leaves it.
#[test]
fn power_on_empties_the_drive() {
    let mut rng = Rng::new(112);
    let due = Changer {
        drive: State {
            power: true,
            ..EMPTY
        },
        home: 0,
    };
    for _ in 0..2_000 {
        let drive = any_drive(&mut rng);
        let home = rng.byte();
        let changer = Changer { drive, home };
        assert_eq!(changer.power_on(), due);
        assert_eq!(changer.power_on_without_change(), due);
    }
    // The first device's forms keep the disc, and differ.
    assert_ne!(READY.power_on(), READY.power_on_without_change());
}

/// The disc that was in the drive is not counted any more: the total is promised over
/// packets.
#[test]
fn power_on_forgets_the_disc() {
    let mut rig = Rig::new(READY, 2, &KINDS);
    assert_eq!(rig.discs(), 3);
    let next = rig.changer().power_on();
    (rig.drive, rig.home) = (next.drive, next.home);
    assert_eq!((rig.discs(), rig.bytes()), (2, KINDS.to_vec()));
    assert_eq!(rig.check(&load(0)), POWERED_ON);
    rig.good(&load(0));
    assert_eq!(rig.discs(), 2);
}

/// "The outside call tests 2 alone", and moves what the first device's moves: home and
/// slots are not its.
#[test]
fn outside_call_tests_2_alone() {
    let mut rng = Rng::new(113);
    let mut refused = 0;
    for _ in 0..5_000 {
        let drive = match rng.one_in(2) {
            true => any_drive(&mut rng),
            false => ajar(any_rig(&mut rng).drive),
        };
        let (home, k) = (rng.byte(), u64::from(rng.long() >> rng.below(32)));
        let result = Changer { drive, home }.move_on(k);
        match drive.move_on(k) {
            Ok(next) => assert_eq!(result, Ok(Changer { drive: next, home })),
            Err(refusal) => {
                refused += 1;
                assert_eq!(result, Err(refusal));
            }
        }
        assert_eq!(result.is_err(), !drive.is_sound());
    }
    assert!((1_000..4_000).contains(&refused), "{refused}");
}

// What a run keeps to.

/// A run of packets on a rig that changes its table now and then; each step is handed over
/// with the rig before it.
fn for_each_step(seed: u64, mut look: impl FnMut(&Rig, &Packet, &Reply, &Rig)) {
    let mut rng = Rng::new(seed);
    for _ in 0..1_500 {
        let mut rig = any_rig(&mut rng);
        let marks = Marks::of(None);
        for _ in 0..20 {
            if rng.one_in(12) {
                rig.table = small_fit(&mut rng).bytes();
            }
            let packet = any_changer_packet(&mut rng, &marks, rig.slots.len());
            let before = rig.clone();
            let reply = rig.packet(&packet);
            look(&before, &packet, &reply, &rig);
        }
    }
}

/// "the discs in slots and drive keep their total over every packet", and 11 is never met
/// where it was not before.
#[test]
fn total_is_kept() {
    let mut moved = 0;
    for_each_step(114, |before, packet, reply, after| {
        assert_eq!(before.discs(), after.discs(), "{packet:02X?}");
        assert_eq!(reply.refusal, None);
        assert_eq!(obstacle(after.changer(), &after.slots), None);
        moved += usize::from(before.place() != after.place());
    });
    assert!(moved > 3_000, "{moved}");
}

/// "Every other slot stays as it was": a packet changes at most the home's and the named
/// one, and the number of slots never.
#[test]
fn every_other_slot_stays() {
    for_each_step(115, |before, packet, _, after| {
        assert_eq!(before.slots.len(), after.slots.len());
        for (place, (was, is)) in before.slots.iter().zip(&after.slots).enumerate() {
            let home = before.drive.disc_in && place == usize::from(before.home);
            let named = packet[0] == 0xA6 && place == usize::from(packet[8]);
            assert!(home || named || was == is, "{packet:02X?}");
        }
    });
}

/// Home and slots move by a GOOD A6h alone: a CHECK CONDITION, and every other packet,
/// leaves them.
#[test]
fn moved_by_a_good_a6h_alone() {
    for_each_step(116, |before, packet, reply, after| {
        if packet[0] != 0xA6 || reply.status != 0 {
            assert_eq!(before.place(), after.place(), "{packet:02X?}");
            assert_eq!(before.drive.disc_in, after.drive.disc_in);
        }
        assert!(!after.drive.tray_open);
    });
}

/// What A6h and BDh come to by a plainer reading over the bytes of the slots: status,
/// sense, disc, home, slots and answer.
#[test]
fn own_packets_by_a_second_reading() {
    let mut met = [0; 4];
    for_each_step(117, |before, packet, reply, after| {
        let told = before.drive.power || before.drive.change;
        match packet[0] {
            0xA6 if !told => {
                let (due, sense) = moved(before, packet);
                assert_eq!(after.place(), due, "{packet:02X?}");
                assert_eq!(after.drive.sense, sense);
                met[usize::from(sense != NONE)] += 1;
            }
            0xBD if !told => {
                let length = usize::from(packet[8]) * 256 + usize::from(packet[9]);
                let mut due = told_of(before);
                due.truncate(length);
                assert_eq!(after.memory[..reply.length], due);
                met[2] += 1;
            }
            0xA6 | 0xBD => {
                assert_eq!(after.place(), before.place());
                met[3] += 1;
            }
            _ => {}
        }
    });
    assert!(met.iter().all(|&times| times > 500), "{met:?}");
}

/// Home and slots behind an A6h, and the sense.
fn moved(rig: &Rig, packet: &Packet) -> ((u8, Vec<u8>), Sense) {
    let (mut home, mut bytes) = rig.place();
    let slot = usize::from(packet[8]);
    if packet[4] % 4 < 2 || slot >= bytes.len() {
        return ((home, bytes), BAD_FIELD);
    }
    if rig.drive.lock {
        return ((home, bytes), PREVENTED);
    }
    if rig.drive.disc_in {
        bytes[usize::from(home)] += 0x80;
        home = 0;
    }
    if packet[4] % 4 == 3 && bytes[slot] >= 0x80 {
        bytes[slot] = 0;
        home = slot as u8;
    }
    ((home, bytes), NONE)
}

/// The whole status of a rig.
fn told_of(rig: &Rig) -> Vec<u8> {
    let count = rig.slots.len();
    let mut bytes = vec![0; 8 + 4 * count];
    if rig.drive.disc_in {
        bytes[0] = rig.home;
    }
    bytes[5] = count as u8;
    bytes[7] = 4 * count as u8;
    for (place, byte) in rig.bytes().into_iter().enumerate() {
        bytes[8 + 4 * place] = byte;
    }
    bytes
}

/// The ASC that a packet tells, by what is pending: step 1's three apart.
fn telling(packet: &Packet, before: &Rig, power: bool, change: bool) -> Option<u8> {
    let first = if power {
        Some(0x29)
    } else {
        change.then_some(0x28)
    };
    match packet[0] {
        0x12 | 0x4A => None,
        0x03 => first.filter(|_| before.drive.sense == NONE),
        _ => first,
    }
}

/// Demand 3: an attention is pending exactly when it was caused at or since the last
/// power-on and not told later. A take is the only loading; a power-on causes the power
/// attention alone, in both forms.
#[test]
fn attentions_from_the_history() {
    let (mut rng, marks) = (Rng::new(118), Marks::of(None));
    let mut taken = 0;
    for _ in 0..1_500 {
        let mut rig = any_rig(&mut rng);
        let (mut power, mut change) = (false, false);
        for step in 0..40 {
            if step == 0 || rng.one_in(20) {
                let next = match rng.one_in(2) {
                    true => rig.changer().power_on(),
                    false => rig.changer().power_on_without_change(),
                };
                (rig.drive, rig.home) = (next.drive, next.home);
                (power, change) = (true, false);
                continue;
            }
            let packet = any_changer_packet(&mut rng, &marks, rig.slots.len());
            let before = rig.clone();
            let reply = rig.packet(&packet);
            match telling(&packet, &before, power, change) {
                Some(0x29) => power = false,
                Some(_) => change = false,
                None => {}
            }
            let takes = packet[0] == 0xA6 && reply.status == 0 && rig.drive.disc_in;
            change |= takes;
            taken += usize::from(takes);
            assert_eq!((rig.drive.power, rig.drive.change), (power, change));
        }
    }
    assert!(taken > 3_000, "{taken}");
}

/// "Demand 3's runs share the slot records": from a power-on or a loading on, two runs of
/// the same packets with other fit tables agree up to and with the answer that leaves
/// nothing pending.
#[test]
fn two_runs_agree() {
    let (mut rng, marks) = (Rng::new(119), Marks::of(None));
    let (mut told, mut loads) = (0, 0);
    for _ in 0..3_000 {
        let mut one = any_rig(&mut rng);
        one.drive = one.changer().power_on().drive;
        if rng.one_in(2) {
            let slot = rng.below(one.slots.len()) as u8;
            one.slots[usize::from(slot)].present = true;
            one.check(&test_ready());
            one.good(&load(slot));
            loads += 1;
        }
        one.table = any_fit(&mut rng).bytes();
        let mut other = one.clone();
        other.table = any_fit(&mut rng).bytes();
        for _ in 0..20 {
            let packet = any_changer_packet(&mut rng, &marks, one.slots.len());
            assert_eq!(one.packet(&packet), other.packet(&packet));
            assert_eq!(one.place(), other.place());
            assert_eq!(one.memory, other.memory);
            if !one.drive.power && !one.drive.change {
                told += 1;
                break;
            }
        }
    }
    assert!(told > 2_500 && loads > 1_000, "{told} {loads}");
}

/// "No command that needs a disc succeeds while one is pending", on the changer too.
#[test]
fn no_success_while_pending() {
    for_each_step(120, |before, packet, reply, _| {
        let pending = before.drive.power || before.drive.change;
        if pending && ![0x03, 0x12, 0x4A].contains(&packet[0]) {
            assert_eq!((reply.status, reply.next.sense.key), (2, 6));
        }
    });
}

// The stream.

/// "none at the start", home 0, and the state of zeros, which 2 covers; the lines of all
/// four calls.
#[test]
fn line_forms() {
    let mut stream = Stream::new();
    stream.changer_packet(&test_ready());
    stream.changer_move_on(1);
    stream.changer_power_on();
    stream.slots(&slots(&[0x81, 0x00]));
    stream.home(200);
    stream.changer_move_on(1);
    stream.changer_power_on_without_change();
    stream.memory(6_538, 0);
    stream.changer_packet(&load(0));
    stream.changer_packet(&load(0));
    stream.table(&alone(3));
    stream.changer_packet(&load(0));
    stream.slots(&[]);
    stream.changer_packet(&load(0));
    assert_eq!(stream.calls, 9);
    let due = "\
P 2 00 0 0 0 00000 00 00 00 00 0 0 00 00 0 0 - - 00000001
M 2 00000 00 00 00 00 0 0 00 00 0 0 -
O 0 00010 00 00 00 15 0 0 00 00 0 0 -
M 0 00010 00 00 00 15 0 0 00 00 0 200 8100
Q 0 00010 00 00 00 15 0 0 00 00 0 0 8100
P 0 02 0 0 0 00000 06 29 00 15 0 0 00 00 0 0 8100 - 198A0001
P 0 00 0 0 0 01001 00 00 00 15 0 0 00 00 2 0 0000 - 198A0001
P 4.3 00 0 0 0 01001 00 00 00 15 0 0 00 00 2 0 0000 - 198A0001
P 11 00 0 0 0 01001 00 00 00 15 0 0 00 00 2 0 - - 198A0001
";
    assert_eq!(replay::run(&stream.bytes), due);
}

/// Kind 15 has a byte a slot, at most 255 and of two bits; 16 has one byte, 17 and 18
/// none, 20 four; 19 any.
#[test]
fn changer_kinds() {
    let run = |kind: u8, body: &[u8]| {
        let mut stream = Stream::new();
        stream.record(kind, body);
        replay::run(&stream.bytes)
    };
    for length in 0..=300 {
        let body = vec![0x81; length];
        assert_eq!(run(15, &body).is_empty(), length <= 255);
        assert_eq!(run(16, &body).is_empty(), length == 1);
        assert_eq!(run(17, &body).starts_with("O 0 "), length == 0);
        assert_eq!(run(18, &body).starts_with("Q 0 "), length == 0);
        assert!(run(19, &body).starts_with("P "));
        assert_eq!(run(20, &body).starts_with("M 2 "), length == 4);
    }
    for byte in 0..=255u8 {
        let sound = KINDS.contains(&byte);
        assert_eq!(run(15, &[byte]).is_empty(), sound);
        assert_eq!(run(15, &[0x80, byte, 0x00]).is_empty(), sound);
    }
    assert_eq!(run(15, &[0x02]), "bad record\n");
}

/// "State, table, list and memory are those of the other records": one device meets what
/// the other left.
#[test]
fn devices_share_the_state() {
    let mut stream = Stream::new();
    stream.memory(6_538, 0);
    stream.table(&disc_e().bytes());
    stream.slots(&slots(&[0x80]));
    stream.state(EMPTY);
    stream.changer_packet(&load(0));
    stream.packet(&test_ready());
    stream.packet(&prevent(1));
    stream.changer_packet(&unload());
    stream.button();
    stream.power_on();
    stream.changer_packet(&mechanism_status(1));
    let lines = replay::run(&stream.bytes);
    let starts: Vec<&str> = lines.lines().map(|line| &line[..18]).collect();
    let due = [
        "P 0 00 0 0 0 01001",
        "p 0 02 0 0 0 01000",
        "p 0 00 0 0 0 01100",
        "P 0 02 0 0 0 01100",
        "b 5 01100 05 53 02",
        "o 0 01011 00 00 00",
        "P 0 02 0 0 0 01001",
    ];
    assert_eq!(starts, due);
}

/// A stream that has one of each, and a few of some.
fn one_of_each_count() -> Stream {
    let mut stream = Stream::new();
    picked_changer::bench(&mut stream, READY, 2, &KINDS);
    for packet in [
        load(0),
        test_ready(),
        load(0),
        test_ready(),
        load(3),
        unload(),
        load(1),
        load(0),
        test_ready(),
        unload(),
        load(4),
        load_unload(1, 0),
        prevent(1),
        unload(),
        mechanism_status(24),
        mechanism_status(23),
        start_stop(EJECT),
        start_stop(0),
    ] {
        stream.changer_packet(&packet);
    }
    stream.changer_packet(&[]);
    for (drive, home, bytes) in [
        (READY, 0, &[][..]),
        (READY, 0, &[0; 32]),
        (ajar(EMPTY), 0, &[0x80]),
        (READY, 0, &[0x80]),
        (READY, 1, &[0]),
    ] {
        picked_changer::place(&mut stream, drive, home, bytes);
        stream.changer_packet(&load(0));
    }
    stream
}

/// What `tally` counts of a small stream, and how it prints it.
#[test]
fn tally_counts_the_changer() {
    let mut stream = one_of_each_count();
    stream.changer_move_on(1);
    stream.state(State { event: 4, ..READY });
    stream.changer_move_on(1);
    stream.changer_power_on();
    stream.changer_power_on_without_change();
    stream.changer_power_on_without_change();
    let due = Changes {
        taken: 3,
        from_empty: 1,
        of_the_home: 1,
        returned_first: 3,
        unloads: [1, 1],
        pairs: 1,
        slots: 1,
        locks: 1,
        whole: 1,
        cut: 1,
        trays: 1,
        told: 1,
        others: 5,
        refused: 1,
        obstacles: [1; 5],
        power_ons: [1, 2],
        moves: 1,
        refused_moves: 1,
    };
    assert_eq!(tally::changes(&stream.bytes), due);
    let part = "\
A6h taken from-empty of-the-home returned-first unload unload-empty
A6h 3 1 1 3 1 1
A6h-fault pair slot lock
A6h-fault 1 1 1
changer BDh-whole BDh-cut 1Bh-LoEj told other 1-to-4 O Q M M-2
changer 1 1 1 1 5 1 1 2 1 1
eleven no-slots over-31 open-tray home-occupied home-beyond
eleven 1 1 1 1 1
";
    assert!(tally::print(&stream.bytes).contains(part));
}

/// What each packet to the changer meets and comes to, as a fact.
fn facts(stream: &[u8]) -> BTreeSet<String> {
    let lines = replay::run(stream);
    let mut lines = lines.lines();
    let (mut rest, mut facts) = (stream, BTreeSet::new());
    let (mut count, mut home) = (0, 0);
    while let Ok((kind, body, after)) = take_record(rest) {
        rest = after;
        match (kind, body) {
            (replay::SLOTS, slots) => count = slots.len(),
            (replay::HOME, &[byte]) => home = byte,
            _ => {}
        }
        if !replay::is_call(kind) {
            continue;
        }
        let Some(line) = lines.next().filter(|&line| line != "bad record") else {
            break;
        };
        let words: Vec<&str> = line.split(' ').collect();
        if let (replay::CHANGER_PACKET, Ok(packet)) = (kind, Packet::try_from(body)) {
            facts.insert(format!("{count} slots: {}", words[1]));
            facts.insert(format!("home {home}: {}", words[1]));
            facts.extend(facts_of(&packet, &words, count));
        }
        if let ["O" | "Q" | "P" | "M", ..] = words[..] {
            let place = if words[0] == "P" { 16 } else { 12 };
            home = words[place].parse().expect("a decimal");
        }
    }
    facts
}

fn facts_of(packet: &Packet, words: &[&str], count: usize) -> Vec<String> {
    let come = format!("{} {} {}", words[1], words[2], words[7..10].join("/"));
    let low_bits = packet[4] & 3;
    match packet[0] {
        0xA6 => vec![
            format!("pair {low_bits}: {come}"),
            format!("slot {} of {count}, pair {low_bits}: {come}", packet[8]),
            format!("slot {}: {come}", packet[8]),
        ],
        0xBD => {
            let length = u16::from_be_bytes([packet[8], packet[9]]);
            vec![
                format!("BDh of {length}: {} bytes", words[3]),
                format!("BDh: {come}"),
            ]
        }
        0x1B => vec![format!("1Bh {low_bits}: {come}")],
        code => vec![format!("code {code}: {come}")],
    }
}

const GOOD: &str = "0 00 00/00/00";

/// What every stream has.
fn often() -> Vec<String> {
    let mut list: Vec<String> = Vec::new();
    for count in [0, 1, 2, 31, 32, 33, 255] {
        let number = if (1..=31).contains(&count) { 0 } else { 11 };
        list.push(format!("{count} slots: {number}"));
    }
    for pair in [2, 3] {
        list.push(format!("pair {pair}: {GOOD}"));
        list.push(format!("pair {pair}: 0 02 05/53/02"));
        list.push(format!("pair {pair}: 0 02 06/28/00"));
        list.push(format!("pair {pair}: 0 02 06/29/00"));
    }
    for pair in 0..4 {
        list.push(format!("pair {pair}: 0 02 05/24/00"));
    }
    for slot in [0, 1, 30] {
        list.push(format!("slot {slot} of 31, pair 3: {GOOD}"));
    }
    list.push("slot 31 of 31, pair 3: 0 02 05/24/00".to_string());
    list.push("BDh of 8: 8 bytes".to_string());
    list.push("BDh of 65535: 132 bytes".to_string());
    list.push("BDh: 0 02 06/28/00".to_string());
    list
}

/// What the stored stream has beside.
fn stored_too() -> Vec<String> {
    let mut more = Vec::new();
    for count in 0..=33 {
        let number = if (1..=31).contains(&count) { 0 } else { 11 };
        more.push(format!("{count} slots: {number}"));
    }
    more.extend((4..=255).map(|home| format!("home {home}: 11")));
    for slot in 0..=255 {
        let come = |last| match slot < last {
            true => GOOD,
            false => "0 02 05/24/00",
        };
        more.push(format!("slot {slot} of 3, pair 3: {}", come(3)));
        more.push(format!("slot {slot} of 1, pair 2: {}", come(1)));
    }
    for length in (0..=12).chain([19, 20, 131, 132]) {
        more.push(format!("BDh of {length}: {length} bytes"));
    }
    for (length, whole) in [(21, 20), (133, 132), (256, 12), (65_535, 132)] {
        more.push(format!("BDh of {length}: {whole} bytes"));
    }
    for low_bits in [2, 3] {
        more.push(format!("1Bh {low_bits}: 0 02 05/24/00"));
        more.push(format!("1Bh {low_bits}: 0 02 06/29/00"));
    }
    more
}

/// The streams have every boundary of the changer; the stored one has more.
#[test]
fn streams_have_every_boundary() {
    let stored = facts(&stored::stored_stream().bytes);
    for fact in often().into_iter().chain(stored_too()) {
        assert!(stored.contains(&fact), "{fact}");
    }
    let drawn = facts(&random_stream(120, 40_000).bytes);
    for fact in often() {
        assert!(drawn.contains(&fact), "{fact}");
    }
}

/// All 256 codes stand in the stored stream as packets to the changer.
#[test]
fn every_code_is_stored() {
    let (stored, mut codes) = (stored::stored_stream().bytes, BTreeSet::new());
    let mut rest = &stored[..];
    while let Ok((kind, body, after)) = take_record(rest) {
        rest = after;
        if kind == replay::CHANGER_PACKET && body.len() == 12 {
            codes.insert(body[0]);
        }
    }
    assert_eq!(codes.len(), 256);
}

/// A drawn stream has the changer often, on top of the calls asked for; the stored one has
/// every count too.
#[test]
fn streams_have_changers() {
    for stream in [stored::stored_stream(), random_stream(128, 16_000)] {
        let changes = tally::changes(&stream.bytes);
        assert!(
            changes.taken > 150 && changes.from_empty > 60,
            "{changes:?}"
        );
        assert!(changes.of_the_home > 10 && changes.returned_first > 100);
        assert!(
            changes.unloads.iter().all(|&times| times > 40),
            "{changes:?}"
        );
        assert!(changes.pairs > 30 && changes.slots > 30 && changes.locks > 30);
        assert!(changes.whole > 30 && changes.cut > 80, "{changes:?}");
        assert!(changes.trays > 10 && changes.told > 60, "{changes:?}");
        assert!(changes.others > 500 && changes.refused > 100, "{changes:?}");
        assert!(
            changes.obstacles.iter().all(|&times| times > 5),
            "{changes:?}"
        );
        assert!(
            changes.power_ons.iter().all(|&times| times > 10),
            "{changes:?}"
        );
        assert!(
            changes.moves > 20 && changes.refused_moves > 0,
            "{changes:?}"
        );
    }
}

/// The picked calls stand in the stored stream as they are picked.
#[test]
fn picked_changers_are_stored() {
    let stored = stored::stored_stream().bytes;
    for maker in [
        picked_changer::marked_changer as fn(&mut Stream),
        picked_changer::every_slot,
        picked_changer::moves_in_turn,
        picked_changer_status::status_lengths,
        picked_changer_state::every_home,
        picked_changer_state::tests_in_order,
        picked_changer_state::devices_alike,
    ] {
        let mut stream = Stream::new();
        maker(&mut stream);
        let whole = stored.windows(stream.bytes.len());
        assert_eq!(whole.filter(|part| *part == stream.bytes).count(), 1);
    }
}
