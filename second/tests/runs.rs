//! Whole runs of calls: what a run may depend on, and what not.

use second::cases::packets::{
    any_list, any_packet, mode_select, one_of_each, request_sense, Marks, Packet,
};
use second::cases::picked_state::all_flags;
use second::cases::sheet::any_fit;
use second::cases::spoil::any_broken;
use second::drive::State;
use second::limits::{BOUND, TOP_ADDRESS};
use second::mode_page::{ModePage, SETTINGS};
use second::packet::{perform, Reply};
use second::play::{Play, STATUSES};
use second::refusal::Refusal;
use second::rng::Rng;
use second::sense::Sense;
use second::table::read;

#[derive(Clone, Copy)]
enum Call {
    PowerOn,
    PowerOnWithoutChange,
    Button,
    Lay,
    Lift,
    MoveOn(u32),
    /// With K4's parameter list, if one of 16 bytes is lent.
    Packet(Packet, Option<[u8; 16]>),
}

/// What a call gives back: a packet's reply, or a tray call's result.
#[derive(Debug, PartialEq)]
enum Given {
    Reply(Reply),
    Moved(Result<State, Refusal>),
}

/// A drive with the table and the memory lent to it.
struct Bench {
    state: State,
    table: Vec<u8>,
    memory: Vec<u8>,
}

impl Bench {
    fn new(state: State, table: Vec<u8>) -> Bench {
        Bench {
            state,
            table,
            memory: vec![0xC5; BOUND],
        }
    }

    fn packet(&mut self, packet: &Packet, list: &[u8]) -> Given {
        let reply = perform(self.state, &self.table, list, packet, &mut self.memory);
        self.state = reply.next;
        Given::Reply(reply)
    }

    /// The call, with this list in place of its own if it is a packet.
    fn call_with(&mut self, call: Call, list: &[u8]) -> Given {
        match call {
            Call::Packet(packet, _) => self.packet(&packet, list),
            moves => self.call(moves),
        }
    }

    fn call(&mut self, call: Call) -> Given {
        let moved = match call {
            Call::Packet(packet, list) => {
                return self.packet(&packet, list.as_ref().map_or(&[][..], |list| list));
            }
            Call::PowerOn => Ok(self.state.power_on()),
            Call::PowerOnWithoutChange => Ok(self.state.power_on_without_change()),
            Call::Button => self.state.button(),
            Call::Lay => self.state.lay(),
            Call::Lift => self.state.lift(),
            Call::MoveOn(k) => self.state.move_on(k.into()),
        };
        // K7: a press under refusal 5 hands back another state.
        self.state = match call {
            Call::Button => self.state.pressed(),
            _ => moved.unwrap_or(self.state),
        };
        Given::Moved(moved)
    }
}

fn any_call(rng: &mut Rng, marks: &Marks) -> Call {
    match rng.below(13) {
        12 => Call::MoveOn(rng.long() >> rng.below(32)),
        0 => any_power_on(rng),
        1 => Call::Button,
        2 => Call::Lay,
        3 => Call::Lift,
        4..=7 => Call::Packet(rng.pick(&one_of_each()), lent(rng)),
        _ => Call::Packet(any_packet(rng, marks), lent(rng)),
    }
}

/// A list of 16 bytes or none, as often.
fn lent(rng: &mut Rng) -> Option<[u8; 16]> {
    let list = any_list(rng).try_into().ok();
    list.filter(|_| rng.one_in(2))
}

/// Either form of K3.
fn any_power_on(rng: &mut Rng) -> Call {
    rng.pick(&[Call::PowerOn, Call::PowerOnWithoutChange])
}

fn any_bench(rng: &mut Rng) -> (Bench, Marks) {
    let flags: Vec<State> = all_flags().collect();
    let table = any_fit(rng).bytes();
    let marks = Marks::of(read(&table).ok().as_ref());
    let end = rng.below(TOP_ADDRESS as usize + 1);
    let play = Play {
        status: rng.pick(&STATUSES),
        position: rng.below(end + 1) as u32,
        end: end as u32,
    };
    let mode = ModePage::new(rng.pick(&SETTINGS), rng.byte());
    let state = State {
        play,
        mode,
        event: rng.below(4) as u8,
        ..rng.pick(&flags)
    };
    (Bench::new(state, table), marks)
}

/// From a power-on of either form two runs of the same calls, with different fit
/// tables and, at each call, the same parameter list (K4), give the same answers,
/// states and memory, up to and with the answer that leaves nothing pending.
#[test]
fn two_runs_agree() {
    let mut rng = Rng::new(5);
    let (mut told, mut longest) = (0, 0);
    for _ in 0..3_000 {
        let (mut one, marks) = any_bench(&mut rng);
        one.call(any_power_on(&mut rng));
        let mut other = Bench::new(one.state, any_fit(&mut rng).bytes());
        for calls in 0..40 {
            let call = any_call(&mut rng, &marks);
            assert_eq!(one.call(call), other.call(call));
            assert_eq!((one.state, &one.memory), (other.state, &other.memory));
            longest = longest.max(calls);
            if !one.state.power && !one.state.change {
                told += 1;
                break;
            }
        }
    }
    assert!(told > 2_500 && longest > 10, "{told} {longest}");
}

/// What two runs with lists of their own met, all told.
#[derive(Debug, Default)]
struct Met {
    runs_told: usize,
    longest: usize,
    /// 55h with two lists that differ, and those of them that 4 refused.
    selects: usize,
    refused: usize,
}

/// Two runs of the same calls, one in three a 55h, each packet lent a list of its
/// own in each run: none, 16 sound bytes, another length or wrong content.
fn agree_with_other_lists(rng: &mut Rng, marks: &Marks, runs: [&mut Bench; 2], met: &mut Met) {
    let [one, other] = runs;
    let fit = read(&one.table).is_ok();
    for calls in 0..40 {
        let call = if rng.one_in(3) {
            Call::Packet(mode_select(rng.pick(&[16, 16, 16, 0, 8, 24])), None)
        } else {
            any_call(rng, marks)
        };
        let lists = [any_list(rng), any_list(rng)];
        let refused = one.state.loaded() && !fit;
        let given = one.call_with(call, &lists[0]);
        assert_eq!(given, other.call_with(call, &lists[1]), "{lists:02X?}");
        assert_eq!((one.state, &one.memory), (other.state, &other.memory));
        if let (Call::Packet(packet, _), Given::Reply(reply)) = (call, given) {
            let number = reply.refusal.map_or(0, |refusal| refusal.number());
            assert_eq!(number, if refused { 4 } else { 0 });
            let select = packet[0] == 0x55 && lists[0] != lists[1];
            met.selects += usize::from(select);
            met.refused += usize::from(select && refused);
        }
        met.longest = met.longest.max(calls);
        if !one.state.power && !one.state.change {
            met.runs_told += 1;
            return;
        }
    }
}

/// Two runs from a power-on of either form agree so too where each packet is lent
/// one list in the one run and another in the other: with two fit tables, and with
/// one that is not fit, for which 4 refuses them alike while loaded. More than K4
/// asks, "Demand 3's two runs share the lent parameter list": 55h is told what is
/// pending before it looks at its list.
#[test]
fn two_runs_agree_with_other_lists() {
    let mut rng = Rng::new(8);
    let mut met = Met::default();
    for _ in 0..3_000 {
        let (mut one, marks) = any_bench(&mut rng);
        one.call(any_power_on(&mut rng));
        let mut other = Bench::new(one.state, any_fit(&mut rng).bytes());
        agree_with_other_lists(&mut rng, &marks, [&mut one, &mut other], &mut met);
    }
    assert!(met.runs_told > 2_500 && met.longest > 6, "{met:?}");
    assert!(met.selects > 1_500 && met.refused == 0, "{met:?}");

    let mut met = Met::default();
    for _ in 0..1_000 {
        let (mut one, marks) = any_bench(&mut rng);
        let unfit = std::iter::repeat_with(|| any_broken(&mut rng)).find(|t| read(t).is_err());
        one.table = unfit.expect("a table that is not fit");
        one.call(any_power_on(&mut rng));
        let mut other = Bench::new(one.state, one.table.clone());
        agree_with_other_lists(&mut rng, &marks, [&mut one, &mut other], &mut met);
    }
    assert!(met.runs_told > 800 && met.longest > 30, "{met:?}");
    assert!(met.selects > 2_000 && met.refused > 1_000, "{met:?}");
}

/// The same call on the same drive gives the same, however often it is made. Each
/// run begins with an answer that has bytes.
#[test]
fn same_input_same_outcome() {
    let mut rng = Rng::new(6);
    for _ in 0..300 {
        let (mut one, marks) = any_bench(&mut rng);
        for made in 0..20 {
            let call = match made {
                0 => Call::Packet(request_sense(18), None),
                _ => any_call(&mut rng, &marks),
            };
            let mut again = Bench::new(one.state, one.table.clone());
            again.memory.clone_from(&one.memory);
            assert_eq!(one.call(call), again.call(call));
            assert_eq!((one.state, &one.memory), (again.state, &again.memory));
        }
    }
}

/// The ASC of the attention that a packet tells, given what is pending.
fn told(packet: &Packet, held: Sense, reply: &Reply, power: bool, change: bool) -> Option<u8> {
    let first = match (power, change) {
        (true, _) => Some(0x29),
        (false, true) => Some(0x28),
        _ => None,
    };
    match packet[0] {
        // "INQUIRY and REQUEST SENSE are performed even with an attention
        // pending"; the latter tells with nothing held, its length may be 0. K7's
        // 4Ah "tells none".
        0x12 | 0x4A => None,
        0x03 => first.filter(|_| held == Sense::new(0, 0, 0)),
        _ => {
            let key = reply.next.sense.key;
            let asc = (reply.status == 2 && key == 6).then_some(reply.next.sense.asc);
            assert_eq!(asc, first, "{packet:02X?}");
            asc
        }
    }
}

/// An attention is pending exactly when it was caused at or since the last
/// power-on and not told later: kept here from what each call shows. K3: "demand
/// 3 counts such a power-on", of the default form and loaded, "as a cause of the
/// change attention".
#[test]
fn pending_from_the_history() {
    let mut rng = Rng::new(7);
    for _ in 0..1_000 {
        let (mut bench, marks) = any_bench(&mut rng);
        let (mut power, mut change) = (false, false);
        for made in 0..40 {
            let call = match made {
                0 => any_power_on(&mut rng),
                _ => any_call(&mut rng, &marks),
            };
            let before = bench.state;
            let given = bench.call(call);
            match (call, given) {
                (Call::PowerOn, _) => (power, change) = (true, before.disc_in && !before.tray_open),
                (Call::PowerOnWithoutChange, _) => (power, change) = (true, false),
                (Call::Packet(packet, _), Given::Reply(reply)) => {
                    match told(&packet, before.sense, &reply, power, change) {
                        Some(0x29) => power = false,
                        Some(_) => change = false,
                        None => {}
                    }
                }
                _ => {}
            }
            // Loading, by button or packet; before one telling it counts once.
            let after = bench.state;
            change |= before.tray_open && !after.tray_open && after.disc_in;
            assert_eq!((after.power, after.change), (power, change), "{before:?}");
        }
    }
}
