//! The ways a stream can end, and whole random streams.

use crate::cases::random;
use crate::cases::stream::Stream;
use crate::replay::{self, STATE_BYTES};
use crate::rng::Rng;

/// Records that end the run, each a bit of raw stream.
pub fn bad_records() -> Vec<(&'static str, Vec<u8>)> {
    let mut list: Vec<(&'static str, Vec<u8>)> = Vec::new();
    for kind in [25, 26, 128, 255] {
        list.push(("unknown kind", vec![kind, 0, 0]));
        list.push(("unknown kind with a body", vec![kind, 0, 1, 0]));
    }
    for kind in [
        0, 1, 7, 10, 11, 12, 13, 14, 15, 16, 17, 19, 20, 21, 22, 23, 24,
    ] {
        list.push(("kind alone", vec![kind]));
        list.push(("half a length", vec![kind, 0]));
        list.push(("no body", vec![kind, 0, 1]));
    }
    let mut state = vec![replay::STATE, 0, STATE_BYTES as u8];
    state.resize(3 + STATE_BYTES, 0);
    list.push(("body one byte short", state[..STATE_BYTES + 2].to_vec()));
    list.push(("table cut off", vec![1, 0, 59, 0, 57, 1, 1]));
    list.push(("packet cut off", vec![7, 0, 12, 0]));
    list.push(("list cut off", vec![13, 0, 16, 0, 0]));
    list.push(("sheet cut off", vec![14, 0, 8, 1, 0, 0]));
    list.push(("shelf cut off", vec![24, 0, 104, 0, 0, 0]));
    list.push(("slots cut off", vec![15, 0, 3, 0x80, 0x81]));
    list.push(("write cut off", vec![22, 0, 2, 7]));
    for kind in [1, 2, 7, 11, 12, 13, 14, 15, 19, 21, 22, 23, 24] {
        for length in [8_192u16, 8_193, 65_535] {
            let mut long = vec![kind];
            long.extend(length.to_be_bytes());
            list.push(("too long, cut", long.clone()));
            long.resize(3 + usize::from(length), 0);
            list.push(("too long, whole", long));
        }
    }
    for place in 0..5 {
        for value in [2, 3, 128, 255] {
            let mut wrong = state.clone();
            wrong[3 + place] = value;
            list.push(("flag", wrong));
        }
    }
    for byte in [0x02, 0x40, 0x7E, 0x82, 0xC0, 0xFF] {
        list.push(("slot", vec![15, 0, 3, 0x81, byte, 0x00]));
    }
    for register in [2, 3, 8, 9, 0x40, 0x87, 0xA0, 0xFF] {
        list.push(("register", vec![22, 0, 2, register, 0xA0]));
    }
    for count in [256u16, 300, 8_191] {
        let mut many = vec![replay::SLOTS];
        many.extend(count.to_be_bytes());
        many.resize(3 + usize::from(count), 0x80);
        list.push(("over 255 slots", many));
    }
    let unsuited: [(u8, &[usize]); 19] = [
        (replay::STATE, &[0, 1, 7, 8, 9, 16, 17, 18, 19, 21]),
        (replay::MEMORY, &[0, 1, 2, 4]),
        (replay::POWER_ON, &[1, 8]),
        (replay::BUTTON, &[1, 8]),
        (replay::LAY, &[1, 8]),
        (replay::LIFT, &[1, 8]),
        (replay::TO_MSF, &[0, 3, 5]),
        (replay::TO_ADDRESS, &[0, 2, 4]),
        (replay::PART, &[0, 2]),
        (replay::POWER_ON_WITHOUT_CHANGE, &[1, 8]),
        (replay::MOVE_ON, &[0, 1, 3, 5, 8]),
        (replay::HOME, &[0, 2, 4]),
        (replay::CHANGER_POWER_ON, &[1, 8]),
        (replay::CHANGER_POWER_ON_WITHOUT_CHANGE, &[1, 8]),
        (replay::CHANGER_MOVE_ON, &[0, 1, 3, 5, 8]),
        (replay::RESET, &[1, 2, 8]),
        (replay::WRITE, &[0, 1, 3, 4]),
        (replay::READ, &[1, 2, 8]),
        (replay::SHELF, &[0, 1, 8, 96, 102, 103]),
    ];
    for (kind, lengths) in unsuited {
        for &length in lengths {
            let mut record = vec![kind, 0, length as u8];
            record.resize(3 + length, 0);
            list.push(("body that does not suit", record));
        }
    }
    list.push(("memory of 8,192", vec![2, 0, 3, 0x20, 0x00, 0]));
    list.push(("memory of 65,535", vec![2, 0, 3, 0xFF, 0xFF, 7]));
    list
}

/// Ends the stream: cleanly for seed % 8 = 0, else with one bad record, and
/// sound records behind it that must not be performed.
pub fn end(stream: &mut Stream, rng: &mut Rng, seed: u64) {
    let wanted: &[&str] = match seed % 8 {
        0 => return,
        1 => &["unknown kind", "unknown kind with a body"],
        2 => &["too long, whole", "too long, cut"],
        3 => &["kind alone", "half a length"],
        4 => &[
            "no body",
            "body one byte short",
            "table cut off",
            "packet cut off",
            "list cut off",
            "sheet cut off",
            "shelf cut off",
            "slots cut off",
            "write cut off",
        ],
        5 => &["flag", "slot", "register"],
        6 => &["body that does not suit"],
        _ => &["memory of 8,192", "memory of 65,535", "over 255 slots"],
    };
    let list: Vec<Vec<u8>> = bad_records()
        .into_iter()
        .filter(|(name, _)| wanted.contains(name))
        .map(|(_, bytes)| bytes)
        .collect();
    stream.bytes.extend(&list[rng.below(list.len())]);
    // Behind a cut record anything more would be its body.
    if !matches!(seed % 8, 3 | 4) {
        let calls = stream.calls;
        stream.power_on();
        stream.packet(&[0; 12]);
        stream.calls = calls;
    }
}

/// A whole random stream with at least this many calls.
pub fn random_stream(seed: u64, calls: usize) -> Stream {
    let mut rng = Rng::new(seed);
    let mut stream = Stream::new();
    stream.memory(crate::cases::picked_state::MEMORY, rng.byte());
    random::fill(&mut stream, &mut rng, calls);
    end(&mut stream, &mut rng, seed);
    stream
}
