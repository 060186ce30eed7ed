//! K5: "a fixed table of 256 rows, one per code". The cases notice any one
//! wrong row, and what each row says by 01's words.

mod common;

use common::{check, on_e};
use second::appendix::{class, PACKETS};
use second::cases::packets::{event_status, plain, read10, read12, request_sense, CODES};
use second::cases::picked_codes::{every_row, every_row_told};
use second::cases::stream::Stream;
use second::drive::State;
use second::replay::{self, take_record};
use second::sense::{self, Sense, NONE};
use second::stored::stored_stream;

/// A code for each class, "unknown" first; no command has 01h.
fn one_of_each_class() -> [u8; 17] {
    let mut list = [0x01; 17];
    for (code, _) in PACKETS {
        list[class(code)] = code;
    }
    list
}

/// The records of a maker's stream, kind and body.
fn records(maker: fn(&mut Stream)) -> Vec<(u8, Vec<u8>)> {
    let mut stream = Stream::new();
    maker(&mut stream);
    let (mut rest, mut list) = (&stream.bytes[..], Vec::new());
    while let Ok((kind, body, after)) = take_record(rest) {
        list.push((kind, body.to_vec()));
        rest = after;
    }
    assert!(rest.is_empty());
    list
}

/// What is printed for the maker's packets of one code when they are answered
/// as those of another: each packet with the state, table and memory set before
/// it. The sum of the memory is left out, for it hangs on the calls between.
fn printed(records: &[(u8, Vec<u8>)], code: u8, answered_as: u8) -> Vec<String> {
    let mut stream = Stream::new();
    let mut state = Vec::new();
    for (kind, body) in records {
        match *kind {
            replay::STATE => state = body.clone(),
            replay::PACKET if body[0] != code => {}
            replay::PACKET => {
                let mut packet = body.clone();
                packet[0] = answered_as;
                stream.record(replay::STATE, &state);
                stream.packet(&packet);
            }
            _ => stream.record(*kind, body),
        }
    }
    let lines = replay::run(&stream.bytes);
    let cut = |line: &str| line.rsplit_once(' ').expect("it has words").0.to_string();
    lines.lines().map(cut).collect()
}

/// 256 x 16 wrong tables, each with one wrong row: each prints another line.
#[test]
fn each_wrong_row_is_noticed() {
    let records = records(every_row);
    let others = one_of_each_class();
    let mut tables = 0;
    for code in 0..=255 {
        let sound = printed(&records, code, code);
        assert_eq!(sound.len(), 5);
        for (other, &answered_as) in others.iter().enumerate() {
            if other != class(code) {
                let wrong = printed(&records, code, answered_as);
                assert_ne!(sound, wrong, "{code:02X}h as {answered_as:02X}h");
                tables += 1;
            }
        }
    }
    assert_eq!(tables, 256 * 16);
}

/// The same under attentions: there the rows of INQUIRY, REQUEST SENSE and 4Ah
/// show, and all the others are told alike.
#[test]
fn wrong_rows_under_an_attention() {
    let records = records(every_row_told);
    let rank = |class: usize| {
        if [2, 3, 16].contains(&class) {
            class
        } else {
            0
        }
    };
    for code in 0..=255 {
        let sound = printed(&records, code, code);
        assert_eq!(sound.len(), 4);
        for (other, answered_as) in one_of_each_class().into_iter().enumerate() {
            let wrong = printed(&records, code, answered_as);
            let alike = rank(other) == rank(class(code));
            assert_eq!(sound == wrong, alike, "{code:02X}h as {answered_as:02X}h");
        }
    }
}

/// Both makers are stored whole, each code five and four times.
#[test]
fn every_row_is_stored() {
    let stored = stored_stream().bytes;
    for (maker, calls) in [(every_row as fn(&mut Stream), 5), (every_row_told, 4)] {
        let mut stream = Stream::new();
        maker(&mut stream);
        assert_eq!(stream.calls, 256 * calls);
        assert!(stored
            .windows(stream.bytes.len())
            .any(|part| part == stream.bytes));
    }
}

/// "giving the command's class or "unknown"": 01's ten codes, K2's three, K4's two
/// and K7's one have a command, and exactly the others are 05/20/00, loaded, closed
/// and empty, and open.
#[test]
fn sixteen_codes_and_no_others() {
    assert_eq!(PACKETS.map(|(code, _)| code), CODES);
    assert_eq!(
        PACKETS.map(|(code, _)| class(code)),
        [1, 2, 3, 4, 5, 6, 7, 8, 9, 10, 11, 12, 13, 14, 15, 16]
    );
    assert_eq!([0x45, 0x4B, 0x42].map(class), [11, 12, 13]);
    assert_eq!([0x5A, 0x55, 0x4A].map(class), [14, 15, 16]);
    for state in [State::READY, State::EMPTY, State::READY.opened()] {
        for code in 0..=255 {
            let (reply, _) = on_e(state, &plain(code));
            let unknown = (reply.status, reply.next.sense) == (2, Sense::new(5, 0x20, 0));
            assert_eq!(unknown, !CODES.contains(&code), "{code:02X}h");
            assert_eq!(unknown, class(code) == 0, "{code:02X}h");
        }
    }
}

/// Step 2 before step 3: every code but 03h, 12h and 4Ah is told, whatever its row.
#[test]
fn every_code_under_attentions() {
    let both = State {
        power: true,
        change: true,
        ..State::READY
    };
    for code in (0..=255).filter(|code| ![0x03, 0x12, 0x4A].contains(code)) {
        assert_eq!(check(both, &plain(code)), Sense::new(6, 0x29, 0));
        let (told, _) = on_e(both, &plain(code));
        assert_eq!((told.next.power, told.next.change), (false, true));
        assert_eq!(check(told.next, &plain(code)), Sense::new(6, 0x28, 0));
        let (told, _) = on_e(told.next, &plain(code));
        assert_eq!((told.next.power, told.next.change), (false, false));
    }
    assert_eq!(on_e(both, &plain(0x12)).0.next, both);
    assert_eq!(on_e(both, &event_status(0x18, 8)).0.next, both);
    assert_eq!(check(both, &plain(0x4A)), Sense::new(5, 0x24, 0));
    let held = State {
        sense: sense::PREVENTED,
        ..both
    };
    let (reply, memory) = on_e(held, &request_sense(18));
    assert_eq!((reply.next, memory[12]), (both, 0x53));
    let (reply, memory) = on_e(both, &request_sense(18));
    assert_eq!((reply.next.power, reply.next.sense), (false, NONE));
    assert_eq!([memory[2], memory[12]], [6, 0x29]);
}

/// READ(10) and READ(12) are two classes: the same bytes name other blocks.
#[test]
fn the_two_reads_are_two_classes() {
    assert_eq!((class(0x28), class(0xA8)), (7, 10));
    let named = |mut packet: [u8; 12], code| {
        packet[0] = code;
        let (reply, _) = on_e(State::READY, &packet);
        (reply.status, reply.start, reply.count)
    };
    let (ten, twelve) = (read10(3, 0), read12(3, 100));
    assert_eq!(
        (named(twelve, 0xA8), named(twelve, 0x28)),
        ((0, 3, 100), (0, 3, 0))
    );
    assert_eq!((named(ten, 0xA8), named(ten, 0x28)), ((0, 3, 0), (0, 3, 0)));
    let one = read10(3, 1);
    assert_eq!((named(one, 0xA8), named(one, 0x28)), ((2, 0, 0), (0, 3, 1)));
}
