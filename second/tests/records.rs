//! The replay stream: line forms and every way a record is bad.

use second::adler::adler32;
use second::cases::bad::{bad_records, random_stream};
use second::cases::packets::{capacity, test_ready};
use second::cases::several::alone;
use second::cases::sheet::disc_e;
use second::cases::stream::Stream;
use second::drive::State;
use second::mode_page::ModePage;
use second::play::Play;
use second::replay::run;

#[test]
fn adler() {
    assert_eq!(adler32(b""), 1);
    assert_eq!(adler32(b"Wikipedia"), 0x11E6_0398);
    let naive = |bytes: &[u8]| {
        let (mut a, mut b) = (1u64, 0u64);
        for &byte in bytes {
            a = (a + u64::from(byte)) % 65_521;
            b = (b + a) % 65_521;
        }
        (b << 16 | a) as u32
    };
    let high = vec![0xFF; 20_000];
    assert_eq!(adler32(&high), naive(&high));
}

#[test]
fn line_forms() {
    let mut stream = Stream::new();
    stream.packet(&test_ready());
    stream.part(1);
    stream.memory(6_538, 0);
    stream.table(&disc_e().bytes());
    stream.state(State::READY);
    stream.power_on();
    stream.power_on_without_change();
    stream.packet(&test_ready());
    stream.packet(&capacity());
    stream.state(State {
        play: Play::new(0x11, 150, 300),
        mode: ModePage::new(0x35, 0xFF),
        event: 1,
        ..State::READY
    });
    stream.list(&[1; 16]);
    stream.move_on(149);
    stream.move_on(u32::MAX);
    stream.button();
    stream.lay();
    stream.lift();
    stream.button();
    stream.to_msf(449_849);
    stream.to_msf(449_850);
    stream.to_address(0, 2, 0);
    stream.to_address(0, 1, 74);
    stream.part(1);
    stream.part(2);
    assert_eq!(stream.calls, 18);
    let lines = run(&stream.bytes);
    let table = disc_e().bytes();
    let mut memory = vec![0; 6_538];
    let blank = adler32(&memory);
    memory[..8].copy_from_slice(&[0, 0, 1, 0x2B, 0, 0, 8, 0]);
    let expected = [
        "p 2 00 0 0 0 00000 00 00 00 00 0 0 00 00 0 - 00000001".to_string(),
        "s 4.1 0 00000001".to_string(),
        "o 0 01011 00 00 00 15 0 0 00 00 0".to_string(),
        "q 0 01010 00 00 00 15 0 0 00 00 0".to_string(),
        format!("p 0 02 0 0 0 01000 06 29 00 15 0 0 00 00 0 - {blank:08X}"),
        format!(
            "p 0 00 8 0 0 01000 00 00 00 15 0 0 00 00 0 0000012B00000800 {:08X}",
            adler32(&memory)
        ),
        "m 0 01000 00 00 00 11 299 300 35 FF 1".to_string(),
        "m 0 01000 00 00 00 13 300 300 35 FF 1".to_string(),
        "b 0 11000 00 00 00 15 0 0 35 FF 3".to_string(),
        "d 6 11000 00 00 00 15 0 0 35 FF 3".to_string(),
        "u 0 10000 00 00 00 15 0 0 35 FF 3".to_string(),
        "b 0 00000 00 00 00 15 0 0 35 FF 3".to_string(),
        "a 0 99 59 74".to_string(),
        "a 8 0 0 0".to_string(),
        "c 0 0".to_string(),
        "c 8 0".to_string(),
        format!("s 0 55 {:08X}", adler32(&table[4..])),
        "s 10 0 00000001".to_string(),
    ];
    assert_eq!(lines, expected.join("\n") + "\n");
}

/// K6: "where N is 4, in `p` and `s` lines, it is written `4.R`".
#[test]
fn lines_with_a_rule() {
    let mut stream = Stream::new();
    stream.memory(6_538, 0);
    let mut expected = String::new();
    for rule in (1..=7).rev() {
        stream.table(&alone(rule));
        stream.part(0);
        stream.packet_from(State::READY, &test_ready());
        stream.packet(&[]);
        stream.table(&disc_e().bytes());
        stream.part(0);
        let rest = "00 0 0 0 01000 00 00 00 15 0 0 00 00 0 - 198A0001";
        expected += &format!("s 4.{rule} 0 00000001\np 4.{rule} {rest}\np 1 {rest}\n");
        expected += "s 10 0 00000001\n";
    }
    assert_eq!(adler32(&[0; 6_538]), 0x198A_0001);
    assert_eq!(run(&stream.bytes), expected);
}

#[test]
fn each_bad_record_ends_the_run() {
    assert_eq!(run(&[]), "");
    let mut before = Stream::new();
    before.power_on();
    let good = run(&before.bytes);
    for (name, bytes) in bad_records() {
        let mut stream = before.bytes.clone();
        stream.extend(&bytes);
        assert_eq!(run(&stream), format!("{good}bad record\n"), "{name}");
        assert_eq!(run(&bytes), "bad record\n", "{name}");
    }
}

/// K3: "kind 11 the second form", its body empty as kind 3's. K2: "kind 12, the
/// outside call, body k (4 bytes)". K4: "kind 13, the parameter list lent from now
/// on; prints nothing". K12: "kind 14, a cue sheet (the body)". K11's are 15 to 20
/// (`changer_kinds`), K14's 21 to 23 (`register_kinds`); K13's is 24, with thirteen
/// totals before its tables.
#[test]
fn kinds_are_0_to_24() {
    assert_eq!(run(&[3, 0, 0]), "o 0 00010 00 00 00 15 0 0 00 00 0\n");
    assert_eq!(run(&[11, 0, 0]), "q 0 00010 00 00 00 15 0 0 00 00 0\n");
    // At the start the play status is 00h: 2 refuses.
    assert_eq!(
        run(&[12, 0, 4, 0, 0, 0, 1]),
        "m 2 00000 00 00 00 00 0 0 00 00 0\n"
    );
    for length in (0..=255).filter(|&length| length != 4) {
        let mut record = vec![12, 0, length];
        record.resize(3 + usize::from(length), 0);
        assert_eq!(run(&record), "bad record\n");
    }
    for length in 0..=255 {
        let mut record = vec![13, 0, length];
        record.resize(3 + usize::from(length), 1);
        assert_eq!(run(&record), "");
    }
    // There is no memory at the start.
    for length in 0..=255 {
        let mut record = vec![14, 0, length];
        record.resize(3 + usize::from(length), 1);
        assert_eq!(run(&record), "t 14 0 00000001\n");
    }
    for length in 0..=255 {
        let mut record = vec![24, 0, length];
        record.resize(3 + usize::from(length), 0);
        let known = run(&record).starts_with("h ");
        assert_eq!(known, length >= 104);
    }
    for unknown in 25..=255 {
        assert_eq!(run(&[unknown, 0, 0, 11, 0, 0]), "bad record\n");
        let body = [unknown, 0, 4, 0, 0, 0, 1];
        assert_eq!(run(&body), "bad record\n");
    }
}

/// Kind 0's body is 20 bytes: K2's "play status (1 byte), position (4), end (4)"
/// stand behind the sense, high byte first, then K4's recovery byte and retry
/// count, then K7's media event, printed as a decimal. Any of them may be set; 2 is
/// for the calls.
#[test]
fn state_has_the_record_the_page_and_the_event() {
    let mut stream = vec![0, 0, 20, 1, 1, 0, 0, 1, 5, 0x24, 0];
    stream.extend([0xFE, 1, 2, 3, 4, 0xFF, 0, 0, 9, 0xC2, 0xA8, 0xD9]);
    stream.extend([12, 0, 4, 0, 0, 0, 0]);
    let line = "m 2 11001 05 24 00 FE 16909060 4278190089 C2 A8 217\n";
    assert_eq!(run(&stream), line);
    for length in (0..=255usize).filter(|&length| length != 20) {
        let mut record = vec![0, 0, length as u8];
        record.resize(3 + length, 0);
        assert_eq!(run(&record), "bad record\n");
    }
}

#[test]
fn longest_sound_records() {
    let mut stream = Stream::new();
    stream.table(&[0; 8_191]);
    stream.list(&[0; 8_191]);
    stream.cue_sheet(&[0; 8_191]);
    stream.record(24, &[0; 8_191]);
    stream.memory(8_191, 1);
    stream.packet(&[0; 8_191]);
    stream.packet(&[]);
    stream.table(&[]);
    stream.list(&[]);
    stream.memory(0, 1);
    stream.cue_sheet(&[]);
    stream.record(24, &[0; 104]);
    assert_eq!(run(&stream.bytes).lines().count(), 6);
}

#[test]
fn streams_end_as_the_seed_says() {
    for seed in 0..32 {
        let stream = random_stream(seed, 300);
        assert!(stream.calls >= 300);
        let lines = run(&stream.bytes);
        let bad = lines.ends_with("bad record\n");
        assert_eq!(bad, seed % 8 != 0);
        assert_eq!(lines.lines().count(), stream.calls + usize::from(bad));
        assert_eq!(random_stream(seed, 300).bytes, stream.bytes);
    }
}
