//! What the stored cases and the listing pairs cover.

use std::collections::BTreeSet;

use second::cases::bad::random_stream;
use second::cases::made;
use second::cases::packets::{
    capacity, prevent, request_sense, start_stop, test_ready, Packet, EJECT, LOAD,
};
use second::cases::pairs::{each_rule, pair};
use second::cases::several::alone;
use second::cases::sheet::{disc_e, fullest};
use second::cases::stream::Stream;
use second::drive::State;
use second::table::{self, Row};
use second::tally::{self, Met};
use second::{examples, listing, replay, sense, stored};

const READY: State = State::READY;

/// The kinds of line: letter and number, and the triples told.
fn seen(lines: &str) -> (BTreeSet<String>, BTreeSet<String>) {
    let (mut kinds, mut told) = (BTreeSet::new(), BTreeSet::new());
    for line in lines.lines() {
        let words: Vec<&str> = line.split(' ').collect();
        // A shelf's line has thirteen totals or none.
        kinds.insert(match words[..] {
            ["h", "too", "large"] => "h too".to_string(),
            ["h", ..] => "h totals".to_string(),
            _ => words[..2].join(" "),
        });
        if words[0] == "p" && words[2] == "02" {
            told.insert(words[7..10].join(" "));
        }
    }
    (kinds, told)
}

fn covers_all(lines: &str) {
    let (kinds, told) = seen(lines);
    for kind in [
        "o 0", "q 0", "b 0", "b 2", "b 5", "d 0", "d 2", "d 6", "u 0", "u 2", "u 7", "p 0", "p 1",
        "p 2", "p 3", "a 0", "a 8", "c 0", "c 8", "s 0", "s 10", "m 0", "m 2", "t 0", "t 12",
        "t 13", "t 14", "h totals", "h too", "O 0", "Q 0", "M 0", "M 2", "P 0", "P 1", "P 2",
        "P 3", "P 11",
    ] {
        assert!(kinds.contains(kind), "{kind}");
    }
    for rule in 1..=7 {
        for kind in ["p", "s", "P"].map(|letter| format!("{letter} 4.{rule}")) {
            assert!(kinds.contains(&kind), "{kind}");
        }
    }
    for triple in &sense::TRIPLES[1..] {
        assert!(told.contains(&triple.text()), "{}", triple.text());
    }
}

#[test]
fn stored_stream_covers_all() {
    let stream = stored::stored_stream();
    let lines = replay::run(&stream.bytes);
    covers_all(&lines);
    assert!(lines.ends_with("bad record\n"));
    assert_eq!(lines.lines().count(), stream.calls + 1);
}

#[test]
fn random_streams_cover_all() {
    for seed in [0, 1, 2] {
        covers_all(&replay::run(&random_stream(seed, 20_000).bytes));
    }
}

/// The bodies of all records of a kind; a stream's sound part only.
fn bodies(mut stream: &[u8], kind: u8) -> Vec<&[u8]> {
    let mut list = Vec::new();
    while let [one, high, low, rest @ ..] = stream {
        let length = usize::from(u16::from_be_bytes([*high, *low]));
        let Some((body, after)) = rest.split_at_checked(length) else {
            break;
        };
        if *one == kind {
            list.push(body);
        }
        stream = after;
    }
    list
}

/// B0h, C0h, both and neither behind first, middle and last sessions of fit
/// tables; unfit ones of every rule beside them; tables and memories at the
/// bound. Fit tables with B0h or C0h are often, and so are those without.
fn covers_mode_5(stream: &[u8]) {
    let (mut closed, mut broken, mut sizes) = (BTreeSet::new(), [0; 8], BTreeSet::new());
    let (mut with, mut without) = (0, 0);
    for bytes in bodies(stream, replay::TABLE) {
        sizes.insert(bytes.len());
        match table::read(bytes) {
            Ok(disc) => {
                let mut rows = disc.sessions.iter().flat_map(|one| &one.rows);
                if rows.any(Row::is_mode_5) {
                    with += 1;
                } else {
                    without += 1;
                }
                let last = disc.sessions.len() - 1;
                for (i, session) in disc.sessions.iter().enumerate() {
                    let points = session.rows.iter().map(Row::point);
                    let tail: Vec<u8> = points.filter(|&point| point >= 0xB0).collect();
                    closed.insert((usize::from(i > 0) + usize::from(i == last && i > 0), tail));
                }
            }
            Err(rule) => {
                let points = bytes
                    .get(4..)
                    .unwrap_or(&[])
                    .chunks(11)
                    .map(|row| row.get(3));
                let some = points.flatten().any(|point| [0xB0, 0xC0].contains(point));
                broken[usize::from(rule)] += usize::from(some);
            }
        }
    }
    for place in 0..3 {
        for tail in [vec![], vec![0xB0], vec![0xC0], vec![0xB0, 0xC0]] {
            assert!(
                closed.contains(&(place, tail.clone())),
                "{place} {tail:02X?}"
            );
        }
    }
    assert!(broken[1..].iter().all(|&n| n > 3), "{broken:?}");
    assert!(with > 100 && without > 100, "{with} {without}");
    for size in [6_538, 6_539, 6_549] {
        assert!(sizes.contains(&size), "{size}");
    }
    let memories = bodies(stream, replay::MEMORY);
    for size in [4_360u16, 6_537, 6_538, 6_539, 8_191] {
        let [high, low] = size.to_be_bytes();
        assert!(memories.iter().any(|one| one[..2] == [high, low]), "{size}");
    }
}

#[test]
fn streams_lend_b0_and_c0() {
    covers_mode_5(&stored::stored_stream().bytes);
    for seed in [8, 16, 24] {
        covers_mode_5(&random_stream(seed, 20_000).bytes);
    }
}

#[test]
fn stored_files_stay_small() {
    let total: usize = stored::files().iter().map(|(_, bytes)| bytes.len()).sum();
    assert!(total < 4_000_000);
}

#[test]
fn listing_edges() {
    let header = "n st key asc ascq len data start count\n";
    let e = disc_e().bytes();
    assert_eq!(listing::print(&e, &[]), header);
    assert_eq!(listing::print(&e, &[0; 49_153]), "too long\n");
    assert_eq!(listing::print(&e, &[0; 49_152]).lines().count(), 4_097);
    let short = listing::print(&e, &[0; 17]);
    assert!(short.ends_with("\n2 refused 1\n"));
    let mut over = fullest().bytes();
    assert!(!listing::print(&over, &[0; 12]).contains("refused"));
    over.push(0);
    let unfit = format!("{header}1 refused 4 1\n2 refused 1\n");
    assert_eq!(listing::print(&over, &[0; 13]), unfit);
    assert_eq!(listing::print(&[], &[0; 13]), unfit);
    // "a GOOD INQUIRY shows the sense held before"
    let told = listing::print(&e, &[[0; 12], second::cases::packets::inquiry(1)].concat());
    assert!(told.ends_with("\n2 00 06 29 00 1 05 0 0\n"));
}

#[test]
fn listing_pairs_take_their_turns() {
    for seed in 0..3 {
        let outs: Vec<String> = (0..20)
            .map(|i| pair(seed, i))
            .map(|pair| listing::print(&pair.table, &pair.packets))
            .collect();
        assert_eq!(outs[0].lines().count(), 1);
        assert!(outs[1].ends_with("refused 1\n"));
        assert_eq!(outs[2].lines().count(), 4_097);
        assert_eq!(outs[3], "too long\n");
        assert!(outs[4].contains("\n1 refused 4 "));
        assert!(outs[5].contains("\n1 refused 4 1\n"));
    }
}

/// The drawn pairs have tables that break each rule, and some that none.
#[test]
fn listing_pairs_break_each_rule() {
    let spoilt = (0..800).filter(|number| [6, 7].contains(&(number % 10)));
    let rules = spoilt.map(|number| table::broken_rule(&pair(1, number).table));
    assert_eq!(rules.collect::<BTreeSet<u8>>(), (0..=7).collect());
}

/// K6: "the listing program prints it after the 4", and nothing after a 1.
#[test]
fn listing_prints_the_rule() {
    for (pair, rule) in each_rule().iter().zip(1..) {
        let lines = listing::print(&pair.table, &pair.packets);
        let [one, two, three] = [1, 2, 3].map(|n| format!("{n} refused 4 {rule}\n"));
        let header = "n st key asc ascq len data start count\n";
        assert_eq!(lines, format!("{header}{one}{two}{three}4 refused 1\n"));
    }
}

/// A table, packets and listing for each rule are kept.
#[test]
fn stored_listings_show_each_rule() {
    let files = stored::files();
    for rule in 1..=7 {
        let name = format!("second/listings/rule-{rule}");
        let kept = |end: &str| files.iter().find(|(one, _)| *one == name.clone() + end);
        let [table, packets, expected] =
            [".table", ".packets", ".expected"].map(|end| &kept(end).expect("it is kept").1);
        assert_eq!(table::broken_rule(table), rule);
        assert_eq!(listing::print(table, packets).as_bytes(), expected);
        let line = format!("\n1 refused 4 {rule}\n");
        assert!(String::from_utf8_lossy(expected).contains(&line));
    }
}

/// Broken tables are many, of every rule, and met by packets and by parts.
#[test]
fn streams_meet_each_rule_often() {
    let streams = [stored::stored_stream(), random_stream(32, 17_000)];
    for (stream, least) in streams.iter().zip([60, 80]) {
        for (met, rule) in tally::of(&stream.bytes).iter().zip(1..) {
            let Met {
                tables,
                packets,
                parts,
            } = *met;
            assert!(tables.min(packets).min(parts) > least, "{rule} {met:?}");
        }
    }
}

/// A table counts once, each call that it refuses for itself.
#[test]
fn tally_counts() {
    let mut stream = Stream::new();
    let [one, three] = [1, 3].map(alone);
    for table in [&one, &three, &disc_e().bytes(), &three] {
        stream.table(table);
        stream.part(1);
        stream.part(2);
    }
    let tally = tally::of(&stream.bytes);
    let met = |tables, parts| Met {
        tables,
        packets: 0,
        parts,
    };
    assert_eq!(
        [tally[0], tally[1], tally[2]],
        [met(1, 2), met(0, 0), met(2, 4)]
    );
    let head = "rule tables packets parts\n1 1 0 2\n2 0 0 0\n3 2 0 4\n";
    assert!(tally::print(&stream.bytes).starts_with(head));
}

/// Power-ons count by their form, tray and disc.
#[test]
fn tally_counts_power_ons() {
    let mut stream = Stream::new();
    for (n, state) in [(1, READY), (2, READY.opened()), (3, State::EMPTY)] {
        for _ in 0..n {
            stream.state(state);
            stream.power_on();
        }
    }
    stream.button();
    stream.power_on_without_change();
    stream.lay();
    stream.power_on_without_change();
    stream.button();
    stream.power_on_without_change();
    stream.power_on();
    let forms = "form loaded disc-in-open-tray closed-empty open-empty\no 2 2 3 0\nq 1 1 0 1\n";
    assert!(tally::print(&stream.bytes).contains(forms));
}

#[test]
fn examples_show_the_marked_results() {
    let files = examples::files();
    let find = |name: &str| &files.iter().find(|(one, _)| one == name).unwrap().1;
    let out = listing::print(find("disc-e.table"), find("marked.packets"));
    assert_eq!(out.lines().count(), 12);
    assert!(out.contains("\n5 00 00 00 00 12 000A01020010AA0000000600 0 0\n"));
    let out = listing::print(find("two-sessions.table"), find("sessions.packets"));
    assert!(out.contains("\n3 00 00 00 00 12 000A0102001404000000300C 0 0\n"));
    let (table, packets) = (find("sff-8020i-t134.table"), find("sff-8020i-t134.packets"));
    assert_eq!((table.len(), packets.len()), (323, 84));
    let out = listing::print(table, packets);
    assert!(out.contains("\n2 00 00 00 00 12 000A010400140A000000F8ED 0 0\n"));
    assert!(out.ends_with("\n7 00 00 00 00 8 000143D400000800 0 0\n"));
}

/// The lines that the listing prints for these packets on Table E.
fn listed(packets: &[Packet]) -> Vec<String> {
    let out = listing::print(&disc_e().bytes(), &packets.concat());
    out.lines().skip(1).map(String::from).collect()
}

/// "powers on loaded": the power-on is told first, then the disc is there. K3:
/// by the second form, so no change is told.
#[test]
fn listing_powers_on_loaded() {
    let lines = listed(&[test_ready(), test_ready(), capacity()]);
    assert_eq!(lines[0], "1 02 06 29 00 0 - 0 0");
    assert_eq!(lines[1], "2 00 00 00 00 0 - 0 0");
    assert_eq!(lines[2], "3 00 00 00 00 8 0000012B00000800 0 0");
}

/// Attention, sense, lock and tray are each met by a later packet.
#[test]
fn listing_carries_the_state() {
    let lines = listed(&[
        prevent(1),
        prevent(1),
        start_stop(EJECT),
        request_sense(14),
        prevent(0),
        start_stop(EJECT),
        test_ready(),
        start_stop(LOAD),
        test_ready(),
        test_ready(),
    ]);
    let expected = [
        "1 02 06 29 00 0 - 0 0",
        "2 00 00 00 00 0 - 0 0",
        "3 02 05 53 02 0 - 0 0",
        "4 00 00 00 00 14 700005000000000A000000005302 0 0",
        "5 00 00 00 00 0 - 0 0",
        "6 00 00 00 00 0 - 0 0",
        "7 02 02 3A 02 0 - 0 0",
        "8 00 00 00 00 0 - 0 0",
        "9 02 06 28 00 0 - 0 0",
        "10 00 00 00 00 0 - 0 0",
    ];
    assert_eq!(lines, expected);
}

/// Each maker is there under its name and makes something that runs.
#[test]
fn makers_by_name() {
    for name in made::names() {
        let files = made::made(name).expect("a name of the list");
        for (file, bytes) in files {
            if file == "stream" {
                let lines = replay::run(&bytes);
                assert!(!lines.is_empty() && !lines.contains("bad record"), "{name}");
            }
        }
    }
    assert!(made::made("made.rs#made").is_none());
}
