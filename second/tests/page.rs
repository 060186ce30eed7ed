//! Appendix A (K5): the page's lines, and what is said of a page that differs.

mod common;

use std::fs;
use std::path::PathBuf;

use common::{check, on_e};
use second::appendix::{self, difference, lines, needs_a_disc, under_an_attention};
use second::cases::packets::with_byte_4;
use second::drive::State;
use second::sense::Sense;
use second::{examples, files, stored};

const KNOWN: [&str; 16] = [
    "| 00h | TEST UNIT READY | 1 | yes | told first |",
    "| 03h | REQUEST SENSE | 2 | no | performed; gives it where no sense is held |",
    "| 12h | INQUIRY | 3 | no | performed |",
    "| 1Bh | START/STOP UNIT | 4 | with LoEj 0 and Start 1 | told first |",
    "| 1Eh | PREVENT/ALLOW | 5 | no | told first |",
    "| 25h | READ CAPACITY | 6 | yes | told first |",
    "| 28h | READ(10) | 7 | yes | told first |",
    "| 2Bh | SEEK(10) | 8 | yes | told first |",
    "| 43h | READ TOC | 9 | yes | told first |",
    "| A8h | READ(12) | 10 | yes | told first |",
    "| 45h | PLAY AUDIO(10) | 11 | yes | told first |",
    "| 4Bh | PAUSE/RESUME | 12 | yes | told first |",
    "| 42h | READ SUB-CHANNEL | 13 | yes | told first |",
    "| 5Ah | MODE SENSE(10) | 14 | no | told first |",
    "| 55h | MODE SELECT(10) | 15 | no | told first |",
    "| 4Ah | GET EVENT STATUS NOTIFICATION | 16 | no | performed |",
];

/// A page that has these lines between others.
fn page(lines: &[String]) -> String {
    let head = "# Appendix A\n\n| Code | Command | Class | Needs a disc | Under a pending attention |\n|---|---|---|---|---|";
    format!(
        "{head}\n{}\n\nThe 0Ah of | 0Ah | ends no line.\n",
        lines.join("\n")
    )
}

/// The sixteen codes, and all the others, in order.
#[test]
fn page_has_a_line_for_each_code() {
    let lines = lines();
    assert_eq!(lines.len(), 256);
    for (line, code) in lines.iter().zip(0..=255u8) {
        let begin = format!("| {code:02X}h |");
        let known = KNOWN.iter().find(|one| one.starts_with(&begin));
        let unknown = format!("{begin} unknown | 0 | no | told first |");
        assert_eq!(line, known.map_or(unknown.as_str(), |one| *one));
    }
    let known = lines.iter().filter(|line| !line.contains("unknown"));
    assert_eq!(known.count(), 16);
}

/// "Needing one: 00h, 25h, 28h, 2Bh, 43h, A8h, and 1Bh with LoEj 0 and Start
/// 1." K2: "These commands need a disc." K4's two and K7's 4Ah do not. The column
/// says what an open drive does too.
#[test]
fn needs_a_disc_is_step_4() {
    for code in 0..=255 {
        let due = match code {
            0x00 | 0x25 | 0x28 | 0x2B | 0x43 | 0xA8 => "yes",
            0x42 | 0x45 | 0x4B => "yes",
            0x1B => "with LoEj 0 and Start 1",
            _ => "no",
        };
        assert_eq!(needs_a_disc(code), due, "{code:02X}h");
        for byte_4 in 0..4 {
            let (reply, _) = on_e(State::READY.opened(), &with_byte_4(code, byte_4));
            let told = reply.next.sense == Sense::new(2, 0x3A, 2);
            let needs = due == "yes" || due != "no" && byte_4 == 1;
            assert_eq!(told, needs, "{code:02X}h {byte_4}");
        }
    }
}

/// "INQUIRY and REQUEST SENSE are performed even with an attention pending." K7's
/// 4Ah "is performed while an attention is pending, tells none"; any other is told.
#[test]
fn under_an_attention_is_steps_1_and_2() {
    for code in 0..=255 {
        let due = match code {
            0x03 => "performed; gives it where no sense is held",
            0x12 | 0x4A => "performed",
            _ => "told first",
        };
        assert_eq!(under_an_attention(code), due, "{code:02X}h");
    }
    let power = State::EMPTY.power_on();
    assert_eq!(check(power, &with_byte_4(0xFF, 18)), Sense::new(6, 0x29, 0));
}

/// The page as it must be, with other text around its lines.
#[test]
fn page_as_it_must_be() {
    let lines = lines();
    assert_eq!(difference(&page(&lines), &lines), None);
    assert_eq!(difference(&lines.join("\n"), &lines), None);
}

/// Each line in turn changed, left out, exchanged with the next, there twice.
#[test]
fn page_with_one_wrong_line() {
    let sound = lines();
    let said = |lines: &[String]| difference(&page(lines), &sound).expect("it differs");
    for code in 0..256 {
        let text = |words: &str| format!("{code:02X}h: {words}");
        for (old, new) in [
            (" | ", " |  "),
            ("told", "performed"),
            ("d", "D"),
            (" |", ""),
        ] {
            let mut wrong = sound.clone();
            // The first column stays: without it the line would be none.
            let (begin, rest) = wrong[code].split_at(7);
            let changed = format!("{begin}{}", rest.replace(old, new));
            if changed != wrong[code] {
                wrong[code] = changed;
                assert_eq!(said(&wrong), text("another line"));
            }
        }
        let mut wrong = sound.clone();
        wrong.remove(code);
        assert_eq!(said(&wrong), text("no line"));
        let mut wrong = sound.clone();
        wrong.insert(code, wrong[code].clone());
        assert_eq!(said(&wrong), text("there twice"));
        let mut wrong = sound.clone();
        wrong.push(wrong[code].clone());
        assert_eq!(said(&wrong), text("there twice"));
        if code < 255 {
            let mut wrong = sound.clone();
            wrong.swap(code, code + 1);
            assert_eq!(said(&wrong), text("out of order"));
        }
        // Written otherwise, it is no line of the table.
        let mut wrong = sound.clone();
        wrong[code] = wrong[code].replacen("h |", "H |", 1);
        assert_eq!(said(&wrong), text("no line"));
    }
    assert_eq!(said(&[]), "00h: no line");
}

/// `check` looks at the page beside the stored files.
#[test]
fn check_reads_the_page() {
    let root = Root::new();
    let mut all = stored::files();
    for (name, bytes) in examples::files() {
        all.push((format!("examples/{name}"), bytes));
    }
    assert!(all.iter().all(|(name, _)| name != appendix::PAGE));
    files::write(&root.0, &all).expect("it is written");
    let missing = "missing: docs/APPENDIX-A.md".to_string();
    assert_eq!(stored::check(&root.0), (all.len() + 1, vec![missing]));
    let mut lines = lines();
    root.lay(&page(&lines));
    assert_eq!(stored::check(&root.0), (all.len() + 1, vec![]));
    lines.swap(0x41, 0x42);
    root.lay(&page(&lines));
    let differs = "differs: docs/APPENDIX-A.md, 41h: out of order".to_string();
    assert_eq!(stored::check(&root.0).1, [differs]);
}

/// A folder that is gone when the test ends.
struct Root(PathBuf);

impl Root {
    fn new() -> Root {
        let name = format!("second-page-{}", std::process::id());
        Root(std::env::temp_dir().join(name))
    }

    fn lay(&self, page: &str) {
        let file = (appendix::PAGE.to_string(), page.as_bytes().to_vec());
        files::write(&self.0, &[file]).expect("it is written");
    }
}

impl Drop for Root {
    fn drop(&mut self) {
        let _ = fs::remove_dir_all(&self.0);
    }
}
