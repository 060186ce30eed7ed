//! K5: "Appendix A has a row for each operation code." The page's 256 lines by
//! this program's own reading, and a page held to them. Names and classes are
//! those of 01's list, K2's, K4's and K7's; the last two columns are what the drive
//! does.

use std::fs;
use std::path::Path;

use crate::cases::packets::{with_byte_4, Packet};
use crate::cases::sheet::disc_e;
use crate::drive::State;
use crate::limits::BOUND;
use crate::packet::{self, Reply, EVENT_STATUS};
use crate::sense::{self, Sense};

/// Where the page stands.
pub const PAGE: &str = "docs/APPENDIX-A.md";

/// 01's "Packets", in the list's order, then K2's three, K4's two and K7's one in
/// 02's.
pub const PACKETS: [(u8, &str); 16] = [
    (0x00, "TEST UNIT READY"),
    (0x03, "REQUEST SENSE"),
    (0x12, "INQUIRY"),
    (0x1B, "START/STOP UNIT"),
    (0x1E, "PREVENT/ALLOW"),
    (0x25, "READ CAPACITY"),
    (0x28, "READ(10)"),
    (0x2B, "SEEK(10)"),
    (0x43, "READ TOC"),
    (0xA8, "READ(12)"),
    (0x45, "PLAY AUDIO(10)"),
    (0x4B, "PAUSE/RESUME"),
    (0x42, "READ SUB-CHANNEL"),
    (0x5A, "MODE SENSE(10)"),
    (0x55, "MODE SELECT(10)"),
    (0x4A, "GET EVENT STATUS NOTIFICATION"),
];

/// "the command's class or "unknown"": the command's number in the list,
/// counted from 1, and 0 for a code that no command has.
pub fn class(code: u8) -> usize {
    PACKETS
        .iter()
        .position(|&(one, _)| one == code)
        .map_or(0, |place| place + 1)
}

/// The command that has this code.
pub fn name(code: u8) -> &'static str {
    match class(code) {
        0 => "unknown",
        class => PACKETS[class - 1].1,
    }
}

/// What the drive answers and the bytes that it gives, Table E and no list lent.
fn answer(state: State, packet: &Packet) -> (Reply, Vec<u8>) {
    let mut memory = vec![0; BOUND];
    let reply = packet::perform(state, &disc_e().bytes(), &[], packet, &mut memory);
    memory.truncate(reply.length);
    (reply, memory)
}

/// A packet of this code and byte 4, all else 0 but 4Ah's Polled bit: without it
/// 4Ah is 05/24/00, whatever is pending.
fn asking(code: u8, byte_4: u8) -> Packet {
    let mut p = with_byte_4(code, byte_4);
    p[1] = u8::from(code == EVENT_STATUS);
    p
}

/// Whether the answer is CHECK CONDITION with this triple.
fn tells(reply: &Reply, triple: Sense) -> bool {
    reply.refusal.is_none() && reply.status == 0x02 && reply.next.sense == triple
}

/// Step 4, on a closed drive without a disc and with nothing pending: which of
/// the four settings of byte 4's bits 1 and 0 (LoEj and Start) get 02/3A/01.
pub fn needs_a_disc(code: u8) -> &'static str {
    let told = [0, 1, 2, 3].map(|byte_4| {
        let (reply, _) = answer(State::EMPTY, &asking(code, byte_4));
        tells(&reply, sense::NO_MEDIUM)
    });
    match told {
        [true, true, true, true] => "yes",
        [false, false, false, false] => "no",
        [false, true, false, false] => "with LoEj 0 and Start 1",
        _ => "with other bits",
    }
}

/// Steps 1 and 2, loaded: what the packet does under the power attention, and
/// under the change attention too.
pub fn under_an_attention(code: u8) -> &'static str {
    let power = State::READY.power_on_without_change();
    let change = State {
        change: true,
        ..State::READY
    };
    let words = under(code, power, sense::POWERED_ON);
    if words == under(code, change, sense::CHANGED) {
        words
    } else {
        "not alike"
    }
}

/// What the packet does under the one attention that is pending here, with no
/// sense held and with one. A length of 18 lets an answer show what it gives.
fn under(code: u8, pending: State, attention: Sense) -> &'static str {
    let p = asking(code, 18);
    let holding = State {
        sense: sense::PREVENTED,
        ..pending
    };
    let ((free, given), (held, _)) = (answer(pending, &p), answer(holding, &p));
    let gone = |reply: &Reply| !reply.next.power && !reply.next.change;
    let told = |reply: &Reply| tells(reply, attention) && gone(reply);
    let good = |reply: &Reply| reply.refusal.is_none() && reply.status == 0x00;
    // REQUEST SENSE: "byte 0 70h, 2 key, .. 12 ASC, 13 ASCQ"
    let gives = given.len() == 18
        && Sense::new(given[2], given[12], given[13]) == attention
        && given[0] == 0x70;
    if told(&free) && told(&held) {
        return "told first";
    }
    match (good(&free) && good(&held), gone(&free), gone(&held)) {
        (true, false, false) => "performed",
        (true, true, false) if gives => "performed; gives it where no sense is held",
        _ => "otherwise",
    }
}

/// "a fixed table of 256 rows, one per code": the page's lines, in order.
pub fn lines() -> Vec<String> {
    (0..=255).map(line).collect()
}

fn line(code: u8) -> String {
    format!(
        "| {code:02X}h | {} | {} | {} | {} |",
        name(code),
        class(code),
        needs_a_disc(code),
        under_an_attention(code)
    )
}

/// The code of a page's line, where it begins with "| ", two capital hex
/// digits and "h |".
fn code_of(line: &str) -> Option<u8> {
    let rest = line.strip_prefix("| ")?;
    let (digits, behind) = rest.split_at_checked(2)?;
    let hex = |digit: u8| matches!(digit, b'0'..=b'9' | b'A'..=b'F');
    if !digits.bytes().all(hex) || !behind.starts_with("h |") {
        return None;
    }
    u8::from_str_radix(digits, 16).ok()
}

/// The first code whose line on the page is not as is due, and what is wrong
/// with it.
pub fn difference(page: &str, due: &[String]) -> Option<String> {
    let found: Vec<(u8, &str)> = page
        .split('\n')
        .filter_map(|line| Some((code_of(line)?, line)))
        .collect();
    for (place, (code, due)) in (0..=255).zip(due).enumerate() {
        let wrong = match found.get(place) {
            Some((_, line)) if line == due => continue,
            Some(&(one, _)) if one == code => "another line",
            Some(&(one, _)) if one < code => return Some(format!("{one:02X}h: there twice")),
            _ if found.iter().any(|&(one, _)| one == code) => "out of order",
            _ => "no line",
        };
        return Some(format!("{code:02X}h: {wrong}"));
    }
    let (code, _) = found.get(due.len())?;
    Some(format!("{code:02X}h: there twice"))
}

/// What is wrong with the page below this root, in the words of `check`.
pub fn check(root: &Path) -> Option<String> {
    let Ok(bytes) = fs::read(root.join(PAGE)) else {
        return Some(format!("missing: {PAGE}"));
    };
    let wrong = difference(&String::from_utf8_lossy(&bytes), &lines())?;
    Some(format!("differs: {PAGE}, {wrong}"))
}
