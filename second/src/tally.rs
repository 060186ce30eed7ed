//! How many broken tables a stream meets, by the rule that refusal 4 carries
//! (K6), how many power-ons it has, by form and by what they meet (K3), how many
//! plays, 42h and outside calls, by status (K2), how many 5Ah, by page control,
//! and 55h, by outcome (K4), how many 4Ah, by class and by outcome, and presses
//! under lock (K7), how many pairs of calls that may cancel (K8), how many calls are met
//! by twin tables, by command (K10), how many cue sheets, by outcome (K12), what its shelves
//! hold (K13), what the changer is asked for, by outcome (K11), and what the registers are,
//! with their runs by limit (K14).

use std::fmt::Write;

use crate::cases::twin_tables::{are_twins, is_format_2};
use crate::changer::{obstacle, Changer, Obstacle, Slot, LOAD_UNLOAD, MECHANISM_STATUS};
use crate::cue;
use crate::drive::State;
use crate::events::{is_event, EXTERNAL, MEDIA, NO_EVENT};
use crate::mode_page::{PAGE, SETTINGS};
use crate::play::STATUSES;
use crate::replay::{self, take_record, SHELF_BYTES};
use crate::shelf::{self, Item, Totals, FIT, TABLES, TRACKS, UNFIT};

/// Of one rule: tables that a call was refused for, and those calls.
#[derive(Clone, Copy, Debug, Default, PartialEq, Eq)]
pub struct Met {
    pub tables: usize,
    pub packets: usize,
    pub parts: usize,
}

/// What the stream's lines show, rule 1 first.
pub fn of(stream: &[u8]) -> [Met; 7] {
    let lines = replay::run(stream);
    let mut lines = lines.lines();
    let mut tally = [Met::default(); 7];
    let (mut rest, mut fresh) = (stream, true);
    while let Ok((kind, _, after)) = take_record(rest) {
        rest = after;
        if !replay::is_call(kind) {
            // A table counts once, however many calls it refuses.
            fresh |= kind == replay::TABLE;
            continue;
        }
        if let Some((letter, rule)) = lines.next().and_then(refused_by_4) {
            let met = &mut tally[rule - 1];
            met.tables += usize::from(fresh);
            met.packets += usize::from(["p", "P", "w"].contains(&letter));
            met.parts += usize::from(letter == "s");
            fresh = false;
        }
    }
    tally
}

/// The letter and the rule of a line whose number is 4.
fn refused_by_4(line: &str) -> Option<(&str, usize)> {
    let (letter, behind) = line.split_once(" 4.")?;
    let (rule, _) = behind.split_once(' ')?;
    Some((letter, rule.parse().ok()?))
}

/// Power-ons of one form, by the tray and the disc that they meet.
#[derive(Clone, Copy, Debug, Default, PartialEq, Eq)]
pub struct PowerOns {
    pub loaded: usize,
    pub disc_in_open_tray: usize,
    pub closed_empty: usize,
    pub open_empty: usize,
}

/// Those of the default form, then those of the second.
pub fn power_ons(stream: &[u8]) -> [PowerOns; 2] {
    let mut forms = [PowerOns::default(); 2];
    for line in replay::run(stream).lines() {
        let (form, state) = match line.split_at_checked(4) {
            Some(("o 0 ", state)) => (0, state),
            Some(("q 0 ", state)) => (1, state),
            _ => continue,
        };
        let met = &mut forms[form];
        // Tray and disc are kept, so they stand in the line as they were met.
        let count = match &state[..2] {
            "01" => &mut met.loaded,
            "11" => &mut met.disc_in_open_tray,
            "00" => &mut met.closed_empty,
            _ => &mut met.open_empty,
        };
        *count += 1;
    }
    forms
}

/// Of one status: GOOD 42h that tell it, and outside calls that leave it.
#[derive(Clone, Copy, Debug, Default, PartialEq, Eq)]
pub struct Status {
    pub told: usize,
    pub left: usize,
}

/// What a stream has of K2.
#[derive(Clone, Copy, Debug, Default, PartialEq, Eq)]
pub struct Audio {
    /// GOOD PLAYs that begin a play, and all the others.
    pub plays: usize,
    pub failed: usize,
    /// GOOD PAUSE/RESUME, and all the others.
    pub pauses: usize,
    pub refused_pauses: usize,
    /// By status, in the order of `STATUSES`.
    pub by_status: [Status; 4],
    /// Outside calls that 2 refuses.
    pub refused_moves: usize,
}

/// Where a packet's bytes stand in its line, behind the state.
const DATA: usize = 16;

/// Each call's line shows what became of it; a packet's code stands in its body.
pub fn audio(stream: &[u8]) -> Audio {
    let lines = replay::run(stream);
    let mut lines = lines.lines();
    let (mut rest, mut audio) = (stream, Audio::default());
    while let Ok((kind, body, after)) = take_record(rest) {
        rest = after;
        if !replay::is_call(kind) {
            continue;
        }
        let Some(line) = lines.next().filter(|&line| line != "bad record") else {
            break;
        };
        let words: Vec<&str> = line.split(' ').collect();
        match (kind, body.first()) {
            (replay::MOVE_ON, _) if words[1] == "2" => audio.refused_moves += 1,
            (replay::MOVE_ON, _) => count(&mut audio, words[6], |status| &mut status.left),
            (replay::PACKET, Some(0x45)) if body.len() == 12 => {
                let begun = words[1..3] == ["0", "00"] && body[7..9] != [0, 0];
                audio.plays += usize::from(begun);
                audio.failed += usize::from(!begun);
            }
            (replay::PACKET, Some(0x4B)) if body.len() == 12 => {
                let good = words[1..3] == ["0", "00"];
                audio.pauses += usize::from(good);
                audio.refused_pauses += usize::from(!good);
            }
            (replay::PACKET, Some(0x42)) if words[1..3] == ["0", "00"] => {
                if let Some(told) = words[DATA].get(2..4) {
                    count(&mut audio, told, |status| &mut status.told);
                }
            }
            _ => {}
        }
    }
    audio
}

/// Counts one of the status that these two hex digits name.
fn count(audio: &mut Audio, digits: &str, which: fn(&mut Status) -> &mut usize) {
    let named = |status: &u8| format!("{status:02X}") == digits;
    if let Some(place) = STATUSES.iter().position(named) {
        *which(&mut audio.by_status[place]) += 1;
    }
}

/// What a stream has of K4.
#[derive(Clone, Copy, Debug, Default, PartialEq, Eq)]
pub struct Modes {
    /// GOOD 5Ah for current, changeable and default values.
    pub sensed: [usize; 3],
    /// 5Ah for saved values of page 01h, and for another page.
    pub saved: usize,
    pub other_pages: usize,
    /// GOOD 55h with a list of 16, and with none.
    pub set: usize,
    pub empty: usize,
    /// 55h with a wrong list length, and with a wrong list.
    pub lengths: usize,
    pub lists: usize,
    /// Both, told an attention or refused.
    pub other: usize,
    /// Calls that 2 refuses while the recovery byte is none of the twenty.
    pub unsound: usize,
}

/// A packet's status, sense and body tell which of them it is.
pub fn modes(stream: &[u8]) -> Modes {
    let lines = replay::run(stream);
    let mut lines = lines.lines();
    let (mut rest, mut modes) = (stream, Modes::default());
    while let Ok((kind, body, after)) = take_record(rest) {
        rest = after;
        if !replay::is_call(kind) {
            continue;
        }
        let Some(line) = lines.next().filter(|&line| line != "bad record") else {
            break;
        };
        let words: Vec<&str> = line.split(' ').collect();
        let refused = words[1] == "2" && kind != replay::SHELF;
        modes.unsound += usize::from(refused && !has_a_setting(&words, kind));
        if kind == replay::PACKET && body.len() == 12 && [0x5A, 0x55].contains(&body[0]) {
            *modes.of(body, &words[1..3], &words[7..10].join("/")) += 1;
        }
    }
    modes
}

/// Where the state begins in the line of a call of this kind: behind its number, what a
/// packet gives, and the registers.
fn state_place(kind: u8) -> usize {
    match kind {
        replay::PACKET | replay::CHANGER_PACKET => 6,
        replay::RESET => 2 + REG,
        replay::WRITE => 4 + REG,
        _ => 2,
    }
}

/// Whether the recovery byte in a line is one of the twenty: it stands behind the
/// play record, which has three words.
fn has_a_setting(words: &[&str], kind: u8) -> bool {
    let place = state_place(kind) + 7;
    let named = |setting: &u8| format!("{setting:02X}") == words[place];
    SETTINGS.iter().any(named)
}

impl Modes {
    /// The count that a 5Ah or 55h belongs to.
    fn of(&mut self, body: &[u8], outcome: &[&str], sense: &str) -> &mut usize {
        let (control, page) = (body[2] >> 6, body[2] & 0x3F);
        let selects = body[0] == 0x55;
        match (selects, outcome, sense) {
            (false, ["0", "00"], _) => &mut self.sensed[usize::from(control)],
            (false, ["0", "02"], "05/39/00") => &mut self.saved,
            (false, ["0", "02"], "05/24/00") if page != PAGE => &mut self.other_pages,
            (true, ["0", "00"], _) if body[7..9] == [0, 0] => &mut self.empty,
            (true, ["0", "00"], _) => &mut self.set,
            (true, ["0", "02"], "05/1A/00") => &mut self.lengths,
            (true, ["0", "02"], "05/26/00") => &mut self.lists,
            _ => &mut self.other,
        }
    }
}

/// What a stream has of K7.
#[derive(Clone, Copy, Debug, Default, PartialEq, Eq)]
pub struct Events {
    /// GOOD 4Ah that answer the class external, media with event 0 to 3, and none.
    pub external: usize,
    pub media: [usize; 4],
    pub none: usize,
    /// GOOD 4Ah of under three bytes, which show no class.
    pub short: usize,
    /// Media answers that clear an event, and those too short for it.
    pub cleared: usize,
    pub kept: usize,
    /// 4Ah that are 05/24/00, and those that are refused.
    pub not_polled: usize,
    pub refused: usize,
    /// Presses that 5 refuses, with a disc in and without.
    pub presses: [usize; 2],
    /// Calls that 2 refuses while the event is over 3.
    pub unsound: usize,
}

/// A call's line has the event behind it; a 4Ah of five bytes shows the one before.
pub fn events(stream: &[u8]) -> Events {
    let lines = replay::run(stream);
    let mut lines = lines.lines();
    let (mut rest, mut events) = (stream, Events::default());
    while let Ok((kind, body, after)) = take_record(rest) {
        rest = after;
        if !replay::is_call(kind) {
            continue;
        }
        let Some(line) = lines.next().filter(|&line| line != "bad record") else {
            break;
        };
        let words: Vec<&str> = line.split(' ').collect();
        let refused = words[1] == "2" && kind != replay::SHELF;
        events.unsound += usize::from(refused && !event_in(&words, kind).is_some_and(is_event));
        match (kind, body.first()) {
            (replay::BUTTON, _) if words[1] == "5" => {
                let empty = usize::from(!words[2][1..].starts_with('1'));
                events.presses[empty] += 1;
            }
            (replay::PACKET, Some(0x4A)) if body.len() == 12 => {
                let event = event_in(&words, kind).unwrap_or(NO_EVENT);
                events.count(&words[1..3], words[DATA], event);
            }
            _ => {}
        }
    }
    events
}

/// The event in a line, the last word of the state.
fn event_in(words: &[&str], kind: u8) -> Option<u8> {
    words.get(state_place(kind) + 9)?.parse().ok()
}

/// The byte at this place of what is printed.
fn byte_at(data: &str, place: usize) -> Option<u8> {
    u8::from_str_radix(data.get(place * 2..place * 2 + 2)?, 16).ok()
}

impl Events {
    /// Counts a 4Ah by its number and status, its bytes and the event behind it.
    fn count(&mut self, outcome: &[&str], data: &str, left: u8) {
        match (outcome, byte_at(data, 2)) {
            (["0", "02"], _) => self.not_polled += 1,
            (["0", "00"], None) => self.short += 1,
            (["0", "00"], Some(EXTERNAL)) => self.external += 1,
            (["0", "00"], Some(MEDIA)) => {
                // Too short to show the event, it leaves it.
                let shown = byte_at(data, 4);
                let event = shown.unwrap_or(left);
                self.media[usize::from(event)] += 1;
                self.cleared += usize::from(shown.is_some() && event != NO_EVENT);
                self.kept += usize::from(shown.is_none() && event != NO_EVENT);
            }
            (["0", "00"], Some(_)) => self.none += 1,
            _ => self.refused += 1,
        }
    }
}

/// What a stream has of K8: calls at once behind one another, with no state set
/// between.
#[derive(Clone, Copy, Debug, Default, PartialEq, Eq)]
pub struct Pairs {
    /// Layings that go, each with a lifting behind it, and the twin.
    pub laid_and_lifted: usize,
    pub lifted_and_laid: usize,
    /// Presses with another behind them, whatever becomes of them.
    pub pressed_twice: usize,
    /// The power-ons of the default form, then those of the second.
    pub power_ons: [Behind; 2],
}

/// Power-ons of one form, by what they come behind: a packet, refused or not, that
/// leaves tray and disc, one that moves the tray, or another power-on.
#[derive(Clone, Copy, Debug, Default, PartialEq, Eq)]
pub struct Behind {
    pub still: usize,
    pub moved: usize,
    pub power_on: usize,
}

/// A call on the drive, as the next one finds it.
struct Before {
    kind: u8,
    refused: bool,
    moved: bool,
}

/// Tray and disc stand in each line, and in what sets a state.
pub fn pairs(stream: &[u8]) -> Pairs {
    let lines = replay::run(stream);
    let mut lines = lines.lines();
    let (mut rest, mut pairs) = (stream, Pairs::default());
    let (mut before, mut place): (Option<Before>, _) = (None, "00".to_string());
    while let Ok((kind, body, after)) = take_record(rest) {
        rest = after;
        if !replay::is_call(kind) {
            if let (replay::STATE, [tray, disc, ..]) = (kind, body) {
                (before, place) = (None, format!("{tray}{disc}"));
            }
            continue;
        }
        let Some(line) = lines.next().filter(|&line| line != "bad record") else {
            break;
        };
        let words: Vec<&str> = line.split(' ').collect();
        let Some(state) = state_in(&words) else {
            before = None;
            continue;
        };
        if let Some(before) = before {
            pairs.count(&before, kind);
        }
        before = Some(Before {
            kind,
            refused: words[1] != "0",
            moved: state[..2] != place,
        });
        place = state[..2].to_string();
    }
    pairs
}

/// The flags in the line of a call on the drive, or on the changer or the registers, which
/// share it.
fn state_in<'a>(words: &[&'a str]) -> Option<&'a str> {
    match words[0] {
        "o" | "q" | "b" | "d" | "u" | "m" | "O" | "Q" | "M" => Some(words[2]),
        "p" | "P" => Some(words[6]),
        "R" => Some(words[2 + REG]),
        "w" => Some(words[4 + REG]),
        _ => None,
    }
}

impl Pairs {
    /// Counts a call of this kind behind another.
    fn count(&mut self, before: &Before, kind: u8) {
        let [default, second] = &mut self.power_ons;
        match (before.kind, kind) {
            (replay::LAY, replay::LIFT) if !before.refused => self.laid_and_lifted += 1,
            (replay::LIFT, replay::LAY) if !before.refused => self.lifted_and_laid += 1,
            (replay::BUTTON, replay::BUTTON) => self.pressed_twice += 1,
            (_, replay::POWER_ON) => default.count(before),
            (_, replay::POWER_ON_WITHOUT_CHANGE) => second.count(before),
            _ => {}
        }
    }
}

impl Behind {
    fn count(&mut self, before: &Before) {
        match before.kind {
            replay::PACKET if before.moved => self.moved += 1,
            replay::PACKET => self.still += 1,
            replay::POWER_ON | replay::POWER_ON_WITHOUT_CHANGE => self.power_on += 1,
            _ => {}
        }
    }
}

/// What a stream has of K10: runs of calls made with one table lent and made again with
/// a twin of it, from the same memory, list and state.
#[derive(Clone, Copy, Debug, Default, PartialEq, Eq)]
pub struct Twins {
    pub runs: usize,
    /// In both halves of them.
    pub calls: usize,
    /// Packets but format 2, each counted once, in the order of `MET`.
    pub met: [usize; 9],
    /// Tray calls, power-ons and outside calls, each counted once.
    pub others: usize,
    /// Those of both whose lines differ: the law is that there are none.
    pub unlike: usize,
    /// Format 2 that tells the twins apart, and format 2 that does not.
    pub told: usize,
    pub untold: usize,
}

/// What a packet met by twins is.
const MET: [&str; 9] = [
    "43h-0",
    "43h-1",
    "43h-other",
    "25h-2Bh",
    "READ",
    "PLAY",
    "42h",
    "other",
    "refused",
];

/// A table, and the records behind it up to the next one, calls with their lines.
struct Half<'a> {
    table: &'a [u8],
    records: Vec<(u8, &'a [u8], Option<&'a str>)>,
}

impl Half<'_> {
    /// Memory, list and state are set before the first call, and there is a call.
    fn is_set(&self) -> bool {
        let kinds = self.records.iter().map(|&(kind, ..)| kind);
        let before: Vec<u8> = kinds.take_while(|&kind| !replay::is_call(kind)).collect();
        let due = [replay::MEMORY, replay::LIST, replay::STATE];
        before.len() < self.records.len() && due.iter().all(|kind| before.contains(kind))
    }

    /// Whether the other begins with the same records.
    fn is_made_again(&self, other: &Half) -> bool {
        let bare = |half: &Half| -> Vec<(u8, Vec<u8>)> {
            let records = half.records.iter().take(self.records.len());
            records
                .map(|&(kind, body, _)| (kind, body.to_vec()))
                .collect()
        };
        bare(self) == bare(other)
    }
}

fn halves<'a>(stream: &'a [u8], lines: &'a str) -> Vec<Half<'a>> {
    let mut lines = lines.lines();
    let (mut rest, mut halves): (_, Vec<Half>) = (stream, Vec::new());
    while let Ok((kind, body, after)) = take_record(rest) {
        rest = after;
        let line = match replay::is_call(kind) {
            true => lines.next(),
            false => None,
        };
        if line == Some("bad record") {
            break;
        }
        if kind == replay::TABLE {
            halves.push(Half {
                table: body,
                records: Vec::new(),
            });
        } else if let Some(half) = halves.last_mut() {
            half.records.push((kind, body, line));
        }
    }
    halves
}

/// Two tables behind one another that are twins, with the same records behind them.
pub fn twins(stream: &[u8]) -> Twins {
    let lines = replay::run(stream);
    let mut twins = Twins::default();
    for pair in halves(stream, &lines).windows(2) {
        let [one, other] = pair else { continue };
        if one.is_set() && one.is_made_again(other) && are_twins(one.table, other.table) {
            let before = twins.calls;
            twins.count(one, other);
            twins.runs += usize::from(twins.calls > before);
        }
    }
    twins
}

impl Twins {
    fn count(&mut self, one: &Half, other: &Half) {
        // Behind a format 2 that told, the memories differ until they are filled again.
        let mut same_memory = true;
        for (&(kind, body, line), &(.., again)) in one.records.iter().zip(&other.records) {
            same_memory |= kind == replay::MEMORY;
            // A session's part is no packet: it is the table's own.
            let Some(text) = line.filter(|_| kind != replay::PART) else {
                continue;
            };
            self.calls += 2;
            let alike = line == again;
            if kind == replay::PACKET && is_format_2(body) {
                self.told += usize::from(!alike);
                self.untold += usize::from(alike);
                same_memory &= alike;
                continue;
            }
            self.unlike += usize::from(!alike && same_memory);
            match kind {
                replay::PACKET => self.met[met(body, text)] += 1,
                _ => self.others += 1,
            }
        }
    }
}

/// Where a packet with this line stands in `MET`.
fn met(body: &[u8], line: &str) -> usize {
    if !line.starts_with("p 0 ") {
        return 8;
    }
    match (body[0], body[2] & 0x0F) {
        (0x43, 0) => 0,
        (0x43, 1) => 1,
        (0x43, _) => 2,
        (0x25 | 0x2B, _) => 3,
        (0x28 | 0xA8, _) => 4,
        (0x45, _) => 5,
        (0x42, _) => 6,
        _ => 7,
    }
}

/// What a stream has of K12: the cue sheets, by what becomes of them.
#[derive(Clone, Copy, Debug, Default, PartialEq, Eq)]
pub struct Sheets {
    pub written: usize,
    /// Those that 12 refuses, and those that 14 does.
    pub lengths: usize,
    pub memories: usize,
    /// Those that 13 refuses: not as described, and described but with no fit table.
    pub undescribed: usize,
    pub unfit: usize,
}

/// A sheet's line has its number; whether it is described stands in its body.
pub fn sheets(stream: &[u8]) -> Sheets {
    let lines = replay::run(stream);
    let mut lines = lines.lines();
    let (mut rest, mut sheets) = (stream, Sheets::default());
    while let Ok((kind, body, after)) = take_record(rest) {
        rest = after;
        if !replay::is_call(kind) {
            continue;
        }
        let Some(line) = lines.next() else { break };
        if let (replay::CUE_SHEET, Some(words)) = (kind, line.strip_prefix("t ")) {
            *sheets.of(words, body) += 1;
        }
    }
    sheets
}

impl Sheets {
    /// The count that a sheet with this line belongs to.
    fn of(&mut self, line: &str, body: &[u8]) -> &mut usize {
        match line.split(' ').next() {
            Some("12") => &mut self.lengths,
            Some("13") if cue::is_described(body) => &mut self.unfit,
            Some("13") => &mut self.undescribed,
            Some("14") => &mut self.memories,
            _ => &mut self.written,
        }
    }
}

/// What a stream has of K13: its shelves and what they hold.
#[derive(Clone, Copy, Debug, Default, PartialEq, Eq)]
pub struct Shelves {
    pub streams: usize,
    /// Tables of all of them, each counted from no totals.
    pub tables: usize,
    pub fit: usize,
    /// Unfit ones, rule 1 first.
    pub unfit: [usize; 7],
    /// Tables cut off by the end, and whole ones over the bound; those over the bound and
    /// cut off are among the former.
    pub cut_off: usize,
    pub over: usize,
    /// Streams of which a total is too large.
    pub too_large: usize,
}

/// The tables stand in a shelf's body, behind its totals; its line tells what became of
/// these.
pub fn shelves(stream: &[u8]) -> Shelves {
    let lines = replay::run(stream);
    let mut lines = lines.lines();
    let (mut rest, mut shelves) = (stream, Shelves::default());
    while let Ok((kind, body, after)) = take_record(rest) {
        rest = after;
        if !replay::is_call(kind) {
            continue;
        }
        let Some(line) = lines.next().filter(|&line| line != "bad record") else {
            break;
        };
        if kind == replay::SHELF {
            shelves.streams += 1;
            shelves.too_large += usize::from(line == "h too large");
            shelves.count(&body[SHELF_BYTES..]);
        }
    }
    shelves
}

impl Shelves {
    fn count(&mut self, tables: &[u8]) {
        for item in shelf::items(tables) {
            let Totals(worth) = item.worth();
            self.tables += worth[TABLES] as usize;
            self.fit += worth[FIT] as usize;
            for (unfit, more) in self.unfit.iter_mut().zip(&worth[UNFIT..TRACKS]) {
                *unfit += *more as usize;
            }
            self.cut_off += usize::from(matches!(item, Item::CutOff { .. }));
            self.over += usize::from(item == Item::Over);
        }
    }
}

/// What a stream has of K11.
#[derive(Clone, Copy, Debug, Default, PartialEq, Eq)]
pub struct Changes {
    /// Loads that take a disc, and those from an empty slot.
    pub taken: usize,
    pub from_empty: usize,
    /// Of both, those of the home slot of the drive's disc, and all that return one first.
    pub of_the_home: usize,
    pub returned_first: usize,
    /// Unloads with a disc in the drive, and without.
    pub unloads: [usize; 2],
    /// A6h that fail by their pair, by their slot and by the lock.
    pub pairs: usize,
    pub slots: usize,
    pub locks: usize,
    /// BDh that come whole, and those that are cut.
    pub whole: usize,
    pub cut: usize,
    /// 1Bh with LoEj 1.
    pub trays: usize,
    /// Those three, told an attention.
    pub told: usize,
    /// All other packets that are not refused.
    pub others: usize,
    /// Packets that 1 to 4 refuse, and those that 11 does, by its cause: no slots, over 31,
    /// an open tray, an occupied home, none such.
    pub refused: usize,
    pub obstacles: [usize; 5],
    /// Power-ons of each form, and outside calls, refused ones apart.
    pub power_ons: [usize; 2],
    pub moves: usize,
    pub refused_moves: usize,
}

/// The changer as the next call on it finds it, read off records and lines.
struct Found {
    changer: Changer,
    slots: Vec<Slot>,
}

impl Found {
    /// Tray, disc and lock by their digits, the home and the slots by what is printed.
    fn see(&mut self, flags: &str) {
        let on = |place: usize| flags.as_bytes()[place] == b'1';
        let drive = &mut self.changer.drive;
        (drive.tray_open, drive.disc_in, drive.lock) = (on(0), on(1), on(2));
    }

    fn see_slots(&mut self, home: &str, digits: &str) {
        self.changer.home = home.parse().unwrap_or(0);
        let count = digits.trim_start_matches('-').len() / 2;
        let byte = |place| byte_at(digits, place).unwrap_or(0);
        self.slots = (0..count).map(|place| Slot::of(byte(place))).collect();
    }
}

/// Each call by what it found: kinds 0, 15 and 16 set it, and the lines show what is left.
pub fn changes(stream: &[u8]) -> Changes {
    let lines = replay::run(stream);
    let mut lines = lines.lines();
    let (mut rest, mut changes) = (stream, Changes::default());
    let mut found = Found {
        changer: Changer {
            drive: State::EMPTY,
            home: 0,
        },
        slots: Vec::new(),
    };
    while let Ok((kind, body, after)) = take_record(rest) {
        rest = after;
        match (kind, body) {
            (replay::STATE, [tray, disc, lock, ..]) => found.see(&format!("{tray}{disc}{lock}")),
            (replay::SLOTS, bytes) => {
                found.slots = bytes.iter().map(|&one| Slot::of(one)).collect()
            }
            (replay::HOME, &[home]) => found.changer.home = home,
            _ => {}
        }
        if !replay::is_call(kind) {
            continue;
        }
        let Some(line) = lines.next().filter(|&line| line != "bad record") else {
            break;
        };
        let words: Vec<&str> = line.split(' ').collect();
        changes.count(kind, body, &words, &found);
        if let Some(flags) = state_in(&words) {
            found.see(flags);
        }
        match words[0] {
            "O" | "Q" | "M" => found.see_slots(words[12], words[13]),
            "P" => found.see_slots(words[DATA], words[DATA + 1]),
            _ => {}
        }
    }
    changes
}

impl Changes {
    fn count(&mut self, kind: u8, body: &[u8], words: &[&str], found: &Found) {
        match (kind, words[1]) {
            (replay::CHANGER_POWER_ON, _) => self.power_ons[0] += 1,
            (replay::CHANGER_POWER_ON_WITHOUT_CHANGE, _) => self.power_ons[1] += 1,
            (replay::CHANGER_MOVE_ON, "0") => self.moves += 1,
            (replay::CHANGER_MOVE_ON, _) => self.refused_moves += 1,
            (replay::CHANGER_PACKET, "0") => self.count_packet(body, words, found),
            (replay::CHANGER_PACKET, "11") => {
                if let Some(why) = obstacle(found.changer, &found.slots) {
                    self.obstacles[place_of(why)] += 1;
                }
            }
            (replay::CHANGER_PACKET, _) => self.refused += 1,
            _ => {}
        }
    }

    /// A packet that is not refused: by its code, its outcome and what it found.
    fn count_packet(&mut self, p: &[u8], words: &[&str], found: &Found) {
        let good = words[2] == "00";
        let told = !good && words[7] == "06";
        let tray = p[0] == 0x1B && p[4] & 2 != 0;
        match p[0] {
            LOAD_UNLOAD | MECHANISM_STATUS | 0x1B if told && (tray || p[0] != 0x1B) => {
                self.told += 1;
            }
            LOAD_UNLOAD if good && p[4] & 1 == 0 => {
                self.unloads[usize::from(!found.changer.drive.disc_in)] += 1;
            }
            LOAD_UNLOAD if good => self.count_load(p[8], words, found),
            LOAD_UNLOAD if p[4] & 2 == 0 => self.pairs += 1,
            LOAD_UNLOAD if usize::from(p[8]) >= found.slots.len() => self.slots += 1,
            LOAD_UNLOAD => self.locks += 1,
            MECHANISM_STATUS if words[3] == (8 + 4 * found.slots.len()).to_string() => {
                self.whole += 1;
            }
            MECHANISM_STATUS => self.cut += 1,
            _ if tray => self.trays += 1,
            _ => self.others += 1,
        }
    }

    /// A GOOD Load of this slot.
    fn count_load(&mut self, slot: u8, words: &[&str], found: &Found) {
        let takes = words[6][1..].starts_with('1');
        self.taken += usize::from(takes);
        self.from_empty += usize::from(!takes);
        if found.changer.drive.disc_in {
            self.returned_first += 1;
            self.of_the_home += usize::from(slot == found.changer.home);
        }
    }
}

/// Where a cause of 11 stands in `obstacles`.
fn place_of(why: Obstacle) -> usize {
    match why {
        Obstacle::NoSlots => 0,
        Obstacle::TooManySlots => 1,
        Obstacle::OpenTray => 2,
        Obstacle::HomeTaken => 3,
        Obstacle::NoSuchHome => 4,
    }
}

/// Words of the register record in a line.
const REG: usize = 7;

/// What a stream has of K14.
#[derive(Clone, Copy, Debug, Default, PartialEq, Eq)]
pub struct Transfers {
    /// Resets while idle, while a packet enters, while a list does, and in answer runs.
    pub resets: [usize; 4],
    /// Writes of features, byte count and drive that are held, and commands A0h.
    pub held: usize,
    pub begun: usize,
    /// Data writes that complete no packet: of a packet, and of a list.
    pub entered: [usize; 2],
    /// Packets performed: GOOD with no answer, GOOD with one, CHECK CONDITION.
    pub performed: [usize; 3],
    /// Packets that the target refuses by 2, 3 and 4.
    pub refused: [usize; 3],
    /// Data reads that give a byte, and those that 3 refuses.
    pub bytes: usize,
    pub unread: usize,
    /// What 15 refuses, in the order of `FIFTEEN`.
    pub fifteen: [usize; 9],
    /// Lists asked for; those that set the page, that are wrong, whose packet tells an
    /// attention, and whose packet is refused.
    pub lists: [usize; 5],
    /// Transfers with a list or an answer, and their runs, in the order of `LIMITS`.
    pub transfers: [usize; 6],
    pub runs: [usize; 6],
}

/// What 15 refuses: data reads, data writes, commands while idle, and other writes, by what
/// is under way.
const FIFTEEN: [&str; 9] = [
    "read-idle",
    "read-packet",
    "read-list",
    "data-idle",
    "data-answer",
    "command",
    "other-packet",
    "other-list",
    "other-answer",
];

/// The limits that K14 tells apart.
const LIMITS: [&str; 6] = ["zero", "one", "odd", "even", "FFFEh", "FFFFh"];

/// The register record in a line.
#[derive(Clone, Copy)]
struct Shown {
    phase: char,
    count: u16,
    status: u8,
    left: usize,
}

impl Shown {
    const START: Shown = Shown {
        phase: 'I',
        count: 0xEB14,
        status: 0,
        left: 0,
    };

    fn of(words: &[&str]) -> Shown {
        let hex = |word: &str| u16::from_str_radix(word, 16).unwrap_or(0);
        Shown {
            phase: words[0].chars().next().unwrap_or('I'),
            count: hex(words[2]),
            status: hex(words[5]) as u8,
            left: words[6].parse().unwrap_or(0),
        }
    }

    /// Where the phase stands in `resets`.
    fn place(self) -> usize {
        "IPLA".find(self.phase).unwrap_or(0)
    }

    /// Where its limit stands in `LIMITS`.
    fn limit(self) -> usize {
        match self.count {
            0 => 0,
            1 => 1,
            0xFFFE => 4,
            0xFFFF => 5,
            count if count % 2 == 1 => 2,
            _ => 3,
        }
    }
}

/// Each register call by the record before it and the one in its line.
pub fn transfers(stream: &[u8]) -> Transfers {
    let lines = replay::run(stream);
    let mut lines = lines.lines();
    let (mut rest, mut transfers) = (stream, Transfers::default());
    let (mut before, mut limit) = (Shown::START, 0);
    while let Ok((kind, body, after)) = take_record(rest) {
        rest = after;
        if !replay::is_call(kind) {
            continue;
        }
        let Some(line) = lines.next().filter(|&line| line != "bad record") else {
            break;
        };
        let words: Vec<&str> = line.split(' ').collect();
        let shown = match kind {
            replay::RESET => Shown::of(&words[2..]),
            replay::WRITE => Shown::of(&words[4..]),
            replay::READ => Shown::of(&words[3..]),
            _ => continue,
        };
        if (before.phase, before.left) == ('P', 1) {
            limit = before.limit();
        }
        transfers.count(kind, body, &words, before, shown);
        transfers.count_run(&words, before, shown, limit);
        before = shown;
    }
    transfers
}

impl Transfers {
    fn count(&mut self, kind: u8, body: &[u8], words: &[&str], before: Shown, shown: Shown) {
        match (kind, words[1]) {
            (replay::RESET, _) => self.resets[before.place()] += 1,
            (replay::READ, "0") => self.bytes += 1,
            (replay::READ, "3") => self.unread += 1,
            (replay::READ, _) => self.fifteen[before.place()] += 1,
            (_, "15") => self.fifteen[fifteen(body[0], before)] += 1,
            (_, "0") if body[0] == 7 => self.begun += 1,
            (_, "0") if body[0] != 0 => self.held += 1,
            (_, number) => self.count_data(number, words, before, shown),
        }
    }

    /// A data write that 15 does not refuse.
    fn count_data(&mut self, number: &str, words: &[&str], before: Shown, shown: Shown) {
        let list = before.phase == 'L';
        if number != "0" {
            let place = usize::from(number.as_bytes()[0] - b'2');
            self.refused[place] += 1;
            self.lists[4] += usize::from(list);
            return;
        }
        if ['P', 'L'].contains(&shown.phase) {
            self.entered[usize::from(list)] += 1;
            self.lists[0] += usize::from(!list && shown.phase == 'L');
            return;
        }
        let answer = usize::from(shown.phase == 'A');
        self.performed[if shown.status == 0 { answer } else { 2 }] += 1;
        if list {
            let key = words[5 + REG];
            let place = match (shown.status, key) {
                (0, _) => 1,
                (_, "06") => 3,
                _ => 2,
            };
            self.lists[place] += 1;
        }
    }

    /// A run begins where a list or an answer does, and behind the last byte of one.
    fn count_run(&mut self, words: &[&str], before: Shown, shown: Shown, limit: usize) {
        if words[1] != "0" || !['L', 'A'].contains(&shown.phase) {
            return;
        }
        let first = before.phase != shown.phase;
        self.transfers[limit] += usize::from(first);
        self.runs[limit] += usize::from(first || before.left == 1);
    }
}

/// Where a write that 15 refuses stands in `FIFTEEN`.
fn fifteen(register: u8, before: Shown) -> usize {
    match (register, before.phase) {
        (0, 'I') => 3,
        (0, _) => 4,
        (_, 'I') => 5,
        _ => 5 + before.place(),
    }
}

/// A header and a line for each rule, then one and a line for each form, then
/// K2's: plays and pauses, then a line for each status; then K4's two packets and
/// K7's one, with the presses under lock; then K8's pairs and K10's twins; then K12's
/// sheets; then K13's shelves; then K11's changer; last K14's registers.
pub fn print(stream: &[u8]) -> String {
    let mut out = "rule tables packets parts\n".to_string();
    for (met, rule) in of(stream).iter().zip(1..) {
        let Met {
            tables,
            packets,
            parts,
        } = met;
        writeln!(out, "{rule} {tables} {packets} {parts}").expect("a String takes it");
    }
    out.push_str("form loaded disc-in-open-tray closed-empty open-empty\n");
    for (met, letter) in power_ons(stream).iter().zip(['o', 'q']) {
        let PowerOns {
            loaded,
            disc_in_open_tray,
            closed_empty,
            open_empty,
        } = met;
        let line = format!("{letter} {loaded} {disc_in_open_tray} {closed_empty} {open_empty}\n");
        out.push_str(&line);
    }
    print_audio(&mut out, &audio(stream));
    print_modes(&mut out, &modes(stream));
    print_events(&mut out, &events(stream));
    print_pairs(&mut out, &pairs(stream));
    print_twins(&mut out, &twins(stream));
    print_sheets(&mut out, &sheets(stream));
    print_shelves(&mut out, &shelves(stream));
    print_changes(&mut out, &changes(stream));
    print_transfers(&mut out, &transfers(stream));
    out
}

/// Numbers, a space between.
fn row(counts: &[usize]) -> String {
    let counts: Vec<String> = counts.iter().map(usize::to_string).collect();
    counts.join(" ")
}

fn print_transfers(out: &mut String, transfers: &Transfers) {
    let Transfers {
        resets,
        held,
        begun,
        entered,
        performed,
        refused,
        bytes,
        unread,
        fifteen,
        lists,
        transfers,
        runs,
    } = transfers;
    out.push_str("reset idle packet list answer\n");
    out.push_str(&format!("reset {}\n", row(resets)));
    out.push_str("write held A0h packet list GOOD answer CHECK 2 3 4\n");
    let packets = [row(entered), row(performed), row(refused)].join(" ");
    out.push_str(&format!("write {held} {begun} {packets}\n"));
    out.push_str("read byte 3\n");
    out.push_str(&format!("read {bytes} {unread}\n"));
    out.push_str(&format!("fifteen {}\n", FIFTEEN.join(" ")));
    out.push_str(&format!("fifteen {}\n", row(fifteen)));
    out.push_str("list asked set wrong told refused\n");
    out.push_str(&format!("list {}\n", row(lists)));
    out.push_str(&format!("limit {}\n", LIMITS.join(" ")));
    out.push_str(&format!("limit {}\n", row(transfers)));
    out.push_str(&format!("runs {}\n", LIMITS.join(" ")));
    out.push_str(&format!("runs {}\n", row(runs)));
}

fn print_audio(out: &mut String, audio: &Audio) {
    let Audio {
        plays,
        failed,
        pauses,
        refused_pauses,
        by_status,
        refused_moves,
    } = audio;
    out.push_str("audio plays other-plays pauses other-pauses refused-moves\n");
    let line = format!("audio {plays} {failed} {pauses} {refused_pauses} {refused_moves}\n");
    out.push_str(&line);
    out.push_str("status told left\n");
    for (status, met) in STATUSES.iter().zip(by_status) {
        let line = format!("{status:02X}h {} {}\n", met.told, met.left);
        out.push_str(&line);
    }
}

fn print_modes(out: &mut String, modes: &Modes) {
    let Modes {
        sensed: [current, changeable, default],
        saved,
        other_pages,
        set,
        empty,
        lengths,
        lists,
        other,
        unsound,
    } = modes;
    out.push_str("5Ah current changeable default saved other-page\n");
    let line = format!("5Ah {current} {changeable} {default} {saved} {other_pages}\n");
    out.push_str(&line);
    out.push_str("55h set empty wrong-length wrong-list\n");
    let line = format!("55h {set} {empty} {lengths} {lists}\n");
    out.push_str(&line);
    out.push_str("mode other unsound\n");
    out.push_str(&format!("mode {other} {unsound}\n"));
}

fn print_events(out: &mut String, events: &Events) {
    let Events {
        external,
        media: [none_waiting, pressed, loaded, opened],
        none,
        short,
        cleared,
        kept,
        not_polled,
        refused,
        presses: [with_disc, without],
        unsound,
    } = events;
    out.push_str("4Ah external media-0 media-1 media-2 media-3 none short\n");
    let media = format!("{none_waiting} {pressed} {loaded} {opened}");
    out.push_str(&format!("4Ah {external} {media} {none} {short}\n"));
    out.push_str("event cleared kept not-polled refused unsound\n");
    let line = format!("event {cleared} {kept} {not_polled} {refused} {unsound}\n");
    out.push_str(&line);
    out.push_str("press with-disc without\n");
    out.push_str(&format!("press {with_disc} {without}\n"));
}

fn print_pairs(out: &mut String, pairs: &Pairs) {
    let Pairs {
        laid_and_lifted,
        lifted_and_laid,
        pressed_twice,
        power_ons,
    } = pairs;
    out.push_str("pair laid-lifted lifted-laid pressed-twice\n");
    let line = format!("pair {laid_and_lifted} {lifted_and_laid} {pressed_twice}\n");
    out.push_str(&line);
    out.push_str("behind packet packet-that-moved power-on\n");
    for (behind, letter) in power_ons.iter().zip(['o', 'q']) {
        let Behind {
            still,
            moved,
            power_on,
        } = behind;
        let line = format!("behind-{letter} {still} {moved} {power_on}\n");
        out.push_str(&line);
    }
}

fn print_twins(out: &mut String, twins: &Twins) {
    let Twins {
        runs,
        calls,
        met,
        others,
        unlike,
        told,
        untold,
    } = twins;
    out.push_str("twins runs calls other-calls unlike format-2-told format-2-not\n");
    let line = format!("twins {runs} {calls} {others} {unlike} {told} {untold}\n");
    out.push_str(&line);
    out.push_str(&format!("met {}\n", MET.join(" ")));
    let counts = met.map(|count| count.to_string());
    out.push_str(&format!("met {}\n", counts.join(" ")));
}

fn print_sheets(out: &mut String, sheets: &Sheets) {
    let Sheets {
        written,
        lengths,
        memories,
        undescribed,
        unfit,
    } = sheets;
    out.push_str("sheets written 12 13-not-described 13-no-fit-table 14\n");
    let line = format!("sheets {written} {lengths} {undescribed} {unfit} {memories}\n");
    out.push_str(&line);
}

fn print_shelves(out: &mut String, shelves: &Shelves) {
    let Shelves {
        streams,
        tables,
        fit,
        unfit,
        cut_off,
        over,
        too_large,
    } = shelves;
    out.push_str("shelves streams tables fit 1 2 3 4 5 6 7 cut-off over-the-bound too-large\n");
    let unfit = unfit.map(|count| count.to_string()).join(" ");
    let line = format!("shelves {streams} {tables} {fit} {unfit} {cut_off} {over} {too_large}\n");
    out.push_str(&line);
}

fn print_changes(out: &mut String, changes: &Changes) {
    let Changes {
        taken,
        from_empty,
        of_the_home,
        returned_first,
        unloads: [with_disc, without],
        pairs,
        slots,
        locks,
        whole,
        cut,
        trays,
        told,
        others,
        refused,
        obstacles,
        power_ons: [default, second],
        moves,
        refused_moves,
    } = changes;
    out.push_str("A6h taken from-empty of-the-home returned-first unload unload-empty\n");
    let loads = format!("{taken} {from_empty} {of_the_home} {returned_first}");
    out.push_str(&format!("A6h {loads} {with_disc} {without}\n"));
    out.push_str("A6h-fault pair slot lock\n");
    out.push_str(&format!("A6h-fault {pairs} {slots} {locks}\n"));
    out.push_str("changer BDh-whole BDh-cut 1Bh-LoEj told other 1-to-4 O Q M M-2\n");
    let packets = format!("{whole} {cut} {trays} {told} {others} {refused}");
    let calls = format!("{default} {second} {moves} {refused_moves}");
    out.push_str(&format!("changer {packets} {calls}\n"));
    out.push_str("eleven no-slots over-31 open-tray home-occupied home-beyond\n");
    let causes = obstacles.map(|count| count.to_string()).join(" ");
    out.push_str(&format!("eleven {causes}\n"));
}
