//! "The lent disc table": seven rules over rows, then a disc made of them.

use crate::address::Msf;
use crate::limits::{BOUND, HEADER, ROW};
use crate::refusal::Refusal;

pub const POINT_FIRST: u8 = 0xA0;
pub const POINT_LAST: u8 = 0xA1;
pub const POINT_LEAD_OUT: u8 = 0xA2;

/// K1: "at most one POINT B0h and then at most one C0h descriptor".
pub const POINT_B0: u8 = 0xB0;
pub const POINT_C0: u8 = 0xC0;

/// "session, ADR (high nibble) and control (low), TNO, POINT, MIN, SEC,
/// FRAME, ZERO, PMIN, PSEC, PFRAME".
#[derive(Clone, Copy, Debug, PartialEq, Eq)]
pub struct Row(pub [u8; ROW]);

impl Row {
    pub fn session(&self) -> u8 {
        self.0[0]
    }
    pub fn bits(&self) -> u8 {
        self.0[1]
    }
    pub fn tno(&self) -> u8 {
        self.0[2]
    }
    pub fn point(&self) -> u8 {
        self.0[3]
    }
    pub fn zero(&self) -> u8 {
        self.0[7]
    }
    pub fn p(&self) -> Msf {
        Msf::new(self.0[8], self.0[9], self.0[10])
    }
    /// K1's two, by POINT alone.
    pub fn is_mode_5(&self) -> bool {
        matches!(self.point(), POINT_B0 | POINT_C0)
    }
}

/// What a block must lie in: READ asks for data, and PLAY follows READ "with
/// audio in place of data" (K2).
#[derive(Clone, Copy, Debug, PartialEq, Eq)]
pub enum Mode {
    Data,
    Audio,
}

#[derive(Clone, Debug, PartialEq, Eq)]
pub struct Track {
    pub number: u8,
    /// ADR and control as in the descriptor.
    pub bits: u8,
    pub start: u32,
}

impl Track {
    /// "A track is data if control bit 2 (value 4) is set."
    pub fn is_data(&self) -> bool {
        self.bits & 4 != 0
    }

    pub fn is(&self, mode: Mode) -> bool {
        self.is_data() == (mode == Mode::Data)
    }
}

#[derive(Clone, Debug, PartialEq, Eq)]
pub struct Session {
    pub number: u8,
    pub lead_out: u32,
    /// ADR and control of the A2 descriptor.
    pub lead_out_bits: u8,
    pub tracks: Vec<Track>,
    /// All of its descriptors, B0h and C0h among them.
    pub rows: Vec<Row>,
    /// Where its A0 descriptor stands in the table, in bytes.
    pub place: usize,
}

#[derive(Clone, Debug, PartialEq, Eq)]
pub struct Disc {
    pub sessions: Vec<Session>,
}

/// K6: "The fitness test should report the first broken rule of 1 to 7, tested
/// in that order, or 0 for fit."
pub fn broken_rule(bytes: &[u8]) -> u8 {
    read(bytes).err().unwrap_or(0)
}

/// Reads a table: the disc, or the first of the rules 1 to 7 it breaks. Each
/// rule is tested over the whole table before the next, so a rule is asked only
/// of what keeps those before it: 3 of whole rows, 5 and 6 of sessions in order,
/// 7 of addresses.
pub fn read(bytes: &[u8]) -> Result<Disc, u8> {
    if !rule_1(bytes) {
        return Err(1);
    }
    let last_session = bytes[3];
    if bytes[2] != 1 || !(1..=99).contains(&last_session) {
        return Err(2);
    }
    let rows: Vec<Row> = bytes[HEADER..]
        .chunks_exact(ROW)
        .map(|row| Row(row.try_into().expect("a row is 11 bytes")))
        .collect();
    if !rows.iter().all(rule_3) {
        return Err(3);
    }
    let runs = runs_of_equal_session(&rows);
    if !rule_4(&runs, last_session) {
        return Err(4);
    }
    // K1: "Rules 5 to 7 .. pass over them".
    let heads: Vec<&[Row]> = runs.iter().map(|run| cut_at_mode_5(run).0).collect();
    if !heads.iter().all(|head| rule_5(head)) {
        return Err(5);
    }
    // "A2 (lead-out) and every track hold an address from 00:02:00 .."
    if !heads
        .iter()
        .all(|head| head[2..].iter().all(|row| row.p().in_rule_6()))
    {
        return Err(6);
    }
    let disc = Disc {
        sessions: sessions_of(&runs),
    };
    if !rule_7(&disc) {
        return Err(7);
    }
    Ok(disc)
}

/// "it is 4 to 6,538 bytes long, 4 plus a multiple of 11, and its data length
/// is its length less 2", with K1's bound.
fn rule_1(bytes: &[u8]) -> bool {
    let length = bytes.len();
    (HEADER..=BOUND).contains(&length)
        && (length - HEADER).is_multiple_of(ROW)
        && usize::from(u16::from_be_bytes([bytes[0], bytes[1]])) == length - 2
}

/// "every descriptor has ADR 1, TNO 0 and ZERO 0"; K1: a B0h or C0h has "ADR 5
/// and TNO 0 (rule 3, in place of its own); other bytes are free". It goes by
/// POINT, wherever the row stands.
fn rule_3(row: &Row) -> bool {
    if row.is_mode_5() {
        return row.bits() >> 4 == 5 && row.tno() == 0;
    }
    row.bits() >> 4 == 1 && row.tno() == 0 && row.zero() == 0
}

/// The rows cut wherever the session byte changes.
fn runs_of_equal_session(rows: &[Row]) -> Vec<&[Row]> {
    rows.chunk_by(|a, b| a.session() == b.session()).collect()
}

/// A run's rows before its first B0h or C0h, and all from there on.
fn cut_at_mode_5(run: &[Row]) -> (&[Row], &[Row]) {
    run.split_at(run.iter().take_while(|row| !row.is_mode_5()).count())
}

/// "it lists sessions 1 to S in order, each as POINT A0h, A1h, A2h and then
/// tracks f, f+1, .. l, with f in A0's PMIN, l in A1's, 1 ≤ f ≤ l ≤ 99, the
/// next session's f being l + 1, and nothing more". K1: "After a session's
/// tracks there may stand" B0h and C0h, "each with its session's number (rule
/// 4)".
fn rule_4(runs: &[&[Row]], last_session: u8) -> bool {
    if runs.len() != usize::from(last_session) {
        return false;
    }
    let mut due_first: Option<u8> = None;
    for (run, number) in runs.iter().zip(1u8..) {
        let (head, tail) = cut_at_mode_5(run);
        if run[0].session() != number || head.len() < 4 {
            return false;
        }
        let (f, l) = (head[0].p().m, head[1].p().m);
        if f < 1 || f > l || l > 99 || due_first.is_some_and(|due| due != f) {
            return false;
        }
        let due = [POINT_FIRST, POINT_LAST, POINT_LEAD_OUT]
            .into_iter()
            .chain(f..=l);
        if !head.iter().map(Row::point).eq(due) || !may_close(tail) {
            return false;
        }
        due_first = Some(l + 1);
    }
    true
}

/// K1: "at most one POINT B0h and then at most one C0h descriptor".
fn may_close(tail: &[Row]) -> bool {
    let points: Vec<u8> = tail.iter().map(Row::point).collect();
    matches!(
        points[..],
        [] | [POINT_B0] | [POINT_C0] | [POINT_B0, POINT_C0]
    )
}

/// "A0's PSEC is 00h, 10h or 20h and its PFRAME 0; A1's PSEC and PFRAME are
/// 0".
fn rule_5(head: &[Row]) -> bool {
    let (a0, a1) = (head[0].p(), head[1].p());
    matches!(a0.s, 0x00 | 0x10 | 0x20) && a0.f == 0 && a1.s == 0 && a1.f == 0
}

/// Only for runs that keep rules 4 and 6.
fn sessions_of(runs: &[&[Row]]) -> Vec<Session> {
    let mut place = HEADER;
    let mut sessions = Vec::new();
    for run in runs {
        let start = |row: &Row| row.p().address().expect("rule 6 was tested");
        let (head, _) = cut_at_mode_5(run);
        let tracks = head[3..]
            .iter()
            .map(|row| Track {
                number: row.point(),
                bits: row.bits(),
                start: start(row),
            })
            .collect();
        sessions.push(Session {
            number: head[0].session(),
            lead_out: start(&head[2]),
            lead_out_bits: head[2].bits(),
            tracks,
            rows: run.to_vec(),
            place,
        });
        place += run.len() * ROW;
    }
    sessions
}

/// "track starts rise strictly, a session's last track starts before its
/// lead-out, and the next session's first track after that lead-out". In the
/// order tracks, lead-out, next tracks .. every step must rise.
fn rule_7(disc: &Disc) -> bool {
    let mut walk = Vec::new();
    for session in &disc.sessions {
        walk.extend(session.tracks.iter().map(|track| track.start));
        walk.push(session.lead_out);
    }
    walk.windows(2).all(|pair| pair[0] < pair[1])
}

impl Disc {
    pub fn last_session(&self) -> &Session {
        self.sessions.last().expect("rule 2: S is at least 1")
    }

    /// "L is the last session's lead-out."
    pub fn end(&self) -> u32 {
        self.last_session().lead_out
    }

    pub fn tracks(&self) -> impl Iterator<Item = &Track> {
        self.sessions.iter().flat_map(|session| &session.tracks)
    }

    pub fn first_track(&self) -> u8 {
        self.sessions[0].tracks[0].number
    }

    pub fn last_track(&self) -> u8 {
        self.tracks().last().expect("rule 4: f ≤ l").number
    }

    /// Every track with its blocks from start to end: a track ends where the
    /// next of its session starts, or at the lead-out ("if it lies below that
    /// track's session's lead-out; else to no track").
    pub fn extents(&self) -> Vec<(&Track, u32, u32)> {
        let mut extents = Vec::new();
        for session in &self.sessions {
            let ends = session.tracks[1..]
                .iter()
                .map(|track| track.start)
                .chain([session.lead_out]);
            for (track, end) in session.tracks.iter().zip(ends) {
                extents.push((track, track.start, end));
            }
        }
        extents
    }

    /// "A block belongs to the track with the greatest start not above it, if it
    /// lies below that track's session's lead-out; else to no track."
    pub fn track_of(&self, block: u32) -> Option<&Track> {
        self.extents()
            .into_iter()
            .find(|&(_, start, end)| (start..end).contains(&block))
            .map(|(track, _, _)| track)
    }

    /// How many of the blocks from `from` up to `to` lie in tracks of this mode.
    pub fn blocks(&self, mode: Mode, from: u64, to: u64) -> u64 {
        self.extents()
            .iter()
            .filter(|(track, _, _)| track.is(mode))
            .map(|&(_, start, end)| {
                let low = from.max(u64::from(start));
                let high = to.min(u64::from(end));
                high.saturating_sub(low)
            })
            .sum()
    }
}

/// "A caller may ask for a session": exactly its descriptors, from its A0 to
/// its last track and K1's B0h and C0h. "The session part tests fitness (4,
/// empty part) before 10"; the 4 has its rule (K6).
pub fn session_part(table: &[u8], number: u8) -> Result<&[u8], Refusal> {
    let disc = read(table).map_err(Refusal::UnfitTable)?;
    let session = disc
        .sessions
        .iter()
        .find(|session| session.number == number)
        .ok_or(Refusal::NoSession)?;
    Ok(&table[session.place..session.place + session.rows.len() * ROW])
}
