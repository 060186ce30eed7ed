//! K12: "Masters arrive as cue sheets." The 8-byte entries of 000's SEND CUE SHEET (its
//! Tables 155 and 157) are read as one session, the session is written out as a disc
//! table, and the table is asked whether it is fit.

use crate::address::Msf;
use crate::limits::{BOUND, HEADER, ROW};
use crate::refusal::Refusal;
use crate::table::{self, POINT_FIRST, POINT_LAST, POINT_LEAD_OUT};

/// "the 8-byte entries of MMC's SEND CUE SHEET"
pub const ENTRY: usize = 8;

/// The lead-out's TNO: "AAh index 1 last".
pub const LEAD_OUT: u8 = 0xAA;

/// An entry of the sheet: control and ADR, TNO, index, data form, SCMS, M, S, F. Data
/// form and SCMS are not looked at.
#[derive(Clone, Copy, Debug, PartialEq, Eq)]
pub struct Entry(pub [u8; ENTRY]);

impl Entry {
    /// "control high, ADR low, unlike our table"
    pub fn control(&self) -> u8 {
        self.0[0] >> 4
    }
    pub fn adr(&self) -> u8 {
        self.0[0] & 0x0F
    }
    pub fn tno(&self) -> u8 {
        self.0[1]
    }
    pub fn index(&self) -> u8 {
        self.0[2]
    }
    /// "All numbers are plain binary".
    pub fn time(&self) -> Msf {
        Msf::new(self.0[5], self.0[6], self.0[7])
    }
    /// "the lead-in (TNO 0, index 0, address ignored)"
    pub fn is_lead_in(&self) -> bool {
        self.tno() == 0 && self.index() == 0
    }
    /// "AAh index 1"
    pub fn is_lead_out(&self) -> bool {
        self.tno() == LEAD_OUT && self.index() == 1
    }
}

/// An index 1 entry: a track or the lead-out, with its control and address.
#[derive(Clone, Copy, Debug, PartialEq, Eq)]
pub struct Mark {
    pub number: u8,
    pub control: u8,
    pub time: Msf,
}

impl Mark {
    fn of(entry: &Entry) -> Mark {
        Mark {
            number: entry.tno(),
            control: entry.control(),
            time: entry.time(),
        }
    }
}

/// What a sheet says: "exactly the sheet's tracks, controls and addresses".
#[derive(Clone, Debug, PartialEq, Eq)]
pub struct Master {
    pub tracks: Vec<Mark>,
    pub lead_out: Mark,
}

/// The sheet's entries, if it is whole ones.
pub fn entries(sheet: &[u8]) -> Option<Vec<Entry>> {
    let whole = sheet.chunks_exact(ENTRY);
    if !whole.remainder().is_empty() {
        return None;
    }
    let entry = |bytes: &[u8]| Entry(bytes.try_into().expect("an entry is 8 bytes"));
    Some(whole.map(entry).collect())
}

/// What the entries say, if they are "as described": "first the lead-in .., index 1 of
/// each track in rising order, AAh index 1 last; between, other indexes are passed over",
/// and "every ADR is 1", in those passed over too.
pub fn read(entries: &[Entry]) -> Option<Master> {
    let [lead_in, between @ .., lead_out] = entries else {
        return None;
    };
    if !lead_in.is_lead_in() || !lead_out.is_lead_out() {
        return None;
    }
    if !entries.iter().all(|entry| entry.adr() == 1) {
        return None;
    }
    let starts = between.iter().filter(|entry| entry.index() == 1);
    let tracks: Vec<Mark> = starts.map(Mark::of).collect();
    let rising = tracks.is_sorted_by(|one, next| one.number < next.number);
    rising.then(|| Master {
        tracks,
        lead_out: Mark::of(lead_out),
    })
}

/// A descriptor of session 1 with ADR 1; TNO, ZERO, MIN, SEC and FRAME are 0.
fn row(control: u8, point: u8, p: Msf) -> [u8; ROW] {
    [1, 0x10 | control, 0, point, 0, 0, 0, 0, p.m, p.s, p.f]
}

impl Master {
    /// Its table, fit or not: "A0 and A1 take the first and last track's control; no B0h
    /// or C0h; disc type, MIN, SEC and FRAME are 0". None where there is no track.
    pub fn table(&self) -> Option<Vec<u8>> {
        let (first, last) = (self.tracks.first()?, self.tracks.last()?);
        let out = &self.lead_out;
        let mut rows = vec![
            row(first.control, POINT_FIRST, Msf::new(first.number, 0, 0)),
            row(last.control, POINT_LAST, Msf::new(last.number, 0, 0)),
            row(out.control, POINT_LEAD_OUT, out.time),
        ];
        for track in &self.tracks {
            rows.push(row(track.control, track.number, track.time));
        }
        // Rising numbers are 256 at most, so the length has two bytes' room.
        let data_length = (HEADER - 2 + rows.len() * ROW) as u16;
        let mut table = data_length.to_be_bytes().to_vec();
        table.extend([1, 1]);
        table.extend(rows.as_flattened());
        Some(table)
    }
}

/// The table of a sheet: 12 "for a length not a multiple of 8", then 13 where "no fit
/// table has those tracks, controls and addresses or the entries aren't as described".
pub fn table_of(sheet: &[u8]) -> Result<Vec<u8>, Refusal> {
    let entries = entries(sheet).ok_or(Refusal::SheetLength)?;
    let table = read(&entries).and_then(|master| master.table());
    let fit = table.filter(|table| table::read(table).is_ok());
    fit.ok_or(Refusal::UnfitSheet)
}

/// Turns a sheet into a table in this memory, and gives the table's length: "memory past
/// the table stays as it was", and all of it where the sheet is refused. First of all 14,
/// "for output memory under 6,538 bytes".
pub fn turn(sheet: &[u8], memory: &mut [u8]) -> Result<usize, Refusal> {
    if memory.len() < BOUND {
        return Err(Refusal::SmallOutput);
    }
    let table = table_of(sheet)?;
    memory[..table.len()].copy_from_slice(&table);
    Ok(table.len())
}

/// Whether the sheet's entries are as described: where 13 refuses it all the same, no fit
/// table has what it says.
pub fn is_described(sheet: &[u8]) -> bool {
    entries(sheet).is_some_and(|entries| read(&entries).is_some())
}

/// What the program that turns a file into a table prints where the sheet is refused, in
/// the order of the tests.
pub const LINES: [(Refusal, &str); 3] = [
    (
        Refusal::SmallOutput,
        "refused 14: the output memory is under 6,538 bytes",
    ),
    (
        Refusal::SheetLength,
        "refused 12: the sheet is not whole entries of 8 bytes",
    ),
    (
        Refusal::UnfitSheet,
        "refused 13: the sheet is not as described, or no fit table has its tracks, controls and addresses",
    ),
];

/// What that program gives for a sheet: the table's bytes, or the refusal's line. Its
/// memory is of the bound's size.
pub fn program(sheet: &[u8]) -> Result<Vec<u8>, String> {
    let mut memory = vec![0; BOUND];
    match turn(sheet, &mut memory) {
        Ok(length) => Ok(memory[..length].to_vec()),
        Err(refusal) => Err(line(refusal)),
    }
}

fn line(refusal: Refusal) -> String {
    let found = LINES.iter().find(|(one, _)| *one == refusal);
    let (_, line) = found.expect("a sheet is refused by these three");
    line.to_string() + "\n"
}
