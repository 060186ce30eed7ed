//! K13: "What our disc shelf holds." A stream is cut into tables while it comes, each table
//! is worth thirteen numbers, and the totals are the sums of these.

use std::io::{self, Read};
use std::mem;

use crate::limits::BOUND;
use crate::table::{self, Disc};

/// Where each total stands among the thirteen, in the order of the lines: "tables, fit
/// ones, unfit ones by K6's rule" (seven of them, rule 1 first), "and over the fit ones
/// tracks, data blocks, audio blocks, blocks of no track".
pub const TABLES: usize = 0;
pub const FIT: usize = 1;
pub const UNFIT: usize = 2;
pub const TRACKS: usize = 9;
pub const DATA: usize = 10;
pub const AUDIO: usize = 11;
pub const NO_TRACK: usize = 12;

/// How many lines there are.
pub const LINES: usize = 13;

/// "Totals are 64-bit".
#[derive(Clone, Copy, Debug, Default, PartialEq, Eq)]
pub struct Totals(pub [u64; LINES]);

/// "past that it stops": a total would be more than 2^64 − 1.
#[derive(Clone, Copy, Debug, PartialEq, Eq)]
pub struct TooLarge;

impl Totals {
    pub fn plus(self, more: Totals) -> Result<Totals, TooLarge> {
        let mut sums = self.0;
        for (sum, more) in sums.iter_mut().zip(more.0) {
            *sum = sum.checked_add(more).ok_or(TooLarge)?;
        }
        Ok(Totals(sums))
    }

    /// An unfit table, by the first rule that it breaks.
    fn of_unfit(rule: u8) -> Totals {
        let mut worth = [0; LINES];
        worth[TABLES] = 1;
        worth[UNFIT + usize::from(rule) - 1] = 1;
        Totals(worth)
    }

    /// A fit table: its tracks, and its blocks from 0 to L − 1. What no track has lies
    /// before the first one, or between a session's lead-out and the next track.
    fn of_fit(disc: &Disc) -> Totals {
        let mut worth = [0; LINES];
        worth[TABLES] = 1;
        worth[FIT] = 1;
        let mut at = 0;
        for (track, start, end) in disc.extents() {
            worth[TRACKS] += 1;
            worth[NO_TRACK] += u64::from(start - at);
            let line = if track.is_data() { DATA } else { AUDIO };
            worth[line] += u64::from(end - start);
            at = end;
        }
        Totals(worth)
    }
}

/// A table as a stream has it.
#[derive(Clone, Debug, PartialEq, Eq)]
pub enum Item {
    /// As long as its data length says, and within the bound.
    Whole(Vec<u8>),
    /// "one over the bound, which is skipped", whole.
    Over,
    /// "A table cut off by the end", whether or not it is over the bound too.
    CutOff { over: bool },
}

impl Item {
    /// What it adds to each total: "A table cut off by the end counts as rule 1, as does one
    /// over the bound".
    pub fn worth(&self) -> Totals {
        match self {
            Item::Whole(bytes) => match table::read(bytes) {
                Ok(disc) => Totals::of_fit(&disc),
                Err(rule) => Totals::of_unfit(rule),
            },
            Item::Over | Item::CutOff { .. } => Totals::of_unfit(1),
        }
    }
}

/// What of a table has come so far.
#[derive(Debug, Default)]
enum Open {
    #[default]
    Nothing,
    /// The first byte of its data length.
    Half(u8),
    /// A table within the bound: its bytes so far, and how long it is to be.
    Kept(Vec<u8>, usize),
    /// A table over the bound: how many bytes of it are still to come.
    Skipped(usize),
}

impl Open {
    /// Both bytes of the data length are there: "each its data length plus 2 long".
    fn begun(data_length: [u8; 2]) -> Open {
        let length = usize::from(u16::from_be_bytes(data_length)) + 2;
        if length > BOUND {
            return Open::Skipped(length - 2);
        }
        Open::Kept(data_length.to_vec(), length)
    }

    /// With what these bytes, one at least, have of it, and the bytes behind.
    fn with(self, bytes: &[u8]) -> (Open, &[u8]) {
        let up_to = |due: usize| bytes.split_at(due.min(bytes.len()));
        match self {
            Open::Nothing => (Open::Half(bytes[0]), &bytes[1..]),
            Open::Half(high) => (Open::begun([high, bytes[0]]), &bytes[1..]),
            Open::Kept(mut kept, length) => {
                let (more, rest) = up_to(length - kept.len());
                kept.extend(more);
                (Open::Kept(kept, length), rest)
            }
            Open::Skipped(left) => {
                let (more, rest) = up_to(left);
                (Open::Skipped(left - more.len()), rest)
            }
        }
    }

    /// The table, if its last byte is there; else what it was.
    fn ended(self) -> Result<Item, Open> {
        match self {
            Open::Kept(kept, length) if kept.len() == length => Ok(Item::Whole(kept)),
            Open::Skipped(0) => Ok(Item::Over),
            open => Err(open),
        }
    }
}

/// Cuts a stream that comes in pieces into tables, one after the other.
#[derive(Debug, Default)]
pub struct Cutter {
    open: Open,
}

impl Cutter {
    /// Takes the next piece of the stream, and hands on each table that ends in it, until
    /// one of them is not wanted.
    pub fn take<E>(
        &mut self,
        piece: &[u8],
        mut each: impl FnMut(Item) -> Result<(), E>,
    ) -> Result<(), E> {
        let mut rest = piece;
        while !rest.is_empty() {
            let (open, behind) = mem::take(&mut self.open).with(rest);
            rest = behind;
            match open.ended() {
                Ok(item) => each(item)?,
                Err(open) => self.open = open,
            }
        }
        Ok(())
    }

    /// The stream ends here: the table that it cuts off, a single byte too.
    pub fn end(self) -> Option<Item> {
        match self.open {
            Open::Nothing => None,
            Open::Half(_) | Open::Kept(..) => Some(Item::CutOff { over: false }),
            Open::Skipped(_) => Some(Item::CutOff { over: true }),
        }
    }
}

/// All tables of a stream that is there as a whole.
pub fn items(stream: &[u8]) -> Vec<Item> {
    let (mut cutter, mut items) = (Cutter::default(), Vec::new());
    let kept: Result<(), TooLarge> = cutter.take(stream, |item| {
        items.push(item);
        Ok(())
    });
    kept.expect("each of them is wanted");
    items.extend(cutter.end());
    items
}

/// A shelf while it is counted: totals, and the table under way.
#[derive(Debug, Default)]
pub struct Shelf {
    totals: Totals,
    cutter: Cutter,
}

impl Shelf {
    /// Counting goes on from these totals.
    pub fn from(totals: Totals) -> Shelf {
        Shelf {
            totals,
            cutter: Cutter::default(),
        }
    }

    pub fn take(&mut self, piece: &[u8]) -> Result<(), TooLarge> {
        let totals = &mut self.totals;
        self.cutter.take(piece, |item| {
            *totals = totals.plus(item.worth())?;
            Ok(())
        })
    }

    pub fn end(self) -> Result<Totals, TooLarge> {
        match self.cutter.end() {
            Some(item) => self.totals.plus(item.worth()),
            None => Ok(self.totals),
        }
    }
}

/// Counts a whole stream on top of these totals.
pub fn count(from: Totals, stream: &[u8]) -> Result<Totals, TooLarge> {
    let mut shelf = Shelf::from(from);
    shelf.take(stream)?;
    shelf.end()
}

/// "prints, one a line", or the one line where a total is too large.
pub fn lines(counted: Result<Totals, TooLarge>) -> String {
    match counted {
        Ok(Totals(totals)) => totals.map(|total| format!("{total}\n")).concat(),
        Err(TooLarge) => "total too large\n".to_string(),
    }
}

/// Bytes asked for at a time.
const PIECE: usize = 65_536;

/// What the program prints of the tables that it reads; a read error, where there is one.
pub fn program(input: &mut impl Read) -> io::Result<String> {
    let (mut shelf, mut piece) = (Shelf::default(), vec![0; PIECE]);
    loop {
        match input.read(&mut piece) {
            Ok(0) => return Ok(lines(shelf.end())),
            Ok(count) => {
                // "past that it stops": what comes behind is not read.
                if shelf.take(&piece[..count]).is_err() {
                    return Ok(lines(Err(TooLarge)));
                }
            }
            Err(error) if error.kind() == io::ErrorKind::Interrupted => {}
            Err(error) => return Err(error),
        }
    }
}
