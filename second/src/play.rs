//! K2: "The state gains a play record: status, position, end."

use crate::limits::TOP_ADDRESS;

/// "Status codes are 11h playing, 12h paused, 13h completed, 15h none".
pub const PLAYING: u8 = 0x11;
pub const PAUSED: u8 = 0x12;
pub const COMPLETED: u8 = 0x13;
pub const NO_STATUS: u8 = 0x15;

pub const STATUSES: [u8; 4] = [PLAYING, PAUSED, COMPLETED, NO_STATUS];

#[derive(Clone, Copy, Debug, PartialEq, Eq)]
pub struct Play {
    pub status: u8,
    pub position: u32,
    pub end: u32,
}

impl Play {
    /// "Power-on, loading and opening set 15h, position 0 and end 0".
    pub const NONE: Play = Play::new(NO_STATUS, 0, 0);

    pub const fn new(status: u8, position: u32, end: u32) -> Play {
        Play {
            status,
            position,
            end,
        }
    }

    /// Refusal 2 "also covers another status, a position past its end, or an
    /// end over 449,849": the last two in every status.
    pub fn is_sound(self) -> bool {
        STATUSES.contains(&self.status) && self.position <= self.end && self.end <= TOP_ADDRESS
    }

    /// "A GOOD PLAY sets 11h, start, and start plus count as end, but count 0
    /// leaves the record".
    pub fn started(self, start: u32, count: u32) -> Play {
        if count == 0 {
            return self;
        }
        Play::new(PLAYING, start, start + count)
    }

    /// "moves a playing position on by k blocks, at most to the end, where the
    /// status becomes 13h; in any other status it changes nothing". Any k is
    /// taken, and the new position may be the old one.
    pub fn moved_on(self, k: u64) -> Play {
        if self.status != PLAYING {
            return self;
        }
        let to = u64::from(self.position).saturating_add(k);
        if to >= u64::from(self.end) {
            return Play::new(COMPLETED, self.end, self.end);
        }
        Play {
            position: to as u32,
            ..self
        }
    }

    /// "Pause or resume under 13h or 15h is 05/24/00", which None stands for,
    /// "and changes nothing where it already holds".
    pub fn resumed(self, resume: bool) -> Option<Play> {
        if ![PLAYING, PAUSED].contains(&self.status) {
            return None;
        }
        Some(Play {
            status: if resume { PLAYING } else { PAUSED },
            ..self
        })
    }

    /// "A GOOD READ or SEEK sets 15h": the status alone.
    pub fn stopped(self) -> Play {
        Play {
            status: NO_STATUS,
            ..self
        }
    }

    /// "13h turns to 15h after a GOOD 42h".
    pub fn told(self) -> Play {
        if self.status == COMPLETED {
            return self.stopped();
        }
        self
    }

    /// As it stands in a line: two hex digits, then two decimals.
    pub fn text(self) -> String {
        format!("{:02X} {} {}", self.status, self.position, self.end)
    }
}
