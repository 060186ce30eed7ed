//! K4: "Mode pages for the error recovery lab." Page 01h: the two bytes of it
//! that the state holds, MODE SENSE's answer and MODE SELECT's list.

use crate::sense::{self, Sense};

/// "for page 01h"; its second byte says that six more follow.
pub const PAGE: u8 = 0x01;
pub const PAGE_LENGTH: u8 = 0x06;

/// "The recovery byte is one of 000's twenty settings".
pub const SETTINGS: [u8; 20] = [
    0x00, 0x01, 0x04, 0x05, 0x06, 0x07, 0x10, 0x11, 0x14, 0x15, // bit 5 clear
    0x20, 0x21, 0x24, 0x25, 0x26, 0x27, 0x30, 0x31, 0x34, 0x35, // bit 5 set
];

/// "eight header bytes and eight page bytes".
pub const HEADER: usize = 8;
pub const LIST: usize = 16;

/// What the state holds of the page.
#[derive(Clone, Copy, Debug, PartialEq, Eq)]
pub struct ModePage {
    pub recovery: u8,
    pub retries: u8,
}

/// What MODE SENSE asks for.
#[derive(Clone, Copy, Debug, PartialEq, Eq)]
pub struct PageRequest {
    /// 0 current, 1 changeable, 2 default, 3 saved.
    pub control: u8,
    pub page: u8,
}

impl ModePage {
    /// "default (both zero)"; "Power-on restores defaults."
    pub const DEFAULT: ModePage = ModePage::new(0x00, 0x00);

    /// "changeable (37h and FFh)".
    pub const CHANGEABLE: ModePage = ModePage::new(0x37, 0xFF);

    pub const fn new(recovery: u8, retries: u8) -> ModePage {
        ModePage { recovery, retries }
    }

    /// Refusal 2 "covers a recovery byte outside the twenty"; any retry count
    /// will do.
    pub fn is_sound(self) -> bool {
        SETTINGS.contains(&self.recovery)
    }

    /// MODE SENSE's full answer, never cut here: "05/24/00 for another page, then
    /// 05/39/00 for saved values".
    pub fn sensed(self, request: PageRequest) -> Result<Vec<u8>, Sense> {
        if request.page != PAGE {
            return Err(sense::BAD_FIELD);
        }
        match request.control {
            0 => Ok(self.answer()),
            1 => Ok(ModePage::CHANGEABLE.answer()),
            2 => Ok(ModePage::DEFAULT.answer()),
            _ => Err(sense::NOT_SAVED),
        }
    }

    /// "00 0E and six zeros, then 01 06, recovery byte, retry count and four
    /// zeros".
    fn answer(self) -> Vec<u8> {
        let mut bytes = vec![0x00, 0x0E, 0, 0, 0, 0, 0, 0];
        bytes.extend([PAGE, PAGE_LENGTH, self.recovery, self.retries]);
        bytes.extend([0; 4]);
        bytes
    }

    /// The page behind a MODE SELECT of this list length: "05/1A/00 for another
    /// list length or one that differs from the lent list's, then 05/26/00 unless
    /// its page begins 01 06 and one of the twenty".
    pub fn selected(self, length: usize, list: &[u8]) -> Result<ModePage, Sense> {
        if ![0, LIST].contains(&length) || length != list.len() {
            return Err(sense::LIST_LENGTH);
        }
        // "0 bytes (GOOD, nothing changes)"
        if length == 0 {
            return Ok(self);
        }
        // "its header not looked at", nor are the page's last four bytes
        let page = &list[HEADER..];
        let next = ModePage::new(page[2], page[3]);
        if page[..2] != [PAGE, PAGE_LENGTH] || !next.is_sound() {
            return Err(sense::LIST_FIELD);
        }
        Ok(next)
    }

    /// As it stands in a line: two hex bytes.
    pub fn text(self) -> String {
        format!("{:02X} {:02X}", self.recovery, self.retries)
    }
}
