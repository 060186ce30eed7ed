//! "The ten sense triples (key/ASC/ASCQ)", and K4's three: thirteen are admitted.

#[derive(Clone, Copy, Debug, PartialEq, Eq)]
pub struct Sense {
    pub key: u8,
    pub asc: u8,
    pub ascq: u8,
}

impl Sense {
    pub const fn new(key: u8, asc: u8, ascq: u8) -> Sense {
        Sense { key, asc, ascq }
    }

    /// Refusal 2 asks whether the held sense is one of the thirteen.
    pub fn is_known(self) -> bool {
        TRIPLES.contains(&self)
    }

    /// Three hex bytes, as both printed forms want them.
    pub fn text(self) -> String {
        format!("{:02X} {:02X} {:02X}", self.key, self.asc, self.ascq)
    }
}

pub const NONE: Sense = Sense::new(0x00, 0x00, 0x00);
pub const NO_MEDIUM: Sense = Sense::new(0x02, 0x3A, 0x01);
pub const TRAY_OPEN: Sense = Sense::new(0x02, 0x3A, 0x02);
pub const UNKNOWN_CODE: Sense = Sense::new(0x05, 0x20, 0x00);
pub const OUT_OF_RANGE: Sense = Sense::new(0x05, 0x21, 0x00);
pub const BAD_FIELD: Sense = Sense::new(0x05, 0x24, 0x00);
pub const PREVENTED: Sense = Sense::new(0x05, 0x53, 0x02);
pub const WRONG_MODE: Sense = Sense::new(0x05, 0x64, 0x00);
pub const CHANGED: Sense = Sense::new(0x06, 0x28, 0x00);
pub const POWERED_ON: Sense = Sense::new(0x06, 0x29, 0x00);

/// K4: a list length, a field of the list, saved values.
pub const LIST_LENGTH: Sense = Sense::new(0x05, 0x1A, 0x00);
pub const LIST_FIELD: Sense = Sense::new(0x05, 0x26, 0x00);
pub const NOT_SAVED: Sense = Sense::new(0x05, 0x39, 0x00);

/// 01's ten in its order, then K4's: "refusal 2 admits these triples".
pub const TRIPLES: [Sense; 13] = [
    NONE,
    NO_MEDIUM,
    TRAY_OPEN,
    UNKNOWN_CODE,
    OUT_OF_RANGE,
    BAD_FIELD,
    PREVENTED,
    WRONG_MODE,
    CHANGED,
    POWERED_ON,
    LIST_LENGTH,
    LIST_FIELD,
    NOT_SAVED,
];
