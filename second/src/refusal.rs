//! "Numbers of refusal".

#[derive(Clone, Copy, Debug, PartialEq, Eq)]
pub enum Refusal {
    /// "packet is not 12 bytes"
    PacketLength,
    /// "held sense is none of the ten below"; K2: "2 also covers another status,
    /// a position past its end, or an end over 449,849"; K4: it "admits these
    /// triples, and covers a recovery byte outside the twenty"; K7: "2 also covers
    /// an event over 3"
    UnsoundState,
    /// "response memory is under 6,538 bytes" (K1's bound)
    SmallMemory,
    /// "loaded, or asked for a session's part, and the table is not fit"; K6:
    /// it "carries that number", the first broken rule of 1 to 7
    UnfitTable(u8),
    /// "a closed one opens, unless locked (5)"; K7: it "changes that event only"
    Locked,
    /// "Laying a disc needs an open tray without one (6)"
    CannotLay,
    /// "lifting needs an open tray with one (7)"
    CannotLift,
    /// "address over 449,849, or M:S:F outside rule 6"
    BadAddress,
    /// "a session asked for is 0 or over S"
    NoSession,
    /// K11: "no slots, more than 31, an open tray, or a drive's disc whose home is
    /// occupied or beyond the last"
    Changer,
    /// K12: "a length not a multiple of 8"
    SheetLength,
    /// K12: "no fit table has those tracks, controls and addresses or the entries
    /// aren't as described here"
    UnfitSheet,
    /// K12: "output memory under 6,538 bytes"
    SmallOutput,
    /// K14: "a data read outside answer runs, a data write outside packet and list
    /// runs, a command other than A0h, or any other write before status has ended a
    /// transfer"
    OutOfTurn,
}

impl Refusal {
    /// 1 to 8 and 10 to 15: where K9 took one away, "Other numbers stay."
    pub fn number(self) -> u8 {
        match self {
            Refusal::PacketLength => 1,
            Refusal::UnsoundState => 2,
            Refusal::SmallMemory => 3,
            Refusal::UnfitTable(_) => 4,
            Refusal::Locked => 5,
            Refusal::CannotLay => 6,
            Refusal::CannotLift => 7,
            Refusal::BadAddress => 8,
            Refusal::NoSession => 10,
            Refusal::Changer => 11,
            Refusal::SheetLength => 12,
            Refusal::UnfitSheet => 13,
            Refusal::SmallOutput => 14,
            Refusal::OutOfTurn => 15,
        }
    }

    /// The broken rule that 4 carries (K6), 0 with every other number.
    pub fn rule(self) -> u8 {
        match self {
            Refusal::UnfitTable(rule) => rule,
            _ => 0,
        }
    }

    /// The number as it is printed, "after the 4" the rule (K6).
    pub fn text(self, between: char) -> String {
        match self {
            Refusal::UnfitTable(rule) => format!("{}{between}{rule}", self.number()),
            _ => self.number().to_string(),
        }
    }
}
