//! "The address of M:S:F is (M × 60 + S) × 75 + F − 150: 0 to 449,849."

use crate::limits::TOP_ADDRESS;
use crate::refusal::Refusal;

#[derive(Clone, Copy, Debug, PartialEq, Eq)]
pub struct Msf {
    pub m: u8,
    pub s: u8,
    pub f: u8,
}

impl Msf {
    pub const fn new(m: u8, s: u8, f: u8) -> Msf {
        Msf { m, s, f }
    }

    /// Rule 6: "an address from 00:02:00 to 99:59:74, seconds to 59, frames
    /// to 74". The order of addresses is the order of the three numbers once
    /// seconds and frames are in their range.
    pub fn in_rule_6(self) -> bool {
        let clock = self.s <= 59 && self.f <= 74;
        let place = (self.m, self.s, self.f);
        clock && ((0, 2, 0)..=(99, 59, 74)).contains(&place)
    }

    /// Refusal 8 for "M:S:F outside rule 6".
    pub fn address(self) -> Result<u32, Refusal> {
        if !self.in_rule_6() {
            return Err(Refusal::BadAddress);
        }
        let seconds = u32::from(self.m) * 60 + u32::from(self.s);
        Ok(seconds * 75 + u32::from(self.f) - 150)
    }
}

/// Refusal 8 for "address over 449,849".
pub fn to_msf(address: u32) -> Result<Msf, Refusal> {
    if address > TOP_ADDRESS {
        return Err(Refusal::BadAddress);
    }
    let frames = address + 150;
    Ok(clock(frames))
}

/// So many frames as minutes, seconds and frames; at most 449,999, or 99:59:74.
/// K2 shows a relative address so, "without the 150".
pub fn clock(frames: u32) -> Msf {
    let (seconds, f) = (frames / 75, frames % 75);
    let (m, s) = (seconds / 60, seconds % 60);
    Msf::new(m as u8, s as u8, f as u8)
}
