//! The editions of the draft, and what they differ in besides the header's layout.

use crate::refusal::Refusal;

/// An edition of the draft (W204-1).
#[derive(Clone, Copy, Debug, PartialEq, Eq)]
#[repr(u8)]
pub enum Edition {
    /// draft-mlichvar-ntp-ntpv5-01 of December 2020.
    One = 1,
    /// draft-mlichvar-ntp-ntpv5-07 of March 2023.
    Seven = 7,
}

impl Edition {
    /// The edition with this number; 6 if there is none.
    pub fn of(number: u8) -> Result<Self, Refusal> {
        match number {
            1 => Ok(Edition::One),
            7 => Ok(Edition::Seven),
            _ => Err(Refusal::Argument),
        }
    }

    /// The flag of an interleaved request or response (W204-4).
    pub fn interleaved(self) -> u16 {
        match self {
            Edition::One => 0x4,
            Edition::Seven => 0x2,
        }
    }

    /// The largest timescale: four bits of it are sent in edition 1, eight in edition 7.
    pub fn timescale_max(self) -> u8 {
        match self {
            Edition::One => 15,
            Edition::Seven => u8::MAX,
        }
    }

    /// Whether a header has room for these values (W204-5).
    pub fn has_room(self, timescale: u8, stratum: u8, flags: u16) -> bool {
        self == Edition::Seven || timescale <= 15 && stratum <= 15 && flags <= 255
    }

    /// Whether fields have a meaning. In edition 1 all are unknown (W204-8, W204-9, W204-14).
    pub fn knows_fields(self) -> bool {
        self == Edition::Seven
    }
}
