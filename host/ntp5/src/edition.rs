//! The editions of the draft.
#![forbid(unsafe_code)]

/// An edition of the draft. Opening an association, an answer, and reading or writing a
/// header name one; its number is the draft's own.
#[derive(Clone, Copy, Debug, PartialEq, Eq, Hash)]
#[repr(u8)]
pub enum Edition {
    /// draft-mlichvar-ntp-ntpv5-01 of December 2020: timescale and stratum have four bits
    /// each, the flags eight, there is a timescale offset, and no field is known.
    One = 1,
    /// draft-mlichvar-ntp-ntpv5-07 of March 2023.
    Seven = 7,
}

impl Edition {
    /// Both editions.
    pub const ALL: [Edition; 2] = [Edition::One, Edition::Seven];

    /// The edition's number.
    pub fn number(self) -> u8 {
        self as u8
    }

    /// The flag of an interleaved request or response.
    pub fn interleaved(self) -> u16 {
        match self {
            Edition::One => 0x4,
            Edition::Seven => 0x2,
        }
    }
}
