//! Refusal numbers by name.
#![forbid(unsafe_code)]

use std::error::Error;
use std::fmt;

/// Why a call was refused. The value is its number, N-1 to N-24 and W205-4.
#[derive(Clone, Copy, Debug, PartialEq, Eq, Hash)]
#[repr(u8)]
pub enum Refusal {
    /// A datagram's length is not 48 to 1,280 octets or not a multiple of 4.
    DatagramLength = 1,
    /// The version is not 5.
    Version = 2,
    /// The mode is not the one wanted.
    Mode = 3,
    /// A field's length is below 4, or its padded end past the datagram.
    FieldLength = 4,
    /// A padding octet is not zero.
    FieldPadding = 5,
    /// An argument, or a number kept in a table or a store, is out of range.
    Argument = 6,
    /// Not open, or already open; no send to report; a selected filter not complete.
    State = 7,
    /// A cookie is zero or repeated.
    Cookie = 8,
    /// No request is outstanding, or its client cookie differs.
    NotOutstanding = 9,
    /// An interleaved response to a request that had no server cookie.
    NotInterleaved = 10,
    /// The output buffer is too short.
    Room = 11,
    /// The server cookie is not in the store, or its time was already reported.
    NotStored = 12,
    /// A field stands after the first MAC.
    AfterMac = 13,
}

impl Refusal {
    /// All refusals, by number from 1 on.
    pub const ALL: [Refusal; 13] = [
        Refusal::DatagramLength,
        Refusal::Version,
        Refusal::Mode,
        Refusal::FieldLength,
        Refusal::FieldPadding,
        Refusal::Argument,
        Refusal::State,
        Refusal::Cookie,
        Refusal::NotOutstanding,
        Refusal::NotInterleaved,
        Refusal::Room,
        Refusal::NotStored,
        Refusal::AfterMac,
    ];

    /// The refusal number.
    pub fn number(self) -> u8 {
        self as u8
    }

    /// `Ok` for 0, else the refusal with this number.
    ///
    /// # Panics
    /// If there is none, which the library never gives.
    pub(crate) fn check(number: u8) -> Result<(), Refusal> {
        match number.checked_sub(1) {
            None => Ok(()),
            Some(place) => Err(Self::ALL[usize::from(place)]),
        }
    }
}

impl fmt::Display for Refusal {
    fn fmt(&self, f: &mut fmt::Formatter) -> fmt::Result {
        let text = match self {
            Refusal::DatagramLength => "datagram length not 48 to 1280 or no multiple of 4",
            Refusal::Version => "version not 5",
            Refusal::Mode => "mode not the one wanted",
            Refusal::FieldLength => "field length below 4 or past the datagram",
            Refusal::FieldPadding => "field padding not zero",
            Refusal::Argument => "argument out of range",
            Refusal::State => "not in a state for this call",
            Refusal::Cookie => "cookie zero or repeated",
            Refusal::NotOutstanding => "no outstanding request with this client cookie",
            Refusal::NotInterleaved => "interleaved response to a request without server cookie",
            Refusal::Room => "output buffer too short",
            Refusal::NotStored => "server cookie not stored or its time already reported",
            Refusal::AfterMac => "field after the MAC",
        };
        write!(f, "refusal {}: {text}", self.number())
    }
}

impl Error for Refusal {}
