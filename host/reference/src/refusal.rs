//! Refusal numbers.

/// Why a call was refused. The value is its number, N-1 to N-24 and W205-4.
#[derive(Clone, Copy, Debug, PartialEq, Eq)]
#[repr(u8)]
pub enum Refusal {
    /// The datagram's length is outside 48..=1280 or not a multiple of 4.
    DatagramLength = 1,
    /// The version is not 5.
    Version = 2,
    /// The mode is not the one wanted.
    Mode = 3,
    /// A field's length is below 4, or its padded end past the datagram.
    FieldLength = 4,
    /// A padding octet is not zero.
    FieldPadding = 5,
    /// An argument is out of range.
    Argument = 6,
    /// The association's state does not allow the call.
    State = 7,
    /// A cookie is zero or repeated.
    Cookie = 8,
    /// No request is outstanding, or its client cookie differs.
    NotOutstanding = 9,
    /// The response is interleaved; its request had no server cookie.
    NotInterleaved = 10,
    /// The output buffer is too short.
    Room = 11,
    /// The cookie is not in the store, or its time was already reported.
    NotStored = 12,
    /// A field stands after the first MAC.
    AfterMac = 13,
}

impl Refusal {
    /// The refusal number.
    pub fn number(self) -> u8 {
        self as u8
    }
}
