//! The header of a datagram, and soundness of the whole.
#![forbid(unsafe_code)]

use crate::ffi::{self, calls};
use crate::{Edition, Refusal};

/// Mode of a request.
pub const REQUEST: u8 = 3;
/// Mode of a response.
pub const RESPONSE: u8 = 4;

/// A cookie chosen by the client for one request.
#[derive(Clone, Copy, Debug, Default, PartialEq, Eq, Hash)]
pub struct ClientCookie(pub u64);

/// A cookie chosen by the server for one response.
#[derive(Clone, Copy, Debug, Default, PartialEq, Eq, Hash)]
pub struct ServerCookie(pub u64);

/// The fields of a header. Its version is always 5. In edition 1 stratum and timescale are at
/// most 15 and the flags at most 255.
#[derive(Clone, Copy, Debug, Default, PartialEq, Eq, Hash)]
pub struct Header {
    /// Leap indicator, 0 to 3.
    pub leap: u8,
    /// [`REQUEST`] or [`RESPONSE`].
    pub mode: u8,
    /// Stratum.
    pub stratum: u8,
    /// Poll exponent.
    pub poll: i8,
    /// Precision exponent.
    pub precision: i8,
    /// Timescale.
    pub timescale: u8,
    /// Era.
    pub era: u8,
    /// Timescale offset; in edition 7 it is read as 0, and not written.
    pub timescale_offset: i16,
    /// Flags; see [`Edition::interleaved`].
    pub flags: u16,
    /// Root delay, 28 fraction bits.
    pub root_delay: u32,
    /// Root dispersion, 28 fraction bits.
    pub root_dispersion: u32,
    /// Server cookie.
    pub server_cookie: ServerCookie,
    /// Client cookie.
    pub client_cookie: ClientCookie,
    /// Receive timestamp, 32 fraction bits; 0 is unknown.
    pub receive: u64,
    /// Transmit timestamp, 32 fraction bits; 0 is unknown.
    pub transmit: u64,
}

impl Header {
    /// Reads a datagram's header (refusals 1, 2, 3).
    pub fn read(edition: Edition, datagram: &[u8], wanted_mode: u8) -> Result<Header, Refusal> {
        let read = calls::header_read(edition.number(), datagram, wanted_mode);
        Refusal::check(read.refusal)?;
        Ok(read.header.into())
    }

    /// Writes the header to the start of `out` (refusals 6, 11).
    pub fn write(self, edition: Edition, out: &mut [u8]) -> Result<(), Refusal> {
        Refusal::check(calls::header_write(edition.number(), self.into(), out))
    }
}

/// Whether a datagram is sound for a mode (refusals 1 to 5, 13), the same in both editions.
pub fn sound(datagram: &[u8], wanted_mode: u8) -> Result<(), Refusal> {
    Refusal::check(calls::sound(datagram, wanted_mode))
}

impl From<ffi::Header> for Header {
    fn from(header: ffi::Header) -> Self {
        Header {
            leap: header.leap,
            mode: header.mode,
            stratum: header.stratum,
            poll: header.poll,
            precision: header.precision,
            timescale: header.timescale,
            era: header.era,
            timescale_offset: header.timescale_offset,
            flags: header.flags,
            root_delay: header.root_delay,
            root_dispersion: header.root_dispersion,
            server_cookie: ServerCookie(header.server_cookie),
            client_cookie: ClientCookie(header.client_cookie),
            receive: header.receive,
            transmit: header.transmit,
        }
    }
}

impl From<Header> for ffi::Header {
    fn from(header: Header) -> Self {
        ffi::Header {
            leap: header.leap,
            mode: header.mode,
            stratum: header.stratum,
            poll: header.poll,
            precision: header.precision,
            timescale: header.timescale,
            era: header.era,
            timescale_offset: header.timescale_offset,
            flags: header.flags,
            root_delay: header.root_delay,
            root_dispersion: header.root_dispersion,
            server_cookie: header.server_cookie.0,
            client_cookie: header.client_cookie.0,
            receive: header.receive,
            transmit: header.transmit,
        }
    }
}
