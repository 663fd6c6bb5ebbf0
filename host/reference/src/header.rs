//! The 48 octets at the start of every datagram.

use crate::edition::Edition;
use crate::refusal::Refusal;

/// Octets in a header.
pub const OCTETS: usize = 48;
/// The longest datagram.
pub const DATAGRAM_MAX: usize = 1280;
/// Mode of a request.
pub const REQUEST: u8 = 3;
/// Mode of a response.
pub const RESPONSE: u8 = 4;

const VERSION: u8 = 5;

/// A cookie chosen by the client for one request.
#[derive(Clone, Copy, Debug, Default, PartialEq, Eq)]
pub struct ClientCookie(pub u64);

/// A cookie chosen by the server for one response.
#[derive(Clone, Copy, Debug, Default, PartialEq, Eq)]
pub struct ServerCookie(pub u64);

/// The fields of a header. The version is always 5 and has no field.
#[derive(Clone, Copy, Debug, Default, PartialEq, Eq)]
pub struct Header {
    /// Leap indicator, 0 to 3.
    pub leap: u8,
    /// 3 request, 4 response.
    pub mode: u8,
    /// Stratum.
    pub stratum: u8,
    /// Poll exponent.
    pub poll: i8,
    /// Precision exponent.
    pub precision: i8,
    /// Timescale.
    pub timescale: u8,
    /// Era.
    pub era: u8,
    /// Timescale offset, which only edition 1 has (W204-2, W204-3).
    pub timescale_offset: i16,
    /// Flags; see [`Edition::interleaved`].
    pub flags: u16,
    /// Root delay, 28 fraction bits.
    pub root_delay: u32,
    /// Root dispersion, 28 fraction bits.
    pub root_dispersion: u32,
    /// Server cookie.
    pub server_cookie: ServerCookie,
    /// Client cookie.
    pub client_cookie: ClientCookie,
    /// Receive timestamp, 32 fraction bits; 0 is unknown.
    pub receive: u64,
    /// Transmit timestamp, 32 fraction bits; 0 is unknown.
    pub transmit: u64,
}

/// The header's octets of a datagram that refusals 1, 2 and 3 let pass.
pub fn checked(datagram: &[u8], wanted_mode: u8) -> Result<&[u8; OCTETS], Refusal> {
    if datagram.len() > DATAGRAM_MAX || !datagram.len().is_multiple_of(4) {
        return Err(Refusal::DatagramLength);
    }
    let octets = datagram.first_chunk().ok_or(Refusal::DatagramLength)?;
    if (octets[0] >> 3) & 7 != VERSION {
        return Err(Refusal::Version);
    }
    if octets[0] & 7 != wanted_mode {
        return Err(Refusal::Mode);
    }
    Ok(octets)
}

impl Header {
    /// Reads a datagram's header in the edition with this number (refusals 6, 1, 2, 3); the
    /// fields after it are not looked at.
    pub fn read(edition: u8, datagram: &[u8], wanted_mode: u8) -> Result<Header, Refusal> {
        let edition = Edition::of(edition)?;
        Ok(Header::of(edition, checked(datagram, wanted_mode)?))
    }

    /// The header in 48 octets.
    pub fn of(edition: Edition, octets: &[u8; OCTETS]) -> Header {
        let [stratum, timescale] = match edition {
            Edition::One => [octets[1] & 0xF, octets[1] >> 4],
            Edition::Seven => [octets[1], octets[4]],
        };
        let (flags, timescale_offset) = match edition {
            Edition::One => (octets[4].into(), i16::from_be_bytes(part(octets, 6))),
            Edition::Seven => (u16::from_be_bytes(part(octets, 6)), 0),
        };
        Header {
            leap: octets[0] >> 6,
            mode: octets[0] & 7,
            stratum,
            poll: octets[2] as i8,
            precision: octets[3] as i8,
            timescale,
            era: octets[5],
            timescale_offset,
            flags,
            root_delay: u32::from_be_bytes(part(octets, 8)),
            root_dispersion: u32::from_be_bytes(part(octets, 12)),
            server_cookie: ServerCookie(u64::from_be_bytes(part(octets, 16))),
            client_cookie: ClientCookie(u64::from_be_bytes(part(octets, 24))),
            receive: u64::from_be_bytes(part(octets, 32)),
            transmit: u64::from_be_bytes(part(octets, 40)),
        }
    }

    /// Writes the header to the start of `out` in the edition with this number (refusals 6, 11).
    pub fn write(&self, edition: u8, out: &mut [u8]) -> Result<(), Refusal> {
        let edition = Edition::of(edition)?;
        let room = edition.has_room(self.timescale, self.stratum, self.flags);
        if self.leap > 3 || !matches!(self.mode, REQUEST | RESPONSE) || !room {
            return Err(Refusal::Argument);
        }
        let place = out.first_chunk_mut().ok_or(Refusal::Room)?;
        *place = self.octets(edition);
        Ok(())
    }

    /// The header as 48 octets. `leap` is below 4 and `mode` below 8, and the edition has room
    /// for the header.
    pub fn octets(&self, edition: Edition) -> [u8; OCTETS] {
        let (first, fourth, sixth) = match edition {
            Edition::One => {
                let offset = self.timescale_offset as u16;
                (self.timescale << 4 | self.stratum, self.flags as u8, offset)
            }
            Edition::Seven => (self.stratum, self.timescale, self.flags),
        };
        let mut octets = [0; OCTETS];
        octets[0] = self.leap << 6 | VERSION << 3 | self.mode;
        octets[1] = first;
        octets[2] = self.poll as u8;
        octets[3] = self.precision as u8;
        octets[4] = fourth;
        octets[5] = self.era;
        octets[6..8].copy_from_slice(&sixth.to_be_bytes());
        octets[8..12].copy_from_slice(&self.root_delay.to_be_bytes());
        octets[12..16].copy_from_slice(&self.root_dispersion.to_be_bytes());
        octets[16..24].copy_from_slice(&self.server_cookie.0.to_be_bytes());
        octets[24..32].copy_from_slice(&self.client_cookie.0.to_be_bytes());
        octets[32..40].copy_from_slice(&self.receive.to_be_bytes());
        octets[40..48].copy_from_slice(&self.transmit.to_be_bytes());
        octets
    }

    /// Whether the edition's interleaved flag is set.
    pub fn interleaved(&self, edition: Edition) -> bool {
        self.flags & edition.interleaved() != 0
    }
}

/// The N octets from `at` on.
fn part<const N: usize>(octets: &[u8; OCTETS], at: usize) -> [u8; N] {
    let mut part = [0; N];
    part.copy_from_slice(&octets[at..at + N]);
    part
}
