//! The responder and its store of saved transmit times.
#![forbid(unsafe_code)]

use crate::ffi::{self, calls};
use crate::{Edition, Refusal, ServerCookie};

/// Octets of a record in a store.
const RECORD: usize = 16;

/// What the server says of itself in every answer. In edition 1 stratum and timescale are at
/// most 15 and the flags at most 255.
#[derive(Clone, Copy, Debug)]
pub struct Server<'a> {
    /// Leap indicator, 0 to 3.
    pub leap: u8,
    /// Stratum.
    pub stratum: u8,
    /// Poll exponent.
    pub poll: i8,
    /// Precision exponent.
    pub precision: i8,
    /// Timescale.
    pub timescale: u8,
    /// Era.
    pub era: u8,
    /// Timescale offset, which only edition 1 sends; `i16::MIN` is unknown.
    pub timescale_offset: i16,
    /// Flags; the interleaved one is taken out.
    pub flags: u16,
    /// Root delay, 28 fraction bits.
    pub root_delay: u32,
    /// Root dispersion, 28 fraction bits.
    pub root_dispersion: u32,
    /// The published filter, 512 octets.
    pub filter: &'a [u8],
    /// Server information, 4 octets.
    pub information: &'a [u8],
}

impl From<&Server<'_>> for ffi::Server {
    fn from(server: &Server) -> Self {
        ffi::Server {
            leap: server.leap,
            stratum: server.stratum,
            poll: server.poll,
            precision: server.precision,
            timescale: server.timescale,
            era: server.era,
            timescale_offset: server.timescale_offset,
            flags: server.flags,
            root_delay: server.root_delay,
            root_dispersion: server.root_dispersion,
        }
    }
}

/// What the caller gives for one answer.
#[derive(Clone, Copy, Debug)]
pub struct Occasion {
    /// When the request came, not 0.
    pub receive: u64,
    /// When the answer will be sent, not 0.
    pub estimate: u64,
    /// A server cookie that was never used.
    pub fresh: ServerCookie,
}

/// A store in octets that `B` owns or borrows. Octets that are no store are refused with 6.
#[derive(Clone, Debug, PartialEq, Eq)]
pub struct Store<B>(B);

impl Store<Vec<u8>> {
    /// A store of its own, all records unused; there may be 1 to 64.
    pub fn new(records: usize) -> Self {
        Store(vec![0; RECORD * records])
    }
}

impl<B: AsRef<[u8]> + AsMut<[u8]>> Store<B> {
    /// A store in any octets, as they are.
    pub fn lent(octets: B) -> Self {
        Store(octets)
    }

    /// Gives the octets back.
    pub fn into_inner(self) -> B {
        self.0
    }

    /// Makes all records unused (refusal 6).
    pub fn clear(&mut self) -> Result<(), Refusal> {
        Refusal::check(calls::store_clear(self.0.as_mut()))
    }

    /// Gives a stored cookie the time at which its answer was sent, once (refusals 6, 12).
    pub fn report(&mut self, cookie: ServerCookie, time: u64) -> Result<(), Refusal> {
        Refusal::check(calls::report(self.0.as_mut(), cookie.0, time))
    }

    /// Writes the answer to a request (refusals 6, 1 to 5, 13, 8, 11); gives its length,
    /// which is the request's.
    pub fn answer(
        &mut self,
        edition: Edition,
        request: &[u8],
        occasion: &Occasion,
        server: &Server,
        out: &mut [u8],
    ) -> Result<usize, Refusal> {
        let (store, edition) = (self.0.as_mut(), edition.number());
        let written = calls::answer(store, edition, request, occasion, server, out);
        Refusal::check(written.refusal)?;
        Ok(written.length.into())
    }
}
