//! One exchange of the client: the request as sent, the response as read, its judgement.

use crate::chain::{self, Fields, FILTER_REQUEST, FILTER_RESPONSE, MAC, NAME};
use crate::edition::Edition;
use crate::header::{self, ClientCookie, Header, ServerCookie, REQUEST, RESPONSE};
use crate::measure::{Measured, Times};
use crate::refusal::Refusal;

/// What a poll asks for.
#[derive(Clone, Copy, Debug, PartialEq, Eq)]
pub enum Mode {
    /// All four timestamps from one exchange.
    Basic,
    /// The transmit timestamp of the exchange before, as measured by the server.
    Interleaved,
}

/// The outstanding request.
#[derive(Clone, Copy, Debug, PartialEq, Eq)]
pub struct Request {
    /// The cookie that a response must repeat.
    pub client_cookie: ClientCookie,
    /// The server cookie that was sent; 0 if none.
    pub server_cookie: ServerCookie,
    /// The filter offset that was asked.
    pub offset: u16,
    /// When it was sent; 0 until reported.
    pub t1: u64,
}

/// What an accepted response leaves for the next exchange.
#[derive(Clone, Copy, Debug, PartialEq, Eq)]
pub struct Saved {
    /// The response's timescale.
    pub timescale: u8,
    /// The exchange's timestamps; T1 is 0 if it was not reported.
    pub times: Times,
    /// The response's server cookie.
    pub server_cookie: ServerCookie,
}

/// How an accepted response was judged.
#[derive(Clone, Copy, Debug, PartialEq, Eq)]
#[repr(u8)]
pub enum Judgement {
    /// Offset and delay may be used.
    Usable = 0,
    /// Leap is 3.
    Leap = 1,
    /// The stratum is not 1 to 15.
    Stratum = 2,
    /// A timescale is not the association's.
    Timescale = 3,
    /// A needed timestamp is unknown.
    Timestamp = 4,
    /// One of the four differences is half an era.
    HalfEra = 5,
}

/// What became of the filter chunk.
#[derive(Clone, Copy, Debug, PartialEq, Eq)]
#[repr(u8)]
pub enum Chunk {
    /// It stands in the filter.
    Taken = 1,
    /// The response had none.
    Absent = 2,
    /// It had another size than was asked.
    AnotherSize = 3,
}

/// What an accepted response gave.
#[derive(Clone, Copy, Debug, PartialEq, Eq)]
pub struct Received {
    /// Whether it is usable.
    pub judgement: Judgement,
    /// What became of its chunk.
    pub chunk: Chunk,
    /// Offset, 0 unless usable.
    pub offset: i64,
    /// Delay, 0 unless usable.
    pub delay: u64,
}

/// A sound response: its header and the data of its first filter response, none in edition 1.
pub(crate) struct Response<'a> {
    pub header: Header,
    pub chunk: Option<&'a [u8]>,
}

impl<'a> Response<'a> {
    /// Reads a datagram (refusals 1 to 5, 13).
    pub fn read(edition: Edition, datagram: &'a [u8]) -> Result<Self, Refusal> {
        let header = Header::of(edition, header::checked(datagram, RESPONSE)?);
        let mut chunk = None;
        let mut fields = Fields::of(datagram);
        while let Some(field) = fields.next() {
            let field = field?;
            if field.kind == MAC {
                chain::nothing_left(fields)?;
                break;
            }
            if field.kind == FILTER_RESPONSE && chunk.is_none() {
                chunk = Some(field.data);
            }
        }
        let chunk = chunk.filter(|_| edition.knows_fields());
        Ok(Response { header, chunk })
    }
}

/// Judges a response and measures a usable one. `previous` is the saved exchange that an
/// interleaved one measures.
pub(crate) fn judge(
    header: &Header,
    timescale: u8,
    previous: Option<&Saved>,
    times: &Times,
) -> Result<Measured, Judgement> {
    let other = |scale| scale != timescale;
    if header.leap == 3 {
        Err(Judgement::Leap)
    } else if !(1..=15).contains(&header.stratum) {
        Err(Judgement::Stratum)
    } else if other(header.timescale) || previous.is_some_and(|saved| other(saved.timescale)) {
        Err(Judgement::Timescale)
    } else if !times.known() {
        Err(Judgement::Timestamp)
    } else {
        times.measure().ok_or(Judgement::HalfEra)
    }
}

/// Octets of a poll's datagram that asks for chunks of `c` octets; in edition 1 it has no fields.
pub(crate) fn poll_octets(edition: Edition, c: u16) -> usize {
    if !edition.knows_fields() {
        return header::OCTETS;
    }
    header::OCTETS
        + (chain::FIELD_HEAD + NAME.len()).next_multiple_of(4)
        + chain::FIELD_HEAD
        + usize::from(c)
}

/// Writes a poll's datagram into `out`, which is exactly as long.
pub(crate) fn write_poll(
    out: &mut [u8],
    edition: Edition,
    request: &Request,
    mode: Mode,
    exponent: i8,
    timescale: u8,
    c: u16,
) {
    let header = Header {
        mode: REQUEST,
        poll: exponent,
        timescale,
        flags: if mode == Mode::Interleaved { edition.interleaved() } else { 0 },
        server_cookie: request.server_cookie,
        client_cookie: request.client_cookie,
        ..Header::default()
    };
    let (head, fields) = out.split_at_mut(header::OCTETS);
    head.copy_from_slice(&header.octets(edition));
    if !edition.knows_fields() {
        return;
    }
    let rest = chain::put(fields, chain::DRAFT_NAME, NAME);
    let (data, _) = chain::begin(rest, FILTER_REQUEST, c.into());
    let (offset, zeros) = data.split_at_mut(2);
    offset.copy_from_slice(&request.offset.to_be_bytes());
    zeros.fill(0);
}
