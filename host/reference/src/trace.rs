//! Traces (W208): recorded calls on a client's table.
//!
//! A trace is one record after the other. A record is a head of 14 octets and the call's data,
//! in network order. The head is the mark, the kind, the association, the data length (16)
//! and a time (64), which is T1 or T4, or ignored.

use crate::exchange::Mode;
use crate::header::ClientCookie;

/// The octets that lead each record.
pub const MARK: [u8; 2] = [0x4E, 0x35];
/// Octets of a record before its data.
pub const HEAD_OCTETS: usize = 14;

/// Which call a record is.
#[derive(Clone, Copy, Debug, PartialEq, Eq)]
#[repr(u8)]
pub enum Kind {
    /// Opens an association.
    Open = 1,
    /// Writes a request.
    Poll = 2,
    /// Reports T1.
    Sent = 3,
    /// Takes a datagram.
    Receive = 4,
    /// Closes an association.
    Close = 5,
}

impl Kind {
    fn of(number: u8) -> Result<Self, Fault> {
        match number {
            1 => Ok(Kind::Open),
            2 => Ok(Kind::Poll),
            3 => Ok(Kind::Sent),
            4 => Ok(Kind::Receive),
            5 => Ok(Kind::Close),
            _ => Err(Fault::Kind),
        }
    }

    /// Whether this kind's data may have so many octets: a datagram any number, others one.
    fn allows(self, length: u16) -> bool {
        match self {
            Kind::Open => length == 4,
            Kind::Poll => length == 10,
            Kind::Sent | Kind::Close => length == 0,
            Kind::Receive => true,
        }
    }
}

/// What is wrong with a record. The value is the replay's number for it.
#[derive(Clone, Copy, Debug, PartialEq, Eq)]
#[repr(u8)]
pub enum Fault {
    /// It does not begin with the mark.
    Mark = 2,
    /// There is no such kind, or no such mode of a poll.
    Kind = 3,
    /// Its kind has data of another length.
    DataLength = 4,
    /// The trace ends within it.
    Cut = 5,
}

/// A recorded call, but for its association.
#[derive(Clone, Copy, Debug, PartialEq, Eq)]
pub enum Call<'a> {
    /// See [`Place::open`](crate::association::Place::open).
    Open {
        /// The edition's number.
        edition: u8,
        /// The timescale.
        timescale: u8,
        /// The chunk size c.
        chunk: u16,
    },
    /// See [`Place::poll`](crate::association::Place::poll).
    Poll {
        /// The client cookie.
        cookie: ClientCookie,
        /// The poll exponent.
        exponent: i8,
        /// The wanted mode.
        mode: Mode,
    },
    /// See [`Place::sent`](crate::association::Place::sent).
    Sent {
        /// When the request was sent.
        t1: u64,
    },
    /// See [`Place::receive`](crate::association::Place::receive).
    Receive {
        /// What was received.
        datagram: &'a [u8],
        /// When it was received.
        t4: u64,
    },
    /// See [`Place::close`](crate::association::Place::close).
    Close,
}

/// A record's head; the mark is not kept.
#[derive(Clone, Copy, Debug, PartialEq, Eq)]
pub struct Head {
    /// Which call it is.
    pub kind: Kind,
    /// The association that the call names, which may be above 15.
    pub association: u8,
    /// The data's octets.
    pub length: u16,
    /// T1 or T4, or ignored.
    pub time: u64,
}

impl Head {
    /// Reads a head: the mark is checked first, then the kind, then the data length.
    pub fn read(octets: &[u8; HEAD_OCTETS]) -> Result<Self, Fault> {
        let &[m0, m1, kind, association, l0, l1, ref time @ ..] = octets;
        if [m0, m1] != MARK {
            return Err(Fault::Mark);
        }
        let kind = Kind::of(kind)?;
        let length = u16::from_be_bytes([l0, l1]);
        if !kind.allows(length) {
            return Err(Fault::DataLength);
        }
        Ok(Head { kind, association, length, time: u64::from_be_bytes(*time) })
    }

    /// The call with these data, which are as many octets as the head says.
    pub fn call<'a>(&self, data: &'a [u8]) -> Result<Call<'a>, Fault> {
        match self.kind {
            Kind::Open => {
                let &[edition, timescale, c0, c1] = data.first_chunk().ok_or(Fault::DataLength)?;
                Ok(Call::Open { edition, timescale, chunk: u16::from_be_bytes([c0, c1]) })
            }
            Kind::Poll => {
                let &[ref cookie @ .., exponent, mode]: &[u8; 10] =
                    data.first_chunk().ok_or(Fault::DataLength)?;
                let cookie = ClientCookie(u64::from_be_bytes(*cookie));
                Ok(Call::Poll { cookie, exponent: exponent as i8, mode: mode_of(mode)? })
            }
            Kind::Sent => Ok(Call::Sent { t1: self.time }),
            Kind::Receive => Ok(Call::Receive { datagram: data, t4: self.time }),
            Kind::Close => Ok(Call::Close),
        }
    }
}

/// A poll's mode; any but two make its record one of a wrong kind.
fn mode_of(number: u8) -> Result<Mode, Fault> {
    match number {
        0 => Ok(Mode::Basic),
        1 => Ok(Mode::Interleaved),
        _ => Err(Fault::Kind),
    }
}

/// A record.
#[derive(Clone, Copy, Debug, PartialEq, Eq)]
pub struct Record<'a> {
    /// Its head.
    pub head: Head,
    /// Its call.
    pub call: Call<'a>,
    /// Where the next record begins.
    pub next: usize,
}

/// Reads the record at a place of a trace; none at its end or past it. The first fault is told:
/// a cut head, mark, kind, data length, cut data, a poll's mode.
pub fn read_at(trace: &[u8], at: usize) -> Result<Option<Record<'_>>, Fault> {
    let octets = trace.get(at..).unwrap_or_default();
    if octets.is_empty() {
        return Ok(None);
    }
    let (head, rest) = octets.split_first_chunk().ok_or(Fault::Cut)?;
    let head = Head::read(head)?;
    let data = rest.get(..head.length.into()).ok_or(Fault::Cut)?;
    let call = head.call(data)?;
    Ok(Some(Record { head, call, next: at + HEAD_OCTETS + data.len() }))
}
