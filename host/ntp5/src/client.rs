//! The client: sixteen associations in one table.
#![forbid(unsafe_code)]

use crate::ffi::calls;
use crate::{
    ClientCookie, Edition, Filter, Measured, ReferenceId, Refusal, Replayed, TraceFault, Unusable,
};

/// What a poll asks for.
#[derive(Clone, Copy, Debug, PartialEq, Eq, Hash)]
pub enum Mode {
    /// All four timestamps from one exchange.
    Basic,
    /// The transmit timestamp of the exchange before, as measured by the server.
    Interleaved,
}

/// What became of a response's filter chunk.
#[derive(Clone, Copy, Debug, PartialEq, Eq, Hash)]
#[repr(u8)]
pub enum Chunk {
    /// It stands in the association's filter.
    Taken = 1,
    /// The response had none, as in edition 1 it never has.
    Absent = 2,
    /// It had another size than was asked.
    AnotherSize = 3,
}

/// An accepted response.
#[derive(Clone, Copy, Debug, PartialEq, Eq, Hash)]
pub struct Received {
    /// The measurement, or why there is none.
    pub measured: Result<Measured, Unusable>,
    /// What became of the filter chunk.
    pub chunk: Chunk,
}

impl Received {
    /// By the numbers of an answer that is no refusal.
    pub(crate) fn of(judgement: u8, chunk: u8, offset: i64, delay: u64) -> Self {
        let chunk = match chunk {
            1 => Chunk::Taken,
            2 => Chunk::Absent,
            3 => Chunk::AnotherSize,
            other => unreachable!("chunk outcome {other}"),
        };
        Received { measured: Measured::judged(judgement, offset, delay), chunk }
    }
}

/// Whether a server follows a reference ID.
#[derive(Clone, Copy, Debug, PartialEq, Eq, Hash)]
#[repr(u8)]
pub enum Verdict {
    /// Its filter was not yet received whole, as in edition 1 it never is.
    Incomplete = 1,
    /// All ten positions of the ID are set.
    Loop = 2,
    /// One of them is not.
    Clear = 3,
}

/// A client's table in numbers that `B` owns or borrows. Associations are 0 to 15;
/// any other is refused with 6, as are numbers that are no table.
///
/// It has 1,296 numbers, 81 for each association: a head of 17, of which the first is the
/// edition or 0 if it is closed, then the filter's 64 words. Word i is the filter's octets 8i
/// to 8i + 7, the first of them the lowest.
#[derive(Clone, Debug, PartialEq, Eq)]
pub struct Table<B>(B);

impl Table<Vec<u64>> {
    /// A table of its own, all associations closed.
    pub fn new() -> Self {
        Table(vec![0; calls::table_words()])
    }
}

impl Default for Table<Vec<u64>> {
    fn default() -> Self {
        Self::new()
    }
}

impl<B: AsRef<[u64]> + AsMut<[u64]>> Table<B> {
    /// A table in any numbers, as they are.
    pub fn lent(numbers: B) -> Self {
        Table(numbers)
    }

    /// Gives the numbers back.
    pub fn into_inner(self) -> B {
        self.0
    }

    /// Closes all associations (refusal 6).
    pub fn clear(&mut self) -> Result<(), Refusal> {
        Refusal::check(calls::clear(self.0.as_mut()))
    }

    /// Opens an association (refusals 6, 7). `timescale` is at most 15 in edition 1, and
    /// `chunk` is 16, 32, 64, 128, 256 or 512 in both.
    pub fn open(
        &mut self,
        association: u8,
        edition: Edition,
        timescale: u8,
        chunk: u16,
    ) -> Result<(), Refusal> {
        let table = self.0.as_mut();
        Refusal::check(calls::open(table, association, edition.number(), timescale, chunk))
    }

    /// Closes an association (refusals 6, 7).
    pub fn close(&mut self, association: u8) -> Result<(), Refusal> {
        Refusal::check(calls::close(self.0.as_mut(), association))
    }

    /// Writes a request, which becomes the outstanding one (refusals 6, 7, 8, 11);
    /// gives the datagram's length.
    ///
    /// In interleaved mode it sends the server cookie of the last accepted response; after
    /// four missed polls, that is requests replaced unanswered, it sends 0 until a response
    /// is accepted.
    pub fn poll(
        &mut self,
        association: u8,
        cookie: ClientCookie,
        exponent: i8,
        mode: Mode,
        out: &mut [u8],
    ) -> Result<usize, Refusal> {
        let interleaved = mode == Mode::Interleaved;
        let table = self.0.as_mut();
        let written = calls::poll(table, association, cookie.0, exponent, interleaved, out);
        Refusal::check(written.refusal)?;
        Ok(written.length.into())
    }

    /// Reports when the outstanding request was sent (refusals 6, 7).
    pub fn sent(&mut self, association: u8, t1: u64) -> Result<(), Refusal> {
        Refusal::check(calls::sent(self.0.as_mut(), association, t1))
    }

    /// Takes a datagram that came at T4 (refusals 6, 7, 1 to 5, 13, 9, 10).
    pub fn receive(
        &mut self,
        association: u8,
        datagram: &[u8],
        t4: u64,
    ) -> Result<Received, Refusal> {
        let returned = calls::receive(self.0.as_mut(), association, datagram, t4);
        Refusal::check(returned.refusal)?;
        let (judgement, chunk) = (returned.judgement, returned.chunk);
        Ok(Received::of(judgement, chunk, returned.offset, returned.delay))
    }

    /// Whether the association's server follows the ID (refusals 6, 7).
    pub fn loop_verdict(&self, association: u8, id: &ReferenceId) -> Result<Verdict, Refusal> {
        let returned = calls::loop_verdict(self.0.as_ref(), association, &id.0);
        Refusal::check(returned.refusal)?;
        Ok(match returned.verdict {
            1 => Verdict::Incomplete,
            2 => Verdict::Loop,
            3 => Verdict::Clear,
            other => unreachable!("verdict {other}"),
        })
    }

    /// The union of the filters of the associations selected by bit, with the own ID
    /// added (refusals 6, 7).
    pub fn publish(&self, selected: u16, id: &ReferenceId) -> Result<Filter, Refusal> {
        let mut filter = Filter::FRESH;
        let written = calls::publish(self.0.as_ref(), selected, &id.0, &mut filter.0);
        Refusal::check(written.refusal)?;
        Ok(filter)
    }

    /// Makes the call of the record that begins `at` octets into a trace; none at the trace's
    /// end, or past it. A wrong record makes none, and ends the replay.
    ///
    /// A poll is lent `out` as it is, of which 1,280 octets are always enough; the other calls
    /// leave it alone. A call that is refused was made: the replay goes on after it.
    pub fn replay(
        &mut self,
        trace: &[u8],
        at: usize,
        out: &mut [u8],
    ) -> Result<Option<Replayed>, TraceFault> {
        Replayed::of(calls::replay(self.0.as_mut(), trace, at, out))
    }
}
