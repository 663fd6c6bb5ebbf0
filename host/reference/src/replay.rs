//! Replay of a trace (W208): its calls, made on a table.

use crate::exchange::Received;
use crate::refusal::Refusal;
use crate::table::Table;
use crate::trace::{self, Call, Fault, Head, Kind, Record, HEAD_OCTETS};
use std::io::{self, BufRead, ErrorKind};

/// What a call gave that was not refused.
#[derive(Clone, Copy, Debug, PartialEq, Eq)]
pub enum Answer {
    /// Nothing but that: open, sent and close.
    Done,
    /// The octets that a poll wrote.
    Written(usize),
    /// What receive gave.
    Received(Received),
}

/// A record whose call was made.
#[derive(Clone, Copy, Debug, PartialEq, Eq)]
pub struct Replayed {
    /// Which call it was.
    pub kind: Kind,
    /// The association that it named.
    pub association: u8,
    /// Where the next record begins.
    pub next: usize,
    /// What the call gave.
    pub answer: Result<Answer, Refusal>,
}

impl Replayed {
    /// What became of a record.
    pub(crate) fn new(record: &Record, answer: Result<Answer, Refusal>) -> Self {
        let Head { kind, association, .. } = record.head;
        Replayed { kind, association, next: record.next, answer }
    }
}

/// How the replay of a whole trace ended.
#[derive(Clone, Copy, Debug, PartialEq, Eq)]
pub enum Ended {
    /// The trace is sound and has so many records.
    Sound(u64),
    /// This record, counted from 1, is wrong; the calls before it were made.
    Wrong(u64, Fault),
}

impl Table {
    /// Makes a recorded call. A poll is lent `out`.
    pub fn make(
        &mut self,
        association: u8,
        call: &Call,
        out: &mut [u8],
    ) -> Result<Answer, Refusal> {
        let done = |()| Answer::Done;
        match *call {
            Call::Open { edition, timescale, chunk } => {
                self.open(association, edition, timescale, chunk).map(done)
            }
            Call::Poll { cookie, exponent, mode } => {
                self.poll(association, cookie, exponent, mode, out).map(Answer::Written)
            }
            Call::Sent { t1 } => self.sent(association, t1).map(done),
            Call::Receive { datagram, t4 } => {
                self.receive(association, datagram, t4).map(Answer::Received)
            }
            Call::Close => self.close(association).map(done),
        }
    }

    /// Makes the call of the record at a place of a trace; none at the trace's end or past it.
    pub fn replay(
        &mut self,
        trace: &[u8],
        at: usize,
        out: &mut [u8],
    ) -> Result<Option<Replayed>, Fault> {
        let Some(record) = trace::read_at(trace, at)? else {
            return Ok(None);
        };
        let answer = self.make(record.head.association, &record.call, out);
        Ok(Some(Replayed::new(&record, answer)))
    }

    /// Replays a whole trace, of which no more than a record is kept at a time. `each` is shown
    /// every record's number, from 1, what became of it, and `out`, which each poll is lent.
    pub fn replay_all(
        &mut self,
        mut trace: impl BufRead,
        out: &mut [u8],
        mut each: impl FnMut(u64, &Replayed, &[u8]) -> io::Result<()>,
    ) -> io::Result<Ended> {
        let (mut data, mut number, mut at) = (Vec::new(), 0, 0);
        while !trace.fill_buf()?.is_empty() {
            number += 1;
            let record = match read_next(&mut trace, at, &mut data) {
                Ok(record) => record,
                Err(Stop::Wrong(fault)) => return Ok(Ended::Wrong(number, fault)),
                Err(Stop::Unread(error)) => return Err(error),
            };
            at = record.next;
            let answer = self.make(record.head.association, &record.call, out);
            each(number, &Replayed::new(&record, answer), out)?;
        }
        Ok(Ended::Sound(number))
    }
}

/// Why there is no further record.
enum Stop {
    /// It is wrong.
    Wrong(Fault),
    /// It can't be read.
    Unread(io::Error),
}

impl From<Fault> for Stop {
    fn from(fault: Fault) -> Self {
        Stop::Wrong(fault)
    }
}

impl From<io::Error> for Stop {
    fn from(error: io::Error) -> Self {
        match error.kind() {
            ErrorKind::UnexpectedEof => Stop::Wrong(Fault::Cut),
            _ => Stop::Unread(error),
        }
    }
}

/// Reads the record that begins `at` octets into a trace, which was read up to there.
fn read_next<'a>(
    trace: &mut impl BufRead,
    at: usize,
    data: &'a mut Vec<u8>,
) -> Result<Record<'a>, Stop> {
    let mut octets = [0; HEAD_OCTETS];
    trace.read_exact(&mut octets)?;
    let head = Head::read(&octets)?;
    data.resize(head.length.into(), 0);
    trace.read_exact(data)?;
    let call = head.call(data)?;
    Ok(Record { head, call, next: at + HEAD_OCTETS + data.len() })
}
