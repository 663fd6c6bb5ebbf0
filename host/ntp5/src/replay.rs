//! What a replay finds in a trace.
#![forbid(unsafe_code)]

use crate::{ffi, Received, Refusal};
use std::error::Error;
use std::fmt;

/// A record of a trace, whose call was made.
#[derive(Clone, Copy, Debug, PartialEq, Eq, Hash)]
pub struct Replayed {
    /// The association that the call named, which may be above 15.
    pub association: u8,
    /// The call and what it gave.
    pub call: ReplayedCall,
    /// Where the next record begins.
    pub next: usize,
}

/// The call of a record, with what [`Table`](crate::Table)'s method for it gives.
#[derive(Clone, Copy, Debug, PartialEq, Eq, Hash)]
pub enum ReplayedCall {
    /// An association was to be opened.
    Open(Result<(), Refusal>),
    /// A request was to be written; gives its length.
    Poll(Result<usize, Refusal>),
    /// T1 was reported.
    Sent(Result<(), Refusal>),
    /// A datagram came.
    Receive(Result<Received, Refusal>),
    /// An association was to be closed.
    Close(Result<(), Refusal>),
}

/// What is wrong with a record, the first of its faults.
#[derive(Clone, Copy, Debug, PartialEq, Eq, Hash)]
#[repr(u8)]
pub enum TraceFault {
    /// It does not begin with 0x4E 0x35.
    Mark = 2,
    /// Its kind is not 1 to 5, or a poll's mode is not 0 or 1.
    Kind = 3,
    /// Its data length is not that of its kind.
    DataLength = 4,
    /// The trace ends within it.
    Cut = 5,
}

impl Replayed {
    /// By the state and the kind.
    pub(crate) fn of(returned: ffi::Replayed) -> Result<Option<Self>, TraceFault> {
        match returned.state {
            0 => return Ok(None),
            1 => {}
            2 => return Err(TraceFault::Mark),
            3 => return Err(TraceFault::Kind),
            4 => return Err(TraceFault::DataLength),
            5 => return Err(TraceFault::Cut),
            other => unreachable!("state {other}"),
        }
        let ffi::Replayed { judgement, chunk, length, offset, delay, .. } = returned;
        let checked = Refusal::check(returned.refusal);
        let call = match returned.kind {
            1 => ReplayedCall::Open(checked),
            2 => ReplayedCall::Poll(checked.map(|()| length.into())),
            3 => ReplayedCall::Sent(checked),
            4 => ReplayedCall::Receive(
                checked.map(|()| Received::of(judgement, chunk, offset, delay)),
            ),
            5 => ReplayedCall::Close(checked),
            other => unreachable!("kind {other}"),
        };
        Ok(Some(Replayed { association: returned.association, call, next: returned.next }))
    }
}

impl fmt::Display for TraceFault {
    fn fmt(&self, f: &mut fmt::Formatter) -> fmt::Result {
        f.write_str(match self {
            TraceFault::Mark => "wrong mark",
            TraceFault::Kind => "wrong kind",
            TraceFault::DataLength => "wrong data length",
            TraceFault::Cut => "cut",
        })
    }
}

impl Error for TraceFault {}
