//! Replayed records (W208) as the calls that they are, and what must be met of them.

use crate::call::{Call, Outcome, Returned};
use crate::editions::words;
use crate::met::REFUSALS;
use ntp5::ffi;
use reference::edition::Edition;
use reference::exchange::Mode;
use reference::trace::{self, Call as Recorded};
use std::borrow::Cow;

/// The call of the record that is replayed; none if there is none, or it is wrong. Any other
/// call as it is.
pub fn direct(call: &Call) -> Option<Cow<'_, Call>> {
    let Call::Replay { trace, at, out } = call else {
        return Some(Cow::Borrowed(call));
    };
    let record = trace::read_at(trace, *at).ok().flatten()?;
    let association = record.head.association;
    Some(Cow::Owned(match record.call {
        Recorded::Open { edition, timescale, chunk } => {
            Call::Open { association, edition, timescale, chunk }
        }
        Recorded::Poll { cookie, exponent, mode } => {
            let (interleaved, out) = (mode == Mode::Interleaved, out.clone());
            Call::Poll { association, cookie: cookie.0, exponent, interleaved, out }
        }
        Recorded::Sent { t1 } => Call::Sent { association, t1 },
        Recorded::Receive { datagram, t4 } => {
            Call::Receive { association, datagram: datagram.to_vec(), t4 }
        }
        Recorded::Close => Call::Close { association },
    }))
}

/// What the call of a record gave, by what its replay gave; none if none was made. What any
/// other call gave as it is.
pub fn given(outcome: &Outcome) -> Option<Cow<'_, Outcome>> {
    let Returned::Replayed(replayed) = outcome.returned else {
        return Some(Cow::Borrowed(outcome));
    };
    let ffi::Replayed { refusal, judgement, chunk, length, offset, delay, .. } = replayed;
    let returned = match (replayed.state, replayed.kind) {
        (1, 2) => Returned::Written(ffi::Written { refusal, length }),
        (1, 4) => Returned::Received(ffi::Received { refusal, judgement, chunk, offset, delay }),
        (1, _) => Returned::Refusal(refusal),
        _ => return None,
    };
    let out = if replayed.kind == 2 { outcome.out.clone() } else { Vec::new() };
    Some(Cow::Owned(Outcome { returned, out, stray: outcome.stray.clone() }))
}

/// The calls that records are.
const KINDS: [&str; 5] = ["open", "poll", "sent", "receive", "close"];

/// What must be met of records in edition 1.
const IN_ONE: [&str; 7] = [
    "open 0",
    "poll 0 basic",
    "poll 0 interleaved with cookie",
    "sent 0",
    "receive 0 basic judgement 0 chunk 2",
    "receive 0 interleaved judgement 0 chunk 2",
    "close 0",
];

/// A replayed record, by what is said of its call.
pub(crate) fn made(described: &str) -> String {
    format!("replay 1 {described}")
}

/// A place of a trace where no call was made.
pub(crate) fn not_made(state: u8) -> String {
    format!("replay {state}")
}

/// What must be met of replayed records: every refusal and every judgement of their calls, every
/// fault, and the end.
pub(crate) fn required() -> Vec<String> {
    let mut required = [0, 2, 3, 4, 5].map(not_made).to_vec();
    for (call, numbers) in REFUSALS.into_iter().filter(|(call, _)| KINDS.contains(call)) {
        required.extend(numbers.iter().map(|number| made(&format!("{call} {number}"))));
    }
    for mode in ["basic", "interleaved", "interleaved with cookie"] {
        required.push(made(&format!("poll 0 {mode}")));
    }
    for mode in ["basic", "interleaved"] {
        let judged = |judgement| format!("receive 0 {mode} judgement {judgement} chunk 1");
        required.extend((0..=5).map(|judgement| made(&judged(judgement))));
        let chunk = |chunk| format!("receive 0 {mode} judgement 0 chunk {chunk}");
        required.extend((2..=3).map(|number| made(&chunk(number))));
    }
    required.extend(IN_ONE.map(|call| made(&format!("{call}{}", words(Edition::One)))));
    required.push(made(&format!("open 6{}", words(None))));
    required
}
