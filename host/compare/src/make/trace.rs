//! Records of client calls, sound and wrong.

use crate::call::Call;
use crate::random::Random;
use reference::trace::{Kind, HEAD_OCTETS, MARK};

/// A record of the call; none of a call that no record is. A time that is ignored is any.
pub fn record(random: &mut Random, call: &Call) -> Option<Vec<u8>> {
    let any = random.number();
    let (kind, association, time, data) = match call {
        &Call::Open { association, edition, timescale, chunk } => {
            let [c1, c0] = chunk.to_be_bytes();
            (Kind::Open, association, any, vec![edition, timescale, c1, c0])
        }
        &Call::Poll { association, cookie, exponent, interleaved, .. } => {
            let mode = [exponent as u8, interleaved.into()];
            (Kind::Poll, association, any, [&cookie.to_be_bytes()[..], &mode].concat())
        }
        &Call::Sent { association, t1 } => (Kind::Sent, association, t1, Vec::new()),
        Call::Receive { association, datagram, t4 } => {
            (Kind::Receive, *association, *t4, datagram.clone())
        }
        &Call::Close { association } => (Kind::Close, association, any, Vec::new()),
        _ => return None,
    };
    let length = u16::try_from(data.len()).ok()?.to_be_bytes();
    let head = [MARK[0], MARK[1], kind as u8, association, length[0], length[1]];
    Some([&head[..], &time.to_be_bytes(), &data].concat())
}

/// Faults of a record, in the order in which they are told.
#[derive(Clone, Copy, Debug, PartialEq, Eq, PartialOrd, Ord)]
#[allow(missing_docs)]
pub enum Fault {
    CutHead,
    Mark,
    Kind,
    DataLength,
    CutData,
    Mode,
}

impl Fault {
    /// All of them.
    pub const ALL: [Fault; 6] =
        [Fault::CutHead, Fault::Mark, Fault::Kind, Fault::DataLength, Fault::CutData, Fault::Mode];

    /// The replay's state.
    pub fn state(self) -> u8 {
        match self {
            Fault::Mark => 2,
            Fault::Kind | Fault::Mode => 3,
            Fault::DataLength => 4,
            Fault::CutHead | Fault::CutData => 5,
        }
    }

    /// Whether a sound record can have it: only a poll has a mode, a datagram any length.
    pub fn fits(self, record: &[u8]) -> bool {
        match self {
            Fault::CutHead | Fault::Mark | Fault::Kind => true,
            Fault::DataLength => record[2] != Kind::Receive as u8,
            Fault::CutData => record.len() > HEAD_OCTETS,
            Fault::Mode => record[2] == Kind::Poll as u8,
        }
    }

    /// Gives a record the fault. One that is cut has to be the trace's last.
    fn put(self, random: &mut Random, record: &mut Vec<u8>) {
        let length = record.len();
        match self {
            Fault::CutHead => record.truncate(1 + random.below(HEAD_OCTETS - 1)),
            Fault::CutData => record.truncate(HEAD_OCTETS + random.below(length - HEAD_OCTETS)),
            Fault::Mark => match random.below(4) {
                0 => record[..2].reverse(),
                1 => record[..2].fill(0),
                bit => record[bit % 2] ^= 1 << random.below(8),
            },
            Fault::Kind => {
                let any = 6 + random.below(250) as u8;
                record[2] = random.pick(&[0, 6, 255, any]);
            }
            Fault::DataLength => {
                let right = u16::from_be_bytes([record[4], record[5]]);
                let other = right ^ (1 << random.below(16));
                let wrong = random.pick(&[other, right + 1, right.wrapping_sub(1), right << 8 | 1]);
                record[4..6].copy_from_slice(&wrong.to_be_bytes());
            }
            Fault::Mode => record[length - 1] = random.pick(&[2, 3, 128, 254, 255]),
        }
    }
}

/// The record with some faults that fit it, at least one; gives them in their order.
pub fn wrong(random: &mut Random, record: &[u8]) -> (Vec<u8>, Vec<Fault>) {
    let fitting: Vec<Fault> = Fault::ALL.into_iter().filter(|fault| fault.fits(record)).collect();
    let first = random.pick(&fitting);
    let several = random.one_in(2);
    let chosen = |fault: &Fault| *fault == first || several && random.one_in(3);
    let faults: Vec<Fault> = fitting.into_iter().filter(chosen).collect();
    let mut wrong = record.to_vec();
    // From the last on: a cut may take away the octets that a later one changes.
    faults.iter().rev().for_each(|fault| fault.put(random, &mut wrong));
    (wrong, faults)
}

/// Once in a while the call as a record of a trace, which may be wrong, or the end instead.
pub fn replaying(random: &mut Random, call: Call) -> Call {
    let Some(octets) = record(random, &call).filter(|_| random.one_in(6)) else {
        return call;
    };
    let room = random.pick(&[0, 48, 100, 1280]);
    let out = match call {
        Call::Poll { out, .. } => out,
        _ => random.octets(room),
    };
    let before = random.pick(&[0, 0, 1, 14, 100]);
    let mut trace = random.octets(before);
    let (at, mut cut) = (trace.len(), false);
    match random.below(12) {
        0 => {
            let past = random.pick(&[0, 0, 1, 14, usize::MAX - at]);
            return Call::Replay { trace, at: at + past, out };
        }
        1..3 => {
            let (wrong, faults) = wrong(random, &octets);
            trace.extend(wrong);
            cut = faults.iter().any(|fault| fault.state() == 5);
        }
        _ => trace.extend(octets),
    }
    let after = random.pick(&[0, 1, 13, 14, 40]);
    trace.extend(random.octets(if cut { 0 } else { after }));
    Call::Replay { trace, at, out }
}
