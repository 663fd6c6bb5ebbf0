//! What the calls led to, counted, and what must have been met.

use crate::call::{Call, Outcome, Returned};
use crate::editions::{self, words};
use crate::make::head::Clause;
use crate::missed;
use crate::replay;
use reference::association::CHUNK_SIZES;
use reference::chain::{Fields, MAC};
use reference::edition::Edition;
use std::collections::BTreeMap;
use std::fmt;

/// Outcomes, described, and how often they were met.
#[derive(Clone, Debug, Default)]
pub struct Met(BTreeMap<String, u64>);

impl Met {
    /// Counts what a call in this edition, or in none, led to.
    pub fn count(&mut self, call: &Call, outcome: &Outcome, edition: Option<Edition>) {
        let (words, edition) = (words(edition), edition.unwrap_or(Edition::Seven));
        let key = |call: &Call, outcome: &Outcome| {
            format!("{} {}{words}", name(call), described(call, outcome, edition))
        };
        let key = match (outcome.returned, replay::direct(call), replay::given(outcome)) {
            (Returned::Replayed(_), Some(call), Some(outcome)) => {
                replay::made(&key(&call, &outcome))
            }
            (Returned::Replayed(replayed), ..) => replay::not_made(replayed.state),
            _ => key(call, outcome),
        };
        *self.0.entry(key).or_default() += 1;
        if let Some(mac) = mac_outcome(call, outcome.returned.refusal()) {
            self.also(&format!("{mac}{words}"));
        }
        if matches!(call, Call::Answer(_)) && outcome.returned.refusal() == 0 {
            let Returned::Written(written) = outcome.returned else { return };
            let fields = Fields::of(&outcome.out[..written.length.into()]);
            for field in fields.map_while(Result::ok) {
                self.also(&format!("answer field {:04x}{words}", field.kind));
            }
        }
    }

    /// Counts something else that a call led to.
    pub fn also(&mut self, what: &str) {
        *self.0.entry(format!("also: {what}")).or_default() += 1;
    }

    /// The calls counted.
    pub fn calls(&self) -> u64 {
        let calls = self.0.iter().filter(|(key, _)| !key.starts_with("also: "));
        calls.map(|(_, count)| count).sum()
    }

    /// What must be met and was not.
    pub fn missing(&self) -> Vec<String> {
        let missing = |key: &String| !self.0.contains_key(key);
        required().into_iter().filter(missing).collect()
    }
}

impl fmt::Display for Met {
    fn fmt(&self, f: &mut fmt::Formatter) -> fmt::Result {
        self.0.iter().try_for_each(|(key, count)| writeln!(f, "{count:>10}  {key}"))
    }
}

/// The call's name.
pub(crate) fn name(call: &Call) -> &'static str {
    match call {
        Call::Clear => "clear",
        Call::Open { .. } => "open",
        Call::Close { .. } => "close",
        Call::Poll { .. } => "poll",
        Call::Sent { .. } => "sent",
        Call::Receive { .. } => "receive",
        Call::Verdict { .. } => "verdict",
        Call::Publish { .. } => "publish",
        Call::Replay { .. } => "replay",
        Call::StoreClear => "store",
        Call::Report { .. } => "report",
        Call::Answer(_) => "answer",
        Call::HeaderRead { .. } => "header",
        Call::HeaderWrite { .. } => "write",
        Call::Sound { .. } => "sound",
        Call::Add { .. } => "add",
        Call::Union { .. } => "union",
        Call::Weight { .. } => "weight",
        Call::Measure { .. } => "measure",
    }
}

/// The name of a mode.
pub(crate) fn mode(interleaved: bool) -> &'static str {
    if interleaved {
        "interleaved"
    } else {
        "basic"
    }
}

/// The flags of a datagram's header.
pub(crate) fn flags(edition: Edition, datagram: &[u8]) -> u16 {
    match edition {
        Edition::One => datagram[4].into(),
        Edition::Seven => u16::from_be_bytes([datagram[6], datagram[7]]),
    }
}

/// Whether a datagram's header says interleaved.
pub fn interleaved(edition: Edition, datagram: &[u8]) -> &'static str {
    mode(flags(edition, datagram) & edition.interleaved() != 0)
}

/// What a datagram with a MAC led to: taken with the MAC as its last field, refused with 13
/// where another field or a MAC is last, or with 4 or 5 for a field after a MAC and a sound one.
fn mac_outcome(call: &Call, refusal: u8) -> Option<String> {
    let (what, datagram) = match call {
        Call::Sound { mode, datagram } => (format!("sound {mode}"), datagram),
        Call::Receive { datagram, .. } => ("receive".into(), datagram),
        Call::Answer(args) => ("answer".into(), &args.request),
        _ => return None,
    };
    let fields = Fields::of(datagram).map_while(Result::ok);
    let kinds: Vec<u16> = fields.map(|field| field.kind).collect();
    let (last, before) = kinds.split_last()?;
    let outcome = match (refusal, before.contains(&MAC), *last == MAC) {
        (0, false, true) => 0,
        (13, true, false) => 1,
        (13, true, true) => 2,
        (4, true, _) => 3,
        (5, true, _) => 4,
        _ => return None,
    };
    Some(format!("{what}: {}", MAC_OUTCOMES[outcome]))
}

/// The outcomes that [`mac_outcome`] tells apart.
pub(crate) const MAC_OUTCOMES: [&str; 5] = [
    "0, a MAC last",
    "13, a MAC and another field last",
    "13, a MAC and a MAC last",
    "4 after a MAC and a sound field",
    "5 after a MAC and a sound field",
];

/// An outcome in words: the refusal, or 0 and what sets it apart from other successes.
fn described(call: &Call, outcome: &Outcome, edition: Edition) -> String {
    let refusal = outcome.returned.refusal();
    if refusal != 0 {
        return refusal.to_string();
    }
    match (call, &outcome.returned) {
        (Call::Poll { .. }, _) => {
            let known = outcome.out[16..24] != [0; 8];
            let mode = interleaved(edition, &outcome.out);
            format!("0 {mode}{}", if known { " with cookie" } else { "" })
        }
        (Call::Receive { datagram, .. }, Returned::Received(received)) => {
            let (judgement, chunk) = (received.judgement, received.chunk);
            let mode = interleaved(edition, datagram);
            format!("0 {mode} judgement {judgement} chunk {chunk}")
        }
        (_, Returned::Verdict(verdict)) => format!("0 {}", verdict.verdict),
        (Call::Publish { selected, .. }, _) => format!("0 of {}", selected.count_ones().min(2)),
        (Call::Answer(args), _) => {
            let [sent, asked] = [&outcome.out, &args.request].map(|d| interleaved(edition, d));
            format!("0 {sent} to {asked}")
        }
        (&Call::Measure { times }, Returned::Measurement(measurement)) => {
            let judgement = measurement.judgement;
            half_era_alone(times).map_or(judgement.to_string(), |d| format!("{judgement} {d}"))
        }
        _ => "0".into(),
    }
}

/// The four differences of a measurement.
const DIFFERENCES: [&str; 4] = ["T2-T1", "T3-T4", "T4-T1", "T3-T2"];

/// The one of the four differences that is half an era, if it is one alone.
pub fn half_era_alone([t1, t2, t3, t4]: [u64; 4]) -> Option<&'static str> {
    let differences = [(t2, t1), (t3, t4), (t4, t1), (t3, t2)];
    let half = |&i: &usize| differences[i].0.wrapping_sub(differences[i].1) == 1 << 63;
    let mut found = (0..4).filter(half).map(|i| DIFFERENCES[i]);
    found.next().filter(|_| found.next().is_none())
}

/// The refusals of each call, with 0 where success has no further outcomes.
pub(crate) const REFUSALS: [(&str, &[u8]); 18] = [
    ("clear", &[0, 6]),
    ("open", &[0, 6, 7]),
    ("close", &[0, 6, 7]),
    ("poll", &[6, 7, 8, 11]),
    ("sent", &[0, 6, 7]),
    ("receive", &[6, 7, 1, 2, 3, 4, 5, 13, 9, 10]),
    ("verdict", &[6, 7]),
    ("publish", &[6, 7, 11]),
    ("store", &[0, 6]),
    ("report", &[0, 6, 12]),
    ("answer", &[6, 1, 2, 3, 4, 5, 13, 8, 11]),
    ("header", &[0, 1, 2, 3]),
    ("write", &[0, 6, 11]),
    ("sound", &[0, 1, 2, 3, 4, 5, 13]),
    ("add", &[0, 6]),
    ("union", &[0, 6]),
    ("weight", &[0, 6]),
    ("measure", &[0]),
];

/// Other outcomes that must be met.
const OUTCOMES: [&str; 18] = [
    "poll 0 basic",
    "poll 0 interleaved",
    "poll 0 interleaved with cookie",
    "verdict 0 1",
    "verdict 0 2",
    "verdict 0 3",
    "publish 0 of 0",
    "publish 0 of 1",
    "publish 0 of 2",
    "answer 0 basic to basic",
    "answer 0 basic to interleaved",
    "answer 0 interleaved to interleaved",
    "also: answer field f501",
    "also: answer field f504",
    "also: answer field f505",
    "also: answer field f5ff",
    "also: answer from a full row, basic",
    "also: answer from a full row, interleaved",
];

/// Every refusal of every call, every judgement with every chunk outcome, half an era in each
/// of the four differences, every outcome of a datagram with a MAC, every verdict, 6 for
/// every clause of a head's rule, and what [`missed`] tells of missed polls; most of it in
/// edition 1 too, and what [`editions`] and [`replay`] tell.
fn required() -> Vec<String> {
    let mut required: Vec<String> = OUTCOMES.map(String::from).to_vec();
    for (call, numbers) in REFUSALS {
        required.extend(numbers.iter().map(|number| format!("{call} {number}")));
    }
    required.extend(editions::outcomes());
    required.extend(replay::required());
    for mode in ["basic", "interleaved"] {
        for judgement in 0..=5 {
            let chunk = |chunk| format!("receive 0 {mode} judgement {judgement} chunk {chunk}");
            required.extend((1..=3).map(chunk));
        }
        required.extend(DIFFERENCES.map(|d| format!("also: half an era in {d} alone, {mode}")));
    }
    required.extend(DIFFERENCES.map(|d| format!("measure 5 {d}")));
    for call in ["sound 3", "sound 4", "receive", "answer"] {
        required.extend(MAC_OUTCOMES.map(|mac| format!("also: {call}: {mac}")));
    }
    for clause in Clause::ALL {
        required.push(format!("also: head out of range: {clause:?}"));
    }
    for c in CHUNK_SIZES {
        required.push(format!("also: second turn of the filter with c = {c}"));
    }
    let followed = missed::required().into_iter().chain(editions::required());
    required.extend(followed.map(|what| format!("also: {what}")));
    required
}
