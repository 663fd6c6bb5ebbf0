//! What must be met of headers and answers in each edition.

use super::{other, words};
use crate::call::{Answering, Call, Outcome, Returned, Side};
use crate::met::{self, interleaved};
use crate::plain::Plain;
use ntp5::ffi::Header;
use reference::chain::Fields;
use reference::edition::Edition;

/// The values for which edition 1 has less room than edition 7.
pub(super) const LIMITED: [&str; 3] = ["timescale", "stratum", "flags"];
/// A field that a responder of edition 7 answers, by the answer's type.
const ANSWERED: [u16; 3] = [0xF504, 0xF505, 0xF5FF];
/// Types of fields in requests.
const KINDS: [u16; 7] = [0xF501, 0xF502, 0xF503, 0xF504, 0xF505, 0xF5FF, 0x1234];

/// The limited values of a header to be written, of a server or of an opening, and their limits.
fn limited(call: &Call) -> [(u16, u16); 3] {
    let of = |h: &Header| [h.timescale.into(), h.stratum.into(), h.flags];
    let [timescale, stratum, flags] = match call {
        Call::HeaderWrite { header, .. } => of(header),
        Call::Answer(args) => of(&args.header),
        Call::Open { timescale, .. } => [(*timescale).into(), 0, 0],
        _ => [0; 3],
    };
    [(timescale, 15), (stratum, 15), (flags, 255)]
}

/// The one value beyond its limit, if it is one alone, and whether it is by one.
pub(super) fn one_beyond(call: &Call) -> Option<(&'static str, bool)> {
    let values = limited(call).into_iter().zip(LIMITED);
    let mut beyond = values.filter(|((number, limit), _)| number > limit);
    let ((number, limit), value) = beyond.next()?;
    beyond.next().is_none().then_some((value, number == limit + 1))
}

/// What a call that names an edition led to, if it was not refused.
pub(super) fn of(call: &Call, outcome: &Outcome, before: &Plain) -> Vec<String> {
    let Some(Ok(edition)) = call.edition().map(Edition::of) else { return Vec::new() };
    if outcome.returned.refusal() != 0 {
        return Vec::new();
    }
    let mut met = Vec::new();
    match (call, outcome.returned) {
        (Call::Answer(args), _) => {
            met.push(with_offset("answer", args.header.timescale_offset, edition));
            met.extend(answered(args, outcome, edition));
            if edition == Edition::One {
                met.extend(unanswered(call, args, before));
            }
        }
        (Call::HeaderWrite { header, .. }, _) => {
            met.push(with_offset("write", header.timescale_offset, edition));
        }
        (_, Returned::Read(read)) => {
            met.push(with_offset("header", read.header.timescale_offset, edition));
        }
        _ => {}
    }
    if edition == Edition::One && !call.on_table() {
        let values = limited(call).into_iter().zip(LIMITED);
        let largest = values.filter(|((number, limit), _)| number == limit);
        met.extend(largest.map(|(_, value)| with_largest(met::name(call), value)));
    }
    met
}

/// The flags of an answer, and its length.
fn answered(args: &Answering, outcome: &Outcome, edition: Edition) -> Vec<String> {
    let mut met = Vec::new();
    if args.header.flags & other(edition).interleaved() != 0 {
        met.push(other_flag(interleaved(edition, &outcome.out), edition));
    }
    if args.request.len() == 48 {
        met.push(header_alone(edition));
    }
    met
}

/// The fields of a request in edition 1, and those that edition 7 would have answered.
fn unanswered(call: &Call, args: &Answering, before: &Plain) -> Vec<String> {
    let kinds = |datagram: &[u8]| -> Vec<u16> {
        Fields::of(datagram).map_while(Result::ok).map(|field| field.kind).collect()
    };
    let of_kinds = |kind: &u16| KINDS.contains(kind);
    let mut met: Vec<String> =
        kinds(&args.request).into_iter().filter(of_kinds).map(asked).collect();
    let seven = before.clone().make(&call.clone().in_edition(7));
    if let Returned::Written(written) = seven.returned {
        let answers = kinds(&seven.out[..written.length.into()]);
        met.extend(answers.into_iter().filter(|kind| ANSWERED.contains(kind)).map(not_sent));
    }
    met
}

/// What a timescale offset is.
const OFFSETS: [&str; 4] = ["0", "positive", "negative", "unknown"];

fn with_offset(call: &str, offset: i16, edition: Edition) -> String {
    let kind = match offset {
        0 => OFFSETS[0],
        1.. => OFFSETS[1],
        i16::MIN => OFFSETS[3],
        _ => OFFSETS[2],
    };
    offset_of(call, kind, edition)
}

fn offset_of(call: &str, kind: &str, edition: Edition) -> String {
    format!("{call} 0 with timescale offset {kind}{}", words(edition))
}

fn with_largest(call: &str, value: &str) -> String {
    format!("{call} 0 with the largest {value} in edition 1")
}

/// An answer of a server whose flags say interleaved in the other edition.
fn other_flag(mode: &str, edition: Edition) -> String {
    format!("answer 0 {mode} with the other edition's flag{}", words(edition))
}

fn header_alone(edition: Edition) -> String {
    format!("answer 0 of 48 octets{}", words(edition))
}

fn asked(kind: u16) -> String {
    format!("answer 0 to field {kind:04x} in edition 1")
}

fn not_sent(kind: u16) -> String {
    format!("answer 0 in edition 1, in edition 7 with field {kind:04x}")
}

/// What [`of`] must have given.
pub(super) fn required() -> Vec<String> {
    let mut required = Vec::new();
    for edition in [Edition::One, Edition::Seven] {
        required.push(header_alone(edition));
        required.extend(["basic", "interleaved"].map(|mode| other_flag(mode, edition)));
        for call in ["answer", "write"] {
            required.extend(OFFSETS.map(|kind| offset_of(call, kind, edition)));
        }
    }
    required.extend(OFFSETS.map(|kind| offset_of("header", kind, Edition::One)));
    required.push(offset_of("header", "0", Edition::Seven));
    for call in ["answer", "write"] {
        required.extend(LIMITED.map(|value| with_largest(call, value)));
    }
    required.extend(KINDS.map(asked));
    required.extend(ANSWERED.map(not_sent));
    required
}
