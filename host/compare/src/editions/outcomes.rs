//! The outcomes of calls that must be met in edition 1, and in none.

use super::{words, NAMING};
use crate::met::MAC_OUTCOMES;
use reference::edition::Edition;

/// The refusals of calls in edition 1, with 0 where success has no further outcomes.
const REFUSALS: [(&str, &[u8]); 10] = [
    ("open", &[0, 6, 7]),
    ("close", &[0, 6]),
    ("poll", &[6, 8, 11]),
    ("sent", &[0, 6, 7]),
    ("receive", &[6, 1, 2, 3, 4, 5, 13, 9, 10]),
    ("verdict", &[6]),
    ("publish", &[6, 7]),
    ("answer", &[6, 1, 2, 3, 4, 5, 13, 8, 11]),
    ("header", &[0, 1, 2, 3]),
    ("write", &[0, 6, 11]),
];

/// Other outcomes in edition 1 that must be met.
const OUTCOMES: [&str; 8] = [
    "poll 0 basic",
    "poll 0 interleaved",
    "poll 0 interleaved with cookie",
    "verdict 0 1",
    "answer 0 basic to basic",
    "answer 0 basic to interleaved",
    "answer 0 interleaved to interleaved",
    "also: answer field f501",
];

/// What must be met in edition 1, where a chunk is always absent, and in no edition.
pub(crate) fn outcomes() -> Vec<String> {
    let one = words(Edition::One);
    let mut required = OUTCOMES.map(|outcome| format!("{outcome}{one}")).to_vec();
    for (call, numbers) in REFUSALS {
        required.extend(numbers.iter().map(|number| format!("{call} {number}{one}")));
    }
    required.extend(NAMING.map(|call| format!("{call} 6{}", words(None))));
    for mode in ["basic", "interleaved"] {
        let judged = |judgement| format!("receive 0 {mode} judgement {judgement} chunk 2{one}");
        required.extend((0..=5).map(judged));
    }
    for call in ["receive", "answer"] {
        required.extend(MAC_OUTCOMES.map(|mac| format!("also: {call}: {mac}{one}")));
    }
    required
}
