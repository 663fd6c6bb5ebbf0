//! Editions (W204): in which one a call is made, and what must be met of each.

mod client;
mod outcomes;
mod values;

use crate::call::{Call, Outcome, Side};
use crate::make::NO_EDITION;
use crate::met::name;
use crate::plain::Plain;
use crate::reorder::names;
use reference::edition::Edition;
use reference::table::PLACES;

pub(crate) use outcomes::outcomes;

/// The calls that name an edition.
const NAMING: [&str; 4] = ["open", "answer", "header", "write"];

/// What is added to the description of a call in edition 1, or in none.
pub(crate) fn words(edition: impl Into<Option<Edition>>) -> &'static str {
    match edition.into() {
        Some(Edition::Seven) => "",
        Some(Edition::One) => " in edition 1",
        None => " in no edition",
    }
}

/// The edition that a call names, or in which the one association that it names is open; else 7.
/// `state` is the first number of an association's record.
pub(crate) fn of_call(call: &Call, state: impl Fn(usize) -> Option<u64>) -> Option<Edition> {
    if let Some(number) = call.edition() {
        return Edition::of(number).ok();
    }
    let named = names(call);
    let one = named.is_power_of_two() && state(named.trailing_zeros() as usize) == Some(1);
    Some(if one { Edition::One } else { Edition::Seven })
}

/// The other edition.
fn other(edition: Edition) -> Edition {
    match edition {
        Edition::One => Edition::Seven,
        Edition::Seven => Edition::One,
    }
}

/// The associations of one table, from a cleared one on.
#[derive(Clone, Debug, Default)]
pub struct Followed {
    /// The filter octets that accepted responses had for each since its opening.
    offered: [u64; PLACES],
}

impl Followed {
    /// Follows a call on what stood `before`; gives what must be met and was.
    pub fn follow(&mut self, call: &Call, outcome: &Outcome, before: &Plain) -> Vec<String> {
        let refusal = outcome.returned.refusal();
        let mut met = self.on_table(call, outcome, before);
        met.extend(values::of(call, outcome, before));
        if call.on_table() && both_open(before) {
            met.push(with_both(name(call), refusal));
        }
        if refusal == 6 {
            met.extend(refused_for_edition(call, before));
        }
        met
    }
}

/// Whether associations of both editions are open.
fn both_open(before: &Plain) -> bool {
    let open = |edition| {
        let mut open = before.table.places.iter().filter_map(|place| place.0.as_ref());
        open.any(|open| open.edition == edition)
    };
    open(Edition::One) && open(Edition::Seven)
}

/// A refusal with 6 that there would not be in edition 7.
fn refused_for_edition(call: &Call, before: &Plain) -> Option<String> {
    let number = call.edition()?;
    let seven = before.clone().make(&call.clone().in_edition(7));
    if seven.returned.refusal() == 6 {
        return None;
    }
    match Edition::of(number) {
        Ok(_) => values::one_beyond(call).map(|(value, by_one)| beyond(name(call), value, by_one)),
        Err(_) => Some(no_edition(name(call), number)),
    }
}

/// A call on a table with associations of both editions.
fn with_both(call: &str, refusal: u8) -> String {
    format!("{call} {refusal} with both editions open")
}

/// A number that is no edition's.
fn no_edition(call: &str, number: u8) -> String {
    format!("{call} 6 for edition {number} alone")
}

/// A value that edition 1 has no room for, by one or by more.
fn beyond(call: &str, value: &str, by_one: bool) -> String {
    let much = if by_one { "one" } else { "more" };
    format!("{call} 6 for its {value} alone in edition 1, beyond the limit by {much}")
}

/// Calls with associations of both editions open, and their refusals.
const WITH_BOTH: [(&str, &[u8]); 8] = [
    ("clear", &[0]),
    ("open", &[0, 6, 7]),
    ("close", &[0, 7]),
    ("poll", &[0, 8, 11]),
    ("sent", &[0, 7]),
    ("receive", &[0, 9, 10]),
    ("verdict", &[0]),
    ("publish", &[0, 7]),
];

/// What [`Followed::follow`] must have given.
pub(crate) fn required() -> Vec<String> {
    let mut required = client::required();
    required.extend(values::required());
    for (call, refusals) in WITH_BOTH {
        required.extend(refusals.iter().map(|&refusal| with_both(call, refusal)));
    }
    for call in NAMING {
        required.extend(NO_EDITION.map(|number| no_edition(call, number)));
    }
    for by_one in [true, false] {
        for call in ["answer", "write"] {
            required.extend(values::LIMITED.map(|value| beyond(call, value, by_one)));
        }
        required.push(beyond("open", "timescale", by_one));
    }
    required
}
