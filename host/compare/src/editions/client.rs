//! What must be met of associations in each edition.

use super::{other, words, Followed};
use crate::call::{Call, Outcome, Returned};
use crate::make::client::poll_octets;
use crate::met::{flags, interleaved};
use crate::plain::Plain;
use crate::reorder::names;
use ntp5::ffi::Received;
use reference::association::Association;
use reference::chain::{Fields, FILTER_RESPONSE};
use reference::edition::Edition;
use reference::exchange::Judgement;
use reference::filter;
use reference::table::PLACES;

impl Followed {
    /// Follows a call on a table.
    pub(super) fn on_table(
        &mut self,
        call: &Call,
        outcome: &Outcome,
        before: &Plain,
    ) -> Vec<String> {
        let (refusal, own) = (outcome.returned.refusal(), names(call));
        let place = own.is_power_of_two().then(|| own.trailing_zeros() as usize);
        let open = place.and_then(|a| Some((a, before.table.places[a].0.as_ref()?)));
        let one = match (call, outcome.returned, open) {
            (Call::Clear | Call::Close { .. } | Call::Open { .. }, ..) if refusal == 0 => {
                (0..PLACES).filter(|a| own >> a & 1 == 1).for_each(|a| self.offered[a] = 0);
                opened(call)
            }
            (Call::Poll { out, .. }, _, Some((_, open))) => room(open, out.len(), refusal),
            (&Call::Receive { ref datagram, t4, .. }, Returned::Received(received), Some(own)) => {
                return self.received(own, datagram, t4, received);
            }
            (_, Returned::Verdict(verdict), Some((a, open))) => {
                let vain = verdict.verdict == 1 && self.in_vain(a, open);
                vain.then(|| VERDICT.into())
            }
            (&Call::Publish { selected, .. }, ..) if refusal == 7 => {
                self.not_published(selected, before)
            }
            _ => None,
        };
        one.into_iter().collect()
    }

    /// Whether accepted responses to an association of edition 1 had all the octets of a filter.
    fn in_vain(&self, a: usize, open: &Association) -> bool {
        open.edition == Edition::One && self.offered[a] >= filter::OCTETS as u64
    }

    /// Publishing that is refused because of such associations alone.
    fn not_published(&self, selected: u16, before: &Plain) -> Option<String> {
        let mut others = false;
        for a in (0..PLACES).filter(|a| selected >> a & 1 == 1) {
            let open = before.table.places[a].0.as_ref()?;
            others |= open.taken.complete();
            if !open.taken.complete() && !self.in_vain(a, open) {
                return None;
            }
        }
        Some(PUBLISH[usize::from(others)].into())
    }

    fn received(
        &mut self,
        (a, open): (usize, &Association),
        datagram: &[u8],
        t4: u64,
        received: Received,
    ) -> Vec<String> {
        let edition = open.edition;
        let mut met = Vec::new();
        met.extend(usable_otherwise(open, datagram, t4, received));
        if received.refusal != 0 {
            return met;
        }
        if flags(edition, datagram) & other(edition).interleaved() != 0 {
            met.push(other_flag(interleaved(edition, datagram), edition));
        }
        let mut fields = Fields::of(datagram).map_while(Result::ok);
        let chunk = fields.find(|field| field.kind == FILTER_RESPONSE);
        if chunk.is_some_and(|field| field.data.len() == usize::from(open.chunk)) {
            self.offered[a] += u64::from(open.chunk);
            met.push(all_octets(received.chunk, edition));
        }
        met
    }
}

/// An association that was opened with a timescale next to a limit.
fn opened(call: &Call) -> Option<String> {
    let &Call::Open { edition, timescale, .. } = call else { return None };
    let edition = Edition::of(edition).ok().filter(|_| TIMESCALES.contains(&timescale))?;
    Some(opened_with(timescale, edition))
}

/// A poll with as many octets of room as it writes, or refused with one less.
fn room(open: &Association, lent: usize, refusal: u8) -> Option<String> {
    let due = poll_octets(open);
    let edge = (refusal, lent) == (0, due) || (refusal, lent + 1) == (11, due);
    edge.then(|| edge_of_room(refusal, open.edition))
}

/// A response that would be usable in the other edition, and is refused or judged by its own.
fn usable_otherwise(
    open: &Association,
    datagram: &[u8],
    t4: u64,
    received: Received,
) -> Option<String> {
    let (refusal, judgement) = (received.refusal, received.judgement);
    if !matches!((refusal, judgement), (10, _) | (0, 2 | 3)) {
        return None;
    }
    let mut otherwise = Association { edition: other(open.edition), ..open.clone() };
    let usable = otherwise.receive(datagram, t4).ok()?.judgement == Judgement::Usable;
    usable.then(|| of_the_other(refusal, judgement, open.edition))
}

/// Timescales next to a limit.
const TIMESCALES: [u8; 5] = [0, 15, 16, 17, 255];

fn opened_with(timescale: u8, edition: Edition) -> String {
    format!("open 0 with timescale {timescale}{}", words(edition))
}

fn edge_of_room(refusal: u8, edition: Edition) -> String {
    format!("poll {refusal} at the edge of its room{}", words(edition))
}

fn of_the_other(refusal: u8, judgement: u8, edition: Edition) -> String {
    let to = words(edition);
    format!("receive {refusal} judgement {judgement} of a response usable in the other edition{to}")
}

/// An accepted response with the flag that says interleaved in the other edition.
fn other_flag(mode: &str, edition: Edition) -> String {
    format!("receive 0 {mode} with the other edition's flag{}", words(edition))
}

/// An accepted response whose first filter response has c octets.
fn all_octets(chunk: u8, edition: Edition) -> String {
    format!("receive 0 chunk {chunk} with c octets in the response{}", words(edition))
}

/// In edition 1, after responses that had all the octets of a filter.
const VERDICT: &str = "verdict 1 after all octets were offered in edition 1";
/// The same, of publishing with nothing else selected, and with complete filters besides.
const PUBLISH: [&str; 2] = [
    "publish 7 after all octets were offered in edition 1",
    "publish 7 of complete filters and of one in edition 1",
];

/// What [`Followed::on_table`] must have given.
pub(super) fn required() -> Vec<String> {
    let (one, seven) = (Edition::One, Edition::Seven);
    let mut required = [VERDICT, PUBLISH[0], PUBLISH[1]].map(String::from).to_vec();
    required.extend([0, 15].map(|timescale| opened_with(timescale, one)));
    required.extend(TIMESCALES.map(|timescale| opened_with(timescale, seven)));
    required.extend([all_octets(2, one), all_octets(1, seven)]);
    for edition in [one, seven] {
        required.extend([0, 11].map(|refusal| edge_of_room(refusal, edition)));
        required.extend(["basic", "interleaved"].map(|mode| other_flag(mode, edition)));
        required.extend([(10, 0), (0, 3)].map(|(r, j)| of_the_other(r, j, edition)));
    }
    // Not so in edition 1: a stratum from 1 to 15 in octet 1 is the same one in both.
    required.push(of_the_other(0, 2, seven));
    required
}
