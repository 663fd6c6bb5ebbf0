//! Missed polls (W211), followed from the calls and what they gave back alone: how many there
//! are, which server cookie a poll sends, and what must be met of them.

use crate::call::{Call, Outcome, Returned};
use crate::editions::words;
use crate::met::{mode, name};
use crate::reorder::names;
use reference::edition::Edition;
use reference::table::PLACES;
use std::collections::BTreeSet;

/// So many missed polls are not told apart from more. Counting ends at 8.
const MANY: u64 = 10;

/// The calls on an open association since its last accepted response, or since it was opened.
#[derive(Clone, Debug)]
struct Run {
    /// The edition in which it was opened.
    edition: Edition,
    /// Whether a request is outstanding.
    outstanding: bool,
    /// All the requests that were replaced.
    replaced: u64,
    /// The last accepted response's server cookie, 0 if there is none.
    known: u64,
    /// Whether the outstanding request wanted interleaved and sent 0 in place of that cookie.
    withheld: bool,
    /// Whether the last accepted response came to such a request.
    after_withheld: bool,
    /// Polls and responses that were refused after a request was replaced.
    refused: BTreeSet<(&'static str, u8)>,
}

/// The associations of one table, from a cleared one on.
#[derive(Clone, Debug, Default)]
pub struct Runs([Option<Run>; PLACES]);

impl Runs {
    /// The number of missed polls that an association keeps, 0 if it is closed.
    pub fn missed(&self, association: usize) -> u64 {
        self.0[association].as_ref().map_or(0, |run| run.replaced.min(8))
    }

    /// The server cookie that the last poll had to send.
    pub fn due_cookie(&self, association: usize, interleaved: bool) -> u64 {
        let run = self.0[association].as_ref();
        run.filter(|run| interleaved && run.replaced < 4).map_or(0, |run| run.known)
    }

    /// Follows a call; gives what must be met and was.
    pub fn follow(&mut self, call: &Call, outcome: &Outcome) -> Vec<String> {
        let refusal = outcome.returned.refusal();
        let own = (0..PLACES).filter(|a| names(call) >> a & 1 == 1);
        let mut met = Vec::new();
        for edition in [Edition::One, Edition::Seven] {
            let counting = |a| self.missed(a) > 0 && self.edition(a) == Some(edition);
            if own.clone().any(counting) {
                met.push(with_missed(name(call), refusal) + words(edition));
            }
        }
        own.for_each(|association| met.extend(self.follow_one(association, call, outcome)));
        met
    }

    fn edition(&self, association: usize) -> Option<Edition> {
        self.0[association].as_ref().map(|run| run.edition)
    }

    /// Follows a call that names this association, and maybe others.
    fn follow_one(&mut self, association: usize, call: &Call, outcome: &Outcome) -> Vec<String> {
        let place = &mut self.0[association];
        let met = match (call, place.as_mut()) {
            (Call::Poll { interleaved, .. }, Some(run)) => run.polled(*interleaved, outcome),
            (Call::Receive { datagram, .. }, Some(run)) => {
                run.received(datagram, outcome.returned).into_iter().collect()
            }
            (Call::Clear | Call::Close { .. }, _) if outcome.returned.refusal() == 0 => {
                *place = None;
                Vec::new()
            }
            (&Call::Open { edition, .. }, _) if outcome.returned.refusal() == 0 => {
                *place = Edition::of(edition).ok().map(Run::new);
                Vec::new()
            }
            _ => Vec::new(),
        };
        let words = self.edition(association).map_or("", words);
        met.into_iter().map(|what| what + words).collect()
    }
}

/// The server cookie in a datagram's header.
pub fn server_cookie(datagram: &[u8]) -> u64 {
    u64::from_be_bytes(datagram[16..24].try_into().expect("eight octets"))
}

impl Run {
    fn new(edition: Edition) -> Self {
        Run {
            edition,
            outstanding: false,
            replaced: 0,
            known: 0,
            withheld: false,
            after_withheld: false,
            refused: BTreeSet::new(),
        }
    }

    fn refuse(&mut self, call: &'static str, refusal: u8) {
        if self.replaced > 0 {
            self.refused.insert((call, refusal));
        }
    }

    fn polled(&mut self, interleaved: bool, outcome: &Outcome) -> Vec<String> {
        let refusal = outcome.returned.refusal();
        if refusal != 0 {
            self.refuse("poll", refusal);
            return Vec::new();
        }
        self.replaced += u64::from(self.outstanding);
        self.outstanding = true;
        let sent = server_cookie(&outcome.out) != 0;
        self.withheld = interleaved && self.known != 0 && !sent;
        let mut met = Vec::new();
        if self.known != 0 {
            met.push(poll_after(self.replaced, interleaved, sent));
        }
        if self.after_withheld && sent {
            met.push(SENT_AGAIN.into());
        }
        if self.replaced >= MANY {
            met.extend(self.refused.iter().map(|&(call, refusal)| among_many(call, refusal)));
        }
        met
    }

    fn received(&mut self, datagram: &[u8], returned: Returned) -> Option<String> {
        let Returned::Received(received) = returned else { return None };
        if received.refusal != 0 {
            self.refuse("receive", received.refusal);
            return (received.refusal == 10 && self.withheld).then(|| WITHHELD_10.into());
        }
        let missed = self.replaced > 0;
        let (known, after_withheld) = (server_cookie(datagram), self.withheld);
        *self = Run { known, after_withheld, ..Run::new(self.edition) };
        missed.then(|| back_to_0(received.judgement == 0, received.chunk))
    }
}

/// A call on associations of which one has missed polls.
fn with_missed(call: &str, refusal: u8) -> String {
    format!("{call} {refusal} with missed polls")
}

/// A poll of an association that has a server cookie saved.
fn poll_after(missed: u64, interleaved: bool, sent: bool) -> String {
    let missed = if missed < MANY { missed.to_string() } else { format!("{MANY} or more") };
    let cookie = if sent { "sent" } else { "0" };
    format!("poll {} after {missed} missed, server cookie {cookie}", mode(interleaved))
}

/// A refused poll or response in a run of many missed polls.
fn among_many(call: &str, refusal: u8) -> String {
    format!("{call} {refusal} among {MANY} or more missed polls")
}

/// An accepted response after missed polls.
fn back_to_0(usable: bool, chunk: u8) -> String {
    let judged = if usable { "usable" } else { "not usable" };
    format!("missed polls back to 0, response {judged}, chunk {chunk}")
}

/// A poll after the answer to one that sent 0 because of its missed polls.
const SENT_AGAIN: &str =
    "server cookie sent again after the answer to a poll with 4 or more missed";
/// An interleaved response to a poll that sent 0 because of its missed polls.
const WITHHELD_10: &str = "receive 10 after an interleaved poll with 4 or more missed";

/// Calls on associations with missed polls, and their refusals.
const WITH_MISSED: [(&str, &[u8]); 7] = [
    ("clear", &[0]),
    ("open", &[7]),
    ("close", &[0]),
    ("sent", &[0, 6, 7]),
    ("receive", &[6, 1, 2, 3, 4, 5, 13]),
    ("verdict", &[0]),
    ("publish", &[0]),
];

/// Polls and responses that are refused among many missed polls.
const AMONG_MANY: [(&str, &[u8]); 2] = [("poll", &[8, 11]), ("receive", &[1, 4, 13, 9, 10])];

/// What must be met in both editions.
fn required_of_both() -> Vec<String> {
    let mut required = vec![SENT_AGAIN.into(), WITHHELD_10.into()];
    for missed in 0..=MANY {
        required.push(poll_after(missed, true, missed < 4));
        required.push(poll_after(missed, false, false));
    }
    required.extend([true, false].map(|usable| back_to_0(usable, 2)));
    required
}

/// What [`Runs::follow`] must have given.
pub fn required() -> Vec<String> {
    let mut required = required_of_both();
    let one = required.iter().map(|what| format!("{what}{}", words(Edition::One)));
    required = one.chain(required.iter().cloned()).collect();
    for chunk in [1, 3] {
        required.extend([true, false].map(|usable| back_to_0(usable, chunk)));
    }
    for (call, refusals) in WITH_MISSED {
        required.extend(refusals.iter().map(|&refusal| with_missed(call, refusal)));
    }
    for (call, refusals) in AMONG_MANY {
        required.extend(refusals.iter().map(|&refusal| among_many(call, refusal)));
    }
    required
}
