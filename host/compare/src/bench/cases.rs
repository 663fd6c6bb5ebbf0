//! The calls as they usually are.

use super::calls::{ADD, ANSWER, MEASURE, POLL, PUBLISH, RECEIVE, REPLAY, SOUND, VERDICT};
use super::calls::{WEIGHT, WEIGHT_BY_OCTETS};
use super::datagram::{filled, UNKNOWN};
use super::recorded;
use super::state::{basic_request, naming, poll_request, State};
use super::worst::polled;
use super::{Case, Reset};
use reference::chain;
use reference::edition::Edition;

/// 1,280 octets, of which each answered field comes after many unknown ones.
fn many_fields() -> State {
    let mut fields = vec![(UNKNOWN, 0); 60];
    fields.push((chain::FILTER_REQUEST, 256));
    fields.extend([(UNKNOWN, 16); 10]);
    fields.push((chain::SERVER_INFORMATION, 4));
    fields.extend([(UNKNOWN, 0); 60]);
    fields.push((chain::DRAFT_NAME, chain::NAME.len()));
    State::with_datagram(filled(&basic_request(), &fields))
}

/// 1,280 octets, 300 fields.
fn three_hundred_fields() -> State {
    State::with_datagram(filled(&basic_request(), &[(UNKNOWN, 0); 299]))
}

/// The same with a MAC first: refused with 13, after all fields were looked at.
fn fields_after_a_mac() -> State {
    let mut fields = [(UNKNOWN, 0); 299];
    fields[0].0 = chain::MAC;
    State::with_datagram(filled(&basic_request(), &fields))
}

/// As [`State::asked`], but with another client cookie in the response.
fn not_asked() -> State {
    let mut state = State::asked(Edition::Seven, 16, 0);
    state.datagram[31] ^= 0xFF;
    state
}

/// A poll's request that names the middle one of 64 records.
fn middle_of_64() -> State {
    State::stored(64, 64, naming(poll_request(Edition::Seven), 32))
}

fn header_only() -> State {
    State::with_datagram(basic_request().octets(Edition::Seven).to_vec())
}

/// A poll's request of edition 1, 48 octets.
fn poll_of_one() -> State {
    State::with_datagram(poll_request(Edition::One)).named(Edition::One)
}

/// T3 half an era from T2, the last difference that is looked at.
fn half_an_era() -> State {
    let mut state = header_only();
    state.times[2] = state.times[1].wrapping_add(1 << 63);
    state
}

/// All of them.
#[rustfmt::skip]
pub const CASES: [Case; 28] = [
    Case { name: "poll-16", state: || State::opened(Edition::Seven, 16), reset: Reset::Cookie, calls: POLL },
    Case { name: "poll-512", state: || State::opened(Edition::Seven, 512), reset: Reset::Cookie, calls: POLL },
    Case { name: "poll-edition-1", state: || State::opened(Edition::One, 16), reset: Reset::Cookie, calls: POLL },
    Case { name: "receive-basic-16", state: || State::asked(Edition::Seven, 16, 0), reset: Reset::Record, calls: RECEIVE },
    Case { name: "receive-basic-512", state: || State::asked(Edition::Seven, 512, 0), reset: Reset::Record, calls: RECEIVE },
    Case { name: "receive-interleaved-16", state: || State::asked(Edition::Seven, 16, 2), reset: Reset::Record, calls: RECEIVE },
    Case { name: "receive-edition-1", state: || State::asked(Edition::One, 16, 0), reset: Reset::Record, calls: RECEIVE },
    Case { name: "receive-refused-9", state: not_asked, reset: Reset::Nothing, calls: RECEIVE },
    Case { name: "loop-verdict", state: || State::complete(0), reset: Reset::Nothing, calls: VERDICT },
    Case { name: "publish-1", state: || State::complete(1), reset: Reset::Nothing, calls: PUBLISH },
    Case { name: "publish-16", state: || State::complete(u16::MAX), reset: Reset::Nothing, calls: PUBLISH },
    Case { name: "replay-open", state: || recorded::open(header_only()), reset: Reset::Record, calls: REPLAY },
    Case { name: "replay-poll-16", state: || recorded::poll(State::opened(Edition::Seven, 16)), reset: Reset::Record, calls: REPLAY },
    Case { name: "replay-sent", state: || recorded::sent(State::with_table(polled(16))), reset: Reset::Record, calls: REPLAY },
    Case { name: "replay-receive-16", state: || recorded::receive(State::asked(Edition::Seven, 16, 0)), reset: Reset::Record, calls: REPLAY },
    Case { name: "answer-48", state: header_only, reset: Reset::Nothing, calls: ANSWER },
    Case { name: "answer-poll", state: || State::with_datagram(poll_request(Edition::Seven)), reset: Reset::Nothing, calls: ANSWER },
    Case { name: "answer-1280", state: many_fields, reset: Reset::Nothing, calls: ANSWER },
    Case { name: "answer-interleaved-64", state: middle_of_64, reset: Reset::Store, calls: ANSWER },
    Case { name: "answer-edition-1", state: poll_of_one, reset: Reset::Nothing, calls: ANSWER },
    Case { name: "answer-1280-edition-1", state: || many_fields().named(Edition::One), reset: Reset::Nothing, calls: ANSWER },
    Case { name: "weight", state: header_only, reset: Reset::Nothing, calls: WEIGHT },
    Case { name: "weight-by-octets", state: header_only, reset: Reset::Nothing, calls: WEIGHT_BY_OCTETS },
    Case { name: "sound-1280", state: three_hundred_fields, reset: Reset::Nothing, calls: SOUND },
    Case { name: "sound-refused-13", state: fields_after_a_mac, reset: Reset::Nothing, calls: SOUND },
    Case { name: "add", state: header_only, reset: Reset::Nothing, calls: ADD },
    Case { name: "measure", state: header_only, reset: Reset::Nothing, calls: MEASURE },
    Case { name: "measure-half-era", state: half_an_era, reset: Reset::Nothing, calls: MEASURE },
];
