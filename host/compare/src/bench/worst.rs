//! The calls on what costs the library the most instructions, found by search, and those that
//! walk a chain also on chains that no processor can foresee.

use super::calls::{ANSWER, CLEAR, CLOSE, HEADER_READ, HEADER_WRITE, OPEN, POLL, PUBLISH};
use super::calls::{RECEIVE, REPLAY, REPORT, SENT, SOUND, STORE_CLEAR, UNION, VERDICT};
use super::datagram::{filled, irregular, UNKNOWN};
use super::recorded;
use super::state::{basic_request, complete_table, State, FIRST_COOKIE};
use super::{Case, Reset};
use crate::random::Random;
use reference::chain;
use reference::edition::Edition;
use reference::exchange::Mode;
use reference::header::{ClientCookie, Header, ServerCookie, RESPONSE};
use reference::table::Table;

/// Irregular datagrams that take turns. A processor learns a few by heart.
const IRREGULAR: usize = 512;
/// Used records of a store of 64: one less than all costs a little more than all.
const USED: u64 = 63;
const NEWEST: u64 = FIRST_COOKIE + USED - 1;

/// Polls the first association with a second cookie.
fn poll_again(plain: &mut Table) {
    let (cookie, mut out) = (ClientCookie(2), [0; 600]);
    plain.poll(0, cookie, 6, Mode::Interleaved, &mut out).expect("a request");
}

/// An outstanding request, the first after opening: its numbers, and that nothing is saved, take
/// the most tests. What the numbers are costs nothing, since a call writes all of them.
pub(super) fn polled(c: u16) -> Table {
    let mut plain = Table::default();
    plain.open(0, Edition::Seven as u8, 0, c).expect("an offered size");
    poll_again(&mut plain);
    plain
}

/// The header of a basic answer to that request.
fn basic_answer() -> Header {
    Header {
        mode: RESPONSE,
        stratum: 1,
        server_cookie: ServerCookie(2),
        client_cookie: ClientCookie(2),
        receive: 2010,
        transmit: 2020,
        ..Header::default()
    }
}

/// 154 fields of length 5. The last is a filter response, of another size than was asked. The
/// request has its T1, so that the answer is measured.
fn padded_fields() -> State {
    let mut fields = [(UNKNOWN, 1); 154];
    fields[153].0 = chain::FILTER_RESPONSE;
    let mut plain = polled(16);
    plain.sent(0, 1000).expect("an outstanding request");
    let mut state = State::with_table(plain);
    state.datagram = filled(&basic_answer(), &fields);
    state
}

/// The header of a request that wants the newest record's time.
fn naming_newest() -> Header {
    let flags = Edition::Seven.interleaved();
    Header { flags, server_cookie: ServerCookie(NEWEST), ..basic_request() }
}

/// A name that is answered, a filter request and server information that are not good, and 304
/// names after the first.
fn repeated_names() -> State {
    let mut fields = [(chain::DRAFT_NAME, 0); 307];
    fields[0].1 = 1;
    fields[1].0 = chain::FILTER_REQUEST;
    fields[2].0 = chain::SERVER_INFORMATION;
    State::stored(USED, USED, filled(&naming_newest(), &fields))
}

/// A store whose newest record waits for its time.
fn unreported() -> State {
    let mut state = State::stored(USED, USED - 1, Vec::new());
    state.reported = NEWEST;
    state
}

/// 308 fields of length 4.
fn short_fields() -> State {
    State::with_datagram(filled(&basic_request(), &[(UNKNOWN, 0); 308]))
}

/// The state with irregular datagrams in place of its own.
fn with_irregular(mut state: State, header: &Header) -> State {
    let mut random = Random::new(7);
    state.datagram = irregular(header, &mut random);
    state.others = (1..IRREGULAR).map(|_| irregular(header, &mut random)).collect();
    state
}

/// All sixteen complete, each with an outstanding request. Of the ID's positions only the
/// last, 1, is not set.
fn all_outstanding() -> State {
    let mut state = State::with_table(complete_table(|plain| {
        poll_again(plain);
        plain.places[0].0.as_mut().expect("an open one").filter.0[0] = 0xFD;
    }));
    state.id = vec![0; 15];
    state.id[14] = 1;
    state.selected = u16::MAX;
    state
}

/// Any header, filter or closed association: such calls cost the same on all that they accept.
fn any() -> State {
    State::with_datagram(basic_request().octets(Edition::Seven).to_vec())
}

/// All of them.
#[rustfmt::skip]
pub const WORST: [Case; 21] = [
    Case { name: "worst-clear", state: any, reset: Reset::Nothing, calls: CLEAR },
    Case { name: "worst-open", state: any, reset: Reset::Record, calls: OPEN },
    Case { name: "worst-close", state: || State::with_table(polled(16)), reset: Reset::Record, calls: CLOSE },
    Case { name: "worst-poll", state: || State::with_table(polled(512)), reset: Reset::Record, calls: POLL },
    Case { name: "worst-sent", state: || State::with_table(polled(16)), reset: Reset::Record, calls: SENT },
    Case { name: "worst-receive", state: padded_fields, reset: Reset::Record, calls: RECEIVE },
    Case { name: "worst-receive-irregular", state: || with_irregular(padded_fields(), &basic_answer()), reset: Reset::Record, calls: RECEIVE },
    Case { name: "worst-loop-verdict", state: all_outstanding, reset: Reset::Nothing, calls: VERDICT },
    Case { name: "worst-publish", state: all_outstanding, reset: Reset::Nothing, calls: PUBLISH },
    Case { name: "worst-replay", state: || recorded::receive(padded_fields()), reset: Reset::Record, calls: REPLAY },
    Case { name: "worst-store-clear", state: || State::stored(64, 64, Vec::new()), reset: Reset::Nothing, calls: STORE_CLEAR },
    Case { name: "worst-report", state: unreported, reset: Reset::Store, calls: REPORT },
    Case { name: "worst-answer", state: repeated_names, reset: Reset::Store, calls: ANSWER },
    Case { name: "worst-answer-irregular", state: || with_irregular(repeated_names(), &naming_newest()), reset: Reset::Store, calls: ANSWER },
    Case { name: "worst-header-read", state: any, reset: Reset::Nothing, calls: HEADER_READ },
    Case { name: "worst-header-read-edition-1", state: || any().named(Edition::One), reset: Reset::Nothing, calls: HEADER_READ },
    Case { name: "worst-header-write", state: any, reset: Reset::Nothing, calls: HEADER_WRITE },
    Case { name: "worst-header-write-edition-1", state: || any().named(Edition::One), reset: Reset::Nothing, calls: HEADER_WRITE },
    Case { name: "worst-sound", state: short_fields, reset: Reset::Nothing, calls: SOUND },
    Case { name: "worst-sound-irregular", state: || with_irregular(any(), &basic_request()), reset: Reset::Nothing, calls: SOUND },
    Case { name: "worst-union", state: any, reset: Reset::Nothing, calls: UNION },
];
