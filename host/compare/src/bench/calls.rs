//! The measured calls, each on every side.

use super::rival::{lent, plain};
use super::state::{server, State};
use super::HasRefusal;
use crate::convert::to_ffi;
use ntp5::ffi::calls;
use reference::exchange::Judgement;
use reference::header::{ServerCookie, REQUEST};
use reference::refusal::Refusal;
use reference::responder::Occasion;
use reference::store::RECORD_OCTETS;
use std::hint::black_box;

/// One call on each side, in the order of [`Side::ALL`](super::Side::ALL).
pub type Sides = [fn(&mut State); 3];

/// A function that makes a call and keeps its refusal number.
macro_rules! made {
    (|$state:ident| $call:expr) => {
        |$state: &mut State| $state.refusal = black_box($call).refusal()
    };
}

pub(super) const CLEAR: Sides = [
    made!(|s| calls::clear(&mut s.table)),
    made!(|s| plain::clear(&mut s.plain)),
    made!(|s| lent::clear(&mut s.table)),
];

pub(super) const OPEN: Sides = [
    made!(|s| calls::open(&mut s.table, 0, s.edition, 1, 16)),
    made!(|s| plain::open(&mut s.plain, s.edition, 1, 16)),
    made!(|s| lent::open(&mut s.table, s.edition, 1, 16)),
];

pub(super) const CLOSE: Sides = [
    made!(|s| calls::close(&mut s.table, 0)),
    made!(|s| plain::close(&mut s.plain)),
    made!(|s| lent::close(&mut s.table)),
];

pub(super) const POLL: Sides = [
    made!(|s| calls::poll(&mut s.table, 0, s.cookie, 6, false, &mut s.out)),
    made!(|s| plain::poll(&mut s.plain, s.cookie, &mut s.out)),
    made!(|s| lent::poll(&mut s.table, s.cookie, &mut s.out)),
];

pub(super) const SENT: Sides = [
    made!(|s| calls::sent(&mut s.table, 0, 1000)),
    made!(|s| plain::sent(&mut s.plain, 1000)),
    made!(|s| lent::sent(&mut s.table, 1000)),
];

pub(super) const RECEIVE: Sides = [
    made!(|s| calls::receive(&mut s.table, 0, &s.datagram, 1030)),
    made!(|s| plain::receive(&mut s.plain, &s.datagram, 1030)),
    made!(|s| lent::receive(&mut s.table, &s.datagram, 1030)),
];

pub(super) const VERDICT: Sides = [
    made!(|s| calls::loop_verdict(&s.table, 0, &s.id)),
    made!(|s| plain::verdict(&s.plain, &s.id)),
    made!(|s| lent::verdict(&s.table, &s.id)),
];

pub(super) const PUBLISH: Sides = [
    made!(|s| calls::publish(&s.table, s.selected, &s.id, &mut s.out)),
    made!(|s| plain::publish(&s.plain, s.selected, &s.id, &mut s.out)),
    made!(|s| lent::publish(&s.table, s.selected, &s.id, &mut s.out)),
];

pub(super) const REPLAY: Sides = [
    made!(|s| calls::replay(&mut s.table, &s.datagram, 0, &mut s.out)),
    made!(|s| plain::replay(&mut s.plain, &s.datagram, &mut s.out)),
    made!(|s| lent::replay(&mut s.table, &s.datagram, &mut s.out)),
];

pub(super) const STORE_CLEAR: Sides = [
    made!(|s| calls::store_clear(&mut s.store)),
    made!(|s| plain::store_clear(&mut s.plain_store, s.store.len() / RECORD_OCTETS)),
    made!(|s| lent::store_clear(&mut s.store)),
];

pub(super) const REPORT: Sides = [
    made!(|s| calls::report(&mut s.store, s.reported, 1021)),
    made!(|s| plain::report(&mut s.plain_store, s.reported, 1021)),
    made!(|s| lent::report(&mut s.store, s.reported, 1021)),
];

pub(super) const ANSWER: Sides = [library_answer, plain_answer, lent_answer];

pub(super) const HEADER_READ: Sides = single(
    made!(|s| calls::header_read(s.edition, &s.datagram, REQUEST)),
    made!(|s| plain::header_read(s.edition, &s.datagram, REQUEST)),
);

pub(super) const HEADER_WRITE: Sides = single(
    made!(|s| calls::header_write(s.edition, to_ffi(&s.header), &mut s.out)),
    made!(|s| plain::header_write(s.edition, &s.header, &mut s.out)),
);

pub(super) const WEIGHT: Sides = single(library_weight, |s| rival_weight(s, plain::weight));

pub(super) const WEIGHT_BY_OCTETS: Sides =
    single(library_weight, |s| rival_weight(s, plain::weight_by_octets));

pub(super) const SOUND: Sides = single(
    made!(|s| calls::sound(&s.datagram, REQUEST)),
    made!(|s| plain::sound(&s.datagram, REQUEST)),
);

pub(super) const ADD: Sides = single(
    made!(|s| calls::filter_add(&mut s.filter, &s.id)),
    made!(|s| plain::add(&mut s.filter, &s.id)),
);

pub(super) const UNION: Sides = single(
    made!(|s| calls::filter_union(&mut s.filter, &s.other_filter)),
    made!(|s| plain::union(&mut s.filter, &s.other_filter)),
);

pub(super) const MEASURE: Sides = single(library_measure, rival_measure);

/// A call without table and store is the same on both sides of the reference.
const fn single(library: fn(&mut State), plain: fn(&mut State)) -> Sides {
    [library, plain, plain]
}

fn library_weight(s: &mut State) {
    let weighed = black_box(calls::filter_weight(&s.filter));
    s.keep_weight(weighed.weight);
    s.refusal = weighed.refusal();
}

fn rival_weight(s: &mut State, weigh: fn(&[u8]) -> Result<u16, Refusal>) {
    let weighed = black_box(weigh(&s.filter));
    s.keep_weight(weighed.unwrap_or(0));
    s.refusal = weighed.refusal();
}

fn library_measure(s: &mut State) {
    let [t1, t2, t3, t4] = s.times;
    let measured = black_box(calls::measure(t1, t2, t3, t4));
    s.keep_measurement(measured.judgement, measured.offset, measured.delay);
}

fn rival_measure(s: &mut State) {
    let [t1, t2, t3, t4] = s.times;
    let measured = black_box(plain::measure(t1, t2, t3, t4));
    match measured {
        Some(measured) => s.keep_measurement(0, measured.offset, measured.delay),
        None => s.keep_measurement(Judgement::HalfEra as u8, 0, 0),
    }
}

fn occasion(fresh: u64) -> Occasion {
    Occasion { receive: 2000, estimate: 2010, fresh: ServerCookie(fresh) }
}

fn library_answer(s: &mut State) {
    let from = server(&s.filter);
    let server = ntp5::Server {
        leap: from.leap,
        stratum: from.stratum,
        poll: from.poll,
        precision: from.precision,
        timescale: from.timescale,
        era: from.era,
        timescale_offset: from.timescale_offset,
        flags: from.flags,
        root_delay: from.root_delay,
        root_dispersion: from.root_dispersion,
        filter: from.filter,
        information: from.information,
    };
    let fresh = ntp5::ServerCookie(s.fresh);
    let occasion = ntp5::Occasion { receive: 2000, estimate: 2010, fresh };
    let (store, edition) = (&mut s.store, s.edition);
    let answered = calls::answer(store, edition, &s.datagram, &occasion, &server, &mut s.out);
    s.refusal = black_box(answered).refusal();
}

fn plain_answer(s: &mut State) {
    let (occasion, server) = (occasion(s.fresh), server(&s.filter));
    let (store, edition) = (&mut s.plain_store, s.edition);
    let answered = plain::answer(store, edition, &s.datagram, &occasion, &server, &mut s.out);
    s.refusal = black_box(answered).refusal();
}

fn lent_answer(s: &mut State) {
    let (occasion, server) = (occasion(s.fresh), server(&s.filter));
    let (store, edition) = (&mut s.store, s.edition);
    let answered = lent::answer(store, edition, &s.datagram, &occasion, &server, &mut s.out);
    s.refusal = black_box(answered).refusal();
}
