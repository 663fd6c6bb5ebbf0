//! Calls on a store.

use super::{datagram, edition, limited, timescale_offset};
use crate::call::{Answering, Call};
use crate::random::Random;
use ntp5::ffi::Header;
use reference::edition::Edition;
use reference::store::Record;

/// A call on a store with this row.
pub fn call(random: &mut Random, row: &[Record]) -> Call {
    match random.below(100) {
        0 => Call::StoreClear,
        1..35 => Call::Report { cookie: cookie(random, row), time: random.time() },
        _ => Call::Answer(Box::new(answering(random, row))),
    }
}

/// A cookie to report, mostly one of the row.
fn cookie(random: &mut Random, row: &[Record]) -> u64 {
    if row.is_empty() || random.one_in(6) {
        return random.pick(&[0, 1, 7]);
    }
    random.pick(row).cookie.0
}

/// A fresh cookie, mostly one that is not in the row.
fn fresh(random: &mut Random, row: &[Record]) -> u64 {
    match random.below(24) {
        0 => 0,
        1 if !row.is_empty() => random.pick(row).cookie.0,
        2..8 => random.any() % 100,
        _ => random.any(),
    }
}

fn answering(random: &mut Random, row: &[Record]) -> Answering {
    let edition = edition(random);
    let layout = Edition::of(edition).unwrap_or(Edition::Seven);
    let request = datagram::request(random, layout, row);
    let header = Header {
        leap: if random.one_in(30) { random.any() as u8 } else { random.below(4) as u8 },
        mode: 0,
        stratum: random.any() as u8,
        poll: random.any() as i8,
        precision: random.any() as i8,
        timescale: random.any() as u8,
        era: random.any() as u8,
        timescale_offset: timescale_offset(random),
        flags: random.any() as u16,
        root_delay: random.number() as u32,
        root_dispersion: random.number() as u32,
        server_cookie: fresh(random, row),
        client_cookie: 0,
        receive: random.time(),
        transmit: random.time(),
    };
    let header = limited(random, edition, header);
    let length = request.len();
    let room = random.pick(&[length, length, length + 1, length + 60, 1300]);
    let room = if random.one_in(12) { random.below(length + 1) } else { room };
    let (filter, information) = (random.size(512), random.size(4));
    Answering {
        edition,
        request,
        header,
        filter: random.octets(filter),
        information: random.octets(information),
        out: random.octets(room),
    }
}
