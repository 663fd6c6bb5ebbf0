//! Calls on a table.

use super::{datagram, edition, half_an_era_from};
use crate::call::Call;
use crate::random::Random;
use reference::association::{Association, CHUNK_SIZES};
use reference::edition::Edition;
use reference::table::Table;

/// A call on a table like this one. If `calm`, an open association mostly stays so.
pub fn call(random: &mut Random, table: &Table, calm: bool) -> Call {
    let association = association(random);
    let place = table.places.get(usize::from(association));
    let open = place.and_then(|place| place.0.as_ref());
    match random.below(200) {
        0..20 if calm && !random.one_in(50) => exchanging(random, association, open),
        0 => Call::Clear,
        1..8 => Call::Close { association },
        8..20 => opening(random, association),
        20..36 => Call::Verdict { association, id: id(random) },
        36..50 => publishing(random, table),
        50..62 => exchanging(random, association, open),
        _ => match open {
            None => opening(random, association),
            Some(some) => match some.outstanding {
                None => polling(random, association, open),
                Some(_) if stays_unanswered(random, association, some) => {
                    while_unanswered(random, association, some)
                }
                Some(request) if request.t1 == 0 && !random.one_in(3) => {
                    sending(random, association)
                }
                Some(_) => receiving(random, association, open),
            },
        },
    }
}

/// Mostly one of a few, so that their states get far.
fn association(random: &mut Random) -> u8 {
    match random.below(40) {
        0 => random.pick(&[16, 17, 31, 255]),
        1..8 => random.below(16) as u8,
        _ => random.below(3) as u8,
    }
}

/// A reference ID: any, or one with few positions; once in a while of wrong size.
pub fn id(random: &mut Random) -> Vec<u8> {
    let size = random.size(15);
    random.octets(size)
}

fn opening(random: &mut Random, association: u8) -> Call {
    let chunk = match random.below(20) {
        0 => random.pick(&[0, 1, 8, 15, 17, 48, 511, 1024, u16::MAX]),
        1..13 => random.pick(&CHUNK_SIZES),
        _ => random.pick(&[256, 512, 512]),
    };
    let any = random.any() as u8;
    let timescale = match random.below(12) {
        0 => random.pick(&[4, 7, 14, 15, 16, 17, 255, any]),
        _ => random.below(6) as u8,
    };
    Call::Open { association, edition: edition(random), timescale, chunk }
}

/// The octets of a poll of this association.
pub(crate) fn poll_octets(open: &Association) -> usize {
    match open.edition {
        Edition::One => 48,
        Edition::Seven => usize::from(open.chunk) + 84,
    }
}

/// One of the three calls of an exchange, whatever the state.
fn exchanging(random: &mut Random, association: u8, open: Option<&Association>) -> Call {
    match random.below(3) {
        0 => polling(random, association, open),
        1 => sending(random, association),
        _ => receiving(random, association, open),
    }
}

fn polling(random: &mut Random, association: u8, open: Option<&Association>) -> Call {
    let last = open.and_then(|open| open.last_cookie).map_or(0, |cookie| cookie.0);
    let cookie = match random.below(16) {
        0 => 0,
        1 => last,
        _ => random.number(),
    };
    let length = open.map_or(100, poll_octets);
    let room = random.pick(&[length, length, length + 1, length + 40, 1280]);
    let less = random.below(length);
    let room = if random.one_in(16) { random.pick(&[less, length - 1]) } else { room };
    Call::Poll {
        association,
        cookie,
        exponent: random.any() as i8,
        interleaved: random.below(3) > 0,
        out: random.octets(room),
    }
}

/// Whether the outstanding request stays without an answer for now: mostly, if one did before,
/// so that more polls are missed than are counted. Those of even associations do not, so that
/// the filters of these get far.
fn stays_unanswered(random: &mut Random, association: u8, open: &Association) -> bool {
    match (association % 2, open.missed) {
        (0, _) => false,
        (_, 0) => random.one_in(8),
        _ => !random.one_in(12),
    }
}

/// A call while the server does not answer: mostly another poll, else a report of T1 or a
/// response that is to be refused.
fn while_unanswered(random: &mut Random, association: u8, open: &Association) -> Call {
    match random.below(8) {
        0 => sending(random, association),
        1 => {
            let t4 = random.time();
            Call::Receive { association, datagram: datagram::wrong_response(random, open, t4), t4 }
        }
        _ => polling(random, association, Some(open)),
    }
}

fn sending(random: &mut Random, association: u8) -> Call {
    Call::Sent { association, t1: random.time() }
}

/// A response, T4 once in a while half an era from T1.
fn receiving(random: &mut Random, association: u8, open: Option<&Association>) -> Call {
    let t1 = open.and_then(|open| open.outstanding).map_or(0, |request| request.t1);
    let t4 = if random.one_in(16) { half_an_era_from(t1) } else { random.time() };
    Call::Receive { association, datagram: datagram::response(random, open, t4), t4 }
}

/// Publishing, mostly of complete filters only; once in a while also of one that never is.
fn publishing(random: &mut Random, table: &Table) -> Call {
    let complete = |i: &usize| {
        let open = table.places[*i].0.as_ref();
        open.is_some_and(|open| open.taken.complete())
    };
    let bits = (0..16).filter(complete).fold(0_u16, |bits, i| bits | 1 << i);
    let without_fields = |i: &usize| {
        let open = table.places[*i].0.as_ref();
        open.is_some_and(|open| open.edition == Edition::One)
    };
    let selected = match random.below(8) {
        0 if random.one_in(2) => {
            let one = (0..16).find(without_fields).map_or(0, |i| 1 << i);
            one | if random.one_in(2) { bits } else { 0 }
        }
        0 => random.any() as u16,
        1 => 0,
        2 => 1 << random.below(16),
        3 => bits & random.any() as u16,
        _ => bits,
    };
    let room = random.pick(&[512, 512, 513, 600]);
    let room = if random.one_in(12) { random.below(512) } else { room };
    Call::Publish { selected, id: id(random), out: random.octets(room) }
}
