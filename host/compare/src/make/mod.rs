//! Calls drawn at random, biased so that every outcome of every call is met.
//!
//! A generator of calls is shown the reference's table or row, so that it can make
//! responses that fit an outstanding request and requests that name a stored cookie.

use crate::random::Random;
use ntp5::ffi::Header;
use reference::edition::Edition;

pub mod client;
pub mod datagram;
pub mod head;
pub mod lent;
pub mod recorded;
pub mod responder;
pub mod single;
pub mod trace;

/// Numbers that are no edition's: next to one, at the ends, one in another number system.
pub const NO_EDITION: [u8; 8] = [0, 2, 6, 8, 17, 129, 135, 255];

/// The number of an edition: mostly 7, often 1, once in a while no edition's.
fn edition(random: &mut Random) -> u8 {
    match random.below(32) {
        0 => random.pick(&NO_EDITION),
        1..10 => Edition::One as u8,
        _ => Edition::Seven as u8,
    }
}

/// A timescale offset: one of a few, or any.
fn timescale_offset(random: &mut Random) -> i16 {
    let any = random.any() as i16;
    random.pick(&[0, 37, -37, 1, -1, i16::MAX, i16::MIN, any])
}

/// A header to be written, or a server's values, in an edition: in edition 1 mostly with room
/// for all of it, else with one number too large.
fn limited(random: &mut Random, edition: u8, header: Header) -> Header {
    if edition != Edition::One as u8 {
        return header;
    }
    let mut limited = Header {
        stratum: header.stratum & 15,
        timescale: header.timescale & 15,
        flags: header.flags & 255,
        ..header
    };
    match random.below(24) {
        0 => limited.stratum = random.pick(&[16, 16, 17, 255]),
        1 => limited.timescale = random.pick(&[16, 16, 17, 255]),
        2 => limited.flags = random.pick(&[256, 256, 257, 0x8000, u16::MAX]),
        3 => (limited.stratum, limited.timescale, limited.flags) = (15, 15, 255),
        4 => return header,
        _ => {}
    }
    limited
}

/// The timestamp half an era from this one, the same forward and back.
fn half_an_era_from(time: u64) -> u64 {
    time.wrapping_add(1 << 63)
}
