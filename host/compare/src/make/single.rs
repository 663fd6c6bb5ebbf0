//! Calls on single datagrams, filters and timestamps.

use super::{client, datagram, edition, half_an_era_from, limited, timescale_offset};
use crate::call::Call;
use crate::random::Random;
use ntp5::ffi::Header;
use reference::edition::Edition;

/// A call without table and store.
pub fn call(random: &mut Random) -> Call {
    match random.below(9) {
        0 => {
            let (mode, datagram) = any_datagram(random);
            Call::HeaderRead { edition: edition(random), mode, datagram }
        }
        1 => writing(random),
        2..5 => {
            let (mode, datagram) = any_datagram(random);
            Call::Sound { mode, datagram }
        }
        5 => Call::Add { filter: filter(random), id: client::id(random) },
        6 => Call::Union { into: filter(random), other: filter(random) },
        7 => Call::Weight { filter: filter(random) },
        _ => measuring(random),
    }
}

/// A datagram and a mode, mostly its own.
fn any_datagram(random: &mut Random) -> (u8, Vec<u8>) {
    let (mode, mut datagram) = match random.below(8) {
        0 => {
            let length = random.pick(&[0, 1, 44, 47, 48, 48, 49, 50, 52, 1276, 1280, 1281, 1284]);
            (3, random.octets(length))
        }
        1..4 => (4, datagram::response(random, None, 0)),
        _ => {
            let layout = random.pick(&[Edition::One, Edition::Seven]);
            (3, datagram::request(random, layout, &[]))
        }
    };
    if random.one_in(4) && !datagram.is_empty() {
        datagram::damage(random, &mut datagram);
    }
    (if random.one_in(12) { random.pick(&[0, 3, 4, 7, 11, 255]) } else { mode }, datagram)
}

fn filter(random: &mut Random) -> Vec<u8> {
    let size = random.size(512);
    random.octets(size)
}

fn writing(random: &mut Random) -> Call {
    let header = Header {
        leap: random.pick(&[0, 1, 2, 3, 3, 3, 4, 255]),
        mode: random.pick(&[3, 3, 3, 4, 4, 4, 0, 2, 5, 11]),
        stratum: random.any() as u8,
        poll: random.any() as i8,
        precision: random.any() as i8,
        timescale: random.any() as u8,
        era: random.any() as u8,
        timescale_offset: timescale_offset(random),
        flags: random.any() as u16,
        root_delay: random.number() as u32,
        root_dispersion: random.number() as u32,
        server_cookie: random.number(),
        client_cookie: random.number(),
        receive: random.number(),
        transmit: random.number(),
    };
    let edition = edition(random);
    let header = limited(random, edition, header);
    let room = random.pick(&[0, 47, 48, 48, 48, 49, 100]);
    Call::HeaderWrite { edition, header, out: random.octets(room) }
}

/// Four timestamps: anywhere, or near each other across the end of an era; as often as
/// not with two that are half an era apart.
fn measuring(random: &mut Random) -> Call {
    let base = random.number();
    let near = random.one_in(2);
    let mut times = [0; 4].map(|_: u64| {
        let number = random.number();
        if near {
            base.wrapping_add(number >> 34)
        } else {
            number
        }
    });
    if random.one_in(2) {
        let (one, other) = random.pick(&[(1, 0), (2, 3), (3, 0), (2, 1)]);
        times[one] = half_an_era_from(times[other]);
    }
    Call::Measure { times }
}
