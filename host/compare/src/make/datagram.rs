//! Datagrams: requests and responses, long and short, sound and damaged.

use super::{half_an_era_from, timescale_offset};
use crate::random::Random;
use reference::association::{Association, CHUNK_SIZES};
use reference::chain;
use reference::edition::Edition;
use reference::header::{self, ClientCookie, Header, ServerCookie};
use reference::store::Record;

/// Types of fields that have a meaning, and one that no draft has; MACs come from [`push_mac`].
const KINDS: [u16; 6] = [0xF501, 0xF503, 0xF504, 0xF505, 0xF5FF, 0x1234];

/// Appends a field with its padding.
fn push(datagram: &mut Vec<u8>, kind: u16, data: &[u8]) {
    datagram.extend(kind.to_be_bytes());
    datagram.extend((4 + data.len() as u16).to_be_bytes());
    datagram.extend(data);
    datagram.resize(datagram.len().next_multiple_of(4), 0);
}

/// Appends a few fields of any type, or very many.
fn push_any(random: &mut Random, datagram: &mut Vec<u8>) {
    if random.one_in(40) {
        let end = random.pick(&[200, 700, 1280]);
        while datagram.len() < end {
            push(datagram, random.pick(&KINDS), &[]);
        }
    }
    for _ in 0..random.below(4) {
        let n = random.pick(&[0, 1, 2, 3, 4, 4, 5, 8, 13, 16, 27, 40]);
        let data = random.octets(n);
        push(datagram, random.pick(&KINDS), &data);
    }
}

/// Once in a while appends a MAC, after which there may be other fields and a second MAC.
fn push_mac(random: &mut Random, datagram: &mut Vec<u8>) {
    while random.one_in(5) {
        let n = random.pick(&[0, 1, 4, 16, 20, 20, 21]);
        let data = random.octets(n);
        push(datagram, chain::MAC, &data);
        if random.one_in(2) {
            push_any(random, datagram);
        }
    }
}

/// Once in a while fills the datagram up to a longer length.
fn fill(random: &mut Random, datagram: &mut Vec<u8>) {
    let end = random.pick(&[300, 1276, 1280, 1280, 1284]);
    if random.one_in(12) && datagram.len() + 4 <= end {
        let data = random.octets(end - datagram.len() - 4);
        push(datagram, 0xF501, &data);
    }
}

/// Places of the chain's fields and their lengths, as far as they can be walked.
fn fields(datagram: &[u8]) -> Vec<(usize, usize)> {
    let mut at = header::OCTETS;
    let mut fields = Vec::new();
    while at + 4 <= datagram.len() {
        let length = usize::from(u16::from_be_bytes([datagram[at + 2], datagram[at + 3]]));
        fields.push((at, length));
        at += length.max(4).next_multiple_of(4);
    }
    fields
}

/// Damages a datagram in one place.
pub fn damage(random: &mut Random, datagram: &mut Vec<u8>) {
    let fields = fields(datagram);
    match random.below(6) {
        0 => {
            let length = random.below(datagram.len() + 1);
            datagram.truncate(length);
        }
        1 => {
            let more = random.pick(&[1, 2, 3, 4, 1300]);
            datagram.resize(datagram.len() + more, 0);
        }
        2 => datagram[0] = random.any() as u8,
        3 => {
            let at = random.below(datagram.len());
            datagram[at] ^= 1 << random.below(8);
        }
        4 if !fields.is_empty() => {
            let (at, length) = random.pick(&fields);
            let wrong = random.pick(&[0, 1, 3, 4, 5, length as u16 + 4, 1232, 0xFFFF]);
            datagram[at + 2..at + 4].copy_from_slice(&wrong.to_be_bytes());
        }
        _ => {
            let padded = fields.iter().rev().find(|(_, length)| length % 4 != 0);
            let Some(&(at, length)) = padded else { return };
            let gap = 4 - length % 4;
            if let Some(octet) = datagram.get_mut(at + length + random.below(gap)) {
                *octet = 1 << random.below(8);
            }
        }
    }
}

/// A header of a mode with any values that the edition has.
fn header(random: &mut Random, edition: Edition, mode: u8) -> Header {
    let header = Header {
        leap: random.below(4) as u8,
        mode,
        stratum: random.any() as u8,
        poll: random.any() as i8,
        precision: random.any() as i8,
        timescale: random.below(4) as u8,
        era: random.any() as u8,
        timescale_offset: timescale_offset(random),
        flags: random.any() as u16,
        root_delay: random.number() as u32,
        root_dispersion: random.number() as u32,
        server_cookie: ServerCookie(random.time()),
        client_cookie: ClientCookie(random.number()),
        receive: random.time(),
        transmit: random.time(),
    };
    fitted(header, edition)
}

/// The header, as far as the edition has room for it.
fn fitted(header: Header, edition: Edition) -> Header {
    match edition {
        Edition::Seven => header,
        Edition::One => Header {
            stratum: header.stratum & 15,
            timescale: header.timescale & 15,
            flags: header.flags & 255,
            ..header
        },
    }
}

/// The octet and the bit of a header that say interleaved.
pub fn interleaved_place(edition: Edition) -> (usize, u8) {
    match edition {
        Edition::One => (4, 0x4),
        Edition::Seven => (7, 0x2),
    }
}

/// Times that this response, or the next one, is measured with: once in a while half an era
/// from each other.
fn half_an_era(random: &mut Random, header: &mut Header, open: &Association, t4: u64) {
    let saved = open.saved.filter(|_| header.interleaved(open.edition));
    let (t2, t4) = saved.map_or((header.receive, t4), |saved| (saved.times.t2, saved.times.t4));
    match random.below(16) {
        0 => header.receive = half_an_era_from(open.outstanding.map_or(0, |request| request.t1)),
        1 => header.transmit = half_an_era_from(t2),
        2 => header.transmit = half_an_era_from(t4),
        _ => {}
    }
}

/// A response that comes at T4, mostly one to the association's outstanding request; once in a
/// while it is one of the other edition.
pub fn response(random: &mut Random, open: Option<&Association>, t4: u64) -> Vec<u8> {
    let any = random.pick(&[Edition::One, Edition::Seven]);
    let own = open.filter(|_| !random.one_in(12)).map_or(any, |open| open.edition);
    let mut header = header(random, own, header::RESPONSE);
    header.leap = if random.one_in(12) { 3 } else { random.below(3) as u8 };
    header.stratum = random.pick(&[1, 1, 2, 3, 8, 14, 15, 15, 15, 15, 0, 16, 255]);
    let mut c = random.pick(&CHUNK_SIZES);
    header.flags &= !own.interleaved();
    if let Some(open) = open {
        c = open.chunk;
        if !random.one_in(12) {
            header.timescale = open.timescale;
        }
        let stale = ClientCookie(open.last_cookie.map_or(0, |cookie| cookie.0 ^ 1));
        header.client_cookie = open.outstanding.map_or(stale, |request| request.client_cookie);
        let known = open.outstanding.is_some_and(|request| request.server_cookie.0 != 0);
        if random.below(12) < if known { 9 } else { 1 } {
            header.flags |= own.interleaved();
        }
        half_an_era(random, &mut header, open, t4);
    }
    if random.one_in(20) {
        header.client_cookie.0 ^= 1 << random.below(64);
    }
    let mut datagram = fitted(header, own).octets(own).to_vec();
    push_any(random, &mut datagram);
    push_chunk(random, &mut datagram, c.into());
    push_any(random, &mut datagram);
    fill(random, &mut datagram);
    push_mac(random, &mut datagram);
    if random.one_in(8) {
        damage(random, &mut datagram);
    }
    datagram
}

/// A response that is to be refused: it has another client cookie than the outstanding request,
/// or is interleaved where that one has no server cookie; once in a while it is damaged, too.
pub fn wrong_response(random: &mut Random, open: &Association, t4: u64) -> Vec<u8> {
    let mut datagram = response(random, Some(open), t4);
    let known = open.outstanding.is_some_and(|request| request.server_cookie.0 != 0);
    let interleaved = interleaved_place(open.edition);
    let (place, bit) = if known || random.one_in(2) { (31, 1) } else { interleaved };
    if let Some(octet) = datagram.get_mut(place) {
        *octet ^= bit;
    }
    if random.one_in(3) && !datagram.is_empty() {
        damage(random, &mut datagram);
    }
    datagram
}

/// Appends a filter response, mostly one of `c` octets.
fn push_chunk(random: &mut Random, datagram: &mut Vec<u8>, c: usize) {
    let size = match random.below(12) {
        0 => return,
        1 => random.pick(&[0, 1, c - 1, c + 1, c + 4, c / 2, 2 * c]),
        _ => c,
    };
    let data = random.octets(size);
    push(datagram, chain::FILTER_RESPONSE, &data);
}

/// A filter request, good or nearly so.
fn push_filter_request(random: &mut Random, datagram: &mut Vec<u8>) {
    let n = random.pick(&[0, 1, 2, 3, 4, 4, 6, 8, 16, 16, 20, 32, 64, 128, 256, 512, 512, 516]);
    let last = 512_usize.saturating_sub(n);
    let any = random.below(1 << 16);
    let offset = random.pick(&[0, 0, 4, last, last, last + 1, 1, 508, 511, 512, any]);
    let mut data = random.octets(n);
    for (octet, value) in data.iter_mut().zip((offset as u16).to_be_bytes()) {
        *octet = value;
    }
    push(datagram, chain::FILTER_REQUEST, &data);
}

/// A request to a responder with this row.
pub fn request(random: &mut Random, edition: Edition, row: &[Record]) -> Vec<u8> {
    let mut header = header(random, edition, header::REQUEST);
    if !row.is_empty() && !random.one_in(3) {
        header.server_cookie = random.pick(row).cookie;
    }
    let mut datagram = header.octets(edition).to_vec();
    for _ in 0..random.below(6) {
        match random.below(6) {
            0 | 1 => push_filter_request(random, &mut datagram),
            2 => {
                let n = random.pick(&[0, 3, 4, 4, 4, 4, 5, 8]);
                let data = random.octets(n);
                push(&mut datagram, chain::SERVER_INFORMATION, &data);
            }
            3 => {
                let k = random.pick(&[0, 1, 5, 26, 27, 27, 27, 28, 60]);
                let data = random.octets(k);
                push(&mut datagram, chain::DRAFT_NAME, &data);
            }
            _ => push_any(random, &mut datagram),
        }
    }
    fill(random, &mut datagram);
    push_mac(random, &mut datagram);
    if random.one_in(8) {
        damage(random, &mut datagram);
    }
    datagram
}
