//! W204: both round trips in both editions, and what edition 1 never does, on random calls.
#![forbid(unsafe_code)]

use compare::call::{Call, Returned, Side};
use compare::library::Library;
use compare::make;
use compare::plain::Plain;
use compare::random::Random;
use ntp5::ffi::{calls, Header};
use reference::lent::TABLE_NUMBERS;
use reference::record::{HEAD, NUMBERS};

/// Headers and octets of each kind.
const HEADERS: usize = 20_000;
/// Lists of random calls, and the calls of each.
const LISTS: (u64, usize) = (100, 400);

/// A header that edition 1 has room for as often as not.
fn header(random: &mut Random) -> Header {
    let (four, eight) = random.pick(&[(15, 255), (u64::MAX, u64::MAX)]);
    let any = random.any() as i16;
    Header {
        leap: random.below(4) as u8,
        mode: random.pick(&[3, 4]),
        stratum: (random.any() & four) as u8,
        poll: random.any() as i8,
        precision: random.any() as i8,
        timescale: (random.any() & four) as u8,
        era: random.any() as u8,
        timescale_offset: random.pick(&[0, -1, i16::MIN, any]),
        flags: (random.any() & eight) as u16,
        root_delay: random.any() as u32,
        root_dispersion: random.any() as u32,
        server_cookie: random.any(),
        client_cookie: random.any(),
        receive: random.any(),
        transmit: random.any(),
    }
}

/// The header's octets, written down from the two figures; none if the edition has no room.
fn octets(edition: u8, h: &Header) -> Option<Vec<u8>> {
    let [f1, f0] = h.flags.to_be_bytes();
    let [o1, o0] = h.timescale_offset.to_be_bytes();
    let (poll, precision) = (h.poll as u8, h.precision as u8);
    let first = 64 * h.leap + 8 * 5 + h.mode;
    let start = match edition {
        7 => [first, h.stratum, poll, precision, h.timescale, h.era, f1, f0],
        _ if h.timescale > 15 || h.stratum > 15 || f1 > 0 => return None,
        _ => [first, 16 * h.timescale + h.stratum, poll, precision, f0, h.era, o1, o0],
    };
    let roots = [h.root_delay, h.root_dispersion].map(u32::to_be_bytes).concat();
    let rest = [h.server_cookie, h.client_cookie, h.receive, h.transmit].map(u64::to_be_bytes);
    Some([&start[..], &roots, &rest.concat()].concat())
}

/// H-12: what was written is read, but for the offset that edition 7 does not have.
#[test]
fn headers_written_are_read() {
    let (mut random, mut refused) = (Random::new(3), 0);
    for _ in 0..HEADERS {
        let header = header(&mut random);
        for edition in [1, 7] {
            let mut out = vec![0xAA; 50];
            let refusal = calls::header_write(edition, header, &mut out);
            let Some(expected) = octets(edition, &header) else {
                assert_eq!((refusal, out), (6, vec![0xAA; 50]), "{header:?}");
                refused += 1;
                continue;
            };
            assert_eq!((refusal, &out[..48], &out[48..]), (0, &expected[..], &[0xAA; 2][..]));
            let timescale_offset = if edition == 1 { header.timescale_offset } else { 0 };
            let read = calls::header_read(edition, &expected, header.mode);
            let expected = Header { timescale_offset, ..header };
            assert_eq!((read.refusal, read.header), (0, expected), "edition {edition}");
        }
    }
    assert!((HEADERS / 4..HEADERS).contains(&refused), "{refused} refused");
}

/// H-13: what was read is written, any 48 octets.
#[test]
fn headers_read_are_written() {
    let mut random = Random::new(4);
    for _ in 0..HEADERS {
        let mode = random.pick(&[3, 4]);
        let mut datagram: Vec<u8> = (0..48).map(|_| random.any() as u8).collect();
        datagram[0] = (datagram[0] & 0xC0) + 8 * 5 + mode;
        for edition in [1, 7] {
            let read = calls::header_read(edition, &datagram, mode);
            assert_eq!(read.refusal, 0);
            let mut out = [0; 48];
            assert_eq!(calls::header_write(edition, read.header, &mut out), 0);
            assert_eq!(out[..], datagram, "edition {edition}");
        }
    }
}

/// The associations whose records say edition 1: each must keep its filter and offsets at 0.
fn without_fields(table: &[u64]) -> u16 {
    let mut ones = 0;
    for (a, record) in table.chunks(NUMBERS).enumerate().filter(|(_, record)| record[0] == 1) {
        let kept = [record[3], record[4], record[8]];
        assert_eq!(kept, [0; 3], "association {a}");
        assert!(record[HEAD..].iter().all(|&word| word == 0), "association {a}");
        ones |= 1 << a;
    }
    ones
}

/// W204-9, W204-10, over lists of calls: no octet is taken, no verdict but 1, nothing published.
#[test]
fn edition_1_takes_no_octet() {
    let (mut accepted, mut verdicts, mut published) = (0, 0, 0);
    for seed in 0..LISTS.0 {
        let mut random = Random::new(seed);
        let mut plain = Plain::new(1);
        let mut library = Library::new(&vec![0; TABLE_NUMBERS], &[], 0);
        for _ in 0..LISTS.1 {
            let call = make::client::call(&mut random, &plain.table, true);
            let before = without_fields(&library.table());
            let one = |a: u8| a < 16 && before >> a & 1 == 1;
            plain.make(&call);
            let outcome = library.make(&call);
            match (&call, outcome.returned) {
                (Call::Receive { association, .. }, Returned::Received(r)) if one(*association) => {
                    assert_eq!(r.chunk, if r.refusal == 0 { 2 } else { 0 }, "{call:?}");
                    accepted += u32::from(r.refusal == 0);
                }
                (Call::Verdict { association, .. }, Returned::Verdict(v)) if one(*association) => {
                    assert_eq!(v.verdict, if v.refusal == 0 { 1 } else { 0 }, "{call:?}");
                    verdicts += u32::from(v.refusal == 0);
                }
                (Call::Publish { selected, .. }, returned) if selected & before != 0 => {
                    assert_ne!(returned.refusal(), 0, "{call:?}");
                    published += 1;
                }
                _ => {}
            }
            without_fields(&library.table());
        }
    }
    assert!(
        accepted > 1000 && verdicts > 500 && published > 200,
        "{accepted} {verdicts} {published}"
    );
}
