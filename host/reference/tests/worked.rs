//! The worked cases, M-1 to M-13. W204-18 stands in `edition.rs`.
#![forbid(unsafe_code)]

use reference::chain::sound;
use reference::exchange::Mode;
use reference::filter::{add, weight};
use reference::header::{ClientCookie, Header, ServerCookie, REQUEST, RESPONSE};
use reference::measure::Times;
use reference::refusal::Refusal;
use reference::responder::{Occasion, Server};
use reference::store::Store;
use reference::table::Table;

/// A sound request of `length` octets: a header and, if there is room, one padding field.
fn request(length: usize) -> Vec<u8> {
    let mut datagram = vec![0; length];
    datagram[0] = 0x2B;
    if length >= 52 {
        let field = (length - 48) as u16;
        datagram[48..50].copy_from_slice(&0xF501_u16.to_be_bytes());
        datagram[50..52].copy_from_slice(&field.to_be_bytes());
    }
    datagram
}

fn with_field(octets: &[u8]) -> Vec<u8> {
    [&request(48), octets].concat()
}

#[test]
fn m1_first_octet() {
    let first = |edition, leap, mode| {
        let mut out = [0; 48];
        let header = Header { leap, mode, ..Header::default() };
        header.write(edition, &mut out).map(|()| out[0])
    };
    for edition in [1, 7] {
        assert_eq!(first(edition, 0, REQUEST), Ok(0x2B));
        assert_eq!(first(edition, 0, RESPONSE), Ok(0x2C));
        assert_eq!(first(edition, 3, RESPONSE), Ok(0xEC));
    }
}

#[test]
fn m2_lengths() {
    for (length, expected) in [
        (47, Err(Refusal::DatagramLength)),
        (48, Ok(())),
        (50, Err(Refusal::DatagramLength)),
        (1280, Ok(())),
        (1284, Err(Refusal::DatagramLength)),
    ] {
        assert_eq!(sound(&request(length), REQUEST), expected, "{length} octets");
    }
}

#[test]
fn m3_m4_field_lengths() {
    let short = with_field(&[0xF5, 0x01, 0, 3]);
    assert_eq!(sound(&short, REQUEST), Err(Refusal::FieldLength));
    let padded = with_field(&[0xF5, 0x01, 0, 5, 0xFF, 0, 0, 0]);
    assert_eq!(sound(&padded, REQUEST), Ok(()));
}

#[test]
fn w205_nothing_after_the_mac() {
    const MAC: &[u8] = &[0xF5, 0x02, 0, 8, 1, 2, 3, 4];
    const OTHER: &[u8] = &[0xF5, 0x01, 0, 4];
    for (fields, expected) in [
        (&[MAC][..], Ok(())),
        (&[OTHER, MAC], Ok(())),
        (&[MAC, OTHER], Err(Refusal::AfterMac)),
        (&[MAC, MAC], Err(Refusal::AfterMac)),
        (&[MAC, OTHER, MAC], Err(Refusal::AfterMac)),
        (&[MAC, OTHER, &[0xF5, 0x01, 0, 3]], Err(Refusal::FieldLength)),
        (&[MAC, &[0xF5, 0x01, 0, 5, 0, 0, 0, 1]], Err(Refusal::FieldPadding)),
    ] {
        for (mode, first) in [(REQUEST, 0x2B), (RESPONSE, 0x2C)] {
            let mut datagram = with_field(&fields.concat());
            datagram[0] = first;
            assert_eq!(sound(&datagram, mode), expected, "mode {mode}, {fields:?}");
        }
    }
}

#[test]
fn m5_m6_m7_positions() {
    let mut third = [0; 15];
    third[..3].copy_from_slice(&[0x00, 0x10, 0x02]);
    for (id, octet, value, ones) in
        [([0; 15], 0, 0x01, 1), ([0xFF; 15], 511, 0x80, 1), (third, 0, 0x07, 3)]
    {
        let mut filter = [0; 512];
        assert_eq!(add(&mut filter, &id), Ok(()));
        assert_eq!(filter[octet], value);
        assert_eq!(weight(&filter), Ok(ones));
    }
}

#[test]
fn m8_to_m11_measurement() {
    let half = 1 << 63;
    let era = 0xFFFF_FFFF_0000_0000;
    for (times, measured) in [
        ([era, 0x8000_0000, 0x8000_0000, 0x1_0000_0000], Some((2147483648, 8589934592))),
        ([10, 10, 10, 11], Some((-1, 1))),
        // M-10, W206-8.
        ([1, half + 1, half + 1, 1], None),
        ([1, half, half, 1], Some((i64::MAX, 0))),
        // E-3 would give 0.
        ([1, 2, 2, 1], Some((1, 0))),
    ] {
        assert_eq!(measure(times), measured);
    }
}

#[test]
fn w206_half_an_era_apart() {
    let half = 1 << 63;
    // T2-T1, T3-T4, T4-T1 and T3-T2 alone.
    for times in [
        [1, half + 1, half + 3, 5],
        [1, half + 3, half + 5, 5],
        [1, 3, 5, half + 1],
        [1, 3, half + 3, 9],
    ] {
        assert_eq!(measure(times), None);
    }
    // One less counts, and minus that.
    assert_eq!(measure([half, 1, 1, half]), Some((-i64::MAX, 0)));
    assert_eq!(measure([1, 1, half + 2, half]), Some((1, u64::MAX - 1)));
    assert_eq!(measure([half, half + 2, 1, 1]), Some((1, u64::MAX - 1)));
}

fn measure([t1, t2, t3, t4]: [u64; 4]) -> Option<(i64, u64)> {
    let measured = Times { t1, t2, t3, t4 }.measure();
    measured.map(|measured| (measured.offset, measured.delay))
}

#[test]
fn m12_filter_requests() {
    let filter: Vec<u8> = (0..512).map(|i| (i % 251) as u8).collect();
    let server = Server {
        leap: 0,
        stratum: 1,
        poll: 6,
        precision: -20,
        timescale: 0,
        era: 0,
        timescale_offset: 0,
        flags: 0,
        root_delay: 0,
        root_dispersion: 0,
        filter: &filter,
        information: &[0; 4],
    };
    let occasion = Occasion { receive: 1, estimate: 2, fresh: ServerCookie(3) };
    let fields = |request: &[u8]| {
        let mut out = vec![0xAA; request.len()];
        let mut store = Store::new(1).expect("one record");
        let answered = store.answer(7, request, &occasion, &server, &mut out);
        assert_eq!(answered, Ok(request.len()));
        out.split_off(48)
    };
    let good = with_field(&[0xF5, 0x03, 0, 8, 1, 0xFC, 0, 0]);
    assert_eq!(fields(&good), [&[0xF5, 0x04, 0, 8], &filter[508..]].concat());
    let past = with_field(&[0xF5, 0x03, 0, 12, 1, 0xFC, 0, 0, 0, 0, 0, 0]);
    assert_eq!(fields(&past), [0xF5, 0x01, 0, 12, 0, 0, 0, 0, 0, 0, 0, 0]);
}

#[test]
fn whole_first_poll() {
    let mut table = Table::default();
    assert_eq!(table.open(0, 7, 0, 16), Ok(()));
    let mut out = [0xAA; 104];
    let cookie = ClientCookie(0x0102_0304_0506_0708);
    assert_eq!(table.poll(0, cookie, 6, Mode::Basic, &mut out), Ok(100));
    let expected = [
        &[0x2B, 0x00, 0x06, 0x00][..],
        &[0; 20],
        &[1, 2, 3, 4, 5, 6, 7, 8],
        &[0; 16],
        &[0xF5, 0xFF, 0x00, 0x1F],
        b"draft-mlichvar-ntp-ntpv5-07",
        &[0x00],
        &[0xF5, 0x03, 0x00, 0x14],
        &[0; 16],
        &[0xAA; 4],
    ];
    assert_eq!(out[..], expected.concat());
}
