//! W204: edition 1, worked by hand from the figure and the sections of its own draft (source 002).
#![forbid(unsafe_code)]

use reference::association::Verdict;
use reference::edition::Edition;
use reference::exchange::{Chunk, Judgement, Mode, Received};
use reference::header::{ClientCookie, Header, ServerCookie, REQUEST, RESPONSE};
use reference::refusal::Refusal;
use reference::responder::{Occasion, Server};
use reference::store::Store;
use reference::table::Table;

const COOKIE: ClientCookie = ClientCookie(0x0102_0304_0506_0708);

/// A response of edition 1, row by row of the figure.
#[rustfmt::skip]
const RESPONSE_1: [u8; 48] = [
    // Leap 0, version 5, mode 4; timescale 3, stratum 2; poll -6; precision -20.
    0b00_101_100, 0x32, 0xFA, 0xEC,
    // Flags: unknown leap, 0x2, which has no meaning, and the highest; era 9; timescale offset -37.
    0x83, 0x09, 0xFF, 0xDB,
    // Root delay, root dispersion.
    0x00, 0x00, 0x01, 0x02, 0xF0, 0x00, 0x00, 0x05,
    // Server cookie, client cookie.
    0xA1, 0xA2, 0xA3, 0xA4, 0xA5, 0xA6, 0xA7, 0xA8, 1, 2, 3, 4, 5, 6, 7, 8,
    // Receive timestamp 110, transmit timestamp 120.
    0, 0, 0, 0, 0, 0, 0, 110, 0, 0, 0, 0, 0, 0, 0, 120,
];

/// What [`RESPONSE_1`] says.
const FIELDS_1: Header = Header {
    leap: 0,
    mode: RESPONSE,
    stratum: 2,
    poll: -6,
    precision: -20,
    timescale: 3,
    era: 9,
    timescale_offset: -37,
    flags: 0x83,
    root_delay: 0x102,
    root_dispersion: 0xF000_0005,
    server_cookie: ServerCookie(0xA1A2_A3A4_A5A6_A7A8),
    client_cookie: COOKIE,
    receive: 110,
    transmit: 120,
};

/// [`RESPONSE_1`] with some of its octets changed.
fn response(changes: &[(usize, u8)]) -> [u8; 48] {
    let mut octets = RESPONSE_1;
    changes.iter().for_each(|&(at, octet)| octets[at] = octet);
    octets
}

/// A table with an association of edition 1 and timescale 3 that has polled, and the request.
fn polled(mode: Mode) -> (Table, Vec<u8>) {
    let (mut table, mut out) = (Table::default(), vec![0xAA; 52]);
    assert_eq!(table.open(0, 1, 3, 16), Ok(()));
    assert_eq!(table.poll(0, COOKIE, 6, mode, &mut out), Ok(48));
    assert_eq!(table.sent(0, 100), Ok(()));
    (table, out)
}

fn usable(offset: i64, delay: u64) -> Result<Received, Refusal> {
    Ok(Received { judgement: Judgement::Usable, chunk: Chunk::Absent, offset, delay })
}

#[test]
fn whole_first_poll() {
    for (mode, flags) in [(Mode::Interleaved, 4), (Mode::Basic, 0)] {
        let first = [0x2B, 0x30, 0x06, 0x00, flags, 0, 0, 0];
        let rest = [&[0; 16][..], &[1, 2, 3, 4, 5, 6, 7, 8], &[0; 16], &[0xAA; 4]].concat();
        assert_eq!(polled(mode).1, [&first[..], &rest].concat());
    }
    let (mut table, _) = polled(Mode::Basic);
    let mut out = [0xAA; 47];
    assert_eq!(table.poll(0, ClientCookie(9), 6, Mode::Basic, &mut out), Err(Refusal::Room));
    assert_eq!(out, [0xAA; 47]);
}

#[test]
fn response_octet_by_octet() {
    assert_eq!(Header::read(1, &RESPONSE_1, RESPONSE), Ok(FIELDS_1));
    let mut out = [0; 48];
    assert_eq!(FIELDS_1.write(1, &mut out), Ok(()));
    assert_eq!(out, RESPONSE_1);
    // An unknown timescale offset, and the largest of all numbers.
    let largest = response(&[(0, 0xEC), (1, 0xFF), (4, 0xFF), (5, 0xFF), (6, 0x80), (7, 0x00)]);
    let expected = Header {
        leap: 3,
        stratum: 15,
        timescale: 15,
        era: 255,
        timescale_offset: i16::MIN,
        flags: 255,
        ..FIELDS_1
    };
    assert_eq!(Header::read(1, &largest, RESPONSE), Ok(expected));
    // The same octets in edition 7.
    let seven =
        Header { stratum: 0x32, timescale: 0x83, timescale_offset: 0, flags: 0xFFDB, ..FIELDS_1 };
    assert_eq!(Header::read(7, &RESPONSE_1, RESPONSE), Ok(seven));
    let offset = Header { timescale_offset: -1, ..seven };
    assert_eq!(offset.octets(Edition::Seven), RESPONSE_1, "the offset is not looked at");
}

#[test]
fn responses_received() {
    let (table, _) = polled(Mode::Interleaved);
    for (changes, judgement) in [
        // Flag 0x2 is set in the first, and no other flag says interleaved but 0x4.
        (&[][..], Judgement::Usable),
        (&[(4, 0xFB)], Judgement::Usable),
        (&[(0, 0xEC)], Judgement::Leap),
        (&[(1, 0x30)], Judgement::Stratum),
        (&[(1, 0x3F)], Judgement::Usable),
        (&[(1, 0x42)], Judgement::Timescale),
        (&[(1, 0x02)], Judgement::Timescale),
        (&[(47, 0)], Judgement::Timestamp),
        (&[(32, 0x80), (39, 100)], Judgement::HalfEra),
    ] {
        let received = table.clone().receive(0, &response(changes), 130);
        assert_eq!(received.map(|r| (r.judgement, r.chunk)), Ok((judgement, Chunk::Absent)));
    }
    let other = response(&[(31, 9)]);
    assert_eq!(table.clone().receive(0, &other, 130), Err(Refusal::NotOutstanding));
    let interleaved = response(&[(4, 0x04)]);
    assert_eq!(table.clone().receive(0, &interleaved, 130), Err(Refusal::NotInterleaved));
}

#[test]
fn interleaved_by_its_own_flag() {
    let (mut table, _) = polled(Mode::Interleaved);
    // T2 - T1 is 10, T3 - T4 is -10.
    assert_eq!(table.receive(0, &RESPONSE_1, 130), usable(0, 20));
    let mut out = [0; 48];
    assert_eq!(table.poll(0, ClientCookie(2), 6, Mode::Interleaved, &mut out), Ok(48));
    assert_eq!((out[4], &out[16..24]), (0x04, &RESPONSE_1[16..24]));
    assert_eq!(table.sent(0, 200), Ok(()));
    let second = |flags| {
        let mut octets = response(&[(4, flags), (39, 210), (47, 124)]);
        octets[24..32].copy_from_slice(&[0, 0, 0, 0, 0, 0, 0, 2]);
        octets
    };
    // With 0x4 the times are the first exchange's but for T3, 124; without it the second's.
    let mut basic = table.clone();
    assert_eq!(table.receive(0, &second(0x04), 230), usable(2, 16));
    let half = (10 - 106_i64).div_euclid(2);
    assert_eq!(basic.receive(0, &second(0xFB), 230), usable(half, 30 + 86));
}

/// The server of the answers below.
fn server(filter: &[u8]) -> Server<'_> {
    Server {
        leap: 0,
        stratum: 2,
        poll: -6,
        precision: -20,
        timescale: 3,
        era: 9,
        timescale_offset: -37,
        flags: 0x87,
        root_delay: 0x102,
        root_dispersion: 0xF000_0005,
        filter,
        information: &[1, 2, 3, 4],
    }
}

fn answer(
    store: &mut Store,
    request: &[u8],
    server: &Server,
    fresh: u64,
) -> Result<Vec<u8>, Refusal> {
    let occasion = Occasion { receive: 110, estimate: 120, fresh: ServerCookie(fresh) };
    let mut out = vec![0xAA; request.len()];
    store.answer(1, request, &occasion, server, &mut out).map(|_| out)
}

#[test]
fn answers_octet_by_octet() {
    let (filter, mut store) = ([0x5A; 512], Store::new(2).expect("two records"));
    let (_, request) = polled(Mode::Basic);
    let basic = response(&[16, 17, 18, 19, 20, 21, 22, 23].map(|at| (at, 0)));
    let header = &request[..48];
    assert_eq!(answer(&mut store, header, &server(&filter), 0).as_deref(), Ok(&basic[..]));
    // Every field is unknown: one padding field stands for all of them.
    let fields = [
        &[0xF5, 0xFF, 0, 5, b'd', 0, 0, 0][..],
        &[0xF5, 0x03, 0, 8, 0, 0, 0, 0],
        &[0xF5, 0x05, 0, 8, 0, 0, 0, 0],
    ];
    let padded = [&basic[..], &[0xF5, 0x01, 0, 24], &[0; 20]].concat();
    let request = [header, &fields.concat()].concat();
    assert_eq!(answer(&mut store, &request, &server(&filter), 0), Ok(padded));
    assert!(store.row().is_empty());
    // In edition 7 the server's flag 0x4 is kept, and 0x2 taken out.
    let occasion = Occasion { receive: 110, estimate: 120, fresh: ServerCookie(0) };
    let mut out = [0; 48];
    assert_eq!(store.answer(7, header, &occasion, &server(&filter), &mut out), Ok(48));
    assert_eq!(out[4..8], [3, 9, 0, 0x85]);
}

#[test]
fn answers_interleaved_by_its_own_flag() {
    let (filter, mut store) = ([0; 512], Store::new(2).expect("two records"));
    let (_, mut request) = polled(Mode::Interleaved);
    request.truncate(48);
    let fresh = FIELDS_1.server_cookie.0;
    let first = answer(&mut store, &request, &server(&filter), fresh);
    assert_eq!(first.as_deref(), Ok(&RESPONSE_1[..]), "basic, the server's flag 0x4 taken out");
    assert_eq!(store.report(ServerCookie(fresh), 121), Ok(()));
    request[16..24].copy_from_slice(&RESPONSE_1[16..24]);
    let second = answer(&mut store, &request, &server(&filter), 1);
    let mut expected = response(&[(4, 0x87), (47, 121)]);
    expected[16..24].copy_from_slice(&[0, 0, 0, 0, 0, 0, 0, 1]);
    assert_eq!(second.as_deref(), Ok(&expected[..]));
    // Flag 0x2 asks for nothing.
    request[4] = 0x02;
    let third = answer(&mut store, &request, &server(&filter), 0).expect("a basic answer");
    assert_eq!((third[4], &third[16..24]), (0x83, &[0; 8][..]));
}

#[test]
fn limits() {
    let (filter, mut out) = ([0; 512], [0xAA; 48]);
    let server = server(&filter);
    let (_, request) = polled(Mode::Basic);
    for (timescale, stratum, flags, holds) in [
        (15, 15, 255, true),
        (16, 0, 0, false),
        (0, 16, 0, false),
        (0, 0, 256, false),
        (255, 255, u16::MAX, false),
    ] {
        let refused = if holds { None } else { Some(Refusal::Argument) };
        let header = Header { timescale, stratum, flags, ..FIELDS_1 };
        assert_eq!(header.write(1, &mut [0; 48]).err(), refused);
        assert_eq!(header.write(7, &mut [0; 48]), Ok(()));
        let server = Server { timescale, stratum, flags, ..server };
        let answered = answer(&mut Store::new(1).expect("a record"), &request[..48], &server, 0);
        assert_eq!(answered.err(), refused);
        assert_eq!(Table::default().open(0, 1, timescale, 16).is_ok(), timescale <= 15);
        assert_eq!(Table::default().open(0, 7, timescale, 16), Ok(()));
    }
    let too_large = Header { stratum: 16, ..FIELDS_1 };
    assert_eq!(too_large.write(1, &mut out[..47]), Err(Refusal::Argument), "6 before 11");
    assert_eq!(Table::default().open(0, 1, 0, 17), Err(Refusal::Argument));
    assert_eq!(out, [0xAA; 48]);
}

#[test]
fn other_editions_are_refused() {
    let occasion = Occasion { receive: 110, estimate: 120, fresh: ServerCookie(1) };
    let (filter, mut store) = ([0; 512], Store::new(1).expect("a record"));
    let (_, request) = polled(Mode::Interleaved);
    for edition in (0..=255).filter(|edition| ![1, 7].contains(edition)) {
        let (mut out, refused) = ([0xAA; 48], Some(Refusal::Argument));
        assert_eq!(Header::read(edition, &[], REQUEST).err(), refused, "6 before 1");
        assert_eq!(FIELDS_1.write(edition, &mut out).err(), refused);
        assert_eq!(Table::default().open(0, edition, 0, 16).err(), refused);
        let server = server(&filter);
        let answered = store.answer(edition, &request[..47], &occasion, &server, &mut out);
        assert_eq!(answered.err(), refused, "6 before 1");
        assert_eq!((out, store.row()), ([0xAA; 48], &[][..]));
    }
}

/// W204-9, W204-10: beside an association of edition 7 that takes the same chunks.
#[test]
fn no_chunk_is_ever_taken() {
    let (mut table, id) = (Table::default(), [0; 15]);
    assert_eq!(table.open(0, 1, 3, 256), Ok(()));
    assert_eq!(table.open(1, 7, 3, 256), Ok(()));
    let field = [&[0xF5, 0x04, 0x01, 0x04][..], &[0xFF; 256]].concat();
    for turn in 1..=8 {
        for (a, edition, chunk) in
            [(0, Edition::One, Chunk::Absent), (1, Edition::Seven, Chunk::Taken)]
        {
            let cookie = ClientCookie(turn);
            let header = Header { client_cookie: cookie, flags: 0, ..FIELDS_1 };
            let datagram = [&header.octets(edition)[..], &field].concat();
            assert!(table.poll(a, cookie, 6, Mode::Basic, &mut [0; 340]).is_ok());
            assert_eq!(table.receive(a, &datagram, 1).map(|r| r.chunk), Ok(chunk));
        }
    }
    assert_eq!(table.verdict(0, &id), Ok(Verdict::Incomplete));
    assert_eq!(table.verdict(1, &id), Ok(Verdict::Loop));
    let mut out = [0; 512];
    assert_eq!(table.publish(0b01, &id, &mut out), Err(Refusal::State));
    assert_eq!(table.publish(0b11, &id, &mut out), Err(Refusal::State));
    assert_eq!(table.publish(0b10, &id, &mut out), Ok(512));
    let open = table.places[0].0.as_ref().expect("an open association");
    assert_eq!((open.next_offset, open.taken.count(), open.filter.0), (0, 0, [0; 512]));
}
