//! The wrapper's calls in edition 7, each at least once: a client and a responder together.
#![forbid(unsafe_code)]

use ntp5::Edition::Seven;
use ntp5::*;

const ID: ReferenceId = ReferenceId([7; 15]);

fn server(filter: &Filter) -> Server<'_> {
    Server {
        leap: 0,
        stratum: 2,
        poll: 6,
        precision: -20,
        timescale: 1,
        era: 0,
        timescale_offset: 37,
        flags: 0x8001,
        root_delay: 5,
        root_dispersion: 6,
        filter: &filter.0,
        information: &[1, 2, 3, 4],
    }
}

/// Polls and answers once; gives the request's header and the response.
fn ask(
    table: &mut Table<Vec<u64>>,
    store: &mut Store<Vec<u8>>,
    filter: &Filter,
    mode: Mode,
    at: u64,
) -> Result<(Header, Vec<u8>), Refusal> {
    let (mut request, mut response) = ([0; 600], vec![0; 600]);
    let length = table.poll(3, ClientCookie(at), 6, mode, &mut request)?;
    table.sent(3, at)?;
    let occasion = Occasion { receive: at + 11, estimate: at + 12, fresh: ServerCookie(at) };
    let request = &request[..length];
    let length = store.answer(Seven, request, &occasion, &server(filter), &mut response)?;
    response.truncate(length);
    if mode == Mode::Interleaved {
        store.report(ServerCookie(at), at + 15)?;
    }
    Ok((Header::read(Seven, request, REQUEST)?, response))
}

/// Polls, answers and receives once; the response comes 30 after `at`.
fn exchange(
    table: &mut Table<Vec<u64>>,
    store: &mut Store<Vec<u8>>,
    filter: &Filter,
    mode: Mode,
    at: u64,
) -> Result<Received, Refusal> {
    let (_, response) = ask(table, store, filter, mode, at)?;
    table.receive(3, &response, at + 30)
}

/// What a response gives of which the chunk was taken.
fn usable(offset: i64, delay: u64) -> Received {
    Received { measured: Ok(Measured { offset, delay }), chunk: Chunk::Taken }
}

/// Measured with the estimate as T3, 12 after T1. T2 comes 11 after T1, and T4 30.
fn basic() -> Received {
    usable((11 - 18_i64).div_euclid(2), 29)
}

/// Measured with the reported time as T3, 15 after T1.
fn interleaved() -> Received {
    usable((11 - 15_i64).div_euclid(2), 26)
}

#[test]
fn client_and_responder() -> Result<(), Refusal> {
    let mut filter = Filter::default();
    filter.add(&ID);
    let (mut table, mut store) = (Table::new(), Store::new(2));
    table.clear()?;
    store.clear()?;
    table.open(3, Seven, 1, 256)?;
    assert_eq!(table.loop_verdict(3, &ID), Ok(Verdict::Incomplete));
    let first = exchange(&mut table, &mut store, &filter, Mode::Interleaved, 1000)?;
    assert_eq!(first, basic());
    assert_eq!(table.publish(1 << 3, &ID), Err(Refusal::State));
    let second = exchange(&mut table, &mut store, &filter, Mode::Interleaved, 2000)?;
    assert_eq!(second, interleaved(), "the reported time was sent");
    assert_eq!(table.loop_verdict(3, &ID), Ok(Verdict::Loop));
    assert_eq!(table.loop_verdict(3, &ReferenceId([9; 15])), Ok(Verdict::Clear));
    assert_eq!(table.publish(1 << 3, &ID), Ok(filter));
    table.close(3)?;
    assert_eq!(table.close(3), Err(Refusal::State));
    assert!(table.into_inner().iter().all(|&number| number == 0));
    Ok(())
}

/// W211: after four lost answers the fifth poll sends no server cookie, so that its answer is
/// basic; with the cookie of that answer the next exchange is interleaved again.
#[test]
fn interleaved_again_after_lost_answers() -> Result<(), Refusal> {
    let (mut table, mut store, filter) = (Table::new(), Store::new(2), Filter::FRESH);
    table.open(3, Seven, 1, 256)?;
    let (mode, interleaved_flag) = (Mode::Interleaved, Seven.interleaved());
    assert_eq!(exchange(&mut table, &mut store, &filter, mode, 1000), Ok(basic()));
    assert_eq!(exchange(&mut table, &mut store, &filter, mode, 2000), Ok(interleaved()));
    for at in [3000, 4000, 5000, 6000] {
        let (request, _) = ask(&mut table, &mut store, &filter, mode, at)?;
        let sent = (request.flags, request.server_cookie);
        assert_eq!(sent, (interleaved_flag, ServerCookie(2000)), "at {at}");
    }
    let (request, response) = ask(&mut table, &mut store, &filter, mode, 7000)?;
    let sent = (request.flags, request.server_cookie);
    assert_eq!(sent, (interleaved_flag, ServerCookie(0)), "interleaved is wanted still");
    let answer = Header::read(Seven, &response, RESPONSE)?;
    assert_eq!((answer.flags & interleaved_flag, answer.server_cookie), (0, ServerCookie(7000)));
    assert_eq!(table.receive(3, &response, 7030), Ok(basic()));
    assert_eq!(exchange(&mut table, &mut store, &filter, mode, 8000), Ok(interleaved()));
    Ok(())
}

/// A response to the request with this cookie, with these filter octets.
fn response(cookie: ClientCookie, chunk: &[u8]) -> Result<Vec<u8>, Refusal> {
    let mut datagram = vec![0; 48];
    let header = Header { mode: RESPONSE, client_cookie: cookie, ..Header::default() };
    header.write(Seven, &mut datagram)?;
    datagram.extend([0xF5, 0x04]);
    datagram.extend((4 + chunk.len() as u16).to_be_bytes());
    datagram.extend(chunk);
    Ok(datagram)
}

/// Word i of the filter of association a is number 81a + 17 + i.
#[test]
fn filter_words_are_the_octets_taken() -> Result<(), Refusal> {
    const LAST: u8 = 15;
    let (mut table, mut filter) = (Table::new(), [0; 512]);
    table.open(LAST, Seven, 0, 64)?;
    // A whole pass of eight chunks, and the first two again.
    for turn in 0..10_usize {
        let cookie = ClientCookie(1 + turn as u64);
        let chunk: [u8; 64] = std::array::from_fn(|i| (67 * turn + 3 * i + 1) as u8);
        table.poll(LAST, cookie, 6, Mode::Basic, &mut [0; 148])?;
        table.receive(LAST, &response(cookie, &chunk)?, 1)?;
        filter[64 * turn % 512..][..64].copy_from_slice(&chunk);
        let numbers = table.clone().into_inner();
        let (others, own) = numbers.split_at(81 * usize::from(LAST));
        let octets = own[17..].iter().flat_map(|word| word.to_le_bytes());
        assert!(octets.eq(filter), "after chunk {turn}");
        assert!(others.iter().all(|&number| number == 0), "after chunk {turn}");
    }
    Ok(())
}

/// What every call says of a table of this many sevens, and what they leave of it.
fn made_on(length: usize) -> ([Option<Refusal>; 8], Vec<u64>) {
    let mut table = Table::lent(vec![7; length]);
    let refused = [
        table.clear().err(),
        table.open(0, Seven, 0, 16).err(),
        table.poll(0, ClientCookie(1), 6, Mode::Basic, &mut [0; 100]).err(),
        table.sent(0, 1).err(),
        table.receive(0, &[0; 47], 1).err(),
        table.loop_verdict(0, &ID).err(),
        table.publish(0, &ID).err(),
        table.close(0).err(),
    ];
    (refused, table.into_inner())
}

#[test]
fn tables_of_another_length_are_refused() {
    for length in [0, 1, 81, 1280, 1295, 1297, 2592] {
        let (refused, left) = made_on(length);
        assert_eq!(refused, [Some(Refusal::Argument); 8], "{length} numbers");
        assert_eq!(left, vec![7; length]);
    }
    let (refused, left) = made_on(1296);
    let received = Some(Refusal::DatagramLength);
    assert_eq!(refused, [None, None, None, None, received, None, None, None]);
    assert_eq!(left, vec![0; 1296]);
}

#[test]
fn unusable_responses() -> Result<(), Refusal> {
    let header =
        Header { mode: RESPONSE, stratum: 1, receive: 5, transmit: 6, ..Header::default() };
    for (header, why) in [
        (Header { leap: 3, ..header }, Unusable::Leap),
        (Header { stratum: 16, ..header }, Unusable::Stratum),
        (Header { timescale: 9, ..header }, Unusable::Timescale),
        (Header { transmit: 0, ..header }, Unusable::Timestamp),
        (Header { transmit: 5 + (1 << 63), ..header }, Unusable::HalfEra),
    ] {
        let (mut table, mut out) = (Table::new(), [0; 100]);
        table.open(0, Seven, 0, 16)?;
        table.poll(0, ClientCookie(1), 6, Mode::Basic, &mut out)?;
        table.sent(0, 4)?;
        Header { client_cookie: ClientCookie(1), ..header }.write(Seven, &mut out)?;
        let received = Received { measured: Err(why), chunk: Chunk::Absent };
        assert_eq!(table.receive(0, &out[..48], 7), Ok(received));
    }
    Ok(())
}

#[test]
fn headers() {
    let header = Header {
        leap: 1,
        mode: REQUEST,
        stratum: 3,
        poll: -4,
        precision: -5,
        timescale: 6,
        era: 7,
        timescale_offset: -9,
        flags: Seven.interleaved() | 0x100,
        root_delay: 8,
        root_dispersion: 9,
        server_cookie: ServerCookie(10),
        client_cookie: ClientCookie(11),
        receive: 12,
        transmit: 13,
    };
    let mut out = [0; 48];
    assert_eq!(header.write(Seven, &mut out), Ok(()));
    let without_offset = Header { timescale_offset: 0, ..header };
    assert_eq!(Header::read(Seven, &out, REQUEST), Ok(without_offset));
    assert_eq!(Header::read(Seven, &out, RESPONSE), Err(Refusal::Mode));
    // Flags above 255 have no room in edition 1.
    let before = out;
    assert_eq!(header.write(Edition::One, &mut out), Err(Refusal::Argument));
    assert_eq!(out, before);
    let header = Header { flags: Edition::One.interleaved() | 0x80, ..header };
    assert_eq!(header.write(Edition::One, &mut out), Ok(()));
    assert_eq!(Header::read(Edition::One, &out, REQUEST), Ok(header));
    assert_eq!(sound(&out, REQUEST), Ok(()));
    assert_eq!(sound(&out[..47], REQUEST), Err(Refusal::DatagramLength));
    assert_eq!(header.write(Seven, &mut out[..47]), Err(Refusal::Room));
}

#[test]
fn filters_and_times() {
    let mut filter = Filter::FRESH;
    filter.add(&ReferenceId([0; 15]));
    let mut other = Filter::FRESH;
    other.add(&ReferenceId([0xFF; 15]));
    filter.unite(&other);
    assert_eq!((filter.0[0], filter.0[511], filter.weight()), (0x01, 0x80, 2));
    let times = Times { t1: 10, t2: 10, t3: 10, t4: 11 };
    assert_eq!(times.measure(), Ok(Measured { offset: -1, delay: 1 }));
    let times = Times { t4: 10 + (1 << 63), ..times };
    assert_eq!(times.measure(), Err(Unusable::HalfEra));
}

#[test]
fn refusals_have_their_numbers() {
    for (place, refusal) in Refusal::ALL.into_iter().enumerate() {
        assert_eq!(usize::from(refusal.number()), place + 1);
    }
    let mut after_mac = vec![0; 48];
    after_mac[0] = 0x2B;
    after_mac.extend([0xF5, 0x02, 0, 4, 0xF5, 0x01, 0, 4]);
    assert_eq!(ntp5::sound(&after_mac, 3), Err(Refusal::AfterMac));
    assert_eq!(ntp5::sound(&after_mac[..52], 3), Ok(()));
    assert_eq!(Store::lent(&mut [0_u8; 17]).clear(), Err(Refusal::Argument));
    assert_eq!(Table::lent(&mut [0_u64; 17]).clear(), Err(Refusal::Argument));
    assert_eq!(Store::new(65).report(ServerCookie(1), 1), Err(Refusal::Argument));
}
