//! W204 through the wrapper: an exchange in edition 1, and tables that mix both editions.
#![forbid(unsafe_code)]

use ntp5::ffi::calls;
use ntp5::Edition::{One, Seven};
use ntp5::*;

const ID: ReferenceId = ReferenceId([7; 15]);
/// The association of edition 1, and that of edition 7.
const A: [(u8, Edition); 2] = [(4, One), (5, Seven)];

fn server(filter: &Filter) -> Server<'_> {
    Server {
        leap: 0,
        stratum: 2,
        poll: 6,
        precision: -20,
        timescale: 3,
        era: 9,
        timescale_offset: -37,
        flags: 0x87,
        root_delay: 5,
        root_dispersion: 6,
        filter: &filter.0,
        information: &[1, 2, 3, 4],
    }
}

/// A client's table with an association of each edition, and a server's store.
struct Pair {
    table: Table<Vec<u64>>,
    store: Store<Vec<u8>>,
    filter: Filter,
}

impl Pair {
    fn new() -> Result<Self, Refusal> {
        let mut filter = Filter::FRESH;
        filter.add(&ID);
        let mut pair = Pair { table: Table::new(), store: Store::new(4), filter };
        for (association, edition) in A {
            pair.table.open(association, edition, 3, 256)?;
        }
        Ok(pair)
    }

    /// Polls interleaved at T1 = `at`; gives the request.
    fn ask(&mut self, association: u8, at: u64) -> Result<Vec<u8>, Refusal> {
        let (cookie, mut request) = (ClientCookie(at), vec![0; 600]);
        let polled = self.table.poll(association, cookie, 6, Mode::Interleaved, &mut request);
        request.truncate(polled?);
        self.table.sent(association, at)?;
        Ok(request)
    }

    /// Answers 11 after `at`, and reports that it was sent 15 after it, not 12 as estimated.
    fn answer(&mut self, edition: Edition, request: &[u8], at: u64) -> Result<Vec<u8>, Refusal> {
        let occasion = Occasion { receive: at + 11, estimate: at + 12, fresh: ServerCookie(at) };
        let mut response = vec![0xAA; request.len()];
        let server = server(&self.filter);
        let length = self.store.answer(edition, request, &occasion, &server, &mut response)?;
        assert_eq!(length, request.len());
        self.store.report(ServerCookie(at), at + 15)?;
        Ok(response)
    }

    /// A whole exchange; the response comes 30 after `at`.
    fn exchange(&mut self, (a, edition): (u8, Edition), at: u64) -> Result<Received, Refusal> {
        let request = self.ask(a, at)?;
        let response = self.answer(edition, &request, at)?;
        self.table.receive(a, &response, at + 30)
    }
}

/// Measured with the estimate as T3, 12 after T1, or with the reported time, 15 after it.
fn measured(t3: i64, chunk: Chunk) -> Received {
    let (offset, delay) = ((11 + t3 - 30).div_euclid(2), (30 - (t3 - 11)) as u64);
    Received { measured: Ok(Measured { offset, delay }), chunk }
}

#[test]
fn exchange_in_edition_1() -> Result<(), Refusal> {
    let (mut pair, (a, _)) = (Pair::new()?, A[0]);
    let (cookie, mode, mut out) = (ClientCookie(0x0102_0304_0506_0708), Mode::Interleaved, [0; 50]);
    assert_eq!(pair.table.poll(a, cookie, 6, mode, &mut out[..47]), Err(Refusal::Room));
    assert_eq!(pair.table.poll(a, cookie, 6, mode, &mut out), Ok(48));
    let mut first = [0; 50];
    first[..8].copy_from_slice(&[0x2B, 0x30, 0x06, 0x00, 0x04, 0, 0, 0]);
    first[24..32].copy_from_slice(&[1, 2, 3, 4, 5, 6, 7, 8]);
    assert_eq!(out, first);
    // Basic, since there was no cookie to send. Of the server's flags 0x4 is taken out.
    let request = pair.ask(a, 1000)?;
    let response = pair.answer(One, &request, 1000)?;
    let start = [0x2C, 0x32, 0x06, 0xEC, 0x83, 9, 0xFF, 0xDB, 0, 0, 0, 5, 0, 0, 0, 6];
    assert_eq!((&response[..16], response.len()), (&start[..], 48));
    assert_eq!(pair.table.receive(a, &response, 1030), Ok(measured(12, Chunk::Absent)));
    assert_eq!(pair.table.receive(a, &response, 1030), Err(Refusal::NotOutstanding));
    // Interleaved by 0x4, with the time that was reported.
    let request = pair.ask(a, 2000)?;
    assert_eq!(Header::read(One, &request, REQUEST)?.server_cookie, ServerCookie(1000));
    let response = pair.answer(One, &request, 2000)?;
    let header = Header::read(One, &response, RESPONSE)?;
    assert_eq!((header.flags, header.transmit, header.timescale_offset), (0x87, 1015, -37));
    assert_eq!(pair.table.receive(a, &response, 2030), Ok(measured(15, Chunk::Absent)));
    Ok(())
}

#[test]
fn both_editions_in_one_table() -> Result<(), Refusal> {
    let (mut pair, [one, seven]) = (Pair::new()?, A);
    for (turn, t3) in (1..).zip([12, 15, 15, 15]) {
        assert_eq!(pair.exchange(one, 1000 * turn), Ok(measured(t3, Chunk::Absent)));
        assert_eq!(pair.exchange(seven, 1000 * turn + 500), Ok(measured(t3, Chunk::Taken)));
    }
    assert_eq!(pair.table.loop_verdict(one.0, &ID), Ok(Verdict::Incomplete));
    assert_eq!(pair.table.loop_verdict(seven.0, &ID), Ok(Verdict::Loop));
    assert_eq!(pair.table.publish(1 << seven.0, &ID), Ok(pair.filter));
    assert_eq!(pair.table.publish(1 << one.0, &ID), Err(Refusal::State));
    assert_eq!(pair.table.publish(1 << one.0 | 1 << seven.0, &ID), Err(Refusal::State));
    // A record's first number is the edition; its last 64 are the filter.
    let numbers = pair.table.clone().into_inner();
    let [of_one, of_seven] = A.map(|(a, _)| &numbers[81 * usize::from(a)..][..81]);
    assert_eq!((of_one[0], &of_one[17..]), (1, &[0; 64][..]));
    assert!(of_seven[0] == 7 && of_seven[17..] != [0; 64]);
    // Opened again in edition 7, the same association takes chunks.
    pair.table.close(one.0)?;
    pair.table.open(one.0, Seven, 3, 256)?;
    assert_eq!(pair.exchange((one.0, Seven), 9000), Ok(measured(12, Chunk::Taken)));
    Ok(())
}

/// A server that answers in the other edition: where timescale, stratum and flags stand, the
/// client reads something else.
#[test]
fn answers_of_the_other_edition() -> Result<(), Refusal> {
    for ((association, _), edition, why) in
        [(A[0], Seven, Unusable::Timescale), (A[1], One, Unusable::Stratum)]
    {
        let mut pair = Pair::new()?;
        let mut request = vec![0; 600];
        let length = pair.table.poll(association, ClientCookie(1), 6, Mode::Basic, &mut request)?;
        let occasion = Occasion { receive: 11, estimate: 12, fresh: ServerCookie(0) };
        // Flags whose place the other edition reads as no interleaved flag.
        let server = Server { timescale_offset: 0, flags: 0, ..server(&pair.filter) };
        let mut response = vec![0; length];
        pair.store.answer(edition, &request[..length], &occasion, &server, &mut response)?;
        let received = pair.table.receive(association, &response, 30)?;
        assert_eq!((received.measured, received.chunk), (Err(why), Chunk::Absent));
    }
    Ok(())
}

#[test]
fn other_numbers_are_no_edition() {
    let filter = Filter::FRESH;
    let mut request = [0; 48];
    request[0] = 0x2B;
    let occasion = Occasion { receive: 1, estimate: 2, fresh: ServerCookie(3) };
    for edition in 0..=u8::MAX {
        let refused =
            if Edition::ALL.iter().any(|known| known.number() == edition) { 0 } else { 6 };
        let (mut table, mut store, mut out) = (vec![0; 1296], [0; 16], [0xAA; 48]);
        assert_eq!(calls::open(&mut table, 0, edition, 0, 16), refused);
        let read = calls::header_read(edition, &request, REQUEST);
        assert_eq!((read.refusal, read.header.mode), (refused, if refused == 0 { 3 } else { 0 }));
        let header = Header { mode: REQUEST, ..Header::default() };
        assert_eq!(calls::header_write(edition, header.into(), &mut out), refused);
        let server = server(&filter);
        let answered = calls::answer(&mut store, edition, &request, &occasion, &server, &mut out);
        assert_eq!(
            (answered.refusal, answered.length),
            (refused, if refused == 0 { 48 } else { 0 })
        );
        assert_eq!(out == [0xAA; 48], refused == 6, "edition {edition}");
        assert_eq!(table.iter().all(|&number| number == 0), refused == 6, "edition {edition}");
    }
}
