//! What the measured calls are made on: the same table, store and datagram for each side.

use super::{Reset, Side};
use crate::random::Random;
use reference::edition::Edition;
use reference::exchange::Mode;
use reference::header::{ClientCookie, Header, ServerCookie, REQUEST};
use reference::record;
use reference::responder::{Occasion, Server};
use reference::store::Store;
use reference::table::Table;

/// Numbers of a table's record.
const RECORD: usize = record::NUMBERS;

/// The server cookie of a store's first record; the others have the numbers after it.
pub(super) const FIRST_COOKIE: u64 = 1000;

/// All that a call may need. What a call changes stands twice: as it is, and as it was.
#[allow(missing_docs)]
pub struct State {
    pub plain: Table,
    pub plain_was: Table,
    pub table: Vec<u64>,
    pub table_was: Vec<u64>,
    pub plain_store: Store,
    pub plain_store_was: Store,
    pub store: Vec<u8>,
    pub store_was: Vec<u8>,
    /// The number of the edition that a call names.
    pub edition: u8,
    /// A datagram, or the trace that is replayed from its start.
    pub datagram: Vec<u8>,
    /// Datagrams that take their turns with the first, if there are any.
    pub others: Vec<Vec<u8>>,
    /// Whose turn it is.
    pub turn: usize,
    pub header: Header,
    pub out: Vec<u8>,
    pub filter: Vec<u8>,
    pub other_filter: Vec<u8>,
    pub id: Vec<u8>,
    pub times: [u64; 4],
    pub cookie: u64,
    pub fresh: u64,
    /// The server cookie whose time is reported.
    pub reported: u64,
    pub selected: u16,
    /// The last call's refusal number.
    pub refusal: u8,
}

impl State {
    /// A state with this table, row of records and datagram.
    fn new(plain: Table, store: Store, records: usize, datagram: Vec<u8>) -> Self {
        let mut random = Random::new(5);
        let table = plain.places.each_ref().map(record::encode).concat();
        let mut octets = vec![0; 16 * records];
        store.encode(&mut octets);
        State {
            plain: plain.clone(),
            plain_was: plain,
            table: table.clone(),
            table_was: table,
            plain_store: store.clone(),
            plain_store_was: store,
            store: octets.clone(),
            store_was: octets,
            edition: Edition::Seven as u8,
            datagram,
            others: Vec::new(),
            turn: 0,
            header: basic_request(),
            out: vec![0; 1280],
            filter: (0..512).map(|_| random.any() as u8).collect(),
            id: (0..15).map(|_| random.any() as u8).collect(),
            times: [0; 4].map(|_: u64| random.any()),
            other_filter: (0..512).map(|_| random.any() as u8).collect(),
            cookie: 1 << 40,
            fresh: 1 << 50,
            reported: 0,
            selected: 0,
            refusal: 0,
        }
    }

    /// A state for calls that need no table, with this datagram.
    pub fn with_datagram(datagram: Vec<u8>) -> Self {
        State::new(Table::default(), Store::new(1).expect("one record"), 1, datagram)
    }

    /// A state for calls on this table.
    pub(super) fn with_table(plain: Table) -> Self {
        State::new(plain, Store::new(1).expect("one record"), 1, Vec::new())
    }

    /// The state with its calls made in an edition.
    pub(super) fn named(mut self, edition: Edition) -> Self {
        self.edition = edition as u8;
        self
    }

    /// Brings back what a side's call changed, and takes the next datagram.
    #[inline(never)]
    pub fn reset(&mut self, reset: Reset, side: Side) {
        if let Some(next) = self.others.get_mut(self.turn) {
            std::mem::swap(&mut self.datagram, next);
            self.turn = (self.turn + 1) % self.others.len();
        }
        match (reset, side) {
            (Reset::Nothing, _) => {}
            (Reset::Cookie, _) => self.cookie += 1,
            (Reset::Record, Side::Plain) => {
                self.plain.places[0].clone_from(&self.plain_was.places[0])
            }
            (Reset::Record, _) => self.table[..RECORD].copy_from_slice(&self.table_was[..RECORD]),
            (Reset::Store, Side::Plain) => self.plain_store.clone_from(&self.plain_store_was),
            (Reset::Store, _) => self.store.copy_from_slice(&self.store_was),
        }
    }

    /// An open first association with chunks of `c` octets.
    pub fn opened(edition: Edition, c: u16) -> Self {
        let mut plain = Table::default();
        plain.open(0, edition as u8, 0, c).expect("an offered size");
        State::with_table(plain).named(edition)
    }

    /// An outstanding request and its answer, `before` interleaved exchanges after opening.
    pub fn asked(edition: Edition, c: u16, before: u64) -> Self {
        let (mut plain, mut store) = (Table::default(), Store::new(8).expect("eight records"));
        plain.open(0, edition as u8, 0, c).expect("an offered size");
        let mut response = exchange(&mut plain, edition, &mut store, 1);
        for at in 0..before {
            plain.receive(0, &response, 1030).expect("an answer");
            response = exchange(&mut plain, edition, &mut store, 2 + at);
        }
        State::new(plain, store, 8, response).named(edition)
    }

    /// A weight goes to the output, where the sides are compared.
    pub fn keep_weight(&mut self, weight: u16) {
        self.out[..2].copy_from_slice(&weight.to_be_bytes());
    }

    /// And so does a measurement.
    pub fn keep_measurement(&mut self, judgement: u8, offset: i64, delay: u64) {
        self.out[0] = judgement;
        self.out[1..9].copy_from_slice(&offset.to_be_bytes());
        self.out[9..17].copy_from_slice(&delay.to_be_bytes());
    }

    /// Sixteen associations with complete filters; `selected` is published.
    pub fn complete(selected: u16) -> Self {
        let mut state = State::with_table(complete_table(|_| {}));
        state.selected = selected;
        state
    }

    /// A row of 64 records, of which `used` are used and the first `reported` have their
    /// times, and a request.
    pub fn stored(used: u64, reported: u64, request: Vec<u8>) -> Self {
        let mut store = Store::new(64).expect("64 records");
        let cookie = |i| ServerCookie(FIRST_COOKIE + i);
        (0..used).for_each(|i| store.join(cookie(i)));
        for i in 0..reported {
            store.report(cookie(i), 5000 + i).expect("a stored cookie");
        }
        State::new(Table::default(), store, 64, request)
    }
}

/// Sixteen associations with complete filters, each after `then`.
pub(super) fn complete_table(then: fn(&mut Table)) -> Table {
    let (mut plain, mut store) = (Table::default(), Store::new(8).expect("eight records"));
    plain.open(0, Edition::Seven as u8, 0, 512).expect("an offered size");
    let response = exchange(&mut plain, Edition::Seven, &mut store, 1);
    plain.receive(0, &response, 1030).expect("an answer");
    then(&mut plain);
    plain.places = std::array::from_fn(|_| plain.places[0].clone());
    plain
}

/// Polls, and answers with a filter that is all ones.
fn exchange(plain: &mut Table, edition: Edition, store: &mut Store, cookie: u64) -> Vec<u8> {
    let (mut request, mut response) = ([0; 600], vec![0; 600]);
    let polled = plain.poll(0, ClientCookie(cookie), 6, Mode::Interleaved, &mut request);
    let length = polled.expect("a request");
    plain.sent(0, 1000).expect("an outstanding request");
    let occasion = Occasion { receive: 1010, estimate: 1020, fresh: ServerCookie(cookie) };
    let (request, server) = (&request[..length], server(&[0xFF; 512]));
    let answered = store.answer(edition as u8, request, &occasion, &server, &mut response);
    response.truncate(answered.expect("an answer"));
    store.report(occasion.fresh, 1021).expect("a stored cookie");
    response
}

/// A basic request's header.
pub(super) fn basic_request() -> Header {
    Header { mode: REQUEST, ..Header::default() }
}

/// A basic poll's request, in edition 7 for 16 octets.
pub fn poll_request(edition: Edition) -> Vec<u8> {
    let mut state = State::opened(edition, 16);
    let cookie = ClientCookie(state.cookie);
    let polled = state.plain.poll(0, cookie, 6, Mode::Basic, &mut state.out);
    state.out.truncate(polled.expect("a request"));
    state.out
}

/// The request of edition 7, made to want an interleaved answer from a store's record.
pub fn naming(mut request: Vec<u8>, record: u64) -> Vec<u8> {
    let asked = Header {
        flags: Edition::Seven.interleaved(),
        server_cookie: ServerCookie(FIRST_COOKIE + record),
        ..Header::read(Edition::Seven as u8, &request, REQUEST).expect("a request")
    };
    asked.write(Edition::Seven as u8, &mut request).expect("room for a header");
    request
}

/// What the measured server says of itself.
pub fn server(filter: &[u8]) -> Server<'_> {
    Server {
        leap: 0,
        stratum: 1,
        poll: 6,
        precision: -20,
        timescale: 0,
        era: 0,
        timescale_offset: 37,
        flags: 0,
        root_delay: 1,
        root_dispersion: 2,
        filter,
        information: &[1, 2, 3, 4],
    }
}
