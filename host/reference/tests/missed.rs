//! Missed polls, W211-1 to W211-5, walked by hand on the plain table, in both editions.
#![forbid(unsafe_code)]

use reference::association::Association;
use reference::edition::Edition;
use reference::exchange::Mode::{self, Basic, Interleaved};
use reference::exchange::{Chunk, Judgement, Received};
use reference::header::{ClientCookie, Header, ServerCookie, REQUEST, RESPONSE};
use reference::refusal::Refusal;
use reference::table::Table;

const A: u8 = 5;
/// The editions, and how long a poll is that asks for 16 octets where it can.
const EDITIONS: [(Edition, usize); 2] = [(Edition::One, 48), (Edition::Seven, 100)];

/// One association and the client cookie of its last poll.
struct Client {
    table: Table,
    edition: Edition,
    length: usize,
    last: u64,
}

impl Client {
    /// Newly opened.
    fn new((edition, length): (Edition, usize)) -> Self {
        let mut client = Client { table: Table::default(), edition, length, last: 100 };
        client.reopen(A);
        client
    }

    fn reopen(&mut self, association: u8) {
        assert_eq!(self.table.open(association, self.edition as u8, 0, 16), Ok(()));
    }

    /// After an accepted response with this server cookie.
    fn answered(spoken: (Edition, usize), cookie: u64) -> Self {
        let mut client = Client::new(spoken);
        client.poll(Interleaved);
        let header = client.response(cookie);
        client.receive(&header, &[]).expect("an accepted response");
        client
    }

    fn open(&self) -> &Association {
        self.table.places[usize::from(A)].0.as_ref().expect("an open association")
    }

    /// The number of missed polls that the association keeps.
    fn missed(&self) -> u8 {
        self.open().missed
    }

    /// Polls; gives the server cookie that was sent, and the number of missed polls then.
    fn poll(&mut self, mode: Mode) -> (u64, u8) {
        self.last += 1;
        let mut out = vec![0; self.length];
        let cookie = ClientCookie(self.last);
        assert_eq!(self.table.poll(A, cookie, 6, mode, &mut out), Ok(self.length));
        let header = Header::read(self.edition as u8, &out, REQUEST).expect("a request");
        let interleaved = header.flags == self.edition.interleaved();
        assert_eq!(interleaved, mode == Interleaved, "the flag as wanted");
        (header.server_cookie.0, self.missed())
    }

    /// The header of a basic response to the last poll.
    fn response(&self, cookie: u64) -> Header {
        Header {
            mode: RESPONSE,
            stratum: 1,
            server_cookie: ServerCookie(cookie),
            client_cookie: ClientCookie(self.last),
            receive: 2,
            transmit: 3,
            ..Header::default()
        }
    }

    fn receive(&mut self, header: &Header, fields: &[u8]) -> Result<Received, Refusal> {
        self.table.receive(A, &[&header.octets(self.edition), fields].concat(), 4)
    }

    /// Polls again and again; gives what [`Self::poll`] gives, each time.
    fn run(&mut self, polls: usize, mode: Mode) -> Vec<(u64, u8)> {
        (0..polls).map(|_| self.poll(mode)).collect()
    }
}

/// What twelve interleaved polls send and keep after a response with server cookie 9: the
/// first replaces nothing, the fifth counts the fourth missed one.
#[rustfmt::skip]
const RUN: [(u64, u8); 12] = [
    (9, 0), (9, 1), (9, 2), (9, 3), (0, 4), (0, 5), (0, 6), (0, 7), (0, 8), (0, 8), (0, 8), (0, 8),
];

fn without_an_answer(spoken: (Edition, usize)) {
    let mut client = Client::answered(spoken, 9);
    client.reopen(A + 1);
    let saved = client.open().saved;
    assert_eq!(client.run(12, Interleaved), RUN);
    assert_eq!(client.open().saved, saved, "what was saved stays");
    let other = client.table.places[usize::from(A + 1)].0.as_ref();
    assert_eq!(other.map(|open| open.missed), Some(0), "each association counts its own");
    // Basic polls count as well.
    let mut client = Client::answered(spoken, 9);
    assert_eq!(client.run(3, Basic), [(0, 0), (0, 1), (0, 2)]);
    assert_eq!(client.run(2, Interleaved), [(9, 3), (0, 4)]);
    assert_eq!(client.run(1, Basic), [(0, 5)]);
    // And those before the first response, which have no cookie to send.
    let never = Client::new(spoken).run(12, Interleaved);
    assert_eq!(never, RUN.map(|(_, missed)| (0, missed)));
}

#[test]
fn polls_without_an_answer() {
    EDITIONS.into_iter().for_each(without_an_answer);
}

/// Makes every call that is refused after a poll, and reports T1.
fn make_refused_calls(client: &mut Client, sent_cookie: bool) {
    let (last, header, length) = (ClientCookie(client.last), client.response(7), client.length);
    let polled = |client: &mut Client, a, cookie, room| {
        client.table.poll(a, cookie, 6, Interleaved, &mut vec![0; room])
    };
    assert_eq!(polled(client, A, ClientCookie(0), length), Err(Refusal::Cookie));
    assert_eq!(polled(client, A, last, length), Err(Refusal::Cookie));
    assert_eq!(polled(client, A, ClientCookie(1), length - 1), Err(Refusal::Room));
    assert_eq!(polled(client, A + 1, ClientCookie(1), length), Err(Refusal::State));
    assert_eq!(polled(client, 16, ClientCookie(1), length), Err(Refusal::Argument));
    let late = Header { client_cookie: ClientCookie(last.0 - 1), ..header };
    assert_eq!(client.receive(&late, &[]), Err(Refusal::NotOutstanding));
    assert_eq!(client.receive(&header, &[0]), Err(Refusal::DatagramLength));
    assert_eq!(client.receive(&header, &[0xF5, 4, 0, 20]), Err(Refusal::FieldLength));
    let octets = header.octets(client.edition);
    assert_eq!(client.table.receive(A, &octets, 0), Err(Refusal::Argument));
    if !sent_cookie {
        let interleaved = Header { flags: client.edition.interleaved(), ..header };
        assert_eq!(client.receive(&interleaved, &[]), Err(Refusal::NotInterleaved));
    }
    assert_eq!(client.table.sent(A, 0), Err(Refusal::Argument));
    assert_eq!(client.table.sent(A, 1), Ok(()));
    assert_eq!(client.table.sent(A, 2), Err(Refusal::State));
}

#[test]
fn refused_calls_and_sent_count_nothing() {
    for spoken in EDITIONS {
        let mut client = Client::answered(spoken, 9);
        for expected in RUN {
            assert_eq!(client.poll(Interleaved), expected);
            make_refused_calls(&mut client, expected.0 != 0);
            assert_eq!(client.missed(), expected.1);
        }
    }
}

/// Every accepted response after so many polls, usable or not, with its chunk or not, which
/// edition 1 does not know.
fn accepted_after(spoken: (Edition, usize), polls: usize) {
    const SIZES: [(usize, Chunk); 3] =
        [(0, Chunk::Absent), (16, Chunk::Taken), (12, Chunk::AnotherSize)];
    for (leap, judgement) in [(0, Judgement::Usable), (3, Judgement::Leap)] {
        for (size, chunk) in SIZES {
            let chunk = if spoken.0 == Edition::One { Chunk::Absent } else { chunk };
            let mut client = Client::answered(spoken, 9);
            client.run(polls, Interleaved);
            assert_eq!(client.table.sent(A, 1), Ok(()));
            let header = Header { leap, ..client.response(7) };
            let field = [&[0xF5, 0x04, 0, 4 + size as u8][..], &vec![1; size]].concat();
            let fields = if size > 0 { &field[..] } else { &[] };
            let received = client.receive(&header, fields).map(|r| (r.judgement, r.chunk));
            assert_eq!(received, Ok((judgement, chunk)));
            assert_eq!(client.missed(), 0, "{polls} polls, {judgement:?}, {chunk:?}");
            assert_eq!(client.run(2, Interleaved), [(7, 0), (7, 1)], "the new cookie is sent");
        }
    }
}

#[test]
fn back_to_0_at_an_accepted_response() {
    for spoken in EDITIONS {
        (1..=12).for_each(|polls| accepted_after(spoken, polls));
        // An interleaved one, too, as long as a cookie was sent.
        let mut client = Client::answered(spoken, 9);
        client.run(4, Interleaved);
        let header = Header { flags: spoken.0.interleaved(), ..client.response(7) };
        assert!(client.receive(&header, &[]).is_ok());
        assert_eq!(client.run(5, Interleaved), [(7, 0), (7, 1), (7, 2), (7, 3), (0, 4)]);
    }
}

#[test]
fn back_to_0_at_opening() {
    let closings: [fn(&mut Table); 2] =
        [|table| table.close(A).expect("an open association"), Table::clear];
    for (spoken, close) in EDITIONS.into_iter().flat_map(|e| closings.map(|close| (e, close))) {
        let mut client = Client::answered(spoken, 9);
        client.run(12, Interleaved);
        close(&mut client.table);
        client.reopen(A);
        assert_eq!(client.missed(), 0);
        assert_eq!(client.run(2, Interleaved), [(0, 0), (0, 1)]);
    }
}
