//! Records of a client's calls, one after the other, with the answers of a server.

use super::{client, trace};
use crate::call::{Call, Side};
use crate::plain::Plain;
use crate::random::Random;
use reference::edition::Edition;
use reference::header::ServerCookie;
use reference::responder::{Occasion, Server};

/// Lengths of datagrams, most of which no answer has.
const LENGTHS: [usize; 8] = [0, 1, 13, 47, 48, 1280, 1281, 1284];
/// Lengths that a record can say, though no datagram of them is accepted.
const LONG: [usize; 4] = [4096, 0x7FFF, 0x8000, 0xFFFF];

/// A call and a record of it.
#[derive(Clone, Debug)]
pub struct Recorded {
    /// The call; a poll's buffer is the one that it was lent.
    pub call: Call,
    /// The record.
    pub octets: Vec<u8>,
    /// Whether the datagram is a server's answer to the last poll.
    pub answer: bool,
}

/// Records of random calls from a cleared table on, without end, each made to fit the state
/// that those before it lead to.
pub fn records(random: &mut Random) -> impl Iterator<Item = Recorded> + '_ {
    let mut client = Client { plain: Plain::new(8), asked: None };
    std::iter::repeat_with(move || client.next(random))
}

/// The trace of these records.
pub fn trace_of(records: &[Recorded]) -> Vec<u8> {
    records.iter().flat_map(|record| record.octets.clone()).collect()
}

/// A request and the association that sent it.
struct Asked {
    association: u8,
    edition: Edition,
    timescale: u8,
    request: Vec<u8>,
}

/// The table that the calls lead to, the server's store, and the last request.
struct Client {
    plain: Plain,
    asked: Option<Asked>,
}

impl Client {
    fn next(&mut self, random: &mut Random) -> Recorded {
        loop {
            let (call, answer) = self.call(random);
            if let Some(octets) = trace::record(random, &call) {
                self.make(&call);
                return Recorded { call, octets, answer };
            }
        }
    }

    /// A call, and whether it receives an answer of the server.
    fn call(&mut self, random: &mut Random) -> (Call, bool) {
        if random.one_in(24) {
            let lengths = if random.one_in(16) { &LONG[..] } else { &LENGTHS };
            let (association, length) = (random.below(18) as u8, random.pick(lengths));
            let datagram = random.octets(length);
            return (Call::Receive { association, datagram, t4: random.time() }, false);
        }
        let calm = random.one_in(2);
        match self.asked.take_if(|_| random.one_in(3)) {
            Some(asked) => (self.answered(random, &asked), true),
            None => (client::call(random, &self.plain.table, calm), false),
        }
    }

    /// The server's answer to a request.
    fn answered(&mut self, random: &mut Random, asked: &Asked) -> Call {
        let [receive, estimate, t4] = [(); 3].map(|()| random.number().max(1));
        let occasion = Occasion { receive, estimate, fresh: ServerCookie(random.any().max(1)) };
        let server = Server {
            leap: 0,
            stratum: 1 + random.below(15) as u8,
            poll: 6,
            precision: -20,
            timescale: asked.timescale,
            era: 0,
            timescale_offset: 37,
            flags: 0,
            root_delay: 1,
            root_dispersion: 2,
            filter: &random.octets(512),
            information: &[0, 0x10, 0, 0],
        };
        let (edition, mut datagram) = (asked.edition as u8, vec![0; asked.request.len()]);
        let store = &mut self.plain.store;
        let answered = store.answer(edition, &asked.request, &occasion, &server, &mut datagram);
        answered.expect("an answer");
        // A basic answer leaves nothing to report.
        let _ = store.report(occasion.fresh, random.number().max(1));
        Call::Receive { association: asked.association, datagram, t4 }
    }

    /// Makes the call, and keeps the request that a poll wrote.
    fn make(&mut self, call: &Call) {
        let outcome = self.plain.make(call);
        let &Call::Poll { association, .. } = call else { return };
        let place = self.plain.table.places.get(usize::from(association));
        let open = place.and_then(|place| place.0.as_ref());
        if let Some(open) = open.filter(|_| outcome.returned.refusal() == 0) {
            let mut request = outcome.out;
            request.truncate(client::poll_octets(open));
            let (edition, timescale) = (open.edition, open.timescale);
            self.asked = Some(Asked { association, edition, timescale, request });
        }
    }
}
