//! The reference's sides: its plain table and store, and lent ones.

use crate::call::{Call, Outcome, Returned, Side};
use crate::convert::{
    arguments, from_ffi, measurement, mode, plainly, read, received, replayed, verdict, weight,
    written,
};
use reference::chain;
use reference::filter;
use reference::header::{ClientCookie, Header, ServerCookie};
use reference::lent;
use reference::measure::Times;
use reference::record;
use reference::store::{Store, RECORD_OCTETS};
use reference::table::Table;

/// The reference's plain table and store, which never see what the library keeps.
#[derive(Clone, Debug)]
pub struct Plain {
    /// The table.
    pub table: Table,
    /// The store.
    pub store: Store,
    records: usize,
}

impl Plain {
    /// A cleared table, and a cleared store of 1 to 64 records.
    pub fn new(records: usize) -> Self {
        let store = Store::new(records).expect("1 to 64 records");
        Plain { table: Table::default(), store, records }
    }
}

/// The reference on a lent table and store, whatever stands in them.
#[derive(Clone, Debug)]
pub struct Lent {
    /// The table's numbers.
    pub table: Vec<u64>,
    /// The store's octets.
    pub store: Vec<u8>,
}

/// The calls without table and store.
fn single(call: &Call, out: &mut [u8]) -> Returned {
    match call {
        Call::HeaderRead { edition, mode, datagram } => {
            read(Header::read(*edition, datagram, *mode))
        }
        Call::HeaderWrite { edition, header, .. } => plainly(from_ffi(header).write(*edition, out)),
        Call::Sound { mode, datagram } => plainly(chain::sound(datagram, *mode)),
        Call::Add { id, .. } => plainly(filter::add(out, id)),
        Call::Union { other, .. } => plainly(filter::union(out, other)),
        Call::Weight { filter } => weight(filter::weight(filter)),
        &Call::Measure { times: [t1, t2, t3, t4] } => {
            measurement(Times { t1, t2, t3, t4 }.measure())
        }
        _ => unreachable!("a call on a table or a store"),
    }
}

/// The buffer to be written, as lent.
fn lent_out(call: &Call) -> Vec<u8> {
    match call {
        Call::Poll { out, .. } | Call::Publish { out, .. } | Call::Replay { out, .. } => {
            out.clone()
        }
        Call::HeaderWrite { out, .. } => out.clone(),
        Call::Add { filter: out, .. } | Call::Union { into: out, .. } => out.clone(),
        Call::Answer(args) => args.out.clone(),
        _ => Vec::new(),
    }
}

impl Side for Plain {
    fn make(&mut self, call: &Call) -> Outcome {
        let mut out = lent_out(call);
        let table = &mut self.table;
        let returned = match *call {
            Call::Clear => {
                table.clear();
                Returned::Refusal(0)
            }
            Call::Open { association, edition, timescale, chunk } => {
                plainly(table.open(association, edition, timescale, chunk))
            }
            Call::Close { association } => plainly(table.close(association)),
            Call::Poll { association, cookie, exponent, interleaved, .. } => {
                let (cookie, mode) = (ClientCookie(cookie), mode(interleaved));
                written(table.poll(association, cookie, exponent, mode, &mut out))
            }
            Call::Sent { association, t1 } => plainly(table.sent(association, t1)),
            Call::Receive { association, ref datagram, t4 } => {
                received(table.receive(association, datagram, t4))
            }
            Call::Verdict { association, ref id } => verdict(table.verdict(association, id)),
            Call::Publish { selected, ref id, .. } => {
                written(table.publish(selected, id, &mut out))
            }
            Call::Replay { ref trace, at, .. } => replayed(table.replay(trace, at, &mut out), at),
            Call::StoreClear => {
                *self = Plain { table: std::mem::take(table), ..Plain::new(self.records) };
                Returned::Refusal(0)
            }
            Call::Report { cookie, time } => plainly(self.store.report(ServerCookie(cookie), time)),
            Call::Answer(ref args) => {
                let ((occasion, server), request) = (arguments(args), &args.request);
                written(self.store.answer(args.edition, request, &occasion, &server, &mut out))
            }
            _ => single(call, &mut out),
        };
        Outcome::new(returned, out)
    }

    fn table(&self) -> Vec<u64> {
        self.table.places.each_ref().map(record::encode).concat()
    }

    fn store(&self) -> Vec<u8> {
        let mut octets = vec![0; RECORD_OCTETS * self.records];
        self.store.encode(&mut octets);
        octets
    }
}

impl Side for Lent {
    fn make(&mut self, call: &Call) -> Outcome {
        let mut out = lent_out(call);
        let (table, store) = (&mut self.table[..], &mut self.store[..]);
        let returned = match *call {
            Call::Clear => plainly(lent::clear(table)),
            Call::Open { association, edition, timescale, chunk } => {
                plainly(lent::open(table, association, edition, timescale, chunk))
            }
            Call::Close { association } => plainly(lent::close(table, association)),
            Call::Poll { association, cookie, exponent, interleaved, .. } => {
                let (cookie, mode) = (ClientCookie(cookie), mode(interleaved));
                written(lent::poll(table, association, cookie, exponent, mode, &mut out))
            }
            Call::Sent { association, t1 } => plainly(lent::sent(table, association, t1)),
            Call::Receive { association, ref datagram, t4 } => {
                received(lent::receive(table, association, datagram, t4))
            }
            Call::Verdict { association, ref id } => verdict(lent::verdict(table, association, id)),
            Call::Publish { selected, ref id, .. } => {
                written(lent::publish(table, selected, id, &mut out))
            }
            Call::Replay { ref trace, at, .. } => {
                replayed(lent::replay(table, trace, at, &mut out), at)
            }
            Call::StoreClear => plainly(lent::store_clear(store)),
            Call::Report { cookie, time } => {
                plainly(lent::report(store, ServerCookie(cookie), time))
            }
            Call::Answer(ref args) => {
                let ((occasion, server), request) = (arguments(args), &args.request);
                written(lent::answer(store, args.edition, request, &occasion, &server, &mut out))
            }
            _ => single(call, &mut out),
        };
        Outcome::new(returned, out)
    }

    fn table(&self) -> Vec<u64> {
        self.table.clone()
    }

    fn store(&self) -> Vec<u8> {
        self.store.clone()
    }
}
