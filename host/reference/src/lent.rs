//! The calls on a lent table or store, as the library's interface has them: any numbers
//! may be lent as a table and any octets as a store, and those that are none are refused
//! with 6.

use crate::association::{Place, Verdict};
use crate::exchange::{Mode, Received};
use crate::header::{ClientCookie, ServerCookie};
use crate::record;
use crate::refusal::Refusal;
use crate::replay::{Answer, Replayed};
use crate::responder::{Occasion, Server};
use crate::store::{self, Store};
use crate::table::{Table, PLACES};
use crate::trace::{self, Call, Fault};

/// Numbers of a table.
pub const TABLE_NUMBERS: usize = PLACES * record::NUMBERS;

type Numbers = [u64; record::NUMBERS];

/// A lent table's records; 6 if its size is wrong.
fn records(table: &[u64]) -> Result<&[Numbers], Refusal> {
    let (records, rest) = table.as_chunks();
    if records.len() != PLACES || !rest.is_empty() {
        return Err(Refusal::Argument);
    }
    Ok(records)
}

fn record_mut(table: &mut [u64], association: u8) -> Result<&mut Numbers, Refusal> {
    records(table)?;
    let (records, _) = table.as_chunks_mut();
    records.get_mut(usize::from(association)).ok_or(Refusal::Argument)
}

/// Makes a call on one place of a lent table.
fn on_place<T>(
    table: &mut [u64],
    association: u8,
    call: impl FnOnce(&mut Place) -> Result<T, Refusal>,
) -> Result<T, Refusal> {
    let record = record_mut(table, association)?;
    let mut place = record::decode(record)?;
    let answer = call(&mut place)?;
    *record = record::encode(&place);
    Ok(answer)
}

/// See [`Table::clear`]; 6 if the size is wrong.
pub fn clear(table: &mut [u64]) -> Result<(), Refusal> {
    records(table)?;
    table.fill(0);
    Ok(())
}

/// See [`Place::open`].
pub fn open(
    table: &mut [u64],
    association: u8,
    edition: u8,
    timescale: u8,
    chunk: u16,
) -> Result<(), Refusal> {
    on_place(table, association, |place| place.open(edition, timescale, chunk))
}

/// See [`Place::close`].
pub fn close(table: &mut [u64], association: u8) -> Result<(), Refusal> {
    on_place(table, association, Place::close)
}

/// See [`Place::poll`].
pub fn poll(
    table: &mut [u64],
    association: u8,
    cookie: ClientCookie,
    exponent: i8,
    mode: Mode,
    out: &mut [u8],
) -> Result<usize, Refusal> {
    on_place(table, association, |place| place.poll(cookie, exponent, mode, out))
}

/// See [`Place::sent`].
pub fn sent(table: &mut [u64], association: u8, t1: u64) -> Result<(), Refusal> {
    on_place(table, association, |place| place.sent(t1))
}

/// See [`Place::receive`].
pub fn receive(
    table: &mut [u64],
    association: u8,
    datagram: &[u8],
    t4: u64,
) -> Result<Received, Refusal> {
    on_place(table, association, |place| place.receive(datagram, t4))
}

/// See [`Place::verdict`].
pub fn verdict(table: &[u64], association: u8, id: &[u8]) -> Result<Verdict, Refusal> {
    let record = records(table)?.get(usize::from(association));
    record::decode(record.ok_or(Refusal::Argument)?)?.verdict(id)
}

/// See [`Table::publish`]; only the selected records are looked at.
pub fn publish(table: &[u64], selected: u16, id: &[u8], out: &mut [u8]) -> Result<usize, Refusal> {
    let mut plain = Table::default();
    for (i, record) in records(table)?.iter().enumerate() {
        if selected >> i & 1 == 1 {
            plain.places[i] = record::decode(record)?;
        }
    }
    plain.publish(selected, id, out)
}

/// See [`Table::replay`].
pub fn replay(
    table: &mut [u64],
    trace: &[u8],
    at: usize,
    out: &mut [u8],
) -> Result<Option<Replayed>, Fault> {
    let Some(record) = trace::read_at(trace, at)? else {
        return Ok(None);
    };
    let association = record.head.association;
    let done = |()| Answer::Done;
    let answer = match record.call {
        Call::Open { edition, timescale, chunk } => {
            open(table, association, edition, timescale, chunk).map(done)
        }
        Call::Poll { cookie, exponent, mode } => {
            poll(table, association, cookie, exponent, mode, out).map(Answer::Written)
        }
        Call::Sent { t1 } => sent(table, association, t1).map(done),
        Call::Receive { datagram, t4 } => {
            receive(table, association, datagram, t4).map(Answer::Received)
        }
        Call::Close => close(table, association).map(done),
    };
    Ok(Some(Replayed::new(&record, answer)))
}

/// Makes all records unused; 6 if the size is wrong.
pub fn store_clear(store: &mut [u8]) -> Result<(), Refusal> {
    store::records(store)?;
    store.fill(0);
    Ok(())
}

/// See [`Store::report`].
pub fn report(store: &mut [u8], cookie: ServerCookie, time: u64) -> Result<(), Refusal> {
    let mut row = Store::decode(store)?;
    row.report(cookie, time)?;
    row.encode(store);
    Ok(())
}

/// See [`Store::answer`].
pub fn answer(
    store: &mut [u8],
    edition: u8,
    request: &[u8],
    occasion: &Occasion,
    server: &Server,
    out: &mut [u8],
) -> Result<usize, Refusal> {
    let mut row = Store::decode(store)?;
    let length = row.answer(edition, request, occasion, server, out)?;
    row.encode(store);
    Ok(length)
}
