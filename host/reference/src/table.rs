//! The client's table: sixteen places.

use crate::association::{Place, Verdict};
use crate::exchange::{Mode, Received};
use crate::filter::{self, Filter, ReferenceId};
use crate::header::ClientCookie;
use crate::refusal::Refusal;

/// Places of a table.
pub const PLACES: usize = 16;

/// The sixteen places, all closed at first. An association above 15 is refused with 6.
#[derive(Clone, Debug, Default, PartialEq, Eq)]
pub struct Table {
    /// The places by association number.
    pub places: [Place; PLACES],
}

impl Table {
    fn place(&mut self, association: u8) -> Result<&mut Place, Refusal> {
        self.places.get_mut(usize::from(association)).ok_or(Refusal::Argument)
    }

    /// Closes all.
    pub fn clear(&mut self) {
        *self = Table::default();
    }

    /// See [`Place::open`].
    pub fn open(
        &mut self,
        association: u8,
        edition: u8,
        timescale: u8,
        chunk: u16,
    ) -> Result<(), Refusal> {
        self.place(association)?.open(edition, timescale, chunk)
    }

    /// See [`Place::close`].
    pub fn close(&mut self, association: u8) -> Result<(), Refusal> {
        self.place(association)?.close()
    }

    /// See [`Place::poll`].
    pub fn poll(
        &mut self,
        association: u8,
        cookie: ClientCookie,
        exponent: i8,
        mode: Mode,
        out: &mut [u8],
    ) -> Result<usize, Refusal> {
        self.place(association)?.poll(cookie, exponent, mode, out)
    }

    /// See [`Place::sent`].
    pub fn sent(&mut self, association: u8, t1: u64) -> Result<(), Refusal> {
        self.place(association)?.sent(t1)
    }

    /// See [`Place::receive`].
    pub fn receive(
        &mut self,
        association: u8,
        datagram: &[u8],
        t4: u64,
    ) -> Result<Received, Refusal> {
        self.place(association)?.receive(datagram, t4)
    }

    /// See [`Place::verdict`].
    pub fn verdict(&self, association: u8, id: &[u8]) -> Result<Verdict, Refusal> {
        let place = self.places.get(usize::from(association));
        place.ok_or(Refusal::Argument)?.verdict(id)
    }

    /// Writes the union of the selected filters with the own ID added (refusals 6, 7, 11);
    /// gives the octets written.
    pub fn publish(&self, selected: u16, id: &[u8], out: &mut [u8]) -> Result<usize, Refusal> {
        let id = ReferenceId::of(id)?;
        let chosen =
            || (0..PLACES).filter(move |i| selected >> i & 1 == 1).map(|i| &self.places[i]);
        let complete = |place: &Place| place.0.as_ref().is_some_and(|open| open.taken.complete());
        if !chosen().all(complete) {
            return Err(Refusal::State);
        }
        let out = out.first_chunk_mut().ok_or(Refusal::Room)?;
        let mut published = Filter::FRESH;
        for open in chosen().filter_map(|place| place.0.as_ref()) {
            published.unite(&open.filter);
        }
        published.add(&id);
        *out = published.0;
        Ok(filter::OCTETS)
    }
}
