//! The library's side: the C interface, every buffer between canaries.

use crate::call::{Answering, Call, Outcome, Returned, Side};
use ntp5::ffi::calls;
use ntp5::{Occasion, Server, ServerCookie};
use reference::record::NUMBERS;

/// Octets, or numbers, before and after each lent part.
const GUARD: usize = 32;

/// Octets or numbers lent as a part of a larger buffer. Nothing but the part may change.
#[derive(Clone, Debug)]
struct Guarded<T> {
    whole: Vec<T>,
    from: usize,
    to: usize,
}

impl<T: Canary> Guarded<T> {
    /// `contents` between canaries; `shift` moves octets off their alignment, numbers by whole numbers.
    fn new(contents: &[T], shift: usize) -> Self {
        let (from, to) = (GUARD + shift, GUARD + shift + contents.len());
        let mut whole: Vec<T> = (0..to + GUARD).map(T::canary).collect();
        whole[from..to].copy_from_slice(contents);
        Guarded { whole, from, to }
    }

    fn part(&self) -> &[T] {
        &self.whole[self.from..self.to]
    }

    fn part_mut(&mut self) -> &mut [T] {
        &mut self.whole[self.from..self.to]
    }

    /// The first octet or number outside the part that changed.
    fn stray(&self) -> Option<String> {
        let changed = |&(i, &found): &(usize, &T)| found != T::canary(i);
        let before = self.whole.iter().enumerate().take(self.from);
        let after = self.whole.iter().enumerate().skip(self.to);
        let (i, _) = before.chain(after).find(changed)?;
        let (from, to) = (self.from, self.to);
        Some(format!("place {i} was written, the lent part is {from}..{to}"))
    }

    /// As [`Self::stray`], of a part that was lent to be read only.
    fn stray_read_only(&self, contents: &[T]) -> Option<String> {
        let written = || Some("a buffer lent to be read was written".into());
        self.stray().or_else(|| if self.part() == contents { None } else { written() })
    }
}

/// What a lent part is made of.
trait Canary: Copy + PartialEq {
    /// What stands at a place outside the part.
    fn canary(place: usize) -> Self;
}

impl Canary for u8 {
    fn canary(place: usize) -> u8 {
        (place * 167 + 13) as u8
    }
}

impl Canary for u64 {
    fn canary(place: usize) -> u64 {
        u64::from_ne_bytes(std::array::from_fn(|i| u8::canary(8 * place + i)))
    }
}

/// A table and a store of the library.
pub struct Library {
    table: Guarded<u64>,
    store: Guarded<u8>,
    shift: usize,
}

impl Library {
    /// Lends these numbers and octets as table and store.
    pub fn new(table: &[u64], store: &[u8], shift: usize) -> Self {
        Library {
            table: Guarded::new(table, shift % 8),
            store: Guarded::new(store, shift / 8 % 8),
            shift,
        }
    }

    /// The first number of an association's record; none if the table has no such record.
    pub fn state(&self, association: usize) -> Option<u64> {
        self.table.part().get(NUMBERS * association).copied()
    }

    /// Lends `read` to be read and `written` to be written.
    fn lend(
        &mut self,
        read: &[u8],
        written: &[u8],
        call: impl FnOnce(&mut Self, &[u8], &mut [u8]) -> Returned,
    ) -> Outcome {
        self.shift = self.shift.wrapping_add(1);
        let input = Guarded::new(read, self.shift % 8);
        let mut output = Guarded::new(written, self.shift / 8 % 8);
        let returned = call(self, input.part(), output.part_mut());
        let stray = input.stray_read_only(read).or_else(|| output.stray());
        Outcome { returned, out: output.part().to_vec(), stray }
    }

    fn answer(&mut self, args: &Answering) -> Outcome {
        let filter = Guarded::new(&args.filter, self.shift % 5);
        let information = Guarded::new(&args.information, self.shift % 3);
        let occasion = Occasion {
            receive: args.header.receive,
            estimate: args.header.transmit,
            fresh: ServerCookie(args.header.server_cookie),
        };
        let server = Server {
            leap: args.header.leap,
            stratum: args.header.stratum,
            poll: args.header.poll,
            precision: args.header.precision,
            timescale: args.header.timescale,
            era: args.header.era,
            timescale_offset: args.header.timescale_offset,
            flags: args.header.flags,
            root_delay: args.header.root_delay,
            root_dispersion: args.header.root_dispersion,
            filter: filter.part(),
            information: information.part(),
        };
        let mut outcome = self.lend(&args.request, &args.out, |side, request, out| {
            let store = side.store.part_mut();
            let edition = args.edition;
            Returned::Written(calls::answer(store, edition, request, &occasion, &server, out))
        });
        let stray = filter.stray_read_only(&args.filter);
        let stray = stray.or_else(|| information.stray_read_only(&args.information));
        outcome.stray = outcome.stray.or(stray);
        outcome
    }

    /// The calls on a table.
    fn client(&mut self, call: &Call) -> Outcome {
        let refusal = |returned| Outcome::new(Returned::Refusal(returned), Vec::new());
        let table = self.table.part_mut();
        match call {
            Call::Clear => refusal(calls::clear(table)),
            &Call::Open { association, edition, timescale, chunk } => {
                refusal(calls::open(table, association, edition, timescale, chunk))
            }
            &Call::Close { association } => refusal(calls::close(table, association)),
            &Call::Sent { association, t1 } => refusal(calls::sent(table, association, t1)),
            &Call::Poll { association, cookie, exponent, interleaved, ref out } => {
                self.lend(&[], out, |side, _, out| {
                    let table = side.table.part_mut();
                    Returned::Written(calls::poll(
                        table,
                        association,
                        cookie,
                        exponent,
                        interleaved,
                        out,
                    ))
                })
            }
            &Call::Receive { association, ref datagram, t4 } => {
                self.lend(datagram, &[], |side, datagram, _| {
                    let table = side.table.part_mut();
                    Returned::Received(calls::receive(table, association, datagram, t4))
                })
            }
            Call::Verdict { association, id } => self.lend(id, &[], |side, id, _| {
                Returned::Verdict(calls::loop_verdict(side.table.part(), *association, id))
            }),
            Call::Publish { selected, id, out } => self.lend(id, out, |side, id, out| {
                Returned::Written(calls::publish(side.table.part(), *selected, id, out))
            }),
            _ => unreachable!("no call on a table"),
        }
    }

    /// The calls without table and store.
    fn single(&mut self, call: &Call) -> Outcome {
        match call {
            &Call::HeaderRead { edition, mode, ref datagram } => {
                self.lend(datagram, &[], |_, datagram, _| {
                    Returned::Read(calls::header_read(edition, datagram, mode))
                })
            }
            Call::HeaderWrite { edition, header, out } => self.lend(&[], out, |_, _, out| {
                Returned::Refusal(calls::header_write(*edition, *header, out))
            }),
            Call::Sound { mode, datagram } => self.lend(datagram, &[], |_, datagram, _| {
                Returned::Refusal(calls::sound(datagram, *mode))
            }),
            Call::Add { filter, id } => self
                .lend(id, filter, |_, id, filter| Returned::Refusal(calls::filter_add(filter, id))),
            Call::Union { into, other } => self.lend(other, into, |_, other, into| {
                Returned::Refusal(calls::filter_union(into, other))
            }),
            Call::Weight { filter } => self
                .lend(filter, &[], |_, filter, _| Returned::Weight(calls::filter_weight(filter))),
            &Call::Measure { times: [t1, t2, t3, t4] } => {
                let returned = Returned::Measurement(calls::measure(t1, t2, t3, t4));
                Outcome::new(returned, Vec::new())
            }
            _ => unreachable!("a call on a table or a store"),
        }
    }
}

impl Side for Library {
    fn make(&mut self, call: &Call) -> Outcome {
        let refusal = |returned| Outcome::new(Returned::Refusal(returned), Vec::new());
        let mut outcome = match call {
            Call::StoreClear => refusal(calls::store_clear(self.store.part_mut())),
            &Call::Report { cookie, time } => {
                refusal(calls::report(self.store.part_mut(), cookie, time))
            }
            Call::Answer(args) => self.answer(args),
            Call::Replay { trace, at, out } => self.lend(trace, out, |side, trace, out| {
                Returned::Replayed(calls::replay(side.table.part_mut(), trace, *at, out))
            }),
            _ if call.on_table() => self.client(call),
            _ => self.single(call),
        };
        outcome.stray = outcome.stray.or_else(|| self.table.stray()).or_else(|| self.store.stray());
        outcome
    }

    fn table(&self) -> Vec<u64> {
        self.table.part().to_vec()
    }

    fn store(&self) -> Vec<u8> {
        self.store.part().to_vec()
    }
}

#[cfg(test)]
mod tests {
    use super::*;

    fn stray_writes_of<T: Canary>(contents: [T; 3], other: T) {
        let lent = Guarded::new(&contents, 5);
        assert_eq!(lent.stray(), None);
        for place in [0, GUARD + 4, GUARD + 8, GUARD + 7 + GUARD] {
            let mut lent = lent.clone();
            lent.whole[place] = other;
            assert!(lent.stray().is_some(), "place {place}");
        }
        let mut written = lent.clone();
        written.part_mut()[1] = other;
        assert_eq!(written.stray(), None);
        assert!(written.stray_read_only(&contents).is_some());
    }

    #[test]
    fn stray_writes_are_found() {
        stray_writes_of([1_u8, 2, 3], 9);
        stray_writes_of([1_u64, 2, 3], 0);
    }
}
