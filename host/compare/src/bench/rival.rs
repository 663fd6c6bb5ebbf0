//! The reference's calls, each as a function of its own whose instructions can be
//! counted, as those of the library's exported functions are.

/// On the plain table and store.
pub mod plain {
    use reference::association::Verdict;
    use reference::exchange::{Mode, Received};
    use reference::header::{ClientCookie, Header, ServerCookie};
    use reference::measure::{Measured, Times};
    use reference::refusal::Refusal;
    use reference::replay::Replayed;
    use reference::responder::{Occasion, Server};
    use reference::store::Store;
    use reference::table::Table;
    use reference::trace::Fault;
    use reference::{chain, filter};

    /// See [`Table::clear`].
    #[inline(never)]
    pub fn clear(table: &mut Table) -> Result<(), Refusal> {
        table.clear();
        Ok(())
    }

    /// See [`Table::open`].
    #[inline(never)]
    pub fn open(table: &mut Table, edition: u8, timescale: u8, chunk: u16) -> Result<(), Refusal> {
        table.open(0, edition, timescale, chunk)
    }

    /// See [`Table::close`].
    #[inline(never)]
    pub fn close(table: &mut Table) -> Result<(), Refusal> {
        table.close(0)
    }

    /// See [`Table::poll`].
    #[inline(never)]
    pub fn poll(table: &mut Table, cookie: u64, out: &mut [u8]) -> Result<usize, Refusal> {
        table.poll(0, ClientCookie(cookie), 6, Mode::Basic, out)
    }

    /// See [`Table::sent`].
    #[inline(never)]
    pub fn sent(table: &mut Table, t1: u64) -> Result<(), Refusal> {
        table.sent(0, t1)
    }

    /// See [`Table::receive`].
    #[inline(never)]
    pub fn receive(table: &mut Table, datagram: &[u8], t4: u64) -> Result<Received, Refusal> {
        table.receive(0, datagram, t4)
    }

    /// See [`Table::verdict`].
    #[inline(never)]
    pub fn verdict(table: &Table, id: &[u8]) -> Result<Verdict, Refusal> {
        table.verdict(0, id)
    }

    /// See [`Table::publish`].
    #[inline(never)]
    pub fn publish(
        table: &Table,
        selected: u16,
        id: &[u8],
        out: &mut [u8],
    ) -> Result<usize, Refusal> {
        table.publish(selected, id, out)
    }

    /// See [`Table::replay`].
    #[inline(never)]
    pub fn replay(
        table: &mut Table,
        trace: &[u8],
        out: &mut [u8],
    ) -> Result<Option<Replayed>, Fault> {
        table.replay(trace, 0, out)
    }

    /// See [`Store::new`].
    #[inline(never)]
    pub fn store_clear(store: &mut Store, records: usize) -> Result<(), Refusal> {
        *store = Store::new(records)?;
        Ok(())
    }

    /// See [`Store::report`].
    #[inline(never)]
    pub fn report(store: &mut Store, cookie: u64, time: u64) -> Result<(), Refusal> {
        store.report(ServerCookie(cookie), time)
    }

    /// See [`Store::answer`].
    #[inline(never)]
    pub fn answer(
        store: &mut Store,
        edition: u8,
        request: &[u8],
        occasion: &Occasion,
        server: &Server,
        out: &mut [u8],
    ) -> Result<usize, Refusal> {
        store.answer(edition, request, occasion, server, out)
    }

    /// See [`Header::read`].
    #[inline(never)]
    pub fn header_read(edition: u8, datagram: &[u8], mode: u8) -> Result<Header, Refusal> {
        Header::read(edition, datagram, mode)
    }

    /// See [`Header::write`].
    #[inline(never)]
    pub fn header_write(edition: u8, header: &Header, out: &mut [u8]) -> Result<(), Refusal> {
        header.write(edition, out)
    }

    /// See [`filter::weight`].
    #[inline(never)]
    pub fn weight(octets: &[u8]) -> Result<u16, Refusal> {
        filter::weight(octets)
    }

    /// The weight counted octet by octet, to measure what counting by words saves.
    #[inline(never)]
    pub fn weight_by_octets(octets: &[u8]) -> Result<u16, Refusal> {
        Ok(filter::of(octets)?.iter().map(|octet| octet.count_ones() as u16).sum())
    }

    /// See [`chain::sound`].
    #[inline(never)]
    pub fn sound(datagram: &[u8], mode: u8) -> Result<(), Refusal> {
        chain::sound(datagram, mode)
    }

    /// See [`filter::add`].
    #[inline(never)]
    pub fn add(octets: &mut [u8], id: &[u8]) -> Result<(), Refusal> {
        filter::add(octets, id)
    }

    /// See [`filter::union`].
    #[inline(never)]
    pub fn union(into: &mut [u8], other: &[u8]) -> Result<(), Refusal> {
        filter::union(into, other)
    }

    /// See [`Times::measure`].
    #[inline(never)]
    pub fn measure(t1: u64, t2: u64, t3: u64, t4: u64) -> Option<Measured> {
        Times { t1, t2, t3, t4 }.measure()
    }
}

/// On a lent table and store.
pub mod lent {
    use reference::association::Verdict;
    use reference::exchange::{Mode, Received};
    use reference::header::{ClientCookie, ServerCookie};
    use reference::lent;
    use reference::refusal::Refusal;
    use reference::replay::Replayed;
    use reference::responder::{Occasion, Server};
    use reference::trace::Fault;

    /// See [`lent::clear`].
    #[inline(never)]
    pub fn clear(table: &mut [u64]) -> Result<(), Refusal> {
        lent::clear(table)
    }

    /// See [`lent::open`].
    #[inline(never)]
    pub fn open(table: &mut [u64], edition: u8, timescale: u8, chunk: u16) -> Result<(), Refusal> {
        lent::open(table, 0, edition, timescale, chunk)
    }

    /// See [`lent::close`].
    #[inline(never)]
    pub fn close(table: &mut [u64]) -> Result<(), Refusal> {
        lent::close(table, 0)
    }

    /// See [`lent::poll`].
    #[inline(never)]
    pub fn poll(table: &mut [u64], cookie: u64, out: &mut [u8]) -> Result<usize, Refusal> {
        lent::poll(table, 0, ClientCookie(cookie), 6, Mode::Basic, out)
    }

    /// See [`lent::sent`].
    #[inline(never)]
    pub fn sent(table: &mut [u64], t1: u64) -> Result<(), Refusal> {
        lent::sent(table, 0, t1)
    }

    /// See [`lent::receive`].
    #[inline(never)]
    pub fn receive(table: &mut [u64], datagram: &[u8], t4: u64) -> Result<Received, Refusal> {
        lent::receive(table, 0, datagram, t4)
    }

    /// See [`lent::verdict`].
    #[inline(never)]
    pub fn verdict(table: &[u64], id: &[u8]) -> Result<Verdict, Refusal> {
        lent::verdict(table, 0, id)
    }

    /// See [`lent::publish`].
    #[inline(never)]
    pub fn publish(
        table: &[u64],
        selected: u16,
        id: &[u8],
        out: &mut [u8],
    ) -> Result<usize, Refusal> {
        lent::publish(table, selected, id, out)
    }

    /// See [`lent::replay`].
    #[inline(never)]
    pub fn replay(
        table: &mut [u64],
        trace: &[u8],
        out: &mut [u8],
    ) -> Result<Option<Replayed>, Fault> {
        lent::replay(table, trace, 0, out)
    }

    /// See [`lent::store_clear`].
    #[inline(never)]
    pub fn store_clear(store: &mut [u8]) -> Result<(), Refusal> {
        lent::store_clear(store)
    }

    /// See [`lent::report`].
    #[inline(never)]
    pub fn report(store: &mut [u8], cookie: u64, time: u64) -> Result<(), Refusal> {
        lent::report(store, ServerCookie(cookie), time)
    }

    /// See [`lent::answer`].
    #[inline(never)]
    pub fn answer(
        store: &mut [u8],
        edition: u8,
        request: &[u8],
        occasion: &Occasion,
        server: &Server,
        out: &mut [u8],
    ) -> Result<usize, Refusal> {
        lent::answer(store, edition, request, occasion, server, out)
    }
}
