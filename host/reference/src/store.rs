//! The responder's saved timestamps.

use crate::header::ServerCookie;
use crate::refusal::Refusal;

/// Octets of a record in a lent store.
pub const RECORD_OCTETS: usize = 16;
/// The most records of a store.
pub const RECORDS_MAX: usize = 64;

/// A server cookie that was sent and the transmit time of its response.
#[derive(Clone, Copy, Debug, PartialEq, Eq)]
pub struct Record {
    /// The cookie, not 0.
    pub cookie: ServerCookie,
    /// The transmit time, 0 until reported.
    pub time: u64,
}

/// The used records, oldest first, no cookie twice, and how many there may be.
#[derive(Clone, Debug, PartialEq, Eq)]
pub struct Store {
    row: Vec<Record>,
    room: usize,
}

impl Store {
    /// A cleared store of `room` records, 1 to 64 (refusal 6).
    pub fn new(room: usize) -> Result<Self, Refusal> {
        if !(1..=RECORDS_MAX).contains(&room) {
            return Err(Refusal::Argument);
        }
        Ok(Store { row: Vec::with_capacity(room), room })
    }

    /// The used records, oldest first.
    pub fn row(&self) -> &[Record] {
        &self.row
    }

    /// Reads lent octets; 6 if their size is no store's, for a gap, a used cookie 0
    /// or one held twice.
    pub fn decode(octets: &[u8]) -> Result<Self, Refusal> {
        let mut store = Store::new(records(octets)?)?;
        let mut gap = false;
        for record in octets.chunks_exact(RECORD_OCTETS).map(record) {
            if (record.cookie.0, record.time) == (0, 0) {
                gap = true;
            } else if gap || record.cookie.0 == 0 || store.place(record.cookie).is_some() {
                return Err(Refusal::Argument);
            } else {
                store.row.push(record);
            }
        }
        Ok(store)
    }

    /// Writes the row into octets of the store's size.
    pub fn encode(&self, octets: &mut [u8]) {
        let (used, unused) = octets.split_at_mut(RECORD_OCTETS * self.row.len());
        for (octets, record) in used.chunks_exact_mut(RECORD_OCTETS).zip(&self.row) {
            octets[..8].copy_from_slice(&record.cookie.0.to_be_bytes());
            octets[8..].copy_from_slice(&record.time.to_be_bytes());
        }
        unused.fill(0);
    }

    /// Where a cookie stands in the row.
    fn place(&self, cookie: ServerCookie) -> Option<usize> {
        self.row.iter().position(|record| record.cookie == cookie)
    }

    /// Whether a cookie is in the row.
    pub fn holds(&self, cookie: ServerCookie) -> bool {
        self.place(cookie).is_some()
    }

    /// Gives a stored cookie its time, once (refusals 6, 12).
    pub fn report(&mut self, cookie: ServerCookie, time: u64) -> Result<(), Refusal> {
        if time == 0 {
            return Err(Refusal::Argument);
        }
        let waiting = |record: &&mut Record| record.cookie == cookie && record.time == 0;
        let record = self.row.iter_mut().find(waiting).ok_or(Refusal::NotStored)?;
        record.time = time;
        Ok(())
    }

    /// The reported time of a cookie, whose record leaves the row.
    pub fn draw(&mut self, cookie: ServerCookie) -> Option<u64> {
        let place = self.place(cookie)?;
        let reported = self.row[place].time != 0;
        reported.then(|| self.row.remove(place).time)
    }

    /// Puts a fresh cookie at the end; the oldest leaves first if the row is full.
    pub fn join(&mut self, cookie: ServerCookie) {
        if self.row.len() == self.room {
            self.row.remove(0);
        }
        self.row.push(Record { cookie, time: 0 });
    }
}

/// The number of records in lent octets (refusal 6).
pub fn records(octets: &[u8]) -> Result<usize, Refusal> {
    let records = octets.len() / RECORD_OCTETS;
    if !octets.len().is_multiple_of(RECORD_OCTETS) || !(1..=RECORDS_MAX).contains(&records) {
        return Err(Refusal::Argument);
    }
    Ok(records)
}

fn record(octets: &[u8]) -> Record {
    let (cookie, time) = octets.split_at(8);
    let number = |octets: &[u8]| octets.try_into().map_or(0, u64::from_be_bytes);
    Record { cookie: ServerCookie(number(cookie)), time: number(time) }
}
