//! One association, and one place of the table that holds it while it is open.

use crate::edition::Edition;
use crate::exchange::{judge, poll_octets, write_poll};
use crate::exchange::{Chunk, Judgement, Mode, Received, Request, Response, Saved};
use crate::filter::{Filter, ReferenceId, OCTETS};
use crate::header::ClientCookie;
use crate::measure::{Measured, Times};
use crate::refusal::Refusal;

/// The chunk sizes that are offered.
pub const CHUNK_SIZES: [u16; 6] = [16, 32, 64, 128, 256, 512];
/// The most missed polls that are counted (W211-2).
pub const MISSED_MAX: u8 = 8;
/// From this many missed polls on, a poll sends server cookie 0 (W211-5).
pub const MISSED_NO_COOKIE: u8 = 4;

/// Which of the 512 filter octets were taken since opening, one bit each.
#[derive(Clone, Copy, Debug, PartialEq, Eq)]
pub struct Taken([u64; OCTETS / 64]);

impl Taken {
    /// None was taken.
    pub const NONE: Taken = Taken([0; OCTETS / 64]);

    /// The first `count` octets were taken, at most 512.
    pub fn first(count: usize) -> Self {
        let mut taken = Taken::NONE;
        taken.0[..count / 64].fill(u64::MAX);
        if let Some(flags) = taken.0.get_mut(count / 64) {
            *flags = (1 << (count % 64)) - 1;
        }
        taken
    }

    /// Marks `n` octets from `from` on; both below 513.
    pub fn mark(&mut self, from: usize, n: usize) {
        if n >= 64 {
            // Chunks of 64 octets and more stand at multiples of their size.
            self.0[from / 64..(from + n) / 64].fill(u64::MAX);
        } else {
            self.0[from / 64] |= ((1 << n) - 1) << (from % 64);
        }
    }

    /// Whether every octet was taken.
    pub fn complete(&self) -> bool {
        self.0.iter().all(|&flags| flags == u64::MAX)
    }

    /// How many were taken.
    pub fn count(&self) -> u32 {
        self.0.iter().map(|flags| flags.count_ones()).sum()
    }
}

/// What a loop verdict says.
#[derive(Clone, Copy, Debug, PartialEq, Eq)]
#[repr(u8)]
pub enum Verdict {
    /// The filter is not complete.
    Incomplete = 1,
    /// All ten positions of the ID are set.
    Loop = 2,
    /// One of them is not.
    Clear = 3,
}

/// An open association.
#[derive(Clone, Debug, PartialEq, Eq)]
pub struct Association {
    /// The edition in which it sends its requests and reads its responses.
    pub edition: Edition,
    /// The timescale that its responses must have.
    pub timescale: u8,
    /// The chunk size c, one of [`CHUNK_SIZES`].
    pub chunk: u16,
    /// The offset that the next request asks, a multiple of c below 512.
    pub next_offset: u16,
    /// The server's filter as far as it was taken.
    pub filter: Filter,
    /// Which of the filter's octets were taken.
    pub taken: Taken,
    /// The last request's cookie.
    pub last_cookie: Option<ClientCookie>,
    /// The outstanding request; its client cookie is the last one.
    pub outstanding: Option<Request>,
    /// What the last accepted response left.
    pub saved: Option<Saved>,
    /// Missed polls: how many of the latest polls were replaced unanswered, at most
    /// [`MISSED_MAX`].
    pub missed: u8,
}

impl Association {
    /// A newly opened association; 6 if there is no such edition, it has no such timescale, or
    /// the chunk size is not offered (W204-7).
    pub fn new(edition: u8, timescale: u8, chunk: u16) -> Result<Self, Refusal> {
        let edition = Edition::of(edition)?;
        if timescale > edition.timescale_max() || !CHUNK_SIZES.contains(&chunk) {
            return Err(Refusal::Argument);
        }
        Ok(Association {
            edition,
            timescale,
            chunk,
            next_offset: 0,
            filter: Filter::FRESH,
            taken: Taken::NONE,
            last_cookie: None,
            outstanding: None,
            saved: None,
            missed: 0,
        })
    }

    /// Writes a request, which becomes the outstanding one (refusals 8, 11); gives its length.
    /// Its server cookie is the saved one if interleaved is wanted and fewer polls than
    /// [`MISSED_NO_COOKIE`] were missed, else 0.
    // As a function of its own it would have a lent place copied once more.
    #[inline]
    pub fn poll(
        &mut self,
        cookie: ClientCookie,
        exponent: i8,
        mode: Mode,
        out: &mut [u8],
    ) -> Result<usize, Refusal> {
        if cookie == ClientCookie(0) || self.last_cookie == Some(cookie) {
            return Err(Refusal::Cookie);
        }
        let length = poll_octets(self.edition, self.chunk);
        let out = out.get_mut(..length).ok_or(Refusal::Room)?;
        // The request that is replaced is counted before the server cookie is chosen (W211-4).
        let missed = (self.missed + u8::from(self.outstanding.is_some())).min(MISSED_MAX);
        let known = self.saved.filter(|_| mode == Mode::Interleaved && missed < MISSED_NO_COOKIE);
        let request = Request {
            client_cookie: cookie,
            server_cookie: known.map_or_else(Default::default, |saved| saved.server_cookie),
            offset: self.next_offset,
            t1: 0,
        };
        write_poll(out, self.edition, &request, mode, exponent, self.timescale, self.chunk);
        self.last_cookie = Some(cookie);
        self.outstanding = Some(request);
        self.missed = missed;
        Ok(length)
    }

    /// Reports the outstanding request's T1, not 0 (refusal 7).
    pub fn sent(&mut self, t1: u64) -> Result<(), Refusal> {
        let waiting = self.outstanding.as_mut().filter(|request| request.t1 == 0);
        waiting.ok_or(Refusal::State)?.t1 = t1;
        Ok(())
    }

    /// Takes a datagram that came at T4, not 0 (refusals 1 to 5, 13, 9, 10).
    pub fn receive(&mut self, datagram: &[u8], t4: u64) -> Result<Received, Refusal> {
        let Response { header, chunk } = Response::read(self.edition, datagram)?;
        let interleaved = header.interleaved(self.edition);
        let repeats = |request: &Request| request.client_cookie == header.client_cookie;
        let request = self.outstanding.filter(repeats).ok_or(Refusal::NotOutstanding)?;
        if interleaved && request.server_cookie.0 == 0 {
            return Err(Refusal::NotInterleaved);
        }
        let basic = Times { t1: request.t1, t2: header.receive, t3: header.transmit, t4 };
        // A request with a server cookie was made from a saved response.
        let previous = self.saved.as_ref().filter(|_| interleaved);
        let times = previous.map_or(basic, |saved| Times { t3: header.transmit, ..saved.times });
        let (judgement, Measured { offset, delay }) =
            match judge(&header, self.timescale, previous, &times) {
                Ok(measured) => (Judgement::Usable, measured),
                Err(why) => (why, Measured { offset: 0, delay: 0 }),
            };
        self.outstanding = None;
        self.missed = 0;
        self.saved = Some(Saved {
            timescale: header.timescale,
            times: basic,
            server_cookie: header.server_cookie,
        });
        Ok(Received { judgement, chunk: self.take(request.offset.into(), chunk), offset, delay })
    }

    /// Puts a response's chunk at the offset that its request asked.
    fn take(&mut self, offset: usize, chunk: Option<&[u8]>) -> Chunk {
        let c = usize::from(self.chunk);
        let Some(octets) = chunk else {
            return Chunk::Absent;
        };
        if octets.len() != c {
            return Chunk::AnotherSize;
        }
        self.filter.0[offset..offset + c].copy_from_slice(octets);
        self.taken.mark(offset, c);
        self.next_offset = (self.next_offset + self.chunk) % OCTETS as u16;
        Chunk::Taken
    }

    /// Whether the server's filter shows the ID.
    pub fn verdict(&self, id: &ReferenceId) -> Verdict {
        if !self.taken.complete() {
            Verdict::Incomplete
        } else if self.filter.contains(id) {
            Verdict::Loop
        } else {
            Verdict::Clear
        }
    }
}

/// One of the table's sixteen places: closed, or an open association.
/// Each call tests its own arguments (6) before the state (7).
#[derive(Clone, Debug, Default, PartialEq, Eq)]
pub struct Place(pub Option<Association>);

impl Place {
    fn opened(&mut self) -> Result<&mut Association, Refusal> {
        self.0.as_mut().ok_or(Refusal::State)
    }

    /// Opens the place (refusals 6, 7).
    pub fn open(&mut self, edition: u8, timescale: u8, chunk: u16) -> Result<(), Refusal> {
        let opened = Association::new(edition, timescale, chunk)?;
        if self.0.is_some() {
            return Err(Refusal::State);
        }
        self.0 = Some(opened);
        Ok(())
    }

    /// Closes the place (refusal 7).
    pub fn close(&mut self) -> Result<(), Refusal> {
        self.opened()?;
        self.0 = None;
        Ok(())
    }

    /// See [`Association::poll`]; 7 if closed.
    pub fn poll(
        &mut self,
        cookie: ClientCookie,
        exponent: i8,
        mode: Mode,
        out: &mut [u8],
    ) -> Result<usize, Refusal> {
        self.opened()?.poll(cookie, exponent, mode, out)
    }

    /// See [`Association::sent`]; 6 if T1 is 0, 7 if closed.
    pub fn sent(&mut self, t1: u64) -> Result<(), Refusal> {
        if t1 == 0 {
            return Err(Refusal::Argument);
        }
        self.opened()?.sent(t1)
    }

    /// See [`Association::receive`]; 6 if T4 is 0, 7 if closed.
    pub fn receive(&mut self, datagram: &[u8], t4: u64) -> Result<Received, Refusal> {
        if t4 == 0 {
            return Err(Refusal::Argument);
        }
        self.opened()?.receive(datagram, t4)
    }

    /// See [`Association::verdict`]; 6 if the ID has not fifteen octets, 7 if closed.
    pub fn verdict(&self, id: &[u8]) -> Result<Verdict, Refusal> {
        let id = ReferenceId::of(id)?;
        Ok(self.0.as_ref().ok_or(Refusal::State)?.verdict(&id))
    }
}
