//! The server's answer to a request.

use crate::chain::{self, Field, Fields};
use crate::edition::Edition;
use crate::filter;
use crate::header::{self, Header, ServerCookie, REQUEST, RESPONSE};
use crate::refusal::Refusal;
use crate::store::Store;

/// What the server says of itself in every answer.
#[derive(Clone, Copy, Debug)]
pub struct Server<'a> {
    /// Leap indicator, 0 to 3.
    pub leap: u8,
    /// Stratum.
    pub stratum: u8,
    /// Poll exponent.
    pub poll: i8,
    /// Precision exponent.
    pub precision: i8,
    /// Timescale.
    pub timescale: u8,
    /// Era.
    pub era: u8,
    /// Timescale offset, which only edition 1 sends.
    pub timescale_offset: i16,
    /// Flags; the interleaved one is taken out.
    pub flags: u16,
    /// Root delay.
    pub root_delay: u32,
    /// Root dispersion.
    pub root_dispersion: u32,
    /// The filter that it publishes, 512 octets.
    pub filter: &'a [u8],
    /// Server information, 4 octets.
    pub information: &'a [u8],
}

/// What the caller gives for one answer.
#[derive(Clone, Copy, Debug)]
pub struct Occasion {
    /// When the request came, not 0.
    pub receive: u64,
    /// When the answer will be sent, not 0.
    pub estimate: u64,
    /// A cookie that was never used.
    pub fresh: ServerCookie,
}

impl Server<'_> {
    /// 6 if one of the values is out of range, some by the edition (W204-15).
    fn check(&self, edition: Edition) -> Result<(), Refusal> {
        filter::of(self.filter)?;
        let room = edition.has_room(self.timescale, self.stratum, self.flags);
        if self.leap > 3 || self.information.len() != 4 || !room {
            return Err(Refusal::Argument);
        }
        Ok(())
    }

    /// The header of an answer without cookies and transmit timestamp.
    fn header(&self, edition: Edition, receive: u64) -> Header {
        Header {
            leap: self.leap,
            mode: RESPONSE,
            stratum: self.stratum,
            poll: self.poll,
            precision: self.precision,
            timescale: self.timescale,
            era: self.era,
            timescale_offset: self.timescale_offset,
            flags: self.flags & !edition.interleaved(),
            root_delay: self.root_delay,
            root_dispersion: self.root_dispersion,
            receive,
            ..Header::default()
        }
    }

    /// The type and data that answer a field, if it is good.
    fn reply<'b>(&'b self, field: &Field) -> Option<(u16, &'b [u8])> {
        match field.kind {
            chain::FILTER_REQUEST => {
                let n = field.data.len();
                let offset = usize::from(u16::from_be_bytes(*field.data.first_chunk()?));
                let part = self.filter.get(offset..offset + n)?;
                (n >= 4 && n.is_multiple_of(4)).then_some((chain::FILTER_RESPONSE, part))
            }
            chain::SERVER_INFORMATION => {
                (field.data.len() == 4).then_some((field.kind, self.information))
            }
            chain::DRAFT_NAME => {
                let k = field.data.len().min(chain::NAME.len());
                Some((field.kind, &chain::NAME[..k]))
            }
            _ => None,
        }
    }

    /// Writes the answers to the request's fields, none in edition 1 (W204-14), and padding over
    /// what is left of `out`.
    fn write_fields(&self, edition: Edition, request: &[u8], mut out: &mut [u8]) {
        let mut met = [false; 3];
        let known = if edition.knows_fields() { request } else { &[] };
        for field in Fields::of(known).map_while(Result::ok) {
            let first = match field.kind {
                chain::FILTER_REQUEST => &mut met[0],
                chain::SERVER_INFORMATION => &mut met[1],
                chain::DRAFT_NAME => &mut met[2],
                _ => continue,
            };
            if std::mem::replace(first, true) {
                continue;
            }
            if let Some((kind, data)) = self.reply(&field) {
                out = chain::put(out, kind, data);
            }
        }
        if !out.is_empty() {
            let n = out.len() - chain::FIELD_HEAD;
            chain::begin(out, chain::PADDING, n).0.fill(0);
        }
    }
}

impl Store {
    /// Writes the answer to a request in the edition with this number (refusals 6, 1 to 5, 13,
    /// 8, 11); gives its length, which is the request's.
    pub fn answer(
        &mut self,
        edition: u8,
        request: &[u8],
        occasion: &Occasion,
        server: &Server,
        out: &mut [u8],
    ) -> Result<usize, Refusal> {
        let edition = Edition::of(edition)?;
        server.check(edition)?;
        if occasion.receive == 0 || occasion.estimate == 0 {
            return Err(Refusal::Argument);
        }
        let asked = Header::of(edition, header::checked(request, REQUEST)?);
        let interleaved = asked.interleaved(edition);
        chain::check(request)?;
        let fresh = occasion.fresh;
        if interleaved && (fresh == ServerCookie(0) || self.holds(fresh)) {
            return Err(Refusal::Cookie);
        }
        let out = out.get_mut(..request.len()).ok_or(Refusal::Room)?;
        let mut header = server.header(edition, occasion.receive);
        header.client_cookie = asked.client_cookie;
        header.transmit = occasion.estimate;
        if interleaved {
            if let Some(time) = self.draw(asked.server_cookie) {
                header.transmit = time;
                header.flags |= edition.interleaved();
            }
            self.join(fresh);
            header.server_cookie = fresh;
        }
        let (head, fields) = out.split_at_mut(header::OCTETS);
        head.copy_from_slice(&header.octets(edition));
        server.write_fields(edition, request, fields);
        Ok(request.len())
    }
}
