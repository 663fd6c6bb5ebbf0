//! A place as the 81 numbers in which a lent table keeps it.
//!
//! A head of seventeen, of which the first is the edition, then the filter's 64 words: word i
//! is octets 8i to 8i + 7, the first of them the lowest. What is absent is 0, and a closed
//! place's numbers are all 0.

use crate::association::{Association, Place, Taken};
use crate::association::{CHUNK_SIZES, MISSED_MAX, MISSED_NO_COOKIE};
use crate::edition::Edition;
use crate::exchange::{Request, Saved};
use crate::filter::{Filter, OCTETS as FILTER_OCTETS};
use crate::header::{ClientCookie, ServerCookie};
use crate::measure::Times;
use crate::refusal::Refusal;

/// Numbers of a record's head.
pub const HEAD: usize = 17;
/// Words of a filter.
pub const WORDS: usize = FILTER_OCTETS / 8;
/// Numbers of a record.
pub const NUMBERS: usize = HEAD + WORDS;

/// The head's numbers, in the order of their places.
type Head = [u64; HEAD];

/// Reads a record; 6 if one of its numbers is out of range, that is if no calls on a
/// cleared table lead to its head. The filter's words are not looked at.
pub fn decode(record: &[u64; NUMBERS]) -> Result<Place, Refusal> {
    let (head, words) = record.split_first_chunk().ok_or(Refusal::Argument)?;
    if *head == [0; HEAD] {
        return Ok(Place(None));
    }
    let open = opened(head, words).ok_or(Refusal::Argument)?;
    Ok(Place(Some(open)))
}

/// The association of an open record, if calls on a cleared table can lead to it.
fn opened(head: &Head, words: &[u64]) -> Option<Association> {
    let &[state, timescale, chunk, next, count, last, .., missed] = head;
    let edition = Edition::of(state.try_into().ok()?).ok()?;
    let chunk = CHUNK_SIZES.into_iter().find(|&c| u64::from(c) == chunk)?;
    let next_offset = offset(next, chunk)?;
    let saved = saved(head, edition)?;
    let outstanding = outstanding(head, next_offset)?;
    // Chunks are taken in order from 0 on, each from a response that is saved.
    if (count != next && count != FILTER_OCTETS as u64) || (count != 0 && saved.is_none()) {
        return None;
    }
    // Without fields no chunk is taken (W204-10).
    if !edition.knows_fields() && (next, count) != (0, 0) {
        return None;
    }
    // A request is outstanding until it is used up, by a response that is saved.
    if (last == 0) != (outstanding.is_none() && saved.is_none()) {
        return None;
    }
    Some(Association {
        edition,
        timescale: timescale_of(timescale, edition)?,
        chunk,
        next_offset,
        filter: filter_of(words),
        taken: Taken::first(count as usize),
        last_cookie: (last != 0).then_some(ClientCookie(last)),
        outstanding,
        saved,
        missed: u8::try_from(missed).ok().filter(|&missed| missed <= MISSED_MAX)?,
    })
}

/// A timescale that the edition has (W204-11).
fn timescale_of(number: u64, edition: Edition) -> Option<u8> {
    let timescale = u8::try_from(number).ok()?;
    (timescale <= edition.timescale_max()).then_some(timescale)
}

/// A filter offset: a multiple of c below 512.
fn offset(number: u64, c: u16) -> Option<u16> {
    let offset = u16::try_from(number).ok()?;
    (offset < FILTER_OCTETS as u16 && offset % c == 0).then_some(offset)
}

/// What the last accepted response left: all 0 if T4 is, which no accepted response has.
fn saved(head: &Head, edition: Edition) -> Option<Option<Saved>> {
    let &[.., timescale, t1, t2, t3, t4, cookie, _] = head;
    if t4 == 0 {
        return [timescale, t1, t2, t3, cookie].iter().all(|&n| n == 0).then_some(None);
    }
    Some(Some(Saved {
        timescale: timescale_of(timescale, edition)?,
        times: Times { t1, t2, t3, t4 },
        server_cookie: ServerCookie(cookie),
    }))
}

/// The outstanding request. Nothing was taken or saved since its poll, so it asked the next
/// offset, and sent server cookie 0, or the saved one with fewer than four missed polls.
/// The poll that replaced the last missed one is outstanding, so without it none is missed.
fn outstanding(head: &Head, next_offset: u16) -> Option<Option<Request>> {
    let &[_, _, _, _, _, last, flag, cookie, at, t1, .., known, missed] = head;
    let sent = || cookie == 0 || (cookie == known && missed < MISSED_NO_COOKIE.into());
    match flag {
        0 => [cookie, at, t1, missed].iter().all(|&n| n == 0).then_some(None),
        1 if at == u64::from(next_offset) && sent() => Some(Some(Request {
            client_cookie: ClientCookie(last),
            server_cookie: ServerCookie(cookie),
            offset: next_offset,
            t1,
        })),
        _ => None,
    }
}

/// A place's numbers.
pub fn encode(place: &Place) -> [u64; NUMBERS] {
    let mut record = [0; NUMBERS];
    if let Some(open) = &place.0 {
        let (head, words) = record.split_at_mut(HEAD);
        head.copy_from_slice(&head_of(open));
        put_words(words, &open.filter);
    }
    record
}

/// The filter of a record's words.
fn filter_of(words: &[u64]) -> Filter {
    let mut filter = Filter::FRESH;
    for (octets, word) in filter.0.as_chunks_mut().0.iter_mut().zip(words) {
        *octets = word.to_le_bytes();
    }
    filter
}

/// The words of a filter go into a record.
fn put_words(words: &mut [u64], filter: &Filter) {
    for (word, octets) in words.iter_mut().zip(filter.0.as_chunks().0) {
        *word = u64::from_le_bytes(*octets);
    }
}

/// The head of an open association.
fn head_of(open: &Association) -> Head {
    let mut head = [0; HEAD];
    head[0] = open.edition as u64;
    head[1] = open.timescale.into();
    head[2] = open.chunk.into();
    head[3] = open.next_offset.into();
    head[4] = open.taken.count().into();
    head[5] = open.last_cookie.map_or(0, |cookie| cookie.0);
    if let Some(request) = open.outstanding {
        head[6] = 1;
        head[7] = request.server_cookie.0;
        head[8] = request.offset.into();
        head[9] = request.t1;
    }
    if let Some(Saved { timescale, times, server_cookie }) = open.saved {
        head[10] = timescale.into();
        head[11..15].copy_from_slice(&[times.t1, times.t2, times.t3, times.t4]);
        head[15] = server_cookie.0;
    }
    head[16] = open.missed.into();
    head
}
