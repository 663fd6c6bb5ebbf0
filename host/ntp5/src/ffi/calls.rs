//! One safe function for each call, on slices and numbers as the C interface has them: an
//! edition too is a number, of which only 1 and 7 are not refused.
//!
//! They are safe because every pointer is made from a slice: it points to as many
//! octets or numbers as its length says, aligned as they are, and an exclusive slice
//! overlaps with no other. The library takes any contents, and keeps no pointer.

use super::*;
use crate::responder::{self, Occasion};

/// The size of a table in numbers.
pub fn table_words() -> usize {
    unsafe { ntp5_table_words() }
}

/// Closes all associations.
pub fn clear(table: &mut [u64]) -> u8 {
    unsafe { ntp5_clear(table.as_mut_ptr(), table.len()) }
}

/// Opens an association.
pub fn open(table: &mut [u64], association: u8, edition: u8, timescale: u8, chunk: u16) -> u8 {
    let (numbers, len) = (table.as_mut_ptr(), table.len());
    unsafe { ntp5_open(numbers, len, association, edition, timescale, chunk) }
}

/// Closes an association.
pub fn close(table: &mut [u64], association: u8) -> u8 {
    unsafe { ntp5_close(table.as_mut_ptr(), table.len(), association) }
}

/// Writes a request, which becomes the outstanding one.
pub fn poll(
    table: &mut [u64],
    association: u8,
    client_cookie: u64,
    poll: i8,
    interleaved: bool,
    out: &mut [u8],
) -> Written {
    let (numbers, len) = (table.as_mut_ptr(), table.len());
    let (room, room_len) = (out.as_mut_ptr(), out.len());
    unsafe {
        ntp5_poll(numbers, len, association, client_cookie, poll, interleaved, room, room_len)
    }
}

/// Reports the outstanding request's T1.
pub fn sent(table: &mut [u64], association: u8, t1: u64) -> u8 {
    unsafe { ntp5_sent(table.as_mut_ptr(), table.len(), association, t1) }
}

/// Takes a datagram that came at T4.
pub fn receive(table: &mut [u64], association: u8, datagram: &[u8], t4: u64) -> Received {
    let (numbers, len) = (table.as_mut_ptr(), table.len());
    unsafe { ntp5_receive(numbers, len, association, datagram.as_ptr(), datagram.len(), t4) }
}

/// Whether an association's filter shows an ID.
pub fn loop_verdict(table: &[u64], association: u8, id: &[u8]) -> Verdict {
    let (numbers, len) = (table.as_ptr(), table.len());
    unsafe { ntp5_loop_verdict(numbers, len, association, id.as_ptr(), id.len()) }
}

/// Writes the union of the selected filters with the own ID added.
pub fn publish(table: &[u64], selected: u16, id: &[u8], out: &mut [u8]) -> Written {
    let (numbers, len) = (table.as_ptr(), table.len());
    let (room, room_len) = (out.as_mut_ptr(), out.len());
    unsafe { ntp5_publish(numbers, len, selected, id.as_ptr(), id.len(), room, room_len) }
}

/// Makes the call of the record at a place of a trace.
pub fn replay(table: &mut [u64], trace: &[u8], at: usize, out: &mut [u8]) -> Replayed {
    let (numbers, len) = (table.as_mut_ptr(), table.len());
    let (room, room_len) = (out.as_mut_ptr(), out.len());
    unsafe { ntp5_replay(numbers, len, trace.as_ptr(), trace.len(), at, room, room_len) }
}

/// Makes all records of a store unused.
pub fn store_clear(store: &mut [u8]) -> u8 {
    unsafe { ntp5_store_clear(store.as_mut_ptr(), store.len()) }
}

/// Gives a stored cookie its transmit time.
pub fn report(store: &mut [u8], server_cookie: u64, time: u64) -> u8 {
    unsafe { ntp5_report(store.as_mut_ptr(), store.len(), server_cookie, time) }
}

/// Writes the answer to a request.
pub fn answer(
    store: &mut [u8],
    edition: u8,
    request: &[u8],
    occasion: &Occasion,
    server: &responder::Server,
    out: &mut [u8],
) -> Written {
    unsafe {
        ntp5_answer(
            store.as_mut_ptr(),
            store.len(),
            edition,
            request.as_ptr(),
            request.len(),
            occasion.receive,
            occasion.estimate,
            occasion.fresh.0,
            server.into(),
            server.filter.as_ptr(),
            server.filter.len(),
            server.information.as_ptr(),
            server.information.len(),
            out.as_mut_ptr(),
            out.len(),
        )
    }
}

/// Reads a header.
pub fn header_read(edition: u8, datagram: &[u8], wanted_mode: u8) -> Read {
    unsafe { ntp5_header_read(edition, datagram.as_ptr(), datagram.len(), wanted_mode) }
}

/// Writes a header.
pub fn header_write(edition: u8, header: Header, out: &mut [u8]) -> u8 {
    unsafe { ntp5_header_write(edition, header, out.as_mut_ptr(), out.len()) }
}

/// Whether a datagram is sound.
pub fn sound(datagram: &[u8], wanted_mode: u8) -> u8 {
    unsafe { ntp5_sound(datagram.as_ptr(), datagram.len(), wanted_mode) }
}

/// Adds an ID to a filter.
pub fn filter_add(filter: &mut [u8], id: &[u8]) -> u8 {
    unsafe { ntp5_filter_add(filter.as_mut_ptr(), filter.len(), id.as_ptr(), id.len()) }
}

/// The union of two filters, into the first.
pub fn filter_union(into: &mut [u8], other: &[u8]) -> u8 {
    unsafe { ntp5_filter_union(into.as_mut_ptr(), into.len(), other.as_ptr(), other.len()) }
}

/// The number of bits set in a filter.
pub fn filter_weight(filter: &[u8]) -> Weight {
    unsafe { ntp5_filter_weight(filter.as_ptr(), filter.len()) }
}

/// Offset and delay of four timestamps.
pub fn measure(t1: u64, t2: u64, t3: u64, t4: u64) -> Measurement {
    unsafe { ntp5_measure(t1, t2, t3, t4) }
}
