//! The C interface as `include/ntp5.h` declares it, and in [`calls`] a safe function
//! for each call. This is the only module with unsafe code.
#![allow(unsafe_code)]

pub mod calls;

/// `ntp5_written`: how many octets were written.
#[repr(C)]
#[derive(Clone, Copy, Debug, PartialEq, Eq)]
pub struct Written {
    /// 0, or the refusal number.
    pub refusal: u8,
    /// Octets written.
    pub length: u16,
}

/// `ntp5_received`: what a response gave.
#[repr(C)]
#[derive(Clone, Copy, Debug, PartialEq, Eq)]
pub struct Received {
    /// 0, or the refusal number.
    pub refusal: u8,
    /// 0 usable, or why it is not.
    pub judgement: u8,
    /// 1 taken, 2 absent, 3 another size.
    pub chunk: u8,
    /// Offset in 2^-32 s.
    pub offset: i64,
    /// Delay in 2^-32 s.
    pub delay: u64,
}

/// `ntp5_verdict`: whether there is a loop.
#[repr(C)]
#[derive(Clone, Copy, Debug, PartialEq, Eq)]
pub struct Verdict {
    /// 0, or the refusal number.
    pub refusal: u8,
    /// 1 incomplete, 2 loop, 3 clear.
    pub verdict: u8,
}

/// `ntp5_weight`: the number of bits set.
#[repr(C)]
#[derive(Clone, Copy, Debug, PartialEq, Eq)]
pub struct Weight {
    /// 0, or the refusal number.
    pub refusal: u8,
    /// Bits set.
    pub weight: u16,
}

/// `ntp5_measurement`: offset and delay of four timestamps.
#[repr(C)]
#[derive(Clone, Copy, Debug, PartialEq, Eq)]
pub struct Measurement {
    /// 0, or 5 for half an era.
    pub judgement: u8,
    /// Offset in 2^-32 s.
    pub offset: i64,
    /// Delay in 2^-32 s.
    pub delay: u64,
}

/// `ntp5_server`: what a server says of itself in every answer.
#[repr(C)]
#[derive(Clone, Copy, Debug, PartialEq, Eq)]
#[allow(missing_docs)]
pub struct Server {
    pub leap: u8,
    pub stratum: u8,
    pub poll: i8,
    pub precision: i8,
    pub timescale: u8,
    pub era: u8,
    pub timescale_offset: i16,
    pub flags: u16,
    pub root_delay: u32,
    pub root_dispersion: u32,
}

/// `ntp5_header`: the fields of a header.
#[repr(C)]
#[derive(Clone, Copy, Debug, PartialEq, Eq)]
#[allow(missing_docs)]
pub struct Header {
    pub leap: u8,
    pub mode: u8,
    pub stratum: u8,
    pub poll: i8,
    pub precision: i8,
    pub timescale: u8,
    pub era: u8,
    pub timescale_offset: i16,
    pub flags: u16,
    pub root_delay: u32,
    pub root_dispersion: u32,
    pub server_cookie: u64,
    pub client_cookie: u64,
    pub receive: u64,
    pub transmit: u64,
}

/// `ntp5_read`: a header that was read.
#[repr(C)]
#[derive(Clone, Copy, Debug, PartialEq, Eq)]
pub struct Read {
    /// 0, or the refusal number.
    pub refusal: u8,
    /// The fields.
    pub header: Header,
}

/// `ntp5_replayed`: what stood at a place of a trace, and what its call gave.
#[repr(C)]
#[derive(Clone, Copy, Debug, PartialEq, Eq)]
pub struct Replayed {
    /// 0 the end, 1 a call was made, 2 to 5 what is wrong.
    pub state: u8,
    /// 1 open, 2 poll, 3 sent, 4 receive, 5 close.
    pub kind: u8,
    /// The association that the call named.
    pub association: u8,
    /// Where the next record begins, or the place asked for if no call was made.
    pub next: usize,
    /// 0, or the refusal number.
    pub refusal: u8,
    /// Of a receive: 0 usable, or why it is not.
    pub judgement: u8,
    /// Of a receive: 1 taken, 2 absent, 3 another size.
    pub chunk: u8,
    /// Of a poll: octets written.
    pub length: u16,
    /// Of a receive: offset in 2^-32 s.
    pub offset: i64,
    /// Of a receive: delay in 2^-32 s.
    pub delay: u64,
}

#[rustfmt::skip]
extern "C" {
    fn ntp5_table_words() -> usize;
    fn ntp5_clear(table: *mut u64, table_len: usize) -> u8;
    fn ntp5_open(table: *mut u64, table_len: usize, association: u8, edition: u8, timescale: u8,
        chunk: u16) -> u8;
    fn ntp5_close(table: *mut u64, table_len: usize, association: u8) -> u8;
    fn ntp5_poll(table: *mut u64, table_len: usize, association: u8, client_cookie: u64, poll: i8,
        interleaved: bool, out: *mut u8, out_len: usize) -> Written;
    fn ntp5_sent(table: *mut u64, table_len: usize, association: u8, t1: u64) -> u8;
    fn ntp5_receive(table: *mut u64, table_len: usize, association: u8, datagram: *const u8,
        datagram_len: usize, t4: u64) -> Received;
    fn ntp5_loop_verdict(table: *const u64, table_len: usize, association: u8, id: *const u8,
        id_len: usize) -> Verdict;
    fn ntp5_publish(table: *const u64, table_len: usize, selected: u16, id: *const u8, id_len: usize,
        out: *mut u8, out_len: usize) -> Written;
    fn ntp5_replay(table: *mut u64, table_len: usize, trace: *const u8, trace_len: usize, at: usize,
        out: *mut u8, out_len: usize) -> Replayed;
    fn ntp5_store_clear(store: *mut u8, store_len: usize) -> u8;
    fn ntp5_report(store: *mut u8, store_len: usize, server_cookie: u64, time: u64) -> u8;
    fn ntp5_answer(store: *mut u8, store_len: usize, edition: u8, request: *const u8,
        request_len: usize, receive_time: u64, estimate: u64, fresh_cookie: u64, server: Server,
        filter: *const u8, filter_len: usize, information: *const u8, information_len: usize,
        out: *mut u8, out_len: usize) -> Written;
    fn ntp5_header_read(edition: u8, datagram: *const u8, datagram_len: usize, wanted_mode: u8) -> Read;
    fn ntp5_header_write(edition: u8, header: Header, out: *mut u8, out_len: usize) -> u8;
    fn ntp5_sound(datagram: *const u8, datagram_len: usize, wanted_mode: u8) -> u8;
    fn ntp5_filter_add(filter: *mut u8, filter_len: usize, id: *const u8, id_len: usize) -> u8;
    fn ntp5_filter_union(into: *mut u8, into_len: usize, other: *const u8, other_len: usize) -> u8;
    fn ntp5_filter_weight(filter: *const u8, filter_len: usize) -> Weight;
    fn ntp5_measure(t1: u64, t2: u64, t3: u64, t4: u64) -> Measurement;
}
