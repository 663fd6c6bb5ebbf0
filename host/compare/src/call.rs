//! A call with its arguments, and what it gave back.

use ntp5::ffi;

/// One call of the C interface. A buffer to be written stands as it is lent.
#[derive(Clone, Debug, PartialEq, Eq)]
#[allow(missing_docs)]
pub enum Call {
    Clear,
    Open { association: u8, edition: u8, timescale: u8, chunk: u16 },
    Close { association: u8 },
    Poll { association: u8, cookie: u64, exponent: i8, interleaved: bool, out: Vec<u8> },
    Sent { association: u8, t1: u64 },
    Receive { association: u8, datagram: Vec<u8>, t4: u64 },
    Verdict { association: u8, id: Vec<u8> },
    Publish { selected: u16, id: Vec<u8>, out: Vec<u8> },
    Replay { trace: Vec<u8>, at: usize, out: Vec<u8> },
    StoreClear,
    Report { cookie: u64, time: u64 },
    Answer(Box<Answering>),
    HeaderRead { edition: u8, mode: u8, datagram: Vec<u8> },
    HeaderWrite { edition: u8, header: ffi::Header, out: Vec<u8> },
    Sound { mode: u8, datagram: Vec<u8> },
    Add { filter: Vec<u8>, id: Vec<u8> },
    Union { into: Vec<u8>, other: Vec<u8> },
    Weight { filter: Vec<u8> },
    Measure { times: [u64; 4] },
}

/// The arguments of an answer. `header` has the server's values and the times:
/// `receive` is the receive time and `transmit` the estimate, `server_cookie` the
/// fresh one; `mode` and `client_cookie` are not used.
#[derive(Clone, Debug, PartialEq, Eq)]
#[allow(missing_docs)]
pub struct Answering {
    pub edition: u8,
    pub request: Vec<u8>,
    pub header: ffi::Header,
    pub filter: Vec<u8>,
    pub information: Vec<u8>,
    pub out: Vec<u8>,
}

/// The value that a call returned.
#[derive(Clone, Copy, Debug, PartialEq, Eq)]
#[allow(missing_docs)]
pub enum Returned {
    Refusal(u8),
    Written(ffi::Written),
    Received(ffi::Received),
    Verdict(ffi::Verdict),
    Weight(ffi::Weight),
    Read(ffi::Read),
    Measurement(ffi::Measurement),
    Replayed(ffi::Replayed),
}

impl Returned {
    /// The refusal number, 0 for success.
    pub fn refusal(&self) -> u8 {
        match self {
            Returned::Refusal(refusal) => *refusal,
            Returned::Written(written) => written.refusal,
            Returned::Received(received) => received.refusal,
            Returned::Verdict(verdict) => verdict.refusal,
            Returned::Weight(weight) => weight.refusal,
            Returned::Read(read) => read.refusal,
            Returned::Measurement(_) => 0,
            Returned::Replayed(replayed) => replayed.refusal,
        }
    }
}

/// All that a call gave back.
#[derive(Clone, Debug, PartialEq, Eq)]
pub struct Outcome {
    /// The value returned.
    pub returned: Returned,
    /// The buffer lent to be written, as the call left it; empty if there was none.
    pub out: Vec<u8>,
    /// What was written outside the lent buffers, if anything.
    pub stray: Option<String>,
}

impl Outcome {
    /// A call that wrote nothing astray.
    pub fn new(returned: Returned, out: Vec<u8>) -> Self {
        Outcome { returned, out, stray: None }
    }
}

/// Something that calls are made on.
pub trait Side {
    /// Makes the call.
    fn make(&mut self, call: &Call) -> Outcome;
    /// The table's numbers.
    fn table(&self) -> Vec<u64>;
    /// The store's octets.
    fn store(&self) -> Vec<u8>;
}

impl Call {
    /// The number of the edition that the call names, if it names one.
    pub fn edition(&self) -> Option<u8> {
        match self {
            Call::Open { edition, .. }
            | Call::HeaderRead { edition, .. }
            | Call::HeaderWrite { edition, .. } => Some(*edition),
            Call::Answer(args) => Some(args.edition),
            _ => None,
        }
    }

    /// The same call in another edition.
    pub fn in_edition(mut self, number: u8) -> Call {
        match &mut self {
            Call::Open { edition, .. }
            | Call::HeaderRead { edition, .. }
            | Call::HeaderWrite { edition, .. } => *edition = number,
            Call::Answer(args) => args.edition = number,
            _ => {}
        }
        self
    }

    /// Whether the call is made on a table.
    pub fn on_table(&self) -> bool {
        matches!(
            self,
            Call::Clear
                | Call::Open { .. }
                | Call::Close { .. }
                | Call::Poll { .. }
                | Call::Sent { .. }
                | Call::Receive { .. }
                | Call::Verdict { .. }
                | Call::Publish { .. }
                | Call::Replay { .. }
        )
    }

    /// Whether the call is made on a store.
    pub fn on_store(&self) -> bool {
        matches!(self, Call::StoreClear | Call::Report { .. } | Call::Answer(_))
    }
}
