//! The reference's answers as the C interface gives them: a refusal with zeros.

use crate::call::{Answering, Returned};
use ntp5::ffi;
use reference::association::Verdict;
use reference::exchange::{Judgement, Mode, Received};
use reference::header::{ClientCookie, Header, ServerCookie};
use reference::measure::Measured;
use reference::refusal::Refusal;
use reference::replay::{Answer, Replayed};
use reference::responder::{Occasion, Server};
use reference::trace::Fault;

/// The mode that a poll wants.
pub(crate) fn mode(interleaved: bool) -> Mode {
    if interleaved {
        Mode::Interleaved
    } else {
        Mode::Basic
    }
}

/// The answer of a call that returns its refusal alone.
pub(crate) fn plainly(result: Result<(), Refusal>) -> Returned {
    Returned::Refusal(result.err().map_or(0, Refusal::number))
}

/// The answer of a call that writes.
pub(crate) fn written(result: Result<usize, Refusal>) -> Returned {
    Returned::Written(match result {
        Ok(length) => ffi::Written { refusal: 0, length: length as u16 },
        Err(refusal) => ffi::Written { refusal: refusal.number(), length: 0 },
    })
}

/// The answer of receive.
pub(crate) fn received(result: Result<Received, Refusal>) -> Returned {
    Returned::Received(match result {
        Ok(Received { judgement, chunk, offset, delay }) => ffi::Received {
            refusal: 0,
            judgement: judgement as u8,
            chunk: chunk as u8,
            offset,
            delay,
        },
        Err(refusal) => {
            ffi::Received { refusal: refusal.number(), judgement: 0, chunk: 0, offset: 0, delay: 0 }
        }
    })
}

/// The answer of a replay at a place: that of the record's call, and which record it was.
pub(crate) fn replayed(result: Result<Option<Replayed>, Fault>, at: usize) -> Returned {
    let none = ffi::Replayed {
        state: result.err().map_or(0, |fault| fault as u8),
        kind: 0,
        association: 0,
        next: at,
        refusal: 0,
        judgement: 0,
        chunk: 0,
        length: 0,
        offset: 0,
        delay: 0,
    };
    let Ok(Some(Replayed { kind, association, next, answer })) = result else {
        return Returned::Replayed(none);
    };
    let made = ffi::Replayed { state: 1, kind: kind as u8, association, next, ..none };
    Returned::Replayed(match answer {
        Ok(Answer::Done) => made,
        Ok(Answer::Written(length)) => ffi::Replayed { length: length as u16, ..made },
        Ok(Answer::Received(Received { judgement, chunk, offset, delay })) => {
            ffi::Replayed { judgement: judgement as u8, chunk: chunk as u8, offset, delay, ..made }
        }
        Err(refusal) => ffi::Replayed { refusal: refusal.number(), ..made },
    })
}

/// The answer of measure.
pub(crate) fn measurement(measured: Option<Measured>) -> Returned {
    Returned::Measurement(match measured {
        Some(Measured { offset, delay }) => ffi::Measurement { judgement: 0, offset, delay },
        None => ffi::Measurement { judgement: Judgement::HalfEra as u8, offset: 0, delay: 0 },
    })
}

/// The answer of a loop verdict.
pub(crate) fn verdict(result: Result<Verdict, Refusal>) -> Returned {
    Returned::Verdict(match result {
        Ok(verdict) => ffi::Verdict { refusal: 0, verdict: verdict as u8 },
        Err(refusal) => ffi::Verdict { refusal: refusal.number(), verdict: 0 },
    })
}

/// The answer of weight.
pub(crate) fn weight(result: Result<u16, Refusal>) -> Returned {
    Returned::Weight(match result {
        Ok(weight) => ffi::Weight { refusal: 0, weight },
        Err(refusal) => ffi::Weight { refusal: refusal.number(), weight: 0 },
    })
}

/// The answer of the header reader.
pub(crate) fn read(result: Result<Header, Refusal>) -> Returned {
    let refusal = result.err().map_or(0, Refusal::number);
    let header = result.unwrap_or_default();
    Returned::Read(ffi::Read { refusal, header: to_ffi(&header) })
}

/// A header as the C interface has it.
pub(crate) fn to_ffi(header: &Header) -> ffi::Header {
    ffi::Header {
        leap: header.leap,
        mode: header.mode,
        stratum: header.stratum,
        poll: header.poll,
        precision: header.precision,
        timescale: header.timescale,
        era: header.era,
        timescale_offset: header.timescale_offset,
        flags: header.flags,
        root_delay: header.root_delay,
        root_dispersion: header.root_dispersion,
        server_cookie: header.server_cookie.0,
        client_cookie: header.client_cookie.0,
        receive: header.receive,
        transmit: header.transmit,
    }
}

/// A header from the C interface.
pub(crate) fn from_ffi(header: &ffi::Header) -> Header {
    Header {
        leap: header.leap,
        mode: header.mode,
        stratum: header.stratum,
        poll: header.poll,
        precision: header.precision,
        timescale: header.timescale,
        era: header.era,
        timescale_offset: header.timescale_offset,
        flags: header.flags,
        root_delay: header.root_delay,
        root_dispersion: header.root_dispersion,
        server_cookie: ServerCookie(header.server_cookie),
        client_cookie: ClientCookie(header.client_cookie),
        receive: header.receive,
        transmit: header.transmit,
    }
}

/// The reference's form of an answer's arguments.
pub(crate) fn arguments(args: &Answering) -> (Occasion, Server<'_>) {
    let header = &args.header;
    let occasion = Occasion {
        receive: header.receive,
        estimate: header.transmit,
        fresh: ServerCookie(header.server_cookie),
    };
    let server = Server {
        leap: header.leap,
        stratum: header.stratum,
        poll: header.poll,
        precision: header.precision,
        timescale: header.timescale,
        era: header.era,
        timescale_offset: header.timescale_offset,
        flags: header.flags,
        root_delay: header.root_delay,
        root_dispersion: header.root_dispersion,
        filter: &args.filter,
        information: &args.information,
    };
    (occasion, server)
}
