//! Offset and delay, or why there are none.
#![forbid(unsafe_code)]

use crate::ffi::calls;

/// The four timestamps of a measurement.
#[derive(Clone, Copy, Debug, PartialEq, Eq, Hash)]
pub struct Times {
    /// The client sent the request.
    pub t1: u64,
    /// The server received it.
    pub t2: u64,
    /// The server sent the response.
    pub t3: u64,
    /// The client received it.
    pub t4: u64,
}

impl Times {
    /// The measurement, or [`Unusable::HalfEra`], the only reason that there may be none.
    pub fn measure(self) -> Result<Measured, Unusable> {
        let returned = calls::measure(self.t1, self.t2, self.t3, self.t4);
        Measured::judged(returned.judgement, returned.offset, returned.delay)
    }
}

/// A measurement, in units of 2^-32 s.
#[derive(Clone, Copy, Debug, PartialEq, Eq, Hash)]
pub struct Measured {
    /// How far the server's clock is ahead.
    pub offset: i64,
    /// The time that the datagrams were on their way.
    pub delay: u64,
}

impl Measured {
    /// By the judgement's number.
    pub(crate) fn judged(judgement: u8, offset: i64, delay: u64) -> Result<Self, Unusable> {
        match judgement {
            0 => Ok(Measured { offset, delay }),
            1 => Err(Unusable::Leap),
            2 => Err(Unusable::Stratum),
            3 => Err(Unusable::Timescale),
            4 => Err(Unusable::Timestamp),
            5 => Err(Unusable::HalfEra),
            other => unreachable!("judgement {other}"),
        }
    }
}

/// Why there is no measurement: a response was accepted but is of no use for the clock,
/// or a difference of timestamps has no sign.
#[derive(Clone, Copy, Debug, PartialEq, Eq, Hash)]
#[repr(u8)]
pub enum Unusable {
    /// The response's leap is 3.
    Leap = 1,
    /// Its stratum is not 1 to 15.
    Stratum = 2,
    /// Its timescale, or that of the exchange measured, is not the association's.
    Timescale = 3,
    /// A timestamp that the measurement needs is unknown.
    Timestamp = 4,
    /// T2-T1, T3-T4, T4-T1 or T3-T2 is half an era, which has no sign.
    HalfEra = 5,
}
