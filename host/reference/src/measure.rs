//! Offset and delay of an exchange.

/// The four timestamps of one measurement.
#[derive(Clone, Copy, Debug, PartialEq, Eq)]
pub struct Times {
    /// The client sent the request.
    pub t1: u64,
    /// The server received it.
    pub t2: u64,
    /// The server sent the response.
    pub t3: u64,
    /// The client received it.
    pub t4: u64,
}

/// A measurement in units of 2^-32 s.
#[derive(Clone, Copy, Debug, PartialEq, Eq)]
pub struct Measured {
    /// T-6: half of (T2-T1) + (T3-T4), rounded toward minus infinity.
    pub offset: i64,
    /// T-7: the size of (T4-T1) - (T3-T2).
    pub delay: u64,
}

/// T-3, T-4: `a - b` modulo 2^64, read as a number from -(2^63 - 1) to 2^63 - 1.
/// 2^63, half an era, has no sign (W206-1).
fn difference(a: u64, b: u64) -> Option<i128> {
    let number = a.wrapping_sub(b) as i64;
    (number != i64::MIN).then_some(number.into())
}

impl Times {
    /// Offset and delay; none if any of the four differences is half an era.
    pub fn measure(&self) -> Option<Measured> {
        let sum = difference(self.t2, self.t1)? + difference(self.t3, self.t4)?;
        let rest = difference(self.t4, self.t1)? - difference(self.t3, self.t2)?;
        Some(Measured {
            // The shift rounds toward minus infinity, and half the sum of two 64-bit numbers fits.
            offset: (sum >> 1) as i64,
            // Two 64-bit numbers are less than 2^64 apart.
            delay: rest.unsigned_abs() as u64,
        })
    }

    /// Whether none of the four is unknown.
    pub fn known(&self) -> bool {
        self.t1 != 0 && self.t2 != 0 && self.t3 != 0 && self.t4 != 0
    }
}
