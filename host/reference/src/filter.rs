//! The filter of reference IDs: 512 octets, ten bits for each ID.

use crate::refusal::Refusal;

/// Octets of a filter.
pub const OCTETS: usize = 512;
/// Octets of a reference ID.
pub const ID_OCTETS: usize = 15;

/// A server's reference ID.
#[derive(Clone, Copy, Debug, PartialEq, Eq)]
pub struct ReferenceId(pub [u8; ID_OCTETS]);

impl ReferenceId {
    /// The ID in lent octets; 6 if they are not fifteen.
    pub fn of(octets: &[u8]) -> Result<Self, Refusal> {
        let id = octets.try_into().map_err(|_| Refusal::Argument)?;
        Ok(ReferenceId(id))
    }

    /// The ID's ten positions, each below 4096.
    pub fn positions(&self) -> [u16; 10] {
        let mut positions = [0; 10];
        for (pair, octets) in positions.chunks_exact_mut(2).zip(self.0.chunks_exact(3)) {
            let [a, b, c] = [octets[0], octets[1], octets[2]].map(u16::from);
            pair[0] = a << 4 | b >> 4;
            pair[1] = (b & 0xF) << 8 | c;
        }
        positions
    }
}

/// The octet and the bit of a position.
fn bit(position: u16) -> (usize, u8) {
    (usize::from(position / 8), 1 << (position % 8))
}

/// A filter by value.
#[derive(Clone, Copy, Debug, PartialEq, Eq)]
pub struct Filter(pub [u8; OCTETS]);

impl Filter {
    /// A fresh filter: 512 zero octets.
    pub const FRESH: Filter = Filter([0; OCTETS]);

    /// Sets the ID's positions.
    pub fn add(&mut self, id: &ReferenceId) {
        set(&mut self.0, id);
    }

    /// Whether all ten positions of the ID are set.
    pub fn contains(&self, id: &ReferenceId) -> bool {
        id.positions().into_iter().all(|position| {
            let (octet, weight) = bit(position);
            self.0[octet] & weight != 0
        })
    }

    /// Sets every bit that is set in `other`.
    pub fn unite(&mut self, other: &Filter) {
        or(&mut self.0, &other.0);
    }
}

fn set(filter: &mut [u8; OCTETS], id: &ReferenceId) {
    for position in id.positions() {
        let (octet, weight) = bit(position);
        filter[octet] |= weight;
    }
}

fn or(into: &mut [u8; OCTETS], other: &[u8; OCTETS]) {
    for (octet, more) in into.iter_mut().zip(other) {
        *octet |= more;
    }
}

/// Lent octets as a filter; 6 if they are not 512.
pub fn of(octets: &[u8]) -> Result<&[u8; OCTETS], Refusal> {
    octets.try_into().map_err(|_| Refusal::Argument)
}

fn of_mut(octets: &mut [u8]) -> Result<&mut [u8; OCTETS], Refusal> {
    octets.try_into().map_err(|_| Refusal::Argument)
}

/// Adds an ID to a lent filter (refusal 6).
pub fn add(filter: &mut [u8], id: &[u8]) -> Result<(), Refusal> {
    set(of_mut(filter)?, &ReferenceId::of(id)?);
    Ok(())
}

/// The union of two lent filters, into the first (refusal 6).
pub fn union(into: &mut [u8], other: &[u8]) -> Result<(), Refusal> {
    or(of_mut(into)?, of(other)?);
    Ok(())
}

/// The number of bits set in a lent filter (refusal 6).
pub fn weight(filter: &[u8]) -> Result<u16, Refusal> {
    let words = of(filter)?.chunks_exact(8);
    let ones = |word: &[u8]| word.try_into().map_or(0, u64::from_ne_bytes).count_ones() as u16;
    Ok(words.map(ones).sum())
}
