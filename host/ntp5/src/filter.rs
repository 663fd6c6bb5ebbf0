//! Filters of reference IDs. Their types have the right sizes, so nothing is refused.
#![forbid(unsafe_code)]

use crate::ffi::calls;

/// A server's reference ID.
#[derive(Clone, Copy, Debug, PartialEq, Eq, Hash)]
pub struct ReferenceId(pub [u8; 15]);

/// A filter by value.
#[derive(Clone, Copy, Debug, PartialEq, Eq, Hash)]
pub struct Filter(pub [u8; 512]);

impl Filter {
    /// A fresh filter: no bit is set.
    pub const FRESH: Filter = Filter([0; 512]);

    /// Sets the ten positions of an ID.
    pub fn add(&mut self, id: &ReferenceId) {
        let refusal = calls::filter_add(&mut self.0, &id.0);
        debug_assert_eq!(refusal, 0);
    }

    /// Sets every bit that is set in `other`.
    pub fn unite(&mut self, other: &Filter) {
        let refusal = calls::filter_union(&mut self.0, &other.0);
        debug_assert_eq!(refusal, 0);
    }

    /// The number of bits set.
    pub fn weight(&self) -> u16 {
        calls::filter_weight(&self.0).weight
    }
}

impl Default for Filter {
    fn default() -> Self {
        Filter::FRESH
    }
}
