//! The requirements (docs/RULES.md) in plain safe Rust, written from them alone.
//!
//! It shares no code with the library, so that a difference between the two
//! shows an error in one of them. It is also the benchmark's rival: a table
//! ([`table::Table`]) and a store ([`store::Store`]) are ordinary values here.
//! [`lent`] makes the same calls on a lent table and store, whatever stands in them, as
//! the library does. [`replay`] makes the calls of a [`trace`].
#![forbid(unsafe_code)]
#![warn(missing_docs)]

pub mod association;
pub mod chain;
pub mod edition;
pub mod exchange;
pub mod filter;
pub mod header;
pub mod lent;
pub mod measure;
pub mod record;
pub mod refusal;
pub mod replay;
pub mod responder;
pub mod store;
pub mod table;
pub mod trace;
