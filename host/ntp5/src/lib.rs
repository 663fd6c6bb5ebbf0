//! A safe wrapper of `libntp5.a`, an NTPv5 library with a C interface.
//!
//! The library keeps nothing between calls: a client's [`Table`] lies in numbers and
//! a responder's [`Store`] in octets that the caller owns. A call that is refused
//! changes nothing and gives a [`Refusal`].
//!
//! The caller draws all cookies at random and never uses one twice: the library
//! refuses only the repeats that it can see.
#![deny(unsafe_code)]
#![warn(missing_docs)]

pub mod ffi;

mod client;
mod edition;
mod filter;
mod header;
mod measure;
mod refusal;
mod replay;
mod responder;

// The README's example is compiled as a documentation test.
#[cfg(doctest)]
#[doc = include_str!("../../../README.md")]
struct Readme;

pub use client::{Chunk, Mode, Received, Table, Verdict};
pub use edition::Edition;
pub use filter::{Filter, ReferenceId};
pub use header::{sound, ClientCookie, Header, ServerCookie, REQUEST, RESPONSE};
pub use measure::{Measured, Times, Unusable};
pub use refusal::Refusal;
pub use replay::{Replayed, ReplayedCall, TraceFault};
pub use responder::{Occasion, Server, Store};
