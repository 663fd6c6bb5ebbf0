//! The library compared with the reference, call by call, octet by octet and number by
//! number.
//!
//! [`call::Call`] is a call with its arguments. It is made on three sides: the
//! [`library`], the reference's [`plain`] table and store, and the reference on
//! [`lent`](plain::Lent) ones. [`make`] draws calls at random; [`met`] counts what
//! they led to, [`missed`] follows missed polls, and [`editions`] and [`replay`] say what must
//! be met of each edition and of traces; [`line`](mod@line) writes a call as the `cases`
//! program reads it, and [`program`] prints a trace's replay as the `replay` program does.
#![forbid(unsafe_code)]
#![warn(missing_docs)]

pub mod bench;
pub mod call;
mod convert;
pub mod editions;
pub mod interface;
pub mod library;
pub mod line;
pub mod make;
pub mod met;
pub mod missed;
pub mod plain;
pub mod program;
pub mod random;
pub mod reorder;
pub mod replay;
pub mod trial;
