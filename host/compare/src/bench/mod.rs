//! What a call costs in the library and in the reference, in instructions and in time.
//!
//! Each case is made on three sides. The rival is the reference on the same lent table
//! and store, which does all that the library does, with the same tests of what was lent;
//! beside it stands the reference on its plain ones, which trusts what it keeps.

mod calls;
pub mod cases;
pub mod cost;
mod datagram;
mod recorded;
pub mod rival;
pub mod state;
pub mod worst;

use calls::Sides;
use ntp5::ffi;
use reference::refusal::Refusal;
use reference::replay::Replayed;
use reference::trace::Fault;
use state::State;

/// Who makes a case's call.
#[derive(Clone, Copy, Debug, PartialEq, Eq)]
pub enum Side {
    /// The library.
    Library,
    /// The reference on its plain table and store.
    Plain,
    /// The reference on a lent table and store.
    Lent,
}

impl Side {
    /// All sides.
    pub const ALL: [Side; 3] = [Side::Library, Side::Plain, Side::Lent];

    /// The side's name.
    pub fn name(self) -> &'static str {
        match self {
            Side::Library => "library",
            Side::Plain => "plain",
            Side::Lent => "lent",
        }
    }
}

/// What brings the state back before each call.
#[derive(Clone, Copy, Debug, PartialEq, Eq)]
pub enum Reset {
    /// Nothing: the call leaves the state as it was.
    Nothing,
    /// Another cookie.
    Cookie,
    /// The first association as it was.
    Record,
    /// The store as it was.
    Store,
}

/// One call that is measured.
pub struct Case {
    /// Its name in the `ratio` lines.
    pub name: &'static str,
    /// What it is made on.
    pub state: fn() -> State,
    /// What it needs before each call.
    pub reset: Reset,
    /// The call on each side.
    pub calls: Sides,
}

impl Case {
    /// The call on one side.
    fn call(&self, side: Side) -> fn(&mut State) {
        self.calls[side as usize]
    }

    /// The functions whose instructions are counted, callees included.
    fn functions(&self, side: Side) -> &'static str {
        match side {
            // A replay may make its call by another exported function, where counting would stop.
            Side::Library if self.name.contains("replay") => "ntp5_replay",
            Side::Library => "ntp5_*",
            Side::Plain | Side::Lent => "compare::bench::rival::*",
        }
    }

    /// Makes the call `times` times; gives the state that the last one left.
    pub fn run(&self, side: Side, times: usize) -> State {
        let (mut state, call) = ((self.state)(), self.call(side));
        for _ in 0..times {
            state.reset(self.reset, side);
            call(&mut state);
        }
        state
    }
}

/// What a measured call gives back.
trait HasRefusal {
    /// 0, or the refusal number.
    fn refusal(&self) -> u8;
}

/// What holds its refusal.
macro_rules! have_refusal {
    ($($kind:ty: |$returned:ident| $refusal:expr;)*) => {
        $(impl HasRefusal for $kind {
            fn refusal(&self) -> u8 {
                let $returned = self;
                $refusal
            }
        })*
    };
}

have_refusal! {
    u8: |returned| *returned;
    ffi::Written: |returned| returned.refusal;
    ffi::Received: |returned| returned.refusal;
    ffi::Verdict: |returned| returned.refusal;
    ffi::Weight: |returned| returned.refusal;
    ffi::Read: |returned| returned.refusal;
    ffi::Replayed: |returned| if returned.state == 1 { returned.refusal } else { NOT_MADE };
    Result<Option<Replayed>, Fault>: |returned| match returned {
        Ok(Some(replayed)) => replayed.answer.err().map_or(0, Refusal::number),
        _ => NOT_MADE,
    };
}

/// No refusal: a replay made no call.
const NOT_MADE: u8 = u8::MAX;

impl<T> HasRefusal for Result<T, Refusal> {
    fn refusal(&self) -> u8 {
        self.as_ref().err().map_or(0, |refusal| refusal.number())
    }
}
