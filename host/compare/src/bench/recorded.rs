//! Records that are replayed.

use super::state::State;
use crate::call::Call;
use crate::make::trace;
use crate::random::Random;

/// The state with a record of the call in place of its datagram.
fn recorded(mut state: State, call: &Call) -> State {
    state.datagram = trace::record(&mut Random::new(9), call).expect("a call of a record's");
    state
}

/// Opening, as it is measured by itself.
pub(super) fn open(state: State) -> State {
    let edition = state.edition;
    recorded(state, &Call::Open { association: 0, edition, timescale: 1, chunk: 16 })
}

/// A basic poll.
pub(super) fn poll(state: State) -> State {
    let (cookie, out) = (state.cookie, Vec::new());
    recorded(state, &Call::Poll { association: 0, cookie, exponent: 6, interleaved: false, out })
}

/// A report of T1.
pub(super) fn sent(state: State) -> State {
    recorded(state, &Call::Sent { association: 0, t1: 1000 })
}

/// The state's datagram, received.
pub(super) fn receive(state: State) -> State {
    let datagram = state.datagram.clone();
    recorded(state, &Call::Receive { association: 0, datagram, t4: 1030 })
}
