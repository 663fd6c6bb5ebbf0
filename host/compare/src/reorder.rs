//! Reorderings of a list of calls that keep each association's own order.

use crate::call::{Call, Outcome, Side};
use crate::library::Library;
use crate::line;
use crate::make;
use crate::plain::Plain;
use crate::random::Random;
use reference::lent::TABLE_NUMBERS;

/// The associations that a call names, a bit for each. Clearing names all,
/// publishing those it selects; an association above 15 is none.
pub(crate) fn names(call: &Call) -> u16 {
    match *call {
        Call::Clear => u16::MAX,
        Call::Open { association, .. }
        | Call::Close { association }
        | Call::Poll { association, .. }
        | Call::Sent { association, .. }
        | Call::Receive { association, .. }
        | Call::Verdict { association, .. } => 1_u16.checked_shl(association.into()).unwrap_or(0),
        Call::Publish { selected, .. } => selected,
        _ => 0,
    }
}

/// A list of client calls, each made to fit the state that those before it lead to.
fn list(random: &mut Random, length: usize) -> Vec<Call> {
    let mut plain = Plain::new(1);
    let mut calls = Vec::with_capacity(length);
    for _ in 0..length {
        let call = make::client::call(random, &plain.table, false);
        plain.make(&call);
        calls.push(call);
    }
    calls
}

/// A random order of the calls' numbers in which calls with a common name keep theirs.
fn reordering(random: &mut Random, calls: &[Call]) -> Vec<usize> {
    let mut left: Vec<usize> = (0..calls.len()).collect();
    let mut order = Vec::with_capacity(calls.len());
    while !left.is_empty() {
        let mut before = 0;
        let mut free = Vec::new();
        for (place, &i) in left.iter().enumerate() {
            let own = names(&calls[i]);
            if own & before == 0 {
                free.push(place);
            }
            before |= own;
        }
        let place = random.pick(&free);
        order.push(left.remove(place));
    }
    order
}

/// Makes the calls in this order from a cleared table; gives what each gave back, by
/// the call's number, and the table's numbers at the end.
fn made(calls: &[Call], order: &[usize]) -> (Vec<Outcome>, Vec<u64>) {
    let mut library = Library::new(&[0; TABLE_NUMBERS], &[0; 16], 0);
    let mut outcomes: Vec<(usize, Outcome)> =
        order.iter().map(|&i| (i, library.make(&calls[i]))).collect();
    outcomes.sort_by_key(|(i, _)| *i);
    (outcomes.into_iter().map(|(_, outcome)| outcome).collect(), library.table())
}

/// What was compared.
#[derive(Clone, Copy, Debug, PartialEq, Eq)]
pub struct Reordered {
    /// Calls made.
    pub calls: usize,
    /// Orders that were not the list's own.
    pub orders: usize,
    /// Those of them that are of lists in which associations of both editions were opened.
    pub mixed: usize,
}

/// Whether associations of both editions were opened.
fn mixed(calls: &[Call], outcomes: &[Outcome]) -> bool {
    let opened = |number| {
        let mut made = calls.iter().zip(outcomes);
        made.any(|(call, outcome)| match call {
            Call::Open { edition, .. } => *edition == number && outcome.returned.refusal() == 0,
            _ => false,
        })
    };
    opened(1) && opened(7)
}

/// Compares one list of calls with some of its reorderings.
pub fn run(seed: u64) -> Result<Reordered, String> {
    let mut random = Random::new(seed);
    let length = random.pick(&[10, 40, 120]);
    let calls = list(&mut random, length);
    let straight: Vec<usize> = (0..length).collect();
    let (outcomes, table) = made(&calls, &straight);
    let mixed = mixed(&calls, &outcomes);
    let mut done = Reordered { calls: length, orders: 0, mixed: 0 };
    for _ in 0..4 {
        let order = reordering(&mut random, &calls);
        done.calls += length;
        done.orders += usize::from(order != straight);
        done.mixed += usize::from(order != straight && mixed);
        let (other_outcomes, other_table) = made(&calls, &order);
        if other_outcomes != outcomes || other_table != table {
            let lines: Vec<String> = order.iter().map(|&i| line::line(&calls[i], &[])).collect();
            let lines = lines.join("\n");
            return Err(format!("# list with seed {seed:#x}, order {order:?}:\nclear\n{lines}"));
        }
    }
    Ok(done)
}
