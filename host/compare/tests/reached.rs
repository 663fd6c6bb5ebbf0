//! N-13: a record's head is in range exactly if calls on a cleared table lead to it; a call
//! on any other is refused with 6.
#![forbid(unsafe_code)]

use compare::call::{Call, Outcome, Side};
use compare::library::Library;
use compare::make;
use compare::make::head::{self, Clause, Head};
use compare::missed::{server_cookie, Runs};
use compare::plain::{Lent, Plain};
use compare::random::Random;
use reference::lent::TABLE_NUMBERS;
use reference::record::{HEAD, NUMBERS};
use reference::table::PLACES;
use std::collections::BTreeSet;

/// Tables of sixteen heads each, to which calls are made to lead.
const TABLES: usize = 1000;
/// Lists of random calls, and the calls of each.
const LISTS: (u64, usize) = (60, 300);
/// Heads of each kind that are refused or not.
const HEADS: usize = 200;

/// The ranges, number by number in the order of the head.
fn in_range(head: &Head) -> bool {
    let &[state, timescale, c, next, taken, last, outstanding, ref rest @ ..] = head;
    let &[server, offset, t1, ref kept @ ..] = rest;
    let &[saved_timescale, saved_t1, saved_t2, saved_t3, saved_t4, known, missed] = kept;
    let saved = saved_t4 != 0;
    let largest = if state == 1 { 15 } else { 255 };
    let open = || {
        timescale <= largest
            && (state == 7 || [next, taken, offset] == [0; 3])
            && [16, 32, 64, 128, 256, 512].contains(&c)
            && next < 512
            && next % c == 0
            && (taken == next || taken == 512)
            && (taken == 0 || saved)
            && (last == 0) == (outstanding == 0 && !saved)
            && match outstanding {
                0 => [server, offset, t1, missed] == [0; 4],
                1 => (server == 0 || server == known && missed < 4) && offset == next,
                _ => false,
            }
            && missed <= 8
            && match saved {
                true => saved_timescale <= largest,
                false => [saved_timescale, saved_t1, saved_t2, saved_t3, known] == [0; 5],
            }
    };
    *head == [0; HEAD] || [1, 7].contains(&state) && open()
}

/// The heads of a table's records.
fn heads(table: &[u64]) -> Vec<Head> {
    let (records, _) = table.as_chunks::<NUMBERS>();
    records.iter().map(|record| std::array::from_fn(|i| record[i])).collect()
}

/// The library and both sides of the reference, on cleared tables.
fn cleared() -> [(&'static str, Box<dyn Side>); 3] {
    let table = vec![0; TABLE_NUMBERS];
    [
        ("library", Box::new(Library::new(&table, &[], 0))),
        ("plain", Box::new(Plain::new(1))),
        ("lent", Box::new(Lent { table, store: Vec::new() })),
    ]
}

/// A response to the request with this cookie, from which a head's saved numbers come, in its
/// edition; with `c` filter octets unless that is 0.
fn response(cookie: u64, head: &Head, c: u64) -> Vec<u8> {
    let &[edition, .., timescale, _, t2, t3, _, server, _] = head;
    let mut datagram = vec![0; 16];
    datagram[0] = 0x2C;
    let (place, octet) = if edition == 1 { (1, timescale << 4) } else { (4, timescale) };
    datagram[place] = octet as u8;
    datagram.extend([server, cookie, t2, t3].map(u64::to_be_bytes).concat());
    if c > 0 {
        datagram.extend([0xF5, 0x04]);
        datagram.extend((4 + c as u16).to_be_bytes());
        datagram.resize(datagram.len() + c as usize, 0x5A);
    }
    datagram
}

/// Calls that lead a closed place to this head, made from the head alone.
fn calls_to(association: u8, head: &Head) -> Vec<Call> {
    let &[state, timescale, c, next, taken, last, outstanding, server, _, t1, ref saved @ ..] =
        head;
    let &[_, saved_t1, .., t4, _, missed] = saved;
    if state == 0 {
        return Vec::new();
    }
    let poll = |cookie, interleaved| {
        let out = vec![0; if state == 1 { 48 } else { c as usize + 84 }];
        Call::Poll { association, cookie, exponent: 6, interleaved, out }
    };
    let sent = |t1| (t1 != 0).then_some(Call::Sent { association, t1 });
    // The chunks before the next offset, after a whole turn if all were taken.
    let chunks = if taken == 512 { 512 + next } else { next } / c;
    let rounds = if t4 == 0 { 0 } else { chunks.max(1) };
    // Two cookies in turn, until the last request.
    let others = if last > 2 { [1, 2] } else { [3, 4] };
    let (edition, timescale, chunk) = (state as u8, timescale as u8, c as u16);
    let mut calls = vec![Call::Open { association, edition, timescale, chunk }];
    for left in (0..rounds).rev() {
        let cookie = if left + outstanding == 0 { last } else { others[left as usize % 2] };
        // A chunk that is not known is there as well.
        let datagram = response(cookie, head, if chunks > 0 || edition == 1 { c } else { 0 });
        calls.push(poll(cookie, false));
        calls.extend(sent(saved_t1));
        calls.push(Call::Receive { association, datagram, t4 });
    }
    // Missed polls, each replaced by the next one.
    calls.extend((1..=missed).map(|i| poll(others[i as usize % 2], i % 3 == 0)));
    if outstanding == 1 {
        calls.push(poll(last, server != 0));
        calls.extend(sent(t1));
    }
    calls
}

/// The kind of a head: its edition, what is there, in which turn the filter is, and how many
/// polls were missed.
fn kind(head: &Head) -> [u64; 7] {
    let &[state, _, c, _, taken, _, outstanding, server, .., t4, _, missed] = head;
    let [saved, whole, known] = [t4 != 0, taken == 512, server != 0].map(u64::from);
    [state, c, outstanding, saved, whole, known, missed]
}

#[test]
fn every_head_in_range_is_reached() {
    let mut random = Random::new(7);
    let mut kinds = BTreeSet::new();
    for _ in 0..TABLES {
        let wanted: Vec<Head> = (0..PLACES).map(|_| head::in_range(&mut random)).collect();
        kinds.extend(wanted.iter().map(kind));
        for (name, mut side) in cleared() {
            for (association, head) in wanted.iter().enumerate() {
                for call in calls_to(association as u8, head) {
                    let refusal = side.make(&call).returned.refusal();
                    assert_eq!(refusal, 0, "{name}: {call:?} for {head:?}");
                }
            }
            assert_eq!(heads(&side.table()), wanted, "{name}");
        }
        assert!(wanted.iter().all(in_range), "{wanted:?}");
    }
    // Closed, or for each c: opened, polled with 0 to 8 missed, answered in either turn, and
    // polled again without a server cookie, or with one and 0 to 3 missed. In edition 1 there
    // is only the first turn.
    let of_each = |turns: usize| 1 + 9 + turns + turns * (9 + 4);
    assert_eq!(kinds.len(), 1 + 6 * (of_each(1) + of_each(2)));
}

/// Makes lists of random calls on every side, and shows each call, what it gave back and the
/// heads that it left. A list has a state of its own for each side.
fn in_lists<S: Default>(mut look: impl FnMut(&mut S, &Call, &Outcome, &[Head], &str)) {
    for seed in 0..LISTS.0 {
        let mut random = Random::new(seed);
        let mut shown = Plain::new(1);
        let mut sides = cleared().map(|(name, side)| (name, side, S::default()));
        for _ in 0..LISTS.1 {
            let call = make::client::call(&mut random, &shown.table, seed % 3 > 0);
            shown.make(&call);
            for (name, side, state) in &mut sides {
                let outcome = side.make(&call);
                look(state, &call, &outcome, &heads(&side.table()), name);
            }
        }
    }
}

#[test]
fn every_head_reached_is_in_range() {
    in_lists(|(), call, _, heads, name| {
        for head in heads {
            assert!(in_range(head), "{name}: {head:?} after {call:?}");
        }
    });
}

/// The calls and what they gave back tell the number, and with it the server cookie of a poll.
#[test]
fn missed_polls_are_those_of_the_calls() {
    let mut numbers = BTreeSet::new();
    in_lists(|runs: &mut Runs, call, outcome, heads, name| {
        runs.follow(call, outcome);
        for (association, head) in heads.iter().enumerate() {
            assert_eq!(head[16], runs.missed(association), "{name}: {association} after {call:?}");
            numbers.insert(head[16]);
        }
        if let (&Call::Poll { association, interleaved, .. }, 0) =
            (call, outcome.returned.refusal())
        {
            let due = runs.due_cookie(association.into(), interleaved);
            assert_eq!(server_cookie(&outcome.out), due, "{name}: {call:?}");
        }
    });
    assert!(numbers.into_iter().eq(0..=8));
}

/// Every call on one association, with arguments that are not refused with 6.
fn calls_on(association: u8) -> [Call; 7] {
    let (id, datagram) = (vec![0; 15], vec![0x2C; 48]);
    let out = vec![0; 600];
    [
        Call::Verdict { association, id: id.clone() },
        Call::Publish { selected: 1 << association, id, out: out.clone() },
        Call::Sent { association, t1: 1 },
        Call::Receive { association, datagram, t4: 1 },
        Call::Poll { association, cookie: 1, exponent: 6, interleaved: true, out },
        Call::Open { association, edition: 7, timescale: 0, chunk: 16 },
        Call::Close { association },
    ]
}

/// Makes every call on a record with this head, library and reference.
fn hold(random: &mut Random, head: &Head) {
    let association = random.below(PLACES);
    let mut table = vec![0; TABLE_NUMBERS];
    table[NUMBERS * association..][..HEAD].copy_from_slice(head);
    let library = Library::new(&table, &[], 0);
    let lent = Lent { table: table.clone(), store: Vec::new() };
    let sides: [(&str, Box<dyn Side>); 2] =
        [("library", Box::new(library)), ("lent", Box::new(lent))];
    for (name, mut side) in sides {
        for call in calls_on(association as u8) {
            let refused = side.make(&call).returned.refusal() == 6;
            assert_eq!(refused, !in_range(head), "{name}: {call:?} on {head:?}");
        }
        assert!(in_range(head) || side.table() == table, "{name}: {head:?} was changed");
    }
}

#[test]
fn every_other_head_is_refused() {
    let mut random = Random::new(11);
    for _ in 0..HEADS {
        let head = head::in_range(&mut random);
        hold(&mut random, &head);
        for _ in 0..4 {
            let head = head::changed(&mut random);
            hold(&mut random, &head);
        }
        for clause in Clause::ALL {
            let head = head::broken(&mut random, clause);
            assert!(!in_range(&head), "{clause:?}: {head:?}");
            hold(&mut random, &head);
        }
    }
}
