//! W208: random records, sound and wrong, replayed by the library and by the reference.
#![forbid(unsafe_code)]

use compare::call::{Call, Outcome, Returned, Side};
use compare::library::Library;
use compare::make::recorded::{self, Recorded};
use compare::make::trace::{self, Fault};
use compare::plain::{Lent, Plain};
use compare::random::Random;
use compare::replay;
use ntp5::ffi::{calls, Replayed};
use reference::lent::TABLE_NUMBERS;
use reference::table::Table;
use std::collections::BTreeSet;

/// Random traces of each test, and the records of each.
const TRACES: (u64, [usize; 4]) = (400, [0, 1, 20, 120]);
/// Octets that the program lends to each poll.
const ROOM: usize = 1280;

/// Random records, and a generator to draw more from.
fn records(seed: u64) -> (Random, Vec<Recorded>) {
    let mut random = Random::new(seed);
    let length = random.pick(&TRACES.1);
    let records = recorded::records(&mut random).take(length).collect();
    (random, records)
}

fn cleared() -> Library {
    Library::new(&[0; TABLE_NUMBERS], &[], 0)
}

/// The library and both sides of the reference, each on a table that all of them left alike.
struct Sides {
    library: Library,
    others: [Box<dyn Side>; 2],
}

impl Sides {
    fn new() -> Self {
        let lent = Lent { table: vec![0; TABLE_NUMBERS], store: Vec::new() };
        Sides { library: cleared(), others: [Box::new(Plain::new(1)), Box::new(lent)] }
    }

    /// Replays a place of a trace: each side gives and leaves the same.
    fn step(&mut self, trace: &[u8], at: usize, out: &[u8]) -> (Replayed, Outcome) {
        let call = Call::Replay { trace: trace.to_vec(), at, out: out.to_vec() };
        let outcome = self.library.make(&call);
        for side in &mut self.others {
            assert_eq!(side.make(&call), outcome, "at {at}");
            assert_eq!(side.table(), self.library.table(), "at {at}");
        }
        let Returned::Replayed(replayed) = outcome.returned else { panic!("{outcome:?}") };
        (replayed, outcome)
    }

    /// Where no call is made, nothing changes, and it is so again.
    fn hold_not_made(&mut self, trace: &[u8], at: usize, state: u8) {
        let (before, out) = (self.library.table(), vec![0xA5; 100]);
        for _ in 0..2 {
            let (replayed, outcome) = self.step(trace, at, &out);
            assert_eq!(replayed, not_made(state, at));
            assert_eq!((outcome.out, self.library.table()), (out.clone(), before.clone()));
        }
    }
}

/// What a replay gives where it makes no call.
fn not_made(state: u8, at: usize) -> Replayed {
    let [kind, association, refusal, judgement, chunk] = [0; 5];
    let (next, length, offset, delay) = (at, 0, 0, 0);
    Replayed { state, kind, association, next, refusal, judgement, chunk, length, offset, delay }
}

/// The kinds of records and the refusals of their calls.
const REFUSALS: [(u8, &[u8]); 5] = [
    (1, &[0, 6, 7]),
    (2, &[0, 6, 7, 8, 11]),
    (3, &[0, 6, 7]),
    (4, &[0, 1, 2, 3, 4, 5, 6, 7, 9, 10, 13]),
    (5, &[0, 6, 7]),
];

/// What the calls of traces led to.
#[derive(Default)]
struct Met {
    /// Kinds and refusals.
    refusals: BTreeSet<(u8, u8)>,
    /// Judgements and what became of chunks.
    judged: BTreeSet<(u8, u8)>,
    /// Editions of opened associations.
    editions: BTreeSet<u8>,
    /// Lengths of datagrams.
    lengths: BTreeSet<usize>,
    /// The server's answers that were accepted; of them, chunks taken.
    answers: [u32; 2],
    /// Calls on associations above 15, and openings in no edition.
    beyond: [u32; 2],
}

impl Met {
    fn count(&mut self, record: &Recorded, r: &Replayed) {
        self.refusals.insert((r.kind, r.refusal));
        self.beyond[0] += u32::from(r.association > 15);
        match &record.call {
            Call::Open { edition, .. } => {
                self.editions.extend((r.refusal == 0).then_some(edition));
                self.beyond[1] += u32::from(![1, 7].contains(edition));
            }
            Call::Receive { datagram, .. } => {
                self.lengths.insert(datagram.len());
                if r.refusal == 0 {
                    self.judged.insert((r.judgement, r.chunk));
                    self.answers[0] += u32::from(record.answer);
                    self.answers[1] += u32::from(record.answer && r.chunk == 1);
                }
            }
            _ => {}
        }
    }

    fn hold(&self) {
        let each = |&(kind, numbers): &(u8, &'static [u8])| numbers.iter().map(move |&n| (kind, n));
        assert!(REFUSALS.iter().flat_map(each).eq(self.refusals.iter().copied()));
        let judged = |judgement| (1..=3).map(move |chunk| (judgement, chunk));
        assert!((0..=5).flat_map(judged).eq(self.judged.iter().copied()));
        assert!(self.editions.iter().eq(&[1, 7]));
        assert!([0, 48, 1280, 1281, 0xFFFF].iter().all(|length| self.lengths.contains(length)));
        assert!(self.answers.iter().all(|&times| times > 300), "answers {:?}", self.answers);
        assert!(self.beyond.iter().all(|&times| times > 30), "beyond {:?}", self.beyond);
    }
}

/// A sound trace gives and leaves what the same calls do on a table of their own.
#[test]
fn sound_traces_are_their_calls() {
    let mut met = Met::default();
    for seed in 0..TRACES.0 {
        let (mut random, records) = records(seed);
        let trace = recorded::trace_of(&records);
        let (mut sides, mut direct, mut at) = (Sides::new(), cleared(), 0);
        for record in &records {
            let room = random.pick(&[0, 1, 48, ROOM]);
            let out = match &record.call {
                Call::Poll { out, .. } => out.clone(),
                _ => random.octets(room),
            };
            let (replayed, outcome) = sides.step(&trace, at, &out);
            at += record.octets.len();
            assert_eq!((replayed.state, replayed.next), (1, at));
            assert_eq!(replay::given(&outcome).as_deref(), Some(&direct.make(&record.call)));
            assert_eq!(sides.library.table(), direct.table());
            assert!(replayed.kind == 2 || outcome.out == out);
            met.count(record, &replayed);
        }
        for past in [0, 1, 14, usize::MAX - at] {
            sides.hold_not_made(&trace, at + past, 0);
        }
    }
    met.hold();
}

/// Calls before a wrong record are made, and none after it; its first fault is told.
#[test]
fn wrong_records_end_the_replay() {
    let mut pairs = BTreeSet::new();
    for seed in 0..5 * TRACES.0 {
        let mut random = Random::new(seed);
        let length = 1 + random.below(12);
        let records: Vec<Recorded> = recorded::records(&mut random).take(length).collect();
        let (before, after) = records.split_at(random.below(length));
        let (wrong, faults) = trace::wrong(&mut random, &after[0].octets);
        let mut trace = [recorded::trace_of(before), wrong].concat();
        if faults.iter().all(|fault| fault.state() != 5) {
            trace.extend(recorded::trace_of(&after[1..]));
        }
        let (mut sides, mut at) = (Sides::new(), 0);
        for record in before {
            let (replayed, _) = sides.step(&trace, at, &[0; ROOM]);
            at += record.octets.len();
            assert_eq!((replayed.state, replayed.next), (1, at));
        }
        sides.hold_not_made(&trace, at, faults[0].state());
        pairs.insert((faults[0], faults.get(1).copied()));
    }
    // Each fault alone, and before each later one.
    let later = |first| Fault::ALL.into_iter().filter(move |fault| *fault > first).map(Some);
    let each = |first| [None].into_iter().chain(later(first)).map(move |other| (first, other));
    let missing: Vec<_> =
        Fault::ALL.into_iter().flat_map(each).filter(|pair| !pairs.contains(pair)).collect();
    assert_eq!(missing, []);
}

/// Every kind with every length of its data, and every mode of a poll.
#[test]
fn every_kind_and_length() {
    let mut trace = vec![0; 14 + 0xFFFF];
    trace[..2].copy_from_slice(&[0x4E, 0x35]);
    let mut hold = |kind: u8, length: u16, mode: u8| {
        trace[2] = kind;
        trace[4..6].copy_from_slice(&length.to_be_bytes());
        trace[23] = mode;
        let state = match (kind, length) {
            (1, 4) | (3 | 5, 0) | (4, _) => 1,
            (2, 10) if mode < 2 => 1,
            (2, 10) | (0 | 6.., _) => 3,
            _ => 4,
        };
        let next = if state == 1 { 14 + usize::from(length) } else { 0 };
        let library = calls::replay(&mut [0; TABLE_NUMBERS], &trace, 0, &mut []);
        let given = (library.state, library.kind, library.next);
        let expected = (state, if state == 1 { kind } else { 0 }, next);
        assert_eq!(given, expected, "kind {kind}, length {length}, mode {mode}");
        let given = match Table::default().replay(&trace, 0, &mut []) {
            Ok(made) => made.map_or((0, 0, 0), |made| (1, made.kind as u8, made.next)),
            Err(fault) => (fault as u8, 0, 0),
        };
        assert_eq!(given, expected, "kind {kind}, length {length}, mode {mode}");
    };
    for length in 0..=0xFFFF {
        (1..=5).for_each(|kind| hold(kind, length, 0));
    }
    for octet in 0..=0xFF {
        [0, 4, 10].into_iter().for_each(|length| hold(octet, length, 0));
        hold(2, 10, octet);
    }
}
