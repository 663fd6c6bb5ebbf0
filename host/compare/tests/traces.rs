//! W208: whole traces, joined, cut and printed.
#![forbid(unsafe_code)]

use compare::make::recorded::{self, Recorded};
use compare::make::trace;
use compare::random::Random;
use compare::{line, program};
use ntp5::ffi::{calls, Replayed};
use reference::lent::TABLE_NUMBERS;
use reference::record;
use reference::replay::Ended;
use reference::table::Table;
use reference::trace::Fault::Cut;
use std::io::BufReader;

/// Random traces of each test, and the records of each.
const TRACES: (u64, [usize; 4]) = (200, [0, 1, 20, 120]);
/// Octets that the program lends to each poll.
const ROOM: usize = 1280;

/// Random records, and a generator to draw more from.
fn records(seed: u64) -> (Random, Vec<Recorded>) {
    let mut random = Random::new(seed);
    let length = random.pick(&TRACES.1);
    let records = recorded::records(&mut random).take(length).collect();
    (random, records)
}

/// What each record gave, with the octets that a poll wrote.
type Made = Vec<(Replayed, Vec<u8>)>;

/// Replays a whole trace as the program does; gives also the state at which it ended.
fn whole(table: &mut [u64], trace: &[u8]) -> (Made, u8) {
    let (mut made, mut at, mut out) = (Vec::new(), 0, [0; ROOM]);
    loop {
        let replayed = calls::replay(table, trace, at, &mut out);
        if replayed.state != 1 {
            return (made, replayed.state);
        }
        assert!(replayed.next > at, "{replayed:?}");
        at = replayed.next;
        made.push((replayed, out[..replayed.length.into()].to_vec()));
    }
}

/// The same by the reference, which reads on as it goes; gives the table's numbers.
fn whole_reference(trace: &[u8]) -> (Ended, Vec<u64>) {
    let mut table = Table::default();
    let ended = table.replay_all(trace, &mut [0; ROOM], |_, _, _| Ok(())).expect("octets");
    (ended, table.places.each_ref().map(record::encode).concat())
}

/// Two traces, the second run on the table that the first left, are the joined one.
#[test]
fn joined_traces() {
    for seed in 0..TRACES.0 {
        let (mut random, records) = records(seed);
        let (first, rest) = records.split_at(random.below(records.len() + 1));
        // The rest of the first one, or one that was made for a cleared table.
        let other: Vec<Recorded> = recorded::records(&mut random).take(20).collect();
        let second = if random.one_in(2) { rest } else { &other };
        let (first, second) = (recorded::trace_of(first), recorded::trace_of(second));
        let joined = [&first[..], &second].concat();
        let [mut table, mut joined_table] = [[0; TABLE_NUMBERS]; 2];
        let (mut made, ended) = whole(&mut table, &first);
        let (then, then_ended) = whole(&mut table, &second);
        let behind = |(r, out): (Replayed, _)| (Replayed { next: first.len() + r.next, ..r }, out);
        made.extend(then.into_iter().map(behind));
        assert_eq!((ended, then_ended), (0, 0));
        let records = made.len() as u64;
        assert_eq!(whole(&mut joined_table, &joined), (made, 0));
        assert_eq!(table, joined_table);
        assert_eq!(whole_reference(&joined), (Ended::Sound(records), table.to_vec()));
    }
}

/// A trace that ends anywhere is the whole records before, and, but at a record's end, a cut one.
#[test]
fn traces_cut_at_every_octet() {
    let mut cuts = 0;
    for seed in 0..TRACES.0 {
        let (_, records) = records(seed);
        let trace = recorded::trace_of(&records);
        if trace.len() > 5000 {
            continue;
        }
        let (mut at, mut made, mut left) = (0, Vec::new(), [0; TABLE_NUMBERS]);
        for (number, record) in (1..).zip(&records) {
            let end = at + record.octets.len();
            for cut in at + 1..end {
                let mut table = [0; TABLE_NUMBERS];
                assert_eq!(whole(&mut table, &trace[..cut]), (made.clone(), 5), "cut at {cut}");
                assert_eq!(table, left, "cut at {cut}");
                let ended = Ended::Wrong(number, Cut);
                assert_eq!(whole_reference(&trace[..cut]), (ended, left.to_vec()));
                cuts += 1;
            }
            left = [0; TABLE_NUMBERS];
            let (all, state) = whole(&mut left, &trace[..end]);
            assert_eq!((all.len() as u64, state), (number, 0));
            (at, made) = (end, all);
        }
    }
    assert!(cuts > 10_000, "only {cuts} cuts");
}

/// What the program has to print, by what the library gives.
fn lines(trace: &[u8]) -> String {
    let (made, ended) = whole(&mut [0; TABLE_NUMBERS], trace);
    let line = |(number, (r, out)): (usize, &(Replayed, Vec<u8>))| {
        let call = ["open", "poll", "sent", "receive", "close"][usize::from(r.kind) - 1];
        let (judgement, chunk, offset, delay) = (r.judgement, r.chunk, r.offset, r.delay);
        let given = match (r.kind, r.refusal) {
            (2, 0) => format!("0 {} {}", out.len(), line::octets(out)),
            (4, 0) => {
                format!("0 judgement={judgement} chunk={chunk} offset={offset} delay={delay}")
            }
            (_, refusal) => refusal.to_string(),
        };
        format!("{} {call} {given}\n", number + 1)
    };
    let lines: String = made.iter().enumerate().map(line).collect();
    let wrong =
        ["", "", "wrong mark", "wrong kind", "wrong data length", "cut"][usize::from(ended)];
    if wrong.is_empty() {
        return lines;
    }
    format!("{lines}record {}: {wrong}\n", made.len() + 1)
}

/// However the trace is read, sound or with a wrong record.
#[test]
fn program_prints_what_the_library_gives() {
    for seed in 0..TRACES.0 {
        let (mut random, records) = records(seed);
        let mut trace = recorded::trace_of(&records);
        if let Some(record) = records.last().filter(|_| random.one_in(2)) {
            trace.extend(trace::wrong(&mut random, &record.octets).0);
        }
        let (buffer, mut printed) = (random.pick(&[1, 13, 100, 1 << 16]), Vec::new());
        let reader = BufReader::with_capacity(buffer, &trace[..]);
        program::replay(reader, &mut printed).expect("octets");
        assert_eq!(String::from_utf8(printed), Ok(lines(&trace)));
    }
}
