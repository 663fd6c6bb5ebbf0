//! W208: a trace, worked by hand from the records' layout.
#![forbid(unsafe_code)]

use reference::exchange::{Chunk, Judgement, Mode, Received};
use reference::header::ClientCookie;
use reference::refusal::Refusal;
use reference::replay::{Answer, Ended, Replayed};
use reference::table::Table;
use reference::trace::{read_at, Call, Fault, Kind};

/// Opens association 3 in edition 7 with timescale 1 and chunks of 16 octets.
const OPEN: &[u8] = &[0x4E, 0x35, 1, 3, 0, 4, 9, 9, 9, 9, 9, 9, 9, 9, 7, 1, 0, 16];
/// Polls with the cookie of the worked first poll, exponent -6, interleaved.
#[rustfmt::skip]
const POLL: &[u8] = &[
    0x4E, 0x35, 2, 3, 0, 10, 9, 9, 9, 9, 9, 9, 9, 9,
    1, 2, 3, 4, 5, 6, 7, 8, 0xFA, 1,
];
/// T1 is 1000.
const SENT: &[u8] = &[0x4E, 0x35, 3, 3, 0, 0, 0, 0, 0, 0, 0, 0, 0x03, 0xE8];
/// A basic response of stratum 1 that came at T4 = 1030. T2 is 1010, T3 1020.
#[rustfmt::skip]
const RECEIVE: &[u8] = &[
    0x4E, 0x35, 4, 3, 0, 48, 0, 0, 0, 0, 0, 0, 0x04, 0x06,
    0x2C, 1, 0, 0, 1, 0, 0, 0, 0, 0, 0, 0, 0, 0, 0, 0,
    0, 0, 0, 0, 0, 0, 0, 7, 1, 2, 3, 4, 5, 6, 7, 8,
    0, 0, 0, 0, 0, 0, 0x03, 0xF2, 0, 0, 0, 0, 0, 0, 0x03, 0xFC,
];
/// Closes association 16, which there is not.
const CLOSE: &[u8] = &[0x4E, 0x35, 5, 16, 0, 0, 9, 9, 9, 9, 9, 9, 9, 9];

fn trace() -> Vec<u8> {
    [OPEN, POLL, SENT, RECEIVE, CLOSE].concat()
}

/// The calls, by what the octets above say.
fn calls() -> [(Kind, u8, Call<'static>); 5] {
    let (cookie, mode) = (ClientCookie(0x0102_0304_0506_0708), Mode::Interleaved);
    [
        (Kind::Open, 3, Call::Open { edition: 7, timescale: 1, chunk: 16 }),
        (Kind::Poll, 3, Call::Poll { cookie, exponent: -6, mode }),
        (Kind::Sent, 3, Call::Sent { t1: 1000 }),
        (Kind::Receive, 3, Call::Receive { datagram: &RECEIVE[14..], t4: 1030 }),
        (Kind::Close, 16, Call::Close),
    ]
}

/// What the calls give.
fn answers() -> [Result<Answer, Refusal>; 5] {
    let received =
        Received { judgement: Judgement::Usable, chunk: Chunk::Absent, offset: 0, delay: 20 };
    [
        Ok(Answer::Done),
        Ok(Answer::Written(100)),
        Ok(Answer::Done),
        Ok(Answer::Received(received)),
        Err(Refusal::Argument),
    ]
}

#[test]
fn records_are_read() {
    let (trace, mut at) = (trace(), 0);
    for (kind, association, call) in calls() {
        let record = read_at(&trace, at).expect("a sound record").expect("a record");
        assert_eq!((record.head.kind, record.head.association), (kind, association));
        assert_eq!(record.call, call);
        at = record.next;
    }
    assert_eq!(at, trace.len());
    assert_eq!(read_at(&trace, at), Ok(None));
    assert_eq!(read_at(&trace, at + 1), Ok(None));
    assert_eq!(read_at(&[], 0), Ok(None));
}

/// Record by record, and whole.
#[test]
fn a_trace_is_replayed() {
    let (trace, mut table, mut at) = (trace(), Table::default(), 0);
    let mut out = [0xAA; 101];
    for ((kind, association, _), answer) in calls().into_iter().zip(answers()) {
        let replayed = table.replay(&trace, at, &mut out).expect("sound").expect("a record");
        at = replayed.next;
        assert_eq!(replayed, Replayed { kind, association, next: at, answer });
    }
    assert_eq!(table.replay(&trace, at, &mut out), Ok(None));
    // Header, draft name and filter request, and the octet after them.
    assert_eq!(out[..8], [0x2B, 0, 0xFA, 0, 1, 0, 0, 2]);
    assert_eq!(out[24..32], [1, 2, 3, 4, 5, 6, 7, 8]);
    assert_eq!(out[96..], [0, 0, 0, 0, 0xAA]);
    let (mut other, mut given) = (Table::default(), Vec::new());
    let ended = other.replay_all(&trace[..], &mut [0; 1280], |number, replayed, _| {
        given.push((number, replayed.answer));
        Ok(())
    });
    assert_eq!(ended.expect("octets"), Ended::Sound(5));
    assert!(given.into_iter().eq((1..).zip(answers())));
    assert_eq!(other, table);
}

/// The record with some of its octets changed.
fn changed(record: &[u8], changes: &[(usize, u8)]) -> Vec<u8> {
    let mut record = record.to_vec();
    changes.iter().for_each(|&(at, octet)| record[at] = octet);
    record
}

/// Faults are told in their order, and make no call.
#[test]
fn faults_have_an_order() {
    // Mark, kind, length and mode are wrong, and the data cut.
    let worst = [(0, 0), (2, 6), (5, 11), (23, 2)];
    for (changes, length, fault) in [
        (&worst[..], 13, Fault::Cut),
        (&worst[..], 20, Fault::Mark),
        (&worst[1..], 20, Fault::Kind),
        (&worst[2..], 20, Fault::DataLength),
        (&worst[3..], 20, Fault::Cut),
        (&worst[3..], 24, Fault::Kind),
    ] {
        let (mut table, mut out) = (Table::default(), [0; 100]);
        assert_eq!(table.open(3, 7, 1, 16), Ok(()));
        let before = table.clone();
        let wrong = changed(POLL, changes)[..length].to_vec();
        assert_eq!(table.replay(&wrong, 0, &mut out), Err(fault), "{wrong:?}");
        assert_eq!((&table, out), (&before, [0; 100]));
        let trace = [SENT, &wrong].concat();
        let ended = table.replay_all(&trace[..], &mut out, |_, _, _| Ok(()));
        assert_eq!(ended.expect("octets"), Ended::Wrong(2, fault));
        assert_eq!(table, before);
    }
}
