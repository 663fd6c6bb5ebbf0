//! W208 through the wrapper: a trace, stepped through record by record.
#![forbid(unsafe_code)]

use ntp5::Edition::Seven;
use ntp5::*;

const COOKIE: ClientCookie = ClientCookie(0x0102_0304_0506_0708);

/// A record: mark, kind, association, data length, time, data.
fn record(kind: u8, association: u8, time: u64, data: &[u8]) -> Vec<u8> {
    let length = (data.len() as u16).to_be_bytes();
    let head = [0x4E, 0x35, kind, association, length[0], length[1]];
    [&head[..], &time.to_be_bytes(), data].concat()
}

/// Opens association 3 in edition 7 with timescale 1 and chunks of 16 octets, polls, reports
/// T1 = 1000, receives an answer at T4 = 1030, and closes.
fn records() -> Result<[Vec<u8>; 5], Refusal> {
    let mut answer = [0; 48];
    let header = Header { mode: RESPONSE, stratum: 1, timescale: 1, ..Header::default() };
    let header = Header { client_cookie: COOKIE, receive: 1010, transmit: 1020, ..header };
    header.write(Seven, &mut answer)?;
    let poll = [&COOKIE.0.to_be_bytes()[..], &[6, 0]].concat();
    Ok([
        record(1, 3, 0, &[7, 1, 0, 16]),
        record(2, 3, 0, &poll),
        record(3, 3, 1000, &[]),
        record(4, 3, 1030, &answer),
        record(5, 3, 0, &[]),
    ])
}

/// What the calls give.
fn given() -> [ReplayedCall; 5] {
    let measured = Ok(Measured { offset: 0, delay: 20 });
    [
        ReplayedCall::Open(Ok(())),
        ReplayedCall::Poll(Ok(100)),
        ReplayedCall::Sent(Ok(())),
        ReplayedCall::Receive(Ok(Received { measured, chunk: Chunk::Absent })),
        ReplayedCall::Close(Ok(())),
    ]
}

#[test]
fn a_trace_is_its_calls() -> Result<(), Refusal> {
    let (mut replayed, mut direct) = (Table::new(), Table::new());
    let (records, mut out, mut request) = (records()?, [0xAA; 1280], [0xAA; 1280]);
    let answer = records[3][14..].to_vec();
    let (trace, mut at, mut step) = (records.concat(), 0, 0);
    while let Ok(Some(made)) = replayed.replay(&trace, at, &mut out) {
        assert_eq!(made.association, 3);
        assert_eq!(made.call, given()[step]);
        let same = match step {
            0 => ReplayedCall::Open(direct.open(3, Seven, 1, 16)),
            1 => ReplayedCall::Poll(direct.poll(3, COOKIE, 6, Mode::Basic, &mut request)),
            2 => ReplayedCall::Sent(direct.sent(3, 1000)),
            3 => ReplayedCall::Receive(direct.receive(3, &answer, 1030)),
            _ => ReplayedCall::Close(direct.close(3)),
        };
        assert_eq!(made.call, same);
        assert_eq!((&replayed, out), (&direct, request));
        assert_eq!(made.next, at + records[step].len());
        (at, step) = (made.next, step + 1);
    }
    assert_eq!((at, step), (trace.len(), 5));
    assert_eq!(replayed.replay(&trace, usize::MAX, &mut out), Ok(None));
    assert_eq!(Table::new().replay(&[], 0, &mut []), Ok(None));
    Ok(())
}

/// A refused call is told with its record, and what follows is made.
#[test]
fn refused_calls_do_not_end_it() -> Result<(), Refusal> {
    let [open, poll, sent, receive, close] = records()?;
    let step = |table: &mut Table<Vec<u64>>, record: &[u8], room: usize| {
        let made = table.replay(record, 0, &mut vec![0; room]).ok().flatten();
        made.map(|made| (made.association, made.next, made.call))
    };
    let mut table = Table::new();
    for (record, room, call) in [
        (&close, 0, ReplayedCall::Close(Err(Refusal::State))),
        (&open, 0, ReplayedCall::Open(Ok(()))),
        (&open, 0, ReplayedCall::Open(Err(Refusal::State))),
        (&poll, 99, ReplayedCall::Poll(Err(Refusal::Room))),
        (&poll, 100, ReplayedCall::Poll(Ok(100))),
        (
            &receive,
            0,
            ReplayedCall::Receive(Ok(Received {
                measured: Err(Unusable::Timestamp),
                chunk: Chunk::Absent,
            })),
        ),
        (&receive, 0, ReplayedCall::Receive(Err(Refusal::NotOutstanding))),
        (&sent, 0, ReplayedCall::Sent(Err(Refusal::State))),
    ] {
        assert_eq!(step(&mut table, record, room), Some((3, record.len(), call)));
    }
    let close = record(5, 16, 0, &[]);
    let refused = ReplayedCall::Close(Err(Refusal::Argument));
    assert_eq!(step(&mut table, &close, 0), Some((16, 14, refused)));
    let mut other = Table::lent(vec![0; 1295]);
    assert_eq!(
        step(&mut other, &open, 0),
        Some((3, 18, ReplayedCall::Open(Err(Refusal::Argument))))
    );
    Ok(())
}

#[test]
fn wrong_records_are_named() -> Result<(), Refusal> {
    let [open, poll, ..] = records()?;
    let with = |record: &[u8], at: usize, octet: u8| {
        let mut record = record.to_vec();
        record[at] = octet;
        record
    };
    for (wrong, fault, said) in [
        (with(&open, 0, 0x35), TraceFault::Mark, "wrong mark"),
        (with(&open, 2, 6), TraceFault::Kind, "wrong kind"),
        (with(&poll, 23, 2), TraceFault::Kind, "wrong kind"),
        (with(&open, 5, 5), TraceFault::DataLength, "wrong data length"),
        (open[..13].to_vec(), TraceFault::Cut, "cut"),
        (open[..17].to_vec(), TraceFault::Cut, "cut"),
    ] {
        let mut table = Table::new();
        assert_eq!(table.replay(&wrong, 0, &mut []), Err(fault));
        assert_eq!((table, fault.to_string()), (Table::new(), said.into()));
    }
    Ok(())
}
