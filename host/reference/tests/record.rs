//! The ranges of a record's numbers, which heads are refused with 6.
#![forbid(unsafe_code)]

use reference::record::{decode, encode, HEAD, NUMBERS};
use reference::refusal::Refusal;

type Head = [u64; HEAD];

const CLOSED: Head = [0; HEAD];
/// As opened.
const OPENED: Head = [7, 0, 16, 0, 0, 0, 0, 0, 0, 0, 0, 0, 0, 0, 0, 0, 0];
/// Polled once.
const POLLED: Head = [7, 255, 512, 0, 0, 7, 1, 0, 0, 0, 0, 0, 0, 0, 0, 0, 0];
/// Two chunks taken, nothing outstanding.
const SAVED: Head = [7, 0, 16, 32, 32, 7, 0, 0, 0, 0, 255, 0, 0, 0, 4, 9, 0];
/// As [`SAVED`], then polled interleaved and sent.
const ASKED: Head = [7, 0, 16, 32, 32, 8, 1, 9, 32, 5, 0, 1, 2, 3, 4, 9, 0];

/// A head with some of its numbers changed.
fn with(mut head: Head, changes: &[(usize, u64)]) -> Head {
    changes.iter().for_each(|&(at, number)| head[at] = number);
    head
}

/// A record with this head.
fn record(head: &Head) -> [u64; NUMBERS] {
    let word = if *head == CLOSED { 0 } else { 0xA5A4_A3A2_A1A0_9F9E };
    let mut record = [word; NUMBERS];
    record[..HEAD].copy_from_slice(head);
    record
}

#[test]
fn heads_in_range_are_read_and_written_again() {
    for head in [
        CLOSED,
        OPENED,
        POLLED,
        SAVED,
        ASKED,
        // Measured without a chunk, all taken, and in the second turn.
        with(SAVED, &[(3, 0), (4, 0)]),
        with(SAVED, &[(3, 0), (4, 512)]),
        with(SAVED, &[(3, 496), (4, 512)]),
        with(SAVED, &[(2, 512), (3, 0), (4, 512)]),
        with(SAVED, &[(3, 80), (4, 80)]),
        // Polled basic, and a server whose cookie is 0.
        with(ASKED, &[(7, 0), (9, 0)]),
        with(ASKED, &[(7, 0), (15, 0)]),
    ] {
        read_and_written(&head);
    }
}

fn read_and_written(head: &Head) {
    let place = decode(&record(head)).unwrap_or_else(|_| panic!("{head:?}"));
    assert_eq!(encode(&place), record(head), "{head:?}");
}

fn refused(head: &Head) {
    assert_eq!(decode(&record(head)), Err(Refusal::Argument), "{head:?}");
}

#[test]
fn heads_out_of_range_are_refused() {
    let heads = [
        // What must be a multiple of c below 512 is not, though the others fit it.
        with(SAVED, &[(3, 40), (4, 40)]),
        with(SAVED, &[(3, 512), (4, 512)]),
        with(SAVED, &[(2, 64)]),
        // Neither the octets before the next offset nor all of them.
        with(SAVED, &[(4, 16)]),
        with(SAVED, &[(4, 0)]),
        with(SAVED, &[(3, 0), (4, 496)]),
        with(SAVED, &[(4, 528)]),
        // Taken, and nothing saved.
        with(OPENED, &[(4, 512)]),
        with(POLLED, &[(4, 512)]),
        with(POLLED, &[(2, 16), (3, 32), (4, 32), (8, 32)]),
        // A last request of which nothing is left, and what is left of none.
        with(OPENED, &[(5, 7)]),
        with(POLLED, &[(5, 0)]),
        with(SAVED, &[(5, 0)]),
        with(ASKED, &[(5, 0)]),
        // An outstanding request that no poll here makes.
        with(ASKED, &[(6, 2)]),
        with(ASKED, &[(7, 10)]),
        with(POLLED, &[(7, 9)]),
        with(ASKED, &[(8, 16)]),
        with(ASKED, &[(3, 48), (4, 48)]),
        // Timescales of more than an octet, sizes that are not offered, states.
        with(OPENED, &[(1, 256)]),
        with(SAVED, &[(10, 256)]),
        with(OPENED, &[(2, 0)]),
        with(OPENED, &[(2, 48)]),
        with(OPENED, &[(0, 2)]),
        with(OPENED, &[(0, 6)]),
        with(OPENED, &[(0, 8)]),
        with(OPENED, &[(0, 0x107)]),
    ];
    heads.iter().for_each(refused);
}

#[test]
fn what_is_absent_is_zero() {
    let closed = (1..HEAD).map(|at| with(CLOSED, &[(at, 16)]));
    let nothing_outstanding = (7..10).map(|at| with(SAVED, &[(at, SAVED[3])]));
    let nothing_saved = [10, 11, 12, 13, 15].into_iter().map(|at| with(POLLED, &[(at, 1)]));
    closed.chain(nothing_outstanding).chain(nothing_saved).for_each(|head| refused(&head));
}

#[test]
fn w210_a_filter_is_kept_as_words() {
    let mut record = record(&SAVED);
    let chunk: [u8; 16] = std::array::from_fn(|i| 0x11 + i as u8);
    let mut place = decode(&record).expect("in range");
    place.0.as_mut().expect("open").filter.0[496..].copy_from_slice(&chunk);
    record[NUMBERS - 2..].copy_from_slice(&[0x1817_1615_1413_1211, 0x201F_1E1D_1C1B_1A19]);
    assert_eq!(encode(&place), record);
    assert!(decode(&record) == Ok(place));
}

/// W211-6: up to 3 with a server cookie, up to 8 without, none without a request.
#[test]
fn w211_missed_polls_have_their_range() {
    let heads = [
        (ASKED, 3),
        (with(ASKED, &[(7, 0)]), 8),
        (with(ASKED, &[(7, 0), (15, 0)]), 8),
        (POLLED, 8),
        (SAVED, 0),
        (OPENED, 0),
        (CLOSED, 0),
    ];
    // The last ones have a lowest octet in range.
    for missed in (0..=10).chain([255, u64::MAX, 256, 257, 260, 1 << 32]) {
        for (head, most) in heads {
            let look = if missed <= most { read_and_written } else { refused };
            look(&with(head, &[(16, missed)]));
        }
    }
}

/// W204-11: in edition 1 timescales are at most 15, and no octet is asked or taken.
#[test]
fn w204_edition_1_has_its_ranges() {
    let nothing_taken = [(0, 1), (3, 0), (4, 0), (8, 0)];
    let opened = with(OPENED, &[(0, 1), (1, 15)]);
    let polled = with(POLLED, &[(0, 1), (1, 15)]);
    let saved = with(with(SAVED, &nothing_taken), &[(10, 15)]);
    let asked = with(ASKED, &nothing_taken);
    for head in [opened, polled, saved, asked] {
        read_and_written(&head);
        // In edition 7 the same is in range, and a larger timescale.
        read_and_written(&with(head, &[(0, 7)]));
        read_and_written(&with(head, &[(0, 7), (1, 16)]));
        refused(&with(head, &[(1, 16)]));
    }
    for head in [saved, asked] {
        refused(&with(head, &[(10, 16)]));
        refused(&with(head, &[(4, 512)]));
        refused(&with(head, &[(3, 32), (4, 512), (8, 32 * head[6])]));
        refused(&with(head, &[(3, 32), (4, 32), (8, 32 * head[6])]));
    }
    refused(&with(asked, &[(8, 32)]));
    refused(&with(polled, &[(8, 16)]));
    // What edition 7 leads to with chunks taken is not in range as edition 1's.
    refused(&with(SAVED, &[(0, 1), (10, 0)]));
    refused(&with(ASKED, &[(0, 1)]));
}
