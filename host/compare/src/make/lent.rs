//! Any numbers as a table, any octets as a store: reached, nearly so, and not at all.

use super::head::{self, Clause};
use crate::random::Random;
use reference::association::Place;
use reference::lent::TABLE_NUMBERS;
use reference::record;
use reference::store::{Record, Store};
use reference::table::{Table, PLACES};

/// The clause that is broken in each record's head, where it is known.
pub type Broken = [Option<Clause>; PLACES];

/// Numbers to be lent as a table.
pub fn table(random: &mut Random) -> (Vec<u64>, Broken) {
    let mut numbers = Vec::with_capacity(TABLE_NUMBERS);
    let mut broken = [None; PLACES];
    for clause in &mut broken {
        *clause = place(random, &mut numbers);
    }
    if random.one_in(30) {
        let size = random.pick(&[0, 1, 81, 1280, 1295, 1297, 2048, 10_368]);
        numbers.resize(size, 0);
        broken = [None; PLACES];
    }
    (numbers, broken)
}

/// Appends a record: its head in range, with a clause broken or with any one number, or any
/// numbers.
fn place(random: &mut Random, numbers: &mut Vec<u64>) -> Option<Clause> {
    let (head, broken) = match random.below(20) {
        0..2 => {
            numbers.extend(random.numbers(record::NUMBERS));
            return None;
        }
        2..7 => {
            let clause = random.pick(&Clause::ALL);
            (head::broken(random, clause), Some(clause))
        }
        7..11 => (head::changed(random), None),
        _ => (head::in_range(random), None),
    };
    numbers.extend(head);
    numbers.extend(random.numbers(record::WORDS));
    broken
}

/// What a generator of calls may know of a table: its records that can be read.
pub fn known_table(numbers: &[u64]) -> Table {
    let mut table = Table::default();
    let (records, _) = numbers.as_chunks();
    for (place, record) in table.places.iter_mut().zip(records) {
        *place = record::decode(record).unwrap_or(Place(None));
    }
    table
}

/// Octets to be lent as a store.
pub fn store(random: &mut Random) -> Vec<u8> {
    let records = random.pick(&[1, 2, 3, 4, 8, 64]);
    let used = random.below(records + 1);
    let mut octets = vec![0; 16 * records];
    for (i, record) in octets.chunks_exact_mut(16).take(used).enumerate() {
        let cookie = if i < 2 { i as u64 + 1 } else { random.any() };
        record[..8].copy_from_slice(&cookie.to_be_bytes());
        if random.one_in(2) {
            record[8..].copy_from_slice(&random.number().to_be_bytes());
        }
    }
    if random.one_in(3) {
        let (from, to) = (random.below(records), random.below(records));
        match random.below(3) {
            0 => octets.copy_within(16 * from..16 * from + 8, 16 * to),
            1 => octets[16 * to..16 * to + 8].fill(0),
            _ => octets[16 * to..16 * to + 16].fill(0),
        }
    }
    match random.below(30) {
        0 => {
            let size = random.pick(&[0, 1, 8, 15, 17, 1025, 1040]);
            octets.resize(size, 0);
        }
        1 => octets = random.octets(octets.len()),
        _ => {}
    }
    octets
}

/// What a generator of calls may know of a store: its row if it has one.
pub fn known_row(octets: &[u8]) -> Vec<Record> {
    let store = Store::decode(octets);
    store.map_or(Vec::new(), |store| store.row().to_vec())
}
