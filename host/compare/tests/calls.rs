//! Random calls: the library and the reference give back and leave the same.
#![forbid(unsafe_code)]

use compare::met::Met;
use compare::{reorder, trial};

/// At least this many calls are compared.
const CALLS: u64 = 500_000;

#[test]
fn library_is_reference() {
    let mut met = Met::default();
    if let Err(difference) = trial::run(1, CALLS, &mut met) {
        panic!("{difference}");
    }
    print!("{met}");
    assert!(met.calls() >= CALLS);
    assert_eq!(met.missing(), Vec::<String>::new(), "outcomes that were not met");
}

#[test]
fn reorderings_give_the_same() {
    let (mut orders, mut mixed) = (0, 0);
    for seed in 0..200 {
        match reorder::run(seed) {
            Ok(done) => (orders, mixed) = (orders + done.orders, mixed + done.mixed),
            Err(difference) => panic!("{difference}"),
        }
    }
    assert!(orders > 700, "only {orders} orders differed from the list's own");
    assert!(mixed > 400, "only {mixed} of them were of lists with both editions");
}

#[test]
fn table_has_its_size() {
    let numbers = ntp5::ffi::calls::table_words();
    assert_eq!((numbers, 8 * numbers), (1296, 10_368));
    assert_eq!(numbers, reference::lent::TABLE_NUMBERS);
}
