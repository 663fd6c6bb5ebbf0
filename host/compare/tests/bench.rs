//! The benchmark's sides make the same call: they are refused alike and leave the same.
#![forbid(unsafe_code)]

use compare::bench::cases::CASES;
use compare::bench::worst::WORST;
use compare::bench::Side;
use reference::record;
use std::collections::BTreeSet;

#[test]
fn sides_do_the_same() {
    for case in CASES.iter().chain(&WORST) {
        for times in [1, 2] {
            let [library, plain, lent] = Side::ALL.map(|side| case.run(side, times));
            let refused = case.name.split_once("-refused-");
            let expected = refused.map_or(0, |(_, number)| number.parse().expect("a number"));
            for state in [&library, &plain, &lent] {
                assert_eq!(state.refusal, expected, "{}", case.name);
                assert_eq!(state.out, library.out, "{}", case.name);
                assert_eq!(state.filter, library.filter, "{}", case.name);
            }
            assert_eq!(lent.table, library.table, "{}", case.name);
            assert_eq!(lent.store, library.store, "{}", case.name);
            let table = plain.plain.places.each_ref().map(record::encode).concat();
            assert_eq!(table, library.table, "{}", case.name);
            let mut store = vec![0; library.store.len()];
            plain.plain_store.encode(&mut store);
            assert_eq!(store, library.store, "{}", case.name);
        }
    }
}

#[test]
fn cases_are_what_their_names_say() {
    let all = || CASES.iter().chain(&WORST);
    let find = |name: &str| all().find(|case| case.name == name).expect("a case");
    let received = find("receive-interleaved-16").run(Side::Library, 1);
    assert_eq!(received.datagram[7] & 2, 2);
    assert_eq!(find("receive-edition-1").run(Side::Library, 1).datagram.len(), 48);
    for (name, length) in [("poll-edition-1", 48), ("answer-edition-1", 48), ("poll-16", 100)] {
        let out = find(name).run(Side::Library, 1).out;
        assert_eq!(out.iter().rposition(|&octet| octet != 0).map(|last| last < length), Some(true));
        assert_eq!(out[47] == 0, name.starts_with("poll"), "{name}");
    }
    for name in ["answer-interleaved-64", "worst-answer", "worst-answer-irregular"] {
        assert_eq!(find(name).run(Side::Library, 1).out[7] & 2, 2, "{name}");
    }
    for (name, kind) in [("open", 1), ("poll-16", 2), ("sent", 3), ("receive-16", 4)] {
        let datagram = find(&format!("replay-{name}")).run(Side::Library, 1).datagram;
        assert_eq!(datagram[..4], [0x4E, 0x35, kind, 0], "{name}");
    }
    for case in all() {
        let (state, one) = ((case.state)(), case.name.ends_with("-edition-1"));
        let edition = if one { 1 } else { 7 };
        assert_eq!(state.edition, edition, "{}", case.name);
        assert!([0, edition.into()].contains(&state.table[0]), "{}", case.name);
        let datagrams: BTreeSet<_> = (1..=3).map(|n| case.run(Side::Library, n).datagram).collect();
        let expected = if case.name.ends_with("-irregular") { 3 } else { 1 };
        assert_eq!(datagrams.len(), expected, "{}", case.name);
    }
}
