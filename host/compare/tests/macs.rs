//! W205-1 to W205-5, tried on every short chain, for the library and the reference.
#![forbid(unsafe_code)]

/// A field's octets, and what it is: its own refusal, or 0, and whether it is a MAC.
const FIELDS: [(&[u8], u8, bool); 7] = [
    (&[0xF5, 0x02, 0, 4], 0, true),
    (&[0xF5, 0x02, 0, 5, 9, 0, 0, 0], 0, true),
    (&[0xF5, 0x01, 0, 4], 0, false),
    (&[0x12, 0x02, 0, 6, 9, 9, 0, 0], 0, false),
    (&[0xF5, 0x01, 0, 3], 4, false),
    (&[0xF5, 0x02, 0, 3], 4, true),
    (&[0xF5, 0x01, 0, 5, 9, 0, 0, 1], 5, false),
];

/// The first wrong field decides; in a chain of right ones, 13 if one that is not the last is a
/// MAC.
fn expected(chain: &[usize]) -> u8 {
    let wrong = chain.iter().map(|&field| FIELDS[field].1).find(|&number| number != 0);
    let early = chain.split_last().is_some_and(|(_, before)| before.iter().any(|&f| FIELDS[f].2));
    wrong.unwrap_or(if early { 13 } else { 0 })
}

#[test]
fn every_short_chain() {
    let mut given = [0; 14];
    for length in 0..=5 {
        for code in 0..FIELDS.len().pow(length) {
            let chain: Vec<_> =
                (0..length).map(|i| code / FIELDS.len().pow(i) % FIELDS.len()).collect();
            for mode in [3, 4] {
                let mut datagram = vec![0; 48];
                datagram[0] = 5 * 8 + mode;
                chain.iter().for_each(|&field| datagram.extend(FIELDS[field].0));
                let library = ntp5::sound(&datagram, mode).map_or_else(|r| r.number(), |()| 0);
                let reference =
                    reference::chain::sound(&datagram, mode).map_or_else(|r| r.number(), |()| 0);
                assert_eq!((library, reference), (expected(&chain), expected(&chain)), "{chain:?}");
                given[usize::from(library)] += 1;
            }
        }
    }
    let met: Vec<_> = (0..14).filter(|&number| given[number] != 0).collect();
    assert_eq!(met, [0, 4, 5, 13]);
}
