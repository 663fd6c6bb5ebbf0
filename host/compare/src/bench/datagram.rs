//! Datagrams of 1,280 octets, as many as are allowed.

use crate::random::Random;
use reference::chain;
use reference::edition::Edition;
use reference::header::{Header, DATAGRAM_MAX, OCTETS};

/// A type that nobody knows.
pub(super) const UNKNOWN: u16 = 0x1234;
/// Octets after the header.
const ROOM: usize = DATAGRAM_MAX - OCTETS;

/// A header of edition 7, fields of these types and numbers of data octets, all 0, and one of
/// padding over what is left.
pub(super) fn filled(header: &Header, fields: &[(u16, usize)]) -> Vec<u8> {
    let mut datagram = vec![0; DATAGRAM_MAX];
    let (head, mut rest) = datagram.split_at_mut(OCTETS);
    head.copy_from_slice(&header.octets(Edition::Seven));
    for &(kind, n) in fields {
        rest = chain::begin(rest, kind, n).1;
    }
    if let Some(n) = rest.len().checked_sub(chain::FIELD_HEAD) {
        chain::begin(rest, chain::PADDING, n);
    }
    datagram
}

/// A chain whose next field nobody can guess: half of the fields have length 4, the others 5
/// to 7, of one unknown type and the three that are answered.
pub(super) fn irregular(header: &Header, random: &mut Random) -> Vec<u8> {
    let kinds = [UNKNOWN, chain::FILTER_REQUEST, chain::SERVER_INFORMATION, chain::DRAFT_NAME];
    let (mut fields, mut left) = (Vec::new(), ROOM);
    while left > 0 {
        let short = random.one_in(2) || left == chain::FIELD_HEAD;
        let n = if short { 0 } else { 1 + random.below(3) };
        fields.push((random.pick(&kinds), n));
        left -= (chain::FIELD_HEAD + n).next_multiple_of(4);
    }
    filled(header, &fields)
}
