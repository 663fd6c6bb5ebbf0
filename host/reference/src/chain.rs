//! The chain of fields after a datagram's header.

use crate::header::{self, OCTETS};
use crate::refusal::Refusal;

/// Padding; its data is ignored.
pub const PADDING: u16 = 0xF501;
/// The MAC, not verified here; no field stands after it.
pub const MAC: u16 = 0xF502;
/// A client's request for a part of the server's filter.
pub const FILTER_REQUEST: u16 = 0xF503;
/// The part of the filter that a server sends.
pub const FILTER_RESPONSE: u16 = 0xF504;
/// Server information.
pub const SERVER_INFORMATION: u16 = 0xF505;
/// The draft's name.
pub const DRAFT_NAME: u16 = 0xF5FF;

/// The name of the draft that is spoken here.
pub const NAME: &[u8; 27] = b"draft-mlichvar-ntp-ntpv5-07";

/// Octets of a field's type and length.
pub const FIELD_HEAD: usize = 4;

/// One field, without its padding.
#[derive(Clone, Copy, Debug, PartialEq, Eq)]
pub struct Field<'a> {
    /// The field's type.
    pub kind: u16,
    /// What stands after type and length.
    pub data: &'a [u8],
}

/// The fields of a chain from the left. It ends after the first refusal (4 or 5).
#[derive(Clone, Debug)]
pub struct Fields<'a> {
    rest: &'a [u8],
}

impl<'a> Fields<'a> {
    /// The fields of a datagram of at least 48 octets; none of a shorter one.
    pub fn of(datagram: &'a [u8]) -> Self {
        Fields { rest: datagram.get(OCTETS..).unwrap_or_default() }
    }

    /// Takes the first field off a chain that is not empty.
    fn take(chain: &'a [u8]) -> Result<(Field<'a>, &'a [u8]), Refusal> {
        let &[k0, k1, l0, l1] = chain.first_chunk().ok_or(Refusal::FieldLength)?;
        let length = usize::from(u16::from_be_bytes([l0, l1]));
        if length < FIELD_HEAD {
            return Err(Refusal::FieldLength);
        }
        let end = (length + 3) & !3;
        let (field, rest) = chain.split_at_checked(end).ok_or(Refusal::FieldLength)?;
        let (octets, padding) = field.split_at(length);
        if padding.iter().any(|&octet| octet != 0) {
            return Err(Refusal::FieldPadding);
        }
        let kind = u16::from_be_bytes([k0, k1]);
        Ok((Field { kind, data: &octets[FIELD_HEAD..] }, rest))
    }
}

impl<'a> Iterator for Fields<'a> {
    type Item = Result<Field<'a>, Refusal>;

    fn next(&mut self) -> Option<Self::Item> {
        if self.rest.is_empty() {
            return None;
        }
        match Self::take(self.rest) {
            Ok((field, rest)) => {
                self.rest = rest;
                Some(Ok(field))
            }
            Err(refusal) => {
                self.rest = &[];
                Some(Err(refusal))
            }
        }
    }
}

/// Whether a datagram is sound for a mode (refusals 1 to 5, 13).
pub fn sound(datagram: &[u8], wanted_mode: u8) -> Result<(), Refusal> {
    header::checked(datagram, wanted_mode)?;
    check(datagram)
}

/// Whether every field of a datagram can be taken from its chain, and none follows the first
/// MAC (refusals 4, 5, 13).
pub fn check(datagram: &[u8]) -> Result<(), Refusal> {
    let mut fields = Fields::of(datagram);
    while let Some(field) = fields.next() {
        if field?.kind == MAC {
            return nothing_left(fields);
        }
    }
    Ok(())
}

/// Refuses fields that follow a MAC: by the first wrong one's number, else with 13.
pub fn nothing_left(fields: Fields) -> Result<(), Refusal> {
    let mut outcome = Ok(());
    for field in fields {
        field?;
        outcome = Err(Refusal::AfterMac);
    }
    outcome
}

/// Begins a field of `n` data octets at the start of `out`: writes type, length
/// and padding, and gives back the data to be filled and what follows the field.
/// `out` has room for the field with its padding.
pub fn begin(out: &mut [u8], kind: u16, n: usize) -> (&mut [u8], &mut [u8]) {
    let length = FIELD_HEAD + n;
    let (field, rest) = out.split_at_mut(length.next_multiple_of(4));
    field[..2].copy_from_slice(&kind.to_be_bytes());
    field[2..4].copy_from_slice(&(length as u16).to_be_bytes());
    field[length..].fill(0);
    (&mut field[FIELD_HEAD..length], rest)
}

/// Writes one field to the start of `out` and gives back what follows it.
pub fn put<'a>(out: &'a mut [u8], kind: u16, data: &[u8]) -> &'a mut [u8] {
    let (place, rest) = begin(out, kind, data.len());
    place.copy_from_slice(data);
    rest
}
