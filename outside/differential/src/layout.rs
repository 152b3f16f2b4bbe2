//! Where the fields of the tables stand, in bits from the start of a record.

use std::ops::Range;

/// Bits from and to, within a record or slot.
pub type Field = Range<usize>;

/// Bytes in the control record and in each header record.
pub const RECORD_LEN: usize = 36;
/// Bytes in a page slot.
pub const SLOT_LEN: usize = 128;

/// The control record's next id.
pub const NEXT_ID: Field = 0..32;
/// The control record's clock.
pub const CLOCK: Field = 32..64;

/// The first bit of a header record or page slot.
pub const IN_USE: Field = 0..1;
/// A header's file id.
pub const ID: Field = 1..32;
/// A header's owner.
pub const OWNER: Field = 32..48;
/// When a header's file was created.
pub const CREATED: Field = 48..80;
/// When a header's file was last updated.
pub const UPDATED: Field = 80..112;
/// When a header's file expires.
pub const EXPIRES: Field = 112..144;

/// The bits of a page slot that are zero.
pub const SLOT_GAP: Field = 1..32;
/// When a page expires.
pub const SLOT_EXPIRES: Field = 32..64;
/// A page slot's contents, in bytes.
pub const CONTENTS: Range<usize> = 8..SLOT_LEN;

/// The page id at this page number of a header.
pub fn page_id(number: usize) -> Field {
    144 + 9 * number..153 + 9 * number
}

/// The bytes of the header record in this place, from 0.
pub fn record(place: usize) -> Range<usize> {
    RECORD_LEN * (place + 1)..RECORD_LEN * (place + 2)
}

/// The bytes of the page slot in this place, from 0.
pub fn slot(place: usize) -> Range<usize> {
    SLOT_LEN * place..SLOT_LEN * (place + 1)
}

/// The number in a field of at most 32 bits.
pub fn get(bytes: &[u8], field: Field) -> u32 {
    let (first, last) = (field.start / 8, (field.end - 1) / 8);
    let whole = bytes[first..=last]
        .iter()
        .fold(0u64, |bits, &byte| bits << 8 | u64::from(byte));
    let width = field.len();
    ((whole >> (8 * (last + 1) - field.end)) & ((1 << width) - 1)) as u32
}

/// Writes a number into a field of at most 32 bits.
pub fn put(bytes: &mut [u8], field: Field, value: u32) {
    let last = (field.end - 1) / 8;
    let after = 8 * (last + 1) - field.end;
    let mask = ((1u64 << field.len()) - 1) << after;
    let bits = u64::from(value) << after & mask;
    for (back, byte) in bytes[field.start / 8..=last].iter_mut().rev().enumerate() {
        *byte = *byte & !((mask >> (8 * back)) as u8) | (bits >> (8 * back)) as u8;
    }
}
