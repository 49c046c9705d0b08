//! Names as text.

use core::str;

use super::functions::name_length;

/// Bytes in a section header.
const HEADER: usize = 40;
/// Bytes in its name.
const NAME: usize = 8;

/// The name of section `number`, from 1, as a part of the table's own bytes; empty where
/// [`name_length`] is 0.
#[inline]
pub fn name(table: &[u8], number: u16) -> &str {
    let start = usize::from(number).saturating_sub(1) * HEADER;
    let bytes = table.get(start..start + NAME).unwrap_or_default();
    text(bytes, name_length(table, number))
}

/// The same of a name that was taken out of its table.
#[inline]
pub fn name_alone(name: &[u8; NAME]) -> &str {
    // The face takes a whole table; of a header it reads the name alone.
    let mut table = [0; HEADER];
    table[..NAME].copy_from_slice(name);
    text(name, name_length(&table, 1))
}

/// The first `length` bytes of a name, where `length` is what [`name_length`] gives for it.
#[inline]
fn text(name: &[u8], length: usize) -> &str {
    let bytes = name.get(..length).unwrap_or_default();
    // Sound, and not tested a second time: `name_length` is proved to give 0 unless these bytes are
    // UTF-8 (crates/pe, proofs/Grammar.antt).
    unsafe { str::from_utf8_unchecked(bytes) }
}
