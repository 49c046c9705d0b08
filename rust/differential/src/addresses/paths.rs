//! The way of each conversion through the tables.

use crate::operations::Op;

/// A step along a path, as document 01 has them.
#[derive(Clone, Copy)]
pub enum Along {
    ToOriginal,
    ToTransformed,
    /// Address to section, in the original or the transformed sections.
    Section(bool),
    /// Section to address.
    Address(bool),
}
use Along::*;

/// Whether a section offset goes in, the operation, whether the input comes back where transformed
/// sections are absent, and the path.
pub type Conversion = (bool, Op, bool, &'static [Along]);

pub const CONVERSIONS: [Conversion; 12] = [
    (false, Op::RvaToInternalRva, false, &[ToOriginal]),
    (false, Op::RvaToSectionOffset, false, &[Section(true)]),
    (
        false,
        Op::RvaToInternalOffset,
        false,
        &[ToOriginal, Section(false)],
    ),
    (false, Op::InternalRvaToRva, false, &[ToTransformed]),
    (
        false,
        Op::InternalRvaToSectionOffset,
        false,
        &[ToTransformed, Section(true)],
    ),
    (
        false,
        Op::InternalRvaToInternalOffset,
        false,
        &[Section(false)],
    ),
    (true, Op::OffsetToRva, false, &[Address(true)]),
    (
        true,
        Op::OffsetToInternalRva,
        false,
        &[Address(true), ToOriginal],
    ),
    (
        true,
        Op::OffsetToInternalOffset,
        true,
        &[Address(true), ToOriginal, Section(false)],
    ),
    (
        true,
        Op::InternalOffsetToRva,
        false,
        &[Address(false), ToTransformed],
    ),
    (
        true,
        Op::InternalOffsetToInternalRva,
        false,
        &[Address(false)],
    ),
    (
        true,
        Op::InternalOffsetToSectionOffset,
        true,
        &[Address(false), ToTransformed, Section(true)],
    ),
];

/// Whether a path ends with the section of an address, and then whether in the transformed sections.
pub fn locates(path: &[Along]) -> Option<bool> {
    match path.last() {
        Some(&Section(transformed)) => Some(transformed),
        _ => None,
    }
}
