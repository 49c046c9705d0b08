#![doc = include_str!("../README.md")]
#![no_std]
#![warn(missing_docs)]
#![deny(unsafe_code)]

#[cfg(feature = "alloc")]
extern crate alloc;
#[cfg(feature = "std")]
extern crate std;

mod addresses;
mod bundles;
mod clashes;
#[allow(unsafe_code)]
pub mod ffi;
mod frames;
mod headers;
mod hex;
mod lookups;
mod refusal;
mod walk;
mod windows;

#[cfg(feature = "alloc")]
pub use crate::addresses::AddressMapBuf;
pub use crate::addresses::{
    AddressMap, ExtentBy, PdbInternalRva, PdbInternalRvaRangeIter, PdbInternalSectionOffset, Rva,
    RvaRangeIter, SectionOffset,
};
pub use crate::bundles::Bundle;
pub use crate::clashes::Sources;
pub use crate::frames::{FrameCursor, FrameData, FrameDataIter, FrameTable, FrameType, StringRef};
pub use crate::headers::{ImageSectionHeader, SectionCharacteristics, SectionTable};
pub use crate::lookups::{OMAPRecord, OMAPTable, QuickLookup};
pub use crate::refusal::{Refusal, Result};
pub use crate::windows::{Cursor, Piece, RangeIter, Step};
