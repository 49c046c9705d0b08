//! Section headers, their names and flags.

use core::fmt;

#[cfg(feature = "alloc")]
use alloc::vec::Vec;

use crate::ffi::{self, for_each_flag};
use crate::hex::hex;
use crate::refusal::{answer, Result};

/// Characteristic flags of an [`ImageSectionHeader`].
///
/// ```
/// let code = gillacorn::SectionCharacteristics(0x6050_0020);
/// assert!(code.executable() && code.execute() && code.read() && !code.write());
/// assert_eq!(code.alignment(), Some(16));
/// ```
#[repr(transparent)]
#[derive(Clone, Copy, Default, Eq, Hash, PartialEq)]
pub struct SectionCharacteristics(
    /// The flags as a table holds them.
    pub u32,
);

hex!(SectionCharacteristics);

macro_rules! flag_methods {
    ($($(#[$doc:meta])* $flag:ident)*) => {
        impl SectionCharacteristics {$(
            $(#[$doc])*
            #[inline]
            pub fn $flag(self) -> bool {
                ffi::characteristics(self.0).$flag
            }
        )*}
    };
}

for_each_flag!(flag_methods);

impl SectionCharacteristics {
    /// Alignment for section data. `Some(1)` means that the section should not be padded to a
    /// boundary.
    #[inline]
    pub fn alignment(self) -> Option<u16> {
        let given = ffi::alignment(self.0);
        (given.code == 0).then_some(given.value as u16)
    }
}

impl fmt::Debug for SectionCharacteristics {
    /// As pdb has it: `{:#?}` tells the flags, `{:?}` the number.
    fn fmt(&self, f: &mut fmt::Formatter<'_>) -> fmt::Result {
        if !f.alternate() {
            return f
                .debug_tuple("ImageCharacteristics")
                .field(&format_args!("{:#x}", self.0))
                .finish();
        }
        let flags = ffi::characteristics(self.0);
        let mut shown = f.debug_struct("ImageCharacteristics");
        macro_rules! show {
            ($($flag:ident)*) => { $(shown.field(stringify!($flag), &flags.$flag);)* };
        }
        show!(executable initialized_data uninitialized_data info remove comdat);
        show!(defer_speculative_exceptions global_pointer_relative purgeable locked preload);
        shown.field("alignment", &self.alignment());
        show!(lnk_nreloc_ovfl discardable not_cached not_paged shared execute read write);
        shown.finish()
    }
}

/// A PE `IMAGE_SECTION_HEADER`.
#[derive(Clone, Copy, Default, Eq, Hash, PartialEq)]
pub struct ImageSectionHeader {
    /// An 8-byte, null-padded UTF-8 string.
    pub name: [u8; 8],
    /// The total size of the section when loaded into memory, in bytes.
    pub virtual_size: u32,
    /// The address of the first byte of the section when loaded, relative to the image base.
    pub virtual_address: u32,
    /// The size of the initialized data on disk, in bytes.
    pub size_of_raw_data: u32,
    /// A file pointer to the first page within the COFF file.
    pub pointer_to_raw_data: u32,
    /// A file pointer to the beginning of the relocation entries for the section.
    pub pointer_to_relocations: u32,
    /// A file pointer to the beginning of the line-number entries for the section.
    pub pointer_to_line_numbers: u32,
    /// The number of relocation entries for the section.
    pub number_of_relocations: u16,
    /// The number of line-number entries for the section.
    pub number_of_line_numbers: u16,
    /// The characteristics of the section.
    pub characteristics: SectionCharacteristics,
}

impl From<ffi::SectionHeader> for ImageSectionHeader {
    #[inline]
    fn from(header: ffi::SectionHeader) -> Self {
        ImageSectionHeader {
            name: header.name,
            virtual_size: header.virtual_size,
            virtual_address: header.virtual_address,
            size_of_raw_data: header.size_of_raw_data,
            pointer_to_raw_data: header.pointer_to_raw_data,
            pointer_to_relocations: header.pointer_to_relocations,
            pointer_to_line_numbers: header.pointer_to_line_numbers,
            number_of_relocations: header.number_of_relocations,
            number_of_line_numbers: header.number_of_line_numbers,
            characteristics: SectionCharacteristics(header.characteristics),
        }
    }
}

impl ImageSectionHeader {
    /// Returns the name of the section; empty where it is not UTF-8.
    #[inline]
    pub fn name(&self) -> &str {
        ffi::name_alone(&self.name)
    }
}

impl fmt::Debug for ImageSectionHeader {
    /// As pdb has it: the name as text, places in hexadecimal, sizes of files in decimal.
    fn fmt(&self, f: &mut fmt::Formatter<'_>) -> fmt::Result {
        let mut shown = f.debug_struct("ImageSectionHeader");
        shown.field("name()", &self.name());
        macro_rules! show {
            (hex $($field:ident)*) => {
                $(shown.field(stringify!($field), &format_args!("{:#x}", self.$field));)*
            };
            ($($field:ident)*) => { $(shown.field(stringify!($field), &self.$field);)* };
        }
        show!(hex virtual_size virtual_address);
        show!(size_of_raw_data);
        show!(hex pointer_to_raw_data pointer_to_relocations pointer_to_line_numbers);
        show!(number_of_relocations number_of_line_numbers characteristics);
        shown.finish()
    }
}

/// A table of section headers, lent as bytes.
///
/// ```
/// use gillacorn::{Refusal, SectionTable};
///
/// let mut bytes = vec![0; 40];
/// bytes[..5].copy_from_slice(b".text");
/// bytes[12..16].copy_from_slice(&0x1000u32.to_le_bytes());
/// bytes[16..20].copy_from_slice(&0x200u32.to_le_bytes());
/// let table = SectionTable::new(&bytes);
///
/// assert_eq!(table.name(1), ".text");
/// assert_eq!(table.header(0)?.unwrap().virtual_address, 0x1000);
/// assert_eq!(table.header(1)?, None);
/// assert_eq!(SectionTable::new(&bytes[1..]).header(0), Err(Refusal::Length));
/// # Ok::<(), Refusal>(())
/// ```
#[derive(Clone, Copy, Debug, Default, Eq, Hash, PartialEq)]
pub struct SectionTable<'t>(pub(crate) &'t [u8]);

impl<'t> SectionTable<'t> {
    /// Bytes in a header.
    pub const RECORD: usize = 40;

    /// A table over the given bytes. Each question checks them.
    #[inline]
    pub fn new(bytes: &'t [u8]) -> Self {
        SectionTable(bytes)
    }

    /// The header at a place from 0, or none past the last. Refusals 1 and 2.
    #[inline]
    pub fn header(self, place: usize) -> Result<Option<ImageSectionHeader>> {
        let given = ffi::header(self.0, place);
        answer(given.code, 0, given.header.into())
    }

    /// All headers, in order. Refusals 1 and 2.
    #[cfg(feature = "alloc")]
    pub fn headers(self) -> Result<Vec<ImageSectionHeader>> {
        let mut headers = Vec::new();
        while let Some(header) = self.header(headers.len())? {
            headers.push(header);
        }
        Ok(headers)
    }

    /// The name of the section with a number from 1: a part of the table's own bytes. Empty for a
    /// missing section, a name that is not UTF-8 and a table that would be refused.
    #[inline]
    pub fn name(self, number: u16) -> &'t str {
        ffi::name(self.0, number)
    }
}
