//! Addresses: from an address to its section and back, and the address map, which has every
//! conversion between the four kinds of address.

mod extent;
mod kinds;
mod map;

pub use self::extent::ExtentBy;
pub use self::kinds::{PdbInternalRva, PdbInternalSectionOffset, Rva, SectionOffset};
#[cfg(feature = "alloc")]
pub use self::map::AddressMapBuf;
pub use self::map::{AddressMap, PdbInternalRvaRangeIter, RvaRangeIter};
use crate::ffi;
use crate::headers::SectionTable;
use crate::refusal::{answer, Result};

impl SectionTable<'_> {
    /// The section, from 1, and the offset in it of an address: the first section that holds it in
    /// memory, sought up to the first header that begins later. Refusals 1 and 2.
    #[inline]
    pub fn section_offset(self, address: u32) -> Result<Option<SectionOffset>> {
        self.section_offset_by(ExtentBy::default(), address)
    }

    /// As [`section_offset`](Self::section_offset), by the size that is chosen.
    #[inline]
    pub fn section_offset_by(self, by: ExtentBy, address: u32) -> Result<Option<SectionOffset>> {
        let given = ffi::section_offset_by(by.by_raw_size(), self.0, address);
        let offset = SectionOffset::new(given.section, given.offset);
        answer(given.code, 0, offset)
    }

    /// The address of an offset in a section; none for section 0 and past the last. The offset is
    /// not compared with the section's size. Refusals 1, 2 and 4.
    #[inline]
    pub fn virtual_address(self, section: u16, offset: u32) -> Result<Option<u32>> {
        let given = ffi::virtual_address(self.0, section, offset);
        answer(given.code, 0, given.value)
    }
}

/// An address out of an answer of the face.
trait Given<Raw>: Sized {
    fn given(raw: Raw) -> Result<Option<Self>>;
}

macro_rules! given {
    (rva $type:ident) => {
        impl Given<ffi::ValueAnswer> for $type {
            #[inline]
            fn given(raw: ffi::ValueAnswer) -> Result<Option<Self>> {
                answer(raw.code, 0, $type(raw.value))
            }
        }
    };
    (offset $type:ident) => {
        impl Given<ffi::OffsetAnswer> for $type {
            #[inline]
            fn given(raw: ffi::OffsetAnswer) -> Result<Option<Self>> {
                answer(raw.code, 0, $type::new(raw.section, raw.offset))
            }
        }
    };
}

given!(rva Rva);
given!(rva PdbInternalRva);
given!(offset SectionOffset);
given!(offset PdbInternalSectionOffset);

/// Asks the face for a conversion of an rva or of a section offset.
macro_rules! ask {
    (rva $from:ident, $face:ident($($by:expr)?), $map:expr) => {
        ffi::$face($($by,)? $from.0, $map)
    };
    (offset $from:ident, $face:ident($($by:expr)?), $map:expr) => {
        ffi::$face($($by,)? $from.section, $from.offset, $map)
    };
}

/// Conversions; `(extent_by)` stands at those that end in a section.
macro_rules! conversions {
    ($kind:ident $from:ident {$(
        $(#[$doc:meta])* $name:ident -> $to:ident = $face:ident($($extent_by:ident)?);
    )*}) => {
        impl $from {$(
            $(#[$doc])*
            #[inline]
            pub fn $name(self, translator: &AddressMap<'_>) -> Result<Option<$to>> {
                let map = &translator.lent();
                $to::given(ask!($kind self, $face($(translator.$extent_by.by_raw_size())?), map))
            }
        )*}
    };
}

conversions! { rva Rva {
    /// Resolves a PDB-internal Relative Virtual Address.
    to_internal_rva -> PdbInternalRva = rva_to_internal_rva();
    /// Resolves the section offset in the PE headers.
    to_section_offset -> SectionOffset = rva_to_section_offset_by(extent_by);
    /// Resolves the PDB internal section offset.
    to_internal_offset -> PdbInternalSectionOffset = rva_to_internal_offset_by(extent_by);
} }

conversions! { rva PdbInternalRva {
    /// Resolves an actual Relative Virtual Address in the executable's address space.
    to_rva -> Rva = internal_rva_to_rva();
    /// Resolves the section offset in the PE headers.
    to_section_offset -> SectionOffset = internal_rva_to_section_offset_by(extent_by);
    /// Resolves the PDB internal section offset.
    to_internal_offset -> PdbInternalSectionOffset = internal_rva_to_internal_offset_by(extent_by);
} }

conversions! { offset SectionOffset {
    /// Resolves an actual Relative Virtual Address in the executable's address space.
    to_rva -> Rva = offset_to_rva();
    /// Resolves a PDB-internal Relative Virtual Address.
    to_internal_rva -> PdbInternalRva = offset_to_internal_rva();
    /// Resolves the PDB internal section offset.
    to_internal_offset -> PdbInternalSectionOffset = offset_to_internal_offset_by(extent_by);
} }

conversions! { offset PdbInternalSectionOffset {
    /// Resolves an actual Relative Virtual Address in the executable's address space.
    to_rva -> Rva = internal_offset_to_rva();
    /// Resolves a PDB-internal Relative Virtual Address.
    to_internal_rva -> PdbInternalRva = internal_offset_to_internal_rva();
    /// Resolves the section offset in the PE headers.
    to_section_offset -> SectionOffset = internal_offset_to_section_offset_by(extent_by);
} }

#[cfg(test)]
mod tests {
    use super::*;
    use crate::bundles::Bundle;

    /// A header of a section of 300h bytes in memory and 200h on disk.
    fn header(address: u32) -> [u8; 40] {
        let mut header = [0; 40];
        header[8..12].copy_from_slice(&0x300u32.to_le_bytes());
        header[12..16].copy_from_slice(&address.to_le_bytes());
        header[16..20].copy_from_slice(&0x200u32.to_le_bytes());
        header
    }

    fn omap(source: u32, target: u32) -> [u8; 8] {
        let mut record = [0; 8];
        record[..4].copy_from_slice(&source.to_le_bytes());
        record[4..].copy_from_slice(&target.to_le_bytes());
        record
    }

    /// The section that the PDB has as its second, at 2000h, was moved to 1000h.
    fn moved(map: &AddressMap<'_>, offset: u32, found: bool) {
        let rva = Rva(0x1000 + offset);
        let internal = PdbInternalRva(0x2000 + offset);
        let section = SectionOffset::new(1, offset);
        let internal_section = PdbInternalSectionOffset::new(2, offset);
        let to = Ok(found.then_some(section));
        let to_internal = Ok(found.then_some(internal_section));
        assert_eq!(rva.to_section_offset(map), to);
        assert_eq!(rva.to_internal_offset(map), to_internal);
        assert_eq!(internal.to_section_offset(map), to);
        assert_eq!(internal.to_internal_offset(map), to_internal);
        assert_eq!(section.to_internal_offset(map), to_internal);
        assert_eq!(internal_section.to_section_offset(map), to);
        // These compare no size.
        assert_eq!(rva.to_internal_rva(map), Ok(Some(internal)));
        assert_eq!(internal.to_rva(map), Ok(Some(rva)));
        assert_eq!(section.to_rva(map), Ok(Some(rva)));
        assert_eq!(section.to_internal_rva(map), Ok(Some(internal)));
        assert_eq!(internal_section.to_rva(map), Ok(Some(rva)));
        assert_eq!(internal_section.to_internal_rva(map), Ok(Some(internal)));
    }

    #[test]
    fn a_map_finds_sections_by_the_size_that_it_says() {
        let mut original = [0; 80];
        original[..40].copy_from_slice(&header(0x400));
        original[40..].copy_from_slice(&header(0x2000));
        let transformed = header(0x1000);
        let (to_original, to_transformed) = (omap(0x1000, 0x2000), omap(0x2000, 0x1000));
        let by_default = AddressMap {
            original_sections: Some(&original),
            transformed_sections: Some(&transformed),
            to_original: Some(&to_original),
            to_transformed: Some(&to_transformed),
            ..AddressMap::default()
        };
        let by_memory_size = AddressMap {
            extent_by: ExtentBy::MemorySize,
            ..by_default
        };
        let by_raw_size = AddressMap {
            extent_by: ExtentBy::RawSize,
            ..by_default
        };
        for (offset, in_memory, on_disk) in [
            (0, true, true),
            (0x1ff, true, true),
            (0x200, true, false),
            (0x2ff, true, false),
            (0x300, false, false),
        ] {
            moved(&by_default, offset, in_memory);
            moved(&by_memory_size, offset, in_memory);
            moved(&by_raw_size, offset, on_disk);
        }
    }

    const TABLES: AddressMap<'_> = AddressMap {
        original_sections: Some(&[1; 40]),
        transformed_sections: Some(&[2; 40]),
        to_original: Some(&[3; 8]),
        to_transformed: Some(&[4; 8]),
        extent_by: ExtentBy::MemorySize,
    };

    #[cfg(feature = "alloc")]
    #[test]
    fn a_map_that_owns_its_bytes_keeps_the_choice() {
        for extent_by in [ExtentBy::MemorySize, ExtentBy::RawSize] {
            let map = AddressMap {
                extent_by,
                ..TABLES
            };
            assert_eq!(AddressMapBuf::from(map).as_map(), map);
        }
    }

    #[test]
    fn the_map_of_a_bundle_is_by_memory_size() {
        let bundle = Bundle {
            original_sections: TABLES.original_sections,
            transformed_sections: TABLES.transformed_sections,
            to_original: TABLES.to_original,
            to_transformed: TABLES.to_transformed,
            ..Bundle::default()
        };
        assert_eq!(bundle.address_map(), TABLES);
    }
}
