//! The tables of an address map, lent or owned, and its ranges.

use core::iter::FusedIterator;
use core::ops::Range;

#[cfg(feature = "alloc")]
use alloc::vec::Vec;

use super::extent::ExtentBy;
use super::kinds::{PdbInternalRva, Rva};
use crate::ffi;
use crate::refusal::Result;
use crate::windows::{window, RangeIter};

/// A mapping between addresses and offsets used in the PDB and PE file.
///
/// # Four kinds of address
///
/// A PDB is written when the linker has placed the code. A later tool may cut the executable into
/// blocks and place them anew, so that what is used most lies together. The PDB keeps the old
/// addresses, and gets two OMAP tables that say which old address became which new one. So there
/// are two spaces, and an address of either is counted from the image base or from a section:
///
/// | | of the executable as it runs | as the PDB stores it |
/// |---|---|---|
/// | from the image base | [`Rva`] | [`PdbInternalRva`] |
/// | from a section | [`SectionOffset`] | [`PdbInternalSectionOffset`] |
///
/// - A sample, a stack trace and a debugger have an [`Rva`].
/// - Symbols in a PDB have a [`PdbInternalSectionOffset`], frames a [`PdbInternalRva`].
/// - A section number counts from 1; 0 is no section.
///
/// Where nothing was moved the OMAP tables and the transformed sections are absent, and an address
/// is the same number in both spaces. The types stay apart, since no one sees from an address
/// whether its executable was moved: every change of kind takes the map.
///
/// # Tables
///
/// They are lent as bytes, each present or absent; `AddressMapBuf` owns them. A conversion reads
/// the tables on its path alone, and refuses at the first step that fails.
///
/// ```
/// use gillacorn::{AddressMap, PdbInternalSectionOffset, Refusal, Rva};
///
/// let mut sections = [0; 40];
/// sections[12..16].copy_from_slice(&0x1000u32.to_le_bytes());
/// sections[16..20].copy_from_slice(&0x200u32.to_le_bytes());
/// let map = AddressMap {
///     original_sections: Some(&sections),
///     ..AddressMap::default()
/// };
///
/// let offset = PdbInternalSectionOffset::new(1, 0x1ff);
/// assert_eq!(offset.to_rva(&map)?, Some(Rva(0x11ff)));
/// assert_eq!(Rva(0x11ff).to_internal_offset(&map)?, Some(offset));
/// assert_eq!(Rva(0x1200).to_internal_offset(&map)?, None);
/// # Ok::<(), Refusal>(())
/// ```
///
/// # Zero-filled data
///
/// A conversion that ends in a section compares the address with the section's size in memory, so
/// that one in the zeros behind its raw data is found. pdb 0.8 compares the size on disk, and has a
/// hole there: who needs the answers that it gives says so in the map. [`ExtentBy`] has more of it.
///
/// ```
/// use gillacorn::{AddressMap, ExtentBy, Refusal, Rva, SectionOffset};
///
/// // 300h bytes in memory, of which the file has 200h.
/// let mut sections = [0; 40];
/// sections[8..12].copy_from_slice(&0x300u32.to_le_bytes());
/// sections[12..16].copy_from_slice(&0x1000u32.to_le_bytes());
/// sections[16..20].copy_from_slice(&0x200u32.to_le_bytes());
/// let map = AddressMap {
///     original_sections: Some(&sections),
///     ..AddressMap::default()
/// };
/// let as_pdb = AddressMap { extent_by: ExtentBy::RawSize, ..map };
///
/// assert_eq!(Rva(0x1250).to_section_offset(&map)?, Some(SectionOffset::new(1, 0x250)));
/// assert_eq!(Rva(0x1250).to_section_offset(&as_pdb)?, None);
/// # Ok::<(), Refusal>(())
/// ```
///
/// [`SectionOffset`]: crate::SectionOffset
/// [`PdbInternalSectionOffset`]: crate::PdbInternalSectionOffset
#[derive(Clone, Copy, Debug, Default, Eq, Hash, PartialEq)]
pub struct AddressMap<'t> {
    /// The section headers before the executable was rearranged; absent ones count as none.
    pub original_sections: Option<&'t [u8]>,
    /// The section headers of the executable, where they differ.
    pub transformed_sections: Option<&'t [u8]>,
    /// The OMAP from the executable's addresses to the PDB's.
    pub to_original: Option<&'t [u8]>,
    /// The OMAP from the PDB's addresses to the executable's.
    pub to_transformed: Option<&'t [u8]>,
    /// How far a section reaches, for the conversions that end in one.
    pub extent_by: ExtentBy,
}

impl<'t> AddressMap<'t> {
    /// Resolves actual ranges in the executable's address space. Refusals 1, 2 and 3 are the first
    /// item, 4 comes in the place of its range; either is the last item.
    ///
    /// ```
    /// use gillacorn::{AddressMap, PdbInternalRva, Refusal, Rva};
    ///
    /// let whole = PdbInternalRva(0x10)..PdbInternalRva(0x20);
    /// for range in AddressMap::default().rva_ranges(whole.clone()) {
    ///     assert_eq!(range?, Rva(0x10)..Rva(0x20));
    /// }
    ///
    /// let damaged = AddressMap { to_transformed: Some(&[0; 7]), ..AddressMap::default() };
    /// let mut ranges = damaged.rva_ranges(whole);
    /// assert_eq!(ranges.next(), Some(Err(Refusal::Length)));
    /// assert_eq!(ranges.next(), None);
    /// # Ok::<(), Refusal>(())
    /// ```
    ///
    /// A line that takes the item for a range, as pdb's users have it, does not compile:
    ///
    /// ```compile_fail
    /// # use gillacorn::{AddressMap, PdbInternalRva};
    /// for range in AddressMap::default().rva_ranges(PdbInternalRva(1)..PdbInternalRva(2)) {
    ///     println!("{}", range.start);
    /// }
    /// ```
    #[inline]
    pub fn rva_ranges(&self, range: Range<PdbInternalRva>) -> RvaRangeIter<'t> {
        let range = range.start.0..range.end.0;
        RvaRangeIter(RangeIter::start(self.to_transformed, range))
    }

    /// Resolves ranges in the PDB's address space, with refusals as [`rva_ranges`] has them.
    ///
    /// [`rva_ranges`]: Self::rva_ranges
    #[inline]
    pub fn internal_rva_ranges(&self, range: Range<Rva>) -> PdbInternalRvaRangeIter<'t> {
        let range = range.start.0..range.end.0;
        PdbInternalRvaRangeIter(RangeIter::start(self.to_original, range))
    }

    /// As [`rva_ranges`](Self::rva_ranges), all at once, as [`OMAPTable::window`] gives them.
    ///
    /// [`OMAPTable::window`]: crate::OMAPTable::window
    #[inline]
    pub fn rva_window(&self, range: Range<PdbInternalRva>, out: &mut [u32]) -> Result<usize> {
        window(self.to_transformed, range.start.0..range.end.0, out)
    }

    /// As [`internal_rva_ranges`](Self::internal_rva_ranges), all at once, as
    /// [`OMAPTable::window`] gives them.
    ///
    /// [`OMAPTable::window`]: crate::OMAPTable::window
    #[inline]
    pub fn internal_rva_window(&self, range: Range<Rva>, out: &mut [u32]) -> Result<usize> {
        window(self.to_original, range.start.0..range.end.0, out)
    }

    #[inline]
    pub(crate) fn lent(&self) -> ffi::Map<'t> {
        ffi::Map {
            original_sections: self.original_sections.into(),
            transformed_sections: self.transformed_sections.into(),
            to_original: self.to_original.into(),
            to_transformed: self.to_transformed.into(),
        }
    }
}

/// An [`AddressMap`] that owns its bytes, to be kept in a struct.
///
/// ```
/// use gillacorn::{AddressMapBuf, PdbInternalRva, Refusal, Rva};
///
/// struct Image {
///     map: AddressMapBuf,
/// }
///
/// let image = Image { map: AddressMapBuf::default() };
/// assert_eq!(Rva(5).to_internal_rva(&image.map.as_map())?, Some(PdbInternalRva(5)));
/// # Ok::<(), Refusal>(())
/// ```
#[cfg(feature = "alloc")]
#[derive(Clone, Debug, Default, Eq, Hash, PartialEq)]
pub struct AddressMapBuf {
    /// The section headers before the executable was rearranged; absent ones count as none.
    pub original_sections: Option<Vec<u8>>,
    /// The section headers of the executable, where they differ.
    pub transformed_sections: Option<Vec<u8>>,
    /// The OMAP from the executable's addresses to the PDB's.
    pub to_original: Option<Vec<u8>>,
    /// The OMAP from the PDB's addresses to the executable's.
    pub to_transformed: Option<Vec<u8>>,
    /// How far a section reaches, for the conversions that end in one.
    pub extent_by: ExtentBy,
}

#[cfg(feature = "alloc")]
impl AddressMapBuf {
    /// The map that lends these tables.
    #[inline]
    pub fn as_map(&self) -> AddressMap<'_> {
        AddressMap {
            original_sections: self.original_sections.as_deref(),
            transformed_sections: self.transformed_sections.as_deref(),
            to_original: self.to_original.as_deref(),
            to_transformed: self.to_transformed.as_deref(),
            extent_by: self.extent_by,
        }
    }
}

#[cfg(feature = "alloc")]
impl From<AddressMap<'_>> for AddressMapBuf {
    /// Copies the tables.
    fn from(map: AddressMap<'_>) -> Self {
        AddressMapBuf {
            original_sections: map.original_sections.map(Vec::from),
            transformed_sections: map.transformed_sections.map(Vec::from),
            to_original: map.to_original.map(Vec::from),
            to_transformed: map.to_transformed.map(Vec::from),
            extent_by: map.extent_by,
        }
    }
}

macro_rules! range_iter {
    ($(#[$doc:meta])* $name:ident over $address:ident) => {
        $(#[$doc])*
        /// A refusal is its last item.
        #[derive(Clone, Debug, Default)]
        #[must_use = "a refusal is told as an item"]
        pub struct $name<'t>(RangeIter<'t>);

        impl Iterator for $name<'_> {
            type Item = Result<Range<$address>>;

            #[inline]
            fn next(&mut self) -> Option<Self::Item> {
                let piece = self.0.next()?;
                Some(piece.map(|range| $address(range.start)..$address(range.end)))
            }
        }

        impl FusedIterator for $name<'_> {}
    };
}

range_iter! {
    /// Iterator over [`Rva`] ranges returned by [`AddressMap::rva_ranges`].
    RvaRangeIter over Rva
}

range_iter! {
    /// Iterator over [`PdbInternalRva`] ranges returned by [`AddressMap::internal_rva_ranges`].
    PdbInternalRvaRangeIter over PdbInternalRva
}
