//! The choice of the size with which an address is compared.

/// How far a section reaches, where the section of an address is sought.
///
/// A section has two sizes. `virtual_size` is the one in memory: where it is greater than
/// `size_of_raw_data`, the one on disk, the loader fills the rest with zeros. Variables that begin
/// as zero are there, and a sample may point at one. So the default is the size in memory.
///
/// pdb 0.8 compares the size on disk. Who needs the answers that it gives takes
/// [`RawSize`](Self::RawSize), and gets a hole for every address in zero-filled data.
///
/// ```
/// use gillacorn::{ExtentBy, Refusal, SectionOffset, SectionTable};
///
/// // A section at 1000h: 300h bytes in memory, of which the file has 200h.
/// let mut header = [0; 40];
/// header[8..12].copy_from_slice(&0x300u32.to_le_bytes());
/// header[12..16].copy_from_slice(&0x1000u32.to_le_bytes());
/// header[16..20].copy_from_slice(&0x200u32.to_le_bytes());
/// let table = SectionTable::new(&header);
///
/// // 1250h is behind the raw data.
/// assert_eq!(table.section_offset(0x1250)?, Some(SectionOffset::new(1, 0x250)));
/// assert_eq!(table.section_offset_by(ExtentBy::RawSize, 0x1250)?, None);
/// # Ok::<(), Refusal>(())
/// ```
///
/// [`AddressMap::extent_by`](crate::AddressMap::extent_by) is the choice for a map's conversions.
#[derive(Clone, Copy, Debug, Default, Eq, Hash, PartialEq)]
pub enum ExtentBy {
    /// As far as it does when loaded: `virtual_size`, or `size_of_raw_data` where that is 0. Padding
    /// of the file past `virtual_size` is not in the section.
    #[default]
    MemorySize,
    /// As far as its data on disk: `size_of_raw_data`. The rule of pdb 0.8.
    RawSize,
}

impl ExtentBy {
    /// The choice as the face takes it.
    #[inline]
    pub(crate) fn by_raw_size(self) -> bool {
        self == ExtentBy::RawSize
    }
}
