//! Bundles: the tables of one build in one file.

#[cfg(feature = "alloc")]
use alloc::vec::Vec;

use crate::addresses::{AddressMap, ExtentBy};
use crate::ffi;
use crate::frames::FrameTable;
#[cfg(feature = "alloc")]
use crate::refusal::Refusal;
use crate::refusal::{value, Result};

/// The tables of one build, each present or absent, as one file holds them: plain bytes one after the
/// other, then 56 bytes that say where each is. A part that is present and empty differs from an
/// absent one. What a part holds is not looked at: its own questions check it.
///
/// ```
/// use gillacorn::{Bundle, PdbInternalRva, Refusal, Rva};
///
/// let omap: Vec<u8> = [0x10u32, 0x100, 0x20, 0x110]
///     .iter()
///     .flat_map(|number| number.to_le_bytes())
///     .collect();
/// let bundle = Bundle {
///     to_original: Some(&omap),
///     new_frames: Some(&[]),
///     ..Bundle::default()
/// };
/// let file = bundle.to_vec()?;
/// assert_eq!(file.len(), omap.len() + 56);
///
/// let read = Bundle::read(&file)?;
/// assert_eq!(read, bundle);
/// assert_eq!(read.old_frames, None);
/// assert_eq!(Rva(0x1f).to_internal_rva(&read.address_map())?, Some(PdbInternalRva(0x10f)));
/// assert!(read.frame_table().is_empty()?);
///
/// // Cut short, it does not end in the mark.
/// assert_eq!(Bundle::read(&file[..file.len() - 1]), Err(Refusal::NotABundle));
/// # Ok::<(), Refusal>(())
/// ```
#[derive(Clone, Copy, Debug, Default, Eq, Hash, PartialEq)]
pub struct Bundle<'t> {
    /// The section headers before the executable was rearranged.
    pub original_sections: Option<&'t [u8]>,
    /// The section headers of the executable, where they differ.
    pub transformed_sections: Option<&'t [u8]>,
    /// The OMAP from the executable's addresses to the PDB's.
    pub to_original: Option<&'t [u8]>,
    /// The OMAP from the PDB's addresses to the executable's.
    pub to_transformed: Option<&'t [u8]>,
    /// Old frames, 16 bytes each.
    pub old_frames: Option<&'t [u8]>,
    /// New frames, 32 bytes each.
    pub new_frames: Option<&'t [u8]>,
}

impl<'t> Bundle<'t> {
    /// The parts of a file, as slices of it. Refusals 4, 8, 9 and 10.
    #[inline]
    pub fn read(file: &'t [u8]) -> Result<Self> {
        let given = ffi::bundle_read(file);
        let spans = value(given.code, 0, given.spans)?;
        Ok(Bundle {
            original_sections: part(file, spans.original_sections),
            transformed_sections: part(file, spans.transformed_sections),
            to_original: part(file, spans.to_original),
            to_transformed: part(file, spans.to_transformed),
            old_frames: part(file, spans.old_frames),
            new_frames: part(file, spans.new_frames),
        })
    }

    /// Writes the bundle to the first bytes of `out`; gives its length. Refusals 4 and 5, with nothing
    /// written. Bytes past the bundle stay as they are.
    ///
    /// ```
    /// use gillacorn::{Bundle, Refusal};
    ///
    /// let bundle = Bundle { to_original: Some(&[7; 8]), ..Bundle::default() };
    /// let mut out = [0; 65];
    /// assert_eq!(bundle.write(&mut out[..63]), Err(Refusal::Short { needed: 64 }));
    /// assert_eq!(bundle.write(&mut out)?, 64);
    /// assert_eq!(Bundle::read(&out[..64])?, bundle);
    /// # Ok::<(), Refusal>(())
    /// ```
    #[inline]
    pub fn write(&self, out: &mut [u8]) -> Result<usize> {
        let (map, frames) = (self.address_map().lent(), self.frame_table().lent());
        let given = ffi::bundle_write(&map, &frames, out);
        value(given.code, given.bytes, given.bytes)
    }

    /// The bundle as bytes of its own. Refusal 4.
    #[cfg(feature = "alloc")]
    pub fn to_vec(&self) -> Result<Vec<u8>> {
        let mut file = Vec::new();
        // Without room, the length is told.
        if let Err(Refusal::Short { needed }) = self.write(&mut file) {
            file.resize(needed, 0);
        }
        self.write(&mut file)?;
        Ok(file)
    }

    /// The address map over its sections and OMAP tables, with sections by their size in memory.
    #[inline]
    pub fn address_map(&self) -> AddressMap<'t> {
        AddressMap {
            original_sections: self.original_sections,
            transformed_sections: self.transformed_sections,
            to_original: self.to_original,
            to_transformed: self.to_transformed,
            extent_by: ExtentBy::default(),
        }
    }

    /// The table of its frames.
    #[inline]
    pub fn frame_table(&self) -> FrameTable<'t> {
        FrameTable::new(self.old_frames, self.new_frames)
    }
}

/// The bytes of a part, which lie in the file that its span was read from.
#[inline]
fn part(file: &[u8], span: ffi::Span) -> Option<&[u8]> {
    let rest = file.get(span.start as usize..)?;
    let bytes = rest.get(..span.length as usize)?;
    span.present.then_some(bytes)
}

#[cfg(all(test, feature = "alloc"))]
mod tests {
    use alloc::vec;

    use super::*;

    const ABSENT: u32 = u32::MAX;

    /// A file: the bytes of its parts, then a trailer of these numbers and the mark.
    fn file(parts: &[u8], spans: [(u32, u32); 6], version: u32) -> Vec<u8> {
        let mut file = parts.to_vec();
        for number in spans.iter().flat_map(|&(start, length)| [start, length]) {
            file.extend(number.to_le_bytes());
        }
        file.extend(version.to_le_bytes());
        file.extend(b"BACK");
        file
    }

    const NONE: [(u32, u32); 6] = [(ABSENT, ABSENT); 6];

    #[test]
    fn what_is_written_is_read() {
        let tables: [&[u8]; 6] = [&[1; 40], &[2; 80], &[3; 8], &[4; 16], &[5; 16], &[6; 32]];
        for present in 0..64 {
            let part = |place: usize| (present >> place & 1 == 1).then_some(tables[place]);
            let bundle = Bundle {
                original_sections: part(0),
                transformed_sections: part(1),
                to_original: part(2),
                to_transformed: part(3),
                old_frames: part(4),
                new_frames: part(5),
            };
            let (mut spans, mut parts) = (NONE, Vec::new());
            for place in 0..6 {
                if let Some(table) = part(place) {
                    spans[place] = (parts.len() as u32, table.len() as u32);
                    parts.extend(table);
                }
            }
            let expected = file(&parts, spans, 1);
            assert_eq!(bundle.to_vec().as_ref(), Ok(&expected));
            assert_eq!(Bundle::read(&expected), Ok(bundle));
        }
    }

    #[test]
    fn an_empty_part_is_not_an_absent_one() {
        let empty = Bundle {
            to_original: Some(&[]),
            ..Bundle::default()
        };
        let mut spans = NONE;
        spans[2] = (0, 0);
        assert_eq!(empty.to_vec(), Ok(file(&[], spans, 1)));
        assert_eq!(Bundle::read(&file(&[], spans, 1)), Ok(empty));
        assert_eq!(Bundle::read(&file(&[], NONE, 1)), Ok(Bundle::default()));
        assert_eq!(Bundle::default().to_vec(), Ok(file(&[], NONE, 1)));
    }

    #[test]
    fn without_room_nothing_is_written() {
        let bundle = Bundle {
            old_frames: Some(&[7; 16]),
            ..Bundle::default()
        };
        for room in [0, 1, 56, 71] {
            let mut out = vec![9; room];
            assert_eq!(bundle.write(&mut out), Err(Refusal::Short { needed: 72 }));
            assert_eq!(out, vec![9; room]);
        }
        let mut out = vec![9; 80];
        assert_eq!(bundle.write(&mut out), Ok(72));
        assert_eq!(Bundle::read(&out[..72]), Ok(bundle));
        assert_eq!(out[72..], [9; 8]);
    }

    #[test]
    fn a_file_without_the_mark_is_no_bundle() {
        let good = file(&[], NONE, 1);
        for length in 0..56 {
            let refused = Err(Refusal::NotABundle);
            assert_eq!(Bundle::read(&good[..length]), refused);
            assert_eq!(Bundle::read(&good[56 - length..]), refused);
        }
        for place in 52..56 {
            // The mark is tested before the version.
            let mut other = file(&[], NONE, 2);
            other[place] ^= 0x20;
            assert_eq!(Bundle::read(&other), Err(Refusal::NotABundle));
        }
    }

    #[test]
    fn another_version_is_refused_before_the_layout() {
        for version in [0, 2, 0x100, 0x0100_0000, u32::MAX] {
            let other = file(&[], [(1, 0); 6], version);
            assert_eq!(Bundle::read(&other), Err(Refusal::OtherVersion));
        }
    }

    #[test]
    fn parts_that_break_the_layout_are_refused() {
        let layouts = [
            [(0, ABSENT), (ABSENT, 0)],           // half absent
            [(ABSENT, ABSENT), (ABSENT, ABSENT)], // nothing holds the bytes
            [(0, 7), (ABSENT, ABSENT)],           // ends before the trailer
            [(0, 9), (ABSENT, ABSENT)],           // ends in the trailer
            [(1, 7), (ABSENT, ABSENT)],           // begins late
            [(0, 4), (5, 3)],                     // a gap
            [(0, 5), (4, 4)],                     // an overlap
            [(4, 4), (0, 4)],                     // turned
            [(0, 8), (0, 0)],                     // empty, at another place
            [(0, 8), (8, ABSENT - 1)],            // past 32 bits
        ];
        for [first, second] in layouts {
            let mut spans = NONE;
            spans[1] = first;
            spans[4] = second;
            let read = file(&[0; 8], spans, 1);
            assert_eq!(Bundle::read(&read), Err(Refusal::Layout), "{spans:?}");
        }
    }

    #[test]
    fn a_whole_length_past_32_bits_is_refused_first() {
        const MOST: usize = u32::MAX as usize;
        let share = (MOST - 56) / 6;
        let last = MOST - 56 - 5 * share;
        // Six times the same bytes, of which none is read.
        let table = vec![0; last + 1];
        let mut bundle = Bundle {
            original_sections: Some(&table[..share]),
            transformed_sections: Some(&table[..share]),
            to_original: Some(&table[..share]),
            to_transformed: Some(&table[..share]),
            old_frames: Some(&table[..share]),
            new_frames: Some(&table[..last]),
        };
        let refused = Err(Refusal::Short { needed: MOST });
        assert_eq!(bundle.write(&mut []), refused);
        bundle.new_frames = Some(&table);
        assert_eq!(bundle.write(&mut []), Err(Refusal::TooLarge));
        assert_eq!(bundle.to_vec(), Err(Refusal::TooLarge));
        drop(table);

        // Where a machine has that much.
        if Vec::<u8>::new().try_reserve_exact(MOST + 1).is_ok() {
            assert_eq!(Bundle::read(&vec![0; MOST + 1]), Err(Refusal::TooLarge));
        }
    }
}
