//! Clashes and the way back: what pdb lacks.

use core::ops::Range;

use crate::ffi;
use crate::lookups::OMAPTable;
use crate::refusal::{answer, Result};

/// The addresses of a window that share a translation.
#[derive(Clone, Copy, Debug, Eq, Hash, PartialEq)]
pub enum Sources {
    /// No address of the window translates so.
    None,
    /// One address does.
    One(u32),
    /// Two or more do: the two least.
    Two(u32, u32),
}

/// ```
/// use gillacorn::{OMAPTable, Refusal, Sources};
///
/// let bytes: Vec<u8> = [0x1000u32, 0x5000, 0x1100, 0, 0x1200, 0x4000, 0x1300, 0x5080]
///     .iter()
///     .flat_map(|number| number.to_le_bytes())
///     .collect();
/// let table = OMAPTable::new(&bytes);
///
/// assert_eq!(table.clash(0x1000..0x1300)?, None);
/// assert_eq!(table.clash(0x800..0x1400)?, Some((0x1080, 0x1300)));
/// assert_eq!(table.way_back(0x800..0x1400, 0x50a0)?, Sources::Two(0x10a0, 0x1320));
/// assert_eq!(table.way_back(0x800..0x1400, 0x5100)?, Sources::One(0x1380));
/// # Ok::<(), Refusal>(())
/// ```
impl OMAPTable<'_> {
    /// The least pair of window addresses with one translation, or none where the window is
    /// single. Refusals 1, 2, 3 and 4.
    #[inline]
    pub fn clash(self, range: Range<u32>) -> Result<Option<(u32, u32)>> {
        let given = ffi::clash(self.0, range.start, range.end);
        answer(given.code, 0, (given.first, given.second))
    }

    /// The addresses of the window that translate to `target`. Refusals 1, 2, 3 and 4.
    #[inline]
    pub fn way_back(self, range: Range<u32>, target: u32) -> Result<Sources> {
        let given = ffi::way_back(self.0, range.start, range.end, target);
        let sources = match given.sources {
            1 => Sources::One(given.first),
            _ => Sources::Two(given.first, given.second),
        };
        Ok(answer(given.code, 0, sources)?.unwrap_or(Sources::None))
    }
}
