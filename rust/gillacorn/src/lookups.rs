//! OMAP tables: their records, and the translation of one address.

use core::fmt;

use crate::ffi;
use crate::refusal::{answer, Result};

/// A record of an [`OMAPTable`]: it owns the addresses from its source up to the next source.
#[derive(Clone, Copy, Eq, Hash, PartialEq)]
pub struct OMAPRecord {
    /// The first address in the source space.
    pub source_address: u32,
    /// Its translation; 0 if these addresses have none.
    pub target_address: u32,
}

impl fmt::Debug for OMAPRecord {
    fn fmt(&self, f: &mut fmt::Formatter<'_>) -> fmt::Result {
        let (source, target) = (self.source_address, self.target_address);
        f.debug_struct("OMAPRecord")
            .field("source_address", &format_args!("{source:#010x}"))
            .field("target_address", &format_args!("{target:#010x}"))
            .finish()
    }
}

/// What a [quick lookup](OMAPTable::quick_lookup) gives.
#[derive(Clone, Copy, Debug, Eq, Hash, PartialEq)]
pub struct QuickLookup {
    /// The translation, or none in a hole.
    pub target_address: Option<u32>,
    /// How many records the search probed: 21 at most.
    pub probes: u32,
}

/// An OMAP table, lent as bytes: 8 for each record, source and target.
///
/// ```
/// use gillacorn::{OMAPTable, Refusal};
///
/// let bytes: Vec<u8> = [0x10u32, 0x100, 0x20, 0x110]
///     .iter()
///     .flat_map(|number| number.to_le_bytes())
///     .collect();
/// let table = OMAPTable::new(&bytes);
///
/// assert_eq!(table.lookup(0x1f)?, Some(0x10f));
/// assert_eq!(table.lookup(0xf)?, None);
/// # Ok::<(), Refusal>(())
/// ```
#[derive(Clone, Copy, Debug, Default, Eq, Hash, PartialEq)]
pub struct OMAPTable<'t>(pub(crate) &'t [u8]);

impl<'t> OMAPTable<'t> {
    /// Bytes in a record.
    pub const RECORD: usize = 8;

    /// A table over the given bytes. Each question checks them.
    #[inline]
    pub fn new(bytes: &'t [u8]) -> Self {
        OMAPTable(bytes)
    }

    /// The record at a place from 0, or none past the last. Refusals 1 and 2.
    #[inline]
    pub fn record(self, place: usize) -> Result<Option<OMAPRecord>> {
        let given = ffi::record_at(self.0, place);
        let record = OMAPRecord {
            source_address: given.source,
            target_address: given.target,
        };
        answer(given.code, 0, record)
    }

    /// The translation of an address, or none in a hole. Refusals 1, 2, 3 and 4.
    ///
    /// The order is tested each time, so every question reads the whole table. Where the table has
    /// been checked once, [`quick_lookup`](Self::quick_lookup) answers the same.
    #[inline]
    pub fn lookup(self, source_address: u32) -> Result<Option<u32>> {
        let given = ffi::lookup(Some(self.0).into(), source_address);
        answer(given.code, 0, given.value)
    }
    /// The translation by a binary search alone, and the number of records that it probed: for a
    /// table whose order is known, by a [`lookup`](Self::lookup) or another question that was not
    /// refused. On a table out of order, which is not refused, the answer means nothing. Refusals 1,
    /// 2 and 4.
    ///
    /// ```
    /// # use gillacorn::{OMAPTable, Refusal};
    /// # let bytes: Vec<u8> = [0x10u32, 0x100, 0x20, 0x110].iter().flat_map(|n| n.to_le_bytes()).collect();
    /// let table = OMAPTable::new(&bytes);
    /// table.lookup(0)?; // 1, 2 or 3 if the table is no good
    /// for address in [0x1f, 0x2f] {
    ///     let quick = table.quick_lookup(address)?;
    ///     assert_eq!(quick.target_address, table.lookup(address)?);
    ///     assert!(quick.probes <= 2);
    /// }
    /// # Ok::<(), Refusal>(())
    /// ```
    #[inline]
    pub fn quick_lookup(self, source_address: u32) -> Result<QuickLookup> {
        let given = ffi::quick_lookup(Some(self.0).into(), source_address);
        Ok(QuickLookup {
            target_address: answer(given.code, 0, given.value)?,
            probes: given.probes,
        })
    }
}
