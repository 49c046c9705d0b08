//! Windows: all pieces at once, as a list, or one by one.

use core::iter::FusedIterator;
use core::ops::Range;

use crate::ffi::{self, Lent};
pub use crate::ffi::{Cursor, Piece};
use crate::lookups::OMAPTable;
use crate::refusal::{answer, value, Result};
use crate::walk::Walk;

/// ```
/// use gillacorn::{OMAPTable, Refusal};
///
/// let bytes: Vec<u8> = [0x10u32, 0x100, 0x20, 0x110]
///     .iter()
///     .flat_map(|number| number.to_le_bytes())
///     .collect();
/// let table = OMAPTable::new(&bytes);
///
/// // The pieces of a window, one by one or all at once. Neighbours are never joined.
/// let pieces: Result<Vec<_>, _> = table.lookup_range(0x10..0x30).collect();
/// assert_eq!(pieces?, [0x100..0x110, 0x110..0x120]);
/// let mut out = [0; 4];
/// assert_eq!(table.window(0x10..0x30, &mut out)?, 2);
/// assert_eq!(out, [0x100, 0x110, 0x110, 0x120]);
///
/// // No room: nothing is written, and the number of pieces is told.
/// assert_eq!(table.window(0x10..0x30, &mut out[..3]), Err(Refusal::Short { needed: 2 }));
/// # Ok::<(), Refusal>(())
/// ```
impl<'t> OMAPTable<'t> {
    /// The pieces of a window, one by one. Refusals 1, 2 and 3 are the first item, 4 comes in the
    /// place of its piece; either is the last item.
    #[inline]
    pub fn lookup_range(self, range: Range<u32>) -> RangeIter<'t> {
        RangeIter::start(Some(self.0), range)
    }

    /// The pieces of a window, written to `out` as pairs of start and excluded end; gives their
    /// number. Refusals 1, 2, 3, 4 and 5, with nothing written. An odd last place of `out` holds
    /// no piece, and places past the pieces stay as they are.
    #[inline]
    pub fn window(self, range: Range<u32>, out: &mut [u32]) -> Result<usize> {
        window(Some(self.0), range, out)
    }

    /// As [`window`](Self::window), into a list of pieces.
    #[inline]
    pub fn list(self, range: Range<u32>, list: &mut [Piece]) -> Result<usize> {
        let given = ffi::list(Some(self.0).into(), range.start, range.end, list);
        value(given.code, given.pieces, given.pieces)
    }

    /// A cursor by value over the pieces of a window. Refusals 1, 2 and 3.
    #[inline]
    pub fn cursor(self, range: Range<u32>) -> Result<Cursor> {
        start(Some(self.0).into(), range)
    }

    /// Steps any cursor on this table, in order or not. Refusals 1, 2, 6 and 4.
    #[inline]
    pub fn step(self, cursor: Cursor) -> Result<Step> {
        step(Some(self.0).into(), cursor)
    }
}

/// What a cursor's step gives. A refused step leaves the cursor as it was.
#[derive(Clone, Debug, Eq, PartialEq)]
pub enum Step {
    /// The next piece, and the cursor behind it.
    Piece(Range<u32>, Cursor),
    /// No more pieces; the cursor has passed the parts that have no translation.
    Done(Cursor),
}

#[inline]
pub(crate) fn window(table: Option<&[u8]>, range: Range<u32>, out: &mut [u32]) -> Result<usize> {
    let given = ffi::window(table.into(), range.start, range.end, out);
    value(given.code, given.pieces, given.pieces)
}

#[inline]
fn start(table: Lent<'_>, range: Range<u32>) -> Result<Cursor> {
    let given = ffi::cursor_start(table, range.start, range.end);
    value(given.code, 0, given.cursor)
}

#[inline]
fn step(table: Lent<'_>, cursor: Cursor) -> Result<Step> {
    let given = ffi::cursor_step(cursor, table);
    Ok(match answer(given.code, 0, given.start..given.end)? {
        Some(piece) => Step::Piece(piece, given.cursor),
        None => Step::Done(given.cursor),
    })
}

/// The pieces of a window, one by one, over a table that it keeps hold of. A refusal is its last
/// item, also that of its start.
#[derive(Clone, Debug, Default)]
#[must_use = "a refusal is told as an item"]
pub struct RangeIter<'t> {
    table: Lent<'t>,
    walk: Walk<Cursor>,
}

impl<'t> RangeIter<'t> {
    /// Creates a `RangeIter` that does not yield any ranges.
    #[inline]
    pub fn empty() -> Self {
        Self::default()
    }

    /// Creates a `RangeIter` that only yields the specified range; as in pdb, nothing where the
    /// range begins at 0.
    #[inline]
    pub fn identity(range: Range<u32>) -> Self {
        Self::start(None, range)
    }

    #[inline]
    pub(crate) fn start(table: Option<&'t [u8]>, range: Range<u32>) -> Self {
        let table = Lent::from(table);
        RangeIter {
            table,
            walk: Walk::new(start(table, range)),
        }
    }

    /// Where the iterator stands, or what it was refused with.
    #[inline]
    pub fn cursor(&self) -> Result<Cursor> {
        self.walk.place()
    }
}

impl Iterator for RangeIter<'_> {
    type Item = Result<Range<u32>>;

    #[inline]
    fn next(&mut self) -> Option<Self::Item> {
        let table = self.table;
        self.walk.next(|cursor| {
            Ok(match step(table, cursor)? {
                Step::Piece(piece, after) => (Some(piece), after),
                Step::Done(after) => (None, after),
            })
        })
    }
}

impl FusedIterator for RangeIter<'_> {}
