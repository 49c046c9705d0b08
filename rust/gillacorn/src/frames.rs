//! Frame data: the old FPO records and the new ones, as one table.

use core::fmt;
use core::iter::FusedIterator;

use crate::addresses::PdbInternalRva;
pub use crate::ffi::FrameCursor;
use crate::ffi::{self, Frame, Frames};
use crate::hex::hex_number;
use crate::refusal::{answer, value, Result};
use crate::walk::Walk;

/// A compiler specific frame type.
#[derive(Clone, Copy, Debug, Eq, Hash, Ord, PartialEq, PartialOrd)]
#[repr(u8)]
pub enum FrameType {
    /// Frame which does not have any debug info. No table gives it.
    Unknown = 0xff,
    /// Frame pointer omitted, FPO info available.
    FPO = 0,
    /// Kernel Trap frame.
    Trap = 1,
    /// Kernel Trap frame.
    TSS = 2,
    /// Standard EBP stackframe.
    Standard = 3,
    /// Frame pointer omitted, FrameData info available.
    FrameData = 4,
}

impl fmt::Display for FrameType {
    fn fmt(&self, f: &mut fmt::Formatter<'_>) -> fmt::Result {
        f.write_str(match self {
            Self::Unknown => "unknown",
            Self::FPO => "fpo",
            Self::Trap => "trap",
            Self::TSS => "tss",
            Self::Standard => "std",
            Self::FrameData => "fdata",
        })
    }
}

/// A reference to a string in the string table of the PDB.
#[derive(Clone, Copy, Default, Eq, Hash, Ord, PartialEq, PartialOrd)]
pub struct StringRef(
    /// The offset of its first character.
    pub u32,
);

hex_number!(StringRef);

/// Frame data for a code block.
#[derive(Clone, Copy, Debug, Eq, Hash, PartialEq)]
pub struct FrameData {
    /// Compiler-specific frame type.
    pub ty: FrameType,
    /// Relative virtual address of the start of the code block, internal to the PDB.
    pub code_start: PdbInternalRva,
    /// Size of the code block covered by this frame data in bytes.
    pub code_size: u32,
    /// Size of local variables pushed on the stack in bytes.
    pub locals_size: u32,
    /// Size of parameters pushed on the stack in bytes.
    pub params_size: u32,
    /// Number of bytes of prologue code in the block.
    pub prolog_size: u16,
    /// Size of saved registers pushed on the stack in bytes.
    pub saved_regs_size: u16,
    /// The maximum number of bytes pushed on the stack.
    pub max_stack_size: Option<u32>,
    /// Indicates that structured exception handling is in effect.
    pub has_structured_eh: bool,
    /// Indicates that C++ exception handling is in effect.
    pub has_cpp_eh: bool,
    /// Indicates that this frame is the start of a function.
    pub is_function_start: bool,
    /// Indicates that this function uses the EBP register.
    pub uses_base_pointer: bool,
    /// A program string allowing to reconstruct register values for this frame.
    pub program: Option<StringRef>,
}

impl From<Frame> for FrameData {
    #[inline]
    fn from(frame: Frame) -> Self {
        FrameData {
            ty: match frame.ty {
                0 => FrameType::FPO,
                1 => FrameType::Trap,
                2 => FrameType::TSS,
                3 => FrameType::Standard,
                4 => FrameType::FrameData,
                _ => FrameType::Unknown,
            },
            code_start: PdbInternalRva(frame.code_start),
            code_size: frame.code_size,
            locals_size: frame.locals_size,
            params_size: frame.params_size,
            prolog_size: frame.prolog_size,
            saved_regs_size: frame.saved_regs_size,
            max_stack_size: frame.has_max_stack_size.then_some(frame.max_stack_size),
            has_structured_eh: frame.has_structured_eh,
            has_cpp_eh: frame.has_cpp_eh,
            is_function_start: frame.is_function_start,
            uses_base_pointer: frame.uses_base_pointer,
            program: frame.has_program.then_some(StringRef(frame.program)),
        }
    }
}

/// Describes stack frame layout of functions: a table of old frames (16 bytes each) and one of new
/// frames (32 bytes each), either of which may be absent.
///
/// ```
/// use gillacorn::{FrameTable, FrameType, PdbInternalRva, Refusal};
///
/// let mut old = [0; 16];
/// old[..2].copy_from_slice(&0x180u16.to_le_bytes());
/// old[14..].copy_from_slice(&0xc305u16.to_le_bytes());
/// let mut new = [0; 64];
/// new[..2].copy_from_slice(&0x100u16.to_le_bytes());
/// new[32..34].copy_from_slice(&0x200u16.to_le_bytes());
/// let table = FrameTable::new(Some(&old), Some(&new));
///
/// let mut starts = Vec::new();
/// for frame in table.iter() {
///     let frame = frame?;
///     starts.push((frame.code_start.0, frame.ty));
/// }
/// let (std, fdata) = (FrameType::Standard, FrameType::FrameData);
/// assert_eq!(starts, [(0x100, fdata), (0x180, std), (0x200, fdata)]);
/// assert_eq!(std.to_string(), "std");
///
/// let first = table.iter_at_rva(PdbInternalRva(0x181)).next().transpose()?;
/// assert_eq!(first.unwrap().code_start, PdbInternalRva(0x200));
///
/// // A refusal is the last item.
/// let mut frames = FrameTable::new(Some(&old[1..]), None).iter();
/// assert_eq!(frames.next(), Some(Err(Refusal::Length)));
/// assert_eq!(frames.next(), None);
/// # Ok::<(), Refusal>(())
/// ```
#[derive(Clone, Copy, Debug, Default, Eq, Hash, PartialEq)]
pub struct FrameTable<'t> {
    old: Option<&'t [u8]>,
    new: Option<&'t [u8]>,
}

impl<'t> FrameTable<'t> {
    /// Bytes in an old frame.
    pub const OLD_RECORD: usize = 16;
    /// Bytes in a new frame.
    pub const NEW_RECORD: usize = 32;

    /// A table over the given bytes. Each question checks them.
    #[inline]
    pub fn new(old: Option<&'t [u8]>, new: Option<&'t [u8]>) -> Self {
        FrameTable { old, new }
    }

    /// Returns an iterator over all frame data in this table, ordered by code start. Refusals 1
    /// and 2, of the old frames first, and 4 in the place of its frame.
    #[inline]
    pub fn iter(&self) -> FrameDataIter<'t> {
        self.iter_at(FrameCursor::default())
    }

    /// Returns an iterator over frame data starting at the given address: at the frame that covers
    /// it, else at the first one after it. Refusals 1, 2 and 3, of the old frames first, are its
    /// first item.
    #[inline]
    pub fn iter_at_rva(&self, rva: PdbInternalRva) -> FrameDataIter<'t> {
        let given = ffi::frames_at(rva.0, &self.lent());
        FrameDataIter {
            table: *self,
            walk: Walk::new(value(given.code, 0, given.cursor)),
        }
    }

    /// Returns an iterator that goes on at any cursor.
    #[inline]
    pub fn iter_at(&self, cursor: FrameCursor) -> FrameDataIter<'t> {
        FrameDataIter {
            table: *self,
            walk: Walk::new(Ok(cursor)),
        }
    }

    /// Indicates whether any frame data is available. Refusals 1 and 2, of the old frames first.
    #[inline]
    pub fn is_empty(&self) -> Result<bool> {
        let given = ffi::frames_empty(&self.lent());
        value(given.code, 0, given.value == 1)
    }

    /// The frame at a place of the old table, or none past the last. Refusals 1, 2 and 4.
    #[inline]
    pub fn old_frame(&self, place: usize) -> Result<Option<FrameData>> {
        let given = ffi::old_frame(self.old.unwrap_or(&[]), place);
        answer(given.code, 0, given.frame.into())
    }

    /// The frame at a place of the new table, or none past the last. Refusals 1 and 2.
    #[inline]
    pub fn new_frame(&self, place: usize) -> Result<Option<FrameData>> {
        let given = ffi::new_frame(self.new.unwrap_or(&[]), place);
        answer(given.code, 0, given.frame.into())
    }

    #[inline]
    pub(crate) fn lent(&self) -> Frames<'t> {
        Frames {
            old: self.old.into(),
            new: self.new.into(),
        }
    }
}

/// Iterator over entries in a [`FrameTable`]. A refusal is its last item, also that of its start.
#[derive(Clone, Debug, Default)]
#[must_use = "a refusal is told as an item"]
pub struct FrameDataIter<'t> {
    table: FrameTable<'t>,
    walk: Walk<FrameCursor>,
}

impl FrameDataIter<'_> {
    /// Where the iterator stands, or what it was refused with.
    #[inline]
    pub fn cursor(&self) -> Result<FrameCursor> {
        self.walk.place()
    }
}

impl Iterator for FrameDataIter<'_> {
    type Item = Result<FrameData>;

    #[inline]
    fn next(&mut self) -> Option<Self::Item> {
        let table = self.table;
        self.walk.next(|cursor| {
            let given = ffi::frame_next(cursor, &table.lent());
            let frame = answer(given.code, 0, given.frame)?;
            Ok((frame.map(FrameData::from), given.cursor))
        })
    }
}

impl FusedIterator for FrameDataIter<'_> {}
