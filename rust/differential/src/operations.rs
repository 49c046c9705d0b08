//! The operations that are compared, and who judges their answers.

use crate::rules::By;

macro_rules! operations {
    ($($op:ident = $number:literal, $name:literal;)*) => {
        /// An operation, with its number in a replay; from 100 on it is in none. One that locates an
        /// address has a row for either size, and one number.
        #[derive(Clone, Copy, Debug, Eq, PartialEq)]
        pub enum Op { $($op),* }

        impl Op {
            pub const ALL: &'static [Op] = &[$(Op::$op),*];

            pub fn name(self) -> &'static str {
                match self { $(Op::$op => $name),* }
            }

            pub fn number(self) -> u8 {
                match self { $(Op::$op => $number),* }
            }
        }
    };
}

operations! {
    Header = 1, "header";
    Name = 2, "name";
    Flags = 3, "flags";
    Alignment = 4, "alignment";
    RecordAt = 5, "record_at";
    Lookup = 6, "lookup";
    QuickLookup = 32, "quick_lookup";
    Window = 7, "window";
    CursorStart = 8, "cursor start";
    CursorStep = 9, "cursor step";
    List = 10, "list";
    Clash = 11, "clash";
    WayBack = 12, "way_back";
    SectionOffset = 13, "section_offset";
    SectionOffsetByRaw = 13, "section_offset, by raw size";
    VirtualAddress = 14, "virtual_address";
    RvaToInternalRva = 20, "Rva::to_internal_rva";
    RvaToSectionOffset = 21, "Rva::to_section_offset";
    RvaToSectionOffsetByRaw = 21, "Rva::to_section_offset, by raw size";
    RvaToInternalOffset = 22, "Rva::to_internal_offset";
    RvaToInternalOffsetByRaw = 22, "Rva::to_internal_offset, by raw size";
    InternalRvaToRva = 23, "PdbInternalRva::to_rva";
    InternalRvaToSectionOffset = 24, "PdbInternalRva::to_section_offset";
    InternalRvaToSectionOffsetByRaw = 24, "PdbInternalRva::to_section_offset, by raw size";
    InternalRvaToInternalOffset = 25, "PdbInternalRva::to_internal_offset";
    InternalRvaToInternalOffsetByRaw = 25, "PdbInternalRva::to_internal_offset, by raw size";
    OffsetToRva = 26, "SectionOffset::to_rva";
    OffsetToInternalRva = 27, "SectionOffset::to_internal_rva";
    OffsetToInternalOffset = 28, "SectionOffset::to_internal_offset";
    OffsetToInternalOffsetByRaw = 28, "SectionOffset::to_internal_offset, by raw size";
    InternalOffsetToRva = 29, "PdbInternalSectionOffset::to_rva";
    InternalOffsetToInternalRva = 30, "PdbInternalSectionOffset::to_internal_rva";
    InternalOffsetToSectionOffset = 31, "PdbInternalSectionOffset::to_section_offset";
    InternalOffsetToSectionOffsetByRaw = 31, "PdbInternalSectionOffset::to_section_offset, by raw size";
    RvaRanges = 101, "rva_ranges";
    InternalRvaRanges = 102, "internal_rva_ranges";
    RangeIter = 103, "RangeIter (the wrapper's)";
    OldFrame = 15, "old frame";
    NewFrame = 16, "new frame";
    FrameNext = 17, "frame iteration";
    FramesAt = 18, "frames from an address";
    FramesEmpty = 19, "is_empty";
    Formats = 104, "Debug, Display, order (the wrapper's)";
    BundleRead = 105, "bundle read";
    BundleWrite = 106, "bundle write";
}

impl Op {
    /// The row of an operation that locates an address, by the given size.
    pub fn by(self, by: By) -> Op {
        match (by, self) {
            (By::MemorySize, op) => op,
            (By::RawSize, Op::SectionOffset) => Op::SectionOffsetByRaw,
            (By::RawSize, Op::RvaToSectionOffset) => Op::RvaToSectionOffsetByRaw,
            (By::RawSize, Op::RvaToInternalOffset) => Op::RvaToInternalOffsetByRaw,
            (By::RawSize, Op::InternalRvaToSectionOffset) => Op::InternalRvaToSectionOffsetByRaw,
            (By::RawSize, Op::InternalRvaToInternalOffset) => Op::InternalRvaToInternalOffsetByRaw,
            (By::RawSize, Op::OffsetToInternalOffset) => Op::OffsetToInternalOffsetByRaw,
            (By::RawSize, Op::InternalOffsetToSectionOffset) => {
                Op::InternalOffsetToSectionOffsetByRaw
            }
            (By::RawSize, op) => unreachable!("{op:?} locates no address"),
        }
    }
}

/// Who says what is right.
#[derive(Clone, Copy, Debug, Eq, PartialEq)]
pub enum Judge {
    /// pdb, inside the domain of equality.
    Rust,
    /// The documents' rules, for refusals, outside the domain, and for bundles.
    Rules,
    /// A count over every address, for what pdb lacks.
    Count,
}
