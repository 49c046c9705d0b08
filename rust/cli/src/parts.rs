//! The parts of a bundle, by the names that words and files have for them.

use gillacorn::{Bundle, FrameTable, OMAPTable, Refusal, SectionTable};

#[derive(Clone, Copy)]
pub enum Part {
    OriginalSections,
    TransformedSections,
    ToOriginal,
    ToTransformed,
    OldFrames,
    NewFrames,
}

use Part::*;

impl Part {
    /// In the order in which a bundle has them.
    pub const ALL: [Part; 6] = [
        OriginalSections,
        TransformedSections,
        ToOriginal,
        ToTransformed,
        OldFrames,
        NewFrames,
    ];
    pub const SECTIONS: [Part; 2] = [OriginalSections, TransformedSections];
    pub const OMAPS: [Part; 2] = [ToOriginal, ToTransformed];
    pub const FRAMES: [Part; 2] = [OldFrames, NewFrames];

    pub fn name(self) -> &'static str {
        match self {
            OriginalSections => "original-sections",
            TransformedSections => "transformed-sections",
            ToOriginal => "to-original",
            ToTransformed => "to-transformed",
            OldFrames => "old-frames",
            NewFrames => "new-frames",
        }
    }

    /// What a file of it is, for help.
    pub fn help(self) -> &'static str {
        match self {
            OriginalSections => {
                "Section headers before the executable was rearranged; - for standard input"
            }
            TransformedSections => {
                "Section headers of the executable, where they differ; - for standard input"
            }
            ToOriginal => "OMAP from the executable's addresses to the PDB's; - for standard input",
            ToTransformed => {
                "OMAP from the PDB's addresses to the executable's; - for standard input"
            }
            OldFrames => "Old frames, 16 bytes each; - for standard input",
            NewFrames => "New frames, 32 bytes each; - for standard input",
        }
    }

    /// Where a bundle has it.
    pub fn of<'b, 't>(self, bundle: &'b mut Bundle<'t>) -> &'b mut Option<&'t [u8]> {
        match self {
            OriginalSections => &mut bundle.original_sections,
            TransformedSections => &mut bundle.transformed_sections,
            ToOriginal => &mut bundle.to_original,
            ToTransformed => &mut bundle.to_transformed,
            OldFrames => &mut bundle.old_frames,
            NewFrames => &mut bundle.new_frames,
        }
    }

    /// Bytes in a record.
    pub fn record(self) -> usize {
        match self {
            OriginalSections | TransformedSections => SectionTable::RECORD,
            ToOriginal | ToTransformed => OMAPTable::RECORD,
            OldFrames => FrameTable::OLD_RECORD,
            NewFrames => FrameTable::NEW_RECORD,
        }
    }

    /// What refusals 1 and 2 say of a table of this kind: by a question that has no other.
    pub fn check(self, table: &[u8]) -> Result<(), Refusal> {
        match self {
            OriginalSections | TransformedSections => SectionTable::new(table).header(0).map(drop),
            ToOriginal | ToTransformed => OMAPTable::new(table).record(0).map(drop),
            OldFrames => FrameTable::new(Some(table), None).is_empty().map(drop),
            NewFrames => FrameTable::new(None, Some(table)).is_empty().map(drop),
        }
    }
}
