//! The structs of the face, field by field.

macro_rules! structs {
    ($($(#[$doc:meta])* $name:ident { $($(#[$field_doc:meta])* $field:ident: $ty:ty),* $(,)? })*) => {$(
        $(#[$doc])*
        #[repr(C)]
        #[derive(Clone, Copy, Debug, Default, Eq, PartialEq)]
        pub struct $name { $($(#[$field_doc])* pub $field: $ty),* }
    )*};
}

/// Hands the flags of a section, in the face's order and each with its sentence, to a macro.
macro_rules! for_each_flag {
    ($to:ident) => {
        $to! {
            /// The section contains executable code (0x20; `execute` is another).
            executable
            /// The section contains initialized data.
            initialized_data
            /// The section contains uninitialized data.
            uninitialized_data
            /// Reserved.
            other
            /// The section contains comments or other information.
            info
            /// The section will not become part of the image.
            remove
            /// The section contains COMDAT data.
            comdat
            /// Reset speculative exceptions handling bits in the TLB entries for this section.
            defer_speculative_exceptions
            /// The section contains data referenced through the global pointer.
            global_pointer_relative
            /// Reserved.
            purgeable
            /// Reserved.
            locked
            /// Reserved.
            preload
            /// The section contains extended relocations.
            lnk_nreloc_ovfl
            /// The section can be discarded as needed.
            discardable
            /// The section cannot be cached.
            not_cached
            /// The section cannot be paged.
            not_paged
            /// The section can be shared in memory.
            shared
            /// The section can be executed as code (0x20000000).
            execute
            /// The section can be read.
            read
            /// The section can be written to.
            write
        }
    };
}
pub(crate) use for_each_flag;

macro_rules! flags_struct {
    ($($(#[$doc:meta])* $flag:ident)*) => {
        structs! {
            /// What the characteristics of a section say.
            Flags { $($(#[$doc])* $flag: bool),* }
        }
    };
}

for_each_flag!(flags_struct);

structs! {
    /// A section header as a table holds it.
    SectionHeader {
        /// An 8-byte, null-padded UTF-8 string.
        name: [u8; 8],
        /// The total size of the section when loaded into memory, in bytes.
        virtual_size: u32,
        /// The address of the first byte of the section when loaded, relative to the image base.
        virtual_address: u32,
        /// The size of the initialized data on disk, in bytes.
        size_of_raw_data: u32,
        /// A file pointer to the first page within the COFF file.
        pointer_to_raw_data: u32,
        /// A file pointer to the beginning of the relocation entries for the section.
        pointer_to_relocations: u32,
        /// A file pointer to the beginning of the line-number entries for the section.
        pointer_to_line_numbers: u32,
        /// The number of relocation entries for the section.
        number_of_relocations: u16,
        /// The number of line-number entries for the section.
        number_of_line_numbers: u16,
        /// The flags, of which [`Flags`] says what they mean.
        characteristics: u32,
    }

    /// A cursor over the pieces of a window. Any numbers make a cursor; stepping one that no
    /// window gave may be refused with 6.
    Cursor {
        /// The first address that is still to be translated.
        address: u32,
        /// The excluded end of the window.
        end: u32,
        /// The source of the record that owns `address`.
        source: u32,
        /// The target of that record; 0 if its addresses have no translation.
        target: u32,
        /// The place of the record after it.
        place: usize,
    }

    /// A piece of a window.
    Piece {
        /// The translation of its first address.
        start: u32,
        /// The translation of its excluded end.
        end: u32,
    }

    /// A frame of either table.
    Frame {
        /// 0 FPO, 1 Trap, 2 TSS, 3 Standard, 4 FrameData.
        ty: u32,
        /// The address of the code block.
        code_start: u32,
        /// The size of the code block in bytes.
        code_size: u32,
        /// The size of local variables in bytes.
        locals_size: u32,
        /// The size of parameters in bytes.
        params_size: u32,
        /// The size of the prologue's code in bytes.
        prolog_size: u16,
        /// The size of saved registers in bytes.
        saved_regs_size: u16,
        /// Structured exception handling is in effect.
        has_structured_eh: bool,
        /// C++ exception handling is in effect.
        has_cpp_eh: bool,
        /// The frame is the start of a function.
        is_function_start: bool,
        /// The function uses the EBP register.
        uses_base_pointer: bool,
        /// Whether `max_stack_size` counts.
        has_max_stack_size: bool,
        /// Whether `program` counts.
        has_program: bool,
        /// The most bytes that are pushed on the stack.
        max_stack_size: u32,
        /// Where the program string stands in the PDB's string table.
        program: u32,
    }

    /// Where an iteration over frames stands.
    FrameCursor {
        /// The place of the next old frame.
        old_index: usize,
        /// The place of the next new frame.
        new_index: usize,
    }

    /// Where a part is in a bundle; where it is absent the numbers are 0.
    Span {
        /// Whether the part is there.
        present: bool,
        /// The place of its first byte.
        start: u32,
        /// How many bytes it has.
        length: u32,
    }

    /// Where each part is in a bundle.
    Spans {
        /// The section headers before the executable was rearranged.
        original_sections: Span,
        /// The section headers of the executable, where they differ.
        transformed_sections: Span,
        /// The OMAP from the executable's addresses to the PDB's.
        to_original: Span,
        /// The OMAP from the PDB's addresses to the executable's.
        to_transformed: Span,
        /// Old frames.
        old_frames: Span,
        /// New frames.
        new_frames: Span,
    }
}

/// Structs that begin with `code`: 0, a value is given; 255, none; else the number of a refusal.
/// Where no value is given the other fields are 0, unless the function says otherwise.
macro_rules! answers {
    ($($(#[$doc:meta])* $name:ident { $($(#[$field_doc:meta])* $field:ident: $ty:ty),* $(,)? })*) => {
        structs! {$(
            $(#[$doc])*
            $name {
                /// 0 for a value, 255 for none, else the number of the refusal.
                code: u32,
                $($(#[$field_doc])* $field: $ty),*
            }
        )*}
    };
}

answers! {
    /// A number.
    ValueAnswer {
        /// The number.
        value: u32,
    }
    /// A section header.
    HeaderAnswer {
        /// The header.
        header: SectionHeader,
    }
    /// A record of an OMAP table.
    RecordAnswer {
        /// The first address that the record owns.
        source: u32,
        /// Its translation; 0 if these addresses have none.
        target: u32,
    }
    /// A translation by the search alone.
    QuickAnswer {
        /// The translation.
        value: u32,
        /// How many records were probed; with a refusal 0.
        probes: u32,
    }
    /// How many pieces a window has.
    PiecesAnswer {
        /// Their number, also with refusal 5, where it is the number needed.
        pieces: usize,
    }
    /// A cursor at the start of a window.
    CursorAnswer {
        /// The cursor.
        cursor: Cursor,
    }
    /// A step of a cursor.
    StepAnswer {
        /// The translation of the piece's first address.
        start: u32,
        /// The translation of the piece's excluded end.
        end: u32,
        /// The cursor to go on with; after a refusal the one that was given.
        cursor: Cursor,
    }
    /// Two addresses with one translation.
    PairAnswer {
        /// The lesser address.
        first: u32,
        /// The greater address.
        second: u32,
    }
    /// The addresses that share a translation.
    SourcesAnswer {
        /// 1 for one address; 2 for two or more.
        sources: u32,
        /// The least of them.
        first: u32,
        /// The next one, where there are two.
        second: u32,
    }
    /// A place in a section.
    OffsetAnswer {
        /// The section's number from 1.
        section: u16,
        /// The offset in it.
        offset: u32,
    }
    /// A frame.
    FrameAnswer {
        /// The frame.
        frame: Frame,
    }
    /// Where an iteration over frames starts.
    FrameCursorAnswer {
        /// The cursor.
        cursor: FrameCursor,
    }
    /// A step of an iteration over frames.
    FrameStepAnswer {
        /// The frame.
        frame: Frame,
        /// The cursor to go on with; at the end and after a refusal the one that was given.
        cursor: FrameCursor,
    }
    /// Where the parts of a bundle are.
    SpansAnswer {
        /// The place of each.
        spans: Spans,
    }
    /// How many bytes a bundle has.
    BytesAnswer {
        /// Their number, also with refusal 5, where it is the number needed.
        bytes: usize,
    }
}
