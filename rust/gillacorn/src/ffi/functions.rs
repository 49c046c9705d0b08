//! Tables as the face takes them, and each function of the face, declared as the header has it, with
//! a safe one over it. What each promises stands once, in the header.

use super::answers::*;

/// A table and its presence mark. The bytes beside an absent mark are not read.
#[derive(Clone, Copy, Debug, Default)]
pub struct Lent<'t> {
    /// Whether the table is there.
    pub present: bool,
    /// Its bytes.
    pub bytes: &'t [u8],
}

impl<'t> From<Option<&'t [u8]>> for Lent<'t> {
    #[inline]
    fn from(table: Option<&'t [u8]>) -> Self {
        Lent {
            present: table.is_some(),
            bytes: table.unwrap_or(&[]),
        }
    }
}

/// The tables of an address map.
#[derive(Clone, Copy, Debug)]
pub struct Map<'t> {
    /// The section headers before the executable was rearranged; absent ones count as none.
    pub original_sections: Lent<'t>,
    /// The section headers of the executable, where they differ.
    pub transformed_sections: Lent<'t>,
    /// The OMAP from the executable's addresses to the PDB's.
    pub to_original: Lent<'t>,
    /// The OMAP from the PDB's addresses to the executable's.
    pub to_transformed: Lent<'t>,
}

/// The tables of frames.
#[derive(Clone, Copy, Debug)]
pub struct Frames<'t> {
    /// Old frames, 16 bytes each.
    pub old: Lent<'t>,
    /// New frames, 32 bytes each.
    pub new: Lent<'t>,
}

/// A safe function over one of the face, which is declared in it.
macro_rules! over {
    ($name:ident = $c:ident ($($safe:tt)*) ($($declared:tt)*) -> $answer:ty = $call:expr) => {
        #[doc = concat!("`", stringify!($c), "` of the header.")]
        #[inline]
        pub fn $name($($safe)*) -> $answer {
            extern "C" {
                fn $c($($declared)*) -> $answer;
            }
            unsafe { $call }
        }
    };
}

/// Functions of a number alone.
macro_rules! over_number {
    ($($name:ident = $c:ident ($arg:ident: $ty:ty) -> $answer:ty;)*) => {$(
        over! { $name = $c ($arg: $ty) ($arg: $ty) -> $answer = $c($arg) }
    )*};
}

/// Functions of one table and numbers.
macro_rules! over_table {
    ($($name:ident = $c:ident ($($arg:ident: $ty:ty),*) -> $answer:ty;)*) => {$(
        over! {
            $name = $c (table: &[u8], $($arg: $ty),*)
                (table: *const u8, length: usize, $($arg: $ty),*) -> $answer
                = $c(table.as_ptr(), table.len(), $($arg),*)
        }
    )*};
}

/// Functions of one table with its mark, then numbers.
macro_rules! over_lent {
    ($($name:ident = $c:ident ($($arg:ident: $ty:ty),*) -> $answer:ty;)*) => {$(
        over! {
            $name = $c (table: Lent<'_>, $($arg: $ty),*)
                (present: bool, table: *const u8, length: usize, $($arg: $ty),*) -> $answer
                = $c(table.present, table.bytes.as_ptr(), table.bytes.len(), $($arg),*)
        }
    )*};
}

/// Functions of one table with its mark, the ends of a window, and a lent output.
macro_rules! over_window {
    ($($name:ident = $c:ident ($out:ty) -> $answer:ty;)*) => {$(
        over! {
            $name = $c (table: Lent<'_>, a: u32, b: u32, out: &mut [$out])
                (
                    present: bool, table: *const u8, length: usize, a: u32, b: u32,
                    out: *mut $out, places: usize
                ) -> $answer
                = $c(
                    table.present, table.bytes.as_ptr(), table.bytes.len(), a, b,
                    out.as_mut_ptr(), out.len(),
                )
        }
    )*};
}

/// Functions of numbers and the tables of an address map.
macro_rules! over_map {
    ($($name:ident = $c:ident ($($arg:ident: $ty:ty),*) -> $answer:ty;)*) => {$(
        over! {
            $name = $c ($($arg: $ty,)* map: &Map<'_>)
                (
                    $($arg: $ty,)*
                    has_original_sections: bool, original_sections: *const u8,
                    original_sections_length: usize,
                    has_transformed_sections: bool, transformed_sections: *const u8,
                    transformed_sections_length: usize,
                    has_to_original: bool, to_original: *const u8, to_original_length: usize,
                    has_to_transformed: bool, to_transformed: *const u8,
                    to_transformed_length: usize
                ) -> $answer
                = $c(
                    $($arg,)*
                    map.original_sections.present, map.original_sections.bytes.as_ptr(),
                    map.original_sections.bytes.len(),
                    map.transformed_sections.present, map.transformed_sections.bytes.as_ptr(),
                    map.transformed_sections.bytes.len(),
                    map.to_original.present, map.to_original.bytes.as_ptr(),
                    map.to_original.bytes.len(),
                    map.to_transformed.present, map.to_transformed.bytes.as_ptr(),
                    map.to_transformed.bytes.len(),
                )
        }
    )*};
}

/// Functions of a number or cursor and the two tables of frames.
macro_rules! over_frames {
    ($($name:ident = $c:ident ($($arg:ident: $ty:ty)?) -> $answer:ty;)*) => {$(
        over! {
            $name = $c ($($arg: $ty,)? frames: &Frames<'_>)
                (
                    $($arg: $ty,)?
                    has_old: bool, old_frames: *const u8, old_length: usize,
                    has_new: bool, new_frames: *const u8, new_length: usize
                ) -> $answer
                = $c(
                    $($arg,)?
                    frames.old.present, frames.old.bytes.as_ptr(), frames.old.bytes.len(),
                    frames.new.present, frames.new.bytes.as_ptr(), frames.new.bytes.len(),
                )
        }
    )*};
}

over_number! {
    characteristics = gillacorn_characteristics(characteristics: u32) -> Flags;
    alignment = gillacorn_alignment(characteristics: u32) -> ValueAnswer;
}

over_table! {
    header = gillacorn_header(place: usize) -> HeaderAnswer;
    name_length = gillacorn_name_length(number: u16) -> usize;
    record_at = gillacorn_record_at(place: usize) -> RecordAnswer;
    clash = gillacorn_clash(a: u32, b: u32) -> PairAnswer;
    way_back = gillacorn_way_back(a: u32, b: u32, t: u32) -> SourcesAnswer;
    virtual_address = gillacorn_virtual_address(section: u16, offset: u32) -> ValueAnswer;
    old_frame = gillacorn_old_frame(place: usize) -> FrameAnswer;
    new_frame = gillacorn_new_frame(place: usize) -> FrameAnswer;
    bundle_read = gillacorn_bundle_read() -> SpansAnswer;
}

over_lent! {
    lookup = gillacorn_lookup(address: u32) -> ValueAnswer;
    quick_lookup = gillacorn_quick_lookup(address: u32) -> QuickAnswer;
    cursor_start = gillacorn_cursor_start(a: u32, b: u32) -> CursorAnswer;
}

over_window! {
    window = gillacorn_window(u32) -> PiecesAnswer;
    list = gillacorn_list(Piece) -> PiecesAnswer;
}

over! {
    cursor_step = gillacorn_cursor_step (cursor: Cursor, table: Lent<'_>)
        (cursor: Cursor, present: bool, table: *const u8, length: usize) -> StepAnswer
        = gillacorn_cursor_step(cursor, table.present, table.bytes.as_ptr(), table.bytes.len())
}

over! {
    section_offset_by = gillacorn_section_offset_by (by_raw_size: bool, table: &[u8], address: u32)
        (by_raw_size: bool, table: *const u8, length: usize, address: u32) -> OffsetAnswer
        = gillacorn_section_offset_by(by_raw_size, table.as_ptr(), table.len(), address)
}

over_map! {
    rva_to_internal_rva = gillacorn_rva_to_internal_rva(rva: u32) -> ValueAnswer;
    rva_to_section_offset_by =
        gillacorn_rva_to_section_offset_by(by_raw_size: bool, rva: u32) -> OffsetAnswer;
    rva_to_internal_offset_by =
        gillacorn_rva_to_internal_offset_by(by_raw_size: bool, rva: u32) -> OffsetAnswer;
    internal_rva_to_rva = gillacorn_internal_rva_to_rva(rva: u32) -> ValueAnswer;
    internal_rva_to_section_offset_by =
        gillacorn_internal_rva_to_section_offset_by(by_raw_size: bool, rva: u32) -> OffsetAnswer;
    internal_rva_to_internal_offset_by =
        gillacorn_internal_rva_to_internal_offset_by(by_raw_size: bool, rva: u32) -> OffsetAnswer;
    offset_to_rva = gillacorn_offset_to_rva(section: u16, offset: u32) -> ValueAnswer;
    offset_to_internal_rva =
        gillacorn_offset_to_internal_rva(section: u16, offset: u32) -> ValueAnswer;
    offset_to_internal_offset_by =
        gillacorn_offset_to_internal_offset_by(by_raw_size: bool, section: u16, offset: u32)
        -> OffsetAnswer;
    internal_offset_to_rva =
        gillacorn_internal_offset_to_rva(section: u16, offset: u32) -> ValueAnswer;
    internal_offset_to_internal_rva =
        gillacorn_internal_offset_to_internal_rva(section: u16, offset: u32) -> ValueAnswer;
    internal_offset_to_section_offset_by =
        gillacorn_internal_offset_to_section_offset_by(by_raw_size: bool, section: u16, offset: u32)
        -> OffsetAnswer;
}

over_frames! {
    frame_next = gillacorn_frame_next(cursor: FrameCursor) -> FrameStepAnswer;
    frames_at = gillacorn_frames_at(address: u32) -> FrameCursorAnswer;
    frames_empty = gillacorn_frames_empty() -> ValueAnswer;
}

over! {
    bundle_write = gillacorn_bundle_write (map: &Map<'_>, frames: &Frames<'_>, out: &mut [u8])
        (
            has_original_sections: bool, original_sections: *const u8,
            original_sections_length: usize,
            has_transformed_sections: bool, transformed_sections: *const u8,
            transformed_sections_length: usize,
            has_to_original: bool, to_original: *const u8, to_original_length: usize,
            has_to_transformed: bool, to_transformed: *const u8, to_transformed_length: usize,
            has_old_frames: bool, old_frames: *const u8, old_frames_length: usize,
            has_new_frames: bool, new_frames: *const u8, new_frames_length: usize,
            out: *mut u8, out_length: usize
        ) -> BytesAnswer
        = gillacorn_bundle_write(
            map.original_sections.present, map.original_sections.bytes.as_ptr(),
            map.original_sections.bytes.len(),
            map.transformed_sections.present, map.transformed_sections.bytes.as_ptr(),
            map.transformed_sections.bytes.len(),
            map.to_original.present, map.to_original.bytes.as_ptr(), map.to_original.bytes.len(),
            map.to_transformed.present, map.to_transformed.bytes.as_ptr(),
            map.to_transformed.bytes.len(),
            frames.old.present, frames.old.bytes.as_ptr(), frames.old.bytes.len(),
            frames.new.present, frames.new.bytes.as_ptr(), frames.new.bytes.len(),
            out.as_mut_ptr(), out.len(),
        )
}
