//! The C face as a C program calls it, with nothing of the wrapper between but its structs, and the
//! inner functions that native.sh gives C names.

use gillacorn::ffi::{
    BytesAnswer, Cursor, CursorAnswer, Flags, FrameAnswer, FrameCursor, FrameCursorAnswer,
    FrameStepAnswer, HeaderAnswer, OffsetAnswer, PairAnswer, Piece, PiecesAnswer, QuickAnswer,
    RecordAnswer, SourcesAnswer, SpansAnswer, StepAnswer, ValueAnswer,
};

/// Each function, with slices in place of a pointer and a length.
macro_rules! face {
    ($($name:ident($($arg:ident: $ty:tt),*) -> $answer:ty;)*) => {$(
        #[inline(always)]
        pub fn $name($($arg: face!(given $ty)),*) -> $answer {
            face!(call $name $answer; []; []; $($arg: $ty,)*)
        }
    )*};
    (given bytes) => { &[u8] };
    (given words) => { &mut [u32] };
    (given pieces) => { &mut [Piece] };
    (given output) => { &mut [u8] };
    (given map) => { &[&[u8]; 4] };
    (given parts) => { &[&[u8]; 6] };
    (given frames) => { &[&[u8]; 2] };
    (given $ty:ident) => { $ty };

    // The C declaration and the call, an argument at a time.
    (call $name:ident $answer:ty; [$($d:tt)*]; [$($c:tt)*]; $arg:ident: bytes, $($rest:tt)*) => {
        face!(call $name $answer; [$($d)* _: *const u8, _: usize,];
            [$($c)* $arg.as_ptr(), $arg.len(),]; $($rest)*)
    };
    (call $name:ident $answer:ty; [$($d:tt)*]; [$($c:tt)*]; $arg:ident: words, $($rest:tt)*) => {
        face!(call $name $answer; [$($d)* _: *mut u32, _: usize,];
            [$($c)* $arg.as_mut_ptr(), $arg.len(),]; $($rest)*)
    };
    (call $name:ident $answer:ty; [$($d:tt)*]; [$($c:tt)*]; $arg:ident: output, $($rest:tt)*) => {
        face!(call $name $answer; [$($d)* _: *mut u8, _: usize,];
            [$($c)* $arg.as_mut_ptr(), $arg.len(),]; $($rest)*)
    };
    (call $name:ident $answer:ty; [$($d:tt)*]; [$($c:tt)*]; $arg:ident: pieces, $($rest:tt)*) => {
        face!(call $name $answer; [$($d)* _: *mut Piece, _: usize,];
            [$($c)* $arg.as_mut_ptr(), $arg.len(),]; $($rest)*)
    };
    (call $name:ident $answer:ty; [$($d:tt)*]; [$($c:tt)*]; $arg:ident: frames, $($rest:tt)*) => {
        face!(call $name $answer;
            [$($d)* _: bool, _: *const u8, _: usize, _: bool, _: *const u8, _: usize,];
            [$($c)* true, $arg[0].as_ptr(), $arg[0].len(), true, $arg[1].as_ptr(), $arg[1].len(),];
            $($rest)*)
    };
    (call $name:ident $answer:ty; [$($d:tt)*]; [$($c:tt)*]; $arg:ident: map, $($rest:tt)*) => {
        face!(call $name $answer;
            [$($d)* _: bool, _: *const u8, _: usize, _: bool, _: *const u8, _: usize,
                _: bool, _: *const u8, _: usize, _: bool, _: *const u8, _: usize,];
            [$($c)* true, $arg[0].as_ptr(), $arg[0].len(), true, $arg[1].as_ptr(), $arg[1].len(),
                true, $arg[2].as_ptr(), $arg[2].len(), true, $arg[3].as_ptr(), $arg[3].len(),];
            $($rest)*)
    };
    (call $name:ident $answer:ty; [$($d:tt)*]; [$($c:tt)*]; $arg:ident: parts, $($rest:tt)*) => {
        face!(call $name $answer;
            [$($d)* _: bool, _: *const u8, _: usize, _: bool, _: *const u8, _: usize,
                _: bool, _: *const u8, _: usize, _: bool, _: *const u8, _: usize,
                _: bool, _: *const u8, _: usize, _: bool, _: *const u8, _: usize,];
            [$($c)* true, $arg[0].as_ptr(), $arg[0].len(), true, $arg[1].as_ptr(), $arg[1].len(),
                true, $arg[2].as_ptr(), $arg[2].len(), true, $arg[3].as_ptr(), $arg[3].len(),
                true, $arg[4].as_ptr(), $arg[4].len(), true, $arg[5].as_ptr(), $arg[5].len(),];
            $($rest)*)
    };
    (call $name:ident $answer:ty; [$($d:tt)*]; [$($c:tt)*]; $arg:ident: $ty:ident, $($rest:tt)*) => {
        face!(call $name $answer; [$($d)* _: $ty,]; [$($c)* $arg,]; $($rest)*)
    };
    (call $name:ident $answer:ty; [$($d:tt)*]; [$($c:tt)*];) => {{
        extern "C" {
            fn $name($($d)*) -> $answer;
        }
        // Sound: a slice is a pointer that is never null, and a length that it holds.
        unsafe { $name($($c)*) }
    }};
}

face! {
    gillacorn_header(table: bytes, place: usize) -> HeaderAnswer;
    gillacorn_name_length(table: bytes, number: u16) -> usize;
    gillacorn_characteristics(characteristics: u32) -> Flags;
    gillacorn_alignment(characteristics: u32) -> ValueAnswer;

    gillacorn_record_at(table: bytes, place: usize) -> RecordAnswer;
    gillacorn_lookup(present: bool, table: bytes, address: u32) -> ValueAnswer;
    gillacorn_quick_lookup(present: bool, table: bytes, address: u32) -> QuickAnswer;
    gillacorn_window(present: bool, table: bytes, a: u32, b: u32, out: words) -> PiecesAnswer;
    gillacorn_list(present: bool, table: bytes, a: u32, b: u32, list: pieces) -> PiecesAnswer;
    gillacorn_cursor_start(present: bool, table: bytes, a: u32, b: u32) -> CursorAnswer;
    gillacorn_cursor_step(cursor: Cursor, present: bool, table: bytes) -> StepAnswer;

    gillacorn_clash(table: bytes, a: u32, b: u32) -> PairAnswer;
    gillacorn_way_back(table: bytes, a: u32, b: u32, t: u32) -> SourcesAnswer;

    gillacorn_section_offset_by(by_raw_size: bool, table: bytes, address: u32) -> OffsetAnswer;
    gillacorn_virtual_address(table: bytes, section: u16, offset: u32) -> ValueAnswer;
    gillacorn_rva_to_internal_rva(rva: u32, tables: map) -> ValueAnswer;
    gillacorn_rva_to_section_offset_by(by_raw_size: bool, rva: u32, tables: map) -> OffsetAnswer;
    gillacorn_rva_to_internal_offset_by(by_raw_size: bool, rva: u32, tables: map) -> OffsetAnswer;
    gillacorn_internal_rva_to_rva(rva: u32, tables: map) -> ValueAnswer;
    gillacorn_internal_rva_to_section_offset_by(by_raw_size: bool, rva: u32, tables: map) -> OffsetAnswer;
    gillacorn_internal_rva_to_internal_offset_by(by_raw_size: bool, rva: u32, tables: map) -> OffsetAnswer;
    gillacorn_offset_to_rva(section: u16, offset: u32, tables: map) -> ValueAnswer;
    gillacorn_offset_to_internal_rva(section: u16, offset: u32, tables: map) -> ValueAnswer;
    gillacorn_offset_to_internal_offset_by(by_raw_size: bool, section: u16, offset: u32, tables: map) -> OffsetAnswer;
    gillacorn_internal_offset_to_rva(section: u16, offset: u32, tables: map) -> ValueAnswer;
    gillacorn_internal_offset_to_internal_rva(section: u16, offset: u32, tables: map) -> ValueAnswer;
    gillacorn_internal_offset_to_section_offset_by(by_raw_size: bool, section: u16, offset: u32, tables: map) -> OffsetAnswer;

    gillacorn_old_frame(table: bytes, place: usize) -> FrameAnswer;
    gillacorn_new_frame(table: bytes, place: usize) -> FrameAnswer;
    gillacorn_frame_next(cursor: FrameCursor, tables: frames) -> FrameStepAnswer;
    gillacorn_frames_at(address: u32, tables: frames) -> FrameCursorAnswer;
    gillacorn_frames_empty(tables: frames) -> ValueAnswer;

    gillacorn_bundle_read(file: bytes) -> SpansAnswer;
    gillacorn_bundle_write(tables: parts, out: output) -> BytesAnswer;
}

#[cfg(inner = "order")]
face! {
    inner_order(table: bytes) -> bool;
}
