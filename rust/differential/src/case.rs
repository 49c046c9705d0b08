//! An input of a question and an answer to it, as text for a report and as bytes for a replay.

use std::fmt::{LowerHex, Write};

use gillacorn::ffi::{Cursor, Frame, FrameCursor, Lent};
use gillacorn::{ImageSectionHeader, SectionCharacteristics};

use crate::rules::{Answer, By, Quick};

/// The input of one question, part by part.
#[derive(Default)]
pub struct Case {
    /// Not kept for a replay.
    pub text: Option<String>,
    pub bytes: Vec<u8>,
    /// Something did not fit its bytes, so that the case can't be replayed.
    pub too_wide: bool,
    /// An address located by the other size gives another answer: the case tells the two apart.
    pub telling: bool,
}

impl Case {
    pub fn for_report() -> Self {
        Case {
            text: Some(String::new()),
            ..Case::default()
        }
    }

    pub fn for_replay() -> Self {
        Case::default()
    }

    pub fn lent(&mut self, name: &str, table: Lent<'_>) -> &mut Self {
        if let Some(text) = &mut self.text {
            let mark = if table.present { "" } else { " (absent)" };
            let _ = write!(text, " {name}{mark}={}", hex(table.bytes));
        }
        self.too_wide |= table.bytes.len() > 1000;
        if !self.too_wide {
            self.bytes.push(u8::from(table.present));
            (table.bytes.len() as u16).put(&mut self.bytes);
            self.bytes.extend_from_slice(table.bytes);
        }
        self
    }

    pub fn table(&mut self, name: &str, bytes: &[u8]) -> &mut Self {
        self.lent(name, Some(bytes).into())
    }

    pub fn number<N: Put + LowerHex>(&mut self, name: &str, number: N) -> &mut Self {
        if let Some(text) = &mut self.text {
            let _ = write!(text, " {name}={number:#x}");
        }
        number.put(&mut self.bytes);
        self
    }

    /// What a report shows beside the input, where a large table is cut; no part of a replay.
    pub fn beside(&mut self, name: &str, bytes: &[u8]) -> &mut Self {
        if let Some(text) = &mut self.text {
            let _ = write!(text, " {name}={}", hex(bytes));
        }
        self
    }

    /// The size by which an address is located, and whether the case is telling.
    pub fn by(&mut self, by: By, telling: bool) -> &mut Self {
        self.telling = telling;
        self.number("by", by as u8)
    }

    /// A place, which has 32 bits in a replay.
    pub fn place(&mut self, name: &str, place: usize) -> &mut Self {
        self.too_wide |= u32::try_from(place).is_err();
        self.number(name, place as u32)
    }
}

fn hex(bytes: &[u8]) -> String {
    let mut text = format!("[{} bytes]", bytes.len());
    for byte in bytes.iter().take(400) {
        let _ = write!(text, "{byte:02x}");
    }
    text
}

/// Something that a replay holds: little-endian, without padding.
pub trait Put {
    fn put(&self, out: &mut Vec<u8>);
}

macro_rules! put_numbers {
    ($($ty:ty),*) => {$(
        impl Put for $ty {
            fn put(&self, out: &mut Vec<u8>) {
                out.extend_from_slice(&self.to_le_bytes());
            }
        }
    )*};
}

put_numbers!(u8, u16, u32);

macro_rules! put_fields {
    ($($ty:ty { $($field:tt),* })*) => {$(
        impl Put for $ty {
            fn put(&self, out: &mut Vec<u8>) {
                $(self.$field.put(out);)*
            }
        }
    )*};
}

put_fields! {
    (u32, u32) { 0, 1 }
    (u16, u32) { 0, 1 }
    (u32, u32, u32) { 0, 1, 2 }
    ImageSectionHeader {
        name, virtual_size, virtual_address, size_of_raw_data, pointer_to_raw_data,
        pointer_to_relocations, pointer_to_line_numbers, number_of_relocations,
        number_of_line_numbers, characteristics
    }
    SectionCharacteristics { 0 }
    Cursor { address, end, source, target, place }
    FrameCursor { old_index, new_index }
}

impl Put for usize {
    fn put(&self, out: &mut Vec<u8>) {
        (*self as u32).put(out);
    }
}

impl Put for bool {
    fn put(&self, out: &mut Vec<u8>) {
        out.push(u8::from(*self));
    }
}

impl<T: Put, const N: usize> Put for [T; N] {
    fn put(&self, out: &mut Vec<u8>) {
        self.iter().for_each(|part| part.put(out));
    }
}

/// An answer of an operation that is in no replay.
#[derive(Debug, PartialEq)]
pub struct Unkept<T>(pub T);

impl<T> Put for Unkept<T> {
    fn put(&self, _: &mut Vec<u8>) {}
}

impl Put for Frame {
    fn put(&self, out: &mut Vec<u8>) {
        out.push(self.ty as u8);
        [
            self.code_start,
            self.code_size,
            self.locals_size,
            self.params_size,
        ]
        .put(out);
        [self.prolog_size, self.saved_regs_size].put(out);
        let marks = [
            self.has_structured_eh,
            self.has_cpp_eh,
            self.is_function_start,
            self.uses_base_pointer,
            self.has_max_stack_size,
            self.has_program,
        ];
        out.push(bits(&marks) as u8);
        [self.max_stack_size, self.program].put(out);
    }
}

/// Marks as the bits of a number, the first as the lowest.
pub fn bits(marks: &[bool]) -> u32 {
    marks
        .iter()
        .rev()
        .fold(0, |n, &mark| n << 1 | u32::from(mark))
}

/// The code, the translation and the probes, or zeros where there are none.
impl Put for Result<Quick, u32> {
    fn put(&self, out: &mut Vec<u8>) {
        let (code, target, probes) = match *self {
            Ok(Quick { target, probes }) => match target {
                Some(target) => (0, target, probes),
                None => (255, 0, probes),
            },
            Err(number) => (number as u8, 0, 0),
        };
        code.put(out);
        (target, probes).put(out);
    }
}

/// The code, then the value, or its zeros where there is none.
impl<T: Put + Default> Put for Answer<T> {
    fn put(&self, out: &mut Vec<u8>) {
        match self {
            Ok(Some(value)) => {
                out.push(0);
                value.put(out);
            }
            Ok(None) => {
                out.push(255);
                T::default().put(out);
            }
            Err(number) => {
                out.push(*number as u8);
                T::default().put(out);
            }
        }
    }
}
