//! The reader and the writer, at the face and through the wrapper, beside the rules.

use std::ops::Range;

use gillacorn::ffi::{self, Frames, Lent, Map, Span, Spans};
use gillacorn::{Bundle, Refusal};

use super::rules::{self, PARTS};
use crate::case::{Case, Unkept};
use crate::operations::{Judge, Op};
use crate::ours::{both, code_if, given};
use crate::rules::Answer;
use crate::tally::Tally;

/// Where in the file each part is. The same place holds the same bytes.
type Places = [Option<Range<usize>>; PARTS];

/// Asks the reader; and the writer, where the file is a bundle, to write it again.
pub fn read(tally: &mut Tally, file: &[u8]) {
    if let Some(parts) = read_only(tally, file, |case| {
        case.table("file", file);
    }) {
        let mut again = Written::untouched(file.len());
        let told = parts.write(again.lent());
        again.told(told);
        let mut expected = Written::untouched(file.len());
        expected.bytes = file.len();
        expected.lent().copy_from_slice(file);
        check(tally, Op::BundleWrite, expected, again, |case| {
            case.table("file", file);
        });
    }
}

/// Asks the reader alone; gives what it read.
pub fn read_only<'f>(
    tally: &mut Tally,
    file: &'f [u8],
    input: impl Fn(&mut Case),
) -> Option<Bundle<'f>> {
    let rule: Answer<Places> = rules::read(file).map(Some);
    let raw = ffi::bundle_read(file);
    let raw = given(raw.code, raw.spans).map(|spans| spans.map(places));
    let wrapped = Bundle::read(file);
    let ours = both(
        raw,
        wrapped.map(|bundle| Some(six(&bundle).map(|part| part.map(|part| place(file, part))))),
    );
    check(tally, Op::BundleRead, rule, ours, input);
    wrapped.ok()
}

/// Asks the writer with room for so many bytes.
pub fn write(tally: &mut Tally, parts: &[Lent<'_>; PARTS], room: usize) {
    write_shown(tally, parts, room, |case| {
        for (name, part) in NAMES.iter().zip(parts) {
            case.lent(name, *part);
        }
        case.number("room", room);
    });
}

/// The same, with another input to show: parts that can't be read.
pub fn write_shown(
    tally: &mut Tally,
    parts: &[Lent<'_>; PARTS],
    room: usize,
    input: impl Fn(&mut Case),
) {
    let mut expected = Written::untouched(room);
    match rules::write(&present(parts), room) {
        Ok(file) => {
            expected.bytes = file.len();
            expected.lent()[..file.len()].copy_from_slice(&file);
        }
        Err((code, bytes)) => (expected.code, expected.bytes) = (code, bytes),
    }
    let mut ours = Written::untouched(room);
    let (map, frames) = lent(parts);
    let raw = ffi::bundle_write(&map, &frames, ours.lent());
    (ours.code, ours.bytes) = (raw.code, raw.bytes);
    let mut wrapped = Written::untouched(room);
    let told = bundle(present(parts)).write(wrapped.lent());
    wrapped.told(told);
    ours.code = code_if(ours == wrapped, ours.code);
    check(tally, Op::BundleWrite, expected, ours, input);
}

/// What is read out of what was written, as bytes.
pub fn there_and_back(tally: &mut Tally, parts: &[Lent<'_>; PARTS]) {
    let parts = present(parts);
    let file = bundle(parts).to_vec().unwrap_or_default();
    let read = Bundle::read(&file).map_err(Refusal::number);
    let read = read.map(|bundle| six(&bundle));
    check(tally, Op::BundleRead, Ok(parts), read, |case| {
        case.table("file", &file);
    });
}

fn check<T: PartialEq + std::fmt::Debug>(
    tally: &mut Tally,
    op: Op,
    rule: T,
    ours: T,
    input: impl Fn(&mut Case),
) {
    tally.check(op, Judge::Rules, &Unkept(rule), &Unkept(ours), input);
}

// ---- six parts, as each side has them

/// The parts that count.
pub fn present<'t>(parts: &[Lent<'t>; PARTS]) -> [Option<&'t [u8]>; PARTS] {
    parts.map(|part| part.present.then_some(part.bytes))
}

macro_rules! each_part {
    ($($part:ident)*) => {
        const NAMES: [&str; PARTS] = [$(stringify!($part)),*];

        fn bundle(parts: [Option<&[u8]>; PARTS]) -> Bundle<'_> {
            let [$($part),*] = parts;
            Bundle { $($part),* }
        }

        fn six<'t>(bundle: &Bundle<'t>) -> [Option<&'t [u8]>; PARTS] {
            [$(bundle.$part),*]
        }

        fn places(spans: Spans) -> Places {
            [$(spans.$part),*].map(span)
        }
    };
}

each_part!(original_sections transformed_sections to_original to_transformed old_frames new_frames);

fn lent<'t>(parts: &[Lent<'t>; PARTS]) -> (Map<'t>, Frames<'t>) {
    let [original_sections, transformed_sections, to_original, to_transformed, old, new] = *parts;
    let map = Map {
        original_sections,
        transformed_sections,
        to_original,
        to_transformed,
    };
    (map, Frames { old, new })
}

fn span(span: Span) -> Option<Range<usize>> {
    let (start, length) = (span.start as usize, span.length as usize);
    match span.present {
        true => Some(start..start + length),
        false if span == Span::default() => None,
        // Numbers beside an absent mark, which have to be 0: a place that no file has.
        false => Some(usize::MAX..0),
    }
}

fn place(file: &[u8], part: &[u8]) -> Range<usize> {
    let start = (part.as_ptr() as usize).wrapping_sub(file.as_ptr() as usize);
    start..start.wrapping_add(part.len())
}

/// What a write told, and its whole output, with bytes before and after that are not lent.
#[derive(Debug, PartialEq)]
struct Written {
    code: u32,
    bytes: usize,
    output: Vec<u8>,
}

const MARGIN: usize = 8;

impl Written {
    fn untouched(room: usize) -> Self {
        let at = |place: usize| 0xa5 ^ place as u8;
        Written {
            code: 0,
            bytes: 0,
            output: (0..room + 2 * MARGIN).map(at).collect(),
        }
    }

    fn lent(&mut self) -> &mut [u8] {
        let end = self.output.len() - MARGIN;
        &mut self.output[MARGIN..end]
    }

    fn told(&mut self, told: Result<usize, Refusal>) {
        match told {
            Ok(bytes) => self.bytes = bytes,
            Err(refusal) => {
                self.code = refusal.number();
                if let Refusal::Short { needed } = refusal {
                    self.bytes = needed;
                }
            }
        }
    }
}
