//! Bundles, which pdb lacks: beside them, on the right, a reader and a writer in plain Rust.

use gillacorn::ffi::{Span, Spans};
use gillacorn::Bundle;

use crate::driver::{add, many, Driver};
use crate::face::{gillacorn_bundle_read, gillacorn_bundle_write};

/// Bytes of each part: a kilobyte, and as many as make 16 MB in all.
const LENGTHS: [usize; 2] = [1_000, 16_000_000 / 6];

pub fn run(driver: &mut Driver) {
    driver.topic("Bundles");
    // A part is not looked at: its length makes no difference.
    read(driver, LENGTHS[0]);
    for length in LENGTHS {
        write(driver, length);
    }
}

fn bytes(length: usize) -> Vec<u8> {
    let byte = |place: usize| (place ^ place >> 8) as u8;
    (0..6 * length).map(byte).collect()
}

fn six(bytes: &[u8]) -> [&[u8]; 6] {
    let length = bytes.len() / 6;
    std::array::from_fn(|number| &bytes[number * length..][..length])
}

fn read(driver: &mut Driver, length: usize) {
    let bytes = bytes(length);
    let mut file = vec![0; bytes.len() + plain::TRAILER];
    plain::write(&six(&bytes).map(Some), &mut file).unwrap();
    let what = format!("bundle read, six parts of {}", many(length, "byte"));
    let place = |start: u32, length: u32| u64::from(start) << 32 | u64::from(length);
    driver.row(
        &format!("{what} (right: plain Rust)"),
        1,
        || {
            let given = gillacorn_bundle_read(&file);
            assert_eq!(given.code, 0);
            let all = spans(&given.spans);
            all.iter()
                .fold(0, |sum, span| add(sum, place(span.start, span.length)))
        },
        || {
            let all = plain::read(&file).unwrap();
            let told =
                |span: Option<(u32, u32)>| span.map_or(0, |(start, length)| place(start, length));
            all.iter().fold(0, |sum, &span| add(sum, told(span)))
        },
    );
    let inside = |part: &[u8]| {
        let start = part.as_ptr() as usize - file.as_ptr() as usize;
        place(start as u32, part.len() as u32)
    };
    driver.row(
        &format!("{what}, wrapper (right: plain Rust)"),
        1,
        || {
            let all = parts(&Bundle::read(&file).unwrap());
            all.iter()
                .fold(0, |sum, part| add(sum, part.map_or(0, inside)))
        },
        || {
            let all = plain::read(&file).unwrap();
            let part = |(start, length)| &file[start as usize..][..length as usize];
            all.iter().fold(0, |sum, span| {
                add(sum, span.map_or(0, |span| inside(part(span))))
            })
        },
    );
}

fn write(driver: &mut Driver, length: usize) {
    let bytes = bytes(length);
    let parts = six(&bytes);
    let their_parts = parts.map(Some);
    let mut out = vec![0; bytes.len() + plain::TRAILER];
    let mut their_out = out.clone();
    // Some of what was written; adding all of it up would take as long as writing it.
    let seen = |written: usize, out: &[u8]| {
        let some = [written / 7, written / 2, written - 16].map(|place| u64::from(out[place]));
        some.into_iter().fold(written as u64, add)
    };
    driver.row(
        &format!(
            "bundle write, six parts of {} (right: plain Rust)",
            many(length, "byte")
        ),
        1,
        || {
            let given = gillacorn_bundle_write(&parts, &mut out);
            assert_eq!(given.code, 0);
            seen(given.bytes, &out)
        },
        || {
            let written = plain::write(&their_parts, &mut their_out).unwrap();
            seen(written, &their_out)
        },
    );
}

fn spans(spans: &Spans) -> [&Span; 6] {
    [
        &spans.original_sections,
        &spans.transformed_sections,
        &spans.to_original,
        &spans.to_transformed,
        &spans.old_frames,
        &spans.new_frames,
    ]
}

fn parts<'t>(bundle: &Bundle<'t>) -> [Option<&'t [u8]>; 6] {
    [
        bundle.original_sections,
        bundle.transformed_sections,
        bundle.to_original,
        bundle.to_transformed,
        bundle.old_frames,
        bundle.new_frames,
    ]
}

/// Bundles as one reads and writes them by hand, with every test that the format asks for.
mod plain {
    pub const TRAILER: usize = 56;
    const ABSENT: u32 = u32::MAX;

    // Not inlined, as the archive's functions are not.
    #[inline(never)]
    pub fn read(file: &[u8]) -> Option<[Option<(u32, u32)>; 6]> {
        if file.len() > u32::MAX as usize || file.len() < TRAILER {
            return None;
        }
        let (parts, trailer) = file.split_at(file.len() - TRAILER);
        let word = |at: usize| u32::from_le_bytes(trailer[at..at + 4].try_into().unwrap());
        if &trailer[52..] != b"BACK" || word(48) != 1 {
            return None;
        }
        let left = parts.len() as u32;
        let mut spans = [None; 6];
        let mut end = 0;
        for (number, span) in spans.iter_mut().enumerate() {
            let (start, length) = (word(8 * number), word(8 * number + 4));
            if start == ABSENT && length == ABSENT {
                continue;
            }
            if start != end || length > left - end {
                return None;
            }
            *span = Some((start, length));
            end += length;
        }
        (end == left).then_some(spans)
    }

    #[inline(never)]
    pub fn write(parts: &[Option<&[u8]>; 6], out: &mut [u8]) -> Option<usize> {
        let mut whole = TRAILER;
        for part in parts.iter().flatten() {
            whole = whole.checked_add(part.len())?;
        }
        if whole > u32::MAX as usize || whole > out.len() {
            return None;
        }
        let (bytes, trailer) = out[..whole].split_at_mut(whole - TRAILER);
        let mut end = 0;
        for (part, words) in parts.iter().zip(trailer.chunks_exact_mut(8)) {
            let (start, length) = match part {
                Some(part) => {
                    bytes[end..end + part.len()].copy_from_slice(part);
                    (end as u32, part.len() as u32)
                }
                None => (ABSENT, ABSENT),
            };
            words[..4].copy_from_slice(&start.to_le_bytes());
            words[4..].copy_from_slice(&length.to_le_bytes());
            end += part.map_or(0, <[u8]>::len);
        }
        trailer[48..52].copy_from_slice(&1u32.to_le_bytes());
        trailer[52..].copy_from_slice(b"BACK");
        Some(whole)
    }
}
