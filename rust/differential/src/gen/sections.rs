//! Section tables whose two sizes agree or not, and addresses at the ends of sections.

use super::{address, count, omap, push, rising, shuffle, TOP};
use crate::rng::Rng;
use crate::rules::{u32_at, OMAP, SECTIONS};

/// How the two sizes of a table's headers are made.
#[derive(Clone, Copy)]
enum Made {
    /// Equal in every header, where pdb judges by memory size too.
    Equal,
    /// Equal, or virtual_size is 0, where it does so as well.
    EqualOrZero,
    /// Some equal, some not.
    Freely,
}

pub fn sections(rng: &mut Rng) -> Vec<u8> {
    let count = count(rng).min(20);
    let mut starts = rising(rng, count);
    if rng.one_in(6) {
        shuffle(rng, &mut starts);
    }
    let made = match rng.below(8) {
        0..=2 => Made::Equal,
        3..=5 => Made::EqualOrZero,
        _ => Made::Freely,
    };
    let mut table = Vec::with_capacity(SECTIONS.width * count);
    for (place, &start) in starts.iter().enumerate() {
        table.extend_from_slice(&name(rng));
        let next = starts.get(place + 1).copied().unwrap_or(TOP);
        let raw = size(rng, start, next);
        push(&mut table, &[virtual_size(rng, made, raw, start, next)]);
        push(&mut table, &[start, raw]);
        push(&mut table, &[(); 5].map(|()| rng.u32()));
    }
    table
}

/// A size of a section: none, some, up to the next section's start, up to the top or past it.
fn size(rng: &mut Rng, start: u32, next: u32) -> u32 {
    match rng.below(8) {
        0 => 0,
        1 => 1,
        2 => TOP - start,
        3 if rng.one_in(3) => (TOP - start).saturating_add(1 + rng.below(2) as u32),
        4 => rng.u32() >> rng.below(32),
        _ => next
            .saturating_sub(start)
            .saturating_sub(rng.below(3) as u32),
    }
}

fn virtual_size(rng: &mut Rng, made: Made, raw: u32, start: u32, next: u32) -> u32 {
    match (made, rng.below(8)) {
        (Made::Equal, _) | (Made::EqualOrZero, 0..=4) | (Made::Freely, 0) => raw,
        (Made::EqualOrZero, _) | (Made::Freely, 1) => 0,
        // A tail of zeros, and padding.
        (Made::Freely, 2) => raw.saturating_add(1 + rng.below(4) as u32),
        (Made::Freely, 3) => raw.saturating_sub(1 + rng.below(4) as u32),
        // Up to the next section's start, and into that section.
        (Made::Freely, 4) => next
            .saturating_sub(start)
            .saturating_add(rng.below(3) as u32),
        (Made::Freely, 5) => TOP - rng.below(2) as u32,
        (Made::Freely, _) => size(rng, start, next),
    }
}

/// An address at a section's start or at its end by either size, one before it or one after it; else
/// as `address` has it.
pub fn section_address(rng: &mut Rng, table: &[u8]) -> u32 {
    let headers = table.len() / SECTIONS.width;
    if headers == 0 || rng.one_in(3) {
        return address(rng, table, SECTIONS, 12);
    }
    let at = rng.below(headers) * SECTIONS.width;
    let size = rng.pick(&[0, u32_at(table, at + 8), u32_at(table, at + 16)]);
    let end = u32_at(table, at + 12).wrapping_add(size);
    end.wrapping_add(rng.below(3) as u32).wrapping_sub(1)
}

/// An OMAP of which some records lead to the ends of sections.
pub fn omap_into(rng: &mut Rng, sections: &[u8]) -> Vec<u8> {
    let mut table = omap(rng);
    if rng.one_in(3) {
        return table;
    }
    for record in table.chunks_exact_mut(OMAP.width) {
        if !rng.one_in(3) {
            let target = section_address(rng, sections);
            record[4..].copy_from_slice(&target.to_le_bytes());
        }
    }
    table
}

/// Bytes on both sides of each edge of RFC 3629's ranges, and some of ASCII. Random names are made of
/// the first `PICKED`; the last line has the edges that those lack.
pub const EDGES: [u8; 28] = [
    0x00, 0x20, 0x2e, 0x41, 0x7f, 0x80, 0x8f, 0x90, 0x9f, 0xa0, 0xbf, 0xc0, 0xc1, 0xc2, 0xdf, 0xe0,
    0xed, 0xef, 0xf0, 0xf3, 0xf4, 0xf5, 0xff, //
    0x01, 0xe1, 0xec, 0xee, 0xf1,
];

/// With more, a seed would give other tables, and so another replay.
const PICKED: usize = 23;

pub fn name(rng: &mut Rng) -> [u8; 8] {
    let mut name = [0; 8];
    match rng.below(4) {
        0 => name[..5].copy_from_slice(b".text"),
        1 => name = rng.next().to_le_bytes(),
        2 => name
            .iter_mut()
            .for_each(|byte| *byte = rng.pick(&EDGES[..PICKED])),
        _ => {
            // Whole characters of every length, as many as fit.
            let mut at = 0;
            loop {
                let wide = rng.pick(&[0x7f, 0x7ff, 0xffff, 0x10_ffff]);
                let letter = char::from_u32(1 + rng.below(wide) as u32).unwrap_or('\u{d7ff}');
                let end = at + letter.len_utf8();
                if end > 8 {
                    break;
                }
                letter.encode_utf8(&mut name[at..end]);
                at = end;
            }
            if rng.one_in(4) {
                name[rng.below(8)] = rng.pick(&EDGES[..PICKED]);
            }
        }
    }
    name
}
