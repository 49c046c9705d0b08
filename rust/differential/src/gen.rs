//! Tables: good ones around each boundary, and damaged copies of good ones.

mod sections;

use std::ops::Deref;

pub use self::sections::{name, omap_into, section_address, sections, EDGES};
use crate::rng::Rng;
use crate::rules::{u32_at, Kind};

const TOP: u32 = u32::MAX;

/// Mostly few records, seldom many.
fn count(rng: &mut Rng) -> usize {
    match rng.below(40) {
        0 => 0,
        1 => 60 + rng.below(200),
        2..=9 => 1,
        10..=19 => 2,
        _ => 3 + rng.below(9),
    }
}

/// Strictly rising numbers: close together or far apart, low, in the middle or up to the top.
fn rising(rng: &mut Rng, count: usize) -> Vec<u32> {
    let gap = rng.pick(&[1, 2, 5, 0x20, 0x400, 0x10_0000]);
    let start = match rng.below(6) {
        0 => 0,
        1 => rng.below(4) as u32,
        2 => TOP - count as u32 * gap,
        3 => rng.u32() / 2,
        _ => 0x1000,
    };
    let mut next = u64::from(start);
    let mut numbers = Vec::with_capacity(count);
    while numbers.len() < count && next <= u64::from(TOP) {
        numbers.push(next as u32);
        next += 1 + rng.below(gap as usize) as u64;
    }
    numbers
}

pub fn omap(rng: &mut Rng) -> Vec<u8> {
    let count = count(rng);
    let sources = rising(rng, count);
    let base = match rng.below(4) {
        0 => 0x5000,
        1 => TOP - 0x40,
        2 => sources.first().copied().unwrap_or(7),
        _ => rng.u32(),
    };
    let mut table = Vec::with_capacity(8 * count);
    for (place, &source) in sources.iter().enumerate() {
        let room = sources.get(place + 1).map_or(16, |next| next - source);
        let target = match rng.below(12) {
            0 | 1 => 0,
            2 => TOP - rng.below(3) as u32,
            // The end of the piece at the top, and one short of it.
            3 => (TOP - room).wrapping_add(rng.below(3) as u32),
            4 => rng.u32(),
            5 => 1,
            _ => base.wrapping_add(rng.below(0x80) as u32),
        };
        push(&mut table, &[source, target]);
    }
    table
}

/// Old frames (16 bytes) or new ones (32 bytes).
pub fn frames(rng: &mut Rng, kind: Kind, starts: &[u32]) -> Vec<u8> {
    let mut table = Vec::with_capacity(kind.width * starts.len());
    for (place, &start) in starts.iter().enumerate() {
        let next = starts.get(place + 1).copied().unwrap_or(TOP);
        let size = match rng.below(8) {
            0 => 0,
            1 => TOP - start,
            2 if rng.one_in(3) => (TOP - start).saturating_add(1 + rng.below(2) as u32),
            3 => rng.u32() >> rng.below(32),
            _ => next
                .saturating_sub(start)
                .saturating_sub(rng.below(3) as u32),
        };
        let locals = match rng.below(10) {
            0 => rng.u32(),
            1 => 0x3fff_ffff + rng.below(2) as u32,
            _ => rng.u32() >> (2 + rng.below(28)),
        };
        push(&mut table, &[start, size, locals]);
        while table.len() % kind.width != 0 {
            push(&mut table, &[rng.u32() >> rng.pick(&[0, 0, 16, 29])]);
        }
    }
    table
}

/// Starts of old and of new frames, many of them equal.
pub fn frame_starts(rng: &mut Rng) -> [Vec<u32>; 2] {
    let all = count(rng).min(24);
    let all = rising(rng, all);
    let mut starts = [Vec::new(), Vec::new()];
    for start in all {
        match rng.below(3) {
            0 => starts[0].push(start),
            1 => starts[1].push(start),
            _ => starts.iter_mut().for_each(|s| s.push(start)),
        }
    }
    if rng.one_in(5) {
        let which = rng.below(2);
        shuffle(rng, &mut starts[which]);
    }
    if rng.one_in(5) {
        let which = rng.below(2);
        if let Some(&last) = starts[which].last() {
            starts[which].push(last);
        }
    }
    starts
}

/// A copy with one thing wrong, or not wrong but other.
pub fn damaged(rng: &mut Rng, table: &[u8], kind: Kind) -> Vec<u8> {
    let mut copy = table.to_vec();
    let records = copy.len() / kind.width;
    match rng.below(6) {
        0 if !copy.is_empty() => copy.truncate(rng.below(table.len())),
        1 => copy.extend((0..1 + rng.below(kind.width)).map(|_| rng.next() as u8)),
        2 if !copy.is_empty() => {
            let at = rng.below(table.len());
            copy[at] ^= 1 << rng.below(8);
        }
        3 if records > 1 => {
            // A record twice.
            let at = rng.below(records - 1) * kind.width;
            copy.copy_within(at..at + kind.width, at + kind.width);
        }
        4 if records > 1 => {
            // The last record first.
            copy.rotate_right(kind.width);
        }
        _ if !copy.is_empty() => {
            let at = rng.below(copy.len() / 4 + 1).min(copy.len() / 4 - 1) * 4;
            let word = rng.pick(&[0, 1, TOP, TOP - 1]);
            copy[at..at + 4].copy_from_slice(&word.to_le_bytes());
        }
        _ => {}
    }
    copy
}

/// A good table mostly, else a damaged copy of it; at any alignment.
pub fn maybe_damaged(rng: &mut Rng, table: Vec<u8>, kind: Kind) -> Held {
    let mut bytes = match rng.one_in(5) {
        true => damaged(rng, &table, kind),
        false => table,
    };
    let before = rng.below(4);
    bytes.splice(..0, [0; 4].into_iter().take(before));
    Held { bytes, before }
}

/// A table behind some bytes that are not lent.
pub struct Held {
    bytes: Vec<u8>,
    before: usize,
}

impl Deref for Held {
    type Target = [u8];

    fn deref(&self) -> &[u8] {
        &self.bytes[self.before..]
    }
}

/// An address that a table makes interesting: around the number at `offset` in a record, around
/// where a sum with the number after it reaches 32 bits, or anywhere.
pub fn address(rng: &mut Rng, table: &[u8], kind: Kind, offset: usize) -> u32 {
    let records = table.len() / kind.width;
    if records > 0 && !rng.one_in(8) {
        let at = rng.below(records) * kind.width + offset;
        let number = u32_at(table, at);
        let near = number.wrapping_add(rng.below(7) as u32).wrapping_sub(3);
        return match rng.below(8) {
            0 => number.wrapping_add(rng.u32() & 0xff),
            1 => number
                .wrapping_sub(u32_at(table, at + 4))
                .wrapping_sub(rng.below(3) as u32),
            2 => number
                .wrapping_add(u32_at(table, at + 4))
                .wrapping_sub(rng.below(3) as u32),
            _ => near,
        };
    }
    match rng.below(5) {
        0 => rng.below(4) as u32,
        1 => TOP - rng.below(3) as u32,
        2 => 0x1000 + rng.below(0x200) as u32,
        _ => rng.u32(),
    }
}

/// A table in order with the most records, or with more.
pub fn large(kind: Kind, records: usize) -> Vec<u8> {
    let mut table = vec![0; kind.width * records];
    for (place, record) in table.chunks_exact_mut(kind.width).enumerate() {
        let start = place as u32 * 0x1000 / 4;
        match kind.width {
            40 => {
                let size = 0x100u32.to_le_bytes();
                record[8..12].copy_from_slice(&size);
                record[12..16].copy_from_slice(&start.to_le_bytes());
                record[16..20].copy_from_slice(&size);
            }
            _ => {
                record[..4].copy_from_slice(&start.to_le_bytes());
                let second = if place % 7 == 3 { 0 } else { start / 2 + 0x10 };
                record[4..8].copy_from_slice(&second.to_le_bytes());
            }
        }
    }
    table
}

pub fn push(table: &mut Vec<u8>, numbers: &[u32]) {
    for number in numbers {
        table.extend_from_slice(&number.to_le_bytes());
    }
}

fn shuffle(rng: &mut Rng, numbers: &mut [u32]) {
    for i in 1..numbers.len() {
        numbers.swap(i, rng.below(i + 1));
    }
}
