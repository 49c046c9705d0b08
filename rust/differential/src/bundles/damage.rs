//! Damaged bundles: every small damage to a given one, and some of the larger.

use super::asked;
use super::rules::{PARTS, TRAILER};
use crate::rng::Rng;
use crate::tally::Tally;

/// The u32 of a trailer: two of each part, and the version.
const WORDS: usize = 2 * PARTS + 1;
const ABSENT: u32 = u32::MAX;

fn trailer(file: &mut [u8]) -> &mut [u8] {
    let start = file.len() - TRAILER;
    &mut file[start..]
}

fn word(trailer: &mut [u8], number: usize) -> &mut [u8] {
    &mut trailer[4 * number..][..4]
}

fn number(word: &[u8]) -> u32 {
    u32::from_le_bytes(word.try_into().unwrap())
}

fn put(word: &mut [u8], number: u32) {
    word.copy_from_slice(&number.to_le_bytes());
}

/// Each byte of the trailer changed, alone, to a few others.
pub fn each_byte(tally: &mut Tally, rng: &mut Rng, file: &[u8]) {
    let mut copy = file.to_vec();
    for at in file.len() - TRAILER..file.len() {
        let byte = file[at];
        for other in [byte ^ 1, byte ^ 0x80, !byte, rng.next() as u8] {
            copy[at] = other;
            asked::read(tally, &copy);
        }
        copy[at] = byte;
    }
}

/// Each number of the trailer off by one, at an end, or that of another; then both of a part.
pub fn each_word(tally: &mut Tally, file: &[u8]) {
    let mut copy = file.to_vec();
    let length = file.len() as u32;
    for place in 0..WORDS {
        let old = number(word(trailer(&mut copy), place));
        let near = [old.wrapping_add(1), old.wrapping_sub(1)];
        let ends = [0, 2, length, length - TRAILER as u32, 1 << 31, ABSENT];
        for other in near.into_iter().chain(ends) {
            put(word(trailer(&mut copy), place), other);
            asked::read(tally, &copy);
        }
        put(word(trailer(&mut copy), place), old);
    }
    for part in 0..PARTS {
        let two = 8 * part..8 * part + 8;
        let old = trailer(&mut copy)[two.clone()].to_vec();
        let (start, length) = (number(&old[..4]), number(&old[4..]));
        let others = [
            (ABSENT, ABSENT),
            (start.wrapping_add(1), length.wrapping_sub(1)),
            (start.wrapping_sub(1), length.wrapping_add(1)),
            (length, start),
            // An end that passes 32 bits and comes out right.
            (start.wrapping_sub(1 << 31), length.wrapping_add(1 << 31)),
        ];
        for (start, length) in others {
            let words = &mut trailer(&mut copy)[two.clone()];
            put(&mut words[..4], start);
            put(&mut words[4..], length);
            asked::read(tally, &copy);
        }
        trailer(&mut copy)[two].copy_from_slice(&old);
    }
}

/// Cut at each length, from either end, and with a byte more at each place.
pub fn each_length(tally: &mut Tally, rng: &mut Rng, file: &[u8]) {
    let mut longer = file.to_vec();
    longer.push(0);
    for at in 0..=file.len() {
        asked::read(tally, &file[..at]);
        asked::read(tally, &file[at..]);
        longer[..at].copy_from_slice(&file[..at]);
        longer[at + 1..].copy_from_slice(&file[at..]);
        longer[at] = rng.pick(&[0, 0x4b, 0xff]);
        asked::read(tally, &longer);
    }
}

/// Each two parts of the trailer in each other's place, and one as the other says.
pub fn each_pair(tally: &mut Tally, file: &[u8]) {
    for a in 0..PARTS {
        for b in 0..PARTS {
            let mut copy = file.to_vec();
            let words = trailer(&mut copy);
            words.copy_within(8 * a..8 * a + 8, 8 * b);
            if a < b {
                let first = file.len() - TRAILER + 8 * b;
                words[8 * a..8 * a + 8].copy_from_slice(&file[first..first + 8]);
            }
            asked::read(tally, &copy);
        }
    }
}

/// Several small damages at once, which may undo each other.
pub fn several(rng: &mut Rng, file: &[u8]) -> Vec<u8> {
    let mut copy = file.to_vec();
    for _ in 0..1 + rng.below(3) {
        if copy.len() < TRAILER {
            break;
        }
        let place = rng.below(WORDS);
        let at = copy.len() - 1 - rng.below(TRAILER);
        match rng.below(7) {
            0 => copy[at] = rng.next() as u8,
            1 => copy.truncate(at),
            2 => copy.insert(at, rng.next() as u8),
            3 => copy.extend_from_slice(&file[file.len() - TRAILER..]),
            4 => put(word(trailer(&mut copy), place), rng.u32() >> rng.below(32)),
            _ => {
                // A byte more in a part, or less, and the numbers after it right or not.
                let right = !rng.one_in(3);
                let old = number(word(trailer(&mut copy), place));
                let by = if rng.one_in(2) { 1 } else { u32::MAX };
                put(word(trailer(&mut copy), place), old.wrapping_add(by));
                let next = 2 * (place / 2 + 1);
                for start in (next..2 * PARTS).step_by(2).filter(|_| right) {
                    let old = number(word(trailer(&mut copy), start));
                    if old != ABSENT {
                        put(word(trailer(&mut copy), start), old.wrapping_add(by));
                    }
                }
                if right && by == 1 {
                    copy.insert(0, rng.next() as u8);
                } else if right && copy.len() > TRAILER {
                    copy.remove(0);
                }
            }
        }
    }
    copy
}

/// Parts laid anywhere, and a trailer that says truly where: in another order, with gaps or
/// overlapping, now and then as they should be.
pub fn elsewhere(rng: &mut Rng, parts: &[Vec<u8>; PARTS]) -> Vec<u8> {
    let mut order: [usize; PARTS] = std::array::from_fn(|number| number);
    if rng.one_in(3) {
        order.swap(rng.below(PARTS), rng.below(PARTS));
    }
    let odd = rng.pick(&[2, 6, 30]);
    let mut file = Vec::new();
    let mut words = [ABSENT; 2 * PARTS];
    for number in order {
        if rng.one_in(4) {
            continue;
        }
        match rng.below(2 * odd) {
            0 => file.push(0),
            1 => {
                file.pop();
            }
            _ => {}
        }
        words[2 * number] = file.len() as u32;
        words[2 * number + 1] = parts[number].len() as u32;
        file.extend_from_slice(&parts[number]);
    }
    if rng.one_in(2 * odd) {
        file.push(0);
    }
    let version = if rng.one_in(40) { rng.u32() } else { 1 };
    for word in words.into_iter().chain([version]) {
        file.extend_from_slice(&word.to_le_bytes());
    }
    file.extend_from_slice(if rng.one_in(40) { b"back" } else { b"BACK" });
    file
}

/// Bytes that mean nothing, with the mark and the version or without.
pub fn noise(rng: &mut Rng) -> Vec<u8> {
    let mut file: Vec<u8> = (0..rng.below(120)).map(|_| rng.next() as u8).collect();
    if !rng.one_in(3) {
        if !rng.one_in(3) {
            let version: u32 = rng.pick(&[1, 1, 1, 0, 2, 1 << 24]);
            file.extend_from_slice(&version.to_le_bytes());
        }
        file.extend_from_slice(b"BACK");
    }
    file
}
