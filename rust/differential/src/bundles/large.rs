//! Files and parts at the end of 32 bits and past it.

use gillacorn::ffi::Lent;

use super::asked;
use super::mapping::Mapping;
use super::rules::{PARTS, TRAILER};
use crate::tally::Tally;

/// The longest bundle.
const MOST: usize = u32::MAX as usize;

pub fn run(tally: &mut Tally) {
    match Mapping::forbidden(1 << 36) {
        Some(memory) => unread(tally, memory.bytes()),
        None => println!("bundles: no 64 GiB of addresses here: nothing past 32 bits is asked"),
    }
    match Mapping::zeros(MOST) {
        Some(mut memory) => longest(tally, memory.bytes()),
        None => println!("bundles: no 4 GiB of zeros here: the longest bundle is not asked"),
    }
}

/// Calls that are decided by lengths alone: what is lent can't be read.
fn unread(tally: &mut Tally, bytes: &[u8]) {
    for length in [1, 2, 55, 56, 57, 1 << 31, 1 << 32, bytes.len() - MOST] {
        let file = &bytes[..MOST + length];
        asked::read_only(tally, file, |case| {
            case.number("length", file.len());
        });
    }
    let most = MOST - TRAILER;
    let all = bytes.len();
    let lengths = [
        [0, 0, most, 0, 0, 0],
        [most, 1, 0, 0, 0, 0],
        [0, 0, 0, 0, most / 2, most - most / 2],
        [0, most / 2, 0, 0, most - most / 2, 1],
        [MOST - 1, 0, 0, 0, 0, 0],
        [MOST, 0, 0, 0, 0, 0],
        // Sums that are little in 32 bits.
        [0, 0, 0, 0, 0, MOST + 1],
        [1 << 31, 0, 1 << 31, 0, 0, 0],
        [0, MOST - 55, 0, 0, 0, 0],
        [all; PARTS],
    ];
    for lengths in lengths {
        for absent in [None, Some(0), Some(2), Some(5)] {
            let parts = std::array::from_fn(|number| Lent {
                present: absent != Some(number),
                bytes: &bytes[..lengths[number]],
            });
            // No room, and room for a bundle that has no bytes but beside an absent mark.
            for room in [0, TRAILER] {
                asked::write_shown(tally, &parts, room, |case| {
                    for part in parts {
                        case.number("present", u8::from(part.present));
                        case.number("length", part.bytes.len());
                    }
                    case.number("room", room);
                });
            }
        }
    }
}

/// A file of exactly 32 bits is taken, and refused where its trailer is wrong.
fn longest(tally: &mut Tally, file: &mut [u8]) {
    let most = (MOST - TRAILER) as u32;
    let absent = u32::MAX;
    let mut good = vec![absent; 2 * PARTS];
    good[10..].copy_from_slice(&[0, most]);
    let mut halves = vec![absent; 2 * PARTS];
    halves[..2].copy_from_slice(&[0, 1 << 31]);
    halves[6..8].copy_from_slice(&[1 << 31, most - (1 << 31)]);
    for good in [good, halves] {
        ask(tally, file, &good);
        for place in 0..2 * PARTS {
            for by in [1, 56, 1 << 31, u32::MAX] {
                let mut words = good.clone();
                words[place] = words[place].wrapping_add(by);
                ask(tally, file, &words);
            }
        }
    }
}

fn ask(tally: &mut Tally, file: &mut [u8], words: &[u32]) {
    let bytes = words.iter().chain(&[1]).flat_map(|word| word.to_le_bytes());
    let trailer: Vec<u8> = bytes.chain(*b"BACK").collect();
    file[MOST - TRAILER..].copy_from_slice(&trailer);
    asked::read_only(tally, file, |case| {
        case.number("length", file.len()).table("trailer", &trailer);
    });
}
