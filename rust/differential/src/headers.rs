//! Section headers: header, name, flags, alignment.

mod names;

use gillacorn::ffi;
use gillacorn::{ImageSectionHeader, SectionCharacteristics, SectionTable};
use oracle::Tables;

use crate::case::bits;
use crate::gen;
use crate::operations::{Judge, Op};
use crate::ours::{both, given};
use crate::rng::Rng;
use crate::rules::{Answer, SECTIONS};
use crate::tally::{Listed, Tally};

const OPS: [Op; 4] = [Op::Header, Op::Name, Op::Flags, Op::Alignment];

pub fn run(tally: &mut Tally, rng: &mut Rng, want: u64) {
    for low in 0..32 {
        (0..32).for_each(|high| characteristics(tally, 1 << low | 1 << high));
    }
    for align in 0..16 {
        for no_pad in [0, 8] {
            for beside in [0, 1, 4, 0x10, 0xff0f_fff7, rng.u32() & 0xff0f_fff7] {
                characteristics(tally, align << 20 | no_pad | beside);
            }
        }
    }
    // Every length up to three headers.
    for length in 0..=3 * SECTIONS.width {
        let table: Vec<u8> = (0..length).map(|_| rng.next() as u8).collect();
        headers(tally, &table, &[0, 1, 2, 3, 4, usize::MAX]);
    }
    let most = gen::large(SECTIONS, SECTIONS.most);
    headers(tally, &most, &[0, 1, 65_533, 65_534, 65_535, 65_536]);
    let more = gen::large(SECTIONS, SECTIONS.most + 1);
    headers(tally, &more, &[0, 65_534, 65_535, 65_536]);

    let goal = tally.compared(&OPS) + want;
    while tally.compared(&OPS) < goal {
        let table = gen::sections(rng);
        let table = gen::maybe_damaged(rng, table, SECTIONS);
        let places: Vec<usize> = (0..2 + table.len() / SECTIONS.width).collect();
        headers(tally, &table, &places);
        (0..4).for_each(|_| characteristics(tally, rng.u32()));
    }
    // Last, so that the random tables above do not depend on how many numbers these take.
    names::run(tally, rng);
}

/// pdb's header in the wrapper's type.
pub fn header_of(h: &oracle::ImageSectionHeader) -> ImageSectionHeader {
    ImageSectionHeader {
        name: h.name,
        virtual_size: h.virtual_size,
        virtual_address: h.virtual_address,
        size_of_raw_data: h.size_of_raw_data,
        pointer_to_raw_data: h.pointer_to_raw_data,
        pointer_to_relocations: h.pointer_to_relocations,
        pointer_to_line_numbers: h.pointer_to_line_numbers,
        number_of_relocations: h.number_of_relocations,
        number_of_line_numbers: h.number_of_line_numbers,
        characteristics: SectionCharacteristics(h.characteristics.0),
    }
}

fn headers(tally: &mut Tally, table: &[u8], places: &[usize]) {
    let theirs = Tables::new(&[Some(table)]).headers(0);
    let (judge, theirs) = match SECTIONS.count(table) {
        Ok(_) => (Judge::Rust, Ok(theirs.unwrap().unwrap())),
        Err(number) => {
            tally.listed(match theirs {
                Ok(_) => Listed::TooMany,
                Err(_) => Listed::WrongLength,
            });
            (Judge::Rules, Err(number))
        }
    };
    for &place in places {
        let expected: Answer<ImageSectionHeader> = match &theirs {
            Ok(headers) => Ok(headers.get(place).map(header_of)),
            Err(number) => Err(*number),
        };
        let raw = ffi::header(table, place);
        let ours = both(
            given(raw.code, raw.header.into()),
            SectionTable::new(table).header(place),
        );
        tally.check(Op::Header, judge, &expected, &ours, |case| {
            case.table("table", table).place("place", place);
        });
        if let Ok(number) = u16::try_from(place) {
            let place = place.wrapping_sub(1);
            let theirs = theirs.as_ref().ok();
            let theirs = theirs.map(|headers| headers.get(place).map_or("", |h| h.name()));
            names::name(tally, table, number, theirs);
        }
    }
}

macro_rules! all_flags {
    ($from:expr, $get:ident) => {
        bits(&all_flags!(@ $from, $get; executable, initialized_data, uninitialized_data, other,
            info, remove, comdat, defer_speculative_exceptions, global_pointer_relative, purgeable,
            locked, preload, lnk_nreloc_ovfl, discardable, not_cached, not_paged, shared, execute,
            read, write))
    };
    (@ $from:expr, field; $($flag:ident),*) => { [$($from.$flag),*] };
    (@ $from:expr, method; $($flag:ident),*) => { [$($from.$flag()),*] };
}

fn characteristics(tally: &mut Tally, number: u32) {
    let theirs = oracle::SectionCharacteristics(number);
    let wrapped = SectionCharacteristics(number);
    let expected = all_flags!(theirs, method);
    let mut ours = all_flags!(ffi::characteristics(number), field);
    if all_flags!(wrapped, method) != ours {
        ours |= 1 << 31;
    }
    tally.check(Op::Flags, Judge::Rust, &expected, &ours, |case| {
        case.number("characteristics", number);
    });

    let expected: Answer<u32> = Ok(theirs.alignment().map(u32::from));
    let raw = ffi::alignment(number);
    let wrapped = Ok(wrapped.alignment().map(u32::from));
    let ours = both(given(raw.code, raw.value), wrapped);
    tally.check(Op::Alignment, Judge::Rust, &expected, &ours, |case| {
        case.number("characteristics", number);
    });
}
