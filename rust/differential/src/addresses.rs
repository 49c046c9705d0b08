//! From an address to its section and back, and the address map: the twelve conversions and the two
//! range conversions with every combination of presence marks.

mod conversions;
mod paths;
mod ranges;
mod sections;

use gillacorn::ffi::Lent;

use self::conversions::JudgedMap;
use self::paths::CONVERSIONS;
use self::sections::Sections;
use crate::gen;
use crate::judged::JudgedTable;
use crate::operations::Op;
use crate::rng::Rng;
use crate::rules::{self, Answer, By, Sizes, OMAP, SECTIONS};
use crate::tally::{Listed, Tally};

const OPS: [Op; 23] = [
    Op::SectionOffset,
    Op::SectionOffsetByRaw,
    Op::VirtualAddress,
    Op::RvaToInternalRva,
    Op::RvaToSectionOffset,
    Op::RvaToSectionOffsetByRaw,
    Op::RvaToInternalOffset,
    Op::RvaToInternalOffsetByRaw,
    Op::InternalRvaToRva,
    Op::InternalRvaToSectionOffset,
    Op::InternalRvaToSectionOffsetByRaw,
    Op::InternalRvaToInternalOffset,
    Op::InternalRvaToInternalOffsetByRaw,
    Op::OffsetToRva,
    Op::OffsetToInternalRva,
    Op::OffsetToInternalOffset,
    Op::OffsetToInternalOffsetByRaw,
    Op::InternalOffsetToRva,
    Op::InternalOffsetToInternalRva,
    Op::InternalOffsetToSectionOffset,
    Op::InternalOffsetToSectionOffsetByRaw,
    Op::RvaRanges,
    Op::InternalRvaRanges,
];

pub fn run(tally: &mut Tally, rng: &mut Rng, want: u64) {
    sections::edges(tally, rng);
    let goal = tally.compared(&OPS) + want;
    let mut marks = 0;
    while tally.compared(&OPS) < goal {
        marks = (marks + 1) % 32;
        // Every combination, and half of them once more with original sections: without, nothing is found.
        random(tally, rng, if marks < 16 { marks } else { marks | 1 });
    }
}

fn random(tally: &mut Tally, rng: &mut Rng, marks: usize) {
    let present = |number: usize| marks >> number & 1 == 1;
    let mut tables: Vec<gen::Held> = Vec::with_capacity(4);
    for number in 0..4 {
        let (table, kind) = match number {
            0 | 1 => (gen::sections(rng), SECTIONS),
            // To-original leads to the original sections, to-transformed to the others, if present.
            _ => {
                let sections = usize::from(number == 3 && present(1));
                (gen::omap_into(rng, &tables[sections]), OMAP)
            }
        };
        tables.push(gen::maybe_damaged(rng, table, kind));
    }
    let lent = |number: usize| Lent {
        present: present(number),
        bytes: &tables[number],
    };
    let asked = JudgedMap::new([lent(0), lent(1), lent(2), lent(3)]);
    for _ in 0..6 {
        // Addresses that one of the tables makes interesting, and rather one that is present.
        let some = [rng.below(4), rng.below(4)];
        let address = match some[usize::from(!present(some[0]))] {
            number @ (0 | 1) => gen::section_address(rng, &tables[number]),
            number => gen::address(rng, &tables[number], OMAP, 0),
        };
        let sections = &tables[rng.below(2)];
        let headers = sections.len() / SECTIONS.width;
        let section = match rng.one_in(4) {
            true => rng.below(headers + 3) as u16,
            false => 1 + rng.below(headers.max(1)) as u16,
        };
        let small = rng.u32() >> rng.below(32);
        // The offset that leads to the address, if the section is of that table.
        let start = rules::virtual_address(sections, section, 0).unwrap_or(None);
        let leads = address.checked_sub(start.unwrap_or(0)).unwrap_or(small);
        let offset = rng.pick(&[leads, leads, leads, leads, small, address, 0, 1, u32::MAX]);
        for conversion in CONVERSIONS {
            asked.convert(
                tally,
                conversion,
                section,
                if conversion.0 { offset } else { address },
            );
        }
    }
    for (number, to_rva) in [(3, true), (2, false)] {
        let omap = JudgedTable::new(asked.lent[number]);
        for _ in 0..2 {
            let (a, b) = omap.some_window(rng);
            let need = omap.pieces(a, b).map_or(1, |pieces| pieces.len());
            ranges::ranges(
                tally,
                &asked,
                &omap,
                to_rva,
                (a, b),
                rng.below(2 * need + 4),
            );
        }
    }
    for table in &tables[..2] {
        let sections = Sections::new(table);
        for _ in 0..4 {
            sections.section_offset(tally, gen::section_address(rng, table));
            let section = rng.below(table.len() / SECTIONS.width + 3) as u16;
            let offset = gen::address(rng, table, SECTIONS, 12);
            sections.virtual_address(tally, section, offset);
        }
    }
}

/// A section, from 1, and an offset in it, or none.
type Located = Option<(u16, u32)>;

/// pdb's answer to a question that locates an address, where pdb judges: always by raw size; by memory
/// size where no header that may be read has another size there. Elsewhere it is a listed difference,
/// and the rules judge.
fn judge_of_located(
    tally: &mut Tally,
    by: By,
    sizes: Sizes,
    rule: Answer<(u16, u32)>,
    theirs: Option<Located>,
) -> Option<Answer<(u16, u32)>> {
    let theirs = theirs?;
    match (by, sizes) {
        (By::RawSize, _) => {}
        (By::MemorySize, Sizes::Different) => {
            match (rule, theirs) {
                (Ok(Some(_)), None) => tally.listed(Listed::ZeroFilled),
                (Ok(None), Some(_)) => tally.listed(Listed::Padding),
                (Ok(Some(ours)), Some(theirs)) if ours != theirs => tally.listed(Listed::Overlap),
                _ => {}
            }
            return None;
        }
        (By::MemorySize, sizes) => tally.by_memory_size(sizes),
    }
    Some(Ok(theirs))
}
