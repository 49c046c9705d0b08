//! Address to section and section to address, on one table.

use gillacorn::ffi;
use gillacorn::{ExtentBy, SectionOffset, SectionTable};
use oracle::Tables;

use super::judge_of_located;
use crate::gen;
use crate::operations::Op;
use crate::ours::{both, given};
use crate::rng::Rng;
use crate::rules::{self, Answer, By, Sizes, SECTIONS};
use crate::tally::{Listed, Tally};

/// Every length up to three headers; the most headers, and one more.
pub fn edges(tally: &mut Tally, rng: &mut Rng) {
    for length in 0..=3 * SECTIONS.width {
        let table: Vec<u8> = (0..length).map(|_| rng.next() as u8).collect();
        let sections = Sections::new(&table);
        for number in [0, 1, 2, 3, 4, u16::MAX] {
            sections.virtual_address(tally, number, rng.u32() >> rng.below(32));
        }
        for _ in 0..6 {
            sections.section_offset(tally, gen::section_address(rng, &table));
        }
    }
    for count in [SECTIONS.most, SECTIONS.most + 1] {
        let table = gen::large(SECTIONS, count);
        let sections = Sections::new(&table);
        for address in [
            0,
            0x100,
            0x400,
            0x3ff_f400,
            0x3ff_f8ff,
            0x3ff_fc00,
            u32::MAX,
        ] {
            sections.section_offset(tally, address);
        }
        for section in [0, 1, 65_534, 65_535] {
            sections.virtual_address(tally, section, 5);
        }
    }
}

/// One table of headers, asked by itself. pdb's two functions are private, so it is asked through
/// a map that has nothing else.
pub struct Sections<'t> {
    table: &'t [u8],
    rust: Option<oracle::AddressMap<'static>>,
    in_domain: bool,
    sizes: Sizes,
}

impl<'t> Sections<'t> {
    pub fn new(table: &'t [u8]) -> Self {
        let tables = Tables::new(&[Some(table), None, None, None]);
        Sections {
            table,
            rust: tables.address_map().ok(),
            in_domain: SECTIONS.count(table).is_ok() && rules::extents_fit(table),
            sizes: rules::sizes(table),
        }
    }

    pub fn section_offset(&self, tally: &mut Tally, address: u32) {
        By::BOTH.map(|by| self.section_offset_by(tally, by, address));
    }

    fn section_offset_by(&self, tally: &mut Tally, by: By, address: u32) {
        let rule = rules::section_offset(by, self.table, address);
        let theirs = self.rust.as_ref().map(|map| {
            let offset = oracle::Rva(address).to_section_offset(map);
            offset.map(|offset| (offset.section, offset.offset))
        });
        match (rule, theirs) {
            (Err(1), None) => tally.listed(Listed::WrongLength),
            (Err(2), Some(_)) => tally.listed(Listed::TooMany),
            // By memory size the sizes may be what differs.
            (Ok(Some(_)), Some(None)) if by == By::RawSize => tally.listed(Listed::Extent),
            _ => {}
        }
        let theirs = self.in_domain.then(|| theirs.unwrap());
        let rust = judge_of_located(tally, by, self.sizes, rule, theirs);
        let ours = self.ours(by, address);
        tally.judge(Op::SectionOffset.by(by), rule, rust, ours, |case| {
            let other = rules::section_offset(by.other(), self.table, address);
            let case = case.table("table", self.table);
            case.by(by, other != rule).number("address", address);
        });
    }

    fn ours(&self, by: By, address: u32) -> Answer<(u16, u32)> {
        let table = SectionTable::new(self.table);
        let raw = ffi::section_offset_by(by == By::RawSize, self.table, address);
        let raw = given(raw.code, (raw.section, raw.offset));
        let pair = |offset: SectionOffset| (offset.section, offset.offset);
        let named = |by| table.section_offset_by(by, address).map(|o| o.map(pair));
        match by {
            By::RawSize => both(raw, named(ExtentBy::RawSize)),
            By::MemorySize => {
                // Whoever names no size gets the same.
                let unnamed = table.section_offset(address).map(|o| o.map(pair));
                both(both(raw, named(ExtentBy::MemorySize)), unnamed)
            }
        }
    }

    pub fn virtual_address(&self, tally: &mut Tally, section: u16, offset: u32) {
        let rule = rules::virtual_address(self.table, section, offset);
        let theirs = self.rust.as_ref().map(|map| {
            let rva = oracle::SectionOffset::new(section, offset).to_rva(map);
            rva.map(|rva| rva.0)
        });
        let rust = (self.in_domain && rule.is_ok()).then(|| Ok(theirs.unwrap()));
        if let (Err(4), Some(Some(_))) = (rule, theirs) {
            tally.listed(Listed::Sum);
        }
        let raw = ffi::virtual_address(self.table, section, offset);
        let wrapped = SectionTable::new(self.table).virtual_address(section, offset);
        let ours = both(given(raw.code, raw.value), wrapped);
        tally.judge(Op::VirtualAddress, rule, rust, ours, |case| {
            let case = case.table("table", self.table);
            case.number("section", section).number("offset", offset);
        });
    }
}
