//! The twelve conversions of an address map.

use gillacorn::ffi::{self, Lent, Map};
use gillacorn::{
    AddressMap, ExtentBy, PdbInternalRva, PdbInternalSectionOffset, Rva, SectionOffset,
};
use oracle::Tables;

use super::judge_of_located;
use super::paths::{locates, Along, Along::*, Conversion};
use crate::operations::Op;
use crate::ours::{both, given};
use crate::rules::{self, Answer, By, Sizes};
use crate::tally::{Listed, Tally};

pub struct JudgedMap<'t> {
    pub lent: [Lent<'t>; 4],
    pub rust: Option<oracle::AddressMap<'static>>,
    extents_fit: bool,
}

impl<'t> JudgedMap<'t> {
    pub fn new(lent: [Lent<'t>; 4]) -> Self {
        let present = lent.map(|table| table.present.then_some(table.bytes));
        let mut sections = present[..2].iter().flatten();
        JudgedMap {
            lent,
            rust: Tables::new(&present).address_map().ok(),
            extents_fit: sections.all(|table| rules::extents_fit(table)),
        }
    }

    fn present(&self, number: usize) -> Option<&'t [u8]> {
        self.lent[number].present.then_some(self.lent[number].bytes)
    }

    /// The transformed sections where they are there, else the original ones.
    fn sections(&self, transformed: bool) -> &'t [u8] {
        let original = self.present(0).unwrap_or(&[]);
        match transformed {
            true => self.present(1).unwrap_or(original),
            false => original,
        }
    }

    /// The path by the rules: it stops at a hole or a refusal, and reads no later table.
    fn along(&self, path: &[Along], by: By, section: u16, number: u32) -> Answer<(u16, u32)> {
        let mut at = (section, number);
        for &step in path {
            let next = match step {
                ToOriginal => rules::lookup(self.present(2), at.1)?.map(|n| (0, n)),
                ToTransformed => rules::lookup(self.present(3), at.1)?.map(|n| (0, n)),
                Section(t) => rules::section_offset(by, self.sections(t), at.1)?,
                Address(t) => {
                    let rva = rules::virtual_address(self.sections(t), at.0, at.1)?;
                    rva.map(|n| (0, n))
                }
            };
            match next {
                Some(next) => at = next,
                None => return Ok(None),
            }
        }
        Ok(Some(at))
    }

    /// Asks a conversion: by either size, if it locates an address.
    pub fn convert(&self, tally: &mut Tally, conversion: Conversion, section: u16, number: u32) {
        let located = locates(conversion.3).is_some();
        for by in By::BOTH {
            if located || by == By::MemorySize {
                self.convert_by(tally, conversion, by, section, number);
            }
        }
    }

    fn convert_by(
        &self,
        tally: &mut Tally,
        (from_offset, op, comes_back, path): Conversion,
        by: By,
        section: u16,
        number: u32,
    ) {
        let section = if from_offset { section } else { 0 };
        let comes_back = comes_back && !self.lent[1].present;
        let rule_by = |by| match comes_back {
            true => Ok(Some((section, number))),
            false => self.along(path, by, section, number),
        };
        let rule = rule_by(by);
        let in_domain = rule.is_ok() && self.extents_fit;
        let theirs = match &self.rust {
            Some(map) if in_domain => Some(theirs(op, section, number, map)),
            None if rule.is_ok() => {
                tally.listed(Listed::OffPath);
                None
            }
            _ => None,
        };
        let rust = match locates(path) {
            Some(transformed) => {
                // An input that comes back has no header read for it.
                let sizes = match comes_back {
                    true => Sizes::NoHeader,
                    false => rules::sizes(self.sections(transformed)),
                };
                judge_of_located(tally, by, sizes, rule, theirs)
            }
            None => theirs.map(Ok),
        };
        let ours = self.ours(op, by, section, number);
        tally.judge(op.by(by), rule, rust, ours, |case| {
            let names = [
                "original_sections",
                "transformed_sections",
                "to_original",
                "to_transformed",
            ];
            for (name, table) in names.iter().zip(self.lent) {
                case.lent(name, table);
            }
            let case = case.by(by, rule_by(by.other()) != rule);
            case.number("section", section).number("number", number);
        });
    }

    fn ours(&self, op: Op, by: By, section: u16, number: u32) -> Answer<(u16, u32)> {
        let lent = Map {
            original_sections: self.lent[0],
            transformed_sections: self.lent[1],
            to_original: self.lent[2],
            to_transformed: self.lent[3],
        };
        let map = self.wrapped(by);
        let by_raw_size = by == By::RawSize;
        macro_rules! asked {
            ($(($op:ident, $kind:ident $from:ident.$method:ident, $face:ident -> $to:ident);)*) => {
                match op {
                    $(Op::$op => {
                        let raw = asked!(@face $kind $face -> $to);
                        let from = asked!(@from $kind $from);
                        let wrapped = from.$method(&map);
                        let wrapped = wrapped.map(|given| given.map(|n| asked!(@pair $to n)));
                        both(asked!(@given $to raw), wrapped)
                    })*
                    _ => unreachable!("no conversion"),
                }
            };
            // What gives a section has located it, by a size.
            (@face rva $face:ident -> rva) => { ffi::$face(number, &lent) };
            (@face rva $face:ident -> offset) => { ffi::$face(by_raw_size, number, &lent) };
            (@face offset $face:ident -> rva) => { ffi::$face(section, number, &lent) };
            (@face offset $face:ident -> offset) => {
                ffi::$face(by_raw_size, section, number, &lent)
            };
            (@from rva $from:ident) => { $from(number) };
            (@from offset $from:ident) => { $from::new(section, number) };
            (@pair rva $n:ident) => { (0, $n.0) };
            (@pair offset $n:ident) => { ($n.section, $n.offset) };
            (@given rva $raw:ident) => { given($raw.code, (0, $raw.value)) };
            (@given offset $raw:ident) => { given($raw.code, ($raw.section, $raw.offset)) };
        }
        asked! {
            (RvaToInternalRva, rva Rva.to_internal_rva, rva_to_internal_rva -> rva);
            (RvaToSectionOffset, rva Rva.to_section_offset, rva_to_section_offset_by -> offset);
            (RvaToInternalOffset, rva Rva.to_internal_offset, rva_to_internal_offset_by -> offset);
            (InternalRvaToRva, rva PdbInternalRva.to_rva, internal_rva_to_rva -> rva);
            (InternalRvaToSectionOffset, rva PdbInternalRva.to_section_offset,
                internal_rva_to_section_offset_by -> offset);
            (InternalRvaToInternalOffset, rva PdbInternalRva.to_internal_offset,
                internal_rva_to_internal_offset_by -> offset);
            (OffsetToRva, offset SectionOffset.to_rva, offset_to_rva -> rva);
            (OffsetToInternalRva, offset SectionOffset.to_internal_rva,
                offset_to_internal_rva -> rva);
            (OffsetToInternalOffset, offset SectionOffset.to_internal_offset,
                offset_to_internal_offset_by -> offset);
            (InternalOffsetToRva, offset PdbInternalSectionOffset.to_rva,
                internal_offset_to_rva -> rva);
            (InternalOffsetToInternalRva, offset PdbInternalSectionOffset.to_internal_rva,
                internal_offset_to_internal_rva -> rva);
            (InternalOffsetToSectionOffset, offset PdbInternalSectionOffset.to_section_offset,
                internal_offset_to_section_offset_by -> offset);
        }
    }

    pub fn wrapped(&self, by: By) -> AddressMap<'t> {
        let map = AddressMap {
            original_sections: self.present(0),
            transformed_sections: self.present(1),
            to_original: self.present(2),
            to_transformed: self.present(3),
            ..AddressMap::default()
        };
        match by {
            // Whoever names no size gets this one.
            By::MemorySize => map,
            By::RawSize => AddressMap {
                extent_by: ExtentBy::RawSize,
                ..map
            },
        }
    }
}

/// pdb's own answer.
fn theirs(op: Op, section: u16, number: u32, map: &oracle::AddressMap<'_>) -> Option<(u16, u32)> {
    use oracle::{PdbInternalRva, PdbInternalSectionOffset, Rva, SectionOffset};
    let rva = Rva(number);
    let internal = PdbInternalRva(number);
    let offset = SectionOffset::new(section, number);
    let internal_offset = PdbInternalSectionOffset::new(section, number);
    Some(match op {
        Op::RvaToInternalRva => (0, rva.to_internal_rva(map)?.0),
        Op::InternalRvaToRva => (0, internal.to_rva(map)?.0),
        Op::OffsetToRva => (0, offset.to_rva(map)?.0),
        Op::OffsetToInternalRva => (0, offset.to_internal_rva(map)?.0),
        Op::InternalOffsetToRva => (0, internal_offset.to_rva(map)?.0),
        Op::InternalOffsetToInternalRva => (0, internal_offset.to_internal_rva(map)?.0),
        Op::RvaToSectionOffset => pair(rva.to_section_offset(map)?),
        Op::InternalRvaToSectionOffset => pair(internal.to_section_offset(map)?),
        Op::InternalOffsetToSectionOffset => pair(internal_offset.to_section_offset(map)?),
        Op::RvaToInternalOffset => internal_pair(rva.to_internal_offset(map)?),
        Op::InternalRvaToInternalOffset => internal_pair(internal.to_internal_offset(map)?),
        Op::OffsetToInternalOffset => internal_pair(offset.to_internal_offset(map)?),
        _ => unreachable!("no conversion"),
    })
}

fn pair(offset: oracle::SectionOffset) -> (u16, u32) {
    (offset.section, offset.offset)
}

fn internal_pair(offset: oracle::PdbInternalSectionOffset) -> (u16, u32) {
    (offset.section, offset.offset)
}
