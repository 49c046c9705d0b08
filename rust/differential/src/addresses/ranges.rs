//! The two range conversions of an address map.

use gillacorn::{PdbInternalRva, Refusal, Rva};

use super::conversions::JudgedMap;
use crate::judged::{JudgedTable, Output};
use crate::operations::Op;
use crate::ours::code_if;
use crate::rules::By;
use crate::tally::Tally;

/// The two range conversions, whole and one by one.
pub fn ranges(
    tally: &mut Tally,
    asked: &JudgedMap<'_>,
    omap: &JudgedTable<'_>,
    to_rva: bool,
    (a, b): (u32, u32),
    places: usize,
) {
    let (rule, rust) = omap.judged(a, b, places / 2, places);
    let map = asked.wrapped(By::MemorySize);
    let mut ours = Output::new(places);
    let (op, told) = if to_rva {
        let window = PdbInternalRva(a)..PdbInternalRva(b);
        (Op::RvaRanges, map.rva_window(window, ours.lent()))
    } else {
        let window = Rva(a)..Rva(b);
        (
            Op::InternalRvaRanges,
            map.internal_rva_window(window, ours.lent()),
        )
    };
    ours.tell(told);
    // One by one, the ranges are those of pdb's own iterators, where pdb has them.
    if let (Ok(_), Some(theirs)) = (told, &asked.rust) {
        let same = if to_rva {
            let theirs = theirs.rva_ranges(oracle::PdbInternalRva(a)..oracle::PdbInternalRva(b));
            let ours = map.rva_ranges(PdbInternalRva(a)..PdbInternalRva(b));
            let theirs: Vec<_> = theirs.map(|r| (r.start.0, r.end.0)).collect();
            pairs(ours, |r| (r.start.0, r.end.0)) == Ok(theirs)
        } else {
            let theirs = theirs.internal_rva_ranges(oracle::Rva(a)..oracle::Rva(b));
            let ours = map.internal_rva_ranges(Rva(a)..Rva(b));
            let theirs: Vec<_> = theirs.map(|r| (r.start.0, r.end.0)).collect();
            pairs(ours, |r| (r.start.0, r.end.0)) == Ok(theirs)
        };
        ours.code = code_if(same, ours.code);
    }
    tally.judge(op, rule, rust, ours, |case| {
        let case = case.lent("table", omap.lent);
        case.number("a", a)
            .number("b", b)
            .number("places", places as u16);
    });
}

fn pairs<I, R>(ranges: I, pair: fn(R) -> (u32, u32)) -> Result<Vec<(u32, u32)>, Refusal>
where
    I: Iterator<Item = Result<R, Refusal>>,
{
    ranges.map(|range| range.map(pair)).collect()
}
