//! Windows: the whole call here, lists and cursors in the modules below.

pub mod cursors;
pub mod lists;

use gillacorn::ffi;
use gillacorn::OMAPTable;

use crate::judged::{JudgedTable, Output};
use crate::operations::Op;
use crate::ours::code_if;
use crate::rng::Rng;
use crate::tally::Tally;

/// A window with outputs of every size around the need.
pub fn around(tally: &mut Tally, rng: &mut Rng, asked: &JudgedTable<'_>, a: u32, b: u32) {
    let need = asked.pieces(a, b).map_or(1, |pieces| pieces.len());
    let around = (2 * need).saturating_sub(1);
    for places in [around, around + 1, around + 2, rng.below(2 * need + 6)] {
        window(tally, asked, a, b, places);
    }
}

pub fn window(tally: &mut Tally, asked: &JudgedTable<'_>, a: u32, b: u32, places: usize) {
    let (rule, rust) = asked.judged(a, b, places / 2, places);
    let mut output = Output::new(places);
    let raw = ffi::window(asked.lent, a, b, output.lent());
    output.code = raw.code;
    output.pieces = raw.pieces;
    if let Some(table) = asked.table {
        let mut again = Output::new(places);
        let wrapped = OMAPTable::new(table).window(a..b, again.lent());
        again.tell(wrapped);
        output.code = code_if(output == again, output.code);
    }
    tally.judge(Op::Window, rule, rust, output, |case| {
        let case = case.lent("table", asked.lent);
        case.number("a", a)
            .number("b", b)
            .number("places", places as u16);
    });
}
