//! The window as a list of pieces, and the wrapper's iterator over ranges.

use gillacorn::ffi::{self, Lent, Piece};
use gillacorn::{OMAPTable, RangeIter, Refusal};

use crate::gen;
use crate::judged::{JudgedTable, Output};
use crate::operations::Op;
use crate::ours::code_if;
use crate::rng::Rng;
use crate::rules::{self, OMAP};
use crate::tally::Tally;

const OPS: [Op; 2] = [Op::List, Op::RangeIter];

pub fn run(tally: &mut Tally, rng: &mut Rng, want: u64) {
    for records in [OMAP.most, OMAP.most + 1] {
        let table = gen::large(OMAP, records);
        let asked = JudgedTable::new(Some(&table[..]).into());
        let need = asked.pieces(1, u32::MAX).map_or(0, |pieces| pieces.len());
        list(tally, &asked, 1, u32::MAX, need);
        list(tally, &asked, 1, u32::MAX, need.saturating_sub(1));
    }
    let goal = tally.compared(&OPS) + want;
    while tally.compared(&OPS) < goal {
        let table = gen::omap(rng);
        let bytes: &[u8] = &gen::maybe_damaged(rng, table, OMAP);
        let present = !rng.one_in(12);
        let asked = JudgedTable::new(Lent { present, bytes });
        for _ in 0..10 {
            let (a, b) = asked.some_window(rng);
            let need = asked.pieces(a, b).map_or(1, |pieces| pieces.len());
            for records in [need.saturating_sub(1), need, need + 1, rng.below(need + 4)] {
                list(tally, &asked, a, b, records);
            }
            iterate(tally, &asked, a, b);
        }
    }
}

fn list(tally: &mut Tally, asked: &JudgedTable<'_>, a: u32, b: u32, records: usize) {
    let (rule, rust) = asked.judged(a, b, records, 2 * records);
    let called = |call: &mut dyn FnMut(&mut [Piece]) -> (u32, usize)| {
        let mut output = Output::new(2 * records);
        let piece = |two: &[u32]| Piece {
            start: two[0],
            end: two[1],
        };
        // Untouched records before and after what is lent, as an output has untouched places.
        let mut list: Vec<Piece> = output.all().chunks(2).map(piece).collect();
        let margin = (list.len() - records) / 2;
        let (code, pieces) = call(&mut list[margin..margin + records]);
        let flat = list.iter().flat_map(|piece| [piece.start, piece.end]);
        output
            .all()
            .iter_mut()
            .zip(flat)
            .for_each(|(place, number)| *place = number);
        output.code = code;
        output.pieces = pieces;
        output
    };
    let mut ours = called(&mut |list| {
        let raw = ffi::list(asked.lent, a, b, list);
        (raw.code, raw.pieces)
    });
    if let Some(table) = asked.table {
        let wrapped = called(&mut |list| match OMAPTable::new(table).list(a..b, list) {
            Ok(pieces) => (0, pieces),
            Err(Refusal::Short { needed }) => (5, needed),
            Err(refusal) => (refusal.number(), 0),
        });
        ours.code = code_if(ours == wrapped, ours.code);
    }
    tally.judge(Op::List, rule, rust, ours, |case| {
        let case = case.lent("table", asked.lent);
        case.number("a", a)
            .number("b", b)
            .number("records", records as u16);
    });
}

/// The wrapper's iterator gives the pieces up to the first that is refused, and then that refusal.
fn iterate(tally: &mut Tally, asked: &JudgedTable<'_>, a: u32, b: u32) {
    let mut rule = Pieces::default();
    match rules::start(asked.table, a, b) {
        Err(number) => rule.refused = number,
        Ok(mut cursor) => loop {
            match rules::step(asked.table, cursor) {
                Ok((None, _)) => break,
                Ok((Some(piece), after)) => {
                    rule.pieces.push(piece);
                    cursor = after;
                }
                Err(number) => {
                    rule.refused = number;
                    break;
                }
            }
        },
    }
    let rust = (rule.refused == 0).then(|| {
        let ranges = asked.rust.as_ref().unwrap().lookup_range(a..b);
        Pieces {
            refused: 0,
            pieces: ranges.map(|range| (range.start, range.end)).collect(),
        }
    });
    let mut ours = Pieces::default();
    let mut ranges = match asked.table {
        Some(table) => OMAPTable::new(table).lookup_range(a..b),
        None => RangeIter::identity(a..b),
    };
    for range in &mut ranges {
        match range {
            Ok(range) => ours.pieces.push((range.start, range.end)),
            Err(refusal) => ours.refused = refusal.number(),
        }
    }
    // After a refusal, as after the end, there is nothing; and the place tells the refusal.
    let refused = ranges.cursor().err().map_or(0, Refusal::number);
    let over = ranges.next().is_none() && refused == ours.refused;
    ours.refused = code_if(over, ours.refused);
    tally.judge(Op::RangeIter, rule, rust, ours, |case| {
        case.lent("table", asked.lent).number("a", a).number("b", b);
    });
}

#[derive(Debug, Default, PartialEq)]
struct Pieces {
    refused: u32,
    pieces: Vec<(u32, u32)>,
}

impl crate::case::Put for Pieces {
    // Not replayed: the cursor's steps are.
    fn put(&self, _: &mut Vec<u8>) {}
}
