//! An OMAP table with its judges, and an output that shows what was written.

use gillacorn::ffi::Lent;
use gillacorn::Refusal;

use crate::case::Put;
use crate::gen;
use crate::rng::Rng;
use crate::rules::{self, OMAP};

/// A table with both of its judges.
pub struct JudgedTable<'t> {
    pub lent: Lent<'t>,
    /// What the rules read: nothing where the mark is absent.
    pub table: Option<&'t [u8]>,
    pub rust: Option<oracle::Omap>,
    pub fields: Option<oracle_fields::Omap>,
}

impl<'t> JudgedTable<'t> {
    pub fn new(lent: Lent<'t>) -> Self {
        let table = lent.present.then_some(lent.bytes);
        JudgedTable {
            lent,
            table,
            rust: oracle::Tables::new(&[table]).omap(0).ok(),
            fields: oracle_fields::Tables::new(&[table]).omap(0).ok(),
        }
    }

    /// Two ends, mostly the right way round.
    pub fn some_window(&self, rng: &mut Rng) -> (u32, u32) {
        let address = |rng: &mut Rng| gen::address(rng, self.lent.bytes, OMAP, 0);
        let a = address(rng);
        let b = match rng.below(6) {
            0 => a.wrapping_add(rng.below(3) as u32),
            1 => u32::MAX - rng.below(2) as u32,
            _ => address(rng),
        };
        if a <= b || rng.one_in(8) {
            (a, b)
        } else {
            (b, a)
        }
    }

    pub fn pieces(&self, a: u32, b: u32) -> Result<Vec<(u32, u32)>, u32> {
        rules::pieces(self.table, a, b)
    }

    /// What the judges say of the window call with room for `room` pieces in `places` places.
    pub fn judged(&self, a: u32, b: u32, room: usize, places: usize) -> (Output, Option<Output>) {
        let output = |pieces: Result<Vec<(u32, u32)>, u32>| {
            let mut output = Output::new(places);
            match pieces {
                Ok(pieces) if pieces.len() <= room => {
                    output.pieces = pieces.len();
                    for (two, piece) in output.lent().chunks_mut(2).zip(pieces) {
                        two.copy_from_slice(&[piece.0, piece.1]);
                    }
                }
                Ok(pieces) => {
                    output.code = 5;
                    output.pieces = pieces.len();
                }
                Err(number) => output.code = number,
            }
            output
        };
        let pieces = self.pieces(a, b);
        let in_domain = matches!(&pieces, Ok(pieces) if pieces.len() <= room);
        let rust = in_domain.then(|| {
            let ranges = self.rust.as_ref().unwrap().lookup_range(a..b);
            output(Ok(ranges.map(|range| (range.start, range.end)).collect()))
        });
        (output(pieces), rust)
    }
}

/// An output with untouched places before and after what is lent, and what was told of it.
#[derive(Clone, Debug, PartialEq)]
pub struct Output {
    pub code: u32,
    pub pieces: usize,
    places: Vec<u32>,
}

const MARGIN: usize = 4;

impl Output {
    pub fn new(places: usize) -> Self {
        let at = |place: usize| 0xa5a5_a500u32.wrapping_add(place.wrapping_sub(MARGIN) as u32);
        Output {
            code: 0,
            pieces: 0,
            places: (0..places + 2 * MARGIN).map(at).collect(),
        }
    }

    pub fn lent(&mut self) -> &mut [u32] {
        let end = self.places.len() - MARGIN;
        &mut self.places[MARGIN..end]
    }

    /// Every place, also those that are not lent.
    pub fn all(&mut self) -> &mut [u32] {
        &mut self.places
    }

    pub fn tell(&mut self, told: Result<usize, Refusal>) {
        match told {
            Ok(pieces) => self.pieces = pieces,
            Err(refusal) => self.code = refusal.number(),
        }
        if let Err(Refusal::Short { needed }) = told {
            self.pieces = needed;
        }
    }
}

impl Put for Output {
    fn put(&self, out: &mut Vec<u8>) {
        (self.code as u8).put(out);
        self.pieces.put(out);
        let end = self.places.len() - MARGIN;
        self.places[MARGIN..end]
            .iter()
            .for_each(|place| place.put(out));
    }
}
