//! Clash and way back, which pdb lacks: the judge counts over every address of the window.

use gillacorn::ffi;
use gillacorn::{OMAPTable, Sources};

use crate::gen;
use crate::operations::{Judge, Op};
use crate::ours::{both, given};
use crate::rng::Rng;
use crate::rules::{self, Answer, OMAP};
use crate::tally::Tally;

const OPS: [Op; 2] = [Op::Clash, Op::WayBack];
/// Windows longer than this are only asked where they are refused.
const LONGEST: u32 = 6000;

pub fn run(tally: &mut Tally, rng: &mut Rng, want: u64) {
    exhaustive(tally);
    for length in 0..=3 * OMAP.width {
        let table: Vec<u8> = (0..length).map(|_| rng.next() as u8).collect();
        for (a, b) in [(0, 9), (9, 0), (0, 0), (u32::MAX - 9, u32::MAX)] {
            Counted::new(&table, a, b).ask(tally, &[0, 1, u32::MAX]);
        }
    }
    for records in [OMAP.most, OMAP.most + 1] {
        Counted::new(&gen::large(OMAP, records), 0x1000, 0x2000).ask(tally, &[0x810, 0x811]);
    }
    let goal = tally.compared(&OPS) + want;
    while tally.compared(&OPS) < goal {
        let table = meeting(rng);
        let table = gen::maybe_damaged(rng, table, OMAP);
        for _ in 0..3 {
            let (a, b) = window(rng, &table);
            let counted = Counted::new(&table, a, b);
            let targets: Vec<u32> = (0..12).map(|_| counted.target(rng)).collect();
            counted.ask(tally, &targets);
        }
    }
}

/// Every table of four records over few targets, at windows of every place and length.
fn exhaustive(tally: &mut Tally) {
    const TARGETS: [u32; 6] = [0, 1, 2, 3, 4, 6];
    for mut number in 0..TARGETS.len().pow(4) {
        let mut table = Vec::new();
        for source in [1, 2, 4, 7] {
            gen::push(&mut table, &[source, TARGETS[number % 6]]);
            number /= 6;
        }
        for (a, b) in [(0, 9), (1, 8), (2, 7), (3, 9), (4, 4), (0, 12)] {
            Counted::new(&table, a, b).ask(tally, &[1, 3, 6, 8]);
        }
    }
}

/// Tables whose pieces meet: at one address, at the first and the last of a piece, inside one
/// another, three at once; at the bottom and at the top of 32 bits.
fn meeting(rng: &mut Rng) -> Vec<u8> {
    let longest = rng.pick(&[1, 3, 8, 30, 30, 400]);
    let mut source = rng.pick(&[0, 1, 0x1000, 0x1000, 0x1000, 0xffff_f000]);
    let mut table = Vec::new();
    let mut pieces: Vec<(u32, u32)> = Vec::new();
    let base = rng.pick(&[1, 0x1000, 0x5000, 0x5000, 0x5000, 0xffff_e000]);
    let apart = rng.one_in(3);
    for _ in 0..1 + rng.below(9) {
        let length = 1 + rng.below(longest) as u32;
        let last = pieces.last().map_or(base, |p| p.0 + p.1);
        let target = match (pieces.is_empty(), rng.below(10)) {
            (_, 0) => 0,
            (true, _) => base,
            _ if apart => last + rng.below(3) as u32,
            (_, 1..=6) => {
                let (start, long) = rng.pick(&pieces);
                match rng.below(5) {
                    // From its first address, at its last, just past it, ending in its first.
                    0 => start,
                    1 => start + long - 1,
                    2 => start + long,
                    3 => start.saturating_sub(length - 1),
                    _ => start + rng.below(long as usize) as u32,
                }
            }
            (_, 7) => last,
            _ => base.saturating_add(rng.below(2 * longest + 2) as u32),
        };
        gen::push(&mut table, &[source, target]);
        if target != 0 && target < u32::MAX - 2 * length {
            pieces.push((target, length));
        }
        source = source.saturating_add(length);
    }
    table
}

fn window(rng: &mut Rng, table: &[u8]) -> (u32, u32) {
    let first = rules::records(table).next().map_or(0, |r| r.0 as u32);
    let last = rules::records(table).last().map_or(0, |r| r.0 as u32);
    let a = match rng.below(4) {
        0 => gen::address(rng, table, OMAP, 0),
        1 => first.saturating_add(rng.below(20) as u32),
        _ => first.saturating_sub(rng.below(4) as u32),
    };
    let b = match rng.below(6) {
        0 => a.saturating_add(rng.below(40) as u32),
        1 => gen::address(rng, table, OMAP, 0),
        2 => a.wrapping_sub(rng.below(2) as u32),
        _ => last.saturating_add(rng.below(40) as u32),
    };
    (a, b)
}

/// A window with the translation of each of its addresses.
struct Counted<'t> {
    table: &'t [u8],
    a: u32,
    b: u32,
    /// A refusal, or target and source of every address that has a translation, in order.
    pairs: Result<Vec<(u32, u32)>, u32>,
}

impl<'t> Counted<'t> {
    fn new(table: &'t [u8], a: u32, b: u32) -> Self {
        let b = match rules::pieces(Some(table), a, b) {
            Ok(_) => b.min(a.saturating_add(LONGEST)),
            Err(_) => b,
        };
        let pairs = rules::pieces(Some(table), a, b).map(|_| {
            let target = |x: u32| rules::translation(table, x).map(|t| (t as u32, x));
            let mut pairs: Vec<_> = (a..b).filter_map(target).collect();
            pairs.sort_unstable();
            pairs
        });
        Counted { table, a, b, pairs }
    }

    /// A target that is hit, or one beside it.
    fn target(&self, rng: &mut Rng) -> u32 {
        match &self.pairs {
            Ok(pairs) if !pairs.is_empty() => {
                let hit = pairs[rng.below(pairs.len())].0;
                match rng.below(4) {
                    0 => hit.wrapping_add(1),
                    1 => hit.wrapping_sub(1),
                    _ => hit,
                }
            }
            _ => rng.u32(),
        }
    }

    fn ask(&self, tally: &mut Tally, targets: &[u32]) {
        let Counted { table, a, b, .. } = *self;
        let judge = match self.pairs {
            Ok(_) => Judge::Count,
            Err(_) => Judge::Rules,
        };
        let expected: Answer<(u32, u32)> = self.pairs.as_ref().map_err(|n| *n).map(|pairs| {
            let twice = pairs.windows(2).filter(|two| two[0].0 == two[1].0);
            twice.map(|two| (two[0].1, two[1].1)).min()
        });
        let raw = ffi::clash(table, a, b);
        let wrapped = OMAPTable::new(table).clash(a..b);
        let ours = both(given(raw.code, (raw.first, raw.second)), wrapped);
        tally.check(Op::Clash, judge, &expected, &ours, |case| {
            case.table("table", table).number("a", a).number("b", b);
        });
        for &target in targets {
            self.way_back(tally, judge, target);
        }
    }

    fn way_back(&self, tally: &mut Tally, judge: Judge, target: u32) {
        let Counted { table, a, b, .. } = *self;
        let expected: Answer<(u32, u32, u32)> = self.pairs.as_ref().map_err(|n| *n).map(|pairs| {
            let at = pairs.partition_point(|pair| pair.0 < target);
            let mut sources = pairs[at..].iter().take_while(|pair| pair.0 == target);
            match (sources.next(), sources.next()) {
                (Some(x), Some(y)) => Some((2, x.1, y.1)),
                (Some(x), None) => Some((1, x.1, 0)),
                _ => None,
            }
        });
        let raw = ffi::way_back(table, a, b, target);
        let wrapped = OMAPTable::new(table).way_back(a..b, target);
        let wrapped = wrapped.map(|sources| match sources {
            Sources::None => None,
            Sources::One(x) => Some((1, x, 0)),
            Sources::Two(x, y) => Some((2, x, y)),
        });
        let raw = given(raw.code, (raw.sources, raw.first, raw.second));
        let ours = both(raw, wrapped);
        tally.check(Op::WayBack, judge, &expected, &ours, |case| {
            let case = case.table("table", table);
            case.number("a", a).number("b", b).number("t", target);
        });
    }
}
