//! OMAP tables, and what is asked of each: records, single translations, windows and cursors.

use gillacorn::ffi::Lent;

use crate::gen;
use crate::judged::JudgedTable;
use crate::lookups;
use crate::operations::Op;
use crate::rng::Rng;
use crate::rules::OMAP;
use crate::tally::{Listed, Tally};
use crate::windows::{self, cursors};

const OPS: [Op; 6] = [
    Op::RecordAt,
    Op::Lookup,
    Op::QuickLookup,
    Op::Window,
    Op::CursorStart,
    Op::CursorStep,
];

pub fn run(tally: &mut Tally, rng: &mut Rng, want: u64) {
    lengths(tally, rng);
    exhaustive(tally, rng);
    large(tally, rng);
    // An empty table has no records here, and pdb agrees where aligned bytes are lent to it.
    let empty = oracle::Tables::new(&[Some(&[])]);
    if empty.omap(0).is_ok() && empty.omap_as_file(0).is_err() {
        tally.listed(Listed::EmptyTable);
    }
    let goal = tally.compared(&OPS) + want;
    while tally.compared(&OPS) < goal {
        let table = gen::omap(rng);
        let table = gen::maybe_damaged(rng, table, OMAP);
        let present = !rng.one_in(12);
        let asked = JudgedTable::new(Lent {
            present,
            bytes: &table,
        });
        let address = |rng: &mut Rng| gen::address(rng, &table, OMAP, 0);
        for _ in 0..4 {
            lookups::record(tally, &asked, rng.below(table.len() / 8 + 3));
        }
        for _ in 0..12 {
            let at = address(rng);
            lookups::lookup(tally, &asked, at);
            lookups::quick_lookup(tally, &asked, at);
        }
        for _ in 0..8 {
            let (a, b) = asked.some_window(rng);
            windows::around(tally, rng, &asked, a, b);
            cursors::walk(tally, &asked, a, b);
        }
        for _ in 0..10 {
            cursors::anywhere(tally, rng, &asked);
        }
    }
}

/// Every length up to three records, with a mark and without.
fn lengths(tally: &mut Tally, rng: &mut Rng) {
    for length in 0..=3 * OMAP.width {
        for present in [true, false] {
            let bytes: Vec<u8> = (0..length).map(|_| rng.next() as u8).collect();
            let asked = JudgedTable::new(Lent {
                present,
                bytes: &bytes,
            });
            (0..5).for_each(|place| lookups::record(tally, &asked, place));
            lookups::record(tally, &asked, usize::MAX);
            for (a, b) in [(0, u32::MAX), (5, 5), (7, 3), (0, 0), (1, u32::MAX)] {
                lookups::lookup(tally, &asked, a);
                lookups::quick_lookup(tally, &asked, a);
                windows::around(tally, rng, &asked, a, b);
                cursors::walk(tally, &asked, a, b);
            }
        }
    }
}

/// Every table of up to three records over few numbers: every address, and for up to two records
/// every window.
fn exhaustive(tally: &mut Tally, rng: &mut Rng) {
    const SOURCES: [u32; 4] = [0, 1, 2, 4];
    const TARGETS: [u32; 4] = [0, 1, 0xffff_fffd, 0xffff_ffff];
    const ENDS: [u32; 6] = [0, 1, 2, 3, 5, u32::MAX];
    let all = SOURCES.len() * TARGETS.len();
    for records in 0..=3 {
        for mut number in 0..all.pow(records) {
            let mut table = Vec::new();
            for _ in 0..records {
                let pair = number % all;
                number /= all;
                gen::push(&mut table, &[SOURCES[pair % 4], TARGETS[pair / 4]]);
            }
            let asked = JudgedTable::new(Some(&table[..]).into());
            for a in ENDS {
                lookups::lookup(tally, &asked, a);
                lookups::quick_lookup(tally, &asked, a);
            }
            if records < 3 {
                for a in ENDS {
                    for b in ENDS {
                        windows::around(tally, rng, &asked, a, b);
                        cursors::walk(tally, &asked, a, b);
                    }
                }
            }
        }
    }
}

/// The most records, one less and one more: in order, and turned round for the search alone; a window
/// over the whole.
fn large(tally: &mut Tally, rng: &mut Rng) {
    for records in [OMAP.most - 1, OMAP.most, OMAP.most + 1] {
        let table = gen::large(OMAP, records);
        let turned: Vec<u8> = table.rchunks_exact(OMAP.width).flatten().copied().collect();
        for table in [&table, &turned] {
            let asked = JudgedTable::new(Some(&table[..]).into());
            for _ in 0..60 {
                let address = gen::address(rng, table, OMAP, 0);
                lookups::quick_lookup(tally, &asked, address);
            }
        }
        let asked = JudgedTable::new(Some(&table[..]).into());
        for place in [0, 1, OMAP.most - 1, OMAP.most, OMAP.most + 1] {
            lookups::record(tally, &asked, place);
        }
        for address in [0, 0x3ff, 0x400, 0x3fff_fc00, 0x7fff_ffff, u32::MAX] {
            lookups::lookup(tally, &asked, address);
        }
        let need = asked.pieces(1, u32::MAX).map_or(0, |pieces| pieces.len());
        for places in [2 * need, 2 * need.max(1) - 1] {
            windows::window(tally, &asked, 1, u32::MAX, places);
        }
    }
}
