//! The pieces of a window: all at once, and by a cursor.

use gillacorn::ffi::Piece;
use gillacorn::OMAPTable;
use oracle::Tables;

use crate::driver::{add, all, many, told, Driver};
use crate::face::{
    gillacorn_cursor_start, gillacorn_cursor_step, gillacorn_list, gillacorn_window,
};
use crate::inputs::{numbers, omap, omap_window, questions, FAR, SIZES};

pub fn run(driver: &mut Driver) {
    driver.topic("Windows");
    for records in SIZES {
        whole(driver, records);
    }
    for records in SIZES {
        start(driver, records);
    }
    for records in SIZES {
        cursor(driver, records);
    }
}

/// Into lent places: ours with every refusal, theirs by its iterator.
fn whole(driver: &mut Driver, records: usize) {
    let bytes = omap(records, FAR);
    let tables = Tables::new(&[Some(&bytes)]);
    let theirs = tables.omap(0).unwrap();
    let all = omap_window(records);
    let mut words = vec![0u32; 2 * records];
    let mut their_words = words.clone();
    let mut pieces = vec![Piece::default(); records];
    let mut their_pieces = pieces.clone();
    // Some of what was written; adding all of it up would take as long as writing it.
    let seen = |count: usize, first: u32, last: u32| {
        add(add(count as u64, u64::from(first)), u64::from(last))
    };

    driver.row(
        &format!("window over {}, a record", many(records, "record")),
        records,
        || {
            let given = gillacorn_window(true, &bytes, all.start, all.end, &mut words);
            seen(given.pieces, words[0], words[2 * given.pieces - 1])
        },
        || {
            let mut written = 0;
            for range in theirs.lookup_range(all.clone()) {
                their_words[written] = range.start;
                their_words[written + 1] = range.end;
                written += 2;
            }
            seen(written / 2, their_words[0], their_words[written - 1])
        },
    );
    driver.row(
        &format!(
            "list of a window over {}, a record",
            many(records, "record")
        ),
        records,
        || {
            let given = gillacorn_list(true, &bytes, all.start, all.end, &mut pieces);
            seen(given.pieces, pieces[0].start, pieces[given.pieces - 1].end)
        },
        || {
            let mut written = 0;
            for range in theirs.lookup_range(all.clone()) {
                their_pieces[written].start = range.start;
                their_pieces[written].end = range.end;
                written += 1;
            }
            seen(
                written,
                their_pieces[0].start,
                their_pieces[written - 1].end,
            )
        },
    );
}

/// A cursor that is started and stepped once, since pdb's own fields are hidden.
fn start(driver: &mut Driver, records: usize) {
    let bytes = omap(records, FAR);
    let tables = Tables::new(&[Some(&bytes)]);
    let theirs = tables.omap(0).unwrap();
    let end = omap_window(records).end;
    let asked = numbers(questions(records), omap_window(records));
    driver.row(
        &format!("cursor's start and first step, {}", many(records, "record")),
        asked.len(),
        || {
            all(&asked, |a| {
                let started = gillacorn_cursor_start(true, &bytes, a, end);
                let given = gillacorn_cursor_step(started.cursor, true, &bytes);
                told((given.code == 0).then_some(given.start))
            })
        },
        || {
            all(&asked, |a| {
                told(theirs.lookup_range(a..end).next().map(|range| range.start))
            })
        },
    );
}

/// A cursor over a whole window, a piece.
fn cursor(driver: &mut Driver, records: usize) {
    let bytes = omap(records, FAR);
    let tables = Tables::new(&[Some(&bytes)]);
    let theirs = tables.omap(0).unwrap();
    let window = omap_window(records);
    let pieces = theirs.lookup_range(window.clone()).count();
    let piece = |sum, start: u32, end: u32| add(sum, u64::from(start) << 32 | u64::from(end));
    let iterated = || {
        let ranges = theirs.lookup_range(window.clone());
        ranges.fold(0, |sum, range| piece(sum, range.start, range.end))
    };
    let first = gillacorn_cursor_start(true, &bytes, window.start, window.end).cursor;
    let size = many(records, "record");
    driver.row(
        &format!("cursor over {size}, its start apart, a piece"),
        pieces,
        || {
            let (mut cursor, mut sum) = (first, 0);
            loop {
                let given = gillacorn_cursor_step(cursor, true, &bytes);
                if given.code != 0 {
                    return sum;
                }
                sum = piece(sum, given.start, given.end);
                cursor = given.cursor;
            }
        },
        iterated,
    );
    // The iterator as it is after its start.
    let begun = OMAPTable::new(&bytes).lookup_range(window.clone());
    driver.row(
        &format!("cursor over {size}, its start apart, wrapper, a piece"),
        pieces,
        || {
            let mut sum = 0;
            for range in begun.clone() {
                let range = range.unwrap();
                sum = piece(sum, range.start, range.end);
            }
            sum
        },
        iterated,
    );
}
