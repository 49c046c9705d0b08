//! Frames: by place, one after another, and from an address on.

use gillacorn::FrameTable;
use oracle::Tables;

use crate::driver::{add, all, many, told, Driver};
use crate::face::{
    gillacorn_frame_next, gillacorn_frames_at, gillacorn_frames_empty, gillacorn_new_frame,
    gillacorn_old_frame,
};
use crate::inputs::{frames, numbers, questions, SIZES};

pub fn run(driver: &mut Driver) {
    driver.topic("Frames");
    by_place(driver);
    for records in SIZES {
        iteration(driver, records);
    }
    for records in SIZES {
        start(driver, records);
    }
    empty(driver);
}

fn by_place(driver: &mut Driver) {
    let (old, new) = (frames(16, 1_000), frames(32, 1_000));
    let asked = numbers(2_000, 0..1_000);
    driver.ours("old frame at a place", asked.len(), || {
        all(&asked, |place| {
            u64::from(gillacorn_old_frame(&old, place as usize).frame.code_start)
        })
    });
    driver.ours("new frame at a place", asked.len(), || {
        all(&asked, |place| {
            u64::from(gillacorn_new_frame(&new, place as usize).frame.code_start)
        })
    });
}

fn iteration(driver: &mut Driver, records: usize) {
    let (old, new) = (frames(16, records), frames(32, records));
    let tables = Tables::new(&[Some(&old), Some(&new)]);
    let theirs = tables.frames().unwrap();
    let count = oracle::FallibleIterator::count(theirs.iter()).unwrap();
    let frame = |sum, start: u32, locals: u32| add(sum, u64::from(start) << 32 | u64::from(locals));
    let iterated = || {
        let (mut iter, mut sum) = (theirs.iter(), 0);
        while let Some(given) = oracle::FallibleIterator::next(&mut iter).unwrap() {
            sum = frame(sum, given.code_start.0, given.locals_size);
        }
        sum
    };
    let size = sizes(records);
    driver.row(
        &format!("frames, {size}, a frame"),
        count,
        || {
            let (mut cursor, mut sum) = (Default::default(), 0);
            loop {
                let given = gillacorn_frame_next(cursor, &[&old, &new]);
                if given.code != 0 {
                    return sum;
                }
                sum = frame(sum, given.frame.code_start, given.frame.locals_size);
                cursor = given.cursor;
            }
        },
        iterated,
    );
    let table = FrameTable::new(Some(&old), Some(&new));
    driver.row(
        &format!("frames, {size}, wrapper, a frame"),
        count,
        || {
            let (mut iter, mut sum) = (table.iter(), 0);
            while let Some(given) = iter.next().transpose().unwrap() {
                sum = frame(sum, given.code_start.0, given.locals_size);
            }
            sum
        },
        iterated,
    );
}

/// From an address: the start and the first frame, since pdb's cursor is hidden.
fn start(driver: &mut Driver, records: usize) {
    let (old, new) = (frames(16, records), frames(32, records));
    let tables = Tables::new(&[Some(&old), Some(&new)]);
    let theirs = tables.frames().unwrap();
    let asked = numbers(questions(records), 0x1000..0x1010 + 12 * records as u32);
    driver.row(
        &format!(
            "frames' start at an address and first frame, {}",
            sizes(records)
        ),
        asked.len(),
        || {
            all(&asked, |a| {
                let started = gillacorn_frames_at(a, &[&old, &new]);
                let given = gillacorn_frame_next(started.cursor, &[&old, &new]);
                told((given.code == 0).then_some(given.frame.code_start))
            })
        },
        || {
            all(&asked, |a| {
                let mut iter = theirs.iter_at_rva(oracle::PdbInternalRva(a));
                let first = oracle::FallibleIterator::next(&mut iter).unwrap();
                told(first.map(|frame| frame.code_start.0))
            })
        },
    );
}

fn empty(driver: &mut Driver) {
    let (old, new) = (frames(16, 1_000), frames(32, 1_000));
    let tables = Tables::new(&[Some(&old), Some(&new)]);
    let theirs = tables.frames().unwrap();
    let asked = [(); 100];
    driver.row(
        "frames, is there none",
        asked.len(),
        || {
            all(&asked, |()| {
                u64::from(gillacorn_frames_empty(std::hint::black_box(&[&old, &new])).value)
            })
        },
        || {
            all(&asked, |()| {
                u64::from(std::hint::black_box(&theirs).is_empty())
            })
        },
    );
}

fn sizes(records: usize) -> String {
    format!(
        "{} and {}",
        many(records, "old frame"),
        many(records, "new one")
    )
}
