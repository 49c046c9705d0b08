//! Frames: one at a place, the merged iteration, and starting at an address.

mod judged;
mod steps;

use gillacorn::ffi::Lent;
use gillacorn::FrameCursor;

use self::judged::JudgedFrames;
use crate::gen;
use crate::operations::Op;
use crate::rng::Rng;
use crate::rules::{NEW, OLD};
use crate::tally::Tally;

const OPS: [Op; 5] = [
    Op::OldFrame,
    Op::NewFrame,
    Op::FrameNext,
    Op::FramesAt,
    Op::FramesEmpty,
];

pub fn run(tally: &mut Tally, rng: &mut Rng, want: u64) {
    attributes(tally);
    for length in 0..=3 * NEW.width {
        let bytes: Vec<u8> = (0..length).map(|_| rng.next() as u8).collect();
        for marks in 0..4 {
            let good = &bytes[..length - length % 16];
            let asked = JudgedFrames::new(lent(marks & 1, &bytes), lent(marks & 2, good));
            all(tally, rng, &asked);
            let asked = JudgedFrames::new(lent(marks & 2, good), lent(marks & 1, &bytes));
            all(tally, rng, &asked);
        }
    }
    large(tally);
    let goal = tally.compared(&OPS) + want;
    while tally.compared(&OPS) < goal {
        let [old, new] = gen::frame_starts(rng);
        let old = gen::frames(rng, OLD, &old);
        let old = gen::maybe_damaged(rng, old, OLD);
        let new = gen::frames(rng, NEW, &new);
        let new = gen::maybe_damaged(rng, new, NEW);
        let present = rng.below(8);
        let asked = JudgedFrames::new(lent(!present & 3, &old), lent(!present & 5, &new));
        all(tally, rng, &asked);
    }
}

fn lent(mark: usize, bytes: &[u8]) -> Lent<'_> {
    Lent {
        present: mark != 0,
        bytes,
    }
}

/// Every value of an old frame's attributes.
fn attributes(tally: &mut Tally) {
    let mut table = Vec::with_capacity(OLD.width << 16);
    for attributes in 0..=u16::MAX {
        let place = u32::from(attributes);
        gen::push(&mut table, &[place * 8, 8, place, place << 16 | place]);
    }
    let asked = JudgedFrames::new(lent(1, &table), lent(0, &[]));
    (0..=1 << 16).for_each(|place| asked.one(tally, OLD, place));
    asked.walk(tally, FrameCursor::default(), usize::MAX);
}

/// The most records, and one more, on either side.
fn large(tally: &mut Tally) {
    for (old, new) in [
        (OLD.most, 5),
        (5, NEW.most),
        (OLD.most + 1, 5),
        (5, NEW.most + 1),
    ] {
        let (old, new) = (gen::large(OLD, old), gen::large(NEW, new));
        let asked = JudgedFrames::new(lent(1, &old), lent(1, &new));
        for place in [0, OLD.most - 1, OLD.most, usize::MAX] {
            asked.one(tally, OLD, place);
            asked.one(tally, NEW, place);
        }
        for address in [0, 0x1000, 0x3fff_fc00, u32::MAX] {
            asked.at(tally, address);
        }
        asked.walk(tally, FrameCursor::default(), 20);
        asked.empty(tally);
    }
}

/// Every question, at places and addresses that the tables make interesting.
fn all(tally: &mut Tally, rng: &mut Rng, asked: &JudgedFrames<'_>) {
    asked.empty(tally);
    for (kind, table) in [(OLD, asked.old), (NEW, asked.new)] {
        for _ in 0..3 {
            asked.one(tally, kind, rng.below(table.len() / kind.width + 2));
        }
    }
    asked.walk(tally, FrameCursor::default(), usize::MAX);
    for _ in 0..6 {
        let (table, kind) = rng.pick(&[(asked.old, OLD), (asked.new, NEW)]);
        let address = gen::address(rng, table, kind, 0);
        if let Some(cursor) = asked.at(tally, address) {
            asked.walk(tally, cursor, 3);
        }
    }
    let mut index = |count: usize| match rng.below(6) {
        0 => usize::MAX,
        _ => rng.below(count + 2),
    };
    for _ in 0..2 {
        let cursor = FrameCursor {
            old_index: index(asked.old.len() / OLD.width),
            new_index: index(asked.new.len() / NEW.width),
        };
        asked.walk(tally, cursor, 2);
    }
}
