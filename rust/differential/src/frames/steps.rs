//! The merged iteration over frames, step by step, and starting it at an address.

use gillacorn::ffi::{self, Frame};
use gillacorn::{FrameCursor, PdbInternalRva};

use super::judged::{frame_of, wrapped_frame, JudgedFrames};
use crate::case::Put;
use crate::operations::Op;
use crate::ours::{both, code_if, given};
use crate::rules::{self, Taken, NEW, OLD};
use crate::tally::{Listed, Tally};

/// A step: a code, a frame and the cursor after it.
#[derive(Clone, Copy, Debug, PartialEq)]
struct Stepped {
    code: u32,
    frame: Frame,
    cursor: FrameCursor,
}

impl Put for Stepped {
    fn put(&self, out: &mut Vec<u8>) {
        (self.code as u8).put(out);
        self.frame.put(out);
        self.cursor.put(out);
    }
}

impl JudgedFrames<'_> {
    /// Steps from a cursor until the end and once after it, or at most `steps` times.
    pub fn walk(&self, tally: &mut Tally, from: FrameCursor, steps: usize) {
        let mut cursor = from;
        let mut ended = false;
        for _ in 0..steps {
            let after = self.step(tally, cursor);
            match after.code {
                0 => {}
                255 if !ended => ended = true,
                255 if from == FrameCursor::default() => return self.builds(tally),
                _ => return,
            }
            cursor = after.cursor;
        }
    }

    /// The frames of pdb as it is, beside those of the build whose fields are seen.
    fn builds(&self, tally: &mut Tally) {
        let mut unchanged = Vec::new();
        let mut iter = self.rust.as_ref().unwrap().iter();
        while let Ok(Some(frame)) = oracle::FallibleIterator::next(&mut iter) {
            unchanged.push(frame_of!(frame));
        }
        let mut opened = Vec::new();
        let mut iter = self.fields.as_ref().unwrap().iter();
        while let Ok(Some(frame)) = oracle_fields::FallibleIterator::next(&mut iter) {
            opened.push(frame_of!(frame));
        }
        tally.builds(unchanged, opened, |case| self.input(case));
    }

    fn step(&self, tally: &mut Tally, cursor: FrameCursor) -> Stepped {
        let FrameCursor {
            old_index,
            new_index,
        } = cursor;
        let stays = |code| Stepped {
            code,
            frame: Frame::default(),
            cursor,
        };
        let rule = rules::taken(self.old, self.new, old_index, new_index);
        let rust = rule.ok().map(|_| {
            let table = self.fields.as_ref().unwrap();
            let mut iter = table.iter_at_indexes(old_index, new_index);
            let frame = oracle_fields::FallibleIterator::next(&mut iter).unwrap();
            let (old_index, new_index) = iter.indexes();
            frame.map_or(stays(255), |frame| Stepped {
                code: 0,
                frame: frame_of!(frame),
                cursor: FrameCursor {
                    old_index,
                    new_index,
                },
            })
        });
        // What the rules say of the step: from which table, and where it goes on.
        let rule = match (rule, rust) {
            (Err(number), _) => {
                if let (4, Some(_)) = (number, &self.rust) {
                    tally.listed(Listed::Sum);
                }
                stays(number)
            }
            (Ok(Taken::End), _) => stays(255),
            (Ok(taken), rust) => Stepped {
                cursor: FrameCursor {
                    old_index: old_index + usize::from(taken != Taken::New),
                    new_index: new_index + usize::from(taken != Taken::Old),
                },
                ..rust.unwrap()
            },
        };
        let raw = ffi::frame_next(cursor, &self.raw);
        let mut ours = Stepped {
            code: raw.code,
            frame: raw.frame,
            cursor: raw.cursor,
        };
        let mut iter = self.table.iter_at(cursor);
        let wrapped = match iter.next() {
            Some(Ok(frame)) => (0, wrapped_frame(frame)),
            None => (255, Frame::default()),
            Some(Err(refusal)) => (refusal.number(), Frame::default()),
        };
        // A refusal is told once, by the item and by the place, and ends the walk.
        let stands = match iter.cursor() {
            Ok(cursor) => cursor == raw.cursor,
            Err(refusal) => refusal.number() == raw.code && iter.next().is_none(),
        };
        let same = wrapped == (raw.code, raw.frame) && stands;
        ours.code = code_if(same, raw.code);
        tally.judge(Op::FrameNext, rule, rust, ours, |case| {
            self.input(case);
            case.place("old_index", old_index)
                .place("new_index", new_index);
        });
        ours
    }

    pub fn at(&self, tally: &mut Tally, address: u32) -> Option<FrameCursor> {
        let rule = rules::frame_place(OLD, self.old, address).and_then(|old_index| {
            let new_index = rules::frame_place(NEW, self.new, address)?;
            Ok(Some(FrameCursor {
                old_index,
                new_index,
            }))
        });
        let fit = rules::blocks_fit(OLD, self.old) && rules::blocks_fit(NEW, self.new);
        let rust = (rule.is_ok() && fit).then(|| {
            let table = self.fields.as_ref().unwrap();
            let iter = table.iter_at_rva(oracle_fields::PdbInternalRva(address));
            let (old_index, new_index) = iter.indexes();
            Ok(Some(FrameCursor {
                old_index,
                new_index,
            }))
        });
        match (rule, &self.rust) {
            (Err(3), Some(_)) => tally.listed(Listed::Order),
            (Err(2), Some(_)) => tally.listed(Listed::TooMany),
            (Err(1), None) => tally.listed(Listed::WrongLength),
            _ => {}
        }
        let raw = ffi::frames_at(address, &self.raw);
        let mut iter = self.table.iter_at_rva(PdbInternalRva(address));
        let wrapped = iter.cursor().map(Some);
        let mut ours = both(given(raw.code, raw.cursor), wrapped);
        if let Err(refusal) = wrapped {
            // A refused start is the first item, and the last.
            let told = iter.next() == Some(Err(refusal)) && iter.next().is_none();
            ours = ours.map_err(|number| code_if(told, number));
        }
        tally.judge(Op::FramesAt, rule, rust, ours, |case| {
            self.input(case);
            case.number("address", address);
        });
        if let (Some(_), Some(table)) = (rust, &self.rust) {
            // The first frames from there, in the unchanged build and in the other.
            let mut unchanged = table.iter_at_rva(oracle::PdbInternalRva(address));
            let opened = self.fields.as_ref().unwrap();
            let opened = &mut opened.iter_at_rva(oracle_fields::PdbInternalRva(address));
            let first = oracle::FallibleIterator::next(&mut unchanged).unwrap();
            let second = oracle_fields::FallibleIterator::next(opened).unwrap();
            let (first, second) = (first.map(|f| frame_of!(f)), second.map(|f| frame_of!(f)));
            tally.builds(first, second, |case| self.input(case));
        }
        ours.ok().flatten()
    }
}
