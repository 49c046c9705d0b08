//! Two tables of frames with their judges; one frame at a place; whether there is any.

use gillacorn::ffi::{self, Frame, Frames, Lent};
use gillacorn::{FrameData, FrameTable};

use crate::case::Case;
use crate::operations::Op;
use crate::ours::{both, given};
use crate::rules::{self, Kind, NEW, OLD};
use crate::tally::Tally;

/// A frame of pdb's or of the wrapper's, as the face has it.
macro_rules! frame_of {
    ($frame:expr) => {{
        let frame = $frame;
        Frame {
            ty: frame.ty as u32,
            code_start: frame.code_start.0,
            code_size: frame.code_size,
            locals_size: frame.locals_size,
            params_size: frame.params_size,
            prolog_size: frame.prolog_size,
            saved_regs_size: frame.saved_regs_size,
            has_structured_eh: frame.has_structured_eh,
            has_cpp_eh: frame.has_cpp_eh,
            is_function_start: frame.is_function_start,
            uses_base_pointer: frame.uses_base_pointer,
            has_max_stack_size: frame.max_stack_size.is_some(),
            has_program: frame.program.is_some(),
            max_stack_size: frame.max_stack_size.unwrap_or(0),
            program: frame.program.map_or(0, |program| program.0),
        }
    }};
}
pub(super) use frame_of;

pub fn wrapped_frame(frame: FrameData) -> Frame {
    frame_of!(frame)
}

/// Two tables with their judges.
pub struct JudgedFrames<'t> {
    pub raw: Frames<'t>,
    /// What the rules read: nothing where a mark is absent.
    pub old: &'t [u8],
    pub new: &'t [u8],
    pub table: FrameTable<'t>,
    pub rust: Option<oracle::FrameTable<'static>>,
    pub fields: Option<oracle_fields::FrameTable<'static>>,
}

impl<'t> JudgedFrames<'t> {
    pub fn new(old: Lent<'t>, new: Lent<'t>) -> Self {
        let present = [old, new].map(|table| table.present.then_some(table.bytes));
        JudgedFrames {
            raw: Frames { old, new },
            old: present[0].unwrap_or(&[]),
            new: present[1].unwrap_or(&[]),
            table: FrameTable::new(present[0], present[1]),
            rust: oracle::Tables::new(&present).frames().ok(),
            fields: oracle_fields::Tables::new(&present).frames().ok(),
        }
    }

    pub fn input(&self, case: &mut Case) {
        case.lent("old", self.raw.old).lent("new", self.raw.new);
    }

    /// One frame of one table. pdb has no such question: a table of that record alone answers it.
    pub fn one(&self, tally: &mut Tally, kind: Kind, place: usize) {
        let is_old = kind.width == OLD.width;
        let table = if is_old { self.old } else { self.new };
        let rule = kind.count(table).and_then(|count| match place < count {
            true if is_old => rules::locals_fit(table, place).map(|_| true),
            given => Ok(given),
        });
        let expected = rule.map(|given| {
            given.then(|| {
                let record = Some(&table[place * kind.width..][..kind.width]);
                let alone = if is_old {
                    [record, None]
                } else {
                    [None, record]
                };
                let alone = oracle::Tables::new(&alone).frames().unwrap();
                let frame = oracle::FallibleIterator::next(&mut alone.iter());
                frame_of!(frame.unwrap().unwrap())
            })
        });
        let (op, raw, wrapped) = match is_old {
            true => (
                Op::OldFrame,
                ffi::old_frame(table, place),
                self.table.old_frame(place),
            ),
            false => (
                Op::NewFrame,
                ffi::new_frame(table, place),
                self.table.new_frame(place),
            ),
        };
        let wrapped = wrapped.map(|frame| frame.map(wrapped_frame));
        let ours = both(given(raw.code, raw.frame), wrapped);
        let rust = expected.is_ok().then_some(expected);
        tally.judge(op, expected, rust, ours, |case| {
            case.table("table", table).place("place", place);
        });
    }

    pub fn empty(&self, tally: &mut Tally) {
        let counts = OLD
            .count(self.old)
            .and_then(|old| Ok((old, NEW.count(self.new)?)));
        let rule = counts.map(|counts| Some(u32::from(counts == (0, 0))));
        let rust = rule
            .ok()
            .map(|_| Ok(Some(u32::from(self.rust.as_ref().unwrap().is_empty()))));
        let raw = ffi::frames_empty(&self.raw);
        let wrapped = self.table.is_empty().map(|empty| Some(u32::from(empty)));
        let ours = both(given(raw.code, raw.value), wrapped);
        tally.judge(Op::FramesEmpty, rule, rust, ours, |case| self.input(case));
    }
}
