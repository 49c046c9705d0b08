//! A fixed sample of the answers that were compared, for the program `replay`, which needs no Rust.
//!
//! The file is a run of cases; every number is little-endian, nothing is padded:
//!
//!     u8 operation, u16 length of the rest, then the rest: u8 judge, input, answer
//!
//! The judge is 0 for pdb, 1 for the documents' rules, 2 for a count over every address. In what
//! follows T is a table: u8 mark (1 present, 0 absent), u16 length, that many bytes. `code` is a u8:
//! 0 a value, 1 to 6 a refusal, 255 none; the value's bytes follow in any case, as zeros where there
//! is none. A place has 32 bits. A frame has 30 bytes: u8 type; u32 code_start, code_size,
//! locals_size, params_size; u16 prolog_size, saved_regs_size; u8 marks (bit 0 structured EH, 1 C++
//! EH, 2 function start, 3 base pointer, 4 has a stack size, 5 has a program); u32 max_stack_size,
//! program. A cursor has 20 bytes: u32 address, end, source, target, place.
//!
//! | no. | operation | input | answer |
//! |---|---|---|---|
//! | 1 | header | T, u32 place | code, 40 bytes as in a table |
//! | 2 | name | T, u16 number | u8 length |
//! | 3 | flags | u32 characteristics | u32: bit 0 executable .. bit 19 write, in the face's order |
//! | 4 | alignment | u32 characteristics | code, u32 |
//! | 5 | record_at | T, u32 place | code, u32 source, u32 target |
//! | 6 | lookup | T, u32 address | code, u32 |
//! | 7 | window | T, u32 a, u32 b, u16 places | code, u32 pieces, then the `places` u32 of the output at exit; at entry each is A5A5A500h + its place |
//! | 8 | cursor start | T, u32 a, u32 b | code, cursor |
//! | 9 | cursor step | T, cursor | code, u32 start, u32 end, cursor |
//! | 10 | list | T, u32 a, u32 b, u16 records | as 7, with two places for each record |
//! | 11 | clash | T, u32 a, u32 b | code, u32 first, u32 second |
//! | 12 | way_back | T, u32 a, u32 b, u32 t | code, u32 sources, u32 first, u32 second |
//! | 13 | section_offset | T, u8 by, u32 address | code, u16 section, u32 offset |
//! | 14 | virtual_address | T, u16 section, u32 offset | code, u32 |
//! | 15 | old frame | T, u32 place | code, frame |
//! | 16 | new frame | T, u32 place | code, frame |
//! | 17 | frame iteration | T old, T new, u32 old_index, u32 new_index | code, frame, u32 old_index, u32 new_index |
//! | 18 | frames from an address | T old, T new, u32 address | code, u32 old_index, u32 new_index |
//! | 19 | is_empty | T old, T new | code, u32 1 or 0 |
//! | 20 to 31 | the conversions, in the face's order | T original_sections, T transformed_sections, T to_original, T to_transformed, u8 by, u16 section, u32 rva or offset | code, u16 section, u32 rva or offset |
//! | 32 | quick_lookup | T, u32 address | code, u32, u32 probes, which none has too |
//!
//! In 7 and 10 `pieces` is told with code 5 too. In 8 and 9 a refusal hands a cursor back: zeros for
//! 8, the unchanged one for 9; in 9 code 255 comes with the cursor left behind. In 17 the end and a
//! refusal hand back the unchanged indexes. In 13 and 20 to 31 `by` is the size with which an address
//! is compared: 0 in memory, 1 of the raw data; 0 for a conversion that locates no address. In 20 to 31
//! the section is 0 where an rva goes in or comes out.

use std::io;

use crate::case::{Case, Put};
use crate::operations::{Judge, Op};
use crate::rng::Rng;

/// Every case of an operation and a judge has the same chance to be kept; telling ones are kept apart,
/// since they are few.
pub struct Sample {
    rng: Rng,
    kept: Vec<[Kept; 4]>,
}

#[derive(Clone, Default)]
struct Kept {
    offered: usize,
    cases: Vec<Vec<u8>>,
}

/// Where telling cases are kept, behind the places of the judges.
const TELLING: usize = 3;

/// How many cases are kept, and the longest rest of one: pdb's answers matter most, and a conversion
/// has four tables.
fn quota(op: Op, judge: Judge, telling: bool) -> (usize, usize) {
    match (op.number(), judge) {
        (20..=31, _) if telling => (15, 380),
        (_, _) if telling => (60, 200),
        (20..=31, Judge::Rust) => (60, 380),
        (20..=31, _) => (15, 380),
        (100.., _) => (0, 0),
        (_, Judge::Rules) => (40, 200),
        _ => (250, 200),
    }
}

impl Sample {
    pub fn new(seed: u64) -> Self {
        Sample {
            rng: Rng::new(seed),
            kept: vec![Default::default(); Op::ALL.len()],
        }
    }

    pub fn offer<T: Put>(&mut self, op: Op, judge: Judge, answer: &T, input: impl Fn(&mut Case)) {
        let mut case = Case::for_replay();
        case.bytes.push(judge as u8);
        input(&mut case);
        if case.too_wide {
            return;
        }
        answer.put(&mut case.bytes);
        let (most, longest) = quota(op, judge, case.telling);
        if case.bytes.len() > longest {
            return;
        }
        let place = if case.telling {
            TELLING
        } else {
            judge as usize
        };
        let kept = &mut self.kept[op as usize][place];
        kept.offered += 1;
        if kept.cases.len() < most {
            kept.cases.push(case.bytes);
        } else if let Some(old) = kept.cases.get_mut(self.rng.below(kept.offered)) {
            *old = case.bytes;
        }
    }

    /// Writes the file; gives the number of cases and how many of them are pdb's answers.
    pub fn write(&self, path: &str) -> io::Result<(usize, usize)> {
        let (mut cases, mut rust) = (0, 0);
        let mut file = Vec::new();
        for &op in Op::ALL {
            let kept = &self.kept[op as usize];
            for case in kept.iter().flat_map(|kept| &kept.cases) {
                op.number().put(&mut file);
                (case.len() as u16).put(&mut file);
                file.extend_from_slice(case);
                cases += 1;
                rust += usize::from(case[0] == Judge::Rust as u8);
            }
        }
        std::fs::write(path, file)?;
        Ok((cases, rust))
    }
}
