//! How the wrapper's types print and compare, beside pdb's.

use std::cmp::Ordering;
use std::fmt::{Debug, Display};

use gillacorn::{FrameTable, OMAPTable, SectionTable};
use oracle::{FallibleIterator, Tables};

use crate::case::Unkept;
use crate::gen;
use crate::operations::{Judge, Op};
use crate::rng::Rng;
use crate::rules::NEW;
use crate::tally::Tally;

const OPS: [Op; 1] = [Op::Formats];
/// More of the same would show nothing new.
const MOST: u64 = 5_000;

pub fn run(tally: &mut Tally, rng: &mut Rng, want: u64) {
    let goal = tally.compared(&OPS) + want.min(MOST);
    while tally.compared(&OPS) < goal {
        let number = rng.u32() >> rng.below(32);
        numbers(tally, number);
        offsets(tally, rng, number);
        records(tally, rng);
    }
}

fn numbers(tally: &mut Tally, number: u32) {
    macro_rules! each {
        ($($type:ident)*) => {$(
            let (theirs, ours) = (oracle::$type(number), gillacorn::$type(number));
            same(tally, plain(theirs), plain(ours));
            same(tally, all(theirs), all(ours));
            same(tally, u32::from(theirs), u32::from(ours));
        )*};
    }
    each!(Rva PdbInternalRva StringRef);
    let theirs = oracle::SectionCharacteristics(number);
    let ours = gillacorn::SectionCharacteristics(number);
    same(tally, all(theirs), all(ours));
}

fn offsets(tally: &mut Tally, rng: &mut Rng, number: u32) {
    let mut offset = || {
        (
            rng.below(3) as u16,
            number.wrapping_add(rng.below(3) as u32),
        )
    };
    let (a, b) = (offset(), offset());
    macro_rules! each {
        ($($type:ident)*) => {$(
            let theirs = [a, b].map(|(section, offset)| oracle::$type::new(section, offset));
            let ours = [a, b].map(|(section, offset)| gillacorn::$type::new(section, offset));
            same(tally, all(theirs), all(ours));
            let order: Option<Ordering> = theirs[0].partial_cmp(&theirs[1]);
            same(tally, order, ours[0].partial_cmp(&ours[1]));
        )*};
    }
    each!(SectionOffset PdbInternalSectionOffset);
}

/// Headers, OMAP records (which pdb shows in its address map alone) and frames.
fn records(tally: &mut Tally, rng: &mut Rng) {
    let mut sections = Vec::new();
    sections.extend_from_slice(&gen::name(rng));
    gen::push(&mut sections, &[(); 8].map(|()| rng.u32()));
    let mut omap = Vec::new();
    gen::push(&mut omap, &[rng.u32(), rng.u32()]);
    let tables = Tables::new(&[Some(&sections), None, Some(&omap), None]);
    let theirs = tables.headers(0).unwrap().unwrap();
    let ours = SectionTable::new(&sections).headers().unwrap();
    same(tally, all(theirs), all(ours));
    let shown = format!("{:?}", tables.address_map().unwrap());
    let ours = format!("{:?}", OMAPTable::new(&omap).record(0).unwrap().unwrap());
    same(tally, true, shown.contains(&ours));

    let start = rng.u32();
    let new = gen::frames(rng, NEW, &[start]);
    let theirs = Tables::new(&[None, Some(&new)]).frames().unwrap();
    let theirs = theirs.iter().next().unwrap().unwrap();
    let ours = FrameTable::new(None, Some(&new)).iter().next();
    same(tally, all(theirs), all(ours.unwrap().unwrap()));
}

fn plain(value: impl Display) -> String {
    format!("{value}")
}

fn all(value: impl Debug) -> String {
    format!("{value:?}\n{value:#?}")
}

fn same<T: Debug + PartialEq>(tally: &mut Tally, theirs: T, ours: T) {
    let (theirs, ours) = (Unkept(theirs), Unkept(ours));
    tally.check(Op::Formats, Judge::Rust, &theirs, &ours, |_| {});
}
