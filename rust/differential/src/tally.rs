//! What was compared, row by row.

use std::fmt::Debug;

use crate::case::{Case, Put};
use crate::operations::{Judge, Op};
use crate::replay::Sample;
use crate::rules::Sizes;

/// A difference from pdb that docs/DIFFERENCES.md lists, met where pdb was asked all the same.
#[derive(Clone, Copy, Debug, Eq, PartialEq)]
pub enum Listed {
    WrongLength,
    TooMany,
    Order,
    Sum,
    OffPath,
    Extent,
    ZeroFilled,
    Padding,
    Overlap,
    EmptyTable,
}

impl Listed {
    const ALL: [(Listed, &'static str); 10] = [
        (
            Listed::WrongLength,
            "a wrong length: 1 here, an error on opening there",
        ),
        (Listed::TooMany, "too many records: 2 here, an answer there"),
        (Listed::Order, "out of order: 3 here, an answer there"),
        (
            Listed::Sum,
            "a sum past 32 bits: 4 here, a wrapped sum there",
        ),
        (
            Listed::OffPath,
            "damage off the path: an answer here, an error on opening there",
        ),
        (
            Listed::Extent,
            "an extent past 32 bits: found here, not found there",
        ),
        (
            Listed::ZeroFilled,
            "zero-filled data: found here, not found there",
        ),
        (
            Listed::Padding,
            "the padding of raw data: not found here, found there",
        ),
        (
            Listed::Overlap,
            "extents that overlap: in another section here than there",
        ),
        (
            Listed::EmptyTable,
            "an empty table by pdb's own reader: no records here, an error there",
        ),
    ];
}

#[derive(Clone, Copy, Default)]
struct Row {
    judged: [u64; 3],
    unexplained: u64,
}

#[derive(Default)]
pub struct Tally {
    rows: Vec<Row>,
    listed: [u64; Listed::ALL.len()],
    /// The answers by memory size that pdb judged: no header, equal sizes, a virtual_size of 0.
    by_memory_size: [u64; 3],
    shown: u64,
    judges_differ: u64,
    builds_compared: u64,
    builds_differ: u64,
    pub sample: Option<Sample>,
}

/// Disagreements that are printed; the rest are counted.
const SHOWN: u64 = 40;

impl Tally {
    pub fn new(sample: Option<Sample>) -> Self {
        Tally {
            rows: vec![Row::default(); Op::ALL.len()],
            sample,
            ..Tally::default()
        }
    }

    /// Compares one answer with what the judge says.
    pub fn check<T: Put + PartialEq + Debug>(
        &mut self,
        op: Op,
        judge: Judge,
        expected: &T,
        ours: &T,
        input: impl Fn(&mut Case),
    ) {
        let row = &mut self.rows[op as usize];
        row.judged[judge as usize] += 1;
        if ours != expected {
            row.unexplained += 1;
            self.show(op.name(), judge, expected, ours, &input);
        } else if let Some(sample) = &mut self.sample {
            sample.offer(op, judge, expected, input);
        }
    }

    /// As `check`, where the rules always have an answer and pdb has one inside the domain: there
    /// the two judges have to agree as well.
    pub fn judge<T: Put + PartialEq + Debug>(
        &mut self,
        op: Op,
        rule: T,
        rust: Option<T>,
        ours: T,
        input: impl Fn(&mut Case),
    ) {
        let rust = match rust {
            Some(rust) => rust,
            None => return self.check(op, Judge::Rules, &rule, &ours, input),
        };
        if rust != rule {
            self.judges_differ += 1;
            self.show("the two judges", Judge::Rust, &rust, &rule, &input);
        }
        self.check(op, Judge::Rust, &rust, &ours, input);
    }

    /// pdb as it is against pdb with its fields laid open.
    pub fn builds<T: PartialEq + Debug>(
        &mut self,
        unchanged: T,
        opened: T,
        input: impl Fn(&mut Case),
    ) {
        self.builds_compared += 1;
        if unchanged != opened {
            self.builds_differ += 1;
            self.show(
                "the two builds of pdb",
                Judge::Rust,
                &unchanged,
                &opened,
                &input,
            );
        }
    }

    pub fn listed(&mut self, difference: Listed) {
        self.listed[difference as usize] += 1;
    }

    /// An answer by memory size that pdb judges, since the sizes of the headers agree so.
    pub fn by_memory_size(&mut self, sizes: Sizes) {
        self.by_memory_size[sizes as usize] += 1;
    }

    fn show(
        &mut self,
        what: &str,
        judge: Judge,
        expected: &dyn Debug,
        found: &dyn Debug,
        input: &dyn Fn(&mut Case),
    ) {
        self.shown += 1;
        if self.shown <= SHOWN {
            let mut case = Case::for_report();
            input(&mut case);
            println!("DIFFERS {what}:{}", case.text.unwrap_or_default());
            println!("    {judge:?} says {expected:x?}");
            println!("    found    {found:x?}");
        }
    }

    /// Answers compared so far for the given operations.
    pub fn compared(&self, ops: &[Op]) -> u64 {
        let sum = |op: &Op| self.rows[*op as usize].judged.iter().sum::<u64>();
        ops.iter().map(sum).sum()
    }

    /// Prints the tables; true if nothing is unexplained.
    pub fn report(&self) -> bool {
        println!("| operation | answers | by pdb | by the rules | by counting | unexplained |");
        println!("|---|---:|---:|---:|---:|---:|");
        let mut all = Row::default();
        let line = |name: &str, row: &Row| {
            let sum: u64 = row.judged.iter().sum();
            let [rust, rules, count] = row.judged;
            println!(
                "| {name} | {sum} | {rust} | {rules} | {count} | {} |",
                row.unexplained
            );
        };
        for &op in Op::ALL {
            let row = &self.rows[op as usize];
            if row.judged.iter().sum::<u64>() == 0 {
                continue;
            }
            line(op.name(), row);
            (0..3).for_each(|i| all.judged[i] += row.judged[i]);
            all.unexplained += row.unexplained;
        }
        line("all", &all);
        println!();
        println!("| listed difference from pdb | met |");
        println!("|---|---:|");
        for (difference, text) in Listed::ALL {
            println!("| {text} | {} |", self.listed[difference as usize]);
        }
        println!();
        let [none, equal, zero] = self.by_memory_size;
        println!(
            "pdb on answers by memory size: {equal} where both sizes are equal in every header, \
             {zero} more where some virtual_size is 0, {none} of no header"
        );
        println!(
            "pdb unchanged and pdb with its fields laid open: {} compared, {} differ",
            self.builds_compared, self.builds_differ
        );
        println!(
            "pdb and the rules, inside the domain: {} differ",
            self.judges_differ
        );
        all.unexplained + self.judges_differ + self.builds_differ == 0
    }
}
