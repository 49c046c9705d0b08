//! Gillacorn and pdb on the same inputs. See `USAGE`.

mod addresses;
mod bundles;
mod case;
mod clashes;
mod formats;
mod frames;
mod gen;
mod headers;
mod judged;
mod lookups;
mod omap;
mod operations;
mod ours;
mod replay;
mod rng;
mod rules;
mod tally;
mod windows;

use std::process::ExitCode;

use crate::replay::Sample;
use crate::rng::Rng;
use crate::tally::Tally;
use crate::windows::lists;

const USAGE: &str = "\
differential [--seed N] [--inputs N | --inputs GROUP=N | --gate | --full] [--only GROUPS] [--replay FILE]
    --seed      where the random inputs come from (1)
    --inputs    at least this many questions to each group, or to one (20000)
    --gate      the size of the gate: 60,000 to each group
    --full      the full size: 10,000,000 questions or more in all
    --only      some groups: headers omap (lookups, windows, cursors) lists clashes addresses frames formats
                bundles
    --replay    write a sample of the answers to a file, once all of them agree";

/// A group: its name, how many questions the full size asks, and what asks them.
type Group = (&'static str, u64, fn(&mut Tally, &mut Rng, u64));

const GROUPS: &[Group] = &[
    ("headers", 1_305_000, headers::run),
    ("omap", 4_300_000, omap::run),
    ("lists", 500_000, lists::run),
    ("clashes", 700_000, clashes::run),
    ("addresses", 4_500_000, addresses::run),
    ("frames", 1_500_000, frames::run),
    ("formats", 5_000, formats::run),
    ("bundles", 400_000, bundles::run),
];

struct Words {
    seed: u64,
    inputs: Option<u64>,
    group_inputs: Vec<(String, u64)>,
    full: bool,
    only: Option<Vec<String>>,
    replay: Option<String>,
}

impl Words {
    fn read() -> Option<Words> {
        let mut words = Words {
            seed: 1,
            inputs: None,
            group_inputs: Vec::new(),
            full: false,
            only: None,
            replay: None,
        };
        let mut args = std::env::args().skip(1);
        while let Some(arg) = args.next() {
            match &arg[..] {
                "--full" => words.full = true,
                "--gate" => words.inputs = Some(60_000),
                "--seed" => words.seed = args.next()?.parse().ok()?,
                "--inputs" => {
                    let word = args.next()?;
                    match word.split_once('=') {
                        Some((group, n)) => {
                            words.group_inputs.push((group.into(), n.parse().ok()?))
                        }
                        None => words.inputs = Some(word.parse().ok()?),
                    }
                }
                "--only" => words.only = Some(args.next()?.split(',').map(Into::into).collect()),
                "--replay" => words.replay = Some(args.next()?),
                _ => return None,
            }
        }
        Some(words)
    }

    fn want(&self, group: &str, full: u64) -> u64 {
        let own = self
            .group_inputs
            .iter()
            .rev()
            .find(|(name, _)| name == group);
        match own {
            Some((_, n)) => *n,
            None if self.full => full,
            None => self.inputs.unwrap_or(20_000),
        }
    }
}

fn main() -> ExitCode {
    let words = match Words::read() {
        Some(words) => words,
        None => {
            eprintln!("{USAGE}");
            return ExitCode::from(2);
        }
    };
    println!("seed {}", words.seed);
    let sample = words.replay.as_ref().map(|_| Sample::new(words.seed));
    let mut tally = Tally::new(sample);
    for (number, &(name, full, run)) in GROUPS.iter().enumerate() {
        if matches!(&words.only, Some(only) if !only.iter().any(|o| o == name)) {
            continue;
        }
        // Each group has numbers of its own, so that it asks the same alone and in company.
        let mut rng = Rng::new(words.seed.wrapping_mul(1000) + number as u64);
        let began = std::time::Instant::now();
        run(&mut tally, &mut rng, words.want(name, full));
        eprintln!("{name}: {:.1} s", began.elapsed().as_secs_f64());
    }
    println!();
    if !tally.report() {
        println!("differential: something differs that docs/DIFFERENCES.md does not list");
        return ExitCode::FAILURE;
    }
    if let (Some(path), Some(sample)) = (&words.replay, &tally.sample) {
        match sample.write(path) {
            Ok((cases, rust)) => println!("{path}: {cases} cases, {rust} of them pdb's answers"),
            Err(error) => {
                eprintln!("{path}: {error}");
                return ExitCode::FAILURE;
            }
        }
    }
    ExitCode::SUCCESS
}
