//! `bundle`: the tables of one build in one file.

mod list;
mod pack;
mod unpack;

use clap::{Arg, ArgMatches, Command};

use super::{commands, run_one, Word};
use crate::answer::Answered;
use crate::arguments;

const WORDS: [Word; 3] = [
    (pack::command, pack::run),
    (list::command, list::run),
    (unpack::command, unpack::run),
];

pub fn command() -> Command {
    Command::new("bundle")
        .about("Keep the tables of one build in one file: make it, list it, or take it apart")
        .subcommand_required(true)
        .subcommands(commands(&WORDS))
}

/// The bundle that is read.
fn bundle_file() -> Arg {
    arguments::file("FILE", "The bundle, a file, or - for standard input").required(true)
}

pub fn run(matches: &ArgMatches) -> Answered {
    run_one(&WORDS, matches)
}
