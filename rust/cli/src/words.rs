//! The words of the command line: one module each, and a line in the list.

mod back;
mod bundle;
mod clash;
mod draw;
mod frames;
mod locate;
mod lookup;
mod sections;
mod window;

use clap::{ArgMatches, Command};

use crate::answer::Answered;
use crate::arguments::{self, JSON};

/// A word: what it takes, and what it does.
type Word = (fn() -> Command, fn(&ArgMatches) -> Answered);

const WORDS: [Word; 9] = [
    (draw::command, draw::run),
    (lookup::command, lookup::run),
    (window::command, window::run),
    (clash::command, clash::run),
    (back::command, back::run),
    (sections::command, sections::run),
    (locate::command, locate::run),
    (frames::command, frames::run),
    (bundle::command, bundle::run),
];

const AFTER: &str = "\
Addresses are hexadecimal, with or without 0x; a window A..B leaves B out.
Refusals stand on standard error as `refused N: sentence`.
Exit status: 0 an answer; 1 a refusal or a clash; 2 bad words, an address
outside A..B, or input or output that failed.";

pub fn command() -> Command {
    let json = arguments::flag(JSON, "Answer with one JSON object; numbers are decimal");
    Command::new("gillacorn")
        .version(env!("CARGO_PKG_VERSION"))
        .about("Address translation that is proved: a value, a hole, or a numbered refusal")
        .after_help(AFTER)
        .subcommand_required(true)
        .arg(json.global(true))
        .subcommands(commands(&WORDS))
}

pub fn run(matches: &ArgMatches) -> Answered {
    run_one(&WORDS, matches)
}

fn commands(words: &[Word]) -> impl Iterator<Item = Command> + '_ {
    words.iter().map(|(command, _)| command())
}

/// Does what the word among these says.
fn run_one(words: &[Word], matches: &ArgMatches) -> Answered {
    let (name, matches) = matches.subcommand().expect("a word is required");
    let word = words
        .iter()
        .find(|(command, _)| command().get_name() == name);
    let (_, run) = word.expect("clap knows no other word");
    run(matches)
}
