//! `bundle pack`: tables into one file.

use clap::{ArgMatches, Command};
use gillacorn::Bundle;

use super::list::Listing;
use crate::answer::{Answered, Stop};
use crate::parts::Part;
use crate::save::{self, New};
use crate::{arguments, input};

pub fn command() -> Command {
    let parts = Part::ALL.map(|part| arguments::file_option(part.name(), part.help()));
    Command::new("pack")
        .about("Put tables into one file, and list it")
        .arg(arguments::file("OUT", "The file to write").required(true))
        .args(parts)
        .arg(save::force())
}

pub fn run(matches: &ArgMatches) -> Answered {
    let out = arguments::required(matches, "OUT");
    if input::is_stdin(out) {
        let why = "a bundle goes to a file: standard output has the list of its parts";
        return Err(Stop::Bad(why.into()));
    }
    // All of them before anything is written: OUT may be one of them.
    let tables = input::read_each(Part::ALL.map(|part| matches.get_one(part.name())))?;
    let mut bundle = Bundle::default();
    for (part, table) in Part::ALL.into_iter().zip(&tables) {
        *part.of(&mut bundle) = table.as_deref();
    }
    let bytes = bundle.to_vec()?;
    let listing = Listing::of(&bytes)?;
    let file = New {
        path: out.into(),
        bytes: &bytes,
    };
    save::all(&[file], matches.get_flag(save::FORCE))?;
    Ok(Box::new(listing))
}
