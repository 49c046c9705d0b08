//! Tables that a word reads: a file of its own, or a part of a bundle where that is said. Nothing is
//! guessed from what a file holds.

use std::ffi::OsStr;

use clap::{Arg, ArgMatches};
use gillacorn::Bundle;

use crate::answer::Stop;
use crate::parts::Part;
use crate::{arguments, input, pe_file};

const PART: &str = "part";

/// `--part`: the file is a bundle, and the table is this part of it.
pub fn part(parts: [Part; 2]) -> Arg {
    Arg::new(PART)
        .long(PART)
        .value_name("PART")
        .value_parser(parts.map(Part::name))
        .help("Read a bundle, and take this part of it for the table")
}

/// The part of a bundle that was asked for, if one was.
fn asked_part(matches: &ArgMatches) -> Option<Part> {
    let name = matches.get_one::<String>(PART)?;
    Part::ALL.into_iter().find(|part| part.name() == name)
}

/// The bytes of the table in a file, or in the part of it that was asked for.
pub fn read(name: &OsStr, matches: &ArgMatches) -> Result<Vec<u8>, Stop> {
    match asked_part(matches) {
        None => input::read(name),
        Some(part) => {
            let [table] = bundled(name, [part])?;
            table.ok_or_else(|| absent(name, &[part]))
        }
    }
}

/// The section headers of the PE file, the bare table or the part of a bundle that was named.
pub fn read_sections(matches: &ArgMatches) -> Result<Vec<u8>, Stop> {
    let name = arguments::required(matches, "FILE");
    let file = read(name, matches)?;
    if asked_part(matches).is_some() {
        return Ok(file);
    }
    let table = pe_file::section_table(&file);
    let table = table.map_err(|why| Stop::Bad(format!("{}: {why}", input::shown(name))))?;
    Ok(table.to_vec())
}

/// The bytes of these parts of the bundle in a file.
pub fn bundled<const N: usize>(
    name: &OsStr,
    parts: [Part; N],
) -> Result<[Option<Vec<u8>>; N], Stop> {
    let file = input::read(name)?;
    let mut bundle = Bundle::read(&file)?;
    Ok(parts.map(|part| part.of(&mut bundle).map(Vec::from)))
}

/// What is said where a bundle has none of these parts.
pub fn absent(name: &OsStr, parts: &[Part]) -> Stop {
    let names: Vec<_> = parts.iter().map(|part| part.name()).collect();
    let shown = input::shown(name);
    Stop::Bad(format!("{shown} has no part {}", names.join(" or ")))
}
