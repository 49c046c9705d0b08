//! Words that several commands have.

use std::ffi::OsString;
use std::ops::Range;

use clap::{value_parser, Arg, ArgAction, ArgMatches};

use crate::answer::Stop;
use crate::parts::Part;
use crate::tables;

pub const JSON: &str = "json";

/// An address in hexadecimal, with or without 0x.
pub fn hex(word: &str) -> Result<u32, String> {
    let digits = word.strip_prefix("0x").or_else(|| word.strip_prefix("0X"));
    let digits = digits.unwrap_or(word);
    if digits.is_empty() || !digits.bytes().all(|digit| digit.is_ascii_hexdigit()) {
        return Err(format!("{word:?} is no hexadecimal address"));
    }
    u32::from_str_radix(digits, 16).map_err(|_| format!("{word:?} is greater than FFFFFFFF"))
}

/// An address, or `-` for those on standard input.
#[derive(Clone, Copy)]
pub enum Address {
    At(u32),
    Stdin,
}

fn address(word: &str) -> Result<Address, String> {
    match word {
        "-" => Ok(Address::Stdin),
        _ => hex(word).map(Address::At),
    }
}

pub fn file(name: &'static str, help: &'static str) -> Arg {
    Arg::new(name)
        .help(help)
        .value_name(name)
        .value_parser(value_parser!(OsString))
}

/// A file behind a name of its own.
pub fn file_option(name: &'static str, help: &'static str) -> Arg {
    file(name, help).long(name).value_name("FILE")
}

/// The OMAP table.
pub fn omap_table() -> [Arg; 2] {
    let help = "The OMAP table, a file, or - for standard input";
    [
        file("TABLE", help).required(true),
        tables::part(Part::OMAPS),
    ]
}

/// A file with section headers.
pub fn section_table() -> [Arg; 2] {
    let help = "A PE file, or a bare table of 40 bytes a header; - for standard input";
    [
        file("FILE", help).required(true),
        tables::part(Part::SECTIONS),
    ]
}

/// A window of a table's addresses.
pub fn window_ends() -> [Arg; 2] {
    [
        Arg::new("A")
            .help("The first address of the window, hexadecimal")
            .required(true)
            .value_parser(hex),
        Arg::new("B")
            .help("The end of the window: the address after its last")
            .required(true)
            .value_parser(hex),
    ]
}

/// An option without a value.
pub fn flag(name: &'static str, help: &'static str) -> Arg {
    Arg::new(name)
        .help(help)
        .long(name)
        .action(ArgAction::SetTrue)
}

pub fn addresses(name: &'static str, help: &'static str) -> Arg {
    Arg::new(name)
        .help(help)
        .num_args(0..)
        .value_parser(address)
}

/// The name of a file that is required.
pub fn required<'m>(matches: &'m ArgMatches, name: &str) -> &'m OsString {
    matches.get_one(name).expect("it is required")
}

/// The name of the table.
pub fn table(matches: &ArgMatches) -> &OsString {
    required(matches, "TABLE")
}

/// The window that was asked.
pub fn window(matches: &ArgMatches) -> Result<Range<u32>, Stop> {
    let end = |name| *matches.get_one(name).expect("it is required");
    let (a, b): (u32, u32) = (end("A"), end("B"));
    if b < a {
        return Err(Stop::Bad(format!(
            "the window {a:08X}..{b:08X} ends before it begins"
        )));
    }
    Ok(a..b)
}

/// The addresses that were asked, with a place for those on standard input.
pub fn asked(matches: &ArgMatches, name: &str) -> Vec<Address> {
    let given = matches.get_many::<Address>(name);
    given.map_or_else(Vec::new, |given| given.copied().collect())
}

/// The words that may read standard input: a table's name, and `-` among addresses.
pub fn sources(table: &OsString, asked: &[Address]) -> Vec<OsString> {
    let stdin = asked.iter().filter(|a| matches!(a, Address::Stdin));
    let mut sources: Vec<OsString> = stdin.map(|_| "-".into()).collect();
    sources.push(table.clone());
    sources
}
