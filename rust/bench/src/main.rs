//! Times Gillacorn and pdb on the same inputs, from one driver in one run, both built for release, and
//! prints the tables of docs/PERFORMANCE.md. A word measures only the rows that have it in their text.
//! After `--plain` the rows are printed for bench.sh, which puts those of several runs together.

mod addresses;
mod bundles;
mod clashes;
mod driver;
mod face;
mod frames;
mod headers;
mod inputs;
mod lookups;
mod windows;

use std::process::ExitCode;

fn main() -> ExitCode {
    let mut words = std::env::args().skip(1).peekable();
    let plain = words.next_if_eq("--plain").is_some();
    let mut driver = driver::Driver::new(words.next().unwrap_or_default(), plain);
    headers::run(&mut driver);
    lookups::run(&mut driver);
    windows::run(&mut driver);
    clashes::run(&mut driver);
    addresses::run(&mut driver);
    frames::run(&mut driver);
    bundles::run(&mut driver);
    if !driver.end() {
        eprintln!("bench: no row has this in its text");
        return ExitCode::from(2);
    }
    ExitCode::SUCCESS
}
