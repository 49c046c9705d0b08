//! `window`: the pieces of a window, as the program `window` prints them.

use std::fmt::Write;

use clap::{ArgMatches, Command};
use gillacorn::{OMAPTable, Refusal};

use crate::answer::{Answer, Answered};
use crate::{arguments, json, tables};

pub fn command() -> Command {
    Command::new("window")
        .about("List where the pieces of a window go, clash or not: start and excluded end")
        .args(arguments::omap_table())
        .args(arguments::window_ends())
}

pub fn run(matches: &ArgMatches) -> Answered {
    let window = arguments::window(matches)?;
    let name = arguments::table(matches);
    let bytes = tables::read(name, matches)?;
    let table = OMAPTable::new(&bytes);
    let needed = match table.window(window.clone(), &mut []) {
        Err(Refusal::Short { needed }) => needed,
        told => told?,
    };
    let mut places = vec![0; 2 * needed];
    table.window(window, &mut places)?;
    Ok(Box::new(Pieces(places)))
}

/// Starts and excluded ends, in turns.
struct Pieces(Vec<u32>);

impl Answer for Pieces {
    fn text(&self) -> String {
        let mut text = String::new();
        for piece in self.0.chunks_exact(2) {
            let _ = writeln!(text, "{:08X} {:08X}", piece[0], piece[1]);
        }
        let _ = writeln!(text, "pieces {}", self.0.len() / 2);
        text
    }

    fn json(&self) -> String {
        let list = json::list(self.0.chunks_exact(2), |text, piece| {
            let _ = write!(text, "[{},{}]", piece[0], piece[1]);
        });
        format!("{{\"pieces\":{list}}}\n")
    }
}
