//! `clash`: the least two addresses of a window that share a translation.

use std::ops::Range;

use clap::{ArgMatches, Command};
use gillacorn::{OMAPTable, Refusal};

use crate::answer::{Answer, Answered};
use crate::{arguments, progress, tables};

pub fn command() -> Command {
    Command::new("clash")
        .about("Tell the least two addresses of a window with one translation")
        .args(arguments::omap_table())
        .args(arguments::window_ends())
}

pub fn run(matches: &ArgMatches) -> Answered {
    let window = arguments::window(matches)?;
    let name = arguments::table(matches);
    let bytes = tables::read(name, matches)?;
    Ok(Box::new(Clashes(find(OMAPTable::new(&bytes), window)?)))
}

/// Two addresses with one translation.
pub struct Clash {
    pub first: u32,
    pub second: u32,
    pub target: u32,
}

/// The least clash of a window.
pub fn find(table: OMAPTable<'_>, window: Range<u32>) -> Result<Option<Clash>, Refusal> {
    let pair = progress::during("looking for a clash", None, |_| table.clash(window))?;
    let (first, second) = match pair {
        Some(pair) => pair,
        None => return Ok(None),
    };
    let target = table.lookup(first)?;
    Ok(target.map(|target| Clash {
        first,
        second,
        target,
    }))
}

impl Clash {
    pub fn sentence(&self) -> String {
        format!(
            "clash: {:08X} and {:08X} both translate to {:08X}",
            self.first, self.second, self.target
        )
    }

    pub fn json(&self) -> String {
        format!(
            "{{\"first\":{},\"second\":{},\"target\":{}}}",
            self.first, self.second, self.target
        )
    }
}

struct Clashes(Option<Clash>);

impl Answer for Clashes {
    fn text(&self) -> String {
        match &self.0 {
            Some(clash) => format!(
                "{:08X} {:08X} {:08X}\n",
                clash.first, clash.second, clash.target
            ),
            None => "no clash\n".into(),
        }
    }

    fn json(&self) -> String {
        let clash = self.0.as_ref().map_or_else(|| "null".into(), Clash::json);
        format!("{{\"clash\":{clash}}}\n")
    }

    fn clash(&self) -> Option<String> {
        self.0.as_ref().map(Clash::sentence)
    }
}
