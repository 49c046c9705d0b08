//! `lookup`: single translations, of any addresses.

use clap::{ArgMatches, Command};
use gillacorn::OMAPTable;

use crate::answer::{Answer, Answered};
use crate::translations::Translations;
use crate::{arguments, input, tables};

const QUICK: &str = "quick";

pub fn command() -> Command {
    let addresses = "Addresses to translate, or - for those on standard input";
    let quick = "Search without testing the order, and tell how many records were probed: \
                 for a table that is known to be in order";
    Command::new("lookup")
        .about("Translate single addresses, whether others go to the same place or not")
        .args(arguments::omap_table())
        .arg(
            arguments::addresses("ADDRESS", addresses)
                .num_args(1..)
                .required(true),
        )
        .arg(arguments::flag(QUICK, quick))
}

pub fn run(matches: &ArgMatches) -> Answered {
    let name = arguments::table(matches);
    let asked = arguments::asked(matches, "ADDRESS");
    input::stdin_once(arguments::sources(name, &asked).iter())?;
    let addresses = input::addresses(asked)?;
    let bytes = tables::read(name, matches)?;
    let table = OMAPTable::new(&bytes);
    let quick = matches.get_flag(QUICK);
    if !quick {
        // Once is enough: the order is that of these bytes. Address 0 itself is never refused.
        table.lookup(0)?;
    }
    Ok(Box::new(Translations::of(table, addresses, quick)?))
}

impl Answer for Translations {
    fn text(&self) -> String {
        Translations::text(self)
    }

    fn json(&self) -> String {
        Translations::json(self)
    }
}
