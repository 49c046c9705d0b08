//! `draw`: translations of a window that does not clash.

use std::fmt::Write;
use std::ops::Range;

use clap::{ArgMatches, Command};
use gillacorn::{OMAPTable, Refusal};

use super::clash::{self, Clash};
use crate::answer::{Answer, Answered, Stop};
use crate::translations::Translations;
use crate::{arguments, input, json, tables};

pub fn command() -> Command {
    Command::new("draw")
        .about("Translate addresses of a window, or all of it, unless it clashes")
        .args(arguments::omap_table())
        .args(arguments::window_ends())
        .arg(arguments::addresses(
            "ADDRESS",
            "Addresses of the window, or - for standard input; with none, all of it",
        ))
}

pub fn run(matches: &ArgMatches) -> Answered {
    let window = arguments::window(matches)?;
    let name = arguments::table(matches);
    let asked = arguments::asked(matches, "ADDRESS");
    input::stdin_once(arguments::sources(name, &asked).iter())?;
    let whole = asked.is_empty();
    let addresses = input::addresses(asked)?;
    if let Some(address) = addresses.iter().find(|address| !window.contains(address)) {
        let Range { start, end } = window;
        let why = format!("{address:08X} is outside the window {start:08X}..{end:08X}");
        return Err(Stop::Bad(why));
    }
    let bytes = tables::read(name, matches)?;
    let table = OMAPTable::new(&bytes);
    Ok(Box::new(match clash::find(table, window.clone())? {
        Some(clash) => Drawn::Nothing(clash),
        None if whole => Drawn::Whole(pieces(table, window)?),
        // The clash check has found the table in order.
        None => Drawn::Addresses(Translations::of(table, addresses, false)?),
    }))
}

type Pieces = Vec<(Range<u32>, Option<Range<u32>>)>;

/// The pieces of a window, with the holes between them.
fn pieces(table: OMAPTable<'_>, window: Range<u32>) -> Result<Pieces, Refusal> {
    let mut pieces = Pieces::new();
    let mut drawn = window.start;
    let mut ranges = table.lookup_range(window.clone());
    while let Some(target) = ranges.next().transpose()? {
        // A piece ends where the walk now stands, and is as long as its translation.
        let end = ranges.cursor()?.address;
        let start = end - (target.end - target.start);
        if drawn < start {
            pieces.push((drawn..start, None));
        }
        pieces.push((start..end, Some(target)));
        drawn = end;
    }
    if drawn < window.end {
        pieces.push((drawn..window.end, None));
    }
    Ok(pieces)
}

enum Drawn {
    /// The window clashes.
    Nothing(Clash),
    Addresses(Translations),
    Whole(Pieces),
}

impl Answer for Drawn {
    fn text(&self) -> String {
        let mut text = String::new();
        match self {
            Drawn::Nothing(_) => {}
            Drawn::Addresses(translations) => text = translations.text(),
            Drawn::Whole(pieces) => {
                for (source, target) in pieces {
                    let _ = write!(text, "{:08X}..{:08X} ", source.start, source.end);
                    let _ = match target {
                        Some(target) => writeln!(text, "{:08X}..{:08X}", target.start, target.end),
                        None => writeln!(text, "hole"),
                    };
                }
            }
        }
        text
    }

    fn json(&self) -> String {
        let range = |range: &Range<u32>| format!("[{},{}]", range.start, range.end);
        match self {
            Drawn::Nothing(clash) => format!("{{\"clash\":{}}}\n", clash.json()),
            Drawn::Addresses(translations) => translations.json(),
            Drawn::Whole(pieces) => {
                let list = json::list(pieces, |text, (source, target)| {
                    let target = target.as_ref().map_or_else(|| "null".into(), range);
                    let source = range(source);
                    let _ = write!(text, "{{\"source\":{source},\"target\":{target}}}");
                });
                format!("{{\"pieces\":{list}}}\n")
            }
        }
    }

    fn clash(&self) -> Option<String> {
        match self {
            Drawn::Nothing(clash) => Some(format!("{}; nothing is drawn", clash.sentence())),
            _ => None,
        }
    }
}
