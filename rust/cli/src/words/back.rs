//! `back`: the addresses of a window that translate to a target.

use std::fmt::Write;

use clap::{ArgMatches, Command};
use gillacorn::{OMAPTable, Refusal, Sources};

use super::clash::Clash;
use crate::answer::{Answer, Answered};
use crate::{arguments, input, json, progress, tables};

pub fn command() -> Command {
    let targets = "Addresses to go back from, or - for those on standard input";
    Command::new("back")
        .about("Tell which address of a window translates to a target: one, none, or two or more")
        .args(arguments::omap_table())
        .args(arguments::window_ends())
        .arg(
            arguments::addresses("TARGET", targets)
                .num_args(1..)
                .required(true),
        )
}

pub fn run(matches: &ArgMatches) -> Answered {
    let window = arguments::window(matches)?;
    let name = arguments::table(matches);
    let asked = arguments::asked(matches, "TARGET");
    input::stdin_once(arguments::sources(name, &asked).iter())?;
    let targets = input::addresses(asked)?;
    let bytes = tables::read(name, matches)?;
    let table = OMAPTable::new(&bytes);
    let found = progress::during("targets", Some(targets.len()), |done| {
        let go_back = |target| {
            done.one_more();
            Ok((target, table.way_back(window.clone(), target)?))
        };
        targets
            .into_iter()
            .map(go_back)
            .collect::<Result<_, Refusal>>()
    })?;
    Ok(Box::new(Found(found)))
}

struct Found(Vec<(u32, Sources)>);

impl Answer for Found {
    fn text(&self) -> String {
        let mut text = String::new();
        for (target, sources) in &self.0 {
            let _ = match sources {
                Sources::None => writeln!(text, "{target:08X} none"),
                Sources::One(one) => writeln!(text, "{target:08X} {one:08X}"),
                Sources::Two(one, two) => writeln!(text, "{target:08X} clash {one:08X} {two:08X}"),
            };
        }
        text
    }

    fn json(&self) -> String {
        let list = json::list(&self.0, |text, (target, sources)| {
            let sources = match sources {
                Sources::None => String::new(),
                Sources::One(one) => one.to_string(),
                Sources::Two(one, two) => format!("{one},{two}"),
            };
            let _ = write!(text, "{{\"target\":{target},\"sources\":[{sources}]}}");
        });
        format!("{{\"targets\":{list}}}\n")
    }

    fn clash(&self) -> Option<String> {
        self.0.iter().find_map(|&(target, sources)| match sources {
            Sources::Two(first, second) => {
                let clash = Clash {
                    first,
                    second,
                    target,
                };
                Some(clash.sentence())
            }
            _ => None,
        })
    }
}
