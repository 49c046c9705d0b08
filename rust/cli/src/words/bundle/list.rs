//! `bundle list`: what is in a bundle, and whether each part is a table.

use std::fmt::Write;

use clap::{ArgMatches, Command};
use gillacorn::{Bundle, Refusal};

use super::bundle_file;
use crate::answer::{Answer, Answered};
use crate::parts::Part;
use crate::{arguments, input, json};

pub fn command() -> Command {
    Command::new("list")
        .about(
            "List the parts of a bundle: place, length, whole records, and whether it is a table",
        )
        .arg(bundle_file())
}

pub fn run(matches: &ArgMatches) -> Answered {
    let file = input::read(arguments::required(matches, "FILE"))?;
    Ok(Box::new(Listing::of(&file)?))
}

/// What is in a bundle, part by part; none where one is absent.
pub struct Listing([(Part, Option<Row>); 6]);

struct Row {
    start: usize,
    length: usize,
    records: usize,
    /// What refusals 1 and 2 say of it.
    checked: Result<(), Refusal>,
}

impl Listing {
    pub fn of(file: &[u8]) -> Result<Self, Refusal> {
        let mut bundle = Bundle::read(file)?;
        // Parts touch each other, so each begins where the one before it ended.
        let mut start = 0;
        Ok(Listing(Part::ALL.map(|part| {
            let row = part.of(&mut bundle).map(|table| {
                let length = table.len();
                start += length;
                Row {
                    start: start - length,
                    length,
                    records: length / part.record(),
                    checked: part.check(table),
                }
            });
            (part, row)
        })))
    }
}

impl Answer for Listing {
    fn text(&self) -> String {
        let mut text = String::from("part                 start    length   records   table\n");
        for (part, row) in &self.0 {
            let _ = write!(text, "{:<20} ", part.name());
            let _ = match row {
                None => writeln!(text, "absent"),
                Some(row) => {
                    let checked = match row.checked {
                        Ok(()) => "good".into(),
                        Err(refusal) => format!("refused {}: {refusal}", refusal.number()),
                    };
                    let (start, length, records) = (row.start, row.length, row.records);
                    writeln!(text, "{start:08X} {length:08X} {records:<9} {checked}")
                }
            };
        }
        let present = self.0.iter().filter(|(_, row)| row.is_some()).count();
        let _ = writeln!(text, "parts {present}");
        text
    }

    fn json(&self) -> String {
        let list = json::list(&self.0, |text, (part, row)| {
            let _ = write!(
                text,
                "{{\"part\":\"{}\",\"present\":{}",
                part.name(),
                row.is_some()
            );
            if let Some(row) = row {
                let (start, length, records) = (row.start, row.length, row.records);
                let _ = write!(
                    text,
                    ",\"start\":{start},\"length\":{length},\"records\":{records}"
                );
                let _ = match row.checked {
                    Ok(()) => write!(text, ",\"refused\":null"),
                    Err(refusal) => write!(text, ",{}", json::refusal(refusal)),
                };
            }
            text.push('}');
        });
        format!("{{\"parts\":{list}}}\n")
    }
}
