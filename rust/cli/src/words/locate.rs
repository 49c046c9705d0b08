//! `locate`: the section of each address, and the offset in it.

use std::fmt::Write;

use clap::{ArgMatches, Command};
use gillacorn::{ExtentBy, ImageSectionHeader, Refusal, SectionTable};

use crate::answer::{Answer, Answered};
use crate::{arguments, input, json, progress, section_name, tables};

const RAW_SIZE: &str = "raw-size";

pub fn command() -> Command {
    let addresses = "Addresses relative to the image base, or - for those on standard input";
    let raw_size = "Compare the size on disk, as pdb does: zero-filled data is then a hole";
    Command::new("locate")
        .about("Tell the section of each address: its number, the offset in it, and its name")
        .args(arguments::section_table())
        .arg(
            arguments::addresses("ADDRESS", addresses)
                .num_args(1..)
                .required(true),
        )
        .arg(arguments::flag(RAW_SIZE, raw_size))
}

pub fn run(matches: &ArgMatches) -> Answered {
    let name = arguments::required(matches, "FILE");
    let asked = arguments::asked(matches, "ADDRESS");
    input::stdin_once(arguments::sources(name, &asked).iter())?;
    let addresses = input::addresses(asked)?;
    let bytes = tables::read_sections(matches)?;
    let table = SectionTable::new(&bytes);
    // A bad table is refused also where standard input has no address.
    table.header(0)?;
    let by = match matches.get_flag(RAW_SIZE) {
        true => ExtentBy::RawSize,
        false => ExtentBy::MemorySize,
    };
    Ok(Box::new(Places::of(table, by, addresses)?))
}

/// A section, and an offset in it.
struct Place {
    number: u16,
    offset: u32,
    header: ImageSectionHeader,
}

/// Each address, and where it is; none is a hole.
struct Places(Vec<(u32, Option<Place>)>);

impl Places {
    fn of(table: SectionTable<'_>, by: ExtentBy, addresses: Vec<u32>) -> Result<Self, Refusal> {
        let places = progress::during("addresses", Some(addresses.len()), |done| {
            let locate = |address| {
                done.one_more();
                let found = match table.section_offset_by(by, address)? {
                    Some(found) => found,
                    None => return Ok((address, None)),
                };
                let header = table.header(usize::from(found.section) - 1)?;
                let place = Place {
                    number: found.section,
                    offset: found.offset,
                    header: header.expect("an address was found in it"),
                };
                Ok((address, Some(place)))
            };
            addresses
                .into_iter()
                .map(locate)
                .collect::<Result<_, Refusal>>()
        })?;
        Ok(Places(places))
    }
}

impl Answer for Places {
    fn text(&self) -> String {
        let mut text = String::new();
        for (address, place) in &self.0 {
            let line = match place {
                Some(Place {
                    number,
                    offset,
                    header,
                }) => {
                    let name = section_name::shown(header);
                    format!("{address:08X} {number:<5} {offset:08X} {name}")
                }
                None => format!("{address:08X} hole"),
            };
            let _ = writeln!(text, "{}", line.trim_end());
        }
        text
    }

    fn json(&self) -> String {
        let list = json::list(&self.0, |text, (address, place)| {
            let place = place.as_ref();
            let number = json::number(place.map(|place| place.number.into()));
            let offset = json::number(place.map(|place| place.offset));
            let name = section_name::members(place.map(|place| &place.header));
            let _ = write!(text, "{{\"address\":{address},\"section\":{number}");
            let _ = write!(text, ",\"offset\":{offset},{name}}}");
        });
        format!("{{\"addresses\":{list}}}\n")
    }
}
