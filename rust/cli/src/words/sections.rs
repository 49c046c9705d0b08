//! `sections`: the section report of a PE file, of a bare table or of a part of a bundle.

mod flags;

use std::fmt::Write;

use clap::{ArgMatches, Command};
use gillacorn::{ImageSectionHeader, SectionTable};

use crate::answer::{Answer, Answered};
use crate::{arguments, json, section_name, tables};

pub fn command() -> Command {
    Command::new("sections")
        .about("List sections: name, address, size in memory, raw size, and flags by letter")
        .after_help(flags::help())
        .args(arguments::section_table())
}

pub fn run(matches: &ArgMatches) -> Answered {
    let table = tables::read_sections(matches)?;
    Ok(Box::new(Sections(SectionTable::new(&table).headers()?)))
}

struct Sections(Vec<ImageSectionHeader>);

impl Answer for Sections {
    fn text(&self) -> String {
        let mut text = String::from("no.   name             address  size     raw size flags\n");
        for (header, number) in self.0.iter().zip(1..) {
            let line = format!(
                "{number:<5} {:<16} {:08X} {:08X} {:08X} {}",
                section_name::shown(header),
                header.virtual_address,
                header.virtual_size,
                header.size_of_raw_data,
                flags::letters(header.characteristics),
            );
            let _ = writeln!(text, "{}", line.trim_end());
        }
        let all: Vec<_> = self.0.iter().map(|header| header.characteristics).collect();
        if let Some(legend) = flags::legend(&all) {
            let _ = writeln!(text, "{legend}");
        }
        let _ = writeln!(text, "sections {}", self.0.len());
        text
    }

    fn json(&self) -> String {
        let list = json::list(self.0.iter().zip(1u32..), |text, (header, number)| {
            let name = section_name::members(Some(header));
            let _ = write!(text, "{{\"number\":{number},{name}");
            macro_rules! numbers {
                ($($field:ident)*) => {
                    $(let _ = write!(text, ",\"{}\":{}", stringify!($field), header.$field);)*
                };
            }
            numbers!(virtual_size virtual_address size_of_raw_data pointer_to_raw_data);
            numbers!(pointer_to_relocations pointer_to_line_numbers);
            numbers!(number_of_relocations number_of_line_numbers);
            let characteristics = header.characteristics;
            let flags = json::list(flags::set(&[characteristics]), |text, flag| {
                text.push_str(&json::text(flag.name));
            });
            let alignment = json::number(characteristics.alignment().map(u32::from));
            let _ = write!(
                text,
                ",\"characteristics\":{},\"flags\":{flags},\"alignment\":{alignment}}}",
                characteristics.0
            );
        });
        format!("{{\"sections\":{list}}}\n")
    }
}
