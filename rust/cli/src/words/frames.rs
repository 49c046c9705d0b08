//! `frames`: the frames of two tables, as the program `frames` prints them.

use std::ffi::OsString;
use std::fmt::Write;

use clap::{ArgGroup, ArgMatches, Command};
use gillacorn::{FrameData, FrameTable, Refusal};

use crate::answer::{Answer, Answered};
use crate::parts::Part;
use crate::{arguments, input, json, tables};

pub fn command() -> Command {
    let bundle = "A bundle, for both its tables of frames; - for standard input";
    Command::new("frames")
        .about("List the frames of an old and a new table, in order of code start")
        .arg(arguments::file_option("old", Part::OldFrames.help()))
        .arg(arguments::file_option("new", Part::NewFrames.help()))
        .arg(arguments::file_option("bundle", bundle).conflicts_with_all(["old", "new"]))
        .group(
            ArgGroup::new("tables")
                .args(["old", "new", "bundle"])
                .multiple(true)
                .required(true),
        )
}

pub fn run(matches: &ArgMatches) -> Answered {
    let [old, new] = match matches.get_one::<OsString>("bundle") {
        Some(name) => match tables::bundled(name, Part::FRAMES)? {
            [None, None] => return Err(tables::absent(name, &Part::FRAMES)),
            found => found,
        },
        None => input::read_each(["old", "new"].map(|name| matches.get_one(name)))?,
    };
    let frames = FrameTable::new(old.as_deref(), new.as_deref()).iter();
    Ok(Box::new(Frames(frames.collect::<Result<_, Refusal>>()?)))
}

struct Frames(Vec<FrameData>);

const HEAD: &str =
    "start    size     locals   params   prolog saved stack    program  type  flags\n";

impl Answer for Frames {
    fn text(&self) -> String {
        let mut text = String::from(HEAD);
        let optional =
            |number: Option<u32>| number.map_or_else(|| "-".repeat(8), |n| format!("{n:08X}"));
        for frame in &self.0 {
            let letter = |on: bool, letter: char| if on { letter } else { '-' };
            let _ = writeln!(
                text,
                "{:08X} {:08X} {:08X} {:08X} {:04X}   {:04X}  {} {} {:<5} {}{}{}{}",
                frame.code_start,
                frame.code_size,
                frame.locals_size,
                frame.params_size,
                frame.prolog_size,
                frame.saved_regs_size,
                optional(frame.max_stack_size),
                optional(frame.program.map(u32::from)),
                frame.ty.to_string(),
                letter(frame.has_structured_eh, 's'),
                letter(frame.has_cpp_eh, 'c'),
                letter(frame.is_function_start, 'f'),
                letter(frame.uses_base_pointer, 'b'),
            );
        }
        let _ = writeln!(text, "frames {}", self.0.len());
        text
    }

    fn json(&self) -> String {
        let list = json::list(&self.0, |text, frame| {
            let _ = write!(text, "{{\"type\":{}", json::text(&frame.ty.to_string()));
            let _ = write!(text, ",\"code_start\":{}", frame.code_start.0);
            macro_rules! plain {
                ($($field:ident)*) => {
                    $(let _ = write!(text, ",\"{}\":{}", stringify!($field), frame.$field);)*
                };
            }
            plain!(code_size locals_size params_size prolog_size saved_regs_size);
            plain!(has_structured_eh has_cpp_eh is_function_start uses_base_pointer);
            let _ = write!(
                text,
                ",\"max_stack_size\":{},\"program\":{}}}",
                json::number(frame.max_stack_size),
                json::number(frame.program.map(u32::from)),
            );
        });
        format!("{{\"frames\":{list}}}\n")
    }
}
