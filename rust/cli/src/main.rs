//! `gillacorn`: the proved library at a desk. `gillacorn --help` tells its words.
//!
//! Exit status: 0 an answer; 1 a refusal or a clash; 2 bad words, or input or output that failed.

#![deny(unsafe_code)]

mod answer;
mod arguments;
mod input;
mod json;
mod output;
mod parts;
mod pe_file;
mod progress;
mod save;
mod section_name;
#[allow(unsafe_code)]
mod streams;
mod tables;
mod translations;
mod words;

use std::process::ExitCode;

use crate::answer::Stop;

const ANSWERED: u8 = 0;
const REFUSED: u8 = 1;
const BAD: u8 = 2;

fn main() -> ExitCode {
    ExitCode::from(answer())
}

fn answer() -> u8 {
    let matches = match words::command().try_get_matches() {
        Ok(matches) => matches,
        Err(error) if error.use_stderr() => {
            output::say(error.render().to_string().trim_end());
            return BAD;
        }
        Err(help) => {
            let help = help.render().to_string();
            return print(&format!("{}\n", help.trim_end()), ANSWERED);
        }
    };
    let json = matches.get_flag(arguments::JSON);
    match words::run(&matches) {
        Ok(answer) => {
            let clash = answer.clash();
            if let Some(said) = &clash {
                output::say(said);
            }
            let text = if json { answer.json() } else { answer.text() };
            print(&text, if clash.is_some() { REFUSED } else { ANSWERED })
        }
        Err(Stop::Refused(refusal)) => {
            output::say(&format!("refused {}: {refusal}", refusal.number()));
            let text = if json {
                json::refused(refusal)
            } else {
                String::new()
            };
            print(&text, REFUSED)
        }
        Err(Stop::Bad(why)) => {
            output::say(&format!("gillacorn: {why}"));
            BAD
        }
    }
}

/// Prints the answer; gives the exit status, which is `status` if all of it went out.
fn print(text: &str, status: u8) -> u8 {
    match output::print(text) {
        Ok(()) => status,
        Err(why) => {
            output::say(&format!("gillacorn: can't write the answer: {why}"));
            BAD
        }
    }
}
