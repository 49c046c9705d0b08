//! `bundle unpack`: each part of a bundle into a file of its own.

use std::fmt::Write;
use std::fs;
use std::path::Path;

use clap::{ArgMatches, Command};
use gillacorn::Bundle;

use super::bundle_file;
use crate::answer::{Answer, Answered, Stop};
use crate::parts::Part;
use crate::save::{self, New};
use crate::{arguments, input, json};

pub fn command() -> Command {
    let folder = "The folder to write the files to; it is made if it is missing";
    Command::new("unpack")
        .about("Write each part of a bundle to a file that has its name")
        .arg(bundle_file())
        .arg(arguments::file("DIR", folder).required(true))
        .arg(save::force())
}

pub fn run(matches: &ArgMatches) -> Answered {
    let folder = Path::new(arguments::required(matches, "DIR"));
    let file = input::read(arguments::required(matches, "FILE"))?;
    let mut bundle = Bundle::read(&file)?;
    let (mut written, mut files) = (Vec::new(), Vec::new());
    for part in Part::ALL {
        let path = folder.join(part.name());
        match *part.of(&mut bundle) {
            Some(bytes) => {
                written.push((part, bytes.len()));
                files.push(New { path, bytes });
            }
            None => not_of_another(&path)?,
        }
    }
    let made = make_folder(folder)?;
    let saved = save::all(&files, matches.get_flag(save::FORCE));
    if saved.is_err() && made {
        let _ = fs::remove_dir(folder);
    }
    saved?;
    Ok(Box::new(Written(written)))
}

/// Refuses a folder that has a part which this bundle has not: the folder would hold tables of two
/// builds, and no one would see it.
fn not_of_another(path: &Path) -> Result<(), Stop> {
    if fs::symlink_metadata(path).is_err() {
        return Ok(());
    }
    let shown = path.display();
    let why = format!("{shown} is there, and the bundle has no part of that name");
    Err(Stop::Bad(why))
}

/// Makes the folder, unless it is there; tells whether it did.
fn make_folder(folder: &Path) -> Result<bool, Stop> {
    if folder.is_dir() {
        return Ok(false);
    }
    match fs::create_dir(folder) {
        Ok(()) => Ok(true),
        Err(error) => {
            let shown = folder.display();
            Err(Stop::Bad(format!("can't make the folder {shown}: {error}")))
        }
    }
}

/// The parts that were written, and their lengths.
struct Written(Vec<(Part, usize)>);

impl Answer for Written {
    fn text(&self) -> String {
        let mut text = String::from("file                 length\n");
        for (part, length) in &self.0 {
            let _ = writeln!(text, "{:<20} {length:08X}", part.name());
        }
        let _ = writeln!(text, "files {}", self.0.len());
        text
    }

    fn json(&self) -> String {
        let list = json::list(&self.0, |text, (part, length)| {
            let _ = write!(text, "{{\"file\":\"{}\",\"length\":{length}}}", part.name());
        });
        format!("{{\"files\":{list}}}\n")
    }
}
