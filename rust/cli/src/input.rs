//! Files and standard input, read whole: an answer never comes from a part.

use std::ffi::{OsStr, OsString};
use std::io::{self, Read};
use std::path::Path;

use crate::answer::Stop;
use crate::arguments::{hex, Address};
use crate::streams;

pub fn is_stdin(name: &OsStr) -> bool {
    name == "-"
}

/// A file's name as a sentence has it.
pub fn shown(name: &OsStr) -> String {
    match is_stdin(name) {
        true => "standard input".into(),
        false => Path::new(name).display().to_string(),
    }
}

/// All bytes of a file, or of standard input where its name is `-`.
pub fn read(name: &OsStr) -> Result<Vec<u8>, Stop> {
    let bytes = match is_stdin(name) {
        true => read_stdin(),
        false => std::fs::read(name),
    };
    bytes.map_err(|error| Stop::Bad(format!("can't read {}: {error}", shown(name))))
}

/// All bytes of each file that is named. Standard input may be one of them, once.
pub fn read_each<const N: usize>(
    names: [Option<&OsString>; N],
) -> Result<[Option<Vec<u8>>; N], Stop> {
    stdin_once(names.into_iter().flatten())?;
    let mut files = names.map(|_| None);
    for (file, name) in files.iter_mut().zip(names) {
        *file = name.map(|name| read(name)).transpose()?;
    }
    Ok(files)
}

fn read_stdin() -> io::Result<Vec<u8>> {
    if streams::was_closed(streams::INPUT) {
        return Err(io::Error::new(io::ErrorKind::Other, "it is closed"));
    }
    let mut bytes = Vec::new();
    io::stdin().lock().read_to_end(&mut bytes)?;
    Ok(bytes)
}

/// Refuses words of which two would read standard input: the second would get nothing.
pub fn stdin_once<'w>(words: impl Iterator<Item = &'w OsString>) -> Result<(), Stop> {
    match words.filter(|word| is_stdin(word)).count() {
        0 | 1 => Ok(()),
        _ => Err(Stop::Bad("standard input can be read once".into())),
    }
}

/// The addresses that were asked, those of standard input in the place of `-`.
pub fn addresses(asked: Vec<Address>) -> Result<Vec<u32>, Stop> {
    let mut addresses = Vec::with_capacity(asked.len());
    for address in asked {
        match address {
            Address::At(address) => addresses.push(address),
            Address::Stdin => addresses.extend(stdin_addresses()?),
        }
    }
    Ok(addresses)
}

fn stdin_addresses() -> Result<Vec<u32>, Stop> {
    let bytes = read(OsStr::new("-"))?;
    let text = String::from_utf8_lossy(&bytes);
    let told = |(line, word): (usize, &str)| {
        hex(word).map_err(|why| Stop::Bad(format!("standard input, line {line}: {why}")))
    };
    let lines = text.lines().zip(1..);
    let words = lines.flat_map(|(line, n)| line.split_whitespace().map(move |word| (n, word)));
    words.map(told).collect()
}
