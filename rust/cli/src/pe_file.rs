//! Where the section table lies in a PE file.

use gillacorn::SectionTable;

/// The table, if the file is a PE file; the file itself if it does not begin as one.
pub fn section_table(file: &[u8]) -> Result<&[u8], String> {
    if !file.starts_with(b"MZ") {
        return Ok(file);
    }
    let short = || String::from("it begins as a PE file, and ends before its section table");
    let signature = number(file, 0x3c, 4).ok_or_else(short)?;
    match part(file, signature, 4) {
        Some(b"PE\0\0") => {}
        Some(_) => {
            return Err(format!(
                "it begins as a PE file, and has none at {signature:X}"
            ))
        }
        None => return Err(short()),
    }
    let count = number(file, signature + 6, 2).ok_or_else(short)?;
    // The table follows the optional header, whose size the COFF header tells.
    let optional = number(file, signature + 20, 2).ok_or_else(short)?;
    let start = signature + 24 + optional;
    part(file, start, count * SectionTable::RECORD as u64).ok_or_else(short)
}

fn part(file: &[u8], start: u64, length: u64) -> Option<&[u8]> {
    let start = usize::try_from(start).ok()?;
    let end = start.checked_add(usize::try_from(length).ok()?)?;
    file.get(start..end)
}

fn number(file: &[u8], at: u64, bytes: u64) -> Option<u64> {
    let bytes = part(file, at, bytes)?.iter().rev();
    Some(bytes.fold(0, |number, &byte| number << 8 | u64::from(byte)))
}
