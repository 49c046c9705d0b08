//! Standard output and standard error. A failure is told, and never a panic.

use std::io::{self, Write};

use crate::streams;

/// Writes an answer, all of it or an error.
pub fn print(text: &str) -> Result<(), String> {
    if text.is_empty() {
        return Ok(());
    }
    if streams::was_closed(streams::OUTPUT) {
        return Err("standard output is closed".into());
    }
    let mut out = io::stdout().lock();
    let written = out.write_all(text.as_bytes()).and_then(|()| out.flush());
    written.map_err(|error| error.to_string())
}

/// A line on standard error. Where that fails there is no one to tell.
pub fn say(line: &str) {
    let _ = writeln!(io::stderr(), "{line}");
}
