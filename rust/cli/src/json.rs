//! JSON, of which the answers need lists and texts; numbers are decimal, a hole is null.

use std::fmt::Write;

use gillacorn::Refusal;

/// A list, each item as `write` writes it.
pub fn list<T>(
    items: impl IntoIterator<Item = T>,
    mut write: impl FnMut(&mut String, T),
) -> String {
    let mut text = String::from("[");
    for (place, item) in items.into_iter().enumerate() {
        if place > 0 {
            text.push(',');
        }
        write(&mut text, item);
    }
    text.push(']');
    text
}

/// A number, or null.
pub fn number(number: Option<u32>) -> String {
    number.map_or_else(|| "null".into(), |number| number.to_string())
}

pub fn text(text: &str) -> String {
    let mut quoted = String::from("\"");
    for letter in text.chars() {
        let _ = match letter {
            '"' | '\\' => write!(quoted, "\\{letter}"),
            // Also those that JSON allows: a terminal would obey them.
            _ if letter.is_control() => write!(quoted, "\\u{:04x}", u32::from(letter)),
            _ => write!(quoted, "{letter}"),
        };
    }
    quoted.push('"');
    quoted
}

/// A text, or null.
pub fn text_or_null(given: Option<&str>) -> String {
    given.map_or_else(|| "null".into(), text)
}

/// A refusal as members of an object.
pub fn refusal(refusal: Refusal) -> String {
    let sentence = text(&refusal.to_string());
    format!("\"refused\":{},\"sentence\":{sentence}", refusal.number())
}

pub fn refused(refused: Refusal) -> String {
    format!("{{{}}}\n", refusal(refused))
}
