//! The name of a section, as `sections` and `locate` show it.

use gillacorn::ImageSectionHeader;

use crate::json;

/// The name, or none where it is no UTF-8.
fn text(header: &ImageSectionHeader) -> Option<&str> {
    let name = header.name();
    // The library's name is empty for both: nothing before the first zero, and no UTF-8.
    (!name.is_empty() || header.name[0] == 0).then_some(name)
}

/// All eight bytes, also those behind a zero.
fn bytes(header: &ImageSectionHeader) -> String {
    let digits = header.name.iter().map(|byte| format!("{byte:02X}"));
    digits.collect()
}

/// For a person: the name, or its eight bytes in hexadecimal where it is no UTF-8. The two can't be
/// taken for each other: a name has eight letters at most, and if it is longer here a backslash is in
/// it, so it never is sixteen hexadecimal digits.
pub fn shown(header: &ImageSectionHeader) -> String {
    match text(header) {
        // A name may hold anything that is UTF-8, also what a terminal would obey.
        Some(name) => name.escape_debug().to_string(),
        None => bytes(header),
    }
}

/// For a program: two members of an object. Both are null where there is no section.
pub fn members(header: Option<&ImageSectionHeader>) -> String {
    let name = json::text_or_null(header.and_then(text));
    let bytes = json::text_or_null(header.map(bytes).as_deref());
    format!("\"name\":{name},\"name_bytes\":{bytes}")
}
