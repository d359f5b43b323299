//! Names of files, as words name them and as they are printed.
use std::ffi::OsStr;

/// A name as it is printed: what would move a terminal's cursor, and bytes that are no text, show as `?`.
pub fn shown(name: &OsStr) -> String {
    name.to_string_lossy().chars().map(|c| if c.is_control() || c == char::REPLACEMENT_CHARACTER { '?' } else { c }).collect()
}

/// What is read by a name, as it is printed.
pub fn called(name: &OsStr) -> String {
    if is_standard(name) { String::from("standard input") } else { shown(name) }
}

pub fn is_standard(name: &OsStr) -> bool {
    name == "-"
}
