//! The words behind `pasetone`, read by the tables of commands and of options.
use crate::printed::out::Out;
use crate::words::commands::{Command, named};
use crate::words::named::{is_standard, shown};
use crate::words::options::{A_FILE, Key, OPTIONS, option};
use std::ffi::{OsStr, OsString};
use std::os::unix::ffi::OsStrExt;

/// What the words ask for.
pub enum Asked {
    /// The page of all commands, or of one.
    Help(Option<&'static Command>),
    Version,
    Run(Given),
}

/// The words behind a command: operands, and options with their values. Of an option that is given twice the last counts.
pub struct Given {
    /// The command's name.
    pub command: &'static str,
    pub operands: Vec<OsString>,
    options: Vec<(Key, OsString)>,
}

impl Given {
    pub fn has(&self, key: Key) -> bool {
        self.word(key).is_some()
    }

    pub fn word(&self, key: Key) -> Option<&OsStr> {
        self.options.iter().rev().find(|(given, _)| *given == key).map(|(_, value)| value.as_os_str())
    }

    /// Every option that counts, with its value, in the order of the command's page.
    pub fn options(&self) -> impl Iterator<Item = (Key, &OsStr)> {
        OPTIONS.iter().filter_map(|row| self.word(row.key).map(|value| (row.key, value)))
    }

    /// An option's value as `read` takes it; told as a mistake where it does not.
    pub fn value<T>(&self, key: Key, out: &mut Out, read: impl Fn(&str) -> Option<T>) -> Option<T> {
        let word = self.word(key)?;
        let value = word.to_str().and_then(read);
        if value.is_none() {
            let row = option(key);
            out.mistake(&format!("{} wants {}, not `{}`", row.name, row.wants, shown(word)));
        }
        value
    }

    /// Told where more than one of these options is to read standard input.
    pub fn reads_once(&self, keys: &[Key], out: &mut Out) {
        let given: Vec<&str> = keys.iter().filter(|key| self.word(**key).is_some_and(is_standard)).map(|key| option(*key).name).collect();
        if given.len() > 1 {
            out.mistake(&format!("standard input can be read once: give - to one of {}", given.join(" and ")));
        }
    }

    /// Told where there is no file behind a command that takes files of sections, or standard input twice.
    pub fn wants_files(&self, command: &str, out: &mut Out) {
        if self.operands.is_empty() {
            out.mistake(&format!("{command} wants files of sections, or - for standard input"));
        }
        self.reads_operands_once(out);
    }

    pub fn reads_operands_once(&self, out: &mut Out) {
        if self.operands.iter().filter(|name| is_standard(name)).count() > 1 {
            out.mistake("standard input can be read once: give - once");
        }
    }

    /// The name of a file to be written.
    pub fn target(&self, key: Key, out: &mut Out) -> Option<&OsStr> {
        let word = self.word(key)?;
        if !is_standard(word) {
            return Some(word);
        }
        out.mistake(&format!("{} wants {}: - is standard input, which is only read", option(key).name, A_FILE));
        None
    }
}

/// Reads the words. `None` where there is no command, which has then been told.
pub fn asked(words: Vec<OsString>, out: &mut Out) -> Option<Asked> {
    let mut words = words.into_iter();
    let Some(first) = words.next() else {
        out.mistake("there is no command: give one of those that `./pasetone --help` lists");
        return None;
    };
    match first.to_str() {
        Some("-h" | "--help") => return Some(Asked::Help(None)),
        Some("--version") => return Some(Asked::Version),
        _ => {}
    }
    let Some(command) = named(&first) else {
        out.mistake(&format!("there is no command `{}`: give one of those that `./pasetone --help` lists", shown(&first)));
        return None;
    };
    Some(behind(command, words.collect(), out))
}

/// The words behind a command. Help and version come before any mistake in other words. Where an option is at fault the command still reads its own words,
/// so that each mistake is told, and does no more.
fn behind(command: &'static Command, words: Vec<OsString>, out: &mut Out) -> Asked {
    let options = || words.iter().take_while(|word| *word != "--");
    if options().any(|word| word == "-h" || word == "--help") {
        return Asked::Help(Some(command));
    }
    if options().any(|word| word == "--version") {
        return Asked::Version;
    }
    let mut given = Given { command: command.name, operands: Vec::new(), options: Vec::new() };
    let mut words = words.into_iter();
    while let Some(word) = words.next() {
        if word == "--" {
            given.operands.extend(words.by_ref());
        } else if is_standard(&word) || !word.as_bytes().starts_with(b"-") {
            given.operands.push(word);
        } else if let Some(read) = one(command, &word, &mut words, out) {
            given.options.push(read);
        }
    }
    if given.has(Key::Json) && given.has(Key::Quiet) {
        out.mistake("--json prints and --quiet does not: give one of the two");
    }
    Asked::Run(given)
}

/// An option: `--name value`, `--name=value`, or `--name` where it has no value.
fn one(command: &Command, word: &OsStr, words: &mut impl Iterator<Item = OsString>, out: &mut Out) -> Option<(Key, OsString)> {
    // A file's name behind the `=` may be no text.
    let bytes = word.as_bytes();
    let (name, inside) = match bytes.iter().position(|byte| *byte == b'=') {
        Some(at) => (OsStr::from_bytes(&bytes[..at]), Some(OsStr::from_bytes(&bytes[at + 1..]).to_os_string())),
        None => (word, None),
    };
    let Some(row) = command.keys().map(option).find(|row| name == row.name) else {
        out.mistake(&format!("{} has no option `{}`: `./pasetone {0} --help` lists what it has", command.name, shown(name)));
        return None;
    };
    let name = row.name;
    let value = match (row.value, inside) {
        (None, None) => OsString::new(),
        (None, Some(_)) => {
            out.mistake(&format!("{name} has no value: give it alone"));
            return None;
        }
        (Some(_), inside) => inside.or_else(|| words.next()).filter(|value| !value.is_empty()).or_else(|| {
            out.mistake(&format!("{name} has no value: it wants {}", row.wants));
            None
        })?,
    };
    Some((row.key, value))
}
