//! What to do, as one line that can be pasted from any folder: the program named as it was called, files by their whole names, every name quoted.
use crate::files::owed::{Owed, own_if};
use crate::files::record::Records;
use crate::printed::names::{self, Gain};
use crate::runs::run::Run;
use crate::words::given::Given;
use crate::words::named::is_standard;
use crate::words::options::{Key, option};
use std::env;
use std::ffi::{OsStr, OsString};
use std::os::unix::ffi::OsStrExt;
use std::path;

/// What stands in for a receiver is no part of the same call made again.
const SCRIPT: [Key; 3] = [Key::Fail, Key::Outcomes, Key::Replies];

/// A word as a shell takes it back: in single quotes, or where a byte would not survive a terminal as $'..'.
fn quoted(word: &OsStr) -> String {
    match word.to_str() {
        Some(text) if !text.chars().any(char::is_control) => format!("'{}'", text.replace('\'', "'\\''")),
        _ => {
            let byte = |byte: &u8| match byte {
                b'\'' | b'\\' => format!("\\{}", *byte as char),
                0x20..=0x7e => (*byte as char).to_string(),
                other => format!("\\x{other:02x}"),
            };
            format!("$'{}'", word.as_bytes().iter().map(byte).collect::<String>())
        }
    }
}

/// A file by its whole name, quoted; standard input as it is.
fn file(name: &OsStr) -> String {
    if is_standard(name) {
        return String::from("-");
    }
    quoted(path::absolute(name).map_or_else(|_| name.to_os_string(), OsString::from).as_os_str())
}

/// This program, as it was called: one that the path found is found again.
pub fn program() -> String {
    let name = env::args_os().next().unwrap_or_else(|| OsString::from("pasetone"));
    if name.as_bytes().contains(&b'/') { file(&name) } else { quoted(&name) }
}

/// An option with its value, as it is written.
fn option_words(key: Key, value: &OsStr) -> String {
    let row = option(key);
    match row.value {
        None => String::from(row.name),
        Some("FILE") => format!("{} {}", row.name, file(value)),
        Some(_) => format!("{} {}", row.name, quoted_if_needed(value)),
    }
}

/// A number needs no quotes.
fn quoted_if_needed(word: &OsStr) -> String {
    let is_plain = |byte: &u8| byte.is_ascii_alphanumeric() || b".-+_".contains(byte);
    if !word.is_empty() && word.as_bytes().iter().all(is_plain) { word.to_string_lossy().into_owned() } else { quoted(word) }
}

/// The options of these words that belong to the same call made again, but for some.
fn options(given: &Given, without: &[Key]) -> Vec<String> {
    let kept = given.options().filter(|(key, _)| !SCRIPT.contains(key) && !without.contains(key));
    kept.map(|(key, value)| option_words(key, value)).collect()
}

/// `reload` of a kept record: every register again.
fn reload(record: &OsStr, given: &Given) -> String {
    let mut words = vec![program(), String::from("reload")];
    words.push(if given.has(Key::State) { format!("--state {}", file(record)) } else { format!("{0} --keep {0}", file(record)) });
    for key in [Key::Device, Key::Append, Key::Log, Key::Name, Key::Quiet] {
        words.extend(given.word(key).map(|value| option_words(key, value)));
    }
    words.join(" ")
}

/// `hop` over a kept record, with every call that it owes: the words of a hop where it was one, or as much of them as another command has.
fn hop_over(record: &OsStr, hz: &str, owed: &Owed, given: &Given) -> String {
    let holder = option(if given.has(Key::State) { Key::State } else { Key::Record }).name;
    let mut words = vec![program(), String::from("hop"), String::from(hz), format!("{holder} {}", file(record))];
    // A fresh record may be of another kind or board than its settings, by a word: over it they would be refused, and it owes all that they ask for.
    let own_words = given.has(Key::Kind) || given.has(Key::Board);
    let by_settings = |key: Key| given.has(Key::Settings) && !own_words && matches!(key, Key::Rate | Key::Gain | Key::If);
    let owes = |key: Key, value: Option<String>| {
        value.filter(|_| !given.has(key) && !by_settings(key)).map(|value| format!("{} {value}", option(key).name))
    };
    words.extend((owed.initialise && !given.has(Key::Initialise)).then(|| String::from(option(Key::Initialise).name)));
    words.extend(owes(Key::Rate, owed.rate.map(|rate| rate.to_string())));
    words.extend(owes(Key::Gain, owed.gain.map(names::tenths_of)));
    words.extend(owes(Key::If, owed.if_hz.map(|hz| hz.to_string())));
    words.extend(owes(Key::Table, owed.table.then(|| String::from("FILE"))));
    // What a record has, and what is of one command alone, are no words beside --record.
    let mut own = vec![Key::State, Key::Record, Key::Keep, Key::Cut, Key::Section, Key::Kind, Key::Address, Key::Board, Key::Reference];
    own.extend(own_words.then_some(Key::Settings));
    words.extend(options(given, &own));
    words.extend((!given.has(Key::State)).then(|| format!("--keep {}", file(record))));
    words.join(" ")
}

/// The way back over a kept record: every register again where a call was cut or some are doubtful, then the tuning with every call that is owed.
pub fn over(record: &OsStr, hz: &str, records: &Records, given: &Given, was_cut: bool) -> String {
    let hop = hop_over(record, hz, &records.owed, given);
    // On a receiver of the bus a hop reloads by itself.
    let reloads = !given.has(Key::Device) && (was_cut || records.tuner.doubtful().next().is_some());
    if reloads { format!("{}; {hop}", reload(record, given)) } else { hop }
}

/// The way back of a receiver on the bus, where nobody has said which it is.
pub fn on_the_bus(state: &OsStr, hz: &str) -> String {
    format!("{} hop {hz} --device N --state {}", program(), file(state))
}

/// A command made again with all of its words.
pub fn same(command: &str, given: &Given) -> String {
    let mut words = vec![program(), String::from(command)];
    words.extend(given.operands.iter().map(|word| quoted_if_needed(word)));
    words.extend(options(given, &[]));
    words.join(" ")
}

/// The frequency that a record was last asked for.
pub fn hertz(owed: &Owed) -> String {
    if owed.hz == 0 { String::from("HZ") } else { owed.hz.to_string() }
}

/// A hop that did not end well, made again. From a fresh record it begins with initialise, which sends every register by itself.
pub fn hop_again(given: &Given, hz: u64, run: &Run) -> String {
    let records = run.records.as_ref();
    let hz = given.operands.first().map_or_else(|| hz.to_string(), |word| quoted_if_needed(word));
    if let (Some(state), Some(records)) = (given.word(Key::State), records) {
        return over(state, &hz, records, given, run.was_cut());
    }
    match (given.has(Key::Record), given.word(Key::Keep), records) {
        (true, Some(keep), Some(records)) => over(keep, &hz, records, given, run.was_cut()),
        // What stands in the file is the record before this run, which is no longer the receiver's.
        (true, None, Some(records)) => from_nothing(given, &hz, records),
        _ => {
            let mut words = vec![program(), String::from("hop")];
            words.extend(given.operands.first().map(|_| hz));
            words.extend(options(given, &[]));
            words.join(" ")
        }
    }
}

/// A reload that did not end well, or that leaves a call owed: once more where a register is doubtful, then what is owed.
pub fn reload_again(record: &OsStr, given: &Given, records: &Records) -> String {
    let owed = &records.owed;
    if owed.words().is_some() || owed.unread || !records.tuner.has_lock() {
        return over(record, &hertz(owed), records, given, false);
    }
    // Nothing is wrong but that the board's table is not at hand.
    if owed.table && !given.has(Key::Table) && records.tuner.doubtful().next().is_none() {
        return String::from("give the board's table: --table FILE");
    }
    reload(record, given)
}

/// The same receiver set up from nothing: what a record has is said by words.
fn from_nothing(given: &Given, hz: &str, records: &Records) -> String {
    let Records { tuner, driver, owed } = records;
    // What settings say is no word: it would win over them.
    let says = |key: Key| given.has(key) || given.has(Key::Settings);
    let rate = owed.rate.unwrap_or(driver.rate());
    let gain = owed.gain.unwrap_or(Gain::Tenths((tuner.gain() * 10.0).round() as i32));
    let mut words = vec![program(), String::from("hop"), hz.to_string()];
    words.push(format!("--kind {} --address 0x{:02x}", names::kind(tuner.kind()).to_lowercase(), tuner.address()));
    words.extend((!given.has(Key::Table)).then(|| format!("--board {}", names::board(driver.board()).to_lowercase())));
    words.push(format!("--reference {}", tuner.nominal()));
    words.extend((driver.ppm() != 0 && !says(Key::Ppm)).then(|| format!("--ppm {}", driver.ppm())));
    words.extend((!says(Key::Rate)).then(|| format!("--rate {rate}")));
    words.extend((!says(Key::Gain)).then(|| format!("--gain {}", names::tenths_of(gain))));
    let if_hz = owed.if_hz.map(u64::from).or(Some(tuner.if_freq()).filter(|hz| *hz != own_if(rate)));
    words.extend(if_hz.filter(|_| !says(Key::If)).map(|hz| format!("--if {hz}")));
    words.extend(options(given, &[Key::Record, Key::Initialise]));
    // The file that the record came from is no longer the receiver's: what the line leads to takes its place.
    words.extend(given.word(Key::Record).filter(|name| !is_standard(name)).map(|name| format!("--keep {}", file(name))));
    words.join(" ")
}

#[cfg(test)]
mod tests {
    use super::*;

    #[test]
    fn names_are_quoted() {
        assert_eq!(quoted(OsStr::new("a b")), "'a b'");
        assert_eq!(quoted(OsStr::new("it's")), "'it'\\''s'");
        assert_eq!(quoted(OsStr::from_bytes(b"a\nb'\xff\\")), "$'a\\x0ab\\'\\xff\\\\'");
        assert_eq!(quoted(OsStr::new("")), "''");
        assert_eq!(file(OsStr::new("/one/two three")), "'/one/two three'");
        assert_eq!(file(OsStr::new("-")), "-");
        assert!(file(OsStr::new("one")).starts_with("'/"));
        assert_eq!(
            (quoted_if_needed(OsStr::new("102.3M")), quoted_if_needed(OsStr::new("1;2"))),
            (String::from("102.3M"), String::from("'1;2'"))
        );
    }
}
