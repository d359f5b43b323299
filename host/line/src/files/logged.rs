//! A log read back (log.rs writes it), and joined to the sections of a night's file by their places.
use crate::files::disk::unread;
use crate::files::log;
use crate::printed::clock;
use crate::printed::json::{self, Value};
use crate::printed::names::counted;
use crate::words::named::called;
use std::collections::BTreeSet;
use std::ffi::OsStr;
use std::fs::File;
use std::io::{BufRead, BufReader, Read};

/// A line is no longer.
const LONGEST: u64 = 4096;
/// So many lines that are none make no log.
const FAULTS: usize = 1000;

/// What one line says of a section.
#[derive(Clone, Debug, PartialEq)]
pub struct Line {
    pub time: u64,
    pub call: &'static str,
    pub asked: Option<u64>,
    /// 0 is done.
    pub refusal: u32,
    pub at: u64,
    pub length: u64,
    pub address: u8,
    pub tuner_xtal: u32,
    pub driver_xtal: u32,
    pub shift: Option<i128>,
    pub to: Option<u64>,
}

impl Line {
    pub fn is_tuning(&self) -> bool {
        matches!(self.call, "tune_board" | "set_frequency")
    }
}

/// The lines of one receiver.
#[derive(Default)]
pub struct Log {
    pub name: Option<String>,
    pub address: Option<u8>,
    /// By place.
    pub lines: Vec<Line>,
    /// Lines that are none, by number: the first of them, and how many.
    pub torn: Option<(usize, usize)>,
}

impl Log {
    /// The lines of a log; of those with names only `name`'s, where it is given. What makes it none of one receiver's comes back in words.
    pub fn read(path: &OsStr, name: Option<&str>) -> Result<Log, String> {
        let file = File::open(path).map_err(|error| unread(path, &error))?;
        let (mut from, mut log, mut names) = (BufReader::new(file), Log::default(), BTreeSet::new());
        for number in 1.. {
            let mut bytes = Vec::new();
            from.by_ref().take(LONGEST).read_until(b'\n', &mut bytes).map_err(|error| unread(path, &error))?;
            if bytes.is_empty() {
                break;
            }
            let read = str::from_utf8(&bytes).ok().filter(|_| bytes.ends_with(b"\n")).and_then(line);
            match read {
                Some((whose, line)) if name.is_none() || whose.as_deref() == name => {
                    names.extend(whose);
                    log.lines.push(line);
                }
                Some(_) => {}
                None => log.fault(number, bytes.starts_with(log::HEAD.as_bytes()), path)?,
            }
        }
        if names.len() > 1 {
            let names: Vec<&str> = names.iter().map(String::as_str).collect();
            return Err(format!("{}: it is of {}: give one receiver's log, or --name", called(path), names.join(" and ")));
        }
        log.name = names.pop_first();
        log.sorted(path)
    }

    /// The first line that is none must be torn, if no other is one.
    fn fault(&mut self, number: usize, is_torn: bool, path: &OsStr) -> Result<(), String> {
        let (first, count) = self.torn.unwrap_or((number, 0));
        self.torn = Some((first, count + 1));
        if count + 1 > FAULTS || (self.lines.is_empty() && !is_torn) { Err(none(path)) } else { Ok(()) }
    }

    /// In the order of the file. A log of two chips, or with two lines for one place, is of more than one file.
    fn sorted(mut self, path: &OsStr) -> Result<Log, String> {
        self.lines.sort_by_key(|line| line.at);
        self.address = self.lines.first().map(|line| line.address);
        if let Some(other) = self.lines.iter().find(|line| Some(line.address) != self.address) {
            let first = self.address.unwrap_or(0);
            return Err(format!("{}: it is of chips at 0x{first:02x} and 0x{:02x}: give a receiver's own", called(path), other.address));
        }
        // A hop that was refused has no section: its line stands before that of the next one.
        if let Some(twice) = self.lines.windows(2).find(|two| two[0].at == two[1].at && two[0].length > 0) {
            return Err(format!(
                "{}: it has two lines for byte {}: it is of more than one file; give this one's own",
                called(path),
                twice[0].at
            ));
        }
        Ok(self)
    }

    /// What is wrong with it, in words.
    pub fn told(&self, path: &OsStr) -> Option<String> {
        let (first, count) = self.torn?;
        let which =
            if count == 1 { format!("line {first}") } else { format!("{}, the first of them line {first},", counted(count, "line")) };
        Some(format!("{}: {which} cannot be read: a run died there, and a section that it tells of has no line", called(path)))
    }
}

fn none(path: &OsStr) -> String {
    format!("{}: this is no log: name one that --log of hop, feed or reload has written", called(path))
}

/// Whose line it is, and what it says.
fn line(text: &str) -> Option<(Option<String>, Line)> {
    let members = json::flat(text)?;
    let value = |name: &str| members.iter().find(|(known, _)| known == name).map(|(_, value)| value);
    let text = |name: &str| if let Some(Value::Text(text)) = value(name) { Some(text.as_str()) } else { None };
    let maybe = |name: &str| match value(name)? {
        Value::Number(number) => Some(Some(*number)),
        Value::Null => Some(None),
        _ => None,
    };
    let number = |name: &str| maybe(name).flatten();
    let long = |name: &str| number(name).and_then(|number| u64::try_from(number).ok());
    let refusal = match text("answer")? {
        "done" => 0,
        other => other.strip_prefix("refused ")?.parse().ok().filter(|number| *number > 0)?,
    };
    let reference = |name: &str| number(name).and_then(|number| u32::try_from(number).ok()).filter(|hz| *hz > 0);
    let line = Line {
        time: clock::read(text("time")?)?,
        call: log::CALLS.iter().find(|call| Some(**call) == text("call"))?,
        asked: maybe("asked")?.map(u64::try_from).transpose().ok()?,
        refusal,
        at: long("at")?,
        length: long("length")?,
        address: u8::try_from(number("address")?).ok()?,
        tuner_xtal: reference("tuner_xtal")?,
        driver_xtal: reference("driver_xtal")?,
        shift: maybe("shift")?,
        to: maybe("to")?.map(u64::try_from).transpose().ok()?,
    };
    let whose = match value("name")? {
        Value::Text(name) => Some(name.clone()),
        Value::Null => None,
        _ => return None,
    };
    // A tuning's own words; without them it could not be judged.
    (!line.is_tuning() || line.asked.is_some()).then_some((whose, line))
}
