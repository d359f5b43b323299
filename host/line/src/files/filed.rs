//! A file of sections: its name as it is printed, and its bytes; and what is wrong with a damaged part of it, in words.
use crate::files::disk;
use crate::files::sections::{Damage, ENTRY, Flaw, Part, Span, TRAILER, Walk, alone};
use crate::printed::names::counted;
use crate::printed::out::{End, Out};
use crate::words::given::Given;
use crate::words::named::called;
use pasetone::Transcript;
use std::ffi::OsStr;

pub struct File {
    pub name: String,
    pub bytes: Vec<u8>,
}

impl File {
    pub fn read(name: &OsStr) -> Result<File, String> {
        let bytes = disk::read(name)?;
        Ok(File { name: called(name), bytes })
    }

    /// All files behind a command that takes them together. `None` where one cannot be read, which has then been told.
    pub fn all(command: &str, given: &Given, out: &mut Out) -> Option<Vec<File>> {
        if out.is_mistaken() {
            return None;
        }
        let read = |name| File::read(name).map_err(|why| out.mistake(&format!("{command} {why}"))).ok();
        // Each is tried, so that each mistake is told.
        let files: Vec<Option<File>> = given.operands.iter().map(|name| name.as_os_str()).map(read).collect();
        files.into_iter().collect()
    }

    /// Its sections, or those that `--sections` asks for; told where it has not so many.
    pub fn walk(&self, span: Option<Span>, out: &mut Out) -> Option<Walk> {
        let walk = Walk::of(&self.bytes);
        let Some(span) = span else { return Some(walk) };
        let told =
            |all| out.mistake(&format!("--sections: {} has {}: give numbers that `show` prints", self.name, counted(all, "section")));
        walk.only(span).map_err(told).ok()
    }

    /// Tells every damaged part; how many there are.
    pub fn damaged(&self, walk: &Walk, out: &mut Out) -> usize {
        for (number, part) in walk.numbered() {
            if let Part::Damaged(damage) = part {
                out.tell(End::Refused, &self.told(damage, number));
            }
        }
        walk.damages()
    }

    pub fn entry(&self, at: usize) -> Option<Transcript> {
        let section = alone(self.bytes.get(at..at + ENTRY)?);
        Transcript::read(&section).ok().map(|(_, transcript)| transcript)
    }

    /// What is wrong with a damaged part, and what would be right.
    pub fn told(&self, damage: &Damage, number: usize) -> String {
        let (name, bytes, entries) = (&self.name, span(damage.start, damage.end), damage.entries);
        let named = format!("{name}: section {number} ({bytes}) is damaged");
        match damage.flaw {
            Flaw::Entry(at) => {
                let place = damage.start + ENTRY * at;
                format!("{named}: its entry {at}, at byte {place}, is none that include/pasetone.h allows")
            }
            Flaw::Trailer => {
                let (place, distance) = (damage.end - TRAILER, ENTRY * entries);
                let cut = if damage.end == self.bytes.len() { ", or the file was cut there" } else { "" };
                format!("{named}: its last 8 bytes, at byte {place}, are no trailer ({entries} and {distance} would be one){cut}")
            }
            Flaw::Shapeless { counts: true } if damage.end == self.bytes.len() => {
                format!("{named}: {entries} entries are whole, and no trailer ends it")
            }
            Flaw::Shapeless { counts: true } => {
                format!("{named}: no section has so many bytes; it counts as one of {entries} steps, so later numbers may be too low")
            }
            Flaw::Shapeless { counts: false } if damage.end - damage.start == self.bytes.len() => {
                format!("{name}: it holds no section: give a file that --section of hop has written")
            }
            Flaw::Shapeless { counts: false } => {
                let verb = if damage.end - damage.start == 1 { "is" } else { "are" };
                format!("{name}: {bytes} {verb} of no section, which has 16 bytes for each entry and 8 behind them")
            }
        }
    }
}

/// From the first to the last byte of a part; one that has none has no last.
pub fn span(start: usize, end: usize) -> String {
    match end - start {
        0 => format!("no trailer at byte {start}"),
        1 => format!("byte {start}"),
        _ => format!("bytes {start} to {}", end - 1),
    }
}
