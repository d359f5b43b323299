//! A day: the sections of some files end to end, oldest first, and where they left a chip's registers. Which registers are sure is the library's answer (its
//! restore list); of the others the last write tells why they are not.
use crate::files::filed::File;
use crate::files::sections::{ENTRY, Part, TRAILER, Walk};
use crate::judged::begins::Begins;
use crate::printed::json;
use crate::printed::names::counted;
use crate::printed::out::{End, Out};
use crate::printed::registers::runs;
use crate::runs::answer;
use crate::words::given::Given;
use crate::words::numbers;
use crate::words::options::Key;
use pasetone::{Entry, EntryKind, Error, Transcript, Tuner, TunerKind};
use std::collections::{BTreeMap, BTreeSet};

/// Where a tuner's record has its shadow and its marks (include/pasetone.h).
const SHADOW: usize = 2;
const DOUBTFUL: usize = 51;

/// All of its bytes are sections: what is damaged is left out, and its place is known.
pub struct Day {
    bytes: Vec<u8>,
    /// Their names.
    files: Vec<String>,
    sections: usize,
    steps: usize,
    /// The steps before the first section that is asked for.
    skipped: usize,
    holes: Vec<Hole>,
    pub begins: Begins,
}

/// Damaged bytes between two sections. What they sent nobody knows, so that behind them every register is doubtful until a whole section writes it.
struct Hole {
    /// Before this byte of the day.
    at: usize,
    /// The entries that it counts for, as `show` counts them.
    entries: usize,
}

/// The last write of a register.
struct Last {
    byte: u8,
    failed: bool,
    /// Its step, counted from 0 over the whole day.
    step: usize,
    /// Whether no damage stands behind it.
    is_behind: bool,
}

/// What a day says of one register.
pub enum Held {
    /// Its last write was done: this byte, at this step.
    Sure(u8, usize),
    /// Its last write failed.
    Failed(u8, usize),
    /// Its last write stands before damage, or there is none: what the damaged bytes sent is not known.
    Damaged(Option<(u8, usize)>),
    Never,
}

/// A chip at the end of a day.
pub struct Chip {
    pub address: u8,
    /// The fewest writes that bring another chip there.
    pub list: Transcript,
    pub registers: Vec<(u8, Held)>,
    /// The chips that were written to, this one and others.
    written: BTreeSet<u8>,
}

/// The chip that `--address` names, at the end of the day in the files behind a command: of all files together, or with `--each` of each by itself. `None` where
/// something is wrong, which has then been told.
pub fn all(command: &str, given: &Given, out: &mut Out) -> Option<Vec<(Day, Chip)>> {
    given.wants_files(command, out);
    if !given.has(Key::Chip) {
        out.mistake(&format!("{command} wants --address with the chip's address on I2C, as 0x74 (R828D) or 0x34 (R820T)"));
    }
    let address = given.value(Key::Chip, out, |text| u8::try_from(numbers::whole(text)?).ok());
    let (span, each) = (given.sections(out), given.has(Key::Each));
    if span.is_some() && given.operands.len() > 1 && !each {
        out.mistake("--sections counts in one file: give one, or --each with the files");
    }
    let files = File::all(command, given, out)?;
    let walks: Vec<Option<Walk>> = files.iter().map(|file| file.walk(span, out)).collect();
    let (walks, address) = (walks.into_iter().collect::<Option<Vec<Walk>>>()?, address?);
    let files: Vec<(File, Walk)> = files.into_iter().zip(walks).collect();
    let days: Vec<Vec<(File, Walk)>> = if each { files.into_iter().map(|one| vec![one]).collect() } else { vec![files] };
    let days: Vec<Day> = days.into_iter().map(|files| Day::of(command, files, address, out)).collect();
    let chips = |day: Day| match day.chip(address) {
        Ok(chip) => Some((day, chip)),
        // All of it was found whole before.
        Err(error) => {
            answer::refused(given, error, &format!("{command}: {error}"), out);
            None
        }
    };
    days.into_iter().map(chips).collect()
}

impl Day {
    fn new(address: u8) -> Day {
        let (bytes, files, holes) = (Vec::new(), Vec::new(), Vec::new());
        Day { bytes, files, sections: 0, steps: 0, skipped: 0, holes, begins: Begins::new(address) }
    }

    fn of(command: &str, files: Vec<(File, Walk)>, address: u8, out: &mut Out) -> Day {
        let mut day = Day::new(address);
        for (file, walk) in files {
            day.begins.add(&file, &walk);
            file.damaged(&walk, out);
            day.files.push(file.name.clone());
            (day.sections, day.skipped) = (day.sections + walk.sections(), day.skipped + walk.skipped());
            day.add(file, &walk);
        }
        if !day.holes.is_empty() {
            let (parts, verb) = (counted(day.holes.len(), "part"), if day.holes.len() == 1 { "is" } else { "are" });
            let why = "what was sent there is not known, so behind it every register is doubtful until a whole section writes it";
            out.tell(End::Refused, &format!("{command}: {parts} of the files {verb} no section (refusal 12): {why}"));
        }
        day
    }

    /// The one file that it is of.
    pub fn name(&self) -> &str {
        self.files.first().map_or("", |name| name)
    }

    /// How many sections and steps.
    pub fn counts(&self) -> (usize, usize) {
        (self.sections, self.steps)
    }

    /// The sections of a file, and the holes between them.
    fn add(&mut self, file: File, walk: &Walk) {
        if walk.damages() == 0 && walk.is_whole() {
            self.steps += file.bytes.len().saturating_sub(TRAILER * walk.numbered().count()) / ENTRY;
            // The usual day is one file, and may be a large one.
            if self.bytes.is_empty() {
                self.bytes = file.bytes
            } else {
                self.bytes.extend(file.bytes)
            }
            return;
        }
        for (_, part) in walk.numbered() {
            match part {
                Part::Good { start, end } => {
                    self.steps += (end - start - TRAILER) / ENTRY;
                    self.bytes.extend_from_slice(&file.bytes[start..end]);
                }
                Part::Damaged(damage) => self.holes.push(Hole { at: self.bytes.len(), entries: damage.entries }),
            }
        }
    }

    /// Where the day left a chip.
    fn chip(&self, address: u8) -> Result<Chip, Error> {
        let behind = self.holes.last().map_or(0, |hole| hole.at);
        let list = Transcript::restore(&self.bytes[behind..], address)?;
        let sure: BTreeMap<u8, u8> = list.iter().flat_map(|entry| writes(&entry).collect::<Vec<_>>()).collect();
        let mut last: BTreeMap<u8, Last> = BTreeMap::new();
        let mut written = BTreeSet::new();
        self.each(|step, is_behind, entry| {
            if entry.kind == EntryKind::I2cWrite && entry.bytes.len() > 1 {
                written.insert(entry.target);
            }
            if entry.kind == EntryKind::I2cWrite && entry.target == address {
                last.extend(writes(entry).map(|(register, byte)| (register, Last { byte, failed: entry.failed, step, is_behind })));
            }
        });
        let held = |register: u8| match (sure.get(&register), last.get(&register)) {
            (Some(byte), Some(last)) => Held::Sure(*byte, last.step),
            (None, Some(last)) if last.failed && last.is_behind => Held::Failed(last.byte, last.step),
            (None, last) if !self.holes.is_empty() => Held::Damaged(last.map(|last| (last.byte, last.step))),
            _ => Held::Never,
        };
        Ok(Chip { address, list, registers: Tuner::registers().map(|register| (register, held(register))).collect(), written })
    }

    /// Every entry with its number, in order, and whether it stands behind all damage.
    fn each(&self, mut see: impl FnMut(usize, bool, &Entry)) {
        let (mut step, mut holes) = (self.skipped, self.holes.iter().peekable());
        for (_, part) in Walk::of(&self.bytes).numbered() {
            let Part::Good { start, end } = part else { continue };
            while let Some(hole) = holes.next_if(|hole| hole.at <= start) {
                step += hole.entries;
            }
            let Ok((_, transcript)) = Transcript::read(&self.bytes[start..end]) else { continue };
            for entry in &transcript {
                see(step, holes.peek().is_none(), &entry);
                step += 1;
            }
        }
    }

    pub fn line(&self, chip: &Chip) -> String {
        let (files, sections) = (counted(self.files.len(), "file"), counted(self.sections, "section"));
        let damaged = if self.holes.is_empty() { String::new() } else { format!("; DAMAGED: {}", self.holes.len()) };
        format!("chip 0x{:02x} behind {sections} and {} of {files}{damaged}", chip.address, counted(self.steps, "step"))
    }

    pub fn json(&self, chip: &Chip) -> [(&'static str, String); 6] {
        let refusal = if self.holes.is_empty() { answer::done_json() } else { ("refusal", Error::Section.number().to_string()) };
        [
            refusal,
            ("damaged", self.holes.len().to_string()),
            ("address", chip.address.to_string()),
            ("files", self.files.len().to_string()),
            ("sections", self.sections.to_string()),
            ("steps", self.steps.to_string()),
        ]
    }
}

/// A row of `--each`: a file, four numbers, and what stands behind them.
pub fn each_row(name: &str, numbers: [String; 4], rest: &str, out: &mut Out) {
    let numbers = numbers.map(|number| format!("{number:>9}")).concat();
    out.line(&format!("{name:<28}{numbers}  {rest}"));
}

/// The registers of which a record keeps something, each with its byte.
fn writes<'a>(entry: &Entry<'a>) -> impl Iterator<Item = (u8, u8)> + use<'a> {
    entry.registers().filter(|(register, _)| Tuner::registers().any(|known| known == *register))
}

impl Chip {
    pub fn sure(&self) -> Vec<u8> {
        self.those(|held| matches!(held, Held::Sure(..)))
    }

    pub fn those(&self, is: impl Fn(&Held) -> bool) -> Vec<u8> {
        self.registers.iter().filter(|(_, held)| is(held)).map(|(register, _)| *register).collect()
    }

    /// The oscillator by what the chip holds, at a corrected reference: the library's own answer, of a record that says the same of its registers.
    pub fn oscillator(&self, reference: u32) -> Option<u64> {
        let mut bytes = *Tuner::new(TunerKind::R828d, self.address, reference).ok()?.as_bytes();
        for (at, (_, held)) in self.registers.iter().enumerate() {
            let (byte, doubtful) = match held {
                Held::Sure(byte, _) => (*byte, 0),
                Held::Failed(..) | Held::Never | Held::Damaged(_) => (0, 1),
            };
            (bytes[SHADOW + at], bytes[DOUBTFUL + at]) = (byte, doubtful);
        }
        Tuner::from_bytes(&bytes).ok()?.oscillator().ok()
    }

    /// The exit status where a register is doubtful; a line too where nothing is printed, which names the file where each is told by itself.
    pub fn tell_doubt(&self, day: &Day, given: &Given, out: &mut Out) {
        let doubtful = self.those(|held| !matches!(held, Held::Sure(..)));
        if doubtful.is_empty() {
            return;
        }
        out.ends(End::Doubtful);
        if given.has(Key::Quiet) {
            let (count, note) = (doubtful.len(), self.note().map_or_else(String::new, |note| format!("; {note}")));
            let file = if given.has(Key::Each) { format!("{}: ", day.name()) } else { String::new() };
            out.tell(End::Doubtful, &format!("{file}DOUBTFUL: {count} of {} registers: {}{note}", self.registers.len(), runs(&doubtful)));
        }
    }

    /// The chips to which something was written, where this one is none of them.
    fn others(&self) -> Option<String> {
        let others: Vec<String> = self.written.iter().map(|chip| format!("0x{chip:02x}")).collect();
        (!others.is_empty() && !self.written.contains(&self.address)).then(|| others.join(" and "))
    }

    /// What to do then.
    pub fn note(&self) -> Option<String> {
        let others = self.others()?;
        Some(format!("note: nothing is written to 0x{:02x} here, but to {others}: give that as --address", self.address))
    }

    /// What stands at the end of its row of `--each`.
    pub fn flaws(&self, day: &Day, out: &Out) -> String {
        let damaged = if day.holes.is_empty() { String::new() } else { format!("; {} {}", out.loud("DAMAGED:"), day.holes.len()) };
        let others = self.others().map_or_else(String::new, |others| format!("; writes to {others}"));
        format!("{damaged}{others}")
    }

    pub fn registers_json(&self) -> String {
        json::lines(self.registers.iter().map(|(register, held)| {
            let (byte, step, sure) = match held {
                Held::Sure(byte, step) => (Some(*byte), Some(*step), true),
                Held::Failed(byte, step) | Held::Damaged(Some((byte, step))) => (Some(*byte), Some(*step), false),
                Held::Damaged(None) | Held::Never => (None, None, false),
            };
            json::object(&[
                ("register", register.to_string()),
                ("sent", json::maybe(byte)),
                ("step", json::maybe(step)),
                ("doubtful", (!sure).to_string()),
                ("what", json::string(crate::printed::registers::purpose(*register))),
            ])
        }))
    }
}

#[cfg(test)]
mod tests {
    use super::*;
    use pasetone::Script;

    /// What the sections say is what the record says, whatever failed: every step of an initialisation and of a tuning behind it fails once.
    #[test]
    fn a_day_is_what_the_record_says() {
        for fail in 0..100 {
            let mut tuner = Tuner::new(TunerKind::R828d, 0x74, 28_800_000).unwrap();
            let script = |at: usize| if at < 60 { Script::all_done().failing(at).unwrap() } else { Script::all_done() };
            let first = tuner.initialize(&script(fail)).transcript;
            let second = tuner.set_frequency(102_300_000, &script(fail.saturating_sub(19))).transcript;
            let bytes = [first.bytes(), second.bytes()].concat();
            let day = Day { bytes, sections: 2, steps: first.len() + second.len(), ..Day::new(0x74) };
            for (register, held) in day.chip(0x74).unwrap().registers {
                assert_eq!(tuner.is_doubtful(register), !matches!(held, Held::Sure(..)), "{fail} {register}");
                if let Held::Sure(byte, _) | Held::Failed(byte, _) = held {
                    assert_eq!(tuner.shadow(register), Some(byte));
                }
            }
            assert_eq!(day.chip(0x74).unwrap().oscillator(28_800_000), tuner.oscillator().ok());
            assert!(day.chip(0x34).unwrap().registers.iter().all(|(_, held)| matches!(held, Held::Never)));
        }
    }

    /// Whatever bytes are damaged, a register that is told as sure holds its byte: it is what the whole day says, and its last write is whole.
    #[test]
    fn behind_damage_a_register_is_doubtful_until_it_is_written() {
        let mut tuner = Tuner::new(TunerKind::R828d, 0x74, 28_800_000).unwrap();
        let done = Script::all_done();
        let sections = [
            tuner.initialize(&done).transcript,
            tuner.set_gain(29.7, &done).transcript,
            tuner.set_frequency(102_300_000, &done).transcript,
            tuner.set_bandwidth(9_000_000, &done).transcript,
        ];
        let bytes: Vec<u8> = sections.iter().flat_map(|section| section.bytes()).copied().collect();
        let mut told = BTreeSet::new();
        for at in 0..bytes.len() {
            let mut spoiled = bytes.clone();
            spoiled[at] = 0xff;
            let walk = Walk::of(&spoiled);
            if walk.damages() == 0 {
                continue;
            }
            let mut day = Day::new(0x74);
            day.add(File { name: String::new(), bytes: spoiled.clone() }, &walk);
            let chip = day.chip(0x74).unwrap();
            told.insert(chip.sure().len());
            for (register, held) in chip.registers {
                assert!(!matches!(held, Held::Never), "{at} {register}");
                if let Held::Sure(byte, _) = held {
                    assert_eq!(tuner.shadow(register), Some(byte), "{at} {register}");
                }
            }
        }
        // Damage in the last section leaves none sure, in the one before the registers of the last.
        assert_eq!(told.first(), Some(&0));
        assert!(told.len() > 2, "{told:?}");
    }
}
