//! Where a day of several files begins anew, as far as sections tell it: a file whose first write to the chip is a whole initialisation, which writes every register, so
//! that nothing before it is in what is told; and one that writes to other chips alone. That it is another receiver no section says. A whole initialisation within a
//! file is told where it is the last of the day.
use crate::files::filed::File;
use crate::files::sections::{ENTRY, Part, TRAILER, Walk};
use crate::printed::json;
use crate::printed::out::Out;
use pasetone::{EntryKind, Script, Transcript, Tuner, TunerKind, parting};
use std::collections::BTreeSet;

/// So many files are told by name; of the others how many they are.
const TOLD: usize = 8;

struct Begin {
    file: String,
    /// Its number in the file.
    section: usize,
    /// Its first step, counted over the whole day.
    step: usize,
    /// The chips that it writes to in place of the one that is asked for; none where it is initialised there.
    others: BTreeSet<u8>,
    /// Whether the file begins so.
    first: bool,
}

/// What an initialisation of the chip sends, for both kinds of tuner.
fn initialisations(address: u8) -> Vec<Transcript> {
    let made = |kind| Some(Tuner::new(kind, address, 28_800_000).ok()?.initialize(&Script::all_done()).transcript);
    [TunerKind::R820t, TunerKind::R828d].into_iter().filter_map(made).collect()
}

/// The places of a day, file by file, where it begins anew behind its own beginning.
pub struct Begins {
    address: u8,
    known: Vec<Transcript>,
    files: usize,
    steps: usize,
    all: Vec<Begin>,
}

impl Begins {
    pub fn new(address: u8) -> Begins {
        Begins { address, known: initialisations(address), files: 0, steps: 0, all: Vec::new() }
    }

    /// The next file of the day.
    pub fn add(&mut self, file: &File, walk: &Walk) {
        let (mut written, mut others, mut first) = (false, BTreeSet::new(), None);
        let mut step = self.steps + walk.skipped();
        for (number, part) in walk.numbered() {
            if let Part::Good { start, end } = part {
                let section = &file.bytes[start..end];
                let chips = writes_to(section);
                let is_to = chips.contains(&self.address);
                if is_to && (self.files > 0 || written) && self.is_whole(section) {
                    self.all.push(Begin { file: file.name.clone(), section: number, step, others: BTreeSet::new(), first: !written });
                }
                first.get_or_insert((number, step));
                written |= is_to;
                others.extend(chips);
            }
            step += part.steps();
        }
        if let (Some((section, step)), false, false, true) = (first, written, others.is_empty(), self.files > 0) {
            self.all.push(Begin { file: file.name.clone(), section, step, others, first: true });
        }
        (self.files, self.steps) = (self.files + 1, step);
    }

    /// All of its steps, of which none but the closing failed.
    fn is_whole(&self, section: &[u8]) -> bool {
        let is_done = |entry: &[u8]| entry[1] == 0 || entry[0] == EntryKind::Repeater.number();
        entries(section).all(is_done)
            && self
                .known
                .iter()
                .any(|one| one.bytes().len() == section.len() && parting(one.bytes(), section).is_ok_and(|part| part.is_empty()))
    }

    /// Within a file the last of the day alone counts.
    fn told(&self) -> Vec<&Begin> {
        let last = self.all.len();
        self.all.iter().enumerate().filter(|(at, begin)| begin.first || at + 1 == last).map(|(_, begin)| begin).collect()
    }

    pub fn lines(&self, out: &mut Out) {
        let told = self.told();
        for begin in told.iter().take(TOLD) {
            out.line(&begin.line(self.address));
        }
        if told.len() > TOLD {
            out.line(&format!("and {} more", told.len() - TOLD));
        }
        if told.iter().any(|begin| begin.others.is_empty()) {
            out.line("nothing before the last initialisation is told above, be it this receiver's or another's");
        }
        if told.iter().any(|begin| begin.first) {
            out.line("--each tells each file by itself");
        }
    }

    pub fn json(&self) -> String {
        json::array(self.told().iter().map(|begin| {
            json::object(&[
                ("file", json::string(&begin.file)),
                ("section", begin.section.to_string()),
                ("step", begin.step.to_string()),
                ("initialised", begin.others.is_empty().to_string()),
                ("chips", json::array(begin.others.iter())),
            ])
        }))
    }
}

/// The chips on I2C to which a section writes something.
fn writes_to(section: &[u8]) -> BTreeSet<u8> {
    let is_write = |entry: &&[u8]| entry[0] == EntryKind::I2cWrite.number() && entry[3] > 1;
    entries(section).filter(is_write).map(|entry| entry[2]).collect()
}

fn entries(section: &[u8]) -> impl Iterator<Item = &[u8]> {
    section[..section.len() - TRAILER].chunks_exact(ENTRY)
}

impl Begin {
    fn line(&self, address: u8) -> String {
        let (file, section, step) = (&self.file, self.section, self.step);
        if self.others.is_empty() {
            return format!("begins anew: {file}, section {section}, step {step}: a whole initialisation");
        }
        let others: Vec<String> = self.others.iter().map(|chip| format!("0x{chip:02x}")).collect();
        format!("another chip: {file}, section {section}, step {step}: to {} and never to 0x{address:02x}", others.join(" and "))
    }
}

#[cfg(test)]
mod tests {
    use super::*;

    fn file(name: &str, sections: &[&Transcript]) -> File {
        File { name: String::from(name), bytes: sections.iter().flat_map(|one| one.bytes()).copied().collect() }
    }

    fn told(files: Vec<File>) -> Vec<(String, usize, usize, bool)> {
        let mut begins = Begins::new(0x74);
        files.iter().for_each(|file| begins.add(file, &Walk::of(&file.bytes)));
        begins.told().iter().map(|begin| (begin.file.clone(), begin.section, begin.step, begin.others.is_empty())).collect()
    }

    #[test]
    fn where_a_day_begins_anew() {
        let (mut tuner, done) = (Tuner::new(TunerKind::R828d, 0x74, 28_800_000).unwrap(), Script::all_done());
        let mut other = Tuner::new(TunerKind::R820t, 0x34, 28_800_000).unwrap();
        let (whole, tune) = (tuner.initialize(&done).transcript, tuner.set_frequency(102_300_000, &done).transcript);
        let (there, power) = (other.initialize(&done).transcript, pasetone::demod::power_on(&done).transcript);
        let name = String::from;
        let long = whole.len() + tune.len();
        assert_eq!(told(vec![file("one", &[&whole, &tune])]), []);
        assert_eq!(told(vec![file("one", &[&whole, &tune]), file("two", &[&tune])]), []);
        // Steps that write to no chip may stand before it, as in a receiver's start.
        let two = file("two", &[&power, &whole, &tune]);
        assert_eq!(told(vec![file("one", &[&whole, &tune]), two]), [(name("two"), 2, long + power.len(), true)]);
        let closes = |at: &usize| whole.get(*at).is_some_and(|entry| entry.kind == EntryKind::Repeater && entry.bytes == [0]);
        for fail in (0..whole.len()).filter(|at| !closes(at)) {
            let cut =
                Tuner::new(TunerKind::R828d, 0x74, 28_800_000).unwrap().initialize(&Script::all_done().failing(fail).unwrap()).transcript;
            assert_eq!(told(vec![file("one", &[&whole, &tune]), file("two", &[&cut, &tune])]), [], "{fail}");
        }
        assert_eq!(told(vec![file("one", &[&whole, &tune]), file("two", &[&there])]), [(name("two"), 1, long, false)]);
        assert_eq!(told(vec![file("one", &[&whole, &tune, &whole, &tune, &whole])]), [(name("one"), 5, 2 * long, true)]);
        assert_eq!(told(vec![file("one", &[]), file("two", &[])]), []);
    }

    /// What the lines say: nothing before a whole initialisation is in what is told.
    #[test]
    fn nothing_before_it_counts() {
        let done = Script::all_done();
        for kind in [TunerKind::R820t, TunerKind::R828d] {
            let whole = Tuner::new(kind, 0x74, 28_800_000).unwrap().initialize(&done).transcript;
            let list = Transcript::restore(whole.bytes(), 0x74).unwrap();
            let named: Vec<u8> =
                list.iter().flat_map(|entry| entry.registers().map(|(register, _)| register).collect::<Vec<_>>()).collect();
            assert!(Tuner::registers().eq(named));
        }
    }
}
