//! What the documents say of any answer with steps, read off its entries: the failing step and what follows it, and what
//! the records hold afterwards.
use crate::case::{Answer, Case};
use crate::records::{Driver, FIRST, Tuner};
use crate::tally::Tally;
use crate::{answer, page, requests, tables};
use rusb::rec::Entry;

pub fn entries(answer: &Answer) -> Vec<Entry> {
    let section = answer.section.as_deref().unwrap_or(&[0; 8]);
    section[..section.len() - 8].chunks(16).map(|chunk| chunk.try_into().unwrap()).collect()
}

/// An entry without its outcome and without a read's data: what cut and uncut calls share.
pub fn bare(entry: &Entry) -> Entry {
    let mut entry = *entry;
    entry[1] = 0;
    if entry[0] == 3 || entry[0] == 8 {
        entry[8..].fill(0);
    }
    entry
}

/// Whose answers are judged: document 01's, whose shadow is the Rust's, or document 02's.
#[derive(Debug, Clone, Copy, PartialEq, Eq)]
pub enum Paper {
    First,
    Second,
}

impl Paper {
    pub fn answer(self, case: &Case) -> Answer {
        match self {
            Paper::First => answer::answer(case),
            Paper::Second => requests::answer(case),
        }
    }

    /// Whether a write puts its byte for this register into the shadow. By document 01 a masked write does, of two bytes, and three registers go past
    /// the shadow; by document 02 (#106) every write does. Done or not.
    fn shadows(self, register: u8, write: &Entry) -> bool {
        self == Paper::Second || (write[3] == 2 && !matches!(register, 0x14..=0x16))
    }
}

/// The writes that name a register, the last first.
fn naming(register: u8, made: &[Entry]) -> impl Iterator<Item = &Entry> {
    made.iter().rev().filter(move |entry| entry[0] == 2 && entry[8] <= register && register + 1 < entry[8] + entry[3])
}

/// Everything below, for a case with its answer.
pub fn all(paper: Paper, case: &Case, found: &Answer, tally: &mut Tally) {
    shape(case, found, tally);
    if found.refusal == 11 {
        cut(paper, case, found, tally);
    }
    if found.tuner.is_some() && !case.tuner.is_empty() {
        afterwards(paper, case, found, tally);
    }
}

/// Refusals leave nothing; sections can be read back; index, count and value are what the entries say.
fn shape(case: &Case, found: &Answer, tally: &mut Tally) {
    let made = entries(found);
    if found.section.is_none() {
        let silent = matches!(case.call, 1 | 8 | 10 | 11 | 13..=16 | 18 | 33..=41 | 43 | 44) || found.refusal != 0;
        tally.that(silent && (found.count == 0 || case.call == 38), || format!("no section: {case:?}"));
        let nothing = found.tuner.is_none() && found.driver.is_none() && found.answered.is_empty() && found.value == 0 && found.index == 0;
        tally.that(found.refusal == 0 || nothing, || format!("refused, yet something changed: {case:?}"));
        return;
    }
    let section = found.section.as_ref().unwrap();
    tally.same(page::read_section(section), Some((0, found.count)), || format!("section of {case:?}"));
    tally.same(made.len(), found.count, || format!("count of {case:?}"));
    let most = requests::most(case.call).unwrap().0;
    tally.that(made.len() <= most, || format!("{} entries, at most {most}: {case:?}", made.len()));
    let failing = page::failing(&made);
    tally.same(failing.is_some(), found.refusal == 11, || format!("refusal 11 exactly if a step failed: {case:?}"));
    tally.same(found.index, failing.unwrap_or(0), || format!("index of {case:?}"));
    tally.that(found.refusal == 0 || found.value == 0, || format!("value of a refused call: {case:?}"));
    tally.that(matches!(found.refusal, 0 | 11) || (found.refusal == 2 && matches!(case.call, 3 | 42)), || {
        format!("late refusal of {case:?}")
    });
    for (i, entry) in made.iter().enumerate() {
        let failed = case.outcomes[i] != 0 && entry[0] != 9;
        tally.same(entry[1], failed as u8, || format!("outcome {i} of {case:?}"));
    }
}

/// A cut call against the uncut one: "the one with the failing step done and all other outcomes and replies equal".
fn cut(paper: Paper, case: &Case, found: &Answer, tally: &mut Tally) {
    let mut whole = case.clone();
    whole.outcomes[found.index] = 0;
    let (made, uncut) = (entries(found), entries(&paper.answer(&whole)));
    let upto = found.index + 1;
    let same = uncut.len() >= upto && made[..upto].iter().map(bare).eq(uncut[..upto].iter().map(bare));
    tally.that(same, || format!("steps up to the failing one: {case:?}"));
    // Open: behind a done opening whose closing was not yet tried; a closing that failed is not tried again.
    let open = made[..upto].iter().rfind(|entry| entry[0] == 1).is_some_and(|entry| entry[1] == 0 && entry[8] == 1);
    let rest = &made[upto..];
    tally.that(rest.len() == open as usize && rest.iter().all(page::closes), || format!("what follows the failing step: {case:?}"));
}

/// The record afterwards, from the record before, the arguments and the entries.
fn afterwards(paper: Paper, case: &Case, found: &Answer, tally: &mut Tally) {
    let before = Tuner::read(&case.tuner).expect("given");
    let made = entries(found);
    let mut wanted = before.clone();
    for (place, register) in (FIRST as u8..).take(27).enumerate() {
        if let Some(write) = naming(register, &made).find(|write| paper.shadows(register, write)) {
            wanted.shadow[place] = write[9 + (register - write[8]) as usize];
        }
        if let Some(write) = naming(register, &made).next() {
            wanted.doubtful[place] = write[1] == 1;
        }
    }
    match case.call {
        3 => wanted.lock = lock(&made, before.lock),
        4 | 5 if found.refusal == 0 => wanted.gain = found.value as u32,
        7 => wanted.intermediate = case.a,
        10 | 41 => wanted.corrected = page::corrected(before.nominal, case.d as i32).expect("taken"),
        11 => wanted.notch = case.a != 0,
        19 => wanted.intermediate = page::rate_if(case.a as u32, before.intermediate) as u64,
        42 => {
            let (_, [_, _, notch]) = tables::plan(&case.input, case.a).expect("taken");
            (wanted.lock, wanted.notch) = (lock(&made, before.lock), notch == 1);
        }
        _ => {}
    }
    tally.same(found.tuner.clone(), Some(wanted.bytes()), || format!("tuner record after {case:?}"));
    if case.call == 41 {
        let given = Driver::read(&case.driver).expect("given");
        let wanted = Driver { ppm: case.d as i32, ..given };
        tally.that(page::corrected(wanted.nominal, wanted.ppm).is_some(), || format!("driver's reference after {case:?}"));
        tally.same(found.driver.clone(), Some(wanted.bytes()), || format!("driver record after {case:?}"));
    }
    if case.call == 19 {
        let given = Driver::read(&case.driver).expect("given");
        let rate = if found.refusal == 0 { case.a as u32 } else { given.rate };
        // The true rate is document 02's: requests.rs has its rule.
        let actual = found.driver.as_deref().and_then(Driver::read).map_or(0, |driver| driver.actual);
        tally.same(found.driver.clone(), Some(Driver { rate, actual, ..given }.bytes()), || format!("driver record after {case:?}"));
    }
    if case.call == 42 {
        let given = Driver::read(&case.driver).expect("given");
        let frequency = if found.refusal == 0 { case.a } else { given.frequency };
        tally.same(found.driver.clone(), Some(Driver { frequency, ..given }.bytes()), || format!("driver record after {case:?}"));
    }
}

/// "Lock only when the waiting has ended": at a reply that shows it, or after the tenth wait.
fn lock(made: &[Entry], before: bool) -> bool {
    let tries = made.iter().filter(|entry| entry[0] == 3 && entry[3] == 3 && entry[1] == 0);
    if tries.clone().any(|entry| entry[10].reverse_bits() & 0x40 != 0) {
        return true;
    }
    before && made.iter().filter(|entry| entry[0] == 9 && entry[4] == 1).count() < 10
}
