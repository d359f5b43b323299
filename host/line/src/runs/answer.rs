//! The answer that a run ends with: its number, its words, and what to do about a refusal.
use crate::files::record::Records;
use crate::printed::json;
use crate::printed::out::{End, Out};
use crate::runs::reach;
use crate::runs::run::{Call, Made, Run};
use crate::words::given::Given;
use crate::words::options::Key;
use pasetone::{Driver, Error, Lock, Table, Tuner};
use std::ops::RangeInclusive;

const SETUP: &str = "setup: a record, kind or reference is out of its range";
const CORRECTION: &str = "correction: the corrected reference is out of its range";
const GIVE_REFERENCE: &str = "give --reference from 1 to 4294967295 Hz";

pub struct Told {
    pub number: u32,
    pub word: &'static str,
    /// What follows the number on the line `answer: ..`.
    pub text: String,
    /// Of a tuning that a step stopped: how its waiting for a lock went. A done one has it in its text.
    pub lock: Option<String>,
    /// Of a call that was done: what is owed all the same.
    pub doubt: Option<String>,
    pub to_do: Option<String>,
    /// The failing step in the run, and in its call.
    pub step: Option<(usize, usize)>,
}

/// A refusal of a command that makes no run: one line, and as JSON where that is asked for.
pub fn refused(given: &Given, error: Error, text: &str, out: &mut Out) {
    if given.has(Key::Json) {
        let (number, word) = (error.number().to_string(), json::string(error.word()));
        out.line(&json::document(&[("refusal", number), ("word", word), ("text", json::string(text))]));
    }
    out.tell(End::Refused, text);
}

/// The last lines of such a command that has printed all the same: behind the table, or to standard error where there is none.
pub fn last_lines(given: &Given, answer: &str, to_do: &str, out: &mut Out) {
    if given.has(Key::Json) || given.has(Key::Quiet) {
        return out.tell(End::Refused, &format!("answer: {answer}; to do: {to_do}"));
    }
    out.line(&format!("answer: {answer}"));
    out.line(&format!("to do: {to_do}"));
    out.ends(End::Refused);
}

/// The first field of such a command's JSON where it is done.
pub fn done_json() -> (&'static str, String) {
    ("refusal", String::from("0"))
}

/// What the words have asked for, as far as an answer hangs on it.
pub struct Wish<'a> {
    pub hz: u64,
    pub rate: u32,
    pub table: &'a Table,
    /// What is to be made again where a step failed: one line for a shell.
    pub again: String,
}

/// The answer of the run's last call.
pub fn of(run: &Run, wish: &Wish) -> Told {
    match run.made.last() {
        Some(made) => match made.result {
            Ok(()) => done(run, made, wish),
            Err(error) => stopped(run, made, error, wish),
        },
        // A run makes one call at least.
        None => simply(String::from("done"), None),
    }
}

/// Done, and why the station is not known where it is not.
pub fn simply(text: String, records: Option<&Records>) -> Told {
    let doubt = records.and_then(|records| records.owed.words());
    Told { number: 0, word: "done", text, lock: None, doubt, to_do: None, step: None }
}

fn done(run: &Run, made: &Made, wish: &Wish) -> Told {
    let records = run.records.as_ref();
    let what = match (made.call, wish.table.plan_tuning(wish.hz)) {
        (Call::Reload, _) | (_, Err(_)) => reloaded(records),
        (_, Ok(plan)) => station(records, plan.hz),
    };
    simply(
        format!("done: {} steps, {what}{}", run.steps, run.lock().map_or_else(String::new, |lock| format!(", {}", lock_words(lock)))),
        records,
    )
}

/// Where a tuning that was done has left the tuner, as far as it is known: a log is read by its answers.
pub fn station(records: Option<&Records>, hz: u64) -> String {
    if is_unknown(records) { String::from(UNKNOWN) } else { format!("tuner at {hz} Hz") }
}

/// A reload is done whatever is owed: it says so in the same line.
pub fn reloaded(records: Option<&Records>) -> String {
    let unknown = if is_unknown(records) { format!(", {UNKNOWN}") } else { String::new() };
    format!("every register sent again{unknown}")
}

const UNKNOWN: &str = "station UNKNOWN";

fn is_unknown(records: Option<&Records>) -> bool {
    records.is_some_and(|records| !records.owed.is_station_known())
}

/// How a tuning's waiting for a lock went: a log is looked through for the word in capitals.
pub fn lock_words(lock: Lock) -> String {
    let text = lock.to_string();
    if lock.locked { text } else { text.replacen("not", "NOT", 1) }
}

fn stopped(run: &Run, made: &Made, error: Error, wish: &Wish) -> Told {
    let to_do = Some(to_do(run, made, error, wish));
    let why = run.records.as_ref().map_or("frequency", |records| frequency_words(&records.tuner, wish.table, wish.hz));
    Told { to_do, ..refusal(made, error, words(error, why)) }
}

/// The refusal of a call, for what `words` say; what to do is not in it.
pub fn refusal(made: &Made, error: Error, words: &str) -> Told {
    let call = made.call.name();
    let (text, lock, step) = match error {
        Error::Step { index } => {
            let whole = made.first + index;
            let text = format!("{words}, step {whole} of the run; {call} stopped at its own step {index}");
            (text, made.lock.map(lock_words), Some((whole, index)))
        }
        _ => (format!("{words}; refused by {call}"), None, None),
    };
    Told { number: error.number(), word: error.word(), text, lock, doubt: None, to_do: None, step }
}

/// A refusal in words; those for a frequency are the caller's.
pub fn words(error: Error, frequency: &'static str) -> &'static str {
    match error {
        Error::Setup => SETUP,
        Error::Frequency => frequency,
        Error::Rate => "rate: 0",
        Error::Correction => CORRECTION,
        Error::Ratio => "ratio: the resampler cannot hold this rate with this reference",
        Error::Outcomes => "outcomes: fewer bytes are left than the call may need",
        Error::Replies => "replies: fewer bytes are left than the call may need",
        Error::Step { .. } => "step: a step failed",
        // No call of a run is refused by another number: what they are asked is in its range, and the room is the host's own.
        other => other.word(),
    }
}

fn to_do(run: &Run, made: &Made, error: Error, wish: &Wish) -> String {
    match error {
        Error::Setup => String::from(GIVE_REFERENCE),
        Error::Frequency => run.records.as_ref().map_or_else(String::new, |records| reachable(&records.tuner, wish.table, wish.hz)),
        Error::Rate => String::from("give --rate from 1 to 4294967295"),
        Error::Correction => corrections(run.records.as_ref().map(|records| (&records.tuner, &records.driver))),
        Error::Ratio => rates(run, wish.rate),
        Error::Outcomes | Error::Replies => longer(made, error),
        Error::Step { .. } => wish.again.clone(),
        other => other.to_string(),
    }
}

/// What to do about a script that is too short for a call.
pub fn longer(made: &Made, error: Error) -> String {
    let (call, need, left) = (made.call.name(), made.call.need(), made.left);
    let (what, need, left) = match error {
        Error::Outcomes => ("outcomes", need.outcomes, left.outcomes),
        _ => ("replies", need.replies, left.replies),
    };
    let short = need.saturating_sub(left);
    let bytes = if short == 1 { "byte" } else { "bytes" };
    format!("{call} may need {need} {what}, {left} are left: give --{what} a file that is {short} {bytes} longer")
}

/// The frequencies next to the one asked for, below and above it, that can be reached.
pub fn reachable(tuner: &Tuner, table: &Table, hz: u64) -> String {
    if table.bands().len() == 0 {
        return String::from("the table has no bands: give one that has");
    }
    let next = beside(&reach::reached(tuner, table), hz);
    if next.is_empty() {
        return format!("no frequency can be reached with a reference of {} Hz: give another by --reference", tuner.corrected());
    }
    format!("ask for {next} Hz")
}

/// Why a board refuses a frequency: by its table, or by its tuner.
pub fn frequency_words(tuner: &Tuner, table: &Table, hz: u64) -> &'static str {
    match table.plan_tuning(hz) {
        Err(_) if table.bands().any(|band| (band.first..=band.last).contains(&hz)) => "frequency: its band's shift takes it out of 64 bits",
        Err(_) => "frequency: no band of the table has it",
        Ok(plan) => tuner_words(tuner, plan.hz),
    }
}

/// Why a tuner refuses a frequency: the one reason that holds.
pub fn tuner_words(tuner: &Tuner, hz: u64) -> &'static str {
    if hz == 0 {
        "frequency: the tuner would go to 0 Hz"
    } else if hz.checked_add(tuner.if_freq()).is_none() {
        "frequency: its sum with the IF is over 64 bits"
    } else {
        "frequency: the PLL does not reach it"
    }
}

/// The stretches next to a number, below and above it.
fn beside(all: &[RangeInclusive<u64>], number: u64) -> String {
    let below = all.iter().rev().find(|stretch| *stretch.end() < number);
    let above = all.iter().find(|stretch| *stretch.start() > number);
    let next: Vec<String> = below.into_iter().chain(above).map(|stretch| format!("{} to {}", stretch.start(), stretch.end())).collect();
    next.join(", or ")
}

/// The rates next to the one asked for, below and above it, that are taken.
fn rates(run: &Run, rate: u32) -> String {
    let Some(Records { tuner, driver, .. }) = &run.records else { return String::new() };
    let next = beside(&reach::rates(tuner, driver), u64::from(rate));
    if next.is_empty() {
        return format!("no rate is taken with a reference of {} Hz: give another by --reference", driver.corrected_xtal_hz());
    }
    format!("give --rate from {next}")
}

fn corrections(records: Option<(&Tuner, &Driver)>) -> String {
    let Some((tuner, driver)) = records else { return String::new() };
    let (low, high) = reach::corrections(tuner, driver);
    format!("give --ppm from {low} to {high}")
}

/// A reference that is none, or a correction that takes it out of its range, for a command that makes no run.
pub fn reference_line(error: Error, records: Option<(&Tuner, &Driver)>) -> String {
    let (words, to_do) = match error {
        Error::Setup => (SETUP, String::from(GIVE_REFERENCE)),
        Error::Correction => (CORRECTION, corrections(records)),
        other => (other.word(), other.to_string()),
    };
    format!("answer: {} {words}; to do: {to_do}", error.number())
}

impl Told {
    /// How a run with this answer ends.
    pub fn end(&self) -> End {
        match self.number {
            0 => End::Done,
            11 => End::Stopped,
            _ => End::Refused,
        }
    }

    /// The refusal for somebody who asked for nothing else.
    pub fn in_one_line(&self) -> String {
        let more = |name: &str, text: &Option<String>| text.as_ref().map_or_else(String::new, |text| format!("; {name}: {text}"));
        let (lock, to_do) = (more("lock", &self.lock), more("to do", &self.to_do));
        format!("answer: {} {}{lock}{to_do}", self.number, self.text)
    }

    /// The lines behind a run's steps.
    pub fn lines(&self, out: &mut Out) {
        let answer = format!("answer: {}", self.number);
        let answer = if self.number == 0 { answer } else { out.loud(&answer) };
        out.line(&format!("{answer} {}", self.text));
        if let Some(lock) = &self.lock {
            out.line(&format!("lock: {lock}"));
        }
        if let Some(doubt) = &self.doubt {
            out.line(&format!("{} {doubt}", out.loud("DOUBTFUL:")));
        }
        if let Some(to_do) = &self.to_do {
            out.line(&format!("to do: {to_do}"));
        }
    }

    pub fn json(&self, call: Option<Call>) -> String {
        json::object(&[
            ("number", self.number.to_string()),
            ("word", json::string(self.word)),
            ("text", json::string(&self.text)),
            ("doubt", json::maybe(self.doubt.as_deref().map(json::string))),
            ("to_do", json::maybe(self.to_do.as_deref().map(json::string))),
            ("call", json::maybe(call.map(|call| json::string(call.name())))),
            ("step", json::maybe(self.step.map(|(whole, _)| whole))),
            ("own_step", json::maybe(self.step.map(|(_, own)| own))),
        ])
    }
}
