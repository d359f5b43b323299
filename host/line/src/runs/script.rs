//! The script of a run: how each step ends and what each read gives, from files, or as much of one byte as no run takes.
use crate::files::disk::Source;
use crate::printed::out::Out;
use crate::words::given::Given;
use crate::words::numbers;
use crate::words::options::{Key, option};
use pasetone::{Need, Script, TunerKind};

/// More than any run takes of a script: so much of a file is read, and so long is what stands where none is given.
const SCRIPT: usize = 4096;

/// The step of `--fail`.
pub fn fail(given: &Given, out: &mut Out) -> Option<usize> {
    given.value(Key::Fail, out, |text| usize::try_from(numbers::whole(text)?).ok().filter(|step| *step < SCRIPT))
}

/// The outcomes, with the step of `--fail` failing.
pub fn outcomes(given: &Given, fail: Option<usize>, out: &mut Out) -> Vec<u8> {
    let mut outcomes = bytes(given, Key::Outcomes, 0, out);
    if let Some(outcome) = fail.and_then(|step| outcomes.get_mut(step)) {
        *outcome = 1;
    }
    outcomes
}

/// The replies; where no file is given, one byte serves every read.
pub fn replies(given: &Given, byte: u8, out: &mut Out) -> Vec<u8> {
    bytes(given, Key::Replies, byte, out)
}

fn bytes(given: &Given, key: Key, byte: u8, out: &mut Out) -> Vec<u8> {
    if given.has(key) { given.start(key, SCRIPT, out).unwrap_or_default() } else { vec![byte; SCRIPT] }
}

/// One byte that serves every read: a lock at once, and no repair of the divider. Its bits are reversed in the chip's status.
pub fn lock(kind: Option<TunerKind>) -> u8 {
    if kind == Some(TunerKind::R820t) { 0x06 } else { 0x0a }
}

/// The script of a run without end: of each file only what the next call may need is read ahead.
pub struct Endless {
    outcomes: Tape,
    replies: Tape,
    fail: Option<usize>,
    /// So many were taken.
    pub steps: usize,
}

impl Endless {
    pub fn of(given: &Given, fail: Option<usize>, kind: Option<TunerKind>, out: &mut Out) -> Endless {
        Endless {
            outcomes: Tape::of(given, Key::Outcomes, 0, out),
            replies: Tape::of(given, Key::Replies, lock(kind), out),
            fail,
            steps: 0,
        }
    }

    /// For the next call: no call needs more than `Script` has.
    pub fn script(&mut self) -> Script {
        let (mut outcomes, replies) = (self.outcomes.ahead(Script::OUTCOMES), self.replies.ahead(Script::REPLIES));
        if let Some(outcome) = self.fail.and_then(|step| outcomes.get_mut(step.checked_sub(self.steps)?)) {
            *outcome = 1;
        }
        Script::new(outcomes, replies)
    }

    /// How much of what the next call may need is there.
    pub fn left(&self) -> Need {
        Need { outcomes: self.outcomes.ahead.len(), replies: self.replies.ahead.len() }
    }

    /// A call has taken so many steps, and read so many bytes.
    pub fn pass(&mut self, steps: usize, read: usize) {
        self.outcomes.pass(steps);
        self.replies.pass(read);
        self.steps += steps;
    }

    /// The step of `--fail`, where the run did not come to it.
    pub fn unreached(&self) -> Option<usize> {
        self.fail.filter(|step| self.steps <= *step)
    }

    /// What could not be read any more, told.
    pub fn tell_faults(&mut self, out: &mut Out) {
        self.outcomes.tell_fault(out);
        self.replies.tell_fault(out);
    }
}

/// A file of a script, from front to back.
struct Tape {
    from: Source,
    ahead: Vec<u8>,
    name: &'static str,
    /// What went wrong: it ends there.
    fault: Option<String>,
}

impl Tape {
    /// What is read first is read at once, so that a file that cannot be read is told before anything is done.
    fn of(given: &Given, key: Key, byte: u8, out: &mut Out) -> Tape {
        let name = option(key).name;
        let opened = given.source(key, out);
        let mut tape = Tape { from: opened.unwrap_or_else(|| Source::of(byte)), ahead: Vec::new(), name, fault: None };
        if !out.is_mistaken() {
            tape.ahead(Script::OUTCOMES);
            tape.tell_fault(out);
        }
        tape
    }

    fn ahead(&mut self, most: usize) -> Vec<u8> {
        if self.ahead.len() < most && self.fault.is_none() {
            match self.from.next(most - self.ahead.len()) {
                Ok(bytes) => self.ahead.extend(bytes),
                Err(why) => self.fault = Some(why),
            }
        }
        self.ahead.iter().take(most).copied().collect()
    }

    fn pass(&mut self, count: usize) {
        self.ahead.drain(..count.min(self.ahead.len()));
    }

    fn tell_fault(&mut self, out: &mut Out) {
        if let Some(why) = &self.fault {
            out.mistake(&format!("{} {why}", self.name));
        }
    }
}
