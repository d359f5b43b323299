//! The hops of a night's file: which sections belong to which, and what each came to.
//!
//! - A run that a tuning ends (`hop`) has the frequency that it is on its way to in each of its lines: its sections belong to that hop, also those before its tuning.
//! - A tuning of a line (`feed`), or one without a line in the log, begins a hop. All sections up to the next one belong to it: what moves its recording is its own.
//! - The same frequency again within two minutes, where the hop has not come out right, is another attempt at it. The last attempt counts, and how many there were is told.
//! - What stands before the first hop belongs to it.
//! - A stop of the stream ends the recording: where nothing but that follows, the hop is judged before it, since it switches the demodulator off.
//! - Behind a tuning without a line nobody can tell whether a rate was for it or for the next one: what it has moved is not known then.
use crate::files::logged::Line;
use crate::judged::places::{self, Places};
use crate::judged::verdict::{Case, Verdict};
use pasetone::evidence::Lock;
use pasetone::{Entry, EntryKind, Evidence, Table, Transcript, evidence};

/// So many seconds behind an attempt the same frequency is asked for again.
const AGAIN: u64 = 120;

const STOP: &str = "stop_streaming";

/// A window that is longer has only those sections more that touch the oscillator or its lock: what others send to the demodulator is summed up.
const LONG: usize = 1 << 20;

/// A hop that is judged.
#[derive(Clone)]
pub struct Hop {
    pub number: usize,
    /// Its sections, from the first attempt's first to the last one's last.
    pub start: u64,
    pub end: u64,
    /// When the first attempt began, and the last one.
    pub began: Option<u64>,
    pub time: Option<u64>,
    pub attempts: u32,
    pub asked: Option<u64>,
    pub centre: Option<i128>,
    pub rate: Option<u64>,
    pub lock: Lock,
    pub tries: u32,
    pub doubtful: usize,
    pub verdict: Verdict,
    pub why: Vec<String>,
}

/// A hop whose sections are still read.
#[derive(Default)]
struct Open {
    number: usize,
    start: u64,
    end: u64,
    began: Option<u64>,
    time: Option<u64>,
    attempts: u32,
    asked: Option<u64>,
    shift: Option<i128>,
    /// Whether a run is on its way to the tuning.
    is_running: bool,
    unlogged: usize,
    /// Rate and centre at the end of a tuning without a line.
    tuned: Option<(Option<u64>, Option<u64>)>,
    /// As it was before the stream was stopped.
    stopped: Option<Box<Hop>>,
    /// Whether a step of a section without a line failed: then its call was not done.
    has_failed: bool,
    /// A call of it that was refused before its first step.
    refused: Option<&'static str>,
}

/// What is taken where no log tells it.
pub struct Unlogged {
    pub address: Option<u8>,
    pub reference: u32,
    pub table: Table,
    /// A frequency for each hop; none where nothing is asked.
    pub asked: Vec<u64>,
}

pub struct Hops<'a> {
    unlogged: &'a Unlogged,
    address: Option<u8>,
    references: (u32, u32),
    places: Places,
    /// The last attempts before the window, and the sections of the window: from the last one on that has planned a lock.
    before: Vec<u8>,
    window: Vec<u8>,
    is_folded: bool,
    owed: Vec<&'static str>,
    open: Option<Open>,
    /// Of the sections before the first hop, those without a line.
    preface: usize,
    pub count: usize,
    pub tell: Box<dyn FnMut(Hop) + 'a>,
}

impl<'a> Hops<'a> {
    pub fn new(address: Option<u8>, unlogged: &'a Unlogged, tell: impl FnMut(Hop) + 'a) -> Hops<'a> {
        let address = address.or(unlogged.address);
        let places = Places::new(address.unwrap_or(0));
        Hops {
            unlogged,
            address,
            references: (unlogged.reference, unlogged.reference),
            before: places.section(),
            places,
            window: Vec::new(),
            is_folded: false,
            owed: Vec::new(),
            open: None,
            preface: 0,
            count: 0,
            tell: Box::new(tell),
        }
    }

    /// A section at its place, with its line where a log has one.
    pub fn see(&mut self, at: u64, section: &[u8], line: Option<&Line>) {
        // All of the file was found to be sections.
        let Ok((_, transcript)) = Transcript::read(section) else { return };
        self.find_chip(&transcript);
        if let Some(target) = self.begins(&transcript, line) {
            self.begin(target, at, line.map(|line| line.time));
        }
        let stopped = if line.is_some_and(|line| line.call == STOP) { self.open.as_ref().map(|open| self.close(open)) } else { None };
        self.take(&transcript);
        if let Some(open) = &mut self.open {
            open.stopped = stopped.map(Box::new);
        }
        let has_failed = line.is_none() && transcript.iter().any(|entry| entry.failed && !closes(&entry));
        let tunes = line.is_none() && transcript.iter().any(|entry| places::tunes(&entry, self.address.unwrap_or(0)));
        let told = if tunes { self.told() } else { None };
        match (&mut self.open, line) {
            (Some(open), None) => {
                (open.unlogged, open.has_failed) = (open.unlogged + 1, open.has_failed || has_failed);
                if tunes {
                    open.is_running = false;
                    open.tuned = told.map(|told| (told.rate.sure(), told.centre.sure()));
                }
            }
            (None, None) => self.preface += 1,
            (_, Some(line)) => self.called(line),
        }
        if let Some(open) = &mut self.open {
            open.end = at + section.len() as u64;
        }
    }

    /// Where nobody says which chip it is, it is the first that is written to.
    fn find_chip(&mut self, transcript: &Transcript) {
        let first = || transcript.iter().find(|entry| entry.kind == EntryKind::I2cWrite).map(|entry| entry.target);
        if self.address.is_none() {
            self.address = first();
            self.places.chip_is(self.address.unwrap_or(0));
        }
    }

    /// A call that was refused before its first step, on the way of a hop: that hop was asked for, and is not come to.
    pub fn refused(&mut self, line: &Line) {
        if let Some(target) = self.leads(line) {
            self.begin(target, line.at, Some(line.time));
        }
        self.references = (line.tuner_xtal, line.driver_xtal);
        if let Some(open) = &mut self.open {
            (open.is_running, open.refused, open.end) = (false, Some(line.call), open.end.max(line.at));
            if line.is_tuning() {
                open.shift = line.shift;
            }
        }
    }

    /// Whether a line begins a hop, or an attempt at one, and the frequency that is asked for.
    fn leads(&self, line: &Line) -> Option<Option<u64>> {
        let is_running = |to: u64| self.open.as_ref().is_some_and(|open| open.is_running && open.asked == Some(to));
        match line.to {
            Some(to) => (!is_running(to)).then_some(Some(to)),
            None => line.is_tuning().then_some(line.asked),
        }
    }

    /// The same of a section, with its line where a log has one.
    fn begins(&self, transcript: &Transcript, line: Option<&Line>) -> Option<Option<u64>> {
        match line {
            Some(line) => self.leads(line),
            None => {
                // Of a run that is on its way it is the tuning.
                let is_due = self.open.as_ref().is_some_and(|open| open.is_running && open.tuned.is_none());
                let tunes = transcript.iter().any(|entry| places::tunes(&entry, self.address.unwrap_or(0)));
                (tunes && !is_due).then(|| self.unlogged.asked.get(self.count).copied())
            }
        }
    }

    fn begin(&mut self, asked: Option<u64>, at: u64, time: Option<u64>) {
        let mut next = Open { start: at, asked, began: time, time, attempts: 1, is_running: true, ..Open::default() };
        match self.open.take().map(|open| self.close(&open)) {
            Some(hop) if is_again(&hop, asked, time) => {
                (next.number, next.start, next.began, next.attempts) = (hop.number, hop.start, hop.began, hop.attempts + 1);
            }
            ended => {
                ended.map(&mut self.tell);
                self.count += 1;
                (next.number, next.unlogged) = (self.count, self.preface);
                self.preface = 0;
            }
        }
        self.open = Some(next);
    }

    /// The section's entries.
    fn take(&mut self, transcript: &Transcript) {
        let address = self.address.unwrap_or(0);
        if transcript.iter().any(|entry| places::plans(&entry, address)) {
            self.before = self.places.section();
            self.window.clear();
            self.is_folded = false;
        }
        if self.window.len() < LONG || transcript.iter().any(|entry| places::touches(&entry, address)) {
            self.window.extend_from_slice(transcript.bytes());
        } else {
            self.is_folded = true;
        }
        transcript.iter().for_each(|entry| self.places.see(&entry));
    }

    /// What its line says: references, the tuning's shift, and what is owed.
    fn called(&mut self, line: &Line) {
        self.references = (line.tuner_xtal, line.driver_xtal);
        if let Some(open) = &mut self.open {
            if line.is_tuning() {
                (open.shift, open.time) = (line.shift, Some(line.time));
            }
            open.is_running &= line.to.is_some() && !line.is_tuning() && line.refusal == 0;
        }
        let (slot, cleared): (&str, &[&str]) = match line.call {
            "set_gain_by_index" => ("set_gain", &["set_gain"]),
            // It sets IF and bandwidth too.
            "set_sample_rate" => ("set_sample_rate", &["set_sample_rate", "set_if_freq", "set_if_freq_xtal", "set_bandwidth"]),
            // Every register of the chip is sent again; what the call before was to send is not.
            "reload" | STOP => return,
            call => (call, &[]),
        };
        self.owed.retain(|owed| *owed != slot && (line.refusal > 0 || !cleared.contains(owed)));
        if line.refusal > 0 {
            self.owed.extend(crate::files::log::CALLS.iter().find(|call| **call == slot));
        } else if line.call == "initialize" {
            // What the tuner had of rate and gain is gone.
            self.owed.retain(|owed| !["set_sample_rate", "set_gain"].contains(owed));
            self.owed.extend(["set_sample_rate", "set_gain"]);
        } else if line.call == "tune_board" {
            self.owed.retain(|owed| *owed != "set_frequency");
        }
    }

    /// What the sections up to here say. No reference is 0, and all are sections, so that the library refuses none of it.
    fn told(&self) -> Option<Evidence> {
        let behind = if self.is_folded { self.places.demod_section() } else { Vec::new() };
        let sections = [&self.before[..], &self.window, &behind].concat();
        evidence(&sections, self.address.unwrap_or(0), self.references.0, self.references.1).ok()
    }

    /// A hop as the sections up to here leave it.
    fn close(&self, open: &Open) -> Hop {
        if let Some(stopped) = &open.stopped {
            return Hop { end: open.end, ..Hop::clone(stopped) };
        }
        let is_named = !self.unlogged.asked.is_empty();
        let shift = if is_named { open.asked.and_then(|hz| self.shift(hz)) } else { open.shift };
        let mut owed = if is_named && open.has_failed { vec!["a call, by its steps"] } else { self.owed.clone() };
        owed.extend(open.refused.filter(|call| !owed.contains(call)));
        let unlogged = if is_named { 0 } else { open.unlogged };
        let mut hop = Hop {
            number: open.number,
            start: open.start,
            end: open.end,
            began: open.began,
            time: open.time,
            attempts: open.attempts,
            asked: open.asked,
            centre: None,
            rate: None,
            lock: Lock::Unread,
            tries: 0,
            doubtful: self.places.doubtful().0,
            verdict: Verdict::Unknown,
            why: Vec::new(),
        };
        let Some(told) = self.told() else { return hop };
        let case = Case { told, places: &self.places, driver_xtal: self.references.1, asked: open.asked, shift, owed: &owed, unlogged };
        (hop.centre, hop.rate, hop.lock, hop.tries) = (case.centre(), told.rate.sure(), told.lock, told.tries);
        (hop.verdict, hop.why) = case.judge();
        if let Some((rate, centre)) = open.tuned.filter(|tuned| *tuned != (told.rate.sure(), told.centre.sure())) {
            hop.rate = hop.rate.filter(|_| rate == told.rate.sure());
            hop.centre = hop.centre.filter(|_| centre == told.centre.sure());
            hop.verdict = Verdict::Unknown;
            hop.why.push(String::from("rate or IF sent behind it, and no log tells for which hop"));
        }
        hop
    }

    /// What the board adds, where no line says it.
    fn shift(&self, hz: u64) -> Option<i128> {
        self.unlogged.table.plan_tuning(hz).ok().map(|plan| i128::from(plan.hz) - i128::from(hz))
    }

    /// Behind the last section.
    pub fn end(&mut self) {
        if let Some(open) = self.open.take() {
            let hop = self.close(&open);
            (self.tell)(hop);
        }
    }
}

/// The repeater's closing: a call is done whatever becomes of it.
fn closes(entry: &Entry) -> bool {
    entry.kind == EntryKind::Repeater && entry.bytes == [0]
}

/// Whether what begins is another attempt at a hop.
fn is_again(hop: &Hop, asked: Option<u64>, time: Option<u64>) -> bool {
    let is_soon = hop.time.zip(time).is_some_and(|(before, now)| (before..=before + AGAIN).contains(&now));
    asked.is_some() && hop.asked == asked && hop.verdict != Verdict::Right && is_soon
}

#[cfg(test)]
mod tests {
    use super::*;
    use crate::files::log::CALLS;
    use pasetone::{Board, Call, Receiver, Script, TunerKind};

    /// What a receiver was sent, section by section, with the lines of a log.
    struct Sent {
        receiver: Receiver,
        sections: Vec<(Vec<u8>, Option<Line>)>,
    }

    impl Sent {
        /// Set up and tuned to 102.3 MHz at the time 0.
        fn new() -> Sent {
            let receiver = Receiver::new(TunerKind::R828d, 0x74, Board::Generic, 28_800_000).unwrap();
            let mut sent = Sent { receiver, sections: Vec::new() };
            for call in [Call::Initialize, Call::SetSampleRate(2_048_000), Call::SetGain(29.7), Call::TuneBoard(102_300_000)] {
                sent.call(call, 0, Some(102_300_000), None);
            }
            sent
        }

        fn call(&mut self, call: Call, time: u64, to: Option<u64>, fail: Option<usize>) {
            let outcomes: Vec<u8> = (0..Script::OUTCOMES).map(|step| u8::from(Some(step) == fail)).collect();
            let made = call.make(&mut self.receiver, &Script::new(outcomes, vec![0x0a; Script::REPLIES]));
            let asked = match call {
                Call::TuneBoard(hz) | Call::SetFrequency(hz) => Some(hz),
                _ => None,
            };
            let line = Line {
                time,
                call: CALLS[usize::from(call.bytes()[0]) - 1],
                asked,
                refusal: made.result.err().map_or(0, |error| error.number()),
                at: 0,
                length: made.transcript.bytes().len() as u64,
                address: 0x74,
                tuner_xtal: 28_800_000,
                driver_xtal: 28_800_000,
                shift: asked.map(|_| 0),
                to,
            };
            self.sections.push((made.transcript.bytes().to_vec(), Some(line)));
        }

        /// What was asked, how often, and what it came to.
        fn hops(&self) -> Vec<(Option<u64>, u32, Verdict)> {
            let unlogged = Unlogged { address: None, reference: 28_800_000, table: Board::Generic.table(), asked: Vec::new() };
            let (mut told, mut at) = (Vec::new(), 0);
            let mut hops = Hops::new(None, &unlogged, |hop| told.push((hop.asked, hop.attempts, hop.verdict)));
            for (section, line) in &self.sections {
                hops.see(at, section, line.as_ref());
                at += section.len() as u64;
            }
            hops.end();
            drop(hops);
            told
        }
    }

    const FIRST: (Option<u64>, u32, Verdict) = (Some(102_300_000), 1, Verdict::Right);

    /// A rate over the line moves the recording that it comes behind; one that a hop begins with does not.
    #[test]
    fn a_rate_belongs_to_the_hop_that_it_moves() {
        let mut sent = Sent::new();
        sent.call(Call::SetSampleRate(3_200_000), 3_600, Some(99_000_000), None);
        sent.call(Call::TuneBoard(99_000_000), 3_600, Some(99_000_000), None);
        assert_eq!(sent.hops(), [FIRST, (Some(99_000_000), 1, Verdict::Right)]);
        let mut sent = Sent::new();
        sent.call(Call::SetSampleRate(3_200_000), 3_600, None, None);
        sent.call(Call::SetFrequency(99_000_000), 3_600, None, None);
        assert_eq!(sent.hops(), [(Some(102_300_000), 1, Verdict::Beside(-1_269_988)), (Some(99_000_000), 1, Verdict::Right)]);
    }

    /// A cut hop made again within two minutes is one, decided by its last attempt; later, or on another frequency, it stands as it was.
    #[test]
    fn attempts() {
        let again = |seconds: u64, hz: u64| {
            let mut sent = Sent::new();
            sent.call(Call::TuneBoard(99_000_000), 3_600, Some(99_000_000), Some(30));
            sent.call(Call::Reload, 3_601, None, None);
            sent.call(Call::TuneBoard(hz), 3_600 + seconds, Some(hz), None);
            sent.hops()[1..].to_vec()
        };
        assert_eq!(again(120, 99_000_000), [(Some(99_000_000), 2, Verdict::Right)]);
        let cut = again(121, 99_000_000);
        assert_eq!((cut.len(), cut[0].1, cut[1]), (2, 1, (Some(99_000_000), 1, Verdict::Right)));
        assert!(cut[0].2 != Verdict::Right);
        assert_eq!(again(1, 98_000_000)[0], cut[0]);
        // A right one on the same frequency again is another.
        let mut sent = Sent::new();
        sent.call(Call::TuneBoard(102_300_000), 1, Some(102_300_000), None);
        assert_eq!(sent.hops(), [FIRST, FIRST]);
    }

    /// A call that was cut is owed in every hop behind it until it is done, whatever else is.
    #[test]
    fn what_is_owed_stays_owed() {
        let mut sent = Sent::new();
        // The reload leaves no register doubtful.
        sent.call(Call::SetGain(10.0), 1, None, Some(5));
        sent.call(Call::Reload, 2, None, None);
        sent.call(Call::TuneBoard(99_000_000), 3_600, Some(99_000_000), None);
        let doubtful = (Some(99_000_000), 1, Verdict::Doubtful);
        assert_eq!(sent.hops()[1], doubtful);
        sent.call(Call::SetGain(10.0), 7_200, Some(98_000_000), None);
        sent.call(Call::TuneBoard(98_000_000), 7_200, Some(98_000_000), None);
        assert_eq!(sent.hops()[1..], [doubtful, (Some(98_000_000), 1, Verdict::Right)]);
    }

    /// A stop ends the recording, and is no fault of it; what is started again behind it is.
    #[test]
    fn a_stop_ends_the_recording() {
        let mut sent = Sent::new();
        sent.call(Call::StopStreaming, 3_000, None, None);
        assert_eq!(sent.hops(), [FIRST]);
        let mut again = Sent::new();
        again.call(Call::StopStreaming, 3_000, None, None);
        again.call(Call::StartStreaming, 3_001, None, None);
        assert_eq!(again.hops(), [(Some(102_300_000), 1, Verdict::Doubtful)]);
        sent.call(Call::TuneBoard(99_000_000), 3_600, Some(99_000_000), None);
        assert_eq!(sent.hops(), [FIRST, (Some(99_000_000), 1, Verdict::Doubtful)]);
        sent.call(Call::SetSampleRate(2_048_000), 7_200, Some(98_000_000), None);
        sent.call(Call::TuneBoard(98_000_000), 7_200, Some(98_000_000), None);
        assert_eq!(sent.hops()[2], (Some(98_000_000), 1, Verdict::Right));
    }

    /// Whichever line is missing, the hop that its section is in is not right.
    #[test]
    fn every_section_needs_its_line() {
        for missing in 0..4 {
            let mut sent = Sent::new();
            sent.sections[missing].1 = None;
            assert_eq!(sent.hops().iter().filter(|hop| hop.2 == Verdict::Right).count(), 0, "{missing}");
        }
    }

    /// Behind more than a window's length of other calls the hop says the same.
    #[test]
    fn a_long_hop() {
        let mut sent = Sent::new();
        sent.call(Call::SetGain(10.0), 1, None, None);
        sent.call(Call::SetSampleRate(2_048_000), 1, None, None);
        let (gain, rate) = (sent.sections[4].clone(), sent.sections[5].clone());
        for _ in 0..LONG / 200 {
            sent.sections.extend([gain.clone(), rate.clone()]);
        }
        assert_eq!(sent.hops(), [FIRST]);
        sent.call(Call::SetSampleRate(3_200_000), 1, None, None);
        assert_eq!(sent.hops(), [(Some(102_300_000), 1, Verdict::Beside(-1_269_988))]);
    }
}
