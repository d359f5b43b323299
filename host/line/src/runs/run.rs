//! The calls of a run, one after the other over the same records. Each is made only while none before it was refused or stopped.
use crate::files::kept::Kept;
use crate::files::log::Line;
use crate::files::owed::{Job, Owed, RATE};
use crate::files::record::Records;
use crate::files::state::Keeper;
use crate::printed::names::{Gain, decibels};
use crate::printed::out::Out;
use pasetone::{Board, Driver, Error, Lock, Need, Receiver, Script, Table, Transcript, Tuner, TunerKind};

/// The calls by the names that are printed.
#[derive(Clone, Copy, PartialEq, Eq)]
pub enum Call {
    FreshTuner,
    FreshDriver,
    Correction,
    Initialise,
    SampleRate,
    Gain,
    If,
    DemodIf,
    Tune,
    Reload,
    /// The tuner's own, without its board.
    TunerTune,
    Bandwidth,
    /// Those of a bring-up on the bus.
    PowerOn,
    Gpio,
    LowIf,
    Spectrum,
    Reset,
    DemodRate,
    Streaming,
    /// A command of a line that is none.
    Unknown,
}

impl Call {
    pub fn name(self) -> &'static str {
        match self {
            Call::FreshTuner => "fresh tuner",
            Call::FreshDriver => "fresh driver",
            Call::Correction => "set_ppm",
            Call::Initialise => "initialise",
            Call::SampleRate => "sample rate",
            Call::Gain => "gain",
            Call::If => "IF",
            Call::DemodIf => "demod IF",
            Call::Tune | Call::TunerTune => "tune",
            Call::Reload => "reload",
            Call::Bandwidth => "bandwidth",
            Call::PowerOn => "power on",
            Call::Gpio => "GPIO",
            Call::LowIf => "low IF",
            Call::Spectrum => "spectrum",
            Call::Reset => "demod reset",
            Call::DemodRate => "demod rate",
            Call::Streaming => "streaming",
            Call::Unknown => "command",
        }
    }

    /// What the call may need of the script.
    pub fn need(self) -> Need {
        match self {
            Call::Initialise => Need::INITIALIZE,
            Call::SampleRate => Need::SAMPLE_RATE,
            Call::Gain => Need::GAIN,
            Call::If => Need::IF_FREQ,
            Call::DemodIf => Need::IF_XTAL,
            Call::Tune => Need::TUNE_BOARD,
            Call::Reload => Need::RELOAD,
            Call::TunerTune => Need::TUNE,
            Call::Bandwidth => Need::BANDWIDTH,
            _ => Need { outcomes: 0, replies: 0 },
        }
    }
}

/// What a run begins with.
pub enum Start {
    Fresh { kind: TunerKind, address: u8, board: Board, reference: u32 },
    Kept(Box<Records>),
}

impl Start {
    pub fn kind(&self) -> TunerKind {
        match self {
            Start::Fresh { kind, .. } => *kind,
            Start::Kept(records) => records.tuner.kind(),
        }
    }
}

/// The calls that are asked for. A fresh record is initialised, and gets a rate and a gain; over a kept one each is called where it is asked for.
pub struct Asked {
    pub hz: u64,
    pub ppm: Option<i32>,
    pub initialise: bool,
    pub rate: Option<u32>,
    pub gain: Option<Gain>,
    pub if_hz: Option<u32>,
}

/// A call that was made.
pub struct Made {
    pub call: Call,
    /// Where its steps begin in the run.
    pub first: usize,
    pub transcript: Transcript,
    pub result: Result<(), Error>,
    /// Of a tuning: how its waiting for a lock went.
    pub lock: Option<Lock>,
    /// What of the script was left for it.
    pub left: Need,
}

pub struct Run {
    /// All, or none where one could not be made.
    pub records: Option<Records>,
    pub made: Vec<Made>,
    pub steps: usize,
    outcomes: Vec<u8>,
    /// For the tuning, which alone reads.
    replies: Vec<u8>,
    /// Of `--state`: each call is stored as it is made.
    pub keeper: Option<Keeper>,
    /// Of `--log`, without a state: a line for each section, in their order.
    lines: Vec<Line>,
    /// Where the run is on its way to.
    hz: Option<u64>,
}

impl Run {
    /// A run on a receiver, before its first call: live.rs makes them.
    pub fn live(keeper: Keeper) -> Run {
        let (made, lines, outcomes, replies) = (Vec::new(), Vec::new(), Vec::new(), Vec::new());
        Run { records: None, made, steps: 0, outcomes, replies, keeper: Some(keeper), lines, hz: None }
    }

    /// Makes all calls that lead to a frequency, over what a run begins with.
    pub fn hop(start: Start, asked: &Asked, table: &Table, outcomes: Vec<u8>, replies: Vec<u8>, keeper: Option<Keeper>) -> Run {
        let mut run = Run { records: None, made: Vec::new(), steps: 0, outcomes, replies, keeper, lines: Vec::new(), hz: Some(asked.hz) };
        if let Some(mut records) = run.begin(start, asked) {
            let ended = run.sequence(&mut records, asked, table);
            // A run that was cut before its tuning was on its way there.
            if run.was_cut() {
                records.owed.hz = asked.hz;
            }
            // A state that could not be written has ended it before its tuning.
            if ended.is_none() && run.made.last().is_some_and(|made| made.result.is_ok() && made.call != Call::Tune) {
                (records.owed.hz, records.owed.tune) = (asked.hz, true);
            }
            run.records = Some(records);
        }
        run
    }

    /// Sends a kept record's shadow again.
    pub fn reload(mut records: Records, table: &Table, outcomes: Vec<u8>, keeper: Option<Keeper>) -> Run {
        let mut run = Run { records: None, made: Vec::new(), steps: 0, outcomes, replies: Vec::new(), keeper, lines: Vec::new(), hz: None };
        run.make(Call::Reload, pasetone::Call::Reload, Job::Reload, &mut records, table);
        run.records = Some(records);
        run
    }

    /// The records. A fresh driver is made for the frequency that is asked for, which says how the sample rate turns the spectrum; a kept one is where its last
    /// tuning went, and the tuning to come turns the spectrum by itself. A fresh receiver owes every call that is asked for, so that a run which stops
    /// before one of them leaves that in the record.
    fn begin(&mut self, start: Start, asked: &Asked) -> Option<Records> {
        match start {
            Start::Fresh { kind, address, board, reference } => {
                let tuner = self.fresh(Call::FreshTuner, Tuner::new(kind, address, reference))?;
                let driver = self.fresh(Call::FreshDriver, Driver::new(board, reference, 0, asked.hz, 0))?;
                let owed = Owed {
                    rate: asked.rate.filter(|rate| *rate > 0).or(Some(RATE)),
                    gain: asked.gain,
                    if_hz: asked.if_hz,
                    hz: asked.hz,
                    ..Owed::fresh()
                };
                Some(Records { tuner, driver, owed })
            }
            Start::Kept(records) => Some(*records),
        }
    }

    /// A record that was made is not told of; one that was not is.
    fn fresh<T>(&mut self, call: Call, made: Result<T, Error>) -> Option<T> {
        made.map_err(|error| self.after(call, Err(error), Transcript::default())).ok()
    }

    fn sequence(&mut self, records: &mut Records, asked: &Asked, table: &Table) -> Option<()> {
        if let Some(ppm) = asked.ppm {
            let corrected = records.driver.set_ppm(&mut records.tuner, ppm);
            records.owed.made(Job::Correction, corrected, &Transcript::default(), &records.tuner, &records.driver);
            self.after(Call::Correction, corrected, Transcript::default())?;
        }
        if asked.initialise {
            self.make(Call::Initialise, pasetone::Call::Initialize, Job::Initialise, records, table)?;
        }
        if let Some(rate) = asked.rate {
            self.make(Call::SampleRate, pasetone::Call::SetSampleRate(rate), Job::Rate(rate), records, table)?;
        }
        if let Some(gain) = asked.gain {
            let call = match gain {
                Gain::Tenths(tenths) => pasetone::Call::SetGain(decibels(tenths)),
                Gain::Index(index) => pasetone::Call::SetGainByIndex(index.into()),
            };
            self.make(Call::Gain, call, Job::Gain(gain), records, table)?;
        }
        self.own_if(records, asked, table)?;
        self.make(Call::Tune, pasetone::Call::TuneBoard(asked.hz), Job::Tune(asked.hz), records, table)
    }

    /// An IF of the site's own, on tuner and demodulator. The tuner's record has it before its first write is tried, so one that was cut is made again
    /// whatever the record says.
    fn own_if(&mut self, records: &mut Records, asked: &Asked, table: &Table) -> Option<()> {
        let cut = records.owed.if_hz.is_some();
        let Some(hz) = asked.if_hz.filter(|hz| cut || u64::from(*hz) != records.tuner.if_freq()) else { return Some(()) };
        self.make(Call::If, pasetone::Call::SetIfFreq(hz.into()), Job::If(hz), records, table)?;
        let xtal = records.driver.corrected_xtal_hz();
        self.make(Call::DemodIf, pasetone::Call::SetIfFreqXtal { hz, xtal }, Job::DemodIf(hz), records, table)
    }

    /// What is left of the script for the next call: no call needs more than `Script` has.
    fn script(&self) -> Script {
        let left = |bytes: &[u8], from: usize, most: usize| bytes.iter().skip(from).take(most).copied().collect::<Vec<u8>>();
        Script::new(left(&self.outcomes, self.steps, Script::OUTCOMES), left(&self.replies, 0, Script::REPLIES))
    }

    /// A call over the records, which are the next ones then; with a state it is stored too, and where that cannot be done the run is at its end.
    fn make(&mut self, call: Call, made: pasetone::Call, job: Job, records: &mut Records, table: &Table) -> Option<()> {
        let mut receiver = Receiver::of(records.tuner.clone(), records.driver.clone(), table.clone());
        let answer = made.make(&mut receiver, &self.script());
        let (tuner, driver, _) = receiver.parts();
        let mut next = Records { tuner, driver, owed: records.owed.clone() };
        let result = answer.result.map(drop);
        next.owed.made(job, result, &answer.transcript, &next.tuner, &next.driver);
        let hz = self.hz;
        let is_kept = self.keeper.as_mut().is_none_or(|keeper| keeper.made(made, &answer, records, &next, table, hz));
        self.lines.extend(Line::of(made, &answer, &next, table, hz));
        *records = next;
        let ended = self.after(call, result, answer.transcript);
        if let (Call::Tune, Some(last)) = (call, self.made.last_mut()) {
            last.lock = Some(answer.lock);
        }
        ended.filter(|()| is_kept)
    }

    /// Behind a call: what it made. `None` where the run is at its end.
    pub fn after(&mut self, call: Call, result: Result<(), Error>, transcript: Transcript) -> Option<()> {
        let first = self.steps;
        let left = Need { outcomes: self.outcomes.len().saturating_sub(first), replies: self.replies.len() };
        self.steps += transcript.len();
        self.made.push(Made { call, first, transcript, result, lock: None, left });
        result.ok()
    }

    /// Whether a step stopped it.
    pub fn was_cut(&self) -> bool {
        self.made.last().is_some_and(|made| matches!(made.result, Err(Error::Step { .. })))
    }

    /// How the tuning's waiting for a lock went, where the run came to it.
    pub fn lock(&self) -> Option<Lock> {
        self.made.last().and_then(|made| made.lock)
    }

    /// The sections end to end.
    pub fn sections(&self) -> Vec<u8> {
        self.made.iter().flat_map(|made| made.transcript.bytes()).copied().collect()
    }

    /// The sections and the record into their files, also of a run that stopped. A state has the calls already; what had no steps, or was not come to, it gets here.
    pub fn keep(&mut self, mut files: Kept, out: &mut Out) {
        files.note(self.lines.drain(..));
        files.end(&self.sections(), self.records.as_ref(), out);
        self.keep_state(out);
    }

    /// The last of it into the state, where there is one.
    pub fn keep_state(&mut self, out: &mut Out) {
        if let Some(mut keeper) = self.keeper.take() {
            keeper.last(self.records.as_ref());
            keeper.end(out);
        }
    }
}
