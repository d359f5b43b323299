//! Calls on a receiver of the bus: its bring-up, then what is owed or asked for. A call that a step stopped is made again behind a reload, three times at most. Each is stored
//! as it goes, by the rule of a host that dies (state.rs).
use crate::bus::device::Link;
use crate::bus::signals;
use crate::files::owed::{Job, Owed, RATE};
use crate::files::record::Records;
use crate::files::state::Keeper;
use crate::printed::names::{Gain, counted, decibels};
use crate::printed::out::{End, Out};
use crate::runs::run::{Call, Run, Start};
use pasetone::{Board, Driver, Error, Fault, Table, Transcript, Tuner};
use std::thread;
use std::time::Duration;

/// So often a call is made again.
const AGAIN: usize = 3;

/// The IF and the rate that the Rust's driver begins with (src/lib.rs, `with_index`).
const IF: u32 = 2_300_000;

/// What is asked of a receiver; what is owed comes with it.
pub struct Wanted {
    pub hz: Option<u64>,
    pub ppm: Option<i32>,
    pub initialise: bool,
    pub rate: Option<u32>,
    pub gain: Option<Gain>,
    pub if_hz: Option<u32>,
}

/// How a call ended.
enum Ended {
    Done,
    /// A step failed: it may be made again.
    Cut,
    /// It is of no use to make it again: refused, unplugged, ended by a signal, or not to be stored.
    Over,
}

pub struct Live<'a> {
    pub run: Run,
    pub records: Records,
    link: Link,
    table: &'a Table,
    /// Where the run is on its way to.
    hz: Option<u64>,
}

impl<'a> Live<'a> {
    /// A receiver with its state. What a host that died had sent may still land, so something is waited for first where the record is in doubt.
    pub fn new(start: Start, wanted: &Wanted, table: &'a Table, keeper: Keeper, link: Link) -> Result<Live<'a>, Error> {
        let records = begun(start, wanted)?;
        // A call under way is ended, and no other begun.
        signals::heed();
        if keeper.is_recovered() || records.owed.words().is_some() || records.tuner.doubtful().next().is_some() {
            Link::settle();
        }
        Ok(Live { run: Run::live(keeper), records, link, table, hz: wanted.hz })
    }

    /// The run as far as it came, with the records that it leaves.
    pub fn end(mut self) -> Run {
        self.run.records = Some(self.records);
        self.run
    }

    /// All that leads to a frequency. Whether it came to its end.
    pub fn hop(&mut self, wanted: &Wanted, out: &mut Out) -> bool {
        self.sequence(wanted, out).is_some()
    }

    fn sequence(&mut self, wanted: &Wanted, out: &mut Out) -> Option<()> {
        // The correction comes first, so that whatever stops the run its record goes by the receiver's own reference.
        if let Some(ppm) = wanted.ppm.filter(|ppm| *ppm != self.records.driver.ppm()) {
            self.correct(ppm)?;
        }
        self.ready(out)?;
        if wanted.initialise || self.records.owed.initialise {
            self.make(Call::Initialise, pasetone::Call::Initialize, out)?;
        }
        if let Some(rate) = wanted.rate.or(self.records.owed.rate) {
            self.make(Call::SampleRate, pasetone::Call::SetSampleRate(rate), out)?;
        }
        if let Some(gain) = wanted.gain.or(self.records.owed.gain) {
            self.make(Call::Gain, gain_call(gain), out)?;
        }
        if let Some(hz) = self.records.owed.bandwidth {
            self.make(Call::Bandwidth, pasetone::Call::SetBandwidth(hz), out)?;
        }
        self.own_if(wanted, out)?;
        let Some(hz) = wanted.hz else { return Some(()) };
        self.make(Call::Tune, pasetone::Call::TuneBoard(hz), out)
    }

    /// A correction, which has no steps; the next call stores it.
    pub fn correct(&mut self, ppm: i32) -> Option<()> {
        let Records { tuner, driver, owed } = &mut self.records;
        let corrected = driver.set_ppm(tuner, ppm);
        owed.made(Job::Correction, corrected, &Transcript::default(), tuner, driver);
        self.run.after(Call::Correction, corrected, Transcript::default())
    }

    /// An IF of the site's own, on tuner and demodulator: where it is asked for and another, or where one was cut.
    fn own_if(&mut self, wanted: &Wanted, out: &mut Out) -> Option<()> {
        let asked = wanted.if_hz.filter(|hz| u64::from(*hz) != self.records.tuner.if_freq());
        let Some(hz) = self.records.owed.if_hz.map(|owed| wanted.if_hz.unwrap_or(owed)).or(asked) else { return Some(()) };
        self.make(Call::If, pasetone::Call::SetIfFreq(hz.into()), out)?;
        let xtal = self.records.driver.corrected_xtal_hz();
        self.make(Call::DemodIf, pasetone::Call::SetIfFreqXtal { hz, xtal }, out)
    }

    /// The receiver brought up where that is owed; where it is not, every register again where one is doubtful.
    pub fn ready(&mut self, out: &mut Out) -> Option<()> {
        if self.records.owed.setup {
            return self.bring_up(out);
        }
        if self.records.tuner.doubtful().next().is_some() && !self.records.owed.initialise {
            self.reload(out)?;
        }
        Some(())
    }

    /// The tuning that a run died in, or that was before the receiver was plugged in anew, as it was made.
    pub fn tune_again(&mut self, out: &mut Out) -> Option<()> {
        let Owed { tune, plain, hz, .. } = self.records.owed;
        if !tune || hz == 0 || !self.run.keeper.as_ref().is_some_and(Keeper::is_recovered) {
            return Some(());
        }
        if plain {
            return self.make(Call::TunerTune, pasetone::Call::SetFrequency(hz), out);
        }
        self.make(Call::Tune, pasetone::Call::TuneBoard(hz), out)
    }

    /// Every register again.
    pub fn reload(&mut self, out: &mut Out) -> Option<()> {
        self.make(Call::Reload, pasetone::Call::Reload, out)
    }

    /// The order of the Rust's `Driver::with_index`, in the parts that document 01 has: of the tuner's kind nothing is asked, and the waits are ours.
    /// As there the demodulator is set by the nominal reference; the sample rate behind it goes by the corrected one.
    fn bring_up(&mut self, out: &mut Out) -> Option<()> {
        use pasetone::Call as C;
        let spectrum = C::WriteRegDirect { page: 1, address: 0x15, value: 1 };
        let xtal = self.records.driver.nominal();
        self.make(Call::PowerOn, C::PowerOn, out)?;
        thread::sleep(Duration::from_millis(100));
        if self.records.driver.board() == Board::V4 {
            for call in [C::SetGpioOutput(4), C::SetGpioOutput(5), C::SetGpioBit(4, true), C::SetGpioBit(5, true)] {
                self.make(Call::Gpio, call, out)?;
            }
            thread::sleep(Duration::from_millis(250));
        }
        self.make(Call::Initialise, C::Initialize, out)?;
        for (name, call) in [
            (Call::LowIf, C::SetTunerLowIf),
            (Call::Spectrum, spectrum),
            (Call::If, C::SetIfFreq(IF.into())),
            (Call::Reset, C::ResetDemod),
            (Call::DemodIf, C::SetIfFreqXtal { hz: IF, xtal }),
            (Call::DemodRate, C::SetSampleRateXtal { rate: RATE, xtal }),
            (Call::Spectrum, spectrum),
            (Call::Streaming, C::StartStreaming),
        ] {
            self.make(name, call, out)?;
        }
        self.records.owed.setup = false;
        Some(())
    }

    /// A call, and where a step of it fails the same call again behind a reload. Before the tuner is initialised there is nothing to be sent again, and initialise itself
    /// sends every register.
    pub fn make(&mut self, name: Call, call: pasetone::Call, out: &mut Out) -> Option<()> {
        let by_itself = self.records.owed.initialise || matches!(name, Call::Initialise | Call::Reload);
        for turn in 0..=AGAIN {
            let reloaded = if turn == 0 || by_itself { Ended::Done } else { self.once(Call::Reload, pasetone::Call::Reload, turn, out) };
            let ended = match reloaded {
                Ended::Done => self.once(name, call, turn, out),
                other => other,
            };
            match ended {
                Ended::Done => return Some(()),
                Ended::Over => return None,
                Ended::Cut => {}
            }
        }
        let again = if by_itself { "made" } else { "reloaded and made" };
        out.tell(End::Stopped, &format!("{}: {again} again {}, and it stopped each time", name.name(), counted(AGAIN, "time")));
        None
    }

    /// A call once. A step that failed is told, with its cause.
    fn once(&mut self, name: Call, call: pasetone::Call, turn: usize, out: &mut Out) -> Ended {
        if signals::came() {
            out.tell(End::Stopped, &format!("ended by a signal before {}", name.name()));
            return Ended::Over;
        }
        let Some(keeper) = &mut self.run.keeper else { return Ended::Over };
        let Some(driven) = keeper.drive(call, &mut self.records, self.table, self.hz, &mut self.link) else { return Ended::Over };
        let fault = driven.cause.as_ref().map(|cause| cause.to_string());
        let is_gone = driven.cause.as_ref().and_then(|cause| cause.downcast_ref()) == Some(&Fault::Unplugged);
        let (first, result) = (self.run.steps, driven.answer.result.map(drop));
        self.run.after(name, result, driven.answer.transcript);
        if let (Call::Tune | Call::TunerTune, Some(last)) = (name, self.run.made.last_mut()) {
            last.lock = Some(driven.answer.lock);
        }
        match result {
            // A repeater that is not closed stops no call, and neither does a receiver that goes there.
            Ok(()) if is_gone => {
                out.tell(End::Stopped, &format!("{}: behind its last write the receiver is gone (unplugged)", name.name()));
                Ended::Over
            }
            Ok(()) => Ended::Done,
            Err(Error::Step { index }) => {
                let (step, why) = (first + index, fault.unwrap_or_default());
                let again = match turn {
                    _ if is_gone => String::from("no call is made any more"),
                    0 => String::from("it is made again"),
                    turn => format!("it was made again {}", counted(turn, "time")),
                };
                out.tell(End::Done, &format!("{}: step {step} of the run failed: {why}; {again}", name.name()));
                if is_gone { Ended::Over } else { Ended::Cut }
            }
            Err(_) => Ended::Over,
        }
    }
}

/// The records that a run begins with. A fresh receiver owes its bring-up and every call, with the values that are asked for.
fn begun(start: Start, wanted: &Wanted) -> Result<Records, Error> {
    match start {
        Start::Kept(records) => Ok(*records),
        Start::Fresh { kind, address, board, reference } => {
            let tuner = Tuner::new(kind, address, reference)?;
            let driver = Driver::new(board, reference, 0, wanted.hz.unwrap_or(0), 0)?;
            let owed = Owed { hz: wanted.hz.unwrap_or(0), setup: true, ..Owed::fresh() };
            Ok(Records { tuner, driver, owed })
        }
    }
}

fn gain_call(gain: Gain) -> pasetone::Call {
    match gain {
        Gain::Tenths(tenths) => pasetone::Call::SetGain(decibels(tenths)),
        Gain::Index(index) => pasetone::Call::SetGainByIndex(index.into()),
    }
}
