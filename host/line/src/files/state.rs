//! `--state`: one file for a receiver, in place of --record and --keep. It has both records, the table, what is owed, the call under way with its script, and how long
//! the night's file was before it (pasetone's `State`). Without --device a call is made by its script, then stored as a host that drives a receiver would, in theorem
//! `crashed`'s order; with it each step is stored when it is done. So whenever the program dies, the next run with the state recovers the call before it does anything
//! else, and night and record agree.
use crate::bus::device::{self, Link};
use crate::files::disk::{self, Sink, is_read_only, read_only, unwritten};
use crate::files::log::{Line, Log};
use crate::files::owed::{Job, Owed, own_if};
use crate::files::record::Records;
use crate::printed::names::{Gain, counted};
use crate::printed::out::{End, Out};
use crate::printed::registers::runs;
use crate::words::given::Given;
use crate::words::named::shown;
use crate::words::options::Key;
use pasetone::{Board, Call, Cut, Driven, Driver, EntryKind, Found, Made, Outcome, Receiver, State, StateError, Table, Tuner, TunerKind};
use std::cell::RefCell;
use std::ffi::{OsStr, OsString};
use std::fs;
use std::io;

/// The night's length where no run had one.
const NO_NIGHT: u64 = u64::MAX;

pub struct Keeper {
    state: State,
    name: OsString,
    night: Option<Sink>,
    log: Option<Log>,
    /// Whether each call's line is written with its section; else by [`Keeper::sync`].
    synced: bool,
    /// What the file held; `None` where it is new.
    kept: Option<(Records, Table)>,
    /// What could not be stored: from there on nothing is.
    fault: Option<String>,
    /// Whether what the file held is not what its last run has left: a call was recovered, or the connection is another.
    is_recovered: bool,
    /// Whether the state is of a receiver on the bus.
    is_live: bool,
}

/// What a command does with a state that is of a receiver on the bus, where no --device is given.
#[derive(Clone, Copy, PartialEq)]
enum Use {
    /// It makes calls: a script does not stand in for that receiver.
    Calls,
    /// It looks at the record.
    Looks,
}

/// What tells this boot from any other: a machine that was started anew has unset a receiver that it feeds.
fn boot() -> Vec<u8> {
    let mut identity = fs::read("/proc/sys/kernel/random/boot_id").unwrap_or_default();
    identity.truncate(State::WORDS);
    identity
}

/// The key that a state is opened by, and whether it is of a receiver on the bus: the connection's, or the boot's.
fn key(name: &OsStr, link: Option<&Link>, purpose: Use) -> Result<(Vec<u8>, bool), String> {
    if let Some(link) = link {
        return Ok((link.key().into(), true));
    }
    // A connection's key has every byte, a boot's fewer.
    let stored = State::key(name).ok().flatten().filter(|key| key.len() == State::WORDS);
    match stored {
        None => Ok((boot(), false)),
        Some(_) if purpose == Use::Calls => {
            Err(format!("{}: a receiver on the bus is kept in it: give --device, or name another state", shown(name)))
        }
        Some(key) if device::is_there(&key) => Ok((key, true)),
        Some(_) => Ok((boot(), true)),
    }
}

/// The state of a name, and what its file held.
fn stated(name: &OsStr, key: &[u8], out: &mut Out) -> Result<(State, Found), String> {
    // What a file without a state begins with is made by the words; to there any receiver stands in.
    let any = Receiver::new(TunerKind::R828d, 0, Board::Generic, 1).map_err(|error| error.to_string())?;
    State::open_telling(name, key, any, || disk::waiting(name, out)).map_err(|error| match error {
        StateError::Io(error) => unwritten(name, &error),
        StateError::Form => format!("{}: it is there and no state, and stays as it is: name a state, or a new file", shown(name)),
    })
}

fn unkept(name: &OsStr, error: &io::Error) -> String {
    format!("--state {}", unwritten(name, error))
}

impl Keeper {
    /// The state of `--state`, its lock, and a call recovered that was under way. `None` where there is no such word, or something is wrong, which has then been told.
    pub fn open(given: &Given, link: Option<&Link>, out: &mut Out) -> Option<Keeper> {
        Keeper::told(given, link, Use::Calls, out)
    }

    /// The same, for a command that looks at the record and makes no call.
    pub fn look(given: &Given, out: &mut Out) -> Option<Keeper> {
        Keeper::told(given, None, Use::Looks, out)
    }

    fn told(given: &Given, link: Option<&Link>, purpose: Use, out: &mut Out) -> Option<Keeper> {
        let name = given.target(Key::State, out)?;
        if out.is_mistaken() {
            return None;
        }
        let night = given.target(Key::Append, out);
        Keeper::opened((name, night), |out| Log::open(given, out), link, purpose, out).map_err(|why| out.mistake(&why)).ok()
    }

    /// The state and the night of a receiver that is open.
    pub fn of(state: &OsStr, night: &OsStr, log: Log, link: &Link, out: &mut Out) -> Result<Keeper, String> {
        Keeper::opened((state, Some(night)), |_| Some(log), Some(link), Use::Calls, out)
    }

    fn opened(
        (name, night): (&OsStr, Option<&OsStr>),
        log: impl FnOnce(&mut Out) -> Option<Log>,
        link: Option<&Link>,
        purpose: Use,
        out: &mut Out,
    ) -> Result<Keeper, String> {
        let told = |why: String| format!("--state {why}");
        if is_read_only(name) {
            return Err(told(read_only(name)));
        }
        if fs::metadata(name).is_ok_and(|is| is.is_dir()) {
            return Err(told(unwritten(name, &io::ErrorKind::IsADirectory.into())));
        }
        let (key, is_live) = key(name, link, purpose).map_err(told)?;
        let (state, found) = stated(name, &key, out).map_err(told)?;
        let night = night.map(Sink::open_unjudged).transpose().map_err(|why| format!("--append {why}"))?;
        let mut keeper = Keeper {
            state,
            name: name.to_os_string(),
            night,
            log: log(out),
            synced: true,
            kept: None,
            fault: None,
            is_recovered: matches!(found, Found::Cut(_) | Found::Other(_)),
            is_live,
        };
        keeper.take(found, out)?;
        keeper.night.as_ref().map_or(Ok(()), Sink::judge).map_err(|why| format!("--append {why}"))?;
        Ok(keeper)
    }

    /// What the file held.
    fn take(&mut self, found: Found, out: &mut Out) -> Result<(), String> {
        match found {
            Found::New => {}
            Found::Kept => self.kept = Some(self.read()?),
            Found::Cut(cut) => self.recover(&cut, out)?,
            Found::Other(receiver) => {
                out.tell(End::Done, &self.other_words());
                self.kept = Some(self.anew(&receiver)?);
            }
        }
        Ok(())
    }

    /// The records that the state has, with what it notes as owed.
    fn read(&self) -> Result<(Records, Table), String> {
        let owed = self.state.note().first_chunk().filter(|_| self.state.note().len() == Owed::SIZE).and_then(Owed::read);
        let owed = owed.ok_or_else(|| format!("--state {}: another program keeps it: name a state of `./pasetone`", shown(&self.name)))?;
        let (tuner, driver, table) = self.state.receiver().clone().parts();
        Ok((Records { tuner, driver, owed }, table))
    }

    /// A run died in a call. Its section goes to the night, then the records to the state, with that call owed.
    fn recover(&mut self, cut: &Cut, out: &mut Out) -> Result<(), String> {
        let (mut records, table) = self.read()?;
        let Made { result, transcript, .. } = &cut.made;
        if let Some(job) = job(cut.call) {
            records.owed.made(job, result.map(drop), transcript, &records.tuner, &records.driver);
        }
        // A run on its way to another frequency than it stood on was a hop's.
        let to = Some(self.read()?.0.owed.hz).filter(|hz| *hz > 0 && *hz != records.driver.frequency());
        let line = Line::of(cut.call, &cut.made, &records, &table, to);
        let (name, from) = (shown(&self.name), self.state.night());
        match &mut self.night {
            Some(night) if from != NO_NIGHT => night.mend(from, transcript.bytes()).map_err(|why| format!("--append {why}"))?,
            None if from != NO_NIGHT && !transcript.is_empty() => {
                return Err(format!(
                    "--state {name}: a run died in {}, and wrote a night: give --append with that file, which gets its section",
                    words(cut.call)
                ));
            }
            _ => {}
        }
        self.keep(&records).map_err(|error| format!("--state {}", unwritten(&self.name, &error)))?;
        let placed = self.night.as_ref().and_then(Sink::placed);
        self.note(line.filter(|_| !placed.is_some_and(|at| self.log.as_ref().is_some_and(|log| log.has(at)))));
        let known = transcript.iter().filter(|entry| !entry.failed).count();
        let doubtful: Vec<u8> = records.tuner.doubtful().collect();
        let doubt = if doubtful.is_empty() { String::from("no register doubtful") } else { format!("doubtful: {}", runs(&doubtful)) };
        let steps = counted(transcript.len(), "step");
        out.tell(
            End::Done,
            &format!(
                "recovered: a run died in {}; by what it had stored, {known} of {steps} are known to be done; {doubt}",
                words(cut.call)
            ),
        );
        self.kept = Some((records, table));
        Ok(())
    }

    /// That the connection is another.
    fn other_words(&self) -> String {
        let name = shown(&self.name);
        let what = if self.is_live {
            "of another connection: the receiver was plugged in anew, the machine started anew, or the state is another receiver's"
        } else {
            "the machine was started anew since"
        };
        format!("--state {name}: {what}: every register is doubtful, and every call is owed")
    }

    /// The receiver of a state as one that is to be set up whole: what it was asked for is owed.
    pub fn begin_anew(&mut self) -> Result<(), String> {
        // One whose bring-up is owed is begun anew already.
        let Some((Records { tuner, driver, owed }, table)) = self.kept.take_if(|(records, _)| !records.owed.setup) else { return Ok(()) };
        let (mut records, table) = self.anew(&Receiver::of(tuner, driver, table))?;
        (records.owed.rate, records.owed.gain) = (owed.rate.or(records.owed.rate), owed.gain.or(records.owed.gain));
        (records.owed.if_hz, records.owed.hz) = (owed.if_hz.or(records.owed.if_hz), owed.hz);
        self.kept = Some((records, table));
        Ok(())
    }

    /// What the file held is not asked for: other words are.
    pub fn forget(&mut self) {
        self.kept = None;
    }

    /// A receiver that has lost its registers: it is to be set up whole, as it was.
    fn anew(&self, before: &Receiver) -> Result<(Records, Table), String> {
        let (tuner, driver) = (before.tuner(), before.driver());
        let fresh = Tuner::new(tuner.kind(), tuner.address(), tuner.nominal())
            .and_then(|tuner| Ok((tuner, Driver::new(driver.board(), driver.nominal(), driver.ppm(), driver.frequency(), 0)?)))
            .map_err(|error| format!("--state {}: {error}", shown(&self.name)));
        let (mut fresh, mut next) = fresh?;
        next.set_ppm(&mut fresh, driver.ppm()).map_err(|error| format!("--state {}: {error}", shown(&self.name)))?;
        let rate = Some(driver.rate()).filter(|rate| *rate > 0);
        let gain = Gain::Tenths((tuner.gain() * 10.0).round() as i32);
        let rate = rate.or(Owed::fresh().rate);
        let if_hz =
            rate.and_then(|rate| u32::try_from(tuner.if_freq()).ok().filter(|hz| driver.rate() > 0 && u64::from(*hz) != own_if(rate)));
        let owed = Owed { rate, if_hz, gain: Some(gain), hz: driver.frequency(), setup: self.is_live, ..Owed::fresh() };
        Ok((Records { tuner: fresh, driver: next, owed }, before.table().clone()))
    }

    /// The records that a command needs; told where there are none yet.
    pub fn needed(keeper: Option<&Keeper>, out: &mut Out) -> Option<Records> {
        let keeper = keeper?;
        if keeper.records().is_none() {
            out.mistake(&format!("--state {}: no receiver is in it yet: hop makes one", shown(&keeper.name)));
        }
        keeper.records().cloned()
    }

    /// The records that the file held.
    pub fn records(&self) -> Option<&Records> {
        self.kept.as_ref().map(|(records, _)| records)
    }

    /// The table that the file held.
    pub fn table(&self) -> Option<&Table> {
        self.kept.as_ref().map(|(_, table)| table)
    }

    pub fn name(&self) -> &OsStr {
        &self.name
    }

    /// A call that was made over `before`, by its script, and left `next`: stored as a host stores it that drives a receiver. `hz` is where the run is on its way to.
    /// Whether that could be stored.
    pub fn made(&mut self, call: Call, made: &Made, before: &Records, next: &Records, table: &Table, hz: Option<u64>) -> bool {
        if self.fault.is_none() {
            self.fault = self.stored(call, made, before, next, table, hz).err();
            if self.fault.is_none() {
                self.note(Line::of(call, made, next, table, hz));
            }
        }
        self.fault.is_none()
    }

    /// The line of a section that the night has got.
    fn note(&mut self, line: Option<Line>) {
        let (Some(night), Some(log), Some(line)) = (&self.night, &mut self.log, line) else { return };
        let place = if line.has_section() { night.placed() } else { night.end() };
        log.note(Some(line));
        log.placed(place);
        if self.synced || log.is_full() {
            log.write(night);
        }
    }

    /// What the state has from before a call, and where it is on its way to.
    fn before(&mut self, records: &Records, table: &Table, hz: Option<u64>) -> Result<(), String> {
        *self.state.receiver_mut() = Receiver::of(records.tuner.clone(), records.driver.clone(), table.clone());
        let noted = Owed { hz: hz.unwrap_or(records.owed.hz), ..records.owed.clone() };
        let length = self.night.as_ref().map_or(Ok(NO_NIGHT), Sink::length).map_err(|why| format!("--append {why}"))?;
        self.state.set_note(&noted.bytes(), length).map_err(|error| unkept(&self.name, &error))
    }

    fn stored(&mut self, call: Call, made: &Made, before: &Records, next: &Records, table: &Table, hz: Option<u64>) -> Result<(), String> {
        // Refused before its first step: no call was under way.
        if made.transcript.is_empty() {
            *self.state.receiver_mut() = Receiver::of(next.tuner.clone(), next.driver.clone(), table.clone());
            return self.keep(next).map_err(|error| unkept(&self.name, &error));
        }
        self.before(before, table, hz)?;
        let (night, why) = (RefCell::new(&mut self.night), RefCell::new(None));
        let mut entries = made.transcript.iter();
        let take = |_: &pasetone::Entry| match entries.next() {
            Some(entry) if entry.failed => Outcome::Failed(None),
            Some(entry) if matches!(entry.kind, EntryKind::I2cRead | EntryKind::BlockRead) => Outcome::Read(entry.bytes.to_vec()),
            Some(_) => Outcome::Done,
            None => Outcome::Failed(None),
        };
        let ended = self.state.drive_to(call, take, |state, answer| {
            let mut night = night.borrow_mut();
            let added = night.as_mut().map_or(Ok(NO_NIGHT), |night| {
                night.add(answer.transcript.bytes())?;
                night.length()
            });
            let length = added.map_err(|error| {
                why.replace(Some(error));
                io::ErrorKind::Other
            })?;
            state.set_note(&next.owed.bytes(), length)
        });
        match (ended, why.into_inner()) {
            (Ok(_), _) => Ok(()),
            (Err(_), Some(why)) => Err(format!("--append {why}")),
            (Err(error), None) => Err(unkept(&self.name, &error)),
        }
    }

    /// A call on a receiver, step by step, by the rule: the call and its records with a script of 1 before the first transfer, each step when it is done, the section, the
    /// next records. `hz` is where the run is on its way to. `records` tell the truth behind it in any case; `None` where something could not be stored.
    pub fn drive(&mut self, call: Call, records: &mut Records, table: &Table, hz: Option<u64>, link: &mut Link) -> Option<Driven<Made>> {
        if self.fault.is_some() {
            return None;
        }
        let driven = self.driven(call, records, table, hz, link).map_err(|why| self.fault = Some(why)).ok();
        if driven.is_none() {
            // What was sent is doubtful by the state's own record, and the call is owed.
            let (tuner, driver, _) = self.state.receiver().clone().parts();
            if let Some(job) = job(call) {
                records.owed.cut(job, &tuner, &driver);
            }
            (records.tuner, records.driver) = (tuner, driver);
        }
        driven
    }

    fn driven(
        &mut self,
        call: Call,
        records: &mut Records,
        table: &Table,
        hz: Option<u64>,
        link: &mut Link,
    ) -> Result<Driven<Made>, String> {
        self.before(records, table, hz)?;
        let (night, log, synced, mut why, mut next) = (&mut self.night, &mut self.log, self.synced, None, None);
        let end = |state: &mut State, answer: &Made| {
            let added = night.as_mut().map_or(Ok(NO_NIGHT), |night| night.add(answer.transcript.bytes()).and_then(|()| night.length()));
            let length = added.map_err(|error| {
                why = Some(error);
                io::ErrorKind::Other
            })?;
            let records = next.insert(behind(call, answer, state, &records.owed));
            // While the call is under way yet: killed behind this, the run has its line, and killed before it the next one writes it.
            if let (Some(night), Some(log), Some(line)) = (night, log, Line::of(call, answer, records, table, hz)) {
                log.note(Some(line));
                log.placed(night.placed());
                if synced {
                    log.write(night);
                }
            }
            state.set_note(&records.owed.bytes(), length)
        };
        let ended = self.state.drive_to(call, |step| link.take(step), end);
        match (ended, why) {
            (Ok(driven), _) => {
                *records = next.unwrap_or_else(|| records.clone());
                Ok(driven)
            }
            (Err(_), Some(why)) => Err(format!("--append {why}")),
            (Err(error), None) => Err(unkept(&self.name, &error)),
        }
    }

    /// The records, with no call under way.
    pub fn keep(&mut self, records: &Records) -> io::Result<()> {
        let table = self.state.receiver().table().clone();
        *self.state.receiver_mut() = Receiver::of(records.tuner.clone(), records.driver.clone(), table);
        let length = self.night.as_ref().map_or(Ok(NO_NIGHT), Sink::length).map_err(io::Error::other)?;
        self.state.set_note(&records.owed.bytes(), length)?;
        self.state.keep()
    }

    /// The records at a run's end, where they are others than its last call has left. What has no receiver yet has nothing to be kept.
    pub fn last(&mut self, records: Option<&Records>) {
        let Some(records) = records.filter(|_| self.fault.is_none()) else { return };
        let is_stored = self.state.note() == records.owed.bytes()
            && self.state.receiver().tuner() == &records.tuner
            && self.state.receiver().driver() == &records.driver;
        if !is_stored {
            self.fault = self.keep(records).map_err(|error| format!("--state {}", unwritten(&self.name, &error))).err();
        }
    }

    /// Many calls come: what is stored is handed to the disk by [`Keeper::sync`].
    pub fn seldom_synced(&mut self) {
        self.state.set_synced(false);
        self.synced = false;
    }

    pub fn sync(&mut self) {
        if self.fault.is_none() {
            let night = self.night.as_ref().map_or(Ok(()), Sink::sync).map_err(|why| format!("--append {why}"));
            let state = self.state.sync().map_err(|error| format!("--state {}", unwritten(&self.name, &error)));
            self.fault = night.and(state).err();
        }
        if let (Some(night), Some(log), None) = (&self.night, &mut self.log, &self.fault) {
            log.write(night);
        }
    }

    /// Whether it is of a receiver on the bus.
    pub fn is_live(&self) -> bool {
        self.is_live
    }

    pub fn is_recovered(&self) -> bool {
        self.is_recovered
    }

    /// Whether something could not be stored: then no further call is made.
    pub fn is_faulty(&self) -> bool {
        self.fault.is_some()
    }

    /// What could not be stored, told; the rest is handed to the disk.
    pub fn end(mut self, out: &mut Out) {
        self.sync();
        if let Some(why) = &self.fault {
            out.mistake(why);
        }
        if let Some(log) = self.log {
            log.end(out);
        }
    }
}

/// The records behind a call on a receiver, with what is owed then.
fn behind(call: Call, answer: &Made, state: &State, owed: &Owed) -> Records {
    let (tuner, driver, _) = state.receiver().clone().parts();
    let mut owed = owed.clone();
    if let Some(job) = job(call) {
        owed.made(job, answer.result.map(drop), &answer.transcript, &tuner, &driver);
    }
    Records { tuner, driver, owed }
}

/// A call of this program, as what is owed knows it.
fn job(call: Call) -> Option<Job> {
    Some(match call {
        Call::Initialize => Job::Initialise,
        Call::SetFrequency(hz) => Job::TunerTune(hz),
        Call::SetGain(db) => Job::Gain(Gain::Tenths((db * 10.0).round() as i32)),
        Call::SetGainByIndex(index) => Job::Gain(Gain::Index(u8::try_from(index).unwrap_or(u8::MAX))),
        Call::SetBandwidth(hz) => Job::Bandwidth(hz),
        Call::SetIfFreq(hz) => Job::If(u32::try_from(hz).unwrap_or(u32::MAX)),
        Call::SetIfFreqXtal { hz, .. } => Job::DemodIf(hz),
        Call::SetSampleRate(rate) => Job::Rate(rate),
        Call::TuneBoard(hz) => Job::Tune(hz),
        Call::Reload => Job::Reload,
        _ => return None,
    })
}

/// The same as it is printed.
fn words(call: Call) -> String {
    match call {
        Call::Initialize => String::from("initialise"),
        Call::SetFrequency(hz) | Call::TuneBoard(hz) => format!("tune {hz} Hz"),
        Call::SetGain(db) => format!("gain {db} dB"),
        Call::SetGainByIndex(index) => format!("gain index {index}"),
        Call::SetBandwidth(hz) => format!("bandwidth {hz} Hz"),
        Call::SetIfFreq(hz) => format!("IF {hz} Hz"),
        Call::SetIfFreqXtal { hz, .. } => format!("demod IF {hz} Hz"),
        Call::SetSampleRate(rate) => format!("sample rate {rate}"),
        Call::Reload => String::from("reload"),
        other => format!("{other:?}"),
    }
}

#[cfg(test)]
mod tests {
    use super::*;
    use crate::words::given::{Asked, asked};
    use pasetone::Script;
    use std::path::PathBuf;

    fn given(words: &[&str]) -> Given {
        match asked(words.iter().map(OsString::from).collect(), &mut Out::standard()) {
            Some(Asked::Run(given)) => given,
            _ => panic!("no command: {words:?}"),
        }
    }

    fn place(name: &str) -> PathBuf {
        std::env::temp_dir().join(format!("pasetone-line-{}-{name}", std::process::id()))
    }

    /// A receiver that was tuned, as a state of this program has it, under a key.
    fn tuned(path: &PathBuf, key: &[u8]) -> Receiver {
        let _ = fs::remove_file(path);
        let mut receiver = Receiver::new(TunerKind::R820t, 0x34, Board::V4, 28_800_000).unwrap();
        receiver.set_ppm(-3).unwrap();
        for call in [Call::Initialize, Call::SetSampleRate(2_400_000), Call::SetGain(10.0), Call::TuneBoard(102_300_000)] {
            assert!(call.make(&mut receiver, &Script::all_done()).result.is_ok());
        }
        let (mut state, _) = State::open(path, key, receiver.clone()).unwrap();
        state.set_note(&Owed { hz: 102_300_000, ..Owed::default() }.bytes(), NO_NIGHT).unwrap();
        state.keep().unwrap();
        receiver
    }

    /// What was kept before another boot: the receiver has lost its registers, so all are doubtful and every call is owed, with the values that it had.
    #[test]
    fn another_boot() {
        let path = place("boot");
        let before = tuned(&path, b"another boot");
        let keeper = Keeper::open(&given(&["hop", "1M", "--state", path.to_str().unwrap()]), None, &mut Out::standard()).unwrap();
        let Records { tuner, driver, owed } = keeper.records().unwrap();
        assert!(keeper.is_recovered());
        assert_eq!((tuner.doubtful().count(), tuner.kind(), tuner.address()), (27, TunerKind::R820t, 0x34));
        assert_eq!((tuner.corrected(), driver.ppm(), driver.rate()), (before.tuner().corrected(), -3, 0));
        assert_eq!(owed, &Owed { rate: Some(2_400_000), gain: Some(Gain::Tenths(87)), hz: 102_300_000, ..Owed::fresh() });
        drop(keeper);
        fs::remove_file(path).unwrap();
    }

    /// The same boot: what was kept is what is found. A state of another program, with another note, is none of this one's.
    #[test]
    fn the_same_boot() {
        let path = place("same");
        let before = tuned(&path, &boot());
        let words = ["hop", "1M", "--state", path.to_str().unwrap()];
        let keeper = Keeper::open(&given(&words), None, &mut Out::standard()).unwrap();
        assert_eq!((&keeper.records().unwrap().tuner, keeper.is_recovered()), (before.tuner(), false));
        drop(keeper);
        let (mut state, _) = State::open(&path, &boot(), before).unwrap();
        state.set_note(b"another program's", 0).unwrap();
        state.keep().unwrap();
        drop(state);
        let mut out = Out::standard();
        assert!(Keeper::open(&given(&words), None, &mut out).is_none() && out.is_mistaken());
        fs::remove_file(path).unwrap();
    }
}
