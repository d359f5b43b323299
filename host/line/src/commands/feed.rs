//! `feed`: the commands of a serial line (#105), one by one, over a fresh record or a kept one, with a script in place of a receiver. Where the line was cut
//! can't be seen in what is printed.
use crate::bus::device::Link;
use crate::bus::signals;
use crate::files::disk::Source;
use crate::files::kept::Kept;
use crate::files::log::Line as Logged;
use crate::files::owed::{Job, Owed};
use crate::files::record::Records;
use crate::files::state::Keeper;
use crate::files::station::Station;
use crate::files::terminal;
use crate::printed::json;
use crate::printed::names::{Gain, counted};
use crate::printed::out::{End, Out};
use crate::printed::rows::{self, hex};
use crate::runs::advice;
use crate::runs::answer::{self, Told};
use crate::runs::beginning;
use crate::runs::boards::Place;
use crate::runs::live::{Live, Wanted};
use crate::runs::receiver::Receiver;
use crate::runs::report::{self, Head};
use crate::runs::run::{Call, Made, Start};
use crate::runs::script::{self, Endless};
use crate::runs::standing::Standing;
use crate::words::given::Given;
use crate::words::named::is_standard;
use crate::words::numbers;
use crate::words::options::Key;
use pasetone::{Board, Command, Driver, EntryKind, Error, Fed, Stream, Table, Transcript, Tuner};
use std::sync::{Arc, Condvar, Mutex, PoisonError};
use std::thread;
use std::time::Duration;

/// So much is read at once.
const BLOCK: usize = 1 << 16;

/// The words, read: everything that can be wrong with them has been told.
struct Request {
    start: Start,
    place: Place,
    script: Endless,
    source: Source,
    /// The length of a chunk.
    cut: usize,
    keeper: Option<Keeper>,
    link: Option<Link>,
}

pub fn run(given: &Given, out: &mut Out) {
    let Some(Request { start, place, script, mut source, cut, keeper, link }) = request(given, out) else { return };
    // What is read at once is whole chunks, by a thread of its own, so that a signal ends the line while it brings nothing.
    signals::heed();
    let hatch = Arc::new(Hatch::default());
    let reader = thread::spawn({
        let hatch = hatch.clone();
        move || while hatch.put(source.some(BLOCK - BLOCK % cut)) {}
    });
    let next = |out: &mut Out| hatch.take().map_err(|why| out.mistake(&format!("feed {why}"))).unwrap_or_default();
    let mut block = next(out);
    let head = Head::of(&start, &place, None);
    let table = place.table.clone();
    let Some(mut line) = line(given, (start, place, &table), script, (keeper, link), out) else { return };
    line.begin(out);
    line.head(&head, out);
    while !block.is_empty() && !out.is_closed() {
        block.chunks(cut).for_each(|chunk| line.chunk(chunk, out));
        line.keeper().into_iter().for_each(Keeper::sync);
        line.files.log();
        out.flush();
        block = if line.is_ended() { Vec::new() } else { next(out) };
    }
    // It has ended with the line; where something else has, it may wait for the line for ever, and ends with the process.
    if block.is_empty() && !line.is_ended() {
        let _ = reader.join();
    }
    line.end(out);
}

/// The line, with a receiver that is brought up, or records, and its files open.
fn line<'a>(
    given: &'a Given,
    (start, place, table): (Start, Place, &'a Table),
    script: Endless,
    (mut keeper, link): (Option<Keeper>, Option<Link>),
    out: &mut Out,
) -> Option<Line<'a>> {
    let begun = match (link, keeper.take_if(|_| given.has(Key::Device))) {
        (Some(link), Some(keeper)) => ready(start, given, table, keeper, link, out).map(|live| (live.records.clone(), Some(live))),
        _ => begun(start, given, out).map(|records| (records, None)),
    };
    let (records, live) = begun.filter(|_| !out.is_mistaken())?;
    let files = given.kept_files(out);
    let (held, stream, count, unfed) = (Vec::new(), Stream::new(), Count::default(), 0);
    (!out.is_mistaken()).then_some(Line { given, place, records, script, files, keeper, live, held, stream, count, unfed })
}

/// What a line has brought, handed from who reads to who answers, one piece at a time.
#[derive(Default)]
struct Hatch {
    piece: Mutex<Option<Result<Vec<u8>, String>>>,
    moved: Condvar,
}

impl Hatch {
    /// Puts a piece, and waits until it is taken. Whether there may be another: nothing comes behind the end, or behind a line that cannot be read.
    fn put(&self, piece: Result<Vec<u8>, String>) -> bool {
        let is_last = piece.as_ref().map_or(true, Vec::is_empty);
        let mut held = self.piece.lock().unwrap_or_else(PoisonError::into_inner);
        *held = Some(piece);
        self.moved.notify_all();
        while held.is_some() && !is_last {
            held = self.moved.wait(held).unwrap_or_else(PoisonError::into_inner);
        }
        !is_last
    }

    /// What the line brings next: nothing where it has ended, or where a signal has come.
    fn take(&self) -> Result<Vec<u8>, String> {
        let mut held = self.piece.lock().unwrap_or_else(PoisonError::into_inner);
        while !signals::came() {
            if let Some(piece) = held.take() {
                self.moved.notify_all();
                return piece;
            }
            held = self.moved.wait_timeout(held, Duration::from_millis(50)).unwrap_or_else(PoisonError::into_inner).0;
        }
        Ok(Vec::new())
    }
}

fn request(given: &Given, out: &mut Out) -> Option<Request> {
    let cut = given.value(Key::Cut, out, |text| usize::try_from(numbers::whole(text)?).ok().filter(|cut| *cut > 0));
    let receiver = Receiver::of_words(given, None, out);
    let fail = script::fail(given, out);
    beginning::together(given, out);
    let file = match given.operands.as_slice() {
        [file] => Some(file),
        _ => {
            out.mistake("feed wants one file of a line's bytes, or - for standard input");
            None
        }
    };
    let read = [Key::Outcomes, Key::Replies, Key::Record, Key::Table];
    if file.is_some_and(|file| is_standard(file)) && read.iter().any(|key| given.word(*key).is_some_and(is_standard)) {
        out.mistake("standard input can be read once: give - to the line or to an option");
    }
    // What is written at once would be read as commands; --keep and --section take their places at the end.
    if file.is_some_and(|file| given.word(Key::Append) == Some(file)) {
        out.mistake("--append names the line itself, which is read while it is written: name another file");
    }
    let link = Link::open(given, out);
    let mut keeper = Keeper::open(given, link.as_ref(), out);
    keeper.iter_mut().for_each(Keeper::seldom_synced);
    let (start, place) = beginning::begins(given, &receiver, keeper.as_ref(), out);
    let script = Endless::of(given, fail, start.as_ref().map(Start::kind), out);
    if let Some(Err(why)) = file.filter(|_| !out.is_mistaken()).map(|file| terminal::judged(file)) {
        out.mistake(&format!("feed {why}"));
    }
    let source = Source::open(file?).map_err(|why| out.mistake(&format!("feed {why}"))).ok()?;
    if out.is_mistaken() {
        return None;
    }
    Some(Request { start: start?, place, script, source, cut: cut.unwrap_or(BLOCK).min(BLOCK), keeper, link })
}

/// A receiver on the bus that commands may be sent to: brought up where it is not known, with its registers sent again where one is doubtful, and the tuning made again that a run died in. `None` where that was not
/// done, which has then been told.
fn ready<'a>(start: Start, given: &Given, table: &'a Table, keeper: Keeper, link: Link, out: &mut Out) -> Option<Live<'a>> {
    let wanted = Wanted { hz: None, ppm: None, initialise: false, rate: None, gain: None, if_hz: None };
    let mut live =
        Live::new(start, &wanted, table, keeper, link).map_err(|error| answer::refused(given, error, &error.to_string(), out)).ok()?;
    if live.hop(&wanted, out) && live.tune_again(out).is_some() {
        return Some(live);
    }
    let to_do = advice::same("feed", given);
    out.tell(End::Stopped, &format!("feed: the receiver is not ready, and no command was fed; to do: {to_do}"));
    live.end().keep_state(out);
    None
}

/// The records that a line begins with; a refusal is told.
fn begun(start: Start, given: &Given, out: &mut Out) -> Option<Records> {
    let fresh = match start {
        Start::Kept(records) => return Some(*records),
        Start::Fresh { kind, address, board, reference } => Tuner::new(kind, address, reference)
            .and_then(|tuner| Ok(Records { tuner, driver: Driver::new(board, reference, 0, 0, 0)?, owed: Owed::fresh() })),
    };
    fresh.map_err(|error| answer::refused(given, error, &error.to_string(), out)).ok()
}

#[derive(Default)]
struct Count {
    done: usize,
    refused: usize,
    stopped: usize,
}

impl Count {
    fn all(&self) -> usize {
        self.done + self.refused + self.stopped
    }
}

/// A line, as far as it was fed.
struct Line<'a> {
    given: &'a Given,
    place: Place,
    records: Records,
    script: Endless,
    files: Kept,
    /// Of `--state`: each command is stored when it is answered.
    keeper: Option<Keeper>,
    /// Of `--device`: the receiver, with its state.
    live: Option<Live<'a>>,
    /// Its bytes that are no whole command yet.
    held: Vec<u8>,
    stream: Stream,
    count: Count,
    /// Bytes that had come when a signal ended the line.
    unfed: usize,
}

impl Line<'_> {
    /// Ended by a signal, or since the state cannot be written.
    fn is_ended(&self) -> bool {
        let keeper = self.live.as_ref().map_or(self.keeper.as_ref(), |live| live.run.keeper.as_ref());
        signals::came() || keeper.is_some_and(Keeper::is_faulty)
    }

    fn keeper(&mut self) -> Option<&mut Keeper> {
        self.live.as_mut().map_or(self.keeper.as_mut(), |live| live.run.keeper.as_mut())
    }

    /// How many bytes of a command have come.
    fn pending(&self) -> usize {
        if self.live.is_some() { self.held.len() } else { self.stream.pending() }
    }

    /// A chunk is handed on up to the end of each command, since its script begins where the steps of the one before have ended.
    fn chunk(&mut self, mut chunk: &[u8], out: &mut Out) {
        while !chunk.is_empty() {
            if self.is_ended() {
                self.unfed += chunk.len();
                return;
            }
            let (piece, rest) = chunk.split_at(chunk.len().min(Command::SIZE - self.pending()));
            chunk = rest;
            if self.live.is_some() {
                self.held.extend(piece);
                if let Some(command) = self.held.first_chunk().copied() {
                    self.held.clear();
                    self.sent(&command, out);
                }
                continue;
            }
            let Line { place, records, script, stream, .. } = self;
            let before = records.clone();
            for fed in stream.feed(&mut records.driver, &mut records.tuner, &place.table, piece, |_| script.script()) {
                self.answered(fed, &before, out);
            }
        }
    }

    /// What made the receiver ready stands before the first command's section.
    fn begin(&mut self, out: &mut Out) {
        let made = self.live.as_mut().map(|live| std::mem::take(&mut live.run.made));
        for made in made.iter().flatten() {
            self.files.add(made.transcript.bytes(), Some(&self.records), out);
        }
    }

    /// A command to the receiver on the bus. Its tries stand one behind the other; the last one's answer is the command's.
    fn sent(&mut self, bytes: &[u8; Command::SIZE], out: &mut Out) {
        let Some(live) = &mut self.live else { return };
        let command = sent(bytes);
        let first = live.run.steps;
        match command.map(|command| (command, stored(command))) {
            Some((command, Some(to))) => drop(live.make(call(command), to, out)),
            Some((Command::Correction(ppm), _)) => drop(live.correct(ppm)),
            _ => drop(live.run.after(Call::Unknown, Err(Error::Command), Transcript::default())),
        }
        self.records = live.records.clone();
        self.script.steps += live.run.steps - first;
        let mut tries = std::mem::take(&mut live.run.made);
        // None was made: a signal came, or the state cannot be written.
        let Some(made) = tries.pop() else {
            self.unfed += Command::SIZE;
            return;
        };
        let value = match command {
            Some(Command::Frequency(hz)) => hz,
            _ => self.records.tuner.gain().to_bits().into(),
        };
        if !self.given.has(Key::Json) && !self.given.has(Key::Quiet) {
            tries.iter().for_each(|made| report::made_rows(made, out));
        }
        tries.iter().for_each(|made| self.files.add(made.transcript.bytes(), Some(&self.records), out));
        self.told(bytes, &made, value, out);
    }

    fn answered(&mut self, fed: Fed, before: &Records, out: &mut Out) {
        let sent = sent(&fed.command);
        let call = sent.map_or(Call::Unknown, call);
        let lock = (call == Call::TunerTune).then_some(fed.lock);
        let (first, left, value) = (self.script.steps, self.script.left(), fed.result.unwrap_or(0));
        let made = Made { call, first, transcript: fed.transcript, result: fed.result.map(drop), lock, left };
        let read = made.transcript.iter().filter(|entry| matches!(entry.kind, EntryKind::I2cRead | EntryKind::BlockRead) && !entry.failed);
        self.script.pass(made.transcript.len(), read.map(|entry| entry.bytes.len()).sum());
        if let Some(command) = sent {
            let Records { tuner, driver, owed } = &mut self.records;
            owed.made(job(command), made.result, &made.transcript, tuner, driver);
            self.store(command, before, &made, value);
        }
        self.told(&fed.command, &made, value, out);
    }

    /// The answer of a command that was made.
    fn told(&mut self, bytes: &[u8; Command::SIZE], made: &Made, value: u64, out: &mut Out) {
        let told = match made.result {
            Ok(()) => self.done(made, value),
            Err(error) => self.refused(made, error, bytes),
        };
        match made.result {
            Ok(()) => self.count.done += 1,
            Err(Error::Step { .. }) => self.count.stopped += 1,
            Err(_) => self.count.refused += 1,
        }
        self.print(bytes, made, &told, out);
        self.files.add(made.transcript.bytes(), Some(&self.records), out);
    }

    fn done(&self, made: &Made, value: u64) -> Told {
        let Records { driver, owed, .. } = &self.records;
        let what = match made.call {
            Call::TunerTune => format!(", {}", answer::station(Some(&self.records), value)),
            Call::SampleRate => format!(", true rate {}", driver.true_rate()),
            Call::Gain => format!(", step {:.1} dB", f32::from_bits(value as u32)),
            Call::Correction => String::from(", both references corrected"),
            Call::Reload => format!(", {}", answer::reloaded(Some(&self.records))),
            _ => String::new(),
        };
        let lock = made.lock.map_or_else(String::new, |lock| format!(", {}", answer::lock_words(lock)));
        let to_do = match made.call {
            Call::SampleRate => Some("send the frequency (operation 1): the rate has moved the IF"),
            Call::Correction => Some("send the frequency (operation 1): the next tuning goes by the correction"),
            Call::Reload if owed.words().is_some() => Some("send the command that was cut again"),
            Call::TunerTune if made.lock.is_some_and(|lock| !lock.locked) => Some("send the frequency (operation 1) again"),
            _ => None,
        };
        // What is owed is told where a line would be read as all is well; at the end it is told in any case.
        let records = Some(&self.records).filter(|_| matches!(made.call, Call::TunerTune | Call::Reload));
        let steps = counted(made.transcript.len(), "step");
        Told { to_do: to_do.map(String::from), ..answer::simply(format!("done: {steps}{what}{lock}"), records) }
    }

    fn refused(&self, made: &Made, error: Error, bytes: &[u8; Command::SIZE]) -> Told {
        if error == Error::Command {
            let to_do = Some(String::from("send an operation from 1 to 7, and zeros above its argument"));
            return Told { text: format!("command: {}", fault(bytes)), to_do, ..answer::refusal(made, error, "") };
        }
        let tuner = &self.records.tuner;
        let hz = sent(bytes).and_then(|command| if let Command::Frequency(hz) = command { Some(hz) } else { None });
        let why = hz.map_or("frequency", |hz| answer::tuner_words(tuner, hz));
        let to_do = match error {
            Error::Outcomes | Error::Replies => Some(answer::longer(made, error)),
            Error::Step { .. } => Some(String::from(cut(made.call))),
            // The tuner's own tune has no board: it goes where it is sent.
            Error::Frequency => hz.map(|hz| answer::reachable(tuner, &Board::Generic.table(), hz)),
            _ => None,
        };
        Told { to_do, ..answer::refusal(made, error, answer::words(error, why)) }
    }

    /// A command that was made, into the state: it is there before the next one is read.
    fn store(&mut self, command: Command, before: &Records, made: &Made, value: u64) {
        let Made { result, transcript, lock, .. } = made;
        let made = pasetone::Made { result: result.map(|()| value), transcript: transcript.clone(), lock: lock.unwrap_or_default() };
        let Some(keeper) = &mut self.keeper else {
            let line = stored(command).and_then(|call| Logged::of(call, &made, &self.records, &self.place.table, None));
            return self.files.note(line);
        };
        match stored(command) {
            Some(call) => drop(keeper.made(call, &made, before, &self.records, &self.place.table, None)),
            None => keeper.last(Some(&self.records)),
        }
    }

    fn head(&self, head: &Head, out: &mut Out) {
        let tuner = &self.records.tuner;
        let corrected = Some(tuner.corrected()).filter(|hz| *hz != tuner.nominal());
        if self.given.has(Key::Json) {
            out.line(&json::object(&[("receiver", head.json(&self.place, corrected))]));
        } else if !self.given.has(Key::Quiet) {
            out.line(&head.line(corrected));
            out.line("");
            rows::head(out);
        }
    }

    /// A command, by its number: its bytes in words, its steps and its answer.
    fn print(&self, bytes: &[u8; Command::SIZE], made: &Made, told: &Told, out: &mut Out) {
        let number = self.count.all();
        if self.given.has(Key::Json) {
            out.line(&command_json(number, bytes, made, told));
        } else if !self.given.has(Key::Quiet) {
            out.line(&format!("command {number}: {}", words(bytes)));
            report::made_rows(made, out);
            told.lines(out);
            out.line("");
        } else if told.number > 0 {
            out.tell(told.end(), &format!("command {number}: {}", told.in_one_line()));
        }
        out.ends(told.end());
        if let Some(lock) = made.lock.filter(|lock| told.number == 0 && !lock.locked) {
            out.tell(End::NotLocked, &format!("command {number}: {}", answer::lock_words(lock)));
        }
    }

    /// What the line came to; then the files.
    fn end(mut self, out: &mut Out) {
        self.script.tell_faults(out);
        let pending = self.pending();
        let incomplete =
            (pending > 0).then(|| format!("incomplete: {} of a command at the end, which did nothing", counted(pending, "byte")));
        if self.given.has(Key::Json) {
            self.json(pending, out);
        } else if !self.given.has(Key::Quiet) {
            self.table(incomplete.as_deref(), out);
        } else if let Some(text) = &incomplete {
            out.tell(End::Refused, text);
        }
        if incomplete.is_some() {
            out.ends(End::Refused);
        }
        if self.is_ended() {
            let (end, unfed) = (if self.unfed > 0 { End::Refused } else { End::Done }, counted(self.unfed, "byte"));
            let by = if signals::came() { "by a signal" } else { "since the state cannot be written" };
            out.tell(end, &format!("ended {by}, behind {}; {unfed} that had come were not fed", counted(self.count.all(), "command")));
        }
        // Of a line that brought nothing there is nothing to say, unless a call was recovered.
        if self.count.all() > 0 || self.keeper().is_some_and(|keeper| keeper.is_recovered()) {
            Standing::of(&self.records, Some(&self.place.table)).tell(&self.way_back(), out);
        }
        self.files.end(&[], Some(&self.records), out);
        let keeper = self.live.as_mut().and_then(|live| live.run.keeper.take()).or(self.keeper.take());
        if let Some(mut keeper) = keeper {
            keeper.last(Some(&self.records));
            keeper.end(out);
        }
    }

    /// What leads to a known station: over the record that is kept, or from a fresh one.
    fn way_back(&self) -> String {
        let hz = advice::hertz(&self.records.owed);
        match self.given.word(Key::State).or(self.given.word(Key::Keep)) {
            Some(keep) => advice::over(keep, &hz, &self.records, self.given, false),
            None => format!("begin with a record: {} hop {hz} --keep FILE, then feed with --record FILE", advice::program()),
        }
    }

    fn table(&self, incomplete: Option<&str>, out: &mut Out) {
        let (Count { done, refused, stopped }, Records { tuner, driver, .. }) = (&self.count, &self.records);
        let (commands, steps) = (counted(self.count.all(), "command"), counted(self.script.steps, "step"));
        out.line(&format!("{commands}: {done} done, {refused} refused, {stopped} stopped; {steps}"));
        if let Some(text) = incomplete {
            out.line(&out.loud(text));
        }
        report::note(self.script.unreached(), out);
        let (rate, truly, gain, ppm) = (driver.rate(), driver.true_rate(), tuner.gain(), driver.ppm());
        out.line(&format!("record: rate {rate} (true rate {truly}), gain {gain:.1} dB, correction {ppm} ppm"));
        out.line(&format!("station: {}", Station::of(&self.records, Some(&self.place.table)).line()));
        out.line("");
        rows::registers(tuner, out);
    }

    fn json(&self, pending: usize, out: &mut Out) {
        let Records { tuner, driver, owed } = &self.records;
        let mut fields = vec![
            ("done", self.count.done.to_string()),
            ("refused", self.count.refused.to_string()),
            ("stopped", self.count.stopped.to_string()),
            ("pending", pending.to_string()),
            ("steps", self.script.steps.to_string()),
            ("unreached", json::maybe(self.script.unreached())),
            ("rate", driver.rate().to_string()),
            ("true_rate", driver.true_rate().to_string()),
            ("gain", format!("{:.1}", tuner.gain())),
            ("correction", driver.ppm().to_string()),
            ("owed", json::array(owed.calls().iter().map(|call| json::string(call)))),
            ("station_known", owed.is_station_known().to_string()),
            ("ended_by_signal", signals::came().to_string()),
            ("unfed", self.unfed.to_string()),
            ("registers", json::one_line(&report::registers_json(tuner))),
        ];
        fields.extend(Station::of(&self.records, Some(&self.place.table)).json());
        out.line(&json::object(&fields));
    }
}

/// What to send after a command that a step stopped: the reload sends the tuner's registers alone, the demodulator's are the command's own.
fn cut(call: Call) -> &'static str {
    match call {
        Call::SampleRate => "send reload (operation 7), this command again, then the frequency (operation 1)",
        Call::Reload => "send reload (operation 7) again, then the command that was cut before it",
        _ => "send reload (operation 7), then this command again",
    }
}

fn command_json(number: usize, bytes: &[u8; Command::SIZE], made: &Made, told: &Told) -> String {
    json::object(&[
        ("command", number.to_string()),
        ("bytes", json::array(bytes)),
        ("words", json::string(&words(bytes))),
        ("answer", told.json(Some(made.call))),
        ("tries", json::maybe(made.lock.map(|lock| lock.tries))),
        ("locked", json::maybe(made.lock.map(|lock| lock.locked))),
        ("steps", json::one_line(&report::steps_json(made))),
    ])
}

/// The command whose operation nine bytes name, with as much of the argument as it has.
fn named(bytes: &[u8; Command::SIZE]) -> Option<Command> {
    let argument = u64::from_le_bytes(std::array::from_fn(|at| bytes[at + 1]));
    let low = argument as u32;
    Some(match bytes[0] {
        1 => Command::Frequency(argument),
        2 => Command::Rate(low),
        3 => Command::Gain(f32::from_bits(low)),
        4 => Command::GainIndex(argument as u8),
        5 => Command::Bandwidth(low),
        6 => Command::Correction(low as i32),
        7 => Command::Reload,
        _ => return None,
    })
}

/// The command that nine bytes are: there is none with other bytes above its argument than zeros.
fn sent(bytes: &[u8; Command::SIZE]) -> Option<Command> {
    named(bytes).filter(|command| command.bytes() == *bytes)
}

/// What makes nine bytes no command.
fn fault(bytes: &[u8; Command::SIZE]) -> String {
    match named(bytes) {
        Some(command) => format!("unused bytes of operation {} ({}) are not zero", bytes[0], name(command)),
        None => format!("operation {} is unknown", bytes[0]),
    }
}

fn call(command: Command) -> Call {
    match command {
        Command::Frequency(_) => Call::TunerTune,
        Command::Rate(_) => Call::SampleRate,
        Command::Gain(_) | Command::GainIndex(_) => Call::Gain,
        Command::Bandwidth(_) => Call::Bandwidth,
        Command::Correction(_) => Call::Correction,
        Command::Reload => Call::Reload,
    }
}

/// The same as a state keeps it; a correction has no steps.
fn stored(command: Command) -> Option<pasetone::Call> {
    Some(match command {
        Command::Frequency(hz) => pasetone::Call::SetFrequency(hz),
        Command::Rate(rate) => pasetone::Call::SetSampleRate(rate),
        Command::Gain(db) => pasetone::Call::SetGain(db),
        Command::GainIndex(index) => pasetone::Call::SetGainByIndex(index.into()),
        Command::Bandwidth(hz) => pasetone::Call::SetBandwidth(hz),
        Command::Correction(_) => return None,
        Command::Reload => pasetone::Call::Reload,
    })
}

/// The same with its argument.
fn job(command: Command) -> Job {
    match command {
        Command::Frequency(hz) => Job::TunerTune(hz),
        Command::Rate(rate) => Job::Rate(rate),
        Command::Gain(db) => Job::Gain(Gain::Tenths((db * 10.0) as i32)),
        Command::GainIndex(index) => Job::Gain(Gain::Index(index)),
        Command::Bandwidth(hz) => Job::Bandwidth(hz),
        Command::Correction(_) => Job::Correction,
        Command::Reload => Job::Reload,
    }
}

/// What an operation is called.
fn name(command: Command) -> &'static str {
    match command {
        Command::Frequency(_) => "frequency",
        Command::Rate(_) => "rate",
        Command::Gain(_) => "gain",
        Command::GainIndex(_) => "gain index",
        Command::Bandwidth(_) => "bandwidth",
        Command::Correction(_) => "correction",
        Command::Reload => "reload",
    }
}

/// Nine bytes in words; as they are where they are no command.
fn words(bytes: &[u8; Command::SIZE]) -> String {
    let Some(command) = sent(bytes) else { return hex(bytes) };
    let argument = match command {
        Command::Frequency(hz) => format!(" {hz} Hz"),
        Command::Rate(rate) => format!(" {rate}"),
        Command::Gain(db) => format!(" {db} dB"),
        Command::GainIndex(index) => format!(" {index}"),
        Command::Bandwidth(hz) => format!(" {hz} Hz"),
        Command::Correction(ppm) => format!(" {ppm} ppm"),
        Command::Reload => String::new(),
    };
    name(command).to_string() + &argument
}

#[cfg(test)]
mod tests {
    use super::*;
    use pasetone::{Script, TunerKind};

    /// Every operation with every value of every byte of its argument: what is told as no command is what the library refuses by 14, and nothing else.
    #[test]
    fn commands_are_the_library_s() {
        let table = Board::V4.table();
        let tuner = Tuner::new(TunerKind::R828d, 0x74, 28_800_000).unwrap();
        let driver = Driver::new(Board::V4, 28_800_000, 0, 0, 0).unwrap();
        for operation in 0..=255 {
            for (at, value) in (1..Command::SIZE).flat_map(|at| (0..=255).map(move |value| (at, value))) {
                let mut bytes = [0; Command::SIZE];
                (bytes[0], bytes[at]) = (operation, value);
                let fed = Stream::new().feed(&mut driver.clone(), &mut tuner.clone(), &table, &bytes, |_| Script::all_done());
                assert_eq!(sent(&bytes).is_none(), fed[0].result == Err(Error::Command), "{bytes:?}");
            }
        }
    }

    #[test]
    fn words_of_commands() {
        assert_eq!(words(&Command::Gain(29.7).bytes()), "gain 29.7 dB");
        assert_eq!(words(&Command::Gain(f32::NAN).bytes()), "gain NaN dB");
        assert_eq!(words(&Command::Correction(-3).bytes()), "correction -3 ppm");
        assert_eq!(words(&Command::Frequency(u64::MAX).bytes()), "frequency 18446744073709551615 Hz");
        assert_eq!(words(&[9; 9]), "09 09 09 09 09 09 09 09 09");
        assert_eq!(fault(&[4, 28, 1, 0, 0, 0, 0, 0, 0]), "unused bytes of operation 4 (gain index) are not zero");
    }
}
