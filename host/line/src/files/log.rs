//! `--log`: what a run was asked and answered, a line of JSON for each section that it has put into the night's file. `night` joins the two.
//!
//! The order is: the section, its disk, the line, its disk. So whenever a run dies, whether it or the whole machine, no line tells of a section that is not in the
//! file. A section without its line may be left: it was sent, and what it was asked and answered nobody knows, so that `night` calls no hop with such a section right.
//! `feed` does so for each piece that its line brings, and for 64 commands at most.
//! A line that is torn at the log's end is ended where the next run begins its own; `night` tells it, and its section has none.
use crate::files::disk::{Sink, is_read_only, read_only, unwritten};
use crate::files::record::Records;
use crate::files::station::Station;
use crate::printed::out::Out;
use crate::printed::{clock, json};
use crate::words::given::Given;
use crate::words::named::shown;
use crate::words::options::Key;
use pasetone::{Call, Lock, Made, Table};
use std::ffi::{OsStr, OsString};
use std::fs::{File, OpenOptions};
use std::io::{self, Write};
use std::os::unix::fs::FileExt;

/// What every line begins with.
pub const HEAD: &str = "{\"time\":";

/// So many lines are written at once at most: a run that makes many calls and dies has lost no more of them.
const MANY: usize = 64;

/// A call that put a section into the night's file.
pub struct Line {
    time: u64,
    call: &'static str,
    asked: Option<u64>,
    /// 0 is done.
    refusal: u32,
    lock: Option<Lock>,
    centre: Option<u64>,
    doubtful: usize,
    /// Where its section begins, once it is there.
    at: Option<u64>,
    length: usize,
    address: u8,
    tuner_xtal: u32,
    driver_xtal: u32,
    shift: Option<i128>,
    /// The Hz that the run is on its way to, where a tuning is its end.
    to: Option<u64>,
}

impl Line {
    /// Of a call that has left these records, on the board of a table. None where no step was taken: there is no section then. But a hop that was refused on its way has a
    /// line without a section, of no bytes: it was asked for, and what is recorded in its place is of another station.
    pub fn of(call: Call, made: &Made, records: &Records, table: &Table, to: Option<u64>) -> Option<Line> {
        let Records { tuner, driver, .. } = records;
        let is_tuning = matches!(call, Call::TuneBoard(_) | Call::SetFrequency(_));
        let is_hop_refused = made.result.is_err() && (is_tuning || to.is_some());
        if made.transcript.is_empty() && !is_hop_refused {
            return None;
        }
        Some(Line {
            time: clock::now(),
            call: name(call),
            asked: asked(call),
            refusal: made.result.err().map_or(0, |error| error.number()),
            lock: Some(made.lock).filter(|_| is_tuning),
            centre: Station::of(records, Some(table)).centre(),
            doubtful: tuner.doubtful().count(),
            at: None,
            length: if made.transcript.is_empty() { 0 } else { made.transcript.bytes().len() },
            address: tuner.address(),
            tuner_xtal: tuner.corrected(),
            driver_xtal: driver.corrected_xtal_hz(),
            shift: shift(call, table),
            // Also where it is recovered, and nobody knows the run.
            to: if let Call::TuneBoard(hz) = call { Some(hz) } else { to },
        })
    }

    pub fn has_section(&self) -> bool {
        self.length > 0
    }

    fn json(&self, name: Option<&str>, command: &str, at: u64) -> String {
        let answer = if self.refusal == 0 { String::from("done") } else { format!("refused {}", self.refusal) };
        let fields = [
            ("time", json::string(&clock::words(self.time))),
            ("name", json::maybe(name.map(json::string))),
            ("command", json::string(command)),
            ("call", json::string(self.call)),
            ("asked", json::maybe(self.asked)),
            ("answer", json::string(&answer)),
            ("lock", json::maybe(self.lock.filter(|lock| lock.tries > 0).map(|lock| lock.locked))),
            ("tries", json::maybe(self.lock.map(|lock| lock.tries))),
            ("centre", json::maybe(self.centre)),
            ("doubtful", self.doubtful.to_string()),
            ("at", at.to_string()),
            ("length", self.length.to_string()),
            ("address", self.address.to_string()),
            ("tuner_xtal", self.tuner_xtal.to_string()),
            ("driver_xtal", self.driver_xtal.to_string()),
            ("shift", json::maybe(self.shift)),
            ("to", json::maybe(self.to)),
        ];
        let members: Vec<String> = fields.iter().map(|(name, value)| format!("\"{name}\":{value}")).collect();
        format!("{{{}}}\n", members.join(","))
    }
}

/// The calls by their numbers (`Call::bytes`), as the Rust host names them.
pub const CALLS: [&str; 23] = [
    "initialize",
    "set_frequency",
    "set_gain",
    "set_gain_by_index",
    "set_bandwidth",
    "set_if_freq",
    "set_input_path",
    "apply_input_path",
    "reload",
    "set_sample_rate",
    "tune_board",
    "init_baseband",
    "power_on",
    "reset_demod",
    "set_tuner_low_if",
    "set_tuner_zero_if",
    "start_streaming",
    "stop_streaming",
    "write_reg_direct",
    "set_if_freq_xtal",
    "set_sample_rate_xtal",
    "set_gpio_output",
    "set_gpio_bit",
];

fn name(call: Call) -> &'static str {
    CALLS[usize::from(call.bytes()[0]) - 1]
}

/// Hz for a tuning, samples a second for a rate.
fn asked(call: Call) -> Option<u64> {
    match call {
        Call::TuneBoard(hz) | Call::SetFrequency(hz) => Some(hz),
        Call::SetSampleRate(rate) | Call::SetSampleRateXtal { rate, .. } => Some(rate.into()),
        _ => None,
    }
}

/// What the band of a board-level tuning adds; the tuner's own tuning goes where it is sent.
fn shift(call: Call, table: &Table) -> Option<i128> {
    match call {
        Call::TuneBoard(hz) => table.plan_tuning(hz).ok().map(|plan| i128::from(plan.hz) - i128::from(hz)),
        Call::SetFrequency(_) => Some(0),
        _ => None,
    }
}

pub struct Log {
    path: OsString,
    file: File,
    /// Whether it is a file; a device or a pipe is written as it is.
    is_file: bool,
    receiver: Option<String>,
    command: &'static str,
    /// Those that are not written yet.
    lines: Vec<Line>,
    fault: Option<String>,
}

/// The words of a log, read: what does not go together is told.
pub fn judge(given: &Given, out: &mut Out) -> Option<String> {
    if given.has(Key::Log) && !given.has(Key::Append) {
        out.mistake("--log tells where each section stands in the night's file: give --append too");
    }
    if given.has(Key::Name) && !given.has(Key::Log) {
        out.mistake("--name is written into the log: give --log too");
    }
    given.value(Key::Name, out, |text| (text.chars().count() <= 64 && !text.chars().any(char::is_control)).then(|| text.to_string()))
}

impl Log {
    /// The log of `--log`, opened before a run. `None` where there is no such word, or something is wrong, which has then been told.
    pub fn open(given: &Given, out: &mut Out) -> Option<Log> {
        let path = given.target(Key::Log, out)?;
        let receiver = given.word(Key::Name).and_then(OsStr::to_str).map(str::to_string);
        let opened = Log::opened(path).map_err(|why| out.mistake(&format!("--log {why}"))).ok()?;
        Some(Log { receiver, command: given.command, ..opened })
    }

    /// The log of a receiver in a night of several.
    pub fn of(path: &OsStr, receiver: &str, command: &'static str) -> Result<Log, String> {
        Ok(Log { receiver: Some(receiver.to_string()), command, ..Log::opened(path)? })
    }

    fn opened(path: &OsStr) -> Result<Log, String> {
        if is_read_only(path) {
            return Err(read_only(path));
        }
        let open = || {
            let with = |read: bool| OpenOptions::new().read(read).append(true).create(true).open(path);
            let file = with(true).or_else(|_| with(false))?;
            let is_file = file.metadata()?.is_file();
            Ok((file, is_file))
        };
        let (file, is_file) = open().map_err(|error| unwritten(path, &error))?;
        let mut head = vec![0; HEAD.len()];
        let read = if is_file { file.read_at(&mut head, 0).unwrap_or(0) } else { 0 };
        if !HEAD.as_bytes().starts_with(&head[..read]) {
            return Err(format!("{}: it is there and no log, and stays as it is: name a log, or a new file", shown(path)));
        }
        Ok(Log { path: path.to_os_string(), file, is_file, receiver: None, command: "", lines: Vec::new(), fault: None })
    }

    /// Whether its end has a line for the section at this byte already: a run died behind it.
    pub fn has(&self, at: u64) -> bool {
        const END: u64 = 4096;
        let length = self.file.metadata().map_or(0, |is| is.len());
        let mut bytes = vec![0; length.min(END) as usize];
        let read = self.file.read_exact_at(&mut bytes, length.saturating_sub(END));
        read.is_ok() && String::from_utf8_lossy(&bytes).contains(&format!("\"at\":{at},"))
    }

    /// A line for a section that is about to stand in the night's file, or stands there: [`Log::placed`] tells where.
    pub fn note(&mut self, line: Option<Line>) {
        self.lines.extend(line);
    }

    /// The sections of the lines without a place stand one behind the other from this byte on, in the order that they were noted.
    pub fn placed(&mut self, from: Option<u64>) {
        let Some(mut from) = from else {
            self.fault.get_or_insert_with(|| {
                format!("{}: what --append names is no file, so no section has a place in it: name a file", shown(&self.path))
            });
            return;
        };
        for line in self.lines.iter_mut().filter(|line| line.at.is_none()) {
            line.at = Some(from);
            from += line.length as u64;
        }
    }

    /// Whether it is time to write what was noted.
    /// Whether a line has no place yet.
    pub fn is_waiting(&self) -> bool {
        self.lines.iter().any(|line| line.at.is_none())
    }

    pub fn is_full(&self) -> bool {
        self.lines.len() >= MANY
    }

    /// Hands the night's file to the disk, and then the lines of its sections to theirs. What cannot be written is told by [`Log::end`], and nothing is behind it.
    pub fn write(&mut self, night: &Sink) {
        let text: String = self.lines.iter().filter_map(|line| Some(line.json(self.receiver.as_deref(), self.command, line.at?))).collect();
        self.lines.clear();
        if !text.is_empty() && self.fault.is_none() {
            self.fault = night.sync().and_then(|()| self.add(&text).map_err(|error| unwritten(&self.path, &error))).err();
        }
    }

    /// Under its lock, behind a whole line: all of the text, or nothing.
    fn add(&self, text: &str) -> io::Result<()> {
        if !self.is_file {
            return (&self.file).write_all(text.as_bytes());
        }
        self.file.lock()?;
        let before = self.file.metadata()?.len();
        let added = self.add_behind(before, text);
        if added.is_err() {
            self.file.set_len(before)?;
        }
        self.file.unlock()?;
        added
    }

    fn add_behind(&self, before: u64, text: &str) -> io::Result<()> {
        let mut last = [b'\n'];
        if before > 0 {
            self.file.read_exact_at(&mut last, before - 1)?;
        }
        let lead = if last == *b"\n" { "" } else { "\n" };
        (&self.file).write_all([lead, text].concat().as_bytes())?;
        self.file.sync_data()
    }

    /// What could not be written, told.
    pub fn end(self, out: &mut Out) {
        if let Some(why) = self.fault {
            out.mistake(&format!("--log {why}; sections stand in the night's file without a line, and `night` calls no such hop right"));
        }
    }
}
