//! `run`: the night of many receivers, each in a thread of its own: every hop at its time, with the receiver's state, night and log in one folder.
use crate::bus::device::Link;
use crate::bus::signals;
use crate::files::disk;
use crate::files::log::Log;
use crate::files::state::Keeper;
use crate::files::station::Station;
use crate::printed::clock;
use crate::printed::names::{counted, gain_step};
use crate::printed::out::{End, Out};
use crate::runs::live::{Live, Wanted};
use crate::runs::run::Start;
use crate::runs::schedule::{DAY, Row, read, second};
use crate::runs::standing::Standing;
use crate::words::given::Given;
use crate::words::named::shown;
use crate::words::numbers;
use crate::words::options::Key;
use pasetone::{Error, Table};
use std::ffi::{OsStr, OsString};
use std::fs;
use std::path::{Path, PathBuf};
use std::sync::{Condvar, Mutex, PoisonError};
use std::thread;
use std::time::{Duration, Instant};

/// The words, read.
struct Request {
    rows: Vec<Row>,
    folder: PathBuf,
    /// The second of the day that it begins at.
    from: u64,
    hours: u64,
    speed: u64,
    detach: bool,
}

/// The clock of a night.
struct Clock {
    begun: Instant,
    from: u64,
    speed: u64,
    waits: (Mutex<()>, Condvar),
}

/// What a hop came to.
struct Hop {
    end: End,
    /// Whether the receiver was there.
    is_made: bool,
    text: String,
    /// What went wrong on its way, in lines.
    told: Vec<String>,
}

/// How many hops of a receiver came to what.
#[derive(Clone, Copy, Default)]
struct Count {
    right: usize,
    not_locked: usize,
    doubtful: usize,
    refused: usize,
    stopped: usize,
    /// The receiver was not there, or not to be opened.
    unmade: usize,
    /// A signal came before.
    unreached: usize,
}

pub fn run(given: &Given, out: &mut Out) {
    let Some(Request { rows, folder, from, hours, speed, detach }) = request(given, out) else { return };
    signals::heed();
    let clock = Clock { begun: Instant::now(), from, speed, waits: Default::default() };
    let printer = Mutex::new(&mut *out);
    let counts: Vec<Count> = thread::scope(|scope| {
        let night = |row: &Row| watch(row, &row.hops(from, hours), (&folder, detach), &clock, (&printer, given.has(Key::Quiet)));
        let threads: Vec<_> = rows.iter().map(|row| scope.spawn(move || night(row))).collect();
        // A thread that has panicked has told nothing of its hops.
        threads.into_iter().map(|thread| thread.join().unwrap_or(Count { stopped: 1, ..Count::default() })).collect()
    });
    summary(&rows, &counts, given, out);
}

fn request(given: &Given, out: &mut Out) -> Option<Request> {
    let whole = |key: Key, out: &mut Out, most: u64| given.value(key, out, |text| numbers::whole(text).filter(|n| (1..=most).contains(n)));
    let (hours, speed) = (whole(Key::Hours, out, 240), whole(Key::Speed, out, 1_000_000));
    let from = given.value(Key::From, out, second);
    let folder = given.word(Key::Folder);
    if folder.is_none() {
        out.mistake("run wants a folder for the states, nights and logs: give --folder");
    }
    let rows = match given.operands.as_slice() {
        [name] if !out.is_mistaken() => schedule(name, out),
        [_] => None,
        _ => {
            out.mistake("run wants one file, the schedule");
            None
        }
    };
    if out.is_mistaken() {
        return None;
    }
    let folder = PathBuf::from(folder?);
    if let Err(error) = fs::create_dir_all(&folder) {
        out.mistake(&format!("--folder {}: it cannot be made ({error}): name another", shown(folder.as_os_str())));
        return None;
    }
    let (from, hours, speed) = (from.unwrap_or(clock::now() % DAY), hours.unwrap_or(24), speed.unwrap_or(1));
    Some(Request { rows: rows?, folder, from, hours, speed, detach: given.has(Key::Detach) })
}

fn schedule(name: &OsStr, out: &mut Out) -> Option<Vec<Row>> {
    let bytes = disk::read(name).map_err(|why| out.mistake(&format!("run {why}"))).ok()?;
    let Ok(text) = String::from_utf8(bytes) else {
        out.mistake(&format!("run {}: it is no text", shown(name)));
        return None;
    };
    read(&text).map_err(|wrong| wrong.iter().for_each(|why| out.mistake(&format!("{}: {why}", shown(name))))).ok()
}

impl Clock {
    /// Waits for a second of the night; false where a signal has come.
    fn reaches(&self, second: u64) -> bool {
        let due = Duration::from_micros(second * 1_000_000 / self.speed);
        let (lock, condvar) = &self.waits;
        while !signals::came() {
            let Some(left) = due.checked_sub(self.begun.elapsed()).filter(|left| !left.is_zero()) else { return true };
            let held = lock.lock().unwrap_or_else(PoisonError::into_inner);
            drop(condvar.wait_timeout(held, left.min(Duration::from_millis(50))));
        }
        false
    }

    /// The time of day of a second of the night, and by how much it is past.
    fn words(&self, second: u64) -> (String, Duration) {
        let of_day = (self.from + second) % DAY;
        let due = Duration::from_micros(second * 1_000_000 / self.speed);
        (format!("{:02}:{:02}:{:02}", of_day / 3_600, of_day / 60 % 60, of_day % 60), self.begun.elapsed().saturating_sub(due))
    }
}

/// A receiver through the night.
fn watch(
    row: &Row,
    hops: &[(u64, u64)],
    (folder, detach): (&Path, bool),
    clock: &Clock,
    (printer, quiet): (&Mutex<&mut Out>, bool),
) -> Count {
    let mut count = Count::default();
    for (at, (second, hz)) in hops.iter().enumerate() {
        if !clock.reaches(*second) {
            count.unreached += hops.len() - at;
            break;
        }
        let (time, late) = clock.words(*second);
        let hop = hop(row, *hz, folder, detach);
        if hop.is_made {
            count.add(hop.end)
        } else {
            count.unmade += 1
        }
        let late = if late >= Duration::from_secs(2) { format!(", begun {} s late", late.as_secs()) } else { String::new() };
        let mut out = printer.lock().unwrap_or_else(PoisonError::into_inner);
        for line in &hop.told {
            out.tell(End::Done, &format!("{}: {line}", row.name));
        }
        let line = format!("{time} {} {hz} Hz: {}{late}", row.name, hop.text);
        match (hop.end, quiet) {
            (End::Done, true) => {}
            (End::Done, false) => out.line(&line),
            (_, true) => out.tell(End::Done, &line),
            (_, false) => out.line(&line),
        }
        out.ends(hop.end);
        out.flush();
    }
    count
}

/// One hop: the receiver is opened, and closed behind it.
fn hop(row: &Row, hz: u64, folder: &Path, detach: bool) -> Hop {
    let mut own = Out::kept();
    match made(row, hz, folder, detach, &mut own) {
        Ok((end, text)) => {
            let end = end.max(own.end());
            Hop { end, is_made: true, text, told: own.told() }
        }
        Err(why) => Hop { end: own.end().max(End::Stopped), is_made: false, text: format!("NOT MADE: {why}"), told: own.told() },
    }
}

fn made(row: &Row, hz: u64, folder: &Path, detach: bool, own: &mut Out) -> Result<(End, String), String> {
    let file = |end: &str| OsString::from(folder.join(format!("{}.{end}", row.name)));
    let link = Link::of(OsStr::new(&row.device), detach)?;
    let log = Log::of(&file("night.log"), &row.name, "run")?;
    let mut keeper = Keeper::of(&file("state"), &file("night"), log, &link, own)?;
    let table = row.board_table();
    if keeper.records().is_some_and(|records| {
        !row.is_of(records.tuner.kind(), records.tuner.address(), records.tuner.nominal()) || records.driver.board() != row.settings.board()
    }) {
        own.tell(End::Done, "the state is of another receiver than the schedule has: it is begun anew");
        keeper.forget();
    }
    let (start, wanted) = wanted(row, hz, &keeper);
    let mut live = Live::new(start, &wanted, &table, keeper, link).map_err(|error| error.to_string())?;
    let done = live.hop(&wanted, own);
    if !done {
        (live.records.owed.hz, live.records.owed.tune) = (hz, true);
    }
    let mut run = live.end();
    let ended = told(&run, done, &table, own);
    run.keep_state(own);
    Ok(ended)
}

/// What a receiver begins with, and the settings of the schedule where the record has others.
fn wanted(row: &Row, hz: u64, keeper: &Keeper) -> (Start, Wanted) {
    let settings = &row.settings;
    let mut wanted =
        Wanted { hz: Some(hz), ppm: settings.ppm, initialise: false, rate: settings.rate, gain: settings.gain, if_hz: settings.if_hz };
    let Some(records) = keeper.records() else {
        let (kind, address, board, reference) = (settings.kind(), settings.address(), settings.board(), settings.reference());
        return (Start::Fresh { kind, address, board, reference }, wanted);
    };
    if !records.owed.initialise {
        wanted.rate = wanted.rate.filter(|rate| *rate != records.driver.rate());
        wanted.gain = wanted.gain.filter(|gain| gain_step(*gain).1 != (records.tuner.gain() * 10.0).round() as i32);
    }
    (Start::Kept(Box::new(records.clone())), wanted)
}

/// How the receiver stands behind a hop, in one line.
fn told(run: &crate::runs::run::Run, done: bool, table: &Table, own: &mut Out) -> (End, String) {
    let Some(records) = &run.records else { return (End::Stopped, String::from("STOPPED")) };
    let last = run.made.last();
    if !done {
        return match last.and_then(|made| made.result.err().map(|error| (made.call.name(), error))) {
            Some((call, Error::Step { .. })) => (End::Stopped, format!("STOPPED in {call}")),
            Some((call, error)) => (End::Refused, format!("REFUSED by {call}: {} {}", error.number(), error.word())),
            None => (End::Stopped, String::from("STOPPED before its tuning")),
        };
    }
    let standing = Standing::of(records, Some(table));
    let lock = run.lock().map_or_else(String::new, |lock| format!("{lock}"));
    let centre = Station::of(records, Some(table)).centre();
    let centre = centre.map_or_else(
        || String::from("centre UNKNOWN"),
        |centre| format!("centre {centre} Hz ({:+} Hz)", i128::from(centre) - i128::from(records.owed.hz)),
    );
    let again = run.made.iter().filter(|made| made.result.is_err()).count();
    let again = if again > 0 { format!(", {} made again", counted(again, "call")) } else { String::new() };
    match standing.end() {
        End::Done => (End::Done, format!("on station, {lock}, {centre}{again}")),
        end => {
            let words = if end == End::NotLocked { "NOT LOCKED" } else { "DOUBTFUL" };
            standing.tell("the next hop makes what is owed", own);
            (end, format!("{words}, {lock}, {centre}{again}"))
        }
    }
}

impl Count {
    fn add(&mut self, end: End) {
        match end {
            End::Done => self.right += 1,
            End::NotLocked => self.not_locked += 1,
            End::Doubtful => self.doubtful += 1,
            End::Refused => self.refused += 1,
            End::Stopped | End::Mistaken => self.stopped += 1,
        }
    }

    fn all(&self) -> usize {
        self.right + self.not_locked + self.doubtful + self.refused + self.stopped + self.unmade + self.unreached
    }

    fn words(&self) -> String {
        let Count { right, not_locked, doubtful, refused, stopped, unmade, unreached } = self;
        let others = [
            (not_locked, "not locked"),
            (doubtful, "doubtful"),
            (refused, "refused"),
            (stopped, "stopped"),
            (unmade, "not made"),
            (unreached, "not come to"),
        ];
        let others: String = others.iter().filter(|(count, _)| **count > 0).map(|(count, what)| format!(", {count} {what}")).collect();
        format!("{}: {right} on station{others}", counted(self.all(), "hop"))
    }
}

fn summary(rows: &[Row], counts: &[Count], given: &Given, out: &mut Out) {
    let mut sum = Count::default();
    for (row, count) in rows.iter().zip(counts) {
        sum.right += count.right;
        sum.not_locked += count.not_locked;
        sum.doubtful += count.doubtful;
        sum.refused += count.refused;
        sum.stopped += count.stopped;
        sum.unmade += count.unmade;
        sum.unreached += count.unreached;
        if count.right < count.all() && !given.has(Key::Quiet) {
            out.line(&format!("{}: {}", row.name, count.words()));
        }
    }
    // Whatever was told of a hop: what is not right is no status 0.
    if sum.stopped + sum.unmade > 0 {
        out.ends(End::Stopped);
    }
    let line = format!("{}, {}", counted(rows.len(), "receiver"), sum.words());
    if sum.unreached > 0 {
        out.tell(End::Refused, &format!("ended by a signal: {} not come to", counted(sum.unreached, "hop")));
    }
    if !given.has(Key::Quiet) {
        out.line(&line);
    } else if sum.right < sum.all() {
        out.tell(End::Done, &line);
    }
}
