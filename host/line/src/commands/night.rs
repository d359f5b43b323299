//! `night`: what each recording of a night is, by what was sent: a file a receiver, a line a hop. The log beside a file tells what was asked; the rest is the library's
//! evidence of the file's sections.
use crate::files::filed::File;
use crate::files::logged::Log;
use crate::files::parts::Parts;
use crate::files::sections::Walk;
use crate::judged::hops::{Hop, Hops, Unlogged};
use crate::judged::page;
use crate::judged::told::{Receiver, count_words, lock_words, notes, off};
use crate::judged::verdict::Verdict;
use crate::printed::names::{self, counted};
use crate::printed::out::{End, Out};
use crate::printed::{clock, json};
use crate::runs::boards::Place;
use crate::words::given::Given;
use crate::words::named::{called, is_standard};
use crate::words::numbers;
use crate::words::options::Key;
use pasetone::Board;
use pasetone::evidence::Lock;
use std::ffi::{OsStr, OsString};
use std::fs;

pub fn run(given: &Given, out: &mut Out) {
    given.wants_files("night", out);
    let unlogged = unlogged(given, out);
    for key in [Key::Joined, Key::Asked].into_iter().filter(|key| given.has(*key) && given.operands.len() > 1) {
        out.mistake(&format!("{} is of one file: give one", crate::words::options::option(key).name));
    }
    if given.operands.iter().any(|name| is_standard(name)) && given.word(Key::Table).is_some_and(is_standard) {
        out.mistake("standard input can be read once: give - to the night or to --table");
    }
    if out.is_mistaken() {
        return;
    }
    let page = given.sink(Key::Html, out);
    if out.is_mistaken() {
        return;
    }
    let mut receivers: Vec<Receiver> = Vec::new();
    for name in &given.operands {
        receivers.extend(judged(name, given, &unlogged, out));
    }
    if receivers.is_empty() {
        return;
    }
    in_all(&receivers, given, out);
    if let Some(Err(why)) = page.map(|sink| page::write(&receivers, sink)) {
        out.mistake(&format!("--html {why}"));
    }
}

/// What is taken where there is no log.
fn unlogged(given: &Given, out: &mut Out) -> Unlogged {
    let address = given.value(Key::Tuner, out, |text| u8::try_from(numbers::whole(text)?).ok());
    let reference = given.value(Key::Reference, out, |text| u32::try_from(numbers::hertz(text)?).ok().filter(|hz| *hz > 0));
    let board = given.value(Key::Board, out, names::board_of).unwrap_or(Board::V4);
    if given.has(Key::Board) && given.has(Key::Table) {
        out.mistake("--table is the board: give --board or --table");
    }
    let table = Place::given(given, board, out).table;
    let asked = given.value(Key::Asked, out, |text| text.split(',').map(numbers::hertz).collect::<Option<Vec<u64>>>());
    Unlogged { address, reference: reference.unwrap_or(28_800_000), table, asked: asked.unwrap_or_default() }
}

/// The log of a file, where there is one.
fn log_of(name: &OsStr, given: &Given) -> Option<OsString> {
    if let Some(log) = given.word(Key::Joined) {
        return Some(log.to_os_string());
    }
    let mut beside = name.to_os_string();
    beside.push(".log");
    Some(beside).filter(|beside| !is_standard(name) && fs::metadata(beside).is_ok())
}

/// A file's hops, each told as it is found. `None` where it cannot be judged, which has then been told.
fn judged(name: &OsStr, given: &Given, unlogged: &Unlogged, out: &mut Out) -> Option<Receiver> {
    let log = log_of(name, given);
    let whose = given.word(Key::Whose).and_then(OsStr::to_str);
    let read = log.as_deref().map(|log| Log::read(log, whose)).transpose().map_err(|why| out.mistake(&format!("--log {why}"))).ok()?;
    let mut parts = Parts::open(name).map_err(|why| out.mistake(&format!("night {why}"))).ok()?;
    if read.is_some() && !unlogged.asked.is_empty() {
        out.mistake("--asked is for a file without a log: give one of the two");
        return None;
    }
    let found = parts.find().map_err(|why| out.mistake(&format!("night {why}"))).ok()?;
    let logged = log.as_deref().map(called);
    let own = read.as_ref().and_then(|log| log.name.clone()).unwrap_or_else(|| called(name));
    let mut receiver = Receiver { name: own, file: called(name), log: None, logged, hops: Vec::new(), parts: None, count: [0; 5] };
    if let Err(damaged) = found {
        tell_damage(name, damaged.0, out);
        receiver.told(given, "DAMAGED: not judged", out);
        return Some(receiver);
    }
    receiver.head(given, out);
    let log = read.and_then(|read| joined(read, log.as_deref().unwrap_or_default(), &parts, &receiver.file, out));
    receiver.hops(&parts, log.as_ref(), given, unlogged, out).map_err(|why| out.mistake(&format!("night {why}"))).ok()?;
    let hops: usize = receiver.count.iter().sum();
    if hops == 0 {
        out.tell(End::Doubtful, &format!("{}: there is no hop in it: no tuning was sent", receiver.file));
    }
    if !unlogged.asked.is_empty() && unlogged.asked.len() != hops {
        let (asked, hops) = (counted(unlogged.asked.len(), "frequency").replace("ys", "ies"), counted(hops, "hop"));
        out.mistake(&format!(
            "--asked has {asked} and {} has {hops}: what is told above may be of another; give one for each",
            receiver.file
        ));
    }
    receiver.told(given, "", out);
    if given.has(Key::Html) {
        (receiver.log, receiver.parts) = (log, Some(parts));
    }
    Some(receiver)
}

/// The damaged parts in words, as `show` has them.
fn tell_damage(name: &OsStr, end: u64, out: &mut Out) {
    match File::read(name).map(|file| (Walk::of(&file.bytes), file)) {
        Ok((walk, file)) if walk.damages() > 0 => drop(file.damaged(&walk, out)),
        _ => out.tell(End::Refused, &format!("{}: no section ends before byte {end}", called(name))),
    }
    out.tell(End::Refused, &format!("{}: some of it is no section (refusal 12), so nothing of it is judged", called(name)));
}

/// A log whose every line is of a section of the file. Another is told, and not joined.
fn joined(log: Log, path: &OsStr, parts: &Parts, file: &str, out: &mut Out) -> Option<Log> {
    if let Some(why) = log.told(path) {
        out.tell(End::Refused, &why);
    }
    if parts.has(log.lines.iter().filter(|line| line.length > 0).map(|line| (line.at, line.length))) {
        return Some(log);
    }
    let why = "a line of it is of no section there, so that it is of another file, or of an older one by this name";
    out.tell(End::Refused, &format!("{}: it is no log of {file}: {why}; it is not joined", called(path)));
    None
}

impl Receiver {
    fn hops(&mut self, parts: &Parts, log: Option<&Log>, given: &Given, unlogged: &Unlogged, out: &mut Out) -> Result<(), String> {
        let mut lines = log.map_or(&[][..], |log| &log.lines).iter().peekable();
        let Receiver { name, file, hops: kept, count, .. } = self;
        let mut hops = Hops::new(log.and_then(|log| log.address), unlogged, |hop: Hop| {
            count[hop.verdict.at()] += 1;
            tell(&hop, name, file, given, out);
            if given.has(Key::Html) {
                kept.push(hop);
            }
        });
        parts.each(|at, section| {
            while let Some(line) = lines.next_if(|line| line.length == 0 && line.at <= at) {
                hops.refused(line);
            }
            hops.see(at, section, lines.next_if(|line| line.at == at));
        })?;
        lines.for_each(|line| hops.refused(line));
        hops.end();
        Ok(())
    }

    fn head(&self, given: &Given, out: &mut Out) {
        if !given.has(Key::Json) && !given.has(Key::Quiet) {
            out.line(&self.logged.as_ref().map_or_else(|| format!("{}, no log", self.file), |log| format!("{}, log {log}", self.file)));
            out.line(" hop time (UTC)          asked     centre    rate lock     doubt  verdict");
        }
    }

    /// What it came to.
    fn told(&self, given: &Given, fault: &str, out: &mut Out) {
        if given.has(Key::Json) {
            let mut fields = vec![
                ("receiver", json::string(&self.name)),
                ("file", json::string(&self.file)),
                ("log", json::maybe(self.logged.as_deref().map(json::string))),
                ("damaged", (!fault.is_empty()).to_string()),
            ];
            fields.extend(count_json(&self.count));
            out.line(&json::object(&fields));
        } else if !given.has(Key::Quiet) {
            let came = if fault.is_empty() { count_words(&self.count) } else { out.loud(fault) };
            out.line(&format!("{}: {came}", self.name));
            out.line("");
        }
    }
}

fn tell(hop: &Hop, receiver: &str, file: &str, given: &Given, out: &mut Out) {
    let end = hop.verdict.end();
    if given.has(Key::Json) {
        out.line(&hop_json(hop, receiver, file));
    } else if !given.has(Key::Quiet) {
        out.line(&row(hop, out));
        notes(hop).iter().for_each(|note| out.line(&format!("     {note}")));
    } else if hop.verdict != Verdict::Right {
        let time = hop.began.map_or_else(String::new, |time| format!(" ({})", clock::words(time)));
        let why = notes(hop).iter().map(|note| format!("; {note}")).collect::<String>();
        out.tell(end, &format!("{receiver}: hop {}{time}: {}{why}", hop.number, hop.verdict.words()));
    }
    out.ends(end);
}

fn row(hop: &Hop, out: &Out) -> String {
    let dash = |value: Option<String>| value.unwrap_or_else(|| String::from("-"));
    let time = dash(hop.began.map(|time| clock::words(time)[5..19].replace('T', " ")));
    let (asked, centre) = (dash(hop.asked.map(|hz| hz.to_string())), dash(hop.centre.map(|hz| hz.to_string())));
    let (rate, lock) = (dash(hop.rate.map(|rate| rate.to_string())), lock_words(hop.lock, hop.tries));
    let words = if hop.verdict == Verdict::Right { hop.verdict.words() } else { out.loud(&hop.verdict.words()) };
    format!("{:>4} {time:<14} {asked:>10} {centre:>10} {rate:>7} {lock:<8} {:>5}  {words}", hop.number, hop.doubtful)
}

fn hop_json(hop: &Hop, receiver: &str, file: &str) -> String {
    let lock = match hop.lock {
        Lock::Locked => "true",
        Lock::Without => "false",
        Lock::Unread => "null",
    };
    let time = |time: Option<u64>| json::maybe(time.map(|time| json::string(&clock::words(time))));
    json::object(&[
        ("receiver", json::string(receiver)),
        ("file", json::string(file)),
        ("hop", hop.number.to_string()),
        ("began", time(hop.began)),
        ("time", time(hop.time)),
        ("attempts", hop.attempts.to_string()),
        ("asked", json::maybe(hop.asked)),
        ("centre", json::maybe(hop.centre)),
        ("off", json::maybe(off(hop))),
        ("rate", json::maybe(hop.rate)),
        ("lock", String::from(lock)),
        ("tries", hop.tries.to_string()),
        ("doubtful", hop.doubtful.to_string()),
        ("verdict", json::string(Verdict::WORDS[hop.verdict.at()])),
        ("why", json::array(hop.why.iter().map(|why| json::string(why)))),
        ("at", hop.start.to_string()),
        ("length", (hop.end - hop.start).to_string()),
    ])
}

fn count_json(count: &[usize; 5]) -> Vec<(&'static str, String)> {
    let mut fields = vec![("hops", count.iter().sum::<usize>().to_string())];
    fields.extend(["right", "beside", "not_locked", "doubtful", "unknown"].into_iter().zip(count.iter().map(usize::to_string)));
    fields
}

fn in_all(receivers: &[Receiver], given: &Given, out: &mut Out) {
    let mut count = [0; 5];
    for receiver in receivers {
        count.iter_mut().zip(receiver.count).for_each(|(all, own)| *all += own);
    }
    if given.has(Key::Json) {
        let mut fields = vec![("receivers", receivers.len().to_string())];
        fields.extend(count_json(&count));
        out.line(&json::object(&fields));
    } else if !given.has(Key::Quiet) {
        out.line(&format!("in all: {}, {}", counted(receivers.len(), "receiver"), count_words(&count)));
    }
}
