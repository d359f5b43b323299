//! `reload`: the first half of the way back after a step that failed. It sends a kept record's shadow again, every register of it; the call that was cut is
//! then made again.
use crate::bus::device::{self, Link};
use crate::files::disk;
use crate::files::kept::Kept;
use crate::files::record::{self, Records};
use crate::files::state::Keeper;
use crate::printed::out::{End, Out};
use crate::printed::{json, names};
use crate::runs::answer::{self, Told, Wish};
use crate::runs::boards::Place;
use crate::runs::live::{Live, Wanted};
use crate::runs::run::{Run, Start};
use crate::runs::{advice, report, script};
use crate::words::given::Given;
use crate::words::named::{called, is_standard};
use crate::words::options::Key;
use pasetone::{Table, Tuner};
use std::ffi::OsString;

/// The words, read: everything that can be wrong with them has been told.
struct Request {
    records: Records,
    place: Place,
    outcomes: Vec<u8>,
    fail: Option<usize>,
    files: Kept,
    keeper: Option<Keeper>,
    link: Option<Link>,
}

/// Reads all words, and only then opens files.
fn request(given: &Given, out: &mut Out) -> Option<Request> {
    let fail = script::fail(given, out);
    given.names_other_files(out);
    let read = [Key::Outcomes, Key::Table];
    if given.operands.iter().any(|name| is_standard(name)) && read.iter().any(|key| given.word(*key).is_some_and(is_standard)) {
        out.mistake("standard input can be read once: give - to the record or to an option");
    }
    given.reads_once(&read, out);
    if given.has(Key::State) && given.has(Key::Keep) {
        out.mistake("--state has the record, before the run and behind it: give --state or --keep");
    }
    device::together(given, out);
    let link = Link::open(given, out);
    let keeper = Keeper::open(given, link.as_ref(), out);
    let records = if given.has(Key::State) { held(given, keeper.as_ref(), out) } else { kept(given, out) };
    let outcomes = script::outcomes(given, fail, out);
    let records = records?;
    let place = Place::given(given, records.driver.board(), out);
    if out.is_mistaken() {
        return None;
    }
    let files = given.kept_files(out);
    (!out.is_mistaken()).then_some(Request { records, place, outcomes, fail, files, keeper, link })
}

pub fn run(given: &Given, out: &mut Out) {
    let Some(Request { records, place, outcomes, fail, files, keeper, link }) = request(given, out) else { return };
    let Some(name) = given.word(Key::State).or(given.operands.first().map(OsString::as_os_str)) else { return };
    let before = records.tuner.clone();
    // By the words, or by the state; a kept record names none.
    let named = if given.has(Key::Table) { Some(place.table.clone()) } else { keeper.as_ref().and_then(Keeper::table).cloned() };
    let table = named.as_ref();
    let all = table.unwrap_or(&place.table);
    let made = match (link, keeper) {
        (Some(link), Some(keeper)) => live(records, all, keeper, link, out),
        (_, keeper) => Some(Run::reload(records, all, outcomes, keeper)),
    };
    let Some(mut run) = made else { return };
    let kept = given.word(Key::Keep).unwrap_or(name);
    let again = run.records.as_ref().map_or_else(String::new, |records| advice::reload_again(kept, given, records));
    let wish = Wish { hz: 0, rate: 0, table: &place.table, again: again.clone() };
    let told = answer::of(&run, &wish);
    let unreached = fail.filter(|step| run.steps <= *step);
    if given.has(Key::Json) {
        json(&before, &run, &told, unreached, table, out);
    } else if !given.has(Key::Quiet) {
        out.line(&head(&before));
        report::table(&run, &told, unreached, table, out);
    }
    report::ended(&run, &told, table, &again, given.has(Key::Quiet), out);
    run.keep(files, out);
}

fn json(before: &Tuner, run: &Run, told: &Told, unreached: Option<usize>, table: Option<&Table>, out: &mut Out) {
    let mut fields = vec![("receiver", receiver_json(before))];
    fields.extend(report::run_json(run, told, unreached, table));
    let registers = run.records.as_ref().map(|records| report::registers_json(&records.tuner));
    fields.push(("registers", registers.unwrap_or_else(|| String::from("[]"))));
    out.line(&json::document(&fields));
}

/// The same on a receiver of the bus. `None` where it is not brought up, which has then been told.
fn live(records: Records, table: &Table, keeper: Keeper, link: Link, out: &mut Out) -> Option<Run> {
    if records.owed.setup {
        out.tell(
            End::Doubtful,
            "reload: the receiver is not brought up, and has no registers to be sent again: `start` or `hop` brings it up",
        );
        return None;
    }
    let wanted = Wanted { hz: None, ppm: None, initialise: false, rate: None, gain: None, if_hz: None };
    let mut live = Live::new(Start::Kept(Box::new(records)), &wanted, table, keeper, link).ok()?;
    live.reload(out);
    Some(live.end())
}

/// The record of a state.
fn held(given: &Given, keeper: Option<&Keeper>, out: &mut Out) -> Option<Records> {
    if !given.operands.is_empty() {
        out.mistake("--state has the record: give --state or a file that --keep has written");
    }
    Keeper::needed(keeper, out)
}

/// The record that the one operand names.
fn kept(given: &Given, out: &mut Out) -> Option<Records> {
    let [name] = given.operands.as_slice() else {
        out.mistake("reload wants one file that --keep has written, or - for standard input");
        return None;
    };
    if out.is_mistaken() {
        return None;
    }
    let read = if given.has(Key::Keep) { disk::start_locked(name, record::LOOKED_AT, out) } else { disk::start(name, record::LOOKED_AT) };
    let bytes = read.map_err(|why| out.mistake(&format!("reload {why}"))).ok()?;
    record::judged(&bytes, &format!("reload {}", called(name)), out)
}

/// Of the board nothing is said: a reload has nothing to do with it, and a record made by a table does not name that.
fn head(tuner: &Tuner) -> String {
    let (kind, address, doubtful) = (names::kind(tuner.kind()), tuner.address(), tuner.doubtful().count());
    format!("{kind} at 0x{address:02x}: {doubtful} of 27 registers doubtful")
}

fn receiver_json(tuner: &Tuner) -> String {
    json::object(&[
        ("kind", json::string(names::kind(tuner.kind()))),
        ("address", tuner.address().to_string()),
        ("doubtful", json::array(tuner.doubtful())),
    ])
}
