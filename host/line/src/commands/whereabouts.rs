//! `where`: which station a kept record stands on, by its registers.
use crate::files::disk;
use crate::files::record::{self, Records};
use crate::files::state::Keeper;
use crate::files::station::Station;
use crate::printed::out::Out;
use crate::printed::{json, names};
use crate::runs::advice;
use crate::runs::boards::Place;
use crate::runs::standing::Standing;
use crate::words::given::Given;
use crate::words::named::{called, is_standard, shown};
use crate::words::options::Key;
use pasetone::Table;
use std::ffi::OsStr;
use std::fs;

pub fn run(given: &Given, out: &mut Out) {
    // What is only looked at is not made.
    if let Some(state) = given.word(Key::State).filter(|state| !is_standard(state) && fs::metadata(state).is_err()) {
        return out.mistake(&format!("--state {}: there is no such file: name one that is there", shown(state)));
    }
    let keeper = Keeper::look(given, out);
    let name = match (given.word(Key::State), given.operands.as_slice()) {
        (Some(state), []) => state,
        (Some(_), _) => return out.mistake("--state has the record: give --state or a file that --keep has written"),
        (None, [name]) => name.as_os_str(),
        (None, _) => return out.mistake("where wants one file that --keep has written, or - for standard input"),
    };
    let records = if given.has(Key::State) { Keeper::needed(keeper.as_ref(), out) } else { kept(name, given, out) };
    let Some(records) = records.filter(|_| !out.is_mistaken()) else { return };
    let place = Place::given(given, records.driver.board(), out);
    if out.is_mistaken() {
        return;
    }
    let table = if given.has(Key::Table) { Some(&place.table) } else { keeper.as_ref().and_then(Keeper::table) };
    if given.has(Key::Json) {
        json(&records, table, out);
    } else if !given.has(Key::Quiet) {
        lines(&records, table, out);
    }
    if keeper.as_ref().is_some_and(Keeper::is_live) {
        return Standing::of(&records, table).tell(&advice::on_the_bus(name, &advice::hertz(&records.owed)), out);
    }
    tell(name, given, &records, table, out);
}

/// The record that a file holds.
fn kept(name: &OsStr, given: &Given, out: &mut Out) -> Option<Records> {
    if is_standard(name) && given.word(Key::Table).is_some_and(is_standard) {
        out.mistake("standard input can be read once: give - to the record or to --table");
    }
    if out.is_mistaken() {
        return None;
    }
    let bytes = disk::start(name, record::LOOKED_AT).map_err(|why| out.mistake(&format!("where {why}"))).ok()?;
    record::judged(&bytes, &format!("where {}", called(name)), out)
}

/// What is not right, with what to do.
pub fn tell(name: &OsStr, given: &Given, records: &Records, table: Option<&Table>, out: &mut Out) {
    Standing::of(records, table).tell(&advice::reload_again(name, given, records), out);
}

/// What a record says of its receiver.
pub fn lines(records: &Records, table: Option<&Table>, out: &mut Out) {
    let Records { tuner, driver, owed } = records;
    let (kind, address) = (names::kind(tuner.kind()), tuner.address());
    let (nominal, corrected) = (tuner.nominal(), tuner.corrected());
    out.line(&format!("{kind} at 0x{address:02x}, reference {nominal} Hz, corrected {corrected} Hz"));
    out.line(&format!("asked:   {} Hz, rate {}, gain {:.1} dB", owed.hz, driver.rate(), tuner.gain()));
    out.line(&format!("station: {}", Station::of(records, table).line()));
    let lock = if owed.tune {
        "a tuning is owed"
    } else if owed.unread {
        "NOT READ since every register was sent again"
    } else if tuner.has_lock() {
        "locked"
    } else {
        "NOT locked"
    };
    out.line(&format!("lock:    {lock}"));
}

fn json(records: &Records, table: Option<&Table>, out: &mut Out) {
    out.line(&json::document(&fields(records, table)));
}

/// The same for programs.
pub fn fields(records: &Records, table: Option<&Table>) -> Vec<(&'static str, String)> {
    let Records { tuner, driver, owed } = records;
    let mut fields = vec![
        ("kind", json::string(names::kind(tuner.kind()))),
        ("address", tuner.address().to_string()),
        ("reference", tuner.nominal().to_string()),
        ("corrected", tuner.corrected().to_string()),
        ("asked", owed.hz.to_string()),
        ("rate", driver.rate().to_string()),
        ("if", tuner.if_freq().to_string()),
        ("locked", (tuner.has_lock() && !owed.tune && !owed.unread).to_string()),
        ("doubtful", json::array(tuner.doubtful())),
        ("owed", json::array(owed.calls().iter().map(|call| json::string(call)))),
        ("station_known", owed.is_station_known().to_string()),
        ("status", Standing::of(records, table).end().status().to_string()),
    ];
    fields.extend(Station::of(records, table).json());
    fields
}
