//! What a run begins with: a fresh record, a kept one or a state, and the board; and the options that do not go together there.
use crate::bus::device;
use crate::files::record;
use crate::files::state::Keeper;
use crate::printed::out::Out;
use crate::runs::boards::Place;
use crate::runs::receiver::Receiver;
use crate::runs::run::Start;
use crate::words::given::Given;
use crate::words::named::called;
use crate::words::options::{Key, option};

/// What a run begins with, and the board that it is on: by --record, by what a state held, or by the words.
pub fn begins(given: &Given, receiver: &Receiver, keeper: Option<&Keeper>, out: &mut Out) -> (Option<Start>, Place) {
    let held = keeper.and_then(Keeper::records).cloned();
    if held.is_some() {
        not_beside(given, Key::State, "state", out);
    }
    let start = match held {
        Some(records) => Some(Start::Kept(Box::new(records))),
        None if given.has(Key::Record) => kept(given, out),
        None => Some(fresh(receiver)),
    };
    let board = match &start {
        Some(Start::Kept(records)) => records.driver.board(),
        _ => receiver.board(),
    };
    let own = keeper.and_then(|keeper| Some((keeper.table()?, keeper.name()))).filter(|(table, _)| **table != board.table());
    let place = match own.filter(|_| !given.has(Key::Table)) {
        Some((table, name)) => Place { board, table: table.clone(), file: Some(called(name)) },
        None => Place::given(given, board, out),
    };
    (start, place)
}

/// What a fresh record is made of.
fn fresh(receiver: &Receiver) -> Start {
    Start::Fresh { kind: receiver.kind(), address: receiver.address(), board: receiver.board(), reference: receiver.reference() }
}

/// Options that do not go together.
pub fn together(given: &Given, out: &mut Out) {
    device::together(given, out);
    if given.has(Key::Record) {
        not_beside(given, Key::Record, "record", out);
    }
    for key in [Key::Record, Key::Keep] {
        if given.has(Key::State) && given.has(key) {
            out.mistake(&format!("--state has the record, before the run and behind it: give --state or {}", option(key).name));
        }
    }
    if given.has(Key::Board) && given.has(Key::Table) {
        out.mistake("--table is the board: give --board or --table");
    }
    if given.has(Key::Initialise) && !given.has(Key::Record) && !given.has(Key::State) {
        out.mistake("--initialise goes with --record: a fresh record is initialised anyway");
    }
    given.reads_once(&[Key::Outcomes, Key::Replies, Key::Record, Key::Table, Key::Settings], out);
    given.names_other_files(out);
}

/// What a record or a state has is no word beside it.
fn not_beside(given: &Given, holder: Key, word: &str, out: &mut Out) {
    let name = option(holder).name;
    for key in [Key::Kind, Key::Address, Key::Board, Key::Reference].into_iter().filter(|key| given.has(*key)) {
        out.mistake(&format!("{} is in the {word} that {name} names: give one of the two", option(key).name));
    }
}

fn kept(given: &Given, out: &mut Out) -> Option<Start> {
    let bytes = given.record(record::LOOKED_AT, out)?;
    record::judged(&bytes, &format!("--record {}", given.word(Key::Record).map(called).unwrap_or_default()), out)
        .map(|records| Start::Kept(Box::new(records)))
}
