//! `start`: a receiver on the bus from power on, as the Rust's driver begins with one; then rate, gain and, where a frequency is given, the tuning.
use crate::bus::device::{self, Link};
use crate::files::state::Keeper;
use crate::printed::json;
use crate::printed::names::counted;
use crate::printed::out::{End, Out};
use crate::printed::registers::runs;
use crate::runs::advice;
use crate::runs::answer::{self, Told, Wish};
use crate::runs::beginning;
use crate::runs::boards::Place;
use crate::runs::live::{Live, Wanted};
use crate::runs::receiver::{self, Receiver};
use crate::runs::report::{self, Head};
use crate::runs::run::{Run, Start};
use crate::words::given::Given;
use crate::words::numbers;
use crate::words::options::Key;

/// What is said once by a record, and may be said anew.
const OWN: [Key; 5] = [Key::Kind, Key::Address, Key::Board, Key::Reference, Key::Settings];

pub fn run(given: &Given, out: &mut Out) {
    let hz = if given.operands.is_empty() { None } else { numbers::one_hertz("start", &given.operands, out) };
    let words = Receiver::of_words(given, hz, out);
    if !given.has(Key::Device) {
        out.mistake("start wants a receiver: give --device, as `devices` lists them");
    }
    device::together(given, out);
    if given.has(Key::Board) && given.has(Key::Table) {
        out.mistake("--table is the board: give --board or --table");
    }
    given.reads_once(&[Key::Table, Key::Settings], out);
    given.names_other_files(out);
    let settings = receiver::kept(given, out);
    let words = match &settings {
        Some(kept) => words.filled(kept),
        None => words,
    };
    let Some((start, place, keeper, link)) = opened(given, &words, out) else { return };
    let Receiver { ppm, rate, gain, if_hz, frequency, .. } = words;
    let wanted = Wanted { hz: frequency, ppm, initialise: false, rate, gain, if_hz };
    let head = Head::of(&start, &place, None);
    let mut live = match Live::new(start, &wanted, &place.table, keeper, link) {
        Ok(live) => live,
        Err(error) => return answer::refused(given, error, &error.to_string(), out),
    };
    if !live.hop(&wanted, out) {
        live.records.owed.tune = true;
        live.records.owed.hz = frequency.unwrap_or(live.records.owed.hz);
    }
    tell(given, live.end(), &wanted, (head, place), out);
}

/// The receiver and its state: begun anew by the state's own words, or by those that are given.
fn opened(given: &Given, words: &Receiver, out: &mut Out) -> Option<(Start, Place, Keeper, Link)> {
    let link = Link::open(given, out)?;
    let mut keeper = Keeper::open(given, Some(&link), out)?;
    if OWN.iter().any(|key| given.has(*key)) {
        keeper.forget();
    }
    keeper.begin_anew().map_err(|why| out.mistake(&why)).ok()?;
    let (start, place) = beginning::begins(given, words, Some(&keeper), out);
    (!out.is_mistaken()).then_some((start?, place, keeper, link))
}

/// What it came to.
fn tell(given: &Given, mut run: Run, wanted: &Wanted, (head, place): (Head, Place), out: &mut Out) {
    let again = again(given);
    let told = match wanted.hz {
        None if run.made.last().is_some_and(|made| made.result.is_ok()) => brought_up(&run),
        hz => {
            let wish = Wish { hz: hz.unwrap_or(0), rate: wanted.rate.unwrap_or(0), table: &place.table, again: again.clone() };
            answer::of(&run, &wish)
        }
    };
    if given.has(Key::Json) {
        let mut fields = vec![("receiver", head.json(&place, None))];
        fields.extend(report::run_json(&run, &told, None, Some(&place.table)));
        out.line(&json::document(&fields));
    } else if !given.has(Key::Quiet) {
        out.line(&head.line(None));
        report::table(&run, &told, None, Some(&place.table), out);
    }
    match wanted.hz {
        None if told.number == 0 => untuned(&run, &again, out),
        _ => report::ended(&run, &told, Some(&place.table), &again, given.has(Key::Quiet), out),
    }
    run.keep_state(out);
}

fn brought_up(run: &Run) -> Told {
    answer::simply(format!("done: {}, brought up, not tuned yet", counted(run.steps, "step")), None)
}

/// Of a receiver that was not to be tuned: what is doubtful or owed beside the tuning.
fn untuned(run: &Run, again: &str, out: &mut Out) {
    let Some(records) = &run.records else { return };
    let doubtful: Vec<u8> = records.tuner.doubtful().collect();
    let owed: Vec<String> = records.owed.calls().into_iter().filter(|call| call != "tune" && call != "board input").collect();
    if !owed.is_empty() {
        out.tell(End::Doubtful, &format!("DOUBTFUL: not done: {}; to do: {again}", owed.join(", ")));
    }
    if !doubtful.is_empty() {
        out.tell(End::Doubtful, &format!("DOUBTFUL: {}: {}; to do: {again}", counted(doubtful.len(), "register"), runs(&doubtful)));
    }
}

/// The same start once more.
fn again(given: &Given) -> String {
    advice::same("start", given)
}
