//! `hop`: the calls that lead to a frequency, over a fresh record or a kept one, with a script in place of a receiver.
use crate::bus::device::Link;
use crate::files::kept::Kept;
use crate::files::owed::{GAIN, RATE};
use crate::files::state::Keeper;
use crate::printed::names;
use crate::printed::out::Out;
use crate::runs::answer::{self, Wish};
use crate::runs::beginning;
use crate::runs::boards::Place;
use crate::runs::live::{Live, Wanted};
use crate::runs::receiver::{self, Receiver};
use crate::runs::report::{self, Head, Report};
use crate::runs::run::{Asked, Run, Start};
use crate::runs::{advice, script};
use crate::words::given::Given;
use crate::words::named::called;
use crate::words::numbers;
use crate::words::options::{Key, option};
use pasetone::Error;

/// The words, read: everything that can be wrong with them has been told.
struct Request {
    asked: Asked,
    start: Start,
    place: Place,
    /// The file of --settings, and its edition.
    settings: Option<(String, u8)>,
    outcomes: Vec<u8>,
    replies: Vec<u8>,
    fail: Option<usize>,
    files: Kept,
    keeper: Option<Keeper>,
    link: Option<Link>,
}

pub fn run(given: &Given, out: &mut Out) {
    let Some(request) = request(given, out).filter(|_| !out.is_mistaken()) else { return };
    let Request { asked, start, place, settings, outcomes, replies, fail, files, keeper, link } = request;
    let head = Head::of(&start, &place, settings);
    let mut run = match (link, keeper) {
        (Some(link), Some(keeper)) => match live(start, &asked, &place, keeper, link, out) {
            Ok(run) => run,
            Err(error) => return answer::refused(given, error, &error.to_string(), out),
        },
        (_, keeper) => Run::hop(start, &asked, &place.table, outcomes, replies, keeper),
    };
    if let Some(records) = run.records.as_mut() {
        // A state has the table itself.
        records.owed.table = place.file.is_some() && !given.has(Key::State);
    }
    let again = advice::hop_again(given, asked.hz, &run);
    let wish = Wish { hz: asked.hz, rate: asked.rate.unwrap_or(0), table: &place.table, again: again.clone() };
    let told = answer::of(&run, &wish);
    let unreached = fail.filter(|step| run.steps <= *step);
    let plan = place.table.plan_tuning(asked.hz).ok();
    let mut report = Report { head, place, asked, plan, run, told, unreached };
    if given.has(Key::Json) {
        report.json(out);
    } else if !given.has(Key::Quiet) {
        report.table(out);
    }
    report::ended(&report.run, &report.told, Some(&report.place.table), &again, given.has(Key::Quiet), out);
    report.run.keep(files, out);
}

/// The same on a receiver of the bus.
fn live(start: Start, asked: &Asked, place: &Place, keeper: Keeper, link: Link, out: &mut Out) -> Result<Run, Error> {
    let Asked { hz, ppm, initialise, rate, gain, if_hz } = *asked;
    let wanted = Wanted { hz: Some(hz), ppm, initialise, rate, gain, if_hz };
    let mut live = Live::new(start, &wanted, &place.table, keeper, link)?;
    if !live.hop(&wanted, out) {
        // It was on its way there.
        (live.records.owed.hz, live.records.owed.tune) = (hz, true);
    }
    Ok(live.end())
}

/// Reads all words, and only then opens files, so that one line is told for each mistake.
fn request(given: &Given, out: &mut Out) -> Option<Request> {
    let words = Receiver::of_words(given, frequency(given, out), out);
    let fail = script::fail(given, out);
    beginning::together(given, out);
    let settings = receiver::kept(given, out);
    let receiver = match &settings {
        Some(kept) => words.filled(kept),
        None => words,
    };
    let link = Link::open(given, out);
    let keeper = Keeper::open(given, link.as_ref(), out);
    let (start, place) = beginning::begins(given, &receiver, keeper.as_ref(), out);
    if let Some(kept) = &settings {
        fits(given, kept, start.as_ref(), out);
    }
    let outcomes = script::outcomes(given, fail, out);
    let replies = script::replies(given, script::lock(start.as_ref().map(Start::kind)), out);
    let Receiver { ppm, rate, gain, if_hz, frequency, .. } = receiver;
    // A receiver on the bus is initialised by its bring-up, and owes a rate and a gain till then.
    let asked = if matches!(start, Some(Start::Kept(_))) || given.has(Key::Record) || link.is_some() {
        Asked { hz: frequency?, ppm, initialise: given.has(Key::Initialise), rate, gain, if_hz }
    } else {
        Asked { hz: frequency?, ppm, initialise: true, rate: rate.or(Some(RATE)), gain: gain.or(Some(GAIN)), if_hz }
    };
    if out.is_mistaken() {
        return None;
    }
    let files = given.kept_files(out);
    let settings = settings.map(|kept| (given.word(Key::Settings).map(called).unwrap_or_default(), kept.edition));
    Some(Request { asked, start: start?, place, settings, outcomes, replies, fail, files, keeper, link })
}

/// The frequency; it may be left out where settings have one.
fn frequency(given: &Given, out: &mut Out) -> Option<u64> {
    if given.operands.is_empty() && given.has(Key::Settings) {
        return None;
    }
    numbers::one_hertz("hop", &given.operands, out)
}

/// Settings go over a running receiver where they are of its kind and of its board: their rate, gain and IF would else be sent to another.
fn fits(given: &Given, settings: &receiver::Kept, start: Option<&Start>, out: &mut Out) {
    let Some(Start::Kept(records)) = start else { return };
    let holder = if given.has(Key::State) { Key::State } else { Key::Record };
    let settings = settings.settings.settings;
    let own = (records.tuner.kind(), records.driver.board());
    if own == (settings.kind, settings.board) {
        return;
    }
    let words = |(kind, board)| format!("{} on a {} board", names::kind(kind), names::board(board));
    let file = |key| given.word(key).map(called).unwrap_or_default();
    let (theirs, own) = (words((settings.kind, settings.board)), words(own));
    let (site, kept, holder) = (file(Key::Settings), file(holder), option(holder).name);
    out.mistake(&format!("--settings {site} is of an {theirs}, and {holder} {kept} of an {own}: give the settings of that receiver"));
}
