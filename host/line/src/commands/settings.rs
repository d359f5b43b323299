//! `settings show`, `settings write` and `settings move`: a receiver's settings on file, in two editions.
use crate::files::disk::{self, Sink};
use crate::printed::json;
use crate::printed::names::{self, Gain, gain_step};
use crate::printed::out::Out;
use crate::runs::answer;
use crate::runs::receiver::{self, Kept, Receiver};
use crate::words::given::Given;
use crate::words::named::{called, is_standard, shown};
use crate::words::numbers;
use crate::words::options::{Key, option};
use pasetone::{Error, Settings, Settings2};
use std::ffi::{OsStr, OsString};

pub fn run(given: &Given, out: &mut Out) {
    let edition = given.value(Key::Edition, out, |text| numbers::whole(text).filter(|edition| (1..=2).contains(edition)));
    let (word, names) = given.operands.split_first().map_or((None, &[][..]), |(word, names)| (word.to_str(), names));
    match (word, names) {
        (Some("show"), [file]) => show(given, file, out),
        (Some("write"), [file, hz @ ..]) => write(given, file, hz, edition.unwrap_or(2), out),
        (Some("move"), [file]) => moved(given, file, edition, out),
        _ => out.mistake("settings wants `show FILE`, `write FILE HZ` or `move FILE`: `./pasetone settings --help` has all three"),
    }
}

/// Told where options are given that this word does not take.
fn takes(given: &Given, word: &str, keys: &[Key], out: &mut Out) {
    for (key, _) in given.options().filter(|(key, _)| !keys.contains(key) && !matches!(key, Key::Json | Key::Quiet)) {
        out.mistake(&format!("settings {word} does not take {}: `./pasetone settings --help` says what does", option(key).name));
    }
}

fn show(given: &Given, file: &OsStr, out: &mut Out) {
    takes(given, "show", &[], out);
    if out.is_mistaken() {
        return;
    }
    match disk::read(file).and_then(|bytes| receiver::read(&bytes).map_err(|why| format!("{}: {why}", called(file)))) {
        Ok(kept) => print(given, &kept, &called(file), out),
        Err(why) => out.mistake(&format!("settings show {why}")),
    }
}

fn write(given: &Given, file: &OsStr, hz: &[OsString], edition: u64, out: &mut Out) {
    takes(given, "write", &[Key::Kind, Key::Board, Key::Settings, Key::Ppm, Key::Rate, Key::Gain, Key::If, Key::Edition], out);
    let hz = if hz.is_empty() && given.has(Key::Settings) { None } else { numbers::one_hertz("settings write FILE", hz, out) };
    let words = Receiver::of_words(given, hz, out);
    let receiver = match receiver::kept(given, out) {
        Some(kept) => words.filled(&kept),
        None => words,
    };
    let Some(frequency) = receiver.frequency.filter(|_| !out.is_mistaken()) else { return };
    let settings = Settings {
        kind: receiver.kind(),
        board: receiver.board(),
        correction: receiver.ppm.unwrap_or(0),
        rate: receiver.rate.unwrap_or(2_048_000),
        frequency,
        gain_index: gain_step(receiver.gain.unwrap_or(Gain::Tenths(297))).0 as u8,
    };
    let settings = Settings2 { settings, if_hz: receiver.if_hz.unwrap_or(2_300_000) };
    match image(&settings, edition) {
        Ok(bytes) => {
            let Some(sink) = target(file, out) else { return };
            print(given, &Kept { settings, edition: edition as u8 }, &shown(file), out);
            sink.keep_or_tell(&bytes, "settings write", out);
        }
        Err(error) => answer::refused(given, error, &format!("settings write {}: {error}", shown(file)), out),
    }
}

/// The file to be written, which is an operand.
fn target(file: &OsStr, out: &mut Out) -> Option<Sink> {
    if is_standard(file) {
        out.mistake("settings write wants a file's name: - is standard input, which is only read");
        return None;
    }
    Sink::open(file).map_err(|why| out.mistake(&format!("settings write {why}"))).ok()
}

/// The image of an edition; edition 1 by the move, which refuses an IF that it cannot say.
fn image(settings: &Settings2, edition: u64) -> Result<Vec<u8>, Error> {
    let second = settings.image()?;
    if edition == 1 { Settings::image_from_2(&second).map(Vec::from) } else { Ok(second.to_vec()) }
}

fn moved(given: &Given, file: &OsStr, edition: Option<u64>, out: &mut Out) {
    takes(given, "move", &[Key::Edition, Key::Out], out);
    for key in [Key::Edition, Key::Out].into_iter().filter(|key| !given.has(*key)) {
        out.mistake(&format!("settings move wants {}: {}", option(key).name, option(key).wants));
    }
    let Some(edition) = edition.filter(|_| !out.is_mistaken()) else { return };
    let bytes = match disk::read(file) {
        Ok(bytes) => bytes,
        Err(why) => return out.mistake(&format!("settings move {why}")),
    };
    let kept = match receiver::read(&bytes) {
        Ok(kept) => kept,
        Err(why) => return out.mistake(&format!("settings move {}: {why}", called(file))),
    };
    let image = if edition == 1 { Settings::image_from_2(&bytes).map(Vec::from) } else { Settings2::image_from_1(&bytes).map(Vec::from) };
    match image {
        Ok(image) => {
            let Some(sink) = given.sink(Key::Out, out) else { return };
            print(given, &Kept { edition: edition as u8, ..kept }, &given.word(Key::Out).map(shown).unwrap_or_default(), out);
            sink.keep_or_tell(&image, "--out", out);
        }
        Err(Error::Edition) => {
            let text = format!("settings move {}: it is of edition {edition} already (refusal 16): nothing is to be moved", called(file));
            answer::refused(given, Error::Edition, &text, out);
        }
        Err(error) => answer::refused(given, error, &format!("settings move {}: {error}", called(file)), out),
    }
}

fn print(given: &Given, kept: &Kept, file: &str, out: &mut Out) {
    if given.has(Key::Quiet) {
        return;
    }
    let Settings2 { settings, if_hz } = kept.settings;
    let (index, tenths) = gain_step(Gain::Index(settings.gain_index));
    if given.has(Key::Json) {
        out.line(&json::document(&[
            answer::done_json(),
            ("file", json::string(file)),
            ("edition", kept.edition.to_string()),
            ("kind", json::string(names::kind(settings.kind))),
            ("board", json::string(names::board(settings.board))),
            ("ppm", settings.correction.to_string()),
            ("rate", settings.rate.to_string()),
            ("hz", settings.frequency.to_string()),
            ("gain_index", index.to_string()),
            ("gain_step", json::tenths(tenths)),
            ("if", if_hz.to_string()),
        ]));
        return;
    }
    let stands = if kept.edition == 1 { " (which edition 1 stands for)" } else { "" };
    out.line(&format!("settings of {file}, edition {}", kept.edition));
    out.line(&format!("  kind        {}", names::kind(settings.kind)));
    out.line(&format!("  board       {}", names::board(settings.board)));
    out.line(&format!("  correction  {} ppm", settings.correction));
    out.line(&format!("  rate        {} samples a second", settings.rate));
    out.line(&format!("  frequency   {} Hz", settings.frequency));
    out.line(&format!("  gain        index {index}, {} dB", json::tenths(tenths)));
    out.line(&format!("  IF          {if_hz} Hz{stands}"));
}
