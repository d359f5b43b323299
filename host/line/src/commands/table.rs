//! `table show` and `table write`: a board's bands as lines of text, and lines of text as the bytes that `--table` takes.
use crate::files::disk;
use crate::printed::json;
use crate::printed::names::{self, counted};
use crate::printed::out::Out;
use crate::runs::answer;
use crate::runs::boards::{self, edges_fault};
use crate::words::given::Given;
use crate::words::named::{called, shown};
use crate::words::numbers;
use crate::words::options::Key;
use pasetone::{Band, Board, InputPath, Table};
use std::ffi::OsStr;

/// More than 16 lines that people write; so much of a text is read.
const TEXT: usize = 65536;

pub fn run(given: &Given, out: &mut Out) {
    let words: Vec<Option<&str>> = given.operands.iter().map(|word| word.to_str()).collect();
    match words.as_slice() {
        [Some("show")] => show(given, None, out),
        [Some("show"), _] => show(given, given.operands.get(1).map(|name| name.as_os_str()), out),
        [Some("write"), _] => write(given, given.operands[1].as_os_str(), out),
        _ => out.mistake("table wants `show`, `show FILE` or `write FILE`: `./pasetone table --help` has both"),
    }
}

fn show(given: &Given, file: Option<&OsStr>, out: &mut Out) {
    let board = given.value(Key::Board, out, names::board_of);
    if file.is_some() && given.has(Key::Board) {
        out.mistake("table show FILE shows that file: give it or --board");
    }
    if given.has(Key::Out) {
        out.mistake("table show writes no file: --out goes with table write");
    }
    if out.is_mistaken() {
        return;
    }
    let (table, whose) = match file {
        None => (board.unwrap_or(Board::V4).table(), format!("the {} board", names::board(board.unwrap_or(Board::V4)))),
        Some(name) => match boards::read(name).and_then(|bytes| boards::table(&bytes).map_err(|why| format!("{}: {why}", called(name)))) {
            Ok(table) => (table, called(name)),
            Err(why) => return out.mistake(&format!("table show {why}")),
        },
    };
    print(given, &table, &whose, out);
}

fn write(given: &Given, name: &OsStr, out: &mut Out) {
    if given.has(Key::Board) {
        out.mistake("table write takes its bands from the file: --board goes with table show");
    }
    if out.is_mistaken() {
        return;
    }
    let bytes = match disk::start(name, TEXT + 1) {
        Ok(bytes) if bytes.len() <= TEXT => bytes,
        Ok(_) => return out.mistake(&format!("table write {}: a text of bands has {TEXT} bytes at most, and here are more", called(name))),
        Err(why) => return out.mistake(&format!("table write {why}")),
    };
    let text = String::from_utf8_lossy(&bytes);
    let bands = read(&text, &called(name), out);
    if out.is_mistaken() {
        return;
    }
    let sink = given.sink(Key::Out, out);
    match Table::new(&bands) {
        Ok(_) if out.is_mistaken() => {}
        Ok(table) => {
            print(given, &table, &called(name), out);
            if let Some(sink) = sink {
                sink.keep_or_tell(table.as_bytes(), "--out", out);
            }
        }
        // Each line was judged before.
        Err(error) => answer::refused(given, error, &format!("table write {}: {error}", called(name)), out),
    }
}

/// So many lines that are no bands are told, each by its number; of the others how many they are.
const TOLD: usize = 8;

/// The bands of a text. A line behind a bad one is judged by the last good one before it.
fn read(text: &str, name: &str, out: &mut Out) -> Vec<Band> {
    let (mut bands, mut bad): (Vec<Band>, usize) = (Vec::new(), 0);
    for (at, line) in text.lines().enumerate() {
        let line = line.split('#').next().unwrap_or("").trim();
        if line.is_empty() {
            continue;
        }
        let read = band(line, bands.last().map(|band| band.last)).map(|band| bands.push(band));
        let why = match read {
            Ok(()) if bands.len() <= Table::BANDS => continue,
            Ok(()) => format!("it is band {}, and {} are the most", bands.len(), Table::BANDS),
            Err(why) => why,
        };
        bad += 1;
        if bad <= TOLD {
            out.mistake(&format!("table write {name}: line {}: {why}", at + 1));
        }
    }
    if bad > TOLD {
        out.mistake(&format!("table write {name}: and {} more that cannot be taken: mend these first", counted(bad - TOLD, "line")));
    }
    bands
}

/// A band of six words, behind one that ends at `before`.
fn band(line: &str, before: Option<u64>) -> Result<Band, String> {
    let words: Vec<&str> = line.split_whitespace().collect();
    let [first, last, shift, path, spectrum, notch] = words[..] else {
        return Err(format!("a band has six words (first, last, shift, path, spectrum, notch), and here are {}", words.len()));
    };
    let hertz = |word: &str, which: &str| numbers::hertz(word).ok_or_else(|| not(which, "Hz, as 2400000000 or 2.4G", word));
    let one = |word: &str, which: &str, yes: &str, no: &str| match word {
        word if word == yes => Ok(true),
        word if word == no => Ok(false),
        word => Err(not(which, &format!("{no} or {yes}"), word)),
    };
    let path = match path {
        "HF" => Some(InputPath::Hf),
        "VHF" => Some(InputPath::Vhf),
        "UHF" => Some(InputPath::Uhf),
        "none" => None,
        word => return Err(not("path", "HF, VHF, UHF or none", word)),
    };
    let (first, last) = (hertz(first, "first")?, hertz(last, "last")?);
    let shift = numbers::shift(shift).ok_or_else(|| not("shift", "Hz of 64 bits with or without a minus, as 28.8M or -2G", shift))?;
    let (inverted, notch) = (one(spectrum, "spectrum", "inverted", "normal")?, one(notch, "notch", "on", "off")?);
    match edges_fault(first, last, before) {
        Some(why) => Err(format!("the band {why}")),
        None => Ok(Band { first, last, shift, inverted, path, notch }),
    }
}

fn not(which: &str, wants: &str, word: &str) -> String {
    format!("its {which} must be {wants}, not `{}`", shown(OsStr::new(word)))
}

fn print(given: &Given, table: &Table, whose: &str, out: &mut Out) {
    if given.has(Key::Quiet) {
        return;
    }
    if given.has(Key::Json) {
        let bands = json::lines(table.bands().map(|band| band_json(&band)));
        out.line(&json::document(&[
            answer::done_json(),
            ("table", json::string(whose)),
            ("bytes", table.as_bytes().len().to_string()),
            ("bands", bands),
        ]));
        return;
    }
    out.line(&format!("# {whose}: {}, {} bytes", counted(table.bands().len(), "band"), table.as_bytes().len()));
    out.line("# first               last                  shift                 path  spectrum  notch");
    for band in table.bands() {
        let [path, spectrum, notch] = words(&band);
        out.line(&format!("{:<21} {:<21} {:<21} {path:<5} {spectrum:<9} {notch}", band.first, band.last, band.shift));
    }
}

/// The words of a band: path, spectrum, notch.
fn words(band: &Band) -> [&'static str; 3] {
    let spectrum = if band.inverted { "inverted" } else { "normal" };
    [band.path.map_or("none", names::path), spectrum, if band.notch { "on" } else { "off" }]
}

fn band_json(band: &Band) -> String {
    json::object(&[
        ("first", band.first.to_string()),
        ("last", band.last.to_string()),
        ("shift", band.shift.to_string()),
        ("path", json::maybe(band.path.map(|path| json::string(names::path(path))))),
        ("inverted", band.inverted.to_string()),
        ("notch", band.notch.to_string()),
    ])
}
