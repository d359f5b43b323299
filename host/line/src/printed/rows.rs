//! What a run and a file of sections print alike: the table's rows, and the register table.
use crate::printed::json;
use crate::printed::out::Out;
use crate::printed::registers::{purpose, runs};
use pasetone::{Entry, Tuner};

pub fn head(out: &mut Out) {
    out.line(" step  call          what                                               outcome");
}

/// A step by its place in the whole, with the call or the section that it is of.
pub fn step(index: usize, label: &str, entry: &Entry, out: &mut Out) {
    let text = entry.to_string();
    match text.strip_suffix("FAILED") {
        Some(what) => out.line(&format!("{index:>5}  {label:<13} {what}{}", out.loud("FAILED"))),
        None => out.line(&format!("{index:>5}  {label:<13} {text}")),
    }
}

/// A row that is no step: a call or a section without any, or bytes that are damaged.
pub fn other(label: &str, what: &str, outcome: &str, out: &mut Out) {
    let outcome = if outcome == "done" { String::from(outcome) } else { out.loud(outcome) };
    let row = format!("    -  {label:<13} {what:<50} {outcome}");
    out.line(row.trim_end());
}

/// The width of the left one of two registers that stand side by side.
const CELL: usize = 49;

/// All registers, two side by side: the byte last sent, a mark where it is doubtful, and what the register is for.
pub fn registers(tuner: &Tuner, out: &mut Out) {
    out.line("registers: the byte last sent, ? where the chip may hold another");
    let all: Vec<u8> = Tuner::registers().collect();
    let high = all.len().div_ceil(2);
    for row in 0..high {
        let cells: Vec<String> = all.iter().skip(row).step_by(high).map(|register| cell(tuner, *register)).collect();
        let line = match cells.as_slice() {
            [left, right] => format!("{left:<CELL$}{right}"),
            left => left.concat(),
        };
        // The mark is made loud behind the padding, which would count its colour.
        out.line(&line.trim_end().replace('?', &out.loud("?")));
    }
    let doubtful: Vec<u8> = tuner.doubtful().collect();
    if !doubtful.is_empty() {
        out.line(&format!("{} {} of {}: {}", out.loud("DOUBTFUL:"), doubtful.len(), all.len(), runs(&doubtful)));
    }
}

fn cell(tuner: &Tuner, register: u8) -> String {
    let mark = if tuner.is_doubtful(register) { "?" } else { " " };
    let byte = tuner.shadow(register).unwrap_or(0);
    format!("  0x{register:02x}  {byte:02x} {mark}  {}", purpose(register))
}

/// A step as JSON.
pub fn step_json(index: usize, entry: &Entry) -> String {
    json::object(&[
        ("step", index.to_string()),
        ("kind", entry.kind.number().to_string()),
        ("what", json::string(&entry.words())),
        ("target", entry.target.to_string()),
        ("address", entry.address.to_string()),
        ("bytes", json::array(entry.bytes)),
        ("failed", entry.failed.to_string()),
    ])
}

/// A register as JSON.
pub fn register_json(tuner: &Tuner, register: u8) -> String {
    json::object(&[
        ("register", register.to_string()),
        ("shadow", json::maybe(tuner.shadow(register))),
        ("doubtful", tuner.is_doubtful(register).to_string()),
        ("what", json::string(purpose(register))),
    ])
}

/// Bytes in hexadecimal.
pub fn hex(bytes: &[u8]) -> String {
    bytes.iter().map(|byte| format!("{byte:02x}")).collect::<Vec<_>>().join(" ")
}
