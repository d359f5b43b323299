//! `held`: what a chip holds behind all sections of some files, register by register, and what is doubtful.
use crate::judged::day::{self, Chip, Day, Held};
use crate::printed::json;
use crate::printed::out::Out;
use crate::printed::registers::purpose;
use crate::words::given::Given;
use crate::words::numbers;
use crate::words::options::Key;

pub fn run(given: &Given, out: &mut Out) {
    let reference = given.value(Key::Reference, out, |text| u32::try_from(numbers::hertz(text)?).ok().filter(|hz| *hz > 0));
    let reference = reference.unwrap_or(28_800_000);
    let Some(days) = day::all("held", given, out) else { return };
    days.iter().for_each(|(day, chip)| chip.tell_doubt(day, given, out));
    match days.as_slice() {
        _ if given.has(Key::Quiet) => {}
        days if given.has(Key::Each) => each(days, reference, given, out),
        days if given.has(Key::Json) => days.iter().for_each(|(day, chip)| out.line(&json::document(&fields(day, chip, reference)))),
        days => days.iter().for_each(|(day, chip)| table(day, chip, reference, out)),
    }
}

fn fields(day: &Day, chip: &Chip, reference: u32) -> Vec<(&'static str, String)> {
    let mut fields = Vec::from(day.json(chip));
    let doubtful = chip.registers.len() - chip.sure().len();
    fields.extend([("doubtful", doubtful.to_string()), ("oscillator", json::maybe(chip.oscillator(reference)))]);
    fields.extend([("begins", day.begins.json()), ("registers", chip.registers_json())]);
    fields
}

/// A row for each file, or an object of an array.
fn each(days: &[(Day, Chip)], reference: u32, given: &Given, out: &mut Out) {
    if given.has(Key::Json) {
        let one = |(day, chip): &(Day, Chip)| {
            let mut all = vec![("file", json::string(day.name()))];
            all.extend(fields(day, chip, reference));
            json::document(&all)
        };
        return out.line(&format!("[\n{}\n]", days.iter().map(one).collect::<Vec<_>>().join(",\n")));
    }
    day::each_row("file", ["sections", "steps", "sure", "doubtful"].map(String::from), "oscillator", out);
    for (day, chip) in days {
        let ((sections, steps), sure) = (day.counts(), chip.sure().len());
        let oscillator = chip.oscillator(reference).map_or_else(|| String::from("unknown"), |hz| format!("{hz} Hz"));
        let numbers = [sections, steps, sure, chip.registers.len() - sure].map(|number| number.to_string());
        day::each_row(day.name(), numbers, &format!("{oscillator}{}", chip.flaws(day, out)), out);
    }
}

fn table(day: &Day, chip: &Chip, reference: u32, out: &mut Out) {
    let doubtful = chip.registers.len() - chip.sure().len();
    out.line(&day.line(chip));
    out.line("");
    out.line("  reg   sent  held                           what it is for");
    rows(chip, out);
    out.line("");
    out.line(&format!("held: {} of {} registers are sure, {doubtful} doubtful", chip.sure().len(), chip.registers.len()));
    out.line(&match chip.oscillator(reference) {
        Some(hz) => format!("oscillator: {hz} Hz by 0x10, 0x12, 0x14, 0x15 and 0x16, with a reference of {reference} Hz"),
        None => String::from("oscillator: unknown, since a register that it stands by is doubtful"),
    });
    day.begins.lines(out);
    if let Some(note) = chip.note() {
        out.line(&note);
    }
}

fn rows(chip: &Chip, out: &mut Out) {
    for (register, held) in &chip.registers {
        let (sent, word, since) = match held {
            Held::Sure(byte, step) => (format!("{byte:02x}"), String::from("sure"), format!("since step {step}")),
            Held::Failed(byte, step) => (format!("{byte:02x} ?"), out.loud("DOUBTFUL"), format!("step {step} FAILED")),
            Held::Damaged(Some((byte, step))) => (format!("{byte:02x} ?"), out.loud("DOUBTFUL"), format!("step {step}, then damage")),
            Held::Damaged(None) => (String::from("-- ?"), out.loud("DOUBTFUL"), String::from("behind damage")),
            Held::Never => (String::from("-- ?"), out.loud("DOUBTFUL"), String::from("never written")),
        };
        // The word comes first, so that its colour counts for no padding.
        let pad = if matches!(held, Held::Sure(..)) { "    " } else { "" };
        let line = format!("  0x{register:02x}  {sent:<4}  {word}{pad}  {since:<20} {}", purpose(*register));
        out.line(line.trim_end());
    }
}
