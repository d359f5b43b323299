//! `restore`: where sections left a chip, as the fewest writes that bring another one there.
use crate::judged::day::{self, Chip, Day, Held};
use crate::printed::names::counted;
use crate::printed::out::Out;
use crate::printed::registers::runs;
use crate::printed::{json, rows};
use crate::words::given::Given;
use crate::words::options::Key;

pub fn run(given: &Given, out: &mut Out) {
    if given.has(Key::Each) && given.has(Key::Out) {
        out.mistake("--out writes one list, and --each makes one of each file: give one of the two");
    }
    let Some(days) = day::all("restore", given, out) else { return };
    let sink = given.sink(Key::Out, out);
    if out.is_mistaken() {
        return;
    }
    match days.as_slice() {
        _ if given.has(Key::Quiet) => {}
        days if given.has(Key::Each) => each(days, given, out),
        days if given.has(Key::Json) => days.iter().for_each(|(day, chip)| out.line(&json::document(&fields(day, chip)))),
        days => days.iter().for_each(|(day, chip)| table(day, chip, out)),
    }
    days.iter().for_each(|(day, chip)| chip.tell_doubt(day, given, out));
    if let (Some(sink), Some((_, chip))) = (sink, days.first()) {
        sink.keep_or_tell(chip.list.bytes(), "--out", out);
    }
}

/// A row for each file, or an object of an array.
fn each(days: &[(Day, Chip)], given: &Given, out: &mut Out) {
    if given.has(Key::Json) {
        let one = |(day, chip): &(Day, Chip)| {
            let mut all = vec![("file", json::string(day.name()))];
            all.extend(fields(day, chip));
            json::document(&all)
        };
        return out.line(&format!("[\n{}\n]", days.iter().map(one).collect::<Vec<_>>().join(",\n")));
    }
    day::each_row("file", ["sections", "steps", "writes", "named"].map(String::from), "left", out);
    for (day, chip) in days {
        let ((sections, steps), named) = (day.counts(), chip.sure());
        let left = chip.registers.len() - named.len();
        let numbers = [sections, steps, chip.list.len(), named.len()].map(|number| number.to_string());
        day::each_row(day.name(), numbers, &format!("{left}{}", chip.flaws(day, out)), out);
    }
}

fn table(day: &Day, chip: &Chip, out: &mut Out) {
    out.line(&day.line(chip));
    out.line("");
    out.line(" write  what");
    for (at, entry) in chip.list.iter().enumerate() {
        out.line(&format!("{at:>6}  {}", entry.words()));
    }
    out.line("");
    let (named, all) = (chip.sure(), chip.registers.len());
    out.line(&format!("named: {}", told(&named, "")));
    let failed = chip.those(|held| matches!(held, Held::Failed(..)));
    let never = chip.those(|held| matches!(held, Held::Never));
    let damaged = chip.those(|held| matches!(held, Held::Damaged(_)));
    for (left, why) in [(failed, ", whose last write failed"), (damaged, ", not written behind the damage"), (never, ", never written")] {
        if !left.is_empty() {
            out.line(&format!("left:  {}", told(&left, why)));
        }
    }
    out.line(&format!("{} in place of {all}", counted(chip.list.len(), "write")));
    day.begins.lines(out);
    if let Some(note) = chip.note() {
        out.line(&note);
    }
}

/// How many registers there are, why, and which.
fn told(registers: &[u8], why: &str) -> String {
    let which = if registers.is_empty() { String::new() } else { format!(": {}", runs(registers)) };
    format!("{}{why}{which}", counted(registers.len(), "register"))
}

fn fields(day: &Day, chip: &Chip) -> Vec<(&'static str, String)> {
    let mut fields = Vec::from(day.json(chip));
    fields.extend([
        ("writes", json::lines(chip.list.iter().enumerate().map(|(at, entry)| rows::step_json(at, &entry)))),
        ("named", json::array(chip.sure())),
        ("failed", json::array(chip.those(|held| matches!(held, Held::Failed(..))))),
        ("behind_damage", json::array(chip.those(|held| matches!(held, Held::Damaged(_))))),
        ("never", json::array(chip.those(|held| matches!(held, Held::Never)))),
        ("begins", day.begins.json()),
    ]);
    fields
}
