//! `show`: sections of files, in words. A file is read whole, then walked from its end (sections.rs), then printed from its start.
use crate::commands::whereabouts;
use crate::files::filed::{File, span};
use crate::files::record::{self, Records};
use crate::files::sections::{Damage, ENTRY, Flaw, Part, TRAILER, Walk};
use crate::printed::json;
use crate::printed::names::counted;
use crate::printed::out::{End, Out};
use crate::printed::rows::{self, hex};
use crate::words::given::Given;
use crate::words::options::Key;
use pasetone::Transcript;
use std::ffi::OsStr;

pub fn run(given: &Given, out: &mut Out) {
    given.wants_files("show", out);
    let span = given.sections(out);
    if out.is_mistaken() {
        return;
    }
    let mut shown_before = 0;
    for name in &given.operands {
        match File::read(name) {
            Ok(file) => {
                match record::read(&file.bytes) {
                    Ok(_) if span.is_some() => {
                        out.mistake(&format!("--sections: {} holds a record, which has no sections: leave them out", file.name));
                        continue;
                    }
                    Ok(records) => file.show_record(name, &records, given, shown_before, out),
                    Err(_) => match file.walk(span, out) {
                        Some(walk) => file.show(&walk, given, shown_before, out),
                        None => continue,
                    },
                }
                shown_before += 1;
            }
            Err(why) => out.mistake(&format!("show {why}")),
        }
    }
    if given.has(Key::Json) {
        out.line(if shown_before == 0 { "[]" } else { "\n]" });
    }
}

/// How far a file has been shown.
#[derive(Default)]
struct Count {
    sections: usize,
    /// The next step's number; those of damaged entries are passed over.
    next: usize,
    steps: usize,
}

impl File {
    /// A kept record: no file of sections has so many bytes.
    fn show_record(&self, name: &OsStr, records: &Records, given: &Given, before: usize, out: &mut Out) {
        if given.has(Key::Json) {
            let mut fields = vec![("file", json::string(&self.name))];
            fields.extend(whereabouts::fields(records, None));
            out.text(&format!("{}{}", if before == 0 { "[\n" } else { ",\n" }, json::object(&fields)));
        } else if !given.has(Key::Quiet) {
            if given.operands.len() > 1 {
                out.line(&format!("{}{}:", if before > 0 { "\n" } else { "" }, self.name));
            }
            whereabouts::lines(records, None, out);
        }
        whereabouts::tell(name, given, records, None, out);
    }

    fn show(&self, walk: &Walk, given: &Given, before: usize, out: &mut Out) {
        let mut count = Count { next: walk.skipped(), ..Count::default() };
        if given.has(Key::Quiet) {
            self.parts(walk, &mut count, &mut |_, _, _, _| {}, out);
            return;
        }
        if given.has(Key::Json) {
            self.json(walk, before, out);
            return;
        }
        if given.operands.len() > 1 {
            out.line(&format!("{}{}:", if before > 0 { "\n" } else { "" }, self.name));
        }
        rows::head(out);
        self.parts(walk, &mut count, &mut |part, number, count, out| self.rows(part, number, count, out), out);
        let damaged = if walk.damages() == 0 { String::new() } else { format!("; {} {}", out.loud("DAMAGED:"), walk.damages()) };
        out.line(&format!("shown: {}, {}{damaged}", counted(count.sections, "section"), counted(count.steps, "step")));
    }

    /// Each part with its number, 0 where it counts as no section, to `each`. Damage is told to standard error as it is met.
    fn parts(&self, walk: &Walk, count: &mut Count, each: &mut dyn FnMut(&Part, usize, &mut Count, &mut Out), out: &mut Out) {
        for (number, part) in walk.numbered() {
            count.sections += usize::from(number > 0);
            if !out.is_closed() {
                each(&part, number, count, out);
            }
            if let Part::Damaged(damage) = part {
                out.tell(End::Refused, &self.told(damage, number));
            }
        }
    }

    fn rows(&self, part: &Part, number: usize, count: &mut Count, out: &mut Out) {
        match part {
            Part::Good { start, end } => self.good_rows(*start, *end, number, count, out),
            Part::Damaged(damage) => self.damaged_rows(damage, number, count, out),
        }
    }

    fn good_rows(&self, start: usize, end: usize, number: usize, count: &mut Count, out: &mut Out) {
        let label = format!("section {number}");
        let Ok((_, transcript)) = Transcript::read(&self.bytes[start..end]) else { return };
        if transcript.is_empty() {
            rows::other(&label, "no steps", "", out);
        }
        for entry in &transcript {
            rows::step(count.next, &label, &entry, out);
            count.next += 1;
        }
        count.steps += transcript.len();
    }

    /// The entries that are whole, and what is not, by its bytes.
    fn damaged_rows(&self, damage: &Damage, number: usize, count: &mut Count, out: &mut Out) {
        let label = if number == 0 { String::from("no section") } else { format!("section {number}") };
        for at in 0..damage.entries {
            let place = damage.start + ENTRY * at;
            match self.entry(place) {
                Some(transcript) => {
                    transcript.iter().for_each(|entry| rows::step(count.next, &label, &entry, out));
                    count.steps += 1;
                }
                None => rows::other(&label, &hex(&self.bytes[place..place + ENTRY]), "DAMAGED", out),
            }
            count.next += 1;
        }
        let rest = damage.start + ENTRY * damage.entries;
        match damage.flaw {
            Flaw::Entry(_) => {}
            Flaw::Trailer => rows::other(&label, &format!("trailer {}", hex(&self.bytes[rest..damage.end])), "DAMAGED", out),
            Flaw::Shapeless { .. } => rows::other(&label, &span(rest, damage.end), "DAMAGED", out),
        }
    }

    fn json(&self, walk: &Walk, before: usize, out: &mut Out) {
        let mut count = Count { next: walk.skipped(), ..Count::default() };
        let mut first = true;
        let open = if before == 0 { "[\n" } else { ",\n" };
        out.text(&format!("{open}{{\"file\": {}, \"damaged\": {}, \"sections\": [", json::string(&self.name), walk.damages()));
        let mut each = |part: &Part, number: usize, count: &mut Count, out: &mut Out| {
            out.text(if first { "\n" } else { ",\n" });
            first = false;
            out.text(&self.part_json(part, number, count));
        };
        self.parts(walk, &mut count, &mut each, out);
        out.text(if first { "]}" } else { "\n]}" });
    }

    fn part_json(&self, part: &Part, number: usize, count: &mut Count) -> String {
        let (start, end, entries, flaw) = match part {
            Part::Good { start, end } => (*start, *end, (end - start - TRAILER) / ENTRY, None),
            Part::Damaged(damage) => (damage.start, damage.end, damage.entries, Some(self.told(damage, number))),
        };
        let mut steps = Vec::new();
        for at in 0..entries {
            let place = start + ENTRY * at;
            let whole = self.entry(place);
            steps.extend(whole.iter().flat_map(|one| one.iter().map(|entry| rows::step_json(count.next, &entry)).collect::<Vec<_>>()));
            count.steps += usize::from(whole.is_some());
            count.next += 1;
        }
        let steps = json::lines(steps.into_iter());
        json::object(&[
            ("section", json::maybe((number > 0).then_some(number))),
            ("start", start.to_string()),
            ("end", end.to_string()),
            ("damage", json::maybe(flaw.as_deref().map(json::string))),
            ("steps", steps),
        ])
    }
}
