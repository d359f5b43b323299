//! `parting`: where two nights part. Sections are put side by side by what they do (sides.rs): those that are the same, those that part, with the first step that
//! differs and some before it, and those that one night has alone.
use crate::judged::nights::{LAST, Night};
use crate::judged::sides::{Beside, sides};
use crate::printed::names::counted;
use crate::printed::out::{End, Out};
use crate::printed::{json, rows};
use crate::words::given::Given;
use crate::words::options::Key;
use pasetone::{Entry, Transcript, Whose, parting};
use std::ops::Range;

/// So many steps are shown before the one that differs.
const BEFORE: usize = 3;

/// Two sections that part.
struct Parted<'a> {
    whose: Whose,
    /// How many steps are the same.
    same: usize,
    last: Side<'a>,
    tonight: Side<'a>,
}

/// One night's side of it: its section, whose steps are counted on from `before`.
struct Side<'a> {
    who: &'static str,
    number: usize,
    transcript: &'a Transcript,
    before: usize,
}

pub fn run(given: &Given, out: &mut Out) {
    if given.operands.len() != 2 {
        out.mistake("parting wants two files of sections: last night's, then tonight's");
    }
    given.reads_operands_once(out);
    let Some([last, tonight]) = Night::both("parting", given, out) else { return };
    let mut told = Told { json: given.has(Key::Json), quiet: given.has(Key::Quiet), ..Told::default() };
    told.open(&last, &tonight, out);
    for beside in sides(&last, &tonight) {
        match beside {
            Beside::Both(at, other) => compared(at, other, &last, &tonight, &mut told, out),
            Beside::Last(run, false) => told.only(&last, run, out),
            Beside::Tonight(run, false) => told.only(&tonight, run, out),
            Beside::Last(run, true) => told.unknown(&last, run, &tonight, out),
            Beside::Tonight(run, true) => told.unknown(&tonight, run, &last, out),
        }
    }
    told.close(out);
}

/// A section of each night, side by side. What is told as the same is what the library finds no difference in.
fn compared(at: usize, other: usize, last: &Night, tonight: &Night, told: &mut Told, out: &mut Out) {
    told.compared += 1;
    let (first, second) = (last.section(at), tonight.section(other));
    let Ok(part) = parting(first, second) else { return };
    if part.is_empty() {
        told.ended += usize::from(first != second);
        return;
    }
    let (Ok((_, first)), Ok((_, second))) = (Transcript::read(first), Transcript::read(second)) else { return };
    let side = |night: &Night, at: usize, transcript| {
        let section = &night.sections[at];
        Side { who: night.who, number: section.number, transcript, before: section.before }
    };
    let (last, tonight) = (side(last, at, &first), side(tonight, other, &second));
    told.one(&Parted { whose: part.whose, same: part.index, last, tonight }, out);
}

/// What was told so far.
#[derive(Default)]
struct Told {
    json: bool,
    quiet: bool,
    compared: usize,
    /// How many sections have the same steps, with other outcomes or replies.
    ended: usize,
    /// How many pairs part, and the first one in words.
    parted: usize,
    first: Option<String>,
    /// The numbers of the sections that one night has alone, last's and tonight's.
    only: [Vec<usize>; 2],
    /// How many stand across from damage.
    unknown: usize,
}

impl Told {
    fn open(&self, last: &Night, tonight: &Night, out: &mut Out) {
        if self.json {
            out.text(&format!("{{\n\"last\": {},\n\"tonight\": {},\n\"parts\": [", last.json(), tonight.json()));
        } else if !self.quiet {
            out.line(&last.line());
            out.line(&tonight.line());
        }
    }

    fn one(&mut self, parted: &Parted, out: &mut Out) {
        if self.json {
            out.text(if self.parted == 0 { "\n" } else { ",\n" });
            out.text(&parted.json());
        } else if !self.quiet {
            parted.rows(out);
        }
        self.parted += 1;
        self.first.get_or_insert_with(|| parted.words());
    }

    /// Sections that one night has alone, one behind the other.
    fn only(&mut self, night: &Night, run: Range<usize>, out: &mut Out) {
        let words = format!("{}: only in {}", night.words(&run), night.who);
        self.only[usize::from(night.who != LAST)].extend(night.sections[run].iter().map(|section| section.number));
        self.row(&words, out);
        self.first.get_or_insert(words);
    }

    /// Sections across from damage: what the damaged bytes did is not known, and may be the same.
    fn unknown(&mut self, night: &Night, run: Range<usize>, other: &Night, out: &mut Out) {
        self.unknown += run.len();
        self.row(&format!("{}: in {}, where {} is damaged", night.words(&run), night.who, other.who), out);
    }

    fn row(&self, words: &str, out: &mut Out) {
        if !self.json && !self.quiet {
            out.line("");
            out.line(words);
        }
    }

    fn close(&self, out: &mut Out) {
        let lines = self.lines();
        let parts = self.parted > 0 || self.only.iter().any(|only| !only.is_empty());
        if self.json {
            let (compared, parted, ended) = (self.compared, self.parted, self.ended);
            let [last, tonight] = self.only.each_ref().map(|only| json::array(only.iter()));
            out.text(if self.parted == 0 { "]" } else { "\n]" });
            out.line(&format!(",\n\"compared\": {compared},\n\"parted\": {parted},\n\"other_outcomes\": {ended},"));
            out.line(&format!("\"only_last\": {last},\n\"only_tonight\": {tonight},\n\"not_compared\": {}\n}}", self.unknown));
        } else if !self.quiet {
            out.line("");
            lines.iter().for_each(|line| out.line(line));
        }
        if parts && self.quiet {
            out.tell(End::Refused, &lines.join("; "));
        } else if parts {
            out.ends(End::Refused);
        }
    }

    fn lines(&self) -> Vec<String> {
        let parted = match self.parted {
            0 => String::from("the same steps"),
            1 => String::from("1 of them parts"),
            parted => format!("{parted} of them part"),
        };
        let ended = if self.ended == 0 { String::new() } else { format!(", {} with other outcomes or replies", self.ended) };
        let mut lines = vec![format!("{} compared: {parted}{ended}", counted(self.compared, "section"))];
        let only = |at: usize, who: &str| {
            let count = self.only[at].len();
            (count > 0).then(|| format!("{} only in {who}", counted(count, "section")))
        };
        let only: Vec<String> = [only(0, "last"), only(1, "tonight")].into_iter().flatten().collect();
        lines.extend((!only.is_empty()).then(|| only.join(", ")));
        lines.extend((self.unknown > 0).then(|| format!("{} across from damage, not compared", counted(self.unknown, "section"))));
        lines.extend(self.first.as_ref().map(|words| format!("first: {words}")));
        lines
    }
}

impl Parted<'_> {
    /// The section, the step in it, and whose it is.
    fn words(&self) -> String {
        let whose = match self.whose {
            Whose::First => "last goes on where tonight has ended",
            Whose::Second if self.last.transcript.len() == self.same => "tonight goes on where last has ended",
            Whose::Second => "tonight takes another step",
        };
        let which = match (self.last.number, self.tonight.number) {
            (last, tonight) if last == tonight => format!("section {last} at its step"),
            (last, tonight) => format!("section {last} of last, {tonight} of tonight, at step"),
        };
        format!("{which} {}: {whose}", self.same)
    }

    fn rows(&self, out: &mut Out) {
        out.line("");
        out.line(&self.words());
        for at in self.same.saturating_sub(BEFORE)..self.same {
            let (last, tonight) = (self.last.transcript.get(at), self.tonight.transcript.get(at));
            if last == tonight {
                tonight.iter().for_each(|entry| row("both", at, entry, out));
            } else {
                last.iter().for_each(|entry| row(self.last.who, at, entry, out));
                tonight.iter().for_each(|entry| row(self.tonight.who, at, entry, out));
            }
        }
        for side in [&self.last, &self.tonight] {
            match side.transcript.get(self.same) {
                Some(entry) => row(side.who, self.same, &entry, out),
                None => out.line(&format!("  {:<8} {:>5}  no step", side.who, "-")),
            }
        }
        let left = |side: &Side| side.transcript.len() - self.same;
        out.line(&format!("  from there on last has {}, tonight {}", counted(left(&self.last), "step"), left(&self.tonight)));
    }

    fn json(&self) -> String {
        let side = |side: &Side| {
            let entry = side.transcript.get(self.same);
            let step = json::maybe(entry.map(|entry| rows::step_json(side.before + self.same, &entry)));
            json::object(&[("left", (side.transcript.len() - self.same).to_string()), ("first", step)])
        };
        json::object(&[
            ("section", self.last.number.to_string()),
            ("tonight_section", self.tonight.number.to_string()),
            ("same", self.same.to_string()),
            ("whose", json::string(if self.whose == Whose::First { "last" } else { "tonight" })),
            ("last", side(&self.last)),
            ("tonight", side(&self.tonight)),
        ])
    }
}

fn row(who: &str, at: usize, entry: &Entry, out: &mut Out) {
    let text = entry.to_string();
    let text = text.strip_suffix("FAILED").map_or(text.clone(), |what| format!("{what}{}", out.loud("FAILED")));
    out.line(&format!("  {who:<8} {at:>5}  {text}"));
}
