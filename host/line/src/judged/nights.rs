//! A night: the sections of a file, each by its place, whether it is whole, and how many steps stand before it.
use crate::files::filed::File;
use crate::files::sections::{Part, Walk};
use crate::printed::json;
use crate::printed::names::counted;
use crate::printed::out::Out;
use crate::words::given::Given;
use std::ops::Range;

/// What the first night is called.
pub const LAST: &str = "last";

pub struct Night {
    pub who: &'static str,
    file: File,
    pub sections: Vec<Section>,
    steps: usize,
}

pub struct Section {
    pub number: usize,
    start: usize,
    end: usize,
    pub good: bool,
    pub steps: usize,
    pub before: usize,
}

impl Night {
    /// The two nights behind a command; every damaged part of them is told.
    pub fn both(command: &str, given: &Given, out: &mut Out) -> Option<[Night; 2]> {
        let span = given.sections(out);
        let files = File::all(command, given, out)?;
        let walks: Vec<Option<Walk>> = files.iter().map(|file| file.walk(span, out)).collect();
        let walked = files.into_iter().zip(walks).zip([LAST, "tonight"]);
        let nights: Option<Vec<Night>> = walked.map(|((file, walk), who)| Some(Night::of(file, &walk?, who, out))).collect();
        nights?.try_into().ok()
    }

    pub fn of(file: File, walk: &Walk, who: &'static str, out: &mut Out) -> Night {
        file.damaged(walk, out);
        let skipped = walk.skipped();
        let (mut sections, mut before) = (Vec::new(), skipped);
        for (number, part) in walk.numbered() {
            let steps = part.steps();
            let (start, end, good) = match part {
                Part::Good { start, end } => (start, end, true),
                Part::Damaged(damage) => (damage.start, damage.end, false),
            };
            if number > 0 {
                sections.push(Section { number, start, end, good, steps, before });
                before += steps;
            }
        }
        Night { who, file, sections, steps: before - skipped }
    }

    pub fn section(&self, at: usize) -> &[u8] {
        &self.file.bytes[self.sections[at].start..self.sections[at].end]
    }

    /// Sections one behind the other, by their numbers and steps.
    pub fn words(&self, run: &Range<usize>) -> String {
        let sections = &self.sections[run.clone()];
        let steps = counted(sections.iter().map(|section| section.steps).sum(), "step");
        match sections {
            [one] => format!("section {}, {steps}", one.number),
            [first, .., last] => format!("sections {} to {}, {steps}", first.number, last.number),
            [] => String::new(),
        }
    }

    pub fn line(&self) -> String {
        let (sections, steps) = (counted(self.sections.len(), "section"), counted(self.steps, "step"));
        format!("{:<8} {sections}, {steps}: {}", format!("{}:", self.who), self.file.name)
    }

    pub fn json(&self) -> String {
        json::object(&[
            ("file", json::string(&self.file.name)),
            ("sections", self.sections.len().to_string()),
            ("steps", self.steps.to_string()),
        ])
    }
}
