//! A run of `hop` that has ended, printed: the table, or JSON; and its files.
use crate::files::station::Station;
use crate::printed::names::{self, Gain, gain_step};
use crate::printed::out::{End, Out};
use crate::printed::{json, rows};
use crate::runs::answer::Told;
use crate::runs::boards::Place;
use crate::runs::run::{Asked, Call, Made, Run, Start};
use crate::runs::standing::Standing;
use pasetone::{Plan, Table, Tuner, TunerKind};

/// What the first lines tell of the receiver, before any call.
pub struct Head {
    kind: TunerKind,
    address: u8,
    place: String,
    reference: u32,
    /// The file of --settings, and its edition.
    settings: Option<(String, u8)>,
    /// Rate and gain of a kept record.
    kept: Option<(u32, f32)>,
}

impl Head {
    pub fn of(start: &Start, place: &Place, settings: Option<(String, u8)>) -> Head {
        let place = place.name();
        match start {
            Start::Fresh { kind, address, reference, .. } => {
                Head { kind: *kind, address: *address, place, reference: *reference, settings, kept: None }
            }
            Start::Kept(records) => Head {
                kind: records.tuner.kind(),
                address: records.tuner.address(),
                place,
                reference: records.tuner.nominal(),
                settings,
                kept: Some((records.driver.rate(), records.tuner.gain())),
            },
        }
    }

    pub fn line(&self, corrected: Option<u32>) -> String {
        let corrected = corrected.map_or_else(String::new, |hz| format!(", corrected {hz} Hz"));
        format!("{} at 0x{:02x} on {}, reference {} Hz{corrected}", names::kind(self.kind), self.address, self.place, self.reference)
    }

    pub fn json(&self, place: &Place, corrected: Option<u32>) -> String {
        let file = place.file.as_ref();
        let board = if file.is_some() { None } else { Some(json::string(names::board(place.board))) };
        json::object(&[
            ("kind", json::string(names::kind(self.kind))),
            ("address", self.address.to_string()),
            ("board", json::maybe(board)),
            ("table", json::maybe(file.map(|file| json::string(file)))),
            ("reference", self.reference.to_string()),
            ("corrected", json::maybe(corrected)),
            ("settings", json::maybe(self.settings.as_ref().map(|(file, _)| json::string(file)))),
            ("edition", json::maybe(self.settings.as_ref().map(|(_, edition)| edition))),
        ])
    }
}

/// A run of `hop` that has ended, to be printed.
pub struct Report {
    pub head: Head,
    pub place: Place,
    pub asked: Asked,
    /// `None` where the table has none for the frequency.
    pub plan: Option<Plan>,
    pub run: Run,
    pub told: Told,
    /// The step of --fail, where the run did not come to it.
    pub unreached: Option<usize>,
}

impl Report {
    pub fn table(&self, out: &mut Out) {
        if let Some((file, edition)) = &self.head.settings {
            out.line(&format!("settings of {file} (edition {edition}), where no word says otherwise"));
        }
        for line in self.head_lines() {
            out.line(&line);
        }
        table(&self.run, &self.told, self.unreached, Some(&self.place.table), out);
    }

    fn head_lines(&self) -> [String; 3] {
        let rate = match (self.asked.rate, self.head.kept) {
            (None, Some((rate, _))) => format!("rate {rate} as kept{}", self.true_rate(rate)),
            (rate, _) => format!("rate {}{}", rate.unwrap_or(0), self.true_rate(rate.unwrap_or(0))),
        };
        let gain = match (self.asked.gain, self.head.kept) {
            (None, Some((_, gain))) => format!("gain {gain:.1} dB as kept"),
            (gain, _) => gain_words(gain.unwrap_or(Gain::Index(0))),
        };
        let if_hz = self.asked.if_hz.map_or_else(String::new, |hz| format!(", IF {hz} Hz"));
        [self.head.line(self.corrected()), format!("{rate}, {gain}{if_hz}"), plan_line(self.asked.hz, self.plan.as_ref())]
    }

    /// The true rate beside a rate, where the record has it.
    fn true_rate(&self, rate: u32) -> String {
        let driver = self.run.records.as_ref().map(|records| &records.driver);
        let set = driver.filter(|driver| driver.rate() == rate && driver.true_rate() != 0);
        set.map_or_else(String::new, |driver| format!(" (true rate {})", driver.true_rate()))
    }

    /// The tuner's corrected reference, where a correction was taken now or before.
    fn corrected(&self) -> Option<u32> {
        let taken = self.run.made.iter().any(|made| made.call == Call::Correction && made.result.is_ok());
        let tuner = &self.run.records.as_ref()?.tuner;
        (taken || tuner.corrected() != tuner.nominal()).then(|| tuner.corrected())
    }

    pub fn json(&self, out: &mut Out) {
        let records = self.run.records.as_ref();
        let mut fields = vec![
            ("receiver", self.head.json(&self.place, self.corrected())),
            ("asked", self.asked_json()),
            ("plan", json::maybe(self.plan.as_ref().map(plan_json))),
        ];
        fields.extend(run_json(&self.run, &self.told, self.unreached, Some(&self.place.table)));
        fields.extend([
            ("rate", json::maybe(records.map(|records| records.driver.rate()))),
            ("true_rate", json::maybe(records.map(|records| records.driver.true_rate()))),
            ("tries", json::maybe(self.run.lock().map(|lock| lock.tries))),
            ("locked", json::maybe(self.run.lock().map(|lock| lock.locked))),
            ("registers", records.map_or_else(|| String::from("[]"), |records| registers_json(&records.tuner))),
        ]);
        out.line(&json::document(&fields));
    }

    fn asked_json(&self) -> String {
        let step = self.asked.gain.map(gain_step);
        let decibels = self.asked.gain.and_then(|gain| if let Gain::Tenths(tenths) = gain { Some(json::tenths(tenths)) } else { None });
        json::object(&[
            ("hz", self.asked.hz.to_string()),
            ("ppm", json::maybe(self.asked.ppm)),
            ("initialise", self.asked.initialise.to_string()),
            ("rate", json::maybe(self.asked.rate)),
            ("gain", json::maybe(decibels)),
            ("gain_index", json::maybe(step.map(|(index, _)| index))),
            ("gain_step", json::maybe(step.map(|(_, tenths)| json::tenths(tenths)))),
            ("if", json::maybe(self.asked.if_hz)),
        ])
    }
}

/// The steps, the answer and the registers of a run.
pub fn table(run: &Run, told: &Told, unreached: Option<usize>, board: Option<&Table>, out: &mut Out) {
    out.line("");
    rows::head(out);
    for made in &run.made {
        made_rows(made, out);
    }
    out.line("");
    told.lines(out);
    if let Some(records) = &run.records {
        out.line(&format!("station: {}", Station::of(records, board).line()));
    }
    note(unreached, out);
    if let Some(records) = &run.records {
        out.line("");
        rows::registers(&records.tuner, out);
    }
}

/// That the step of --fail was not reached.
pub fn note(unreached: Option<usize>, out: &mut Out) {
    if let Some(step) = unreached {
        out.line(&format!("note: step {step} was not reached, so nothing was made to fail by --fail"));
    }
}

/// What runs tell alike.
pub fn run_json(run: &Run, told: &Told, unreached: Option<usize>, table: Option<&Table>) -> Vec<(&'static str, String)> {
    let records = run.records.as_ref();
    let mut fields = vec![
        ("calls", json::lines(run.made.iter().map(made_json))),
        ("answer", told.json(run.made.last().map(|made| made.call))),
        ("steps", run.steps.to_string()),
        ("unreached", json::maybe(unreached)),
        (
            "owed",
            records.map_or_else(|| String::from("[]"), |records| json::array(records.owed.calls().iter().map(|call| json::string(call)))),
        ),
        ("station_known", records.is_some_and(|records| records.owed.is_station_known()).to_string()),
        ("status", how(run, told, table).status().to_string()),
    ];
    fields.extend(records.into_iter().flat_map(|records| Station::of(records, table).json()));
    fields
}

/// How a run ends: by its answer, and where that is done by how it leaves the receiver.
fn how(run: &Run, told: &Told, table: Option<&Table>) -> End {
    told.end().max(run.records.as_ref().filter(|_| told.number == 0).map_or(End::Done, |records| Standing::of(records, table).end()))
}

/// The end of every run: the answer in one line where nothing else was printed, and how the receiver stands where it was done.
pub fn ended(run: &Run, told: &Told, table: Option<&Table>, again: &str, quiet: bool, out: &mut Out) {
    if told.number > 0 && quiet {
        out.tell(told.end(), &told.in_one_line());
    }
    out.ends(told.end());
    if let Some(records) = run.records.as_ref().filter(|_| told.number == 0) {
        Standing::of(records, table).tell(again, out);
    }
}

pub fn registers_json(tuner: &Tuner) -> String {
    json::lines(Tuner::registers().map(|register| rows::register_json(tuner, register)))
}

fn gain_words(gain: Gain) -> String {
    let (index, tenths) = gain_step(gain);
    let step = json::tenths(tenths);
    match gain {
        Gain::Tenths(asked) => format!("gain {} dB, which is step {step} dB", json::tenths(asked)),
        Gain::Index(_) => format!("gain index {index}, which is step {step} dB"),
    }
}

/// How a board is tuned to a frequency, in one line.
pub fn plan_line(hz: u64, plan: Option<&Plan>) -> String {
    let Some(plan) = plan else { return format!("{hz} Hz: no band of the table has it, or its shift takes it out of 64 bits") };
    let notch = if plan.notch { "notch on" } else { "notch off" };
    let inverted = if plan.inverted { ", spectrum inverted" } else { "" };
    let path = plan.path.map_or_else(|| String::from("no path to choose"), |path| format!("path {}", names::path(path)));
    format!("{hz} Hz: the tuner goes to {} Hz, {path}, {notch}{inverted}", plan.hz)
}

pub fn made_rows(made: &Made, out: &mut Out) {
    let name = made.call.name();
    if made.transcript.is_empty() {
        rows::other(name, "no steps", if made.result.is_ok() { "done" } else { "REFUSED" }, out);
    }
    for (at, entry) in made.transcript.iter().enumerate() {
        rows::step(made.first + at, name, &entry, out);
    }
}

fn made_json(made: &Made) -> String {
    json::object(&[
        ("call", json::string(made.call.name())),
        ("refusal", made.result.err().map_or(0, |error| error.number()).to_string()),
        ("steps", steps_json(made)),
    ])
}

pub fn steps_json(made: &Made) -> String {
    json::lines(made.transcript.iter().enumerate().map(|(at, entry)| rows::step_json(made.first + at, &entry)))
}

pub fn plan_json(plan: &Plan) -> String {
    json::object(&[
        ("hz", plan.hz.to_string()),
        ("path", json::maybe(plan.path.map(|path| json::string(names::path(path))))),
        ("notch", plan.notch.to_string()),
        ("inverted", plan.inverted.to_string()),
    ])
}
