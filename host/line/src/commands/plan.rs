//! `plan`: how a board is tuned to a frequency, and the numbers that its PLL gets, without a step.
use crate::printed::out::Out;
use crate::printed::{json, names};
use crate::runs::answer;
use crate::runs::boards::Place;
use crate::runs::pll::{corrected, numbered, pll_json};
use crate::runs::receiver::{self, Receiver};
use crate::runs::report::{plan_json, plan_line};
use crate::words::given::Given;
use crate::words::numbers;
use crate::words::options::Key;
use pasetone::{Error, Plan, PllPlan, Script, Tuner, TunerKind};

/// All that the answer is made of.
struct Planned {
    kind: TunerKind,
    place: Place,
    reference: u32,
    if_hz: u32,
    hz: u64,
    plan: Option<Plan>,
    pll: Result<PllPlan, Error>,
}

pub fn run(given: &Given, out: &mut Out) {
    let hz = if given.operands.is_empty() && given.has(Key::Settings) { None } else { numbers::one_hertz("plan", &given.operands, out) };
    let words = Receiver::of_words(given, hz, out);
    if given.has(Key::Board) && given.has(Key::Table) {
        out.mistake("--table is the board: give --board or --table");
    }
    given.reads_once(&[Key::Table, Key::Settings], out);
    let receiver = match receiver::kept(given, out) {
        Some(kept) => words.filled(&kept),
        None => words,
    };
    let place = receiver.place(given, out);
    let Some(hz) = receiver.frequency.filter(|_| !out.is_mistaken()) else { return };
    let Some(reference) = corrected(given, &receiver, out) else { return };
    let planned = Planned::of(receiver.kind(), place, reference, receiver.if_hz.unwrap_or(2_300_000), hz);
    if given.has(Key::Json) {
        planned.json(out);
    } else if !given.has(Key::Quiet) {
        planned.table(out);
    }
    if let Err(error) = planned.pll {
        let (why, to_do) = planned.refused();
        answer::last_lines(given, &format!("{} {why}", error.number()), &to_do, out);
    }
}

impl Planned {
    fn of(kind: TunerKind, place: Place, reference: u32, if_hz: u32, hz: u64) -> Planned {
        let plan = place.table.plan_tuning(hz).ok();
        let pll = match &plan {
            // As a tuning refuses them: 0 Hz for the tuner, and a sum over 64 bits.
            Some(plan) if plan.hz > 0 => {
                plan.hz.checked_add(if_hz.into()).ok_or(Error::Frequency).and_then(|lo| kind.plan_pll(lo, reference))
            }
            _ => Err(Error::Frequency),
        };
        Planned { kind, place, reference, if_hz, hz, plan, pll }
    }

    fn table(&self, out: &mut Out) {
        let (kind, place) = (names::kind(self.kind), self.place.name());
        out.line(&format!("{kind} on {place}, reference {} Hz, IF {} Hz", self.reference, self.if_hz));
        out.line(&plan_line(self.hz, self.plan.as_ref()));
        if let Some((at, band)) = self.place.table.bands().enumerate().find(|(_, band)| (band.first..=band.last).contains(&self.hz)) {
            let all = self.place.table.bands().len();
            out.line(&format!("band {} of {all}: {} to {} Hz, shift {}", at + 1, band.first, band.last, band.shift));
        }
        if let (Some(plan), Ok(pll)) = (&self.plan, &self.pll) {
            let (m, n, setting, sum) = (pll.divider, pll.n, pll.setting, pll.sum);
            out.line(&format!("oscillator {} Hz: divider {m}, N {n}, sum {sum}, rest {}", plan.hz + u64::from(self.if_hz), pll.rest));
            out.line(&format!("registers: 0x14 <- {setting:02x}, 0x16 <- {:02x}, 0x15 <- {:02x}", sum >> 8, sum & 255));
        }
    }

    /// Why it is refused, and what would be right.
    fn refused(&self) -> (&'static str, String) {
        let Ok(mut tuner) = Tuner::new(self.kind, names::own_address(self.kind), self.reference) else {
            return ("frequency", String::new());
        };
        // The IF is the record's, and stands before the first step.
        let _ = tuner.set_if_freq(self.if_hz.into(), &Script::all_done());
        let table = &self.place.table;
        (answer::frequency_words(&tuner, table, self.hz), answer::reachable(&tuner, table, self.hz))
    }

    fn json(&self, out: &mut Out) {
        let refusal = match self.pll {
            Ok(_) => answer::done_json(),
            Err(error) => ("refusal", error.number().to_string()),
        };
        out.line(&json::document(&[
            refusal,
            ("hz", self.hz.to_string()),
            ("kind", json::string(names::kind(self.kind))),
            ("table", json::maybe(self.place.file.as_ref().map(|file| json::string(file)))),
            ("reference", self.reference.to_string()),
            ("if", self.if_hz.to_string()),
            ("plan", json::maybe(self.plan.as_ref().map(plan_json))),
            ("pll", json::maybe(self.pll.as_ref().ok().map(|pll| pll_json(&numbered(pll))))),
        ]));
    }
}
