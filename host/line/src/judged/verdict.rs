//! What may be said of a recording by what was sent. `right` needs all of: a frequency that was asked for, oscillator, IF and rate sure, no register of the chip
//! doubtful, every call done, each of the hop's sections with its line, the lock read since the oscillator was last written, and the centre where a tuning that is done leaves it.
use crate::judged::places::Places;
use crate::printed::names::counted;
use crate::printed::out::End;
use pasetone::Evidence;
use pasetone::evidence::{Lock, Told};

#[derive(Clone, Copy, PartialEq, Eq, Debug)]
pub enum Verdict {
    Right,
    /// The oscillator is sure, and so is the IF: the recording is of another frequency, by so many Hz.
    Beside(i128),
    NotLocked,
    Doubtful,
    Unknown,
}

impl Verdict {
    pub const WORDS: [&str; 5] = ["right", "beside", "not locked", "doubtful", "unknown"];

    /// Its place in [`Verdict::WORDS`].
    pub fn at(self) -> usize {
        match self {
            Verdict::Right => 0,
            Verdict::Beside(_) => 1,
            Verdict::NotLocked => 2,
            Verdict::Doubtful => 3,
            Verdict::Unknown => 4,
        }
    }

    pub fn words(self) -> String {
        match self {
            Verdict::Beside(off) => format!("beside its station by {off:+} Hz"),
            other => String::from(Verdict::WORDS[other.at()]),
        }
    }

    pub fn end(self) -> End {
        match self {
            Verdict::Right => End::Done,
            Verdict::NotLocked => End::NotLocked,
            Verdict::Beside(_) | Verdict::Doubtful | Verdict::Unknown => End::Doubtful,
        }
    }
}

/// What is judged.
pub struct Case<'a> {
    pub told: Evidence,
    pub places: &'a Places,
    pub driver_xtal: u32,
    pub asked: Option<u64>,
    /// What the board has added, where its tuning was come to.
    pub shift: Option<i128>,
    /// Calls that were not done, and not made again since.
    pub owed: &'a [&'static str],
    /// Sections of which no line tells what was asked and answered.
    pub unlogged: usize,
}

/// The unit of the evidence's oscillator and IF: 2^-23 Hz.
const UNIT: i128 = 1 << 23;

impl Case<'_> {
    /// The centre of the recording in whole Hz, with the board's shift taken back.
    pub fn centre(&self) -> Option<i128> {
        Some(i128::from(self.told.centre.sure()?) - self.shift.unwrap_or(0))
    }

    /// Whether the centre is where a tuning that is done leaves it (crate stations, `on-centre`; docs/THEOREMS.md): hz - 24,999 / m at least, and at most
    /// hz + 17,998 / m + xtal / 2^22. Reckoned in the evidence's own units, in which nothing is cut.
    fn is_near(&self, asked: u64, shift: i128) -> Option<bool> {
        let (oscillator, offset) = (i128::from(self.told.oscillator.sure()?), i128::from(self.told.offset.sure()?));
        let (divider, xtal) = (i128::from(self.places.divider()?), i128::from(self.driver_xtal));
        let off = divider * (oscillator - offset - UNIT * (i128::from(asked) + shift));
        Some(off >= -24_999 * UNIT && off <= 17_998 * UNIT + divider * 2 * xtal)
    }

    /// The verdict, and why it is not `right`.
    pub fn judge(&self) -> (Verdict, Vec<String>) {
        let mut why = Vec::new();
        let Some(asked) = self.asked else {
            let what = if self.unlogged > 0 { "its tuning has no line in a log" } else { "no log tells it" };
            return (Verdict::Unknown, vec![format!("asked: {what}")]);
        };
        let near = self.shift.and_then(|shift| self.is_near(asked, shift));
        if let (Some(false), Some(centre)) = (near, self.centre()) {
            why.extend(self.undone());
            return (Verdict::Beside(centre - i128::from(asked)), why);
        }
        let never = self.doubts(&mut why);
        if near.is_none() && why.is_empty() && self.unlogged == 0 {
            why.push(String::from("its tuning was not come to"));
        }
        let verdict = match self.told.lock {
            _ if self.unlogged > 0 || never => Verdict::Unknown,
            _ if !why.is_empty() || near.is_none() => Verdict::Doubtful,
            Lock::Locked => return (Verdict::Right, why),
            Lock::Without => Verdict::NotLocked,
            Lock::Unread => {
                why.push(String::from("the lock was not read since"));
                Verdict::NotLocked
            }
        };
        if self.unlogged > 0 {
            why.push(format!("{} without a line in the log", counted(self.unlogged, "section")));
        }
        (verdict, why)
    }

    fn undone(&self) -> Option<String> {
        (!self.owed.is_empty()).then(|| format!("not done: {}", self.owed.join(", ")))
    }

    /// What is not sure; whether some of it was never sent in this file.
    fn doubts(&self, why: &mut Vec<String>) -> bool {
        let Evidence { oscillator, offset, rate, centre, .. } = self.told;
        let (doubtful, never) = self.places.doubtful();
        let (mut is_never, mut is_vain) = (never > 0, doubtful > never || !self.owed.is_empty());
        for (what, mark) in [("oscillator", mark(oscillator)), ("IF", mark(offset)), ("rate", mark(rate)), ("centre", mark(centre))] {
            is_never |= mark == Told::Never;
            // The centre is doubtful too where one of its two was never sent.
            is_vain |= mark == Told::Doubtful && what != "centre";
            match mark {
                Told::Sure(()) => {}
                Told::Never => why.push(format!("{what} never sent in this file")),
                Told::Doubtful => why.push(format!("{what} doubtful")),
            }
        }
        if never > 0 {
            why.push(format!("{} never sent in this file", counted(never, "register")));
        }
        if doubtful > never {
            why.push(format!("{} doubtful", counted(doubtful - never, "register")));
        }
        why.extend(self.undone());
        // What was sent in vain is doubtful, whatever else was never sent.
        is_never && !is_vain
    }
}

fn mark<T>(told: Told<T>) -> Told<()> {
    match told {
        Told::Never => Told::Never,
        Told::Doubtful => Told::Doubtful,
        Told::Sure(_) => Told::Sure(()),
    }
}

#[cfg(test)]
mod tests {
    use super::*;
    use pasetone::{Board, Receiver, Script, Transcript, TunerKind, evidence};

    /// A receiver that was set up and tuned to 102.3 MHz at 28.8 MHz, by any status; what it sent.
    fn sent(reply: u8) -> Vec<Transcript> {
        let mut receiver = Receiver::new(TunerKind::R828d, 0x74, Board::Generic, 28_800_000).unwrap();
        let (done, replies) = (Script::all_done(), Script::new(vec![0; Script::OUTCOMES], vec![reply; Script::REPLIES]));
        let first = receiver.tuner_mut().initialize(&done).transcript;
        let rate = receiver.set_sample_rate(2_048_000, &done).transcript;
        vec![first, rate, receiver.tune(102_300_000, &replies).transcript]
    }

    fn judged(sections: &[Transcript], asked: Option<u64>, owed: &[&'static str], unlogged: usize) -> Verdict {
        let bytes: Vec<u8> = sections.iter().flat_map(|section| section.bytes()).copied().collect();
        let mut places = Places::new(0x74);
        sections.iter().flat_map(Transcript::iter).for_each(|entry| places.see(&entry));
        let told = evidence(&bytes, 0x74, 28_800_000, 28_800_000).unwrap();
        Case { told, places: &places, driver_xtal: 28_800_000, asked, shift: Some(0), owed, unlogged }.judge().0
    }

    #[test]
    fn each_verdict() {
        let (good, asked) = (sent(0x0a), Some(102_300_000));
        assert_eq!(judged(&good, asked, &[], 0), Verdict::Right);
        assert_eq!(judged(&good, None, &[], 0), Verdict::Unknown);
        assert_eq!(judged(&good, asked, &[], 1), Verdict::Unknown);
        assert_eq!(judged(&good, asked, &["set_gain"], 0), Verdict::Doubtful);
        assert_eq!(judged(&good, Some(102_400_000), &[], 0), Verdict::Beside(-99_989));
        // What is certain comes first.
        assert_eq!(judged(&good, Some(102_400_000), &["set_gain"], 1), Verdict::Beside(-99_989));
        // Nothing is known of what stands in another file.
        assert_eq!(judged(&good[1..], asked, &[], 0), Verdict::Unknown);
        assert_eq!(judged(&[good[0].clone(), good[2].clone()], asked, &[], 0), Verdict::Unknown);
        // The fine tune is right in 0x08, and the lock's bit is not there.
        assert_eq!(judged(&sent(0x08), asked, &[], 0), Verdict::NotLocked);
        // A repair of the divider.
        assert!(matches!(judged(&sent(0x04), asked, &[], 0), Verdict::Beside(_)));
    }

    /// The bound's two ends, to the Hz, with m 32: the centre is 102,300,011.4 Hz, 24,999 / 32 is 781.2 and 17,998 / 32 with the IF's step 569.3.
    #[test]
    fn the_bound_is_the_theorem_s() {
        let good = sent(0x0a);
        for (asked, is_right) in [(102_299_441, false), (102_299_443, true), (102_300_792, true), (102_300_793, false)] {
            assert_eq!(judged(&good, Some(asked), &[], 0) == Verdict::Right, is_right, "{asked}");
        }
    }

    /// Every step of the rate and of the tuning fails once, each followed by nothing, or by the rest of the hop's calls: never right.
    #[test]
    fn what_was_cut_is_not_right() {
        for fail in 0..60 {
            let mut receiver = Receiver::new(TunerKind::R828d, 0x74, Board::Generic, 28_800_000).unwrap();
            let first = receiver.tuner_mut().initialize(&Script::all_done()).transcript;
            let script = |from: usize| {
                let outcomes = (0..Script::OUTCOMES).map(|step| u8::from(step + from == fail)).collect::<Vec<u8>>();
                Script::new(outcomes, vec![0x0a; Script::REPLIES])
            };
            let rate = receiver.set_sample_rate(2_048_000, &script(0));
            let tuned = receiver.tune(102_300_000, &script(17));
            let owed: Vec<&str> = [rate.result.is_err().then_some("set_sample_rate"), tuned.result.is_err().then_some("tune_board")]
                .into_iter()
                .flatten()
                .collect();
            let is_done = owed.is_empty();
            let verdict = judged(&[first, rate.transcript, tuned.transcript], Some(102_300_000), &owed, 0);
            assert_eq!(verdict == Verdict::Right, is_done, "{fail}");
        }
    }
}
