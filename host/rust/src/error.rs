use core::fmt;

/// Why a call was refused: the numbers and words of documents 01 and 02.
///
/// All but [`Error::Step`], and [`Error::Frequency`] in the PLL of a tuning, are given before any step: then nothing has changed.
#[derive(Clone, Copy, Debug, PartialEq, Eq, Hash)]
#[non_exhaustive]
pub enum Error {
    /// 1: a nominal reference of 0, or bytes that are no record.
    Setup,
    /// 2: 0 Hz, Hz plus IF over 64 bits, or a frequency that the PLL cannot make with its reference; by a table, one in no band, or shifted below 0 or past 64 bits.
    Frequency,
    /// 3: rate 0.
    Rate,
    /// 4: a corrected reference out of 1..=4,294,967,295, or a given reference of 0.
    Correction,
    /// 6: a GPIO above 7. (5 is not used.)
    Pin,
    /// 7: an FIR value past its width.
    Coefficient,
    /// 8: too little room. This crate lends enough, so it is never met here.
    Room,
    /// 9: a script with too few outcomes.
    Outcomes,
    /// 10: a script with too few replies.
    Replies,
    /// 11: a step failed, and the steps before it stand.
    Step {
        /// The failing entry in the transcript.
        index: usize,
    },
    /// 12: bytes that do not end in a section.
    Section,
    /// 13: a rate that the resampler cannot hold with the reference.
    Ratio,
    /// 14: a command of a [`Stream`](crate::Stream) with an operation that is none, or with a nonzero byte past its argument.
    Command,
    /// 15: an entry that has no setup packets of its own, or bytes that no section expands to.
    Expansion,
    /// 16: settings of another edition.
    Edition,
    /// 17: bytes that do not end in settings, or a gain index above 28.
    Settings,
    /// 18: settings of edition 2 whose IF edition 1 cannot say.
    NotExpressible,
    /// 19: bands that are no well-formed table.
    Table,
    /// 20: the oscillator stands by a register that is doubtful.
    Doubtful,
    /// A number that this crate has no word for: the library is of another version. Of the one that it is built with it is never met.
    Other {
        /// The number.
        number: u32,
    },
}

impl Error {
    /// What a reply tells: `None` for 0, done.
    pub(crate) fn of(refusal: u32, index: u64) -> Option<Error> {
        Some(match refusal {
            0 => return None,
            1 => Error::Setup,
            2 => Error::Frequency,
            3 => Error::Rate,
            4 => Error::Correction,
            6 => Error::Pin,
            7 => Error::Coefficient,
            8 => Error::Room,
            9 => Error::Outcomes,
            10 => Error::Replies,
            11 => Error::Step { index: index as usize },
            12 => Error::Section,
            13 => Error::Ratio,
            14 => Error::Command,
            15 => Error::Expansion,
            16 => Error::Edition,
            17 => Error::Settings,
            18 => Error::NotExpressible,
            19 => Error::Table,
            20 => Error::Doubtful,
            number => Error::Other { number },
        })
    }

    /// The documents' number.
    pub fn number(self) -> u32 {
        match self {
            Error::Setup => 1,
            Error::Frequency => 2,
            Error::Rate => 3,
            Error::Correction => 4,
            Error::Pin => 6,
            Error::Coefficient => 7,
            Error::Room => 8,
            Error::Outcomes => 9,
            Error::Replies => 10,
            Error::Step { .. } => 11,
            Error::Section => 12,
            Error::Ratio => 13,
            Error::Command => 14,
            Error::Expansion => 15,
            Error::Edition => 16,
            Error::Settings => 17,
            Error::NotExpressible => 18,
            Error::Table => 19,
            Error::Doubtful => 20,
            Error::Other { number } => number,
        }
    }

    /// The documents' word.
    pub fn word(self) -> &'static str {
        match self {
            Error::Setup => "setup",
            Error::Frequency => "frequency",
            Error::Rate => "rate",
            Error::Correction => "correction",
            Error::Pin => "pin",
            Error::Coefficient => "coefficient",
            Error::Room => "room",
            Error::Outcomes => "outcomes",
            Error::Replies => "replies",
            Error::Step { .. } => "step",
            Error::Section => "section",
            Error::Ratio => "ratio",
            Error::Command => "command",
            Error::Expansion => "expansion",
            Error::Edition => "edition",
            Error::Settings => "settings",
            Error::NotExpressible => "not expressible",
            Error::Table => "table",
            Error::Doubtful => "doubtful",
            Error::Other { .. } => "unknown",
        }
    }
}

impl Error {
    /// What is wrong, and what to do.
    fn advice(self) -> &'static str {
        match self {
            Error::Setup => "a reference of 0, or bytes that are no record: give a reference from 1 Hz, or a record's own bytes",
            Error::Frequency => {
                "0 Hz, or one that the PLL cannot make: ask for one whose sum with the IF is from 27656250 to 1799999999 Hz (not all of them where the reference is below 28125000 or above 68076923 Hz)"
            }
            Error::Rate => "the rate is 0: give one from 1",
            Error::Correction => "the corrected reference is not from 1 to 4294967295 Hz: give another correction, and no reference of 0",
            Error::Pin => "there is no such GPIO: give one from 0 to 7",
            Error::Coefficient => "an FIR value is past its width: give -128 to 127 for the first eight, -2048 to 2047 for the others",
            Error::Room => "the library asked for more room than this crate lends: build both from one tree",
            Error::Outcomes => {
                "the script has too few outcomes: take Script::all_done, which has enough for every call, and an index below its length"
            }
            Error::Replies => {
                "the script has too few replies: take Script::all_done, which has enough for every call, and an index below its length"
            }
            Error::Step { .. } => {
                "a step failed, and the steps before it stand: reload the tuner, then make the same call again until it is done; what it wrote to the demodulator or the GPIO no reload repairs"
            }
            Error::Section => "the bytes do not end in a section: give a whole one, its trailer last",
            Error::Ratio => {
                "the resampler cannot hold the ratio of reference and rate: with a reference of 28800000 Hz give a rate from 225001 to 300000, or from 900001"
            }
            Error::Command => {
                "the command has an operation that is none, or a nonzero byte past its argument: send an operation from 1 to 7, and zeros above its argument"
            }
            Error::Expansion => {
                "a demod register above 0xff, a page above 15, or block 0 or 6 has no setup packets of its own; or the bytes are no section's packets: give all of them, from the first"
            }
            Error::Edition => "the settings are of another edition: read them by its own functions",
            Error::Settings => "the bytes do not end in settings, or a gain index is above 28: give a whole image, its trailer last",
            Error::NotExpressible => "edition 1 has no IF but 2300000: keep these settings in edition 2",
            Error::Table => {
                "the bands are no table: give at most 16, each with a first Hz not above its last and above the last of the band before, flags of 0 or 1 and a path up to 3"
            }
            Error::Doubtful => {
                "the oscillator stands by a register that is doubtful, so nothing is told of it: reload the tuner, then make the call that was cut again until it is done"
            }
            Error::Other { .. } => "the library gives a number that this crate has no word for: build both from one tree",
        }
    }
}

/// The number, the word and for a step its entry; then what is wrong, and what to do.
impl fmt::Display for Error {
    fn fmt(&self, f: &mut fmt::Formatter<'_>) -> fmt::Result {
        write!(f, "refusal {} ({})", self.number(), self.word())?;
        if let Error::Step { index } = self {
            write!(f, " at entry {index}")?;
        }
        write!(f, ": {}", self.advice())
    }
}

impl core::error::Error for Error {}

#[cfg(test)]
mod tests {
    use super::Error;

    /// Whatever number a library answers is told as it is.
    #[test]
    fn every_number_is_told() {
        assert_eq!(Error::of(0, 7), None);
        for number in (1..300).chain([u32::MAX]) {
            let error = Error::of(number, 7).expect("a refusal");
            assert_eq!((error.number(), matches!(error, Error::Other { .. })), (number, number == 5 || number > 20));
        }
        assert_eq!(Error::of(11, 7), Some(Error::Step { index: 7 }));
    }
}
