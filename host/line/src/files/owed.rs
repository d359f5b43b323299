//! What a receiver still needs before its record may be believed of a station: calls that were cut and not made again, or never made, and tunings that later
//! calls have moved. A record alone says which bytes the chip holds (demand 3); it does not say that a tuning was cut and only reloaded, nor what the
//! demodulator has, so a kept record has this behind it.
use crate::printed::names::{Gain, decibels};
use pasetone::{Driver, EntryKind, Error, Transcript, Tuner};

/// What a fresh record is given where no word says otherwise.
pub const RATE: u32 = 2_048_000;
pub const GAIN: Gain = Gain::Tenths(297);

/// A call with its argument.
#[derive(Clone, Copy)]
pub enum Job {
    Correction,
    Initialise,
    Rate(u32),
    Gain(Gain),
    If(u32),
    DemodIf(u32),
    Bandwidth(u32),
    /// The board-level tune.
    Tune(u64),
    /// The tuner's own, without its board.
    TunerTune(u64),
    Reload,
}

/// Where a repair of the divider has left the oscillator, by its registers.
#[derive(Clone, Copy, PartialEq, Eq, Debug)]
pub enum Moved {
    Twice,
    Half,
}

/// The calls that are not done, with the values that they were asked for.
#[derive(Clone, PartialEq, Debug, Default)]
pub struct Owed {
    pub initialise: bool,
    pub rate: Option<u32>,
    pub gain: Option<Gain>,
    /// The IF of tuner and demodulator.
    pub if_hz: Option<u32>,
    pub bandwidth: Option<u32>,
    pub tune: bool,
    /// The board's input and spectrum, which the tuner's own tune does not set.
    pub board: bool,
    /// The last tuning's status asked for a repair of the divider.
    pub moved: Option<Moved>,
    /// The board is by a table, which the record does not name.
    pub table: bool,
    /// The last tuning was the tuner's own: no band has shifted its frequency.
    pub plain: bool,
    /// The bring-up of a receiver on the bus: demodulator and board are not set up.
    pub setup: bool,
    /// Every register was sent again, and no tuning has read the lock since.
    pub unread: bool,
    /// The frequency that was last asked for; 0 where none was.
    pub hz: u64,
}

impl Owed {
    /// Of a fresh record: everything.
    pub fn fresh() -> Owed {
        Owed { initialise: true, rate: Some(RATE), gain: Some(GAIN), tune: true, board: true, ..Owed::default() }
    }

    /// Everything, with the values that records have.
    pub fn all(&self, tuner: &Tuner, driver: &Driver) -> Owed {
        let mut owed = Owed { initialise: true, board: true, ..self.clone() };
        owed.reset(tuner, driver);
        owed
    }

    /// Behind a call over these records, of which `tuner` and `driver` are the next ones.
    pub fn made(&mut self, job: Job, result: Result<(), Error>, sent: &Transcript, tuner: &Tuner, driver: &Driver) {
        match result {
            Ok(()) => self.done(job, sent, tuner, driver),
            // Refused before its first step: nothing has changed, and a rate that is refused is none to be asked for again.
            Err(_) if sent.is_empty() => {
                if let Job::Rate(rate) = job {
                    self.rate = self.rate.map(|owed| if owed == rate { RATE } else { owed });
                }
            }
            Err(_) => self.cut(job, tuner, driver),
        }
    }

    fn done(&mut self, job: Job, sent: &Transcript, tuner: &Tuner, driver: &Driver) {
        match job {
            Job::Initialise => {
                self.initialise = false;
                self.reset(tuner, driver);
            }
            // It sets the IF and the bandwidth of both.
            Job::Rate(_) => {
                (self.rate, self.if_hz, self.bandwidth, self.tune) = (None, None, None, true);
            }
            Job::Gain(_) => self.gain = None,
            // The tuner's half: the demodulator's follows.
            Job::If(hz) => (self.if_hz, self.tune) = (Some(hz), true),
            Job::DemodIf(_) => (self.if_hz, self.tune) = (None, true),
            Job::Bandwidth(_) => self.bandwidth = None,
            Job::Tune(hz) => {
                (self.tune, self.board, self.plain, self.unread) = (false, false, false, false);
                (self.hz, self.moved) = (hz, moved(sent));
            }
            Job::TunerTune(hz) => {
                (self.tune, self.plain, self.unread) = (false, true, false);
                (self.hz, self.moved) = (hz, moved(sent));
            }
            // The next tuning goes by the reference.
            Job::Correction => self.tune = true,
            // It sends what was sent: what a cut call has left is as it was.
            Job::Reload => self.unread = true,
        }
    }

    /// Behind a call of which a step failed, or whose end is not known.
    pub fn cut(&mut self, job: Job, tuner: &Tuner, driver: &Driver) {
        match job {
            Job::Initialise => {
                self.initialise = true;
                self.reset(tuner, driver);
            }
            Job::Rate(rate) => (self.rate, self.tune) = (Some(rate), true),
            Job::Gain(gain) => self.gain = Some(gain),
            Job::If(hz) | Job::DemodIf(hz) => (self.if_hz, self.tune) = (Some(hz), true),
            Job::Bandwidth(hz) => self.bandwidth = Some(hz),
            Job::Tune(hz) => (self.tune, self.board, self.plain, self.hz) = (true, true, false, hz),
            Job::TunerTune(hz) => (self.tune, self.plain, self.hz) = (true, true, hz),
            Job::Correction => {}
            Job::Reload => self.unread = true,
        }
    }

    /// Initialise sends the initial bytes: what the tuner had of rate, gain and tuning is gone, also where it stopped on its way.
    fn reset(&mut self, tuner: &Tuner, driver: &Driver) {
        let rate = Some(driver.rate()).filter(|rate| *rate > 0).unwrap_or(RATE);
        if self.rate.is_none() && tuner.if_freq() != own_if(rate) {
            self.if_hz = self.if_hz.or(u32::try_from(tuner.if_freq()).ok());
        }
        self.rate = self.rate.or(Some(rate));
        self.gain = self.gain.or(Some(Gain::Tenths((tuner.gain() * 10.0).round() as i32)));
        self.tune = true;
    }

    /// Whether the receiver stands on the frequency that it was last tuned to, as far as calls that are not done tell.
    pub fn is_station_known(&self) -> bool {
        !self.setup && !self.initialise && self.rate.is_none() && self.if_hz.is_none() && !self.tune && !self.board && self.moved.is_none()
    }

    /// The calls, by name and value.
    pub fn calls(&self) -> Vec<String> {
        let mut calls = Vec::new();
        calls.extend(self.setup.then(|| String::from("bring-up")));
        calls.extend(self.initialise.then(|| String::from("initialise")));
        calls.extend(self.rate.map(|rate| format!("sample rate {rate}")));
        calls.extend(self.gain.map(|gain| match gain {
            Gain::Tenths(tenths) => format!("gain {:.1} dB", decibels(tenths)),
            Gain::Index(index) => format!("gain index {index}"),
        }));
        calls.extend(self.if_hz.map(|hz| format!("IF {hz} Hz")));
        calls.extend(self.bandwidth.map(|hz| format!("bandwidth {hz} Hz")));
        calls.extend(self.tune.then(|| String::from("tune")));
        calls.extend((self.board && !self.tune).then(|| String::from("board input")));
        calls
    }

    /// What is not known, and why; `None` where nothing is owed.
    pub fn words(&self) -> Option<String> {
        let calls = self.calls();
        let mut why = Vec::new();
        if !calls.is_empty() {
            why.push(format!("not done: {}", calls.join(", ")));
        }
        if let Some(moved) = self.moved {
            let by = if moved == Moved::Twice { "twice" } else { "half" };
            why.push(format!("divider repaired: the oscillator's registers say {by} what was asked"));
        }
        let head = if self.is_station_known() { "" } else { "station UNKNOWN: " };
        (!why.is_empty()).then(|| format!("{head}{}", why.join("; ")))
    }

    /// The bytes behind a kept record's two.
    pub const SIZE: usize = 28;

    pub fn bytes(&self) -> [u8; Owed::SIZE] {
        let flags = [
            self.initialise,
            self.rate.is_some(),
            self.gain.is_some(),
            self.if_hz.is_some(),
            self.bandwidth.is_some(),
            self.tune,
            self.board,
            self.table,
        ];
        let moved = match self.moved {
            None => 0,
            Some(Moved::Twice) => 1,
            Some(Moved::Half) => 2,
        };
        let (kind, gain) = match self.gain {
            Some(Gain::Index(index)) => (1, i32::from(index)),
            Some(Gain::Tenths(tenths)) => (0, tenths),
            None => (0, 0),
        };
        let mut bytes = [0; Owed::SIZE];
        bytes[0] = flags.iter().enumerate().map(|(bit, flag)| u8::from(*flag) << bit).sum();
        (bytes[1], bytes[2], bytes[3]) = (moved, kind, u8::from(self.plain) | u8::from(self.setup) << 1 | u8::from(self.unread) << 2);
        bytes[4..8].copy_from_slice(&self.rate.unwrap_or(0).to_le_bytes());
        bytes[8..12].copy_from_slice(&gain.to_le_bytes());
        bytes[12..16].copy_from_slice(&self.if_hz.unwrap_or(0).to_le_bytes());
        bytes[16..20].copy_from_slice(&self.bandwidth.unwrap_or(0).to_le_bytes());
        bytes[20..].copy_from_slice(&self.hz.to_le_bytes());
        bytes
    }

    /// Read from exactly the bytes that it is written to.
    pub fn read(bytes: &[u8; Owed::SIZE]) -> Option<Owed> {
        let has = |bit: u8| bytes[0] >> bit & 1 == 1;
        let number = |at: usize| u32::from_le_bytes(std::array::from_fn(|k| bytes[at + k]));
        let gain = match bytes[2] {
            0 => Gain::Tenths(number(8) as i32),
            _ => Gain::Index(number(8) as u8),
        };
        let moved = match bytes[1] {
            0 => None,
            1 => Some(Moved::Twice),
            _ => Some(Moved::Half),
        };
        let owed = Owed {
            initialise: has(0),
            rate: has(1).then(|| number(4)),
            gain: has(2).then_some(gain),
            if_hz: has(3).then(|| number(12)),
            bandwidth: has(4).then(|| number(16)),
            tune: has(5),
            board: has(6),
            moved,
            table: has(7),
            plain: bytes[3] & 1 == 1,
            setup: bytes[3] >> 1 & 1 == 1,
            unread: bytes[3] >> 2 & 1 == 1,
            hz: u64::from_le_bytes(std::array::from_fn(|k| bytes[20 + k])),
        };
        (owed.bytes() == *bytes).then_some(owed)
    }
}

/// The IF that a rate chooses (document 01: src/lib.rs, `set_sample_rate`).
pub fn own_if(rate: u32) -> u64 {
    match rate {
        2_500_000.. => 3_570_000,
        1_000_000.. => 2_300_000,
        _ => 0,
    }
}

/// How a tuning's repair of the divider has moved the oscillator: behind the five status bytes 0x10 is written again, and its three high bits, the power of
/// the divider, are others than before.
fn moved(sent: &Transcript) -> Option<Moved> {
    let entries: Vec<_> = sent.iter().collect();
    let status = entries.iter().position(|entry| entry.kind == EntryKind::I2cRead && entry.bytes.len() == 5)?;
    let divider = |entry: &pasetone::Entry| entry.registers().find(|(register, _)| *register == 0x10).map(|(_, byte)| byte >> 5);
    let before = entries[..status].iter().rev().find_map(divider)?;
    let after = entries[status..].iter().find_map(divider)?;
    match after.cmp(&before) {
        std::cmp::Ordering::Less => Some(Moved::Twice),
        std::cmp::Ordering::Greater => Some(Moved::Half),
        std::cmp::Ordering::Equal => None,
    }
}

#[cfg(test)]
mod tests {
    use super::*;
    use pasetone::{Board, Script, TunerKind};

    fn records() -> (Tuner, Driver) {
        (Tuner::new(TunerKind::R828d, 0x74, 28_800_000).unwrap(), Driver::new(Board::V4, 28_800_000, 0, 0, 0).unwrap())
    }

    #[test]
    fn there_and_back() {
        let some =
            Owed { rate: Some(7), gain: Some(Gain::Index(28)), moved: Some(Moved::Half), hz: u64::MAX, table: true, ..Owed::default() };
        for owed in [
            Owed::default(),
            Owed::fresh(),
            some,
            Owed { gain: Some(Gain::Tenths(-30)), if_hz: Some(0), bandwidth: Some(9), ..Owed::fresh() },
            Owed { setup: true, ..Owed::default() },
            Owed { setup: true, plain: true, ..Owed::default() },
            Owed { unread: true, ..Owed::default() },
        ] {
            assert_eq!(Owed::read(&owed.bytes()), Some(owed));
        }
        // A value without its flag, a gain or a move that is none, a byte that is used by nothing.
        for (at, byte) in [(4, 1), (8, 1), (12, 1), (16, 1), (1, 3), (2, 1), (3, 8)] {
            let mut bytes = Owed::default().bytes();
            bytes[at] = byte;
            assert_eq!(Owed::read(&bytes), None, "{at}");
        }
    }

    /// The five status bytes of a tuning, reversed by the chip: bits 5 and 4 of the fifth are the fine tune, 1 is right for an R828D.
    #[test]
    fn repairs_are_seen() {
        for (hz, status, wanted) in [
            (102_300_000, 0x0a, None),
            (102_300_000, 0x04, Some(Moved::Twice)),
            (102_300_000, 0x00, Some(Moved::Half)),
            // At the divider 2 there is none below: the register stays.
            (1_000_000_000, 0x04, None),
        ] {
            let (mut tuner, _) = records();
            let answer = tuner.set_frequency(hz, &Script::new(vec![0; Script::OUTCOMES], vec![status; Script::REPLIES]));
            assert_eq!((answer.result, moved(&answer.transcript)), (Ok(hz), wanted), "{hz} {status}");
        }
    }

    /// Every step of every call of a hop fails once: what was cut is owed until it is done again, and nothing else is.
    #[test]
    fn what_is_cut_is_owed() {
        let (mut tuner, mut driver) = records();
        let mut owed = Owed::fresh();
        assert!(!owed.is_station_known());
        let table = Board::V4.table();
        let done = Script::all_done();
        let sent = tuner.initialize(&done).transcript;
        owed.made(Job::Initialise, Ok(()), &sent, &tuner, &driver);
        for fail in (0..17).map(Some).chain([None]) {
            let script = fail.map_or_else(Script::all_done, |step| Script::all_done().failing(step).unwrap());
            let answer = driver.set_sample_rate(&mut tuner, &table, 3_200_000, &script);
            owed.made(Job::Rate(3_200_000), answer.result, &answer.transcript, &tuner, &driver);
            assert_eq!((owed.rate, owed.tune), (answer.result.is_err().then_some(3_200_000), true), "{fail:?}");
        }
        let sent = tuner.set_gain(29.7, &done).transcript;
        owed.made(Job::Gain(GAIN), Ok(()), &sent, &tuner, &driver);
        let answer =
            driver.tune_board(&mut tuner, &table, 102_300_000, &Script::new(vec![0; Script::OUTCOMES], vec![0x0a; Script::REPLIES]));
        owed.made(Job::Tune(102_300_000), answer.result.map(drop), &answer.transcript, &tuner, &driver);
        assert_eq!(owed, Owed { hz: 102_300_000, ..Owed::default() });
        assert_eq!(owed.words(), None);
        // A rate moves the IF; a refused call moves nothing; a reload repairs nothing of it.
        let answer = driver.set_sample_rate(&mut tuner, &table, 0, &done);
        owed.made(Job::Rate(0), answer.result, &answer.transcript, &tuner, &driver);
        assert_eq!(owed.words(), None);
        let answer = driver.set_sample_rate(&mut tuner, &table, 2_048_000, &done);
        owed.made(Job::Rate(2_048_000), answer.result, &answer.transcript, &tuner, &driver);
        owed.made(Job::Reload, Ok(()), &tuner.clone().reload(&done).transcript, &tuner, &driver);
        assert_eq!(owed.words().as_deref(), Some("station UNKNOWN: not done: tune"));
        assert!(owed.unread);
        owed.made(Job::TunerTune(102_300_000), Ok(()), &Transcript::default(), &tuner, &driver);
        assert_eq!((owed.words(), owed.unread), (None, false));
        let answer = driver.tune_board(&mut tuner, &table, 2_000_000_000, &done);
        owed.made(Job::Tune(2_000_000_000), answer.result.map(drop), &answer.transcript, &tuner, &driver);
        assert_eq!(answer.result, Err(Error::Frequency));
        assert!(owed.tune && owed.board);
    }
}
