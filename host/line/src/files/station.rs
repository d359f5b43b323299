//! Which station a receiver stands on: the oscillator by its registers and the centre of a recording, beside the frequency that was asked for. The numbers are
//! the library's; what is known of the demodulator is in what is owed.
use crate::files::record::Records;
use crate::printed::json;
use pasetone::{Error, Table};

pub struct Station {
    oscillator: Result<u64, Error>,
    /// Or why it is not known.
    centre: Result<u64, &'static str>,
    /// The frequency that was last asked for; 0 where none was.
    asked: u64,
    /// The PLL's divider, by its register.
    divider: u64,
}

impl Station {
    /// By the table of the board; `None` takes the built-in board's, where the record says that it is by one.
    pub fn of(records: &Records, table: Option<&Table>) -> Station {
        let Records { tuner, driver, owed } = records;
        let oscillator = tuner.oscillator();
        let built_in = driver.board().table();
        let none = |_| "below 0 Hz, or of no band";
        let centre = match table {
            // The record's IF is the tuner's: what the demodulator has nobody knows until a rate or an IF is done on both.
            _ if owed.rate.is_some() || owed.if_hz.is_some() => Err("the demodulator's IF is not known"),
            _ if oscillator.is_err() => Err("a register that it stands by is doubtful"),
            // The tuner's own tune goes where it is sent: no band has shifted it.
            _ if owed.plain => oscillator.and_then(|hz| hz.checked_sub(tuner.if_freq()).ok_or(Error::Frequency)).map_err(none),
            Some(table) => driver.centre(tuner, table).map_err(none),
            None if owed.table => Err("the board is by a table, give it by --table"),
            None => driver.centre(tuner, &built_in).map_err(none),
        };
        let divider = 2 << (tuner.shadow(0x10).unwrap_or(0) >> 5);
        Station { oscillator, centre, asked: owed.hz, divider }
    }

    /// How far the centre is from the frequency that was asked for, in Hz.
    fn off(&self) -> Option<i128> {
        let centre = self.centre.ok().filter(|_| self.asked > 0)?;
        Some(i128::from(centre) - i128::from(self.asked))
    }

    /// Whether it is as near as a tuning that is done leaves it (docs/THEOREMS.md): 24,999 Hz of the VCO below and 17,998 above; in whole Hz it is cut.
    fn is_near(&self, off: i128) -> bool {
        let divider = i128::from(self.divider);
        (off + 1) * divider > -24_999 && off * divider <= 17_998
    }

    /// That the centre is beside the station, and by how much, or why it is not known; `None` where it is where it was asked for.
    pub fn beside(&self) -> Option<String> {
        if let Err(why) = self.centre {
            return Some(format!("centre UNKNOWN: {why}"));
        }
        let off = self.off().filter(|off| !self.is_near(*off))?;
        Some(format!("BESIDE its station by {off:+} Hz: centre {} Hz by the registers, asked {} Hz", self.centre.ok()?, self.asked))
    }

    /// Where the middle of a recording is, where that is known.
    pub fn centre(&self) -> Option<u64> {
        self.centre.ok()
    }

    pub fn is_known(&self) -> bool {
        self.centre.is_ok()
    }

    /// One line: the oscillator and the centre, by the registers.
    pub fn line(&self) -> String {
        let oscillator = self.oscillator.map_or_else(|_| String::from("UNKNOWN"), |hz| format!("{hz} Hz"));
        let centre = match (self.centre, self.off()) {
            (Err(why), _) => format!("UNKNOWN: {why}"),
            (Ok(centre), None) => format!("{centre} Hz"),
            (Ok(centre), Some(off)) if self.is_near(off) => format!("{centre} Hz, {off:+} Hz from {}", self.asked),
            (Ok(centre), Some(off)) => format!("{centre} Hz, BESIDE {} Hz by {off:+} Hz", self.asked),
        };
        format!("oscillator {oscillator}, centre {centre}")
    }

    pub fn json(&self) -> [(&'static str, String); 3] {
        [("oscillator", json::maybe(self.oscillator.ok())), ("centre", json::maybe(self.centre.ok())), ("off", json::maybe(self.off()))]
    }
}
