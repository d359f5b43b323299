//! The text of `run`: which receivers there are, with their settings, and where each is to stand by the hour. Every bad line is told with its number.
//!
//! ```text
//! # a comment, to the end of its line
//! receiver NAME DEVICE [kind r828d|r820t] [address N] [board v4|generic] [table FILE] [reference HZ] [ppm N] [rate N] [gain DB] [if HZ]
//!   HH:MM HZ
//! ```
use crate::files::disk;
use crate::printed::names::{self, Gain};
use crate::runs::boards;
use crate::runs::receiver::Receiver;
use crate::words::named::shown;
use crate::words::numbers;
use pasetone::{Table, TunerKind};
use std::ffi::OsStr;

/// The seconds of a day.
pub const DAY: u64 = 86_400;

/// A receiver of the night.
pub struct Row {
    /// The file names begin with it.
    pub name: String,
    /// As --device takes it.
    pub device: String,
    pub settings: Receiver,
    pub table: Option<Table>,
    /// The second of the day that it goes there, and the Hz.
    pub stations: Vec<(u64, u64)>,
}

/// The receivers of a text, or what is wrong with it, line by line.
pub fn read(text: &str) -> Result<Vec<Row>, Vec<String>> {
    let (mut rows, mut wrong) = (Vec::new(), Vec::new());
    for (number, line) in text.lines().enumerate() {
        let words: Vec<&str> = line.split('#').next().unwrap_or("").split_whitespace().collect();
        if let Err(why) = added(&mut rows, &words) {
            wrong.push(format!("line {}: {why}", number + 1));
        }
    }
    if wrong.is_empty() {
        let bare = rows.iter().filter(|row: &&Row| row.stations.is_empty());
        wrong.extend(bare.map(|row| format!("receiver {} has no station: give it lines as `20:00 102.3M`", row.name)));
    }
    if rows.is_empty() && wrong.is_empty() {
        wrong.push(String::from("it names no receiver: begin with a line as `receiver rx01 00000001 ppm -3`"));
    }
    if wrong.is_empty() { Ok(rows) } else { Err(wrong) }
}

/// A line's words, to what came before.
fn added(rows: &mut Vec<Row>, words: &[&str]) -> Result<(), String> {
    match words {
        [] => Ok(()),
        ["receiver", name, device, settings @ ..] => {
            if rows.iter().any(|row| row.name == *name) {
                return Err(format!("the name {name} stands twice"));
            }
            if rows.iter().any(|row| row.device == *device) {
                return Err(format!("the device {device} stands twice"));
            }
            rows.push(row(name, device, settings)?);
            Ok(())
        }
        ["receiver", ..] => Err(String::from("receiver wants a name and a device, as `receiver rx01 00000001 ppm -3`")),
        [time, hz] => {
            let row = rows.last_mut().ok_or("a station stands before any receiver")?;
            let at = second(time).ok_or_else(|| format!("a time is written as 20:00 or 20:00:30 (UTC), not `{time}`"))?;
            let hz = numbers::hertz(hz)
                .ok_or_else(|| format!("a station is a whole number of Hz, as 102300000, 102300k or 102.3M, not `{hz}`"))?;
            if row.stations.iter().any(|(other, _)| *other == at) {
                return Err(format!("{time} stands twice for {}", row.name));
            }
            row.stations.push((at, hz));
            Ok(())
        }
        _ => Err(String::from("a line is `receiver NAME DEVICE ..`, or `HH:MM HZ`")),
    }
}

/// The second of the day.
pub fn second(text: &str) -> Option<u64> {
    let number = |digits: &str, below: u64| {
        let is_number = digits.len() == 2 && digits.bytes().all(|byte| byte.is_ascii_digit());
        digits.parse::<u64>().ok().filter(|number| is_number && *number < below)
    };
    match text.split(':').collect::<Vec<&str>>().as_slice() {
        [hours, minutes] => Some(3_600 * number(hours, 24)? + 60 * number(minutes, 60)?),
        [hours, minutes, seconds] => Some(3_600 * number(hours, 24)? + 60 * number(minutes, 60)? + number(seconds, 60)?),
        _ => None,
    }
}

/// A receiver without stations yet. Its name is a file's: no other sign than letters, digits, - and _.
fn row(name: &str, device: &str, settings: &[&str]) -> Result<Row, String> {
    if name.len() > 64 || !name.bytes().all(|byte| byte.is_ascii_alphanumeric() || b"-_".contains(&byte)) {
        return Err(format!("a name has letters, digits, - and _, 64 at most, not `{}`", shown(OsStr::new(name))));
    }
    let mut row = Row { name: name.into(), device: device.into(), settings: Receiver::none(), table: None, stations: Vec::new() };
    let mut given: Vec<&str> = Vec::new();
    for pair in settings.chunks(2) {
        let [word, value] = pair else { return Err(format!("{} has no value", pair[0])) };
        if given.contains(word) {
            return Err(format!("{word} stands twice"));
        }
        given.push(word);
        set(&mut row, word, value)?;
    }
    if row.table.is_some() && row.settings.board.is_some() {
        return Err(String::from("a table is the board: give board or table"));
    }
    Ok(row)
}

fn set(row: &mut Row, word: &str, value: &str) -> Result<(), String> {
    let hertz = |text: &str| u32::try_from(numbers::hertz(text)?).ok();
    let settings = &mut row.settings;
    let is_taken = match word {
        "kind" => names::kind_of(value).map(|kind| settings.kind = Some(kind)),
        "address" => numbers::whole(value).and_then(|number| u8::try_from(number).ok()).map(|address| settings.address = Some(address)),
        "board" => names::board_of(value).map(|board| settings.board = Some(board)),
        "reference" => hertz(value).filter(|hz| *hz > 0).map(|hz| settings.reference = Some(hz)),
        "ppm" => numbers::signed(value).map(|ppm| settings.ppm = Some(ppm)),
        "rate" => hertz(value).filter(|rate| *rate > 0).map(|rate| settings.rate = Some(rate)),
        "gain" => numbers::tenths(value).map(|tenths| settings.gain = Some(Gain::Tenths(tenths))),
        "if" => hertz(value).map(|hz| settings.if_hz = Some(hz)),
        "table" => {
            row.table = Some(disk::read(OsStr::new(value)).and_then(|bytes| boards::table(&bytes)).map_err(|why| format!("table: {why}"))?);
            Some(())
        }
        _ => return Err(format!("`{word}` is no setting: kind, address, board, table, reference, ppm, rate, gain and if are")),
    };
    is_taken.ok_or_else(|| format!("{word} does not take `{value}`: `./pasetone start --help` says what its option takes"))
}

impl Row {
    /// When it hops, in seconds from a start at a second of the day on, and where to: first to the station of that time, then for so many hours.
    pub fn hops(&self, start: u64, hours: u64) -> Vec<(u64, u64)> {
        let (behind, before) = (|at: u64| (at + DAY - start) % DAY, |at: u64| (start + DAY - at) % DAY);
        let now = self.stations.iter().min_by_key(|(at, _)| before(*at)).map(|(_, hz)| (0, *hz));
        let days = (0..hours * 3_600).step_by(DAY as usize);
        let later = days.flat_map(|day| self.stations.iter().map(move |(at, hz)| (day + behind(*at), *hz)));
        let mut hops: Vec<(u64, u64)> = now.into_iter().chain(later.filter(|(at, _)| *at > 0 && *at < hours * 3_600)).collect();
        hops.sort_by_key(|(at, _)| *at);
        hops
    }

    /// Whether a record is of the receiver that the text has.
    pub fn is_of(&self, kind: TunerKind, address: u8, reference: u32) -> bool {
        (kind, address, reference) == (self.settings.kind(), self.settings.address(), self.settings.reference())
    }

    /// The board's table.
    pub fn board_table(&self) -> Table {
        self.table.clone().unwrap_or_else(|| self.settings.board().table())
    }
}

#[cfg(test)]
mod tests {
    use super::*;

    #[test]
    fn lines() {
        let text = "# a night\nreceiver rx01 00000001 ppm -3 gain 29.7 # by the window\n 20:00 102.3M\n 21:00:30 98500k\n\nreceiver rx02 1-4.2 kind r820t\n00:00 1\n";
        let rows = read(text).ok().unwrap();
        assert_eq!((rows[0].name.as_str(), rows[0].device.as_str(), rows[0].settings.ppm), ("rx01", "00000001", Some(-3)));
        assert_eq!(rows[0].stations, [(72_000, 102_300_000), (75_630, 98_500_000)]);
        assert_eq!((rows[1].settings.kind(), rows[1].settings.address(), rows.len()), (TunerKind::R820t, 0x34, 2));
        for (text, why) in [
            ("", "it names no receiver: "),
            ("20:00 1M", "line 1: a station stands before any receiver"),
            ("\nreceiver", "line 2: receiver wants a name and a device"),
            ("receiver a/b 0", "line 1: a name has letters, digits"),
            ("receiver a 0\n24:00 1M", "line 2: a time is written as 20:00"),
            ("receiver a 0\n1:00 1M", "line 2: a time is written as 20:00"),
            ("receiver a 0\n+1:00 1M", "line 2: a time is written as 20:00"),
            ("receiver a 0\n10:00 102.3", "line 2: a station is a whole number of Hz"),
            ("receiver a 0\n10:00 1M\n10:00:00 2M", "line 3: 10:00:00 stands twice for a"),
            ("receiver a 0 gain", "line 1: gain has no value"),
            ("receiver a 0 gain loud", "line 1: gain does not take `loud`"),
            ("receiver a 0 rate 0", "line 1: rate does not take `0`"),
            ("receiver a 0 gain 1 gain 2", "line 1: gain stands twice"),
            ("receiver a 0 colour red", "line 1: `colour` is no setting"),
            ("receiver a 0\n1:2:3 4 5", "line 2: a line is `receiver NAME DEVICE ..`"),
            ("receiver a 0\n10:00 1M\nreceiver a 1", "line 3: the name a stands twice"),
            ("receiver a 0\n10:00 1M\nreceiver b 0", "line 3: the device 0 stands twice"),
            ("receiver a 0", "receiver a has no station"),
        ] {
            let wrong = read(text).err().unwrap_or_default();
            assert!(wrong.first().is_some_and(|line| line.starts_with(why)), "{text:?}: {wrong:?}");
        }
        // Each bad line is told.
        assert_eq!(read("receiver a 0\nx\ny z\n").err().map(|wrong| wrong.len()), Some(2));
    }

    #[test]
    fn by_the_hour() {
        let row = |stations: &[(u64, u64)]| Row {
            name: "a".into(),
            device: "0".into(),
            settings: Receiver::none(),
            table: None,
            stations: stations.to_vec(),
        };
        let night = row(&[(20 * 3_600, 1), (23 * 3_600, 2), (3_600, 3)]);
        assert_eq!(night.hops(20 * 3_600, 24), [(0, 1), (10_800, 2), (18_000, 3)]);
        // Begun between two, it goes to the one before first; and round the clock.
        assert_eq!(night.hops(22 * 3_600, 24), [(0, 1), (3_600, 2), (10_800, 3), (79_200, 1)]);
        assert_eq!(night.hops(12 * 3_600, 1), [(0, 3)]);
        assert_eq!(row(&[(0, 7)]).hops(0, 48), [(0, 7), (86_400, 7)]);
        assert_eq!(row(&[(0, 7)]).hops(1, 1), [(0, 7)]);
    }
}
