//! A kept record: the bytes of the tuner's record, those of the driver's, then what is owed (owed.rs), and nothing else. The first two sizes are the library's.
use crate::files::disk;
use crate::files::owed::Owed;
use crate::printed::out::Out;
use crate::words::named::shown;
use pasetone::{Driver, Tuner};
use std::ffi::OsStr;
use std::fs;

/// What is known of a receiver, and what it still needs.
#[derive(Clone, PartialEq, Debug)]
pub struct Records {
    pub tuner: Tuner,
    pub driver: Driver,
    pub owed: Owed,
}

pub const SIZE: usize = Tuner::SIZE + Driver::SIZE + Owed::SIZE;

/// What was kept before 7.0.0, which says nothing of calls that were cut; before 4.0.0; and before 3.0.0.
const OLD: [usize; 3] = [107, 134, 126];

/// How much of a file tells whether it is a kept record.
pub const LOOKED_AT: usize = SIZE + 1;

/// Reads a kept record, of whose file [`LOOKED_AT`] bytes were read at most; what is wrong with the bytes comes back in words.
pub fn read(bytes: &[u8]) -> Result<Records, String> {
    let length = bytes.len();
    let Ok(bytes) = <&[u8; SIZE]>::try_from(bytes) else {
        let has = format!(
            "a record has {SIZE} bytes ({} of the tuner, {} of the driver, {} of what is owed), and here are",
            Tuner::SIZE,
            Driver::SIZE,
            Owed::SIZE
        );
        if OLD.contains(&length) {
            return Err(format!("{has} {length}, as an older version kept: run once without --record, and give what --keep then writes"));
        }
        let here = if length == LOOKED_AT { String::from("more") } else { length.to_string() };
        return Err(format!("{has} {here}: give a file that --keep has written"));
    };
    let (tuner, rest) = bytes.split_at(Tuner::SIZE);
    let (driver, owed) = rest.split_at(Driver::SIZE);
    let none = |whose: &str| format!("its bytes for {whose} are no record (refusal 1): give a file that --keep has written");
    Ok(Records {
        tuner: Tuner::from_bytes(tuner).map_err(|_| none("the tuner"))?,
        driver: Driver::from_bytes(driver).map_err(|_| none("the driver"))?,
        owed: owed.first_chunk().and_then(Owed::read).ok_or_else(|| none("what is owed"))?,
    })
}

/// Where a tuner's record has its marks (include/pasetone.h).
const DOUBTFUL: usize = 51;

/// The same receiver while a run is under way: nothing is sure, and every call is owed. It stands in the file from before the night gets the run's sections to
/// after it, so that a run which is killed in between leaves a record that calls nothing sure.
pub fn under_way(records: &Records) -> Records {
    let Records { tuner, driver, owed } = records;
    let mut bytes = *tuner.as_bytes();
    bytes[DOUBTFUL..].fill(1);
    let tuner = Tuner::from_bytes(&bytes).unwrap_or_else(|_| tuner.clone());
    let owed = owed.all(&tuner, driver);
    Records { tuner, driver: driver.clone(), owed }
}

/// The same, told as a mistake of what `named` the file.
pub fn judged(bytes: &[u8], named: &str, out: &mut Out) -> Option<Records> {
    read(bytes).map_err(|why| out.mistake(&format!("{named}: {why}"))).ok()
}

/// Told where a file is there that no run has kept: a record does not take its place.
pub fn replaces(name: &OsStr) -> Result<(), String> {
    if !fs::metadata(name).is_ok_and(|is| is.is_file() && is.len() > 0) {
        return Ok(());
    }
    let bytes = disk::start(name, LOOKED_AT)?;
    if bytes.starts_with(b"pasetone") {
        return Err(format!("{}: this is a state: give it as --state, or name another file", shown(name)));
    }
    if OLD.contains(&bytes.len()) || read(&bytes).is_ok() {
        return Ok(());
    }
    Err(format!("{}: it is there and no record, so none takes its place: name a record, or a new file", shown(name)))
}

pub fn write(records: &Records) -> Vec<u8> {
    [&records.tuner.as_bytes()[..], &records.driver.as_bytes()[..], &records.owed.bytes()].concat()
}

#[cfg(test)]
mod tests {
    use super::*;
    use pasetone::{Board, TunerKind};

    #[test]
    fn there_and_back() {
        let tuner = Tuner::new(TunerKind::R820t, 0x34, 28_800_000).unwrap();
        let driver = Driver::new(Board::Generic, 28_800_000, -5, 7, 9).unwrap();
        let records = Records { tuner, driver, owed: Owed::fresh() };
        let bytes = write(&records);
        assert_eq!(bytes.len(), SIZE);
        assert_eq!(read(&bytes), Ok(records));
        for length in [0, 1, Tuner::SIZE, SIZE - 1] {
            assert!(read(&bytes[..length]).unwrap_err().contains(&format!("here are {length}")));
        }
        for length in OLD {
            assert!(read(&vec![0; length]).unwrap_err().contains(&format!("here are {length}, as an older version kept")));
        }
        assert!(read(&[0; LOOKED_AT]).unwrap_err().contains("here are more: "));
        // While a run is under way every register is doubtful and the station unknown, whatever it was before.
        let known = Records { owed: Owed { hz: 102_300_000, ..Owed::default() }, ..read(&bytes).unwrap() };
        let under_way = under_way(&known);
        assert_eq!((under_way.tuner.doubtful().count(), under_way.owed.is_station_known(), under_way.owed.hz), (27, false, 102_300_000));
        assert_eq!(under_way.owed.calls(), ["initialise", "sample rate 9", "gain 0.0 dB", "IF 2300000 Hz", "tune"]);
        assert_eq!(read(&write(&under_way)), Ok(under_way));
        let spoiled = |at: usize| {
            let mut bytes = bytes.clone();
            bytes[at] = 9;
            read(&bytes).unwrap_err()
        };
        assert!(spoiled(0).starts_with("its bytes for the tuner"));
        assert!(spoiled(Tuner::SIZE).starts_with("its bytes for the driver"));
        assert!(spoiled(SIZE - Owed::SIZE + 1).starts_with("its bytes for what is owed"));
    }
}
