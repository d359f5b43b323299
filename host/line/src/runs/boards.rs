//! Boards: one that is built in, or one of a table in a file. A table's bytes are the library's; what is wrong with bytes that are none is told here: their
//! length, then band by band.
use crate::files::disk;
use crate::printed::names::{self, counted};
use crate::printed::out::Out;
use crate::words::given::Given;
use crate::words::named::called;
use crate::words::options::Key;
use pasetone::{Board, Table};
use std::ffi::OsStr;

/// How much of a file tells whether it is a table.
const LOOKED_AT: usize = Table::BAND * Table::BANDS + 1;

/// The board that a receiver is on. The driver's record keeps the built-in one alone: by a table of a file that field plans nothing.
pub struct Place {
    pub board: Board,
    pub table: Table,
    /// The file of the table, where it is not the board's own.
    pub file: Option<String>,
}

impl Place {
    pub fn built_in(board: Board) -> Place {
        Place { board, table: board.table(), file: None }
    }

    /// The board of `--table`; where there is none, the built-in one.
    pub fn given(given: &Given, board: Board, out: &mut Out) -> Place {
        let Some(name) = given.word(Key::Table) else { return Place::built_in(board) };
        let read = given.start(Key::Table, LOOKED_AT, out).map(|bytes| table(&bytes));
        match read {
            Some(Ok(table)) => Place { board, table, file: Some(called(name)) },
            Some(Err(why)) => {
                out.mistake(&format!("--table {}: {why}", called(name)));
                Place::built_in(board)
            }
            None => Place::built_in(board),
        }
    }

    /// As it stands behind "on": `a V4 board`, `the board of FILE (3 bands)`.
    pub fn name(&self) -> String {
        match &self.file {
            Some(file) => format!("the board of {file} ({})", counted(self.table.bands().len(), "band")),
            None => format!("a {} board", names::board(self.board)),
        }
    }
}

/// The table of a file's bytes; what is wrong with bytes that are none comes back in words, with the library's number.
pub fn table(bytes: &[u8]) -> Result<Table, String> {
    let to_do = "`table write` makes one from lines of text";
    Table::from_bytes(bytes).map_err(|error| format!("{} (refusal {}): {to_do}", fault(bytes), error.number()))
}

/// The first thing that makes bytes no table.
fn fault(bytes: &[u8]) -> String {
    let (size, most) = (Table::BAND, Table::BANDS);
    let whole = bytes.len() / size;
    if bytes.len() >= LOOKED_AT {
        return format!("a table has {most} bands at most, {} bytes, and here are more", size * most);
    }
    if !bytes.len().is_multiple_of(size) {
        return format!(
            "a table has {size} bytes for each band, and here are {}: it was cut, or is no table",
            counted(bytes.len(), "byte")
        );
    }
    let mut before = None;
    for (at, band) in bytes.chunks_exact(size).enumerate() {
        if let Some(why) = band_fault(band, before) {
            return format!("its band {} of {whole} {why}", at + 1);
        }
        before = Some(number(band, 8));
    }
    String::from("it is no table")
}

fn number(band: &[u8], at: usize) -> u64 {
    u64::from_le_bytes(std::array::from_fn(|i| band[at + i]))
}

/// What is wrong with a band's bytes, behind a band that ends at `before`.
fn band_fault(band: &[u8], before: Option<u64>) -> Option<String> {
    let (first, last) = (number(band, 0), number(band, 8));
    if let Some(why) = edges_fault(first, last, before) {
        return Some(why);
    }
    if band[24] > 1 {
        return Some(format!("has {} for the spectrum: 0 is not inverted, 1 inverted", band[24]));
    }
    if band[25] > 3 {
        return Some(format!("has {} for the path: 0 is HF, 1 VHF, 2 UHF, 3 none", band[25]));
    }
    (band[26] > 1).then(|| format!("has {} for the notch: 0 is off, 1 on", band[26]))
}

/// What is wrong with a band's first and last Hz.
pub fn edges_fault(first: u64, last: u64, before: Option<u64>) -> Option<String> {
    if first > last {
        return Some(format!("goes from {first} to {last} Hz: its first must not be above its last"));
    }
    let before = before.filter(|before| first <= *before)?;
    Some(format!("begins at {first} Hz, and the one before it ends at {before}: bands ascend and do not overlap"))
}

/// The bytes of a file, as far as a table's reader has to see them.
pub fn read(name: &OsStr) -> Result<Vec<u8>, String> {
    disk::start(name, LOOKED_AT)
}

#[cfg(test)]
mod tests {
    use super::*;

    /// The built-in tables with one byte changed anywhere: a fault is told where the library refuses, and only there, and it is never the one that names none.
    #[test]
    fn faults_are_the_library_s() {
        for board in [Board::Generic, Board::V4] {
            let whole = board.table().as_bytes().to_vec();
            for at in 0..whole.len() {
                for value in 0..=255 {
                    let mut bytes = whole.clone();
                    bytes[at] = value;
                    let refused = Table::from_bytes(&bytes).is_err();
                    assert_eq!(fault(&bytes) != "it is no table", refused, "{at} {value}");
                }
            }
            for length in (0..whole.len()).filter(|length| length % Table::BAND != 0) {
                assert!(table(&whole[..length]).unwrap_err().contains("it was cut, or is no table (refusal 19): "));
            }
        }
        assert!(table(&[0; LOOKED_AT]).unwrap_err().starts_with("a table has 16 bands at most, 432 bytes, and here are more"));
    }
}
