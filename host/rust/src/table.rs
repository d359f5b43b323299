use crate::raw::Told as _;
use crate::{Board, Error, InputPath, Plan, raw};
use alloc::vec::Vec;
use core::fmt;

/// A part of a board's range that is tuned in one way.
#[derive(Clone, Copy, Debug, PartialEq, Eq, Hash)]
pub struct Band {
    /// The first Hz that it holds.
    pub first: u64,
    /// The last.
    pub last: u64,
    /// What is added to the Hz for the tuner.
    pub shift: i64,
    /// Whether the spectrum is inverted.
    pub inverted: bool,
    /// The input to take, if the board has several.
    pub path: Option<InputPath>,
    /// Whether it lies in a notch.
    pub notch: bool,
}

/// A board as a table of bands, for boards that are not built in.
///
/// ```
/// use pasetone::{Band, Board, Error, InputPath, Table};
///
/// // A converter that takes 2.4 GHz down to 400 MHz, and nothing else.
/// let band = Band {
///     first: 2_400_000_000,
///     last: 2_500_000_000,
///     shift: -2_000_000_000,
///     inverted: true,
///     path: Some(InputPath::Vhf),
///     notch: false,
/// };
/// let table = Table::new(&[band])?;
/// let plan = table.plan_tuning(2_450_000_000)?;
/// assert_eq!((plan.hz, plan.inverted, plan.path), (450_000_000, true, Some(InputPath::Vhf)));
/// assert_eq!(table.plan_tuning(100_000_000), Err(Error::Frequency));
/// assert_eq!(Table::new(&[band, band]), Err(Error::Table));
///
/// // The built-in boards are tables too.
/// assert_eq!(Board::V4.table().plan_tuning(7_000_000), Ok(Board::V4.plan_tuning(7_000_000)));
/// # Ok::<(), Error>(())
/// ```
#[derive(Clone, PartialEq, Eq, Hash)]
pub struct Table {
    bytes: Vec<u8>,
}

impl Table {
    /// The bytes of a band.
    pub const BAND: usize = 27;
    /// The most bands.
    pub const BANDS: usize = 16;

    /// The table of these bands.
    ///
    /// # Errors
    ///
    /// - [`Error::Table`] (19): more than 16, a first Hz above its last, or not above the last of the band before.
    pub fn new(bands: &[Band]) -> Result<Table, Error> {
        let mut bytes = Vec::with_capacity(Table::BAND * bands.len());
        for band in bands {
            bytes.extend(band.first.to_le_bytes());
            bytes.extend(band.last.to_le_bytes());
            bytes.extend(band.shift.to_le_bytes());
            bytes.extend([band.inverted as u8, band.path.map_or(3, |path| path as u8), band.notch as u8]);
        }
        Table::judged(bytes)
    }

    /// The table in these bytes, 27 for each band.
    ///
    /// # Errors
    ///
    /// - [`Error::Table`] (19): they are no well-formed table.
    pub fn from_bytes(bytes: &[u8]) -> Result<Table, Error> {
        Table::judged(bytes.into())
    }

    /// Whether bytes are a table is what any plan by them tells.
    fn judged(bytes: Vec<u8>) -> Result<Table, Error> {
        let table = Table { bytes };
        match table.plan_tuning(0) {
            Err(Error::Table) => Err(Error::Table),
            _ => Ok(table),
        }
    }

    /// The bytes, 27 for each band: what a host keeps.
    pub fn as_bytes(&self) -> &[u8] {
        &self.bytes
    }

    /// The bands, ascending: what [`Table::new`] makes this table of.
    ///
    /// ```
    /// use pasetone::{Board, Table};
    ///
    /// let v4 = Board::V4.table();
    /// assert_eq!(v4.bands().count(), 8);
    /// assert_eq!(Table::new(&v4.bands().collect::<Vec<_>>()), Ok(v4));
    /// ```
    pub fn bands(&self) -> impl ExactSizeIterator<Item = Band> + '_ {
        self.bytes.chunks_exact(Table::BAND).map(|band| {
            let number = |at: usize| u64::from_le_bytes(core::array::from_fn(|i| band[at + i]));
            let plan = Plan::told(0, [band[24], band[25], band[26]]);
            let (first, last, shift) = (number(0), number(8), number(16) as i64);
            Band { first, last, shift, inverted: plan.inverted, path: plan.path, notch: plan.notch }
        })
    }

    /// How the board is to be tuned to `hz`: by the one band that holds it.
    ///
    /// # Errors
    ///
    /// - [`Error::Frequency`] (2): no band holds it, or it is shifted below 0 or past 64 bits.
    pub fn plan_tuning(&self, hz: u64) -> Result<Plan, Error> {
        let mut out = [0; 3];
        // SAFETY: see raw.rs.
        let reply = unsafe { raw::pasetone_plan_by_table(self.bytes.as_ptr(), self.bytes.len(), hz, out.as_mut_ptr(), out.len()) };
        reply.result().map(|hz| Plan::told(hz, out))
    }
}

impl TryFrom<&[u8]> for Table {
    type Error = Error;

    fn try_from(bytes: &[u8]) -> Result<Table, Error> {
        Table::from_bytes(bytes)
    }
}

impl fmt::Debug for Table {
    fn fmt(&self, f: &mut fmt::Formatter<'_>) -> fmt::Result {
        write!(f, "Table({} bands)", self.bytes.len() / Table::BAND)
    }
}

impl Board {
    /// This board as a table, by which every frequency has the plan of [`Board::plan_tuning`].
    pub fn table(self) -> Table {
        let mut bytes = alloc::vec![0; Table::BAND * Table::BANDS];
        // SAFETY: see raw.rs. Board and slice are as they must be, so this is not refused.
        let reply = unsafe { raw::pasetone_board_table(self as u64, bytes.as_mut_ptr(), bytes.len()) };
        bytes.truncate(reply.value as usize);
        Table { bytes }
    }
}
