use crate::raw::Told as _;
use crate::{Answer, Error, InputPath, Lock, Need, Script, Table, TuneAnswer, Tuner, in_room, raw};
use core::fmt;

/// The board that the tuner is on.
#[derive(Clone, Copy, Debug, PartialEq, Eq, Hash)]
pub enum Board {
    /// 0: tuned as asked.
    Generic,
    /// 1: RTL-SDR Blog V4, with an upconverter below 28.8 MHz, three inputs and notches.
    V4,
}

impl fmt::Display for Board {
    fn fmt(&self, f: &mut fmt::Formatter<'_>) -> fmt::Result {
        f.write_str(match self {
            Board::Generic => "generic",
            Board::V4 => "V4",
        })
    }
}

/// How a board is to be tuned to a frequency.
#[derive(Clone, Copy, Debug, PartialEq, Eq, Hash)]
pub struct Plan {
    /// The Hz for the tuner.
    pub hz: u64,
    /// Whether the spectrum is inverted.
    pub inverted: bool,
    /// The input to take, if the board has several.
    pub path: Option<InputPath>,
    /// Whether the frequency lies in a notch.
    pub notch: bool,
}

impl Board {
    /// How this board is to be tuned to `hz`.
    pub fn plan_tuning(self, hz: u64) -> Plan {
        let mut out = [0; 3];
        // SAFETY: see raw.rs. Board and slice are as they must be, so this is not refused.
        let reply = unsafe { raw::pasetone_plan_tuning(self as u64, hz, out.as_mut_ptr(), out.len()) };
        Plan::told(reply.value, out)
    }
}

impl Plan {
    /// By what the library tells: the tuner's Hz, and inverted, path (3 none) and notch as bytes.
    pub(crate) fn told(hz: u64, [inverted, path, notch]: [u8; 3]) -> Plan {
        let path = match path {
            0 => Some(InputPath::Hf),
            1 => Some(InputPath::Vhf),
            2 => Some(InputPath::Uhf),
            _ => None,
        };
        Plan { hz, inverted: inverted != 0, path, notch: notch != 0 }
    }
}

/// What is known of a receiver beside its tuner: board, reference, correction, frequency, and its rate as asked and as it truly is.
#[derive(Clone, PartialEq, Eq, Hash)]
pub struct Driver {
    record: [u8; Driver::SIZE],
}

impl Driver {
    /// The record's bytes.
    pub const SIZE: usize = 29;

    /// A driver: its board, its reference in Hz, the correction in parts per million, and the frequency and rate to start from (0 is taken). Its true rate is 0.
    ///
    /// # Errors
    ///
    /// - [`Error::Setup`] (1): `nominal` is 0.
    /// - [`Error::Correction`] (4): the corrected reference is out of 1..=4,294,967,295.
    pub fn new(board: Board, nominal: u32, ppm: i32, frequency: u64, rate: u32) -> Result<Driver, Error> {
        let mut record = [0; Driver::SIZE];
        let nominal = nominal.into();
        // SAFETY: see raw.rs.
        let made = unsafe { raw::pasetone_driver_new(board as u64, nominal, ppm, frequency, rate, record.as_mut_ptr(), record.len()) };
        made.result().map(|_| Driver { record })
    }

    /// A driver of its record's bytes. [`TryFrom`] does the same.
    ///
    /// # Errors
    ///
    /// - [`Error::Setup`] (1): the bytes are no record.
    pub fn from_bytes(bytes: &[u8]) -> Result<Driver, Error> {
        // SAFETY: see raw.rs. The library judges the record.
        let read = unsafe { raw::pasetone_corrected_xtal_hz(bytes.as_ptr(), bytes.len()) };
        read.result()?;
        <[u8; Driver::SIZE]>::try_from(bytes).map(|record| Driver { record }).map_err(|_| Error::Setup)
    }

    /// The record's bytes, to be kept: [`Driver::from_bytes`] takes them.
    pub fn as_bytes(&self) -> &[u8; Driver::SIZE] {
        &self.record
    }

    /// For a call that changes the record where it lies.
    pub(crate) fn as_bytes_mut(&mut self) -> &mut [u8; Driver::SIZE] {
        &mut self.record
    }

    /// The correction, of this driver and its tuner at once: each one's corrected reference is nominal + nominal · ppm / 1,000,000 of its own nominal, the
    /// quotient cut toward zero. No step is taken: the next tuning and the next rate go by it.
    ///
    /// # Errors
    ///
    /// - [`Error::Correction`] (4): one of the two corrected references is out of 1..=4,294,967,295; neither record has changed.
    pub fn set_ppm(&mut self, tuner: &mut Tuner, ppm: i32) -> Result<(), Error> {
        let (mut next_tuner, mut next) = (*tuner.as_bytes(), self.record);
        let (t, d) = (&mut next_tuner, &mut next);
        // SAFETY: see raw.rs. Both copies are changed where they lie, or neither.
        unsafe { raw::pasetone_set_ppm(t.as_mut_ptr(), t.len(), d.as_mut_ptr(), d.len(), ppm) }.result()?;
        tuner.replace(next_tuner);
        self.record = next;
        Ok(())
    }

    /// The corrected reference in Hz.
    pub fn corrected_xtal_hz(&self) -> u32 {
        // SAFETY: see raw.rs. The record is one, so this is not refused.
        unsafe { raw::pasetone_corrected_xtal_hz(self.record.as_ptr(), self.record.len()) }.value as u32
    }

    /// The frequency in the middle of a recording, in Hz: [`Tuner::oscillator`] less the tuner's IF, less the shift of the table's band that holds this driver's
    /// frequency. Give the table that the tunings were made with. An inverted band is answered in the same way: its spectrum is mirrored around the centre,
    /// which does not move. Hold it against the frequency that was asked for, and not against [`Driver::frequency`], which stays where a tuning is cut. It
    /// speaks of the oscillator alone: of the board's input and the demodulator it knows nothing, and where a rate was cut that may be told another IF than the
    /// tuner's record has. So a call that was cut is made again until it is done, whatever this says.
    ///
    /// ```
    /// use pasetone::{Board, Driver, Script, Tuner, TunerKind};
    ///
    /// let mut tuner = Tuner::new(TunerKind::R828d, 0x74, 28_800_000)?;
    /// let mut driver = Driver::new(Board::V4, 28_800_000, 0, 0, 0)?;
    /// let table = Board::V4.table();
    /// // Behind three replies of GPIO, the fifth byte of the status asks for no repair of the divider.
    /// driver.tune_board(&mut tuner, &table, 7_000_000, &Script::all_done().replying(7, 0x08)?).result?;
    /// // The V4 takes 7 MHz up by 28.8 MHz; with the IF the tuner was asked for 38,100,000 Hz.
    /// assert_eq!((tuner.oscillator(), driver.centre(&tuner, &table)), (Ok(38_100_009), Ok(7_000_009)));
    /// # Ok::<(), pasetone::Error>(())
    /// ```
    ///
    /// # Errors
    ///
    /// - [`Error::Doubtful`] (20): one of the registers that the oscillator stands by is doubtful.
    /// - [`Error::Frequency`] (2): the table has no plan for this driver's frequency, or the centre is below 0.
    pub fn centre(&self, tuner: &Tuner, table: &Table) -> Result<u64, Error> {
        let (d, t, b) = (&self.record, tuner.as_bytes(), table.as_bytes());
        // SAFETY: see raw.rs.
        unsafe { raw::pasetone_centre(d.as_ptr(), d.len(), t.as_ptr(), t.len(), b.as_ptr(), b.len()) }.result()
    }

    /// The sample rate, on tuner and demodulator: 17 outcomes. Updates both records whenever it took steps: the tuner's IF changes before the
    /// first, the driver's rate and true rate when all are done. An IF of 0 stays 0. The spectrum follows the table's plan for the driver's frequency, and is
    /// not inverted where the table has none; [`Board::table`] is that of a built-in board. It moves the IF and tunes nothing: tune after it.
    ///
    /// # Errors
    ///
    /// - [`Error::Rate`] (3): `rate` is 0.
    /// - [`Error::Ratio`] (13): the resampler cannot hold it with the corrected reference. At 28,800,000 Hz it holds 225,001 to 300,000, and 900,001 up.
    /// - [`Error::Outcomes`] (9): fewer than 17 outcomes.
    /// - [`Error::Step`] (11): a step failed, and the steps before it stand. The demodulator's rate and IF are not known until a rate is done: a reload
    ///   sends nothing there.
    pub fn set_sample_rate(&mut self, tuner: &mut Tuner, table: &Table, rate: u32, script: &Script) -> Answer<()> {
        let (mut next_driver, mut next_tuner) = (self.record, *tuner.as_bytes());
        let (d, t, b, o) = (&self.record, tuner.as_bytes(), table.as_bytes(), script.outcomes());
        // SAFETY: see raw.rs.
        let (reply, transcript) = in_room(Need::SAMPLE_RATE.outcomes, |room| unsafe {
            #[rustfmt::skip]
            let reply = raw::pasetone_set_sample_rate(d.as_ptr(), d.len(), t.as_ptr(), t.len(), b.as_ptr(), b.len(), rate, o.as_ptr(), o.len(),
                room.as_mut_ptr(), room.len(), next_driver.as_mut_ptr(), next_driver.len(), next_tuner.as_mut_ptr(), next_tuner.len());
            reply
        });
        if reply.stands() {
            self.record = next_driver;
            tuner.replace(next_tuner);
        }
        Answer::of(reply, transcript, drop)
    }

    /// Tunes the board of a table to `hz`: notch, board input (on an R828D, where the band has a path), tuner, spectrum, in that order; 64 outcomes, 38
    /// replies. The value is the Hz asked. Updates both records whenever it took steps: the notch is in the tuner's before the first, the driver's
    /// frequency becomes `hz` when it is done.
    ///
    /// ```
    /// use pasetone::{Board, Driver, Script, Tuner, TunerKind};
    ///
    /// let mut tuner = Tuner::new(TunerKind::R828d, 0x74, 28_800_000)?;
    /// let mut driver = Driver::new(Board::V4, 28_800_000, 0, 0, 0)?;
    /// let answer = driver.tune_board(&mut tuner, &Board::V4.table(), 7_000_000, &Script::all_done());
    /// assert_eq!((answer.result, answer.transcript.len()), (Ok(7_000_000), 64));
    /// assert_eq!(driver.frequency(), 7_000_000);
    /// # Ok::<(), pasetone::Error>(())
    /// ```
    ///
    /// # Errors
    ///
    /// - [`Error::Frequency`] (2): no band holds `hz`, or it is shifted out of 64 bits or to 0, or its sum with the IF is over 64 bits, and nothing has
    ///   changed; or the PLL has no divider or N for it, when the steps before it are taken and stand.
    /// - [`Error::Outcomes`] (9): fewer than 64 outcomes.
    /// - [`Error::Replies`] (10): fewer than 38 replies.
    /// - [`Error::Step`] (11): a step failed, and the steps before it stand. The tries are those up to it.
    pub fn tune_board(&mut self, tuner: &mut Tuner, table: &Table, hz: u64, script: &Script) -> TuneAnswer {
        let (mut next_driver, mut next_tuner) = (self.record, *tuner.as_bytes());
        let (d, t, b, o, p) = (&self.record, tuner.as_bytes(), table.as_bytes(), script.outcomes(), script.replies());
        let mut lock = Lock::default();
        let (reply, transcript) = in_room(Need::TUNE_BOARD.outcomes, |room| {
            // SAFETY: see raw.rs.
            #[rustfmt::skip]
            let told = unsafe {
                raw::pasetone_tune_board(d.as_ptr(), d.len(), t.as_ptr(), t.len(), b.as_ptr(), b.len(), hz, o.as_ptr(), o.len(), p.as_ptr(), p.len(),
                    room.as_mut_ptr(), room.len(), next_driver.as_mut_ptr(), next_driver.len(), next_tuner.as_mut_ptr(), next_tuner.len())
            };
            lock = Lock { tries: told.tries, locked: told.locked != 0 };
            told.reply()
        });
        if reply.stands() {
            self.record = next_driver;
            tuner.replace(next_tuner);
        }
        let Answer { result, transcript } = Answer::of(reply, transcript, |hz| hz);
        TuneAnswer { result, transcript, lock }
    }

    /// The board.
    pub fn board(&self) -> Board {
        if self.record[0] == 0 { Board::Generic } else { Board::V4 }
    }

    /// The reference without correction, in Hz.
    pub fn nominal(&self) -> u32 {
        self.number(1)
    }

    /// The correction in parts per million.
    pub fn ppm(&self) -> i32 {
        self.number(5) as i32
    }

    /// The frequency given at its making, or by the last [`Driver::tune_board`] that was done, in Hz.
    pub fn frequency(&self) -> u64 {
        self.wide(9)
    }

    /// The rate last set in full, in samples per second, as it was asked for.
    pub fn rate(&self) -> u32 {
        self.number(17)
    }

    /// The rate that samples come at, cut to a whole number: at least [`Driver::rate`], since the resampler drops the two low bits of its ratio. 0 until a
    /// rate is set in full; a later correction leaves it as it was.
    pub fn true_rate(&self) -> u64 {
        self.wide(21)
    }

    fn wide(&self, at: usize) -> u64 {
        u64::from(self.number(at)) | u64::from(self.number(at + 4)) << 32
    }

    fn number(&self, at: usize) -> u32 {
        let b = &self.record[at..at + 4];
        u32::from_le_bytes([b[0], b[1], b[2], b[3]])
    }
}

impl TryFrom<&[u8]> for Driver {
    type Error = Error;

    fn try_from(bytes: &[u8]) -> Result<Driver, Error> {
        Driver::from_bytes(bytes)
    }
}

/// The record's fields.
impl fmt::Debug for Driver {
    fn fmt(&self, f: &mut fmt::Formatter<'_>) -> fmt::Result {
        f.debug_struct("Driver")
            .field("board", &self.board())
            .field("nominal", &self.nominal())
            .field("ppm", &self.ppm())
            .field("frequency", &self.frequency())
            .field("rate", &self.rate())
            .field("true_rate", &self.true_rate())
            .finish()
    }
}
