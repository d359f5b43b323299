use crate::rounds::rounds;
use crate::{
    Answer, Board, Command, Driven, Driver, Entry, Error, Fed, Outcome, Script, Stepped, Stream, Table, TuneAnswer, Tuner, TunerKind,
};
use alloc::vec::Vec;

/// A receiver: its [`Tuner`], its [`Driver`] and the [`Table`] of its board, which the calls that need several of them take from here.
///
/// ```
/// use pasetone::{Board, EntryKind, Outcome, Receiver, TunerKind};
///
/// let mut receiver = Receiver::new(TunerKind::R828d, 0x74, Board::V4, 28_800_000)?;
/// receiver.set_ppm(-3)?;
/// // What talks to the hardware; this one does every step, with 0x0a in every byte that it reads.
/// let take = |step: &pasetone::Entry| match step.kind {
///     EntryKind::I2cRead | EntryKind::BlockRead => Outcome::Read(vec![0x0a; step.bytes.len()]),
///     _ => Outcome::Done,
/// };
/// receiver.drive(|receiver, script| receiver.tuner_mut().initialize(script), take).result?;
/// receiver.drive(|receiver, script| receiver.set_sample_rate(2_048_000, script), take).result?;
/// let answer = receiver.drive(|receiver, script| receiver.tune(102_300_000, script), take);
/// assert_eq!((answer.result, answer.lock.to_string().as_str()), (Ok(102_300_000), "locked at try 1"));
/// assert_eq!((receiver.driver().frequency(), receiver.tuner().doubtful().count()), (102_300_000, 0));
/// # Ok::<(), pasetone::Error>(())
/// ```
#[derive(Clone, Debug, PartialEq, Eq, Hash)]
pub struct Receiver {
    tuner: Tuner,
    driver: Driver,
    table: Table,
}

impl Receiver {
    /// A receiver as it is before [`Tuner::initialize`], on a built-in board: one reference in Hz for tuner and demodulator, no correction, frequency and rate 0.
    ///
    /// # Errors
    ///
    /// - [`Error::Setup`] (1): `nominal` is 0.
    pub fn new(kind: TunerKind, address: u8, board: Board, nominal: u32) -> Result<Receiver, Error> {
        Ok(Receiver::of(Tuner::new(kind, address, nominal)?, Driver::new(board, nominal, 0, 0, 0)?, board.table()))
    }

    /// The receiver of these records and this table.
    pub fn of(tuner: Tuner, driver: Driver, table: Table) -> Receiver {
        Receiver { tuner, driver, table }
    }

    /// The records and the table.
    pub fn parts(self) -> (Tuner, Driver, Table) {
        (self.tuner, self.driver, self.table)
    }

    /// The tuner's record.
    pub fn tuner(&self) -> &Tuner {
        &self.tuner
    }

    /// The tuner, for the calls that are its alone: initialise, gain, bandwidth, IF, input, reload.
    pub fn tuner_mut(&mut self) -> &mut Tuner {
        &mut self.tuner
    }

    /// The driver's record.
    pub fn driver(&self) -> &Driver {
        &self.driver
    }

    /// The board's table of bands.
    pub fn table(&self) -> &Table {
        &self.table
    }

    /// [`Driver::set_ppm`], of both records.
    ///
    /// # Errors
    ///
    /// - [`Error::Correction`] (4): a corrected reference is out of 1..=4,294,967,295; neither record has changed.
    pub fn set_ppm(&mut self, ppm: i32) -> Result<(), Error> {
        self.driver.set_ppm(&mut self.tuner, ppm)
    }

    /// [`Driver::centre`], by this table.
    ///
    /// # Errors
    ///
    /// As there.
    pub fn centre(&self) -> Result<u64, Error> {
        self.driver.centre(&self.tuner, &self.table)
    }

    /// [`Driver::set_sample_rate`], by this table.
    ///
    /// # Errors
    ///
    /// As there.
    pub fn set_sample_rate(&mut self, rate: u32, script: &Script) -> Answer<()> {
        self.driver.set_sample_rate(&mut self.tuner, &self.table, rate, script)
    }

    /// [`Driver::tune_board`], by this table.
    ///
    /// # Errors
    ///
    /// As there.
    pub fn tune(&mut self, hz: u64, script: &Script) -> TuneAnswer {
        self.driver.tune_board(&mut self.tuner, &self.table, hz, script)
    }

    /// [`Stream::feed`], on these records.
    #[must_use = "a command may be refused"]
    pub fn feed(&mut self, stream: &mut Stream, chunk: &[u8], script: impl FnMut(&[u8; Command::SIZE]) -> Script) -> Vec<Fed> {
        stream.feed(&mut self.driver, &mut self.tuner, &self.table, chunk, script)
    }

    /// Makes a call of this receiver, or of its tuner, step by step, as [`drive`](crate::drive) does. Both records are updated as by the call itself, and where `take`
    /// panics they tell the truth all the same.
    pub fn drive<A: Stepped>(&mut self, call: impl Fn(&mut Receiver, &Script) -> A, take: impl FnMut(&Entry<'_>) -> Outcome) -> Driven<A> {
        let given = self.clone();
        rounds(
            |script| {
                let mut next = given.clone();
                (call(&mut next, script), next)
            },
            |next| *self = next,
            take,
        )
    }

    /// [`Stream::drive`], on these records.
    #[must_use = "a command may be refused"]
    pub fn drive_stream(&mut self, stream: &mut Stream, chunk: &[u8], take: impl FnMut(&Entry<'_>) -> Outcome) -> Vec<Driven<Fed>> {
        stream.drive(&mut self.driver, &mut self.tuner, &self.table, chunk, take)
    }
}
