use crate::raw::Told as _;
use crate::raw::{self, Reply};
use crate::{Answer, Error, Lock, Need, Script, TuneAnswer, in_room};
use core::fmt;

/// The tuner's chip.
#[derive(Clone, Copy, Debug, PartialEq, Eq, Hash)]
pub enum TunerKind {
    /// 0: one input.
    R820t,
    /// 1: three inputs.
    R828d,
}

/// An input of the R828D.
#[derive(Clone, Copy, Debug, PartialEq, Eq, Hash)]
pub enum InputPath {
    /// 0: cable 2.
    Hf,
    /// 1: cable 1.
    Vhf,
    /// 2: air in.
    Uhf,
}

/// As it is printed on the chip.
impl fmt::Display for TunerKind {
    fn fmt(&self, f: &mut fmt::Formatter<'_>) -> fmt::Result {
        f.write_str(match self {
            TunerKind::R820t => "R820T",
            TunerKind::R828d => "R828D",
        })
    }
}

impl fmt::Display for InputPath {
    fn fmt(&self, f: &mut fmt::Formatter<'_>) -> fmt::Result {
        f.write_str(match self {
            InputPath::Hf => "HF",
            InputPath::Vhf => "VHF",
            InputPath::Uhf => "UHF",
        })
    }
}

const SHADOW: usize = 2;
const NOMINAL: usize = 29;
const CORRECTED: usize = 33;
const LOCK: usize = 37;
const NOTCH: usize = 50;
const DOUBTFUL: usize = 51;
const FIRST: u8 = 0x05;
const REGISTERS: usize = 27;

/// What is known of a tuner: its record. Every call with steps takes a [`Script`], and updates the record whenever it took steps.
#[derive(Clone, PartialEq, Eq, Hash)]
pub struct Tuner {
    record: [u8; Tuner::SIZE],
}

impl Tuner {
    /// The record's bytes. Before 4.0.0 there were 105, which are no record any more.
    pub const SIZE: usize = 78;

    /// A tuner as it is before [`Tuner::initialize`]: every register is doubtful. `address` is the chip's on I2C, any byte (an R820T has 0x34, an
    /// R828D 0x74), `nominal` its reference in Hz.
    ///
    /// # Errors
    ///
    /// - [`Error::Setup`] (1): `nominal` is 0.
    pub fn new(kind: TunerKind, address: u8, nominal: u32) -> Result<Tuner, Error> {
        let mut record = [0; Tuner::SIZE];
        // SAFETY: see raw.rs.
        let made = unsafe { raw::pasetone_tuner_new(kind as u64, address, nominal.into(), record.as_mut_ptr(), record.len()) };
        made.result().map(|_| Tuner { record })
    }

    /// A tuner of its record's bytes. [`TryFrom`] does the same.
    ///
    /// # Errors
    ///
    /// - [`Error::Setup`] (1): the bytes are no record.
    pub fn from_bytes(bytes: &[u8]) -> Result<Tuner, Error> {
        // SAFETY: see raw.rs. The library judges the record: any call that takes one would do.
        let read = unsafe { raw::pasetone_get_if_freq(bytes.as_ptr(), bytes.len()) };
        read.result()?;
        <[u8; Tuner::SIZE]>::try_from(bytes).map(|record| Tuner { record }).map_err(|_| Error::Setup)
    }

    /// The record's bytes, to be kept: [`Tuner::from_bytes`] takes them.
    pub fn as_bytes(&self) -> &[u8; Tuner::SIZE] {
        &self.record
    }

    /// A call with steps: the next record takes the place of this one whenever the call wrote it.
    fn operate(&mut self, need: Need, call: impl FnOnce(&[u8], &mut [u8], &mut [u8]) -> Reply) -> Answer<u64> {
        let mut next = self.record;
        let (reply, transcript) = in_room(need.outcomes, |room| call(&self.record, room, &mut next));
        if reply.stands() {
            self.record = next;
        }
        Answer::of(reply, transcript, |value| value)
    }

    /// Sends the chip's initial bytes, each chunk's into the shadow as it is tried, then sets it up by way of that shadow: 19 outcomes. IF, gain, lock and
    /// notch stay.
    ///
    /// # Errors
    ///
    /// - [`Error::Outcomes`] (9): fewer than 19 outcomes.
    /// - [`Error::Step`] (11): a step failed, and the steps before it stand.
    pub fn initialize(&mut self, script: &Script) -> Answer<()> {
        let o = script.outcomes();
        // SAFETY: see raw.rs.
        unit(self.operate(Need::INITIALIZE, |t, room, next| unsafe {
            raw::pasetone_initialize(t.as_ptr(), t.len(), o.as_ptr(), o.len(), room.as_mut_ptr(), room.len(), next.as_mut_ptr(), next.len())
        }))
    }

    /// Tunes to `hz`: 53 outcomes, 35 replies. The value is the Hz asked. That the PLL did not lock is no refusal: [`TuneAnswer::lock`] tells it, with the
    /// number of tries.
    ///
    /// # Errors
    ///
    /// - [`Error::Frequency`] (2): `hz` is 0, or its sum with the IF is over 64 bits, and nothing has changed; or the PLL has no divider or N for it,
    ///   when the steps of the mux (13 entries) are taken and stand.
    /// - [`Error::Outcomes`] (9): fewer than 53 outcomes.
    /// - [`Error::Replies`] (10): fewer than 35 replies.
    /// - [`Error::Step`] (11): a step failed, and the steps before it stand. The tries are those up to it.
    pub fn set_frequency(&mut self, hz: u64, script: &Script) -> TuneAnswer {
        let (o, p) = (script.outcomes(), script.replies());
        let mut lock = Lock::default();
        let Answer { result, transcript } = self.operate(Need::TUNE, |t, room, next| {
            // SAFETY: see raw.rs.
            #[rustfmt::skip]
            let told = unsafe {
                raw::pasetone_set_frequency(t.as_ptr(), t.len(), hz, o.as_ptr(), o.len(), p.as_ptr(), p.len(),
                    room.as_mut_ptr(), room.len(), next.as_mut_ptr(), next.len())
            };
            lock = Lock { tries: told.tries, locked: told.locked != 0 };
            told.reply()
        });
        TuneAnswer { result, transcript, lock }
    }

    /// The gain step for `db`: 7 outcomes. The value is the gain set.
    ///
    /// First db · 10 is cut toward zero to whole tenths (a NaN is 0), then the step nearest to these is taken, the lower one on a tie. So 0.46 is
    /// 4 tenths and gives 0.0, not 0.9; 3.25 is 32 tenths and gives 2.7, not 3.7. [`Tuner::gain_table`] has the steps.
    ///
    /// # Errors
    ///
    /// - [`Error::Outcomes`] (9): fewer than 7 outcomes.
    /// - [`Error::Step`] (11): a step failed, and the steps before it stand.
    pub fn set_gain(&mut self, db: f32, script: &Script) -> Answer<f32> {
        let o = script.outcomes();
        // SAFETY: see raw.rs.
        decibels(self.operate(Need::GAIN, |t, room, next| unsafe {
            raw::pasetone_set_gain(
                t.as_ptr(),
                t.len(),
                db,
                o.as_ptr(),
                o.len(),
                room.as_mut_ptr(),
                room.len(),
                next.as_mut_ptr(),
                next.len(),
            )
        }))
    }

    /// The gain step of an index; above 28 it is 28: 7 outcomes. The value is the gain set.
    ///
    /// # Errors
    ///
    /// - [`Error::Outcomes`] (9): fewer than 7 outcomes.
    /// - [`Error::Step`] (11): a step failed, and the steps before it stand.
    pub fn set_gain_by_index(&mut self, index: usize, script: &Script) -> Answer<f32> {
        let (o, k) = (script.outcomes(), index as u64);
        // SAFETY: see raw.rs.
        decibels(self.operate(Need::GAIN, |t, room, next| unsafe {
            #[rustfmt::skip]
            let reply = raw::pasetone_set_gain_by_index(t.as_ptr(), t.len(), k, o.as_ptr(), o.len(),
                room.as_mut_ptr(), room.len(), next.as_mut_ptr(), next.len());
            reply
        }))
    }

    /// The IF filter: to 6 MHz, to 7 MHz, above: 3 outcomes. The record keeps no bandwidth.
    ///
    /// # Errors
    ///
    /// - [`Error::Outcomes`] (9): fewer than 3 outcomes.
    /// - [`Error::Step`] (11): a step failed, and the steps before it stand.
    pub fn set_bandwidth(&mut self, hz: u32, script: &Script) -> Answer<()> {
        let o = script.outcomes();
        // SAFETY: see raw.rs.
        unit(self.operate(Need::BANDWIDTH, |t, room, next| unsafe {
            #[rustfmt::skip]
            let reply = raw::pasetone_set_bandwidth(t.as_ptr(), t.len(), hz, o.as_ptr(), o.len(),
                room.as_mut_ptr(), room.len(), next.as_mut_ptr(), next.len());
            reply
        }))
    }

    /// The IF that tunings go by: 4 outcomes.
    ///
    /// # Errors
    ///
    /// - [`Error::Outcomes`] (9): fewer than 4 outcomes.
    /// - [`Error::Step`] (11): a step failed. The IF has changed all the same, and the steps before it stand.
    pub fn set_if_freq(&mut self, hz: u64, script: &Script) -> Answer<()> {
        let o = script.outcomes();
        // SAFETY: see raw.rs.
        unit(self.operate(Need::IF_FREQ, |t, room, next| unsafe {
            #[rustfmt::skip]
            let reply = raw::pasetone_set_if_freq(t.as_ptr(), t.len(), hz, o.as_ptr(), o.len(),
                room.as_mut_ptr(), room.len(), next.as_mut_ptr(), next.len());
            reply
        }))
    }

    /// The chip's input: 4 outcomes on an R828D. An R820T has one input: it takes no step, looks at no script and is not refused.
    ///
    /// # Errors
    ///
    /// - [`Error::Outcomes`] (9): fewer than 4 outcomes.
    /// - [`Error::Step`] (11): a step failed, and the steps before it stand.
    pub fn set_input_path(&mut self, path: InputPath, script: &Script) -> Answer<()> {
        let o = script.outcomes();
        // SAFETY: see raw.rs.
        unit(self.operate(Need::INPUT_PATH, |t, room, next| unsafe {
            #[rustfmt::skip]
            let reply = raw::pasetone_set_input_path(t.as_ptr(), t.len(), path as u64, o.as_ptr(), o.len(),
                room.as_mut_ptr(), room.len(), next.as_mut_ptr(), next.len());
            reply
        }))
    }

    /// The board's input: GPIO 5, then the chip's: 10 outcomes, 3 replies, also on an R820T, which makes six entries.
    ///
    /// # Errors
    ///
    /// - [`Error::Outcomes`] (9): fewer than 10 outcomes.
    /// - [`Error::Replies`] (10): fewer than 3 replies.
    /// - [`Error::Step`] (11): a step failed, and the steps before it stand.
    pub fn apply_input_path(&mut self, path: InputPath, script: &Script) -> Answer<()> {
        let (o, p) = (script.outcomes(), script.replies());
        // SAFETY: see raw.rs.
        unit(self.operate(Need::BOARD_PATH, |t, room, next| unsafe {
            #[rustfmt::skip]
            let reply = raw::pasetone_apply_input_path(t.as_ptr(), t.len(), path as u64, o.as_ptr(), o.len(), p.as_ptr(), p.len(),
                room.as_mut_ptr(), room.len(), next.as_mut_ptr(), next.len());
            reply
        }))
    }

    /// Sends the shadow again, every register of it: 9 outcomes. All done, none is doubtful and the chip holds the shadow. The shadow stays.
    ///
    /// It is half of the way back after [`Error::Step`]: the shadow has the bytes that the cut call came to, so a tuning that was cut and only reloaded may
    /// stand beside its station with no register doubtful, and of the demodulator, the GPIO and the board's input nothing is sent. Reload, then make the
    /// same call again until it is done; after a sample rate or an IF the tuning too.
    ///
    /// # Errors
    ///
    /// - [`Error::Outcomes`] (9): fewer than 9 outcomes.
    /// - [`Error::Step`] (11): a step failed, and the steps before it stand.
    pub fn reload(&mut self, script: &Script) -> Answer<()> {
        let o = script.outcomes();
        // SAFETY: see raw.rs.
        unit(self.operate(Need::RELOAD, |t, room, next| unsafe {
            raw::pasetone_reload(t.as_ptr(), t.len(), o.as_ptr(), o.len(), room.as_mut_ptr(), room.len(), next.as_mut_ptr(), next.len())
        }))
    }

    /// The notch, for the next tuning.
    pub fn apply_notch(&mut self, on: bool) {
        // SAFETY: see raw.rs. The record is changed where it lies; it is one, so this is not refused.
        unsafe { raw::pasetone_apply_notch(self.record.as_mut_ptr(), self.record.len(), on.into()) };
    }

    /// The gain last set, in dB.
    pub fn gain(&self) -> f32 {
        // SAFETY: see raw.rs. The record is one, so this is not refused.
        f32::from_bits(unsafe { raw::pasetone_get_gain(self.record.as_ptr(), self.record.len()) }.value as u32)
    }

    /// The IF in Hz.
    pub fn if_freq(&self) -> u64 {
        // SAFETY: see raw.rs. The record is one, so this is not refused.
        unsafe { raw::pasetone_get_if_freq(self.record.as_ptr(), self.record.len()) }.value
    }

    /// Where the oscillator stands in Hz, cut to a whole number: by the bytes last sent to registers 0x10, 0x12, 0x14, 0x15 and 0x16 and the corrected
    /// reference, whatever was asked. After a tuning to hz that was done and asked for no repair of the divider it is within 25 kHz / m of hz + IF (m is 32 from
    /// 55,312,500 to 110,624,999: 782 Hz). A correction costs: the plan takes a thousandth of the reference cut to whole kHz, so with -1 ppm it was up to 287 Hz
    /// above in the FM band, where it was 86 below to 38 above without.
    /// [`Driver::centre`](crate::Driver::centre) is the frequency in the middle of a recording.
    ///
    /// ```
    /// use pasetone::{Error, Script, Tuner, TunerKind};
    ///
    /// // The fifth byte of the status asks for no repair of the divider.
    /// let steady = Script::all_done().replying(4, 0x04)?;
    /// let mut tuner = Tuner::new(TunerKind::R820t, 0x34, 28_800_000)?;
    /// assert_eq!(tuner.oscillator(), Err(Error::Doubtful));
    /// tuner.set_frequency(102_300_000, &steady).result?;
    /// assert_eq!((tuner.if_freq(), tuner.oscillator()), (2_300_000, Ok(104_600_006)));
    /// // The next tuning is cut. A reload alone clears the doubt, and leaves the tuner beside both stations; the same call again does not.
    /// let cut = tuner.set_frequency(107_500_000, &steady.clone().failing(13)?);
    /// assert_eq!((cut.result, tuner.oscillator()), (Err(Error::Step { index: 13 }), Err(Error::Doubtful)));
    /// tuner.reload(&steady).result?;
    /// assert_eq!(tuner.oscillator(), Ok(110_000_006));
    /// tuner.set_frequency(107_500_000, &steady).result?;
    /// assert_eq!(tuner.oscillator(), Ok(109_800_000));
    /// # Ok::<(), Error>(())
    /// ```
    ///
    /// # Errors
    ///
    /// - [`Error::Doubtful`] (20): one of the five registers is doubtful, so that it may stand elsewhere.
    pub fn oscillator(&self) -> Result<u64, Error> {
        // SAFETY: see raw.rs.
        unsafe { raw::pasetone_oscillator(self.record.as_ptr(), self.record.len()) }.result()
    }

    /// The 29 gain steps in tenths of a dB.
    pub fn gain_table(&self) -> [i32; 29] {
        let mut bytes = [0; 116];
        let t = &self.record;
        // SAFETY: see raw.rs. The record is one and the slice long enough, so this is not refused.
        unsafe { raw::pasetone_get_gain_table(t.as_ptr(), t.len(), bytes.as_mut_ptr(), bytes.len()) };
        core::array::from_fn(|i| i32::from_le_bytes([bytes[4 * i], bytes[4 * i + 1], bytes[4 * i + 2], bytes[4 * i + 3]]))
    }

    /// The chip.
    pub fn kind(&self) -> TunerKind {
        if self.record[0] == 0 { TunerKind::R820t } else { TunerKind::R828d }
    }

    /// The chip's address on I2C.
    pub fn address(&self) -> u8 {
        self.record[1]
    }

    /// The reference without correction, in Hz.
    pub fn nominal(&self) -> u32 {
        self.number(NOMINAL)
    }

    /// The corrected reference in Hz.
    pub fn corrected(&self) -> u32 {
        self.number(CORRECTED)
    }

    /// Whether the PLL locked when the last tuning waited for it.
    pub fn has_lock(&self) -> bool {
        self.record[LOCK] != 0
    }

    /// Whether the notch is on.
    pub fn notch(&self) -> bool {
        self.record[NOTCH] != 0
    }

    /// A register's shadow byte, the one last sent to it, done or not; `None` out of 0x05..=0x1f.
    pub fn shadow(&self, register: u8) -> Option<u8> {
        self.register(SHADOW, register)
    }

    /// The registers that the record keeps, ascending: 0x05..=0x1f.
    pub fn registers() -> impl Iterator<Item = u8> {
        (FIRST..).take(REGISTERS)
    }

    /// Whether the chip may hold another byte in a register than its shadow; false out of 0x05..=0x1f, of which nothing is kept.
    pub fn is_doubtful(&self, register: u8) -> bool {
        self.register(DOUBTFUL, register).is_some_and(|mark| mark != 0)
    }

    /// The registers of which the chip may hold another byte than their shadow.
    pub fn doubtful(&self) -> impl Iterator<Item = u8> + '_ {
        Tuner::registers().filter(|register| self.is_doubtful(*register))
    }

    fn register(&self, field: usize, register: u8) -> Option<u8> {
        let k = usize::from(register.checked_sub(FIRST)?);
        (k < REGISTERS).then(|| self.record[field + k])
    }

    fn number(&self, at: usize) -> u32 {
        let b = &self.record[at..at + 4];
        u32::from_le_bytes([b[0], b[1], b[2], b[3]])
    }

    /// For the driver's call, which takes both records.
    pub(crate) fn replace(&mut self, record: [u8; Tuner::SIZE]) {
        self.record = record;
    }

    /// For a call that changes the record where it lies.
    pub(crate) fn as_bytes_mut(&mut self) -> &mut [u8; Tuner::SIZE] {
        &mut self.record
    }
}

impl TryFrom<&[u8]> for Tuner {
    type Error = Error;

    fn try_from(bytes: &[u8]) -> Result<Tuner, Error> {
        Tuner::from_bytes(bytes)
    }
}

/// The record's fields, the bytes of registers 0x05 to 0x1f in hexadecimal.
impl fmt::Debug for Tuner {
    fn fmt(&self, f: &mut fmt::Formatter<'_>) -> fmt::Result {
        struct Bytes<'a>(&'a [u8]);
        impl fmt::Debug for Bytes<'_> {
            fn fmt(&self, f: &mut fmt::Formatter<'_>) -> fmt::Result {
                self.0.iter().enumerate().try_for_each(|(i, byte)| write!(f, "{}{byte:02x}", if i == 0 { "" } else { " " }))
            }
        }
        struct Registers<'a>(&'a Tuner);
        impl fmt::Debug for Registers<'_> {
            fn fmt(&self, f: &mut fmt::Formatter<'_>) -> fmt::Result {
                f.debug_list().entries(self.0.doubtful().map(Register)).finish()
            }
        }
        struct Register(u8);
        impl fmt::Debug for Register {
            fn fmt(&self, f: &mut fmt::Formatter<'_>) -> fmt::Result {
                write!(f, "{:#04x}", self.0)
            }
        }
        f.debug_struct("Tuner")
            .field("kind", &self.kind())
            .field("address", &Register(self.address()))
            .field("nominal", &self.nominal())
            .field("corrected", &self.corrected())
            .field("lock", &self.has_lock())
            .field("gain", &self.gain())
            .field("if_freq", &self.if_freq())
            .field("notch", &self.notch())
            .field("shadow", &Bytes(&self.record[SHADOW..SHADOW + REGISTERS]))
            .field("doubtful", &Registers(self))
            .finish()
    }
}

fn unit(answer: Answer<u64>) -> Answer<()> {
    Answer { result: answer.result.map(drop), transcript: answer.transcript }
}

fn decibels(answer: Answer<u64>) -> Answer<f32> {
    Answer { result: answer.result.map(|bits| f32::from_bits(bits as u32)), transcript: answer.transcript }
}
