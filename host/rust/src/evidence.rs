//! What sections say of the station that a receiver stands on: read from what was sent, and told by nobody.
use crate::Error;
use crate::raw::{self, Told as _};

/// A number of the evidence, with its mark.
#[derive(Clone, Copy, Debug, PartialEq, Eq, Hash)]
pub enum Told<T> {
    /// None of its registers was ever written.
    Never,
    /// A register of it was last written in vain, not written at all, or lost by a reset.
    Doubtful,
    /// Every register of it was last written in a step that was done.
    Sure(T),
}

impl<T> Told<T> {
    /// The number where it is sure.
    pub fn sure(self) -> Option<T> {
        match self {
            Told::Sure(value) => Some(value),
            Told::Never | Told::Doubtful => None,
        }
    }

    fn of(mark: u8, value: T) -> Told<T> {
        match mark {
            0 => Told::Never,
            2 => Told::Sure(value),
            _ => Told::Doubtful,
        }
    }
}

/// The last status of three bytes since the oscillator's registers were last written.
#[derive(Clone, Copy, Debug, PartialEq, Eq, Hash)]
pub enum Lock {
    /// There is none.
    Unread,
    /// It is without the lock's bit.
    Without,
    /// It has the lock's bit.
    Locked,
}

/// What sections end to end say of oscillator, IF, rate and lock.
#[derive(Clone, Copy, Debug, PartialEq, Eq, Hash)]
pub struct Evidence {
    /// The oscillator by its registers, in units of 2^-23 Hz.
    pub oscillator: Told<u64>,
    /// The demodulator's IF, in units of 2^-23 Hz.
    pub offset: Told<u64>,
    /// The same as it was sent: 22 bits, negated.
    pub word: Told<u32>,
    /// The resampler's ratio as it was sent.
    pub ratio: Told<u32>,
    /// The rate that it stands for; 0 where the ratio is.
    pub rate: Told<u64>,
    /// The byte that says how the spectrum lies (page 1, 0x15).
    pub ddc: Told<u8>,
    /// The oscillator less the IF, in whole Hz. A band's shift is not taken back. Doubtful where the IF is the larger one.
    pub centre: Told<u64>,
    /// How the waiting for a lock ended.
    pub lock: Lock,
    /// The statuses of three bytes that were read since the divider or the PLL's numbers were last written. It stops at its largest value.
    pub tries: u32,
}

impl Evidence {
    /// The bytes that the library answers.
    pub const SIZE: usize = 52;

    /// Of the library's bytes (include/pasetone.h). A mark that is none is read as doubtful, and a lock's as unread.
    pub fn read(bytes: &[u8; Evidence::SIZE]) -> Evidence {
        let short = |at: usize| u32::from_le_bytes(core::array::from_fn(|k| bytes[at + k]));
        let long = |at: usize| u64::from_le_bytes(core::array::from_fn(|k| bytes[at + k]));
        Evidence {
            oscillator: Told::of(bytes[0], long(28)),
            offset: Told::of(bytes[1], long(36)),
            word: Told::of(bytes[1], short(12)),
            ratio: Told::of(bytes[2], short(16)),
            rate: Told::of(bytes[2], long(20)),
            ddc: Told::of(bytes[3], bytes[6]),
            centre: Told::of(bytes[5], long(44)),
            lock: match bytes[4] {
                1 => Lock::Without,
                2 => Lock::Locked,
                _ => Lock::Unread,
            },
            tries: short(8),
        }
    }
}

/// What sections end to end, oldest first, say of the chip at `address` and of its demodulator. `tuner_xtal` is the tuner's corrected reference, which the
/// oscillator is reckoned by, `driver_xtal` the driver's, which IF and rate are. No bytes have no sections: everything is told as never.
///
/// ```
/// use pasetone::evidence::{Lock, Told};
/// use pasetone::{Board, Receiver, Script, TunerKind, evidence};
///
/// let mut receiver = Receiver::new(TunerKind::R828d, 0x74, Board::Generic, 28_800_000)?;
/// let mut night = receiver.set_sample_rate(2_048_000, &Script::all_done()).transcript.bytes().to_vec();
/// let answer = receiver.tune(102_300_000, &Script::new(vec![0; Script::OUTCOMES], vec![0x0a; Script::REPLIES]));
/// night.extend_from_slice(answer.transcript.bytes());
/// let told = evidence(&night, 0x74, 28_800_000, 28_800_000)?;
/// assert_eq!((told.centre, told.lock, told.tries), (Told::Sure(102_300_011), Lock::Locked, 1));
/// assert_eq!(told.rate, Told::Sure(2_048_000));
/// // A rate moves the IF, and nothing tunes behind it.
/// night.extend_from_slice(receiver.set_sample_rate(3_200_000, &Script::all_done()).transcript.bytes());
/// assert_eq!(evidence(&night, 0x74, 28_800_000, 28_800_000)?.centre, Told::Sure(101_030_012));
/// # Ok::<(), pasetone::Error>(())
/// ```
///
/// # Errors
///
/// - [`Error::Correction`] (4): one of the references is 0.
/// - [`Error::Section`] (12): some of the bytes are no section.
pub fn evidence(sections: &[u8], address: u8, tuner_xtal: u32, driver_xtal: u32) -> Result<Evidence, Error> {
    let mut out = [0; Evidence::SIZE];
    let (bytes, room) = (sections.as_ptr(), out.as_mut_ptr());
    // SAFETY: see raw.rs; the sections are only read, and `out` is another slice.
    unsafe { raw::pasetone_evidence(bytes, sections.len(), address, tuner_xtal, driver_xtal, room, out.len()) }.result()?;
    Ok(Evidence::read(&out))
}
