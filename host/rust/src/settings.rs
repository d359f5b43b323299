use crate::raw::Told as _;
use crate::{Board, Error, TunerKind, raw};

/// Receiver settings as they stand on file: what a site keeps in a spreadsheet no longer.
///
/// ```
/// use pasetone::{Board, Error, Settings, TunerKind};
///
/// let settings =
///     Settings { kind: TunerKind::R828d, board: Board::V4, correction: -3, rate: 2_048_000, frequency: 100_000_000, gain_index: 28 };
/// let image = settings.image_1()?;
/// assert_eq!(image[19..], [1, 0, 19, 0]);
/// let file = [&b"kept at the site"[..], &image].concat();
/// assert_eq!(Settings::read_1(&file), Ok(settings));
/// assert_eq!(Settings { gain_index: 29, ..settings }.image_1(), Err(Error::Settings));
/// # Ok::<(), Error>(())
/// ```
#[derive(Clone, Copy, Debug, PartialEq, Eq, Hash)]
pub struct Settings {
    /// The tuner.
    pub kind: TunerKind,
    /// The board.
    pub board: Board,
    /// The correction of the reference, in parts per million.
    pub correction: i32,
    /// The sample rate; 0 is taken.
    pub rate: u32,
    /// The frequency in Hz; 0 is taken.
    pub frequency: u64,
    /// The index of the gain step, 0 to 28.
    pub gain_index: u8,
}

impl Settings {
    /// The bytes of an image of edition 1, its trailer included.
    pub const SIZE_1: usize = 23;

    /// By the numbers that the library tells: a kind and a board of 0 or 1, a gain index of at most 28.
    fn told(kind: u64, board: u64, correction: i32, rate: u32, frequency: u64, gain: u64) -> Settings {
        Settings {
            kind: if kind == 0 { TunerKind::R820t } else { TunerKind::R828d },
            board: if board == 0 { Board::Generic } else { Board::V4 },
            correction,
            rate,
            frequency,
            gain_index: gain as u8,
        }
    }

    /// The settings of edition 1 in which `bytes` end; what stands before them is not looked at.
    ///
    /// # Errors
    ///
    /// - [`Error::Edition`] (16): they are of another edition, of which nothing is read.
    /// - [`Error::Settings`] (17): the bytes do not end in settings.
    pub fn read_1(bytes: &[u8]) -> Result<Settings, Error> {
        // SAFETY: see raw.rs; the slice is only read.
        let read = unsafe { raw::pasetone_read_settings_1(bytes.as_ptr(), bytes.len()) };
        match Error::of(read.refusal, 0) {
            Some(error) => Err(error),
            None => Ok(Settings::told(read.kind, read.board, read.correction, read.rate, read.frequency, read.gain)),
        }
    }

    /// The image of edition 1: what [`Settings::read_1`] takes. Every settings record has one image, and each image that is read is the one that its
    /// record is written to.
    ///
    /// # Errors
    ///
    /// - [`Error::Settings`] (17): the gain index is above 28.
    pub fn image_1(&self) -> Result<[u8; Settings::SIZE_1], Error> {
        let mut image = [0; Settings::SIZE_1];
        let (kind, board, gain) = (self.kind as u64, self.board as u64, u64::from(self.gain_index));
        // SAFETY: see raw.rs.
        let reply = unsafe {
            raw::pasetone_write_settings_1(kind, board, self.correction, self.rate, self.frequency, gain, image.as_mut_ptr(), image.len())
        };
        reply.result().map(|_| image)
    }
}

/// Settings of edition 2: those of edition 1 and the site's own IF.
///
/// ```
/// use pasetone::{Board, Error, Settings, Settings2, TunerKind};
///
/// let settings =
///     Settings { kind: TunerKind::R820t, board: Board::Generic, correction: 0, rate: 2_048_000, frequency: 88_000_000, gain_index: 0 };
/// let old = settings.image_1()?;
/// let moved = Settings2::image_from_1(&old)?;
/// assert_eq!(Settings2::read(&moved), Ok(Settings2 { settings, if_hz: 2_300_000 }));
/// assert_eq!(Settings2::read(&old), Settings2::read(&moved));
/// assert_eq!(Settings::read_1(&moved), Err(Error::Edition));
/// assert_eq!(Settings::image_from_2(&moved), Ok(old));
/// let strong = Settings2 { settings, if_hz: 4_570_000 }.image()?;
/// assert_eq!(Settings::image_from_2(&strong), Err(Error::NotExpressible));
/// # Ok::<(), Error>(())
/// ```
#[derive(Clone, Copy, Debug, PartialEq, Eq, Hash)]
pub struct Settings2 {
    /// What edition 1 has.
    pub settings: Settings,
    /// The IF in Hz, any.
    pub if_hz: u32,
}

impl Settings2 {
    /// The bytes of an image of edition 2, its trailer included.
    pub const SIZE: usize = 27;

    /// The settings in which `bytes` end, of edition 2, or of edition 1 with the IF that it stands for, 2,300,000.
    ///
    /// # Errors
    ///
    /// - [`Error::Edition`] (16): they are of neither edition.
    /// - [`Error::Settings`] (17): the bytes do not end in settings.
    pub fn read(bytes: &[u8]) -> Result<Settings2, Error> {
        // SAFETY: see raw.rs; the slice is only read.
        let read = unsafe { raw::pasetone_read_settings_2(bytes.as_ptr(), bytes.len()) };
        match Error::of(read.refusal, 0) {
            Some(error) => Err(error),
            None => Ok(Settings2 {
                settings: Settings::told(read.kind, read.board, read.correction, read.rate, read.frequency, read.gain),
                if_hz: read.intermediate,
            }),
        }
    }

    /// The image of edition 2.
    ///
    /// # Errors
    ///
    /// - [`Error::Settings`] (17): the gain index is above 28.
    pub fn image(&self) -> Result<[u8; Settings2::SIZE], Error> {
        let mut image = [0; Settings2::SIZE];
        let Settings { kind, board, correction, rate, frequency, gain_index } = self.settings;
        let (to, n) = (image.as_mut_ptr(), image.len());
        // SAFETY: see raw.rs.
        let reply = unsafe {
            raw::pasetone_write_settings_2(kind as u64, board as u64, correction, rate, frequency, u64::from(gain_index), self.if_hz, to, n)
        };
        reply.result().map(|_| image)
    }

    /// The settings of edition 1 in which `bytes` end, moved to edition 2 with the IF 2,300,000.
    ///
    /// # Errors
    ///
    /// - [`Error::Edition`] (16): they are not of edition 1.
    /// - [`Error::Settings`] (17): the bytes do not end in settings.
    pub fn image_from_1(bytes: &[u8]) -> Result<[u8; Settings2::SIZE], Error> {
        let mut image = [0; Settings2::SIZE];
        // SAFETY: see raw.rs.
        let reply = unsafe { raw::pasetone_move_settings_1_to_2(bytes.as_ptr(), bytes.len(), image.as_mut_ptr(), image.len()) };
        reply.result().map(|_| image)
    }
}

impl Settings {
    /// The settings of edition 2 in which `bytes` end, moved to edition 1.
    ///
    /// # Errors
    ///
    /// - [`Error::Edition`] (16): they are not of edition 2.
    /// - [`Error::Settings`] (17): the bytes do not end in settings.
    /// - [`Error::NotExpressible`] (18): their IF is not 2,300,000.
    pub fn image_from_2(bytes: &[u8]) -> Result<[u8; Settings::SIZE_1], Error> {
        let mut image = [0; Settings::SIZE_1];
        // SAFETY: see raw.rs.
        let reply = unsafe { raw::pasetone_move_settings_2_to_1(bytes.as_ptr(), bytes.len(), image.as_mut_ptr(), image.len()) };
        reply.result().map(|_| image)
    }
}
