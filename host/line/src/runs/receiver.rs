//! What the words say of a receiver, and what a settings file says where no word does: a word that is given wins.
use crate::printed::names::{self, Gain};
use crate::printed::out::Out;
use crate::runs::boards::Place;
use crate::words::given::Given;
use crate::words::named::called;
use crate::words::numbers;
use crate::words::options::Key;
use pasetone::{Board, Error, Settings, Settings2, TunerKind};

/// The settings of a file, and the edition that they stand there in.
#[derive(Clone, Copy)]
pub struct Kept {
    pub settings: Settings2,
    pub edition: u8,
}

/// Everything that words and settings can say; `None` where neither does.
pub struct Receiver {
    pub kind: Option<TunerKind>,
    pub address: Option<u8>,
    pub board: Option<Board>,
    pub reference: Option<u32>,
    pub ppm: Option<i32>,
    pub rate: Option<u32>,
    pub gain: Option<Gain>,
    pub if_hz: Option<u32>,
    pub frequency: Option<u64>,
}

impl Receiver {
    /// Nothing said.
    pub fn none() -> Receiver {
        Receiver {
            kind: None,
            address: None,
            board: None,
            reference: None,
            ppm: None,
            rate: None,
            gain: None,
            if_hz: None,
            frequency: None,
        }
    }

    /// Reads every word. What a command has no option for is never given.
    pub fn of_words(given: &Given, frequency: Option<u64>, out: &mut Out) -> Receiver {
        let hertz = |text: &str| u32::try_from(numbers::hertz(text)?).ok();
        Receiver {
            ppm: given.value(Key::Ppm, out, numbers::signed),
            rate: given.value(Key::Rate, out, hertz),
            gain: given.value(Key::Gain, out, numbers::tenths).map(Gain::Tenths),
            if_hz: given.value(Key::If, out, hertz),
            kind: given.value(Key::Kind, out, names::kind_of),
            board: given.value(Key::Board, out, names::board_of),
            address: given.value(Key::Address, out, |text| u8::try_from(numbers::whole(text)?).ok()),
            reference: given.value(Key::Reference, out, hertz),
            frequency,
        }
    }

    /// What no word says is taken from settings.
    pub fn filled(mut self, kept: &Kept) -> Receiver {
        let Settings2 { settings, if_hz } = kept.settings;
        self.kind = self.kind.or(Some(settings.kind));
        self.board = self.board.or(Some(settings.board));
        self.ppm = self.ppm.or(Some(settings.correction));
        self.rate = self.rate.or(Some(settings.rate));
        self.gain = self.gain.or(Some(Gain::Index(settings.gain_index)));
        self.if_hz = self.if_hz.or(Some(if_hz));
        self.frequency = self.frequency.or(Some(settings.frequency));
        self
    }

    pub fn kind(&self) -> TunerKind {
        self.kind.unwrap_or(TunerKind::R828d)
    }

    pub fn address(&self) -> u8 {
        self.address.unwrap_or(names::own_address(self.kind()))
    }

    pub fn reference(&self) -> u32 {
        self.reference.unwrap_or(28_800_000)
    }

    pub fn board(&self) -> Board {
        self.board.unwrap_or(Board::V4)
    }

    /// The board, by `--table` where it is given.
    pub fn place(&self, given: &Given, out: &mut Out) -> Place {
        Place::given(given, self.board(), out)
    }
}

/// The settings of the file that `--settings` names.
pub fn kept(given: &Given, out: &mut Out) -> Option<Kept> {
    let bytes = given.whole(Key::Settings, out)?;
    match read(&bytes) {
        Ok(kept) => Some(kept),
        Err(why) => {
            out.mistake(&format!("--settings {}: {why}", given.word(Key::Settings).map(called).unwrap_or_default()));
            None
        }
    }
}

/// The settings in which bytes end; what is wrong with bytes that end in none comes back in words.
pub fn read(bytes: &[u8]) -> Result<Kept, String> {
    match (Settings2::read(bytes), Settings::read_1(bytes)) {
        (Ok(settings), first) => Ok(Kept { settings, edition: if first.is_ok() { 1 } else { 2 } }),
        (Err(error), _) => {
            Err(format!("{} (refusal {}): give a file that `settings write` has made", unread(bytes, error), error.number()))
        }
    }
}

/// Why bytes end in no settings: the trailer's four bytes are the edition, a zero and the distance back.
fn unread(bytes: &[u8], error: Error) -> String {
    let Some([edition, filler, low, high]) = bytes.last_chunk::<4>().copied() else {
        return format!("settings have 23 bytes (edition 1) or 27 (edition 2), and here are {}", bytes.len());
    };
    if error == Error::Edition {
        return format!(
            "its last four bytes tell edition {edition}, and editions 1 and 2 are read: it is no settings file, or a later one"
        );
    }
    let (size, distance) = if edition == 1 { (Settings::SIZE_1, 19) } else { (Settings2::SIZE, 23) };
    if bytes.len() < size {
        return format!("settings of edition {edition} have {size} bytes, and here are {}", bytes.len());
    }
    if filler != 0 || u16::from_le_bytes([low, high]) != distance {
        return format!(
            "its last four bytes are {edition:02x} {filler:02x} {low:02x} {high:02x}, and a trailer of edition {edition} is {edition:02x} 00 {distance:02x} 00"
        );
    }
    let at = bytes.len() - size;
    let (kind, board, gain) = (bytes[at], bytes[at + 1], bytes[at + 18]);
    if kind > 1 {
        return format!("it has {kind} for the tuner's kind: 0 is R820T, 1 R828D");
    }
    if board > 1 {
        return format!("it has {board} for the board: 0 is generic, 1 V4");
    }
    format!("it has gain index {gain}: 0 to 28 are steps")
}

#[cfg(test)]
mod tests {
    use super::*;

    fn image() -> Vec<u8> {
        let settings =
            Settings { kind: TunerKind::R828d, board: Board::V4, correction: -3, rate: 2_048_000, frequency: 100_000_000, gain_index: 28 };
        Settings2 { settings, if_hz: 4_570_000 }.image().unwrap().to_vec()
    }

    #[test]
    fn what_is_wrong_is_told() {
        let with = |at: usize, value: u8| {
            let mut bytes = image();
            bytes[at] = value;
            read(&bytes).err().unwrap_or_default()
        };
        assert_eq!(with(0, 1), "");
        assert!(with(0, 2).starts_with("it has 2 for the tuner's kind"));
        assert!(with(1, 9).starts_with("it has 9 for the board"));
        assert!(with(18, 29).starts_with("it has gain index 29: "));
        assert!(with(23, 3).starts_with("its last four bytes tell edition 3, ") && with(23, 3).contains("(refusal 16): "));
        assert!(with(23, 1).starts_with("its last four bytes are 01 00 17 00, and a trailer of edition 1 is 01 00 13 00"));
        assert!(with(24, 1).starts_with("its last four bytes are 02 01 17 00, and a trailer of edition 2 is 02 00 17 00"));
        assert!(read(&image()[4..]).err().unwrap().starts_with("settings of edition 2 have 27 bytes, and here are 23"));
        assert!(
            read(&[]).err().unwrap().starts_with("settings have 23 bytes (edition 1) or 27 (edition 2), and here are 0 (refusal 17): ")
        );
        assert_eq!(read(&image()).map(|kept| kept.edition), Ok(2));
    }
}
