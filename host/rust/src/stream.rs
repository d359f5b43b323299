use crate::raw::Told as _;
use crate::rounds::rounds;
use crate::{Driven, Driver, Entry, Error, Lock, Need, Outcome, Script, Stepped, Table, Transcript, Tuner, in_room, raw};
use alloc::vec::Vec;
use core::fmt;

/// A command, as a scheduler sends it to a [`Stream`].
#[derive(Clone, Copy, Debug, PartialEq)]
pub enum Command {
    /// 1: [`Tuner::set_frequency`]. The tuner's tune, no board's: [`Driver::frequency`] stays.
    Frequency(u64),
    /// 2: [`Driver::set_sample_rate`].
    Rate(u32),
    /// 3: [`Tuner::set_gain`], in dB.
    Gain(f32),
    /// 4: [`Tuner::set_gain_by_index`]; above 28 it is 28.
    GainIndex(u8),
    /// 5: [`Tuner::set_bandwidth`].
    Bandwidth(u32),
    /// 6: [`Driver::set_ppm`], of both records.
    Correction(i32),
    /// 7: [`Tuner::reload`].
    Reload,
}

impl Command {
    /// The bytes of every command.
    pub const SIZE: usize = 9;

    /// Its bytes: the operation, then the argument, low byte first, zeros above it.
    ///
    /// ```
    /// use pasetone::Command;
    /// assert_eq!(Command::Correction(-2).bytes(), [6, 0xfe, 0xff, 0xff, 0xff, 0, 0, 0, 0]);
    /// assert_eq!(Command::Gain(29.7).bytes(), [3, 0x9a, 0x99, 0xed, 0x41, 0, 0, 0, 0]);
    /// ```
    pub fn bytes(self) -> [u8; Command::SIZE] {
        let (operation, argument) = match self {
            Command::Frequency(hz) => (1, hz),
            Command::Rate(rate) => (2, rate.into()),
            Command::Gain(db) => (3, db.to_bits().into()),
            Command::GainIndex(index) => (4, index.into()),
            Command::Bandwidth(hz) => (5, hz.into()),
            Command::Correction(ppm) => (6, (ppm as u32).into()),
            Command::Reload => (7, 0),
        };
        let mut bytes = [operation; Command::SIZE];
        bytes[1..].copy_from_slice(&argument.to_le_bytes());
        bytes
    }
}

/// What a command of a stream came to. Its records are updated already, as by its call.
#[derive(Clone, Debug, PartialEq)]
#[must_use = "a command may be refused"]
pub struct Fed {
    /// Its nine bytes.
    pub command: [u8; Command::SIZE],
    /// What its call answers: a frequency's Hz, a gain's 32 bits of a binary32, else 0; or why it was refused.
    pub result: Result<u64, Error>,
    /// The steps taken, also where one of them failed.
    pub transcript: Transcript,
    /// The tries of a frequency; none for every other command.
    pub lock: Lock,
}

impl Stepped for Fed {
    fn transcript(&self) -> &Transcript {
        &self.transcript
    }
}

/// Commands fed as they arrive, chopped anywhere: what is pending of one that is not whole yet. However a stream is chopped, its commands are the same ones,
/// and each is answered: a refused one too, and the next one runs.
///
/// ```
/// use pasetone::{Board, Command, Driver, Error, Script, Stream, Tuner, TunerKind};
///
/// let mut tuner = Tuner::new(TunerKind::R828d, 0x74, 28_800_000)?;
/// let mut driver = Driver::new(Board::V4, 28_800_000, 0, 0, 0)?;
/// let (mut stream, table) = (Stream::new(), Board::V4.table());
/// let sent = [Command::Bandwidth(2_048_000).bytes(), [9; 9], Command::Frequency(102_300_000).bytes()].concat();
///
/// // Two commands and four bytes of a third; then the rest of it.
/// let fed = stream.feed(&mut driver, &mut tuner, &table, &sent[..22], |_| Script::all_done());
/// assert_eq!(fed.iter().map(|fed| fed.result).collect::<Vec<_>>(), [Ok(0), Err(Error::Command)]);
/// assert_eq!(stream.pending(), 4);
/// let fed = stream.feed(&mut driver, &mut tuner, &table, &sent[22..], |_| Script::all_done());
/// assert_eq!((fed[0].result, fed[0].lock.tries, stream.pending()), (Ok(102_300_000), 10, 0));
/// # Ok::<(), Error>(())
/// ```
#[derive(Clone, Default, PartialEq, Eq, Hash)]
pub struct Stream {
    bytes: [u8; Stream::SIZE],
}

impl Stream {
    /// The bytes that a host keeps of it.
    pub const SIZE: usize = 9;

    /// A stream with nothing pending.
    pub fn new() -> Stream {
        Stream::default()
    }

    /// A stream of its bytes.
    ///
    /// # Errors
    ///
    /// - [`Error::Setup`] (1): the bytes are none.
    pub fn from_bytes(bytes: &[u8]) -> Result<Stream, Error> {
        // SAFETY: see raw.rs; the slice is only read.
        unsafe { raw::pasetone_stream_pending(bytes.as_ptr(), bytes.len()) }.result()?;
        <[u8; Stream::SIZE]>::try_from(bytes).map(|bytes| Stream { bytes }).map_err(|_| Error::Setup)
    }

    /// Its bytes, to be kept: [`Stream::from_bytes`] takes them.
    pub fn as_bytes(&self) -> &[u8; Stream::SIZE] {
        &self.bytes
    }

    /// How many bytes are pending, 0 to 8: at the end of a stream, the length of the command that is not whole and has done nothing.
    pub fn pending(&self) -> usize {
        // SAFETY: see raw.rs; the slice is only read. The bytes are a stream's, so this is not refused.
        unsafe { raw::pasetone_stream_pending(self.bytes.as_ptr(), self.bytes.len()) }.value as usize
    }

    /// Takes a chunk, and makes each command that it completes on both records, with the script that `script` gives for its nine bytes. [`Need`] has what each
    /// call asks for; [`Script::all_done`] has enough for all.
    ///
    /// What a command is refused for stands in its [`Fed::result`]: [`Error::Command`] (14) first, else as its call is refused.
    #[must_use = "a command may be refused"]
    pub fn feed(
        &mut self,
        driver: &mut Driver,
        tuner: &mut Tuner,
        table: &Table,
        chunk: &[u8],
        mut script: impl FnMut(&[u8; Command::SIZE]) -> Script,
    ) -> Vec<Fed> {
        self.each(driver, tuner, table, chunk, |records, command, rest| {
            let script = script(&command);
            records.run(command, table, rest, &script)
        })
    }

    /// Takes a chunk as [`Stream::feed`] does, and makes each command on a receiver, step by step, as [`drive`](crate::drive) does. Where `take` panics, its command
    /// has been taken and the rest of the chunk has not.
    #[must_use = "a command may be refused"]
    pub fn drive(
        &mut self,
        driver: &mut Driver,
        tuner: &mut Tuner,
        table: &Table,
        chunk: &[u8],
        mut take: impl FnMut(&Entry<'_>) -> Outcome,
    ) -> Vec<Driven<Fed>> {
        self.each(driver, tuner, table, chunk, |records, command, rest| {
            let given = records.copy();
            let one_round = |script: &Script| {
                let mut next = given.clone();
                (next.lent().run(command, table, rest, script), next)
            };
            rounds(one_round, |next| records.keep(next), &mut take)
        })
    }

    /// Each command that the chunk completes, by `make`; then what is left of the chunk is pending.
    fn each<A>(
        &mut self,
        driver: &mut Driver,
        tuner: &mut Tuner,
        table: &Table,
        chunk: &[u8],
        mut make: impl FnMut(&mut Records<'_>, [u8; Command::SIZE], &[u8]) -> A,
    ) -> Vec<A> {
        let mut records = Records { stream: self, driver, tuner };
        let (mut rest, mut made) = (chunk, Vec::new());
        while let Some((command, used)) = records.stream.command(rest) {
            made.push(make(&mut records, command, rest));
            rest = &rest[used..];
        }
        records.feed(table, rest, &Script::all_done());
        made
    }

    /// The command that these bytes complete, and how many of them it takes.
    fn command(&self, chunk: &[u8]) -> Option<([u8; Command::SIZE], usize)> {
        let pending = &self.bytes[1..][..self.pending()];
        let used = Command::SIZE - pending.len();
        let mut command = [0; Command::SIZE];
        command[..pending.len()].copy_from_slice(pending);
        command[pending.len()..].copy_from_slice(chunk.get(..used)?);
        Some((command, used))
    }
}

/// The bytes that are pending.
impl fmt::Debug for Stream {
    fn fmt(&self, f: &mut fmt::Formatter<'_>) -> fmt::Result {
        f.debug_tuple("Stream").field(&&self.bytes[1..][..self.pending()]).finish()
    }
}

/// All that a feeding changes, where it lies.
struct Records<'a> {
    stream: &'a mut Stream,
    driver: &'a mut Driver,
    tuner: &'a mut Tuner,
}

/// The same, apart.
#[derive(Clone)]
struct Copied {
    stream: Stream,
    driver: Driver,
    tuner: Tuner,
}

impl Copied {
    fn lent(&mut self) -> Records<'_> {
        Records { stream: &mut self.stream, driver: &mut self.driver, tuner: &mut self.tuner }
    }
}

impl Records<'_> {
    fn copy(&self) -> Copied {
        Copied { stream: self.stream.clone(), driver: self.driver.clone(), tuner: self.tuner.clone() }
    }

    fn keep(&mut self, next: Copied) {
        (*self.stream, *self.driver, *self.tuner) = (next.stream, next.driver, next.tuner);
    }

    fn run(&mut self, command: [u8; Command::SIZE], table: &Table, chunk: &[u8], script: &Script) -> Fed {
        let (told, transcript) = self.feed(table, chunk, script);
        let lock = Lock { tries: told.tries, locked: told.locked != 0 };
        Fed { command, result: told.reply().result(), transcript, lock }
    }

    fn feed(&mut self, table: &Table, chunk: &[u8], script: &Script) -> (raw::FeedReply, Transcript) {
        let (s, d, t) = (&mut self.stream.bytes, self.driver.as_bytes_mut(), self.tuner.as_bytes_mut());
        let (b, c, o, p) = (table.as_bytes(), chunk, script.outcomes(), script.replies());
        let mut told = None;
        let (_, transcript) = in_room(Need::TUNE.outcomes, |room| {
            // SAFETY: see raw.rs.
            #[rustfmt::skip]
            let reply = unsafe {
                raw::pasetone_feed(s.as_mut_ptr(), s.len(), d.as_mut_ptr(), d.len(), t.as_mut_ptr(), t.len(), b.as_ptr(), b.len(),
                    c.as_ptr(), c.len(), o.as_ptr(), o.len(), p.as_ptr(), p.len(), room.as_mut_ptr(), room.len())
            };
            told.insert(reply).reply()
        });
        (told.expect("the call was made"), transcript)
    }
}
