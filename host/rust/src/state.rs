//! A receiver's state on file, told truly whenever the host dies.
//!
//! # The rule (theorem `crashed` of crates/rounds)
//!
//! Before the first transfer of a call the file has the call, the records that it was given, and a script whose outcomes are all 1. A step that is done stores its
//! replies, then turns its own outcome to 0. Nothing is stored before a step, and nothing of one that failed. When the call has ended its records are stored, and no
//! call is under way. Whenever the host died, the same call with the stored script, by the library alone, gives records that call no register sure which may hold
//! another byte. A process that dies loses no store; nothing is synced per step.
//!
//! # The file, format 1
//!
//! Numbers have their low byte first. 16 bytes: `pasetone`, the format as 4 bytes, 4 zeros. Then two leaves of 830 bytes, at 16 and 846:
//!
//! | at | bytes | what |
//! |---|---|---|
//! | 0 | 64 | the script's outcomes: 1, or 0 where the step is done |
//! | 64 | 38 | the script's replies, in the order of reading |
//! | 102 | 8 | the leaf's number |
//! | 110 | 1 + 64 | the connection's key: its length, its bytes, zeros |
//! | 175 | 1 + 64 | the host's note: the same |
//! | 240 | 8 | the night's length: that of the host's file of sections, before the call under way |
//! | 248 | 78 | the tuner's record |
//! | 326 | 29 | the driver's record |
//! | 355 | 2 + 432 | the board's table: its length, its bytes, zeros |
//! | 789 | 9 | the call under way ([`Call::bytes`]); zeros where there is none |
//! | 798 | 24 | zeros |
//! | 822 | 8 | FNV-1a (64 bits) of the bytes 102 to 821 |
//!
//! The leaf with a right checksum and the higher number counts. A new one is written over the other leaf, the script first and the checksum last, so that there is a
//! whole leaf at every moment. While a call is under way bytes of the script change in place, and nothing else does. Whoever reads or writes holds the file's lock
//! (flock).
extern crate std;

use crate::rounds::stepped;
use crate::{Call, Driven, Driver, Entry, Made, Outcome, Receiver, Script, Table, Tuner};
use alloc::boxed::Box;
use alloc::vec;
use alloc::vec::Vec;
use core::fmt;
use std::fs::{File, OpenOptions, TryLockError};
use std::io;
use std::os::unix::fs::FileExt;
use std::path::Path;
use std::time::Duration;

const MAGIC: &[u8; 8] = b"pasetone";
const FORMAT: u32 = 1;
const HEAD: usize = 16;
const REPLIES: usize = Script::OUTCOMES;
const FIXED: usize = REPLIES + Script::REPLIES;
const KEY: usize = FIXED + 8;
const NOTE: usize = KEY + 1 + State::WORDS;
const NIGHT: usize = NOTE + 1 + State::WORDS;
const TUNER: usize = NIGHT + 8;
const DRIVER: usize = TUNER + Tuner::SIZE;
const TABLE: usize = DRIVER + Driver::SIZE;
const CALL: usize = TABLE + 2 + Table::BAND * Table::BANDS;
const SUM: usize = CALL + Call::SIZE + 24;
const LEAF: usize = SUM + 8;

/// A receiver on file: its records, its table, the call under way, and what the host notes beside them. The file is locked from its opening to its drop.
///
/// ```
/// use pasetone::{Board, Call, EntryKind, Found, Outcome, Receiver, State, TunerKind};
///
/// # let path = std::env::temp_dir().join(format!("pasetone-state-{}", std::process::id()));
/// // What talks to the hardware; this one does every step, with 0x0a in every byte that it reads.
/// let take = |step: &pasetone::Entry| match step.kind {
///     EntryKind::I2cRead | EntryKind::BlockRead => Outcome::Read(vec![0x0a; step.bytes.len()]),
///     _ => Outcome::Done,
/// };
/// // What tells this connection from any other: where the boot or the plug is another, the receiver has lost its registers.
/// let key = b"boot 7a1c, bus 1, device 4";
/// let fresh = Receiver::new(TunerKind::R828d, 0x74, Board::V4, 28_800_000)?;
/// let (mut state, found) = State::open(&path, key, fresh)?;
/// let calls = match found {
///     Found::Kept => vec![],
///     // The host died in this call: every register again, then the same call.
///     Found::Cut(cut) => vec![Call::Reload, cut.call],
///     Found::New | Found::Other(_) => vec![Call::Initialize, Call::SetSampleRate(2_048_000)],
/// };
/// for call in calls.into_iter().chain([Call::TuneBoard(102_300_000)]) {
///     state.drive(call, take)?.answer.result?;
/// }
/// assert_eq!(state.receiver().driver().frequency(), 102_300_000);
/// # std::fs::remove_file(&path)?;
/// # Ok::<(), Box<dyn std::error::Error>>(())
/// ```
#[derive(Debug)]
pub struct State {
    file: File,
    /// The number of the leaf that counts, and where it stands: 0 or 1. Of a new file none does.
    number: u64,
    leaf: usize,
    key: Vec<u8>,
    note: Vec<u8>,
    night: u64,
    receiver: Receiver,
    synced: bool,
}

/// What a state's file held when it was opened.
#[derive(Clone, Debug, PartialEq)]
#[must_use = "a call may have been cut"]
pub enum Found {
    /// Nothing: the state begins with the receiver that was given.
    New,
    /// A receiver, and no call under way.
    Kept,
    /// A receiver whose host died while a call was under way. The state has what is recovered, and the file has it with the next store; until then it is recovered
    /// at each opening, to the same.
    Cut(Box<Cut>),
    /// The receiver of another connection, which has lost its registers since: the state begins with the receiver that was given, and is to be set up whole.
    Other(Box<Receiver>),
}

/// A call that its host died in, or whose end it could not store.
#[derive(Clone, Debug, PartialEq)]
pub struct Cut {
    /// The call.
    pub call: Call,
    /// What it comes to by the stored script, where every step that is not known to be done has failed.
    pub made: Made,
    /// The receiver before the call, whose record may call a register sure that the call has written.
    pub before: Receiver,
}

/// Why a state could not be opened.
#[derive(Debug)]
pub enum StateError {
    /// The file could not be opened, locked, read or written.
    Io(io::Error),
    /// The file is no state, of format 1: it stays as it is.
    Form,
}

impl fmt::Display for StateError {
    fn fmt(&self, f: &mut fmt::Formatter<'_>) -> fmt::Result {
        match self {
            StateError::Io(error) => error.fmt(f),
            StateError::Form => f.write_str("the file is no state of format 1"),
        }
    }
}

impl core::error::Error for StateError {}

impl From<io::Error> for StateError {
    fn from(error: io::Error) -> StateError {
        StateError::Io(error)
    }
}

/// What a leaf holds.
struct Leaf {
    number: u64,
    key: Vec<u8>,
    note: Vec<u8>,
    night: u64,
    receiver: Receiver,
    call: Option<(Call, Script)>,
}

impl State {
    /// The most bytes of a key and of a note.
    pub const WORDS: usize = 64;

    /// How long a host waits after a transfer that timed out, after a recovery and before it ends: a transfer may land late, over a newer write.
    pub const SETTLE: Duration = Duration::from_millis(40);

    /// Opens a receiver's file, waits for its lock, and recovers a call that was under way. A file that is not there is made, and an empty one is taken for it. `key`
    /// tells this connection from any other, in 64 bytes at most: the boot's identity, and where the receiver is plugged. `fresh` is the receiver before its first call.
    ///
    /// # Errors
    ///
    /// - [`StateError::Io`]: the file cannot be opened, locked or read; or the key is too long.
    /// - [`StateError::Form`]: it is no state.
    pub fn open(path: impl AsRef<Path>, key: &[u8], fresh: Receiver) -> Result<(State, Found), StateError> {
        State::open_telling(path, key, fresh, || ())
    }

    /// The same; `waits` is called where another holds the lock.
    ///
    /// # Errors
    ///
    /// As there.
    pub fn open_telling(path: impl AsRef<Path>, key: &[u8], fresh: Receiver, waits: impl FnOnce()) -> Result<(State, Found), StateError> {
        judged(key)?;
        let file = OpenOptions::new().read(true).write(true).create(true).truncate(false).open(path)?;
        match file.try_lock() {
            Ok(()) => {}
            Err(TryLockError::WouldBlock) => {
                waits();
                file.lock()?;
            }
            Err(TryLockError::Error(error)) => return Err(error.into()),
        }
        let mut bytes = vec![0; HEAD + 2 * LEAF + 1];
        let length = read_up_to(&file, &mut bytes)?;
        let mut state = State { file, number: 0, leaf: 1, key: key.into(), note: Vec::new(), night: 0, receiver: fresh, synced: true };
        let Some((leaf, at)) = read(&bytes[..length])? else { return Ok((state, Found::New)) };
        (state.number, state.leaf) = (leaf.number, at);
        if leaf.key != state.key {
            return Ok((state, Found::Other(Box::new(leaf.receiver))));
        }
        (state.note, state.night, state.receiver) = (leaf.note, leaf.night, leaf.receiver);
        let Some((call, script)) = leaf.call else { return Ok((state, Found::Kept)) };
        let before = state.receiver.clone();
        let made = call.make(&mut state.receiver, &script);
        Ok((state, Found::Cut(Box::new(Cut { call, made, before }))))
    }

    /// The key that a state's file has; none where it holds no receiver yet. The file is neither made nor locked: a host looks here whose connection is to be found by it.
    ///
    /// # Errors
    ///
    /// - [`StateError::Io`]: it cannot be read.
    /// - [`StateError::Form`]: it is no state.
    pub fn key(path: impl AsRef<Path>) -> Result<Option<Vec<u8>>, StateError> {
        let mut bytes = vec![0; HEAD + 2 * LEAF + 1];
        let length = read_up_to(&File::open(path)?, &mut bytes)?;
        Ok(read(&bytes[..length])?.map(|(leaf, _)| leaf.key))
    }

    /// The receiver.
    pub fn receiver(&self) -> &Receiver {
        &self.receiver
    }

    /// The receiver, for what has no steps: a correction, another table. [`State::keep`] or the next call stores it.
    pub fn receiver_mut(&mut self) -> &mut Receiver {
        &mut self.receiver
    }

    /// What the host has noted.
    pub fn note(&self) -> &[u8] {
        &self.note
    }

    /// How long the host's file of sections was before the call under way, or is now where there is none.
    pub fn night(&self) -> u64 {
        self.night
    }

    /// The host's own: a note of 64 bytes at most, and the length of its file of sections. [`State::keep`] or the next call stores them.
    ///
    /// # Errors
    ///
    /// The note is too long; it stays as it was.
    pub fn set_note(&mut self, note: &[u8], night: u64) -> io::Result<()> {
        judged(note)?;
        (self.note, self.night) = (note.into(), night);
        Ok(())
    }

    /// Makes a call on the receiver, step by step, as [`drive`](crate::drive) does, by the rule: whenever the host dies, [`State::open`] recovers it. `end` is shown what the
    /// call came to before that is stored, so that the host can put its section away and [`State::set_note`] what belongs to it.
    ///
    /// # Errors
    ///
    /// The file could not be written. Where that was a step's store, no further step is taken, and it counts as failed with all behind it. The receiver in memory tells the
    /// truth in any case, and so does the next opening.
    pub fn drive(&mut self, call: Call, take: impl FnMut(&Entry<'_>) -> Outcome) -> io::Result<Driven<Made>> {
        self.drive_to(call, take, |_, _| Ok(()))
    }

    /// The same, with `end`.
    ///
    /// # Errors
    ///
    /// As there, and those of `end`.
    pub fn drive_to(
        &mut self,
        call: Call,
        mut take: impl FnMut(&Entry<'_>) -> Outcome,
        end: impl FnOnce(&mut State, &Made) -> io::Result<()>,
    ) -> io::Result<Driven<Made>> {
        self.store(Some(call))?;
        let given = self.receiver.clone();
        let one_round = |script: &Script| {
            let mut next = given.clone();
            (call.make(&mut next, script), next)
        };
        let (at, mut fault) = (self.place(), None);
        let (file, receiver) = (&self.file, &mut self.receiver);
        let driven = stepped(
            one_round,
            |next| *receiver = next,
            |entry, step, read| {
                if fault.is_some() {
                    return Err(None);
                }
                let bytes = take(entry).read(entry)?;
                // The order is the rule's: the replies, then the step's own byte.
                let stored =
                    file.write_all_at(&bytes, at + (REPLIES + read) as u64).and_then(|()| file.write_all_at(&[0], at + step as u64));
                fault = stored.err();
                if fault.is_some() { Err(None) } else { Ok(bytes) }
            },
        );
        if let Some(fault) = fault {
            return Err(fault);
        }
        end(self, &driven.answer)?;
        self.keep()?;
        Ok(driven)
    }

    /// Stores the receiver, the note and the night's length, with no call under way.
    ///
    /// # Errors
    ///
    /// The file could not be written: it has what it had.
    pub fn keep(&mut self) -> io::Result<()> {
        self.store(None)?;
        if self.synced { self.sync() } else { Ok(()) }
    }

    /// Whether each call's end is synced, as it is from the opening on. A host that makes many calls a second may rather [`State::sync`] now and then.
    pub fn set_synced(&mut self, synced: bool) {
        self.synced = synced;
    }

    /// Hands what was stored to the disk.
    ///
    /// # Errors
    ///
    /// The disk did not take it.
    pub fn sync(&self) -> io::Result<()> {
        self.file.sync_data()
    }

    fn place(&self) -> u64 {
        (HEAD + LEAF * self.leaf) as u64
    }

    /// A new leaf over the one that does not count: the script, then all else with the checksum at its end. Behind a call all outcomes are 1.
    fn store(&mut self, call: Option<Call>) -> io::Result<()> {
        let (number, leaf) = (self.number + 1, 1 - self.leaf);
        let bytes = self.leaf_bytes(number, call);
        let at = (HEAD + LEAF * leaf) as u64;
        if self.number == 0 {
            self.file.write_all_at(&[&MAGIC[..], &FORMAT.to_le_bytes(), &[0; 4]].concat(), 0)?;
        }
        self.file.write_all_at(&bytes[..FIXED], at)?;
        self.file.write_all_at(&bytes[FIXED..], at + FIXED as u64)?;
        (self.number, self.leaf) = (number, leaf);
        Ok(())
    }

    fn leaf_bytes(&self, number: u64, call: Option<Call>) -> [u8; LEAF] {
        let mut leaf = [0; LEAF];
        let mut put = |at: usize, bytes: &[u8]| leaf[at..at + bytes.len()].copy_from_slice(bytes);
        put(0, &[1; Script::OUTCOMES]);
        put(FIXED, &number.to_le_bytes());
        for (at, words) in [(KEY, &self.key), (NOTE, &self.note)] {
            put(at, &[words.len() as u8]);
            put(at + 1, words);
        }
        put(NIGHT, &self.night.to_le_bytes());
        put(TUNER, self.receiver.tuner().as_bytes());
        put(DRIVER, self.receiver.driver().as_bytes());
        let table = self.receiver.table().as_bytes();
        put(TABLE, &(table.len() as u16).to_le_bytes());
        put(TABLE + 2, table);
        put(CALL, &call.map_or([0; Call::SIZE], Call::bytes));
        let sum = checksum(&leaf[FIXED..SUM]);
        leaf[SUM..].copy_from_slice(&sum.to_le_bytes());
        leaf
    }
}

/// A key or a note has at most so many bytes.
fn judged(words: &[u8]) -> io::Result<()> {
    if words.len() > State::WORDS { Err(io::ErrorKind::InvalidInput.into()) } else { Ok(()) }
}

/// FNV-1a.
fn checksum(bytes: &[u8]) -> u64 {
    bytes.iter().fold(0xcbf2_9ce4_8422_2325, |sum, byte| (sum ^ u64::from(*byte)).wrapping_mul(0x0100_0000_01b3))
}

fn read_up_to(file: &File, bytes: &mut [u8]) -> io::Result<usize> {
    let mut length = 0;
    while length < bytes.len() {
        match file.read_at(&mut bytes[length..], length as u64) {
            Ok(0) => break,
            Ok(more) => length += more,
            Err(error) if error.kind() == io::ErrorKind::Interrupted => {}
            Err(error) => return Err(error),
        }
    }
    Ok(length)
}

/// The leaf that counts, and which of the two it is. None in a file that its first host died in before it held a leaf: such a one is a beginning of the head and of zeros
/// or of a first leaf, and no transfer was made.
fn read(bytes: &[u8]) -> Result<Option<(Leaf, usize)>, StateError> {
    let head = [&MAGIC[..], &FORMAT.to_le_bytes(), &[0; 4]].concat();
    if bytes.len() > HEAD + 2 * LEAF || !bytes.iter().zip(&head).all(|(byte, wanted)| byte == wanted) {
        return Err(StateError::Form);
    }
    let whole = |at: usize| bytes.get(HEAD + LEAF * at..HEAD + LEAF * (at + 1)).and_then(Leaf::read).map(|leaf| (leaf, at));
    let counts = [whole(0), whole(1)].into_iter().flatten().max_by_key(|(leaf, _)| leaf.number);
    // Two leaves of which none is whole no host has left: one of them is never written.
    if counts.is_none() && bytes.len() > HEAD + LEAF { Err(StateError::Form) } else { Ok(counts) }
}

impl Leaf {
    /// `None` where the checksum is another, or something that it covers is none of what it should be.
    fn read(bytes: &[u8]) -> Option<Leaf> {
        let number = |at: usize| u64::from_le_bytes(core::array::from_fn(|k| bytes[at + k]));
        let words = |at: usize| bytes[at + 1..at + 1 + State::WORDS].get(..usize::from(bytes[at])).map(Vec::from);
        if number(SUM) != checksum(&bytes[FIXED..SUM]) {
            return None;
        }
        let length = usize::from(u16::from_le_bytes([bytes[TABLE], bytes[TABLE + 1]]));
        let table = Table::from_bytes(bytes[TABLE + 2..CALL].get(..length)?).ok()?;
        let tuner = Tuner::from_bytes(&bytes[TUNER..DRIVER]).ok()?;
        let driver = Driver::from_bytes(&bytes[DRIVER..TABLE]).ok()?;
        let call: &[u8; Call::SIZE] = bytes[CALL..].first_chunk()?;
        // What is neither 0 nor 1 was never stored: it is not known that the step was done.
        let outcomes: Vec<u8> = bytes[..REPLIES].iter().map(|byte| u8::from(*byte != 0)).collect();
        let call =
            if *call == [0; Call::SIZE] { None } else { Some((Call::from_bytes(call)?, Script::new(outcomes, &bytes[REPLIES..FIXED]))) };
        let receiver = Receiver::of(tuner, driver, table);
        Some(Leaf { number: number(FIXED), key: words(KEY)?, note: words(NOTE)?, night: number(NIGHT), receiver, call })
    }
}
