//! Tuner and demodulator control of an RTL2832U receiver with an R820T or R828D tuner, after rtlsdr-next.
//!
//! The work is done by the library of crate `pasetone-sys`, written in Rattle with every function proved; this crate owns its records and lends its slices. Nothing
//! here talks to hardware. A call is given a record ([`Tuner`], [`Driver`]) and a [`Script`] that says how each step ends, and hands back an
//! [`Answer`]: the result and the [`Transcript`] of the steps taken.
//!
//! When a step fails ([`Error::Step`]), or the PLL cannot make a frequency, the steps taken before it stand. So a call updates its record
//! whenever it took steps, whatever its result is, and the record tells which registers are doubtful:
//!
//! ```
//! use pasetone::{Error, Script, Tuner, TunerKind};
//!
//! let mut tuner = Tuner::new(TunerKind::R828d, 0x74, 28_800_000)?;
//! tuner.initialize(&Script::all_done()).result?;
//! assert_eq!(tuner.doubtful().count(), 0);
//!
//! // The write of register 0x14 fails; the repeater is closed behind it.
//! let answer = tuner.set_frequency(100_000_000, &Script::all_done().failing(13)?);
//! assert_eq!(answer.result, Err(Error::Step { index: 13 }));
//! assert_eq!(answer.transcript.len(), 15);
//! assert_eq!(tuner.doubtful().collect::<Vec<_>>(), [0x14]);
//!
//! // Every register again: nothing is doubtful, and the chip has N of the new frequency and the sum of the old one. So the same call again.
//! tuner.reload(&Script::all_done()).result?;
//! assert_eq!(tuner.doubtful().count(), 0);
//! assert_eq!(tuner.set_frequency(100_000_000, &Script::all_done()).result, Ok(100_000_000));
//! # Ok::<(), Error>(())
//! ```
//!
//! The way back after a failed step: [`Tuner::reload`], then the same call again until it is done. What the call wrote to the demodulator, the GPIO or the
//! board's input a reload does not repair. A sample rate moves the IF: tune after it.
//!
//! # On a receiver
//!
//! A script says in advance how each step ends. A receiver says it when the step is taken: [`Tuner::drive`], [`Driver::drive`] and [`drive`] make any call
//! that way, and show each step to a closure when its turn comes. A [`Bus`] takes steps on a [`Transport`] of USB. A [`Receiver`] holds tuner, driver and table together. Commands that arrive over a line, chopped
//! anywhere, are fed to a [`Stream`].
//!
//! ```
//! use pasetone::{Entry, EntryKind, Error, Outcome, Tuner, TunerKind};
//!
//! /// What talks to the hardware.
//! struct Usb;
//! impl Usb {
//!     fn write(&mut self, step: &Entry) -> Result<(), std::io::Error> {
//!         # let _ = step;
//!         Ok(()) // by step.kind, step.target, step.address and step.bytes
//!     }
//!     fn read(&mut self, step: &Entry) -> Result<Vec<u8>, std::io::Error> {
//!         Ok(vec![0x0a; step.bytes.len()])
//!     }
//!     fn take(&mut self, step: &Entry) -> Outcome {
//!         match step.kind {
//!             EntryKind::I2cRead | EntryKind::BlockRead => self.read(step).into(),
//!             EntryKind::Wait => {
//!                 std::thread::sleep(std::time::Duration::from_millis(step.address.into()));
//!                 Outcome::Done
//!             }
//!             _ => self.write(step).into(),
//!         }
//!     }
//! }
//!
//! let (mut usb, mut tuner) = (Usb, Tuner::new(TunerKind::R828d, 0x74, 28_800_000)?);
//! let answer = tuner.drive(|tuner, script| tuner.set_frequency(100_000_000, script), |step| usb.take(step));
//! assert_eq!((answer.result, answer.lock.to_string().as_str()), (Ok(100_000_000), "locked at try 1"));
//! # Ok::<(), Error>(())
//! ```

#![no_std]
#![deny(missing_docs, clippy::missing_errors_doc, clippy::undocumented_unsafe_blocks)]

extern crate alloc;

use crate::raw::Told as _;
use core::fmt;

mod call;
pub mod demod;
mod driver;
mod error;
pub mod evidence;
pub mod gpio;
mod need;
mod packet;
mod parting;
mod pll;
mod raw;
mod receiver;
mod registers;
mod rounds;
mod script;
mod settings;
#[cfg(feature = "std")]
mod state;
mod stream;
mod table;
mod transcript;
mod transport;
mod tuner;

pub use call::{Call, Made};
pub use driver::{Board, Driver, Plan};
pub use error::Error;
pub use evidence::{Evidence, evidence};
pub use need::Need;
pub use packet::Packet;
pub use parting::{Part, Whose, parting};
pub use pll::PllPlan;
pub use receiver::Receiver;
pub use registers::{if_freq_regs, pack_fir, resample_regs, unpack_fir};
pub use rounds::{Cause, Driven, Outcome, Stepped, drive};
pub use script::Script;
pub use settings::{Settings, Settings2};
#[cfg(feature = "std")]
pub use state::{Cut, Found, State, StateError};
pub use stream::{Command, Fed, Stream};
pub use table::{Band, Table};
pub use transcript::{Entries, Entry, EntryKind, Transcript};
pub use transport::{Bus, Fault, Transport};
pub use tuner::{InputPath, Tuner, TunerKind};

/// What a call with steps hands back. Its record is updated already, also where `result` is an error and steps were taken.
#[derive(Clone, Debug, PartialEq)]
#[must_use = "a call may be refused"]
pub struct Answer<T> {
    /// The call's value, or why it was refused.
    pub result: Result<T, Error>,
    /// The steps taken, also where one of them failed.
    pub transcript: Transcript,
}

/// What [`Tuner::set_frequency`] and [`Driver::tune_board`] hand back: an [`Answer`], and how the waiting for a lock went.
#[derive(Clone, Debug, PartialEq)]
#[must_use = "a call may be refused"]
pub struct TuneAnswer {
    /// The Hz asked, or why it was refused. A tuning that did not lock is not refused.
    pub result: Result<u64, Error>,
    /// The steps taken, also where one of them failed.
    pub transcript: Transcript,
    /// The tries for a lock, also where a step failed: then those up to it.
    pub lock: Lock,
}

impl From<TuneAnswer> for Answer<u64> {
    fn from(answer: TuneAnswer) -> Answer<u64> {
        Answer { result: answer.result, transcript: answer.transcript }
    }
}

/// How a tuning's waiting for a lock went. It is told of this tuning alone: what the record says ([`Tuner::has_lock`]) stays as it was
/// where a tuning was refused, or cut before its waiting ended.
///
/// ```
/// use pasetone::{Script, Tuner, TunerKind};
///
/// let mut tuner = Tuner::new(TunerKind::R828d, 0x74, 28_800_000)?;
/// let answer = tuner.set_frequency(100_000_000, &Script::all_done().replying(13, 0x02)?);
/// assert_eq!(answer.lock.to_string(), "locked at try 3");
/// let answer = tuner.set_frequency(100_000_000, &Script::all_done());
/// assert_eq!((answer.result, answer.lock.to_string().as_str()), (Ok(100_000_000), "not locked after 10 tries"));
/// # Ok::<(), pasetone::Error>(())
/// ```
#[derive(Clone, Copy, Debug, Default, PartialEq, Eq, Hash)]
pub struct Lock {
    /// How many tries there were, at most ten: the three-byte reads of the transcript that were done. The one that reads the lock bit is the last.
    pub tries: u32,
    /// Whether a try read the lock bit.
    pub locked: bool,
}

impl fmt::Display for Lock {
    fn fmt(&self, f: &mut fmt::Formatter<'_>) -> fmt::Result {
        match self {
            Lock { tries, locked: true } => write!(f, "locked at try {tries}"),
            Lock { tries: 1, locked: false } => f.write_str("not locked after 1 try"),
            Lock { tries, locked: false } => write!(f, "not locked after {tries} tries"),
        }
    }
}

impl<T> Answer<T> {
    fn of(reply: raw::Reply, transcript: Transcript, value: impl FnOnce(u64) -> T) -> Answer<T> {
        Answer { result: reply.result().map(value), transcript }
    }
}

/// A call with at most this many entries, over room of its own.
fn in_room(entries: usize, call: impl FnOnce(&mut [u8]) -> raw::Reply) -> (raw::Reply, Transcript) {
    let mut room = alloc::vec![0; transcript::room_for(entries)];
    let reply = call(&mut room);
    (reply, Transcript::of_room(room, reply.count))
}

/// The library's version: major, minor, patch.
pub fn version() -> (u32, u32, u32) {
    // SAFETY: it takes nothing.
    let version = unsafe { raw::pasetone_version() };
    (version >> 16, (version >> 8) & 255, version & 255)
}
