use crate::{Answer, Driver, Entry, EntryKind, Script, Transcript, TuneAnswer, Tuner};
use alloc::boxed::Box;
use alloc::format;
use alloc::sync::Arc;
use alloc::vec::Vec;
use core::ops::Deref;

/// Why a step failed, in the host's own words: any error, or a text.
pub type Cause = Arc<dyn core::error::Error + Send + Sync>;

/// What became of a step on the receiver. A [`Result`] becomes one by [`Into`]: what a write ends with, or a read with its bytes.
#[derive(Clone, Debug)]
#[must_use = "it says how the step ended"]
pub enum Outcome {
    /// It was done. A read says [`Outcome::Read`] instead.
    Done,
    /// It was done, and read these bytes, as many as its entry has. Of a step that is no read the bytes are not looked at.
    Read(Vec<u8>),
    /// It failed, for this cause where one is told: [`Driven::cause`] hands it back. So did a read that gave another number of bytes than its entry has, or
    /// none: what the missing ones are, nobody knows.
    Failed(Option<Cause>),
}

impl<E: Into<Box<dyn core::error::Error + Send + Sync>>> From<Result<(), E>> for Outcome {
    fn from(result: Result<(), E>) -> Outcome {
        result.map_or_else(Outcome::failed, |()| Outcome::Done)
    }
}

impl<E: Into<Box<dyn core::error::Error + Send + Sync>>> From<Result<Vec<u8>, E>> for Outcome {
    fn from(result: Result<Vec<u8>, E>) -> Outcome {
        result.map_or_else(Outcome::failed, Outcome::Read)
    }
}

impl Outcome {
    /// It failed, and this is why.
    pub fn failed(cause: impl Into<Box<dyn core::error::Error + Send + Sync>>) -> Outcome {
        Outcome::Failed(Some(Arc::from(cause.into())))
    }

    /// The bytes read, none for a step that is no read; or why it failed.
    pub(crate) fn read(self, entry: &Entry<'_>) -> Result<Vec<u8>, Option<Cause>> {
        let is_read = matches!(entry.kind, EntryKind::I2cRead | EntryKind::BlockRead);
        let given = match self {
            Outcome::Failed(cause) => return Err(cause),
            Outcome::Read(bytes) => bytes,
            Outcome::Done => Vec::new(),
        };
        if !is_read {
            Ok(Vec::new())
        } else if given.len() == entry.bytes.len() {
            Ok(given)
        } else {
            let text = format!("the host gave {} bytes of a read of {}", given.len(), entry.bytes.len());
            Err(Some(Arc::from(Box::<dyn core::error::Error + Send + Sync>::from(text))))
        }
    }
}

/// What a driven call hands back: its answer, which this can be read as, and why a step of it failed.
#[derive(Clone, Debug)]
#[must_use = "a call may be refused"]
pub struct Driven<A> {
    /// What the call answers.
    pub answer: A,
    /// The cause of the first step that failed, where the host told one.
    pub cause: Option<Cause>,
}

impl<A> Deref for Driven<A> {
    type Target = A;

    fn deref(&self) -> &A {
        &self.answer
    }
}

mod sealed {
    pub trait Sealed {}
    impl<T> Sealed for crate::Answer<T> {}
    impl Sealed for crate::TuneAnswer {}
    impl Sealed for crate::Fed {}
    impl Sealed for crate::Made {}
}

/// What a call with steps answers: [`Answer`] and [`TuneAnswer`], and [`Fed`](crate::Fed) a command of a stream.
pub trait Stepped: sealed::Sealed {
    /// The steps taken.
    fn transcript(&self) -> &Transcript;
}

impl<T> Stepped for Answer<T> {
    fn transcript(&self) -> &Transcript {
        &self.transcript
    }
}

impl Stepped for TuneAnswer {
    fn transcript(&self) -> &Transcript {
        &self.transcript
    }
}

/// The rounds of a call, whose answer comes with the records that it leaves: `keep` is given those of the last round.
///
/// While the host takes a step nobody knows how it will end, and the host may panic in it. So before each step `keep` is given the records that the call leaves
/// where this step and all behind it fail: whatever became of the step, they call no register sure that may hold another byte (theorem `crashed`).
pub(crate) fn rounds<A: Stepped, R>(
    call: impl Fn(&Script) -> (A, R),
    keep: impl FnMut(R),
    mut take: impl FnMut(&Entry<'_>) -> Outcome,
) -> Driven<A> {
    stepped(call, keep, |entry, _, _| take(entry).read(entry))
}

/// The same, where what takes a step is told its number and how many bytes were read before it, and answers with the bytes that it read.
pub(crate) fn stepped<A: Stepped, R>(
    call: impl Fn(&Script) -> (A, R),
    mut keep: impl FnMut(R),
    mut take: impl FnMut(&Entry<'_>, usize, usize) -> Result<Vec<u8>, Option<Cause>>,
) -> Driven<A> {
    let (mut script, mut taken, mut read, mut failed) = (Script::all_done(), 0, 0, None);
    loop {
        let (answer, records) = call(&script);
        let Some(entry) = answer.transcript().get(taken) else {
            keep(records);
            return Driven { answer, cause: failed.flatten() };
        };
        keep(call(&script.failing_from(taken)).1);
        match take(&entry, taken, read) {
            Err(cause) => {
                script.fail(taken);
                failed = failed.or(Some(cause));
            }
            Ok(bytes) => {
                script.reply(read, &bytes);
                read += bytes.len();
            }
        }
        taken += 1;
    }
}

/// Makes a call on a receiver, step by step: `take` is shown each step when its turn comes, takes it, and says what became of it. This one is for the calls
/// without a record, of [`demod`](crate::demod) and [`gpio`](crate::gpio); [`Tuner::drive`] and [`Driver::drive`] are for the others.
///
/// What step i is depends on the outcomes and replies before it alone. So `call` is made in rounds, each with what is known so far, and each tells the next
/// step; the last one's answer is handed back. `call` is a call of this crate with any arguments and the script that it is given.
///
/// An entry is shown as if it were done, a read with zeros, as many as it is to read. A step that fails ends the call, but for the closing of an open repeater.
/// A wait is shown too: `take` waits, and what it says of it is not looked at.
///
/// Where `take` panics, the records are those of a call whose step at hand and all behind it failed: what it did is doubtful, and [`Tuner::reload`] and the same call
/// again mend it.
///
/// ```
/// use pasetone::{Error, Outcome, demod, drive};
///
/// // A receiver that takes the first write and no other.
/// let mut taken = 0;
/// let answer = drive(demod::reset_demod, |_| {
///     taken += 1;
///     if taken == 1 { Outcome::Done } else { Outcome::failed("no answer") }
/// });
/// assert_eq!((answer.result, taken), (Err(Error::Step { index: 1 }), 2));
/// assert_eq!(answer.cause.unwrap().to_string(), "no answer");
/// ```
pub fn drive<A: Stepped>(call: impl Fn(&Script) -> A, take: impl FnMut(&Entry<'_>) -> Outcome) -> Driven<A> {
    rounds(|script| (call(script), ()), drop, take)
}

impl Tuner {
    /// Makes a call of this tuner on a receiver, step by step, as [`drive`] does. The record is updated when every step has been taken, as by the call itself.
    ///
    /// ```
    /// use pasetone::{EntryKind, Outcome, Tuner, TunerKind};
    ///
    /// // A receiver that does every step, with 0x0a in every byte: the first try finds a lock.
    /// let mut tuner = Tuner::new(TunerKind::R828d, 0x74, 28_800_000)?;
    /// let answer = tuner.drive(|tuner, script| tuner.set_frequency(100_000_000, script), |step| match step.kind {
    ///     EntryKind::I2cRead | EntryKind::BlockRead => Outcome::Read(vec![0x0a; step.bytes.len()]),
    ///     _ => Outcome::Done,
    /// });
    /// assert_eq!((answer.result, answer.lock.to_string().as_str()), (Ok(100_000_000), "locked at try 1"));
    /// assert!(tuner.has_lock());
    ///
    /// // A call without arguments is named alone. This receiver does nothing.
    /// let answer = tuner.drive(Tuner::reload, |_| Outcome::Failed(None));
    /// assert_eq!(answer.transcript.len(), 1);
    /// # Ok::<(), pasetone::Error>(())
    /// ```
    pub fn drive<A: Stepped>(&mut self, call: impl Fn(&mut Tuner, &Script) -> A, take: impl FnMut(&Entry<'_>) -> Outcome) -> Driven<A> {
        let given = self.clone();
        rounds(
            |script| {
                let mut next = given.clone();
                (call(&mut next, script), next)
            },
            |next| *self = next,
            take,
        )
    }
}

impl Driver {
    /// Makes a call of this driver and its tuner on a receiver, step by step, as [`drive`] does. Both records are updated when every step has been taken, as
    /// by the call itself.
    ///
    /// ```
    /// use pasetone::{Board, Driver, Outcome, Tuner, TunerKind};
    ///
    /// let mut tuner = Tuner::new(TunerKind::R828d, 0x74, 28_800_000)?;
    /// let mut driver = Driver::new(Board::V4, 28_800_000, 0, 0, 0)?;
    /// let table = Board::V4.table();
    /// let answer = driver.drive(
    ///     &mut tuner,
    ///     |driver, tuner, script| driver.set_sample_rate(tuner, &table, 2_048_000, script),
    ///     |_| Outcome::Done,
    /// );
    /// assert_eq!((answer.result, driver.rate()), (Ok(()), 2_048_000));
    /// # Ok::<(), pasetone::Error>(())
    /// ```
    pub fn drive<A: Stepped>(
        &mut self,
        tuner: &mut Tuner,
        call: impl Fn(&mut Driver, &mut Tuner, &Script) -> A,
        take: impl FnMut(&Entry<'_>) -> Outcome,
    ) -> Driven<A> {
        let given = (self.clone(), tuner.clone());
        rounds(
            |script| {
                let mut next = given.clone();
                (call(&mut next.0, &mut next.1, script), next)
            },
            |next| (*self, *tuner) = next,
            take,
        )
    }
}
