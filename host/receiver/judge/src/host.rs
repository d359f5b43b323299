//! A host: its records, its bus, and what it makes of how a step ended. The wrong ones are to be found.
use crate::calls::{BRING_UP, Make};
use pasetone::{Answer, Board, Bus, Driven, Entry, EntryKind, Fault, Outcome, Receiver, TunerKind};
use pasetone_usb::{Found, Kernel, Usb};
use std::time::Duration;

/// What a wrong host does.
#[derive(Clone, Copy, Debug, PartialEq)]
pub enum Lie {
    Nothing,
    /// A short transfer is taken for done, with zeros for the bytes that did not come.
    Short,
    /// No answer is taken for done.
    Timeout,
    /// A refused transfer is taken for done.
    Stall,
    /// Nothing is waited for after a transfer without an answer.
    Hurry,
    /// A host that died goes on with the record before the call.
    Before,
    /// It goes on as if every step had been done.
    Bold,
    /// Its stored script is filled with 0.
    Filled,
    /// A step's outcome is stored before the step.
    Early,
    /// Replies are not stored.
    Mute,
}

impl Lie {
    pub fn of(word: &str) -> Option<Lie> {
        [Lie::Nothing, Lie::Short, Lie::Timeout, Lie::Stall, Lie::Hurry, Lie::Before, Lie::Bold, Lie::Filled, Lie::Early, Lie::Mute]
            .into_iter()
            .find(|lie| format!("{lie:?}").to_lowercase() == word)
    }

    fn hides(self, fault: &Fault) -> bool {
        matches!((self, fault), (Lie::Short, Fault::Short { .. }) | (Lie::Timeout, Fault::Timeout) | (Lie::Stall, Fault::Stall))
    }
}

pub struct Host {
    pub receiver: Receiver,
    pub bus: Bus<Usb, Box<dyn FnMut(Duration) + Send>>,
    pub lie: Lie,
}

pub fn fault(driven: &Driven<Answer<u64>>) -> Option<Fault> {
    driven.cause.as_ref().and_then(|cause| cause.downcast_ref().copied())
}

/// Takes a step, as this host does it.
pub fn take(bus: &mut Bus<Usb, Box<dyn FnMut(Duration) + Send>>, lie: Lie, step: &Entry<'_>) -> Outcome {
    let outcome = bus.take(step);
    match &outcome {
        Outcome::Failed(Some(cause)) if cause.downcast_ref().is_some_and(|fault| lie.hides(fault)) => match step.kind {
            EntryKind::I2cRead | EntryKind::BlockRead => Outcome::Read(vec![0; step.bytes.len()]),
            _ => Outcome::Done,
        },
        _ => outcome,
    }
}

pub fn fresh(kind: TunerKind) -> Receiver {
    let address = if kind == TunerKind::R820t { 0x34 } else { 0x74 };
    Receiver::new(kind, address, Board::V4, 28_800_000).expect("a receiver's records")
}

impl Host {
    pub fn open(found: &Found, receiver: Receiver, lie: Lie) -> Host {
        let wait = move |time: Duration| {
            if lie != Lie::Hurry {
                std::thread::sleep(time);
            }
        };
        let usb = Usb::open(found, Kernel::Refuse).expect("the receiver is there");
        Host { receiver, bus: Bus::new(usb, Box::new(wait)), lie }
    }

    pub fn make(&mut self, call: Make) -> Driven<Answer<u64>> {
        let (bus, lie) = (&mut self.bus, self.lie);
        self.receiver.drive(call, |step| take(bus, lie, step))
    }

    /// From power on to a first station; whether every call of it was done.
    pub fn bring_up(&mut self) -> bool {
        BRING_UP.iter().all(|call| self.make(*call).result.is_ok())
    }
}
