//! Every call with every transfer failing in every way, each from the same start; then the way back: reload, and the same call again.
use crate::calls::{CALLS, Call};
use crate::file::Simulated;
use crate::held::{Tally, Told, call as held};
use crate::host::{Host, Lie, fault, fresh};
use pasetone::{Answer, Driven, Fault, Receiver, TunerKind};
use pasetone_usb::Found;

/// The number of `reload` in `CALLS`.
pub const RELOAD: usize = 8;
const UNPLUGGED: u64 = 8;

/// A receiver that stands on its first station, and the host of it.
pub struct Start {
    pub chip: Simulated,
    pub whole: Vec<u8>,
    pub host: Host,
    pub receiver: Receiver,
    pub told: Told,
}

/// What it starts from, with the receiver closed: another process opens it.
pub struct Still {
    pub whole: Vec<u8>,
    pub receiver: Receiver,
}

impl Start {
    pub fn closed(self) -> Still {
        Still { whole: self.whole, receiver: self.receiver }
    }

    /// Its PLL has its lock read at the try `settle`.
    pub fn new(found: &Found, kind: TunerKind, settle: u64, lie: Lie) -> Start {
        let chip = Simulated::open(found.number);
        chip.set("settle", settle);
        chip.set("gone", 0);
        chip.set("fails_at", u64::MAX);
        chip.set("odds", 0);
        let mut host = Host::open(found, fresh(kind), lie);
        assert!(host.bring_up(), "a receiver without faults is brought up");
        let mut told = Told::default();
        told.in_step();
        Start { whole: chip.whole(), receiver: host.receiver.clone(), chip, host, told }
    }

    fn back(&mut self) -> Told {
        self.chip.back(&self.whole);
        self.host.receiver = self.receiver.clone();
        self.told.clone()
    }

    /// One call, and all that is held of it.
    pub fn make(&mut self, call: &Call, told: &mut Told, tally: &mut Tally) -> Driven<Answer<u64>> {
        let from = self.chip.get("sent");
        let driven = self.host.make(call.make);
        // What is still to land lands, if a right host has waited for it: any call of usbfs lets it.
        let _ = self.host.bus.transport().holder();
        held(tally, &self.chip, told, (call, from), &self.host.receiver, &driven);
        driven
    }
}

/// How many transfers the call has where nothing fails.
pub fn length(start: &mut Start, call: &Call, tally: &mut Tally) -> u64 {
    let mut told = start.back();
    let from = start.chip.get("sent");
    let _ = start.make(call, &mut told, tally);
    (start.chip.get("sent") - from) as u64
}

fn one(start: &mut Start, call: &Call, (number, way): (u64, u64), tally: &mut Tally) {
    let mut told = start.back();
    start.chip.set("fails_at", start.chip.get("sent") as u64 + number);
    start.chip.set("fails_by", way);
    let driven = start.make(call, &mut told, tally);
    if way == UNPLUGGED {
        let again = start.host.make(CALLS[RELOAD].make);
        tally.that(fault(&again) == Some(Fault::Unplugged), "a receiver that is gone is not told as such", call.name);
        return;
    }
    // The read behind a demodulator write may fail, and nothing is the worse for it.
    let _ = start.make(&CALLS[RELOAD], &mut told, tally);
    let again = start.make(call, &mut told, tally);
    let refused_alike = again.result.is_ok() || again.cause.is_none();
    tally.that(driven.result == again.result || refused_alike, "the same call again is not done", call.name);
    tally.that(
        start.host.receiver.tuner().doubtful().next().is_none(),
        "a register is doubtful behind a reload and the same call again",
        call.name,
    );
}

/// Every transfer of every call, in the ways from 1 to 8; `stride` leaves some out.
pub fn run(found: &Found, kind: TunerKind, settle: u64, lie: Lie, stride: usize) -> Tally {
    let (mut tally, mut start) = (Tally::default(), Start::new(found, kind, settle, lie));
    for call in &CALLS {
        let transfers = length(&mut start, call, &mut tally);
        for number in (0..transfers).step_by(stride) {
            for way in 1..=UNPLUGGED {
                one(&mut start, call, (number, way), &mut tally);
            }
        }
    }
    tally
}
