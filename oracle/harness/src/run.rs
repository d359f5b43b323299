//! Running the original over the recorder.
use crate::records::{Driver, Tuner};
use original::device::HardwareInterface;
use original::tuner::{BoardConfig, InputPath, Tuner as Calls, TunerType};
use original::tuners::r82xx::R82xx;
use original::{Device, Error};
use rusb::rec::{self, Entry};
use std::future::Future;
use std::sync::{Arc, LazyLock};
use std::task::{Context, Poll, Waker};

pub type Usb = Device<rusb::Context>;

/// The one device; it has no state, the recorder of the calling thread has.
pub fn usb() -> Arc<Usb> {
    static USB: LazyLock<Arc<Usb>> = LazyLock::new(|| Arc::new(Usb::open(0).expect("the stand-in opens")));
    USB.clone()
}

/// A call's result, and the entries it made.
pub fn run<T>(outcomes: &[u8], replies: &[u8], work: impl FnOnce() -> T) -> (T, Vec<Entry>) {
    rec::begin(outcomes, replies);
    let result = work();
    (result, entries())
}

pub fn entries() -> Vec<Entry> {
    rec::with(|r| r.entries.clone())
}

/// How many reply bytes the last run asked for.
pub fn taken() -> usize {
    rec::with(|r| r.taken)
}

pub fn kind(number: u8) -> TunerType {
    if number == 0 { TunerType::R820T } else { TunerType::R828D }
}

pub fn board(number: u8) -> BoardConfig {
    if number == 0 { BoardConfig::Generic } else { BoardConfig::BlogV4 }
}

pub fn path(number: u8) -> InputPath {
    [InputPath::Hf, InputPath::Vhf, InputPath::Uhf][number as usize]
}

/// The original's chip in the state of a record.
pub fn chip(record: &Tuner) -> R82xx {
    let hw: Arc<dyn HardwareInterface> = usb();
    let chip = R82xx::new(hw, kind(record.kind), record.address, record.nominal as u64);
    chip.put(&record.seen());
    chip
}

/// The original's driver over that chip.
pub fn driver(chip: Arc<R82xx>, of: u8, record: &Driver) -> original::Driver {
    let tuner: Arc<dyn Calls> = chip;
    original::Driver::see_make(usb(), tuner, kind(of), board(record.board), record.nominal, record.ppm, record.frequency, record.rate)
}

/// Nothing of the original ever waits here, so one poll is enough.
pub fn block_on<T>(work: impl Future<Output = T>) -> T {
    let mut work = std::pin::pin!(work);
    match work.as_mut().poll(&mut Context::from_waker(Waker::noop())) {
        Poll::Ready(value) => value,
        Poll::Pending => panic!("the original waits for something"),
    }
}

/// Document 01's number for an error of the original.
pub fn number(error: &Error) -> u8 {
    match error {
        Error::InvalidFrequency(_) => 2,
        Error::InvalidSampleRate(_) => 3,
        Error::Usb(_) => 11,
        other => panic!("document 01 has no number for {other:?}"),
    }
}
