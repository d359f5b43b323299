//! A receiver on Linux's usbfs: a [`Transport`] of crate `pasetone` by one system call a transfer, with no library beside it.
//!
//! ```no_run
//! use pasetone::{Board, Bus, Receiver, TunerKind};
//! use pasetone_usb::{Found, Kernel, Usb};
//!
//! let found = Found::all()?.into_iter().next().ok_or("no receiver is plugged in")?;
//! let mut bus = Bus::new(Usb::open(&found, Kernel::Refuse)?, std::thread::sleep);
//! let mut receiver = Receiver::new(TunerKind::R828d, 0x74, Board::V4, 28_800_000)?;
//! let answer = receiver.drive(|receiver, script| receiver.tune(102_300_000, script), |step| bus.take(step));
//! println!("{:?}, {}", answer.result, answer.lock);
//! # Ok::<(), Box<dyn std::error::Error>>(())
//! ```
//!
//! Never run on hardware so far: host/receiver/ simulates a receiver under these calls, and docs/RECEIVER.md says what was run on it.
#![deny(missing_docs, clippy::missing_errors_doc, clippy::undocumented_unsafe_blocks)]

mod ioctl;
mod list;

#[doc(hidden)]
pub use ioctl::NUMBERS;
pub use list::Found;
use pasetone::{Fault, Packet, Transport};
use std::fmt;
use std::fs::{File, OpenOptions, TryLockError};
use std::io;

/// The interface that takes control transfers.
const INTERFACE: u32 = 0;
/// Of a control transfer, in ms, as in src/device.rs.
const TIMEOUT: u32 = 1_000;

const EPIPE: i32 = 32;
const ENODEV: i32 = 19;
const ESHUTDOWN: i32 = 108;
const ETIMEDOUT: i32 = 110;
const EBUSY: i32 = 16;

/// What is done where a driver of the kernel holds the receiver.
#[derive(Clone, Copy, Debug, PartialEq, Eq, Hash)]
pub enum Kernel {
    /// It is told, and the receiver is left to it.
    Refuse,
    /// It is detached for good: handed back between two runs, it would write to the receiver.
    Detach,
}

/// Why a receiver was not opened.
#[derive(Debug)]
pub enum OpenError {
    /// A driver of the kernel holds it.
    Driver(String),
    /// Another program holds it.
    Taken,
    /// Its node was not opened, locked or claimed.
    Node(io::Error),
}

impl fmt::Display for OpenError {
    fn fmt(&self, f: &mut fmt::Formatter<'_>) -> fmt::Result {
        match self {
            OpenError::Driver(name) => write!(f, "the kernel's driver {name} holds the receiver"),
            OpenError::Taken => f.write_str("another program holds the receiver"),
            OpenError::Node(error) => write!(f, "the receiver's node: {error}"),
        }
    }
}

impl std::error::Error for OpenError {}

impl From<io::Error> for OpenError {
    fn from(error: io::Error) -> OpenError {
        match error.raw_os_error() {
            Some(EBUSY) => OpenError::Taken,
            _ => OpenError::Node(error),
        }
    }
}

/// Who has a receiver that is plugged in.
#[derive(Clone, Debug, PartialEq, Eq, Hash)]
pub enum Holder {
    /// Nobody.
    Nobody,
    /// A driver of the kernel.
    Driver(String),
    /// Another program.
    Program,
}

impl Found {
    /// Who has it: by sysfs, and where that says nothing by its node, which is opened for the question and closed again.
    ///
    /// # Errors
    ///
    /// Sysfs says nothing, and the node may not be opened, or is gone.
    pub fn holder(&self) -> io::Result<Holder> {
        let name = match self.bound() {
            Some(name) => Some(name),
            None => ioctl::driver(&OpenOptions::new().read(true).write(true).open(self.node())?, INTERFACE)?,
        };
        Ok(match name {
            None => Holder::Nobody,
            Some(name) if name == "usbfs" => Holder::Program,
            Some(name) => Holder::Driver(name),
        })
    }
}

/// An open receiver: its node, locked and with interface 0 claimed until this is dropped.
#[derive(Debug)]
pub struct Usb {
    node: File,
}

impl Usb {
    /// Opens a receiver, for this program alone.
    ///
    /// # Errors
    ///
    /// - [`OpenError::Driver`]: a driver of the kernel holds it, and is not to be detached.
    /// - [`OpenError::Taken`]: another program holds it.
    /// - [`OpenError::Node`]: the system refuses the node, for a missing right or because it is gone.
    pub fn open(found: &Found, kernel: Kernel) -> Result<Usb, OpenError> {
        let node = OpenOptions::new().read(true).write(true).open(found.node())?;
        match node.try_lock() {
            Err(TryLockError::WouldBlock) => return Err(OpenError::Taken),
            Err(TryLockError::Error(error)) => return Err(error.into()),
            Ok(()) => {}
        }
        match (ioctl::driver(&node, INTERFACE)?, kernel) {
            // A program that has claimed the interface by usbfs is told as a driver of this name.
            (Some(name), _) if name == "usbfs" => return Err(OpenError::Taken),
            (Some(name), Kernel::Refuse) => return Err(OpenError::Driver(name)),
            (Some(_), Kernel::Detach) => ioctl::disconnect(&node, INTERFACE)?,
            (None, _) => {}
        }
        ioctl::claim(&node, INTERFACE)?;
        Ok(Usb { node })
    }

    /// The open node.
    pub fn node(&self) -> &File {
        &self.node
    }

    /// Who holds interface 0 by the kernel's word: `usbfs` while this is open.
    ///
    /// # Errors
    ///
    /// Where the receiver is gone.
    pub fn holder(&self) -> io::Result<Option<String>> {
        ioctl::driver(&self.node, INTERFACE)
    }
}

/// The fault that the system's number tells.
fn fault(error: &io::Error) -> Fault {
    match error.raw_os_error() {
        Some(EPIPE) => Fault::Stall,
        Some(ETIMEDOUT) => Fault::Timeout,
        Some(ENODEV | ESHUTDOWN) => Fault::Unplugged,
        number => Fault::Other(number.unwrap_or(0)),
    }
}

impl Transport for Usb {
    fn control(&mut self, packet: &Packet<'_>, data: &mut [u8]) -> Result<usize, Fault> {
        let setup = (packet.request_type, packet.request, packet.value, packet.index);
        ioctl::control(&self.node, setup, data, TIMEOUT).map_err(|error| fault(&error))
    }
}
