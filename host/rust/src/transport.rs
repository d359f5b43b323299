use crate::{Entry, EntryKind, Error, Outcome, Packet};
use core::fmt;
use core::time::Duration;

/// Why a control transfer was not done.
#[derive(Clone, Copy, Debug, PartialEq, Eq, Hash)]
pub enum Fault {
    /// The receiver refused it (EPIPE of Linux). It may have landed all the same, in any part.
    Stall,
    /// There was no answer in time. It may have landed, and it may land later.
    Timeout,
    /// The receiver is gone: no transfer will be done any more, and a chip without power holds nothing.
    Unplugged,
    /// Fewer bytes went than were asked for.
    Short {
        /// How many went.
        count: usize,
        /// How many were asked for.
        asked: usize,
    },
    /// The step has no packets of its own ([`Error::Expansion`]): nothing was sent.
    Packets(Error),
    /// Something else, by the system's own number.
    Other(i32),
}

impl fmt::Display for Fault {
    fn fmt(&self, f: &mut fmt::Formatter<'_>) -> fmt::Result {
        match self {
            Fault::Stall => f.write_str("the receiver refused the transfer (stall)"),
            Fault::Timeout => f.write_str("no answer in time (timeout)"),
            Fault::Unplugged => f.write_str("the receiver is gone (unplugged)"),
            Fault::Short { count, asked } => write!(f, "{count} of {asked} bytes (short)"),
            Fault::Packets(error) => write!(f, "no packets: {error}"),
            Fault::Other(number) => write!(f, "the system's error {number}"),
        }
    }
}

impl core::error::Error for Fault {}

/// What carries control transfers to a receiver.
pub trait Transport {
    /// One control transfer. `data` has as many bytes as the packet asks for: those of a write, or room for what is read. How many bytes went.
    ///
    /// # Errors
    ///
    /// Why none is known to have gone.
    fn control(&mut self, packet: &Packet<'_>, data: &mut [u8]) -> Result<usize, Fault>;
}

impl<T: Transport + ?Sized> Transport for &mut T {
    fn control(&mut self, packet: &Packet<'_>, data: &mut [u8]) -> Result<usize, Fault> {
        (**self).control(packet, data)
    }
}

/// The steps of a call on a [`Transport`], with the host's own way to wait: [`Bus::take`] is what the calls that drive are given.
///
/// ```
/// use pasetone::{Board, Bus, Fault, Packet, Receiver, Transport, TunerKind};
///
/// /// A receiver that takes each write and reads zeros, until it is unplugged.
/// struct Wire(usize);
/// impl Transport for Wire {
///     fn control(&mut self, _: &Packet, data: &mut [u8]) -> Result<usize, Fault> {
///         self.0 = self.0.checked_sub(1).ok_or(Fault::Unplugged)?;
///         Ok(data.len())
///     }
/// }
///
/// let mut receiver = Receiver::new(TunerKind::R828d, 0x74, Board::V4, 28_800_000)?;
/// let mut bus = Bus::new(Wire(9), |_| {});
/// let answer = receiver.drive(|receiver, script| receiver.tuner_mut().reload(script), |step| bus.take(step));
/// assert_eq!(answer.cause.as_ref().and_then(|cause| cause.downcast_ref()), Some(&Fault::Unplugged));
/// # Ok::<(), pasetone::Error>(())
/// ```
#[derive(Clone, Debug)]
pub struct Bus<T, W> {
    transport: T,
    wait: W,
    sent: usize,
}

impl<T: Transport, W: FnMut(Duration)> Bus<T, W> {
    /// What is waited after a transfer that had no answer: it may land as late as that, and over a newer write.
    pub const PAUSE: Duration = Duration::from_millis(40);

    /// A bus over this transport; `wait` is asked to wait where a step is a wait, and after a transfer without an answer.
    pub fn new(transport: T, wait: W) -> Bus<T, W> {
        Bus { transport, wait, sent: 0 }
    }

    /// What carries the transfers.
    pub fn transport(&mut self) -> &mut T {
        &mut self.transport
    }

    /// How many transfers were asked for so far.
    pub fn sent(&self) -> usize {
        self.sent
    }

    /// Takes a step: it is done exactly where every byte of its transfer went. A wait is waited for.
    ///
    /// A write to the demodulator that is done has a read of page 0x0a behind it, as the driver in Rust has it; what becomes of that one is not looked at.
    pub fn take(&mut self, step: &Entry<'_>) -> Outcome {
        if step.kind == EntryKind::Wait {
            (self.wait)(Duration::from_millis(step.address.into()));
            return Outcome::Done;
        }
        let packets = match step.packets() {
            Ok(packets) => packets,
            Err(error) => return Outcome::failed(Fault::Packets(error)),
        };
        let mut room = [0; Entry::MOST];
        let mut packets = Packet::all(&packets);
        let Some(first) = packets.next() else { return Outcome::failed(Fault::Packets(Error::Expansion)) };
        let outcome = match self.whole(&first, &mut room) {
            Err(fault) => return Outcome::failed(fault),
            Ok(read) if first.is_read() => Outcome::Read(read.to_vec()),
            Ok(_) => Outcome::Done,
        };
        for packet in packets {
            let _ = self.whole(&packet, &mut room);
        }
        outcome
    }

    /// A transfer of which every byte went; the bytes of a read.
    fn whole<'a>(&mut self, packet: &Packet<'_>, room: &'a mut [u8; Entry::MOST]) -> Result<&'a [u8], Fault> {
        let asked = usize::from(packet.length);
        let data = room.get_mut(..asked).ok_or(Fault::Packets(Error::Expansion))?;
        data.fill(0);
        data[..packet.data.len()].copy_from_slice(packet.data);
        self.sent += 1;
        match self.transport.control(packet, data) {
            Ok(count) if count == asked => Ok(data),
            Ok(count) => Err(Fault::Short { count, asked }),
            Err(fault) => {
                if fault == Fault::Timeout {
                    (self.wait)(Self::PAUSE);
                }
                Err(fault)
            }
        }
    }
}
