use crate::raw::Told as _;
use crate::{Error, raw};
use alloc::string::String;
use alloc::vec::Vec;
use core::fmt::{self, Write};

const ENTRY: usize = 16;
const TRAILER: usize = 8;

/// The room of a call with at most this many entries.
pub(crate) const fn room_for(entries: usize) -> usize {
    ENTRY * entries + TRAILER
}

/// Most bytes of packets that an entry becomes, and fewest that come back as one.
const MOST_PACKET_BYTES: usize = 18;
const LEAST_PACKET: usize = 8;

/// Most writes of a restore list.
const MOST_RESTORED: usize = 14;

/// The bytes that a call wrote at the start of a slice of this length: its value says how many.
fn lent(most: usize, call: impl FnOnce(raw::BytesMut, usize) -> raw::Reply) -> Result<Vec<u8>, Error> {
    let mut out = alloc::vec![0; most];
    let written = call(out.as_mut_ptr(), out.len()).result()?;
    out.truncate(written as usize);
    Ok(out)
}

/// What a step is.
#[derive(Clone, Copy, Debug, PartialEq, Eq, Hash)]
pub enum EntryKind {
    /// 1: the I2C repeater, opened (1) or closed (0).
    Repeater,
    /// 2: a write to the chip on I2C: a register, then bytes for it and the ones above it.
    I2cWrite,
    /// 3: a read from the chip on I2C: raw bytes.
    I2cRead,
    /// 4: a write of 8 bits to the demodulator.
    DemodWrite8,
    /// 5: a write of 16 bits to the demodulator, high byte first.
    DemodWrite16,
    /// 6: a write of 8 bits to a block.
    BlockWrite8,
    /// 7: a write of 16 bits to a block, high byte first.
    BlockWrite16,
    /// 8: a read of a byte from a block.
    BlockRead,
    /// 9: a wait; the address holds the milliseconds.
    Wait,
}

impl EntryKind {
    fn of(number: u8) -> EntryKind {
        match number {
            1 => EntryKind::Repeater,
            2 => EntryKind::I2cWrite,
            3 => EntryKind::I2cRead,
            4 => EntryKind::DemodWrite8,
            5 => EntryKind::DemodWrite16,
            6 => EntryKind::BlockWrite8,
            7 => EntryKind::BlockWrite16,
            8 => EntryKind::BlockRead,
            9 => EntryKind::Wait,
            other => unreachable!("the reader accepts no entry of kind {other}"),
        }
    }

    /// Document 01's number.
    pub fn number(self) -> u8 {
        self as u8 + 1
    }
}

/// What it is, without what it does.
impl fmt::Display for EntryKind {
    fn fmt(&self, f: &mut fmt::Formatter<'_>) -> fmt::Result {
        f.write_str(match self {
            EntryKind::Repeater => "repeater",
            EntryKind::I2cWrite => "I2C write",
            EntryKind::I2cRead => "I2C read",
            EntryKind::DemodWrite8 => "demod write of 8 bits",
            EntryKind::DemodWrite16 => "demod write of 16 bits",
            EntryKind::BlockWrite8 => "block write of 8 bits",
            EntryKind::BlockWrite16 => "block write of 16 bits",
            EntryKind::BlockRead => "block read",
            EntryKind::Wait => "wait",
        })
    }
}

/// One step of a call.
#[derive(Clone, Copy, Debug, PartialEq, Eq, Hash)]
pub struct Entry<'a> {
    /// What the step is.
    pub kind: EntryKind,
    /// Whether it failed.
    pub failed: bool,
    /// The chip's address on I2C, the demodulator's page, or the block; 0 for a repeater and a wait.
    pub target: u8,
    /// The register of a demodulator or block access; a wait's milliseconds; else 0.
    pub address: u16,
    /// The bytes written or read: zeros for a read that failed, none for a wait.
    pub bytes: &'a [u8],
}

impl<'a> Entry<'a> {
    /// The registers that a write to the chip on I2C names, each with its byte; none of any other step. Numbers past 0xff do not wrap: such bytes name nothing.
    ///
    /// ```
    /// use pasetone::{Script, Transcript, Tuner, TunerKind};
    ///
    /// let sent = Tuner::new(TunerKind::R828d, 0x74, 28_800_000)?.reload(&Script::all_done()).transcript;
    /// let list = Transcript::restore(sent.bytes(), 0x74)?;
    /// let held: Vec<(u8, u8)> = list.iter().flat_map(|entry| entry.registers()).collect();
    /// assert_eq!((held.len(), held[0], held[26]), (27, (0x05, 0x83), (0x1f, 0xc0)));
    /// # Ok::<(), pasetone::Error>(())
    /// ```
    pub fn registers(&self) -> impl Iterator<Item = (u8, u8)> + use<'a> {
        let bytes = if self.kind == EntryKind::I2cWrite { self.bytes } else { &[] };
        let (first, data) = bytes.split_first().map_or((0, bytes), |(first, data)| (*first, data));
        (first..=u8::MAX).zip(data.iter().copied())
    }

    /// The most data bytes of a step.
    pub const MOST: usize = 8;

    /// The USB control transfers of this step alone, as [`Transcript::packets`] has them: a wait has none, a write to the demodulator that is not failed has the
    /// read of page 0x0a behind it. [`Packet::all`](crate::Packet::all) walks them.
    ///
    /// ```
    /// use pasetone::{Script, Tuner, TunerKind};
    ///
    /// let sent = Tuner::new(TunerKind::R828d, 0x74, 28_800_000)?.reload(&Script::all_done()).transcript;
    /// let packets: Vec<u8> = sent.iter().flat_map(|step| step.packets().unwrap()).collect();
    /// assert_eq!(packets, sent.packets()?);
    /// # Ok::<(), pasetone::Error>(())
    /// ```
    ///
    /// # Errors
    ///
    /// - [`Error::Section`] (12): no step of a call has these fields.
    /// - [`Error::Expansion`] (15): a demod register above 0xff, a page above 15, or block 0 or 6.
    pub fn packets(&self) -> Result<Vec<u8>, Error> {
        if self.bytes.len() > Entry::MOST {
            return Err(Error::Section);
        }
        let mut section = alloc::vec![0; room_for(1)];
        section[..4].copy_from_slice(&[self.kind.number(), u8::from(self.failed), self.target, self.bytes.len() as u8]);
        section[4..6].copy_from_slice(&self.address.to_le_bytes());
        section[8..8 + self.bytes.len()].copy_from_slice(self.bytes);
        section[ENTRY] = 1;
        section[ENTRY + 4] = ENTRY as u8;
        Transcript { section }.packets()
    }

    /// What the step does, in words, without how it ended.
    ///
    /// ```
    /// use pasetone::{Script, Tuner, TunerKind};
    ///
    /// let answer = Tuner::new(TunerKind::R828d, 0x74, 28_800_000)?.set_bandwidth(2_048_000, &Script::all_done());
    /// assert_eq!(answer.transcript.get(1).unwrap().words(), "I2C write 0x74: 0x0a <- d8");
    /// # Ok::<(), pasetone::Error>(())
    /// ```
    pub fn words(&self) -> String {
        // Nothing here fails: a String takes every text.
        self.what().unwrap_or_default()
    }

    fn what(&self) -> Result<String, fmt::Error> {
        let mut line = String::new();
        let (target, address) = (self.target, self.address);
        let first = self.bytes.first().copied().unwrap_or(0);
        let mut shown = self.bytes;
        match self.kind {
            EntryKind::Repeater => line += if first == 0 { "repeater closes" } else { "repeater opens" },
            EntryKind::I2cWrite => write!(line, "I2C write 0x{target:02x}: 0x{first:02x}")?,
            EntryKind::I2cRead => write!(line, "I2C read  0x{target:02x}: {} bytes", self.bytes.len())?,
            EntryKind::DemodWrite8 | EntryKind::DemodWrite16 => write!(line, "demod write, page {target}: 0x{address:04x}")?,
            EntryKind::BlockWrite8 | EntryKind::BlockWrite16 => write!(line, "block write, block {target}: 0x{address:04x}")?,
            EntryKind::BlockRead => write!(line, "block read, block {target}: 0x{address:04x}")?,
            EntryKind::Wait => write!(line, "wait {address} ms")?,
        }
        // The first byte of a write to the chip is the register; a write of it alone says where a read starts. A failed read has nothing to show.
        match self.kind {
            EntryKind::Repeater | EntryKind::Wait => return Ok(line),
            EntryKind::I2cWrite if shown.len() < 2 => {
                line += " (read from there)";
                return Ok(line);
            }
            EntryKind::I2cWrite => shown = &shown[1..],
            EntryKind::I2cRead | EntryKind::BlockRead if self.failed => return Ok(line),
            _ => {}
        }
        line += if matches!(self.kind, EntryKind::I2cRead | EntryKind::BlockRead) { " ->" } else { " <-" };
        for byte in shown {
            write!(line, " {byte:02x}")?;
        }
        Ok(line)
    }
}

/// The step in words, and how it ended from column 51 on: what `pasetone show` prints of it.
///
/// ```
/// use pasetone::{Script, Tuner, TunerKind};
///
/// let mut tuner = Tuner::new(TunerKind::R828d, 0x74, 28_800_000)?;
/// let answer = tuner.set_bandwidth(2_048_000, &Script::all_done().failing(1)?);
/// let lines: Vec<String> = answer.transcript.iter().map(|entry| entry.to_string()).collect();
/// assert_eq!(lines[0], "repeater opens                                     done");
/// assert_eq!(lines[1], "I2C write 0x74: 0x0a <- d8                         FAILED");
/// # Ok::<(), pasetone::Error>(())
/// ```
impl fmt::Display for Entry<'_> {
    fn fmt(&self, f: &mut fmt::Formatter<'_>) -> fmt::Result {
        write!(f, "{:<50} {}", self.what()?, if self.failed { "FAILED" } else { "done" })
    }
}

/// The steps that a call took: a section, checked by the library's own reader. Where no step was taken there is none, and it has no bytes.
#[derive(Clone, Default, PartialEq, Eq)]
pub struct Transcript {
    section: Vec<u8>,
}

/// The entries in words.
impl fmt::Debug for Transcript {
    fn fmt(&self, f: &mut fmt::Formatter<'_>) -> fmt::Result {
        struct Words<'a>(Entry<'a>);
        impl fmt::Debug for Words<'_> {
            fn fmt(&self, f: &mut fmt::Formatter<'_>) -> fmt::Result {
                write!(f, "{}{}", self.0.what()?, if self.0.failed { " FAILED" } else { "" })
            }
        }
        f.write_str("Transcript ")?;
        f.debug_list().entries(self.iter().map(Words)).finish()
    }
}

impl Transcript {
    /// The section in which `bytes` end, and what stands before it.
    ///
    /// ```
    /// let (before, transcript) = pasetone::Transcript::read(&[7, 0, 0, 0, 0, 0, 0, 0, 0]).unwrap();
    /// assert_eq!(before, [7]);
    /// assert_eq!(transcript.len(), 0);
    /// assert_eq!(pasetone::Transcript::read(&[7]).unwrap_err().number(), 12);
    /// ```
    ///
    /// # Errors
    ///
    /// - [`Error::Section`] (12): the bytes end in no section.
    pub fn read(bytes: &[u8]) -> Result<(&[u8], Transcript), Error> {
        let (before, rest) = bytes.split_at(Transcript::start(bytes)?);
        Ok((before, Transcript { section: rest.to_vec() }))
    }

    /// Where the section in which `bytes` end begins: how many bytes stand before it. So a file of sections end to end is walked from its end
    /// without a copy.
    ///
    /// ```
    /// let two_of_no_entries = [0; 16];
    /// assert_eq!(pasetone::Transcript::start(&two_of_no_entries), Ok(8));
    /// assert_eq!(pasetone::Transcript::start(&two_of_no_entries[..8]), Ok(0));
    /// assert_eq!(pasetone::Transcript::start(&[]).unwrap_err().number(), 12);
    /// ```
    ///
    /// # Errors
    ///
    /// - [`Error::Section`] (12): the bytes end in no section.
    pub fn start(bytes: &[u8]) -> Result<usize, Error> {
        // SAFETY: see raw.rs; the slice is only read.
        let section = unsafe { raw::pasetone_read_section(bytes.as_ptr(), bytes.len()) };
        match Error::of(section.refusal, 0) {
            Some(error) => Err(error),
            None => Ok(section.start as usize),
        }
    }

    /// The room that a call has written its section of `count` entries into.
    pub(crate) fn of_room(mut room: Vec<u8>, count: u32) -> Transcript {
        let length = if count == 0 { 0 } else { room_for(count as usize) };
        room.truncate(length);
        Transcript { section: room }
    }

    /// The section's bytes, its trailer included: what [`Transcript::read`] takes. Where no step was taken there are none.
    pub fn bytes(&self) -> &[u8] {
        &self.section
    }

    /// The steps as USB control transfers, as the driver in Rust sends them: 8-byte setup packets, each with the data of a write. A demod write that was done has
    /// the read of page 0x0a after it; a wait is nothing. Where no step was taken there are none.
    ///
    /// ```
    /// let written = pasetone::demod::write_reg_direct(1, 0x15, 0x05, &pasetone::Script::all_done()).transcript;
    /// let packets = written.packets()?;
    /// assert_eq!(packets, [0x40, 0, 0x20, 0x15, 0x11, 0, 1, 0, 0x05, 0xc0, 0, 0x20, 0x01, 0x0a, 0, 1, 0]);
    /// assert_eq!(pasetone::Transcript::of_packets(&packets)?, written);
    /// # Ok::<(), pasetone::Error>(())
    /// ```
    ///
    /// # Errors
    ///
    /// - [`Error::Expansion`] (15): an entry has a demod register above 0xff, a page above 15, or block 0 or 6.
    pub fn packets(&self) -> Result<Vec<u8>, Error> {
        if self.section.is_empty() {
            return Ok(Vec::new());
        }
        // SAFETY: see raw.rs; the section is only read, and `out` is another slice.
        lent(MOST_PACKET_BYTES * self.len(), |out, n| unsafe { raw::pasetone_expand(self.section.as_ptr(), self.section.len(), out, n) })
    }

    /// The steps whose packets these are, without waits, outcomes and read data: each write and read as if it was done, a read's data zeros. A repeater entry comes
    /// back as the demod write that it became.
    ///
    /// # Errors
    ///
    /// - [`Error::Expansion`] (15): no section has these packets.
    pub fn of_packets(packets: &[u8]) -> Result<Transcript, Error> {
        // SAFETY: see raw.rs; the packets are only read, and `out` is another slice.
        let section = lent(room_for(packets.len() / LEAST_PACKET), |out, n| unsafe {
            raw::pasetone_read_packets(packets.as_ptr(), packets.len(), out, n)
        })?;
        Ok(Transcript { section })
    }

    /// Where sections end to end, oldest first, left the registers 0x05..0x1f of the chip at `address`: the fewest I2C writes of at most seven registers
    /// that name each one whose last write was done, with its byte, and no other. Sent behind an open repeater with every write done, they leave those registers
    /// of any chip as the sections did. No bytes have no sections: the list of no writes.
    ///
    /// ```
    /// use pasetone::{Script, Transcript, Tuner, TunerKind};
    /// let mut tuner = Tuner::new(TunerKind::R828d, 0x74, 28_800_000)?;
    /// let mut day = Vec::new();
    /// for hz in [2_048_000, 900_001, 2_400_000] {
    ///     day.extend_from_slice(tuner.set_bandwidth(hz, &Script::all_done()).transcript.bytes());
    /// }
    /// let list = Transcript::restore(&day, 0x74)?;
    /// assert_eq!(list.iter().map(|entry| entry.words()).collect::<Vec<_>>(), ["I2C write 0x74: 0x0a <- d8"]);
    /// # Ok::<(), pasetone::Error>(())
    /// ```
    ///
    /// # Errors
    ///
    /// - [`Error::Section`] (12): some of the bytes are no section.
    pub fn restore(sections: &[u8], address: u8) -> Result<Transcript, Error> {
        // SAFETY: see raw.rs; the sections are only read, and `out` is another slice.
        let section =
            lent(room_for(MOST_RESTORED), |out, n| unsafe { raw::pasetone_restore(sections.as_ptr(), sections.len(), address, out, n) })?;
        Ok(Transcript { section })
    }

    /// How many entries there are.
    pub fn len(&self) -> usize {
        self.section.len().saturating_sub(TRAILER) / ENTRY
    }

    /// Whether there is none.
    pub fn is_empty(&self) -> bool {
        self.len() == 0
    }

    /// Entry `index`.
    pub fn get(&self, index: usize) -> Option<Entry<'_>> {
        (index < self.len()).then(|| entry(&self.section[ENTRY * index..ENTRY * (index + 1)]))
    }

    /// All entries in order.
    pub fn iter(&self) -> Entries<'_> {
        Entries::of(&self.section[..ENTRY * self.len()])
    }
}

impl<'a> IntoIterator for &'a Transcript {
    type Item = Entry<'a>;
    type IntoIter = Entries<'a>;

    fn into_iter(self) -> Entries<'a> {
        self.iter()
    }
}

/// The entries of a [`Transcript`] in order.
#[derive(Clone, Debug)]
pub struct Entries<'a> {
    rest: core::slice::ChunksExact<'a, u8>,
}

impl<'a> Entries<'a> {
    /// Entries that the reader has accepted, without their trailer.
    pub(crate) fn of(bytes: &'a [u8]) -> Entries<'a> {
        Entries { rest: bytes.chunks_exact(ENTRY) }
    }
}

impl<'a> Iterator for Entries<'a> {
    type Item = Entry<'a>;

    fn next(&mut self) -> Option<Entry<'a>> {
        self.rest.next().map(entry)
    }

    fn size_hint(&self) -> (usize, Option<usize>) {
        self.rest.size_hint()
    }
}

impl ExactSizeIterator for Entries<'_> {}

fn entry(bytes: &[u8]) -> Entry<'_> {
    Entry {
        kind: EntryKind::of(bytes[0]),
        failed: bytes[1] != 0,
        target: bytes[2],
        address: u16::from_le_bytes([bytes[4], bytes[5]]),
        bytes: &bytes[8..8 + bytes[3] as usize],
    }
}
