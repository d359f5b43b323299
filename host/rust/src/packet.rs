use core::fmt;

const SETUP: usize = 8;

/// One control transfer of USB 2.0, as [`Transcript::packets`](crate::Transcript::packets) has it: the fields of its setup packet, and the data of a write.
#[derive(Clone, Copy, Debug, PartialEq, Eq, Hash)]
pub struct Packet<'a> {
    /// 0x40 of a write, 0xc0 of a read.
    pub request_type: u8,
    /// 0.
    pub request: u8,
    /// What the transfer is for, as the driver in Rust sends it.
    pub value: u16,
    /// The same.
    pub index: u16,
    /// How many bytes are written or read.
    pub length: u16,
    /// The bytes of a write; a read has none, they come back.
    pub data: &'a [u8],
}

impl<'a> Packet<'a> {
    /// The transfers of packets end to end. Bytes that are cut within a packet end the walk before it;
    /// [`Transcript::of_packets`](crate::Transcript::of_packets) judges whether they are a section's.
    ///
    /// ```
    /// use pasetone::{Packet, Script, demod};
    ///
    /// let packets = demod::write_reg_direct(1, 0x15, 0x05, &Script::all_done()).transcript.packets()?;
    /// let lines: Vec<String> = Packet::all(&packets).map(|packet| packet.to_string()).collect();
    /// assert_eq!(lines, ["40 00 20 15 11 00 01 00 | 05", "c0 00 20 01 0a 00 01 00"]);
    /// # Ok::<(), pasetone::Error>(())
    /// ```
    pub fn all(bytes: &'a [u8]) -> impl Iterator<Item = Packet<'a>> {
        let mut rest = bytes;
        core::iter::from_fn(move || {
            let (packet, behind) = Packet::first(rest)?;
            rest = behind;
            Some(packet)
        })
    }

    fn first(bytes: &'a [u8]) -> Option<(Packet<'a>, &'a [u8])> {
        let (setup, behind) = bytes.split_at_checked(SETUP)?;
        let number = |at: usize| u16::from_le_bytes([setup[at], setup[at + 1]]);
        let mut packet =
            Packet { request_type: setup[0], request: setup[1], value: number(2), index: number(4), length: number(6), data: &[] };
        let (data, behind) = behind.split_at_checked(if packet.is_read() { 0 } else { packet.length.into() })?;
        packet.data = data;
        Some((packet, behind))
    }

    /// Whether bytes come back.
    pub fn is_read(&self) -> bool {
        self.request_type & 0x80 != 0
    }

    /// The setup packet's 8 bytes.
    pub fn setup(&self) -> [u8; SETUP] {
        let ([v, w], [i, j], [l, m]) = (self.value.to_le_bytes(), self.index.to_le_bytes(), self.length.to_le_bytes());
        [self.request_type, self.request, v, w, i, j, l, m]
    }
}

/// The setup packet in hexadecimal, and a write's data behind a bar.
impl fmt::Display for Packet<'_> {
    fn fmt(&self, f: &mut fmt::Formatter<'_>) -> fmt::Result {
        let [first, rest @ ..] = self.setup();
        write!(f, "{first:02x}")?;
        rest.iter().try_for_each(|byte| write!(f, " {byte:02x}"))?;
        f.write_str(if self.data.is_empty() { "" } else { " |" })?;
        self.data.iter().try_for_each(|byte| write!(f, " {byte:02x}"))
    }
}
