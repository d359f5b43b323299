//! Steps as a capture for Wireshark: a file of pcap with the link type 220, USB with the 64 bytes that Linux puts before each transfer (linktype "USB_LINUX_MMAPPED" of
//! tcpdump.org, Documentation/usb/usbmon.rst of Linux). Each control transfer is two records, its submission and its completion, by one number.
//!
//! What a section does not tell is not made up but for what the format asks for: bus 0 and device 1; a time that counts a microsecond for each record, and a wait's
//! milliseconds. The byte of the read behind a demodulator write is kept nowhere: its completion says that one byte came, and has none. A step that failed completes
//! with -EIO: the outcome does not tell why.
use pasetone::{Entry, EntryKind, Packet};

const MAGIC: u32 = 0xa1b2_c3d4;
const LINK: u32 = 220;
const HEADER: usize = 64;
const CONTROL: u8 = 2;
/// Linux's numbers: under way, and an input or output error.
const EINPROGRESS: i32 = -115;
const EIO: i32 = -5;

pub struct Pcap {
    bytes: Vec<u8>,
    transfers: u64,
    /// In microseconds.
    time: u64,
}

/// One record: a submission or a completion of a transfer.
struct Record<'a> {
    is_submitted: bool,
    packet: &'a Packet<'a>,
    status: i32,
    /// How many bytes are to go, or went.
    length: u32,
    /// Those of them that are known.
    data: &'a [u8],
}

impl Pcap {
    pub fn new() -> Pcap {
        let mut bytes = Vec::new();
        bytes.extend(MAGIC.to_le_bytes());
        // Version 2.4, no zone and no figures of accuracy, any length of a record.
        [2u16, 4].iter().for_each(|number| bytes.extend(number.to_le_bytes()));
        [0u32, 0, 0x4_0000, LINK].iter().for_each(|number| bytes.extend(number.to_le_bytes()));
        Pcap { bytes, transfers: 0, time: 0 }
    }

    /// What was written since it was last asked for.
    pub fn take(&mut self) -> Vec<u8> {
        std::mem::take(&mut self.bytes)
    }

    pub fn waiting(&self) -> usize {
        self.bytes.len()
    }

    /// A step with its transfers: its own comes first, behind it the read of a demodulator write.
    pub fn step(&mut self, entry: &Entry, packets: &[Packet]) {
        if entry.kind == EntryKind::Wait {
            self.time += 1000 * u64::from(entry.address);
        }
        for (at, packet) in packets.iter().enumerate() {
            self.transfers += 1;
            let asked = u32::from(packet.length);
            self.record(&Record { is_submitted: true, packet, status: EINPROGRESS, length: asked, data: packet.data });
            let (status, length) = if at == 0 && entry.failed { (EIO, 0) } else { (0, asked) };
            let data = if at == 0 && packet.is_read() && !entry.failed { entry.bytes } else { &[] };
            self.record(&Record { is_submitted: false, packet, status, length, data });
        }
    }

    fn record(&mut self, record: &Record) {
        let (seconds, micros) = (self.time / 1_000_000, (self.time % 1_000_000) as u32);
        let (caught, whole) = ((HEADER + record.data.len()) as u32, HEADER as u32 + record.length.max(record.data.len() as u32));
        // A record's own length is that of what went over the wire this way, so a read's submission has none.
        let whole = if record.carries() { whole } else { HEADER as u32 };
        [seconds as u32, micros, caught, whole].iter().for_each(|number| self.bytes.extend(number.to_le_bytes()));
        self.bytes.extend(self.transfers.to_le_bytes());
        let direction = if record.packet.is_read() { 0x80 } else { 0 };
        self.bytes.extend([if record.is_submitted { b'S' } else { b'C' }, CONTROL, direction, 1, 0, 0]);
        self.bytes.extend([if record.is_submitted { 0 } else { b'-' }, record.tag()]);
        self.bytes.extend(seconds.to_le_bytes());
        self.bytes.extend(micros.to_le_bytes());
        self.bytes.extend(record.status.to_le_bytes());
        self.bytes.extend(record.length.to_le_bytes());
        self.bytes.extend((record.data.len() as u32).to_le_bytes());
        self.bytes.extend(if record.is_submitted { record.packet.setup() } else { [0; 8] });
        // Interval, start frame, flags and descriptors: none of a control transfer.
        self.bytes.extend([0; 16]);
        self.bytes.extend(record.data);
        self.time += 1;
    }
}

impl Record<'_> {
    /// Whether data goes this way: a write's with the submission, a read's with the completion.
    fn carries(&self) -> bool {
        self.is_submitted != self.packet.is_read()
    }

    /// 0 where data follows; `<` and `>` where none goes this way, as Linux says it; `D` where it went and is not known.
    fn tag(&self) -> u8 {
        match (self.carries() && self.length > 0, self.packet.is_read()) {
            (true, _) if self.data.is_empty() => b'D',
            (true, _) => 0,
            (false, true) => b'<',
            (false, false) => b'>',
        }
    }
}

#[cfg(test)]
mod tests {
    use super::*;
    use pasetone::{Board, Driver, Script, Transcript, Tuner, TunerKind};

    /// A record as the format's page has it, read by places and not by what is above.
    struct Read {
        id: u64,
        kind: u8,
        endpoint: u8,
        tags: (u8, u8),
        time: u64,
        status: i32,
        length: usize,
        setup: Vec<u8>,
        data: Vec<u8>,
    }

    fn read(bytes: &[u8]) -> Vec<Read> {
        let four = |at: usize| u32::from_le_bytes(bytes[at..at + 4].try_into().unwrap()) as usize;
        assert_eq!((four(0), &bytes[4..8], four(20)), (0xa1b2c3d4, &[2, 0, 4, 0][..], 220));
        let (mut at, mut all) = (24, Vec::new());
        while at < bytes.len() {
            let (seconds, micros, caught, whole) = (four(at), four(at + 4), four(at + 8), four(at + 12));
            assert!(caught <= whole && caught >= 64);
            at += 16;
            let eight = |from: usize| u64::from_le_bytes(bytes[from..from + 8].try_into().unwrap());
            assert_eq!((eight(at + 16), four(at + 24)), (seconds as u64, micros));
            assert_eq!((bytes[at + 9], bytes[at + 11], four(at + 36)), (2, 1, caught - 64));
            all.push(Read {
                id: eight(at),
                kind: bytes[at + 8],
                endpoint: bytes[at + 10],
                tags: (bytes[at + 14], bytes[at + 15]),
                time: seconds as u64 * 1_000_000 + micros as u64,
                status: four(at + 28) as u32 as i32,
                length: four(at + 32),
                setup: bytes[at + 40..at + 48].to_vec(),
                data: bytes[at + 64..at + caught].to_vec(),
            });
            at += caught;
        }
        assert_eq!(at, bytes.len());
        all
    }

    fn written(transcript: &Transcript) -> Vec<u8> {
        let mut pcap = Pcap::new();
        for entry in transcript {
            let packets = entry.packets().unwrap();
            pcap.step(&entry, &Packet::all(&packets).collect::<Vec<_>>());
        }
        pcap.take()
    }

    /// Every step of a board's tuning fails once, and none: the submissions are the packets, each has its completion behind it, with what was read and how it ended.
    #[test]
    fn there_and_back() {
        for fail in (0..40).map(Some).chain([None]) {
            let mut tuner = Tuner::new(TunerKind::R828d, 0x74, 28_800_000).unwrap();
            let mut driver = Driver::new(Board::V4, 28_800_000, 0, 0, 0).unwrap();
            let mut outcomes = vec![0; Script::OUTCOMES];
            fail.into_iter().for_each(|step| outcomes[step] = 1);
            let script = Script::new(outcomes, (0..Script::REPLIES as u8).map(|byte| byte | 0x0a).collect::<Vec<_>>());
            let sent = driver.tune_board(&mut tuner, &Board::V4.table(), 102_300_000, &script).transcript;
            let records = read(&written(&sent));
            let packets: Vec<u8> =
                records.iter().filter(|one| one.kind == b'S').flat_map(|one| [&one.setup[..], &one.data].concat()).collect();
            assert_eq!(packets, sent.packets().unwrap());
            assert!(records.windows(2).all(|two| two[0].time < two[1].time));
            let mut pairs = records.chunks_exact(2);
            for entry in &sent {
                let own = entry.packets().unwrap();
                for (at, packet) in Packet::all(&own).enumerate() {
                    judge(&entry, at, &packet, pairs.next().unwrap());
                }
            }
            assert!(pairs.next().is_none() && records.len().is_multiple_of(2));
        }
    }

    fn judge(entry: &Entry, at: usize, packet: &Packet, pair: &[Read]) {
        let (begun, ended) = (&pair[0], &pair[1]);
        let (read, failed) = (packet.request_type == 0xc0, at == 0 && entry.failed);
        assert_eq!((begun.kind, ended.kind, begun.id), (b'S', b'C', ended.id));
        assert!([begun, ended].iter().all(|one| one.endpoint == if read { 0x80 } else { 0 }));
        assert_eq!((begun.status, ended.status), (-115, if failed { -5 } else { 0 }));
        assert_eq!((begun.tags.0, ended.tags.0, begun.length), (0, b'-', packet.length as usize));
        assert_eq!(ended.length, if failed { 0 } else { packet.length as usize });
        assert_eq!(begun.tags.1, if read { b'<' } else { 0 });
        // Of the read behind a write nobody kept the byte.
        let (tag, data) = match (read, failed, at) {
            (false, ..) => (b'>', &[][..]),
            (true, true, _) => (b'<', &[][..]),
            (true, false, 0) => (0, entry.bytes),
            (true, false, _) => (b'D', &[][..]),
        };
        assert_eq!((ended.tags.1, &ended.data[..]), (tag, data));
    }

    /// A wait passes its time and has no record.
    #[test]
    fn waits_pass() {
        let entry = Entry { kind: EntryKind::Wait, failed: false, target: 0, address: 250, bytes: &[] };
        let write = Entry { kind: EntryKind::I2cWrite, failed: false, target: 0x74, address: 0, bytes: &[5, 6] };
        let packets = write.packets().unwrap();
        let mut pcap = Pcap::new();
        pcap.step(&entry, &[]);
        pcap.step(&write, &Packet::all(&packets).collect::<Vec<_>>());
        assert_eq!(read(&pcap.take()).iter().map(|one| one.time).collect::<Vec<_>>(), [250_000, 250_001]);
    }
}
