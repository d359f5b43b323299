//! What the larger calls send when all is done, to be held against what the Rust sends: a list of steps over a record, no
//! interface. The numbers come from document 01's formulas (page.rs). The register tables, masks and values are the
//! published Rust's, for document 01 refers to it for them; they are written out here a second time, not shared with it.
use crate::page;
use crate::records::{Driver, FIRST, Tuner};
use rusb::rec::Entry;

/// A record with the entries that changed it.
pub struct Line {
    pub tuner: Tuner,
    pub entries: Vec<Entry>,
}

impl Line {
    pub fn new(tuner: &Tuner) -> Self {
        Self { tuner: tuner.clone(), entries: Vec::new() }
    }
    fn put(&mut self, kind: u8, target: u8, address: u16, data: &[u8]) {
        let mut entry = [0; 16];
        (entry[0], entry[2], entry[3]) = (kind, target, data.len() as u8);
        entry[4..6].copy_from_slice(&address.to_le_bytes());
        entry[8..8 + data.len()].copy_from_slice(data);
        self.entries.push(entry);
    }
    fn repeater(&mut self, on: u8) {
        self.put(1, 0, 0, &[on]);
    }
    /// A write past the shadow.
    fn raw(&mut self, register: u8, byte: u8) {
        self.put(2, self.tuner.address, 0, &[register, byte]);
        let place = register as usize - FIRST;
        self.tuner.doubtful[place] = false;
    }
    /// "(old and not mask) or (value and mask)".
    fn mask(&mut self, register: u8, value: u8, mask: u8) {
        let byte = &mut self.tuner.shadow[register as usize - FIRST];
        *byte = *byte & !mask | value & mask;
        let byte = *byte;
        self.raw(register, byte);
    }
    /// The one-byte write of 0x00, then the read.
    fn status(&mut self, replies: &[u8]) {
        self.put(2, self.tuner.address, 0, &[0]);
        self.put(3, self.tuner.address, 0, replies);
    }
    fn wait(&mut self, ms: u16) {
        self.put(9, 0, ms, &[]);
    }
    fn demod(&mut self, page: u8, register: u16, bytes: &[u8]) {
        self.put(3 + bytes.len() as u8, page, register, bytes);
    }
}

/// Row start in MHz, open_d, multiplexer, tracking filter.
#[rustfmt::skip]
const ROWS: [(u64, u8, u8, u8); 21] = [
    (0, 8, 0x02, 0xdf), (50, 8, 0x02, 0xbe), (55, 8, 0x02, 0x8b), (60, 8, 0x02, 0x7b), (65, 8, 0x02, 0x69), (70, 8, 0x02, 0x58), (75, 0, 0x02, 0x44),
    (80, 0, 0x02, 0x44), (90, 0, 0x02, 0x34), (100, 0, 0x02, 0x34), (110, 0, 0x02, 0x24), (120, 0, 0x02, 0x24), (140, 0, 0x02, 0x14), (180, 0, 0x02, 0x13),
    (220, 0, 0x02, 0x13), (250, 0, 0x02, 0x11), (280, 0, 0x02, 0x00), (310, 0, 0x41, 0x00), (450, 0, 0x41, 0x00), (588, 0, 0x40, 0x00), (650, 0, 0x40, 0x00),
];

fn mux(line: &mut Line, hz: u64) {
    let (_, open, rf, filter) = ROWS.into_iter().rfind(|row| hz >= row.0 * 1_000_000).unwrap();
    let open = if line.tuner.notch { 0 } else { open };
    #[rustfmt::skip]
    let writes = [
        (0x17, 0xa0, 0x30), (0x17, open, 0x08), (0x1a, rf, 0xc3), (0x1b, filter, 0xff), (0x10, 0x0b, 0x0b), (0x08, 0, 0x3f), (0x09, 0, 0x3f),
        (0x1d, 0x18, 0x38), (0x1c, 0x24, 0x04), (0x1e, 14, 0x1f), (0x1a, 0x20, 0x30),
    ];
    for (register, value, mask) in writes {
        line.mask(register, value, mask);
    }
}

/// Refusal (0 or 2) and the line after it.
pub fn tune(tuner: &Tuner, hz: u64, replies: &[u8]) -> (u8, Line) {
    let mut line = Line::new(tuner);
    let Some(lo) = hz.checked_add(tuner.intermediate).filter(|_| hz > 0) else { return (2, line) };
    line.repeater(1);
    mux(&mut line, hz);
    let found = page::pll(tuner.kind, tuner.corrected as u64, lo);
    if let Some(pll) = found {
        lock(&mut line, &pll, replies);
    }
    line.repeater(0);
    (if found.is_some() { 0 } else { 2 }, line)
}

fn lock(line: &mut Line, pll: &page::Pll, replies: &[u8]) {
    let mut divider = pll.m.trailing_zeros() as u8 - 1;
    line.mask(0x10, divider << 5, 0xe0);
    line.raw(0x14, pll.byte);
    line.raw(0x16, (pll.s >> 8) as u8);
    line.raw(0x15, pll.s as u8);
    line.mask(0x12, if pll.f == 0 { 8 } else { 0 }, 8);
    line.wait(2);
    line.status(&replies[..5]);
    let fine = replies[4].reverse_bits() >> 4 & 3;
    let power = 2 - line.tuner.kind;
    if fine != power {
        divider = if fine > power { divider.saturating_sub(1) } else { divider + 1 };
        line.mask(0x10, divider << 5, 0xe0);
    }
    line.tuner.lock = false;
    for attempt in 0..10 {
        let reply = &replies[5 + 3 * attempt..8 + 3 * attempt];
        line.status(reply);
        if reply[2].reverse_bits() & 0x40 != 0 {
            line.tuner.lock = true;
            line.mask(0x1a, 8, 8);
            return;
        }
        if attempt == 0 {
            line.mask(0x12, 0x06, 0xff);
        }
        line.wait(1);
    }
}

/// LNA, mixer, VGA of a gain index.
fn amplifiers(index: usize) -> (u8, u8, u8) {
    let half = index as u8 / 2;
    let mixer = if index < 16 { half.saturating_sub(1) } else { half - 1 };
    (15.min(index as u8), mixer, if index == 0 { 0 } else { mixer + 2 })
}

pub fn gain(tuner: &Tuner, index: usize) -> Line {
    let mut line = Line::new(tuner);
    let (lna, mixer, vga) = amplifiers(index);
    line.repeater(1);
    for (register, value, mask) in [(0x05, 0x10, 0x10), (0x07, 0, 0x10), (0x05, lna, 0x0f), (0x07, mixer, 0x0f), (0x0c, vga, 0x0f)] {
        line.mask(register, value, mask);
    }
    line.repeater(0);
    line.tuner.gain = page::step(index);
    line
}

pub fn intermediate(line: &mut Line, hz: u64) {
    line.tuner.intermediate = hz;
    let (low, high) = if hz >= 3_500_000 { (0x10, 0x6b) } else { (0x00, 0x80) };
    line.repeater(1);
    line.mask(0x0a, low, 0x70);
    line.mask(0x0b, high, 0xef);
    line.repeater(0);
}

fn bandwidth(line: &mut Line, hz: u32) {
    line.repeater(1);
    line.mask(
        0x0a,
        if hz <= 6_000_000 {
            8
        } else if hz <= 7_000_000 {
            6
        } else {
            0
        },
        0x0f,
    );
    line.repeater(0);
}

pub fn sample_rate(tuner: &Tuner, driver: &Driver, rate: u32) -> Line {
    let mut line = Line::new(tuner);
    let xtal = page::corrected(driver.nominal, driver.ppm).expect("a record's reference is in range");
    let hz = page::rate_if(rate, tuner.intermediate);
    intermediate(&mut line, hz as u64);
    bandwidth(&mut line, rate);
    line.demod(1, 0x01, &[0x14]);
    line.demod(1, 0x01, &[0x10]);
    let ratio = page::rate_ratio(rate, xtal).to_be_bytes();
    line.demod(1, 0x9f, &ratio[..2]);
    line.demod(1, 0xa1, &ratio[2..]);
    line.demod(1, 0x3f, &[0]);
    line.demod(1, 0x3e, &[0]);
    let [_, high, middle, low] = page::if_negative(hz, xtal).to_be_bytes();
    line.demod(1, 0x19, &[high]);
    line.demod(1, 0x1a, &[middle]);
    line.demod(1, 0x1b, &[low]);
    let inverted = page::plan(driver.board, driver.frequency).1 == 1;
    line.demod(1, 0x15, &[if inverted { 5 } else { 1 }]);
    line
}

/// The board path of R828D: GPIO 5 an output, its bit by the path, then the tuner's three registers. `read` is what the three GPIO reads answer.
fn board_path(line: &mut Line, path: u8, read: &[u8]) {
    let sent = [read[0] | 0x20, read[1] & !0x20, if path == 0 { read[2] & !0x20 } else { read[2] | 0x20 }];
    for (i, address) in [0x3003, 0x3004, 0x3001].into_iter().enumerate() {
        line.put(8, 2, address, &read[i..=i]);
        line.put(6, 2, address, &sent[i..=i]);
    }
    let (cable2, rest) = ((0x06, if path == 0 { 8 } else { 0 }, 0x08), (0x05, [0, 0x40, 0x20][path as usize], 0x60));
    line.repeater(1);
    for (register, value, mask) in if path == 0 { [cable2, rest] } else { [rest, cable2] } {
        line.mask(register, value, mask);
    }
    line.repeater(0);
}

/// The board tune when all is done (#113): refusal (0 or 2), and the line after it. `plan` is the tuner's Hz, then inverted, path, notch.
pub fn hop(tuner: &Tuner, plan: (u64, [u8; 3]), replies: &[u8]) -> (u8, Line) {
    let (hz, [inverted, path, notch]) = plan;
    let mut line = Line::new(&Tuner { notch: notch == 1, ..tuner.clone() });
    let mut rest = replies;
    if tuner.kind == 1 && path < 3 {
        board_path(&mut line, path, replies);
        rest = &replies[3..];
    }
    let (refusal, tuned) = tune(&line.tuner, hz, rest);
    line.tuner = tuned.tuner;
    line.entries.extend(tuned.entries);
    if refusal == 0 {
        line.demod(1, 0x15, &[if inverted == 1 { 5 } else { 1 }]);
    }
    (refusal, line)
}

/// The USB control transfers behind an entry: (request type, value, index, data, done). A done demod write is followed by
/// a read of page 0x0a.
pub fn transfers(entry: &Entry) -> Vec<(u8, u16, u16, Vec<u8>, bool)> {
    let [kind, outcome, target, n, low, high, ..] = *entry;
    let address = u16::from_le_bytes([low, high]);
    let (data, done, wide) = (entry[8..8 + n as usize].to_vec(), outcome == 0, target as u16);
    let demod = |page: u16, register: u16, data: Vec<u8>| {
        let mut all = vec![(0x40, register << 8 | 0x20, page | 0x10, data, done)];
        if done {
            all.push((0xc0, 0x0120, 0x000a, vec![0], true));
        }
        all
    };
    match kind {
        1 => demod(1, 1, vec![if data[0] == 1 { 0x18 } else { 0x10 }]),
        2 => vec![(0x40, wide, 0x0610, data, done)],
        3 => vec![(0xc0, wide, 0x0600, data, done)],
        4 | 5 => demod(wide, address, data),
        6 | 7 => vec![(0x40, address, wide << 8 | 0x10, data, done)],
        8 => vec![(0xc0, address, wide << 8, data, done)],
        _ => vec![],
    }
}
