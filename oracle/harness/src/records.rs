//! The two records and their bytes (numbers low byte first, fields in document 01's order; since document 02, #106, without the attempted bytes, which
//! are the shadow).
use crate::page;
use original::tuners::r82xx::{SEEN_INIT, Seen};
use rusb::rec::Entry;

pub const TUNER: usize = 78;
pub const DRIVER: usize = 29;
/// The first register that has a shadow byte.
pub const FIRST: usize = 0x05;

#[derive(Debug, Clone, PartialEq)]
pub struct Tuner {
    pub kind: u8,
    pub address: u8,
    pub shadow: [u8; 27],
    pub nominal: u32,
    pub corrected: u32,
    pub lock: bool,
    /// The binary32's bits.
    pub gain: u32,
    pub intermediate: u64,
    pub notch: bool,
    pub doubtful: [bool; 27],
}

#[derive(Debug, Clone, PartialEq)]
pub struct Driver {
    pub board: u8,
    pub nominal: u32,
    pub ppm: i32,
    pub frequency: u64,
    pub rate: u32,
    /// Document 02, #104: the true rate. Document 01 knows none: there it stays as it was given, and is 0 in a fresh record.
    pub actual: u64,
}

/// Takes a record's bytes apart from the left.
struct Cursor<'a>(&'a [u8]);
impl Cursor<'_> {
    fn take<const N: usize>(&mut self) -> [u8; N] {
        let (head, rest) = self.0.split_at(N);
        self.0 = rest;
        head.try_into().unwrap()
    }
}

fn flag(byte: u8) -> Option<bool> {
    (byte <= 1).then_some(byte == 1)
}

impl Tuner {
    pub fn fresh(kind: u8, nominal: u32, address: u8) -> Self {
        Self {
            kind,
            address,
            shadow: SEEN_INIT,
            nominal,
            corrected: nominal,
            lock: false,
            gain: 0,
            intermediate: 2_300_000,
            notch: false,
            doubtful: [true; 27],
        }
    }

    pub fn bytes(&self) -> Vec<u8> {
        let mut all = vec![self.kind, self.address];
        all.extend(self.shadow);
        all.extend(self.nominal.to_le_bytes());
        all.extend(self.corrected.to_le_bytes());
        all.push(self.lock as u8);
        all.extend(self.gain.to_le_bytes());
        all.extend(self.intermediate.to_le_bytes());
        all.push(self.notch as u8);
        all.extend(self.doubtful.map(|mark| mark as u8));
        all
    }

    /// None where document 01 refuses the bytes with 1: another length, or a value that no record is written with.
    pub fn read(bytes: &[u8]) -> Option<Self> {
        if bytes.len() != TUNER {
            return None;
        }
        let mut at = Cursor(bytes);
        let [kind, address] = at.take();
        let shadow = at.take();
        let nominal = u32::from_le_bytes(at.take());
        let corrected = u32::from_le_bytes(at.take());
        let [lock] = at.take();
        let gain = u32::from_le_bytes(at.take());
        let intermediate = u64::from_le_bytes(at.take());
        let [notch] = at.take();
        let marks: [u8; 27] = at.take();
        if kind > 1 || nominal == 0 || corrected == 0 || marks.iter().any(|&mark| mark > 1) {
            return None;
        }
        if f32::from_bits(gain).is_nan() && gain != 0x7fc0_0000 {
            return None;
        }
        let doubtful = marks.map(|mark| mark == 1);
        Some(Self { kind, address, shadow, nominal, corrected, lock: flag(lock)?, gain, intermediate, notch: flag(notch)?, doubtful })
    }

    /// What the original's own state holds of this record.
    pub fn seen(&self) -> Seen {
        Seen {
            shadow: self.shadow,
            corrected: self.corrected as u64,
            lock: self.lock,
            gain: f32::from_bits(self.gain),
            intermediate: self.intermediate,
            notch: self.notch,
        }
    }

    /// This record after a run, by document 01: the original's state, its shadow as the original keeps it, and the marks worked out from the entries.
    pub fn after(&self, seen: &Seen, entries: &[Entry]) -> Self {
        let mut next = Self {
            shadow: seen.shadow,
            corrected: seen.corrected as u32,
            lock: seen.lock,
            gain: seen.gain.to_bits(),
            intermediate: seen.intermediate,
            notch: seen.notch,
            ..self.clone()
        };
        for (place, _, done) in attempts(entries) {
            next.doubtful[place] = !done;
        }
        next
    }
}

/// "A write of n bytes attempts n-1 registers upward from its first byte": each register's place, the byte sent to it, and whether the write was done.
pub fn attempts(entries: &[Entry]) -> impl Iterator<Item = (usize, u8, bool)> {
    let writes = entries.iter().filter(|entry| entry[0] == 2);
    writes.flat_map(|entry| (1..entry[3] as usize).map(|i| (entry[8] as usize + i - 1 - FIRST, entry[8 + i], entry[1] == 0)))
}

impl Driver {
    pub fn bytes(&self) -> Vec<u8> {
        let mut all = vec![self.board];
        all.extend(self.nominal.to_le_bytes());
        all.extend(self.ppm.to_le_bytes());
        all.extend(self.frequency.to_le_bytes());
        all.extend(self.rate.to_le_bytes());
        all.extend(self.actual.to_le_bytes());
        all
    }

    /// None as for the tuner; the driver's corrected reference is worked out, not kept, and must be in range too.
    pub fn read(bytes: &[u8]) -> Option<Self> {
        if bytes.len() != DRIVER {
            return None;
        }
        let mut at = Cursor(bytes);
        let [board] = at.take();
        let nominal = u32::from_le_bytes(at.take());
        let ppm = i32::from_le_bytes(at.take());
        let frequency = u64::from_le_bytes(at.take());
        let rate = u32::from_le_bytes(at.take());
        let actual = u64::from_le_bytes(at.take());
        if board > 1 || nominal == 0 || page::corrected(nominal, ppm).is_none() {
            return None;
        }
        Some(Self { board, nominal, ppm, frequency, rate, actual })
    }
}
