//! What sections that were read so far leave for those behind them: the last attempt at each register of the chip, and at the eight of the demodulator that IF, rate
//! and spectrum stand by. The library's evidence of all sections is its evidence of one section with these attempts and the newer sections behind it, once these
//! write the oscillator's registers: so a long night is read window by window, and each byte once.
use pasetone::{Entry, EntryKind, Tuner};

/// The last attempt at a register.
#[derive(Clone, Copy, PartialEq, Eq, Debug, Default)]
pub enum Last {
    #[default]
    Never,
    Done(u8),
    /// In vain, or lost by a reset of the demodulator.
    Vain(u8),
}

/// The chip's first register that a record keeps, and how many there are.
const FIRST: u8 = 0x05;
const COUNT: usize = 27;

/// What the oscillator stands by; written, its lock is to be read anew.
const OSCILLATOR: [u8; 5] = [0x10, 0x12, 0x14, 0x15, 0x16];
/// Those of which the waiting for a lock writes none: the tries count from their last write.
const PLANNED: [u8; 4] = [0x10, 0x14, 0x15, 0x16];
/// Page 1: spectrum, IF, ratio.
const DEMODULATOR: [u16; 8] = [0x15, 0x19, 0x1a, 0x1b, 0x9f, 0xa0, 0xa1, 0xa2];

#[derive(Clone)]
pub struct Places {
    address: u8,
    chip: [Last; COUNT],
    demod: [Last; 8],
}

impl Places {
    pub fn new(address: u8) -> Places {
        Places { address, chip: [Last::Never; COUNT], demod: [Last::Never; 8] }
    }

    /// The chip's address, where it was not known before its first write.
    pub fn chip_is(&mut self, address: u8) {
        self.address = address;
    }

    pub fn see(&mut self, entry: &Entry) {
        match entry.kind {
            EntryKind::I2cWrite if entry.target == self.address => {
                for (register, byte) in entry.registers().filter(|(register, _)| Tuner::registers().any(|known| known == *register)) {
                    self.chip[usize::from(register - FIRST)] = if entry.failed { Last::Vain(byte) } else { Last::Done(byte) };
                }
            }
            EntryKind::I2cWrite | EntryKind::I2cRead => {}
            _ => self.demod(entry),
        }
    }

    fn demod(&mut self, entry: &Entry) {
        let shakes = shakes(entry);
        for (place, register) in self.demod.iter_mut().zip(DEMODULATOR) {
            if covers(entry, EntryKind::DemodWrite8, EntryKind::DemodWrite16, 1, register) {
                let byte = entry.bytes[usize::from(register - entry.address)];
                *place = if entry.failed || shakes { Last::Vain(byte) } else { Last::Done(byte) };
            } else if shakes {
                *place = Last::Vain(0);
            }
        }
    }

    fn chip(&self, register: u8) -> Last {
        self.chip[usize::from(register - FIRST)]
    }

    /// How many of the chip's registers are doubtful: never written, or last written in vain. The second number: how many were never written.
    pub fn doubtful(&self) -> (usize, usize) {
        let never = self.chip.iter().filter(|last| **last == Last::Never).count();
        (never + self.chip.iter().filter(|last| matches!(last, Last::Vain(_))).count(), never)
    }

    /// The PLL's divider by its register, where that is sure.
    pub fn divider(&self) -> Option<u32> {
        if let Last::Done(byte) = self.chip(0x10) { Some(2 << (byte >> 5)) } else { None }
    }

    /// One section of one-register writes that leaves the same last attempts.
    pub fn section(&self) -> Vec<u8> {
        let chip = OSCILLATOR.iter().filter_map(|register| {
            let (byte, failed) = told(self.chip(*register))?;
            Some([2, failed, self.address, 2, 0, 0, 0, 0, *register, byte, 0, 0, 0, 0, 0, 0])
        });
        closed(chip.flatten().chain(self.demod_writes()).collect())
    }

    /// The same of the demodulator alone: behind other sections it says nothing of a lock.
    pub fn demod_section(&self) -> Vec<u8> {
        closed(self.demod_writes().collect())
    }

    fn demod_writes(&self) -> impl Iterator<Item = u8> {
        let writes = self.demod.iter().zip(DEMODULATOR).filter_map(|(last, register)| {
            let (byte, failed) = told(*last)?;
            let [low, high] = register.to_le_bytes();
            Some([4, failed, 1, 1, low, high, 0, 0, byte, 0, 0, 0, 0, 0, 0, 0])
        });
        writes.flatten()
    }
}

/// Entries with their trailer.
fn closed(mut section: Vec<u8>) -> Vec<u8> {
    let distance = section.len() as u32;
    section.extend((distance / 16).to_le_bytes());
    section.extend(distance.to_le_bytes());
    section
}

fn told(last: Last) -> Option<(u8, u8)> {
    match last {
        Last::Never => None,
        Last::Done(byte) => Some((byte, 0)),
        Last::Vain(byte) => Some((byte, 1)),
    }
}

/// Whether a write of 8 or 16 bits covers a register of a page or block.
fn covers(entry: &Entry, one: EntryKind, two: EntryKind, target: u8, register: u16) -> bool {
    let (first, register) = (usize::from(entry.address), usize::from(register));
    (entry.kind == one || entry.kind == two) && entry.target == target && (first..first + entry.bytes.len()).contains(&register)
}

/// A write after which no register of the demodulator is sure: its soft reset, its power, or one that is another register on the wire.
fn shakes(entry: &Entry) -> bool {
    let is_demod = matches!(entry.kind, EntryKind::DemodWrite8 | EntryKind::DemodWrite16);
    let is_astray = is_demod && (entry.target > 15 || usize::from(entry.address) + entry.bytes.len() > 256);
    is_astray
        || covers(entry, EntryKind::DemodWrite8, EntryKind::DemodWrite16, 1, 0x01)
        || covers(entry, EntryKind::BlockWrite8, EntryKind::BlockWrite16, 2, 0x3000)
}

/// Whether it names a register that the tries are counted from.
pub fn plans(entry: &Entry, address: u8) -> bool {
    entry.kind == EntryKind::I2cWrite && entry.target == address && entry.registers().any(|(register, _)| PLANNED.contains(&register))
}

/// Whether it may change what is known of the oscillator or its lock.
pub fn touches(entry: &Entry, address: u8) -> bool {
    let is_status = entry.kind == EntryKind::I2cRead && entry.bytes.len() == 3;
    entry.target == address && (is_status || entry.registers().any(|(register, _)| OSCILLATOR.contains(&register)))
}

/// Whether a step is a tuning's own: one that writes the PLL or the filter before it by itself. Initialise and reload write all registers, some at once.
pub fn tunes(entry: &Entry, address: u8) -> bool {
    let mut registers = entry.registers();
    let is_own = registers.next().is_some_and(|(register, _)| PLANNED.contains(&register) || register == 0x17);
    entry.target == address && is_own && registers.next().is_none()
}

#[cfg(test)]
mod tests {
    use super::*;
    use crate::files::sections::alone;
    use pasetone::{Transcript, evidence};

    struct Random(u64);

    impl Random {
        fn below(&mut self, bound: u64) -> u64 {
            self.0 = self.0.wrapping_mul(6_364_136_223_846_793_005).wrapping_add(1_442_695_040_888_963_407);
            (self.0 >> 33) % bound
        }

        fn of<T: Copy>(&mut self, some: &[T]) -> T {
            some[self.below(some.len() as u64) as usize]
        }

        /// An entry of any kind, near the registers that count: failed writes, writes astray, resets, another chip's, statuses of any length.
        fn entry(&mut self) -> [u8; 16] {
            let (kind, failed) = (self.of(&[1u8, 2, 2, 2, 2, 3, 3, 4, 4, 4, 5, 5, 6, 7, 8, 9]), u8::from(self.below(4) == 0));
            let chip = self.of(&[0x74, 0x74, 0x74, 0x34]);
            let register = self.of(&[0u16, 1, 0x14, 0x15, 0x18, 0x19, 0x1a, 0x1b, 0x9e, 0x9f, 0xa0, 0xa1, 0xa2, 0xff, 0x100, 0x119]);
            let (target, count, address) = match kind {
                1 => (0, 1, 0),
                2 => (chip, 1 + self.below(8) as u8, 0),
                3 => (chip, self.of(&[1, 3, 3, 3, 5]), 0),
                4 | 5 => (self.of(&[0, 1, 1, 1, 1, 16, 17]), kind - 3, register),
                6 | 7 => (self.of(&[1, 2, 2]), kind - 5, self.of(&[0x2fff, 0x3000, 0x3001, 0x3004])),
                8 => (2, 1, 0x3001),
                _ => (0, 0, 2),
            };
            let mut entry = [0; 16];
            entry[..4].copy_from_slice(&[kind, failed, target, count]);
            entry[4..6].copy_from_slice(&address.to_le_bytes());
            for at in 0..usize::from(count) {
                entry[8 + at] = self.below(256) as u8;
            }
            match kind {
                1 => entry[8] &= 1,
                2 => entry[8] = self.of(&[0x00, 0x05, 0x0c, 0x0f, 0x10, 0x11, 0x12, 0x13, 0x14, 0x15, 0x16, 0x17, 0x1c, 0xfe]),
                3 | 8 if failed == 1 => entry[8..].fill(0),
                9 => entry[1] = 0,
                _ => {}
            }
            entry
        }

        fn section(&mut self) -> Vec<u8> {
            let count = self.below(7) as u32;
            let mut section: Vec<u8> = (0..count).flat_map(|_| self.entry()).collect();
            section.extend(count.to_le_bytes());
            section.extend((16 * count).to_le_bytes());
            section
        }
    }

    /// Every answer by the section of last attempts and a window is the library's of the whole history, at every section of random histories; and a register is
    /// doubtful where the library's restore list has it not.
    #[test]
    fn a_window_says_what_the_whole_says() {
        let (mut random, mut told) = (Random(38), std::collections::HashSet::new());
        for _ in 0..2_000 {
            let (mut whole, mut places, mut before, mut window) = (Vec::new(), Places::new(0x74), None, Vec::new());
            let mut touching: Vec<u8> = Vec::new();
            for _ in 0..1 + random.below(24) {
                let section = random.section();
                whole.extend_from_slice(&section);
                let (_, transcript) = Transcript::read(&section).unwrap();
                if transcript.iter().any(|entry| plans(&entry, 0x74)) {
                    (before, window, touching) = (Some(places.section()), Vec::new(), Vec::new());
                }
                window.extend_from_slice(&section);
                if transcript.iter().any(|entry| touches(&entry, 0x74)) {
                    touching.extend_from_slice(&section);
                }
                transcript.iter().for_each(|entry| places.see(&entry));
                let all = evidence(&whole, 0x74, 28_800_000, 28_799_914).unwrap();
                if let Some(before) = &before {
                    assert_eq!(evidence(&[before, &window[..]].concat(), 0x74, 28_800_000, 28_799_914), Ok(all));
                    // A long window without those that touch neither oscillator nor lock: what they sent to the demodulator is summed up behind the others.
                    let folded = [before, &touching[..], &places.demod_section()].concat();
                    assert_eq!(evidence(&folded, 0x74, 28_800_000, 28_799_914), Ok(all));
                }
                // By the last attempts alone everything but the waiting for a lock.
                let summed = evidence(&places.section(), 0x74, 28_800_000, 28_799_914).unwrap();
                assert_eq!(pasetone::Evidence { lock: all.lock, tries: all.tries, ..summed }, all);
                let sure: usize = Transcript::restore(&whole, 0x74).unwrap().iter().map(|entry| entry.registers().count()).sum();
                assert_eq!(places.doubtful().0, COUNT - sure);
                told.insert((all.oscillator.sure().is_some(), all.offset.sure().is_some(), all.rate.sure().is_some(), all.lock));
            }
        }
        // The histories have met most of what there is to be told.
        assert!(told.len() > 12, "{told:?}");
    }

    #[test]
    fn a_tuning_is_known_by_its_own_steps() {
        let of = |bytes: &[u8]| {
            let mut entry = [0; 16];
            entry[..4].copy_from_slice(&[2, 0, 0x74, bytes.len() as u8]);
            entry[8..8 + bytes.len()].copy_from_slice(bytes);
            let (_, transcript) = Transcript::read(&alone(&entry)).map(|(before, read)| (before.len(), read)).unwrap();
            let entry = transcript.get(0).unwrap();
            (plans(&entry, 0x74), tunes(&entry, 0x74))
        };
        assert_eq!(of(&[0x14, 1]), (true, true));
        assert_eq!(of(&[0x17, 1]), (false, true));
        // As initialise and reload write them.
        assert_eq!(of(&[0x13, 1, 2]), (true, false));
        assert_eq!(of(&[0x15, 1, 2, 3]), (true, false));
        assert_eq!(of(&[0x00]), (false, false));
        assert_eq!(of(&[0x12, 1]), (false, false));
    }
}
