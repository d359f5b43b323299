//! Which station a receiver stands on: the oscillator (43) and the recording's centre (44). Inputs only; standing.rs answers them.
use super::refused::{damaged_drivers, damaged_tuners};
use super::{MHZ, around, boards, built_in, plain, random_tuner};
use crate::case::Case;
use crate::dice::Dice;
use crate::records::{Driver, FIRST, Tuner};
use crate::standing::FIVE;
use crate::tables;

/// A record with these bytes in the five registers, nothing doubtful.
fn held(reference: u32, bytes: [u8; 5]) -> Tuner {
    let mut tuner = Tuner { doubtful: [false; 27], ..Tuner::fresh(1, reference, 0x74) };
    for (register, byte) in FIVE.iter().zip(bytes) {
        tuner.shadow[register - FIRST] = byte;
    }
    tuner
}

fn oscillator(tuner: &Tuner) -> Case {
    Case { tuner: tuner.bytes(), ..plain(43) }
}

fn centre(table: &[u8], frequency: u64, tuner: &Tuner) -> Case {
    let driver = Driver { board: 1, nominal: 28_800_000, ppm: 0, frequency, rate: 2_048_000, actual: 0 };
    Case { input: table.to_vec(), driver: driver.bytes(), tuner: tuner.bytes(), ..plain(44) }
}

pub fn standing(all: &mut Vec<Case>) {
    let mut dice = Dice(0x0073_7461_7469_6f6e);
    // 102.3 MHz with an IF of 2.3 MHz: m 32, N 58, S 7294.
    let usual = held(28_800_000, [0x8f, 0x06, 0x4b, 0x7e, 0x1c]);
    oscillators(all, &usual, &mut dice);
    centres(all, &usual, &mut dice);
}

fn oscillators(all: &mut Vec<Case>, usual: &Tuner, dice: &mut Dice) {
    all.extend([plain(43), oscillator(usual)]);
    // Every mark alone: the five refuse, the others do not.
    for place in 0..27 {
        let mut tuner = usual.clone();
        tuner.doubtful[place] = true;
        all.push(oscillator(&tuner));
    }
    for code in 0..8 {
        all.push(oscillator(&held(28_800_000, [code << 5 | 0x0f, 0x06, 0x4b, 0x7e, 0x1c])));
    }
    // The fraction on and off, and every bit of 0x12 alone.
    all.extend((0..8).map(|bit| oscillator(&held(28_800_000, [0x8f, 1 << bit, 0x4b, 0x7e, 0x1c]))));
    for reference in [1, 2, 999, 28_799_972, 28_800_000, u32::MAX] {
        for (setting, sum) in [(0x00, 0x00), (0x3f, 0xff), (0xc0, 0x01), (0xff, 0xff)] {
            all.push(oscillator(&held(reference, [0x0f, 0x00, setting, sum, sum])));
            all.push(oscillator(&held(reference, [0xef, 0x08, setting, sum, sum])));
        }
    }
    all.extend(damaged_tuners().into_iter().map(|tuner| Case { tuner, ..plain(43) }));
    all.extend((0..60).map(|_| oscillator(&Tuner { doubtful: [false; 27], ..random_tuner(dice) })));
}

fn centres(all: &mut Vec<Case>, usual: &Tuner, dice: &mut Dice) {
    let own = tables::bytes(&boards::own());
    all.push(plain(44));
    for (table, edges) in [
        (built_in(0), vec![0, 100 * MHZ, u64::MAX]),
        (built_in(1), vec![0, 2_200_000, 28_799_999, 102_300_000, 249_999_999]),
        (own.clone(), vec![9_999, 29_999_999, 100 * MHZ, 400 * MHZ, 500 * MHZ, 1_700 * MHZ, 1 << 63, u64::MAX]),
        (vec![], vec![102_300_000]),
    ] {
        all.extend(edges.into_iter().flat_map(around).map(|hz| centre(&table, hz, usual)));
    }
    // An IF that takes all, one more, and one that a downward shift pays for.
    for intermediate in [104_600_006, 104_600_007, 164_600_006, 164_600_007, u64::MAX] {
        for table in [&built_in(0), &own] {
            all.push(centre(table, 200 * MHZ, &Tuner { intermediate, ..usual.clone() }));
        }
    }
    // In their order: 1 of either record, 19, 20, 2.
    let doubtful = Tuner { doubtful: [true; 27], ..usual.clone() };
    for table in boards::malformed() {
        all.push(centre(&table, 200 * MHZ, usual));
    }
    all.extend([centre(&[0; 26], 0, &doubtful), centre(&own, 45 * MHZ, &doubtful), centre(&own, 45 * MHZ, usual)]);
    all.extend(damaged_tuners().into_iter().map(|tuner| Case { tuner, ..centre(&[0; 26], 0, usual) }));
    all.extend(damaged_drivers().into_iter().map(|driver| Case { driver, ..centre(&[0; 26], 0, &doubtful) }));
    for _ in 0..60 {
        let (table, frequency) = (boards::random_table(dice), dice.below(600 * MHZ));
        all.push(centre(&table, frequency, &Tuner { doubtful: [false; 27], ..random_tuner(dice) }));
    }
}
