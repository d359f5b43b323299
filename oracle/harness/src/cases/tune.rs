//! Tune: rows, dividers, N, F, repair, lock, failures, refusals.
use super::{MHZ, TUNED, around, at_every_step, plain, random, random_tuner, replies_for};
use crate::case::Case;
use crate::dice::Dice;
use crate::records::Tuner;

/// Tune so that lo and R are these; IF 0 and lock at the first try keep the run short.
fn at_lo(kind: u8, reference: u32, lo: u64, fine: u8) -> Case {
    let mut tuner = Tuner::fresh(kind, reference, 0x74);
    tuner.intermediate = lo.min(2_300_000);
    if tuner.intermediate == lo {
        tuner.intermediate = 0;
    }
    Case { a: lo - tuner.intermediate, tuner: tuner.bytes(), replies: replies_for(fine, Some(0), 0), ..plain(3) }
}

const ROWS: [u64; 20] = [50, 55, 60, 65, 70, 75, 80, 90, 100, 110, 120, 140, 180, 220, 250, 280, 310, 450, 588, 650];

const DIVIDERS: [u64; 7] = [27_656_250, 55_312_500, 110_625_000, 221_250_000, 442_500_000, 885_000_000, 1_800_000_000];

pub fn tune_boundaries(all: &mut Vec<Case>, dice: &mut Dice) {
    for (i, row) in ROWS.into_iter().enumerate() {
        for hz in around(row * MHZ) {
            let mut tuner = random_tuner(dice);
            (tuner.kind, tuner.corrected, tuner.intermediate, tuner.notch) = ((i % 2) as u8, 28_800_000, 2_300_000, false);
            all.push(Case { a: hz, tuner: tuner.bytes(), replies: replies_for(2 - (i % 2) as u8, Some(0), 0), ..plain(3) });
            if hz == row * MHZ && row <= 75 {
                tuner.notch = true;
                all.push(Case { tuner: tuner.bytes(), ..all.last().unwrap().clone() });
            }
        }
    }
    for (i, lo) in DIVIDERS.into_iter().enumerate() {
        for lo in around(lo) {
            all.push(at_lo((i % 2) as u8, 28_800_000, lo, 1));
        }
        all.push(at_lo(1 - (i % 2) as u8, 28_800_000, lo, 2));
    }
    // N at 63/64 on R820T, 127/128 on R828D, 12/13, where a steps, N 0; references too small for any lo.
    let whole =
        [(0, 16_000_000, 1_024_000_000), (1, 16_000_000, 1_024_000_000), (1, 8_000_000, 1_024_000_000), (0, 8_000_000, 1_024_000_000)];
    let low =
        [(1, 100_000_000, 1_300_000_000), (0, 100_000_000, 1_700_000_000), (1, 100_000_000, 885_000_000), (0, 4_294_967_295, 900_000_000)];
    for (kind, reference, lo) in whole.into_iter().chain(low) {
        all.extend(around(lo).map(|lo| at_lo(kind, reference, lo, 1)));
    }
    for reference in [1, 999, 1000, 6_899_999, 6_914_062, 13_828_125, 2_000_000_000] {
        all.push(at_lo(0, reference, 885_000_000, 1));
        all.push(at_lo(1, reference, 885_000_000, 1));
    }
    fractions(all);
}

/// F at 0, 1, 2 and at each quotient 2K/n and one above it: lo = 1,152 MHz has F 0 at R 28.8 MHz with m 2, N 40.
fn fractions(all: &mut Vec<Case>) {
    for offset in [0, 499, 500, 999, 1000, 1499, 1500] {
        all.push(at_lo(1, 28_800_000, 1_152_000_000 + offset, 1));
    }
    for bit in 1..=16 {
        let quotient = 57_600u64 >> bit;
        for f in [quotient, quotient + 1] {
            all.push(at_lo(bit % 2, 28_800_000, 1_152_000_000 + 500 * f, 1));
        }
    }
    all.push(at_lo(1, 28_800_000, 1_180_799_999, 1)); // the largest F of this N
    all.push(at_lo(1, 28_800_000, 102_300_000, 1));
    all.push(at_lo(1, 28_799_999, 1_152_000_000, 1)); // K is cut
}

pub fn tune_steps(all: &mut Vec<Case>, dice: &mut Dice) {
    // Divider repair down, none, up, for each divider (it saturates at m 2) and both kinds.
    for (i, lo) in [60, 30, 120, 230, 450, 900].into_iter().enumerate() {
        for fine in 0..4 {
            all.push(at_lo(((i + fine as usize) % 2) as u8, 28_800_000, lo * MHZ, fine));
        }
        all.push(at_lo(1, 28_800_000, lo * MHZ, 0));
        all.push(at_lo(0, 28_800_000, lo * MHZ, 3));
    }
    for attempt in 0..=10 {
        let mut tuner = random_tuner(dice);
        (tuner.kind, tuner.corrected, tuner.intermediate, tuner.lock) = ((attempt % 2) as u8, 28_800_000, 2_300_000, attempt % 3 == 0);
        let replies = replies_for(1, (attempt < 10).then_some(attempt), dice.byte());
        all.push(Case { a: 433 * MHZ, tuner: tuner.bytes(), replies, ..plain(3) });
    }
    all.extend(at_every_step(&plain(3)));
    // Lock at once, then a failure at the write of 0x1a, and at the closing.
    let quick = Case { replies: replies_for(0, Some(0), 0xff), ..plain(3) };
    for i in 20..25 {
        let mut cut = quick.clone();
        cut.outcomes[i] = 1;
        all.push(cut);
    }
    tune_refused(all);
}

/// PLL refusals: all done, with a failed closing, with a failed step; and hz past every bound.
fn tune_refused(all: &mut Vec<Case>) {
    let high = Case { a: 1_800 * MHZ, ..plain(3) };
    for i in 0..14 {
        let mut cut = high.clone();
        if i < 13 {
            cut.outcomes[i] = 1;
        }
        all.push(cut);
    }
    let mut both = high.clone();
    (both.outcomes[5], both.outcomes[6]) = (1, 1); // a step, and the closing that follows it
    all.push(both);
    let fits = u64::MAX - 2_300_000;
    let hz = [0, 1, 25_356_249, 25_356_250, fits, fits + 1, u64::MAX, (1 << 58) - 2_300_001, (1 << 58) - 2_300_000, 1 << 63];
    all.extend(hz.map(|a| Case { a, ..plain(3) }));
    let wraps = [(1u64 << 58) + 27_656_250 - 2_300_000, (1 << 63) + 885_000_000 - 2_300_000];
    all.extend(wraps.map(|a| Case { a, ..plain(3) }));
    for (hz, intermediate) in
        [(27_656_251, u64::MAX), ((1 << 63) + TUNED, 1 << 63), (1, u64::MAX - 1), (TUNED, (1 << 58) - TUNED), (TUNED, (1 << 62) + 7)]
    {
        let mut tuner = Tuner::fresh(1, 28_800_000, 0x74);
        tuner.intermediate = intermediate;
        let mut case = Case { a: hz, tuner: tuner.bytes(), ..plain(3) };
        all.push(case.clone());
        case.outcomes[3] = 9;
        all.push(case);
    }
}

/// Document 02, #111: tunes about an N of 13, and the two leaves that answer the PLL's numbers, at the same places.
pub fn figures(all: &mut Vec<Case>, dice: &mut Dice) {
    let mut places = vec![(1, 28_800_000, 102_300_000)];
    for (i, lo) in DIVIDERS.into_iter().enumerate() {
        places.extend(around(lo).map(|lo| ((i % 2) as u8, 28_800_000, lo)));
    }
    // About the first reference at which an N is below 13, at the lowest lo·m, and about the last at which one is not, at the highest.
    let least = [
        (68_076_923, 885_000_000),
        (68_076_924, 885_000_000),
        (68_076_924, 885_000_012),
        (138_461_538, 1_799_999_999),
        (138_461_539, 1_799_999_999),
    ];
    let other = [
        (100_000_000, 885_000_000),
        (68_076_924, 27_656_250),
        (16_000_000, 1_023_999_999),
        (16_000_000, 1_024_000_000),
        (u32::MAX, 900_000_000),
        (1, 885_000_000),
    ];
    for (reference, lo) in least.into_iter().chain(other) {
        places.extend((0..2).flat_map(|kind| around(lo).map(move |lo| (kind, reference, lo))));
    }
    for (kind, reference, lo) in places {
        if reference > 28_800_000 {
            all.push(at_lo(kind, reference, lo, 1));
        }
        all.extend([39, 40].map(|call| Case { a: lo, b: reference as u64, c: kind as u64, ..plain(call) }));
    }
    let low = at_lo(1, 100_000_000, 885_000_000, 1);
    all.extend(at_every_step(&low).into_iter().take(14));
    for call in [39, 40] {
        let kinds = [2, 256, u64::MAX].map(|c| Case { c, ..plain(call) });
        all.extend(kinds);
        all.extend([Case { b: 0, ..plain(call) }, Case { b: 0, c: 2, ..plain(call) }, Case { b: 0, a: 0, ..plain(call) }]);
        all.extend([0, 1, 4].map(|room| Case { room, ..plain(call) }));
        all.extend([Case { a: 0, room: 0, ..plain(call) }, Case { a: u64::MAX, ..plain(call) }, Case { a: 1 << 58, ..plain(call) }]);
        all.extend((0..12).map(|_| random(call, dice)));
    }
}
