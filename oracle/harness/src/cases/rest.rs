//! The other calls: boundaries of their arguments, masks, a failure at every step.
use super::{MHZ, around, at_every_step, plain, random_tuner, replies_for};
use crate::answer::takes_tuner;
use crate::case::Case;
use crate::dice::Dice;
use crate::page;
use crate::records::{Driver, Tuner};

pub fn gains(all: &mut Vec<Case>) {
    let at = |bits: u32| Case { a: bits as u64, ..plain(4) };
    let tenth = |t: i32| at((t as f32 / 10.0).to_bits());
    // Where the nearest step changes: the middle of two steps (a tie goes down), and beside it.
    for pair in page::STEPS.windows(2) {
        let middle = (pair[0] + pair[1]) / 2;
        all.extend([middle - 1, middle, middle + 1].map(tenth));
        all.push(at(((middle as f32 + 0.6) / 10.0).to_bits())); // cut, not rounded
    }
    // One bit off a middle: the product is rounded, then cut.
    for t in [4, 20, 32, 57, 82, 487, 488] {
        let bits = (t as f32 / 10.0).to_bits();
        all.extend([at(bits - 1), at(bits + 1)]);
    }
    // Zeros, the least and the largest numbers, infinities, NaN; products at the ends of i32.
    let odd = [0, 0x8000_0000, 1, 0x8000_0001, 0x007f_ffff, 0x7f7f_ffff, 0xff7f_ffff, 0x7f80_0000, 0xff80_0000];
    let nan = [0x7fc0_0000, 0x7fc0_0001, 0xffc0_0000, 0x7f80_0001, 0xffff_ffff];
    let ends = [0xcd4c_cccb, 0xcd4c_cccc, 0xcd4c_cccd, 0xcd4c_ccca, 0xcd4c_ccc9, 0xcd4c_ccce, 0x4d4c_cccc, 0x4d4c_cccd, 0x4d4c_ccce];
    all.extend(odd.into_iter().chain(nan).chain(ends).map(at));
    for db in [-0.05f32, -0.1, -1.0, 3.2, 49.6, 49.7, 100.0, 1.0e9, -1.0e9, 2.0e8, -2.0e8] {
        all.push(at(db.to_bits()));
    }
    for index in (0..=30).chain([255, 256, 1 << 32, u64::MAX]) {
        all.push(Case { a: index, ..plain(5) });
    }
}

pub fn references(all: &mut Vec<Case>) {
    let nominals = [1, 999_999, 1_000_000, 16_000_000, 28_800_000, 4_294_967_295];
    let ppms = [0, 1, -1, 999_999, 1_000_000, -999_999, -1_000_000, -1_000_001, 148_130_808, 148_130_809, i32::MAX, i32::MIN];
    for nominal in nominals {
        for ppm in ppms {
            let d = ppm as u32;
            if nominal == 28_800_000 || matches!(ppm, 0 | -1 | 1 | i32::MAX) {
                all.push(Case { a: nominal as u64, d, ..plain(16) });
                let given = Driver { board: 0, nominal, ppm, frequency: 1, rate: 0, actual: 7 };
                all.push(Case { driver: given.bytes(), ..plain(18) });
            }
        }
    }
    for kind in [0, 1, 2, 3, 255] {
        for nominal in [0, 1, 28_800_000, 4_294_967_295, 4_294_967_296, u64::MAX] {
            all.push(Case { a: kind, b: nominal, c: 0x34, ..plain(1) });
        }
    }
    all.extend([0, 0x74, 255].map(|address| Case { c: address, ..plain(1) }));
    all.extend([0, 1 << 32, 1 << 63].map(|nominal| Case { a: nominal, ..plain(16) }));
    all.extend([0, 2, 255].map(|board| Case { c: board, ..plain(16) }));
    all.push(Case { b: 0, e: 0, ..plain(16) });
    all.push(Case { b: u64::MAX, e: u32::MAX, ..plain(16) });
}

const RATES: [u64; 14] = [
    1,
    225_000,
    225_001,
    300_000,
    450_000,
    900_000,
    1_000_000,
    2_048_000,
    2_500_000,
    3_200_000,
    6_000_000,
    7_000_000,
    28_800_000,
    u32::MAX as u64,
];

/// One argument at its thresholds.
pub fn thresholds(all: &mut Vec<Case>) {
    let mut values = |call: u8, values: &[u64]| all.extend(values.iter().map(|&a| Case { a, ..plain(call) }));
    let bandwidths: Vec<u64> = [6 * MHZ, 7 * MHZ, 8 * MHZ].into_iter().flat_map(around).chain([0, 1, u32::MAX as u64]).collect();
    values(6, &bandwidths);
    let ifs: Vec<u64> = around(3_500_000).chain([0, 1, 2_300_000, 3_570_000, 1 << 32, u64::MAX]).collect();
    values(7, &ifs);
    values(8, &[0, 1, 2, 3, 255]);
    values(20, &[0, 1, 2, 3, 255]);
    values(31, &[0, 1, 2, 3, 4, 5, 6, 7, 8, 9, 255]);
    values(32, &[0, 1, 2, 3, 4, 5, 6, 7, 8, 9, 255]);
    let rates: Vec<u64> = RATES.into_iter().flat_map(around).filter(|&rate| rate <= u32::MAX as u64).collect();
    values(28, &rates);
    values(35, &rates);
    let plans: Vec<u64> =
        [2_200_000, 28_800_000, 85 * MHZ, 112 * MHZ, 172 * MHZ, 242 * MHZ, 250 * MHZ].into_iter().flat_map(around).collect();
    values(33, &plans);
    values(33, &[0, 1, u64::MAX]);
    all.extend(plans.iter().map(|&a| Case { a, c: 0, ..plain(33) }));
    all.extend([2, 255].map(|c| Case { c, ..plain(33) }));
}

/// Ratios of two numbers, registers, pins, and what calls without steps read and store.
pub fn small_calls(all: &mut Vec<Case>, dice: &mut Dice) {
    ratios(all);
    for (page, register) in [(0, 0), (1, 0xff), (2, 0x100), (15, 0xffff), (16, 0), (255, 0x1234)] {
        all.push(Case { a: page, b: register, c: dice.byte() as u64, ..plain(26) });
    }
    for value in [0, 1, 2, 255] {
        all.push(Case { b: value, replies: vec![0x5a], ..plain(32) });
        all.push(Case { b: value, replies: vec![!0x5a], ..plain(32) });
    }
    all.push(Case { replies: vec![0x00, 0xff], ..plain(31) });
    all.push(Case { replies: vec![0xff, 0x00], ..plain(31) });
    for (notch, value) in [(false, 0), (false, 1), (false, 2), (true, 0), (true, 255)] {
        let tuner = Tuner { notch, ..Tuner::fresh(1, 28_800_000, 0x74) };
        all.push(Case { a: value, tuner: tuner.bytes(), ..plain(11) });
    }
    all.push(Case { room: 200, ..plain(15) });
    all.push(plain(15));
    for gain in [0u32, 0x7fc0_0000, 0x7f80_0000, 0x8000_0000, 0x42c8_0000] {
        let mut tuner = random_tuner(dice);
        tuner.gain = gain;
        all.push(Case { tuner: tuner.bytes(), ..plain(13) });
        all.push(Case { tuner: tuner.bytes(), ..plain(14) });
    }
}

fn ratios(all: &mut Vec<Case>) {
    for call in [27, 34] {
        for a in [0, 1, 2, 6, 7, 2_300_000, 3_570_000, 28_799_999, 28_800_000, 28_800_001, u32::MAX as u64] {
            all.push(Case { a, ..plain(call) });
        }
        for (a, b) in
            [(1, 1), (u32::MAX as u64, 1), (u32::MAX as u64, u32::MAX as u64), (1, u32::MAX as u64), (1 << 22, 1), ((1 << 22) - 1, 1 << 22)]
        {
            all.push(Case { a, b, ..plain(call) });
        }
    }
    for call in [28, 35] {
        for (a, b) in [(1, 1), (u32::MAX as u64, 1), (1, u32::MAX as u64), (1 << 17, 1 << 22), (3, 96), (1, 32), (2, 63)] {
            all.push(Case { a, b, ..plain(call) });
        }
    }
}

pub fn sample_rates(all: &mut Vec<Case>, dice: &mut Dice) {
    let edges = [1_000_000, 2_500_000, 6_000_000, 7_000_000, 225_000];
    for rate in edges.into_iter().flat_map(around).chain([1, 225_002, 300_000, 900_000, 900_001, 2_048_000, 3_200_000, u32::MAX as u64]) {
        all.push(Case { a: rate, ..plain(19) });
    }
    // An IF of 0 stays 0; any other is replaced.
    for intermediate in [0, 1, 1 << 32] {
        let tuner = Tuner { intermediate, ..Tuner::fresh(0, 28_800_000, 0x34) };
        all.extend([999_999, 1_000_000, 2_500_000].map(|rate| Case { a: rate, tuner: tuner.bytes(), ..plain(19) }));
    }
    for (board, frequency) in [(0, 7 * MHZ), (1, 28_799_999), (1, 28_800_000), (1, 28_800_001), (1, 0), (1, u64::MAX)] {
        let driver = Driver { board, nominal: 28_800_000, ppm: dice.below(200) as i32 - 100, frequency, rate: 1, actual: u64::MAX };
        all.push(Case { driver: driver.bytes(), ..plain(19) });
    }
}

/// Document 02, #103: where a ratio begins and ceases to be held, for both calls, and 13 among the other refusals.
pub fn held_rates(all: &mut Vec<Case>) {
    let corrected = |nominal: u32, ppm: i32| Driver { board: 1, nominal, ppm, frequency: 7 * MHZ, rate: 2_048_000, actual: 2_048_000 };
    // With a rate of 1 the ratio is xtal * 2^22: 2^27 at 32, 3 * 2^27 at 96, 2^29 at 128, 2^32 at 1,024. With a reference of 1 it is 4 at a rate of 2^20.
    for (rate, xtal) in [(1, 32), (1, 96), (1, 128), (1, 1_024)] {
        for xtal in around(xtal) {
            all.push(Case { a: rate, b: xtal, ..plain(28) });
            all.push(Case { a: rate, driver: corrected(xtal as u32, 0).bytes(), ..plain(19) });
        }
    }
    for rate in around(1 << 20) {
        all.push(Case { a: rate, b: 1, ..plain(28) });
        all.push(Case { a: rate, driver: corrected(1, 0).bytes(), ..plain(19) });
    }
    for rate in [225_000, 300_000, 900_000].into_iter().flat_map(around) {
        all.push(Case { a: rate, ..plain(28) });
        // The corrected reference decides: at -1 ppm 28,799,972 Hz, at 2 ppm 28,800,057.
        all.extend([-1, 0, 2].map(|ppm| Case { a: rate, driver: corrected(28_800_000, ppm).bytes(), ..plain(19) }));
    }
    all.extend([(u32::MAX as u64, 4_095), (u32::MAX as u64, 4_096), (u32::MAX as u64, u32::MAX as u64)].map(|(a, b)| Case {
        a,
        b,
        ..plain(28)
    }));
    // 13 stands after 1, 3 and 4, and before 8 and 9; a step that would fail is not taken.
    for call in [19, 28] {
        let low = Case { a: 600_000, ..plain(call) };
        all.extend([0, 1, 16].map(|room| Case { room, ..low.clone() }));
        all.extend([Case { outcomes: vec![], ..low.clone() }, Case { room: 0, outcomes: vec![], ..low.clone() }]);
        all.push(Case { outcomes: vec![1; low.outcomes.len()], ..low.clone() });
    }
    all.push(Case { a: 0, b: 0, ..plain(28) });
    all.push(Case { a: 600_000, b: 0, ..plain(28) });
    all.push(Case { a: 600_000, tuner: vec![], ..plain(19) });
    all.push(Case { a: 600_000, driver: corrected(28_800_000, -1_000_000).bytes(), ..plain(19) });
}

/// Document 02, #104: the true rate beside the rate asked. At 28,800,000 Hz 5,497,289 is the first whose two differ; the top rate's is past 32 bits.
pub fn true_rates(all: &mut Vec<Case>) {
    let given = Driver { board: 1, nominal: 28_800_000, ppm: 0, frequency: 7 * MHZ, rate: 1_000_000, actual: 0x0123_4567_89ab_cdef };
    for rate in [225_001, 300_000, 900_001, 5_497_288, 5_497_289, 5_497_290, 7_000_001, 28_800_000, 3_000_000_000, u32::MAX as u64] {
        all.push(Case { a: rate, driver: given.bytes(), ..plain(19) });
    }
    // Other references: the ratio's least and greatest, and a correction.
    for (rate, nominal, ppm) in [
        (1 << 20, 1, 0),
        ((1 << 20) - 1, 1, 0),
        (1, 127, 0),
        (1, 96, 0),
        (1, 31, 0),
        (2, 63, 0),
        (5_497_289, 28_800_000, 1),
        (u32::MAX, 4_096, 0),
    ] {
        all.push(Case { a: rate as u64, driver: Driver { nominal, ppm, ..given.clone() }.bytes(), ..plain(19) });
    }
    // A step that fails, the last one too, leaves both as they were; so does another correction, and a fresh record has 0.
    for step in [0, 8, 16] {
        let mut cut = Case { a: 5_497_289, driver: given.bytes(), ..plain(19) };
        cut.outcomes[step] = 1;
        all.push(cut);
    }
    all.push(Case { driver: given.bytes(), ..plain(41) });
    all.push(Case { driver: Driver { actual: u64::MAX, ..given }.bytes(), ..plain(41) });
    all.push(Case { e: 5_497_289, ..plain(16) });
}

pub fn steps_of_each(all: &mut Vec<Case>, dice: &mut Dice) {
    for call in (2..=32).filter(|&call| page::most(call).is_some() && call != 3) {
        let mut case = plain(call);
        if takes_tuner(call) {
            let mut tuner = random_tuner(dice);
            tuner.kind = 1;
            case.tuner = tuner.bytes();
        }
        case.replies = dice.bytes(case.replies.len());
        all.push(case.clone());
        all.extend(at_every_step(&case));
        if matches!(call, 8 | 20) {
            for path in [0, 1] {
                all.extend(at_every_step(&Case { a: path, ..case.clone() }));
            }
        }
    }
    // R820T: no input path, a board path of six entries; the path is looked at all the same.
    let one = Tuner::fresh(0, 28_800_000, 0x34).bytes();
    for path in 0..3 {
        all.push(Case { a: path, tuner: one.clone(), ..plain(8) });
        all.push(Case { a: path, tuner: one.clone(), ..plain(20) });
    }
    all.extend(at_every_step(&Case { tuner: one.clone(), ..plain(20) }));
    all.push(Case { a: 255, tuner: one, ..plain(8) });
    // A step fails and so does the closing behind it: the step is the failing one.
    for (call, step) in [(2, 2), (2, 7), (2, 11), (4, 3), (6, 1), (7, 1), (8, 2), (9, 3), (9, 7), (19, 2), (20, 8)] {
        let mut case = plain(call);
        (case.outcomes[step], case.outcomes[step + 1]) = (1, 1);
        all.push(case);
    }
    // Every closing fails, and nothing else does.
    for (call, closings) in [(2, &[4, 8, 14, 18][..]), (9, &[4, 8][..]), (19, &[3, 6][..])] {
        let mut case = plain(call);
        closings.iter().for_each(|&i| case.outcomes[i] = 1);
        all.push(case);
    }
}

/// Every mask, seen on a shadow of zeros and on one of ones.
pub fn masks(all: &mut Vec<Case>) {
    for byte in [0x00, 0xff] {
        let tuner = |kind: u8| Tuner { shadow: [byte; 27], ..Tuner::fresh(kind, 28_800_000, 0x74) }.bytes();
        let quick = |fine: u8| replies_for(fine, Some(0), byte);
        all.extend([2, 4, 6, 9, 19].map(|call| Case { tuner: tuner(1), ..plain(call) }));
        all.extend([2_300_000, 3_570_000].map(|a| Case { a, tuner: tuner(0), ..plain(7) }));
        all.extend([0, 1, 2].map(|a| Case { a, tuner: tuner(1), ..plain(8) }));
        all.extend([0, 28].map(|a| Case { a, tuner: tuner(0), ..plain(5) }));
        all.extend([0, 3].map(|fine| Case { a: 30 * MHZ, tuner: tuner(1), replies: quick(fine), ..plain(3) }));
        all.push(Case { a: 1_149_700_000, tuner: tuner(0), replies: replies_for(2, Some(1), byte), ..plain(3) }); // F 0
    }
}
