//! The cases of the stored list: boundaries (each threshold of the Rust at t-1, t, t+1), a failure at every step,
//! refusals in their order, damaged records, and random ones. Inputs only; answer.rs answers them.

pub mod boards;
mod correction;
mod lists;
mod refused;
mod rest;
mod shadow;
mod standing;
mod tune;

use crate::answer::{takes_driver, takes_tuner};
use crate::case::Case;
use crate::dice::Dice;
use crate::page;
use crate::records::{Driver, Tuner};
use crate::requests;
use crate::tables;

pub use lists::{fir, sections};

pub const MHZ: u64 = 1_000_000;

const TUNED: u64 = 100 * MHZ;

/// A case that is well lent and all done, on fresh records.
pub fn plain(call: u8) -> Case {
    let (entries, replies) = requests::most(call).unwrap_or((0, 0));
    let room = if entries > 0 { 16 * entries + 8 } else { requests::answered(call).unwrap_or(0) };
    let mut case = Case { call, room, outcomes: vec![0; entries], replies: vec![0; replies], ..Case::default() };
    if takes_tuner(call) {
        case.tuner = Tuner::fresh(1, 28_800_000, 0x74).bytes();
    }
    if takes_driver(call) {
        case.driver = Driver { board: 1, nominal: 28_800_000, ppm: 0, frequency: 7 * MHZ, rate: 2_048_000, actual: 0 }.bytes();
    }
    // Arguments for which the call takes its longest way.
    match call {
        1 => (case.a, case.b, case.c) = (1, 28_800_000, 0x74),
        3 => {
            case.a = TUNED;
            case.replies = replies_for(0, Some(9), 0);
        }
        4 => case.a = 3.2f32.to_bits() as u64,
        5 => case.a = 12,
        6 => case.a = 2_048_000,
        7 => case.a = 3_570_000,
        10 | 41 => case.d = 37,
        16 => (case.a, case.b, case.c, case.d, case.e) = (28_800_000, TUNED, 1, (-7i32) as u32, 2_048_000),
        19 => (case.a, case.input) = (2_048_000, built_in(1)),
        26 => (case.a, case.b, case.c) = (1, 0x15, 0x05),
        27 | 34 => (case.a, case.b) = (3_570_000, 28_800_000),
        28 | 35 => (case.a, case.b) = (2_048_000, 28_800_000),
        31 | 32 => (case.a, case.b) = (5, 1),
        33 => (case.a, case.c) = (TUNED, 1),
        39 | 40 => (case.a, case.b, case.c) = (102_300_000, 28_800_000, 1),
        42 => {
            (case.a, case.input) = (7 * MHZ, built_in(1));
            case.replies = [vec![0; 3], replies_for(0, Some(9), 0)].concat();
        }
        _ => {}
    }
    case
}

/// The table of a built-in board, as bytes.
pub fn built_in(board: u64) -> Vec<u8> {
    tables::bytes(&tables::built_in(board))
}

fn reversed(byte: u8) -> u8 {
    byte.reverse_bits()
}

/// Replies to a tune: the VCO's fine tune (0..3) in the fifth status byte, a lock seen at try `lock`, other bits from `noise`.
pub fn replies_for(fine: u8, lock: Option<usize>, noise: u8) -> Vec<u8> {
    let mut all = vec![noise; 35];
    all[4] = reversed(reversed(noise) & !0x30 | fine << 4);
    for attempt in 0..10 {
        let seen = lock.is_some_and(|at| attempt >= at);
        all[7 + 3 * attempt] = reversed(reversed(noise) & !0x40 | (seen as u8) << 6);
    }
    all
}

/// t-1, t, t+1, inside u64.
pub fn around(t: u64) -> impl Iterator<Item = u64> {
    [t.wrapping_sub(1), t, t.wrapping_add(1)].into_iter().filter(move |x| x.abs_diff(t) <= 1)
}

/// A record such as some history might leave, or none: any shadow, any marks.
pub fn random_tuner(dice: &mut Dice) -> Tuner {
    let nominal = match dice.below(6) {
        0 => 16_000_000,
        1 | 2 => 28_800_000,
        3 => dice.within(1, u32::MAX as u64) as u32,
        _ => dice.within(6_900_000, 120_000_000) as u32,
    };
    let ppm = dice.below(2001) as i32 - 1000;
    let steps = page::STEPS;
    Tuner {
        kind: dice.below(2) as u8,
        address: if dice.yes() { dice.pick(&[0x34, 0x74]) } else { dice.byte() },
        shadow: std::array::from_fn(|_| dice.byte()),
        nominal,
        corrected: page::corrected(nominal, ppm).unwrap_or(nominal),
        lock: dice.yes(),
        gain: if dice.below(8) == 0 { 0x7fc0_0000 } else { (dice.pick(&steps) as f32 / 10.0).to_bits() },
        intermediate: match dice.below(8) {
            0 => 0,
            1 => 3_570_000,
            2 => dice.below(20 * MHZ),
            3 => dice.spread(),
            _ => 2_300_000,
        },
        notch: dice.yes(),
        doubtful: std::array::from_fn(|_| dice.below(3) == 0),
    }
}

pub fn random_driver(dice: &mut Dice) -> Driver {
    let nominal = if dice.yes() { 28_800_000 } else { dice.within(1, u32::MAX as u64) as u32 };
    let ppm = dice.below(2001) as i32 - 1000;
    let ppm = if page::corrected(nominal, ppm).is_some() { ppm } else { 0 };
    let (board, frequency, rate) = (dice.below(2) as u8, dice.below(60 * MHZ), dice.throw() as u32);
    // Any true rate, without another throw of the dice, so that later cases stay what they are.
    let actual = (rate as u64 ^ frequency << 32).wrapping_mul(0x9e37_79b9_7f4a_7c15);
    Driver { board, nominal, ppm, frequency, rate, actual }
}

/// Outcomes with a failure now and then, told by any byte but 0.
fn random_outcomes(dice: &mut Dice, n: usize, rarity: u64) -> Vec<u8> {
    (0..n).map(|_| if dice.below(rarity) == 0 { dice.within(1, 255) as u8 } else { 0 }).collect()
}

/// A random case of a call, arguments mostly in range.
pub fn random(call: u8, dice: &mut Dice) -> Case {
    let mut case = plain(call);
    let more = dice.below(3) as usize;
    case.outcomes = random_outcomes(dice, case.outcomes.len() + more, rarity(call));
    case.replies = dice.bytes(case.replies.len());
    case.room += dice.below(20) as usize;
    if takes_tuner(call) {
        case.tuner = random_tuner(dice).bytes();
    }
    if takes_driver(call) {
        case.driver = random_driver(dice).bytes();
    }
    match call {
        1 => (case.a, case.b, case.c) = (dice.below(2), dice.within(1, u32::MAX as u64), dice.byte() as u64),
        3 => {
            case.a = if dice.below(12) == 0 { dice.spread() } else { dice.within(26 * MHZ, 1_800 * MHZ) };
            let lock = if dice.below(10) == 0 { None } else { Some(dice.below(10).min(dice.below(10)) as usize) };
            case.replies = replies_for(dice.below(4) as u8, lock, dice.byte());
        }
        4 => {
            case.a = if dice.below(4) == 0 { dice.throw() as u32 as u64 } else { (dice.below(6000) as f32 / 100.0 - 5.0).to_bits() as u64 }
        }
        5 => case.a = if dice.below(8) == 0 { dice.spread() } else { dice.below(29) },
        6 => case.a = dice.below(9 * MHZ),
        7 => case.a = if dice.yes() { dice.below(7 * MHZ) } else { dice.spread() },
        8 | 20 => case.a = dice.below(3),
        10 | 41 => case.d = if dice.below(4) == 0 { dice.throw() as u32 } else { (dice.below(2001) as i32 - 1000) as u32 },
        11 => case.a = dice.byte() as u64,
        16 => {
            let made = random_driver(dice);
            (case.a, case.b, case.c, case.d, case.e) = (made.nominal as u64, dice.spread(), made.board as u64, made.ppm as u32, made.rate);
        }
        19 => {
            case.a = if dice.below(4) == 0 { dice.throw() as u32 as u64 } else { dice.within(1, 8 * MHZ) };
            // The table of the record's own board, without another throw of the dice.
            case.input = built_in(case.driver[0] as u64);
        }
        26 => (case.a, case.b, case.c) = (dice.byte() as u64, dice.throw() as u16 as u64, dice.byte() as u64),
        27 | 34 => (case.a, case.b) = (dice.spread() as u32 as u64, (dice.spread() as u32).max(1) as u64),
        28 | 35 => (case.a, case.b) = ((dice.spread() as u32).max(1) as u64, (dice.spread() as u32).max(1) as u64),
        31 | 32 => (case.a, case.b) = (dice.below(8), dice.below(3)),
        33 => (case.a, case.c) = (dice.spread(), dice.below(2)),
        39 | 40 => {
            let tuner = random_tuner(dice);
            let lo = if dice.below(12) == 0 { dice.spread() } else { dice.within(26 * MHZ, 1_800 * MHZ) };
            (case.a, case.b, case.c) = (lo, tuner.corrected as u64, dice.below(2));
        }
        42 => boards::random(&mut case, dice),
        44 => case.input = built_in(1),
        _ => {}
    }
    // More than is needed may be lent; it is not looked at.
    if !case.replies.is_empty() {
        let more = dice.below(3) as usize;
        case.replies.extend(dice.bytes(more));
    }
    case
}

/// About one failure in two runs.
fn rarity(call: u8) -> u64 {
    2 * requests::most(call).map_or(1, |(entries, _)| entries as u64)
}

/// A failure at each entry of a case in turn, closings and waits among them; told by 1, 2 or 255.
fn at_every_step(case: &Case) -> Vec<Case> {
    let entries = requests::most(case.call).expect("a call with steps").0;
    (0..entries)
        .map(|i| {
            let mut cut = case.clone();
            cut.outcomes[i] = [1, 2, 255][i % 3];
            cut
        })
        .collect()
}

/// The calls of list 1 but for the leaves that document 02 adds. 12 was `update_shadow`, which is gone (#106); 10 and 17 were the two corrections, which are 41
/// since #109. No number is used again.
fn numbers() -> impl Iterator<Item = u8> {
    (1..=35).filter(|call| !matches!(call, 10 | 12 | 17)).chain([41])
}

/// List 1: the calls.
pub fn calls() -> Vec<Case> {
    let mut dice = Dice(0x5041_5345_544f_4e45);
    let mut all: Vec<Case> = numbers().map(plain).collect();
    refused::refused_and_damaged(&mut all);
    tune::tune_boundaries(&mut all, &mut dice);
    tune::tune_steps(&mut all, &mut dice);
    rest::gains(&mut all);
    rest::references(&mut all);
    rest::thresholds(&mut all);
    rest::small_calls(&mut all, &mut dice);
    rest::sample_rates(&mut all, &mut dice);
    rest::steps_of_each(&mut all, &mut dice);
    rest::masks(&mut all);
    for call in numbers().filter(|call| !matches!(call, 15 | 22)) {
        let times = match call {
            3 => 240,
            4 => 40,
            19 | 2 | 9 | 20 => 25,
            _ => 12,
        };
        all.extend((0..times).map(|_| random(call, &mut dice)));
    }
    tune::figures(&mut all, &mut dice);
    rest::held_rates(&mut all);
    rest::true_rates(&mut all);
    shadow::follows(&mut all);
    correction::both(&mut all);
    boards::boards(&mut all);
    standing::standing(&mut all);
    all
}
