//! The rows of docs/DIFFERENCES.md that a call at the boundary can reach, each by its exact inputs. Such a case is held to
//! the documents' answer like any other; what a row excuses is that the original answers otherwise. That it does is looked at
//! too (raw.rs): a row that names an input on which the original agrees is a fault here, and so is one that no case reached.
use crate::given::Given;
use harness::page;
use harness::records::{Driver, FIRST, Tuner};
use harness::requests;
use harness::tables;
use original::tuners::r82xx::SEEN_INIT;
use std::ops::RangeInclusive;

/// Overflow panics in this build of the original, as in a debug build.
pub const PANICS: bool = cfg!(debug_assertions);

pub struct Rule {
    pub row: u8,
    pub inputs: &'static str,
}

#[rustfmt::skip]
pub const RULES: [Rule; 23] = [
    Rule { row: 1, inputs: "tune: hz not 0, hz + IF of 2^64 or more, and the wrapped sum is not tunable" },
    Rule { row: 2, inputs: "tune: the same, and the wrapped sum is tunable" },
    Rule { row: 3, inputs: "tune: lo of 2^58 or more, all lent, entries 0 to 11 done, no wrapped product tunable; differs where overflow panics" },
    Rule { row: 4, inputs: "tune: the same, and a wrapped product is tunable" },
    Rule { row: 5, inputs: "set_ppm: two records, and the tuner's corrected reference is 0" },
    Rule { row: 6, inputs: "set_ppm: the same, and it is below 0" },
    Rule { row: 7, inputs: "set_ppm: the same, and it is above 4,294,967,295" },
    Rule { row: 8, inputs: "driver's making, its reference, sample rate: a driver that is bad by its correction alone (sample rate: and not row 9); set_ppm: two records, and the driver's corrected reference alone is out of range" },
    Rule { row: 9, inputs: "sample rate: the same, rate not 0, and the low 32 bits of the reference are 0" },
    Rule { row: 10, inputs: "gain: product -2,147,483,520, all lent; differs where entries 0 to 2 are done, or overflow panics" },
    Rule { row: 11, inputs: "gain: another product below -2,147,483,151, all lent; differs where overflow panics" },
    Rule { row: 12, inputs: "GPIO direction, GPIO bit: pin above 7" },
    Rule { row: 14, inputs: "if_freq_regs, set_if_freq_xtal: reference 0" },
    Rule { row: 15, inputs: "resample_regs: rate 0" },
    Rule { row: 16, inputs: "resample_regs, set_sample_rate_xtal: rate not 0, reference 0" },
    Rule { row: 18, inputs: "fresh tuner: kind above 1, or nominal not 1 to 4,294,967,295" },
    Rule { row: 19, inputs: "FIR packer: 64 bytes, a value past its width" },
    Rule { row: 20, inputs: "tune: N below 13, all lent, entries 0 to 11 done" },
    Rule { row: 22, inputs: "sample rate, set_sample_rate_xtal: rate and reference not 0, a ratio below 4, of 2^29 or more, or whose bits 27 and 28 differ" },
    Rule { row: 23, inputs: "initialise: all lent, and a masked write is tried whose register's shadow byte differs from INIT_ARRAY's in a bit that it keeps" },
    Rule { row: 24, inputs: "initialise: the same, none such, and a chunk is tried with a register, no masked write of it tried, whose shadow byte is not INIT_ARRAY's" },
    Rule { row: 25, inputs: "tune: taken, all lent, and 0x14, 0x16 or 0x15 is tried with another byte than the shadow has" },
    Rule { row: 26, inputs: "sample rate: taken, all lent, the DDC byte tried, and the table inverts the driver's frequency where its board does not, or the other way" },
];

/// The row that names this case, if one does.
pub fn row(given: &Given) -> Option<u8> {
    let case = &given.case;
    let (a, b) = (case.a, case.b);
    match case.call {
        1 => (a > 1 || !(1..=u32::MAX as u64).contains(&b)).then_some(18),
        2 => initialise(given),
        3 => tune(given),
        4 => gain(given),
        19 if malformed(given) => None,
        19 if requests::not_held(case) => Some(22),
        19 if other_board(given) => Some(26),
        16 | 18 | 19 => driver(given),
        27 | 34 => (b == 0).then_some(14),
        28 if requests::not_held(case) => Some(22),
        28 => (a != 0 && b == 0).then_some(16),
        31 | 32 => (a > 7).then_some(12),
        35 if a == 0 => Some(15),
        35 => (b == 0).then_some(16),
        36 if case.input.len() == 64 => (!page::fir_fits(&harness::answer::sixteen(&case.input))).then_some(19),
        41 => both(given),
        _ => None,
    }
}

/// Whether the original answers otherwise on this row's case in this build.
pub fn differs(row: u8, given: &Given) -> bool {
    match row {
        3 | 11 => PANICS,
        10 => PANICS || done(given, 3),
        _ => true,
    }
}

fn done(given: &Given, steps: usize) -> bool {
    given.case.outcomes[..steps].iter().all(|&outcome| outcome == 0)
}

/// Two records, and a table that 19 refuses: the original has none.
fn malformed(given: &Given) -> bool {
    let case = &given.case;
    Tuner::read(&case.tuner).is_some() && Driver::read(&case.driver).is_some() && !tables::well_formed(&case.input)
}

/// The DDC byte is entry 16 of a sample rate; entries 3 and 6 are closings.
fn other_board(given: &Given) -> bool {
    let case = &given.case;
    let (Some(_), Some(driver)) = (Tuner::read(&case.tuner), Driver::read(&case.driver)) else { return false };
    let by_table = tables::plan(&case.input, driver.frequency).is_ok_and(|(_, [inverted, ..])| inverted == 1);
    let by_board = page::plan(driver.board, driver.frequency).1 == 1;
    let tried = || (0..16).all(|entry| matches!(entry, 3 | 6) || case.outcomes[entry] == 0);
    case.a != 0 && all_lent(given) && tried() && by_table != by_board
}

/// Everything that the call asks for is lent.
fn all_lent(given: &Given) -> bool {
    let (entries, replies) = page::most(given.case.call).expect("a call with steps");
    let case = &given.case;
    !given.short_next() && case.room >= 16 * entries + 8 && case.outcomes.len() >= entries && case.replies.len() >= replies
}

fn tune(given: &Given) -> Option<u8> {
    let (tuner, hz) = (Tuner::read(&given.case.tuner)?, given.case.a);
    let (lo, wraps) = hz.overflowing_add(tuner.intermediate);
    let tunable = wrapping(tuner.kind, tuner.corrected as u64, lo);
    match (hz, wraps) {
        (0, _) => None,
        (_, true) => Some(if tunable { 2 } else { 1 }),
        _ if requests::too_small(&given.case) => (all_lent(given) && done(given, 12)).then_some(20),
        _ if lo >= 1 << 58 && all_lent(given) && done(given, 12) => Some(if tunable { 4 } else { 3 }),
        _ if all_lent(given) => past_shadow(given, &tuner, lo).then_some(25),
        _ => None,
    }
}

/// Entries 13, 14 and 15 of a tune are the writes of 0x14, 0x16 and 0x15; one is tried when all before it are done.
fn past_shadow(given: &Given, tuner: &Tuner, lo: u64) -> bool {
    let Some(plan) = page::pll(tuner.kind, tuner.corrected as u64, lo) else { return false };
    let sent = [(0x14, plan.byte), (0x16, (plan.s >> 8) as u8), (0x15, plan.s as u8)];
    (13..).zip(sent).any(|(entry, (register, byte))| done(given, entry) && tuner.shadow[register - FIRST] != byte)
}

/// The five chunks of an initialise: their entries, and their registers.
const CHUNKS: [(usize, RangeInclusive<usize>); 5] =
    [(1, 0x05..=0x0b), (2, 0x0c..=0x12), (3, 0x13..=0x14), (6, 0x15..=0x1b), (7, 0x1c..=0x1f)];
/// Its masked writes: entry, register, mask.
const MASKED: [(usize, usize, u8); 6] =
    [(10, 0x1a, 0x0c), (11, 0x12, 0xff), (12, 0x0c, 0x0f), (13, 0x13, 0x3f), (16, 0x0a, 0x70), (17, 0x0b, 0xef)];

fn initialise(given: &Given) -> Option<u8> {
    let tuner = Tuner::read(&given.case.tuner).filter(|_| all_lent(given))?;
    // Closings do not stop it: entries 4, 8 and 14.
    let tried = |entry: usize| (0..entry).all(|before| matches!(before, 4 | 8 | 14) || given.case.outcomes[before] == 0);
    let other = |register: usize| tuner.shadow[register - FIRST] ^ SEEN_INIT[register - FIRST];
    if MASKED.into_iter().any(|(entry, register, mask)| tried(entry) && other(register) & !mask != 0) {
        return Some(23);
    }
    let masked = |register: usize| MASKED.into_iter().any(|(entry, masked, _)| masked == register && tried(entry));
    let stale = |(entry, mut registers): (usize, RangeInclusive<usize>)| tried(entry) && registers.any(|at| other(at) != 0 && !masked(at));
    CHUNKS.into_iter().any(stale).then_some(24)
}

/// Whether a release build takes this lo: the search for the divider with products that wrap.
fn wrapping(kind: u8, reference: u64, lo: u64) -> bool {
    let products = (1..=6).map(|bit| lo.wrapping_shl(bit));
    let found = products.into_iter().find(|product| (1_770_000_000..3_600_000_000).contains(product));
    found.is_some_and(|product| product / (2 * reference) <= if kind == 1 { 127 } else { 63 })
}

fn gain(given: &Given) -> Option<u8> {
    Tuner::read(&given.case.tuner)?;
    let tenths = page::tenths(f32::from_bits(given.case.a as u32));
    if !all_lent(given) || tenths >= 496 - i32::MAX {
        return None;
    }
    Some(if tenths == -2_147_483_520 { 10 } else { 11 })
}

/// The corrected reference without its range.
fn reference(nominal: u32, ppm: i32) -> i128 {
    nominal as i128 + nominal as i128 * ppm as i128 / 1_000_000
}

fn correction(nominal: u32, ppm: i32) -> Option<u8> {
    match reference(nominal, ppm) {
        0 => Some(5),
        ..0 => Some(6),
        0x1_0000_0000.. => Some(7),
        _ => None,
    }
}

/// Two records that are such: the tuner's reference decides the row, and where it is in range the driver's does.
fn both(given: &Given) -> Option<u8> {
    let (case, ppm) = (&given.case, given.case.d as i32);
    let (tuner, driver) = (Tuner::read(&case.tuner)?, Driver::read(&case.driver)?);
    correction(tuner.nominal, ppm).or(correction(driver.nominal, ppm).map(|_| 8))
}

fn driver(given: &Given) -> Option<u8> {
    let case = &given.case;
    if case.call == 16 && (case.c > 1 || !(1..=u32::MAX as u64).contains(&case.a)) {
        return None; // no making of the original's to compare with
    }
    let (nominal, ppm) = match case.call {
        16 => (case.a as u32, case.d as i32),
        _ => loose(&case.driver).map(|driver| (driver.nominal, driver.ppm))?,
    };
    if case.call == 19 && Tuner::read(&case.tuner).is_none() {
        return None; // no chip to give to the original
    }
    correction(nominal, ppm)?;
    let zero = reference(nominal, ppm) as u32 == 0;
    Some(if case.call == 19 && case.a != 0 && zero { 9 } else { 8 })
}

/// A driver's bytes that are a record but perhaps for their correction.
pub fn loose(bytes: &[u8]) -> Option<Driver> {
    let mut tame = bytes.to_vec();
    tame.get_mut(5..9)?.fill(0);
    let ppm = i32::from_le_bytes(bytes[5..9].try_into().unwrap());
    Driver::read(&tame).map(|driver| Driver { ppm, ..driver })
}
