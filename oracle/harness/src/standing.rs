//! Where a tuner's oscillator stands and what the middle of a recording is, written a second time from the formula: of the bytes last sent to five registers, of
//! the corrected reference, and by a table's plan. The original never asks, so this is the judge of the port's calls (live, `standing`), and the plain Rust beside
//! them in docs/BENCHMARK.md.
use crate::records::{Driver, FIRST, Tuner};
use crate::tables;

/// The registers that the oscillator stands by.
pub const FIVE: [usize; 5] = [0x10, 0x12, 0x14, 0x15, 0x16];

/// "m = 2^(1 + 0x10 / 32); N = 13 + 4·(0x14 mod 64) + 0x14 / 64; S = 256·0x16 + 0x15, or 0 where bit 3 of 0x12 is set"; "lo = 2R(65,536·N + S) / (65,536·m)".
pub fn oscillator(reference: u32, byte: impl Fn(usize) -> u8) -> u64 {
    let number = |register| u128::from(byte(register));
    let whole = 13 + 4 * (number(0x14) % 64) + number(0x14) / 64;
    let sum = if byte(0x12) & 0x08 != 0 { 0 } else { 256 * number(0x16) + number(0x15) };
    let divider = 2u128.pow(1 + u32::from(byte(0x10) / 32));
    (2 * u128::from(reference) * (65_536 * whole + sum) / (65_536 * divider)) as u64
}

/// "refusal 20 doubtful where one of 0x10, 0x12, 0x14, 0x15, 0x16 is doubtful, after 1".
pub fn of_record(tuner: &[u8]) -> Result<u64, u32> {
    let tuner = Tuner::read(tuner).ok_or(1u32)?;
    if FIVE.iter().any(|register| tuner.doubtful[register - FIRST]) {
        return Err(20);
    }
    Ok(oscillator(tuner.corrected, |register| tuner.shadow[register - FIRST]))
}

/// The oscillator less the IF, less what the plan for the driver's frequency adds to it. 1, 19, 20, then 2.
pub fn centre(driver: &[u8], tuner: &[u8], table: &[u8]) -> Result<u64, u32> {
    let (Some(driver), Some(read)) = (Driver::read(driver), Tuner::read(tuner)) else { return Err(1) };
    let planned = tables::plan(table, driver.frequency);
    if planned == Err(19) {
        return Err(19);
    }
    let lo = of_record(tuner)?;
    let (tuned, _) = planned?;
    let shift = i128::from(tuned) - i128::from(driver.frequency);
    u64::try_from(i128::from(lo) - i128::from(read.intermediate) - shift).map_err(|_| 2)
}
