//! Arguments where answers change: the thresholds of the original and of document 01, one less and one more, worked out
//! for the record at hand where they depend on it.
use harness::case::Case;
use harness::cases::MHZ;
use harness::dice::Dice;
use harness::page;
use harness::records::{Driver, Tuner};
use harness::tables::BAND;

/// A number within two of one of these; wraps, so that 0 and 2^64 - 1 are neighbours.
fn near(dice: &mut Dice, from: &[u64]) -> u64 {
    let middle = dice.pick(from);
    middle.wrapping_add(dice.below(5)).wrapping_sub(2)
}

/// The six ranges of lo start here; the last ends at 1,800,000,000.
const RANGES: [u64; 7] = [27_656_250, 55_312_500, 110_625_000, 221_250_000, 442_500_000, 885_000_000, 1_800_000_000];
/// Where the multiplexer's rows start, in MHz.
const ROWS: [u64; 20] = [50, 55, 60, 65, 70, 75, 80, 90, 100, 110, 120, 140, 180, 220, 250, 280, 310, 450, 588, 650];

/// A lo at which something changes, taken or not, up to the end of 64 bits.
fn lo(dice: &mut Dice, tuner: &Tuner) -> u64 {
    let m = 2 << dice.below(6);
    match dice.below(7) {
        0 => near(dice, &RANGES),
        6 => {
            // Hardly any fraction: a product just above a whole N.
            let (step, product) = (2 * tuner.corrected as u64, dice.within(1_770_000_000, 3_599_999_999));
            (product / step * step + dice.below(4_000)).div_ceil(m)
        }
        1 => {
            // N one less, at, and one more than the most and the least that is taken.
            let most = dice.pick(&[if tuner.kind == 1 { 128 } else { 64 }, 13]);
            (2 * tuner.corrected as u64 * most / m).wrapping_add(dice.below(5)).wrapping_sub(2)
        }
        2 => near(dice, &[1 << 58, 1 << 59, 1 << 63, 0]),
        3 => {
            // A product that wraps into the band at divider m.
            let inside = dice.within(1_770_000_000, 3_599_999_999) / m;
            (64 / m * dice.within(1, m - 1)).wrapping_shl(58).wrapping_add(inside)
        }
        4 => dice.within(27_656_250, 1_799_999_999),
        _ => dice.spread(),
    }
}

/// An hz for this record: an edge of its own, or one that makes its lo an edge (past 2^64 where its IF is large).
fn hz(dice: &mut Dice, record: &[u8]) -> u64 {
    let Some(tuner) = Tuner::read(record) else { return dice.spread() };
    match dice.below(5) {
        0 => near(dice, &[0, 1, 1 << 32, 1 << 58, 1 << 63, u64::MAX]),
        1 => near(dice, &ROWS.map(|mhz| mhz * MHZ)),
        2 => 0u64.wrapping_sub(tuner.intermediate).wrapping_add(dice.below(4)).wrapping_sub(1),
        _ => lo(dice, &tuner).wrapping_sub(tuner.intermediate),
    }
}

/// dB by its bits: halves between steps, the ends of i32, NaN of any pattern, infinities, zeros.
fn db(dice: &mut Dice) -> u64 {
    let bits = match dice.below(4) {
        0 => {
            let at = dice.below(28) as usize;
            ((page::STEPS[at] + page::STEPS[at + 1]) as f32 / 20.0).to_bits().wrapping_add(dice.below(5) as u32).wrapping_sub(2)
        }
        1 => 0xcd4c_cccc_u32.wrapping_add(dice.below(7) as u32).wrapping_sub(3),
        2 => dice.pick(&[0x7fc0_0000, 0x7f80_0001, 0xffc0_0000, 0xffff_ffff, 0x7f80_0000, 0xff80_0000, 0, 0x8000_0000, 1, 0xcd00_0000]),
        _ => 0x4d4c_cccc_u32.wrapping_add(dice.below(7) as u32).wrapping_sub(3),
    };
    bits as u64
}

/// A correction about the ends of what this nominal reference takes.
fn ppm(dice: &mut Dice, nominal: u64) -> u32 {
    let upper = ((1u64 << 32).saturating_sub(nominal) as i128 * 1_000_000 / nominal.max(1) as i128).min(i32::MAX as i128) as i32;
    let middle = dice.pick(&[-1_000_000, upper, 0, i32::MAX, i32::MIN, 148_130_809]);
    middle.wrapping_add(dice.below(5) as i32).wrapping_sub(2) as u32
}

fn nominal(dice: &mut Dice) -> u64 {
    if dice.yes() { near(dice, &[0, 28_800_000, 1 << 32, u64::MAX]) } else { dice.spread() }
}

fn rate(dice: &mut Dice) -> u64 {
    if dice.below(6) == 0 {
        return 0;
    }
    near(dice, &[2, 225_000, 300_000, 900_000, MHZ, 2_500_000, 6 * MHZ, 7 * MHZ, (1 << 32) - 3])
}

fn xtal(dice: &mut Dice) -> u64 {
    if dice.yes() { near(dice, &[2, 28_800_000, (1 << 32) - 3]) } else { 0 }
}

/// A rate about the ends of what is held with this reference: ratios of 2^27, 3 * 2^27, 2^29 and 4.
fn held(dice: &mut Dice, xtal: u64) -> u64 {
    near(dice, &[xtal / 32, xtal / 96, xtal / 128, xtal << 20])
}

const BANDS: [u64; 8] = [2_200_000, 28_800_000, 85_000_000, 112_000_000, 172_000_000, 242_000_000, 250_000_000, u64::MAX - 28_800_000];

/// lo, reference and kind of the two leaves of #111: those of a tune, on a record with such a reference.
fn figures(dice: &mut Dice) -> (u64, u64, u64) {
    let reference = match dice.below(4) {
        0 => xtal(dice),
        1 => near(dice, &[68_076_924, 138_461_538, 16_000_000, 7_031_250]),
        2 => dice.within(60_000_000, 150_000_000),
        _ => 28_800_000,
    };
    let kind = dice.below(2) as u8;
    let tuner = Tuner::fresh(kind, (reference as u32).max(1), 0x74);
    (lo(dice, &tuner), reference, if dice.below(6) == 0 { dice.pick(&[2, 255, 256, 1 << 32, u64::MAX]) } else { kind as u64 })
}

/// An hz about an end of one of the table's bands, or that its shift puts at 0, at an edge of the record's tune, or past an end of 64 bits.
fn hop(dice: &mut Dice, case: &Case) -> u64 {
    let bands = case.input.as_chunks::<BAND>().0;
    if bands.is_empty() {
        return dice.spread();
    }
    let band = &bands[dice.below(bands.len() as u64) as usize];
    let number = |at: usize| u64::from_le_bytes(*band[at..].first_chunk().unwrap());
    match dice.below(3) {
        0 => near(dice, &[number(0), number(8), 0u64.wrapping_sub(number(16))]),
        1 => hz(dice, &case.tuner).wrapping_sub(number(16)),
        _ => number(0).saturating_add(dice.spread() % number(8).abs_diff(number(0)).max(1)),
    }
}

/// Puts edges in the place of a case's arguments. Its records are there already.
pub fn arguments(case: &mut Case, dice: &mut Dice) {
    match case.call {
        1 => (case.a, case.b) = (dice.pick(&[0, 1, 2, 3, 255, 256, 1 << 32, u64::MAX]), nominal(dice)),
        3 => case.a = hz(dice, &case.tuner),
        4 => case.a = db(dice),
        5 => case.a = near(dice, &[0, 28, 256, 1 << 32, u64::MAX]),
        6 => case.a = near(dice, &[0, 6 * MHZ, 7 * MHZ, (1 << 32) - 3]),
        7 => case.a = near(dice, &[0, 3_500_000, 1 << 58, u64::MAX]),
        8 | 20 => case.a = dice.pick(&[0, 1, 2, 3, 4, 255, 256, u64::MAX]),
        11 => case.a = dice.pick(&[0, 1, 2, 255]),
        16 => {
            (case.a, case.c) = (nominal(dice), dice.pick(&[0, 1, 1, 2, 256, 1 << 32, u64::MAX]));
            case.d = ppm(dice, case.a);
        }
        41 => {
            let nominals = [Tuner::read(&case.tuner).map(|tuner| tuner.nominal), Driver::read(&case.driver).map(|driver| driver.nominal)];
            let nominal = dice.pick(&nominals).unwrap_or(1);
            case.d = ppm(dice, nominal as u64);
        }
        19 if dice.yes() => {
            let driver = Driver::read(&case.driver);
            case.a = held(dice, driver.and_then(|driver| page::corrected(driver.nominal, driver.ppm)).unwrap_or(1) as u64);
        }
        19 => case.a = rate(dice),
        26 => (case.a, case.b) = (near(dice, &[0, 16]), near(dice, &[0, 0x100])),
        27 | 34 => (case.a, case.b) = (near(dice, &[0, 3_570_000, 28_800_000, 1 << 32]), xtal(dice)),
        28 if dice.yes() => case.a = held(dice, case.b),
        28 | 35 => (case.a, case.b) = (rate(dice), xtal(dice)),
        31 | 32 => (case.a, case.b) = (dice.pick(&[7, 8, 9, 16, 128, 255]), dice.pick(&[0, 1, 2, 255])),
        33 => (case.a, case.c) = (near(dice, &BANDS), dice.pick(&[0, 1, 1, 1, 2, 255, 256, u64::MAX])),
        39 | 40 => (case.a, case.b, case.c) = figures(dice),
        42 => case.a = hop(dice, case),
        _ => {}
    }
}
