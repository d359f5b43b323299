//! Random calls against document 01's rules: `mass N` runs N tunes, gains, corrections, IFs, ratios and rates and compares
//! the whole answer: refusal, value, every entry, the record afterwards.
use harness::answer::answer;
use harness::case::{By, Case};
use harness::cases::{self, plain};
use harness::dice::Dice;
use harness::records::{Driver, Tuner};
use harness::tally::Tally;
use harness::{page, requests, steps};

fn tunes(n: u64, dice: &mut Dice, tally: &mut Tally) -> [u64; 3] {
    let mut seen = [0; 3]; // taken, refused in the PLL, refused before
    for _ in 0..n {
        let mut tuner = cases::random_tuner(dice);
        if dice.below(16) == 0 {
            tuner.corrected = dice.within(1, u32::MAX as u64) as u32;
        }
        let hz = if dice.below(10) == 0 { dice.spread() } else { dice.within(20_000_000, 1_850_000_000) };
        let replies = dice.bytes(35);
        let (refusal, line) = steps::tune(&tuner, hz, &replies);
        let found = answer(&Case { a: hz, tuner: tuner.bytes(), replies, ..plain(3) });
        let before = line.entries.is_empty();
        seen[if refusal == 0 {
            0
        } else if before {
            2
        } else {
            1
        }] += 1;
        let expected = (
            refusal,
            if refusal == 0 { hz } else { 0 },
            (!before).then(|| page::section(&line.entries)),
            (!before).then(|| line.tuner.bytes()),
        );
        tally.same((found.refusal, found.value, found.section, found.tuner), expected, || format!("tune {hz} on {tuner:?}"));
    }
    seen
}

fn gains(n: u64, dice: &mut Dice, tally: &mut Tally) -> u64 {
    let mut over = 0;
    for _ in 0..n {
        let tuner = cases::random_tuner(dice);
        let bits = match dice.below(4) {
            0 => dice.throw() as u32,
            1 => 0xcd4c_cccc_u32.wrapping_add(dice.below(64) as u32).wrapping_sub(32), // about the end of i32
            _ => (dice.within(0, 1200) as f32 / 20.0 - 5.0).to_bits().wrapping_add(dice.below(3) as u32),
        };
        let index = page::nearest(page::tenths(f32::from_bits(bits)));
        let line = steps::gain(&tuner, index);
        let found = answer(&Case { a: bits as u64, tuner: tuner.bytes(), ..plain(4) });
        over += (found.by != By::Rust) as u64;
        let expected = (0, page::step(index) as u64, Some(page::section(&line.entries)), Some(line.tuner.bytes()));
        tally.same((found.refusal, found.value, found.section, found.tuner), expected, || format!("gain {bits:#x}"));
    }
    over
}

/// Document 02's correction (#109), with a driver of the same nominal, of one beside it, or of any: both records, or 4 and neither.
fn both(tuner: &Tuner, ppm: i32, dice: &mut Dice, tally: &mut Tally) {
    let near = tuner.nominal.saturating_add(dice.below(3) as u32);
    let nominal = if dice.below(3) == 0 { (dice.spread() as u32).max(1) } else { near };
    let driver = Driver { nominal, ppm: 0, ..cases::random_driver(dice) };
    let found = requests::answer(&Case { d: ppm as u32, tuner: tuner.bytes(), driver: driver.bytes(), ..plain(41) });
    let wanted = match (page::corrected(tuner.nominal, ppm), page::corrected(nominal, ppm)) {
        (Some(corrected), Some(_)) => (0, Some(Tuner { corrected, ..tuner.clone() }.bytes()), Some(Driver { ppm, ..driver }.bytes())),
        _ => (4, None, None),
    };
    tally.same((found.refusal, found.tuner, found.driver), wanted, || format!("{ppm} ppm of {} and {nominal}", tuner.nominal));
}

fn references(n: u64, dice: &mut Dice, tally: &mut Tally) -> u64 {
    let mut refused = 0;
    for _ in 0..n {
        let nominal = (dice.spread() as u32).max(1);
        let ppm = if dice.yes() { dice.throw() as i32 } else { dice.spread() as u32 as i32 >> dice.below(20) };
        let tuner = Tuner::fresh(1, nominal, 0x74);
        let found = answer(&Case { d: ppm as u32, tuner: tuner.bytes(), ..plain(10) });
        let wanted = page::corrected(nominal, ppm);
        refused += wanted.is_none() as u64;
        let next = wanted.map(|corrected| Tuner { corrected, ..tuner.clone() }.bytes());
        tally.same((found.refusal, found.tuner), (if wanted.is_some() { 0 } else { 4 }, next), || format!("{ppm} ppm of {nominal}"));
        let driver = Driver { board: 0, nominal, ppm, frequency: 0, rate: 0, actual: 0 };
        let found = answer(&Case { driver: driver.bytes(), ..plain(18) });
        tally.same((found.refusal, found.value), (wanted.is_none() as u8, wanted.unwrap_or(0) as u64), || {
            format!("driver's {ppm} ppm of {nominal}")
        });
        both(&tuner, ppm, dice, tally);
    }
    refused
}

fn ratios(n: u64, dice: &mut Dice, tally: &mut Tally) {
    for _ in 0..n {
        let (hz, rate) = (dice.spread() as u32, (dice.spread() as u32).max(1));
        let xtal = if dice.yes() { dice.within(28_000_000, 29_000_000) as u32 } else { (dice.spread() as u32).max(1) };
        let [_, h, m, l] = page::if_ratio(hz, xtal).to_be_bytes();
        let found = answer(&Case { a: hz as u64, b: xtal as u64, ..plain(34) });
        tally.same(found.answered, vec![h, m, l], || format!("if_freq_regs({hz}, {xtal})"));
        let [_, h, m, l] = page::if_negative(hz, xtal).to_be_bytes();
        let found = answer(&Case { a: hz as u64, b: xtal as u64, ..plain(27) }).section.unwrap();
        tally.same([found[8], found[24], found[40]], [h, m, l], || format!("set_if_freq_xtal({hz}, {xtal})"));
        let ratio = page::rate_ratio(rate, xtal).to_be_bytes();
        let found = answer(&Case { a: rate as u64, b: xtal as u64, ..plain(28) }).section.unwrap();
        tally.same([found[8], found[9], found[24], found[25]], ratio, || format!("set_sample_rate_xtal({rate}, {xtal})"));
        let whole = ((xtal as u128) << 22) / rate as u128;
        let wanted = [(whole >> 24) as u8 & 0x3f, (whole >> 16) as u8, (whole >> 8) as u8, whole as u8];
        let found = answer(&Case { a: rate as u64, b: xtal as u64, ..plain(35) });
        tally.same(found.answered, wanted.to_vec(), || format!("resample_regs({rate}, {xtal})"));
    }
}

fn intermediates(n: u64, dice: &mut Dice, tally: &mut Tally) {
    for _ in 0..n {
        let tuner = cases::random_tuner(dice);
        let hz = if dice.yes() { dice.within(3_499_990, 3_500_010) } else { dice.spread() };
        let mut line = steps::Line::new(&tuner);
        steps::intermediate(&mut line, hz);
        let found = answer(&Case { a: hz, tuner: tuner.bytes(), ..plain(7) });
        let expected = (0, Some(page::section(&line.entries)), Some(line.tuner.bytes()));
        tally.same((found.refusal, found.section, found.tuner), expected, || format!("IF {hz}"));
    }
}

fn rates(n: u64, dice: &mut Dice, tally: &mut Tally) {
    for _ in 0..n {
        let (tuner, driver) = (cases::random_tuner(dice), cases::random_driver(dice));
        let rate = if dice.below(8) == 0 { (dice.throw() as u32).max(1) } else { dice.within(1, 8_000_000) as u32 };
        let line = steps::sample_rate(&tuner, &driver, rate);
        let found = answer(&Case { a: rate as u64, tuner: tuner.bytes(), driver: driver.bytes(), ..plain(19) });
        let expected = (0, Some(page::section(&line.entries)), Some(line.tuner.bytes()), Some(Driver { rate, ..driver }.bytes()));
        tally.same((found.refusal, found.section, found.tuner, found.driver), expected, || format!("rate {rate}"));
    }
}

fn main() {
    let n = std::env::args().nth(1).and_then(|text| text.parse().ok()).unwrap_or(300_000);
    let (mut dice, mut tally) = (Dice(0x6d61_7373), Tally::default());
    let [taken, late, early] = tunes(n, &mut dice, &mut tally);
    let over = gains(n, &mut dice, &mut tally);
    let refused = references(n, &mut dice, &mut tally);
    ratios(n, &mut dice, &mut tally);
    intermediates(n, &mut dice, &mut tally);
    rates(n, &mut dice, &mut tally);
    let detail = format!(
        "; {n} each of tune ({taken} taken, {late} refused in the PLL, {early} before), gain ({over} past the Rust), ppm ({refused} refused), IF, ratios, sample rate"
    );
    tally.end("mass", detail)
}
