//! Which frequencies a tuner reaches, and which rates a driver takes, by the library's own answers.
//!
//! The divider of the oscillator changes at lo = 1,770,000,000 / m, m from 64 down to 2, and none is left from 1,800,000,000 on; lo is the tuner's Hz plus
//! the IF. Between two such borders N grows with lo, and a bound on N cuts off one end of the stretch at most (both ends at once would want a reference
//! above and below the same Hz). So where the two ends answer alike the stretch does, and where they do not, halving finds the one border.
use pasetone::{Driver, Error, Script, Table, Tuner};
use std::ops::RangeInclusive;

const OSCILLATOR: u64 = 1_770_000_000;
const PAST: u64 = 1_800_000_000;

type Stretch = RangeInclusive<u64>;

/// The frequencies that the board of a table reaches with this tuner, ascending, none touching the next. Within a band the shift is one.
pub fn reached(tuner: &Tuner, table: &Table) -> Vec<Stretch> {
    let lo: Vec<u64> = [64, 32, 16, 8, 4, 2].iter().map(|m| OSCILLATOR.div_ceil(*m)).chain([PAST]).collect();
    let mut found = Vec::new();
    for band in table.bands() {
        let shift = i128::from(band.shift);
        // In Hz as they are asked for; 0 Hz for the tuner is none.
        let asked = |lo: u64| i128::from(lo) - i128::from(tuner.if_freq()) - shift;
        for border in lo.windows(2) {
            let low = asked(border[0]).max(1 - shift).max(band.first.into());
            let high = asked(border[1] - 1).min(band.last.into());
            if let (true, Ok(low), Ok(high)) = (low <= high, u64::try_from(low), u64::try_from(high)) {
                found.extend(stretch(low, high, |hz| is_reached(tuner, table, hz)));
            }
        }
    }
    joined(found)
}

/// The reached frequencies between two, of which one end at most is cut off.
fn stretch(low: u64, high: u64, reached: impl Fn(u64) -> bool) -> Option<Stretch> {
    match (reached(low), reached(high)) {
        (true, true) => Some(low..=high),
        (false, false) => None,
        (true, false) => Some(low..=border(low, high, reached)),
        (false, true) => Some(border(high, low, reached)..=high),
    }
}

/// The last reached one on the way from `inside`, which is, to `outside`, which is not.
fn border(mut inside: u64, mut outside: u64, reached: impl Fn(u64) -> bool) -> u64 {
    while inside.abs_diff(outside) > 1 {
        let middle = inside.midpoint(outside);
        if reached(middle) {
            inside = middle;
        } else {
            outside = middle;
        }
    }
    inside
}

fn is_reached(tuner: &Tuner, table: &Table, hz: u64) -> bool {
    table.plan_tuning(hz).is_ok_and(|plan| tuner.clone().set_frequency(plan.hz, &Script::all_done()).result != Err(Error::Frequency))
}

fn joined(mut found: Vec<Stretch>) -> Vec<Stretch> {
    found.sort_by_key(|stretch| *stretch.start());
    let mut whole: Vec<Stretch> = Vec::new();
    for next in found {
        match whole.last_mut() {
            Some(last) if next.start() - last.end() <= 1 => *last = *last.start()..=*next.end(),
            _ => whole.push(next),
        }
    }
    whole
}

/// The rates that are taken with a driver's reference, ascending. The ratio falls as the rate grows; what is held changes at 2^29, 3 * 2^27, 2^27 and 4.
pub fn rates(tuner: &Tuner, driver: &Driver) -> Vec<Stretch> {
    let table = driver.board().table();
    let is_taken = |rate: u64| driver.clone().set_sample_rate(&mut tuner.clone(), &table, rate as u32, &Script::all_done()).result.is_ok();
    let (reference, past) = (u64::from(driver.corrected_xtal_hz()), u64::from(u32::MAX) + 1);
    let borders =
        [1, reference / 128 + 1, reference / 96 + 1, reference / 32 + 1, (reference << 20) + 1, past].map(|border| border.min(past));
    let between = borders.windows(2).filter(|border| border[0] < border[1]);
    joined(between.filter_map(|border| stretch(border[0], border[1] - 1, is_taken)).collect())
}

/// The corrections that a tuner and its driver take, by the library's own answers: no correction is one of them.
pub fn corrections(tuner: &Tuner, driver: &Driver) -> (i32, i32) {
    let is_taken = |ppm: i64| i32::try_from(ppm).is_ok_and(|ppm| driver.clone().set_ppm(&mut tuner.clone(), ppm).is_ok());
    let last = |far: i64| {
        let (mut inside, mut outside) = (0, far);
        while (outside - inside).abs() > 1 {
            let middle = (inside + outside) / 2;
            if is_taken(middle) { inside = middle } else { outside = middle }
        }
        inside as i32
    };
    (last(i64::from(i32::MIN) - 1), last(i64::from(i32::MAX) + 1))
}

#[cfg(test)]
mod tests {
    use super::*;
    use pasetone::{Band, Board, TunerKind};

    fn tuner(kind: TunerKind, reference: u32) -> Tuner {
        Tuner::new(kind, 0x74, reference).unwrap()
    }

    /// The borders by document 01's rule: lo from 27,656,250 below 1,800,000,000, here with the IF of a fresh record.
    #[test]
    fn usual_reference() {
        for kind in [TunerKind::R828d, TunerKind::R820t] {
            assert_eq!(reached(&tuner(kind, 28_800_000), &Board::Generic.table()), [25_356_250..=1_797_699_999]);
            assert_eq!(reached(&tuner(kind, 28_800_000), &Board::V4.table()), [0..=1_797_699_999]);
        }
    }

    #[test]
    fn another_if() {
        let mut tuner = tuner(TunerKind::R828d, 28_800_000);
        tuner.set_if_freq(0, &Script::all_done()).result.unwrap();
        assert_eq!(reached(&tuner, &Board::Generic.table()), [27_656_250..=1_799_999_999]);
        tuner.set_if_freq(27_656_250, &Script::all_done()).result.unwrap();
        assert_eq!(reached(&tuner, &Board::Generic.table()), [1..=1_772_343_749]);
        tuner.set_if_freq(1_800_000_000, &Script::all_done()).result.unwrap();
        assert_eq!(reached(&tuner, &Board::Generic.table()), []);
        tuner.set_if_freq(u64::MAX, &Script::all_done()).result.unwrap();
        assert_eq!(reached(&tuner, &Board::V4.table()), []);
    }

    /// N = lo * m / 2R to 63: at 14,400,000 Hz lo * m is below 64 * 28,800,000 = 1,843,200,000, so each divider keeps the low end of its stretch.
    #[test]
    fn low_reference() {
        let tuner = tuner(TunerKind::R820t, 14_400_000);
        let wanted: Vec<Stretch> =
            [64, 32, 16, 8, 4, 2].iter().map(|m| OSCILLATOR.div_ceil(*m) - 2_300_000..=(1_843_200_000 - 1) / m - 2_300_000).collect();
        assert_eq!(reached(&tuner, &Board::Generic.table()), wanted);
        assert_eq!(wanted[0], 25_356_250..=26_499_999);
        assert_eq!(reached(&super::tests::tuner(TunerKind::R820t, 1), &Board::V4.table()), []);
    }

    /// N from 13: at 100,000,000 Hz lo * m is from 2,600,000,000, so each divider keeps the high end of its stretch. From 138,461,539 Hz on nothing is left.
    #[test]
    fn high_reference() {
        let last = [55_312_499, 110_624_999, 221_249_999, 442_499_999, 884_999_999, 1_799_999_999];
        let wanted: Vec<Stretch> =
            [64, 32, 16, 8, 4, 2].iter().zip(last).map(|(m, last)| 2_600_000_000 / m - 2_300_000..=last - 2_300_000).collect();
        for kind in [TunerKind::R820t, TunerKind::R828d] {
            assert_eq!(reached(&tuner(kind, 100_000_000), &Board::Generic.table()), wanted);
            assert_eq!(reached(&tuner(kind, 68_076_923), &Board::Generic.table()), [25_356_250..=1_797_699_999]);
            assert_eq!(reached(&tuner(kind, 68_076_924), &Board::Generic.table())[0], 25_356_251..=53_012_499);
            assert_eq!(reached(&tuner(kind, 138_461_538), &Board::Generic.table()), [1_797_699_994..=1_797_699_999]);
            assert_eq!(reached(&tuner(kind, 138_461_539), &Board::Generic.table()), []);
        }
    }

    /// Each border holds: the library takes it, and refuses what stands beside it.
    #[test]
    fn borders_hold() {
        for (kind, reference) in [
            (TunerKind::R820t, 14_400_000),
            (TunerKind::R828d, 7_000_000),
            (TunerKind::R828d, 13_950_000),
            (TunerKind::R820t, 28_800_000),
            (TunerKind::R820t, 100_000_000),
            (TunerKind::R828d, 68_076_924),
        ] {
            for board in [Board::Generic, Board::V4] {
                let (tuner, table) = (tuner(kind, reference), board.table());
                for stretch in reached(&tuner, &table) {
                    let (low, high) = (*stretch.start(), *stretch.end());
                    assert!(is_reached(&tuner, &table, low) && is_reached(&tuner, &table, high) && !is_reached(&tuner, &table, high + 1));
                    assert!(low == 0 || !is_reached(&tuner, &table, low - 1), "{low}");
                }
            }
        }
    }

    /// What is not in a stretch is refused: one frequency in each 9,973 is asked.
    #[test]
    fn nothing_else_is_reached() {
        for (kind, reference, board) in [
            (TunerKind::R820t, 14_400_000, Board::V4),
            (TunerKind::R828d, 7_000_000, Board::Generic),
            (TunerKind::R828d, 100_000_000, Board::V4),
        ] {
            let (tuner, table) = (tuner(kind, reference), board.table());
            let stretches = reached(&tuner, &table);
            for hz in (0..1_900_000_000).step_by(9_973) {
                assert_eq!(is_reached(&tuner, &table, hz), stretches.iter().any(|stretch| stretch.contains(&hz)), "{hz}");
            }
        }
    }

    /// A table's bands, each with its shift: below the first nothing, between the bands nothing, and what a shift takes below 0, to 0 or past the PLL is none.
    #[test]
    fn by_a_table() {
        let band = |first, last, shift| Band { first, last, shift, inverted: false, path: None, notch: false };
        let reached = |bands: &[Band]| reached(&tuner(TunerKind::R828d, 28_800_000), &Table::new(bands).unwrap());
        assert_eq!(reached(&[]), []);
        assert_eq!(reached(&[band(0, u64::MAX, 0)]), [25_356_250..=1_797_699_999]);
        assert_eq!(reached(&[band(2_400_000_000, 2_500_000_000, -2_000_000_000)]), [2_400_000_000..=2_500_000_000]);
        assert_eq!(reached(&[band(1_000, u64::MAX, -1_000)]), [25_357_250..=1_797_700_999]);
        assert_eq!(
            reached(&[band(0, 50_000_000, 1_760_000_000), band(60_000_000, 70_000_000, 0)]),
            [0..=37_699_999, 60_000_000..=70_000_000]
        );
        assert_eq!(reached(&[band(0, u64::MAX, i64::MIN)]), [(1 << 63) + 25_356_250..=(1 << 63) + 1_797_699_999]);
        assert_eq!(reached(&[band(0, u64::MAX, i64::MAX)]), []);
    }

    /// By document 02's rule: a ratio from 4 below 2^27, or from 3 * 2^27 below 2^29.
    #[test]
    fn rates_to_the_last() {
        let rates =
            |reference: u32, ppm: i32| rates(&tuner(TunerKind::R828d, 28_800_000), &Driver::new(Board::V4, reference, ppm, 0, 0).unwrap());
        let most = u64::from(u32::MAX);
        assert_eq!(rates(28_800_000, 0), [225_001..=300_000, 900_001..=most]);
        assert_eq!(rates(28_800_000, -1), [225_000..=299_999, 900_000..=most]);
        assert_eq!(rates(1, 0), [1..=1 << 20]);
        assert_eq!(rates(95, 0), [3..=95 << 20]);
        assert_eq!(rates(96, 0), [1..=1, 4..=96 << 20]);
        assert_eq!(rates(u32::MAX, 0), [33_554_432..=44_739_242, 134_217_728..=most]);
    }

    #[test]
    fn corrections_to_the_last() {
        let taken =
            |first: u32, second: u32| corrections(&tuner(TunerKind::R828d, first), &Driver::new(Board::V4, second, 0, 0, 0).unwrap());
        assert_eq!(taken(28_800_000, 28_800_000), (-999_999, 148_130_808));
        assert_eq!(taken(1, 1), (-999_999, i32::MAX));
        // The larger nominal decides, whosever it is.
        assert_eq!(taken(28_800_000, u32::MAX), (-999_999, 0));
        assert_eq!(taken(u32::MAX, 28_800_000), (-999_999, 0));
        assert_eq!(taken(1, 28_800_000), (-999_999, 148_130_808));
    }
}
