//! Document 02, #109: one correction of both records, or of neither.
use super::{MHZ, plain};
use crate::case::Case;
use crate::page;
use crate::records::{Driver, Tuner};

const NOMINALS: [u32; 7] = [1, 999_999, 1_000_000, 16_000_000, 28_800_000, 28_800_001, u32::MAX];
const PPMS: [i32; 12] = [0, 1, -1, 999_999, 1_000_000, -999_999, -1_000_000, -1_000_001, 148_130_808, 148_130_809, i32::MAX, i32::MIN];

/// Records of these nominals, the tuner's and the driver's, and a correction of both. A driver's own ppm must be one that its nominal takes.
fn at(first: u32, second: u32, ppm: i32) -> Case {
    let own = if second == u32::MAX { -3 } else { 5 };
    let driver = Driver { board: 0, nominal: second, ppm: own, frequency: 7 * MHZ, rate: 2_048_000, actual: 2_048_001 };
    Case { d: ppm as u32, tuner: Tuner::fresh(1, first, 0x74).bytes(), driver: driver.bytes(), ..plain(41) }
}

/// The largest correction that this nominal takes.
fn most(nominal: u32) -> i32 {
    let (mut taken, mut refused) = (0, i32::MAX);
    if page::corrected(nominal, refused).is_some() {
        return refused;
    }
    while refused - taken > 1 {
        let middle = taken + (refused - taken) / 2;
        *(if page::corrected(nominal, middle).is_some() { &mut taken } else { &mut refused }) = middle;
    }
    taken
}

pub fn both(all: &mut Vec<Case>) {
    for nominal in NOMINALS {
        all.extend(PPMS.map(|ppm| at(nominal, nominal, ppm)));
    }
    // Nominals of their own. Each pair stands both ways round: the larger one is out of range first, so that only the tuner's is, or only the driver's.
    let pairs = [(16_000_000, 28_800_000), (28_800_000, 28_800_001), (28_800_000, u32::MAX), (1, 28_800_000), (1, u32::MAX)];
    for (low, high) in pairs {
        let ends = [most(low), most(high)].into_iter().flat_map(|end| [end, end.saturating_add(1)]);
        for ppm in ends.chain([0, 1, -1, -999_999, -1_000_000, i32::MAX, i32::MIN]) {
            all.extend([at(low, high, ppm), at(high, low, ppm)]);
        }
    }
    kept(all);
    refused(all);
}

/// All other fields stay, and what was corrected before does not count: the references are worked out from the nominals.
fn kept(all: &mut Vec<Case>) {
    for kind in 0..2 {
        let fresh = Tuner::fresh(kind, 28_800_000, 0x34);
        let (intermediate, gain) = (u64::MAX, 0x7fc0_0000);
        let tuner =
            Tuner { shadow: [0x5a; 27], corrected: 1, lock: true, gain, intermediate, notch: true, doubtful: [kind == 0; 27], ..fresh };
        let driver = Driver { board: kind, nominal: 16_000_000, ppm: -999_999, frequency: u64::MAX, rate: u32::MAX, actual: u64::MAX };
        for ppm in [0, -1, 37, -999_999, -1_000_000, 148_130_808, 148_130_809] {
            all.push(Case { d: ppm as u32, tuner: tuner.bytes(), driver: driver.bytes(), ..plain(41) });
        }
    }
}

/// 1 for either record stands before 4 for either reference.
fn refused(all: &mut Vec<Case>) {
    for ppm in [37, -1_000_000] {
        let good = at(28_800_000, 28_800_000, ppm);
        let (mut tuner, mut driver) = (good.tuner.clone(), good.driver.clone());
        (tuner[0], driver[0]) = (2, 2);
        all.extend([Case { tuner: tuner.clone(), ..good.clone() }, Case { driver: driver.clone(), ..good.clone() }]);
        all.push(Case { tuner, driver, ..good.clone() });
        // The two in each other's place; none at all.
        all.push(Case { tuner: good.driver.clone(), driver: good.tuner.clone(), ..good.clone() });
        all.extend([Case { tuner: vec![], ..good.clone() }, Case { driver: vec![], ..good.clone() }]);
        // A driver that is none by its own correction is not mended by another; nor is a tuner whose corrected reference is 0.
        let given = Driver::read(&good.driver).expect("a record");
        all.push(Case { driver: Driver { ppm: -1_000_000, ..given }.bytes(), ..good.clone() });
        all.push(Case { tuner: Tuner { corrected: 0, ..Tuner::fresh(1, 28_800_000, 0x74) }.bytes(), ..good.clone() });
    }
    // Nothing else is lent, so nothing else is looked at.
    all.push(Case { room: 8, outcomes: vec![1; 3], replies: vec![7; 2], ..plain(41) });
}
