//! Refused inputs: too little lent, damaged records, and which refusal stands first.
use super::{MHZ, TUNED, numbers, plain};
use crate::answer::{takes_driver, takes_tuner};
use crate::case::Case;
use crate::page;
use crate::records::{Driver, Tuner};

/// Too little lent, one at a time and together: 8 stands before 9, 9 before 10, and all of them after the arguments.
fn short(case: &Case) -> Vec<Case> {
    let mut all = Vec::new();
    let mut with = |change: &dyn Fn(&mut Case)| {
        let mut next = case.clone();
        change(&mut next);
        if next != *case {
            all.push(next);
        }
    };
    with(&|c| c.room -= 1);
    with(&|c| c.room = 0);
    with(&|c| c.outcomes.truncate(c.outcomes.len().saturating_sub(1)));
    with(&|c| c.replies.truncate(c.replies.len().saturating_sub(1)));
    with(&|c| {
        c.room = 7;
        c.outcomes.clear();
        c.replies.clear();
    });
    with(&|c| {
        c.outcomes.clear();
        c.replies.clear();
    });
    all
}

/// Records that document 01 refuses with 1, and two NaN-like patterns that it takes (the last two).
pub fn damaged_tuners() -> Vec<Vec<u8>> {
    let good = Tuner::fresh(1, 28_800_000, 0x74).bytes();
    let mut all = Vec::new();
    let mut with = |places: &[(usize, u8)]| {
        let mut next = good.clone();
        for &(at, byte) in places {
            next[at] = byte;
        }
        all.push(next);
    };
    for kind in [2, 5, 255] {
        with(&[(0, kind)]);
    }
    with(&[(29, 0), (30, 0), (31, 0), (32, 0)]); // nominal 0
    with(&[(33, 0), (34, 0), (35, 0), (36, 0)]); // corrected 0
    with(&[(37, 2)]);
    with(&[(37, 255)]);
    for bits in [0x7fc0_0001u32, 0xffc0_0000, 0x7f80_0001, 0xffff_ffff] {
        let b = bits.to_le_bytes();
        with(&[(38, b[0]), (39, b[1]), (40, b[2]), (41, b[3])]);
    }
    with(&[(50, 2)]); // notch
    for place in [51, 64, 77] {
        with(&[(place, 2)]); // doubtful: the first, one between, the last
    }
    with(&[(38, 0), (39, 0), (40, 0xc0), (41, 0x7f)]);
    with(&[(38, 0), (39, 0), (40, 0x80), (41, 0x7f)]);
    all.insert(0, good[..77].to_vec());
    all.insert(0, [good, vec![0]].concat());
    all
}

pub fn damaged_drivers() -> Vec<Vec<u8>> {
    let good = Driver { board: 1, nominal: 28_800_000, ppm: 5, frequency: TUNED, rate: 2_048_000, actual: 2_048_000 };
    let changed = |change: &dyn Fn(&mut Driver)| {
        let mut next = good.clone();
        change(&mut next);
        next.bytes()
    };
    vec![
        good.bytes()[..28].to_vec(),
        good.bytes()[..21].to_vec(),
        [good.bytes(), vec![0]].concat(),
        changed(&|d| d.board = 2),
        changed(&|d| d.board = 255),
        changed(&|d| d.nominal = 0),
        changed(&|d| d.ppm = -1_000_000),
        changed(&|d| d.ppm = i32::MIN),
        changed(&|d| d.ppm = 148_130_809),
        changed(&|d| d.rate = 0),
        changed(&|d| d.frequency = 0),
    ]
}

pub fn refused_and_damaged(all: &mut Vec<Case>) {
    for call in numbers().skip(1) {
        let case = plain(call);
        if page::most(call).is_some() || page::answered(call).is_some() {
            all.extend(short(&case));
        }
        // Every damage on some calls, a few on each.
        let (tuners, drivers) = (damaged_tuners(), damaged_drivers());
        for (i, tuner) in tuners.into_iter().enumerate() {
            if takes_tuner(call) && (matches!(call, 3 | 13 | 41) || i % 6 == call as usize % 6) {
                all.push(Case { tuner, ..case.clone() });
            }
        }
        for driver in drivers {
            if takes_driver(call) {
                all.push(Case { driver, ..case.clone() });
            }
        }
    }
    order(all);
}

/// Which refusal stands first where several apply.
fn order(all: &mut Vec<Case>) {
    let mut bad_record = plain(3);
    (bad_record.tuner[0], bad_record.a, bad_record.room) = (2, 0, 0);
    let bad_path = Case { a: 3, room: 0, ..plain(8) };
    let bad_hz = Case { a: 0, room: 0, outcomes: vec![], replies: vec![], ..plain(3) };
    let mut wide = Tuner::fresh(0, 16_000_000, 0x34);
    wide.intermediate = u64::MAX;
    let wrapping = Case { a: 1, room: 0, tuner: wide.bytes(), ..plain(3) };
    let late = Case { a: 3_000 * MHZ, room: 855, ..plain(3) }; // a PLL refusal comes after the steps began
    let bad_rate = Case { a: 0, room: 0, ..plain(19) };
    let mut bad_driver = Case { a: 0, ..plain(19) };
    bad_driver.driver[0] = 2;
    let rate_first = [28, 35].map(|call| Case { a: 0, b: 0, room: 0, ..plain(call) });
    let reference = [27, 28, 34, 35].map(|call| Case { b: 0, room: 0, ..plain(call) });
    let pins = [31, 32].map(|call| Case { a: 8, room: 0, replies: vec![], ..plain(call) });
    let board = Case { c: 2, room: 0, ..plain(33) };
    let made = Case { c: 2, d: (-1_000_000i32) as u32, ..plain(16) };
    all.extend([bad_record, bad_path, bad_hz, wrapping, late, bad_rate, bad_driver, board, made]);
    all.extend(rate_first);
    all.extend(reference);
    all.extend(pins);
    let mut one = Case { tuner: Tuner::fresh(0, 16_000_000, 0x34).bytes(), room: 0, outcomes: vec![], ..plain(8) };
    all.push(one.clone()); // R820T's input path looks at no lent memory
    one.a = 3;
    all.push(one);
}
