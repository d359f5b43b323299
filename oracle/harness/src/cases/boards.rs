//! Document 02, #113: the board tune (42), and the sample rate by a table (19).
use super::{MHZ, around, at_every_step, built_in, plain, random_tuner, replies_for};
use crate::case::Case;
use crate::dice::Dice;
use crate::records::{Driver, Tuner};
use crate::tables::{self, Band};

/// A converter of our own: another shift, paths and notches that no built-in board has, a gap, a band that shifts down, one that shifts past both ends.
pub fn own() -> Vec<Band> {
    let band = |first, last, shift, rest| Band { first, last, shift, rest };
    vec![
        band(0, 9_999, -5_000, [1, 3, 0]),
        band(10_000, 29_999_999, 120_000_000, [1, 0, 1]),
        band(50 * MHZ, 99_999_999, 0, [0, 3, 1]),
        band(100 * MHZ, 400 * MHZ, -60_000_000, [1, 2, 0]),
        band(400 * MHZ + 1, 500 * MHZ, i64::MIN, [1, 1, 0]),
        band(1_000 * MHZ, 1_700 * MHZ, 100_000_000, [0, 1, 1]),
        band(1 << 63, u64::MAX - 1, i64::MAX, [1, 0, 0]),
        band(u64::MAX, u64::MAX, -1, [0, 2, 0]),
    ]
}

/// Tables that 19 refuses, one of each kind, and one at each end of what is taken.
pub fn malformed() -> Vec<Vec<u8>> {
    let own = own();
    let with = |change: &dyn Fn(&mut Vec<Band>)| {
        let mut bands = own.clone();
        change(&mut bands);
        tables::bytes(&bands)
    };
    let many = |n: u64| -> Vec<u8> { (0..n).flat_map(|i| Band { first: i, last: i, shift: 0, rest: [0, 3, 0] }.bytes()).collect() };
    let mut all = vec![
        built_in(1)[..215].to_vec(),
        [built_in(1), vec![0]].concat(),
        vec![0; 26],
        many(17),
        with(&|bands| (bands[0].first, bands[0].last) = (1, 0)),
        with(&|bands| bands[7].first = u64::MAX - 1),
        with(&|bands| bands[1].first = 9_999),
        with(&|bands| bands.swap(2, 3)),
        with(&|bands| bands.push(bands[7])),
    ];
    for place in [0, 7] {
        for (at, byte) in [(0, 2), (0, 255), (1, 4), (1, 255), (2, 2), (2, 255)] {
            all.push(with(&|bands| bands[place].rest[at] = byte));
        }
    }
    all
}

/// Bands of any kind, ascending, mostly within what a tuner reaches.
pub fn random_table(dice: &mut Dice) -> Vec<u8> {
    let mut first = dice.below(3) * dice.below(30 * MHZ);
    let count = dice.below(17);
    let mut bands = vec![];
    for _ in 0..count {
        let last = first + dice.below(250 * MHZ);
        let shift = match dice.below(6) {
            0 => dice.throw() as i64,
            1 => -(dice.below(first.max(1)) as i64),
            2 | 3 => 0,
            _ => dice.below(200 * MHZ) as i64,
        };
        bands.push(Band { first, last, shift, rest: [dice.below(2) as u8, dice.below(4) as u8, dice.below(2) as u8] });
        first = last + 1 + dice.below(2) * dice.below(20 * MHZ);
    }
    tables::bytes(&bands)
}

/// A board tune with everything drawn but its records, which are.
pub fn random(case: &mut Case, dice: &mut Dice) {
    case.input = match dice.below(8) {
        0 => built_in(0),
        1 | 2 => built_in(1),
        3 => tables::bytes(&own()),
        4 if dice.below(4) == 0 => {
            let all = malformed();
            all[dice.below(all.len() as u64) as usize].clone()
        }
        _ => random_table(dice),
    };
    case.a = if dice.below(12) == 0 { dice.spread() } else { dice.within(0, 1_800 * MHZ) };
    let lock = if dice.below(10) == 0 { None } else { Some(dice.below(10).min(dice.below(10)) as usize) };
    case.replies = [dice.bytes(3), replies_for(dice.below(4) as u8, lock, dice.byte())].concat();
}

fn hop(table: &[u8], hz: u64, tuner: &Tuner) -> Case {
    let replies = [vec![0xff, 0, 0xff], replies_for(1, Some(0), 0)].concat();
    Case { a: hz, input: table.to_vec(), tuner: tuner.bytes(), replies, ..plain(42) }
}

pub fn boards(all: &mut Vec<Case>) {
    let mut dice = Dice(0x626f_6172_6473);
    let own = tables::bytes(&own());
    let kinds = [0, 1].map(|kind| Tuner::fresh(kind, 28_800_000, 0x74));
    all.push(plain(42));
    // Both built-in boards and our own at every edge, on both kinds by turns; what is between the bands and shifted out among them.
    for (table, edges) in [
        (built_in(0), vec![0, 1, 100 * MHZ]),
        (built_in(1), vec![0, 2_200_000, 28_799_999, 84_999_999, 112_000_000, 171_999_999, 242_000_000, 249_999_999]),
        (
            own.clone(),
            vec![
                4_999,
                9_999,
                29_999_999,
                50 * MHZ,
                100 * MHZ,
                400 * MHZ,
                500 * MHZ,
                1_000 * MHZ,
                1_699_999_999,
                1 << 63,
                u64::MAX - 1,
                u64::MAX,
            ],
        ),
    ] {
        for (i, hz) in edges.into_iter().flat_map(around).enumerate() {
            all.push(hop(&table, hz, &kinds[i % 2]));
        }
        for hz in [7 * MHZ, 60 * MHZ, 200 * MHZ, 1_090 * MHZ] {
            all.extend(kinds.iter().map(|tuner| hop(&table, hz, tuner)));
        }
    }
    // Every entry of the longest run, of one without a path, of R820T's, and of a late 2, fails in turn; two at once too.
    let longest = plain(42);
    all.extend(at_every_step(&longest));
    let quick = hop(&own, 200 * MHZ, &random_tuner_of(1, &mut dice));
    all.extend(at_every_step(&quick).into_iter().take(36));
    let direct = hop(&own, 60 * MHZ, &random_tuner_of(1, &mut dice));
    all.extend(at_every_step(&direct).into_iter().take(26));
    all.extend(at_every_step(&hop(&built_in(1), 7 * MHZ, &random_tuner_of(0, &mut dice))).into_iter().take(26));
    for tuner in [&kinds[0], &kinds[1]] {
        let late = hop(&own, 1_699 * MHZ, &Tuner { notch: true, lock: true, ..tuner.clone() });
        all.extend(at_every_step(&late).into_iter().take(24));
    }
    for (step, other) in [(1, 0), (8, 9), (9, 63), (12, 13), (9, 62), (62, 63), (10, 11)] {
        let mut case = longest.clone();
        (case.outcomes[step], case.outcomes[other]) = (1, 1);
        all.push(case);
    }
    all.push(Case { outcomes: vec![1; 64], ..longest.clone() });
    refused(all, &own, &kinds[1]);
    late(all, &kinds);
    rates(all, &own);
    all.extend((0..100).map(|_| super::random(42, &mut dice)));
}

fn random_tuner_of(kind: u8, dice: &mut Dice) -> Tuner {
    Tuner { kind, corrected: 28_800_000, intermediate: 2_300_000, ..random_tuner(dice) }
}

/// Each refusal, and which stands first.
fn refused(all: &mut Vec<Case>, own: &[u8], tuner: &Tuner) {
    let good = hop(own, 200 * MHZ, tuner);
    let none = Case { room: 0, outcomes: vec![], replies: vec![], ..good.clone() };
    all.extend(malformed().into_iter().map(|input| Case { input, ..good.clone() }));
    all.extend([Case { input: vec![], ..good.clone() }, Case { input: vec![1], ..none.clone() }]);
    let (mut bad_tuner, mut bad_driver) = (tuner.bytes(), good.driver.clone());
    (bad_tuner[0], bad_driver[0]) = (2, 2);
    all.extend([
        Case { tuner: bad_tuner, input: vec![1], ..none.clone() },
        Case { driver: bad_driver, input: vec![1], ..none.clone() },
        Case { tuner: vec![], ..good.clone() },
        Case { driver: vec![], ..good.clone() },
        Case { input: vec![1], a: 40 * MHZ, ..none.clone() },
        Case { a: 40 * MHZ, ..none.clone() },
        Case { a: 5_000, ..none.clone() },
        none.clone(),
        Case { room: 1_031, ..good.clone() },
        Case { room: 1_056, ..good.clone() },
        Case { room: 1_032, ..none.clone() },
        Case { outcomes: vec![0; 63], replies: vec![], ..good.clone() },
        Case { replies: vec![0; 37], ..good.clone() },
        Case { replies: vec![], ..good.clone() },
        // On R820T and without a path too, all of it is asked for.
        Case { replies: vec![0; 37], tuner: Tuner { kind: 0, ..tuner.clone() }.bytes(), ..good.clone() },
        Case { replies: vec![0; 35], a: 60 * MHZ, ..good.clone() },
    ]);
    for intermediate in [0, 1, u64::MAX - 200 * MHZ, u64::MAX] {
        let tuner = Tuner { intermediate, ..tuner.clone() };
        all.extend([5_000, 5_001, 260 * MHZ, 260 * MHZ + 1, u64::MAX].map(|hz| hop(own, hz, &tuner)));
    }
}

/// The PLL's refusals: past the band, below it, past 64 bits, N below 13 and N too large.
fn late(all: &mut Vec<Case>, kinds: &[Tuner; 2]) {
    for tuner in kinds {
        let wide = Tuner { intermediate: 1 << 60, ..tuner.clone() };
        let low = Tuner { corrected: 100_000_000, ..tuner.clone() };
        let high = Tuner { corrected: 6_914_062, ..tuner.clone() };
        for (tuner, hz) in
            [(tuner, 1_797_700_000), (tuner, 20 * MHZ), (tuner, 1 << 62), (&wide, 100 * MHZ), (&low, 882_700_000), (&high, 900 * MHZ)]
        {
            all.push(hop(&built_in(0), hz, tuner));
            all.push(hop(&built_in(1), hz, tuner));
        }
    }
}

/// The sample rate's last byte by tables, at the driver's frequency: bands, gaps, shifted out, none; and 19 between 1 and 3.
fn rates(all: &mut Vec<Case>, own: &[u8]) {
    let given = |board: u8, frequency: u64| Driver { board, nominal: 28_800_000, ppm: -3, frequency, rate: 1, actual: 1 }.bytes();
    for hz in [
        0,
        4_999,
        5_000,
        9_999,
        10_000,
        29_999_999,
        30 * MHZ,
        60 * MHZ,
        200 * MHZ,
        450 * MHZ,
        1_100 * MHZ,
        1 << 63,
        (1 << 63) + 1,
        u64::MAX - 1,
        u64::MAX,
    ] {
        all.push(Case { driver: given((hz % 2) as u8, hz), input: own.to_vec(), ..plain(19) });
    }
    for (board, table) in [(0, 1), (1, 0), (0, 0), (1, 1)] {
        all.extend([7 * MHZ, 28_799_999, 28_800_000, 100 * MHZ].map(|hz| Case {
            driver: given(board, hz),
            input: built_in(table),
            ..plain(19)
        }));
    }
    all.push(Case { input: vec![], ..plain(19) });
    all.extend(malformed().into_iter().map(|input| Case { input, ..plain(19) }));
    let bad = Case { input: vec![1], ..plain(19) };
    all.extend([
        Case { a: 0, room: 0, ..bad.clone() },
        Case { a: 600_000, ..bad.clone() },
        Case { driver: vec![], ..bad.clone() },
        Case { tuner: vec![], ..bad.clone() },
        Case { a: 0, room: 0, ..plain(19) },
        Case { a: 600_000, room: 0, ..plain(19) },
    ]);
    all.extend(at_every_step(&Case { driver: given(1, 200 * MHZ), input: own.to_vec(), ..plain(19) }));
}
