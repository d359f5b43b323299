//! Drawing a case: the records of a receiver that lives on from call to call (or any, or damaged ones), arguments, a script
//! with or without failures, and lent memory that is long enough or not.
use crate::edges;
use crate::given::{Given, hands_driver, hands_tuner};
use harness::answer::{takes_driver, takes_tuner};
use harness::case::Case;
use harness::cases::{self, MHZ, built_in, replies_for};
use harness::dice::Dice;
use harness::page;
use harness::records::{Driver, Tuner};
use harness::requests;

/// What a host would hold of one receiver: the records last handed back, and the last section made.
#[derive(Debug, Clone)]
pub struct Receiver {
    pub tuner: Vec<u8>,
    pub driver: Vec<u8>,
    pub section: Vec<u8>,
}

impl Receiver {
    pub fn fresh(dice: &mut Dice) -> Self {
        let nominal =
            if dice.below(4) == 0 { dice.within(1, u32::MAX as u64) as u32 } else { dice.pick(&[28_800_000, 28_800_000, 16_000_000]) };
        let tuner = Tuner::fresh(dice.below(2) as u8, nominal, dice.pick(&[0x34, 0x74]));
        let driver = Driver { board: dice.below(2) as u8, nominal, ppm: 0, frequency: dice.below(60 * MHZ), rate: 2_048_000, actual: 0 };
        Self { tuner: tuner.bytes(), driver: driver.bytes(), section: page::section(&[]) }
    }
}

/// The numbers of the calls. 12 was `update_shadow`, which is gone (#106); 10 and 17 were the two corrections, which are 41 since #109.
pub fn calls() -> impl Iterator<Item = u8> {
    (1..=42).filter(|call| !matches!(call, 10 | 12 | 17))
}

/// How often each call is drawn, by its number: those with more to go wrong more often.
pub fn pick_call(dice: &mut Dice) -> u8 {
    const HEAVY: [(u8, u64); 14] =
        [(3, 22), (42, 24), (4, 6), (2, 3), (9, 3), (19, 6), (20, 4), (41, 4), (21, 3), (22, 2), (33, 3), (38, 3), (39, 3), (40, 3)];
    let mut at = dice.below(HEAVY.iter().map(|heavy| heavy.1).sum::<u64>() + 39);
    for (call, weight) in HEAVY {
        if at < weight {
            return call;
        }
        at -= weight;
    }
    calls().nth(at as usize).expect("39 calls")
}

pub fn draw(call: u8, receiver: &Receiver, dice: &mut Dice) -> Given {
    let mut case = cases::random(call, dice);
    records(&mut case, receiver, dice);
    if call == 19 {
        table(&mut case, dice);
    }
    if dice.below(3) == 0 {
        edges::arguments(&mut case, dice);
    } else if call == 7 && dice.below(8) != 0 {
        case.a = dice.below(8 * MHZ); // an IF at which later tunes are taken
    }
    match call {
        36 | 37 => coefficients(&mut case, dice),
        38 => section(&mut case, receiver, dice),
        _ => {}
    }
    if call == 42 && dice.below(3) == 0 {
        long(&mut case, dice);
    }
    fit(&mut case);
    script(&mut case, dice);
    let mut given = Given { fill: dice.byte(), ..Given::exact(case) };
    lengths(&mut given, dice);
    given
}

/// Mostly the receiver's own, now and then any, or one with a damage.
fn records(case: &mut Case, receiver: &Receiver, dice: &mut Dice) {
    let any = dice.below(6) == 0;
    if takes_tuner(case.call) && !any {
        case.tuner = receiver.tuner.clone();
    }
    if takes_driver(case.call) && !any {
        case.driver = receiver.driver.clone();
    }
    if takes_tuner(case.call) && dice.below(24) == 0 {
        damage_tuner(&mut case.tuner, dice);
    }
    if takes_driver(case.call) && dice.below(8) == 0 {
        damage_driver(&mut case.driver, dice);
    }
}

/// Mostly the table of the driver's own board, else any of those that a board tune is drawn with.
fn table(case: &mut Case, dice: &mut Dice) {
    case.input = match dice.below(4) {
        0 | 1 => built_in(case.driver.first().map_or(0, |&board| board as u64)),
        _ => cases::random(42, dice).input,
    };
}

/// A board tune that is taken and has a path, so that its last steps are met too.
fn long(case: &mut Case, dice: &mut Dice) {
    let tuner = Tuner { kind: 1, corrected: 28_800_000, intermediate: 2_300_000, ..cases::random_tuner(dice) };
    (case.tuner, case.input, case.a) = (tuner.bytes(), built_in(1), dice.within(MHZ, 1_700 * MHZ));
}

fn put(record: &mut [u8], at: usize, bytes: &[u8]) {
    record[at..at + bytes.len()].copy_from_slice(bytes);
}

fn damage_tuner(record: &mut Vec<u8>, dice: &mut Dice) {
    let at = dice.below(record.len() as u64) as usize;
    match dice.below(10) {
        9 => record.splice(51..51, dice.bytes(27)).for_each(drop), // as long as it was before #106
        8 => *record = dice.bytes(record.len()),
        0 => record.truncate(at),
        1 => record.extend(dice.bytes(1 + at % 3)),
        2 => record[0] = dice.byte(),
        3 => put(record, dice.pick(&[29, 33]), &[0; 4]),             // a reference of 0
        4 => record[dice.pick(&[37, 50, 51, 64, 77])] = dice.byte(), // a flag
        5 => {
            let bits = dice.pick(&[0x7fc0_0000, 0x7fc0_0001, 0xffc0_0000, 0x7f80_0001, 0x7f80_0000, 0xff80_0000u32]);
            put(record, 38, &bits.to_le_bytes());
        }
        6 => put(record, 42, &dice.spread().to_le_bytes()), // any IF
        _ => record[at] = dice.byte(),
    }
}

fn damage_driver(record: &mut Vec<u8>, dice: &mut Dice) {
    let at = dice.below(record.len() as u64) as usize;
    match dice.below(6) {
        0 => record.truncate(at),
        1 => record.extend(dice.bytes(1 + at % 3)),
        2 => record[0] = dice.byte(),
        3 => put(record, 1, &[0; 4]),
        4 => {
            let ppm = dice.pick(&[-1_000_000, -1_000_001, -999_999, 148_130_809, 148_130_808, i32::MIN, i32::MAX]);
            put(record, 5, &ppm.to_le_bytes());
        }
        _ => record[at] = dice.byte(),
    }
}

/// Sixteen values in their widths, or not; twenty bytes; now and then of another length.
fn coefficients(case: &mut Case, dice: &mut Dice) {
    if case.call == 37 {
        case.input = dice.bytes(20);
    } else {
        let mut values: [i64; 16] = std::array::from_fn(|at| {
            let half = if at < 8 { 128 } else { 2048 };
            dice.below(2 * half) as i64 - half as i64
        });
        if dice.below(3) == 0 {
            let at = dice.below(16) as usize;
            let half = if at < 8 { 128 } else { 2048 };
            values[at] = dice.pick(&[half, -half - 1, half - 1, -half, i32::MAX as i64, i32::MIN as i64]);
        }
        case.input = values.iter().flat_map(|&value| (value as i32).to_le_bytes()).collect();
    }
    match dice.below(10) {
        0 => case.input.truncate(dice.below(case.input.len() as u64) as usize),
        1 => case.input.extend(dice.bytes(3)),
        _ => {}
    }
}

/// The receiver's last section, behind other bytes or not, whole or with a byte changed.
fn section(case: &mut Case, receiver: &Receiver, dice: &mut Dice) {
    let before = dice.below(20) as usize;
    let shown = if dice.yes() { 0 } else { before };
    case.input = dice.bytes(shown);
    case.input.extend(&receiver.section);
    let length = case.input.len();
    let near_end = length - 1 - dice.below(24.min(length as u64)) as usize;
    match dice.below(8) {
        0 => case.input = dice.bytes(before),
        1 => case.input[near_end] = dice.byte(),
        2 => case.input[near_end] ^= 1 << dice.below(8),
        3 => case.input[dice.below(length as u64) as usize] = dice.below(11) as u8,
        4 => case.input.truncate(near_end),
        5 if dice.below(40) == 0 => {
            // The longest section there is, or one entry more.
            let entries = vec![[9, 0, 0, 0, dice.byte(), 0, 0, 0, 0, 0, 0, 0, 0, 0, 0, 0]; 4096 + dice.below(2) as usize];
            case.input = page::section(&entries);
        }
        _ => {}
    }
}

/// Arguments as wide as the boundary has them.
fn fit(case: &mut Case) {
    let (byte, word) = (u8::MAX as u64, u32::MAX as u64);
    match case.call {
        1 => case.c &= byte,
        4 | 6 | 19 | 27 | 28 | 34 | 35 => (case.a, case.b) = (case.a & word, case.b & word),
        11 | 31 | 32 => (case.a, case.b) = (case.a & byte, case.b & byte),
        26 => (case.a, case.b, case.c) = (case.a & byte, case.b & u16::MAX as u64, case.c & byte),
        39 | 40 => case.b &= word,
        _ => {}
    }
}

/// All done; or one step failed, whichever; or several.
fn script(case: &mut Case, dice: &mut Dice) {
    let Some((entries, _)) = requests::most(case.call) else { return };
    if matches!(case.call, 3 | 42) && dice.below(3) == 0 {
        let lock = dice.pick(&[None, Some(9)]); // no lock, or one at the tenth try: the longest ways
        let path = if case.call == 42 { dice.bytes(3) } else { vec![] };
        case.replies = [path, replies_for(dice.below(4) as u8, lock, dice.byte())].concat();
    }
    let failing = match dice.below(10) {
        0..4 => 0,
        4..8 => 1,
        8 => dice.within(2, 4),
        _ => return, // as `cases::random` has drawn them
    };
    case.outcomes.fill(0);
    // Of the longest call the last steps are rare: they are drawn more often.
    let from = if case.call == 42 && dice.yes() { 48 } else { 0 };
    for _ in 0..failing {
        case.outcomes[dice.within(from, entries as u64 - 1) as usize] = dice.within(1, 255) as u8;
    }
}

fn shorter(length: usize, dice: &mut Dice) -> usize {
    match dice.below(3) {
        0 => length.saturating_sub(1),
        1 => 0,
        _ => dice.below(length as u64 + 1) as usize,
    }
}

/// Now and then too little is lent, of one or of several; now and then more than is asked for.
fn lengths(given: &mut Given, dice: &mut Dice) {
    let call = given.case.call;
    if hands_tuner(call) && dice.below(3) == 0 {
        given.next_tuner += dice.below(12) as usize;
    }
    if hands_driver(call) && dice.below(3) == 0 {
        given.next_driver += dice.below(12) as usize;
    }
    if dice.below(30) == 0 {
        // Far more than is asked for.
        given.case.room += dice.below(2_000) as usize;
        given.case.outcomes.resize(given.case.outcomes.len() + 300, dice.byte());
        given.case.replies.resize(given.case.replies.len() + 300, dice.byte());
        given.next_tuner += if hands_tuner(call) { 300 } else { 0 };
    }
    if dice.below(5) != 0 {
        return;
    }
    let which = if dice.below(4) == 0 { dice.byte() } else { 1 << dice.below(5) };
    let (entries, replies) = requests::most(call).unwrap_or((0, 0));
    let room = if entries > 0 { 16 * entries + 8 } else { requests::answered(call).unwrap_or(0) };
    if which & 1 != 0 {
        given.case.room = shorter(room, dice);
    }
    if which & 2 != 0 {
        given.case.outcomes.truncate(shorter(entries, dice));
    }
    if which & 4 != 0 {
        given.case.replies.truncate(shorter(replies, dice));
    }
    if which & 8 != 0 {
        given.next_tuner = shorter(given.next_tuner, dice);
    }
    if which & 16 != 0 {
        given.next_driver = shorter(given.next_driver, dice);
    }
}
