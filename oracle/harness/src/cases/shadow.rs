//! Document 02, #106: the shadow follows every write.
use super::{MHZ, at_every_step, numbers, plain, replies_for};
use crate::answer::takes_tuner;
use crate::case::Case;
use crate::records::{FIRST, Tuner};
use crate::requests;

/// A lock at the first try keeps the run short.
fn hop(hz: u64) -> Case {
    Case { a: hz, replies: replies_for(1, Some(0), 0), ..plain(3) }
}

/// The record that a case leaves.
fn left(case: &Case) -> Vec<u8> {
    requests::answer(case).tuner.expect("a next record")
}

/// Cases one after the other, each on the record that the one before it left; the last record.
fn night(all: &mut Vec<Case>, record: Vec<u8>, calls: impl IntoIterator<Item = Case>) -> Vec<u8> {
    calls.into_iter().fold(record, |tuner, call| {
        let case = Case { tuner, ..call };
        let next = left(&case);
        all.push(case);
        next
    })
}

pub fn follows(all: &mut Vec<Case>) {
    let fresh = Tuner::fresh(1, 28_800_000, 0x74);
    // What the request is about: hops, a second initialise, two hops behind it.
    let evening =
        [plain(2), hop(30 * MHZ), hop(900 * MHZ), Case { a: 0, ..plain(8) }, Case { a: 28, ..plain(5) }, Case { a: 8 * MHZ, ..plain(6) }];
    let used = night(all, fresh.bytes(), evening);
    night(all, used.clone(), [plain(2), hop(100 * MHZ), hop(433 * MHZ), plain(9)]);
    cut_initialise(all, &used);
    // 0x14, 0x16 and 0x15 are entries 13, 14 and 15: each tried or not, over bytes that are others.
    for tuner in
        [used.clone(), Tuner { shadow: [0; 27], ..fresh.clone() }.bytes(), Tuner { shadow: [0xff; 27], kind: 0, ..fresh.clone() }.bytes()]
    {
        all.extend(at_every_step(&Case { tuner, ..hop(433 * MHZ) }).into_iter().take(17).skip(11));
    }
    night(all, used.clone(), [hop(900 * MHZ), hop(1_900 * MHZ), hop(900 * MHZ)]);
    // A reload sends what was tuned, cut at each step too, and again.
    all.extend(at_every_step(&Case { tuner: used.clone(), ..plain(9) }));
    let tuned = night(all, fresh.bytes(), [hop(433 * MHZ)]);
    night(all, tuned, [plain(9), plain(9), plain(2), plain(9)]);
    other_bytes(all, &fresh);
    old_records(all, &used);
}

/// A second initialise that fails at each of its steps, and what the next calls make of the record: a chunk that was tried is in the shadow, one
/// that was not, as behind a failed opening, is not.
fn cut_initialise(all: &mut Vec<Case>, used: &[u8]) {
    let again = Case { tuner: used.to_vec(), ..plain(2) };
    for (step, cut) in at_every_step(&again).into_iter().enumerate() {
        let record = left(&cut);
        all.push(cut);
        all.push(Case { tuner: record.clone(), ..hop(433 * MHZ) });
        all.push(Case { tuner: record.clone(), ..plain(9) });
        let call = [4, 6, 7, 8, 19, 20][step % 6];
        all.push(Case { tuner: record, ..plain(call) });
    }
    let count = again.outcomes.len();
    all.push(Case { outcomes: vec![1; count], ..again.clone() });
    // A chunk fails, and so does the closing behind it; then a reload fails at the first chunk that the initialise did not try.
    for (step, later) in [(1, 2), (2, 3), (3, 6), (6, 7)] {
        let mut cut = again.clone();
        (cut.outcomes[step], cut.outcomes[step + 1]) = (1, 1);
        let mut reload = Case { tuner: left(&cut), ..plain(9) };
        reload.outcomes[later] = 1;
        all.extend([cut, reload]);
    }
}

/// Initialise over a shadow in which one register has another byte; the first are single bits that its masked writes keep.
fn other_bytes(all: &mut Vec<Case>, fresh: &Tuner) {
    let kept = [(0x1a, 0x01), (0x0c, 0x10), (0x13, 0x40), (0x0a, 0x01), (0x0b, 0x10)];
    for (register, bits) in kept.into_iter().chain((0x05..=0x1f).map(|register| (register, 0xff))) {
        let mut tuner = fresh.clone();
        tuner.shadow[register - FIRST] ^= bits;
        all.push(Case { tuner: tuner.bytes(), ..plain(2) });
    }
}

/// A record as it was before #106, of 105 bytes: 27 attempted bytes stood between the notch and the marks.
fn old_records(all: &mut Vec<Case>, used: &[u8]) {
    let old = [&used[..51], &used[2..29], &used[51..]].concat();
    all.extend(numbers().filter(|&call| takes_tuner(call)).map(|call| Case { tuner: old.clone(), ..plain(call) }));
}
