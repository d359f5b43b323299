//! Chains of calls on a simulated chip (demand 3). A done write lands whole; a failed one leaves, in each register it
//! named, the old byte, the new one, or any other. After every call:
//! - a register is marked doubtful exactly if it was never attempted or its last attempt failed;
//! - the record handed from call to call says what one R82xx that lived all along says; by document 02 but for the shadow;
//! - by document 02 (#106), every register that is not doubtful holds on the chip the byte that the shadow has for it;
//! - the entries are those of the uncut call up to the failing step, then at most a closing.
//!
//! A reload that is all done leaves nothing doubtful, and by document 02 shadow and chip the same.
use harness::answer::reload;
use harness::case::{By, Case};
use harness::cases;
use harness::dice::Dice;
use harness::judge::{self, Paper};
use harness::records::{FIRST, Tuner};
use harness::requests;
use harness::run::{self, run};
use harness::tally::Tally;
use original::tuner::Tuner as Calls;
use original::tuners::r82xx::{R82xx, Seen};
use rusb::rec::Entry;

/// What the chip holds, and how the last attempt at each register went (None: no attempt).
struct Chip {
    bytes: [u8; 27],
    done: [Option<bool>; 27],
}

impl Chip {
    fn play(&mut self, entries: &[Entry], dice: &mut Dice) {
        for entry in entries.iter().filter(|entry| entry[0] == 2) {
            for i in 1..entry[3] as usize {
                let place = entry[8] as usize + i - 1 - FIRST;
                let landed = entry[1] == 0;
                self.done[place] = Some(landed);
                self.bytes[place] = match dice.below(3) {
                    _ if landed => entry[8 + i],
                    0 => self.bytes[place],
                    1 => entry[8 + i],
                    _ => dice.byte(),
                };
            }
        }
    }
}

/// The same call on the chip that lived all along.
fn lived(chip: &R82xx, case: &Case, record: &Tuner) {
    let path = || run::path(case.a as u8);
    let _ = run(&case.outcomes, &case.replies, || match case.call {
        2 => chip.initialize(),
        3 => chip.set_frequency(case.a).map(|_| ()),
        4 => chip.set_gain(f32::from_bits(case.a as u32)).map(|_| ()),
        5 => chip.set_gain_by_index(case.a as usize).map(|_| ()),
        6 => chip.set_bandwidth(case.a as u32),
        7 => chip.set_if_freq(case.a),
        8 => chip.set_input_path(path()),
        9 => reload(record).map(|_| ()),
        10 | 41 => chip.set_ppm(case.d as i32),
        _ => chip.apply_notch(case.a != 0),
    });
}

fn chain(paper: Paper, length: u64, dice: &mut Dice, tally: &mut Tally, seen: &mut [u64; 3]) {
    let mut record = Tuner::fresh(dice.below(2) as u8, 28_800_000, 0x74);
    let long = run::chip(&record);
    let mut chip = Chip { bytes: std::array::from_fn(|_| dice.byte()), done: [None; 27] };
    for _ in 0..length {
        // Document 01 corrects the tuner alone, document 02 both records (#109).
        let correction = if paper == Paper::First { 10 } else { 41 };
        let call = dice.pick(&[2, 2, 3, 3, 3, 4, 5, 6, 7, 8, 9, 9, correction, 11]);
        let mut case = cases::random(call, dice);
        case.tuner = record.bytes();
        // The Rust's own state must stay inside document 01's domain: an IF that no tune can wrap.
        if call == 7 {
            case.a %= 8_000_000;
        }
        if call == 3 {
            case.a %= 2_000_000_000;
        }
        let found = paper.answer(&case);
        let made = judge::entries(&found);
        seen[0] += 1;
        seen[1] += made.len() as u64;
        seen[2] += (found.refusal == 11) as u64;
        if let Some(bytes) = &found.tuner {
            if call == 4 && found.by == By::PageOverRust {
                case.a = (-100.0f32).to_bits() as u64; // a product that the Rust overflows on: the same step by document 01
            }
            // An N that document 02 refuses (#111) leaves all but the shadow as it was.
            if paper == Paper::First || call != 3 || !requests::too_small(&case) {
                lived(&long, &case, &record);
            }
            record = Tuner::read(bytes).expect("a record handed back is a record");
        }
        chip.play(&made, dice);
        // By document 02 the shadow is not the long-lived chip's.
        let shadow = if paper == Paper::First { long.see().shadow } else { record.shadow };
        tally.same(record.seen(), Seen { shadow, ..long.see() }, || format!("record and long-lived chip after {case:?}"));
        for place in 0..27 {
            tally.same(record.doubtful[place], chip.done[place] != Some(true), || format!("doubtful mark {place} after {case:?}"));
            let held = paper == Paper::First || record.shadow[place] == chip.bytes[place];
            tally.that(record.doubtful[place] || held, || format!("chip's byte {place} after {case:?}"));
        }
        judge::all(paper, &case, &found, tally);
        if call == 9 && found.refusal == 0 {
            let held = paper == Paper::First || record.shadow == chip.bytes;
            tally.that(record.doubtful == [false; 27] && held, || format!("reload {case:?}"));
        }
    }
}

fn main() {
    let (mut dice, mut tally, mut seen) = (Dice(0x6368_6169_6e73), Tally::default(), [0; 3]);
    for _ in 0..3_000 {
        for paper in [Paper::First, Paper::Second] {
            let length = dice.within(1, 80);
            chain(paper, length, &mut dice, &mut tally, &mut seen);
        }
    }
    let [calls, entries, failed] = seen;
    tally.that(calls >= 100_000, || format!("only {calls} calls"));
    tally.end("chains", format!("; {calls} calls, {entries} entries, {failed} cut by a failing step"))
}
