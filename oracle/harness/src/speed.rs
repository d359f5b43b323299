//! What the speed of the original is measured on: one row for each call, its work over the recorder, and the clock.
//! Every row has a twin without the original: the same count of entries put into the recorder by hand.
use crate::cases::replies_for;
use crate::page;
use crate::plain;
use crate::records::{Driver, Tuner};
use crate::run::{self, block_on};
use original::demod;
use original::tuner::Tuner as Calls;
use rusb::rec;
use std::hint::black_box;
use std::sync::Arc;
use std::time::Instant;

const ROUNDS: usize = 2_000;
const CALLS: usize = 1_000;

pub type Work = Box<dyn FnMut()>;

/// Name, entries, the call with its script, the replies of that script.
pub fn rows() -> Vec<(&'static str, usize, Work)> {
    let record = Tuner::fresh(1, 28_800_000, 0x74);
    let chip = || Arc::new(run::chip(&record));
    let given = Driver { board: 1, nominal: 28_800_000, ppm: 0, frequency: 7_000_000, rate: 0, actual: 0 };
    let (a, b, c, d, e) = (chip(), chip(), chip(), chip(), chip());
    let mut driver = run::driver(chip(), 1, &given);
    let tune = |chip: Arc<original::tuners::r82xx::R82xx>, replies: Vec<u8>, hz: u64| -> Work {
        Box::new(move || {
            rec::begin(&[], &replies);
            let _ = black_box(chip.set_frequency(black_box(hz)));
        })
    };
    vec![
        ("tune-no-lock", 53, tune(a, replies_for(0, None, 0), 100_000_000)),
        ("tune-lock-at-once", 25, tune(b, replies_for(0, Some(0), 0), 100_000_000)),
        ("tune-refused", 13, tune(c, vec![], 1_900_000_000)),
        (
            "gain",
            7,
            Box::new(move || {
                rec::begin(&[], &[]);
                let _ = black_box(d.set_gain(black_box(32.8)));
            }),
        ),
        (
            "sample-rate",
            17,
            Box::new(move || {
                rec::begin(&[], &[]);
                let _ = black_box(block_on(driver.set_sample_rate(black_box(2_048_000))));
            }),
        ),
        (
            "initialise",
            19,
            Box::new(move || {
                rec::begin(&[], &[]);
                let _ = black_box(e.initialize());
            }),
        ),
        (
            "baseband",
            45,
            Box::new(move || {
                rec::begin(&[], &[]);
                let _ = black_box(demod::init_baseband(run::usb().as_hw()));
            }),
        ),
        ("board-tune", 64, board(&record, &given)),
        ("plan-pll", 0, planned()),
        ("plan-pll-by-worksheet", 0, planned()),
        ("packets-expand", 0, expanded()),
        ("packets-read", 0, read_back()),
    ]
}

/// The original's parts in document 02's order (#113), without its table: planned at 7 MHz on a V4.
fn board(record: &Tuner, given: &Driver) -> Work {
    let chip = Arc::new(run::chip(record));
    let driver = run::driver(chip.clone(), 1, given);
    let replies = [vec![0; 3], replies_for(0, None, 0)].concat();
    Box::new(move || {
        rec::begin(&[], &replies);
        let plan = run::board(1).orchestrator().plan_tuning(black_box(7_000_000));
        let _ = black_box(chip.apply_notch(plan.in_notch));
        let _ = black_box(plan.input_path.map(|path| driver.see_apply_input_path(path)));
        let _ = black_box(chip.set_frequency(plan.tuner_hz));
        let byte = if plan.spectral_inv { 0x05 } else { 0x01 };
        let _ = black_box(demod::write_reg_direct(run::usb().as_hw(), 1, 0x15, byte));
    })
}

/// The original has no such call: a plain writing of the same numbers (page.rs).
fn planned() -> Work {
    Box::new(|| {
        black_box(page::pll(black_box(1), black_box(28_800_000), black_box(102_300_000)));
    })
}

/// Nor has it these: a plain writing of the same job, on a section of 4,096 entries (plain.rs).
fn expanded() -> Work {
    let (section, mut out) = (plain::section(4096), vec![0; 18 * 4096]);
    Box::new(move || {
        black_box(plain::expand(black_box(&section), black_box(&mut out))).expect("it expands");
    })
}

fn read_back() -> Work {
    let (mut packets, mut out) = (vec![0; 18 * 4096], vec![0; 16 * 4096 + 8]);
    let size = plain::expand(&plain::section(4096), &mut packets).expect("it expands");
    packets.truncate(size);
    Box::new(move || {
        black_box(plain::read(black_box(&packets), black_box(&mut out))).expect("they are packets");
    })
}

/// The recorder's own share: begin, then `n` entries of two bytes with one transfer each.
pub fn alone(n: usize) -> Work {
    Box::new(move || {
        rec::begin(&[], &[]);
        for _ in 0..black_box(n) {
            let step = rec::step(2, 0x74, 2, 0, black_box(&[0x10, 0x0f]));
            let _ = black_box(rec::write(0x40, 0, 0x74, 0x0610, black_box(&[0x10, 0x0f])));
            drop(step);
        }
    })
}

/// Nanoseconds per call, the minimum over the rounds.
pub fn least(work: &mut Work) -> f64 {
    let mut best = f64::MAX;
    for _ in 0..ROUNDS {
        let start = Instant::now();
        for _ in 0..CALLS {
            work();
        }
        best = best.min(start.elapsed().as_nanos() as f64 / CALLS as f64);
    }
    best
}
