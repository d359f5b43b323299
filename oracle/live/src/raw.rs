//! The original on a case that a row of rules.rs names: with its own arguments, whatever it makes of them.
use crate::given::Given;
use crate::rules;
use harness::answer::{call, sixteen, stepped};
use harness::case::{Answer, By, Case};
use harness::records::{Driver, Tuner};
use harness::requests::{corrected, looked_at};
use harness::run::{self, run};
use original::device::HardwareInterface;
use original::tuner::TunerType;
use original::tuners::r82xx::R82xx;
use original::{Result, demod, registers};
use std::cell::Cell;
use std::panic::{self, AssertUnwindSafe};
use std::sync::Arc;

thread_local! {
    static ASKED: Cell<bool> = const { Cell::new(false) };
}

/// The original's panics are answers here and are not printed; any other panic is.
pub fn quiet() {
    let print = panic::take_hook();
    panic::set_hook(Box::new(move |info| {
        if !ASKED.get() {
            print(info)
        }
    }));
}

/// None: it panics.
pub fn rust(given: &Given) -> Option<Answer> {
    ASKED.set(true);
    let ended = panic::catch_unwind(AssertUnwindSafe(|| match given.case.call {
        1 => made(&given.case),
        2..=4 => on_chip(&given.case),
        16 | 18 | 19 => on_driver(&given.case),
        27 | 28 | 31 | 32 => on_interface(&given.case),
        41 => correction(&given.case),
        _ => leaf(&given.case),
    }));
    ASKED.set(false);
    ended.ok()
}

/// Whether the original's answer is the one that must come back.
pub fn same(raw: &Answer, wanted: &Answer) -> bool {
    Answer { by: wanted.by, ..raw.clone() } == *wanted
}

fn chip(case: &Case) -> (Tuner, R82xx) {
    let tuner = Tuner::read(&case.tuner).expect("a row's case has a record");
    let chip = run::chip(&tuner);
    (tuner, chip)
}

fn made(case: &Case) -> Answer {
    // Any kind that is neither of ours.
    let kind = if case.a > 1 { TunerType::E4000 } else { run::kind(case.a as u8) };
    let hw: Arc<dyn HardwareInterface> = run::usb();
    let chip = R82xx::new(hw, kind, case.c as u8, case.b);
    let next = Tuner::fresh(case.a as u8, case.b as u32, case.c as u8).after(&chip.see(), &[]);
    Answer { tuner: Some(next.bytes()), ..Answer::default() }
}

fn on_chip(case: &Case) -> Answer {
    let (tuner, chip) = chip(case);
    let (result, entries) = run(&case.outcomes, &case.replies, || call(&chip, case, &tuner));
    let mut answer = stepped(result, &entries, By::Rust);
    answer.tuner = Some(tuner.after(&chip.see(), &entries).bytes());
    if case.call == 3 { looked_at(answer) } else { answer }
}

fn correction(case: &Case) -> Answer {
    let (tuner, driver) = (Tuner::read(&case.tuner).expect("a record"), Driver::read(&case.driver).expect("a record"));
    let (tuner, driver, _) = corrected(&tuner, &driver, case.d as i32);
    Answer { tuner: Some(tuner.bytes()), driver: Some(driver.bytes()), ..Answer::default() }
}

/// The driver with its bad correction: what it tells as its reference, or sets a rate by.
fn on_driver(case: &Case) -> Answer {
    let ppm = case.d as i32;
    let driver = match case.call {
        16 => Driver { board: case.c as u8, nominal: case.a as u32, ppm, frequency: case.b, rate: case.e, actual: 0 },
        _ => rules::loose(&case.driver).expect("a record but for its correction"),
    };
    if case.call != 19 {
        let chip = Arc::new(run::chip(&Tuner::fresh(1, 28_800_000, 0x74)));
        return Answer { value: run::driver(chip, 1, &driver).see_corrected() as u64, ..Answer::default() };
    }
    let (tuner, chip) = chip(case);
    let chip = Arc::new(chip);
    let mut live = run::driver(chip.clone(), tuner.kind, &driver);
    let (result, entries) = run(&case.outcomes, &case.replies, || run::block_on(live.set_sample_rate(case.a as u32)));
    let mut answer = stepped(result.map(|()| 0), &entries, By::Rust);
    answer.tuner = Some(tuner.after(&chip.see(), &entries).bytes());
    answer
}

fn on_interface(case: &Case) -> Answer {
    let usb = run::usb();
    let hw = usb.as_hw();
    let (a, b) = (case.a as u32, case.b as u32);
    let (result, entries): (Result<()>, _) = run(&case.outcomes, &case.replies, || match case.call {
        27 => demod::set_if_freq_xtal(hw, a, b),
        28 => demod::set_sample_rate_xtal(hw, a, b),
        31 => hw.set_gpio_output(a as u8),
        _ => hw.set_gpio_bit(a as u8, b != 0),
    });
    stepped(result.map(|()| 0), &entries, By::Rust)
}

fn leaf(case: &Case) -> Answer {
    let answered = match case.call {
        34 => registers::if_freq_regs(case.a as u32, case.b as u32).to_vec(),
        35 => registers::resample_regs(case.a as u32, case.b as u32).to_vec(),
        _ => demod::packer::pack_with(sixteen(&case.input)).to_vec(),
    };
    Answer { answered, ..Answer::default() }
}
