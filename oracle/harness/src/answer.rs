//! The answer to a case: refusals in document 01's order, then the Rust, and document 01 where the Rust has no answer. The record's shadow is the one
//! that the Rust keeps: requests.rs has document 02's.
use crate::case::{Answer, By, Case};
use crate::page;
use crate::records::{Driver, Tuner};
use crate::run::{self, run};
use original::device::HardwareInterface;
use original::tuner::Tuner as Calls;
use original::tuners::r82xx::R82xx;
use original::{Error, Result, demod, registers};
use rusb::rec::Entry;
use std::sync::Arc;

pub fn takes_tuner(call: u8) -> bool {
    matches!(call, 2..=11 | 13..=15 | 19 | 20 | 41..=44)
}
pub fn takes_driver(call: u8) -> bool {
    matches!(call, 18 | 19 | 41 | 42 | 44)
}

/// The records of a case, taken apart; a call that takes none has a stand-in that is not looked at.
struct Given {
    tuner: Tuner,
    driver: Driver,
}

impl Given {
    fn read(case: &Case) -> Option<Self> {
        let tuner = if takes_tuner(case.call) { Tuner::read(&case.tuner)? } else { Tuner::fresh(1, 28_800_000, 0x74) };
        let none = Driver { board: 0, nominal: 28_800_000, ppm: 0, frequency: 0, rate: 0, actual: 0 };
        let driver = if takes_driver(case.call) { Driver::read(&case.driver)? } else { none };
        Some(Self { tuner, driver })
    }
}

/// Call 10 is document 01's `set_ppm`, of the tuner alone. Document 02 has none (#109), and no case of the list; what compares the Rust with document 01 asks for it.
pub fn answer(case: &Case) -> Answer {
    let Some(given) = Given::read(case) else { return Answer::refused(1, By::Page) };
    if let Some((refusal, by)) = argument(case, &given) {
        return Answer::refused(refusal, by);
    }
    if let Some(refusal) = lent(case, &given) {
        return Answer::refused(refusal, By::Page);
    }
    match case.call {
        1 => fresh(case),
        2..=9 => steps_on_tuner(case, &given.tuner),
        10 | 11 | 13..=15 => without_steps(case, &given.tuner),
        16 | 18 => on_driver(case, &given.driver),
        19 => sample_rate(case, &given),
        20 => board_path(case, &given),
        21..=32 => on_interface(case),
        33..=37 => leaf(case),
        38 => reader(case),
        other => panic!("no call {other}"),
    }
}

/// Refusals 1 to 7 for arguments, and 2 for hz, in document 01's order.
fn argument(case: &Case, given: &Given) -> Option<(u8, By)> {
    let in_range = |nominal: u64| (1..=u32::MAX as u64).contains(&nominal);
    let setup = match case.call {
        1 => case.a > 1 || !in_range(case.b),
        8 | 20 => case.a > 2,
        16 => case.c > 1 || !in_range(case.a),
        33 => case.c > 1,
        _ => false,
    };
    if setup {
        return Some((1, By::Page));
    }
    let over = |refused: bool, number: u8| refused.then_some((number, By::PageOverRust));
    match case.call {
        3 if case.a == 0 => asked(|| run::chip(&given.tuner).set_frequency(0)),
        3 => over(case.a.checked_add(given.tuner.intermediate).is_none(), 2),
        10 => over(page::corrected(given.tuner.nominal, case.d as i32).is_none(), 4),
        16 => over(page::corrected(case.a as u32, case.d as i32).is_none(), 4),
        19 if case.a == 0 => asked(|| rate(Arc::new(run::chip(&given.tuner)), given, 0).0),
        28 if case.a == 0 => asked(|| demod::set_sample_rate_xtal(&*run::usb(), 0, case.b as u32)),
        35 if case.a == 0 => Some((3, By::PageOverRust)),
        27 | 28 | 34 | 35 => over(case.b == 0, 4),
        31 | 32 => over(case.a > 7, 6),
        36 => over(!page::fir_fits(&sixteen(&case.input)), 7),
        38 => page::read_section(&case.input).is_none().then_some((12, By::Page)),
        _ => None,
    }
}

/// A refusal that the Rust itself gives, before any step.
fn asked<T>(work: impl FnOnce() -> Result<T>) -> Option<(u8, By)> {
    let (result, entries) = run(&[], &[], work);
    assert!(entries.is_empty(), "refused after {} entries", entries.len());
    result.err().map(|error| (run::number(&error), By::Rust))
}

/// 8, 9, 10, in that order: "shorter lent memory than this is refused, even where a run would need less".
fn lent(case: &Case, given: &Given) -> Option<u8> {
    if case.call == 8 && given.tuner.kind == 0 {
        return None; // R820T's input path: no lent memory is looked at
    }
    if let Some((entries, replies)) = page::most(case.call) {
        let wants = [(case.room, 16 * entries + 8, 8), (case.outcomes.len(), entries, 9), (case.replies.len(), replies, 10)];
        return wants.into_iter().find(|(has, needs, _)| has < needs).map(|(_, _, refusal)| refusal);
    }
    page::answered(case.call).filter(|&needs| case.room < needs).map(|_| 8)
}

/// The answer of a run with steps.
pub fn stepped(result: Result<u64>, entries: &[Entry], by: By) -> Answer {
    let mut answer = Answer { by, count: entries.len(), section: Some(page::section(entries)), ..Answer::default() };
    match result {
        Ok(value) => answer.value = value,
        Err(error) => {
            answer.refusal = run::number(&error);
            if let Error::Usb(_) = error {
                answer.index = page::failing(entries).expect("a step failed");
            }
        }
    }
    answer
}

fn fresh(case: &Case) -> Answer {
    let hw: Arc<dyn HardwareInterface> = run::usb();
    let made = R82xx::new(hw, run::kind(case.a as u8), case.c as u8, case.b).see();
    let next = Tuner::fresh(case.a as u8, case.b as u32, case.c as u8).after(&made, &[]);
    Answer { tuner: Some(next.bytes()), ..Answer::default() }
}

/// The tuner's calls with steps. Where the Rust would overflow, it is run on an input with the same steps by document 01.
fn steps_on_tuner(case: &Case, tuner: &Tuner) -> Answer {
    let (mut asked, mut by) = (case.clone(), By::Rust);
    let mut given = tuner.clone();
    if case.call == 3 && case.a + tuner.intermediate >= LARGE {
        // lo·64 does not fit: document 01 refuses after the mux, as for any lo above the band. The mux sees hz alone.
        asked.a = case.a.min(LARGE / 2);
        given.intermediate = LARGE / 2 - asked.a;
        by = By::PageOverRust;
    }
    if case.call == 4 && page::tenths(f32::from_bits(case.a as u32)) < LEAST {
        // step - target does not fit i32: the least distance is still that of step 0.
        asked.a = (-100.0f32).to_bits() as u64;
        by = By::PageOverRust;
    }
    let chip = run::chip(&given);
    let (result, entries) = run(&case.outcomes, &case.replies, || call(&chip, &asked, &given));
    let mut next = tuner.after(&chip.see(), &entries);
    if given.intermediate != tuner.intermediate {
        next.intermediate = tuner.intermediate;
    }
    let mut answer = stepped(result, &entries, by);
    answer.tuner = Some(next.bytes());
    if case.call == 8 && tuner.kind == 0 {
        answer.section = None;
    }
    answer
}

/// From here on lo·64 is past 64 bits.
pub const LARGE: u64 = 1 << 58;
/// Below this the distance to the largest step is past 31 bits.
const LEAST: i32 = 496 - i32::MAX;

pub fn call(chip: &R82xx, case: &Case, given: &Tuner) -> Result<u64> {
    match case.call {
        2 => chip.initialize().map(|()| 0),
        3 => chip.set_frequency(case.a),
        4 => chip.set_gain(f32::from_bits(case.a as u32)).map(|db| db.to_bits() as u64),
        5 => chip.set_gain_by_index(case.a as usize).map(|db| db.to_bits() as u64),
        6 => chip.set_bandwidth(case.a as u32).map(|()| 0),
        7 => chip.set_if_freq(case.a).map(|()| 0),
        8 => chip.set_input_path(run::path(case.a as u8)).map(|()| 0),
        _ => reload(given),
    }
}

/// Our addition, by the Rust's own writer: "the attempted bytes in `initialize`'s chunks", which are the shadow since #106.
pub fn reload(tuner: &Tuner) -> Result<u64> {
    let usb = run::usb();
    usb.i2c_write_tuner(tuner.address, 0x05, &tuner.shadow[..16])?;
    usb.i2c_write_tuner(tuner.address, 0x15, &tuner.shadow[16..])?;
    Ok(0)
}

fn without_steps(case: &Case, tuner: &Tuner) -> Answer {
    let chip = run::chip(tuner);
    let mut answer = Answer::default();
    let ((), entries) = run(&[], &[], || match case.call {
        10 => chip.set_ppm(case.d as i32).expect("in range"),
        11 => chip.apply_notch(case.a != 0).expect("no step to fail"),
        13 => answer.value = chip.get_gain().expect("no step to fail").to_bits() as u64,
        14 => answer.value = chip.get_if_freq(),
        _ => answer.answered = chip.get_gain_table().iter().flat_map(|step| step.to_le_bytes()).collect(),
    });
    assert!(entries.is_empty());
    if case.call <= 11 {
        answer.tuner = Some(tuner.after(&chip.see(), &[]).bytes());
    }
    answer
}

fn on_driver(case: &Case, given: &Driver) -> Answer {
    let ppm = case.d as i32;
    match case.call {
        16 => {
            let made = Driver { board: case.c as u8, nominal: case.a as u32, ppm, frequency: case.b, rate: case.e, actual: 0 };
            Answer { by: By::Page, driver: Some(made.bytes()), ..Answer::default() }
        }
        _ => {
            let chip = Arc::new(run::chip(&Tuner::fresh(1, 28_800_000, 0x74)));
            Answer { value: run::driver(chip, 1, given).see_corrected() as u64, ..Answer::default() }
        }
    }
}

/// `set_sample_rate` on both records: its result, and the rate recorded afterwards.
fn rate(chip: Arc<R82xx>, given: &Given, rate: u32) -> (Result<u64>, u32) {
    let mut driver = run::driver(chip, given.tuner.kind, &given.driver);
    let result = run::block_on(driver.set_sample_rate(rate));
    (result.map(|()| 0), driver.sample_rate)
}

fn sample_rate(case: &Case, given: &Given) -> Answer {
    let chip = Arc::new(run::chip(&given.tuner));
    let ((result, recorded), entries) = run(&case.outcomes, &case.replies, || rate(chip.clone(), given, case.a as u32));
    let mut answer = stepped(result, &entries, By::Rust);
    answer.tuner = Some(given.tuner.after(&chip.see(), &entries).bytes());
    answer.driver = Some(Driver { rate: recorded, ..given.driver.clone() }.bytes());
    answer
}

fn board_path(case: &Case, given: &Given) -> Answer {
    let chip = Arc::new(run::chip(&given.tuner));
    let driver = run::driver(chip.clone(), given.tuner.kind, &given.driver);
    let (result, entries) = run(&case.outcomes, &case.replies, || driver.see_apply_input_path(run::path(case.a as u8)));
    let mut answer = stepped(result.map(|()| 0), &entries, By::Rust);
    answer.tuner = Some(given.tuner.after(&chip.see(), &entries).bytes());
    answer
}

fn on_interface(case: &Case) -> Answer {
    let usb = run::usb();
    let hw = usb.as_hw();
    let (a, b) = (case.a as u32, case.b as u32);
    let (result, entries) = run(&case.outcomes, &case.replies, || match case.call {
        21 => demod::init_baseband(hw),
        22 => demod::power_on(hw),
        23 => demod::set_tuner_low_if(hw),
        24 => demod::set_tuner_zero_if(hw),
        25 => demod::reset_demod(hw),
        26 => demod::write_reg_direct(hw, a as u8, b as u16, case.c as u8),
        27 => demod::set_if_freq_xtal(hw, a, b),
        28 => demod::set_sample_rate_xtal(hw, a, b),
        29 => demod::start_streaming(hw),
        30 => demod::stop_streaming(hw),
        31 => hw.set_gpio_output(a as u8),
        _ => hw.set_gpio_bit(a as u8, b != 0),
    });
    stepped(result.map(|()| 0), &entries, By::Rust)
}

pub fn sixteen(input: &[u8]) -> [i32; 16] {
    assert_eq!(input.len(), 64, "sixteen values");
    std::array::from_fn(|i| i32::from_le_bytes(input[4 * i..4 * i + 4].try_into().unwrap()))
}

fn leaf(case: &Case) -> Answer {
    let mut answer = Answer::default();
    answer.answered = match case.call {
        33 => {
            let plan = run::board(case.c as u8).orchestrator().plan_tuning(case.a);
            answer.value = plan.tuner_hz;
            vec![plan.spectral_inv as u8, plan.input_path.map_or(3, |path| path as u8), plan.in_notch as u8]
        }
        34 => registers::if_freq_regs(case.a as u32, case.b as u32).to_vec(),
        35 => registers::resample_regs(case.a as u32, case.b as u32).to_vec(),
        36 => demod::packer::pack_with(sixteen(&case.input)).to_vec(),
        _ => {
            answer.by = By::Page; // the unpacker is our addition
            let packed: &[u8; 20] = case.input[..].try_into().expect("twenty bytes");
            page::fir_unpack(packed).iter().flat_map(|value| value.to_le_bytes()).collect()
        }
    };
    answer
}

/// The reader is our addition.
fn reader(case: &Case) -> Answer {
    let (start, count) = page::read_section(&case.input).expect("refused before");
    Answer { by: By::Page, value: start as u64, count, ..Answer::default() }
}
