//! Document 02's rules, written from its text: what the answers, the vectors and the live runs go by. page.rs and answer.rs
//! stay document 01; this file answers first where a request asks for something else.
use crate::answer;
use crate::case::{Answer, By, Case};
use crate::hops;
use crate::judge;
use crate::page;
use crate::records::{Driver, FIRST, Tuner, attempts};
use crate::run::{self, run};
use crate::standing;
use original::tuner::Tuner as Calls;
use original::tuners::r82xx::SEEN_INIT;
use rusb::rec::Entry;
use std::sync::Arc;

/// Most entries and replies of a call with steps.
pub fn most(call: u8) -> Option<(usize, usize)> {
    if call == 42 { Some(hops::MOST) } else { page::most(call) }
}

/// Length of a call's answered bytes.
pub fn answered(call: u8) -> Option<usize> {
    if matches!(call, 39 | 40) { Some(5) } else { page::answered(call) }
}

pub fn answer(case: &Case) -> Answer {
    match case.call {
        2 | 4..=9 | 20 => following(case, answer::answer),
        3 => looked_at(following(case, |case| if too_small(case) { as_above_the_band(case) } else { answer::answer(case) })),
        28 if not_held(case) => Answer::refused(13, By::PageOverRust),
        19 => hops::rated(case, rated),
        39 | 40 => figures(case),
        41 => correction(case),
        42 => hops::answer(case),
        43 => told(standing::of_record(&case.tuner)),
        44 => told(standing::centre(&case.driver, &case.tuner, &case.input)),
        _ => answer::answer(case),
    }
}

/// What the original never asks, by the second writing alone.
fn told(result: Result<u64, u32>) -> Answer {
    result.map_or_else(|refusal| Answer::refused(refusal as u8, By::Page), |value| Answer { value, by: By::Page, ..Answer::default() })
}

/// #106: "writes to 0x14, 0x15 and 0x16 go through the shadow, and `initialize` puts each chunk's bytes into the shadow as it is tried". So whatever a
/// call tries to send, done or not, is in the shadow behind it, and nothing else is.
pub fn followed(mut shadow: [u8; 27], made: &[Entry]) -> [u8; 27] {
    for (place, byte, _) in attempts(made) {
        shadow[place] = byte;
    }
    shadow
}

/// The three registers that the Rust writes past its shadow.
pub fn past(place: usize) -> bool {
    (0x14..=0x16).contains(&(place + FIRST))
}

/// A call on a tuner with its record's shadow by #106. The entries are the Rust's on the record given; but `initialize` of the Rust builds its masked
/// writes on a shadow that its chunks have left behind. They come only when all chunks are done, when the shadow is `INIT_ARRAY` by #106: so it is run on that one.
fn following(case: &Case, first: impl Fn(&Case) -> Answer) -> Answer {
    let Some(given) = Tuner::read(&case.tuner) else { return first(case) };
    let own = first(case);
    if own.tuner.is_none() {
        return own;
    }
    let (mut answer, start) = if case.call == 2 {
        let fresh = Tuner { shadow: SEEN_INIT, ..given.clone() };
        (first(&Case { tuner: fresh.bytes(), ..case.clone() }), SEEN_INIT)
    } else {
        (own.clone(), given.shadow)
    };
    let (made, next) = (judge::entries(&answer), next_of(&answer));
    let agrees = (0..27).all(|place| past(place) || next.shadow[place] == followed(start, &made)[place]);
    assert!(agrees, "the Rust's shadow is not what it sent: {case:02x?}");
    let shadow = followed(given.shadow, &made);
    if answer.section != own.section {
        answer.by = By::PageOverRust;
    } else if answer.by == By::Rust && shadow != next_of(&own).shadow {
        answer.by = By::RustButShadow;
    }
    answer.tuner = Some(Tuner { shadow, ..next }.bytes());
    answer
}

fn next_of(answer: &Answer) -> Tuner {
    answer.tuner.as_deref().and_then(Tuner::read).expect("a record")
}

/// #101: "Tries equal the three-byte reads in the transcript that were done", "and locked means a try read the lock bit". Both are read off the
/// section that the Rust's run made; without one there were none. The bits of a status byte are reversed, so 0x40 is 0x02 as it is read.
pub fn looked_at(mut answer: Answer) -> Answer {
    let entries = answer.section.iter().flat_map(|section| section.chunks_exact(16)).take(answer.count);
    let tries: Vec<&[u8]> = entries.filter(|e| e[0] == 3 && e[1] == 0 && e[3] == 3).collect();
    answer.tries = tries.len();
    answer.locked = tries.iter().any(|read| read[10] & 0x02 != 0);
    answer
}

/// #111: "N below 13 is refused, which the Rust takes".
pub fn below_least(kind: u8, reference: u64, lo: u64) -> bool {
    page::pll(kind, reference, lo).is_some_and(|plan| plan.n < 13)
}

/// A tune that gets as far as the PLL, on a record that is one, and has such an N there.
pub fn too_small(case: &Case) -> bool {
    let Some(tuner) = Tuner::read(&case.tuner) else { return false };
    let lo = case.a.checked_add(tuner.intermediate);
    case.a != 0 && lo.is_some_and(|lo| below_least(tuner.kind, tuner.corrected as u64, lo))
}

/// "It leaves the mux's writes, like the cap": the Rust on the same hz, with an IF that puts lo above the band. The mux sees hz alone.
fn as_above_the_band(case: &Case) -> Answer {
    let mut tuner = Tuner::read(&case.tuner).expect("looked at before");
    let own = std::mem::replace(&mut tuner.intermediate, 1_800_000_000);
    let mut answer = answer::answer(&Case { tuner: tuner.bytes(), ..case.clone() });
    answer.tuner = answer.tuner.map(|bytes| Tuner { intermediate: own, ..Tuner::read(&bytes).expect("a record") }.bytes());
    if answer.section.is_some() {
        answer.by = By::PageOverRust;
    }
    answer
}

/// #103: "With r the ratio before any masking or cut to 32 bits, a rate is taken only if r is at least 4, below 2^29, and its bits 27 and 28 are
/// equal."
pub fn holds(rate: u32, xtal: u32) -> bool {
    let r = ((xtal as u64) << 22) / rate as u64;
    let bit = |n: u32| r >> n & 1 == 1;
    (4..1 << 29).contains(&r) && bit(27) == bit(28)
}

/// A rate that the resampler does not hold, in a call that gets as far as its ratio: "after 3 and after 4 for a zero reference, before 8", and after 1
/// for a record that is none. The reference is the demod call's own, or the driver's corrected one.
pub fn not_held(case: &Case) -> bool {
    let xtal = match case.call {
        28 => Some(case.b as u32),
        _ => Tuner::read(&case.tuner).and(Driver::read(&case.driver)).and_then(|driver| page::corrected(driver.nominal, driver.ppm)),
    };
    case.a != 0 && xtal.is_some_and(|xtal| xtal != 0 && !holds(case.a as u32, xtal))
}

fn rated(case: &Case) -> Answer {
    if not_held(case) { Answer::refused(13, By::PageOverRust) } else { with_true_rate(case, following(case, answer::answer)) }
}

/// #104: "the true rate, xtal·2^22 divided by the ratio as sent after masking and the copied bit, cut to a whole u64". What was sent is read off the
/// entries that the Rust made: two demodulator writes of 16 bits, at 0x9f and 0xa1 of page 1.
fn with_true_rate(case: &Case, mut answer: Answer) -> Answer {
    if answer.refusal == 0 {
        let given = Driver::read(&case.driver).expect("taken");
        let xtal = page::corrected(given.nominal, given.ppm).expect("taken");
        let made = judge::entries(&answer);
        let written = |register: u8| {
            made.iter().find(|entry| entry[0] == 5 && entry[4] == register).map_or(0, |entry| (entry[8] as u64) << 8 | entry[9] as u64)
        };
        let actual = ((xtal as u64) << 22) / (written(0x9f) << 16 | written(0xa1));
        // The rate asked is the one that the Rust has recorded.
        let next = answer.driver.as_deref().and_then(Driver::read).expect("a record");
        answer.driver = Some(Driver { actual, ..next }.bytes());
    }
    answer
}

/// #109: "one call works out both corrected references from their own nominals and sets both, or refuses and sets neither"; "4 if either is out of its
/// range". 1 for either record stands before it. What is set is the Rust's; both references are document 01's too, else no list comes out.
fn correction(case: &Case) -> Answer {
    let ppm = case.d as i32;
    let (Some(tuner), Some(driver)) = (Tuner::read(&case.tuner), Driver::read(&case.driver)) else { return Answer::refused(1, By::Page) };
    let (Some(first), Some(second)) = (page::corrected(tuner.nominal, ppm), page::corrected(driver.nominal, ppm)) else {
        return Answer::refused(4, By::PageOverRust);
    };
    let (tuner, driver, reference) = corrected(&tuner, &driver, ppm);
    assert_eq!((tuner.corrected, reference), (first, second), "the Rust and the page part");
    Answer { tuner: Some(tuner.bytes()), driver: Some(driver.bytes()), ..Answer::default() }
}

/// The Rust's own `Driver::set_ppm` over both records, and the driver's reference behind it. It tunes again and sets the rate again, which is no part of the call:
/// at a frequency and a rate of 0 it does neither, and what is left of it is the correction.
pub fn corrected(tuner: &Tuner, driver: &Driver, ppm: i32) -> (Tuner, Driver, u32) {
    let chip = Arc::new(run::chip(tuner));
    let still = Driver { frequency: 0, rate: 0, ..driver.clone() };
    let mut set = run::driver(chip.clone(), tuner.kind, &still);
    let (result, entries) = run(&[], &[], || run::block_on(set.set_ppm(ppm)));
    result.expect("the Rust takes every ppm");
    assert!(entries.is_empty(), "{} entries in a correction", entries.len());
    (tuner.after(&chip.see(), &[]), Driver { ppm: set.ppm, ..driver.clone() }, set.see_corrected())
}

/// The two leaves of #111: "the same divider, N, S, rest and refusal". "At the host's leaves: a kind that is none 1, a reference of 0 is 4, then 2"
/// (docs/DECISIONS.md). What is sent to the chip is the Rust's; the rest, which it does not send, is the page's.
fn figures(case: &Case) -> Answer {
    let (lo, reference, kind) = (case.a, case.b as u32, case.c);
    if kind > 1 {
        return Answer::refused(1, By::Page);
    }
    if reference == 0 {
        return Answer::refused(4, By::Page);
    }
    let plan = page::pll(kind as u8, reference as u64, lo).filter(|plan| plan.n >= 13);
    let Some(plan) = plan else { return Answer::refused(2, By::Page) };
    if case.room < 5 {
        return Answer::refused(8, By::Page);
    }
    let (m, byte, sum) = sent(kind as u8, reference, lo);
    let n = 13 + 4 * (byte & 0x3f) + (byte >> 6);
    assert_eq!((m as u64, n as u64, sum as u64), (plan.m, plan.n, plan.s), "the Rust and the page part");
    let [low, high] = sum.to_le_bytes();
    Answer { by: By::Page, value: plan.rest, answered: vec![m, n, byte, low, high], ..Answer::default() }
}

/// m, 0x14's byte and S as the Rust sends them in a tune to this lo at an IF of 0: entries 12, 13, 14, 15.
fn sent(kind: u8, reference: u32, lo: u64) -> (u8, u8, u16) {
    let mut tuner = Tuner::fresh(kind, reference, 0x74);
    tuner.intermediate = 0;
    let (result, made) = run(&[0; 53], &[0; 35], || run::chip(&tuner).set_frequency(lo));
    result.expect("a lo that is taken");
    (2 << (made[12][9] >> 5), made[13][9], (made[14][9] as u16) << 8 | made[15][9] as u16)
}
