//! The board-level tune (document 02, #113), by its sentences: refusals first, then the original's own parts in the order that they name. The original's
//! `Driver::set_frequency` goes another way (docs/DIFFERENCES.md), so it is not the judge here; its `apply_input_path`, `set_frequency` of the tuner and
//! `write_reg_direct` are.
use crate::answer::{LARGE, stepped};
use crate::case::{Answer, By, Case};
use crate::records::{Driver, Tuner};
use crate::requests::{below_least, followed, looked_at};
use crate::run::{self, run};
use crate::{page, tables};
use original::tuner::Tuner as Calls;
use original::tuners::r82xx::R82xx;
use original::{Result, demod};
use std::sync::Arc;

/// "of at most 64 entries and 38 replies".
pub const MOST: (usize, usize) = (64, 38);

/// What a taken board tune goes by: its records, the Hz for the tuner, and inverted, path, notch.
struct Hop {
    tuner: Tuner,
    driver: Driver,
    hz: u64,
    rest: [u8; 3],
}

/// 1, "new 19 table, for a malformed table; then 2 for a frequency in no band or shifted below 0 or past u64, and in the tune also for one shifted to 0
/// or whose sum with the IF is past u64; then 8, 9, 10".
fn taken(case: &Case) -> std::result::Result<Hop, u8> {
    let tuner = Tuner::read(&case.tuner).ok_or(1u8)?;
    let driver = Driver::read(&case.driver).ok_or(1u8)?;
    let (hz, rest) = tables::plan(&case.input, case.a).map_err(|refusal| refusal as u8)?;
    if hz == 0 || hz.checked_add(tuner.intermediate).is_none() {
        return Err(2);
    }
    let wants = [(case.room, 16 * MOST.0 + 8, 8), (case.outcomes.len(), MOST.0, 9), (case.replies.len(), MOST.1, 10)];
    match wants.into_iter().find(|(has, needs, _)| has < needs) {
        Some((_, _, refusal)) => Err(refusal),
        None => Ok(Hop { tuner, driver, hz, rest }),
    }
}

/// "plan, notch, board path where there is one, tune, then the DDC sync byte, in that order"; "the board path is taken only if the kind is R828D".
fn parts(chip: &Arc<R82xx>, hop: &Hop, hz: u64) -> Result<()> {
    let [inverted, path, notch] = hop.rest;
    chip.apply_notch(notch == 1)?;
    if hop.tuner.kind == 1 && path < 3 {
        run::driver(chip.clone(), 1, &hop.driver).see_apply_input_path(run::path(path))?;
    }
    chip.set_frequency(hz)?;
    demod::write_reg_direct(run::usb().as_hw(), 1, 0x15, if inverted == 1 { 0x05 } else { 0x01 })
}

pub fn answer(case: &Case) -> Answer {
    let hop = match taken(case) {
        Ok(hop) => hop,
        Err(refusal) => return Answer::refused(refusal, By::Page),
    };
    // Where the Rust would wrap, or take an N below 13 (#111), it is run with an IF that puts lo above the band: the mux sees hz alone.
    let lo = hop.hz + hop.tuner.intermediate;
    let over = lo >= LARGE || below_least(hop.tuner.kind, hop.tuner.corrected as u64, lo);
    let (mut given, mut hz) = (hop.tuner.clone(), hop.hz);
    if over {
        (given.intermediate, hz) = (1_800_000_000, hz.min(LARGE / 2));
    }
    let chip = Arc::new(run::chip(&given));
    let (result, made) = run(&case.outcomes, &case.replies, || parts(&chip, &hop, hz));
    let mut answer = stepped(result.map(|()| case.a), &made, if over { By::PageOverRust } else { By::Rust });
    let own = Tuner { intermediate: hop.tuner.intermediate, ..hop.tuner.after(&chip.see(), &made) };
    let next = Tuner { shadow: followed(hop.tuner.shadow, &made), ..own.clone() };
    if answer.by == By::Rust && next != own {
        answer.by = By::RustButShadow;
    }
    // "The driver's frequency becomes the one asked when all steps are done."
    let frequency = if answer.refusal == 0 { case.a } else { hop.driver.frequency };
    answer.tuner = Some(next.bytes());
    answer.driver = Some(Driver { frequency, ..hop.driver }.bytes());
    looked_at(answer)
}

/// `set_sample_rate` "plans by a table too (19 after 1); no plan, not inverted": the original on a driver whose own board plans just that, and this one's
/// board and frequency back in the record. `first` is its answer without a table.
pub fn rated(case: &Case, first: impl Fn(&Case) -> Answer) -> Answer {
    let (Some(_), Some(given)) = (Tuner::read(&case.tuner), Driver::read(&case.driver)) else { return first(case) };
    if !tables::well_formed(&case.input) {
        return Answer::refused(19, By::Page);
    }
    let own = first(case);
    let inverted = tables::plan(&case.input, given.frequency).is_ok_and(|(_, [inverted, ..])| inverted == 1);
    let other = Driver { board: inverted as u8, frequency: 0, ..given.clone() };
    let mut answer = first(&Case { driver: other.bytes(), ..case.clone() });
    if let Some(next) = answer.driver.as_deref().and_then(Driver::read) {
        answer.driver = Some(Driver { board: given.board, frequency: given.frequency, ..next }.bytes());
    }
    if answer.section != own.section {
        answer.by = By::PageOverRust;
    }
    let same = case.input != tables::bytes(&tables::built_in(given.board as u64)) || answer == own;
    assert!(same, "by the table of its own board the Rust plans the same: {case:02x?}");
    answer
}

/// Whether a PLL refuses this hop late, by the page and #111.
pub fn late(case: &Case) -> bool {
    taken(case).is_ok_and(|hop| {
        let plan = page::pll(hop.tuner.kind, hop.tuner.corrected as u64, hop.hz + hop.tuner.intermediate);
        plan.is_none_or(|plan| plan.n < 13)
    })
}
