//! A hop that is cut at each of its transfers, and the two ways back: a reload alone, which leaves the registers sure and the station where it happens to be, and the same call
//! again behind it.
use crate::calls::{CALLS, Make};
use crate::held::{Tally, station};
use crate::host::Lie;
use crate::sweep::{RELOAD, Start};
use pasetone::TunerKind;
use pasetone_usb::Found;

const FROM: u64 = 107_000_000;
const TO: u64 = 107_500_000;
const HOP: [Make; 2] = [|r, s| r.tune(FROM, s).into(), |r, s| r.tune(TO, s).into()];
/// Refused with nothing, all or a part landed.
const WAYS: [u64; 3] = [1, 2, 3];
/// What a tuning may be off in this band.
const NEAR: i64 = 1_000;

/// The chips' own centre, in Hz.
fn centre(start: &Start) -> i64 {
    start.chip.get("centre") >> 23
}

/// Cuts the hop; whether it was, and is told so. A read that nobody looks at may fail and cut nothing.
fn cut(start: &mut Start, (whole, receiver): (&[u8], &pasetone::Receiver), number: u64, way: u64) -> bool {
    start.chip.back(whole);
    start.host.receiver = receiver.clone();
    start.chip.set("fails_at", start.chip.get("sent") as u64 + number);
    start.chip.set("fails_by", way);
    start.host.make(HOP[1]).result.is_err()
}

pub fn run(found: &Found) -> Tally {
    let (mut tally, mut start) = (Tally::default(), Start::new(found, TunerKind::R828d, 1, Lie::Nothing));
    assert!(start.host.make(HOP[0]).result.is_ok(), "the first station");
    let (whole, receiver) = (start.chip.whole(), start.host.receiver.clone());
    let from = start.chip.get("sent");
    assert!(start.host.make(HOP[1]).result.is_ok(), "the hop");
    let transfers = (start.chip.get("sent") - from) as u64;
    let mut beside = Vec::new();
    for (number, way) in (0..transfers).flat_map(|number| WAYS.map(|way| (number, way))) {
        if !cut(&mut start, (&whole, &receiver), number, way) {
            continue;
        }
        tally.runs += 1;
        tally.that(start.host.make(CALLS[RELOAD].make).result.is_ok(), "a reload is not done", "reload");
        tally.that(start.host.receiver.tuner().doubtful().next().is_none(), "a register is doubtful behind a reload", "reload");
        let at = centre(&start);
        beside.extend(Some(at).filter(|at| [FROM, TO].iter().all(|hz| (at - *hz as i64).abs() > NEAR)));
        tally.that(start.host.make(HOP[1]).result.is_ok(), "the same call again is not done", "tune_board");
        station(&mut tally, &start.chip, &start.host.receiver, TO, "tune_board");
    }
    println!(
        "judge: {} cuts of a hop from {FROM} to {TO} Hz: by a reload alone {} stand at neither, with no register doubtful, between {} and {} Hz",
        tally.runs,
        beside.len(),
        beside.iter().min().copied().unwrap_or(0),
        beside.iter().max().copied().unwrap_or(0)
    );
    tally
}
