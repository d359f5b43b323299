//! Judges a host on simulated receivers, which it reaches by usbfs's calls as real ones: run it with the preloaded library (host/receiver/run does, docs/RECEIVER.md).
//!
//!   judge open                            a receiver is one program's, and the kernel's driver is refused
//!   judge hop                             a hop cut at each transfer: a reload alone, and the same call again behind it
//!   judge sweep KIND LIE STRIDE           every call, its every transfer (or every STRIDEth) failing in each of the ways
//!   judge killed LIE STRIDE               the same with the host killed
//!   judge kills SEED CALLS                so many calls, each in a process of its own, with transfers failing and hosts killed by chance
//!   judge storm KIND SEED CALLS LIE       so many calls on every receiver, all at once, with transfers failing by chance
//!   judge line PROGRAM STRIDE             the command line itself: every transfer of a hop, and every STRIDEth turn of the other commands
//!   judge night PROGRAM HOURS N SEED      all receivers through `run`, N of 1,000 transfers failing, the program killed, receivers plugged in anew
//!   judge numbers                         the calls of usbfs as crate pasetone-usb has them
//!
//! KIND is r828d or r820t. LIE is `nothing`, or what a wrong host does: short, timeout, stall, hurry, before, bold, filled, early, mute. Exit status 1 where a fault was found.
mod calls;
mod file;
mod held;
mod hop;
mod host;
mod killed;
mod line;
mod nightly;
mod storm;
mod sweep;

use held::Tally;
use host::Lie;
use pasetone::TunerKind;
use pasetone_usb::Found;
use std::process::ExitCode;

fn kind(word: &str) -> Option<TunerKind> {
    [("r828d", TunerKind::R828d), ("r820t", TunerKind::R820t)].into_iter().find(|row| row.0 == word).map(|row| row.1)
}

/// Every receiver, each in a thread of its own.
fn storms(found: &[Found], kind: TunerKind, seed: u64, calls: usize, lie: Lie) -> Tally {
    let mut tally = Tally::default();
    std::thread::scope(|scope| {
        let runs: Vec<_> =
            found.iter().zip(seed..).map(|(device, seed)| scope.spawn(move || storm::run(device, kind, seed, lie, calls))).collect();
        runs.into_iter().for_each(|run| tally.add(run.join().expect("a storm ends")));
    });
    tally
}

fn judged(words: &[&str], found: &[Found]) -> Option<Tally> {
    let first = found.first()?;
    let mut tally = Tally::default();
    match *words {
        ["open"] => {
            tally.that(found.len() == 1, "other devices than receivers are listed", "open");
            storm::opened(first, &mut tally);
        }
        ["hop"] => tally = hop::run(first),
        ["sweep", which, lie, stride] => {
            let lie = Lie::of(lie)?;
            // The lock at try 1, at try 3, never. A wrong host is found with the first.
            for settle in [1, 3, 1_000].into_iter().take(if lie == Lie::Nothing { 3 } else { 1 }) {
                tally.add(sweep::run(first, kind(which)?, settle, lie, stride.parse().ok()?));
            }
        }
        ["kills", seed, calls] => tally = killed::storm(first, seed.parse().ok()?, calls.parse().ok()?),
        ["killed", lie, stride] => tally = killed::run(first, Lie::of(lie)?, stride.parse().ok()?),
        ["line", program, stride] => tally = line::run(program, first, stride.parse().ok()?),
        ["night", program, hours, share, seed] => {
            tally = nightly::run(program, found, hours.parse().ok().filter(|hours| *hours <= 24)?, share.parse().ok()?, seed.parse().ok()?);
        }
        ["storm", which, seed, calls, lie] => tally = storms(found, kind(which)?, seed.parse().ok()?, calls.parse().ok()?, Lie::of(lie)?),
        _ => return None,
    }
    Some(tally)
}

fn main() -> ExitCode {
    let words: Vec<String> = std::env::args().skip(1).collect();
    let words: Vec<&str> = words.iter().map(String::as_str).collect();
    if words == ["numbers"] {
        pasetone_usb::NUMBERS.iter().for_each(|(name, number, size)| println!("{name} {number} {size}"));
        return ExitCode::SUCCESS;
    }
    let found = Found::all().expect("sysfs");
    if let (["child", number, lie, path], Some(first)) = (words.as_slice(), found.first()) {
        let done = killed::child(first, number.parse().expect("a number"), path.as_ref(), Lie::of(lie).expect("a lie"));
        return ExitCode::from(if done { 0 } else { 3 });
    }
    let Some(tally) = judged(&words, &found) else {
        eprintln!(
            "use: judge open | hop | sweep KIND LIE STRIDE | killed LIE STRIDE | kills SEED CALLS | storm KIND SEED CALLS LIE | line PROGRAM STRIDE | night PROGRAM HOURS N SEED | numbers; {} receivers were found",
            found.len()
        );
        return ExitCode::from(2);
    };
    for (what, (count, name)) in &tally.faults {
        println!("judge: FAULT: {what}: {count} times, first in {name}");
    }
    let faults: u64 = tally.faults.values().map(|row| row.0).sum();
    let Tally { runs, transfers, failed, kills, checks, stations, .. } = tally;
    println!(
        "judge: {runs} calls, {transfers} transfers, {failed} of them failed, {kills} kills, {stations} stations, {checks} checks, {faults} faults"
    );
    ExitCode::from(u8::from(faults > 0))
}
