//! A host that is killed in a transfer. Its receiver is kept in a state (`State` of crate pasetone), by the rule of theorem `crashed`: what is recovered when it is opened again tells
//! the truth. The wrong hosts store something else, or recover otherwise.
use crate::calls::{CALLS, If, VALUES, is_value};
use crate::file::Simulated;
use crate::held::{Tally, registers, station};
use crate::host::{Host, Lie, fresh, take};
use crate::storm::{Random, drawn};
use crate::sweep::{RELOAD, Start, Still, length};
use pasetone::{Cut, Found as Held, Receiver, Script, State, TunerKind};
use pasetone_usb::{Found, Kernel, Usb};
use std::fs::{self, File, OpenOptions};
use std::os::unix::fs::FileExt;
use std::os::unix::process::ExitStatusExt;
use std::path::{Path, PathBuf};
use std::process::{Command, ExitStatus};

const KEY: &[u8] = b"judge";
const KILL: i32 = 9;
const WAYS: [u64; 3] = [9, 10, 11];
/// In a storm: all but unplugged, after which there is a fresh record and no recovery.
const STORM: u64 = 0xefe;
/// Its number in `CALLS`.
const POWER_ON: usize = 13;

fn open(path: &Path) -> (State, Held) {
    let (mut state, held) = State::open(path, KEY, fresh(TunerKind::R828d)).expect("a state");
    state.set_synced(false);
    (state, held)
}

/// A state's file with this receiver, and no call under way.
fn written(path: &Path, receiver: &Receiver) {
    let _ = fs::remove_file(path);
    let mut state = open(path).0;
    *state.receiver_mut() = receiver.clone();
    state.keep().expect("a state");
}

/// The process that is killed: one call, by its state. Whether it was done.
pub fn child(found: &Found, number: usize, path: &Path, lie: Lie) -> bool {
    let (mut state, _) = open(path);
    let mut host = Host::open(found, state.receiver().clone(), lie);
    let (bus, mut taken, mut script) = (&mut host.bus, 0, None);
    let driven = state.drive(VALUES[number], |step| {
        script.get_or_insert_with(|| Stored::open(path)).spoil(lie, taken);
        taken += 1;
        take(bus, lie, step)
    });
    driven.expect("a state").answer.result.is_ok()
}

/// The script of the call under way in a state's file, by the format that src/state.rs of crate pasetone has on top: what a wrong host makes of it.
struct Stored {
    file: File,
    at: u64,
}

impl Stored {
    fn open(path: &Path) -> Stored {
        const HEAD: u64 = 16;
        const LEAF: u64 = 830;
        const NUMBER: u64 = 102;
        let file = OpenOptions::new().read(true).write(true).open(path).expect("a state");
        let number = |leaf: u64| {
            let mut bytes = [0; 8];
            file.read_exact_at(&mut bytes, HEAD + LEAF * leaf + NUMBER).map_or(0, |()| u64::from_le_bytes(bytes))
        };
        let at = HEAD + LEAF * u64::from(number(1) > number(0));
        Stored { file, at }
    }

    fn spoil(&self, lie: Lie, step: u64) {
        let put = |at: u64, bytes: &[u8]| self.file.write_all_at(bytes, self.at + at).expect("a script");
        match lie {
            Lie::Filled if step == 0 => put(0, &[0; Script::OUTCOMES]),
            Lie::Early => put(step, &[0]),
            Lie::Mute => put(Script::OUTCOMES as u64, &[0; Script::REPLIES]),
            _ => {}
        }
    }
}

/// The receiver behind a host that died, as this one goes on with it; whether a call was under way.
fn recovered(path: &Path, lie: Lie) -> (Receiver, bool) {
    let (state, held) = open(path);
    match held {
        Held::Cut(cut) => {
            let Cut { call, mut before, .. } = *cut;
            match lie {
                Lie::Before => (before, true),
                Lie::Bold => {
                    let _ = call.make(&mut before, &Script::all_done());
                    (before, true)
                }
                _ => (state.receiver().clone(), true),
            }
        }
        _ => (state.receiver().clone(), false),
    }
}

/// One call in a process of its own, which is killed at this transfer.
fn one(found: &Found, start: &Still, number: usize, (transfer, way): (u64, u64), path: &Path, lie: Lie, tally: &mut Tally) {
    let (call, chip) = (&CALLS[number], Simulated::open(found.number));
    chip.back(&start.whole);
    chip.set("fails_at", chip.get("sent") as u64 + transfer);
    chip.set("fails_by", way);
    written(path, &start.receiver);
    let ended = process(&chip, number, path, lie, tally);
    tally.that(ended.signal() == Some(KILL), "the host was not killed", call.name);
    let (receiver, cut) = recovered(path, lie);
    tally.that(cut, "a host that died has no call under way", call.name);
    registers(tally, &chip, &receiver, call.name);
}

/// One call in a process of its own: how it ended.
fn process(chip: &Simulated, number: usize, path: &Path, lie: Lie, tally: &mut Tally) -> ExitStatus {
    let (from, failed) = (chip.get("sent"), chip.get("failed"));
    let this = std::env::current_exe().expect("this program");
    let word = format!("{lie:?}").to_lowercase();
    let ended = Command::new(this).args(["child", &number.to_string(), &word]).arg(path).status().expect("a process");
    tally.runs += 1;
    tally.transfers += (chip.get("sent") - from) as u64;
    tally.failed += (chip.get("failed") - failed) as u64;
    tally.kills += u64::from(ended.signal() == Some(KILL));
    ended
}

/// One call of a storm, the receiver behind it, and whether it was done. A host that comes back waits first: a transfer of the one that died may still land.
fn survived(found: &Found, chip: &Simulated, receiver: &mut Receiver, number: usize, path: &Path, tally: &mut Tally) -> bool {
    let ended = process(chip, number, path, Lie::Nothing, tally);
    let cut;
    (*receiver, cut) = recovered(path, Lie::Nothing);
    tally.that(cut == ended.signal().is_some(), "a call is under way exactly where its host died: not so", CALLS[number].name);
    // What was recovered is stored, as a host does it before its next call.
    open(path).0.keep().expect("a state");
    let usb = Usb::open(found, Kernel::Refuse).expect("the receiver is there");
    std::thread::sleep(State::SETTLE);
    let _ = usb.holder();
    registers(tally, chip, receiver, CALLS[number].name);
    ended.success()
}

/// A call until it is done, three times at most, each behind a reload where it was cut.
fn insist(found: &Found, chip: &Simulated, receiver: &mut Receiver, number: usize, path: &Path, tally: &mut Tally) -> bool {
    (0..3).any(|turn| {
        if turn > 0 {
            survived(found, chip, receiver, RELOAD, path, tally);
        }
        survived(found, chip, receiver, number, path, tally)
    })
}

/// Calls at random, each in a process of its own, with transfers failing and hosts killed by chance.
pub fn storm(found: &Found, seed: u64, calls: usize) -> Tally {
    let (mut tally, mut random) = (Tally::default(), Random(seed));
    let path = file();
    let Still { mut receiver, .. } = Start::new(found, TunerKind::R828d, 1 + seed % 4, Lie::Nothing).closed();
    written(&path, &receiver);
    let chip = Simulated::open(found.number);
    chip.set("seed", seed | 1);
    chip.set("ways", STORM);
    let mut same_if = true;
    for _ in 0..calls {
        let number = if chip.get("on") == 0 { POWER_ON } else { drawn(&mut random) };
        let call = &CALLS[number];
        chip.set("odds", if number == POWER_ON { 0 } else { 2_000 });
        let done = insist(found, &chip, &mut receiver, number, &path, &mut tally);
        same_if = if call.moves == If::Stays { same_if } else { done && call.moves == If::Set };
        if let (Some(hz), true, true) = (call.station, done, same_if) {
            station(&mut tally, &chip, &receiver, hz, call.name);
        }
    }
    tally
}

fn file() -> PathBuf {
    PathBuf::from(std::env::var("RECEIVER_FOLDER").expect("the folder")).join("killed")
}

/// Every transfer of every call; `stride` leaves some out.
pub fn run(found: &Found, lie: Lie, stride: usize) -> Tally {
    let mut tally = Tally::default();
    let path = file();
    let mut start = Start::new(found, TunerKind::R828d, 3, Lie::Nothing);
    let lengths: Vec<u64> = CALLS.iter().map(|call| length(&mut start, call, &mut tally)).collect();
    let start = start.closed();
    for (number, call) in CALLS.iter().enumerate() {
        tally.that(is_value(number, &start.receiver), "a call and its value are not the same", call.name);
    }
    let mut turn = 0;
    for (number, &transfers) in lengths.iter().enumerate() {
        for transfer in 0..transfers {
            for way in WAYS {
                turn += 1;
                if turn % stride == 0 {
                    one(found, &start, number, (transfer, way), &path, lie, &mut tally);
                }
            }
        }
    }
    tally
}
