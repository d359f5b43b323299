//! A host that drives a receiver and is killed at random moments, thousands of times: `State` of what it leaves must call no register sure that holds another byte. The
//! same test finds five wrong hosts. host/c/crash.c does the same in C.
//!
//!     crash [KILLS [SEED]]             this process is the receiver; it kills its hosts, and judges
//!     crash host WRONG FILE SEED       a host: its receiver is at the other end of its standard input and output
use pasetone::{Board, Call, Entry, EntryKind, Found, InputPath, Outcome, Receiver, State, Tuner, TunerKind};
use std::fs::{File, OpenOptions};
use std::io::{self, Read, Write};
use std::os::unix::fs::FileExt;
use std::path::{Path, PathBuf};
use std::process::{Child, Command, Stdio};
use std::time::{Duration, Instant};

type Fault = Box<dyn std::error::Error>;

const KEY: &[u8] = b"crash";
const WRONG: [&str; 6] = [
    "none",
    "script filled with 0",
    "marked done before the step",
    "recovery forgets the call",
    "replies not kept",
    "timeout taken as done",
];

/// Numbers by a seed (PCG's multiplier and increment; the high bits are taken).
struct Random(u64);

impl Random {
    fn below(&mut self, n: usize) -> usize {
        self.0 = self.0.wrapping_mul(6_364_136_223_846_793_005).wrapping_add(1_442_695_040_888_963_407);
        (self.0 >> 33) as usize % n
    }
}

fn fresh() -> Result<Receiver, Fault> {
    Ok(Receiver::new(TunerKind::R828d, 0x74, Board::V4, 28_800_000)?)
}

// ---- The host.

/// A step as it goes over the pipe: kind, target, address, n, and the bytes of a write; back come an outcome and the bytes of a read.
const ASK: usize = 13;
const TOLD: usize = 9;
const DONE: u8 = 0;
const FAILED: u8 = 1;
const TIMED_OUT: u8 = 2;

fn is_read(step: &Entry) -> bool {
    matches!(step.kind, EntryKind::I2cRead | EntryKind::BlockRead)
}

fn transfer(step: &Entry, timeout_is_done: bool) -> io::Result<Outcome> {
    let mut ask = [0; ASK];
    (ask[0], ask[1], ask[4]) = (step.kind.number(), step.target, step.bytes.len() as u8);
    ask[2..4].copy_from_slice(&step.address.to_le_bytes());
    if !is_read(step) {
        ask[5..5 + step.bytes.len()].copy_from_slice(step.bytes);
    }
    io::stdout().write_all(&ask)?;
    io::stdout().flush()?;
    let mut told = [0; TOLD];
    io::stdin().read_exact(&mut told)?;
    Ok(match told[0] {
        FAILED => Outcome::Failed(None),
        TIMED_OUT if !timeout_is_done => Outcome::failed("timed out"),
        _ if is_read(step) => Outcome::Read(told[1..1 + step.bytes.len()].to_vec()),
        _ => Outcome::Done,
    })
}

fn any_call(random: &mut Random) -> Call {
    let path = [InputPath::Hf, InputPath::Vhf, InputPath::Uhf][random.below(3)];
    match random.below(16) {
        0 => Call::Initialize,
        1 => Call::SetSampleRate([2_048_000, 2_400_000, 3_200_000][random.below(3)]),
        2 => Call::SetGainByIndex(random.below(29) as u64),
        3 => Call::SetBandwidth(random.below(9_000_000) as u32),
        4 => Call::SetIfFreq(random.below(5_000_000) as u64),
        5 => Call::ApplyInputPath(path),
        6 => Call::SetInputPath(path),
        7 => Call::Reload,
        8 => Call::SetIfFreqXtal { hz: 2_300_000, xtal: 28_800_000 },
        9 => Call::InitBaseband,
        10..=12 => Call::SetFrequency(24_000_000 + random.below(1_700_000_000) as u64),
        _ => Call::TuneBoard(500_000 + random.below(1_700_000_000) as u64),
    }
}

/// Where the leaf stands that counts, for the hosts that go wrong: as src/state.rs has it.
fn leaf(file: &File) -> io::Result<u64> {
    let number = |at: u64| -> io::Result<u64> {
        let mut bytes = [0; 8];
        file.read_exact_at(&mut bytes, at + 102).map(|()| u64::from_le_bytes(bytes))
    };
    Ok(if number(16)? > number(846).unwrap_or(0) { 16 } else { 846 })
}

/// A host makes one call after the other until it is killed. A wrong one spoils what the state has stored, just before a step is taken.
fn host(wrong: usize, path: &Path, seed: u64) -> Result<(), Fault> {
    let mut random = Random(seed);
    let (mut state, found) = State::open(path, KEY, fresh()?)?;
    let file = OpenOptions::new().read(true).write(true).open(path)?;
    let mut calls = match found {
        Found::Kept => vec![],
        Found::Cut(cut) if wrong == 3 => {
            *state.receiver_mut() = cut.before;
            vec![]
        }
        Found::Cut(cut) => vec![cut.call, Call::Reload],
        Found::New | Found::Other(_) => vec![Call::Initialize],
    };
    loop {
        let call = calls.pop().unwrap_or_else(|| any_call(&mut random));
        let mut taken = 0;
        let driven = state.drive(call, |step| {
            let spoil = || -> io::Result<()> {
                let at = leaf(&file)?;
                match wrong {
                    1 => file.write_all_at(&[0; 64][taken..], at + taken as u64),
                    2 => file.write_all_at(&[0], at + taken as u64),
                    4 => file.write_all_at(&[0; 38], at + 64),
                    _ => Ok(()),
                }
            };
            let outcome = spoil().and_then(|()| transfer(step, wrong == 5));
            taken += 1;
            // The receiver has gone: so does the host.
            outcome.unwrap_or_else(|_| std::process::exit(0))
        });
        let _ = driven?;
    }
}

// ---- The receiver.

struct Chip {
    registers: [u8; 256],
    gpio: [u8; 256],
    random: Random,
}

impl Chip {
    fn new(seed: u64) -> Chip {
        Chip { registers: [0xa5; 256], gpio: [0x5a; 256], random: Random(seed) }
    }

    /// As much of a step as `most` registers of it.
    fn act(&mut self, ask: &[u8; ASK], most: usize, mess: u8) {
        let bytes = &ask[5..5 + usize::from(ask[4])];
        match ask[0] {
            2 => {
                for (register, byte) in (usize::from(bytes[0])..256).zip(&bytes[1..]).take(most) {
                    self.registers[register] = byte ^ mess;
                }
            }
            6 if most > 0 => self.gpio[usize::from(ask[2])] = bytes[0] ^ mess,
            _ => {}
        }
    }

    /// As much of it as nobody knows.
    fn act_in_part(&mut self, ask: &[u8; ASK]) {
        let (most, mess) = (self.random.below(8), [0, 0, 0x33][self.random.below(3)]);
        self.act(ask, most, mess);
    }

    /// Takes a step: done, or in one of forty failed or timed out, with some of it done or none. Status bytes have their bits reversed: the third has the lock's, the fifth
    /// the fine tune, by which the divider is repaired.
    fn take(&mut self, ask: &[u8; ASK]) -> [u8; TOLD] {
        let mut told = [DONE; TOLD];
        match self.random.below(40) {
            0 => {
                self.act_in_part(ask);
                told[0] = if self.random.below(2) == 0 { FAILED } else { TIMED_OUT };
            }
            _ => self.act(ask, 8, 0),
        }
        if ask[0] == 3 {
            let (lock, fine) = ([0, 2][self.random.below(2)], [0x08, 0x04, 0x0c][self.random.below(3)]);
            told[1..6].copy_from_slice(&[0x69, 0, lock, 0, fine]);
        } else if ask[0] == 8 {
            told[1] = self.gpio[usize::from(ask[2])];
        }
        told
    }

    /// The registers that a record calls sure, and that hold another byte.
    fn untrue(&self, tuner: &Tuner) -> usize {
        Tuner::registers().filter(|at| !tuner.is_doubtful(*at) && tuner.shadow(*at) != Some(self.registers[usize::from(*at)])).count()
    }
}

fn killed(mut child: Child) -> io::Result<()> {
    child.kill()?;
    child.wait().map(drop)
}

/// Serves a host for some steps, and kills it at a moment of its own choice: before a step, within it, behind it, or while it stores what it was told.
fn serve(chip: &mut Chip, mut child: Child, steps: usize) -> Result<(), Fault> {
    let (Some(mut to), Some(mut from)) = (child.stdin.take(), child.stdout.take()) else { return Err("no pipes".into()) };
    let mut ask = [0; ASK];
    for _ in 0..steps {
        from.read_exact(&mut ask)?;
        let told = chip.take(&ask);
        to.write_all(&told)?;
    }
    from.read_exact(&mut ask)?;
    match chip.random.below(5) {
        0 => {}
        1 => chip.act_in_part(&ask),
        2 => drop(chip.take(&ask)),
        _ => {
            let told = chip.take(&ask);
            to.write_all(&told)?;
            let (began, spins) = (Instant::now(), chip.random.below(120) as u64);
            while began.elapsed() < Duration::from_micros(spins) {}
        }
    }
    killed(child)?;
    // It may have asked for one more step before it died.
    if from.read_exact(&mut ask).is_ok() {
        chip.act_in_part(&ask);
    }
    Ok(())
}

#[derive(Default)]
struct Tally {
    kills: usize,
    within: usize,
    untrue: usize,
    before: usize,
}

/// So many kills of a host, or fewer where one is enough.
fn kills(wrong: usize, most: usize, path: &PathBuf, seed: u64) -> Result<Tally, Fault> {
    let _ = std::fs::remove_file(path);
    let (mut chip, mut tally) = (Chip::new(seed), Tally::default());
    while tally.kills < most && (wrong == 0 || tally.untrue == 0) {
        let (steps, seed) = (chip.random.below(70), chip.random.0 >> 7);
        let words = ["host", &wrong.to_string(), &path.to_string_lossy(), &seed.to_string()].map(String::from);
        let child = Command::new(std::env::current_exe()?).args(words).stdin(Stdio::piped()).stdout(Stdio::piped()).spawn()?;
        serve(&mut chip, child, steps)?;
        tally.kills += 1;
        let (state, found) = State::open(path, KEY, fresh()?)?;
        let mut record = state.receiver().tuner();
        if let Found::Cut(cut) = &found {
            tally.within += 1;
            tally.before += usize::from(chip.untrue(cut.before.tuner()) > 0);
            if wrong == 3 {
                record = cut.before.tuner();
            }
        }
        tally.untrue += usize::from(chip.untrue(record) > 0);
    }
    let _ = std::fs::remove_file(path);
    Ok(tally)
}

fn main() -> Result<(), Fault> {
    let words: Vec<String> = std::env::args().skip(1).collect();
    if let [word, wrong, path, seed] = words.as_slice()
        && word == "host"
    {
        return host(wrong.parse()?, Path::new(path), seed.parse()?);
    }
    let most = words.first().map_or(Ok(3000), |word| word.parse())?;
    let seed = words.get(1).map_or(Ok(u64::from(std::process::id())), |word| word.parse())?;
    let folder = Some(PathBuf::from("/dev/shm")).filter(|folder| folder.is_dir()).unwrap_or_else(std::env::temp_dir);
    let path = folder.join(format!("pasetone-crash-{}", std::process::id()));
    println!("crash: seed {seed}");
    let mut good = true;
    for (wrong, name) in WRONG.iter().enumerate() {
        let tally = kills(wrong, most, &path, seed)?;
        let Tally { kills, within, untrue, before } = tally;
        if wrong == 0 {
            println!("{kills} kills, {within} within a call: {untrue} records untrue; of the records before the call {before}");
            // A test that would find nothing is none.
            good &= untrue == 0 && within > most / 2 && before > most / 10;
        } else {
            println!("{name}: {}", if untrue > 0 { format!("found at kill {kills}") } else { String::from("NOT FOUND") });
            good &= untrue > 0;
        }
    }
    println!("crash: {}", if good { "right" } else { "WRONG" });
    std::process::exit(i32::from(!good))
}
