//! A receiver from Rust: set up, tuned with one step failing, and brought back. host/c/receiver.c prints the same lines.
use pasetone::{Answer, Board, Error, Lock, Receiver, Script, Tuner, TunerKind};

/// The lines of receiver.c, so in short; an error's own text says in a sentence what to do.
fn print_answer<T>(what: &str, answer: &Answer<T>) {
    let told = match &answer.result {
        Ok(_) => String::from("done"),
        Err(Error::Step { index }) => format!("refusal 11 (step) at entry {index}"),
        Err(error) => format!("refusal {} ({})", error.number(), error.word()),
    };
    println!("{what}: {told}, {} entries", answer.transcript.len());
}

fn print_doubtful(tuner: &Tuner) {
    let mut line = String::from("doubtful:");
    for register in tuner.doubtful() {
        line += &format!(" 0x{register:02x}");
    }
    if tuner.doubtful().next().is_none() {
        line += " none";
    }
    println!("{line}");
}

fn tune(tuner: &mut Tuner, what: &str, script: &Script) {
    let answer = tuner.set_frequency(102_300_000, script);
    let lock = answer.lock;
    let answer = answer.into();
    print_answer(what, &answer);
    for (index, entry) in answer.transcript.iter().enumerate().filter(|(_, entry)| entry.failed) {
        let bytes: Vec<String> = entry.bytes.iter().map(|byte| format!("{byte:02x}")).collect();
        let (kind, outcome) = (entry.kind.number(), u8::from(entry.failed));
        println!("entry {index}: kind {kind}, outcome {outcome}, target 0x{:02x}, bytes {}", entry.target, bytes.join(" "));
    }
    match lock {
        Lock { tries, locked: true } => println!("lock: at try {tries}"),
        Lock { tries, locked: false } => println!("lock: none in {tries} tries"),
    }
}

fn main() -> Result<(), Error> {
    let (major, minor, patch) = pasetone::version();
    println!("pasetone {major}.{minor}.{patch}");
    let done = Script::all_done();
    let mut receiver = Receiver::new(TunerKind::R828d, 0x74, Board::V4, 28_800_000)?;
    let tuner = receiver.tuner();
    let (kind, address, nominal) = (tuner.kind(), tuner.address(), tuner.nominal());
    println!("{kind} at 0x{address:02x} on a {} board, {nominal} Hz: done, 0 entries", receiver.driver().board());
    print_answer("initialise", &receiver.tuner_mut().initialize(&done));
    print_doubtful(receiver.tuner());
    print_answer("sample rate 2048000", &receiver.set_sample_rate(2_048_000, &done));
    let tuner = receiver.tuner_mut();
    print_answer("gain 29.7 dB", &tuner.set_gain(29.7, &done));
    println!("gain set: {:.1} dB", tuner.gain());
    // The write of register 0x14 fails. The tuner is updated all the same: the steps taken stand.
    tune(tuner, "tune 102300000 Hz, step 13 failing", &done.clone().failing(13)?);
    print_doubtful(tuner);
    print_answer("reload", &tuner.reload(&done));
    print_doubtful(tuner);
    // Status bytes come with their bits reversed: the VCO as it should be, and a lock at the first try.
    tune(tuner, "tune 102300000 Hz", &done.clone().replying(4, 0x08)?.replying(7, 0x02)?);
    print_doubtful(tuner);
    Ok(())
}
