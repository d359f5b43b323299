//! A scheduler's commands over a serial line, chopped anywhere: each is answered when its last byte has come. host/c/stream.c prints the same lines, host/stream.txt.
use pasetone::{Board, Command, Driver, Error, Fed, Script, Stream, Transcript, Tuner, TunerKind};

/// The lines of stream.c, so in short; an error's own text says in a sentence what to do.
fn print_answer(number: usize, fed: &Fed) {
    let told = match fed.result {
        Ok(_) => String::from("done"),
        Err(Error::Step { index }) => format!("refusal 11 (step) at entry {index}"),
        Err(error) => format!("refusal {} ({})", error.number(), error.word()),
    };
    println!("command {number}, operation {}: {told}, {} entries", fed.command[0], fed.transcript.len());
}

fn sent() -> Vec<u8> {
    [
        Command::Rate(2_048_000).bytes(),
        Command::Correction(-12).bytes(),
        [8, 0, 0, 0, 0, 0, 0, 0, 0],             // no such operation
        [4, 28, 1, 0, 0, 0, 0, 0, 0],            // an index has one byte
        Command::Frequency(102_300_000).bytes(), // its write of register 0x14 fails
        Command::Reload.bytes(),
        Command::Frequency(0).bytes(),
        Command::GainIndex(28).bytes(),
        Command::Frequency(102_300_000).bytes(),
        Command::Bandwidth(6_500_000).bytes(), // of which the line gives five bytes
    ]
    .concat()
}

fn main() -> Result<(), Error> {
    let sent = sent();
    let mut tuner = Tuner::new(TunerKind::R828d, 0x74, 28_800_000)?;
    let mut driver = Driver::new(Board::V4, 28_800_000, 0, 0, 0)?;
    tuner.initialize(&Script::all_done()).result?;
    let failing = Script::all_done().failing(13)?;
    let (mut stream, mut rest, mut number, mut day) = (Stream::new(), &sent[..86], 0, Vec::new());
    for length in (0..).map(|chunk| chunk * 5 % 13) {
        let (chunk, later) = rest.split_at(length.min(rest.len()));
        let mut lent = number;
        let answers = stream.feed(&mut driver, &mut tuner, &Board::V4.table(), chunk, |_| {
            lent += 1;
            if lent == 5 { failing.clone() } else { Script::all_done() }
        });
        for fed in &answers {
            number += 1;
            print_answer(number, fed);
            day.extend_from_slice(fed.transcript.bytes());
        }
        rest = later;
        if rest.is_empty() {
            break;
        }
    }
    println!("pending at the end: {} bytes", stream.pending());
    println!("correction {} ppm, rate {}, gain {:.1} dB", driver.ppm(), driver.rate(), tuner.gain());
    println!("restored by {} writes", Transcript::restore(&day, 0x74)?.len());
    Ok(())
}
