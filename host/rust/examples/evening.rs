//! An evening from Rust: the requests of document 02 as a host makes them, but #105, which is stream.rs. The settings of a site, two stations by the board's own table, the second one with a
//! failing step; what is in doubt, where tonight parts from last night, the restore list and its packets, the way back. host/c/evening.c prints the same lines.
use pasetone::{
    Answer, Board, Driver, Error, Packet, Script, Settings, Settings2, Transcript, TuneAnswer, Tuner, TunerKind, Whose, parting,
};

fn told<T>(result: &Result<T, Error>) -> String {
    match result {
        Ok(_) => String::from("done"),
        Err(Error::Step { index }) => format!("refusal 11 (step) at entry {index}"),
        Err(error) => format!("refusal {} ({})", error.number(), error.word()),
    }
}

fn print_answer<T>(what: &str, answer: &Answer<T>) {
    println!("{what}: {}, {} entries", told(&answer.result), answer.transcript.len());
}

fn print_tuning(what: &str, answer: &TuneAnswer) {
    println!("{what}: {}, {} entries, {}", told(&answer.result), answer.transcript.len(), answer.lock);
}

fn print_doubtful(tuner: &Tuner) {
    let registers: Vec<String> = tuner.doubtful().map(|register| format!(" 0x{register:02x}")).collect();
    println!("doubtful:{}", if registers.is_empty() { String::from(" none") } else { registers.concat() });
}

/// #108 and #112: settings as a site keeps them, moved to edition 2 and back. A sheet that ends in settings is a settings file too.
fn settings() -> Result<Settings2, Error> {
    let site =
        Settings { kind: TunerKind::R828d, board: Board::V4, correction: -3, rate: 2_048_000, frequency: 102_300_000, gain_index: 16 };
    let first = site.image_1()?;
    let second = Settings2::image_from_1(&first)?;
    let read = Settings2::read(&second)?;
    println!("settings: edition 1 has {} bytes, edition 2 {}, IF {} Hz", first.len(), second.len(), read.if_hz);
    println!("there and back: {}", if Settings::image_from_2(&second)? == first { "the same" } else { "another" });
    println!("edition 1's reader: {}", told(&Settings::read_1(&second)));
    Ok(read)
}

/// #109, #103, #104: one correction for both records; a rate that the resampler cannot hold; the rate that samples truly come at.
fn set_up(site: &Settings, tuner: &mut Tuner, driver: &mut Driver) -> Result<(), Error> {
    driver.set_ppm(tuner, site.correction)?;
    println!("correction {} ppm: tuner {} Hz, driver {} Hz", site.correction, tuner.corrected(), driver.corrected_xtal_hz());
    let (table, done) = (site.board.table(), Script::all_done());
    print_answer("initialise", &tuner.initialize(&done));
    print_answer("sample rate 600000", &driver.set_sample_rate(tuner, &table, 600_000, &done));
    print_answer(&format!("sample rate {}", site.rate), &driver.set_sample_rate(tuner, &table, site.rate, &done));
    println!("true rate {}", driver.true_rate());
    print_answer("gain", &tuner.set_gain_by_index(site.gain_index.into(), &done));
    println!("gain set: {:.1} dB", tuner.gain());
    Ok(())
}

/// #113 and #111: the plan by the board's table, and the PLL's numbers by both engines.
fn plan(site: &Settings2, tuner: &Tuner) -> Result<(), Error> {
    let table = site.settings.board.table();
    let plan = table.plan_tuning(site.settings.frequency)?;
    println!("{} bands, tuner to {} Hz, notch {}", table.bands().len(), plan.hz, u8::from(plan.notch));
    let (lo, reference) = (plan.hz + u64::from(site.if_hz), tuner.corrected());
    let pll = site.settings.kind.plan_pll(lo, reference)?;
    println!("lo {lo} Hz: divider {}, N {}, 0x14 {:02x}, sum {}, rest {}", pll.divider, pll.n, pll.setting, pll.sum, pll.rest);
    let agrees = site.settings.kind.plan_pll_by_worksheet(lo, reference)? == pll;
    println!("worksheet: {}", if agrees { "the same" } else { "another" });
    Ok(())
}

/// #114: where the second of two sections parts from the first.
fn compare(last_night: &Transcript, tonight: &Transcript) -> Result<(), Error> {
    let part = parting(last_night.bytes(), tonight.bytes())?;
    let whose = if part.whose == Whose::First { "last night's" } else { "tonight's" };
    println!("parting: {whose}, {} steps the same, {} from there", part.index, part.len());
    Ok(())
}

/// #110 and #107: where the sections left the chip, as writes, and those as packets for the replay box.
fn restore(day: &[u8]) -> Result<(), Error> {
    let list = Transcript::restore(day, 0x74)?;
    let named = list.iter().flat_map(|entry| entry.registers()).count();
    println!("restore: {} writes for {named} registers", list.len());
    let packets = list.packets()?;
    println!("packets: {} in {} bytes", Packet::all(&packets).count(), packets.len());
    println!("back: {}", if Transcript::of_packets(&packets)? == list { "the same" } else { "another" });
    Ok(())
}

fn main() -> Result<(), Error> {
    let site = settings()?;
    let Settings { kind, board, frequency, .. } = site.settings;
    let (mut tuner, mut driver) = (Tuner::new(kind, 0x74, 28_800_000)?, Driver::new(board, 28_800_000, 0, frequency, 0)?);
    set_up(&site.settings, &mut tuner, &mut driver)?;
    plan(&site, &tuner)?;
    let table = board.table();
    // #101: the status bytes come with their bits reversed; with 0x0a in every byte the first try finds a lock.
    let script = Script::new([0; Script::OUTCOMES], [0x0a; Script::REPLIES]);
    let first = driver.tune_board(&mut tuner, &table, 88_000_000, &script);
    print_tuning("tune 88000000 Hz", &first);
    let last_night = driver.clone().tune_board(&mut tuner.clone(), &table, frequency, &script);
    print_tuning(&format!("last night's tune {frequency} Hz"), &last_night);
    // The write of register 0x14 fails. #106: the shadow has the byte that was tried.
    let tonight = driver.tune_board(&mut tuner, &table, frequency, &script.clone().failing(23)?);
    print_tuning(&format!("tonight's tune {frequency} Hz"), &tonight);
    println!("frequency: {} Hz", driver.frequency());
    print_doubtful(&tuner);
    compare(&last_night.transcript, &tonight.transcript)?;
    restore(&[first.transcript.bytes(), tonight.transcript.bytes()].concat())?;
    // Half of the way back: N is the new station's, the sum the old one's.
    print_answer("reload", &tuner.reload(&Script::all_done()));
    print_doubtful(&tuner);
    print_tuning("the same tune again", &driver.tune_board(&mut tuner, &table, frequency, &script));
    println!("frequency: {} Hz", driver.frequency());
    Ok(())
}
