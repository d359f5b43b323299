//! The evidence of docs/DIFFERENCES.md: each place where the Rust panics, wraps, cuts, leaves the repeater open or does what document 02 changes, on its
//! smallest input, as this build does it (run it in debug and in release), with the documents' answer beside it.
use harness::answer::answer;
use harness::case::Case;
use harness::cases::{built_in, plain, replies_for};
use harness::judge;
use harness::records::{Driver, FIRST, Tuner, attempts};
use harness::requests;
use harness::run::{self, block_on};
use original::device::HardwareInterface;
use original::tuner::{Tuner as Calls, TunerType};
use original::tuners::r82xx::R82xx;
use original::{Result, demod, registers};
use rusb::rec::{self, Entry};
use std::cell::RefCell;
use std::fmt::Debug;
use std::panic::{self, AssertUnwindSafe};
use std::sync::Arc;

thread_local! {
    static TEXT: RefCell<String> = const { RefCell::new(String::new()) };
}

const MHZ: u64 = 1_000_000;

/// What the Rust does: its answer or its panic, the entries made, and whether the repeater was left open.
fn rust<T: Debug>(work: impl FnOnce() -> T) -> String {
    rec::begin(&[], &replies_for(1, Some(0), 0));
    let ended = match panic::catch_unwind(AssertUnwindSafe(work)) {
        Ok(value) => format!("{value:?}"),
        Err(_) => format!("panic: {}", TEXT.with_borrow(|text| text.clone())),
    };
    let made = run::entries();
    let open = made.iter().rfind(|entry| entry[0] == 1).is_some_and(|entry| entry[8] == 1);
    format!("{ended}; {} entries{}", made.len(), if open { ", repeater left open" } else { "" })
}

/// What document 01 says, as the stored list has it.
fn page(case: Case) -> String {
    let found = answer(&case);
    let value = if found.answered.is_empty() { format!("value {}", found.value) } else { format!("{:02x?}", found.answered) };
    if found.refusal == 0 {
        format!("{value}, {} entries", found.count)
    } else {
        format!("refused {}, {} entries", found.refusal, found.count)
    }
}

fn row(number: &str, input: &str, found: String, ruling: String) {
    println!("{number} {input}\n    Rust: {found}\n    document 01: {ruling}");
}

/// A fresh R828D at 28.8 MHz with this IF.
fn record(intermediate: u64) -> Tuner {
    Tuner { intermediate, ..Tuner::fresh(1, 28_800_000, 0x74) }
}

/// The result of a tune: what was asked, and N as 0x14 says it.
fn tuned(chip: &R82xx, hz: u64) -> Result<(u64, String)> {
    let asked = chip.set_frequency(hz)?;
    let made = run::entries();
    let written =
        |register: u8| made.iter().rfind(|entry| entry[0] == 2 && entry[3] == 2 && entry[8] == register).map_or(0, |entry| entry[9]);
    Ok((
        asked,
        format!(
            "taken, 0x10 {:#04x}, 0x14 {:#04x}, 0x16 {:#04x}, 0x15 {:#04x}",
            written(0x10),
            written(0x14),
            written(0x16),
            written(0x15)
        ),
    ))
}

fn tune(number: &str, what: &str, hz: u64, intermediate: u64) {
    let given = record(intermediate);
    let chip = run::chip(&given);
    let ruling = page(Case { a: hz, tuner: given.bytes(), replies: replies_for(1, Some(0), 0), ..plain(3) });
    row(number, &format!("tune hz {hz}, IF {intermediate}: {what}"), rust(|| tuned(&chip, hz)), ruling);
}

fn tunes() {
    let standard = 2_300_000;
    tune("1", "the sum is 2^64", u64::MAX - standard + 1, standard);
    tune("1a", "one less", u64::MAX - standard, standard);
    tune("2", "the sum wraps to the lowest lo", 27_656_251, u64::MAX);
    tune("2a", "one less", 27_656_250, u64::MAX);
    tune("3", "lo is 2^58, lo*64 wraps", (1 << 58) - standard, standard);
    tune("3a", "one less", (1 << 58) - standard - 1, standard);
    tune("4", "lo*64 wraps into the band", (1 << 58) + 27_656_250 - standard, standard);
    tune("4a", "one less", (1 << 58) + 27_656_249 - standard, standard);
    tune("4b", "lo*2 wraps into the band", (1 << 63) + 885_000_000 - standard, standard);
}

/// A correction at the ends of what document 01 takes, and a tune after it.
fn corrected(number: &str, ppm: i32, hz: u64) {
    let chip = run::chip(&record(2_300_000));
    let set = rust(|| chip.set_ppm(ppm).map(|()| chip.see().corrected));
    row(number, &format!("set_ppm({ppm}) on 28800000, corrected"), set, page(Case { d: ppm as u32, ..plain(10) }));
    let ruling = match harness::page::corrected(28_800_000, ppm) {
        Some(corrected) => {
            page(Case { a: hz, tuner: Tuner { corrected, ..record(2_300_000) }.bytes(), replies: replies_for(1, Some(0), 0), ..plain(3) })
        }
        None => "not reachable".into(),
    };
    row(&format!("{number}t"), &format!("then tune {hz}"), rust(|| tuned(&chip, hz)), ruling);
}

fn references() {
    corrected("5", -1_000_000, 100 * MHZ);
    corrected("5a", -1_000_000, 3_000 * MHZ);
    corrected("5b", -999_999, 100 * MHZ);
    corrected("6", -1_000_001, 100 * MHZ);
    corrected("7", 148_130_809, 100 * MHZ);
    corrected("7a", 148_130_808, 100 * MHZ);
    for (number, ppm) in [("8", -1_000_000), ("8a", -1_000_001), ("8b", 148_130_809), ("8c", i32::MIN), ("8d", i32::MAX)] {
        let driver = Driver { board: 0, nominal: 28_800_000, ppm, frequency: 0, rate: 0, actual: 0 };
        let chip = Arc::new(run::chip(&record(2_300_000)));
        let made = page(Case { a: 28_800_000, d: ppm as u32, ..plain(16) });
        row(
            number,
            &format!("corrected_xtal_hz at {ppm} ppm of 28800000"),
            rust(|| run::driver(chip, 1, &driver).see_corrected()),
            format!("{made} (at the driver's making)"),
        );
    }
    let driver = Driver { board: 0, nominal: 28_800_000, ppm: -1_000_000, frequency: 0, rate: 0, actual: 0 };
    let chip = Arc::new(run::chip(&record(2_300_000)));
    let found = rust(|| block_on(run::driver(chip, 1, &driver).set_sample_rate(2_048_000)));
    row("9", "set_sample_rate(2048000), driver's reference 0", found, page(Case { driver: driver.bytes(), ..plain(19) }));
}

fn gains() {
    for (number, bits) in [
        ("10", 0xcd4c_cccc_u32),
        ("11", 0xcd4c_cccb),
        ("11a", 0xcd4c_cccd),
        ("11b", 0xff80_0000),
        ("11c", 0xcd4c_ccca),
        ("11d", 0x7fc0_0000),
    ] {
        let db = f32::from_bits(bits);
        let chip = run::chip(&record(0));
        let ruling = answer(&Case { a: bits as u64, ..plain(4) });
        row(
            number,
            &format!("gain {bits:#010x}, product {}", (db * 10.0) as f64),
            rust(|| chip.set_gain(db)),
            format!("{} dB, {} entries", f32::from_bits(ruling.value as u32), ruling.count),
        );
    }
}

fn small() {
    let usb = run::usb();
    for (number, pin) in [("12", 8), ("12a", 255)] {
        row(
            number,
            &format!("set_gpio_output({pin})"),
            rust(|| usb.set_gpio_output(pin).map(|()| written(&run::entries()))),
            page(Case { a: pin as u64, ..plain(31) }),
        );
        row(
            number,
            &format!("set_gpio_bit({pin}, true)"),
            rust(|| usb.set_gpio_bit(pin, true).map(|()| written(&run::entries()))),
            page(Case { a: pin as u64, ..plain(32) }),
        );
    }
    row("14", "if_freq_regs(0, 0)", rust(|| registers::if_freq_regs(0, 0)), page(Case { a: 0, b: 0, ..plain(34) }));
    row("14a", "set_if_freq_xtal(0, 0)", rust(|| demod::set_if_freq_xtal(usb.as_hw(), 0, 0)), page(Case { a: 0, b: 0, ..plain(27) }));
    row("15", "resample_regs(0, 1)", rust(|| registers::resample_regs(0, 1)), page(Case { a: 0, b: 1, ..plain(35) }));
    row("16", "resample_regs(1, 0)", rust(|| registers::resample_regs(1, 0)), page(Case { a: 1, b: 0, ..plain(35) }));
    row(
        "16a",
        "set_sample_rate_xtal(1, 0)",
        rust(|| demod::set_sample_rate_xtal(usb.as_hw(), 1, 0)),
        page(Case { a: 1, b: 0, ..plain(28) }),
    );
    for (number, register, length) in [("17", 0xf9, 7), ("17a", 0xfb, 14), ("17b", 0xf8, 7)] {
        let sent = rust(|| usb.i2c_write_tuner(0x74, register, &vec![0; length]).map(|()| registers_of(&run::entries())));
        row(
            number,
            &format!("i2c_write_tuner from {register:#x}, {length} bytes"),
            sent,
            "not public: initialise and reload write 0x05..0x1f alone".into(),
        );
    }
}

/// The data of the block writes.
fn written(made: &[Entry]) -> String {
    made.iter().filter(|entry| entry[0] == 6).map(|entry| format!("{:#04x}", entry[8])).collect::<Vec<_>>().join(" ")
}

/// The first registers of the I2C writes.
fn registers_of(made: &[Entry]) -> String {
    made.iter().filter(|entry| entry[0] == 2).map(|entry| format!("{:#04x}", entry[8])).collect::<Vec<_>>().join(" ")
}

fn makings() {
    let new = |kind: TunerType, nominal: u64| {
        let hw: Arc<dyn HardwareInterface> = run::usb();
        R82xx::new(hw, kind, 0x74, nominal)
    };
    row(
        "18",
        "new(E4000, nominal 28800000), then tune 100 MHz",
        rust(|| tuned(&new(TunerType::E4000, 28_800_000), 100 * MHZ)),
        page(Case { a: 2, ..plain(1) }),
    );
    row(
        "18a",
        "new(R828D, nominal 0), then tune 100 MHz",
        rust(|| tuned(&new(TunerType::R828D, 0), 100 * MHZ)),
        page(Case { b: 0, ..plain(1) }),
    );
    row(
        "18b",
        "new(R828D, nominal 2^32), then tune 100 MHz",
        rust(|| tuned(&new(TunerType::R828D, 1 << 32), 100 * MHZ)),
        page(Case { b: 1 << 32, ..plain(1) }),
    );
    row(
        "18c",
        "new(R828D, nominal 2^32 + 1), then set_ppm(-2^31)",
        rust(|| new(TunerType::R828D, (1 << 32) + 1).set_ppm(i32::MIN)),
        page(Case { b: (1 << 32) + 1, ..plain(1) }),
    );
    let fir = |at: usize, value: i32| {
        let mut values = [0; 16];
        values[at] = value;
        values
    };
    for (number, at, value) in [("19", 0, 128), ("19a", 8, 2048), ("19b", 7, -129), ("19c", 15, -2049)] {
        let input = fir(at, value).iter().flat_map(|v| v.to_le_bytes()).collect();
        let found = rust(|| demod::packer::pack_with(fir(at, value)).iter().map(|byte| format!("{byte:02x}")).collect::<String>());
        row(number, &format!("FIR value {at} is {value}"), found, page(Case { input, ..plain(36) }));
    }
    for (number, reference) in [("20", 68_076_924), ("20a", 100_000_000)] {
        let low = Tuner { intermediate: 0, ..Tuner::fresh(1, reference, 0x74) };
        let case = Case { a: 885 * MHZ, tuner: low.bytes(), ..plain(3) };
        let byte = judge::entries(&answer(&case))[13][9];
        let later = requests::answer(&case);
        row(
            number,
            &format!("N below 13: reference {reference}, lo 885000000"),
            rust(|| tuned(&run::chip(&low), 885 * MHZ)),
            format!("the same: 0x14 gets {byte:#04x}; document 02: refused {}, {} entries", later.refusal, later.count),
        );
    }
}

/// Rates that the resampler does not hold: what the Rust sends of them.
fn rates() {
    let sent = |made: &[Entry]| {
        made.iter().filter(|entry| entry[0] == 5).map(|entry| format!("{:02x}{:02x}", entry[8], entry[9])).collect::<String>()
    };
    let usb = run::usb();
    for (number, rate, xtal) in [
        ("22", 1, 32),
        ("22a", 1, 31),
        ("22b", 1, 95),
        ("22c", 1, 96),
        ("22d", 1, 127),
        ("22e", 1, 128),
        ("22f", (1 << 20) + 1, 1),
        ("22g", 1 << 20, 1),
        ("22h", 225_000, 28_800_000),
        ("22i", 225_001, 28_800_000),
        ("22j", 300_000, 28_800_000),
        ("22k", 300_001, 28_800_000),
        ("22l", 900_000, 28_800_000),
        ("22m", 900_001, 28_800_000),
    ] {
        let case = Case { a: rate as u64, b: xtal as u64, ..plain(28) };
        let ratio = ((xtal as u64) << 22) / rate as u64;
        row(
            number,
            &format!("set_sample_rate_xtal({rate}, {xtal}), ratio {ratio:#010x}"),
            rust(|| demod::set_sample_rate_xtal(usb.as_hw(), rate, xtal).map(|()| sent(&run::entries()))),
            later(&case),
        );
    }
    let given = Driver { board: 0, nominal: 32, ppm: 0, frequency: 0, rate: 0, actual: 0 };
    let case = Case { a: 1, driver: given.bytes(), ..plain(19) };
    row(
        "22n",
        "set_sample_rate(1), driver's reference 32, recorded",
        rust(|| {
            let mut driver = run::driver(Arc::new(run::chip(&record(2_300_000))), 1, &given);
            block_on(driver.set_sample_rate(1)).map(|()| (driver.sample_rate, sent(&run::entries())))
        }),
        later(&case),
    );
}

/// A register's byte as it was last sent, and as a shadow has it.
fn sent_and_kept(made: &[Entry], shadow: &[u8; 27], register: usize) -> String {
    let sent = attempts(made).filter(|&(place, _, _)| place + FIRST == register).last();
    let sent = sent.map_or("not sent".into(), |(_, byte, done)| format!("{} {byte:#04x}", if done { "sent" } else { "tried" }));
    format!("{register:#04x} {sent}, shadow {:#04x}", shadow[register - FIRST])
}

/// #106: what the Rust sends and keeps of some registers, and what document 02 makes of it. Document 01 does as the Rust.
fn shadowed(number: &str, input: &str, case: &Case, registers: &[usize]) {
    let given = Tuner::read(&case.tuner).expect("a record");
    let told =
        |made: &[Entry], shadow: &[u8; 27]| registers.iter().map(|&at| sent_and_kept(made, shadow, at)).collect::<Vec<_>>().join("; ");
    let chip = run::chip(&given);
    let (_, made) = run::run(&case.outcomes, &case.replies, || harness::answer::call(&chip, case, &given));
    let then = requests::answer(case);
    let shadow = Tuner::read(&then.tuner.clone().expect("a next record")).expect("a record").shadow;
    row(number, input, told(&made, &chip.see().shadow), format!("the same; document 02: {}", told(&judge::entries(&then), &shadow)));
}

/// Initialise over a shadow in which this register has other bits.
fn initialised(number: &str, register: usize, bits: u8) {
    let mut given = record(2_300_000);
    given.shadow[register - FIRST] ^= bits;
    let input = format!("initialise, the shadow has {:#04x} for {register:#04x}, else INIT_ARRAY", given.shadow[register - FIRST]);
    shadowed(number, &input, &Case { tuner: given.bytes(), ..plain(2) }, &[register]);
}

fn shadows() {
    for (number, register, bits) in [
        ("23", 0x0a, 0x01),
        ("23a", 0x0b, 0x10),
        ("23b", 0x0c, 0x10),
        ("23c", 0x13, 0x40),
        ("23d", 0x1a, 0x01),
        ("24", 0x05, 0x01),
        ("24a", 0x1f, 0x01),
    ] {
        initialised(number, register, bits);
    }
    let zeros = Case { tuner: Tuner { shadow: [0; 27], ..record(2_300_000) }.bytes(), ..plain(2) };
    for (number, step, what) in [("24b", 1, "the first chunk's write fails"), ("24c", 0, "the opening fails")] {
        let mut cut = zeros.clone();
        cut.outcomes[step] = 1;
        shadowed(number, &format!("initialise over a shadow of zeros, {what}"), &cut, &[0x05, 0x0b, 0x0c]);
    }
    let tune = Case { a: 25_356_250, tuner: record(2_300_000).bytes(), replies: replies_for(1, Some(0), 0), ..plain(3) };
    shadowed("25", "tune hz 25356250, IF 2300000, a fresh record", &tune, &[0x14, 0x15, 0x16]);
    let mut cut = tune.clone();
    cut.outcomes[14] = 1;
    shadowed("25a", "the same, the write of 0x16 fails", &cut, &[0x14, 0x15, 0x16]);
}

/// What #106 is about: the same calls by the Rust and by document 02, and each write in which they part, with what the chip held before it.
fn second_initialise() {
    println!("a second initialise, two hops and a gain behind it, all done: the writes in which the Rust and document 02 part");
    let mut given = record(2_300_000);
    let (chip, mut held) = (run::chip(&given), [0u8; 27]);
    let hop = |mhz: u64| Case { a: mhz * MHZ, replies: replies_for(1, Some(0), 0), ..plain(3) };
    let gain = |index: u64| Case { a: index, ..plain(5) };
    let night = [
        ("initialise", plain(2)),
        ("tune 30 MHz", hop(30)),
        ("gain index 28", gain(28)),
        ("initialise", plain(2)),
        ("tune 100 MHz", hop(100)),
        ("tune 433 MHz", hop(433)),
        ("gain index 3", gain(3)),
    ];
    for (name, call) in night {
        let case = Case { tuner: given.bytes(), ..call };
        let (_, made) = run::run(&case.outcomes, &case.replies, || harness::answer::call(&chip, &case, &given));
        let then = requests::answer(&case);
        println!("    {name}: {} entries", made.len());
        for (rust, ours) in made.iter().zip(judge::entries(&then)).filter(|(rust, _)| rust[0] == 2 && rust[3] > 1) {
            let place = rust[8] as usize - FIRST;
            if *rust != ours {
                println!(
                    "        {:#04x}: the chip held {:#04x}; the Rust sends {:#04x}, document 02 {:#04x}",
                    rust[8], held[place], rust[9], ours[9]
                );
            }
            attempts(&[*rust]).for_each(|(place, byte, _)| held[place] = byte);
        }
        given = Tuner::read(&then.tuner.expect("a next record")).expect("a record");
    }
}

/// Document 01 does as the Rust; what document 02 makes of it.
fn later(case: &Case) -> String {
    let (first, then) = (answer(case), requests::answer(case));
    let ruling = if then.refusal == 0 { "the same".to_string() } else { format!("refused {}, {} entries", then.refusal, then.count) };
    format!("the same, {} entries; document 02: {ruling}", first.count)
}

/// The packets of pages above 15 and registers above 0xff are those of others; the entries tell them apart.
fn aliases() {
    let usb = run::usb();
    rec::with(|r| r.keep = true);
    for (number, page, register) in [("21", 0, 0), ("21a", 16, 0), ("21b", 0, 0x100)] {
        rec::begin(&[], &[]);
        let done = demod::write_reg_direct(usb.as_hw(), page, register, 7).is_ok();
        let packet = rec::with(|r| format!("value {:#06x}, index {:#06x}", r.transfers[0].value, r.transfers[0].index));
        row(
            number,
            &format!("write_reg_direct({page}, {register:#x}, 7)"),
            format!("done {done}, packet {packet}"),
            format!("entry with page {page}, register {register:#x}"),
        );
    }
    rec::with(|r| r.keep = false);
}

/// The sample rate's last byte by the driver's board, as the Rust plans, and by a table (#113).
fn tables() {
    let last = |made: &[Entry]| {
        made.last().map_or("no entry".into(), |entry| format!("{:#04x} to page {}, {:#04x}", entry[8], entry[2], entry[4]))
    };
    for (number, board, table, what) in
        [("26", 0, 1, "generic, the V4's table"), ("26a", 1, 0, "V4, the generic table"), ("26b", 1, 1, "V4, its own table")]
    {
        let given = Driver { board, nominal: 28_800_000, ppm: 0, frequency: 28_799_999, rate: 0, actual: 0 };
        let case = Case { driver: given.bytes(), input: built_in(table), ..plain(19) };
        row(
            number,
            &format!("set_sample_rate(2048000), the driver at 28,799,999 Hz: {what}"),
            rust(|| {
                let mut driver = run::driver(Arc::new(run::chip(&record(2_300_000))), 1, &given);
                block_on(driver.set_sample_rate(2_048_000)).map(|()| last(&run::entries()))
            }),
            format!("by the board; document 02: {}", last(&judge::entries(&requests::answer(&case)))),
        );
    }
}

/// Calls of the Rust's driver that document 01 leaves out: what a user of it would notice.
fn left_out() {
    let kinds = |made: &[Entry]| {
        let mut text = String::new();
        for entry in made {
            text += match entry[0] {
                1 if entry[8] == 1 => "(",
                1 => ")",
                2 => "w",
                3 => "r",
                4 | 5 => "d",
                6 | 7 => "b",
                8 => "g",
                _ => "-",
            };
        }
        text
    };
    println!("calls left out: ( ) repeater, w r tuner write and read, d demodulator, b g block write and read, - wait");
    for (name, kind) in [("R828D", 1), ("R820T", 0)] {
        let given = Driver { board: 1, nominal: 28_800_000, ppm: 0, frequency: 100 * MHZ, rate: 2_048_000, actual: 0 };
        let fresh = || run::driver(Arc::new(run::chip(&Tuner::fresh(kind, 28_800_000, 0x74))), kind, &given);
        println!(
            "    {name} Driver::set_frequency(7 MHz): {}",
            rust(|| block_on(fresh().set_frequency(7 * MHZ, None)).map(|_| kinds(&run::entries())))
        );
        let hop = Case { tuner: Tuner::fresh(kind, 28_800_000, 0x74).bytes(), ..plain(42) };
        let hop = Case { replies: [vec![0; if kind == 1 { 3 } else { 0 }], replies_for(1, Some(0), 0), vec![0; 3]].concat(), ..hop };
        let made = judge::entries(&requests::answer(&hop));
        println!("    {name} document 02's board tune, 7 MHz: {}; {} entries", kinds(&made), made.len());
        println!("    {name} Driver::set_ppm(1): {}", rust(|| block_on(fresh().set_ppm(1)).map(|()| kinds(&run::entries()))));
    }
}

fn main() {
    panic::set_hook(Box::new(|info| TEXT.with_borrow_mut(|text| *text = info.payload_as_str().unwrap_or("?").to_string())));
    let build = if cfg!(debug_assertions) { "a debug build: overflow panics" } else { "a release build: overflow wraps" };
    println!("Where the Rust and document 01 part, in {build}.");
    tunes();
    references();
    gains();
    small();
    makings();
    aliases();
    rates();
    shadows();
    second_initialise();
    tables();
    left_out();
}
