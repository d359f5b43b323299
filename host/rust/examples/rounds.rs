//! Every call with steps, driven step by step on simulated receivers that fail nowhere, at one step, or from one step on. Each must end as the one call does
//! that is told in advance how the receiver will behave. host/c/rounds.c does the same in C and prints the same lines, host/rounds.txt. As `rounds lie` a receiver tells another
//! outcome of its first step than it had, and faults must be found.
use pasetone::{
    Board, Command, Driver, Entry, EntryKind, Error, InputPath, Outcome, Script, Stepped, Stream, Transcript, Tuner, TunerKind, demod,
    drive, gpio,
};
use std::fmt::Debug;
use std::ops::Range;

/// A receiver with a will of its own: registers of its chip, bytes of its GPIO, a PLL that finds a lock at some try or never.
#[derive(Clone)]
struct Receiver {
    address: u8,
    locks_at: usize,
    tries: usize,
    /// The steps that fail, by the order in which it is asked for them.
    failing: Range<usize>,
    open: bool,
    registers: [u8; 256],
    gpio: [u8; 256],
    /// What it was asked for, without outcomes and read bytes; and how it behaved, as a script has it.
    asked: Vec<Ask>,
    outcomes: Vec<u8>,
    replies: Vec<u8>,
    /// A step for the chip came while the repeater was closed, or for another chip.
    astray: bool,
}

/// What an entry asks for: kind, target, address, n and the bytes of a write.
type Ask = (EntryKind, u8, u16, usize, Vec<u8>);

fn asks(entry: &Entry) -> Ask {
    let written = if is_read(entry) { &[] } else { entry.bytes };
    (entry.kind, entry.target, entry.address, entry.bytes.len(), written.to_vec())
}

fn is_read(entry: &Entry) -> bool {
    matches!(entry.kind, EntryKind::I2cRead | EntryKind::BlockRead)
}

impl Receiver {
    fn new(address: u8, locks_at: usize) -> Receiver {
        let (asked, outcomes, replies) = (Vec::new(), Vec::new(), Vec::new());
        let (registers, gpio) = ([0xa5; 256], [0x5a; 256]);
        Receiver { address, locks_at, tries: 0, failing: 0..0, open: false, registers, gpio, asked, outcomes, replies, astray: false }
    }

    /// The same receiver, asked for nothing yet, with these steps failing.
    fn failing(&self, failing: Range<usize>) -> Receiver {
        let (asked, outcomes, replies) = (Vec::new(), Vec::new(), Vec::new());
        Receiver { failing, asked, outcomes, replies, ..self.clone() }
    }

    fn take(&mut self, step: &Entry) -> Outcome {
        let failed = self.failing.contains(&self.asked.len());
        self.asked.push(asks(step));
        self.outcomes.push(u8::from(failed));
        let read = self.act(step, failed);
        if failed {
            return Outcome::Failed(None);
        }
        self.replies.extend(&read);
        if is_read(step) { Outcome::Read(read) } else { Outcome::Done }
    }

    fn act(&mut self, step: &Entry, failed: bool) -> Vec<u8> {
        let n = step.bytes.len();
        match step.kind {
            EntryKind::Repeater if !failed => self.open = step.bytes[0] == 1,
            EntryKind::I2cWrite => {
                self.astray |= !self.open || step.target != self.address;
                // Nobody knows what a write that failed has left.
                let mess = if failed { 0x33 } else { 0 };
                for (register, byte) in (usize::from(step.bytes[0])..).zip(&step.bytes[1..]) {
                    self.registers[register] = byte ^ mess;
                }
            }
            EntryKind::I2cRead => {
                self.astray |= !self.open || step.target != self.address;
                self.tries += usize::from(n == 3 && !failed);
                // Status bytes come with their bits reversed: the lock's in the third, the VCO as it should be in the fifth.
                let lock = if self.tries >= self.locks_at { 0x02 } else { 0 };
                return [0x69, 0, lock, 0, 0x08][..n].to_vec();
            }
            EntryKind::BlockWrite8 if !failed => self.gpio[usize::from(step.address & 0xff)] = step.bytes[0],
            EntryKind::BlockRead => return vec![self.gpio[usize::from(step.address & 0xff)]],
            _ => {}
        }
        Vec::new()
    }

    /// All that it did, as a script; behind it every step would fail and every read give 0xff, which no call comes to.
    fn script(&self) -> Script {
        let (mut outcomes, mut replies) = (self.outcomes.clone(), self.replies.clone());
        outcomes.resize(Script::OUTCOMES, 1);
        outcomes[0] ^= u8::from(std::env::args().nth(1).as_deref() == Some("lie"));
        replies.resize(Script::REPLIES, 0xff);
        Script::new(outcomes, replies)
    }

    /// A register that is not doubtful holds its shadow byte.
    fn holds(&self, tuner: &Tuner) -> bool {
        Tuner::registers().all(|at| tuner.is_doubtful(at) || tuner.shadow(at) == Some(self.registers[usize::from(at)]))
    }
}

#[derive(Clone, PartialEq)]
struct Host {
    tuner: Tuner,
    driver: Driver,
}

/// How a call is told what becomes of its steps.
enum Way<'a> {
    AtOnce(&'a Script),
    InRounds(&'a mut Receiver),
}

/// All that a call answers: in words, and its section.
type Told = (String, Transcript);

fn told<A: Stepped + Debug>(answer: A) -> Told {
    (format!("{answer:?}"), answer.transcript().clone())
}

fn plain<A: Stepped + Debug>(way: Way, call: impl Fn(&Script) -> A) -> Told {
    told(match way {
        Way::AtOnce(script) => call(script),
        Way::InRounds(receiver) => drive(call, |step| receiver.take(step)).answer,
    })
}

fn on_tuner<A: Stepped + Debug>(host: &mut Host, way: Way, call: impl Fn(&mut Tuner, &Script) -> A) -> Told {
    told(match way {
        Way::AtOnce(script) => call(&mut host.tuner, script),
        Way::InRounds(receiver) => host.tuner.drive(call, |step| receiver.take(step)).answer,
    })
}

fn on_driver<A: Stepped + Debug>(host: &mut Host, way: Way, call: impl Fn(&mut Driver, &mut Tuner, &Script) -> A) -> Told {
    told(match way {
        Way::AtOnce(script) => call(&mut host.driver, &mut host.tuner, script),
        Way::InRounds(receiver) => host.driver.drive(&mut host.tuner, call, |step| receiver.take(step)).answer,
    })
}

fn by_stream(host: &mut Host, way: Way, command: Command) -> Told {
    let (table, sent, mut stream) = (Board::V4.table(), command.bytes(), Stream::new());
    told(match way {
        Way::AtOnce(script) => stream.feed(&mut host.driver, &mut host.tuner, &table, &sent, |_| script.clone()).remove(0),
        Way::InRounds(receiver) => {
            stream.drive(&mut host.driver, &mut host.tuner, &table, &sent, |step| receiver.take(step)).remove(0).answer
        }
    })
}

type Call = fn(&mut Host, Way) -> Told;

/// In the order of pasetone.h.
#[rustfmt::skip]
const CALLS: [(&str, Call); 25] = [
    ("initialize", |host, way| on_tuner(host, way, Tuner::initialize)),
    ("set_frequency", |host, way| on_tuner(host, way, |tuner, script| tuner.set_frequency(102_300_000, script))),
    ("set_frequency, refused in the PLL", |host, way| on_tuner(host, way, |tuner, script| tuner.set_frequency(1, script))),
    ("set_gain", |host, way| on_tuner(host, way, |tuner, script| tuner.set_gain(29.7, script))),
    ("set_gain_by_index", |host, way| on_tuner(host, way, |tuner, script| tuner.set_gain_by_index(28, script))),
    ("set_bandwidth", |host, way| on_tuner(host, way, |tuner, script| tuner.set_bandwidth(2_048_000, script))),
    ("set_if_freq", |host, way| on_tuner(host, way, |tuner, script| tuner.set_if_freq(3_570_000, script))),
    ("set_input_path", |host, way| on_tuner(host, way, |tuner, script| tuner.set_input_path(InputPath::Hf, script))),
    ("reload", |host, way| on_tuner(host, way, Tuner::reload)),
    ("set_sample_rate", |host, way| on_driver(host, way, |driver, tuner, script| driver.set_sample_rate(tuner, &Board::V4.table(), 2_048_000, script))),
    ("tune_board", |host, way| on_driver(host, way, |driver, tuner, script| driver.tune_board(tuner, &Board::V4.table(), 7_000_000, script))),
    ("apply_input_path", |host, way| on_tuner(host, way, |tuner, script| tuner.apply_input_path(InputPath::Uhf, script))),
    ("init_baseband", |_, way| plain(way, demod::init_baseband)),
    ("power_on", |_, way| plain(way, demod::power_on)),
    ("reset_demod", |_, way| plain(way, demod::reset_demod)),
    ("set_tuner_low_if", |_, way| plain(way, demod::set_tuner_low_if)),
    ("set_tuner_zero_if", |_, way| plain(way, demod::set_tuner_zero_if)),
    ("start_streaming", |_, way| plain(way, demod::start_streaming)),
    ("stop_streaming", |_, way| plain(way, demod::stop_streaming)),
    ("write_reg_direct", |_, way| plain(way, |script| demod::write_reg_direct(1, 0x15, 1, script))),
    ("set_if_freq_xtal", |_, way| plain(way, |script| demod::set_if_freq_xtal(2_300_000, 28_800_000, script))),
    ("set_sample_rate_xtal", |_, way| plain(way, |script| demod::set_sample_rate_xtal(2_048_000, 28_800_000, script))),
    ("set_gpio_output", |_, way| plain(way, |script| gpio::set_output(5, script))),
    ("set_gpio_bit", |_, way| plain(way, |script| gpio::set_bit(5, true, script))),
    ("feed, operation 1", |host, way| by_stream(host, way, Command::Frequency(102_300_000))),
];

#[derive(Default)]
struct Tally {
    runs: usize,
    steps: usize,
    checks: usize,
    faults: usize,
}

impl Tally {
    fn that(&mut self, good: bool, what: &str, name: &str, receiver: &Receiver) {
        self.checks += 1;
        if !good {
            self.faults += 1;
            println!("{name}, locks at {}, failing {:?}: {what}", receiver.locks_at, receiver.failing);
        }
    }
}

/// One call in rounds on a receiver, then at once with what the receiver did; how many steps there were.
fn run((name, call): (&str, Call), host: &Host, mut receiver: Receiver, tally: &mut Tally) -> usize {
    let (mut driven, mut at_once) = (host.clone(), host.clone());
    let found = call(&mut driven, Way::InRounds(&mut receiver));
    let wanted = call(&mut at_once, Way::AtOnce(&receiver.script()));
    let steps = found.1.len();
    tally.that(found.0 == wanted.0, "another answer", name, &receiver);
    tally.that(found.1.bytes() == wanted.1.bytes(), "another section", name, &receiver);
    tally.that(driven == at_once, "other records", name, &receiver);
    tally.that(found.1.iter().map(|entry| asks(&entry)).eq(receiver.asked.iter().cloned()), "other steps were shown", name, &receiver);
    // A wait is done whatever the receiver says of it.
    let by_order = || found.1.iter().zip(&receiver.outcomes);
    let follows = by_order().all(|(entry, &outcome)| entry.failed == (outcome == 1 && entry.kind != EntryKind::Wait));
    tally.that(follows, "other outcomes", name, &receiver);
    tally.that(!receiver.astray, "a step for the chip went astray", name, &receiver);
    tally.that(receiver.holds(&driven.tuner), "the chip holds another byte than the record says", name, &receiver);
    tally.runs += 1;
    tally.steps += steps;
    steps
}

fn main() -> Result<(), Error> {
    let mut faults = 0;
    let mut checks = 0;
    let mut receivers = Vec::new();
    for (kind, address, locks_at) in [(TunerKind::R828d, 0x74, 1), (TunerKind::R828d, 0x74, 3), (TunerKind::R820t, 0x34, usize::MAX)] {
        let mut receiver = Receiver::new(address, locks_at);
        let (mut tuner, driver) = (Tuner::new(kind, address, 28_800_000)?, Driver::new(Board::V4, 28_800_000, 0, 0, 0)?);
        tuner.drive(Tuner::initialize, |step| receiver.take(step)).result?;
        receivers.push((Host { tuner, driver }, receiver));
    }
    for call in CALLS {
        let mut tally = Tally::default();
        for (host, receiver) in &receivers {
            let steps = run(call, host, receiver.failing(0..0), &mut tally);
            for step in 0..steps {
                run(call, host, receiver.failing(step..step + 1), &mut tally);
                run(call, host, receiver.failing(step..usize::MAX), &mut tally);
            }
        }
        println!("{}: {} runs, {} steps, {} faults", call.0, tally.runs, tally.steps, tally.faults);
        checks += tally.checks;
        faults += tally.faults;
    }
    println!("rounds: {checks} checks, {faults} faults");
    std::process::exit(i32::from(faults > 0))
}
