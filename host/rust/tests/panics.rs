//! A host that panics in the middle of a driven call: whatever became of the step at hand, the record that is left calls no register sure that holds another byte.
use pasetone::{Board, Command, Driver, Entry, EntryKind, InputPath, Outcome, Script, Stream, Table, Tuner, TunerKind};
use std::panic::{self, AssertUnwindSafe};

/// What becomes of the step in which the host panics: nothing, its first register alone, or all of it.
#[derive(Clone, Copy, Debug, PartialEq)]
enum Lands {
    Nothing,
    First,
    All,
}

/// A panic of the host, without a line on standard error.
fn stops() -> ! {
    panic::resume_unwind(Box::new("the host panics"))
}

/// A chip's registers, and the step at which its host panics.
#[derive(Clone)]
struct Chip {
    registers: [u8; 256],
    steps: usize,
    panics: Option<(usize, Lands)>,
}

impl Chip {
    fn take(&mut self, step: &Entry) -> Outcome {
        let now = self.panics.filter(|(at, _)| *at == self.steps);
        let most = match now {
            Some((_, Lands::Nothing)) => 0,
            Some((_, Lands::First)) => 1,
            _ => usize::MAX,
        };
        for (register, byte) in step.registers().take(most) {
            self.registers[usize::from(register)] = byte;
        }
        self.steps += 1;
        if now.is_some() {
            stops();
        }
        match step.kind {
            EntryKind::I2cRead | EntryKind::BlockRead => Outcome::Read(vec![0x0a; step.bytes.len()]),
            _ => Outcome::Done,
        }
    }

    /// How many registers the record calls sure while the chip holds another byte.
    fn lies(&self, tuner: &Tuner) -> usize {
        let lie = |register: &u8| !tuner.is_doubtful(*register) && tuner.shadow(*register) != Some(self.registers[usize::from(*register)]);
        Tuner::registers().filter(lie).count()
    }
}

#[derive(Clone)]
struct Host {
    tuner: Tuner,
    driver: Driver,
    stream: Stream,
    table: Table,
}

type Call = fn(&mut Host, &mut Chip);

const CALLS: [Call; 11] = [
    |host, chip| drop(host.tuner.drive(Tuner::initialize, |step| chip.take(step))),
    |host, chip| drop(host.tuner.drive(|tuner, script| tuner.set_frequency(433_920_000, script), |step| chip.take(step))),
    |host, chip| drop(host.tuner.drive(|tuner, script| tuner.set_gain(8.7, script), |step| chip.take(step))),
    |host, chip| drop(host.tuner.drive(|tuner, script| tuner.set_gain_by_index(3, script), |step| chip.take(step))),
    |host, chip| drop(host.tuner.drive(|tuner, script| tuner.set_bandwidth(6_500_000, script), |step| chip.take(step))),
    |host, chip| drop(host.tuner.drive(|tuner, script| tuner.set_input_path(InputPath::Hf, script), |step| chip.take(step))),
    |host, chip| drop(host.tuner.drive(|tuner, script| tuner.apply_input_path(InputPath::Uhf, script), |step| chip.take(step))),
    |host, chip| drop(host.tuner.drive(Tuner::reload, |step| chip.take(step))),
    |host, chip| {
        let Host { tuner, driver, table, .. } = host;
        drop(driver.drive(tuner, |driver, tuner, script| driver.set_sample_rate(tuner, table, 3_200_000, script), |step| chip.take(step)))
    },
    |host, chip| {
        let Host { tuner, driver, table, .. } = host;
        drop(driver.drive(tuner, |driver, tuner, script| driver.tune_board(tuner, table, 7_000_000, script), |step| chip.take(step)))
    },
    |host, chip| {
        let Host { tuner, driver, stream, table } = host;
        let sent = [Command::Gain(0.0).bytes(), Command::Frequency(1_090_000_000).bytes()].concat();
        drop(stream.drive(driver, tuner, table, &sent, |step| chip.take(step)))
    },
];

#[test]
fn a_panicking_host_leaves_a_record_that_does_not_lie() {
    let mut host = Host {
        tuner: Tuner::new(TunerKind::R828d, 0x74, 28_800_000).unwrap(),
        driver: Driver::new(Board::V4, 28_800_000, 0, 0, 0).unwrap(),
        stream: Stream::new(),
        table: Board::V4.table(),
    };
    let mut chip = Chip { registers: [0xa5; 256], steps: 0, panics: None };
    CALLS[0](&mut host, &mut chip);
    assert_eq!((host.tuner.doubtful().count(), chip.lies(&host.tuner)), (0, 0));

    let (mut panics, mut before_lies, mut done_lies) = (0, 0, 0);
    let mut faults = Vec::new();
    for (number, call) in CALLS.iter().enumerate() {
        let mut whole = host.clone();
        let mut its_chip = Chip { steps: 0, ..chip.clone() };
        call(&mut whole, &mut its_chip);
        for at in 0..its_chip.steps {
            for lands in [Lands::Nothing, Lands::First, Lands::All] {
                let mut host = host.clone();
                let before = host.tuner.clone();
                let mut chip = Chip { steps: 0, panics: Some((at, lands)), ..chip.clone() };
                let ended = panic::catch_unwind(AssertUnwindSafe(|| call(&mut host, &mut chip)));
                panics += usize::from(ended.is_err());
                // What a record would tell that is left as it was, or taken as done to the end.
                before_lies += usize::from(chip.lies(&before) > 0);
                done_lies += usize::from(chip.lies(&whole.tuner) > 0);
                // The way back: reload, and nothing is in doubt.
                let lies = chip.lies(&host.tuner);
                host.tuner.drive(Tuner::reload, |step| chip.take(step)).result.unwrap();
                if lies > 0 || host.tuner.doubtful().count() > 0 || chip.lies(&host.tuner) > 0 {
                    faults.push((number, at, lands, lies));
                }
            }
        }
        // Where the host does not panic, the record is the call's own.
        assert_eq!(its_chip.lies(&whole.tuner), 0, "call {number}");
    }
    assert_eq!(faults, []);
    // The chip would have shown both other records to lie.
    assert!(panics > 400 && before_lies > 300 && done_lies > 300, "{panics} {before_lies} {done_lies}");
}

/// A panic is no answer: the record says that a step failed, and how the call would have gone on is not in it.
#[test]
fn the_record_is_that_of_the_failing_rest() {
    let mut tuner = Tuner::new(TunerKind::R828d, 0x74, 28_800_000).unwrap();
    let given = tuner.clone();
    for at in 0..19 {
        let mut steps = 0;
        tuner = given.clone();
        let ended = panic::catch_unwind(AssertUnwindSafe(|| {
            tuner.drive(Tuner::initialize, |_| {
                steps += 1;
                if steps > at {
                    stops();
                }
                Outcome::Done
            })
        }));
        assert!(ended.is_err());
        let mut outcomes = vec![0; at];
        outcomes.resize(Script::OUTCOMES, 1);
        let mut wanted = given.clone();
        let _ = wanted.initialize(&Script::new(outcomes, []));
        assert_eq!(tuner, wanted, "panic at step {at}");
    }
}
