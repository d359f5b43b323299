//! Demand 3 of the port: sequences of its calls, each write played on simulated chips. Two receivers share one bus, at two
//! addresses; a chip takes the writes to its own. A done write lands whole; a failed one leaves, in each register it named,
//! the old byte, the new one, or any other.
use crate::draw::{self, Receiver};
use crate::given::Given;
use crate::port::{self, Found};
use crate::sabotage::Wrong;
use harness::answer::{takes_driver, takes_tuner};
use harness::case::Case;
use harness::dice::Dice;
use harness::judge::bare;
use harness::page;
use harness::records::{Driver, FIRST, Tuner};
use harness::tally::Tally;
use original::tuners::r82xx::SEEN_INIT;
use rusb::rec::Entry;

/// What a chip holds, and the last attempt at each of its registers: the byte sent, and whether it was done.
struct Chip {
    address: u8,
    bytes: [u8; 27],
    last: [Option<(u8, bool)>; 27],
}

impl Chip {
    fn play(&mut self, entries: &[Entry], wrong: Wrong, dice: &mut Dice) {
        let ours = |entry: &&Entry| entry[0] == 2 && (entry[2] == self.address || wrong == Wrong::AnyAddress);
        for entry in entries.iter().filter(ours) {
            for i in 1..entry[3] as usize {
                let place = entry[8] as usize + i - 1 - FIRST;
                let (sent, done) = (entry[8 + i], entry[1] == 0);
                self.last[place] = Some((sent, done));
                self.bytes[place] = match dice.below(3) {
                    _ if done => wrong.landed(sent),
                    0 => self.bytes[place],
                    1 => sent,
                    _ => dice.byte(),
                };
            }
        }
    }
}

/// A receiver with its chip.
struct Host {
    receiver: Receiver,
    chip: Chip,
}

impl Host {
    /// Both records come from the port, made on one nominal: the usual one, at which most tunings are taken, or any.
    fn new(address: u8, dice: &mut Dice) -> Self {
        let mut receiver = Receiver::fresh(dice);
        let kind = dice.below(2);
        let nominal = if dice.below(2) == 0 { 28_800_000 } else { dice.within(1, u32::MAX.into()) };
        let made = Given::exact(Case { call: 1, a: kind, b: nominal, c: address as u64, ..Case::default() });
        receiver.tuner = port::call(&made).tuner_after(&made).expect("a fresh record").to_vec();
        let made = Given::exact(Case { call: 16, a: nominal, b: 7_000_000, c: dice.below(2), e: 2_048_000, ..Case::default() });
        receiver.driver = port::call(&made).driver_after(&made).expect("a fresh record").to_vec();
        Self { receiver, chip: Chip { address, bytes: std::array::from_fn(|_| dice.byte()), last: [None; 27] } }
    }

    /// What the record must say after any call, read off the entries since the record was made and the chip.
    fn check(&self, tally: &mut Tally, what: &dyn Fn() -> String) {
        let Some(record) = Tuner::read(&self.receiver.tuner) else {
            return tally.that(false, || format!("no record was handed back: {}", what()));
        };
        // Both records were made on one nominal, and one call corrects both (#109): they never part.
        let reference = Driver::read(&self.receiver.driver).and_then(|driver| page::corrected(driver.nominal, driver.ppm));
        tally.that(reference == Some(record.corrected), || format!("the two references after {}", what()));
        for (place, &initial) in SEEN_INIT.iter().enumerate() {
            let last = self.chip.last[place];
            let (mark, byte) = (record.doubtful[place], record.shadow[place]);
            tally.that(mark != last.is_some_and(|(_, done)| done), || format!("mark {place} after {}", what()));
            let sent = last.map_or(initial, |(sent, _)| sent);
            tally.that(byte == sent, || format!("shadow byte {place} is {byte:#x}, sent {sent:#x}, after {}", what()));
            tally.that(mark || byte == self.chip.bytes[place], || format!("chip's byte {place} after {}", what()));
        }
    }
}

/// The entries that the port wrote into the room.
fn entries(found: &Found) -> Vec<Entry> {
    if found.reply.count == 0 {
        return vec![];
    }
    let section = found.section().expect("the room holds what the count says");
    section[..section.len() - 8].chunks(16).map(|chunk| chunk.try_into().unwrap()).collect()
}

/// What a run has done: calls, entries, calls cut by a failing step, reloads that were all done, and calls between that touch no tuner and took steps.
#[derive(Default)]
pub struct Done {
    pub calls: u64,
    pub entries: u64,
    pub cut: u64,
    pub reloads: u64,
    pub between: u64,
}

pub fn chain(length: u64, wrong: Wrong, dice: &mut Dice, tally: &mut Tally, done: &mut Done) {
    let first = dice.byte();
    let mut hosts = [first, first.wrapping_add(dice.within(1, 255) as u8)].map(|address| Host::new(address, dice));
    for _ in 0..length {
        let at = dice.below(2) as usize;
        let given = drawn(&hosts[at].receiver, dice);
        let mut found = port::call(&given);
        wrong.spoil(&mut found, dice);
        let made = entries(&found);
        for host in &mut hosts {
            host.chip.play(&made, wrong, dice);
        }
        match found.tuner_after(&given) {
            Some(bytes) if takes_tuner(given.case.call) => hosts[at].receiver.tuner = bytes.to_vec(),
            _ => {}
        }
        if let (19 | 41 | 42, Some(bytes)) = (given.case.call, found.driver_after(&given)) {
            hosts[at].receiver.driver = bytes.to_vec();
        }
        let what = || format!("{:02x?}", given.case);
        hosts.iter().for_each(|host| host.check(tally, &what));
        done.calls += 1;
        done.entries += made.len() as u64;
        done.between += u64::from(!takes_tuner(given.case.call) && !made.is_empty());
        if found.reply.refusal == 11 {
            done.cut += 1;
            cut(&given, &found, &made, wrong, tally);
        }
        if given.case.call == 9 && found.reply.refusal == 0 {
            done.reloads += 1;
            reloaded(&hosts[at], tally, &what);
        }
    }
}

/// A call on a receiver's own records; one in six is of the demodulator or a GPIO and takes none.
fn drawn(receiver: &Receiver, dice: &mut Dice) -> Given {
    let between = dice.below(6) == 0;
    let call = if between { dice.within(21, 32) as u8 } else { dice.pick(&[2, 2, 3, 3, 3, 4, 5, 6, 7, 8, 9, 9, 11, 19, 20, 41, 42, 42]) };
    let mut given = draw::draw(call, receiver, dice);
    if takes_tuner(call) {
        given.case.tuner = receiver.tuner.clone();
    }
    if takes_driver(call) {
        given.case.driver = receiver.driver.clone();
    }
    given
}

/// "The uncut call is the one with the failing step done and all other outcomes and replies equal": its steps up to the
/// failing one, then the closing of an open repeater and nothing else.
fn cut(given: &Given, found: &Found, made: &[Entry], wrong: Wrong, tally: &mut Tally) {
    let mut whole = given.clone();
    let upto = found.reply.index as usize + 1;
    whole.case.outcomes[upto - 1] = 0;
    let mut uncut = entries(&port::call(&whole));
    wrong.spoil_uncut(&mut uncut);
    let what = || format!("{:02x?}", given.case);
    tally.that(page::failing(made) == Some(upto - 1), || format!("index of the failing step: {}", what()));
    let same = made.len() >= upto && uncut.len() >= upto && made[..upto].iter().map(bare).eq(uncut[..upto].iter().map(bare));
    tally.that(same, || format!("steps up to the failing one: {}", what()));
    let (before, rest) = made.split_at(upto.min(made.len()));
    let open = before.iter().rfind(|entry| entry[0] == 1).is_some_and(|entry| entry[1] == 0 && entry[8] == 1);
    tally.that(rest.len() == open as usize && rest.iter().all(page::closes), || format!("what follows the failing step: {}", what()));
}

/// After a reload that is all done nothing is doubtful, and shadow and chip are the same.
fn reloaded(host: &Host, tally: &mut Tally, what: &dyn Fn() -> String) {
    let record = Tuner::read(&host.receiver.tuner);
    let same = record.is_some_and(|record| record.doubtful == [false; 27] && record.shadow == host.chip.bytes);
    tally.that(same, || format!("reload: {}", what()));
}
