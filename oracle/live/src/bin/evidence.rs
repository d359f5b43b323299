//! `pasetone_evidence` at the archive: `evidence [TURNS [SEED]]`. Nights of sections, by the port's own calls and by a simulated receiver, whole and damaged, go
//! to the port and to two second writings (harness::evidence). And where the port says that it is sure, the simulated receiver must stand there: it keeps its own
//! registers, from which come its oscillator, IF, rate and lock; a failed write left anything in each register that it named, a reset, a power switch or a write
//! gone astray left anything in the demodulator.
//!
//!   evidence self-test              answers, lent bytes and given ones are changed on purpose; each change must be found
//!   evidence run rust|port night N  judges a night of 10,000 sections N times, for oracle/speed to count their instructions
use harness::answer::takes_driver;
use harness::case::Case;
use harness::dice::Dice;
use harness::evidence::{SIZE, plain, told};
use harness::tally::Tally;
use harness::{cases, page, requests, restore};
use live::draw::{self, Receiver};
use live::ffi::pasetone_evidence;
use live::given::{Given, Lent};
use live::{numbers, port};
use rusb::rec::Entry;
use std::collections::BTreeMap;
use std::hint::black_box;

type Met = BTreeMap<String, u64>;

const NUMBERS: [&str; 6] = ["oscillator", "IF", "rate", "DDC", "lock", "centre"];

const MUST: [&str; 14] = [
    "refused 4",
    "refused 12",
    "refused 8",
    "a failed write of the demodulator",
    "a 16-bit write of two registers that are told",
    "a soft reset",
    "the power's register",
    "a page above 15",
    "a register above 0xff",
    "the IF is larger than the oscillator",
    "the fraction is off",
    "a ratio of 0",
    "two tries and more",
    "the chip's part alone",
];

/// A receiver: what its registers hold, whatever was reported.
struct Radio {
    address: u8,
    chip: [u8; 262],
    page: [u8; 256],
    locked: bool,
}

fn land(place: &mut u8, byte: u8, done: bool, dice: &mut Dice) {
    *place = match dice.below(3) {
        _ if done => byte,
        0 => *place,
        1 => byte,
        _ => dice.byte(),
    };
}

impl Radio {
    fn new(address: u8, dice: &mut Dice) -> Self {
        Self { address, chip: std::array::from_fn(|_| dice.byte()), page: std::array::from_fn(|_| dice.byte()), locked: dice.yes() }
    }

    /// Nothing of the demodulator is known to be as it was.
    fn shaken(&mut self, dice: &mut Dice) {
        self.page.iter_mut().for_each(|place| land(place, 0, false, dice));
    }

    fn play(&mut self, entry: &Entry, dice: &mut Dice) {
        let done = entry[1] == 0;
        for (register, byte) in restore::named(entry, self.address) {
            land(&mut self.chip[register], byte, done, dice);
            if matches!(register, 0x10 | 0x12 | 0x14..=0x16) {
                self.locked = dice.yes();
            }
        }
        let first = u16::from_le_bytes([entry[4], entry[5]]) as usize;
        for i in 0..entry[3] as usize {
            match (entry[0], entry[2], first + i) {
                (4 | 5, 0..=15, 0x100..) | (4 | 5, 16.., _) => land(&mut self.page[dice.byte() as usize], entry[8 + i], false, dice),
                (4 | 5, 1, 0x01) | (6 | 7, 2, 0x3000) => self.shaken(dice),
                (4 | 5, 1, register) => land(&mut self.page[register], entry[8 + i], done, dice),
                _ => {}
            }
        }
    }

    /// Where the answer says that it is sure, it is what the receiver's own registers say: multiplied out, so that nothing is cut.
    fn judge(&self, answer: &[u8; SIZE], r: u32, xtal: u32, tally: &mut Tally, what: &dyn Fn() -> String) {
        let at = |place: usize| u64::from_le_bytes(answer[place..place + 8].try_into().unwrap()) as u128;
        let (chip, page) = (|register: usize| self.chip[register] as u128, |register: usize| self.page[register] as u128);
        let s = if chip(0x12) & 8 == 0 { 256 * chip(0x16) + chip(0x15) } else { 0 };
        let vco = 2 * r as u128 * (65_536 * (13 + 4 * (chip(0x14) & 63) + (chip(0x14) >> 6)) + s);
        let m = 2u128 << (self.chip[0x10] >> 5);
        let oscillator = at(28) * 65_536 * m == vco << 23;
        tally.that(answer[0] != 2 || oscillator, || format!("the oscillator, {}", what()));
        let word = ((page(0x19) & 0x3f) << 16) | (page(0x1a) << 8) | page(0x1b);
        let offset = (at(36) << 22) == ((((1 << 22) - word) & 0x3f_ffff) * xtal as u128) << 23;
        tally.that(answer[1] != 2 || offset, || format!("the IF, {}", what()));
        let ratio = (page(0x9f) << 24) | (page(0xa0) << 16) | (page(0xa1) << 8) | page(0xa2);
        let rate =
            if ratio == 0 { at(20) == 0 } else { at(20) * ratio <= (xtal as u128) << 22 && (at(20) + 1) * ratio > (xtal as u128) << 22 };
        tally.that(answer[2] != 2 || rate, || format!("the rate, {}", what()));
        tally.that(answer[3] != 2 || answer[6] == self.page[0x15], || format!("the DDC byte, {}", what()));
        let centre = at(44) << 23 <= at(28) - at(36).min(at(28)) && (at(44) + 1) << 23 > at(28) - at(36).min(at(28));
        tally.that(answer[5] != 2 || at(36) <= at(28) && centre, || format!("the centre, {}", what()));
    }
}

/// The chip's or the demodulator's registers that are told of, or one beside them.
fn register(dice: &mut Dice) -> usize {
    match dice.below(8) {
        0 => dice.byte() as usize,
        1 => dice.pick(&[0x14, 0x18, 0x9e, 0x1c]),
        _ => dice.pick(&[0x15, 0x15, 0x19, 0x19, 0x1a, 0x1b, 0x9f, 0x9f, 0xa0, 0xa1, 0xa1, 0xa2]),
    }
}

fn transfer(kind: u8, target: u8, first: usize, bytes: &[u8]) -> Entry {
    let mut entry: Entry = [0; 16];
    (entry[0], entry[2], entry[3]) = (kind, target, bytes.len() as u8);
    entry[4..6].copy_from_slice(&(first as u16).to_le_bytes());
    entry[8..8 + bytes.len()].copy_from_slice(bytes);
    entry
}

/// One step to the receiver or beside it. A read of the status has the receiver's own lock bit, raw.
fn step(radio: &Radio, dice: &mut Dice) -> Entry {
    let address = if dice.below(6) == 0 { radio.address ^ 1 } else { radio.address };
    let mut entry = match dice.below(40) {
        0..12 => {
            let first = dice.pick(&[0x05, 0x0a, 0x10, 0x10, 0x11, 0x12, 0x13, 0x14, 0x14, 0x15, 0x16, 0x1c, 0xfe]);
            let n = dice.within(1, 8) as usize;
            transfer(2, address, 0, &[&[first], &dice.bytes(n - 1)[..]].concat())
        }
        12..18 => {
            let n = if dice.below(4) == 0 { dice.within(1, 5) as usize } else { 3 };
            let mut bytes = dice.bytes(n);
            if let (Some(last), true) = (bytes.get_mut(2), address == radio.address) {
                *last = *last & !0x02 | (radio.locked as u8) << 1;
            }
            transfer(3, address, 0, &bytes)
        }
        18..26 => transfer(4, 1, register(dice), &dice.bytes(1)),
        26..33 => transfer(5, 1, register(dice), &dice.bytes(2)),
        33 => transfer(4 + dice.below(2) as u8, 0, 0, &[0]),
        34 => transfer(6, dice.below(4) as u8, dice.pick(&[0x2000, 0x2148]), &dice.bytes(1)),
        35 => transfer(1, 0, 0, &[dice.below(2) as u8]),
        36 => transfer(9, 0, dice.byte() as usize, &[]),
        _ => shaking(dice),
    };
    if entry[0] == 5 {
        entry[3] = 2;
    }
    entry[1] = (entry[0] != 9 && dice.below(14) == 0) as u8;
    if (entry[0], entry[1]) == (3, 1) {
        entry[8..].fill(0);
    }
    assert!(page::fits(&entry), "{entry:?}");
    entry
}

/// Seldom: a write after which nothing of the demodulator is sure, or one that is nearly such.
fn shaking(dice: &mut Dice) -> Entry {
    match dice.below(12) {
        0 => transfer(4, 1, 0x01, &dice.bytes(1)),
        1 => transfer(5, 1, dice.below(2) as usize, &dice.bytes(2)),
        2 => transfer(6, 2, 0x3000, &dice.bytes(1)),
        3 => transfer(7, 2, dice.pick(&[0x2ffe, 0x2fff, 0x3000, 0x3001]), &dice.bytes(2)),
        4 => transfer(4, dice.pick(&[15, 16, 255]), 0x15, &dice.bytes(1)),
        5 => transfer(4, dice.pick(&[0, 1, 15]), dice.pick(&[0xff, 0x100, 0x115, 0xffff]), &dice.bytes(1)),
        6 => transfer(5, dice.pick(&[0, 1]), dice.pick(&[0xfe, 0xff, 0x100]), &dice.bytes(2)),
        _ => transfer(4, dice.pick(&[0, 2, 15]), 0x01, &dice.bytes(1)),
    }
}

/// What a tuning and a rate send, done, in any order: without it most nights would end in doubt.
fn settled(radio: &Radio, dice: &mut Dice) -> Vec<Entry> {
    let mut all = vec![];
    if dice.below(4) > 0 {
        let low = if dice.yes() { 0x1f } else { 0xff };
        [0x10u8, 0x12, 0x14, 0x15, 0x16].iter().for_each(|&first| all.push(transfer(2, radio.address, 0, &[first, dice.byte() & low])));
    }
    if dice.below(4) > 0 {
        let high = if dice.yes() { 0x3f } else { dice.byte() };
        [(0x19, high), (0x1a, dice.byte()), (0x1b, dice.byte())].iter().for_each(|&(first, byte)| all.push(transfer(4, 1, first, &[byte])));
    }
    if dice.below(4) > 0 {
        let bytes = if dice.below(6) == 0 { vec![0; 4] } else { dice.bytes(4) };
        [(0x9f, &bytes[..2]), (0xa1, &bytes[2..])].iter().for_each(|&(first, part)| all.push(transfer(5, 1, first, part)));
    }
    if dice.yes() {
        all.push(transfer(4, 1, 0x15, &dice.bytes(1)));
    }
    all
}

fn sections(all: &[Entry], dice: &mut Dice) -> Vec<u8> {
    let (mut night, mut at) = (vec![], 0);
    while at < all.len() {
        let to = (at + dice.below(30) as usize).min(all.len());
        night.extend(page::section(&all[at..to]));
        at = to;
    }
    night
}

/// A night of the simulated receiver, and the receiver after it.
fn simulated(dice: &mut Dice) -> (Vec<u8>, Radio) {
    let mut radio = Radio::new(dice.byte(), dice);
    let mut all = vec![];
    for _ in 0..dice.within(1, 3) {
        let settled = settled(&radio, dice);
        let rest = dice.pick(&[0, 0, 1, 2, 4, 30]);
        for at in 0..settled.len() + rest {
            let entry = settled.get(at).copied().unwrap_or_else(|| step(&radio, dice));
            radio.play(&entry, dice);
            all.push(entry);
        }
    }
    (sections(&all, dice), radio)
}

/// A night of the port's own calls, on a receiver that is played beside it.
fn called(dice: &mut Dice) -> (Vec<u8>, Radio) {
    let mut radio = Radio::new(dice.byte(), dice);
    let mut receiver = Receiver::fresh(dice);
    let made = Given::exact(Case { call: 1, a: dice.below(2), b: 28_800_000, c: radio.address as u64, ..Case::default() });
    receiver.tuner = port::call(&made).tuner_after(&made).expect("a fresh record").to_vec();
    let mut night = vec![];
    for _ in 0..dice.below(14) {
        let call = dice.pick(&[2, 3, 3, 3, 7, 9, 20, 21, 22, 23, 24, 25, 26, 27, 27, 28, 28, 30]);
        let mut given = draw::draw(call, &receiver, dice);
        if takes_driver(call) {
            continue;
        }
        given.case.tuner = receiver.tuner.clone();
        let found = port::call(&given);
        if found.reply.count > 0 {
            let section = found.section().expect("the room holds what the count says");
            restore::entries(section).expect("a section").iter().for_each(|entry| radio.play(entry, dice));
            night.extend_from_slice(section);
        }
        if let Some(record) = found.tuner_after(&given) {
            receiver.tuner = record.to_vec();
        }
    }
    (night, radio)
}

fn reference(dice: &mut Dice) -> u32 {
    match dice.below(8) {
        0 => dice.pick(&[0, 1, u32::MAX]),
        1 => dice.throw() as u32,
        _ => dice.pick(&[28_800_000, 28_799_999, 16_000_000]),
    }
}

/// The call against what must come back: the exact room, more, one byte less, and none.
fn held(night: &[u8], address: u8, r: u32, xtal: u32, spoil: u64, dice: &mut Dice, tally: &mut Tally) -> Result<[u8; SIZE], u32> {
    let wanted = told(night, address, r, xtal);
    let what = || format!("chip {address:#x}, {r} and {xtal}, {night:02x?}");
    let mut image = [0; SIZE];
    tally.same(plain(night, address, r, xtal, &mut image).map(|()| image), wanted, || format!("the plain writing, {}", what()));
    for &room in if spoil == 0 { &[SIZE, SIZE + 7, SIZE - 1, 0][..] } else { &[SIZE] } {
        let (mut given, mut lent) = (Lent::holding(night, dice.byte()), Lent::new(room, dice.byte()));
        let old = lent.lent().to_vec();
        let ((s, sn), (out, n)) = (given.slice(), lent.slice());
        // SAFETY: both pointers come with the length of memory that is alive for the call, and they are not of the same memory.
        let mut reply = unsafe { pasetone_evidence(s, sn, address, r, xtal, out, n) };
        match spoil {
            1 => reply.refusal ^= 12,
            2 => reply.value ^= 8,
            3 => reply.count ^= 1,
            4 => lent.lent_mut()[dice.below(SIZE as u64) as usize] ^= 1,
            5 => lent.margin_mut()[0] ^= 1,
            6 => given.margin_mut()[0] ^= 1,
            _ => {}
        }
        let (refusal, must) = match &wanted {
            Err(number) => (*number, old),
            Ok(_) if room < SIZE => (8, old),
            Ok(bytes) => (0, [bytes, &old[SIZE..]].concat()),
        };
        let found = (reply.refusal, reply.value, reply.index, reply.count);
        tally.same(found, (refusal, 0, 0, 0), || format!("room {room}, {}", what()));
        tally.that(lent.differs(&must).is_none() && given.differs(night).is_none(), || format!("bytes, room {room}, {}", what()));
    }
    wanted
}

fn met_in(answer: &[u8; SIZE], night: &[u8], met: &mut Met) {
    let mut note = |what: &str| *met.entry(what.into()).or_insert(0) += 1;
    NUMBERS.iter().zip(answer).for_each(|(name, mark)| note(&format!("{name}, mark {mark}")));
    let word = |at: usize| u32::from_le_bytes(answer[at..at + 4].try_into().unwrap());
    for (holds, what) in [
        (answer[..2] == [2, 2] && answer[5] == 1, "the IF is larger than the oscillator"),
        (answer[2] == 2 && word(16) == 0, "a ratio of 0"),
        (word(8) > 1, "two tries and more"),
        (answer[0] == 2 && answer[1..4] == [0, 0, 0], "the chip's part alone"),
    ] {
        if holds {
            note(what)
        }
    }
    for entry in restore::entries(night).expect("sections") {
        let first = u16::from_le_bytes([entry[4], entry[5]]);
        let (demod, past) = (matches!(entry[0], 4 | 5), first as u32 + entry[3] as u32);
        for (holds, what) in [
            (demod && entry[1] == 1, "a failed write of the demodulator"),
            (
                entry[0] == 5 && entry[2] == 1 && [0x19, 0x1a, 0x9f, 0xa0, 0xa1].contains(&first),
                "a 16-bit write of two registers that are told",
            ),
            (demod && entry[2] == 1 && first <= 1 && past > 1, "a soft reset"),
            (matches!(entry[0], 6 | 7) && entry[2] == 2 && first <= 0x3000 && past > 0x3000, "the power's register"),
            (demod && entry[2] > 15, "a page above 15"),
            (demod && past > 0x100, "a register above 0xff"),
            (entry[0] == 2 && entry[8] == 0x12 && entry[3] > 1 && entry[9] & 8 != 0, "the fraction is off"),
        ] {
            if holds {
                note(what)
            }
        }
    }
}

fn turn(spoil: u64, dice: &mut Dice, tally: &mut Tally, met: &mut Met) {
    let own = dice.below(3) > 0;
    let (mut night, radio) = if own { simulated(dice) } else { called(dice) };
    let whole = dice.below(8) > 0;
    if !whole {
        let at = dice.below(night.len() as u64 + 1) as usize;
        match dice.below(3) {
            0 => night.truncate(at),
            1 => night.splice(0..0, dice.bytes(at % 24)).for_each(drop),
            _ => night.push(dice.byte()),
        }
    }
    let (r, xtal) = (reference(dice), reference(dice));
    let answer = match held(&night, radio.address, r, xtal, spoil, dice, tally) {
        Ok(answer) => answer,
        Err(number) => return *met.entry(format!("refused {number}")).or_insert(0) += 1,
    };
    *met.entry("refused 8".into()).or_insert(0) += 1;
    met_in(&answer, &night, met);
    if whole && spoil == 0 {
        let what = || format!("chip {:#x}, {r} and {xtal}, {night:02x?}", radio.address);
        radio.judge(&answer, r, xtal, tally, &what);
        let lock = answer[4] == 0 || (answer[4] == 2) == radio.locked;
        tally.that(!own || lock, || format!("the lock, {}", what()));
    }
}

/// 10,000 sections as the original makes them: an initialisation, the demodulator's and a rate, and tunings to three frequencies by turns.
fn night() -> Vec<u8> {
    let section = |case: Case| requests::answer(&case).section.expect("it makes a section");
    let tunes = [102_300_000u64, 7_000_000, 433_920_000].map(|hz| section(Case { a: hz, ..cases::plain(3) }));
    let mut all = section(cases::plain(2));
    all.extend(section(cases::plain(21)));
    all.extend(section(cases::plain(19)));
    (0..9_997).for_each(|at| all.extend_from_slice(&tunes[at % 3]));
    all
}

fn run(who: &str, times: u64) {
    let (night, mut out) = (night(), vec![0; SIZE]);
    for _ in 0..times {
        let done = match who {
            "rust" => plain(black_box(&night), 0x74, 28_800_000, 28_800_000, black_box(&mut out)).is_ok(),
            // SAFETY: both slices are alive, and disjoint.
            "port" => unsafe {
                pasetone_evidence(black_box(&night).as_ptr(), night.len(), 0x74, 28_800_000, 28_800_000, out.as_mut_ptr(), out.len())
                    .refusal
                    == 0
            },
            _ => panic!("rust or port"),
        };
        assert!(done && out[0] == 2);
    }
    let entries = restore::entries(&night).expect("a night").len();
    println!("{times} answers of {} bytes, {entries} entries: marks {:?}", night.len(), &out[..6]);
}

fn self_test() -> ! {
    let (mut tally, mut dice) = (Tally::default(), Dice(0x6576_6964));
    for at in 0..1200 {
        let mut inner = Tally { silent: true, ..Tally::default() };
        turn(at % 6 + 1, &mut dice, &mut inner, &mut Met::new());
        tally.that(inner.faults > 0, || format!("change {} was not found", at % 6 + 1));
    }
    for place in 0..SIZE {
        let mut inner = Tally { silent: true, ..Tally::default() };
        (0..400).for_each(|_| lie(place, &mut dice, &mut inner));
        let told = matches!(place, 6 | 20..52);
        tally.that(!told || inner.faults > 0, || format!("the receiver did not find byte {place} changed"));
    }
    tally.end("spoiled", "; 6 ways, and 33 bytes that the receiver must find".into())
}

/// A byte of a right answer changed: the simulated receiver must find it where it is told to be sure.
fn lie(place: usize, dice: &mut Dice, tally: &mut Tally) {
    let (night, radio) = simulated(dice);
    if let Ok(mut answer) = told(&night, radio.address, 28_800_000, 28_800_000) {
        answer[place] ^= 1 << dice.below(8);
        radio.judge(&answer, 28_800_000, 28_800_000, tally, &String::new);
    }
}

fn main() {
    let words: Vec<String> = std::env::args().skip(1).collect();
    if let [first, who, name, times] = &words[..]
        && first == "run"
        && name == "night"
    {
        return run(who, times.parse().expect("a count of answers"));
    }
    if words.first().is_some_and(|word| word == "self-test") {
        self_test()
    }
    let (turns, seed) = numbers(&words, 20_000, "evidence [TURNS [SEED]] | evidence self-test");
    let (mut tally, mut met, mut dice) = (Tally::default(), Met::new(), Dice(seed));
    (0..turns).for_each(|_| turn(0, &mut dice, &mut tally, &mut met));
    for (what, count) in &met {
        println!("    {what}: {count}");
    }
    let marks = NUMBERS.iter().flat_map(|name| (0..3).map(move |mark| format!("{name}, mark {mark}")));
    for what in marks.chain(MUST.map(String::from)) {
        tally.that(met.contains_key(&what), || format!("never reached: {what}"));
    }
    tally.end("evidence", format!("; {turns} nights, seed {seed}"))
}
