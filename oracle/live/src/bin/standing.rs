//! `pasetone_oscillator` and `pasetone_centre` at the archive, beside a second writing (harness::standing): of records drawn at random, and of a receiver's own records
//! after every call of a chain of tunings, rates, corrections and reloads, whole and cut. In a chain the oscillator is also worked out of the bytes that the sections
//! sent, without the record. Of each call are compared what it answers, what it was given, and the memory beside that.
//!
//!   standing [TURNS [SEED]]       exits 1 on a fault, and where a case that must be met was not
//!   standing self-test            answers and given bytes are changed on purpose; each change must be found
//!   standing run rust|port NAME N     makes N calls of one kind, for oracle/speed to count their instructions
use harness::cases::{self, MHZ};
use harness::dice::Dice;
use harness::records::{Driver, FIRST, Tuner};
use harness::standing::{self as document, FIVE};
use harness::tables::{self, BAND, Band};
use harness::tally::Tally;
use live::draw::{self, Receiver};
use live::ffi::{Reply, pasetone_centre, pasetone_oscillator};
use live::given::Lent;
use live::{numbers, port};
use std::collections::BTreeMap;
use std::hint::black_box;

type Met = BTreeMap<&'static str, u64>;

const MUST: [&str; 18] = [
    "oscillator: done",
    "oscillator: done, the fraction switched off over an S",
    "oscillator: done, m above 64",
    "oscillator: 1",
    "oscillator: 20",
    "centre: done",
    "centre: done, shifted up",
    "centre: done, shifted down",
    "centre: done, shifted down and the IF above the oscillator",
    "centre: done, inverted",
    "centre: 1",
    "centre: 19",
    "centre: 20",
    "centre: 2, no plan",
    "centre: 2, below 0",
    "chain: on its station",
    "chain: repaired",
    "chain: beside the station after a cut tuning and a reload, told",
];

/// What a reply must be.
fn wanted(told: Result<u64, u32>) -> (u32, u64, u64, u32) {
    told.map_or_else(|number| (number, 0, 0, 0), |value| (0, value, 0, 0))
}

fn spoil_reply(reply: &mut Reply, spoil: u64) {
    match spoil {
        1 => reply.value ^= 1,
        2 => reply.refusal ^= 1,
        3 => reply.index ^= 1,
        4 => reply.count ^= 1,
        _ => {}
    }
}

fn oscillator(tuner: &[u8], spoil: u64, dice: &mut Dice, tally: &mut Tally) -> Result<u64, u32> {
    let must = document::of_record(tuner);
    let mut given = Lent::holding(tuner, dice.byte());
    let (t, tn) = given.slice();
    // SAFETY: the pointer comes with the length of memory that is alive for the call.
    let mut reply = unsafe { pasetone_oscillator(t, tn) };
    spoil_reply(&mut reply, spoil);
    if spoil == 5 {
        given.margin_mut()[0] ^= 1
    }
    tally.same((reply.refusal, reply.value, reply.index, reply.count), wanted(must), || format!("the oscillator of {tuner:02x?}"));
    tally.that(given.differs(tuner).is_none(), || format!("the record or memory beside it has changed: {tuner:02x?}"));
    must
}

fn centre(driver: &[u8], tuner: &[u8], table: &[u8], spoil: u64, dice: &mut Dice, tally: &mut Tally) -> Result<u64, u32> {
    let must = document::centre(driver, tuner, table);
    let mut given = [driver, tuner, table].map(|bytes| Lent::holding(bytes, dice.byte()));
    let [(d, dn), (t, tn), (b, bn)] = given.each_mut().map(Lent::slice);
    // SAFETY: each pointer comes with the length of memory that is alive for the call, and they are not of the same memory.
    let mut reply = unsafe { pasetone_centre(d, dn, t, tn, b, bn) };
    spoil_reply(&mut reply, spoil);
    if spoil == 5 {
        given[dice.below(3) as usize].margin_mut()[0] ^= 1
    }
    let found = (reply.refusal, reply.value, reply.index, reply.count);
    tally.same(found, wanted(must), || format!("the centre of {driver:02x?}, {tuner:02x?} by {table:02x?}"));
    for (lent, bytes) in given.iter().zip([driver, tuner, table]) {
        tally.that(lent.differs(bytes).is_none(), || format!("given bytes or memory beside them have changed: {bytes:02x?}"));
    }
    must
}

/// A built-in table, bands that shift either way, or bytes that are none.
fn table(dice: &mut Dice) -> Vec<u8> {
    match dice.below(6) {
        0 => tables::bytes(&tables::built_in(dice.below(2))),
        1 => {
            let some = dice.below(60) as usize;
            dice.bytes(some)
        }
        _ => {
            let (first, size) = (dice.below(200 * MHZ), dice.spread());
            let shift = match dice.below(6) {
                0 => 0,
                1 => dice.throw() as i64,
                2 => i64::MAX - dice.below(1 << 33) as i64,
                3 => -(dice.below(300 * MHZ) as i64),
                _ => dice.below(300 * MHZ) as i64,
            };
            let rest = [dice.below(2) as u8, dice.below(4) as u8, dice.below(2) as u8];
            tables::bytes(&[Band { first, last: first.saturating_add(size), shift, rest }])
        }
    }
}

/// At an end of a band, or anywhere.
fn frequency(table: &[u8], dice: &mut Dice) -> u64 {
    let count = (table.len() / BAND) as u64;
    if count == 0 || dice.below(4) == 0 {
        return dice.spread();
    }
    let at = BAND * dice.below(count) as usize + 8 * dice.below(2) as usize;
    let end = u64::from_le_bytes(table[at..at + 8].try_into().expect("eight bytes"));
    end.wrapping_add(dice.pick(&[0, 0, 1, u64::MAX]))
}

fn met_of(tuner: &Tuner, told: Result<u64, u32>, note: &mut dyn FnMut(&'static str)) {
    let byte = |register: usize| tuner.shadow[register - FIRST];
    match told {
        Err(number) => note(if number == 1 { "oscillator: 1" } else { "oscillator: 20" }),
        Ok(_) => {
            note("oscillator: done");
            if byte(0x12) & 8 != 0 && (byte(0x15), byte(0x16)) != (0, 0) {
                note("oscillator: done, the fraction switched off over an S")
            }
            if byte(0x10) >= 6 << 5 {
                note("oscillator: done, m above 64")
            }
        }
    }
}

fn met_centre(
    frequency: u64,
    tuner: &Tuner,
    table: &[u8],
    lo: Result<u64, u32>,
    told: Result<u64, u32>,
    note: &mut dyn FnMut(&'static str),
) {
    let planned = tables::plan(table, frequency);
    match told {
        Err(1) => note("centre: 1"),
        Err(19) => note("centre: 19"),
        Err(20) => note("centre: 20"),
        Err(_) => match planned {
            Err(_) => note("centre: 2, no plan"),
            // Past 64 bits none is: a shift downward is at most 2^63, an oscillator below 2^41.
            Ok(_) => note("centre: 2, below 0"),
        },
        Ok(_) => {
            let (tuned, rest) = planned.expect("it has a plan");
            note("centre: done");
            match tuned.cmp(&frequency) {
                std::cmp::Ordering::Greater => note("centre: done, shifted up"),
                std::cmp::Ordering::Less if lo.is_ok_and(|lo| lo < tuner.intermediate) => {
                    note("centre: done, shifted down and the IF above the oscillator")
                }
                std::cmp::Ordering::Less => note("centre: done, shifted down"),
                std::cmp::Ordering::Equal => {}
            }
            if rest[0] == 1 {
                note("centre: done, inverted")
            }
        }
    }
}

/// Any record, often with none of the five in doubt; few are damaged.
fn drawn(spoil: u64, dice: &mut Dice, tally: &mut Tally, met: &mut Met) {
    let mut note = |what| *met.entry(what).or_insert(0) += 1;
    let (mut tuner, mut driver, table) = (cases::random_tuner(dice), cases::random_driver(dice), table(dice));
    if dice.below(4) > 0 {
        FIVE.iter().for_each(|register| tuner.doubtful[register - FIRST] = false);
    }
    if dice.yes() {
        driver.frequency = frequency(&table, dice);
    }
    // An IF with which the centre is about 0.
    if let (Ok(lo), Ok((tuned, _)), 0) = (document::of_record(&tuner.bytes()), tables::plan(&table, driver.frequency), dice.below(4)) {
        let sum = i128::from(lo) - i128::from(tuned) + i128::from(driver.frequency);
        let near = sum + i128::from(dice.below(5)) - 2;
        tuner.intermediate = u64::try_from(near).unwrap_or(tuner.intermediate);
    }
    let (mut bytes, mut second) = (tuner.bytes(), driver.bytes());
    if dice.below(12) == 0 {
        bytes.truncate(dice.below(78) as usize)
    }
    if dice.below(12) == 0 {
        second[0] = 2 + dice.below(200) as u8
    }
    let lo = oscillator(&bytes, spoil, dice, tally);
    met_of(&tuner, lo, &mut note);
    let told = centre(&second, &bytes, &table, spoil, dice, tally);
    met_centre(driver.frequency, &tuner, &table, lo, told, &mut note);
}

/// What the sections of a chain have sent to the chip: the byte last sent to each register, and whether that was done.
struct Sent([Option<(u8, bool)>; 256]);

impl Sent {
    fn follow(&mut self, section: &[u8], address: u8) {
        for e in section.chunks_exact(16).filter(|e| e[0] == 2 && e[2] == address) {
            for k in 1..usize::from(e[3]) {
                self.0[usize::from(e[8]) + k - 1] = Some((e[8 + k], e[1] == 0));
            }
        }
    }

    fn oscillator(&self, reference: u32) -> Result<u64, u32> {
        let sure = |register: usize| matches!(self.0[register], Some((_, true)));
        if !FIVE.iter().all(|&register| sure(register)) {
            return Err(20);
        }
        Ok(document::oscillator(reference, |register| self.0[register].expect("it was sent").0))
    }
}

/// "Divider m: the first of 2, 4, .. 64" with which the VCO is in its range.
fn divider(lo: u64) -> u64 {
    (1..=6).map(|doublings| 1 << doublings).find(|m| (1_770_000_000..3_600_000_000).contains(&(lo * m))).expect("a done tuning has one")
}

/// A done tuning to `lo`: the VCO is 24,999 Hz below lo·m at most and 17,998 above; m is the plan's where the status asks for no repair. Then how far off it may be.
fn on_station(lo: u64, tuner: &Tuner, section: &[u8], tally: &mut Tally) -> Option<u64> {
    let byte = |register: usize| tuner.shadow[register - FIRST];
    let m = divider(lo);
    let vco = i128::from(document::oscillator(tuner.corrected, |register| if register == 0x10 { 0 } else { byte(register) })) * 2;
    let aim = i128::from(lo) * i128::from(m);
    // The VCO out of a cut half of it is at most 2 Hz below it.
    tally.that(vco + 2 + 24_999 >= aim && vco <= aim + 17_998, || format!("a VCO of {vco} for {aim}, {:02x?}", tuner.bytes()));
    let status = section.chunks_exact(16).find(|e| e[0] == 3 && e[3] == 5).expect("a done tuning reads the status")[12].reverse_bits();
    let (fine, reference) = (status >> 4 & 3, if tuner.kind == 1 { 1 } else { 2 });
    (fine == reference).then(|| {
        let (told, bound) = (document::oscillator(tuner.corrected, byte), 25_000 / m + 1);
        tally.that(told.abs_diff(lo) <= bound, || format!("{told} for {lo} at m {m}"));
        bound
    })
}

/// Calls of the port on one receiver; after each, both calls beside both writings.
fn chain(spoil: u64, dice: &mut Dice, tally: &mut Tally, met: &mut Met) {
    let mut note = |what| *met.entry(what).or_insert(0) += 1;
    let mut receiver = Receiver::fresh(dice);
    let (mut sent, mut cut) = (Sent([None; 256]), None);
    for _ in 0..dice.within(2, 14) {
        let call = dice.pick(&[2, 3, 3, 3, 42, 42, 42, 9, 9, 19, 7, 6, 4, 20, 41]);
        let mut given = draw::draw(call, &receiver, dice);
        let board = Driver::read(&receiver.driver).map_or(0, |driver| u64::from(driver.board));
        given.case.tuner = receiver.tuner.clone();
        if matches!(call, 19 | 41 | 42) {
            given.case.driver = receiver.driver.clone();
        }
        let table = tables::bytes(&tables::built_in(board));
        if matches!(call, 19 | 42) {
            given.case.input = table.clone();
        }
        if matches!(call, 3 | 42) && dice.below(4) > 0 {
            given.case.a = dice.within(30, 900) * MHZ + dice.below(MHZ);
        }
        let before = Tuner::read(&receiver.tuner).expect("a record");
        let found = port::call(&given);
        let section = if found.reply.count > 0 { found.section().expect("the room holds what the count says").to_vec() } else { vec![] };
        if let Some(record) = found.tuner_after(&given) {
            receiver.tuner = record.to_vec();
        }
        if matches!(call, 19 | 41 | 42)
            && let Some(record) = found.driver_after(&given)
        {
            receiver.driver = record.to_vec();
        }
        sent.follow(&section, before.address);
        let tuner = Tuner::read(&receiver.tuner).expect("a record");
        let told = oscillator(&receiver.tuner, spoil, dice, tally);
        tally.same(told, sent.oscillator(tuner.corrected), || format!("the oscillator of what was sent, call {call}"));
        let middle = centre(&receiver.driver, &receiver.tuner, &table, spoil, dice, tally);
        let aim = match call {
            3 => Some(given.case.a),
            42 => tables::plan(&table, given.case.a).ok().map(|(tuned, _)| tuned),
            _ => None,
        };
        match (aim, found.reply.refusal) {
            (Some(aim), 0) => {
                match on_station(aim + tuner.intermediate, &tuner, &section, tally) {
                    None => note("chain: repaired"),
                    Some(bound) => {
                        note("chain: on its station");
                        // Of the board's tuning, the middle of the recording is the frequency that was asked for; of the lowest it may be below 0.
                        let hz = given.case.a;
                        let near = middle.map_or(hz < bound, |middle| middle.abs_diff(hz) <= bound) || call == 3;
                        tally.that(near, || format!("{middle:?} is the middle after a done tuning to {}", given.case.a));
                    }
                }
                cut = None;
            }
            (Some(aim), 11) => cut = Some(aim + tuner.intermediate),
            _ => {}
        }
        if let (9, 0, Some(lo), Ok(told)) = (call, found.reply.refusal, cut, told)
            && told.abs_diff(lo) > 25_000
        {
            note("chain: beside the station after a cut tuning and a reload, told")
        }
    }
}

type Turn = fn(u64, &mut Dice, &mut Tally, &mut Met);

const TURNS: [(&str, Turn); 2] = [("drawn", drawn), ("chain", chain)];

fn self_test() -> ! {
    let mut found = Tally::default();
    for (name, turn) in TURNS {
        for spoil in 1..=5 {
            let mut dice = Dice(0x7374_616e + spoil);
            for _ in 0..200 {
                let mut inner = Tally { silent: true, ..Tally::default() };
                turn(spoil, &mut dice, &mut inner, &mut Met::new());
                found.that(inner.faults > 1, || format!("{name}: change {spoil} was not found in both calls"));
            }
        }
    }
    found.end("spoiled", "; 5 ways".into())
}

/// A V4 at 7 MHz: the oscillator, and the centre by its table.
fn run(who: &str, name: &str, times: u64) {
    let (mut tuner, driver, table) = (
        Tuner::fresh(1, 28_800_000, 0x74),
        Driver { board: 1, nominal: 28_800_000, ppm: 0, frequency: 7 * MHZ, rate: 2_048_000, actual: 0 }.bytes(),
        tables::bytes(&tables::built_in(1)),
    );
    tuner.doubtful = [false; 27];
    for (register, byte) in [(0x10, 5 << 5), (0x12, 0), (0x14, 0x47), (0x15, 0x56), (0x16, 0x55)] {
        tuner.shadow[register - FIRST] = byte;
    }
    let tuner = tuner.bytes();
    assert!(document::centre(&driver, &tuner, &table).is_ok());
    for _ in 0..times {
        let done = match (who, name) {
            ("rust", "oscillator") => document::of_record(black_box(&tuner)).is_ok(),
            ("rust", "centre") => document::centre(black_box(&driver), black_box(&tuner), black_box(&table)).is_ok(),
            // SAFETY, here and below: the slices are alive, and disjoint.
            ("port", "oscillator") => unsafe { pasetone_oscillator(black_box(&tuner).as_ptr(), tuner.len()).refusal == 0 },
            ("port", "centre") => unsafe {
                let (d, t, b) = (black_box(&driver), black_box(&tuner), black_box(&table));
                pasetone_centre(d.as_ptr(), d.len(), t.as_ptr(), t.len(), b.as_ptr(), b.len()).refusal == 0
            },
            _ => panic!("rust or port, and the name of a call"),
        };
        assert!(done);
    }
}

fn main() {
    let words: Vec<String> = std::env::args().skip(1).collect();
    if let [first, who, name, times] = &words[..]
        && first == "run"
    {
        return run(who, name, times.parse().expect("a count of calls"));
    }
    if words.first().is_some_and(|word| word == "self-test") {
        self_test()
    }
    let (turns, seed) = numbers(&words, 100_000, "standing [TURNS [SEED]] | standing self-test");
    let (mut tally, mut met, mut dice) = (Tally::default(), Met::new(), Dice(seed));
    for at in 0..turns {
        drawn(0, &mut dice, &mut tally, &mut met);
        if at % 10 == 0 {
            chain(0, &mut dice, &mut tally, &mut met);
        }
    }
    for (what, count) in &met {
        println!("    {what}: {count}");
    }
    for what in MUST {
        tally.that(met.contains_key(what), || format!("never reached: {what}"));
    }
    tally.end("standing", format!("; {turns} records and {} chains, seed {seed}", turns.div_ceil(10)))
}
