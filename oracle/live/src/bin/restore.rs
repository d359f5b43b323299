//! Document 02, #110, at the archive: `restore [TURNS [SEED]]`. Days of sections, made by the port's own calls on two receivers and at random, whole and damaged,
//! go to the port and to two second writings (harness::restore). A list must leave on a chip that holds anything what the day left, on the registers
//! whose last write was done, and nothing elsewhere. Every set of registers in three windows of twelve is restored with the fewest writes that a search finds.
//!
//!   restore self-test              answers, lent bytes and given ones are changed on purpose; each change must be found
//!   restore run rust|port day N    makes N lists of a day of 10,000 sections, for oracle/speed to count their instructions
use harness::answer::takes_driver;
use harness::case::Case;
use harness::dice::Dice;
use harness::restore::{entries, fewest, list, named, plain};
use harness::tally::Tally;
use harness::{cases, page, requests};
use live::draw::{self, Receiver};
use live::ffi::{Reply, pasetone_restore};
use live::given::{Given, Lent};
use live::{numbers, port};
use rusb::rec::Entry;
use std::collections::BTreeMap;
use std::hint::black_box;

type Met = BTreeMap<&'static str, u64>;

const MUST: [&str; 11] = [
    "done",
    "done, no writes",
    "done, no bytes",
    "refused 12",
    "refused 12, a leftover",
    "refused 8",
    "a register doubtful by a failed write",
    "a done write under a failed one",
    "a write past 0xff",
    "a write past 0x1f or before 0x05",
    "a run of more than seven",
];

/// All registers that a write can name: 0 to 0x105.
type Chip = [u8; 262];

fn any_chip(dice: &mut Dice) -> Chip {
    std::array::from_fn(|_| dice.byte())
}

/// A done write lands whole, a failed one leaves anything in what it named.
fn play(chip: &mut Chip, all: &[Entry], address: u8, dice: &mut Dice) {
    for entry in all {
        for (register, byte) in named(entry, address) {
            chip[register] = match dice.below(3) {
                _ if entry[1] == 0 => byte,
                0 => chip[register],
                1 => byte,
                _ => dice.byte(),
            };
        }
    }
}

/// Whether the last entry that names a register was done.
fn sure(all: &[Entry], address: u8, register: usize) -> bool {
    let names = |entry: &&Entry| named(entry, address).any(|(other, _)| other == register);
    (0x05..=0x1f).contains(&register) && all.iter().rev().find(names).is_some_and(|entry| entry[1] == 0)
}

/// The list and a chip.
fn restored(all: &[Entry], writes: &[Entry], address: u8, dice: &mut Dice, tally: &mut Tally, what: &dyn Fn() -> String) {
    let (mut first, before) = (any_chip(dice), any_chip(dice));
    let mut second = before;
    play(&mut first, all, address, dice);
    play(&mut second, writes, address, dice);
    for register in 0..first.len() {
        let must = if sure(all, address, register) { first[register] } else { before[register] };
        tally.that(second[register] == must, || format!("register {register:#x} after the list of {}", what()));
    }
}

/// The call against what must come back: the exact room, more, one byte less, and none.
fn held(day: &[u8], address: u8, spoil: u64, dice: &mut Dice, tally: &mut Tally, met: &mut Met) {
    let mut note = |what| *met.entry(what).or_insert(0) += 1;
    let wanted = list(day, address);
    let need = wanted.as_ref().map_or(8, Vec::len);
    let what = || format!("chip {address:#x}, {day:02x?}");
    let mut image = [0; 232];
    tally.same(plain(day, address, &mut image).map(|size| image[..size].to_vec()), wanted.clone(), || {
        format!("the plain writing, {}", what())
    });
    let rooms = if spoil == 0 { &[need, need + 1 + day.len() % 40, need - 1, 0][..] } else { &[need] };
    for &room in rooms {
        let (mut given, mut lent) = (Lent::holding(day, dice.byte()), Lent::new(room, dice.byte()));
        let old = lent.lent().to_vec();
        let ((s, sn), (out, n)) = (given.slice(), lent.slice());
        // SAFETY: both pointers come with the length of memory that is alive for the call, and they are not of the same memory.
        let mut reply = unsafe { pasetone_restore(s, sn, address, out, n) };
        match spoil {
            1 => reply.refusal ^= 12,
            2 => reply.value ^= 8,
            3 => reply.count ^= 1,
            4 => lent.lent_mut()[need - 8] ^= 1,
            5 => lent.margin_mut()[0] ^= 1,
            6 => given.margin_mut()[0] ^= 1,
            _ => {}
        }
        let (refusal, must) = match &wanted {
            Err(number) => (*number, old),
            Ok(_) if room < need => (8, old),
            Ok(bytes) => (0, [bytes, &old[need..]].concat()),
        };
        if refusal == 8 {
            note("refused 8")
        }
        let value = if refusal == 0 { need as u64 } else { 0 };
        let found = (reply.refusal, reply.value, reply.index, reply.count);
        tally.same(found, (refusal, value, 0, 0), || format!("room {room} of {need}, {}", what()));
        tally.that(lent.differs(&must).is_none() && given.differs(day).is_none(), || format!("bytes, room {room} of {need}, {}", what()));
    }
    let Some(all) = entries(day) else {
        return note(if page::read_section(day).is_some() { "refused 12, a leftover" } else { "refused 12" });
    };
    let bytes = wanted.unwrap_or_default();
    let writes = entries(&bytes).unwrap_or_default();
    note(match (day.len(), writes.len()) {
        (0, _) => "done, no bytes",
        (_, 0) => "done, no writes",
        _ => "done",
    });
    met_in(&all, &writes, address, &mut note);
    if spoil == 0 {
        restored(&all, &writes, address, dice, tally, &what);
    }
}

fn met_in(all: &[Entry], writes: &[Entry], address: u8, note: &mut dyn FnMut(&'static str)) {
    let ours = || all.iter().filter(|entry| named(entry, address).next().is_some());
    let tried = |register: usize| ours().filter(move |entry| named(entry, address).any(|(other, _)| other == register));
    for register in 0x05..=0x1f {
        if tried(register).next_back().is_some_and(|entry| entry[1] == 1) {
            note("a register doubtful by a failed write");
            if tried(register).any(|entry| entry[1] == 0) {
                note("a done write under a failed one")
            }
        }
    }
    if ours().any(|entry| entry[8] as usize + entry[3] as usize > 0x101) {
        note("a write past 0xff")
    }
    if ours().any(|entry| named(entry, address).any(|(register, _)| !(0x05..=0x1f).contains(&register))) {
        note("a write past 0x1f or before 0x05")
    }
    if writes.windows(2).any(|two| two[0][8] + 7 == two[1][8] && two[0][3] == 8) {
        note("a run of more than seven")
    }
}

/// The sections of some calls of the port on two receivers, one behind the other, and both addresses.
fn called(dice: &mut Dice) -> (Vec<u8>, [u8; 2]) {
    let first = dice.byte();
    let addresses = [first, first.wrapping_add(dice.within(1, 255) as u8)];
    let mut receivers = addresses.map(|address| {
        let mut receiver = Receiver::fresh(dice);
        let made = Given::exact(Case { call: 1, a: dice.below(2), b: 28_800_000, c: address as u64, ..Case::default() });
        receiver.tuner = port::call(&made).tuner_after(&made).expect("a fresh record").to_vec();
        receiver
    });
    let mut day = vec![];
    for _ in 0..dice.below(12) {
        let receiver = &mut receivers[dice.below(2) as usize];
        let call = dice.pick(&[2, 3, 3, 4, 5, 6, 7, 8, 9, 20]);
        let mut given = draw::draw(call, receiver, dice);
        given.case.tuner = receiver.tuner.clone();
        if takes_driver(call) {
            continue;
        }
        let found = port::call(&given);
        if found.reply.count > 0 {
            day.extend_from_slice(found.section().expect("the room holds what the count says"));
        }
        if let Some(record) = found.tuner_after(&given) {
            receiver.tuner = record.to_vec();
        }
    }
    (day, addresses)
}

/// Sections of random entries, most of them writes near the registers of one of two chips.
fn drawn(dice: &mut Dice) -> (Vec<u8>, [u8; 2]) {
    let addresses = [dice.byte(), dice.byte()];
    let mut day = vec![];
    for _ in 0..dice.below(6) {
        let count = if dice.below(300) == 0 { 4096 } else { dice.below(14) };
        let all: Vec<Entry> = (0..count).map(|_| entry(&addresses, dice)).collect();
        day.extend(page::section(&all));
    }
    (day, addresses)
}

fn entry(addresses: &[u8; 2], dice: &mut Dice) -> Entry {
    let mut e: Entry = [0; 16];
    match dice.below(8) {
        0 => (e[0], e[3], e[8]) = (1, 1, dice.below(2) as u8),
        1 => (e[0], e[4]) = (9, dice.byte()),
        2 => (e[0], e[2], e[3]) = (3, dice.pick(addresses), dice.within(1, 5) as u8),
        _ => {
            let n = dice.within(1, 8) as usize;
            (e[0], e[2], e[3]) = (2, dice.pick(addresses), n as u8);
            e[8..8 + n].copy_from_slice(&dice.bytes(n));
            e[8] = if dice.below(12) == 0 { dice.within(0xf7, 0xff) } else { dice.below(0x24) } as u8;
        }
    }
    e[1] = (e[0] != 9 && dice.below(4) == 0) as u8;
    assert!(page::fits(&e), "{e:?}");
    e
}

fn damaged(mut day: Vec<u8>, dice: &mut Dice) -> Vec<u8> {
    let n = day.len() as u64;
    let at = dice.below(n + 1) as usize;
    match dice.below(10) {
        0 => day.truncate(at),
        1 => drop(day.drain(..at)),
        2 => day.splice(0..0, dice.bytes(at % 24)).for_each(drop),
        3 if n > 0 => day[dice.below(n) as usize] ^= 1 << dice.below(8),
        4 => day.push(dice.byte()),
        _ => {}
    }
    day
}

fn turn(spoil: u64, dice: &mut Dice, tally: &mut Tally, met: &mut Met) {
    let (day, addresses) = if dice.yes() { called(dice) } else { drawn(dice) };
    let day = damaged(day, dice);
    let address = if dice.below(8) == 0 { dice.byte() } else { dice.pick(&addresses) };
    held(&day, address, spoil, dice, tally, met);
}

/// "No list of writes of at most seven consecutive registers that names exactly these registers has fewer writes", and never more than fourteen.
fn searched(dice: &mut Dice, tally: &mut Tally) -> usize {
    let one = |register: u32, done: bool| -> Entry { [2, !done as u8, 0x74, 2, 0, 0, 0, 0, register as u8, 0x11, 0, 0, 0, 0, 0, 0] };
    let mut sets = 0;
    for first in [0x05, 0x0d, 0x14] {
        for set in 0..1u32 << 12 {
            let day: Vec<Entry> =
                (0..12).filter(|bit| set >> bit & 1 == 1 || dice.yes()).map(|bit| one(first + bit, set >> bit & 1 == 1)).collect();
            let (reply, out) = made(&page::section(&day), 232);
            let count = u32::from_le_bytes(out[reply.value as usize - 8..][..4].try_into().unwrap()) as usize;
            tally.same((reply.refusal, count), (0, fewest(set, 12)), || format!("writes for {set:#x} from {first:#x}"));
            sets += 1;
        }
    }
    for (step, count) in [(1, 4), (2, 14), (3, 9), (26, 2)] {
        let day: Vec<Entry> = (0x05..=0x1f).step_by(step).map(|register| one(register, true)).collect();
        let (reply, _) = made(&page::section(&day), 232);
        tally.same((reply.refusal, reply.value), (0, 16 * count + 8), || format!("writes for each {step}th register"));
    }
    sets
}

fn made(day: &[u8], room: usize) -> (Reply, Vec<u8>) {
    let mut out = vec![0; room];
    // SAFETY: both slices are this function's own, and disjoint.
    let reply = unsafe { pasetone_restore(day.as_ptr(), day.len(), 0x74, out.as_mut_ptr(), out.len()) };
    (reply, out)
}

/// 10,000 sections as the original makes them: an initialisation, and tunings to three frequencies by turns.
fn day() -> Vec<u8> {
    let section = |case: Case| requests::answer(&case).section.expect("it makes a section");
    let tunes = [102_300_000u64, 7_000_000, 433_920_000].map(|hz| section(Case { a: hz, ..cases::plain(3) }));
    let mut all = section(cases::plain(2));
    (0..9_999).for_each(|at| all.extend_from_slice(&tunes[at % 3]));
    all
}

fn run(who: &str, times: u64) {
    let (day, mut out) = (day(), vec![0; 232]);
    for _ in 0..times {
        let done = match who {
            "rust" => plain(black_box(&day), 0x74, black_box(&mut out)).is_ok(),
            // SAFETY: both slices are alive, and disjoint.
            "port" => unsafe { pasetone_restore(black_box(&day).as_ptr(), day.len(), 0x74, out.as_mut_ptr(), out.len()).refusal == 0 },
            _ => panic!("rust or port"),
        };
        assert!(done && out[0] == 2);
    }
    let entries = entries(&day).expect("a day").len();
    println!("{times} lists of {} bytes, {entries} entries", day.len());
}

fn self_test() -> ! {
    let (mut tally, mut dice) = (Tally::default(), Dice(0x7265_7374));
    for at in 0..1200 {
        let mut inner = Tally { silent: true, ..Tally::default() };
        turn(at % 6 + 1, &mut dice, &mut inner, &mut Met::new());
        tally.that(inner.faults > 0, || format!("change {} was not found", at % 6 + 1));
    }
    tally.end("spoiled", "; 6 ways".into())
}

fn main() {
    let words: Vec<String> = std::env::args().skip(1).collect();
    if let [first, who, name, times] = &words[..]
        && first == "run"
        && name == "day"
    {
        return run(who, times.parse().expect("a count of lists"));
    }
    if words.first().is_some_and(|word| word == "self-test") {
        self_test()
    }
    let (turns, seed) = numbers(&words, 20_000, "restore [TURNS [SEED]] | restore self-test");
    let (mut tally, mut met, mut dice) = (Tally::default(), Met::new(), Dice(seed));
    let sets = searched(&mut dice, &mut tally);
    (0..turns).for_each(|_| turn(0, &mut dice, &mut tally, &mut met));
    for (what, count) in &met {
        println!("    {what}: {count}");
    }
    for what in MUST {
        tally.that(met.contains_key(what), || format!("never reached: {what}"));
    }
    tally.end("restore", format!("; {turns} days, {sets} sets searched, seed {seed}"))
}
