//! The port beside the original on random cases: `differential [CASES [SEED]]`. Without a seed one is drawn from the clock.
//! Cases come in sessions: one receiver, whose records go from call to call as the port hands them back. Every answer and
//! every lent byte is compared with what must come back; where a row of docs/DIFFERENCES.md names the case, the original is
//! asked as well and must answer otherwise.
//!
//! `differential self-test` spoils answers one thing at a time: each must be found.
use harness::case::{Answer, By};
use harness::dice::Dice;
use harness::judge;
use harness::tally::Tally;
use live::cover::{Class, Cover};
use live::draw::{self, Receiver};
use live::given::Given;
use live::port::Found;
use live::sabotage::{SPOILS, spoiled};
use live::{document, ffi, numbers, port, raw, rules};
use std::collections::BTreeMap;

/// The version of the boundary: `PASETONE_VERSION` of the header.
fn version_of_header() -> Option<u32> {
    let header = include_str!("../../../../include/pasetone.h");
    let line = header.lines().find_map(|line| line.strip_prefix("#define PASETONE_VERSION 0x"))?;
    u32::from_str_radix(line.split(' ').next()?, 16).ok()
}

fn class(given: &Given, wanted: &Answer, tally: &mut Tally) -> Class {
    // The original has no board tune of this order: its parts answered (hops.rs), and the rest is document 02's alone.
    if given.case.call == 42 {
        return if wanted.by == By::Rust { Class::Same(None) } else { Class::Ours };
    }
    let row = rules::row(given);
    if row.is_none() && matches!(wanted.by, By::Rust | By::Page) {
        return if wanted.by == By::Page { Class::Ours } else { Class::Same(None) };
    }
    // The harness has put document 01's answer in the original's place, so the original itself is asked.
    let agrees = raw::rust(given).is_some_and(|raw| raw::same(&raw, wanted));
    let holds = agrees != row.is_some_and(|row| rules::differs(row, given)) && wanted.by != By::Rust;
    tally.that(holds, || format!("row {row:?}: the original {}: {given:02x?}", if agrees { "agrees" } else { "differs" }));
    match row {
        Some(row) if !agrees => Class::Excused(row),
        _ => Class::Same(row),
    }
}

/// The records that the port handed back, if the call was given the receiver's own or made new ones.
fn hand_on(receiver: &mut Receiver, given: &Given, found: &Found) {
    let (case, next) = (&given.case, found.tuner_after(given));
    if let Some(bytes) = next.filter(|_| case.tuner == receiver.tuner || case.call == 1) {
        receiver.tuner = bytes.to_vec();
    }
    let next = found.driver_after(given);
    if let Some(bytes) = next.filter(|_| case.driver == receiver.driver || case.call == 16) {
        receiver.driver = bytes.to_vec();
    }
    if let (true, Some(section)) = (found.reply.count > 0, found.section()) {
        receiver.section = section.to_vec();
    }
}

fn session(number: u64, seed: u64, most: u64, tally: &mut Tally, cover: &mut Cover) -> u64 {
    let mut dice = Dice(seed.wrapping_add(number.wrapping_mul(0xd134_2543_de82_ef95)));
    let mut receiver = Receiver::fresh(&mut dice);
    let length = dice.within(1, 60).min(most);
    for _ in 0..length {
        let given = draw::draw(draw::pick_call(&mut dice), &receiver, &mut dice);
        let (wanted, found) = (document::wanted(&given), port::call(&given));
        let fault = found.against(&given, &wanted);
        tally.that(fault.is_none(), || format!("session {number}: {}; {given:02x?}", fault.unwrap_or_default()));
        let class = class(&given, &wanted, tally);
        cover.note(&given.case, class, wanted.refusal, wanted.index, &judge::entries(&wanted));
        hand_on(&mut receiver, &given, &found);
    }
    length
}

fn run(cases: u64, seed: u64) -> ! {
    let (mut tally, mut cover) = (Tally::default(), Cover::default());
    println!("differential: {cases} cases, seed {seed}, overflow {}", if rules::PANICS { "panics" } else { "wraps" });
    let version = unsafe { ffi::pasetone_version() };
    tally.that(Some(version) == version_of_header(), || format!("version {version:#x}, the header has {:#x?}", version_of_header()));
    let (mut left, mut sessions) = (cases, 0);
    while left > 0 {
        left -= session(sessions, seed, left, &mut tally, &mut cover);
        sessions += 1;
    }
    cover.print();
    cover.demand(&mut tally);
    let detail = format!("; {cases} cases in {sessions} sessions, {} entries, seed {seed}", cover.entries);
    tally.end("differential", detail)
}

/// Every way of spoiling an answer, on many answers of all calls: found each time.
fn self_test() -> ! {
    let (mut tally, mut found_by) = (Tally::default(), BTreeMap::new());
    let mut dice = Dice(0x73_706f_696c);
    let mut receiver = Receiver::fresh(&mut dice);
    for call in (0..40).flat_map(|_| draw::calls()) {
        let given = draw::draw(call, &receiver, &mut dice);
        let (wanted, found) = (document::wanted(&given), port::call(&given));
        for (name, bad) in (0..SPOILS).filter_map(|how| spoiled(&found, how)) {
            let seen = bad.against(&given, &wanted).is_some();
            tally.that(seen, || format!("{name} was changed, and nothing was found: {given:02x?}"));
            *found_by.entry(name).or_insert(0) += seen as u64;
        }
        hand_on(&mut receiver, &given, &found);
    }
    for (name, count) in &found_by {
        println!("    {name}: found {count} times");
    }
    tally.that(found_by.len() == SPOILS, || format!("only {} of {SPOILS} ways were tried", found_by.len()));
    tally.end("spoiled", format!("; {SPOILS} ways"))
}

fn main() {
    raw::quiet();
    let words: Vec<String> = std::env::args().skip(1).collect();
    if words.first().is_some_and(|word| word == "self-test") {
        self_test()
    }
    let (cases, seed) = numbers(&words, 1_000_000, "differential [CASES [SEED]] | differential self-test");
    run(cases, seed)
}
