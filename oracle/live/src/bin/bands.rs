//! Boards from a table (document 02, #113) at the archive, beside a second writing of document 02 (harness::tables) on fresh random tables, whole and malformed in
//! every way that is refused; and the built-in tables beside the original's own `plan_tuning`. Of each call are compared what it answers, every byte that it was
//! lent, what it was given, and the memory beside both.
//!
//!   bands [CASES [SEED]]      exits 1 on a fault, and where a case that must be met was not
//!   bands self-test           answers and lent bytes are changed on purpose; each change must be found
//!   bands run rust|port NAME N    makes N calls of one kind, for oracle/speed to count their instructions
use harness::dice::Dice;
use harness::run;
use harness::tables::{self as document, BAND, Band};
use harness::tally::Tally;
use live::ffi::{Reply, pasetone_board_table, pasetone_plan_by_table};
use live::given::Lent;
use live::numbers;
use std::collections::BTreeMap;
use std::hint::black_box;

/// How often each thing that must be met was met.
type Met = BTreeMap<&'static str, u64>;

const MUST: [&str; 20] = [
    "19: the length",
    "19: seventeen bands",
    "19: first above last",
    "19: first at the last before",
    "19: first below the last before",
    "19: inverted",
    "19: path",
    "19: notch",
    "2: no bands",
    "2: in no band",
    "2: below 0",
    "2: past 64 bits",
    "8",
    "done: the first Hz of a band",
    "done: the last",
    "done: shifted to 0",
    "done: shifted to the last",
    "done: sixteen bands",
    "done: shifted down",
    "done: without a shift",
];

/// Near 0, near a power of two, of any size.
fn number(dice: &mut Dice) -> u64 {
    match dice.below(3) {
        0 => dice.spread(),
        1 => (1u64 << dice.below(64)).wrapping_add(dice.below(5)).wrapping_sub(2),
        _ => dice.below(2_000_000_000),
    }
}

/// A shift that takes `hz` near 0, near 2^64, or anywhere.
fn shift(hz: u64, dice: &mut Dice) -> i64 {
    let near = dice.below(5).wrapping_sub(2);
    (match dice.below(6) {
        0 => hz.wrapping_neg().wrapping_add(near),
        1 => (u64::MAX - hz).wrapping_add(near),
        2 => number(dice),
        3 => number(dice).wrapping_neg(),
        4 => 0,
        _ => near,
    }) as i64
}

/// Bands that ascend; as many as asked, or fewer where the numbers end.
fn bands(count: u64, dice: &mut Dice) -> Vec<Band> {
    let (mut all, start) = (vec![], number(dice) >> dice.below(64));
    let mut least = dice.pick(&[0, start, u64::MAX - start]);
    for _ in 0..count {
        let gap = if dice.yes() { 0 } else { number(dice) >> dice.below(64) };
        let (first, size) = (least.saturating_add(gap), number(dice) >> dice.below(64));
        let last = first.saturating_add(size);
        let rest = [dice.below(2) as u8, dice.below(4) as u8, dice.below(2) as u8];
        all.push(Band { first, last, shift: shift(if dice.yes() { first } else { last }, dice), rest });
        match last.checked_add(1) {
            Some(next) => least = next,
            None => break,
        }
    }
    all
}

/// One thing wrong with the bands, by its name; none where they are too few for it.
fn spoiled(bands: &mut [Band], dice: &mut Dice) -> Option<&'static str> {
    let at = dice.below(bands.len().max(1) as u64) as usize;
    let last_before = at.checked_sub(1).map(|before| bands[before].last);
    let band = bands.get_mut(at)?;
    Some(match dice.below(6) {
        0 if band.first > 0 => {
            band.last = band.first - 1 - dice.below(band.first.min(3));
            "19: first above last"
        }
        1 => {
            band.first = last_before?;
            "19: first at the last before"
        }
        2 => {
            band.first = last_before?.checked_sub(1 + dice.below(3))?;
            "19: first below the last before"
        }
        3 => {
            band.rest[0] = dice.within(2, 255) as u8;
            "19: inverted"
        }
        4 => {
            band.rest[1] = dice.within(4, 255) as u8;
            "19: path"
        }
        5 => {
            band.rest[2] = dice.within(2, 255) as u8;
            "19: notch"
        }
        _ => return None,
    })
}

/// A table, and what is wrong with it where it was made so.
fn table(dice: &mut Dice) -> (Vec<u8>, Option<&'static str>) {
    let count = dice.pick(&[0, 1, 2, 3, 8, 15, 16]);
    let mut all = bands(count, dice);
    match dice.below(8) {
        0 => {
            let fault = spoiled(&mut all, dice);
            (document::bytes(&all), fault)
        }
        1 => {
            // Small bands, so that seventeen have room.
            let many = (0..17).map(|i| Band { first: 10 * i, last: 10 * i + dice.below(10), shift: 0, rest: [0, 3, 0] });
            (document::bytes(&many.collect::<Vec<_>>()), Some("19: seventeen bands"))
        }
        2 => {
            let (mut bytes, more) = (document::bytes(&all), dice.within(1, BAND as u64 - 1) as usize);
            if dice.yes() || bytes.is_empty() {
                bytes.extend(dice.bytes(more));
            } else {
                bytes.truncate(bytes.len() - more);
            }
            (bytes, Some("19: the length"))
        }
        3 => (document::bytes(&document::built_in(dice.below(2))), None),
        _ => (document::bytes(&all), None),
    }
}

/// At, beside or between the ends of a table's bands, or anywhere.
fn frequency(table: &[u8], dice: &mut Dice) -> u64 {
    let count = (table.len() / BAND) as u64;
    if count == 0 || dice.below(4) == 0 {
        return number(dice);
    }
    let at = BAND * dice.below(count) as usize + 8 * dice.below(2) as usize;
    let end = u64::from_le_bytes(table[at..at + 8].try_into().unwrap());
    end.wrapping_add(dice.pick(&[0, 0, 1, u64::MAX]))
}

fn met_plan(table: &[u8], hz: u64, wanted: Result<(u64, [u8; 3]), u32>, met: &mut Met) {
    let mut note = |what| *met.entry(what).or_insert(0) += 1;
    let all = || table.chunks_exact(BAND);
    let word = |band: &[u8], at: usize| u64::from_le_bytes(band[at..at + 8].try_into().unwrap());
    let holder = || all().find(|band| word(band, 0) <= hz && hz <= word(band, 8));
    match wanted {
        Err(2) if table.is_empty() => note("2: no bands"),
        Err(2) => note(match holder() {
            None => "2: in no band",
            Some(band) if band[23] >= 128 => "2: below 0",
            Some(_) => "2: past 64 bits",
        }),
        Err(_) => {}
        Ok((tuned, _)) => {
            let band = holder().expect("it has a plan");
            let facts = [
                (hz == word(band, 0), "done: the first Hz of a band"),
                (hz == word(band, 8), "done: the last"),
                (tuned == 0, "done: shifted to 0"),
                (tuned == u64::MAX, "done: shifted to the last"),
                (table.len() == 16 * BAND, "done: sixteen bands"),
                (band[23] >= 128, "done: shifted down"),
                (word(band, 16) == 0, "done: without a shift"),
            ];
            facts.into_iter().filter(|fact| fact.0).for_each(|fact| note(fact.1));
        }
    }
}

/// What a call must leave: its reply's refusal and value, and the bytes at the start of the lent slice.
fn held(reply: Reply, out: &Lent, room: usize, wanted: Result<(u64, &[u8]), u32>, tally: &mut Tally, what: &dyn Fn() -> String) {
    let (refusal, value, bytes) = match wanted {
        Err(number) => (number, 0, &[][..]),
        Ok((_, bytes)) if room < bytes.len() => (8, 0, &[][..]),
        Ok((value, bytes)) => (0, value, bytes),
    };
    let found = (reply.refusal, reply.value, reply.index, reply.count);
    tally.same(found, (refusal, value, 0, 0), what);
    tally.that(out.differs(bytes).is_none(), || format!("other bytes, room {room}: {}", what()));
}

fn plan(dice: &mut Dice, tally: &mut Tally, met: &mut Met, spoil: u64) {
    let (table, fault) = table(dice);
    let hz = frequency(&table, dice);
    let wanted = document::plan(&table, hz);
    if let Some(fault) = fault {
        tally.that(wanted == Err(19), || format!("the second writing takes a table with this wrong, {fault}: {table:02x?}"));
        *met.entry(fault).or_insert(0) += 1;
    }
    met_plan(&table, hz, wanted, met);
    let room = dice.pick(&[3, 3, 3, 0, 1, 2, 4, 40]);
    if wanted.is_ok() && room < 3 {
        *met.entry("8").or_insert(0) += 1;
    }
    let (mut given, mut out) = (Lent::holding(&table, dice.byte()), Lent::new(room, dice.byte()));
    let ((t, tn), (m, mn)) = (given.slice(), out.slice());
    // Safe: both pointers come with the length of memory that is alive for the call, and not the same.
    let mut reply = unsafe { pasetone_plan_by_table(t, tn, hz, m, mn) };
    match spoil {
        1 => reply.value ^= 1,
        2 => reply.refusal ^= 1,
        3 => reply.index ^= 1,
        4 => reply.count ^= 1,
        5 => out.margin_mut()[0] ^= 1,
        6 => given.margin_mut()[0] ^= 1,
        _ => {}
    }
    let wanted = wanted.as_ref().map(|(hz, bytes)| (*hz, &bytes[..])).map_err(|&number| number);
    held(reply, &out, room, wanted, tally, &|| format!("the plan for {hz} by {table:02x?}"));
    tally.that(given.differs(&table).is_none(), || format!("the table or memory beside it has changed: {table:02x?}"));
}

/// The plan by a built-in board's table beside the original's own.
fn by_the_original(board: u64, bytes: &[u8], dice: &mut Dice, tally: &mut Tally, met: &mut Met) {
    let hz = frequency(bytes, dice);
    let original = run::board(board as u8).orchestrator().plan_tuning(hz);
    let rest = [original.spectral_inv as u8, original.input_path.map_or(3, |path| path as u8), original.in_notch as u8];
    let (mut given, mut out) = (Lent::holding(bytes, dice.byte()), Lent::new(3, dice.byte()));
    let ((t, tn), (m, mn)) = (given.slice(), out.slice());
    // Safe: both pointers come with the length of memory that is alive for the call, and not the same.
    let reply = unsafe { pasetone_plan_by_table(t, tn, hz, m, mn) };
    held(reply, &out, 3, Ok((original.tuner_hz, &rest)), tally, &|| format!("the original's plan of board {board} for {hz}"));
    *met.entry(if board == 0 { "the generic board as the original" } else { "the V4 as the original" }).or_insert(0) += 1;
}

/// A built-in table at any length of the lent slice, and by it the original's plan.
fn built_in(dice: &mut Dice, tally: &mut Tally, met: &mut Met, spoil: u64) {
    let board = if dice.below(8) == 0 { number(dice) } else { dice.below(2) };
    let bytes = document::bytes(&document::built_in(board));
    let least = bytes.len() as u64;
    let (more, less) = (dice.below(40), dice.below(least));
    let room = dice.pick(&[least, least + more, least - 1, less]) as usize;
    let mut out = Lent::new(room, dice.byte());
    let (m, mn) = out.slice();
    // Safe: the pointer comes with the length of memory that is alive for the call.
    let mut reply = unsafe { pasetone_board_table(board, m, mn) };
    match spoil {
        1 => reply.value ^= 1,
        2 => reply.refusal ^= 1,
        3 => reply.index ^= 1,
        4 => reply.count ^= 1,
        5 => out.margin_mut()[0] ^= 1,
        6 if room > 0 => out.lent_mut()[room - 1] ^= 1,
        6 => out.margin_mut()[0] ^= 1,
        _ => {}
    }
    let wanted = if board > 1 { Err(1) } else { Ok((bytes.len() as u64, &bytes[..])) };
    held(reply, &out, room, wanted, tally, &|| format!("the table of board {board}"));
    if board < 2 {
        by_the_original(board, &bytes, dice, tally, met);
    }
}

type Call = fn(&mut Dice, &mut Tally, &mut Met, u64);

const CALLS: [(&str, Call); 2] = [("plan_by_table", plan), ("board_table", built_in)];

fn self_test() -> ! {
    let mut found = Tally::default();
    for (name, call) in CALLS {
        for spoil in 1..=6 {
            let (mut tally, mut met, mut dice) = (Tally { silent: true, ..Tally::default() }, Met::new(), Dice(spoil));
            for _ in 0..200 {
                call(&mut dice, &mut tally, &mut met, spoil);
            }
            found.that(tally.faults >= 200, || format!("{name}, change {spoil}: {} faults in 200 calls", tally.faults));
        }
    }
    found.end("spoiled", String::new())
}

/// By the V4's table at 1 GHz, which its last band holds; and that table itself.
fn run(who: &str, name: &str, times: u64) {
    let (table, hz, mut room) = (document::bytes(&document::built_in(1)), 1_000_000_000, [0; 256]);
    let mut work: Box<dyn FnMut()> = match (who, name) {
        ("rust", "plan-by-table") => Box::new(|| {
            let (hz, rest) = document::plan(black_box(&table), black_box(hz)).unwrap();
            black_box(&mut room)[..3].copy_from_slice(&rest);
            black_box(hz);
        }),
        ("port", "plan-by-table") => Box::new(|| {
            // Safe: table and room are alive, and not of the same memory.
            black_box(unsafe {
                pasetone_plan_by_table(black_box(&table).as_ptr(), table.len(), black_box(hz), room.as_mut_ptr(), room.len())
            });
        }),
        ("rust", "board-table") => Box::new(|| {
            let mut at = 0;
            for band in document::built_in(black_box(1)) {
                black_box(&mut room)[at..at + BAND].copy_from_slice(&band.bytes());
                at += BAND;
            }
            black_box(at);
        }),
        ("port", "board-table") => Box::new(|| {
            // Safe: the room is alive.
            black_box(unsafe { pasetone_board_table(black_box(1), room.as_mut_ptr(), room.len()) });
        }),
        _ => panic!("rust or port, and the name of a call"),
    };
    for _ in 0..times {
        work();
    }
}

fn main() {
    let words: Vec<String> = std::env::args().skip(1).collect();
    if let [first, who, name, times] = &words[..]
        && first == "run"
    {
        return run(who, name, times.parse().expect("a count of calls"));
    }
    if words.first().is_some_and(|word| word == "self-test") {
        self_test()
    }
    let (cases, seed) = numbers(&words, 1_000_000, "bands [CASES [SEED]] | bands self-test");
    let (mut tally, mut met, mut dice) = (Tally::default(), Met::new(), Dice(seed));
    for _ in 0..cases {
        for (_, call) in CALLS {
            call(&mut dice, &mut tally, &mut met, 0);
        }
    }
    for (what, count) in &met {
        println!("    {what}: {count}");
    }
    for what in MUST.iter().chain(&["the generic board as the original", "the V4 as the original"]) {
        tally.that(met.contains_key(what), || format!("never reached: {what}"));
    }
    tally.end("bands", format!("; {cases} cases, seed {seed}"))
}
