//! Document 01's claims against the Rust: most entries and replies, a failure at every step, what follows it, what the
//! records hold afterwards, the order of steps, the order of refusals, the worked numbers, the whole section, FIR; and the
//! port's constants against those of src/registers.rs.
use harness::answer::{answer, takes_driver, takes_tuner};
use harness::case::{Answer, By, Case};
use harness::cases::{self, plain, replies_for};
use harness::dice::Dice;
use harness::judge::Paper;
use harness::records::{Driver, Tuner};
use harness::tally::Tally;
use harness::{hops, judge, page, requests, run, steps, tables};
use original::registers;
use original::tuners::r82xx;

const MHZ: u64 = 1_000_000;

/// A script for a call's replies: for tune every fine tune and every try of the lock come by, then noise.
fn replies(call: u8, i: usize, length: usize, dice: &mut Dice) -> Vec<u8> {
    match call {
        3 if i < 44 => replies_for((i % 4) as u8, Some(i / 4).filter(|&at| at < 10), dice.byte()),
        _ => dice.bytes(length),
    }
}

/// Every call with steps, on both kinds, over many reply scripts: most entries and replies are reached and never passed.
fn most(tally: &mut Tally, dice: &mut Dice) {
    for call in (2..=32).filter(|&call| page::most(call).is_some()) {
        let (entries, needed) = page::most(call).unwrap();
        for kind in 0..2 {
            let (mut reached, mut taken) = (0, 0);
            for i in 0..300 {
                let mut case = cases::random(call, dice);
                case.outcomes.fill(0);
                case.replies = replies(call, i, needed, dice);
                if takes_tuner(call) {
                    let mut tuner = Tuner::read(&case.tuner).unwrap();
                    (tuner.kind, tuner.corrected, tuner.intermediate) = (kind, 28_800_000, 2_300_000);
                    case.tuner = tuner.bytes();
                }
                if call == 3 {
                    case.a = dice.within(26 * MHZ, 1_790 * MHZ);
                }
                let found = answer(&case);
                tally.same(found.refusal, 0, || format!("all done: {case:?}"));
                judge::all(Paper::First, &case, &found, tally);
                reached = reached.max(found.count);
                taken = taken.max(run::taken());
            }
            let wanted = match (call, kind) {
                (8, 0) => (0, 0),
                (20, 0) => (6, 3),
                _ => (entries, needed),
            };
            tally.same((reached, taken), wanted, || format!("most entries and replies of call {call} on kind {kind}"));
        }
    }
}

/// A failure at every step of every call, on both kinds, on several records; two failures too.
fn failures(tally: &mut Tally, dice: &mut Dice) {
    for call in (2..=32).filter(|&call| page::most(call).is_some()) {
        for round in 0..12 {
            let mut case = cases::random(call, dice);
            case.outcomes.fill(0);
            if takes_tuner(call) {
                let mut tuner = Tuner::read(&case.tuner).unwrap();
                (tuner.kind, tuner.corrected, tuner.intermediate) = (round % 2, 28_800_000, 2_300_000);
                case.tuner = tuner.bytes();
            }
            if call == 3 {
                case.a = if round < 10 { dice.within(26 * MHZ, 1_790 * MHZ) } else { 1_900 * MHZ };
                case.replies = replies_for(round % 4, Some(round as usize).filter(|&at| at < 10), dice.byte());
            }
            let whole = answer(&case);
            judge::all(Paper::First, &case, &whole, tally);
            for step in 0..whole.count {
                let mut cut = case.clone();
                cut.outcomes[step] = dice.within(1, 255) as u8;
                failure(&cut, step, &whole, tally);
                let second = dice.below(cut.outcomes.len() as u64) as usize;
                cut.outcomes[second] = 1;
                judge::all(Paper::First, &cut, &answer(&cut), tally);
            }
        }
    }
}

fn failure(cut: &Case, step: usize, whole: &Answer, tally: &mut Tally) {
    let found = answer(cut);
    judge::all(Paper::First, cut, &found, tally);
    judge::all(Paper::Second, cut, &requests::answer(cut), tally);
    let entry = judge::entries(whole)[step];
    if page::closes(&entry) || entry[0] == 9 {
        let same = (found.refusal, found.value, found.count, found.tuner.clone(), found.driver.clone());
        let wanted = (whole.refusal, whole.value, whole.count, whole.tuner.clone(), whole.driver.clone());
        tally.same(same, wanted, || format!("a failed closing or wait is ignored: {cut:?}"));
    } else {
        tally.same((found.refusal, found.index), (11, step), || format!("failing step: {cut:?}"));
    }
}

fn tune(kind: u8, reference: u32, lo: u64) -> Answer {
    let tuner = Tuner::fresh(kind, reference, 0x74);
    answer(&Case { a: lo - tuner.intermediate, tuner: tuner.bytes(), replies: replies_for(2 - kind, Some(0), 0), ..plain(3) })
}

/// m, N, 0x14's byte and S as the Rust sends them: entries 12, 13, 14, 15.
fn sent(found: &Answer) -> (u64, u64, u8, u64) {
    let made = judge::entries(found);
    let byte = made[13][9];
    (2 << (made[12][9] >> 5), 13 + 4 * (byte & 0x3f) as u64 + (byte >> 6) as u64, byte, (made[14][9] as u64) << 8 | made[15][9] as u64)
}

fn worked_pll(tally: &mut Tally) {
    for (lo, m) in [(27_656_250, 64), (885_000_000, 2), (884_999_999, 4), (1_799_999_999, 2)] {
        tally.same(sent(&tune(1, 28_800_000, lo)).0, m, || format!("m of lo {lo}"));
    }
    let edges = [(64, 27_656_250), (32, 55_312_500), (16, 110_625_000), (8, 221_250_000), (4, 442_500_000), (2, 885_000_000)];
    for (m, lo) in edges {
        tally.same(sent(&tune(0, 28_800_000, lo)).0, m, || format!("first lo with m {m}"));
    }
    for (kind, reference, lo) in [(1, 28_800_000, 27_656_249), (1, 28_800_000, 1_800_000_000), (0, 16_000_000, 1_024_000_000)] {
        let found = tune(kind, reference, lo);
        let made = judge::entries(&found);
        let shape = made[0][8] == 1 && made[1..12].iter().all(|entry| entry[0] == 2) && page::closes(&made[12]);
        tally.that((found.refusal, found.count) == (2, 13) && shape, || format!("refused in the PLL: lo {lo}"));
        let (refusal, line) = steps::tune(&Tuner::fresh(kind, reference, 0x74), lo - 2_300_000, &[]);
        tally.same((found.refusal, found.tuner), (refusal, Some(line.tuner.bytes())), || format!("the mux's shadow stands: lo {lo}"));
    }
    tally.same(sent(&tune(0, 16_000_000, 1_023_999_999)).1, 63, || "N of lo 1,023,999,999".into());
    tally.same(sent(&tune(1, 28_800_000, 102_300_000)), (32, 56, 0xca, 0xd556), || "lo 102,300,000".into());
    let pll = page::pll(1, 28_800_000, 102_300_000).unwrap();
    tally.same((pll.n, pll.f, pll.s, pll.rest), (56, 48_000, 0xd556, 1), || "lo 102,300,000 on the page".into());
    tally.same(sent(&tune(1, 100_000_000, 885_000_000)).2, 0xc0, || "0x14 for N 8".into());
    tally.same(page::pll(1, 100_000_000, 885_000_000).unwrap().n, 8, || "N 8 on the page".into());
}

fn worked(tally: &mut Tally) {
    let ppm = |d: i32| answer(&Case { d: d as u32, ..plain(10) });
    tally.same(ppm(-1).tuner.map(|bytes| Tuner::read(&bytes).unwrap().corrected), Some(28_799_972), || "-1 ppm".into());
    tally.same(ppm(-1_000_000).refusal, 4, || "-1,000,000 ppm".into());
    let db = |bits: u32| f32::from_bits(answer(&Case { a: bits as u64, ..plain(4) }).value as u32);
    for (bits, step) in [(3.2f32.to_bits(), 2.7), (0x7fc0_0000, 0.0), (0xcd4c_cccc, 0.0)] {
        tally.same(db(bits), step, || format!("gain {bits:#x}"));
    }
    tally.same(page::tenths(f32::from_bits(0xcd4c_cccc)), -2_147_483_520, || "the product in the worked numbers".into());
    for index in 0..40u64 {
        let clamped = index.min(28) as usize;
        let found = answer(&Case { a: index, ..plain(5) });
        let line = steps::gain(&Tuner::fresh(1, 28_800_000, 0x74), clamped);
        tally.same((found.value, found.tuner), (page::step(clamped) as u64, Some(line.tuner.bytes())), || format!("gain index {index}"));
    }
    let bytes = |call: u8, a: u64| {
        let found = answer(&Case { a, ..plain(call) });
        if found.answered.is_empty() {
            judge::entries(&found).iter().flat_map(|entry| entry[8..8 + entry[3] as usize].to_vec()).collect()
        } else {
            found.answered
        }
    };
    tally.same(bytes(27, 3_570_000), vec![0x38, 0x11, 0x12], || "IF 3,570,000".into());
    tally.same(bytes(34, 3_570_000), vec![0x07, 0xee, 0xee], || "IF 3,570,000, positive".into());
    tally.same(bytes(28, 2_048_000), vec![0x03, 0x84, 0, 0, 0, 0], || "rate 2,048,000".into());
    tally.same(bytes(28, 225_000), vec![0; 6], || "rate 225,000".into());
    for (hz, wanted) in [(28_799_999, (57_599_999, 1)), (28_800_000, (28_800_000, 0))] {
        let found = answer(&Case { a: hz, ..plain(33) });
        tally.same((found.value, found.answered[0]), wanted, || format!("V4's plan for {hz}"));
    }
    for (hz, notch) in [(84_999_999, 0), (85_000_000, 1), (112_000_000, 1), (112_000_001, 0)] {
        tally.same(bytes(33, hz)[2], notch, || format!("notch at {hz}"));
    }
    let fir = [0xca, 0xdc, 0xd7, 0xd8, 0xe0, 0xf2, 0x0e, 0x35, 0x06, 0x50, 0x9c, 0x0d, 0x71, 0x11, 0x14, 0x71, 0x74, 0x19, 0x41, 0xa5];
    tally.same(original::demod::see_pack_fir(), fir, || "FIR_DEFAULT".into());
    tally.same(page::fir_pack(&original::demod::SEEN_FIR), fir, || "FIR_DEFAULT by the page".into());
    let baseband = judge::entries(&answer(&plain(21)));
    tally.same(baseband[16..36].iter().map(|entry| entry[8]).collect(), fir.to_vec(), || "FIR in init_baseband".into());
    let section = [
        [1, 0, 0, 1, 0, 0, 0, 0, 1, 0, 0, 0, 0, 0, 0, 0],
        [2, 0, 0x74, 2, 0, 0, 0, 0, 0x0a, 0xd8, 0, 0, 0, 0, 0, 0],
        [1, 0, 0, 1, 0, 0, 0, 0, 0, 0, 0, 0, 0, 0, 0, 0],
    ];
    let whole = [section.concat(), vec![3, 0, 0, 0, 0x30, 0, 0, 0]].concat();
    tally.same(answer(&plain(6)).section, Some(whole), || "whole section".into());
}

/// Claims on single calls: which registers a call touches, in which order.
fn order(tally: &mut Tally, dice: &mut Dice) {
    let registers =
        |found: &Answer| judge::entries(found).iter().filter(|entry| entry[0] == 2).map(|entry| (entry[8], entry[3])).collect::<Vec<_>>();
    let longest = answer(&plain(3));
    let head = [0x17, 0x17, 0x1a, 0x1b, 0x10, 0x08, 0x09, 0x1d, 0x1c, 0x1e, 0x1a, 0x10, 0x14, 0x16, 0x15, 0x12];
    tally.same(registers(&longest)[..16].iter().map(|pair| pair.0).collect(), head.to_vec(), || "order of tune's writes".into());
    let chunks = [(0x05, 8), (0x0c, 8), (0x13, 3), (0x15, 8), (0x1c, 5)];
    tally.same(registers(&answer(&plain(9))), chunks.to_vec(), || "reload's chunks".into());
    let rest = [(0x1a, 2), (0x12, 2), (0x0c, 2), (0x13, 2), (0x0a, 2), (0x0b, 2)];
    tally.same(registers(&answer(&plain(2))), [&chunks[..], &rest[..]].concat(), || "initialise's writes".into());
    for _ in 0..200 {
        let before = cases::random_tuner(dice);
        let after = Tuner::read(&answer(&Case { tuner: before.bytes(), ..plain(2) }).tuner.unwrap()).unwrap();
        for place in (0..27).filter(|place| ![5, 6, 7, 13, 14, 21].contains(place)) {
            tally.same(after.shadow[place], before.shadow[place], || format!("initialise leaves shadow byte {place}"));
        }
        let kept = |t: &Tuner| (t.intermediate, t.gain, t.lock, t.notch);
        tally.same(kept(&after), kept(&before), || "initialise leaves IF, gain, lock, notch".into());
        // By document 02 (#106) its masked writes stand on INIT_ARRAY, whatever the shadow was.
        let second = requests::answer(&Case { tuner: before.bytes(), ..plain(2) });
        let masked: Vec<_> = judge::entries(&second).iter().filter(|entry| entry[3] == 2).map(|entry| (entry[8], entry[9])).collect();
        let wanted = [(0x1a, 0x60), (0x12, 0x06), (0x0c, 0xf0), (0x13, 0x01), (0x0a, 0x86), (0x0b, 0x80)];
        tally.same(masked, wanted.to_vec(), || format!("initialise by #106 over {:02x?}", before.shadow));
    }
    for byte in 0..=255u8 {
        tally.same(r82xx::see_bit_reverse(byte), byte.reverse_bits(), || format!("bits of {byte:#x} reversed"));
    }
    tally.same(r82xx::SEEN_STEPS, page::STEPS, || "gain steps".into());
}

/// The order of refusals, by hand.
fn refusals(tally: &mut Tally) {
    let mut want = |case: Case, refusal: u8, what: &str| {
        let found = answer(&case);
        tally.same(found.refusal, refusal, || what.to_string());
        judge::all(Paper::First, &case, &found, tally);
    };
    let nothing = |call: u8| Case { room: 0, outcomes: vec![], replies: vec![], ..plain(call) };
    for call in 2..=35 {
        let (steps, bytes) = (page::most(call), page::answered(call));
        if takes_tuner(call) {
            want(Case { tuner: vec![0; 77], a: 99, ..nothing(call) }, 1, "tuner record of 77 bytes first");
            want(Case { tuner: [plain(call).tuner, vec![0]].concat(), ..nothing(call) }, 1, "tuner record of 79 bytes first");
        }
        if takes_driver(call) {
            want(Case { driver: vec![1; 20], a: 0, d: i32::MIN as u32, ..nothing(call) }, 1, "driver record first");
        }
        if steps.is_some() || bytes.is_some() {
            want(nothing(call), 8, "no room");
            want(Case { room: plain(call).room - 1, ..plain(call) }, 8, "a byte of room missing");
        }
        if let Some((_, replies)) = steps {
            want(Case { room: plain(call).room, ..nothing(call) }, 9, "no outcomes");
            let mut case = plain(call);
            case.outcomes.pop();
            case.replies.clear();
            want(case.clone(), 9, "an outcome missing");
            case.outcomes.push(0);
            want(case, if replies > 0 { 10 } else { 0 }, "no replies");
        }
    }
    want(Case { a: 0, ..nothing(3) }, 2, "hz 0 before room");
    want(Case { a: u64::MAX, ..nothing(3) }, 2, "hz + IF past u64 before room");
    want(Case { a: 3_000 * MHZ, ..nothing(3) }, 8, "room before the PLL");
    want(Case { a: 0, ..nothing(19) }, 3, "rate before room");
    want(Case { a: 0, b: 0, ..nothing(28) }, 3, "rate before reference");
    want(Case { a: 0, b: 0, ..nothing(35) }, 3, "rate before reference");
    for call in [27, 28, 34, 35] {
        want(Case { b: 0, ..nothing(call) }, 4, "reference before room");
    }
    want(Case { a: 8, ..nothing(31) }, 6, "pin before room");
    want(Case { a: 8, ..nothing(32) }, 6, "pin before room");
    want(Case { a: 3, ..nothing(8) }, 1, "path before room");
    want(Case { a: 3, ..nothing(20) }, 1, "path before room");
    let one = Tuner::fresh(0, 28_800_000, 0x34).bytes();
    want(Case { tuner: one.clone(), ..nothing(8) }, 0, "R820T's input path looks at no lent memory");
    want(Case { tuner: one, a: 3, ..nothing(8) }, 1, "but at the path");
    for (a, b, refusal) in [(2, 1, 1), (0, 0, 1), (1, 1 << 32, 1), (1, u32::MAX as u64, 0)] {
        want(Case { a, b, ..plain(1) }, refusal, "fresh tuner");
    }
    want(Case { c: 2, d: i32::MIN as u32, ..plain(16) }, 1, "board before correction");
    want(Case { d: -1_000_000i32 as u32, ..plain(16) }, 4, "correction at the driver's making");
}

/// Document 02's correction (#109), by hand: both set or neither, 1 for either record before 4 for either reference.
fn corrections(tally: &mut Tally) {
    let driver = |nominal: u32| Driver { board: 1, nominal, ppm: -7, frequency: 9, rate: 11, actual: 13 };
    let mut want = |first: u32, second: u32, ppm: i32, wanted: Option<(u32, u32)>| {
        let given = (Tuner::fresh(1, first, 0x74), driver(second));
        let case = Case { d: ppm as u32, tuner: given.0.bytes(), driver: given.1.bytes(), ..plain(41) };
        let found = requests::answer(&case);
        let next = (found.tuner.as_deref().and_then(Tuner::read), found.driver.as_deref().and_then(Driver::read));
        tally.same(found.refusal, if wanted.is_some() { 0 } else { 4 }, || format!("{ppm} ppm of {first} and {second}"));
        let made = wanted.map_or((None, None), |(corrected, _)| (Some(Tuner { corrected, ..given.0 }), Some(Driver { ppm, ..given.1 })));
        tally.same(next, made, || format!("both or neither at {ppm} ppm of {first} and {second}"));
        // What the driver's record tells of its reference from then on.
        let told = found.driver.map(|driver| answer(&Case { driver, ..plain(18) }).value as u32);
        tally.same(told, wanted.map(|(_, reference)| reference), || format!("the driver's reference at {ppm} ppm of {second}"));
        judge::all(Paper::Second, &case, &requests::answer(&case), tally);
    };
    want(28_800_000, 28_800_000, -1, Some((28_799_972, 28_799_972)));
    want(28_800_000, 16_000_000, -1, Some((28_799_972, 15_999_984)));
    want(16_000_000, 28_800_000, -999_999, Some((16, 29)));
    want(28_800_000, 28_800_000, -1_000_000, None);
    want(28_800_000, 16_000_000, 148_130_809, None); // the tuner's alone
    want(16_000_000, 28_800_000, 148_130_809, None); // the driver's alone
    want(16_000_000, 28_800_000, 148_130_808, Some((2_386_092_928, 4_294_967_270)));
    want(u32::MAX, u32::MAX, 1, None);
    want(1, 1, i32::MAX, Some((2_148, 2_148)));
    want(1, 1, i32::MIN, None);
    let bad = [(vec![], plain(41).driver), (plain(41).tuner, vec![]), (plain(41).driver, plain(41).tuner)];
    for ((tuner, driver), ppm) in bad.into_iter().flat_map(|records| [(records.clone(), 0), (records, i32::MIN)]) {
        let found = requests::answer(&Case { d: ppm as u32, tuner, driver, ..plain(41) });
        tally.same(found, Answer::refused(1, By::Page), || format!("a record that is none, at {ppm} ppm"));
    }
}

/// The board tune of document 02 (#113), on what the Rust's own parts recorded: against the list of steps written a second time, cut at each entry, most
/// entries and replies reached; and the order of refusals, by hand.
fn hops(tally: &mut Tally, dice: &mut Dice) {
    let (mut reached, mut taken, mut late, mut early) = ([0; 2], [0; 2], 0, 0);
    for round in 0..3_000 {
        let mut case = cases::random(42, dice);
        case.outcomes.fill(0);
        let mut tuner = Tuner::read(&case.tuner).unwrap();
        if round % 4 != 0 {
            (tuner.corrected, tuner.intermediate) = (28_800_000, 2_300_000);
        }
        case.tuner = tuner.bytes();
        let found = requests::answer(&case);
        judge::all(Paper::Second, &case, &found, tally);
        if found.section.is_none() {
            early += 1;
            continue;
        }
        let kind = tuner.kind as usize;
        (reached[kind], taken[kind]) = (reached[kind].max(found.count), taken[kind].max(run::taken()));
        tally.same(found.refusal == 2, hops::late(&case), || format!("the PLL's refusal of {case:?}"));
        late += (found.refusal == 2) as usize;
        if found.by != By::PageOverRust {
            let (refusal, line) = steps::hop(&tuner, tables::plan(&case.input, case.a).unwrap(), &case.replies);
            let wanted = (refusal, if refusal == 0 { case.a } else { 0 }, Some(page::section(&line.entries)));
            tally.same((found.refusal, found.value, found.section.clone()), wanted, || format!("steps of {case:?}"));
        }
        if round % 20 == 0 {
            for step in 0..found.count {
                let mut cut = case.clone();
                cut.outcomes[step] = dice.within(1, 255) as u8;
                hop_failure(&cut, step, &found, tally);
            }
        }
    }
    let longest = cases::plain(42);
    let found = requests::answer(&longest);
    tally.same((found.count, run::taken()), hops::MOST, || "the longest board tune".into());
    (0..64).for_each(|step| {
        let mut cut = longest.clone();
        cut.outcomes[step] = 1;
        hop_failure(&cut, step, &found, tally);
    });
    tally.same((reached, taken), ([54, 64], [35, 38]), || "most entries and replies of a board tune on each kind".into());
    tally.that(late > 100 && early > 100, || format!("{late} late, {early} before any step"));
    let mut want = |case: Case, refusal: u8, what: &str| tally.same(requests::answer(&case).refusal, refusal, || what.to_string());
    for call in [19, 42] {
        let nothing = Case { room: 0, outcomes: vec![], replies: vec![], ..plain(call) };
        for table in cases::boards::malformed() {
            want(Case { input: table.clone(), driver: vec![0; 29], ..nothing.clone() }, 1, "records before the table");
            want(Case { input: table, a: 0, ..nothing.clone() }, 19, "the table before rate and frequency");
        }
        want(Case { input: vec![], ..plain(call) }, if call == 19 { 0 } else { 2 }, "no band");
        want(Case { a: 0, input: vec![], ..nothing.clone() }, if call == 19 { 3 } else { 2 }, "rate or frequency before room");
        want(Case { room: plain(call).room, ..nothing.clone() }, 9, "outcomes after room");
        want(nothing, 8, "room first of what is lent");
    }
    want(Case { replies: vec![0; 37], ..plain(42) }, 10, "replies last");
}

fn hop_failure(cut: &Case, step: usize, whole: &Answer, tally: &mut Tally) {
    let found = requests::answer(cut);
    judge::all(Paper::Second, cut, &found, tally);
    let entry = judge::entries(whole)[step];
    if page::closes(&entry) || entry[0] == 9 {
        let told = |a: &Answer| (a.refusal, a.value, a.count, a.tuner.clone(), a.driver.clone());
        tally.same(told(&found), told(whole), || format!("a failed closing or wait is ignored: {cut:?}"));
    } else {
        tally.same((found.refusal, found.index), (11, step), || format!("failing step: {cut:?}"));
        tally.same(&found.driver, &Some(cut.driver.clone()), || format!("the driver's record after a failure: {cut:?}"));
    }
}

/// The stored list's own cases, all of them, by documents 01 and 02, with the USB transfers of each run held against its entries.
fn listed(tally: &mut Tally) {
    rusb::rec::with(|r| r.keep = true);
    for case in [cases::calls(), cases::fir(), cases::sections()].concat() {
        let found = requests::answer(&case);
        let transfers = rusb::rec::with(|r| std::mem::take(&mut r.transfers));
        if found.section.is_some() {
            let wanted: Vec<_> = judge::entries(&found).iter().flat_map(steps::transfers).collect();
            let kept: Vec<_> = transfers.into_iter().map(|t| (t.kind, t.value, t.index, t.data, t.done)).collect();
            tally.same(kept, wanted, || format!("USB transfers of {case:?}"));
        }
        judge::all(Paper::Second, &case, &found, tally);
    }
    rusb::rec::with(|r| r.keep = false);
}

/// A constant of the Rust by its path below `registers`, as a number.
macro_rules! numbers {
    ($($path:ident $(:: $more:ident)*),* $(,)?) => {
        [$((concat!(stringify!($path) $(, "::", stringify!($more))*), registers::$path $(:: $more)* as u64)),*]
    };
}

/// The constants of src/registers.rs, of which no call uses all: the port has each under its name, with its number, and no other.
fn constants(tally: &mut Tally) {
    let rust = numbers![
        BREQUEST,
        block::DEMOD,
        block::USB,
        block::SYS,
        block::I2C,
        sys::DEMOD_CTL,
        sys::DEMOD_CTL1,
        sys::GPO,
        sys::GPOE,
        sys::GPD,
        sys::DEMOD_CTL_POWER_ON,
        sys::DEMOD_CTL_POWER_OFF,
        usb::SYSCTL,
        usb::EPA_MAXPKT,
        usb::EPA_CTL,
        demod::P0_PAGE,
        demod::P1_PAGE,
        demod::P2_PAGE,
        demod::P0_AGC_CTL,
        demod::P1_IIC_REPEAT,
        demod::P1_IIC_REPEAT_ON,
        demod::P1_IIC_REPEAT_OFF,
        demod::P1_SOFT_RESET,
        demod::P1_SOFT_RESET_ON,
        demod::P1_SOFT_RESET_OFF,
        demod::P1_IF_FREQ_H,
        demod::P1_IF_FREQ_M,
        demod::P1_IF_FREQ_L,
        demod::P2_RESAMPLE_H,
        demod::P2_RESAMPLE_M,
        demod::P2_RESAMPLE_L,
        demod::P2_RESAMPLE_LSB,
        demod::P1_DDC_SYNC,
        demod::P1_DDC_SYNC_NORMAL,
        demod::P1_DDC_SYNC_INVERT,
        tuner_ids::R82XX_I2C_ADDR,
        tuner_ids::R828D_I2C_ADDR,
        tuner_ids::E4000_I2C_ADDR,
        tuner_ids::FC0012_I2C_ADDR,
        tuner_ids::FC0013_I2C_ADDR,
        IF_FREQ_HZ,
        XTAL_FREQ_HZ,
    ];
    let mut port: Vec<(String, u64)> = Vec::new();
    let mut within = String::new();
    for line in include_str!("../../../../crates/registers/src/lib.rt").lines() {
        if let Some(name) = line.strip_prefix("pub mod ") {
            within = format!("{}::", name.trim_end_matches(" {"));
        } else if line == "}" {
            within.clear();
        } else if let Some((name, rest)) = line.trim_start().strip_prefix("pub const ").and_then(|rest| rest.split_once(": ")) {
            let digits = rest.split_once(" = ").map(|(_, value)| value.trim_end_matches(';').replace('_', "")).unwrap_or_default();
            let value = match digits.strip_prefix("0x") {
                Some(hex) => u64::from_str_radix(hex, 16),
                None => digits.parse(),
            };
            port.push((format!("{within}{name}"), value.unwrap_or(u64::MAX)));
        }
    }
    for (name, value) in rust {
        let found = port.iter().find(|(other, _)| other == name).map(|&(_, value)| value);
        tally.that(found == Some(value), || format!("{name}: the port has {found:?}, the Rust {value}"));
    }
    tally.that(port.len() == rust.len(), || format!("the port has {} constants, the Rust {}", port.len(), rust.len()));
}

fn main() {
    let (mut tally, mut dice) = (Tally::default(), Dice(0x63_6865_636b));
    let given = Driver { board: 1, nominal: 28_800_000, ppm: -3, frequency: 7, rate: 9, actual: 11 };
    tally.same(Driver::read(&given.bytes()), Some(given), || "a driver record reads back".into());
    for _ in 0..1000 {
        let tuner = cases::random_tuner(&mut dice);
        tally.same(Tuner::read(&tuner.bytes()), Some(tuner), || "a tuner record reads back".into());
    }
    most(&mut tally, &mut dice);
    failures(&mut tally, &mut dice);
    worked_pll(&mut tally);
    worked(&mut tally);
    order(&mut tally, &mut dice);
    refusals(&mut tally);
    corrections(&mut tally);
    hops(&mut tally, &mut dice);
    listed(&mut tally);
    constants(&mut tally);
    tally.end("check", String::new())
}
