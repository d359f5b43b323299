//! Commands fed as they arrive (document 02, #105) at the archive. Streams of commands, taken, refused, unknown and cut by failing steps, are fed whole, in random
//! cuts and byte by byte. Each feeding is held against a second writing of the request (harness::commands) over the archive's own calls, made one by one; the
//! feedings of one stream are held against each other. Compared are the answer, stream bytes, both records, the room, what was given, and the memory beside all of it.
//!
//!   stream [STREAMS [SEED]]      exits 1 on a fault, and where a case that must be met was not
//!   stream self-test             answers and bytes are changed on purpose; each change must be found
//!   stream run rust|port NAME N  makes N feedings of one kind, for oracle/speed to count their instructions
use harness::case::Case;
use harness::cases::built_in;
use harness::commands::{self as document, Command, WHOLE};
use harness::dice::Dice;
use harness::records::{Driver, Tuner};
use harness::tally::Tally;
use harness::{cases, page, run, tables};
use live::draw::{self, Receiver};
use live::ffi::{FeedReply, pasetone_feed, pasetone_stream_pending};
use live::given::{Given, Lent};
use live::{numbers, port};
use original::tuner::Tuner as Calls;
use rusb::rec;
use std::collections::BTreeMap;
use std::hint::black_box;

/// How often each thing that must be met was met.
#[derive(Default)]
struct Met(BTreeMap<String, u64>);

impl Met {
    fn note(&mut self, what: impl Into<String>) {
        *self.0.entry(what.into()).or_insert(0) += 1;
    }
}

/// What must be met beside each number, operation and length.
const ALSO: [&str; 18] = [
    "14: operation 0",
    "14: operation 8",
    "14: operation above 8",
    "1: the tuner",
    "1: the driver",
    "1: stream bytes, their length",
    "1: stream bytes, their count",
    "1: stream bytes, a byte behind the pending ones",
    "2 in the PLL",
    "a gain of NaN",
    "an index above 28",
    "a correction below 0",
    "an empty chunk",
    "several commands in a chunk",
    "a command in nine chunks",
    "a done one behind a refused one",
    "a rate without a plan",
    "a done one beside a malformed table",
];

fn must() -> Vec<String> {
    let mut all: Vec<String> = ALSO.map(String::from).to_vec();
    all.extend([2, 3, 4, 8, 9, 10, 13, 19].map(|number| format!("refusal {number}")));
    for operation in 1..=7 {
        all.extend(["done", "refused", "cut"].map(|end| format!("operation {operation}: {end}")));
    }
    for operation in 2..=7 {
        all.extend(["a byte above", "the lowest byte above", "a sign above"].map(|how| format!("14: {how}, operation {operation}")));
    }
    all.extend((0..WHOLE).map(|length| format!("pending at the end: {length}")));
    // A correction takes no step.
    all.retain(|what| what != "operation 6: cut");
    all
}

/// A command with what it is lent, by its number the same in every feeding.
#[derive(Clone, Default)]
struct Sent {
    bytes: [u8; WHOLE],
    outcomes: Vec<u8>,
    replies: Vec<u8>,
    room: usize,
    fill: u8,
}

/// What a command must answer and leave: all of its room, and both records.
struct Wanted {
    reply: FeedReply,
    room: Vec<u8>,
    tuner: Vec<u8>,
    driver: Vec<u8>,
}

struct Stream {
    tuner: Vec<u8>,
    driver: Vec<u8>,
    table: Vec<u8>,
    sent: Vec<Sent>,
    wanted: Vec<Wanted>,
    /// The commands' bytes, and those of one that is not whole.
    bytes: Vec<u8>,
}

/// The direct call of a command, by the harness's number.
fn direct(command: Command) -> Case {
    let (call, a, d) = match command {
        Command::Frequency(hz) => (3, hz, 0),
        Command::Rate(rate) => (19, rate.into(), 0),
        Command::Gain(bits) => (4, bits.into(), 0),
        Command::GainIndex(index) => (5, index.into(), 0),
        Command::Bandwidth(hz) => (6, hz.into(), 0),
        Command::Correction(ppm) => (41, 0, ppm.cast_unsigned()),
        Command::Reload => (9, 0, 0),
    };
    Case { call, a, d, ..Case::default() }
}

/// The command's call by itself: "it stands first" of 14, then 1 for either record, then what the archive's own call answers and leaves.
fn called(sent: &Sent, tuner: &[u8], driver: &[u8], table: &[u8]) -> Wanted {
    let room = Lent::new(sent.room, sent.fill).lent().to_vec();
    let refused = |refusal| {
        let reply = FeedReply { refusal, completed: 1, ..FeedReply::default() };
        Wanted { reply, room, tuner: tuner.to_vec(), driver: driver.to_vec() }
    };
    let Some(command) = document::decoded(&sent.bytes) else { return refused(14) };
    if Tuner::read(tuner).is_none() || Driver::read(driver).is_none() {
        return refused(1);
    }
    let (outcomes, replies) = (sent.outcomes.clone(), sent.replies.clone());
    let lent = Case {
        tuner: tuner.to_vec(),
        driver: driver.to_vec(),
        input: table.to_vec(),
        outcomes,
        replies,
        room: sent.room,
        ..direct(command)
    };
    let given = Given { fill: sent.fill, ..Given::exact(lent) };
    let found = port::call(&given);
    let (reply, (tries, locked)) = (found.reply, found.seen);
    Wanted {
        reply: FeedReply {
            value: reply.value,
            index: reply.index,
            used: 0,
            refusal: reply.refusal,
            count: reply.count,
            tries,
            locked,
            completed: 1,
            pending: 0,
        },
        room: found.room.lent().to_vec(),
        tuner: found.tuner_after(&given).unwrap_or(tuner).to_vec(),
        driver: found.driver_after(&given).unwrap_or(driver).to_vec(),
    }
}

fn command(operation: u8, argument: u64) -> [u8; WHOLE] {
    let mut bytes = [operation; WHOLE];
    bytes[1..].copy_from_slice(&argument.to_le_bytes());
    bytes
}

/// How many bytes of the eight are the argument's, by operation.
const WIDTHS: [usize; 8] = [0, 8, 4, 4, 1, 4, 4, 0];

/// A command with arguments and memory as its call is drawn with at the boundary; now and then one that is none.
fn drawn(receiver: &Receiver, dice: &mut Dice) -> Sent {
    const CALLS: [u8; 8] = [0, 3, 19, 4, 5, 6, 41, 9];
    let operation = dice.within(1, 7) as u8;
    let given = draw::draw(CALLS[operation as usize], receiver, dice);
    let case = given.case;
    let argument = match operation {
        1 => case.a,
        4 if dice.yes() => dice.below(32),
        4 => case.a & 0xff,
        6 if dice.yes() => (dice.below(400) as u32).wrapping_sub(200).into(),
        6 => case.d.into(),
        7 => 0,
        3 if dice.below(8) == 0 => dice.within(0x7f80_0000, 0x7fff_ffff) | dice.below(2) << 31,
        _ => case.a & 0xffff_ffff,
    };
    let mut bytes = command(operation, argument);
    match dice.below(24) {
        0 => bytes[0] = 0,
        1 => bytes[0] = if dice.yes() { 8 } else { dice.within(9, 255) as u8 },
        2 => bytes[dice.within(1, 8) as usize] = dice.byte(),
        // The lowest byte above the argument, or a sign all over those above it.
        3 if operation > 1 => bytes[1 + WIDTHS[operation as usize]] = dice.pick(&[1, 1, 0x80, 0xff]),
        4 => bytes[1 + WIDTHS[operation as usize]..].fill(0xff),
        _ => {}
    }
    Sent { bytes, outcomes: case.outcomes, replies: case.replies, room: case.room, fill: given.fill }
}

fn damaged(mut record: Vec<u8>, dice: &mut Dice) -> Vec<u8> {
    match dice.below(3) {
        0 => record.truncate(dice.below(record.len() as u64) as usize),
        1 => record.push(dice.byte()),
        _ => record[0] = dice.within(2, 255) as u8,
    }
    record
}

/// A built-in table, any, or a malformed one.
fn table(dice: &mut Dice) -> Vec<u8> {
    let mut own = built_in(dice.below(2));
    match dice.below(8) {
        0 => own.truncate(own.len() - dice.within(1, 26) as usize),
        1 => own[24] = dice.within(2, 255) as u8,
        2..5 => {}
        _ => own = cases::random(42, dice).input,
    }
    own
}

fn stream(dice: &mut Dice, met: &mut Met) -> Stream {
    let mut receiver = Receiver::fresh(dice);
    // What arguments are drawn for: these records, unless they are none.
    let mut whole = receiver.clone();
    match dice.below(16) {
        0 => receiver.tuner = damaged(receiver.tuner, dice),
        1 => receiver.driver = damaged(receiver.driver, dice),
        _ => {}
    }
    let (tuner, driver, table) = (receiver.tuner.clone(), receiver.driver.clone(), table(dice));
    let (mut sent, mut wanted): (Vec<Sent>, Vec<Wanted>) = (vec![], vec![]);
    for _ in 0..dice.below(14) {
        let next = drawn(&whole, dice);
        let answer = called(&next, &receiver.tuner, &receiver.driver, &table);
        met_command(&next, &answer, wanted.last(), &receiver, &table, met);
        if answer.reply.refusal == 0 || answer.reply.count > 0 {
            (receiver.tuner, receiver.driver) = (answer.tuner.clone(), answer.driver.clone());
            whole = receiver.clone();
        }
        sent.push(next);
        wanted.push(answer);
    }
    let rest = dice.below(WHOLE as u64) as usize;
    let mut bytes: Vec<u8> = sent.iter().flat_map(|command| command.bytes).collect();
    bytes.extend(if dice.yes() { dice.bytes(rest) } else { drawn(&whole, dice).bytes[..rest].to_vec() });
    met.note(format!("pending at the end: {rest}"));
    Stream { tuner, driver, table, sent, wanted, bytes }
}

/// What makes it no command.
fn cause(bytes: &[u8; WHOLE]) -> String {
    let operation = bytes[0];
    let Some(&width) = WIDTHS.get(operation as usize).filter(|_| operation > 0) else {
        return if operation > 8 { "14: operation above 8".into() } else { format!("14: operation {operation}") };
    };
    let above = &bytes[1 + width..];
    let how = match above {
        [_, rest @ ..] if rest.iter().all(|&byte| byte == 0) => "the lowest byte above",
        _ if above.iter().all(|&byte| byte == 0xff) => "a sign above",
        _ => "a byte above",
    };
    format!("14: {how}, operation {operation}")
}

fn met_command(sent: &Sent, wanted: &Wanted, before: Option<&Wanted>, receiver: &Receiver, table: &[u8], met: &mut Met) {
    let (operation, refusal, count) = (sent.bytes[0], wanted.reply.refusal, wanted.reply.count);
    let command = document::decoded(&sent.bytes);
    match command {
        None => met.note(cause(&sent.bytes)),
        Some(_) if refusal == 1 => met.note(if Tuner::read(&receiver.tuner).is_none() { "1: the tuner" } else { "1: the driver" }),
        Some(_) => {
            let end = ["done", "cut", "refused"][if refusal == 0 {
                0
            } else if refusal == 11 {
                1
            } else {
                2
            }];
            met.note(format!("operation {operation}: {end}"));
        }
    }
    met.note(if refusal == 2 && count > 0 { "2 in the PLL".into() } else { format!("refusal {refusal}") });
    let plan = || Driver::read(&receiver.driver).is_some_and(|driver| tables::plan(table, driver.frequency).is_ok());
    let facts = [
        (matches!(command, Some(Command::Gain(bits)) if f32::from_bits(bits).is_nan()), "a gain of NaN"),
        (matches!(command, Some(Command::GainIndex(29..))), "an index above 28"),
        (matches!(command, Some(Command::Correction(..0))) && refusal == 0, "a correction below 0"),
        (matches!(command, Some(Command::Rate(_))) && refusal == 0 && !plan(), "a rate without a plan"),
        (refusal == 0 && !matches!(command, Some(Command::Rate(_))) && !tables::well_formed(table), "a done one beside a malformed table"),
        (refusal == 0 && before.is_some_and(|before| before.reply.refusal != 0), "a done one behind a refused one"),
    ];
    facts.into_iter().filter(|fact| fact.0).for_each(|fact| met.note(fact.1));
}

/// All memory of one feeding.
struct Memory {
    stream: Lent,
    driver: Lent,
    tuner: Lent,
    table: Lent,
    chunk: Lent,
    outcomes: Lent,
    replies: Lent,
    room: Lent,
}

impl Memory {
    fn new(held: &[u8], [driver, tuner, table, chunk]: [&[u8]; 4], sent: &Sent, dice: &mut Dice) -> Self {
        let mut lent = |bytes: &[u8]| Lent::holding(bytes, dice.byte());
        Self {
            stream: lent(held),
            driver: lent(driver),
            tuner: lent(tuner),
            table: lent(table),
            chunk: lent(chunk),
            outcomes: lent(&sent.outcomes),
            replies: lent(&sent.replies),
            room: Lent::new(sent.room, sent.fill),
        }
    }
    fn feed(&mut self) -> FeedReply {
        let ((s, sn), (d, dn), (t, tn), (b, bn)) = (self.stream.slice(), self.driver.slice(), self.tuner.slice(), self.table.slice());
        let ((c, cn), (o, on), (r, rn), (m, mn)) = (self.chunk.slice(), self.outcomes.slice(), self.replies.slice(), self.room.slice());
        // Safe: every pointer comes with the length of memory that is alive and not shared for the call.
        unsafe { pasetone_feed(s, sn, d, dn, t, tn, b, bn, c, cn, o, on, r, rn, m, mn) }
    }
    /// What else must be as it was, and the memory beside it.
    fn stays(&self, stream: &Stream, chunk: &[u8], sent: &Sent) -> bool {
        let pairs =
            [(&self.table, &stream.table[..]), (&self.chunk, chunk), (&self.outcomes, &sent.outcomes), (&self.replies, &sent.replies)];
        pairs.into_iter().all(|(lent, given)| lent.differs(given).is_none())
    }
}

/// Changes that the self-test makes behind a feeding.
const SPOILS: usize = 19;

fn spoil(how: usize, reply: &mut FeedReply, memory: &mut Memory) {
    let lents = [
        &mut memory.stream,
        &mut memory.driver,
        &mut memory.tuner,
        &mut memory.table,
        &mut memory.chunk,
        &mut memory.outcomes,
        &mut memory.room,
    ];
    match how {
        1 => reply.value ^= 1 << 40,
        2 => reply.index ^= 1,
        3 => reply.used ^= 1,
        4 => reply.refusal ^= 1,
        5 => reply.count ^= 1,
        6 => reply.tries ^= 1,
        7 => reply.locked ^= 1,
        8 => reply.completed ^= 1,
        9 => reply.pending ^= 1,
        10 => memory.stream.lent_mut()[8] ^= 1,
        11 => memory.replies.margin_mut()[0] ^= 1,
        12..SPOILS => lents.into_iter().nth(how - 12).unwrap().margin_mut()[0] ^= 1,
        _ => {}
    }
}

/// What one feeding of a whole stream has seen: each command's answer and room, and the end.
type Seen = (Vec<(FeedReply, Vec<u8>)>, [Vec<u8>; 3]);

struct Feeding<'a> {
    stream: &'a Stream,
    held: Vec<u8>,
    tuner: Vec<u8>,
    driver: Vec<u8>,
    seen: Vec<(FeedReply, Vec<u8>)>,
    calls: u64,
}

impl Feeding<'_> {
    /// One call of the archive, and what it must answer and leave; how many bytes are used.
    fn one(&mut self, chunk: &[u8], how: usize, dice: &mut Dice, tally: &mut Tally) -> usize {
        let all = self.stream;
        let none = Sent { room: dice.below(60) as usize, fill: dice.byte(), ..Sent::default() };
        let number = self.seen.len();
        let sent = all.sent.get(number).unwrap_or(&none);
        let mut memory = Memory::new(&self.held, [&self.driver, &self.tuner, &all.table, chunk], sent, dice);
        let mut reply = memory.feed();
        spoil(how, &mut reply, &mut memory);
        let mut held = self.held.clone();
        let (used, command) = document::feed(&mut held, chunk, |command| *command).expect("stream bytes");
        let wanted = command.map(|_| &all.wanted[number]);
        let what = || format!("command {number}, {command:02x?}, by {chunk:02x?} behind {:02x?}", self.held);
        let pending = held[0].into();
        let told = FeedReply { used: used as u64, pending, ..wanted.map_or(FeedReply::default(), |wanted| wanted.reply) };
        tally.same(reply, told, what);
        let (tuner, driver, room) =
            wanted.map_or((&self.tuner, &self.driver, &[][..]), |wanted| (&wanted.tuner, &wanted.driver, &wanted.room[..]));
        tally.that(memory.stream.differs(&held).is_none(), || format!("the stream bytes: {}", what()));
        tally.that(memory.tuner.differs(tuner).is_none(), || format!("the tuner's record: {}", what()));
        tally.that(memory.driver.differs(driver).is_none(), || format!("the driver's record: {}", what()));
        tally.that(memory.room.differs(room).is_none(), || format!("the room: {}", what()));
        tally.that(memory.stays(all, chunk, sent), || format!("what was given has changed: {}", what()));
        tally.same(waiting(memory.stream.lent()), (0, pending.into()), || format!("pending: {}", what()));
        if command.is_some() {
            self.seen.push((FeedReply { used: 0, ..reply }, memory.room.lent().to_vec()));
        }
        (self.held, self.tuner, self.driver) = (held, memory.tuner.lent().to_vec(), memory.driver.lent().to_vec());
        self.calls += 1;
        used
    }
}

/// `pasetone_stream_pending`: its refusal and value.
fn waiting(bytes: &[u8]) -> (u32, u64) {
    // Safe: the pointer comes with the length of memory that is alive for the call.
    let reply = unsafe { pasetone_stream_pending(bytes.as_ptr(), bytes.len()) };
    assert_eq!((reply.index, reply.count), (0, 0), "an index or a count of what is pending");
    (reply.refusal, reply.value)
}

/// The stream in chunks of these lengths, as a host's loop feeds it.
fn fed(stream: &Stream, cuts: &[usize], how: usize, dice: &mut Dice, tally: &mut Tally) -> (Seen, u64) {
    let (tuner, driver) = (stream.tuner.clone(), stream.driver.clone());
    let mut feeding = Feeding { stream, held: vec![0; WHOLE], tuner, driver, seen: vec![], calls: 0 };
    let mut rest = &stream.bytes[..];
    for &length in cuts {
        let (mut chunk, later) = rest.split_at(length);
        loop {
            let used = feeding.one(chunk, how, dice, tally);
            chunk = &chunk[used..];
            if chunk.is_empty() {
                break;
            }
        }
        rest = later;
    }
    ((feeding.seen, [feeding.held, feeding.tuner, feeding.driver]), feeding.calls)
}

/// Lengths that add up to this one: none, few or many bytes at a time.
fn cut(length: usize, dice: &mut Dice, met: &mut Met) -> Vec<usize> {
    let (mut all, mut rest) = (vec![], length);
    let most = dice.pick(&[1, 2, 9, 12, 30]);
    while rest > 0 {
        let next = (dice.below(most + 1) as usize).min(rest);
        let several = next > 2 * WHOLE;
        all.push(next);
        rest -= next;
        if next == 0 || several {
            met.note(if several { "several commands in a chunk" } else { "an empty chunk" });
        }
    }
    all
}

fn turn(how: usize, dice: &mut Dice, tally: &mut Tally, met: &mut Met) -> u64 {
    let stream = stream(dice, met);
    let (whole, mut calls) = fed(&stream, &[stream.bytes.len()], how, dice, tally);
    tally.same(whole.0.len(), stream.sent.len(), || "commands answered".into());
    let ones = vec![1; stream.bytes.len()];
    for cuts in [cut(stream.bytes.len(), dice, met), cut(stream.bytes.len(), dice, met), ones] {
        let (seen, more) = fed(&stream, &cuts, how, dice, tally);
        tally.that(seen == whole, || format!("fed in {cuts:?} it is not as fed whole: {:02x?}", stream.bytes));
        calls += more;
    }
    if !stream.sent.is_empty() {
        met.note("a command in nine chunks");
    }
    calls
}

/// Stream bytes that are none, and why.
fn damaged_stream(dice: &mut Dice) -> (Vec<u8>, &'static str) {
    let mut held = vec![0; WHOLE];
    let count = dice.below(9) as usize;
    held[0] = count as u8;
    held[1..1 + count].copy_from_slice(&dice.bytes(count));
    let wrong = match dice.below(3) {
        0 => {
            held.resize(dice.pick(&[0, 1, 8, 10, 20]), 0);
            "1: stream bytes, their length"
        }
        1 => {
            held[0] = if dice.yes() { 9 } else { dice.within(10, 255) as u8 };
            "1: stream bytes, their count"
        }
        _ => {
            held[0] = count.min(7) as u8;
            held[8] = dice.within(1, 255) as u8;
            "1: stream bytes, a byte behind the pending ones"
        }
    };
    (held, wrong)
}

/// "Stream bytes that are none: 1, nothing used", and everything as it was.
fn no_stream(dice: &mut Dice, tally: &mut Tally, met: &mut Met) {
    let (any, (held, wrong)) = (stream(dice, &mut Met::default()), damaged_stream(dice));
    met.note(wrong);
    tally.that(document::pending(&held).is_none(), || format!("the second writing takes {held:02x?}"));
    let sent = drawn(&Receiver::fresh(dice), dice);
    let mut memory = Memory::new(&held, [&any.driver, &any.tuner, &any.table, &any.bytes], &sent, dice);
    let reply = memory.feed();
    tally.same(reply, FeedReply { refusal: 1, ..FeedReply::default() }, || format!("no stream: {held:02x?}"));
    let records = [(&memory.stream, &held), (&memory.driver, &any.driver), (&memory.tuner, &any.tuner)];
    let same = records.into_iter().all(|(lent, given)| lent.differs(given).is_none());
    tally.that(same && memory.room.differs(&[]).is_none() && memory.stays(&any, &any.bytes, &sent), || {
        format!("{held:02x?}: bytes have changed")
    });
    tally.same(waiting(&held), (1, 0), || format!("pending of no stream: {held:02x?}"));
}

fn self_test() -> ! {
    let (mut found, mut dice) = (Tally::default(), Dice(0x7374_7265));
    for how in 1..SPOILS {
        let (mut tally, mut calls) = (Tally { silent: true, ..Tally::default() }, 0);
        while calls < 200 {
            calls += turn(how, &mut dice, &mut tally, &mut Met::default());
        }
        found.that(tally.faults >= calls, || format!("change {how}: {} faults in {calls} feedings", tally.faults));
    }
    found.end("spoiled", format!("; {} ways", SPOILS - 1))
}

/// The correction of both records as one would write it in Rust over their bytes: 1, 4 or 0.
fn corrected(driver: &mut [u8], tuner: &mut [u8], ppm: i32) -> u32 {
    let (Some(one), Some(other)) = (Tuner::read(tuner), Driver::read(driver)) else { return 1 };
    let (Some(reference), Some(_)) = (page::corrected(one.nominal, ppm), page::corrected(other.nominal, ppm)) else { return 4 };
    tuner[33..37].copy_from_slice(&reference.to_le_bytes());
    driver[5..9].copy_from_slice(&ppm.to_le_bytes());
    0
}

/// One command in one chunk, over and over on the records that it leaves. Beside the port: the plain writing of the feeding (harness::commands) over the original's
/// own call on its living chip, or over the plain correction.
fn run(who: &str, name: &str, times: u64) {
    let (mut held, mut tuner) = ([0; WHOLE], Tuner::fresh(1, 28_800_000, 0x74).bytes());
    let mut driver = Driver { board: 1, nominal: 28_800_000, ppm: 0, frequency: 7_000_000, rate: 0, actual: 0 }.bytes();
    let (chunk, count) = match name {
        "feed-frequency" => (command(1, 100_000_000), 53),
        "feed-gain" => (command(3, 32.8f32.to_bits().into()), 7),
        "feed-correction" => (command(6, 50), 0),
        _ => panic!("the name of a feeding"),
    };
    let (table, outcomes, replies, mut room) = (built_in(1), [0; 53], cases::replies_for(0, None, 0), [0; 856]);
    let chip = run::chip(&Tuner::fresh(1, 28_800_000, 0x74));
    for _ in 0..times {
        if who == "port" {
            let ((s, d, t), (b, c, o, r)) = ((&mut held, &mut driver, &mut tuner), (&table, black_box(&chunk), &outcomes, &replies));
            let ((sn, dn, tn), (bn, cn, on, rn)) = ((s.len(), d.len(), t.len()), (b.len(), c.len(), o.len(), r.len()));
            let ((s, d, t), (m, mn)) = ((s.as_mut_ptr(), d.as_mut_ptr(), t.as_mut_ptr()), (room.as_mut_ptr(), room.len()));
            // Safe: every pointer comes with the length of memory that is alive and not shared for the call.
            let reply =
                unsafe { pasetone_feed(s, sn, d, dn, t, tn, b.as_ptr(), bn, c.as_ptr(), cn, o.as_ptr(), on, r.as_ptr(), rn, m, mn) };
            assert_eq!((reply.refusal, reply.count, reply.used), (0, count, 9));
            continue;
        }
        let made = document::feed(&mut held, black_box(&chunk), |bytes| match document::decoded(bytes) {
            Some(Command::Frequency(hz)) => {
                rec::begin(&[], &replies);
                black_box(chip.set_frequency(hz)).is_ok()
            }
            Some(Command::Gain(bits)) => {
                rec::begin(&[], &[]);
                black_box(chip.set_gain(f32::from_bits(bits))).is_ok()
            }
            Some(Command::Correction(ppm)) => corrected(&mut driver, &mut tuner, ppm) == 0,
            _ => false,
        });
        assert_eq!(made, Some((9, Some(true))));
    }
}

fn main() {
    let words: Vec<String> = std::env::args().skip(1).collect();
    if let [first, who, name, times] = &words[..]
        && first == "run"
    {
        return run(who, name, times.parse().expect("a count of feedings"));
    }
    if words.first().is_some_and(|word| word == "self-test") {
        self_test()
    }
    let (streams, seed) = numbers(&words, 5_000, "stream [STREAMS [SEED]] | stream self-test");
    let (mut tally, mut met, mut dice) = (Tally::default(), Met::default(), Dice(seed));
    let mut calls = 0;
    for _ in 0..streams {
        calls += turn(0, &mut dice, &mut tally, &mut met);
        no_stream(&mut dice, &mut tally, &mut met);
    }
    for (what, count) in &met.0 {
        println!("    {what}: {count}");
    }
    for what in must() {
        tally.that(met.0.contains_key(&what), || format!("never reached: {what}"));
    }
    tally.end("stream", format!("; {streams} streams, {calls} feedings, seed {seed}"))
}
