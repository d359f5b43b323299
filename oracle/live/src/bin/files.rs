//! The port's calls on sections and settings on file beside a second writing of document 02 (harness::files), on fresh random input: whole,
//! damaged, cut and joined. Of each call are compared what it answers, every byte that it was lent, what it was given, and the memory beside both.
//!
//!   files [CASES [SEED]]      exits 1 on a fault, and where a case that must be met was not
//!   files self-test           answers and lent bytes are changed on purpose; each change must be found
//!   files run rust|port NAME N    makes N calls of one kind, for oracle/speed to count their instructions
use harness::dice::Dice;
use harness::files::{self as document, Parted, Stored};
use harness::page;
use harness::tally::Tally;
use live::ffi::*;
use live::given::Lent;
use live::numbers;
use std::collections::BTreeMap;
use std::hint::black_box;

/// How often each thing that must be met was met.
type Met = BTreeMap<&'static str, u64>;

const MUST: [&str; 30] = [
    "parting: refused, first",
    "parting: refused, second",
    "parting: equal",
    "parting: the first goes on",
    "parting: the second goes on",
    "parting: an entry differs",
    "parting: outcomes differ before it",
    "parting: read data differ before it",
    "parting: 4,096 entries",
    "settings 1: read",
    "settings 1: read, refused 16",
    "settings 1: read, refused 17 by the trailer",
    "settings 1: read, refused 17 by a field",
    "settings 1: written",
    "settings 1: written, refused 17",
    "settings 1: written, refused 8",
    "settings 2: read",
    "settings 2: read, edition 1",
    "settings 2: read, refused 16",
    "settings 2: read, refused 17",
    "settings 2: written",
    "settings 2: written, refused 17",
    "settings 2: written, refused 8",
    "move 1 to 2: done",
    "move 1 to 2: refused 16",
    "move 1 to 2: refused 17",
    "move 1 to 2: refused 8",
    "move 2 to 1: done",
    "move 2 to 1: refused 18",
    "move 2 to 1: refused 8",
];

fn entry(dice: &mut Dice) -> [u8; 16] {
    const N: [(u64, u64); 10] = [(0, 0), (1, 1), (1, 8), (1, 5), (1, 1), (2, 2), (1, 1), (2, 2), (1, 1), (0, 0)];
    loop {
        let (mut entry, kind) = ([0; 16], dice.within(1, 9) as u8);
        let (least, most) = N[kind as usize];
        (entry[0], entry[1], entry[3]) = (kind, dice.below(2) as u8, dice.within(least, most) as u8);
        // Few values, so that two entries are often nearly the same.
        (entry[2], entry[4], entry[8]) = (dice.below(3) as u8, dice.below(3) as u8, dice.below(3) as u8);
        (entry[9], entry[15]) = (dice.below(2) as u8, dice.below(2) as u8);
        if dice.below(4) == 0 {
            entry[5] = dice.byte();
        }
        if page::fits(&entry) {
            return entry;
        }
    }
}

/// The same steps with other outcomes and other read data.
fn replayed(entries: &[[u8; 16]], dice: &mut Dice) -> Vec<[u8; 16]> {
    let mut all = entries.to_vec();
    for entry in &mut all {
        let mut other = *entry;
        let n = other[3] as usize;
        match dice.below(4) {
            0 => other[1] ^= 1,
            1 if matches!(other[0], 3 | 8) => other[8..8 + n].copy_from_slice(&dice.bytes(n)),
            _ => {}
        }
        if other[1] == 1 && matches!(other[0], 3 | 8) {
            other[8..].fill(0);
        }
        if page::fits(&other) {
            *entry = other;
        }
    }
    all
}

/// One entry of the second made another: a byte changed to one that fits too, where there is one.
fn changed(entries: &mut [[u8; 16]], dice: &mut Dice) {
    if entries.is_empty() {
        return;
    }
    let at = dice.below(entries.len() as u64) as usize;
    for _ in 0..64 {
        let mut other = entries[at];
        let place = dice.below(16) as usize;
        other[place] = if dice.yes() { other[place] ^ 1 << dice.below(8) } else { dice.byte() };
        if page::fits(&other) {
            entries[at] = other;
            return;
        }
    }
}

fn damaged(mut bytes: Vec<u8>, dice: &mut Dice) -> Vec<u8> {
    let length = bytes.len() as u64;
    match dice.below(24) {
        0 => bytes.truncate(dice.below(length + 1) as usize),
        1 if length > 0 => bytes[dice.below(length) as usize] ^= 1 << dice.below(8),
        2 => bytes.push(dice.byte()),
        3 if length > 0 => drop(bytes.remove(dice.below(length) as usize)),
        4 => {
            let count = dice.below(80) as usize;
            bytes = dice.bytes(count)
        }
        5 if length >= 8 => {
            let at = length as usize - 8 + 4 * dice.below(2) as usize;
            bytes[at..at + 4].copy_from_slice(&(dice.spread() as u32).to_le_bytes());
        }
        _ => {}
    }
    bytes
}

/// Bytes or other sections before the section.
fn preceded(section: Vec<u8>, dice: &mut Dice) -> Vec<u8> {
    let before = match dice.below(3) {
        0 => vec![],
        1 => {
            let count = dice.below(40) as usize;
            dice.bytes(count)
        }
        _ => page::section(&[entry(dice), entry(dice)]),
    };
    [before, section].concat()
}

fn two_nights(dice: &mut Dice) -> (Vec<u8>, Vec<u8>) {
    let count = if dice.below(3000) == 0 { 4090 + dice.below(8) } else { dice.below(9) };
    let mut one: Vec<_> = (0..count).map(|_| entry(dice)).collect();
    let mut other = replayed(&one, dice);
    match dice.below(6) {
        0 => other.truncate(dice.below(count + 1) as usize),
        1 => one.truncate(dice.below(count + 1) as usize),
        2 | 3 => changed(&mut other, dice),
        4 => other = (0..dice.below(9)).map(|_| entry(dice)).collect(),
        _ => {}
    }
    let (one, other) = (preceded(page::section(&one), dice), preceded(page::section(&other), dice));
    (damaged(one, dice), damaged(other, dice))
}

fn met_parting(first: &[u8], second: &[u8], wanted: Option<Parted>, met: &mut Met) {
    let mut note = |what| *met.entry(what).or_insert(0) += 1;
    let Some(part) = wanted else {
        if page::read_section(first).is_none() {
            note("parting: refused, first")
        }
        if page::read_section(second).is_none() {
            note("parting: refused, second")
        }
        return;
    };
    let ((a, m), (b, n)) = (page::read_section(first).unwrap(), page::read_section(second).unwrap());
    note(match (part.whose, part.index == m, part.index == n) {
        (1, ..) => "parting: the first goes on",
        (_, true, true) => "parting: equal",
        (_, true, false) => "parting: the second goes on",
        _ => "parting: an entry differs",
    });
    let alike = |k: usize| (&first[a + 16 * k..][..16], &second[b + 16 * k..][..16]);
    if (0..part.index).map(alike).any(|(one, other)| one[1] != other[1]) {
        note("parting: outcomes differ before it")
    }
    if (0..part.index).map(alike).any(|(one, other)| one[8..] != other[8..]) {
        note("parting: read data differ before it")
    }
    if m == 4096 {
        note("parting: 4,096 entries")
    }
}

/// What the second writing says, in the port's form.
fn told(wanted: Option<Parted>) -> Part {
    wanted.map_or(Part { refusal: 12, ..Part::default() }, |part| Part {
        start: part.start as u64,
        count: part.count as u64,
        index: part.index as u64,
        whose: part.whose,
        refusal: 0,
    })
}

fn parting(dice: &mut Dice, tally: &mut Tally, met: &mut Met, spoil: u64) {
    let (first, second) = two_nights(dice);
    let wanted = document::parting(&first, &second);
    met_parting(&first, &second, wanted, met);
    let (mut one, mut other) = (Lent::holding(&first, dice.byte()), Lent::holding(&second, dice.byte()));
    let ((f, fnn), (s, sn)) = (one.slice(), other.slice());
    // Safe: both pointers come with the length of memory that is alive for the call.
    let mut found = unsafe { pasetone_parting(f, fnn, s, sn) };
    match spoil {
        1 => found.start ^= 1,
        2 => found.count ^= 1,
        3 => found.index ^= 1,
        4 => found.whose ^= 3,
        5 => found.refusal ^= 12,
        6 => one.margin_mut()[0] ^= 1,
        7 => other.margin_mut()[0] ^= 1,
        _ => {}
    }
    tally.that(found == told(wanted), || format!("parting: found {found:?}, must be {wanted:?}: {first:02x?} {second:02x?}"));
    tally.that(one.differs(&first).is_none() && other.differs(&second).is_none(), || {
        format!("parting changed memory: {first:02x?} {second:02x?}")
    });
}

fn stored(dice: &mut Dice) -> Stored {
    let code = |dice: &mut Dice, most: u64| match dice.below(12) {
        0 => dice.spread(),
        1 => most + 1 + dice.below(2),
        2 => (most + 1) << dice.pick(&[8, 32]),
        _ => dice.below(most + 1),
    };
    let (kind, board, gain) = (code(dice, 1), code(dice, 1), code(dice, 28));
    Stored {
        kind,
        board,
        gain,
        correction: dice.spread() as i32 ^ dice.pick(&[0, -1]),
        rate: dice.spread() as u32,
        frequency: dice.spread(),
    }
}

/// An image of any edition: fields as they come, whether they fit or not.
fn image(dice: &mut Dice) -> Vec<u8> {
    let any = stored(dice);
    let fitting = Stored { kind: any.kind % 2, board: any.board % 2, gain: any.gain % 29, ..any };
    let if_hz = if dice.yes() { document::USUAL_IF } else { dice.spread() as u32 };
    let mut image = if dice.yes() { fitting.image_1().unwrap().to_vec() } else { document::image_2(&fitting, if_hz).unwrap().to_vec() };
    if dice.below(5) == 0 {
        (image[0], image[1], image[18]) = (any.kind as u8, any.board as u8, any.gain as u8);
    }
    image
}

/// Bytes that end in an image, or nearly: damaged, cut at either end, joined to others, of another edition.
fn settings_file(dice: &mut Dice) -> Vec<u8> {
    let mut file = image(dice);
    let end = file.len();
    match dice.below(12) {
        0 => file[end - 1 - dice.below(4) as usize] = dice.byte(),
        1 => file[end - 4] = dice.pick(&[0, 2, 3, 255]),
        2 => file.truncate(dice.below(end as u64 + 1) as usize),
        3 => drop(file.drain(..dice.below(end as u64 + 1) as usize)),
        4 => file[dice.below(end as u64) as usize] ^= 1 << dice.below(8),
        _ => {}
    }
    let before = if dice.below(3) == 0 { image(dice) } else { vec![] };
    let more = dice.below(12) as usize * dice.below(2) as usize;
    [dice.bytes(more), before, file].concat()
}

/// As the port tells it.
fn reply_1(wanted: Result<Stored, u32>) -> Settings1 {
    let (s, refusal) = wanted.map_or_else(|number| (Stored::default(), number), |s| (s, 0));
    let Stored { kind, board, correction, rate, frequency, gain } = s;
    Settings1 { frequency, kind, board, gain, rate, correction, refusal, zero: 0 }
}

fn read_settings_1(dice: &mut Dice, tally: &mut Tally, met: &mut Met, spoil: u64) {
    let file = settings_file(dice);
    let wanted = document::read_settings_1(&file);
    let by_trailer = file.len() < 23 || file[file.len() - 3..] != [0, 19, 0];
    *met.entry(match wanted {
        Ok(_) => "settings 1: read",
        Err(16) => "settings 1: read, refused 16",
        Err(_) if by_trailer => "settings 1: read, refused 17 by the trailer",
        Err(_) => "settings 1: read, refused 17 by a field",
    })
    .or_insert(0) += 1;
    let mut given = Lent::holding(&file, dice.byte());
    let (bytes, n) = given.slice();
    // Safe: the pointer comes with the length of memory that is alive for the call.
    let mut found = unsafe { pasetone_read_settings_1(bytes, n) };
    match spoil {
        1 => found.frequency ^= 1,
        2 => found.gain ^= 1,
        3 => found.correction ^= 1,
        4 => found.refusal ^= 1,
        5 => found.zero ^= 1,
        6 => given.margin_mut()[0] ^= 1,
        7 => found.kind ^= 1,
        _ => {}
    }
    tally.that(found == reply_1(wanted), || format!("settings 1: found {found:?}, must be {wanted:?}: {file:02x?}"));
    tally.that(given.differs(&file).is_none(), || format!("reading settings 1 changed memory: {file:02x?}"));
}

fn write_settings_1(dice: &mut Dice, tally: &mut Tally, met: &mut Met, spoil: u64) {
    let (s, room) = (stored(dice), room_for(dice, 23));
    let wanted = s.image_1().map(|image| image.to_vec());
    *met.entry(match wanted {
        Ok(_) if room >= 23 => "settings 1: written",
        Ok(_) => "settings 1: written, refused 8",
        Err(_) => "settings 1: written, refused 17",
    })
    .or_insert(0) += 1;
    let mut lent = Lent::new(room, dice.byte());
    let (out, n) = lent.slice();
    // Safe: the pointer comes with the length of memory that is alive for the call.
    let found = unsafe { pasetone_write_settings_1(s.kind, s.board, s.correction, s.rate, s.frequency, s.gain, out, n) };
    laid(&mut lent, found, &wanted, spoil, tally, &|| format!("settings 1: {s:?}, {room} bytes"));
}

/// As the port tells it.
fn reply_2(wanted: Result<(Stored, u32), u32>) -> Settings2 {
    let ((s, intermediate), refusal) = wanted.map_or_else(|number| ((Stored::default(), 0), number), |s| (s, 0));
    let Stored { kind, board, correction, rate, frequency, gain } = s;
    Settings2 { frequency, kind, board, gain, rate, correction, intermediate, refusal }
}

fn read_settings_2(dice: &mut Dice, tally: &mut Tally, met: &mut Met, spoil: u64) {
    let file = settings_file(dice);
    let wanted = document::read_settings_2(&file);
    *met.entry(match wanted {
        Ok(_) if file[file.len() - 4] == 1 => "settings 2: read, edition 1",
        Ok(_) => "settings 2: read",
        Err(16) => "settings 2: read, refused 16",
        Err(_) => "settings 2: read, refused 17",
    })
    .or_insert(0) += 1;
    let mut given = Lent::holding(&file, dice.byte());
    let (bytes, n) = given.slice();
    // Safe: the pointer comes with the length of memory that is alive for the call.
    let mut found = unsafe { pasetone_read_settings_2(bytes, n) };
    match spoil {
        1 => found.frequency ^= 1,
        2 => found.gain ^= 1,
        3 => found.correction ^= 1,
        4 => found.refusal ^= 1,
        5 => found.intermediate ^= 1,
        6 => given.margin_mut()[0] ^= 1,
        7 => found.board ^= 1,
        _ => {}
    }
    tally.that(found == reply_2(wanted), || format!("settings 2: found {found:?}, must be {wanted:?}: {file:02x?}"));
    tally.that(given.differs(&file).is_none(), || format!("reading settings 2 changed memory: {file:02x?}"));
}

/// A call that lays an image into a lent slice: what it must answer and leave. `image` is None where it is refused before the room is looked at.
fn laid(lent: &mut Lent, found: Reply, wanted: &Result<Vec<u8>, u32>, spoil: u64, tally: &mut Tally, what: &dyn Fn() -> String) {
    let mut found = found;
    let room = lent.lent().len();
    match spoil {
        1 => found.value ^= 1,
        2 => found.refusal ^= 1,
        3 => found.index ^= 1,
        4 => found.count ^= 1,
        5 => lent.margin_mut()[0] ^= 1,
        6 | 7 if room > 0 => lent.lent_mut()[room - 1] ^= 1,
        6 | 7 => found.value ^= 1,
        _ => {}
    }
    let wanted = wanted.as_ref().map_err(|&number| number).and_then(|image| if room < image.len() { Err(8) } else { Ok(image) });
    let reply = Reply { value: wanted.map_or(0, |image| image.len() as u64), refusal: wanted.err().unwrap_or(0), ..Reply::default() };
    tally.that(found == reply, || format!("found {found:?}, must be {reply:?}: {}", what()));
    let bytes = wanted.map_or(&[][..], |image| image);
    tally.that(lent.differs(bytes).is_none(), || format!("holds {:02x?}: {}", lent.lent(), what()));
}

fn room_for(dice: &mut Dice, need: u64) -> usize {
    (if dice.below(3) == 0 { dice.below(need) } else { need + dice.below(20) }) as usize
}

fn write_settings_2(dice: &mut Dice, tally: &mut Tally, met: &mut Met, spoil: u64) {
    let (s, if_hz, room) = (stored(dice), dice.spread() as u32, room_for(dice, 27));
    let wanted = document::image_2(&s, if_hz).map(|image| image.to_vec());
    *met.entry(match wanted {
        Ok(_) if room >= 27 => "settings 2: written",
        Ok(_) => "settings 2: written, refused 8",
        Err(_) => "settings 2: written, refused 17",
    })
    .or_insert(0) += 1;
    let mut lent = Lent::new(room, dice.byte());
    let (out, n) = lent.slice();
    // Safe: the pointer comes with the length of memory that is alive for the call.
    let found = unsafe { pasetone_write_settings_2(s.kind, s.board, s.correction, s.rate, s.frequency, s.gain, if_hz, out, n) };
    laid(&mut lent, found, &wanted, spoil, tally, &|| format!("settings 2: {s:?}, IF {if_hz}, {room} bytes"));
}

fn moved(dice: &mut Dice, tally: &mut Tally, met: &mut Met, spoil: u64, to: u8) {
    let file = settings_file(dice);
    let (wanted, need) = match to {
        2 => (document::move_1_to_2(&file).map(|image| image.to_vec()), 27),
        _ => (document::move_2_to_1(&file).map(|image| image.to_vec()), 23),
    };
    let room = room_for(dice, need);
    let what = match (to, &wanted) {
        (2, Ok(_)) if room < 27 => "move 1 to 2: refused 8",
        (2, Ok(_)) => "move 1 to 2: done",
        (2, Err(16)) => "move 1 to 2: refused 16",
        (2, Err(_)) => "move 1 to 2: refused 17",
        (_, Ok(_)) if room < 23 => "move 2 to 1: refused 8",
        (_, Ok(_)) => "move 2 to 1: done",
        (_, Err(18)) => "move 2 to 1: refused 18",
        (_, Err(_)) => "move 2 to 1: refused 16 or 17",
    };
    *met.entry(what).or_insert(0) += 1;
    let (mut given, mut lent) = (Lent::holding(&file, dice.byte()), Lent::new(room, dice.byte()));
    let ((bytes, b), (out, n)) = (given.slice(), lent.slice());
    // Safe: both pointers come with the length of memory that is alive for the call, and they are not of the same memory.
    let found =
        unsafe { if to == 2 { pasetone_move_settings_1_to_2(bytes, b, out, n) } else { pasetone_move_settings_2_to_1(bytes, b, out, n) } };
    laid(&mut lent, found, &wanted, spoil, tally, &|| format!("moving to edition {to}: {file:02x?}, {room} bytes"));
    tally.that(given.differs(&file).is_none(), || format!("moving settings changed memory: {file:02x?}"));
}

fn move_1_to_2(dice: &mut Dice, tally: &mut Tally, met: &mut Met, spoil: u64) {
    moved(dice, tally, met, spoil, 2);
}

fn move_2_to_1(dice: &mut Dice, tally: &mut Tally, met: &mut Met, spoil: u64) {
    moved(dice, tally, met, spoil, 1);
}

type Call = fn(&mut Dice, &mut Tally, &mut Met, u64);

/// What is tried in each case, all of it.
const CALLS: [(&str, Call); 7] = [
    ("parting", parting),
    ("reading settings 1", read_settings_1),
    ("writing settings 1", write_settings_1),
    ("reading settings 2", read_settings_2),
    ("writing settings 2", write_settings_2),
    ("moving settings 1 to 2", move_1_to_2),
    ("moving settings 2 to 1", move_2_to_1),
];

const SPOILS: u64 = 7;

fn self_test() -> ! {
    let (mut tally, mut dice) = (Tally::default(), Dice(0x6669_6c65));
    for (name, call) in CALLS {
        for turn in 0..200 * SPOILS {
            let mut inner = Tally { silent: true, ..Tally::default() };
            call(&mut dice, &mut inner, &mut Met::new(), turn % SPOILS + 1);
            tally.that(inner.faults == 1, || format!("change {} of {name} was not found", turn % SPOILS + 1));
        }
    }
    tally.end("spoiled", format!("; {SPOILS} ways"))
}

/// Two equal sections of 4,096 entries as a night of tunings makes them: repeater, writes, a read, a wait.
fn equal_nights() -> (Vec<u8>, Vec<u8>) {
    let step = |kind, target, n, address, data: [u8; 3]| [kind, 0, target, n, address, 0, 0, 0, data[0], data[1], data[2], 0, 0, 0, 0, 0];
    let kinds = [
        step(1, 0, 1, 0, [1, 0, 0]),
        step(2, 0x74, 2, 0, [0x14, 0xca, 0]),
        step(2, 0x74, 1, 0, [0, 0, 0]),
        step(3, 0x74, 3, 0, [0x69, 0x12, 0x02]),
        step(9, 0, 0, 2, [0, 0, 0]),
        step(4, 1, 1, 0x19, [0x38, 0, 0]),
        step(8, 2, 1, 1, [0x5a, 0, 0]),
        step(1, 0, 1, 0, [0, 0, 0]),
    ];
    let night: Vec<_> = kinds.into_iter().cycle().take(4096).collect();
    (page::section(&night), page::section(&night))
}

fn run(who: &str, name: &str, times: u64) {
    let (first, second) = equal_nights();
    let (one, two) = (&first[..], &second[..]);
    let s = Stored { kind: 1, board: 1, correction: -3, rate: 2_048_000, frequency: 100_000_000, gain: 28 };
    let (file, mut room) = (s.image_1().unwrap(), [0; 64]);
    let wide = document::image_2(&s, document::USUAL_IF).unwrap();
    let mut work: Box<dyn FnMut()> = match (who, name) {
        ("rust", "parting") => Box::new(|| {
            black_box(document::parting(black_box(one), black_box(two)));
        }),
        ("port", "parting") => Box::new(|| {
            // Safe: both slices are alive.
            black_box(unsafe { pasetone_parting(black_box(one).as_ptr(), one.len(), black_box(two).as_ptr(), two.len()) });
        }),
        ("rust", "read-settings-1") => Box::new(|| {
            black_box(document::read_settings_1(black_box(&file)).is_ok());
        }),
        ("port", "read-settings-1") => Box::new(|| {
            // Safe: the file is alive.
            black_box(unsafe { pasetone_read_settings_1(black_box(&file).as_ptr(), file.len()) });
        }),
        ("rust", "write-settings-1") => Box::new(|| {
            let image = black_box(s).image_1().unwrap();
            black_box(&mut room)[..23].copy_from_slice(&image);
        }),
        ("port", "write-settings-1") => Box::new(|| {
            let s = black_box(s);
            // Safe: the room is alive.
            black_box(unsafe {
                pasetone_write_settings_1(s.kind, s.board, s.correction, s.rate, s.frequency, s.gain, room.as_mut_ptr(), room.len())
            });
        }),
        ("rust", "read-settings-2") => Box::new(|| {
            black_box(document::read_settings_2(black_box(&wide)).is_ok());
        }),
        ("port", "read-settings-2") => Box::new(|| {
            // Safe: the file is alive.
            black_box(unsafe { pasetone_read_settings_2(black_box(&wide).as_ptr(), wide.len()) });
        }),
        ("rust", "move-settings-1-to-2") => Box::new(|| {
            let image = document::move_1_to_2(black_box(&file)).unwrap();
            black_box(&mut room)[..27].copy_from_slice(&image);
        }),
        ("port", "move-settings-1-to-2") => Box::new(|| {
            // Safe: file and room are alive, and not of the same memory.
            black_box(unsafe { pasetone_move_settings_1_to_2(black_box(&file).as_ptr(), file.len(), room.as_mut_ptr(), room.len()) });
        }),
        ("rust", "move-settings-2-to-1") => Box::new(|| {
            let image = document::move_2_to_1(black_box(&wide)).unwrap();
            black_box(&mut room)[..23].copy_from_slice(&image);
        }),
        ("port", "move-settings-2-to-1") => Box::new(|| {
            // Safe: file and room are alive, and not of the same memory.
            black_box(unsafe { pasetone_move_settings_2_to_1(black_box(&wide).as_ptr(), wide.len(), room.as_mut_ptr(), room.len()) });
        }),
        _ => panic!("rust or port, and the name of a call"),
    };
    for _ in 0..times {
        work();
    }
}

fn main() {
    let words: Vec<String> = std::env::args().skip(1).collect();
    if let [first, who, name, times] = &words[..]
        && first == "run"
    {
        return run(who, name, times.parse().expect("a count of calls"));
    }
    if words.first().is_some_and(|word| word == "self-test") {
        self_test()
    }
    let (cases, seed) = numbers(&words, 1_000_000, "files [CASES [SEED]] | files self-test");
    let (mut tally, mut met, mut dice) = (Tally::default(), Met::new(), Dice(seed));
    for _ in 0..cases {
        for (_, call) in CALLS {
            call(&mut dice, &mut tally, &mut met, 0);
        }
    }
    for (what, count) in &met {
        println!("    {what}: {count}");
    }
    for what in MUST {
        tally.that(met.contains_key(what), || format!("never reached: {what}"));
    }
    tally.end("files", format!("; {cases} cases, seed {seed}"))
}
