//! Document 02, #107, at the archive: `packets [TURNS [SEED]]`. Every call of the base runs in the original, all done and with each step failing, and the port's packets
//! of its section must be the control transfers that src/device.rs made, byte for byte. Then random sections of all kinds, their packets, and damaged packets, by the
//! second writing in the harness. `packets self-test` spoils what comes back: each must be found.
use harness::cases::{self, plain};
use harness::dice::Dice;
use harness::packets::{expand, packet, read, told_again};
use harness::tally::Tally;
use harness::{page, plain, requests};
use live::ffi::{Reply, pasetone_expand, pasetone_read_packets};
use live::numbers;
use rusb::rec::{self, Entry};

type Call = unsafe extern "C" fn(*const u8, usize, *mut u8, usize) -> Reply;

const FILL: u8 = 0xa5;

/// What a call leaves in a slice of this length, with its reply. `spoil` puts one wrong byte in.
fn called(call: Call, input: &[u8], room: usize, spoil: bool) -> (Reply, Vec<u8>) {
    let mut out = vec![FILL; room];
    // SAFETY: both slices are this function's own, and disjoint.
    let reply = unsafe { call(input.as_ptr(), input.len(), out.as_mut_ptr(), out.len()) };
    if spoil && let Some(last) = out.last_mut() {
        *last ^= 1;
    }
    (reply, out)
}

/// The call against what must come back: the exact room, one byte less, and more.
fn held(call: Call, input: &[u8], wanted: Result<Vec<u8>, u32>, spoil: bool, tally: &mut Tally, what: &dyn Fn() -> String) {
    let need = wanted.as_ref().map_or(0, Vec::len);
    for room in [need, need + 1 + input.len() % 40, need.wrapping_sub(1), 0] {
        if room == usize::MAX {
            continue;
        }
        let (reply, out) = called(call, input, room, spoil);
        let (refusal, value) = match &wanted {
            Err(number) => (*number, 0),
            Ok(_) if room < need => (8, 0),
            Ok(bytes) => (0, bytes.len() as u64),
        };
        let mut must = vec![FILL; room];
        if let (0, Ok(bytes)) = (refusal, &wanted) {
            must[..need].copy_from_slice(bytes);
        }
        let found = (reply.refusal, reply.value, reply.index, reply.count, out);
        tally.same(found, (refusal, value, 0, 0, must), || format!("room {room} of {need}, {}", what()));
    }
}

/// The original's transfers in a run, as packets, and its section.
fn ran(case: &harness::case::Case) -> Option<(Vec<u8>, Vec<u8>, usize)> {
    let section = requests::answer(case).section?;
    let transfers = rec::with(|r| std::mem::take(&mut r.transfers));
    let bytes = transfers.iter().flat_map(|t| packet(t.kind, t.request, t.value, t.index, &t.data)).collect();
    Some((section, bytes, transfers.len()))
}

/// Every call, all done and with each step failing; and every case of the stored list.
fn of_the_original(spoil: bool, tally: &mut Tally) -> (usize, usize, usize) {
    rec::with(|r| r.keep = true);
    let (mut runs, mut transfers, mut refused) = (0, 0, 0);
    let mut all = cases::calls();
    for call in (1..=38).filter(|&call| page::most(call).is_some_and(|most| most.0 > 0)) {
        let whole = plain(call);
        all.extend((0..whole.outcomes.len()).map(|step| {
            let mut cut = whole.clone();
            cut.outcomes[step] = 1;
            cut
        }));
        all.push(whole);
    }
    for case in all {
        let Some((section, bytes, count)) = ran(&case) else { continue };
        let wanted = match expand(&section) {
            Err(number) => {
                refused += 1;
                Err(number)
            }
            Ok(_) => Ok(bytes),
        };
        held(pasetone_expand, &section, wanted, spoil, tally, &|| format!("the packets of {case:?}"));
        runs += 1;
        transfers += count;
    }
    rec::with(|r| r.keep = false);
    (runs, transfers, refused)
}

/// An entry of any kind that fits the table; one in `odd` has no packets of its own.
fn entry(dice: &mut Dice, odd: u64) -> Entry {
    let kind = dice.within(1, 9) as u8;
    let mut e: Entry = [0; 16];
    let n = match kind {
        2 => dice.within(1, 8),
        3 => dice.within(1, 5),
        5 | 7 => 2,
        9 => 0,
        _ => 1,
    } as usize;
    (e[0], e[3]) = (kind, n as u8);
    e[1] = (kind != 9 && dice.below(3) == 0) as u8;
    let strange = dice.below(odd) == 0;
    match kind {
        2 | 3 => e[2] = dice.byte(),
        4 | 5 => {
            (e[2], e[4], e[5]) =
                (if strange { dice.byte() } else { dice.byte() & 15 }, dice.byte(), if strange { dice.byte() & 1 } else { 0 })
        }
        6..=8 => {
            e[2] = if strange { dice.pick(&[0, 6]) } else { dice.pick(&[1, 2, 3, 5, 7, 16, 255]) };
            (e[4], e[5]) = (dice.byte(), dice.byte());
        }
        9 => (e[4], e[5]) = (dice.byte(), dice.byte()),
        _ => {}
    }
    if !(matches!(kind, 3 | 8) && e[1] == 1) {
        for byte in &mut e[8..8 + n] {
            *byte = if kind == 1 { dice.below(2) as u8 } else { dice.byte() };
        }
    }
    // Now and then what looks like the read of page 0x0a in a write's data.
    if kind == 2 && n == 8 && dice.yes() {
        e[8..].copy_from_slice(&[0xc0, 0, 0x20, 1, 0x0a, 0, 1, 0]);
    }
    assert!(page::fits(&e), "{e:?}");
    e
}

/// Packets with one thing wrong, or none.
fn damaged(mut bytes: Vec<u8>, dice: &mut Dice) -> Vec<u8> {
    let at = dice.below(bytes.len() as u64 + 1) as usize;
    let sync = [0xc0, 0, 0x20, 1, 0x0a, 0, 1, 0];
    match dice.below(7) {
        0 => bytes.truncate(at),
        1 => drop(bytes.drain(..at)),
        2 => drop(bytes.splice(at..at, sync)),
        3 => bytes.extend(sync),
        4 => bytes.push(dice.byte()),
        _ => {
            if let Some(byte) = bytes.get_mut(at) {
                *byte = if dice.yes() { *byte ^ (1 << dice.below(8)) } else { dice.byte() };
            }
        }
    }
    bytes
}

#[derive(Default)]
struct Drawn {
    sections: u64,
    expanded: u64,
    damaged: u64,
    accepted: u64,
}

fn draw(turns: u64, dice: &mut Dice, spoil: bool, tally: &mut Tally) -> Drawn {
    let mut drawn = Drawn::default();
    for turn in 0..turns {
        let count = if turn == 0 { 4096 } else { dice.below(24) };
        let odd = if turn % 3 == 0 { 20 } else { u64::MAX };
        let entries: Vec<Entry> = (0..count).map(|_| entry(dice, odd)).collect();
        let before = dice.below(20) as usize;
        let mut slice = dice.bytes(before);
        slice.extend(page::section(&entries));
        if dice.below(16) == 0 {
            let at = dice.below(slice.len() as u64) as usize;
            slice[at] ^= 1 << dice.below(8);
        }
        let wanted = expand(&slice);
        let mut room = vec![0; 18 * 4096];
        let size = plain::expand(&slice, &mut room);
        tally.same(size.map(|size| room[..size].to_vec()), wanted.clone(), || format!("the plain writing on {slice:?}"));
        held(pasetone_expand, &slice, wanted.clone(), spoil, tally, &|| format!("the packets of {slice:?}"));
        drawn.sections += 1;
        let Ok(bytes) = wanted else { continue };
        drawn.expanded += 1;
        let (start, count) = page::read_section(&slice).expect("it was expanded");
        let again: Vec<Entry> = slice[start..start + 16 * count].chunks(16).filter_map(|e| told_again(e.try_into().unwrap())).collect();
        held(pasetone_read_packets, &bytes, Ok(page::section(&again)), spoil, tally, &|| format!("the entries of {bytes:?}"));
        let bad = damaged(bytes, dice);
        let heard = read(&bad);
        if let Some(entries) = &heard {
            drawn.accepted += 1;
            tally.same(expand(&page::section(entries)), Ok(bad.clone()), || {
                format!("what is accepted is what a section expands to: {bad:?}")
            });
        }
        let mut room = vec![0; 16 * 4096 + 8];
        let size = plain::read(&bad, &mut room);
        let wanted = heard.map(|all| page::section(&all.iter().filter_map(told_again).collect::<Vec<_>>())).ok_or(15);
        tally.same(size.map(|size| room[..size].to_vec()), wanted.clone(), || format!("the plain writing on {bad:?}"));
        held(pasetone_read_packets, &bad, wanted, spoil, tally, &|| format!("the entries of {bad:?}"));
        drawn.damaged += 1;
    }
    drawn
}

/// 4,096 entries come back, and one more does not.
fn at_the_most(spoil: bool, tally: &mut Tally) {
    let one = packet(0xc0, 0, 0x74, 0x0600, &[0; 3]);
    for (count, taken) in [(4096, true), (4097, false)] {
        let bytes = one.repeat(count);
        let wanted = read(&bytes).map(|all| page::section(&all)).ok_or(15);
        tally.that(wanted.is_ok() == taken, || format!("{count} entries by the second writing"));
        held(pasetone_read_packets, &bytes, wanted, spoil, tally, &|| format!("{count} reads"));
    }
    held(pasetone_read_packets, &[], Ok(page::section(&[])), spoil, tally, &|| "no packets".into());
    held(pasetone_expand, &page::section(&[]), Ok(vec![]), spoil, tally, &|| "no entries".into());
    // Document 02's own.
    let write: Entry = [4, 0, 1, 1, 0x15, 0, 0, 0, 0x05, 0, 0, 0, 0, 0, 0, 0];
    let packets = vec![0x40, 0, 0x20, 0x15, 0x11, 0, 1, 0, 0x05, 0xc0, 0, 0x20, 0x01, 0x0a, 0, 1, 0];
    held(pasetone_expand, &page::section(&[write]), Ok(packets.clone()), spoil, tally, &|| "the worked packet".into());
    held(pasetone_read_packets, &packets, Ok(page::section(&[write])), spoil, tally, &|| "the worked packet, back".into());
}

fn main() {
    let words: Vec<String> = std::env::args().skip(1).collect();
    let spoil = words.first().is_some_and(|word| word == "self-test");
    let (turns, seed) = if spoil { (200, 1) } else { numbers(&words, 20_000, "packets [TURNS [SEED]] | packets self-test") };
    let mut tally = Tally { silent: spoil, ..Tally::default() };
    let (runs, transfers, refused) = of_the_original(spoil, &mut tally);
    at_the_most(spoil, &mut tally);
    let drawn = draw(turns, &mut Dice(seed), spoil, &mut tally);
    if spoil {
        let mut found = Tally::default();
        println!("    a byte spoiled: {} faults found in {} checks", tally.faults, tally.checks);
        found.that(tally.faults * 2 > tally.checks, || "a spoiled byte was not found".into());
        found.end("spoiled", String::new())
    }
    let Drawn { sections, expanded, damaged, accepted } = drawn;
    let mut reached = Tally::default();
    reached.that(runs > 1000 && refused > 0 && expanded > 0 && accepted > 0 && accepted < damaged, || "a case was never reached".into());
    tally.faults += reached.faults;
    tally.end(
        "packets",
        format!(
            "; {runs} calls of the original, {transfers} transfers, {refused} refused 15; {sections} random sections, {expanded} expanded, {damaged} damaged, {accepted} of them accepted; seed {seed}"
        ),
    )
}
