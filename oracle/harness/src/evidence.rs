//! What a night's sections tell of the station that a receiver stands on, written a second time from the words that ask for it (docs/DECISIONS.md, "Evidence"),
//! and not from the port. And once more as a Rust programmer would write it for a lent slice (`plain`), which the port's instructions are counted beside.
use crate::{page, restore};
use rusb::rec::Entry;
use std::collections::BTreeMap;

pub const SIZE: usize = 52;
pub const OSCILLATOR: [usize; 5] = [0x10, 0x12, 0x14, 0x15, 0x16];
pub const DDC: [usize; 1] = [0x15];
pub const OFFSET: [usize; 3] = [0x19, 0x1a, 0x1b];
pub const RATE: [usize; 4] = [0x9f, 0xa0, 0xa1, 0xa2];
const UNITS: u128 = 1 << 23;

/// A register's last write: its byte, and whether it was done.
type Last = BTreeMap<usize, (u8, bool)>;

#[derive(Default)]
struct Heard {
    chip: Last,
    demod: Last,
    lock: u8,
    tries: u32,
}

/// "named by kinds 4 and 5 (16 bits: two registers)": page and registers, each with its byte.
fn demod(entry: &Entry) -> Option<(u8, Vec<(usize, u8)>)> {
    let first = u16::from_le_bytes([entry[4], entry[5]]) as usize;
    let all = (0..entry[3] as usize).map(|i| (first + i, entry[8 + i])).collect();
    matches!(entry[0], 4 | 5).then_some((entry[2], all))
}

/// "A soft reset makes every demodulator register doubtful until it is written again, and so does switching the demodulator off (block 2, 0x3000)";
/// "Registers above 0xff and pages above 15 alias .. such a write makes all of them doubtful".
pub fn shakes(entry: &Entry) -> bool {
    let first = u16::from_le_bytes([entry[4], entry[5]]) as usize;
    let power = matches!(entry[0], 6 | 7) && entry[2] == 2 && (first..first + entry[3] as usize).contains(&0x3000);
    let lost = |(page, all): (u8, Vec<(usize, u8)>)| page > 15 || all.iter().any(|&(r, _)| r > 0xff || (page, r) == (1, 0x01));
    power || demod(entry).is_some_and(lost)
}

impl Heard {
    fn hear(&mut self, entry: &Entry, chip: u8) {
        let done = entry[1] == 0;
        let named: Vec<usize> = restore::named(entry, chip).map(|(register, _)| register).collect();
        for (register, byte) in restore::named(entry, chip) {
            self.chip.insert(register, (byte, done));
        }
        if named.iter().any(|register| OSCILLATOR.contains(register)) {
            self.lock = 0;
        }
        if named.iter().any(|register| OSCILLATOR.contains(register) && *register != 0x12) {
            self.tries = 0;
        }
        if (entry[0], entry[2], entry[3], done) == (3, chip, 3, true) {
            self.lock = if entry[10].reverse_bits() & 0x40 != 0 { 2 } else { 1 };
            self.tries = self.tries.saturating_add(1);
        }
        for (register, byte) in demod(entry).filter(|(page, _)| *page == 1).into_iter().flat_map(|(_, all)| all) {
            self.demod.insert(register, (byte, done));
        }
        if shakes(entry) {
            self.demod.extend((0..=0xff).map(|register| (register, (0, false))));
        }
    }
}

/// "0 never, 1 doubtful, 2 sure", and the bytes where it is sure.
fn mark<const N: usize>(last: &Last, registers: [usize; N]) -> (u8, Option<[u8; N]>) {
    let sure = registers.iter().all(|register| last.get(register).is_some_and(|&(_, done)| done));
    let never = registers.iter().all(|register| !last.contains_key(register));
    (if sure { 2 } else { !never as u8 }, sure.then(|| registers.map(|register| last[&register].0)))
}

/// lo = 2R(65,536·N + S) / (65,536·m), in units of 2^-23 Hz.
fn oscillator([divider, control, whole, low, high]: [u8; 5], r: u32) -> u128 {
    let n = 13 + 4 * (whole as u128 % 64) + whole as u128 / 64;
    let s = if control >> 3 & 1 == 1 { 0 } else { u16::from_le_bytes([low, high]) as u128 };
    2 * r as u128 * (65_536 * n + s) * UNITS / (65_536 << (1 + divider / 32))
}

fn answer(heard: &Heard, r: u32, xtal: u32) -> [u8; SIZE] {
    let ((lo_mark, lo), (if_mark, word)) = (mark(&heard.chip, OSCILLATOR), mark(&heard.demod, OFFSET));
    let ((rate_mark, ratio), (ddc_mark, ddc)) = (mark(&heard.demod, RATE), mark(&heard.demod, DDC));
    let lo = lo.map_or(0, |bytes| oscillator(bytes, r));
    let word = word.map_or(0, |[a, b, c]| u32::from_be_bytes([0, a % 64, b, c]));
    let offset = if if_mark == 2 { ((1 << 22) - word as u128) % (1 << 22) * xtal as u128 * UNITS / (1 << 22) } else { 0 };
    let ratio = ratio.map_or(0, u32::from_be_bytes);
    let rate = ((xtal as u128) << 22).checked_div(ratio as u128).unwrap_or(0);
    let centre_mark = match (lo_mark, if_mark) {
        (2, 2) if offset <= lo => 2,
        (0, 0) => 0,
        _ => 1,
    };
    let centre = if centre_mark == 2 { (lo - offset) / UNITS } else { 0 };
    let mut out = vec![lo_mark, if_mark, rate_mark, ddc_mark, heard.lock, centre_mark, ddc.map_or(0, |[byte]| byte), 0];
    [heard.tries, word, ratio].iter().for_each(|number| out.extend(number.to_le_bytes()));
    [rate, lo, offset, centre].iter().for_each(|&number| out.extend(u64::try_from(number).expect("it fits").to_le_bytes()));
    out.try_into().expect("52 bytes")
}

/// "Refusals: 4 for either reference 0, 12 for any section".
pub fn told(slice: &[u8], chip: u8, r: u32, xtal: u32) -> Result<[u8; SIZE], u32> {
    if r == 0 || xtal == 0 {
        return Err(4);
    }
    let mut heard = Heard::default();
    restore::entries(slice).ok_or(12u32)?.iter().for_each(|entry| heard.hear(entry, chip));
    Ok(answer(&heard, r, xtal))
}

/// The slot of a register of page 1.
fn slot(register: usize) -> Option<usize> {
    match register {
        0x15 => Some(0),
        0x19..=0x1b => Some(register - 0x18),
        0x9f..=0xa2 => Some(register - 0x9b),
        _ => None,
    }
}

type Told<const N: usize> = [Option<(u8, bool)>; N];

/// What a demodulator's or a block's write says, newest first.
fn plain_demod(entry: &[u8; 16], told: &mut Told<8>) {
    let first = u16::from_le_bytes([entry[4], entry[5]]) as usize;
    let past = first + entry[3] as usize;
    let covers = |register| first <= register && register < past;
    let shaken = match entry[0] {
        4 | 5 => entry[2] > 15 || past > 256 || entry[2] == 1 && covers(0x01),
        _ => entry[2] == 2 && covers(0x3000),
    };
    if shaken {
        for place in told {
            place.get_or_insert((0, false));
        }
    } else if entry[0] < 6 && entry[2] == 1 {
        for (i, &byte) in entry[8..8 + entry[3] as usize].iter().enumerate() {
            if let Some(place) = slot(first + i) {
                told[place].get_or_insert((byte, entry[1] == 0));
            }
        }
    }
}

fn plain_mark(told: &[Option<(u8, bool)>]) -> u8 {
    if told.iter().all(|place| matches!(place, Some((_, true)))) { 2 } else { told.iter().any(Option::is_some) as u8 }
}

/// The same for a lent slice, newest first, with nothing allocated.
pub fn plain(mut slice: &[u8], chip: u8, r: u32, xtal: u32, out: &mut [u8]) -> Result<(), u32> {
    if r == 0 || xtal == 0 {
        return Err(4);
    }
    let (mut told, mut demod): (Told<32>, Told<8>) = ([None; 32], [None; 8]);
    let (mut lock, mut tries, mut counted) = (None, 0u32, false);
    while !slice.is_empty() {
        let (start, count) = page::read_section(slice).ok_or(12u32)?;
        for entry in slice[start..start + 16 * count].as_chunks::<16>().0.iter().rev() {
            match entry[0] {
                2 if entry[2] == chip => {
                    for (i, &byte) in entry[9..8 + entry[3] as usize].iter().enumerate() {
                        let register = entry[8] as usize + i;
                        if let Some(place) = told.get_mut(register) {
                            place.get_or_insert((byte, entry[1] == 0));
                        }
                        if OSCILLATOR.contains(&register) {
                            lock.get_or_insert(0);
                            counted |= register != 0x12;
                        }
                    }
                }
                3 if entry[2] == chip && entry[3] == 3 && entry[1] == 0 => {
                    lock.get_or_insert(if entry[10].reverse_bits() & 0x40 != 0 { 2 } else { 1 });
                    tries = tries.saturating_add(!counted as u32);
                }
                4..=7 => plain_demod(entry, &mut demod),
                _ => {}
            }
        }
        slice = &slice[..start];
    }
    let byte = |place: Option<(u8, bool)>| place.map_or(0, |(byte, _)| byte);
    let five = OSCILLATOR.map(|register| told[register]);
    let (lo_mark, if_mark, rate_mark, ddc_mark) =
        (plain_mark(&five), plain_mark(&demod[1..4]), plain_mark(&demod[4..]), plain_mark(&demod[..1]));
    let [divider, control, whole, low, high] = five.map(byte);
    let n = 13 + 4 * (whole as u64 % 64) + whole as u64 / 64;
    let s = if control & 8 != 0 { 0 } else { u16::from_le_bytes([low, high]) as u64 };
    let sure = |mark: u8, number: u64| if mark == 2 { number } else { 0 };
    let lo = sure(lo_mark, r as u64 * (65_536 * n + s) * (128 >> (divider / 32)));
    let word = sure(if_mark, u32::from_be_bytes([0, byte(demod[1]) % 64, byte(demod[2]), byte(demod[3])]) as u64);
    let offset = sure(if_mark, 2 * ((4_194_304 - word) % 4_194_304) * xtal as u64);
    let ratio = sure(rate_mark, u32::from_be_bytes([4, 5, 6, 7].map(|place| byte(demod[place]))) as u64);
    let centre_mark = match (lo_mark, if_mark) {
        (2, 2) if offset <= lo => 2,
        (0, 0) => 0,
        _ => 1,
    };
    let centre = if centre_mark == 2 { (lo - offset) >> 23 } else { 0 };
    let rate = (xtal as u64 * 4_194_304).checked_div(ratio).unwrap_or(0);
    let out = out.get_mut(..SIZE).ok_or(8u32)?;
    let ddc = sure(ddc_mark, byte(demod[0]) as u64) as u8;
    out[..8].copy_from_slice(&[lo_mark, if_mark, rate_mark, ddc_mark, lock.unwrap_or(0), centre_mark, ddc, 0]);
    out[8..12].copy_from_slice(&tries.to_le_bytes());
    out[12..16].copy_from_slice(&(word as u32).to_le_bytes());
    out[16..20].copy_from_slice(&(ratio as u32).to_le_bytes());
    for (at, number) in [(20, rate), (28, lo), (36, offset), (44, centre)] {
        out[at..at + 8].copy_from_slice(&number.to_le_bytes());
    }
    Ok(())
}
