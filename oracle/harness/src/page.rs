//! Document 01's rules, written from its text and not from the Rust's code. Wide whole numbers throughout: nothing wraps
//! here unless the page says so. What the page leaves to the Rust (the gain steps, the V4's bands, the rates at which the
//! IF changes) is copied here as plain numbers.
use rusb::rec::Entry;

/// "nominal + nominal·ppm / 1,000,000, the quotient cut toward zero"; None where it is not 1..4,294,967,295.
pub fn corrected(nominal: u32, ppm: i32) -> Option<u32> {
    let product = nominal as i128 * ppm as i128;
    let cut = product.abs() / 1_000_000 * product.signum();
    u32::try_from(nominal as i128 + cut).ok().filter(|&value| value != 0)
}

#[derive(Debug, Clone, Copy, PartialEq, Eq)]
pub struct Pll {
    pub m: u64,
    pub n: u64,
    /// What 0x14 gets.
    pub byte: u8,
    pub f: u64,
    pub s: u64,
    pub rest: u64,
}

/// None is refusal 2 in the PLL.
pub fn pll(kind: u8, reference: u64, lo: u64) -> Option<Pll> {
    let reach = |m: u64| lo as u128 * m as u128;
    let m = [2, 4, 8, 16, 32, 64].into_iter().find(|&m| (1_770_000_000..3_600_000_000).contains(&reach(m)))?;
    let n = (reach(m) / (2 * reference as u128)) as u64;
    if n > if kind == 1 { 127 } else { 63 } {
        return None;
    }
    let f = (lo * m - 2 * reference * n) / 1000;
    let a = if n < 13 { 0 } else { (n - 13) / 4 };
    let s = (n as i64 - (13 + 4 * a as i64)).rem_euclid(256) as u64;
    let byte = (a | (s << 6)) as u8;
    let (sum, rest) = fraction(f, reference / 1000);
    Some(Pll { m, n, byte, f, s: sum, rest })
}

/// "Sum S from 0: for n = 2, 4, .. 65,536 while F > 1: .."
fn fraction(first: u64, k: u64) -> (u64, u64) {
    let (mut f, mut sum) = (first, 0);
    for n in (1..=16).map(|bit| 1u64 << bit) {
        if f <= 1 {
            break;
        }
        if f > 2 * k / n {
            sum += 32_768 / (n / 2);
            f -= 2 * k / n;
            if n >= 32_768 {
                break;
            }
        }
    }
    (sum, f)
}

pub const STEPS: [i32; 29] = [
    0, 9, 14, 27, 37, 77, 87, 125, 144, 157, 166, 197, 207, 229, 254, 280, 297, 328, 338, 364, 372, 386, 402, 421, 434, 439, 445, 480, 496,
];

/// "One binary32 multiplication, cut toward zero into i32, saturating, NaN to 0."
pub fn tenths(db: f32) -> i32 {
    let product = (db * 10.0) as f64; // exact: every binary32 is a binary64
    if product.is_nan() { 0 } else { product.trunc().clamp(i32::MIN as f64, i32::MAX as f64) as i32 }
}

/// "The one at least distance in exact whole numbers, lower index on a tie."
pub fn nearest(tenths: i32) -> usize {
    let distance = |i: usize| (STEPS[i] as i64 - tenths as i64).abs();
    (0..29).reduce(|best, i| if distance(i) < distance(best) { i } else { best }).unwrap()
}

/// The bits of "step / 10 in binary32".
pub fn step(index: usize) -> u32 {
    (STEPS[index] as f32 / 10.0).to_bits()
}

/// if·2^22 / xtal modulo 2^22; the demodulator's three bytes have its negative.
pub fn if_ratio(hz: u32, xtal: u32) -> u32 {
    ((((hz as u128) << 22) / xtal as u128) % (1 << 22)) as u32
}

pub fn if_negative(hz: u32, xtal: u32) -> u32 {
    ((1 << 22) - if_ratio(hz, xtal)) % (1 << 22)
}

/// "r = xtal·2^22 / rate, kept to 32 bits, and 0x0ffffffc, then bit 27 copied into bit 28."
pub fn rate_ratio(rate: u32, xtal: u32) -> u32 {
    let kept = (((xtal as u128) << 22) / rate as u128) as u32 & 0x0fff_fffc;
    if kept & (1 << 27) != 0 { kept | 1 << 28 } else { kept }
}

/// `set_sample_rate`'s IF: "an IF of 0 stays 0 for all later rates".
pub fn rate_if(rate: u32, intermediate: u64) -> u32 {
    match rate {
        _ if intermediate == 0 => 0,
        2_500_000.. => 3_570_000,
        1_000_000.. => 2_300_000,
        _ => 0,
    }
}

/// Tuner hz, inverted, path (3 none), notch.
pub fn plan(board: u8, hz: u64) -> (u64, u8, u8, u8) {
    if board == 0 {
        return (hz, 0, 3, 0);
    }
    let notch = hz <= 2_200_000 || (85_000_000..=112_000_000).contains(&hz) || (172_000_000..=242_000_000).contains(&hz);
    match hz {
        0..28_800_000 => (hz + 28_800_000, 1, 0, notch as u8),
        28_800_000..250_000_000 => (hz, 0, 1, notch as u8),
        _ => (hz, 0, 2, notch as u8),
    }
}

/// Eight 8-bit, then eight 12-bit signed values.
pub fn fir_fits(values: &[i32; 16]) -> bool {
    values[..8].iter().all(|v| (-128..128).contains(v)) && values[8..].iter().all(|v| (-2048..2048).contains(v))
}

pub fn fir_pack(values: &[i32; 16]) -> [u8; 20] {
    let mut packed = [0; 20];
    for i in 0..8 {
        packed[i] = values[i].rem_euclid(256) as u8;
    }
    for pair in 0..4 {
        let both = values[8 + 2 * pair].rem_euclid(4096) << 12 | values[9 + 2 * pair].rem_euclid(4096);
        packed[8 + 3 * pair..11 + 3 * pair].copy_from_slice(&both.to_be_bytes()[1..]);
    }
    packed
}

pub fn fir_unpack(packed: &[u8; 20]) -> [i32; 16] {
    let signed = |value: i32, width: i32| if value >= width / 2 { value - width } else { value };
    let mut values = [0; 16];
    for i in 0..8 {
        values[i] = signed(packed[i] as i32, 256);
    }
    for pair in 0..4 {
        let at = &packed[8 + 3 * pair..];
        let both = i32::from_be_bytes([0, at[0], at[1], at[2]]);
        values[8 + 2 * pair] = signed(both >> 12, 4096);
        values[9 + 2 * pair] = signed(both & 4095, 4096);
    }
    values
}

/// Most entries and replies of a call with steps.
pub fn most(call: u8) -> Option<(usize, usize)> {
    Some(match call {
        2 => (19, 0),
        3 => (53, 35),
        4 | 5 => (7, 0),
        6 => (3, 0),
        7 | 8 => (4, 0),
        9 => (9, 0),
        19 => (17, 0),
        20 => (10, 3),
        21 | 22 => (45, 0),
        23 | 24 | 25 | 29 | 30 => (2, 0),
        26 => (1, 0),
        27 => (3, 0),
        28 | 31 => (4, if call == 31 { 2 } else { 0 }),
        32 => (2, 1),
        _ => return None,
    })
}

/// Length of a call's answered bytes.
pub fn answered(call: u8) -> Option<usize> {
    Some(match call {
        15 => 116,
        33 | 34 => 3,
        35 => 4,
        36 => 20,
        37 => 64,
        _ => return None,
    })
}

pub fn section(entries: &[Entry]) -> Vec<u8> {
    let count = entries.len() as u32;
    let mut all = entries.concat();
    all.extend(count.to_le_bytes());
    all.extend((16 * count).to_le_bytes());
    all
}

/// "The reader starts from the end of a slice": where the entries start, and how many. None is refusal 12.
pub fn read_section(slice: &[u8]) -> Option<(usize, usize)> {
    let end = slice.len().checked_sub(8)?;
    let count = u32::from_le_bytes(slice[end..end + 4].try_into().unwrap()) as usize;
    let distance = u32::from_le_bytes(slice[end + 4..].try_into().unwrap()) as usize;
    if count > 4096 || distance != 16 * count {
        return None;
    }
    let start = end.checked_sub(distance)?;
    slice[start..end].chunks(16).all(|entry| fits(entry.try_into().unwrap())).then_some((start, count))
}

/// An entry of the table: kind, outcome, target, n, address, two zeros, eight data bytes padded with zeros.
pub fn fits(entry: &Entry) -> bool {
    let [kind, outcome, target, n, low, high, zero, nil, data @ ..] = *entry;
    let address = u16::from_le_bytes([low, high]);
    let zeros = |from: usize| data[from..].iter().all(|&byte| byte == 0);
    if outcome > 1 || zero != 0 || nil != 0 || n > 8 || !zeros(n as usize) {
        return false;
    }
    match kind {
        1 => target == 0 && n == 1 && address == 0 && data[0] <= 1,
        2 => n >= 1 && address == 0,
        3 => (1..=5).contains(&n) && address == 0 && (outcome == 0 || zeros(0)),
        4 | 6 => n == 1,
        5 | 7 => n == 2,
        8 => n == 1 && (outcome == 0 || zeros(0)),
        9 => target == 0 && n == 0 && outcome == 0,
        _ => false,
    }
}

/// An entry that closes the repeater: its failure is recorded and otherwise ignored.
pub fn closes(entry: &Entry) -> bool {
    entry[0] == 1 && entry[8] == 0
}

/// The failing step: the first failed entry that is not a closing.
pub fn failing(entries: &[Entry]) -> Option<usize> {
    entries.iter().position(|entry| entry[1] == 1 && !closes(entry))
}
