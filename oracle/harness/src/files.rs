//! What document 02 adds about sections and settings on file, written a second time from its sentences. The original has none of it, so
//! this is the judge of the port's calls (live, `files`), and the plain Rust beside them in docs/BENCHMARK.md.
use crate::page;

/// Where two sections part (#114): whose part it is (1 the first's, 2 the second's), the byte that it starts at, its entries, and how many before it are alike.
#[derive(Debug, Clone, Copy, PartialEq, Eq)]
pub struct Parted {
    pub whose: u32,
    pub start: usize,
    pub count: usize,
    pub index: usize,
}

/// "outcome and read data are left out of the comparison": byte 1 of an entry, and what kinds 3 and 8 have behind their head.
fn same_step(one: &[u8], other: &[u8]) -> bool {
    one[0] == other[0] && one[2..8] == other[2..8] && (matches!(one[0], 3 | 8) || one[8..] == other[8..])
}

/// None is refusal 12.
pub fn parting(first: &[u8], second: &[u8]) -> Option<Parted> {
    let ((a, m), (b, n)) = (page::read_section(first)?, page::read_section(second)?);
    let (ones, others) = (first[a..].chunks_exact(16).take(m), second[b..].chunks_exact(16).take(n));
    let index = ones.zip(others).take_while(|(one, other)| same_step(one, other)).count();
    // "If the second ends first, hand back the rest of the first section from there."
    if index == n && m > n {
        return Some(Parted { whose: 1, start: a + 16 * index, count: m - index, index });
    }
    Some(Parted { whose: 2, start: b + 16 * index, count: n - index, index })
}

/// Receiver settings on file (#108).
#[derive(Debug, Clone, Copy, Default, PartialEq, Eq)]
pub struct Stored {
    pub kind: u64,
    pub board: u64,
    pub correction: i32,
    pub rate: u32,
    pub frequency: u64,
    pub gain: u64,
}

impl Stored {
    /// "kind (0 R820T, 1 R828D), board (0 generic, 1 V4), .. gain index 0..28"
    pub fn fits(&self) -> bool {
        self.kind < 2 && self.board < 2 && self.gain < 29
    }

    fn fields(&self) -> [u8; 19] {
        let mut all = [0; 19];
        (all[0], all[1], all[18]) = (self.kind as u8, self.board as u8, self.gain as u8);
        all[2..6].copy_from_slice(&self.correction.to_le_bytes());
        all[6..10].copy_from_slice(&self.rate.to_le_bytes());
        all[10..18].copy_from_slice(&self.frequency.to_le_bytes());
        all
    }

    fn of_fields(all: &[u8; 19]) -> Stored {
        let (&[kind, board, c0, c1, c2, c3, r0, r1, r2, r3], rest) = all.split_first_chunk().unwrap();
        let (&frequency, &[gain]) = rest.split_first_chunk().unwrap() else { unreachable!() };
        Stored {
            kind: kind as u64,
            board: board as u64,
            correction: i32::from_le_bytes([c0, c1, c2, c3]),
            rate: u32::from_le_bytes([r0, r1, r2, r3]),
            frequency: u64::from_le_bytes(frequency),
            gain: gain as u64,
        }
    }

    /// "Store 19 bytes ..; then a 4-byte trailer: edition 1, a zero, and the distance back as u16, here 19". Err: the refusal.
    pub fn image_1(&self) -> Result<[u8; 23], u32> {
        let mut image = [0; 23];
        image[..19].copy_from_slice(&self.fields());
        image[19..].copy_from_slice(&[1, 0, 19, 0]);
        if self.fits() { Ok(image) } else { Err(17) }
    }
}

/// "Reading takes the record from the end of a slice." Err: the refusal, 16 before all but a slice under 4 bytes.
pub fn read_settings_1(slice: &[u8]) -> Result<Stored, u32> {
    let Some((front, trailer)) = slice.split_last_chunk::<4>() else { return Err(17) };
    if trailer[0] != 1 {
        return Err(16);
    }
    let fields = front.last_chunk::<19>().filter(|_| trailer[1..] == [0, 19, 0]).ok_or(17u32)?;
    Some(Stored::of_fields(fields)).filter(Stored::fits).ok_or(17)
}

/// Edition 1 as edition 2 says it: "Move edition 1 to 2 with IF 2,300,000".
pub const USUAL_IF: u32 = 2_300_000;

/// "Edition 2 has 23 bytes: those of edition 1, then IF u32." (#112) Err: the refusal.
pub fn image_2(stored: &Stored, if_hz: u32) -> Result<[u8; 27], u32> {
    let mut image = [0; 27];
    image[..19].copy_from_slice(&stored.fields());
    image[19..23].copy_from_slice(&if_hz.to_le_bytes());
    image[23..].copy_from_slice(&[2, 0, 23, 0]);
    if stored.fits() { Ok(image) } else { Err(17) }
}

/// Edition 2 and nothing else.
fn read_only_2(slice: &[u8]) -> Result<(Stored, u32), u32> {
    let Some((front, trailer)) = slice.split_last_chunk::<4>() else { return Err(17) };
    if trailer[0] != 2 {
        return Err(16);
    }
    let fields = front.last_chunk::<23>().filter(|_| trailer[1..] == [0, 23, 0]).ok_or(17u32)?;
    let (first, last) = fields.split_first_chunk::<19>().unwrap();
    let stored = Some(Stored::of_fields(first)).filter(Stored::fits).ok_or(17u32)?;
    Ok((stored, u32::from_le_bytes(last.try_into().unwrap())))
}

/// "the new reader takes both"
pub fn read_settings_2(slice: &[u8]) -> Result<(Stored, u32), u32> {
    match read_settings_1(slice) {
        Err(16) => read_only_2(slice),
        other => other.map(|stored| (stored, USUAL_IF)),
    }
}

pub fn move_1_to_2(slice: &[u8]) -> Result<[u8; 27], u32> {
    image_2(&read_settings_1(slice)?, USUAL_IF)
}

/// "Move 2 back to 1 only if IF is 2,300,000": else 18.
pub fn move_2_to_1(slice: &[u8]) -> Result<[u8; 23], u32> {
    match read_only_2(slice)? {
        (stored, USUAL_IF) => stored.image_1(),
        _ => Err(18),
    }
}
