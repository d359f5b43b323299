//! Boards from a table (document 02, #113), written a second time from its sentences: which tables are taken, the plan by one, the built-in boards as bands. The
//! original has none of it, so this is the judge of the port's calls (live, `bands`), and the plain Rust beside them in docs/BENCHMARK.md.

/// The bytes of a band: first and last Hz, the shift, inverted, path (3 none), notch.
pub const BAND: usize = 27;

#[derive(Debug, Clone, Copy, PartialEq, Eq)]
pub struct Band {
    pub first: u64,
    pub last: u64,
    pub shift: i64,
    pub rest: [u8; 3],
}

impl Band {
    pub fn bytes(&self) -> [u8; BAND] {
        let mut all = [0; BAND];
        all[..8].copy_from_slice(&self.first.to_le_bytes());
        all[8..16].copy_from_slice(&self.last.to_le_bytes());
        all[16..24].copy_from_slice(&self.shift.to_le_bytes());
        all[24..].copy_from_slice(&self.rest);
        all
    }

    fn of(bytes: &[u8; BAND]) -> Band {
        let number = |at: usize| *bytes[at..].first_chunk::<8>().unwrap();
        Band {
            first: u64::from_le_bytes(number(0)),
            last: u64::from_le_bytes(number(8)),
            shift: i64::from_le_bytes(number(16)),
            rest: *bytes.last_chunk().unwrap(),
        }
    }

    fn fits(&self) -> bool {
        let [inverted, path, notch] = self.rest;
        self.first <= self.last && inverted < 2 && path < 4 && notch < 2
    }
}

pub fn bytes(bands: &[Band]) -> Vec<u8> {
    bands.iter().flat_map(Band::bytes).collect()
}

/// "A board is up to 16 bands"; "Bands ascend and don't overlap".
pub fn well_formed(table: &[u8]) -> bool {
    let (bands, more) = table.as_chunks::<BAND>();
    let mut least = 0u128;
    more.is_empty()
        && bands.len() <= 16
        && bands.iter().map(Band::of).all(|band| {
            let above = band.first as u128 >= least;
            least = band.last as u128 + 1;
            above && band.fits()
        })
}

/// The Hz for the tuner, and inverted, path, notch. Err: 19 "for a malformed table; then 2 for a frequency in no band or shifted below 0 or past u64".
pub fn plan(table: &[u8], hz: u64) -> Result<(u64, [u8; 3]), u32> {
    if !well_formed(table) {
        return Err(19);
    }
    let band = table.as_chunks::<BAND>().0.iter().map(Band::of).find(|band| (band.first..=band.last).contains(&hz)).ok_or(2u32)?;
    Ok((hz.checked_add_signed(band.shift).ok_or(2u32)?, band.rest))
}

/// The boards of document 01 as bands: 0 generic, 1 V4, by the numbers of its plan.
pub fn built_in(board: u64) -> Vec<Band> {
    let mut first = 0;
    let mut band = |last, shift, rest| {
        let band = Band { first, last, shift, rest };
        first = u64::wrapping_add(last, 1);
        band
    };
    if board == 0 {
        return vec![band(u64::MAX, 0, [0, 3, 0])];
    }
    vec![
        band(2_200_000, 28_800_000, [1, 0, 1]),
        band(28_799_999, 28_800_000, [1, 0, 0]),
        band(84_999_999, 0, [0, 1, 0]),
        band(112_000_000, 0, [0, 1, 1]),
        band(171_999_999, 0, [0, 1, 0]),
        band(242_000_000, 0, [0, 1, 1]),
        band(249_999_999, 0, [0, 1, 0]),
        band(u64::MAX, 0, [0, 2, 0]),
    ]
}
