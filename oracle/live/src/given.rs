//! A case of the harness with what the byte boundary adds to it: slices lent for the next records, and what all lent
//! memory holds before the call.
use harness::case::Case;
use harness::records::{DRIVER, TUNER};

#[derive(Debug, Clone, Default)]
pub struct Given {
    pub case: Case,
    /// Lengths of the slices lent for the next records.
    pub next_tuner: usize,
    pub next_driver: usize,
    /// Lent memory is filled with a pattern that starts from this byte.
    pub fill: u8,
}

pub fn hands_tuner(call: u8) -> bool {
    matches!(call, 1..=9 | 19 | 20 | 42)
}
pub fn hands_driver(call: u8) -> bool {
    matches!(call, 16 | 19 | 42)
}
/// The correction and the notch change the caller's tuner record where it lies.
pub fn in_place(call: u8) -> bool {
    matches!(call, 11 | 41)
}
/// The correction changes the driver's record beside it (#109).
pub fn driver_in_place(call: u8) -> bool {
    call == 41
}

impl Given {
    /// A case with slices for the next records of their exact length.
    pub fn exact(case: Case) -> Self {
        let next_tuner = if hands_tuner(case.call) { TUNER } else { 0 };
        let next_driver = if hands_driver(case.call) { DRIVER } else { 0 };
        Self { case, next_tuner, next_driver, fill: 0xa5 }
    }
    /// A slice for a next record that is too short.
    pub fn short_next(&self) -> bool {
        let call = self.case.call;
        hands_tuner(call) && self.next_tuner < TUNER || hands_driver(call) && self.next_driver < DRIVER
    }
}

/// Memory that a call is given or lent, in the middle of more memory of ours that it is not. The margin's width varies, so
/// that slices start at any address.
#[derive(Debug, Clone)]
pub struct Lent {
    bytes: Vec<u8>,
    margin: usize,
    length: usize,
    fill: u8,
}

/// No two bytes near each other are the same, so that a shifted write is seen.
fn pattern(fill: u8, at: usize) -> u8 {
    fill.wrapping_add((at as u8).wrapping_mul(29))
}

impl Lent {
    /// For an answer: the pattern all over.
    pub fn new(length: usize, fill: u8) -> Self {
        let margin = 16 + fill as usize % 16;
        Self { bytes: (0..length + 2 * margin).map(|at| pattern(fill, at)).collect(), margin, length, fill }
    }
    /// Given bytes, and the pattern beside them.
    pub fn holding(given: &[u8], fill: u8) -> Self {
        let mut all = Self::new(given.len(), fill);
        all.lent_mut().copy_from_slice(given);
        all
    }
    pub fn slice(&mut self) -> (*mut u8, usize) {
        (self.lent_mut().as_mut_ptr(), self.length)
    }
    pub fn lent(&self) -> &[u8] {
        &self.bytes[self.margin..self.margin + self.length]
    }
    /// To spoil a byte, for the check of the checks.
    pub fn lent_mut(&mut self) -> &mut [u8] {
        &mut self.bytes[self.margin..self.margin + self.length]
    }
    /// The memory behind the lent part.
    pub fn margin_mut(&mut self) -> &mut [u8] {
        &mut self.bytes[self.margin + self.length..]
    }
    /// The first byte that is neither `answer`, at the start of the lent part, nor the pattern. Counted from the start of the
    /// lent part; below 0 and from its length on is memory that was not lent.
    pub fn differs(&self, answer: &[u8]) -> Option<i64> {
        let wanted = |at: usize| match at.checked_sub(self.margin).and_then(|place| answer.get(place)) {
            Some(&byte) => byte,
            None => pattern(self.fill, at),
        };
        let place = (0..self.bytes.len()).find(|&at| self.bytes[at] != wanted(at))?;
        Some(place as i64 - self.margin as i64)
    }
}
