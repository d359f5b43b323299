use crate::raw::Told as _;
use crate::{Error, TunerKind, raw};

/// The PLL's numbers for one frequency of the oscillator and one reference, as a tuning sends them.
#[derive(Clone, Copy, Debug, PartialEq, Eq, Hash)]
pub struct PllPlan {
    /// The divider m: 2, 4, 8, 16, 32 or 64.
    pub divider: u8,
    /// N: 13 to 63 on an R820T, to 127 on an R828D.
    pub n: u8,
    /// The byte for register 0x14. N comes back from it: 13, plus four times its low six bits, plus its top two.
    pub setting: u8,
    /// S, for registers 0x16 and 0x15.
    pub sum: u16,
    /// What the sum leaves of the fraction, in thousands of Hz.
    pub rest: u64,
}

type Engine = unsafe extern "C" fn(u64, u64, u32, raw::BytesMut, usize) -> raw::Reply;

fn asked(engine: Engine, kind: TunerKind, lo: u64, reference: u32) -> Result<PllPlan, Error> {
    let mut out = [0; 5];
    // SAFETY: see raw.rs.
    let rest = unsafe { engine(kind as u64, lo, reference, out.as_mut_ptr(), out.len()) }.result()?;
    let [divider, n, setting, low, high] = out;
    Ok(PllPlan { divider, n, setting, sum: u16::from_le_bytes([low, high]), rest })
}

impl TunerKind {
    /// The PLL's numbers for an oscillator at `lo` Hz (the tuner's Hz plus the IF) and a reference in Hz: by the engine that tunings go by.
    ///
    /// # Errors
    ///
    /// - [`Error::Correction`] (4): `reference` is 0.
    /// - [`Error::Frequency`] (2): `lo` has no divider, or N is below 13 or above this kind's most.
    pub fn plan_pll(self, lo: u64, reference: u32) -> Result<PllPlan, Error> {
        asked(raw::pasetone_plan_pll, self, lo, reference)
    }

    /// The same answer for every input, worked out by the technicians' worksheet.
    ///
    /// # Errors
    ///
    /// Those of [`TunerKind::plan_pll`].
    pub fn plan_pll_by_worksheet(self, lo: u64, reference: u32) -> Result<PllPlan, Error> {
        asked(raw::pasetone_plan_pll_by_worksheet, self, lo, reference)
    }
}
