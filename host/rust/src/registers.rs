use crate::raw::Told as _;
use crate::{Error, raw};

/// hz · 2^22 / xtal, kept to 22 bits, high byte first. [`demod::set_if_freq_xtal`](crate::demod::set_if_freq_xtal) sends it negated.
///
/// ```
/// assert_eq!(pasetone::if_freq_regs(3_570_000, 28_800_000), Ok([0x07, 0xee, 0xee]));
/// ```
///
/// # Errors
///
/// - [`Error::Correction`] (4): `xtal` is 0.
pub fn if_freq_regs(hz: u32, xtal: u32) -> Result<[u8; 3], Error> {
    let mut out = [0; 3];
    // SAFETY: see raw.rs.
    unsafe { raw::pasetone_if_freq_regs(hz, xtal, out.as_mut_ptr(), out.len()) }.result().map(|_| out)
}

/// xtal · 2^22 / rate, kept to 30 bits, high byte first. [`demod::set_sample_rate_xtal`](crate::demod::set_sample_rate_xtal) sends fewer.
///
/// # Errors
///
/// - [`Error::Rate`] (3): `rate` is 0.
/// - [`Error::Correction`] (4): `xtal` is 0.
pub fn resample_regs(rate: u32, xtal: u32) -> Result<[u8; 4], Error> {
    let mut out = [0; 4];
    // SAFETY: see raw.rs.
    unsafe { raw::pasetone_resample_regs(rate, xtal, out.as_mut_ptr(), out.len()) }.result().map(|_| out)
}

/// FIR coefficients as bytes: the first eight have 8 bits (-128..=127), the others 12 (-2048..=2047).
///
/// # Errors
///
/// - [`Error::Coefficient`] (7): a value is past its width.
pub fn pack_fir(values: &[i32; 16]) -> Result<[u8; 20], Error> {
    let mut given = [0; 64];
    for (bytes, value) in given.chunks_exact_mut(4).zip(values) {
        bytes.copy_from_slice(&value.to_le_bytes());
    }
    let mut out = [0; 20];
    // SAFETY: see raw.rs.
    unsafe { raw::pasetone_pack_fir(given.as_ptr(), given.len(), out.as_mut_ptr(), out.len()) }.result().map(|_| out)
}

/// The coefficients of their bytes: the inverse of [`pack_fir`].
pub fn unpack_fir(bytes: &[u8; 20]) -> [i32; 16] {
    let mut out = [0; 64];
    // SAFETY: see raw.rs. Both lengths are as they must be, so this is not refused.
    unsafe { raw::pasetone_unpack_fir(bytes.as_ptr(), bytes.len(), out.as_mut_ptr(), out.len()) };
    core::array::from_fn(|i| i32::from_le_bytes([out[4 * i], out[4 * i + 1], out[4 * i + 2], out[4 * i + 3]]))
}
