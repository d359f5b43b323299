//! The demodulator's calls. They have steps and no record. A call hands back its result and transcript; what it is refused for stands under "Errors".
use crate::{Answer, Need, Script, in_room, raw};

fn plain(need: Need, script: &Script, call: raw::Plain) -> Answer<()> {
    let o = script.outcomes();
    // SAFETY: see raw.rs.
    let (reply, transcript) = in_room(need.outcomes, |room| unsafe { call(o.as_ptr(), o.len(), room.as_mut_ptr(), room.len()) });
    Answer::of(reply, transcript, drop)
}

/// Powers the demodulator and sets it up: 45 outcomes.
///
/// # Errors
///
/// - [`Error::Outcomes`](crate::Error::Outcomes) (9): fewer than 45 outcomes.
/// - [`Error::Step`](crate::Error::Step) (11): a step failed, and the steps before it stand.
pub fn init_baseband(script: &Script) -> Answer<()> {
    plain(Need::BASEBAND, script, raw::pasetone_init_baseband)
}

/// The same as [`init_baseband`]: 45 outcomes.
///
/// # Errors
///
/// - [`Error::Outcomes`](crate::Error::Outcomes) (9): fewer than 45 outcomes.
/// - [`Error::Step`](crate::Error::Step) (11): a step failed, and the steps before it stand.
pub fn power_on(script: &Script) -> Answer<()> {
    plain(Need::BASEBAND, script, raw::pasetone_power_on)
}

/// Soft reset, on and off: 2 outcomes.
///
/// # Errors
///
/// - [`Error::Outcomes`](crate::Error::Outcomes) (9): fewer than 2 outcomes.
/// - [`Error::Step`](crate::Error::Step) (11): a step failed, and the steps before it stand.
pub fn reset_demod(script: &Script) -> Answer<()> {
    plain(Need::DEMOD_PAIR, script, raw::pasetone_reset_demod)
}

/// For a tuner with an IF: 2 outcomes.
///
/// # Errors
///
/// - [`Error::Outcomes`](crate::Error::Outcomes) (9): fewer than 2 outcomes.
/// - [`Error::Step`](crate::Error::Step) (11): a step failed, and the steps before it stand.
pub fn set_tuner_low_if(script: &Script) -> Answer<()> {
    plain(Need::DEMOD_PAIR, script, raw::pasetone_set_tuner_low_if)
}

/// For a tuner without an IF: 2 outcomes.
///
/// # Errors
///
/// - [`Error::Outcomes`](crate::Error::Outcomes) (9): fewer than 2 outcomes.
/// - [`Error::Step`](crate::Error::Step) (11): a step failed, and the steps before it stand.
pub fn set_tuner_zero_if(script: &Script) -> Answer<()> {
    plain(Need::DEMOD_PAIR, script, raw::pasetone_set_tuner_zero_if)
}

/// Samples are to come: 2 outcomes.
///
/// # Errors
///
/// - [`Error::Outcomes`](crate::Error::Outcomes) (9): fewer than 2 outcomes.
/// - [`Error::Step`](crate::Error::Step) (11): a step failed, and the steps before it stand.
pub fn start_streaming(script: &Script) -> Answer<()> {
    plain(Need::DEMOD_PAIR, script, raw::pasetone_start_streaming)
}

/// No more samples, power off: 2 outcomes.
///
/// # Errors
///
/// - [`Error::Outcomes`](crate::Error::Outcomes) (9): fewer than 2 outcomes.
/// - [`Error::Step`](crate::Error::Step) (11): a step failed, and the steps before it stand.
pub fn stop_streaming(script: &Script) -> Answer<()> {
    plain(Need::DEMOD_PAIR, script, raw::pasetone_stop_streaming)
}

/// One byte into a register, any page and address: 1 outcome.
///
/// # Errors
///
/// - [`Error::Outcomes`](crate::Error::Outcomes) (9): no outcome.
/// - [`Error::Step`](crate::Error::Step) (11): a step failed, and the steps before it stand.
pub fn write_reg_direct(page: u8, address: u16, value: u8, script: &Script) -> Answer<()> {
    let o = script.outcomes();
    // SAFETY: see raw.rs.
    let (reply, transcript) = in_room(Need::DIRECT.outcomes, |room| unsafe {
        raw::pasetone_write_reg_direct(page, address, value, o.as_ptr(), o.len(), room.as_mut_ptr(), room.len())
    });
    Answer::of(reply, transcript, drop)
}

/// The IF at a reference of `xtal` Hz: 3 outcomes.
///
/// # Errors
///
/// - [`Error::Correction`](crate::Error::Correction) (4): `xtal` is 0.
/// - [`Error::Outcomes`](crate::Error::Outcomes) (9): fewer than 3 outcomes.
/// - [`Error::Step`](crate::Error::Step) (11): a step failed, and the steps before it stand.
pub fn set_if_freq_xtal(hz: u32, xtal: u32, script: &Script) -> Answer<()> {
    let o = script.outcomes();
    // SAFETY: see raw.rs.
    let (reply, transcript) = in_room(Need::IF_XTAL.outcomes, |room| unsafe {
        raw::pasetone_set_if_freq_xtal(hz, xtal, o.as_ptr(), o.len(), room.as_mut_ptr(), room.len())
    });
    Answer::of(reply, transcript, drop)
}

/// The resampler's rate at a reference of `xtal` Hz: 4 outcomes.
///
/// # Errors
///
/// - [`Error::Rate`](crate::Error::Rate) (3): `rate` is 0.
/// - [`Error::Correction`](crate::Error::Correction) (4): `xtal` is 0.
/// - [`Error::Ratio`](crate::Error::Ratio) (13): the resampler cannot hold the ratio of the two.
/// - [`Error::Outcomes`](crate::Error::Outcomes) (9): fewer than 4 outcomes.
/// - [`Error::Step`](crate::Error::Step) (11): a step failed, and the steps before it stand.
pub fn set_sample_rate_xtal(rate: u32, xtal: u32, script: &Script) -> Answer<()> {
    let o = script.outcomes();
    // SAFETY: see raw.rs.
    let (reply, transcript) = in_room(Need::RATE_XTAL.outcomes, |room| unsafe {
        raw::pasetone_set_sample_rate_xtal(rate, xtal, o.as_ptr(), o.len(), room.as_mut_ptr(), room.len())
    });
    Answer::of(reply, transcript, drop)
}
