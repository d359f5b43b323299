//! The GPIO calls. They have steps and no record.
use crate::{Answer, Need, Script, in_room, raw};

/// Makes a GPIO (0..=7) an output: 4 outcomes, 2 replies.
///
/// # Errors
///
/// - [`Error::Pin`](crate::Error::Pin) (6): `gpio` is above 7.
/// - [`Error::Outcomes`](crate::Error::Outcomes) (9): fewer than 4 outcomes.
/// - [`Error::Replies`](crate::Error::Replies) (10): fewer than 2 replies.
/// - [`Error::Step`](crate::Error::Step) (11): a step failed, and the steps before it stand.
pub fn set_output(gpio: u8, script: &Script) -> Answer<()> {
    let (o, p) = (script.outcomes(), script.replies());
    // SAFETY: see raw.rs.
    let (reply, transcript) = in_room(Need::GPIO_OUTPUT.outcomes, |room| unsafe {
        raw::pasetone_set_gpio_output(gpio, o.as_ptr(), o.len(), p.as_ptr(), p.len(), room.as_mut_ptr(), room.len())
    });
    Answer::of(reply, transcript, drop)
}

/// Sets the level of a GPIO (0..=7): 2 outcomes, 1 reply.
///
/// # Errors
///
/// - [`Error::Pin`](crate::Error::Pin) (6): `gpio` is above 7.
/// - [`Error::Outcomes`](crate::Error::Outcomes) (9): fewer than 2 outcomes.
/// - [`Error::Replies`](crate::Error::Replies) (10): no reply.
/// - [`Error::Step`](crate::Error::Step) (11): a step failed, and the steps before it stand.
pub fn set_bit(gpio: u8, high: bool, script: &Script) -> Answer<()> {
    let (o, p, value) = (script.outcomes(), script.replies(), high.into());
    // SAFETY: see raw.rs.
    let (reply, transcript) = in_room(Need::GPIO_BIT.outcomes, |room| unsafe {
        raw::pasetone_set_gpio_bit(gpio, value, o.as_ptr(), o.len(), p.as_ptr(), p.len(), room.as_mut_ptr(), room.len())
    });
    Answer::of(reply, transcript, drop)
}
