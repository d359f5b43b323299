//! Faults put in on purpose: each must be found, or the check that should find it checks nothing.
use crate::port::Found;
use harness::dice::Dice;
use harness::records::TUNER;
use rusb::rec::Entry;

/// What is wrong in a chain, either in the model of the chip or in what the port is said to have answered.
#[derive(Debug, Clone, Copy, PartialEq, Eq)]
pub enum Wrong {
    Nothing,
    /// A done write lands with a bit flipped.
    Landing,
    /// A chip takes the writes to other addresses too.
    AnyAddress,
    /// A doubtful mark or a shadow byte is another.
    Mark,
    Shadow,
    /// A write in the transcript has another byte, or another outcome.
    Sent,
    Outcome,
    /// The index of the failing step is one off.
    Index,
    /// The closing behind a failing step is left out.
    Closing,
    /// The uncut call has another first step.
    Uncut,
    /// A correction leaves another ppm in the driver's record.
    Correction,
}

pub const ALL: [Wrong; 10] = [
    Wrong::Landing,
    Wrong::AnyAddress,
    Wrong::Mark,
    Wrong::Shadow,
    Wrong::Sent,
    Wrong::Outcome,
    Wrong::Index,
    Wrong::Closing,
    Wrong::Uncut,
    Wrong::Correction,
];

impl Wrong {
    pub fn landed(self, sent: u8) -> u8 {
        if self == Wrong::Landing { sent ^ 0x10 } else { sent }
    }

    pub fn spoil_uncut(self, uncut: &mut [Entry]) {
        if self == Wrong::Uncut {
            uncut[0][8] ^= 1;
        }
    }

    /// Changes one thing in an answer that has it.
    pub fn spoil(self, found: &mut Found, dice: &mut Dice) {
        let (count, cut) = (found.reply.count as usize, found.reply.refusal == 11);
        let place = dice.below(27) as usize;
        match self {
            Wrong::Mark => flip(found, 51 + place, 1),
            Wrong::Shadow => flip(found, 2 + place, 0x40),
            // Of the given records only those that a correction has changed where they lie are read again.
            Wrong::Correction => spoil_ppm(found.driver.lent_mut()),
            Wrong::Index if cut => found.reply.index = found.reply.index.saturating_sub(1),
            Wrong::Closing if cut && count > found.reply.index as usize + 1 => found.reply.count -= 1,
            Wrong::Sent | Wrong::Outcome => {
                let room = found.room.lent_mut();
                let write = (0..count).map(|entry| 16 * entry).find(|&at| room[at] == 2 && room[at + 3] > 1);
                if let Some(at) = write {
                    room[at + if self == Wrong::Sent { 9 } else { 1 }] ^= 1;
                }
            }
            _ => {}
        }
    }
}

/// Another bit in the ppm's second byte: 256 ppm more or less.
fn spoil_ppm(driver: &mut [u8]) {
    if let Some(byte) = driver.get_mut(6) {
        *byte ^= 1;
    }
}

/// Flips a bit of the record handed back, if the slice for it is that long.
fn flip(found: &mut Found, at: usize, bit: u8) {
    if let Some(byte) = found.next_tuner.lent_mut().get_mut(..TUNER).and_then(|record| record.get_mut(at)) {
        *byte ^= bit;
    }
}

/// One thing of a whole answer changed, for the check of the differential; `None` where this answer has no such thing.
pub fn spoiled(found: &Found, how: usize) -> Option<(&'static str, Found)> {
    let mut next = found.clone();
    let name = match how {
        0 => {
            next.reply.value ^= 1 << 40;
            "value"
        }
        1 => {
            next.reply.index ^= 1;
            "index"
        }
        2 => {
            next.reply.refusal ^= 1;
            "refusal"
        }
        3 => {
            next.reply.count ^= 1;
            "count"
        }
        4 => spoil_byte(next.room.lent_mut(), 0, "first byte of the room")?,
        5 => {
            let past = 16 * found.reply.count as usize + 8;
            spoil_byte(next.room.lent_mut(), past, "byte behind the section")?
        }
        6 => spoil_byte(next.next_tuner.lent_mut(), 77, "last byte of the next tuner record")?,
        7 => spoil_byte(next.next_tuner.lent_mut(), 78, "byte behind the next tuner record")?,
        8 => spoil_byte(next.next_driver.lent_mut(), 28, "last byte of the next driver record")?,
        9 => spoil_byte(next.next_driver.lent_mut(), 29, "byte behind the next driver record")?,
        10 => spoil_byte(next.outcomes.lent_mut(), 0, "given outcome")?,
        11 => spoil_byte(next.replies.lent_mut(), 0, "given reply")?,
        12 => spoil_byte(next.tuner.lent_mut(), 37, "given tuner record")?,
        13 => spoil_byte(next.driver.lent_mut(), 5, "given driver record")?,
        14 => spoil_byte(next.input.lent_mut(), 0, "given input")?,
        15 => spoil_byte(next.room.margin_mut(), 0, "byte behind the lent room")?,
        16 => spoil_byte(next.next_tuner.margin_mut(), 0, "byte behind the slice for the next tuner record")?,
        17 => {
            next.seen.0 ^= 1;
            "tries"
        }
        18 => {
            next.seen.1 ^= 1;
            "lock"
        }
        _ => spoil_byte(next.tuner.margin_mut(), 0, "byte behind the given tuner record")?,
    };
    Some((name, next))
}

pub const SPOILS: usize = 20;

fn spoil_byte(bytes: &mut [u8], at: usize, name: &'static str) -> Option<&'static str> {
    *bytes.get_mut(at)? ^= 0x80;
    Some(name)
}
