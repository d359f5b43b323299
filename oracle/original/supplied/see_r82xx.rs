// Access to the chip's private state: what a record holds of it, read and put whole.

/// The changing part of an R82xx.
#[derive(Debug, Clone, Copy, PartialEq)]
pub struct Seen {
    pub shadow: [u8; NUM_REGS],
    pub corrected: u64,
    pub lock: bool,
    pub gain: f32,
    pub intermediate: u64,
    pub notch: bool,
}

pub static SEEN_INIT: [u8; NUM_REGS] = INIT_ARRAY;
pub const SEEN_STEPS: [i32; 29] = GAIN_STEPS;

impl R82xx {
    pub fn see(&self) -> Seen {
        Seen {
            shadow: *self.regs.lock(),
            corrected: *self.xtal_freq.lock(),
            lock: *self.has_lock.lock(),
            gain: *self.current_gain.lock(),
            intermediate: *self.current_if.lock(),
            notch: *self.in_notch.lock(),
        }
    }
    pub fn put(&self, seen: &Seen) {
        *self.regs.lock() = seen.shadow;
        *self.xtal_freq.lock() = seen.corrected;
        *self.has_lock.lock() = seen.lock;
        *self.current_gain.lock() = seen.gain;
        *self.current_if.lock() = seen.intermediate;
        *self.in_notch.lock() = seen.notch;
    }
}

pub fn see_bit_reverse(b: u8) -> u8 {
    bit_reverse(b)
}
