//! That a line may be ended by INT, TERM or HUP: what comes is noted, and `feed` ends behind the command that it is at, as where the line ends.
//!
//! The standard library has no signals, and nothing is taken from a registry: these are the only lines of the program that are not safe Rust. C's `signal` is enough: the
//! handler does nothing but store, and no call hangs on being interrupted, since the line is read by a thread of its own.
#![allow(unsafe_code)]
use std::sync::atomic::{AtomicBool, Ordering};

static CAME: AtomicBool = AtomicBool::new(false);

/// HUP, INT and TERM, as Linux numbers them on every machine that the library is for.
const SIGNALS: [i32; 3] = [1, 2, 15];
const IGNORED: usize = 1;

unsafe extern "C" {
    /// A handler is a function, or a number below any function's place.
    fn signal(number: i32, handler: usize) -> usize;
}

extern "C" fn note(_: i32) {
    CAME.store(true, Ordering::Relaxed);
}

/// From here on they are noted. One that is ignored, as behind `nohup`, stays so.
pub fn heed() {
    let handler: extern "C" fn(i32) = note;
    for number in SIGNALS {
        // SAFETY: the numbers are signals that may be caught; the handler stores to an atomic and does nothing else, which a handler may.
        let before = unsafe { signal(number, handler as usize) };
        if before == IGNORED {
            // SAFETY: the same; the number stands for "ignored".
            unsafe { signal(number, IGNORED) };
        }
    }
}

pub fn came() -> bool {
    CAME.load(Ordering::Relaxed)
}
