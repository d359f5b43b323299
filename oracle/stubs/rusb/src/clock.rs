//! A sleep that takes no time: it is an entry (kind 9, its milliseconds as address).
use std::time::Duration;

pub fn sleep(time: Duration) {
    drop(crate::rec::step(9, 0, 0, time.as_millis() as u16, &[]));
}
