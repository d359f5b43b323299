//! A receiver on the bus, and the signals that end a run.
pub mod device;
pub mod signals;
