//! The original is compiled with this crate named `std`: all of std, but a thread's sleep is a recorded wait.
//! So no line of the original has to be edited for it.
pub use ::std::*;

pub mod thread {
    pub use ::std::thread::*;
    pub use rusb::clock::sleep;
}
