//! What is on file: sections, records, states, nights and their logs.
pub mod disk;
pub mod filed;
pub mod kept;
pub mod log;
pub mod logged;
mod opened;
pub mod owed;
pub mod parts;
pub mod pcap;
pub mod record;
pub mod sections;
pub mod state;
pub mod station;
pub mod terminal;
