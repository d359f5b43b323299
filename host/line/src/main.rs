//! The command line of Pasetone, over the Rust host. `../../pasetone` builds and runs it. The exit status is printed/out.rs's `End`.
//!
//! A folder knows those that stand before it here, and none behind it: printed, words, bus, files, runs, judged, commands.
//! A new command is a row in words/commands.rs, and a file and a row in commands/.
#![deny(unsafe_code)]

mod bus;
mod commands;
mod files;
mod judged;
mod printed;
mod runs;
mod words;

use printed::out::Out;
use std::process::ExitCode;

fn main() -> ExitCode {
    let mut out = Out::standard();
    if let Some(asked) = words::given::asked(std::env::args_os().skip(1).collect(), &mut out) {
        commands::run(&asked, &mut out);
    }
    out.finish()
}
