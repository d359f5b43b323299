//! The table of commands: their words, options and pages of help, and nothing of what they do (commands/mod.rs has that). All help is made from it.
//!
//! A new command is a row here, its page in pages.rs, and a file with its `run` and a row in commands/.
use crate::words::options::{BUS, KEEP, Key, NIGHT, PRINTS, SCRIPT, TUNER, VALUES};
use crate::words::pages;
use std::ffi::OsStr;

pub struct Command {
    pub name: &'static str,
    /// What stands behind the name, as help has it.
    pub operands: &'static str,
    /// One line.
    pub about: &'static str,
    /// The lines of its own page.
    pub more: &'static [&'static str],
    /// Words behind `./pasetone` that a reader can try.
    pub example: &'static str,
    /// In the order of its page.
    pub options: &'static [&'static [Key]],
}

impl Command {
    pub fn keys(&self) -> impl Iterator<Item = Key> {
        self.options.iter().copied().flatten().copied()
    }
}

pub const COMMANDS: &[Command] = &[
    Command {
        name: "hop",
        operands: "[HZ]",
        about: "the calls that lead to a frequency, in words",
        more: pages::HOP,
        example: "hop 102.3M --fail 60 --keep record --section sections",
        options: &[TUNER, VALUES, &[Key::Initialise], SCRIPT, &[Key::Replies], BUS, &[Key::Record], KEEP, NIGHT, PRINTS],
    },
    Command {
        name: "reload",
        operands: "[RECORD]",
        about: "every register of a kept record, sent again",
        more: pages::RELOAD,
        example: "reload record --keep record",
        options: &[&[Key::Table], SCRIPT, BUS, KEEP, NIGHT, PRINTS],
    },
    Command {
        name: "where",
        operands: "RECORD",
        about: "which station a kept record stands on",
        more: pages::WHERE,
        example: "where record",
        options: &[&[Key::Table, Key::State], PRINTS],
    },
    Command {
        name: "feed",
        operands: "FILE",
        about: "the commands of a serial line, one by one",
        more: pages::FEED,
        example: "feed line --record record --keep record --append sections",
        options: &[&[Key::Cut], TUNER, &[Key::Reference], SCRIPT, &[Key::Replies], BUS, &[Key::Record], KEEP, NIGHT, PRINTS],
    },
    Command {
        name: "night",
        operands: "FILE..",
        about: "what each recording is, by what was sent",
        more: pages::NIGHT,
        example: "night sections --html night.html",
        options: &[&[Key::Joined, Key::Whose, Key::Asked, Key::Tuner, Key::Reference, Key::Board, Key::Table, Key::Html], PRINTS],
    },
    Command {
        name: "show",
        operands: "FILE..",
        about: "sections of transcripts, in words",
        more: pages::SHOW,
        example: "show sections",
        options: &[&[Key::Sections], PRINTS],
    },
    Command {
        name: "held",
        operands: "FILE.. --address N",
        about: "what a chip holds behind sections",
        more: pages::HELD,
        example: "held sections --address 0x74",
        options: &[&[Key::Chip, Key::Reference, Key::Each, Key::Sections], PRINTS],
    },
    Command {
        name: "restore",
        operands: "FILE.. --address N",
        about: "the fewest writes that bring a chip there",
        more: pages::RESTORE,
        example: "restore sections --address 0x74 --out list",
        options: &[&[Key::Chip, Key::Each, Key::Sections, Key::Out], PRINTS],
    },
    Command {
        name: "parting",
        operands: "LAST TONIGHT",
        about: "where the sections of two nights part",
        more: pages::PARTING,
        example: "parting monday tuesday",
        options: &[&[Key::Sections], PRINTS],
    },
    Command {
        name: "plan",
        operands: "[HZ]",
        about: "how a board is tuned to a frequency",
        more: pages::PLAN,
        example: "plan 7.1M --board v4",
        options: &[&[Key::Kind, Key::Board, Key::Table, Key::Settings, Key::Reference, Key::Ppm, Key::If], PRINTS],
    },
    Command {
        name: "worksheet",
        operands: "LO",
        about: "the PLL's numbers, row by row",
        more: pages::WORKSHEET,
        example: "worksheet 104.6M",
        options: &[&[Key::Kind, Key::Reference, Key::Ppm], PRINTS],
    },
    Command {
        name: "table",
        operands: "show|write [FILE]",
        about: "a board's bands, as text and as bytes",
        more: pages::TABLE,
        example: "table write bands.txt --out board.table",
        options: &[&[Key::Board, Key::Out], PRINTS],
    },
    Command {
        name: "settings",
        operands: "show|write|move FILE",
        about: "a receiver's settings on file",
        more: pages::SETTINGS,
        example: "settings write site 102.3M --ppm -3 --gain 29.7",
        options: &[&[Key::Kind, Key::Board, Key::Settings, Key::Ppm, Key::Rate, Key::Gain, Key::If, Key::Edition, Key::Out], PRINTS],
    },
    Command {
        name: "packets",
        operands: "FILE",
        about: "sections as USB setup packets",
        more: pages::PACKETS,
        example: "packets sections --out packets",
        options: &[&[Key::Sections, Key::Repeater, Key::Out, Key::Pcap], PRINTS],
    },
    Command {
        name: "entries",
        operands: "FILE",
        about: "setup packets, back as a section",
        more: pages::ENTRIES,
        example: "entries packets --out section",
        options: &[&[Key::Out], PRINTS],
    },
    Command {
        name: "devices",
        operands: "",
        about: "the receivers that are plugged in",
        more: pages::DEVICES,
        example: "devices",
        options: &[PRINTS],
    },
    Command {
        name: "start",
        operands: "[HZ] --device N",
        about: "a receiver on the bus, from power on",
        more: pages::START,
        example: "start 102.3M --device 0 --state state --append night",
        options: &[&[Key::Device, Key::Detach, Key::State], NIGHT, TUNER, VALUES, PRINTS],
    },
    Command {
        name: "run",
        operands: "SCHEDULE --folder DIR",
        about: "a night of many receivers",
        more: pages::RUN,
        example: "run schedule --folder tonight",
        options: &[&[Key::Folder, Key::From, Key::Hours, Key::Speed, Key::Detach, Key::Quiet]],
    },
    Command {
        name: "completion",
        operands: "bash|zsh",
        about: "what a shell completes, as a script",
        more: pages::COMPLETION,
        example: "completion bash",
        options: &[],
    },
    Command {
        name: "help",
        operands: "[COMMAND]",
        about: "this page, or a command's",
        more: pages::HELP,
        example: "help hop",
        options: &[],
    },
];

/// The command of a name.
pub fn named(name: &OsStr) -> Option<&'static Command> {
    COMMANDS.iter().find(|command| name == command.name)
}

#[cfg(test)]
mod tests {
    use super::*;
    use crate::words::options::{OPTIONS, option};

    #[test]
    fn every_option_has_its_row() {
        for row in OPTIONS {
            assert!(option(row.key).about == row.about, "{}", row.name);
            assert!(COMMANDS.iter().any(|command| command.keys().any(|key| key == row.key)), "no command has {}", row.name);
        }
        for command in COMMANDS {
            for (at, key) in command.keys().enumerate() {
                assert!(option(key).key == key);
                assert!(command.keys().take(at).all(|other| option(other).name != option(key).name), "{}", option(key).name);
            }
        }
    }
}
