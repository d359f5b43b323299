//! The commands, a file each. What a command is called, takes and says of itself is words/commands.rs; here is what it does.
mod completion;
mod devices;
mod entries;
mod feed;
mod held;
mod help;
mod hop;
mod night;
mod nightly;
mod packets;
mod parting;
mod plan;
mod reload;
mod restore;
mod settings;
mod show;
mod start;
mod table;
mod whereabouts;
mod worksheet;

use crate::printed::out::Out;
use crate::words::given::{Asked, Given};

/// What a command does, by its name. It does nothing where `out` is mistaken already, but for reading its words.
type Run = fn(&Given, &mut Out);
const RUNS: &[(&str, Run)] = &[
    ("hop", hop::run),
    ("reload", reload::run),
    ("where", whereabouts::run),
    ("feed", feed::run),
    ("night", night::run),
    ("show", show::run),
    ("held", held::run),
    ("restore", restore::run),
    ("parting", parting::run),
    ("plan", plan::run),
    ("worksheet", worksheet::run),
    ("table", table::run),
    ("settings", settings::run),
    ("packets", packets::run),
    ("entries", entries::run),
    ("devices", devices::run),
    ("start", start::run),
    ("run", nightly::run),
    ("completion", completion::run),
    ("help", help::run),
];

/// Does what the words ask for.
pub fn run(asked: &Asked, out: &mut Out) {
    match asked {
        Asked::Help(page) => help::page(*page, out),
        Asked::Version => help::version(out),
        Asked::Run(given) => {
            if let Some((_, run)) = RUNS.iter().find(|(name, _)| *name == given.command) {
                run(given, out);
            }
        }
    }
}

#[cfg(test)]
mod tests {
    use super::*;
    use crate::words::commands::COMMANDS;

    #[test]
    fn every_command_runs() {
        let runs: Vec<&str> = RUNS.iter().map(|(name, _)| *name).collect();
        assert_eq!(runs, COMMANDS.iter().map(|command| command.name).collect::<Vec<_>>());
    }
}
