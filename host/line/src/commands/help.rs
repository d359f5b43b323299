//! The pages of help, made from the tables of words/, and the version.
use crate::printed::out::Out;
use crate::words::commands::{COMMANDS, Command, named};
use crate::words::given::Given;
use crate::words::named::shown;
use crate::words::options::option;

/// `help` and `help COMMAND`.
pub fn run(given: &Given, out: &mut Out) {
    match given.operands.as_slice() {
        _ if out.is_mistaken() => {}
        [] => page(None, out),
        [name] => match named(name) {
            Some(command) => page(Some(command), out),
            None => out.mistake(&format!("there is no command `{}`: give one of those that `./pasetone --help` lists", shown(name))),
        },
        _ => out.mistake("help wants one command at most"),
    }
}

pub fn version(out: &mut Out) {
    let (major, minor, patch) = pasetone::version();
    out.line(&format!("pasetone {major}.{minor}.{patch}"));
}

pub fn page(command: Option<&Command>, out: &mut Out) {
    match command {
        Some(command) => of_command(command, out),
        None => of_all(out),
    }
}

fn of_all(out: &mut Out) {
    for (at, command) in COMMANDS.iter().enumerate() {
        let lead = if at == 0 { "use: " } else { "     " };
        let words = format!("{} {}", command.name, command.operands);
        out.line(&format!("{lead}./pasetone {words:<27} {}", command.about));
    }
    out.line("");
    out.line("`./pasetone COMMAND --help` has its options, `./pasetone --version` the library's version.");
    ends(out);
}

fn of_command(command: &Command, out: &mut Out) {
    let options = if command.options.is_empty() { "" } else { " [--option value ..]" };
    out.line(&format!("use: ./pasetone {} {}{options}", command.name, command.operands));
    out.line(&format!("{}.", command.about));
    out.line("");
    for line in command.more {
        out.line(line);
    }
    if !command.options.is_empty() {
        out.line("");
        out.line("options, also as --option=value:");
    }
    for key in command.keys() {
        let row = option(key);
        let words = format!("{} {}", row.name, row.value.unwrap_or(""));
        let default = if row.default.is_empty() { String::new() } else { format!(" ({})", row.default) };
        out.line(&format!("  {words:<20} {}{default}", row.about));
    }
    out.line("");
    out.line(&format!("example: ./pasetone {}", command.example));
    ends(out);
}

fn ends(out: &mut Out) {
    out.line("");
    out.line("exit status: 0 done, and locked where it tunes; 1 refused, damaged, or two nights part; 2 bad");
    out.line("words or files; 3 a step failed: reload, then the same call again; 4 not locked; 5 doubtful: a");
    out.line("register, or the station. Where several hold, the first of 2, 3, 1, 5, 4.");
}
