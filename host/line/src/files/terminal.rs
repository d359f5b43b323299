//! A line that is a terminal: in cooked mode it would change bytes, hold them back until a line ends, or take one for a signal. So it is refused, with the command that
//! mends it; what the terminal is set to is asked of `stty`.
use crate::words::named::{is_standard, shown};
use std::ffi::OsStr;
use std::fs::{File, OpenOptions};
use std::io::{self, IsTerminal};
use std::os::unix::fs::OpenOptionsExt;
use std::process::{Command, Stdio};

/// A serial line that is opened does not become the terminal of this process, whose hang-up would end it.
const O_NOCTTY: i32 = 0o400;

/// What would change or hold back bytes, as `stty -a` names it where it is off.
const OFF: [&str; 9] = ["-icanon", "-icrnl", "-inlcr", "-igncr", "-istrip", "-ixon", "-isig", "-brkint", "-echo"];

pub fn open(name: &OsStr) -> io::Result<File> {
    OpenOptions::new().read(true).custom_flags(O_NOCTTY).open(name)
}

/// What is wrong with a line that is a terminal; nothing where it is none.
pub fn judged(name: &OsStr) -> Result<(), String> {
    let line = if is_standard(name) {
        io::stdin().is_terminal().then(Stdio::inherit)
    } else {
        open(name).ok().filter(File::is_terminal).map(Stdio::from)
    };
    let Some(line) = line else { return Ok(()) };
    let (whose, mends) = if is_standard(name) {
        (String::from("standard input"), String::from("stty raw -echo"))
    } else {
        (shown(name), format!("stty -F {} raw -echo", shown(name)))
    };
    let asked = Command::new("stty").arg("-a").env("LC_ALL", "C").stdin(line).stderr(Stdio::null()).output();
    let Some(told) = asked.ok().filter(|asked| asked.status.success()) else {
        return Err(format!("{whose}: a terminal, and `stty` does not say how it is set: give a pipe or a file"));
    };
    let told = String::from_utf8_lossy(&told.stdout).into_owned();
    let words: Vec<&str> = told.split([' ', ';', '\n']).collect();
    let on: Vec<&str> = OFF.iter().filter(|word| !words.contains(word)).map(|word| &word[1..]).collect();
    if on.is_empty() {
        return Ok(());
    }
    Err(format!("{whose}: a terminal that changes or holds back bytes ({}): first run `{mends}`", on.join(", ")))
}
