//! The table of options, and those that several commands have in common. A new option is a row of `OPTIONS`.

#[derive(Clone, Copy, PartialEq, Eq)]
pub enum Key {
    Kind,
    Address,
    /// The same word where it is asked for: a chip in a transcript has no kind that it could be known by.
    Chip,
    Board,
    Table,
    Settings,
    Reference,
    Ppm,
    Rate,
    Gain,
    If,
    Edition,
    Initialise,
    Fail,
    Outcomes,
    Replies,
    Cut,
    Section,
    Append,
    Log,
    Name,
    /// The log that is joined, the receiver that it is of, and the chip, where a night is judged.
    Joined,
    Whose,
    Tuner,
    Asked,
    Html,
    Out,
    Sections,
    Each,
    Repeater,
    Pcap,
    State,
    Device,
    Detach,
    Folder,
    From,
    Hours,
    Speed,
    Record,
    Keep,
    Json,
    Quiet,
}

pub struct Opt {
    pub key: Key,
    pub name: &'static str,
    /// What its value is called; `None` where it has none.
    pub value: Option<&'static str>,
    /// What its value has to be, as a mistake says it.
    pub wants: &'static str,
    pub about: &'static str,
    /// What holds where it is not given.
    pub default: &'static str,
}

/// One row of the table below: key, name, value, wants, about, default.
const fn row(
    key: Key,
    name: &'static str,
    value: Option<&'static str>,
    wants: &'static str,
    about: &'static str,
    default: &'static str,
) -> Opt {
    Opt { key, name, value, wants, about, default }
}

/// What a file's option wants.
pub const A_FILE: &str = "a file's name";
const A_SCRIPT: &str = "a file's name, or - for standard input";

#[rustfmt::skip]
pub const OPTIONS: &[Opt] = &[
    row(Key::Kind, "--kind", Some("r828d|r820t"), "r828d or r820t", "the tuner's kind", "r828d"),
    row(Key::Address, "--address", Some("N"), "a number to 255 (0xff)", "its address on the bus", "0x74; r820t: 0x34"),
    row(Key::Chip, "--address", Some("N"), "a number to 255 (0xff)", "the chip's address on I2C, as 0x74 (R828D) or 0x34 (R820T)", "must be given"),
    row(Key::Board, "--board", Some("v4|generic"), "v4 or generic", "the board", "v4"),
    row(Key::Table, "--table", Some("FILE"), A_SCRIPT, "the board as a table of bands, as `table write` makes it", "the board's own"),
    row(Key::Settings, "--settings", Some("FILE"), A_SCRIPT, "what no word says is taken from these settings", "none"),
    row(Key::Reference, "--reference", Some("HZ"), "a whole number of Hz to 4294967295, as 28800000 or 28.8M", "the reference", "28.8M"),
    row(Key::Ppm, "--ppm", Some("N"), "a number from -2147483648 to 2147483647", "the reference's correction, parts per million", "not called"),
    row(Key::Rate, "--rate", Some("N"), "a whole number to 4294967295, as 2048000 or 2.4M", "samples a second", "2.048M; --record: not called"),
    row(Key::Gain, "--gain", Some("DB"), "dB from -6553.5 to 6553.5, as 29.7", "at most one digit behind the point", "29.7; --record: not called"),
    row(Key::If, "--if", Some("HZ"), "a whole number of Hz to 4294967295, as 2300000 or 2.3M", "the IF, of tuner and demodulator", "the rate's own; plan: 2.3M"),
    row(Key::Edition, "--edition", Some("1|2"), "1 or 2", "the edition to be written", "2; move: must be given"),
    row(Key::Initialise, "--initialise", None, "", "initialise is called over the record of --record too", ""),
    row(Key::Fail, "--fail", Some("N"), "a step's number, to 4095", "step N fails, counted from 0 over the whole run", "none"),
    row(Key::Outcomes, "--outcomes", Some("FILE"), A_SCRIPT, "a byte for each step: 0 done, any other failed", "all done"),
    row(Key::Replies, "--replies", Some("FILE"), A_SCRIPT, "what is read: 3 bytes where hop's board has paths, then 35 a tuning", "a lock"),
    row(Key::Cut, "--cut", Some("N"), "a number from 1", "so many bytes are fed at once; what is printed is the same", "as it is read"),
    row(Key::State, "--state", Some("FILE"), A_FILE, "one file for the receiver, in place of --record and --keep", "none"),
    row(Key::Device, "--device", Some("N|SERIAL"), "a receiver's number, serial or port, as `devices` lists them", "the receiver on the bus that the steps go to; with --state", "none"),
    row(Key::Detach, "--detach", None, "", "a driver of the kernel that holds the receiver is detached, for good", ""),
    row(Key::Folder, "--folder", Some("DIR"), "a folder's name", "the receivers' states, nights and logs are there; it is made", "must be given"),
    row(Key::From, "--from", Some("HH:MM"), "a time of day, as 20:00", "the night's clock begins at this time", "now, UTC"),
    row(Key::Hours, "--hours", Some("N"), "a number from 1 to 240", "it ends after so many hours", "24"),
    row(Key::Speed, "--speed", Some("N"), "a number from 1 to 1000000", "the night's clock goes so many times as fast", "1"),
    row(Key::Record, "--record", Some("FILE"), A_SCRIPT, "the record to start from, as --keep has left it", "a fresh one"),
    row(Key::Keep, "--keep", Some("FILE"), A_FILE, "the record is written there at the end, also of a stopped run", "none"),
    row(Key::Section, "--section", Some("FILE"), A_FILE, "the sections, end to end, are written there; a file there is replaced", "none"),
    row(Key::Append, "--append", Some("FILE"), A_FILE, "the sections are written there behind what the file holds", "none"),
    row(Key::Log, "--log", Some("FILE"), A_FILE, "a line of JSON for each section of --append, as `night` joins it", "none"),
    row(Key::Name, "--name", Some("NAME"), "a name of at most 64 characters", "the receiver's, for the lines of --log", "none"),
    row(Key::Joined, "--log", Some("FILE"), A_FILE, "the log of the one FILE", "FILE.log beside it, if there"),
    row(Key::Whose, "--name", Some("NAME"), "a receiver's name", "the receiver, where the log is of several", "all"),
    row(Key::Asked, "--asked", Some("HZ,HZ.."), "frequencies with commas between, as 102.3M,7.1M", "what each hop was asked, without a log", "none"),
    row(Key::Tuner, "--address", Some("N"), "a number to 255 (0xff)", "the chip's address, without a log", "the first written to"),
    row(Key::Html, "--html", Some("FILE"), A_FILE, "the same as a page for a browser; a file there is replaced", "none"),
    row(Key::Out, "--out", Some("FILE"), A_FILE, "the answer's bytes are written there; a file there is replaced", "none"),
    row(Key::Sections, "--sections", Some("A-B"), "numbers that `show` prints, as 3, 3-5 or 3-", "these sections alone, by the numbers that `show` prints", "all"),
    row(Key::Each, "--each", None, "", "a row for each file by itself", ""),
    row(Key::Repeater, "--repeater", None, "", "opens and closes the repeater for sections that speak to a chip without", ""),
    row(Key::Pcap, "--pcap", Some("FILE"), A_FILE, "the transfers are written there for Wireshark; a file is replaced", "none"),
    row(Key::Json, "--json", None, "", "the same as JSON in place of the table", ""),
    row(Key::Quiet, "--quiet", None, "", "print nothing but what went wrong; the exit status tells the rest", ""),
];

pub fn option(key: Key) -> &'static Opt {
    // Every key has a row: the test below.
    OPTIONS.iter().find(|row| row.key == key).unwrap_or(&OPTIONS[0])
}

/// Which tuner it is, on which board.
pub const TUNER: &[Key] = &[Key::Kind, Key::Address, Key::Board, Key::Table];
/// What a receiver is set to.
pub const VALUES: &[Key] = &[Key::Settings, Key::Reference, Key::Ppm, Key::Rate, Key::Gain, Key::If];
/// What stands in for a receiver.
pub const SCRIPT: &[Key] = &[Key::Fail, Key::Outcomes];
/// The receiver's file, and the receiver itself.
pub const BUS: &[Key] = &[Key::State, Key::Device, Key::Detach];
/// What a run leaves.
pub const KEEP: &[Key] = &[Key::Keep, Key::Section];
/// The night's file and its log.
pub const NIGHT: &[Key] = &[Key::Append, Key::Log, Key::Name];
/// How it is printed.
pub const PRINTS: &[Key] = &[Key::Json, Key::Quiet];
