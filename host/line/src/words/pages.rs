//! The lines of each command's own page of help.

pub const HOP: &[&str] = &[
    "It makes a fresh record and calls set_ppm (where --ppm is given), initialise, sample rate, gain,",
    "IF and demod IF (where another IF is given than the rate's own) and tune: the board's input,",
    "tuner and spectrum by the plan of its table. Without --device outcomes and replies stand in for a",
    "receiver. It prints each step, the answer and the registers.",
    "With --record it starts from a kept record in place of a fresh one, and calls initialise, sample",
    "rate, gain and IF only where --initialise, --rate, --gain and --if are given. A call that was cut",
    "and is not made again, or never made, is owed: the record keeps that, and while one is owed the",
    "station is told as UNKNOWN, with the line that mends it. A table is not in the record: give --table",
    "again. With --settings HZ may be left out; a word that is given wins. Over a kept record they must",
    "be of its kind and its board, and their correction, rate, gain and IF are called.",
    "--state is one file in place of --record and --keep: a new one begins with a fresh record, and each",
    "call is stored in it with its section in --append. A run that died is recovered by the next one with",
    "its state, first of all and in a line; runs at once on one state wait for each other.",
    "With --device the steps go to a receiver on the bus (docs/RECEIVER.md), by the state: one that",
    "it does not know, or that was plugged in anew, is brought up whole (see start), doubtful",
    "registers are sent again, and every call that is owed is made. A call that a step stopped is",
    "made again behind a reload, three times at most. Not locked, doubtful or beside its station is",
    "told as without --device.",
    "HZ, --reference, --rate and --if are written as 102300000, 102300k or 102.3M; other numbers are",
    "decimal, or hexadecimal behind 0x. A lock at the first try is 0x0a in every reply (r820t: 0x06).",
];

pub const RELOAD: &[&str] = &[
    "RECORD is a file that --keep has written. The call sends the bytes of the record's shadow to the",
    "registers 0x05 to 0x1f. Where every step is done, none is doubtful any more. It is half of the way",
    "back after a step that failed: the shadow has the bytes that the cut call came to, so the receiver",
    "may stand beside its station, and of demodulator and board's input nothing is sent at all. Make the",
    "call that was cut again, until it is done; the line that reload ends with has it. Where nothing is",
    "owed it ends with 4: the PLL was sent its bytes again, and a tuning has to read the lock. Without",
    "--device outcomes stand in for a receiver. The record's file stays as it is; --keep writes the next",
    "record, and may name the same file. A record does not name a table: give --table again. With",
    "--state no RECORD is named: the state has it, with its table. With --device the steps go to that",
    "receiver on the bus, three times more where one fails; one that was plugged in anew has nothing",
    "to be sent again, and is told: start or hop brings it up.",
];

pub const WHERE: &[&str] = &[
    "RECORD is a file that --keep has written. The oscillator is told by the bytes last sent to 0x10,",
    "0x12, 0x14, 0x15 and 0x16, where none of them is doubtful, and the recording's centre as the",
    "oscillator less the IF, with the board's shift taken back. A tuning that is done leaves it within",
    "25 kHz / m of what was asked (m 32: 782 Hz); where it is further off the line says BESIDE",
    "and by how much. Of the demodulator the record knows nothing: what was cut there is owed, and then",
    "the station is UNKNOWN. The exit status is 0 where the receiver stands on its station, locked.",
    "A record does not name a table: give --table again. With --state no RECORD is named.",
];

pub const FEED: &[&str] = &[
    "FILE is what a serial line has brought: commands of nine bytes, an operation and its argument, low",
    "byte first, zeros above it: 1 frequency (Hz, u64), 2 rate (u32), 3 gain (dB, binary32), 4 gain",
    "index (u8), 5 bandwidth (Hz, u32), 6 correction (ppm, i32), 7 reload (0). Other bytes are refused",
    "by 14. A refused or stopped command is answered, and the next one runs; bytes at the end that are",
    "no whole command do nothing. After a stopped command send reload, then that command again; a rate",
    "or a correction moves the station, so send the frequency again after it. The exit status is 0",
    "where all were done and locked, no byte is left, nothing is doubtful, and the station is known.",
    "FILE has any size; - is standard input, fed as it comes; a terminal must be raw. It ends where the",
    "line ends, by INT, TERM or HUP, or where nobody reads what is printed; --keep, --section, --append",
    "and --state have the commands made till then, --append and --state each when it is answered; --state",
    "is as in hop. --json prints a line for the receiver, one for each command and one at the end.",
    "Without --device outcomes and replies stand in for a receiver, and each command goes on in them",
    "where the ones before have ended. A fresh record is not initialised, so that registers which no",
    "command writes are doubtful and the station is not known: --keep of hop makes one that is.",
    "With --device the commands go to that receiver on the bus, which is brought up first where the state",
    "does not know it; a command that a step stopped is made again behind a reload, three times at most.",
];

pub const NIGHT: &[&str] = &[
    "FILE is a night's file of one receiver, as --append writes it. A hop is a tuning, with what led to",
    "it and all that was sent up to the next one. Its line has what was asked, the recording's centre",
    "and rate by the bytes sent, the lock and its tries, the count of doubtful registers, and a verdict:",
    "  right       asked; all sure; every call done; locked; the centre where a tuning leaves it",
    "  beside ..   oscillator and IF are sure, and the centre is elsewhere (FM: -781 to +569 Hz is right)",
    "  not locked  all but the lock: its last status is without the bit, or was not read since",
    "  doubtful    a call was not done, or a byte was sent in vain, and not again since",
    "  unknown     no log tells what was asked or answered, or something was never sent in this file",
    "What was asked and answered stands in the log that --log of hop, feed and reload writes: FILE.log,",
    "or --log. Without one give --asked, a frequency for each hop, and where they are others than usual",
    "--address, --reference, --board or --table. The same frequency again within two minutes of a hop",
    "that was not right is another attempt at it: the last counts, and a line says how many there were.",
    "A file with bytes that are no section is not judged. The exit status is 0 only where every hop of",
    "every file is right; 4 where the worst is not locked; 5 beside, doubtful, unknown or no hop; 1 a",
    "damaged file, or a log that is not the file's. --json prints a line for each hop, one for each",
    "receiver and one for all.",
];

pub const SHOW: &[&str] = &[
    "A file holds sections end to end, as --section of hop writes them, and has any size; - is",
    "standard input, to 1 GiB. A damaged section is told by its number and bytes, with those of its",
    "entries that are whole; sections behind it keep their own numbers, and the exit status is 1.",
    "A kept record is shown as `where` tells it. --sections shows some of them, of each file by its own",
    "numbers, and says nothing of the others.",
];

pub const HELD: &[&str] = &[
    "The files hold sections end to end, as --section of hop writes them, the oldest first; - is",
    "standard input. A register is sure if its last write was done: the chip holds that byte. It is",
    "DOUBTFUL if its last write failed, or if none of the sections writes it. Steps are counted from 0",
    "over all files. What a damaged part has sent is not known: it is told by its bytes, behind it every",
    "register is DOUBTFUL until a whole section writes it, and the exit status is 1; else 5 where a",
    "register is doubtful. The oscillator is told by five of them and --reference, which is the",
    "corrected one: sections do not name it.",
    "A file that begins anew is told: its first write to the chip is a whole initialisation, so that",
    "nothing before it counts, of this receiver or another; or it writes to other chips alone. Two",
    "receivers that both go on without one look like one: --each tells each file by itself.",
];

pub const RESTORE: &[&str] = &[
    "The files hold sections end to end, as --section of hop writes them, the oldest first; - is",
    "standard input. The list names each register of the chip whose last write was done, once, with",
    "its byte, in runs of at most seven: no list has fewer writes. It leaves those whose last write",
    "failed or that none writes, which `held` tells. Sent behind an open repeater it brings any chip",
    "there, but for what it leaves: then the exit status is 5. --out writes it as a section. Behind a",
    "damaged part, which is told by its bytes, nothing is known but what whole sections write: the list",
    "has these alone, and the exit status is 1. Of several files one that begins anew is told, as `held`",
    "tells it; --each makes a list of each file by itself.",
];

pub const PARTING: &[&str] = &[
    "Each file holds the sections of a night, as --section of hop writes them; one of the two may be -,",
    "standard input. Sections are put side by side by what they do, in order: one that was added or left",
    "out moves none of the others. Of what is left between two that are the same, sections that begin",
    "alike part, and are shown from where they do; the others are told as of one night alone, and `show",
    "FILE --sections N` has them. Outcomes and what reads gave are not compared, but shown where they",
    "differ: a step that failed is the same step, and those behind it are others. As many are found to be",
    "the same as can be, while the nights differ in fewer than a thousand sections in a stretch.",
    "Where the nights part, or a section is damaged, the exit status is 1.",
];

pub const PLAN: &[&str] = &[
    "It takes no step. The board's table says to which Hz the tuner goes, by which input, and whether",
    "the spectrum is inverted; the oscillator is those Hz plus the IF, and the PLL's numbers are the ones",
    "that a tuning sends. With --settings HZ may be left out; a word that is given wins. Where the IF is",
    "not given it is 2.3 MHz, as in a fresh record; `worksheet` shows how the numbers come about.",
];

pub const WORKSHEET: &[&str] = &[
    "LO is the oscillator's frequency, a tuner's Hz plus the IF, written as 104600000, 104600k or 104.6M.",
    "The rows are worked out as on the printed sheet: the range of lo, N, register 0x14, and the sum's",
    "sixteen lines. Below stand the answers of both engines of the library: the worksheet, and the one",
    "that tunings go by. They are proved to be the same; where one were not, the exit status is 1.",
];

pub const TABLE: &[&str] = &[
    "show prints the bands of a file, or of the built-in board of --board where no file is named, as",
    "lines of text. write reads such lines from a file, or from standard input (-), and --out has their",
    "bytes, for --table of hop and plan. A line is a band: first Hz, last Hz, shift, path (HF, VHF, UHF",
    "or none), spectrum (normal or inverted), notch (on or off); numbers are written as 2400000000,",
    "2400000k or 2.4G, a shift with a minus too. Behind # stands what is not read. Bands ascend and do",
    "not overlap; there are 16 at most. Of the lines that are none the first eight are told, and how many",
    "more there are.",
];

pub const SETTINGS: &[&str] = &[
    "show FILE prints the settings in which a file ends. write FILE HZ makes a file of the words; what",
    "no word says is taken from the file of --settings, and HZ too where it is left out, or else is what",
    "hop takes. move FILE writes the settings of one edition to --out in the other, which may be FILE.",
    "Edition 2 has the IF, edition 1 stands for 2.3 MHz and can say no other. --edition is the one to be",
    "written: 2 where it is not given, and in a move it must be. `hop --settings FILE` goes by them.",
];

pub const PACKETS: &[&str] = &[
    "FILE holds sections end to end, as --section of hop writes them; - is standard input. Each step is",
    "shown with its setup packet of 8 bytes and a write's data; behind a demod write that was done stands",
    "the read of page 0x0a; a wait has no packet. --out writes the packets end to end, for a box that",
    "speaks raw control transfers; `entries` reads them back. A damaged part is told by its bytes and",
    "passed over, a step without a packet of its own ends it: then none are written, and the exit status",
    "is 1. --repeater opens the repeater before each section that speaks to a chip on I2C and has no",
    "repeater step of its own, as a list of `restore`, and closes it behind it. --pcap writes the same",
    "transfers for Wireshark, each with its completion: what was read, or an error where it failed.",
    "Sections tell no bus, device or time: it is bus 0, device 1, and a microsecond for each record.",
];

pub const ENTRIES: &[&str] = &[
    "FILE holds setup packets end to end, each with a write's data, as `packets --out` writes them; - is",
    "standard input. They come back as one section without waits, outcomes and what was read: each step",
    "as if it was done, and a repeater as the demod write that it became. --out writes the section.",
    "Where no section has these packets, or more than 4096 steps, the exit status is 1.",
];

pub const DEVICES: &[&str] = &[
    "A line for each receiver that sysfs lists (0bda:2838 and 0bda:2832): the number, which --device",
    "takes and which is another when receivers are plugged in or out; bus and device; id; port, which",
    "stays the same while it is plugged in there; serial; who has it; what it says of itself.",
    "--device takes the serial and the port too. A driver of the kernel that has it is refused, or",
    "detached by --detach; what another program has is refused. The exit status is 1 where none is",
    "plugged in.",
];

pub const START: &[&str] = &[
    "The order is that of the Rust's Driver::with_index, in the parts that document 01 has: power on,",
    "a wait of 100 ms; on a V4 GPIO 4 and 5, a wait of 250 ms; initialise, low IF, spectrum, IF,",
    "reset of the demodulator, its IF and rate, spectrum, streaming. Then sample rate, gain and IF by",
    "the words, as hop has them, and with HZ the tuning; a correction comes first. Nothing asks the",
    "chip for its kind: give --kind r820t where it is one, or the first write to the tuner is",
    "refused. The board is the V4, or by --board.",
    "A call that a step stopped is made again (behind a reload, once the tuner is initialised), three",
    "times at most. --state is made where it is not there; where it has a receiver that one's words",
    "are taken, and its record is begun anew. Without HZ the exit status is 0 where all but the",
    "tuning is done. INT, TERM and HUP end it behind the call under way.",
];

pub const RUN: &[&str] = &[
    "SCHEDULE is a text; what stands behind # is a comment. It has a line for each receiver, and",
    "behind it one for each of its stations:",
    "    receiver NAME DEVICE [kind r820t] [address N] [board generic] [table FILE] [reference HZ]",
    "             [ppm N] [rate N] [gain DB] [if HZ]                              (all in one line)",
    "        20:00 102.3M",
    "        21:00 98.5M",
    "NAME is written into the log, and names three files in the folder: NAME.state, NAME.night and",
    "NAME.night.log, as --state, --append and --log of hop have them; `night` judges the last two.",
    "DEVICE is as --device takes it; the settings are start's. Times are UTC, and hold every day.",
    "When it begins each receiver goes to the station of that time, and then to each at its time, for",
    "--hours. A receiver is opened for each hop, and brought up where its state does not know it; a",
    "call that a step stopped is made again behind a reload, three times at most. A line is printed",
    "for each hop, a count at the end. INT, TERM and HUP end it behind the calls under way. Killed",
    "and run again it recovers every receiver, and goes on by the clock.",
    "The exit status is 0 only where every hop was made, is done, locked and on its station. --from",
    "and --speed are for a dry run on simulated receivers (docs/RECEIVER.md).",
];

pub const COMPLETION: &[&str] = &[
    "It prints a script for bash or zsh that completes commands, their options, the values that an",
    "option may have, and files. host/install.sh puts both where the shells look. By hand, in bash:",
    "`source <(./pasetone completion bash)`; in zsh the output is a file `_pasetone` of a folder of",
    "fpath.",
];

pub const HELP: &[&str] = &["The same as `./pasetone --help` and `./pasetone COMMAND --help`."];
