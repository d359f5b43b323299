//! A night of receivers through the command line, by the advice that it prints: steps fail, PLLs do not lock, dividers are repaired, and every line that is
//! advised is pasted until a run ends with 0. A simulated receiver takes what was sent, from the night's file alone, and knows its own oscillator, IF and
//! rate; a failed write lands in any part. Held: no run that ends with 0 leaves it beside its station; and `night`, by the files alone, calls each recording right
//! that such a run has left, none right that the receiver says is wrong, and none beside its station that is not. One operator follows all advice; the other gives
//! up on some hops, or only reloads, and records all the same.
//!
//! PASETONE_NIGHT="receivers hours" makes a longer one, as docs/LIVE.md has it.
use std::fs;
use std::path::PathBuf;
use std::process::Command;

const BIN: &str = env!("CARGO_BIN_EXE_pasetone");
/// 28,800,000 Hz at -3 ppm, cut toward zero (document 01).
const XTAL: u64 = 28_799_914;

struct Random(u64);

impl Random {
    fn below(&mut self, bound: u64) -> u64 {
        self.0 = self.0.wrapping_mul(6_364_136_223_846_793_005).wrapping_add(1_442_695_040_888_963_407);
        (self.0 >> 33) % bound
    }

    fn percent(&mut self, share: u64) -> bool {
        self.below(100) < share
    }
}

/// What the chip and the demodulator hold: written from document 01 and the Rust, by entries alone.
struct Receiver {
    tuner: [u8; 256],
    /// Page 1.
    demod: [u8; 256],
    /// Whether the last status of three bytes had the lock's bit, since the PLL was last written.
    locked: bool,
}

impl Receiver {
    fn take(&mut self, entry: &[u8], random: &mut Random) {
        let (kind, failed, page, count) = (entry[0], entry[1] != 0, entry[2], usize::from(entry[3]));
        let (address, data) = (usize::from(u16::from_le_bytes([entry[4], entry[5]])), &entry[8..8 + count]);
        match kind {
            2 if count > 1 => {
                for (at, byte) in data[1..].iter().enumerate() {
                    let register = usize::from(data[0]) + at;
                    if matches!(register, 0x10 | 0x12 | 0x14 | 0x15 | 0x16) {
                        self.locked = false;
                    }
                    if !failed || random.percent(50) {
                        self.tuner[register] = *byte;
                    }
                }
            }
            // Bits are reversed: 0x02 is the lock's.
            3 if count == 3 && !failed => self.locked = data[2] & 0x02 != 0,
            4 | 5 if page == 1 => {
                for (at, byte) in data.iter().enumerate() {
                    if !failed || random.percent(50) {
                        self.demod[address + at] = *byte;
                    }
                }
                // A soft reset: what the other registers hold after it nobody says.
                if address == 0x01 && data[0] & 0x04 != 0 {
                    for register in [0x15, 0x19, 0x1a, 0x1b, 0x9f, 0xa0, 0xa1, 0xa2] {
                        self.demod[register] = random.below(256) as u8;
                    }
                }
            }
            _ => {}
        }
    }

    /// The oscillator less the demodulator's IF, in Hz.
    fn centre(&self) -> i64 {
        let byte = |register: usize| u64::from(self.tuner[register]);
        let sum = if byte(0x12) & 8 != 0 { 0 } else { 256 * byte(0x16) + byte(0x15) };
        let whole = 13 + 4 * (byte(0x14) & 63) + (byte(0x14) >> 6);
        let oscillator = 2 * XTAL * (65_536 * whole + sum) / (65_536 << (1 + (byte(0x10) >> 5)));
        let word = u64::from(self.demod[0x19] & 0x3f) << 16 | u64::from(self.demod[0x1a]) << 8 | u64::from(self.demod[0x1b]);
        let if_hz = (((1 << 22) - word) % (1 << 22) * XTAL) >> 22;
        oscillator as i64 - if_hz as i64
    }

    fn rate(&self) -> u64 {
        let ratio = (0..4).fold(0, |ratio, at| ratio << 8 | u64::from(self.demod[0x9f + at]));
        (XTAL << 22).checked_div(ratio).unwrap_or(0)
    }

    /// On a station at the rate asked, and locked. 782 Hz of the oscillator (25 kHz / 32), 7 of the IF's word.
    fn is_right(&self, hz: u64, rate: u64) -> bool {
        (self.centre() - hz as i64).abs() <= 790 && self.rate().abs_diff(rate) <= 2 && self.locked
    }
}

#[derive(Default, Debug)]
struct Count {
    recordings: usize,
    commands: usize,
    right: usize,
    /// Ended with another status and beside its station, or not locked: what the status is for.
    caught: usize,
    /// Of those, with no register doubtful in the record.
    caught_sure: usize,
    /// Ended with another status and right all the same.
    careful: usize,
    untrue: usize,
}

/// What the receiver says of an hour's recording, when the operator went on to the next.
struct Truth {
    hz: u64,
    centre: i64,
    rate: u64,
    is_right: bool,
    status: i32,
}

struct Night {
    folder: PathBuf,
    random: Random,
    count: Count,
    /// In a thousand steps so many fail.
    failing: u64,
    is_careless: bool,
}

impl Night {
    /// Files of outcomes and replies for the commands of one line.
    fn weather(&mut self) {
        for at in 0..4 {
            let outcomes: Vec<u8> = (0..400).map(|_| u8::from(self.random.below(1000) < self.failing)).collect();
            // No repair and a lock (0x0a); a repair up (0x02) or down (0x06, fine tune 2); no lock (0x08).
            let (fine, lock) = match self.random.below(20) {
                0 => (0x02, 0x0a),
                1 => (0x06, 0x0a),
                2 => (0x0a, 0x08),
                _ => (0x0a, 0x0a),
            };
            let mut replies = vec![lock; 60];
            replies[..8].copy_from_slice(&[1, 2, 3, 0x0a, 0x0a, 0x0a, 0x0a, fine]);
            fs::write(self.folder.join(format!("outcomes.{at}")), outcomes).unwrap();
            fs::write(self.folder.join(format!("replies.{at}")), replies).unwrap();
        }
    }

    /// A line for a shell, with the weather for a receiver; its status, and the line that it advises.
    fn shell(&mut self, line: &str) -> (i32, Option<String>) {
        self.weather();
        let program = "night() { case $1 in hop) set -- \"$@\" --replies \"replies.$n\" ;; esac; \
            (exec -a night \"$BIN\" \"$@\" --outcomes \"outcomes.$n\"); local status=$?; n=$((n + 1)); echo \"status $status\" >&2; return $status; }; n=0; ";
        let ran =
            Command::new("bash").args(["-c", &format!("{program}{line}")]).env("BIN", BIN).current_dir(&self.folder).output().unwrap();
        let told = String::from_utf8(ran.stderr).unwrap();
        self.count.commands += told.lines().filter(|line| line.starts_with("status ")).count();
        let advised = told.lines().filter_map(|line| line.split_once("to do: ")).next_back().map(|(_, line)| line.to_string());
        (ran.status.code().unwrap(), advised)
    }
}

/// The entries of sections end to end, from `from` on.
fn entries(night: &[u8], from: usize) -> Vec<[u8; 16]> {
    let (mut found, mut end) = (Vec::new(), night.len());
    while end > from {
        let count = u32::from_le_bytes(night[end - 8..end - 4].try_into().unwrap()) as usize;
        let start = end - 8 - 16 * count;
        found.extend(night[start..end - 8].chunks(16).rev().map(|entry| <[u8; 16]>::try_from(entry).unwrap()));
        end = start;
    }
    found.reverse();
    found
}

impl Night {
    fn new(name: &str, failing: u64, is_careless: bool) -> Night {
        let folder = std::env::temp_dir().join(format!("pasetone-night-{name}-{}", std::process::id()));
        fs::create_dir_all(&folder).unwrap();
        Night { folder, random: Random(2_026), count: Count::default(), failing, is_careless }
    }

    /// A receiver's hours, each with what the receiver says of it at its end.
    fn receiver(&mut self, receiver: u64, hours: u64) -> Vec<Truth> {
        let mut simulated = Receiver { tuner: [0; 256], demod: [0; 256], locked: false };
        let (record, file) = (format!("record.{receiver}"), format!("night.{receiver}"));
        let (mut read, mut rate, mut truths) = (0, 2_048_000u64, Vec::<Truth>::new());
        for hour in 0..hours {
            let mut hz = 87_500_000 + 100_000 * self.random.below(206);
            // Another than the last, so that each hour is a hop of its own.
            if truths.last().is_some_and(|last| last.hz == hz) {
                hz += 100_000;
            }
            let log = format!("--append {file} --log {file}.log --name 'rx <{receiver}>' --quiet");
            let mut line = format!("night hop {hz} --record {record} --keep {record} {log}");
            if hour == 0 {
                line = format!("night hop {hz} --ppm -3 --keep {record} {log}");
            } else if self.random.percent(20) {
                rate = [2_048_000, 2_400_000, 2_600_000][self.random.below(3) as usize];
                line += &format!(" --rate {rate}");
            }
            let mut status = self.hour(&mut simulated, &mut read, (&record, &file), line, (hz, rate));
            // Somebody sends a rate over the line behind it, and tunes nothing.
            if self.is_careless && self.random.percent(8) {
                rate = [2_048_000, 2_600_000][self.random.below(2) as usize];
                fs::write(self.folder.join("line"), [&[2u8][..], &rate.to_le_bytes()].concat()).unwrap();
                status = self.shell(&format!("night feed line --record {record} --keep {record} {log}")).0;
                self.send(&mut simulated, &mut read, &file);
            }
            let is_right = simulated.is_right(hz, rate);
            truths.push(Truth { hz, centre: simulated.centre(), rate: simulated.rate(), is_right, status });
            self.count.recordings += 1;
        }
        truths
    }

    /// What the night's file has more than before, to the receiver.
    fn send(&mut self, simulated: &mut Receiver, read: &mut usize, file: &str) {
        let bytes = fs::read(self.folder.join(file)).unwrap_or_default();
        for entry in entries(&bytes, *read) {
            simulated.take(&entry, &mut self.random);
        }
        *read = bytes.len();
    }

    /// The same call until it is done, as the advice says, or until the operator gives up; a night has an end. The last line's status.
    fn hour(
        &mut self,
        simulated: &mut Receiver,
        read: &mut usize,
        (record, file): (&str, &str),
        mut line: String,
        (hz, rate): (u64, u64),
    ) -> i32 {
        for _ in 0..3_000 {
            let (status, advised) = self.shell(&line);
            self.send(simulated, read, file);
            let is_right = simulated.is_right(hz, rate);
            let sure = fs::read(self.folder.join(record)).is_ok_and(|record| record[51..78].iter().all(|mark| *mark == 0));
            match (status, is_right) {
                (0, true) => self.count.right += 1,
                (0, false) => self.count.untrue += 1,
                (_, true) => self.count.careful += 1,
                (_, false) => {
                    self.count.caught += 1;
                    self.count.caught_sure += usize::from(sure);
                }
            }
            let whim = if self.is_careless { self.random.below(4) } else { 2 };
            if status == 0 || whim == 0 || whim == 3 {
                return status;
            }
            line = advised.expect("what did not end with 0 says what to do");
            if let (1, Some((reload, _))) = (whim, line.split_once("; ")) {
                let (status, _) = self.shell(reload);
                self.send(simulated, read, file);
                return status;
            }
        }
        panic!("an hour without an end")
    }
}

/// A member of a line of JSON, as it stands.
fn member<'a>(line: &'a str, name: &str) -> &'a str {
    let (_, rest) = line.split_once(&format!("\"{name}\": ")).unwrap_or_else(|| panic!("{name} in {line}"));
    rest.split([',', '}']).next().unwrap()
}

#[derive(Default, Debug)]
struct Judged {
    hops: usize,
    right: usize,
    wrong: usize,
    /// Wrong ones by what they are called.
    beside: usize,
    not_locked: usize,
    doubtful: usize,
    unknown: usize,
    /// By chance right, after a call that was not done.
    held_back: usize,
}

/// `night` over the files, against what the receivers say.
fn judged(night: &Night, truths: &[Vec<Truth>]) -> Judged {
    let files: Vec<String> = (0..truths.len()).map(|receiver| format!("night.{receiver}")).collect();
    let run = |words: &[&str]| Command::new(BIN).arg("night").args(words).args(&files).current_dir(&night.folder).output().unwrap();
    let ran = run(&["--json"]);
    let told = String::from_utf8(ran.stdout).unwrap();
    let mut hops = told.lines().filter(|line| line.contains("\"verdict\": "));
    let mut judged = Judged::default();
    for (file, truth) in files.iter().zip(truths).flat_map(|(file, hours)| hours.iter().map(move |truth| (file, truth))) {
        let hop = hops.next().expect("a line for each hop");
        assert_eq!((member(hop, "file"), member(hop, "asked")), (format!("\"{file}\"").as_str(), truth.hz.to_string().as_str()), "{hop}");
        let verdict = member(hop, "verdict").trim_matches('"');
        judged.hops += 1;
        match (truth.is_right, verdict) {
            (true, "right") => judged.right += 1,
            (true, "doubtful" | "unknown" | "not locked") if truth.status != 0 => judged.held_back += 1,
            (true, _) => panic!("a right one is accused: {hop}"),
            (false, "right") => panic!("a wrong one is called right: {hop}"),
            (false, other) => {
                judged.wrong += 1;
                *match other {
                    "beside" => &mut judged.beside,
                    "not locked" => &mut judged.not_locked,
                    "doubtful" => &mut judged.doubtful,
                    _ => &mut judged.unknown,
                } += 1;
            }
        }
        // What is told of centre and rate is what the receiver has; each of its two numbers is cut by itself.
        if let Ok(centre) = member(hop, "centre").parse::<i64>() {
            assert!((centre - truth.centre).abs() <= 1, "{hop}");
        }
        if let Ok(rate) = member(hop, "rate").parse::<u64>() {
            assert_eq!(rate, truth.rate, "{hop}");
        }
    }
    assert_eq!(hops.next(), None);
    assert_eq!(ran.status.success(), judged.wrong + judged.held_back == 0);
    page(night, &files, judged.hops);
    // Without their logs nothing is called right, and the same centres are told.
    fs::rename(night.folder.join("night.0.log"), night.folder.join("away")).unwrap();
    let told = String::from_utf8(run(&["--json"]).stdout).unwrap();
    assert!(
        told.lines()
            .filter(|line| line.contains("\"file\": \"night.0\"") && line.contains("\"verdict\": "))
            .all(|line| member(line, "verdict") == "\"unknown\"")
    );
    fs::rename(night.folder.join("away"), night.folder.join("night.0.log")).unwrap();
    judged
}

/// The page of the same night: every hop is a cell with its verdict in words, and has its steps; nothing is asked for from elsewhere; each tag is closed.
fn page(night: &Night, files: &[String], hops: usize) {
    let ran = Command::new(BIN).args(["night", "--quiet", "--html", "page"]).args(files).current_dir(&night.folder).output().unwrap();
    assert!(ran.stdout.is_empty());
    let page = fs::read_to_string(night.folder.join("page")).unwrap();
    let mut open: Vec<&str> = Vec::new();
    for piece in page.split('<').skip(1) {
        let (tag, text) = piece.split_once('>').expect("a tag ends");
        assert!(!text.contains('>'), "{piece}");
        let name = tag.split_whitespace().next().unwrap();
        match name.strip_prefix('/') {
            Some(name) => assert_eq!(open.pop(), Some(name), "{piece}"),
            None if matches!(name, "!DOCTYPE" | "meta" | "br") => {}
            None => open.push(name),
        }
        for member in tag.split_whitespace().skip(1).filter(|member| member.starts_with("href")) {
            let id = member.strip_prefix("href=\"#").and_then(|rest| rest.split('"').next()).expect("a link within the page");
            assert_eq!(page.matches(&format!("id=\"{id}\"")).count(), 1, "{id}");
        }
    }
    assert_eq!(open, Vec::<&str>::new());
    let cells =
        ["right", "beside", "unlocked", "doubtful", "unknown"].map(|class| page.matches(&format!("<a class=\"{class}\" href=")).count());
    let words = ["right", "beside", "not locked", "doubtful", "unknown"].map(|word| page.matches(&format!("<br>{word}</a>")).count());
    assert_eq!((cells.iter().sum::<usize>(), cells), (hops, words));
    assert_eq!(page.matches("<section class=\"hop\"").count(), hops);
    for elsewhere in ["http", "src=", "url(", "@import", "<script", "javascript", "<link", "<iframe"] {
        assert!(!page.contains(elsewhere), "{elsewhere}");
    }
    assert!(page.contains("<th scope=\"row\">rx &lt;0&gt;</th>") && !page.contains("rx <"));
}

fn size() -> (u64, u64) {
    let size = std::env::var("PASETONE_NIGHT").unwrap_or_else(|_| String::from("3 6"));
    size.split_once(' ').map(|(one, other)| (one.parse().unwrap(), other.parse().unwrap())).unwrap()
}

#[test]
fn nothing_is_told_as_right_that_is_not() {
    let (receivers, hours) = size();
    let mut night = Night::new("careful", 50, false);
    let truths: Vec<Vec<Truth>> = (0..receivers).map(|receiver| night.receiver(receiver, hours)).collect();
    let judged = judged(&night, &truths);
    fs::remove_dir_all(&night.folder).unwrap();
    let count = &night.count;
    println!("{receivers} receivers, {hours} hours: {count:?}; by night: {judged:?}");
    assert_eq!((count.untrue, count.right), (0, count.recordings), "{count:?}");
    assert_eq!((judged.hops, judged.right), (count.recordings, count.recordings));
    // The test has met what it is for.
    assert!(count.caught > 0 && count.caught_sure > 0, "{count:?}");
}

/// An operator who gives up on hops: what is wrong then is found from the files alone.
#[test]
fn wrong_recordings_are_found() {
    let (receivers, hours) = size();
    let (receivers, hours) = (receivers.max(6), hours.max(12));
    let mut night = Night::new("careless", 15, true);
    let truths: Vec<Vec<Truth>> = (0..receivers).map(|receiver| night.receiver(receiver, hours)).collect();
    let judged = judged(&night, &truths);
    println!("careless: {receivers} receivers, {hours} hours: {judged:?}");
    match std::env::var_os("PASETONE_NIGHT_KEPT") {
        Some(kept) => fs::rename(&night.folder, kept).unwrap(),
        None => fs::remove_dir_all(&night.folder).unwrap(),
    }
    assert_eq!(judged.hops, night.count.recordings);
    assert!(judged.right > 0 && judged.beside > 0 && judged.doubtful > 0 && judged.not_locked > 0, "{judged:?}");
}
