//! A night of receivers through `run`, hour by hour, with transfers failing by chance, the program killed and receivers plugged in anew. What it tells is held to the chips' own
//! centre, and so is what the nights' sections say (evidence): nothing is told as right that is not.
use crate::file::Simulated;
use crate::held::{Tally, is_on, registers, station};
use crate::host::fresh;
use crate::line::kept;
use crate::storm::Random;
use pasetone::{Receiver, TunerKind, evidence};
use pasetone_usb::Found;
use std::fmt::Write;
use std::fs;
use std::os::unix::process::ExitStatusExt;
use std::path::{Path, PathBuf};
use std::process::{Command, Output};

/// Ways 1 to 7: refused, no answer, fewer bytes.
const WAYS: u64 = 0xfe;
const NAME: &str = "the night";

/// One receiver of the night, and what its chips are like.
struct Watched {
    name: String,
    chip: Simulated,
    number: u16,
    stations: Vec<u64>,
    ppm: i32,
    rate: u32,
    /// Its PLL is never locked, or asks for another divider: no hop of it is right.
    is_wrong: bool,
    /// It was plugged in anew, and no hop was made since: what the state has is of before.
    is_new: bool,
    /// So long was its night then: a receiver without power has forgotten what the sections before say.
    from: usize,
    /// Of each hour: whether the chips stood on its station at its end, and whether `run` told so; none where the receiver was gone.
    truth: Vec<Option<(bool, bool)>>,
}

/// What came of all hops.
#[derive(Default)]
struct Count {
    right: u64,
    not: u64,
    unplugged: u64,
    sure: u64,
    runs: u64,
    /// Those that `night` calls right, by the files alone.
    by_night: u64,
}

struct Night<'a> {
    program: &'a str,
    folder: PathBuf,
    all: Vec<Watched>,
    tally: Tally,
    count: Count,
}

/// Stations of the three bands; no two that follow each other are one.
fn stations(at: usize, hours: usize) -> Vec<u64> {
    (0..hours)
        .map(|hour| match (at + hour) % 8 {
            6 => 7_000_000 + 10_000 * (hour as u64 + at as u64),
            7 => 430_000_000 + 100_000 * (at as u64 + 3 * hour as u64),
            _ => 87_500_000 + 100_000 * ((7 * at as u64 + 13 * hour as u64) % 205),
        })
        .collect()
}

fn watched(at: usize, found: &Found, hours: usize, seed: u64, per_mille: u64) -> Watched {
    let chip = Simulated::open(found.number);
    let (is_deaf, is_moved) = (at % 20 == 19, at % 20 == 9);
    let ppm = ((seed as usize + 7 * at) % 101) as i32 - 50;
    let mut receiver = fresh(TunerKind::R828d);
    receiver.set_ppm(ppm).expect("a correction");
    chip.set("reference", receiver.tuner().corrected().into());
    chip.set("settle", if is_deaf { 1_000 } else { 1 + at as u64 % 4 });
    chip.set("repair", u64::from(is_moved));
    chip.set("resets", at as u64 % 3);
    chip.set("afterwards", 1 + (seed + at as u64) * 7 % 39);
    chip.set("seed", (seed * 1_000 + at as u64) | 1);
    chip.set("ways", WAYS);
    // Chance draws of twelve ways, of which seven are there.
    chip.set("odds", 65_536 * per_mille * 12 / 7 / 1_000);
    let rate = if at % 3 == 2 { 2_400_000 } else { 2_048_000 };
    let is_wrong = is_deaf || is_moved;
    Watched {
        name: format!("rx{at:02}"),
        chip,
        number: found.number,
        stations: stations(at, hours),
        ppm,
        rate,
        is_wrong,
        is_new: true,
        from: 0,
        truth: Vec::new(),
    }
}

fn schedule(all: &[Watched], found: &[Found]) -> String {
    let mut text = String::from("# made by judge\n");
    for (row, device) in all.iter().zip(found) {
        writeln!(text, "receiver {} {} ppm {} rate {} gain 20.7", row.name, device.serial, row.ppm, row.rate).expect("a text");
        row.stations.iter().enumerate().for_each(|(hour, hz)| writeln!(text, "  {hour:02}:00 {hz}").expect("a text"));
    }
    text
}

impl Watched {
    /// Told on its station: its chips stand there, locked, at its rate.
    fn stands(&self, hz: u64, folder: &Path, tally: &mut Tally) {
        let receiver = self.receiver(folder).expect("a state");
        tally.that(!self.is_wrong, "a receiver without a lock, or with another divider, is told as on its station", NAME);
        station(tally, &self.chip, &receiver, hz, NAME);
        tally.that(self.chip.get("locked") == 1, "told on its station, and its PLL runs nowhere", NAME);
        tally.that((self.chip.get("rate") - i64::from(self.rate)).abs() < 2_000, "told on its station, at another rate", NAME);
    }

    /// It is pulled out, and plugged in again: another node, whose chips hold anything.
    fn again(&mut self, folder: &Path) {
        let node = PathBuf::from(std::env::var("RECEIVER_FOLDER").expect("the folder")).join(format!("dev/bus/usb/001/{:03}", self.number));
        self.chip.set("gone", 0);
        let (new, old) = (node.with_extension("new"), node.with_extension("old"));
        fs::copy(&node, &new).expect("a node");
        // The old one stays for a while, so that its inode is not the new one's.
        fs::rename(&node, &old).expect("a node");
        fs::rename(&new, &node).expect("a node");
        self.chip = Simulated::open(self.number);
        self.is_new = true;
        self.from = fs::read(self.night(folder)).unwrap_or_default().len();
    }

    fn night(&self, folder: &Path) -> PathBuf {
        folder.join(format!("{}.night", self.name))
    }

    fn receiver(&self, folder: &Path) -> Option<Receiver> {
        kept(&folder.join(format!("{}.state", self.name)))
    }
}

impl Night<'_> {
    /// One hour: the program, until it is not killed.
    fn hour(&mut self, hour: usize, random: &mut Random) {
        self.harm(random);
        for _ in 0..20 {
            let output = self.run(hour);
            let was_killed = output.status.signal() == Some(9);
            self.tally.kills += u64::from(was_killed);
            self.held(hour, &output);
            if !was_killed {
                break;
            }
        }
        for row in self.all.iter_mut().filter(|row| row.chip.get("gone") != 0) {
            row.again(&self.folder.join("tonight"));
            self.count.unplugged += 1;
        }
    }

    /// In every other hour the program is killed in a transfer of one receiver, in every fourth one receiver is pulled out.
    fn harm(&mut self, random: &mut Random) {
        for (odds, ways) in [(2, [9, 10, 11]), (4, [8, 8, 8])] {
            if random.below(odds) == 0 {
                let chip = &self.all[random.below(self.all.len())].chip;
                chip.set("fails_at", chip.get("sent") as u64 + random.below(40) as u64);
                chip.set("fails_by", ways[random.below(3)]);
            }
        }
    }

    fn run(&mut self, hour: usize) -> Output {
        let sent = |all: &[Watched], name: &str| all.iter().map(|row| row.chip.get(name)).sum::<i64>();
        let before = (sent(&self.all, "sent"), sent(&self.all, "failed"));
        let output = Command::new(self.program)
            .args(["run", "schedule", "--folder", "tonight", "--hours", "1", "--speed", "1000000", "--from", &format!("{hour:02}:00")])
            .current_dir(&self.folder)
            .output()
            .expect("the program runs");
        self.count.runs += 1;
        self.tally.transfers += (sent(&self.all, "sent") - before.0) as u64;
        self.tally.failed += (sent(&self.all, "failed") - before.1) as u64;
        output
    }

    /// Every line that tells of a station is true of the chips, now: no other hop of the hour was made behind it.
    fn held(&mut self, hour: usize, output: &Output) {
        let (text, ended) = (String::from_utf8_lossy(&output.stdout).into_owned(), output.status.code());
        let folder = self.folder.join("tonight");
        let mut right = 0;
        for row in &mut self.all {
            let hz = row.stations[hour];
            let line = text.lines().find(|line| line.starts_with(&format!("{hour:02}:00:00 {} {hz} Hz: ", row.name)));
            let is_right = line.is_some_and(|line| line.contains(" Hz: on station, "));
            let (tally, count, gone) = (&mut self.tally, &mut self.count, row.chip.get("gone") != 0);
            tally.runs += u64::from(line.is_some());
            right += u64::from(is_right);
            if let (Some(receiver), Some(_), false) =
                (row.receiver(&folder), ended, gone || row.is_new && line.is_none_or(|line| line.contains("NOT MADE")))
            {
                row.is_new = false;
                registers(tally, &row.chip, &receiver, NAME);
                count.sure += u64::from(proven(tally, row, &receiver, &folder, is_right));
            }
            if ended.is_some() {
                let on = row.receiver(&folder).filter(|_| !gone).map(|receiver| is_on(&row.chip, &receiver, hz) && !row.is_wrong);
                row.truth.push(on.map(|on| (on && row.chip.get("locked") == 1, is_right)));
            }
            if is_right && !gone {
                row.stands(hz, &folder, tally);
            }
        }
        if ended.is_some() {
            self.count.right += right;
            self.count.not += self.all.len() as u64 - right;
            self.tally.that((ended == Some(0)) == (right == self.all.len() as u64), "status 0 is not where every hop is right", NAME);
            self.tally.that(
                text.lines().last().is_some_and(|line| line.contains(&format!(": {right} on station"))),
                "the count is another",
                NAME,
            );
        }
    }
}

/// The value of a line's member, as it stands there.
fn member<'a>(line: &'a str, name: &str) -> Option<&'a str> {
    let (_, rest) = line.split_once(&format!("\"{name}\": "))?;
    rest.split([',', '}']).next()
}

impl Night<'_> {
    /// The nights by `night`, from their files alone: of an hour's hops the last counts, and what it calls right was so. What `run` has told as right it calls right too.
    fn by_files(&mut self) {
        let folder = self.folder.join("tonight");
        for row in &self.all {
            let output = Command::new(self.program).args(["night", "--json"]).arg(row.night(&folder)).output().expect("the program runs");
            let text = String::from_utf8_lossy(&output.stdout).into_owned();
            for (hz, truth) in row.stations.iter().zip(&row.truth) {
                let last = text.lines().rev().find(|line| member(line, "asked") == Some(&hz.to_string()));
                let is_right = last.and_then(|line| member(line, "verdict")) == Some("\"right\"");
                let Some((on, told)) = truth else { continue };
                self.tally.that(*on || !is_right, "night calls a recording right that is not", NAME);
                self.tally.that(is_right || !told, "run tells a hop as right that night does not call right", NAME);
                self.count.by_night += u64::from(is_right);
            }
        }
    }
}

/// What the night's file alone says of the centre is the chips' own, where it is sure; and it is sure where a hop was told as right. Whether it was.
fn proven(tally: &mut Tally, row: &Watched, receiver: &Receiver, folder: &Path, is_right: bool) -> bool {
    let night = fs::read(row.night(folder)).unwrap_or_default();
    let sections = night.get(row.from..).unwrap_or_default();
    let xtal = receiver.tuner().corrected();
    let told = evidence(sections, receiver.tuner().address(), xtal, receiver.driver().corrected_xtal_hz());
    tally.that(told.is_ok(), "the night's file is no sections", NAME);
    let centre = told.ok().and_then(|told| told.centre.sure());
    tally.that(centre.is_some() || !is_right, "told on its station, and its sections do not say so", NAME);
    let Some(centre) = centre else { return false };
    tally.that(centre as i64 == row.chip.get("centre") >> 23, "the centre by the sections is not the chips' own", NAME);
    true
}

pub fn run(program: &str, found: &[Found], hours: usize, per_mille: u64, seed: u64) -> Tally {
    let folder = PathBuf::from(std::env::var("RECEIVER_FOLDER").expect("the folder")).join("files");
    fs::create_dir_all(&folder).expect("a folder");
    let all: Vec<Watched> = found.iter().enumerate().map(|(at, device)| watched(at, device, hours, seed, per_mille)).collect();
    fs::write(folder.join("schedule"), schedule(&all, found)).expect("the schedule");
    let mut night = Night { program, folder, all, tally: Tally::default(), count: Count::default() };
    let mut random = Random(seed);
    (0..hours).for_each(|hour| night.hour(hour, &mut random));
    night.by_files();
    let Count { right, not, unplugged, sure, runs, by_night } = night.count;
    println!(
        "judge: a night of {} receivers and {hours} hours, {per_mille} of 1,000 transfers failing: {runs} runs of the program, {} of them killed; {unplugged} receivers plugged in anew; {} hops, {right} told as on their station, {not} not, {by_night} right by `night`; the centre by sections sure {sure} times",
        night.all.len(),
        night.tally.kills,
        right + not
    );
    night.tally
}
