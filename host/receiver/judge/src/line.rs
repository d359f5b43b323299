//! The command line itself on a simulated receiver: devices, start, hop, reload and feed, with a fault at each transfer and hosts that are killed. What it tells is held to the
//! chips' own centre, its state's record to the chips' registers, and the night's sections to the transfers that came.
use crate::file::Simulated;
use crate::held::{Tally, entries, registers, station};
use crate::host::fresh;
use pasetone::{Command as Fed, Receiver, State, Transcript, TunerKind};
use pasetone_usb::{Found, Kernel, Usb};
use std::fs;
use std::os::unix::process::ExitStatusExt;
use std::path::{Path, PathBuf};
use std::process::{Command, Output};

const FIRST: u64 = 100_000_000;
const NEXT: u64 = 102_300_000;
const OTHER: u64 = 433_920_000;
const UNPLUGGED: u64 = 8;
const KILLS: [u64; 3] = [9, 10, 11];

/// The program, a receiver, and the files that it is kept in.
pub struct Line {
    program: PathBuf,
    folder: PathBuf,
    chip: Simulated,
}

/// What a run starts from: chips and files.
struct Still {
    chip: Vec<u8>,
    state: Vec<u8>,
    night: Vec<u8>,
}

/// The receiver of a state's file, a call recovered that was under way; the file stays as it is.
pub fn kept(path: &Path) -> Option<Receiver> {
    let key = State::key(path).ok()??;
    let copy = path.with_extension("copy");
    fs::copy(path, &copy).ok()?;
    let (state, _) = State::open(&copy, &key, fresh(TunerKind::R828d)).ok()?;
    Some(state.receiver().clone())
}

/// How a command ends whose calls are all done: behind a reload no tuning has read the lock.
fn whole(words: &[&str]) -> i32 {
    if words[0] == "reload" { 4 } else { 0 }
}

/// The sections of a file, in their order.
pub fn sections(bytes: &[u8]) -> Option<Vec<Transcript>> {
    let (mut all, mut rest) = (Vec::new(), bytes);
    while !rest.is_empty() {
        let (before, transcript) = Transcript::read(rest).ok()?;
        all.push(transcript);
        rest = before;
    }
    all.reverse();
    Some(all)
}

impl Line {
    pub fn new(program: &str, number: u16) -> Line {
        let folder = PathBuf::from(std::env::var("RECEIVER_FOLDER").expect("the folder")).join("files");
        fs::create_dir_all(&folder).expect("a folder");
        Line { program: PathBuf::from(program), folder, chip: Simulated::open(number) }
    }

    fn path(&self, name: &str) -> PathBuf {
        self.folder.join(name)
    }

    fn run(&self, words: &[&str]) -> Output {
        Command::new(&self.program).args(words).current_dir(&self.folder).output().expect("the program runs")
    }

    /// A command on the receiver, and what is held of it whatever it ends with: its exit status, none where it was killed.
    fn told(&self, words: &[&str], name: &'static str, tally: &mut Tally) -> (Option<i32>, String) {
        let (from, before) = (self.chip.get("sent"), fs::read(self.path("night")).unwrap_or_default());
        let all = [words, &["--device", "0", "--state", "state", "--append", "night", "--quiet"]].concat();
        let output = self.run(&all);
        let (said, gone) = (String::from_utf8_lossy(&output.stderr).into_owned(), self.chip.get("gone") != 0);
        tally.runs += 1;
        tally.kills += u64::from(output.status.signal() == Some(9));
        let came = self.chip.came(from);
        tally.transfers += came.len() as u64;
        tally.failed += came.iter().filter(|transfer| usize::try_from(transfer.count) != Ok(transfer.length())).count() as u64;
        tally.that(output.status.signal().is_none_or(|signal| signal == 9), "the program crashed", name);
        let record = kept(&self.path("state"));
        tally.that(record.is_some(), "the state cannot be read", name);
        if let (Some(receiver), false) = (&record, gone) {
            registers(tally, &self.chip, receiver, name);
        }
        // What came behind the sections that were there. A run that was killed has its last section from the next one.
        if output.status.signal().is_none() {
            let night = fs::read(self.path("night")).unwrap_or_default();
            let added = night.strip_prefix(&before[..]).and_then(sections);
            tally.that(added.is_some(), "the night is no longer what it was with sections behind it", name);
            let recovered = usize::from(said.contains("recovered: a run died"));
            let added: Vec<Transcript> = added.into_iter().flatten().skip(recovered).collect();
            let (sent, ended, read) = entries(added.iter().flat_map(Transcript::iter), &came, gone);
            tally.that(sent, "other packets were sent than the night's entries have", name);
            tally.that(ended, "a step is told done in the night that was not whole, or failed that was", name);
            tally.that(read, "a read of the night has other bytes than came", name);
        }
        (output.status.code(), said)
    }

    /// A command that leads to a station: where it ends with 0 the chips stand there, locked.
    fn hops(&self, words: &[&str], hz: u64, name: &'static str, tally: &mut Tally) -> Option<i32> {
        let (status, _) = self.told(words, name, tally);
        self.stands(status, hz, name, tally);
        status
    }

    fn stands(&self, status: Option<i32>, hz: u64, name: &'static str, tally: &mut Tally) {
        // It may be gone behind its last step, at the read that nobody looks at.
        let (Some(0), Some(receiver), 0) = (status, kept(&self.path("state")), self.chip.get("gone")) else { return };
        station(tally, &self.chip, &receiver, hz, name);
        tally.that(self.chip.get("locked") == 1, "status 0, and the PLL has no lock", name);
        tally.that(receiver.tuner().doubtful().next().is_none(), "status 0, and a register is doubtful", name);
    }

    fn still(&self) -> Still {
        let read = |name: &str| fs::read(self.path(name)).unwrap_or_default();
        Still { chip: self.chip.whole(), state: read("state"), night: read("night") }
    }

    fn back(&self, still: &Still) {
        self.chip.back(&still.chip);
        fs::write(self.path("state"), &still.state).expect("a state");
        fs::write(self.path("night"), &still.night).expect("a night");
    }

    fn fails(&self, transfer: u64, way: u64) {
        self.chip.set("fails_at", self.chip.get("sent") as u64 + transfer);
        self.chip.set("fails_by", way);
    }

    /// How many transfers a command has where nothing fails.
    fn length(&self, still: &Still, words: &[&str], tally: &mut Tally) -> u64 {
        self.back(still);
        let from = self.chip.get("sent");
        let (status, said) = self.told(words, "with nothing failing", tally);
        tally.that(status == Some(whole(words)), "a command with nothing failing does not end as it has to", "with nothing failing");
        let unread = said.contains("LOCK NOT READ") && whole(words) == 4;
        tally.that(
            said.is_empty() != unread,
            "a command with nothing failing tells of something, or a reload of nothing",
            "with nothing failing",
        );
        (self.chip.get("sent") - from) as u64
    }

    /// Each transfer failing in each of the ways: one fault is mended, and a receiver that is gone is told as stopped.
    fn swept(&self, still: &Still, (words, hz): (&[&str], u64), stride: u64, name: &'static str, tally: &mut Tally) {
        let length = self.length(still, words, tally);
        for turn in (0..length * UNPLUGGED).filter(|turn| turn % stride == 0) {
            let (transfer, way) = (turn / UNPLUGGED, 1 + turn % UNPLUGGED);
            self.back(still);
            self.fails(transfer, way);
            let status = self.hops(words, hz, name, tally);
            if way == UNPLUGGED {
                // The last transfer may be the read that nobody looks at.
                tally.that(status == Some(3) || transfer + 1 == length, "a receiver that is gone is not told as stopped", name);
            } else {
                tally.that(status == Some(whole(words)), "one fault is not mended", name);
            }
        }
    }

    /// Killed in each transfer: the next command recovers, whichever it is.
    fn killed(&self, still: &Still, (words, hz): (&[&str], u64), stride: u64, name: &'static str, tally: &mut Tally) {
        let length = self.length(still, words, tally);
        fs::write(self.path("line"), Fed::Gain(10.0).bytes()).expect("a line");
        for turn in (0..length * 3).filter(|turn| turn % stride == 0) {
            self.back(still);
            self.fails(turn / 3, KILLS[turn as usize % 3]);
            let (status, _) = self.told(words, name, tally);
            tally.that(status.is_none(), "the host was not killed", name);
            match turn / stride % 4 {
                0 => drop(self.hops(&["hop", &OTHER.to_string()], OTHER, "hop elsewhere behind a kill", tally)),
                1 => {
                    let (status, _) = self.told(&["reload"], "reload behind a kill", tally);
                    tally.that(status == Some(5), "a reload behind a kill is told as more than it is", name);
                }
                2 => drop(self.hops(&["feed", "line"], hz, "feed behind a kill", tally)),
                _ => {}
            }
            let status = self.hops(words, hz, "the same behind a kill", tally);
            tally.that(status == Some(0), "behind a kill the same command is not done", name);
        }
    }

    /// Faults that do not end: three times again, and then told as stopped, with every try in the night.
    fn insists(&self, still: &Still, tally: &mut Tally) {
        self.back(still);
        self.chip.set("odds", 65_536);
        self.chip.set("ways", 1 << 1);
        let (status, said) = self.told(&["hop", "102.3M"], "every transfer refused", tally);
        tally.that(status == Some(3), "a call that stops each time is not told as stopped", "every transfer refused");
        tally.that(said.contains("again 3 times, and it stopped each time"), "how often it was made is not told", "every transfer refused");
        self.back(still);
        self.chip.set("settle", 1_000);
        let (status, said) = self.told(&["hop", "102.3M"], "no lock", tally);
        tally.that(status == Some(4) && said.contains("NOT LOCKED"), "a tuning without a lock is not told as such", "no lock");
        self.back(still);
        self.chip.set("repair", 1);
        let (status, said) = self.told(&["hop", "102.3M"], "a repair", tally);
        tally.that(status == Some(5) && said.contains("DOUBTFUL"), "a divider that was repaired is not told as such", "a repair");
    }

    /// Who has a receiver is told, and refused.
    fn owned(&self, found: &Found, tally: &mut Tally) {
        let lists = |words: &[&str]| String::from_utf8_lossy(&self.run(words).stdout).into_owned();
        tally.that(
            lists(&["devices"]).contains("001/002     0bda:2838  1-1       00000001      nobody"),
            "devices lists it as another",
            "devices",
        );
        let held = Usb::open(found, Kernel::Refuse).expect("the receiver is there");
        tally.that(lists(&["devices"]).contains("00000001      a program"), "devices does not tell who has it", "devices");
        let refused = self.run(&["hop", "1M", "--device", "0", "--state", "held", "--quiet"]);
        tally.that(refused.status.code() == Some(2), "a receiver of another program is taken", "devices");
        drop(held);
        self.chip.put("driver", b"dvb_usb_rtl28xxu\0");
        tally.that(
            lists(&["devices", "--json"]).contains("\"driver\": \"dvb_usb_rtl28xxu\""),
            "devices does not tell the driver",
            "devices",
        );
        let refused = self.run(&["start", "--device", "00000001", "--state", "held", "--quiet"]);
        tally.that(refused.status.code() == Some(2), "a bound driver is not refused", "start");
        let detached = self.run(&["start", "--device", "1-1", "--state", "held", "--detach", "--quiet"]);
        tally.that(detached.status.code() == Some(0) && self.chip.bytes("driver")[0] == 0, "a bound driver is not detached", "start");
        tally.that(
            self.run(&["start", "--device", "0", "--state", "held", "--quiet"]).status.code() == Some(0),
            "it was handed back",
            "start",
        );
    }

    /// Plugged in anew: another node, whose chips hold anything. The record that was kept is not believed.
    fn anew(&self, found: &Found, still: &Still, tally: &mut Tally) {
        self.back(still);
        let node =
            PathBuf::from(std::env::var("RECEIVER_FOLDER").expect("the folder")).join(format!("dev/bus/usb/001/{:03}", found.number));
        let mut bytes = fs::read(&node).expect("a node");
        let power = self.chip.place_of("chip.tuner");
        bytes[power..power + 32].fill(0x55);
        let (beside, old) = (node.with_extension("new"), node.with_extension("old"));
        fs::write(&beside, bytes).expect("a node");
        fs::rename(&node, &old).expect("a node");
        fs::rename(&beside, &node).expect("a node");
        let again = Line::new(&self.program.to_string_lossy(), found.number);
        // The state stays as it is, with the record of the connection before.
        let sent = again.chip.get("sent");
        let refused = again.run(&["reload", "--device", "0", "--state", "state", "--append", "night"]);
        let told = String::from_utf8_lossy(&refused.stderr).contains("another connection");
        tally.that(refused.status.code() == Some(5) && told, "another connection is not told", "reload");
        tally.that(again.chip.get("sent") == sent, "something is sent to a receiver that is not brought up", "reload");
        let (status, said) = again.told(&["hop", "102.3M"], "hop on another connection", tally);
        tally.that(status == Some(0) && said.contains("another connection"), "another connection is not brought up, or not told", "hop");
        again.stands(status, NEXT, "hop on another connection", tally);
        let where_ = again.run(&["where", "--state", "state"]);
        tally.that(where_.status.code() == Some(0), "where does not know a receiver of the bus", "where");
    }
}

/// All of it; of the bring-up's transfers every `stride`th turn.
pub fn run(program: &str, found: &Found, stride: u64) -> Tally {
    let (mut tally, line) = (Tally::default(), Line::new(program, found.number));
    line.owned(found, &mut tally);
    let bare = line.still();
    let start = (&["start", "100M"][..], FIRST);
    line.swept(&bare, start, stride, "start", &mut tally);
    line.killed(&bare, start, stride, "start", &mut tally);
    line.back(&bare);
    line.hops(start.0, FIRST, "start", &mut tally);
    let still = line.still();
    let hop = (&["hop", "102.3M"][..], NEXT);
    line.swept(&still, hop, 1, "hop", &mut tally);
    line.killed(&still, hop, 1, "hop", &mut tally);
    line.back(&still);
    fs::write(line.path("commands"), [Fed::Rate(2_400_000).bytes(), Fed::Gain(20.0).bytes(), Fed::Frequency(NEXT).bytes()].concat())
        .expect("a line");
    line.swept(&still, (&["feed", "commands"], NEXT), stride, "feed", &mut tally);
    line.swept(&still, (&["reload"], FIRST), stride, "reload", &mut tally);
    line.insists(&still, &mut tally);
    line.anew(found, &still, &mut tally);
    tally
}
