//! `packets`: the sections of a file as the setup packets that a replay box sends, step by step.
use crate::files::disk::Sink;
use crate::files::filed::File;
use crate::files::pcap::Pcap;
use crate::files::sections::{ENTRY, Part, TRAILER, Walk, alone};
use crate::printed::json;
use crate::printed::names::counted;
use crate::printed::out::{End, Out};
use crate::printed::rows::hex;
use crate::runs::answer;
use crate::words::given::Given;
use crate::words::options::Key;
use pasetone::{Entry, EntryKind, Error, Packet, Transcript};

/// The sections that are sent, one by one.
struct Sending<'a> {
    file: &'a File,
    walk: &'a Walk,
    repeater: bool,
}

/// A section as it is sent.
struct Section {
    transcript: Transcript,
    /// Whether its first and its last step were put around it.
    opened: bool,
    /// The number of its first own step.
    first: usize,
}

/// A step as it is sent; one that --repeater has added has no number.
struct Step<'a> {
    number: Option<usize>,
    entry: Entry<'a>,
    packets: Vec<Packet<'a>>,
}

/// The packets of a whole file, and how many sections and steps they are of.
#[derive(Default)]
struct Sent {
    sections: usize,
    opened: usize,
    steps: usize,
    bytes: Vec<u8>,
}

pub fn run(given: &Given, out: &mut Out) {
    if given.operands.len() != 1 {
        out.mistake("packets wants one file of sections, or - for standard input");
    }
    if given.has(Key::Out) && given.word(Key::Out) == given.word(Key::Pcap) {
        out.mistake("--out and --pcap name one file: name two");
    }
    let span = given.sections(out);
    let Some(file) = File::all("packets", given, out).and_then(|files| files.into_iter().next()) else { return };
    let Some(walk) = file.walk(span, out) else { return };
    let damaged = file.damaged(&walk, out);
    if damaged > 0 {
        let parts = counted(damaged, "damaged part");
        let text =
            format!("packets: {} has {parts} (refusal 12): packets are of the sections that are whole, and no file is written", file.name);
        out.tell(End::Refused, &text);
    }
    let sending = Sending { file: &file, walk: &walk, repeater: given.has(Key::Repeater) };
    let sent = match Sent::of(&sending) {
        Ok(sent) => sent,
        Err((error, text)) => return answer::refused(given, error, &text, out),
    };
    // A box that replays packets with a hole in them brings no chip to where this one was.
    let mut sink = |key| if damaged == 0 { given.sink(key, out) } else { None };
    let (sink, pcap) = (sink(Key::Out), sink(Key::Pcap));
    if out.is_mistaken() {
        return;
    }
    if given.has(Key::Json) {
        sent.json(&sending, out);
    } else if !given.has(Key::Quiet) {
        sent.table(&sending, out);
    }
    if let Some(sink) = sink {
        sink.keep_or_tell(&sent.bytes, "--out", out);
    }
    if let Some(sink) = pcap {
        sending.capture(sink, out);
    }
}

impl<'a> Sending<'a> {
    /// Every section that is whole.
    fn sections(&self) -> impl Iterator<Item = Result<Section, Error>> {
        let mut first = self.walk.skipped();
        self.walk.numbered().filter_map(move |(_, part)| {
            let before = first;
            // Steps of damaged parts are counted, as `show` counts them.
            first += part.steps();
            let Part::Good { start, end } = part else { return None };
            Some(self.section(&self.file.bytes[start..end], before))
        })
    }

    fn section(&self, bytes: &[u8], first: usize) -> Result<Section, Error> {
        let opened = self.repeater && wants_repeater(bytes);
        let around = if opened { within_repeater(bytes) } else { bytes.to_vec() };
        Transcript::read(&around).map(|(_, transcript)| Section { transcript, opened, first })
    }

    /// Every step with its packets, in order.
    fn each(&self, mut see: impl FnMut(&Step)) {
        for section in self.sections().flatten() {
            let last = section.transcript.len().saturating_sub(1);
            for (at, entry) in section.transcript.iter().enumerate() {
                let added = section.opened && (at == 0 || at == last);
                let number = (!added).then(|| section.first + at - usize::from(section.opened));
                let packets = entry.packets().unwrap_or_default();
                see(&Step { number, entry, packets: Packet::all(&packets).collect() });
            }
        }
    }

    /// The transfers as a capture, written piece by piece: it is some ten times as long as the sections.
    fn capture(&self, sink: Sink, out: &mut Out) {
        let (mut pcap, mut sink, mut fault) = (Pcap::new(), sink, None);
        self.each(|step| {
            pcap.step(&step.entry, &step.packets);
            if fault.is_none() && pcap.waiting() > 1 << 20 {
                fault = sink.add(&pcap.take()).err();
            }
        });
        match fault {
            Some(why) => out.mistake(&format!("--pcap {why}")),
            None => sink.keep_or_tell(&pcap.take(), "--pcap", out),
        }
    }
}

/// Whether a section speaks to a chip on I2C, and has no repeater step: as a list of `restore`, which is sent behind an open one.
fn wants_repeater(section: &[u8]) -> bool {
    let has = |kinds: &[EntryKind]| {
        section[..section.len() - TRAILER].chunks_exact(ENTRY).any(|entry| kinds.iter().any(|kind| kind.number() == entry[0]))
    };
    has(&[EntryKind::I2cWrite, EntryKind::I2cRead]) && !has(&[EntryKind::Repeater])
}

/// The same section with the repeater opened before it and closed behind it.
fn within_repeater(section: &[u8]) -> Vec<u8> {
    let step = |data: u8| {
        let mut entry = [0; ENTRY];
        (entry[0], entry[3], entry[8]) = (EntryKind::Repeater.number(), 1, data);
        entry
    };
    let entries = &section[..section.len() - TRAILER];
    let count = (entries.len() / ENTRY + 2) as u32;
    [&step(1), entries, &step(0), &count.to_le_bytes(), &(ENTRY as u32 * count).to_le_bytes()].concat()
}

impl Sent {
    /// Everything is asked for before anything is printed: what is refused prints no half of it.
    fn of(sending: &Sending) -> Result<Sent, (Error, String)> {
        let mut sent = Sent::default();
        for section in sending.sections() {
            let Section { transcript, opened, first } = section.map_err(|error| (error, format!("packets: {error}")))?;
            let packets = transcript.packets().map_err(|error| (error, refused(&transcript, first - usize::from(opened), error)))?;
            sent.bytes.extend(packets);
            sent.steps += transcript.len() - 2 * usize::from(opened);
            (sent.sections, sent.opened) = (sent.sections + 1, sent.opened + usize::from(opened));
        }
        Ok(sent)
    }

    fn table(&self, sending: &Sending, out: &mut Out) {
        out.line(" step  setup packet            data                    what");
        let mut packets = 0;
        sending.each(|step| {
            packets += step.packets.len();
            if !out.is_closed() {
                step.rows(out);
            }
        });
        let (sections, steps, packets) = (counted(self.sections, "section"), counted(self.steps, "step"), counted(packets, "packet"));
        let damages = sending.walk.damages();
        let damaged = if damages == 0 { String::new() } else { format!("; DAMAGED: {damages}") };
        let opened = if sending.repeater { format!("; repeater opened for {}", counted(self.opened, "section")) } else { String::new() };
        out.line(&format!("sent: {sections}, {steps}, {packets}, {} bytes{opened}{damaged}", self.bytes.len()));
    }

    fn json(&self, sending: &Sending, out: &mut Out) {
        let (name, sections, bytes) = (json::string(&sending.file.name), self.sections, self.bytes.len());
        let done = answer::done_json();
        let (refusal, number) = if sending.walk.damages() == 0 { done } else { (done.0, Error::Section.number().to_string()) };
        out.text(&format!("{{\n\"{refusal}\": {number},\n\"file\": {name},\n\"sections\": {sections},\n\"bytes\": {bytes},\n"));
        if sending.repeater {
            out.text(&format!("\"repeater\": {},\n", self.opened));
        }
        out.text("\"steps\": [");
        let mut before = "\n";
        sending.each(|step| {
            out.text(before);
            out.text(&step.json());
            before = ",\n";
        });
        out.line(if self.steps == 0 { "]\n}" } else { "\n]\n}" });
    }
}

/// The first step of a section that has no packet of its own.
fn refused(transcript: &Transcript, before: usize, error: Error) -> String {
    let none = transcript.iter().enumerate().find(|(at, _)| one(transcript, *at).is_none_or(|one| one.packets().is_err()));
    let (step, words) = none.map_or((before, String::new()), |(at, entry)| (before + at, entry.words()));
    let wants = "packets want a demod register to 0xff, a page to 15 and a block that is not 0 or 6";
    format!("packets: step {step} (refusal {}): {words}: {wants}", error.number())
}

/// An entry as a section of its own.
fn one(transcript: &Transcript, at: usize) -> Option<Transcript> {
    let entry = transcript.bytes().get(ENTRY * at..ENTRY * (at + 1))?;
    Transcript::read(&alone(entry)).ok().map(|(_, one)| one)
}

impl Step<'_> {
    fn rows(&self, out: &mut Out) {
        let label = self.number.map_or_else(|| String::from("-"), |number| number.to_string());
        let words = self.entry.words();
        if self.packets.is_empty() {
            out.line(&format!("{label:>5}  {:<23} {:<23} {words}", "none", ""));
        }
        for (at, packet) in self.packets.iter().enumerate() {
            let (label, words) = if at == 0 { (label.as_str(), words.as_str()) } else { ("-", "the read behind a demod write") };
            out.line(&format!("{label:>5}  {:<23} {:<23} {words}", hex(&packet.setup()), hex(packet.data)));
        }
    }

    fn json(&self) -> String {
        let one = |packet: &Packet| json::object(&[("setup", json::array(packet.setup())), ("data", json::array(packet.data))]);
        let packets = json::array(self.packets.iter().map(one));
        json::object(&[("step", json::maybe(self.number)), ("what", json::string(&self.entry.words())), ("packets", packets)])
    }
}
