//! `entries`: setup packets, read back as the section whose packets they are.
use crate::files::disk;
use crate::printed::names::counted;
use crate::printed::out::Out;
use crate::printed::{json, rows};
use crate::runs::answer;
use crate::words::given::Given;
use crate::words::named::called;
use crate::words::options::Key;
use pasetone::{Packet, Transcript};

/// More than 4096 steps have: so much of a file is read, and a longer one is no section's.
const MOST: usize = 4096 * 18 + 1;

pub fn run(given: &Given, out: &mut Out) {
    let [name] = given.operands.as_slice() else {
        return out.mistake("entries wants one file of packets, or - for standard input");
    };
    if out.is_mistaken() {
        return;
    }
    let bytes = match disk::start(name, MOST) {
        Ok(bytes) => bytes,
        Err(why) => return out.mistake(&format!("entries {why}")),
    };
    let name = called(name);
    let section = match Transcript::of_packets(&bytes) {
        Ok(section) => section,
        Err(error) => return answer::refused(given, error, &format!("entries {name}: {} (refusal {})", flaw(&bytes), error.number()), out),
    };
    let sink = given.sink(Key::Out, out);
    if out.is_mistaken() {
        return;
    }
    print(given, &name, &section, bytes.len(), out);
    if let Some(sink) = sink {
        sink.keep_or_tell(section.bytes(), "--out", out);
    }
}

/// Where packets stop to be a section's. What is one up to a packet's end is one up to each end before it, so halving finds the first that is not.
fn flaw(bytes: &[u8]) -> String {
    let mut ends = vec![0];
    for packet in Packet::all(bytes) {
        ends.push(ends[ends.len() - 1] + packet.setup().len() + packet.data.len());
    }
    // A cut packet's end is the file's.
    ends.extend((ends[ends.len() - 1] < bytes.len()).then_some(bytes.len()));
    let good = ends.partition_point(|end| Transcript::of_packets(&bytes[..*end]).is_ok());
    let (before, at) = (good.saturating_sub(1), ends[good.saturating_sub(1)]);
    let entries = Transcript::of_packets(&bytes[..at]).map_or(0, |section| section.len());
    if entries == 4096 {
        return format!("more than 4096 steps: the first {at} bytes are a section of that many");
    }
    format!("packet {before}, at byte {at}, is none that a section has, or is cut: give all packets of a section, from the first")
}

fn print(given: &Given, name: &str, section: &Transcript, bytes: usize, out: &mut Out) {
    if given.has(Key::Json) {
        out.line(&json::document(&[
            answer::done_json(),
            ("file", json::string(name)),
            ("bytes", bytes.to_string()),
            ("steps", json::lines(section.iter().enumerate().map(|(at, entry)| rows::step_json(at, &entry)))),
        ]));
    } else if !given.has(Key::Quiet) {
        rows::head(out);
        section.iter().enumerate().for_each(|(at, entry)| rows::step(at, "section 1", &entry, out));
        out.line(&format!("read: {} of {}", counted(section.len(), "step"), counted(bytes, "byte")));
    }
}
