//! What is held of a host, by the simulated chips alone.
use crate::calls::{Call, If};
use crate::file::{Came, Simulated};
use pasetone::{Answer, Driven, Entry, EntryKind, Fault, Packet, Receiver, Transcript, Tuner};
use std::collections::{BTreeMap, HashMap};

#[derive(Clone, Default)]
pub struct Tally {
    pub runs: u64,
    pub transfers: u64,
    pub failed: u64,
    pub kills: u64,
    pub stations: u64,
    pub checks: u64,
    /// What did not hold: how often, and in which call first.
    pub faults: BTreeMap<&'static str, (u64, &'static str)>,
}

impl Tally {
    pub fn that(&mut self, good: bool, what: &'static str, name: &'static str) {
        self.checks += 1;
        if !good {
            self.faults.entry(what).or_insert((0, name)).0 += 1;
        }
    }

    pub fn add(&mut self, other: Tally) {
        self.runs += other.runs;
        self.transfers += other.transfers;
        self.failed += other.failed;
        self.kills += other.kills;
        self.stations += other.stations;
        self.checks += other.checks;
        for (what, (count, name)) in other.faults {
            self.faults.entry(what).or_insert((0, name)).0 += count;
        }
    }
}

/// What a demodulator and the blocks hold by the told entries, register by register: none where it is not sure.
#[derive(Clone, Default)]
pub struct Told {
    registers: HashMap<(bool, u8, u16), u8>,
    /// Whether tuner and demodulator have the same IF.
    same_if: bool,
}

impl Told {
    fn entry(&mut self, entry: &Entry<'_>) {
        let demod = match entry.kind {
            EntryKind::DemodWrite8 | EntryKind::DemodWrite16 => true,
            EntryKind::BlockWrite8 | EntryKind::BlockWrite16 => false,
            _ => return,
        };
        // A soft reset, and the demodulator's power: what it held is not known behind it.
        let control = demod && (entry.target, entry.address) == (1, 1) && entry.bytes[0] & 0x04 != 0;
        if control || (!demod && (entry.target, entry.address) == (2, 0x3000)) {
            self.registers.retain(|key, _| !key.0);
        }
        for (register, &byte) in (entry.address..).zip(entry.bytes) {
            let key = (demod, entry.target, register);
            if entry.failed {
                self.registers.remove(&key);
            } else {
                self.registers.insert(key, byte);
            }
        }
    }

    pub fn transcript(&mut self, transcript: &Transcript) {
        transcript.iter().for_each(|entry| self.entry(&entry));
        // The repeater's register is written by every call of the tuner.
        self.registers.remove(&(true, 1, 1));
    }

    /// Behind a call: whether the two IFs are the same.
    pub fn moved(&mut self, call: &Call, done: bool) {
        match call.moves {
            If::Set => self.same_if = done,
            If::Lost => self.same_if = false,
            If::Stays => {}
        }
    }

    pub fn in_step(&mut self) {
        self.same_if = true;
    }
}

/// The told entries beside the transfers that came, in order, the read behind a demodulator write that was done with them. Whether they have the same packets; whether those
/// that do were whole exactly where the entry is not failed; and whether what was read is what came.
fn matches(transcript: &Transcript, came: &[Came], gone: bool) -> (bool, bool, bool) {
    entries(transcript.iter(), came, gone)
}

/// The same of entries, whatever calls they are of.
pub fn entries<'a>(told: impl Iterator<Item = Entry<'a>>, came: &[Came], gone: bool) -> (bool, bool, bool) {
    let (mut sent, mut ended, mut read) = (true, true, true);
    let mut rest = came.iter();
    for entry in told {
        let packets = entry.packets().expect("a step of a call has packets");
        for (behind, packet) in Packet::all(&packets).enumerate() {
            let Some(transfer) = rest.next() else {
                // Nothing reaches a receiver that is gone, and no such step is done.
                return (sent && gone, ended && (entry.failed || behind > 0), read);
            };
            let same = transfer.packet() == [&packet.setup()[..], packet.data].concat();
            sent &= same;
            if behind == 0 && same {
                let whole = usize::try_from(transfer.count) == Ok(transfer.length());
                ended &= whole != entry.failed;
                read &= !transfer.is_read() || entry.failed || entry.bytes == &transfer.data[..transfer.length()];
            }
        }
    }
    (sent && rest.next().is_none(), ended, read)
}

/// The oscillator by a record's registers, in units of 2^-23 Hz, where they are sure.
fn oscillator(tuner: &Tuner) -> Option<i64> {
    let byte = |at: u8| tuner.shadow(at).filter(|_| !tuner.is_doubtful(at)).map(i64::from);
    let (divider, switch, n, low, high) = (byte(0x10)? >> 5, byte(0x12)?, byte(0x14)?, byte(0x15)?, byte(0x16)?);
    let fraction = if switch & 8 == 0 { 256 * high + low } else { 0 };
    let n = 13 + 4 * (n & 63) + (n >> 6);
    Some((i64::from(tuner.corrected()) * 2 * (65_536 * n + fraction) * 64) >> divider)
}

/// A register that is not doubtful holds its shadow byte on the chip, and the oscillator by them is the chip's own.
pub fn registers(tally: &mut Tally, chip: &Simulated, receiver: &Receiver, name: &'static str) {
    let (held, tuner) = (chip.bytes("chip.tuner"), receiver.tuner());
    let true_record = Tuner::registers().all(|at| tuner.is_doubtful(at) || tuner.shadow(at) == Some(held[usize::from(at)]));
    tally.that(true_record, "the record calls a register sure that holds another byte", name);
    if let Some(by_record) = oscillator(tuner) {
        tally.that(by_record == chip.get("oscillator"), "the oscillator by the record is not the chip's", name);
    }
}

/// The demodulator and the blocks hold what was told done last.
fn told(tally: &mut Tally, chip: &Simulated, told: &Told, name: &'static str) {
    let (demod, sys) = (chip.bytes("chip.demod"), chip.bytes("chip.sys"));
    let holds = |(&(is_demod, target, register), &byte): (&(bool, u8, u16), &u8)| match (is_demod, target) {
        (true, page) => demod[256 * usize::from(page) + usize::from(register)] == byte,
        (false, 2) => sys[usize::from(register) - 0x3000] == byte,
        _ => true,
    };
    tally.that(told.registers.iter().all(holds), "the demodulator or a block holds another byte than was told done last", name);
}

/// A station that was tuned to is the centre that the chips have by their own registers: 25 kHz by the divider, and the step of the IF's word.
pub fn station(tally: &mut Tally, chip: &Simulated, receiver: &Receiver, hz: u64, name: &'static str) {
    tally.stations += 1;
    tally.that(is_on(chip, receiver, hz), "the call is done and the receiver beside its station", name);
}

/// Whether the chips stand there, by their own registers.
pub fn is_on(chip: &Simulated, receiver: &Receiver, hz: u64) -> bool {
    let wanted = receiver.table().plan_tuning(hz).expect("a plan").hz as i64;
    let divider = 2i64 << (chip.bytes("chip.tuner")[0x10] >> 5);
    let off = (chip.get("centre") >> 23) - wanted;
    (-25_000 / divider - 1..=18_000 / divider + 8).contains(&off)
}

/// All of it, behind a call: `from` is the number of its first transfer.
pub fn call(
    tally: &mut Tally,
    chip: &Simulated,
    so_far: &mut Told,
    (call, from): (&Call, i64),
    receiver: &Receiver,
    driven: &Driven<Answer<u64>>,
) {
    let (came, gone) = (chip.came(from), chip.get("gone") != 0);
    tally.runs += 1;
    tally.transfers += came.len() as u64;
    tally.failed += came.iter().filter(|transfer| usize::try_from(transfer.count) != Ok(transfer.length())).count() as u64;
    let (sent, ended, read) = matches(&driven.transcript, &came, gone);
    tally.that(sent, "other packets were sent than the told entries have", call.name);
    tally.that(ended, "a step is told done that was not whole, or failed that was", call.name);
    tally.that(read, "a read told done has other bytes than came", call.name);
    let failed = driven.transcript.iter().any(|entry| entry.failed);
    let caused = driven.cause.as_ref().is_some_and(|cause| cause.downcast_ref::<Fault>().is_some());
    tally.that(failed == caused, "a failed step without its cause", call.name);
    so_far.transcript(&driven.transcript);
    so_far.moved(call, driven.result.is_ok());
    if gone {
        return;
    }
    registers(tally, chip, receiver, call.name);
    told(tally, chip, so_far, call.name);
    if let (Some(hz), true, true, 0) = (call.station, driven.result.is_ok(), so_far.same_if, chip.get("repair")) {
        station(tally, chip, receiver, hz, call.name);
    }
}
