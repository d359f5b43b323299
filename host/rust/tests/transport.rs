//! What a step is on a transport: which packets, when it is done, what is waited for.
use pasetone::{Bus, Entry, EntryKind, Error, Fault, Outcome, Packet, Transport};
use std::time::Duration;

/// Answers in this order, each what a transfer ends with, and keeps what was asked for.
struct Wire {
    answers: Vec<Result<usize, Fault>>,
    asked: Vec<String>,
}

impl Transport for Wire {
    fn control(&mut self, packet: &Packet<'_>, data: &mut [u8]) -> Result<usize, Fault> {
        assert_eq!(data.len(), usize::from(packet.length));
        if !packet.is_read() {
            assert_eq!(data, packet.data);
        }
        data.iter_mut().filter(|_| packet.is_read()).zip(1..).for_each(|(byte, n)| *byte = n);
        self.asked.push(packet.to_string());
        self.answers.remove(0)
    }
}

fn step(kind: EntryKind, target: u8, address: u16, bytes: &[u8]) -> Entry<'_> {
    Entry { kind, failed: false, target, address, bytes }
}

/// What the step ended with, as a word or its bytes; the packets; the milliseconds that were waited.
fn take(step: &Entry<'_>, answers: &[Result<usize, Fault>]) -> (String, Vec<String>, Vec<u128>) {
    let mut waited = Vec::new();
    let mut bus = Bus::new(Wire { answers: answers.to_vec(), asked: Vec::new() }, |time: Duration| waited.push(time.as_millis()));
    let ended = match bus.take(step) {
        Outcome::Done => "done".to_string(),
        Outcome::Read(bytes) => format!("{bytes:?}"),
        Outcome::Failed(cause) => format!("{:?}", cause.unwrap().downcast_ref::<Fault>().unwrap()),
    };
    let asked = bus.transport().asked.clone();
    assert_eq!(bus.sent(), asked.len());
    (ended, asked, waited)
}

#[test]
fn done_is_every_byte() {
    let write = step(EntryKind::I2cWrite, 0x74, 0, &[5, 6, 7]);
    assert_eq!(take(&write, &[Ok(3)]), ("done".into(), vec!["40 00 74 00 10 06 03 00 | 05 06 07".into()], vec![]));
    assert_eq!(take(&write, &[Ok(2)]).0, "Short { count: 2, asked: 3 }");
    assert_eq!(take(&write, &[Ok(4)]).0, "Short { count: 4, asked: 3 }");
    assert_eq!(take(&write, &[Err(Fault::Stall)]).0, "Stall");
    let read = step(EntryKind::I2cRead, 0x74, 0, &[0; 5]);
    assert_eq!(take(&read, &[Ok(5)]), ("[1, 2, 3, 4, 5]".into(), vec!["c0 00 74 00 00 06 05 00".into()], vec![]));
    assert_eq!(take(&read, &[Ok(0)]).0, "Short { count: 0, asked: 5 }");
    assert_eq!(take(&step(EntryKind::BlockRead, 2, 0x3001, &[0]), &[Ok(0)]).0, "Short { count: 0, asked: 1 }");
}

/// The read of page 0x0a comes behind a write that was done, and nothing of it is looked at.
#[test]
fn the_read_behind_a_demod_write() {
    for kind in [EntryKind::DemodWrite8, EntryKind::Repeater] {
        let (target, address) = if kind == EntryKind::Repeater { (0, 0) } else { (1, 0x15) };
        let write = step(kind, target, address, &[1]);
        for behind in [Ok(1), Ok(0), Err(Fault::Stall), Err(Fault::Unplugged), Err(Fault::Other(5))] {
            let (ended, asked, waited) = take(&write, &[Ok(1), behind]);
            assert_eq!((ended.as_str(), asked.len(), asked[1].as_str(), waited.len()), ("done", 2, "c0 00 20 01 0a 00 01 00", 0));
        }
        let (ended, asked, waited) = take(&write, &[Ok(1), Err(Fault::Timeout)]);
        assert_eq!((ended.as_str(), asked.len(), waited), ("done", 2, vec![40]));
        for fault in [Fault::Stall, Fault::Unplugged, Fault::Other(5)] {
            let (ended, asked, _) = take(&write, &[Err(fault)]);
            assert_eq!((ended, asked.len()), (format!("{fault:?}"), 1));
        }
    }
}

#[test]
fn waits() {
    assert_eq!(take(&step(EntryKind::Wait, 0, 100, &[]), &[]), ("done".into(), vec![], vec![100]));
    let read = step(EntryKind::BlockRead, 2, 0x3001, &[0]);
    let (ended, asked, waited) = take(&read, &[Err(Fault::Timeout)]);
    assert_eq!((ended.as_str(), asked.len(), waited), ("Timeout", 1, vec![40]));
}

/// A step without packets of its own is not sent; nor is one that no call has.
#[test]
fn no_packets() {
    for (kind, target, address, bytes) in
        [(EntryKind::DemodWrite8, 16, 0, &[1][..]), (EntryKind::DemodWrite8, 1, 0x100, &[1]), (EntryKind::BlockWrite8, 6, 0, &[1])]
    {
        assert_eq!(take(&step(kind, target, address, bytes), &[]).0, format!("{:?}", Fault::Packets(Error::Expansion)));
    }
    for (kind, bytes) in [(EntryKind::I2cWrite, &[0; 9][..]), (EntryKind::DemodWrite8, &[0; 2]), (EntryKind::I2cWrite, &[])] {
        assert_eq!(take(&step(kind, 1, 0, bytes), &[]).0, format!("{:?}", Fault::Packets(Error::Section)));
    }
}
