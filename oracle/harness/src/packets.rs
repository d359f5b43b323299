//! Document 02, #107, written from its text a second time: a section as setup packets of USB 2.0, and packets as the entries again. What an entry sends is
//! steps.rs's, which `check` holds against the transfers that src/device.rs makes.
use crate::{page, steps};
use rusb::rec::Entry;

/// Type, request 0, value, index and length, low bytes first, and what is written.
pub fn packet(kind: u8, request: u8, value: u16, index: u16, data: &[u8]) -> Vec<u8> {
    let mut all = vec![kind, request];
    for word in [value, index, data.len() as u16] {
        all.extend(word.to_le_bytes());
    }
    if kind == 0x40 {
        all.extend(data);
    }
    all
}

/// "demod register above 0xff, page above 15, or block 0 or 6".
pub fn alike(entry: &Entry) -> bool {
    match entry[0] {
        4 | 5 => entry[5] != 0 || entry[2] > 15,
        6..=8 => matches!(entry[2], 0 | 6),
        _ => false,
    }
}

fn sent(entry: &Entry) -> Vec<u8> {
    steps::transfers(entry).iter().flat_map(|(kind, value, index, data, _)| packet(*kind, 0, *value, *index, data)).collect()
}

/// The packets of the section in which a slice ends, or 12 or 15.
pub fn expand(slice: &[u8]) -> Result<Vec<u8>, u32> {
    let (start, count) = page::read_section(slice).ok_or(12u32)?;
    let entries: Vec<Entry> = slice[start..start + 16 * count].chunks(16).map(|entry| entry.try_into().unwrap()).collect();
    if entries.iter().any(alike) {
        return Err(15);
    }
    Ok(entries.iter().flat_map(sent).collect())
}

/// "Reading the packets back gives the entries again, without waits, outcomes and read data (both zero). A repeater entry comes back as the demod write it became."
pub fn told_again(entry: &Entry) -> Option<Entry> {
    let mut told = *entry;
    match entry[0] {
        9 => return None,
        1 => told = [4, 0, 1, 1, 1, 0, 0, 0, if entry[8] == 1 { 0x18 } else { 0x10 }, 0, 0, 0, 0, 0, 0, 0],
        3 | 8 => told[8..].fill(0),
        _ => {}
    }
    told[1] = 0;
    Some(told)
}

/// Every entry that one transfer can be: by trying all of them.
fn tried(head: &[u8; 8], data: &[u8]) -> Option<Entry> {
    let [kind, _, v0, v1, low, high, n, _] = *head;
    let mut found = None;
    for number in 2..=8u8 {
        // What of the packet is the entry's target and address, for an entry of this kind.
        let (target, address) = match number {
            2 | 3 => (v0, [0, 0]),
            4 | 5 => (low & 0x0f, [v1, 0]),
            _ => (high, [v0, v1]),
        };
        let mut entry: Entry = [number, 0, target, n, address[0], address[1], 0, 0, 0, 0, 0, 0, 0, 0, 0, 0];
        if n > 8 {
            continue;
        }
        let read = matches!(number, 3 | 8);
        if !read {
            let Some(bytes) = data.get(..n as usize) else { continue };
            entry[8..8 + n as usize].copy_from_slice(bytes);
        }
        if !page::fits(&entry) || alike(&entry) || read != (kind == 0xc0) {
            continue;
        }
        // Its own packet has to be this one.
        let mut failed = entry;
        failed[1] = 1;
        if sent(&failed)[..8] == head[..] {
            found = Some(entry);
        }
    }
    found
}

/// The entries whose packets these are, with an outcome for demod writes alone; or none, which is 15.
pub fn read(mut bytes: &[u8]) -> Option<Vec<Entry>> {
    let sync = packet(0xc0, 0, 0x0120, 0x000a, &[0]);
    let mut entries = vec![];
    while !bytes.is_empty() {
        let head: &[u8; 8] = bytes.get(..8)?.try_into().unwrap();
        let mut entry = tried(head, &bytes[8..])?;
        bytes = &bytes[if head[0] == 0x40 { 8 + entry[3] as usize } else { 8 }..];
        if matches!(entry[0], 4 | 5) {
            match bytes.strip_prefix(&sync[..]) {
                Some(rest) => bytes = rest,
                None => entry[1] = 1,
            }
        }
        entries.push(entry);
    }
    (entries.len() <= 4096).then_some(entries)
}
