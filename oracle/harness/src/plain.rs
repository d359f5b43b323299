//! Document 02, #107, as a Rust programmer would write it for a lent slice: what the port's instructions are counted beside. It judges and measures first too, and allocates nothing.
use crate::page;

const SYNC: [u8; 8] = [0xc0, 0, 0x20, 1, 0x0a, 0, 1, 0];

/// A section of this many entries of every kind but a block write of one byte.
pub fn section(count: usize) -> Vec<u8> {
    let kinds: [[u8; 16]; 9] = [
        [1, 0, 0, 1, 0, 0, 0, 0, 1, 0, 0, 0, 0, 0, 0, 0],
        [2, 0, 0x74, 8, 0, 0, 0, 0, 5, 0x83, 0x30, 0x75, 0xc0, 0x40, 0xd6, 0x6c],
        [2, 0, 0x74, 1, 0, 0, 0, 0, 0, 0, 0, 0, 0, 0, 0, 0],
        [3, 0, 0x74, 5, 0, 0, 0, 0, 1, 2, 3, 4, 5, 0, 0, 0],
        [4, 0, 1, 1, 0x15, 0, 0, 0, 5, 0, 0, 0, 0, 0, 0, 0],
        [5, 1, 1, 2, 0x9f, 0, 0, 0, 3, 0x84, 0, 0, 0, 0, 0, 0],
        [7, 0, 1, 2, 0x58, 0x21, 0, 0, 2, 0, 0, 0, 0, 0, 0, 0],
        [8, 0, 2, 1, 1, 0x30, 0, 0, 0x20, 0, 0, 0, 0, 0, 0, 0],
        [9, 0, 0, 0, 10, 0, 0, 0, 0, 0, 0, 0, 0, 0, 0, 0],
    ];
    page::section(&(0..count).map(|at| kinds[at % 9]).collect::<Vec<_>>())
}

/// An entry's setup packet, its data and how many of them are sent, and whether the read of page 0x0a follows.
type Transfer = ([u8; 8], [u8; 8], usize, bool);

/// None for a wait; refused where packets would look alike.
fn transfer(entry: &[u8; 16]) -> Result<Option<Transfer>, ()> {
    let [kind, outcome, target, n, low, high, ..] = *entry;
    let mut data: [u8; 8] = entry[8..].try_into().unwrap();
    let (kind, value, index) = match kind {
        9 => return Ok(None),
        1 => {
            data[0] = if data[0] == 1 { 0x18 } else { 0x10 };
            (0x40, [0x20, 1], [0x11, 0])
        }
        2 => (0x40, [target, 0], [0x10, 6]),
        3 => (0xc0, [target, 0], [0, 6]),
        4 | 5 if high != 0 || target > 15 => return Err(()),
        4 | 5 => (0x40, [0x20, low], [0x10 + target, 0]),
        _ if target == 0 || target == 6 => return Err(()),
        8 => (0xc0, [low, high], [0, target]),
        _ => (0x40, [low, high], [0x10, target]),
    };
    let sent = if kind == 0x40 { n as usize } else { 0 };
    let followed = matches!(entry[0], 1 | 4 | 5) && outcome == 0;
    Ok(Some(([kind, 0, value[0], value[1], index[0], index[1], n, 0], data, sent, followed)))
}

pub fn expand(slice: &[u8], out: &mut [u8]) -> Result<usize, u32> {
    let (start, count) = page::read_section(slice).ok_or(12u32)?;
    let entries = || slice[start..start + 16 * count].as_chunks::<16>().0.iter();
    let mut size = 0;
    for entry in entries() {
        if let Some((_, _, sent, followed)) = transfer(entry).map_err(|()| 15u32)? {
            size += 8 + sent + if followed { 8 } else { 0 };
        }
    }
    let out = out.get_mut(..size).ok_or(8u32)?;
    let mut at = 0;
    for (head, data, sent, followed) in entries().filter_map(|entry| transfer(entry).ok().flatten()) {
        out[at..at + 8].copy_from_slice(&head);
        at += 8;
        out[at..at + sent].copy_from_slice(&data[..sent]);
        at += sent;
        if followed {
            out[at..at + 8].copy_from_slice(&SYNC);
            at += 8;
        }
    }
    Ok(size)
}

/// The entry that some bytes begin with, and how many bytes its packets have.
fn first(bytes: &[u8]) -> Option<([u8; 16], usize)> {
    let head: &[u8; 8] = bytes.first_chunk()?;
    let (kind, target, address) = match *head {
        [0x40, 0, 0x20, register, low @ 0x10..=0x1f, 0, n @ 1..=2, 0] => (3 + n, low & 15, [register, 0]),
        [0x40, 0, chip, 0, 0x10, 6, 1..=8, 0] => (2, chip, [0, 0]),
        [0xc0, 0, chip, 0, 0, 6, 1..=5, 0] => (3, chip, [0, 0]),
        [_, _, _, _, _, 0 | 6, _, _] => return None,
        [0x40, 0, low, high, 0x10, block, n @ 1..=2, 0] => (5 + n, block, [low, high]),
        [0xc0, 0, low, high, 0, block, 1, 0] => (8, block, [low, high]),
        _ => return None,
    };
    let n = head[6];
    let mut entry = [kind, 0, target, n, address[0], address[1], 0, 0, 0, 0, 0, 0, 0, 0, 0, 0];
    let mut size = 8;
    if head[0] == 0x40 {
        size += n as usize;
        entry[8..8 + n as usize].copy_from_slice(bytes.get(8..size)?);
    }
    if matches!(kind, 4 | 5) && bytes[size..].starts_with(&SYNC) {
        size += 8;
    }
    Some((entry, size))
}

pub fn read(bytes: &[u8], out: &mut [u8]) -> Result<usize, u32> {
    let (mut count, mut rest) = (0, bytes);
    while !rest.is_empty() {
        let (_, size) = first(rest).filter(|_| count < 4096).ok_or(15u32)?;
        (count, rest) = (count + 1, &rest[size..]);
    }
    let size = 16 * count + 8;
    let out = out.get_mut(..size).ok_or(8u32)?;
    rest = bytes;
    for place in out.as_chunks_mut::<16>().0.iter_mut().take(count) {
        let Some((entry, size)) = first(rest) else { break };
        (*place, rest) = (entry, &rest[size..]);
    }
    out[16 * count..16 * count + 4].copy_from_slice(&(count as u32).to_le_bytes());
    out[16 * count + 4..].copy_from_slice(&(16 * count as u32).to_le_bytes());
    Ok(size)
}
