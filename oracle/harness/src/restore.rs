//! Document 02, #110, written from its text a second time: sections end to end as the list of writes that says where they left a chip. And once more as a Rust
//! programmer would write it for a lent slice (`plain`), which the port's instructions are counted beside.
use crate::page;
use rusb::rec::Entry;
use std::collections::BTreeMap;

/// "sections end to end in one slice, oldest first": their entries; None is 12.
pub fn entries(slice: &[u8]) -> Option<Vec<Entry>> {
    if slice.is_empty() {
        return Some(vec![]);
    }
    let (start, count) = page::read_section(slice)?;
    let mut all = entries(&slice[..start])?;
    all.extend(slice[start..].as_chunks::<16>().0.iter().take(count));
    Some(all)
}

/// The registers that a write to the chip names, with their bytes; "numbers past 0xff don't wrap".
pub fn named(entry: &Entry, chip: u8) -> impl Iterator<Item = (usize, u8)> {
    let n = if (entry[0], entry[2]) == (2, chip) { entry[3] as usize } else { 1 };
    let first = entry[8] as usize;
    (1..n).map(move |i| (first + i - 1, entry[8 + i]))
}

/// "a list of I2C writes that names each register not doubtful at the end once, with its byte, in ascending runs of at most seven registers", as a section.
pub fn list(slice: &[u8], chip: u8) -> Result<Vec<u8>, u32> {
    let mut last = BTreeMap::new();
    for entry in entries(slice).ok_or(12u32)? {
        for (register, byte) in named(&entry, chip) {
            last.insert(register, (byte, entry[1] == 0));
        }
    }
    last.retain(|register, (_, done)| (0x05..=0x1f).contains(register) && *done);
    let mut runs: Vec<Vec<(usize, u8)>> = vec![];
    for (register, (byte, _)) in last {
        match runs.last_mut() {
            Some(run) if run.len() < 7 && run.last().is_some_and(|(before, _)| before + 1 == register) => run.push((register, byte)),
            _ => runs.push(vec![(register, byte)]),
        }
    }
    let write = |run: Vec<(usize, u8)>| {
        let mut entry: Entry = [2, 0, chip, run.len() as u8 + 1, 0, 0, 0, 0, run[0].0 as u8, 0, 0, 0, 0, 0, 0, 0];
        run.iter().enumerate().for_each(|(i, (_, byte))| entry[9 + i] = *byte);
        entry
    };
    Ok(page::section(&runs.into_iter().map(write).collect::<Vec<_>>()))
}

/// The same for a lent slice, newest first, with nothing allocated.
pub fn plain(mut slice: &[u8], chip: u8, out: &mut [u8]) -> Result<usize, u32> {
    let mut told: [Option<(u8, bool)>; 32] = [None; 32];
    while !slice.is_empty() {
        let (start, count) = page::read_section(slice).ok_or(12u32)?;
        for entry in slice[start..start + 16 * count].as_chunks::<16>().0.iter().rev() {
            if entry[0] != 2 || entry[2] != chip {
                continue;
            }
            for (i, &byte) in entry[9..8 + entry[3] as usize].iter().enumerate() {
                if let Some(place) = told.get_mut(entry[8] as usize + i) {
                    place.get_or_insert((byte, entry[1] == 0));
                }
            }
        }
        slice = &slice[..start];
    }
    let sure = |register: usize| told.get(register).copied().flatten().filter(|&(_, done)| done && register >= 5);
    let (mut image, mut count, mut register) = ([0; 16 * 14 + 8], 0, 5);
    while register < 32 {
        let n = (0..7).take_while(|&i| sure(register + i).is_some()).count();
        if n == 0 {
            register += 1;
            continue;
        }
        let entry = &mut image[16 * count..][..16];
        (entry[0], entry[2], entry[3], entry[8]) = (2, chip, n as u8 + 1, register as u8);
        for (i, place) in entry[9..9 + n].iter_mut().enumerate() {
            *place = sure(register + i).map_or(0, |(byte, _)| byte);
        }
        (count, register) = (count + 1, register + n);
    }
    image[16 * count..][..4].copy_from_slice(&(count as u32).to_le_bytes());
    image[16 * count + 4..][..4].copy_from_slice(&(16 * count as u32).to_le_bytes());
    let size = 16 * count + 8;
    out.get_mut(..size).ok_or(8u32)?.copy_from_slice(&image[..size]);
    Ok(size)
}

/// By trying every list: the fewest runs of at most seven registers that name exactly these, where each may be named more than once. Bits of `set`, of `width`.
pub fn fewest(set: u32, width: u32) -> usize {
    let inside = |first: u32, n: u32| (((1u32 << n) - 1) << first) & !set == 0;
    let runs: Vec<u32> = (0..width)
        .flat_map(|first| (1..=7).filter(move |n| first + n <= width).map(move |n| (first, n)))
        .filter(|&(first, n)| inside(first, n))
        .map(|(first, n)| ((1 << n) - 1) << first)
        .collect();
    let mut reached = vec![false; 1 << width];
    let (mut layer, mut count) = (vec![0u32], 0);
    while !layer.contains(&set) {
        let mut next = vec![];
        for named in layer {
            for run in &runs {
                let more = (named | run) as usize;
                if !reached[more] {
                    reached[more] = true;
                    next.push(more as u32);
                }
            }
        }
        (layer, count) = (next, count + 1);
    }
    count
}
