//! A file of sections read in parts, whatever its size: from its end, where each section says how long it is, to find them; then from its start. A stream is
//! held whole.
use crate::files::disk::{self, unread};
use crate::files::sections::{ENTRY, MOST, TRAILER};
use crate::words::named::is_standard;
use pasetone::Transcript;
use std::ffi::{OsStr, OsString};
use std::fs::File;
use std::io;
use std::os::unix::fs::FileExt;

/// So much is read at once.
const BLOCK: usize = 1 << 20;
/// The longest section.
const LONGEST: usize = ENTRY * MOST + TRAILER;

enum Bytes {
    File(File),
    Held(Vec<u8>),
}

pub struct Parts {
    name: OsString,
    bytes: Bytes,
    length: u64,
    /// Of the sections, from the last to the first.
    lengths: Vec<u32>,
}

/// No section ends before this byte.
pub struct Damaged(pub u64);

impl Parts {
    pub fn open(name: &OsStr) -> Result<Parts, String> {
        let bytes = match Parts::file(name).map_err(|error| unread(name, &error))? {
            Some(file) => Bytes::File(file),
            None => Bytes::Held(disk::read(name)?),
        };
        let length = match &bytes {
            Bytes::File(file) => file.metadata().map_err(|error| unread(name, &error))?.len(),
            Bytes::Held(bytes) => bytes.len() as u64,
        };
        Ok(Parts { name: name.to_os_string(), bytes, length, lengths: Vec::new() })
    }

    fn file(name: &OsStr) -> io::Result<Option<File>> {
        if is_standard(name) {
            return Ok(None);
        }
        let file = File::open(name)?;
        let is = file.metadata()?;
        // What says that it has no bytes may have some all the same, as files that the system makes up.
        Ok((is.is_file() && is.len() > 0).then_some(file))
    }

    pub fn read(&self, at: u64, length: usize) -> Result<Vec<u8>, String> {
        let from = at as usize;
        match &self.bytes {
            Bytes::Held(bytes) => Ok(bytes[from..from + length].to_vec()),
            Bytes::File(file) => {
                let mut bytes = vec![0; length];
                file.read_exact_at(&mut bytes, at).map_err(|error| unread(&self.name, &error))?;
                Ok(bytes)
            }
        }
    }

    /// Finds the sections: all bytes are in one of them, or it says where not.
    pub fn find(&mut self) -> Result<Result<(), Damaged>, String> {
        let (mut block, mut from, mut end) = (Vec::new(), self.length, self.length);
        while end > 0 {
            let held = &block[..(end - from) as usize];
            match Transcript::start(held) {
                Ok(start) => {
                    self.lengths.push((held.len() - start) as u32);
                    end = from + start as u64;
                }
                Err(_) if from > 0 && held.len() < LONGEST => {
                    from = end.saturating_sub(BLOCK as u64);
                    block = self.read(from, (end - from) as usize)?;
                }
                Err(_) => return Ok(Err(Damaged(end))),
            }
        }
        Ok(Ok(()))
    }

    /// Whether each place and length, in their order, is a section's.
    pub fn has(&self, places: impl Iterator<Item = (u64, u64)>) -> bool {
        let (mut lengths, mut at) = (self.lengths.iter().rev().map(|length| u64::from(*length)).peekable(), 0);
        places.into_iter().all(|(place, length)| {
            while let Some(length) = lengths.next_if(|_| at < place) {
                at += length;
            }
            at == place && lengths.peek() == Some(&length)
        })
    }

    /// The sections that were found, from the first on, each with its place.
    pub fn each(&self, mut see: impl FnMut(u64, &[u8])) -> Result<(), String> {
        let (mut lengths, mut at) = (self.lengths.iter().rev().map(|length| *length as usize).peekable(), 0);
        while lengths.peek().is_some() {
            let (mut block, mut size) = (Vec::new(), 0);
            while let Some(length) = lengths.next_if(|length| size == 0 || size + length <= BLOCK) {
                block.push(length);
                size += length;
            }
            let bytes = self.read(at, size)?;
            let mut from = 0;
            for length in block {
                see(at + from as u64, &bytes[from..from + length]);
                from += length;
            }
            at += size as u64;
        }
        Ok(())
    }
}

#[cfg(test)]
mod tests {
    use super::*;
    use crate::files::sections::Walk;
    use pasetone::{Script, Tuner, TunerKind};

    fn parts(bytes: Vec<u8>) -> Parts {
        Parts { name: OsString::new(), length: bytes.len() as u64, bytes: Bytes::Held(bytes), lengths: Vec::new() }
    }

    /// Sections over many blocks, the longest one among them: all are found and seen, in their order, and each byte once. Cut anywhere it is damaged, where the walk
    /// over the whole says so too.
    #[test]
    fn every_section_is_seen() {
        let mut tuner = Tuner::new(TunerKind::R828d, 0x74, 28_800_000).unwrap();
        let one = tuner.initialize(&Script::all_done()).transcript.bytes().to_vec();
        let mut longest: Vec<u8> = one[..ENTRY].repeat(MOST);
        longest.extend([0, 0x10, 0, 0, 0, 0, 1, 0]);
        let file: Vec<u8> =
            (0..12_000).flat_map(|at| if at % 997 == 5 { longest.clone() } else { one.clone() }).chain([0; TRAILER]).collect();
        let mut all = parts(file.clone());
        assert!(all.find().is_ok_and(|found| found.is_ok()));
        let (mut seen, mut at) = (0, 0);
        all.each(|place, section| {
            assert_eq!((place, section), (at, &file[at as usize..at as usize + section.len()]));
            (seen, at) = (seen + 1, at + section.len() as u64);
        })
        .unwrap();
        assert_eq!((seen, at), (12_001, file.len() as u64));
        for length in (0..2_000).chain([BLOCK, BLOCK + 7, file.len() - 1]) {
            let is_whole = parts(file[..length].to_vec()).find().unwrap().is_ok();
            assert_eq!(is_whole, Walk::of(&file[..length]).damages() == 0, "{length}");
        }
    }
}
