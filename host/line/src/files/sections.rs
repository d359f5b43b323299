//! A file of sections end to end, walked from its end, where each section says how long it is. Damage is walked past:
//!
//! - Where no section ends, the next good one with entries is looked for byte by byte towards the start. A section of no entries is 8 zero bytes, which
//!   entries hold too, so none is taken for one there, unless it stands right behind a section's end, where no entry begins with zeros.
//! - What lies between is damaged. A trailer that is one (a count, and 16 times it) with room for its entries says where a damaged section begins: it is
//!   looked for at the end of the damaged bytes, then behind their start, with as many entries before it as it says.
//! - Without it, bytes that have a section's length and begin with an entry are one section whose trailer is damaged. Others are told by their bytes:
//!   counted as one section if one with entries could stand there, and as none if not.
//! - What was read behind damage as sections of no entries is looked at again: it may be the zeros in which a cut entry ends.
use pasetone::Transcript;

pub const ENTRY: usize = 16;
pub const TRAILER: usize = 8;
pub const MOST: usize = 4096;

/// What is wrong with a damaged part.
#[derive(Debug, PartialEq)]
pub enum Flaw {
    /// Its trailer is whole, and this entry, the first of them, is none.
    Entry(usize),
    /// Its length is a section's, and its last 8 bytes are no trailer.
    Trailer,
    /// Bytes of no section's shape; whether they count as one.
    Shapeless { counts: bool },
}

#[derive(Debug, PartialEq)]
pub struct Damage {
    pub start: usize,
    pub end: usize,
    /// So many entries stand from `start` on. All of them fit where the part is shapeless.
    pub entries: usize,
    pub flaw: Flaw,
}

/// The numbers of the sections that are asked for, from the first to the last of them.
#[derive(Clone, Copy, Debug, PartialEq)]
pub struct Span {
    pub first: usize,
    /// None where all behind the first are meant.
    pub last: Option<usize>,
}

impl Span {
    /// `3`, `3-5` or `3-`.
    pub fn read(text: &str) -> Option<Span> {
        let number = |text: &str| text.bytes().all(|byte| byte.is_ascii_digit()).then(|| text.parse().ok()).flatten();
        let (first, last) = match text.split_once('-') {
            None => (number(text)?, Some(number(text)?)),
            Some((first, "")) => (number(first)?, None),
            Some((first, last)) => (number(first)?, Some(number(last)?)),
        };
        (first > 0 && last.is_none_or(|last| first <= last)).then_some(Span { first, last })
    }

    fn ends(&self) -> usize {
        self.last.unwrap_or(usize::MAX)
    }
}

/// A part of the file.
pub enum Part<'a> {
    Good { start: usize, end: usize },
    Damaged(&'a Damage),
}

impl Part<'_> {
    /// How many steps it counts for.
    pub fn steps(&self) -> usize {
        match self {
            Part::Good { start, end } => (end - start - TRAILER) / ENTRY,
            Part::Damaged(damage) => damage.entries,
        }
    }
}

/// Where each part begins, and the damaged ones; both from the end of the file.
pub struct Walk {
    starts: Vec<usize>,
    damages: Vec<Damage>,
    length: usize,
    /// All, where none are asked for by their numbers.
    span: Option<Span>,
}

impl Walk {
    pub fn of(bytes: &[u8]) -> Walk {
        let mut walk = Walk { starts: Vec::new(), damages: Vec::new(), length: bytes.len(), span: None };
        let mut end = bytes.len();
        while end > 0 {
            end = match Transcript::start(&bytes[..end]) {
                Ok(start) => {
                    walk.starts.push(start);
                    start
                }
                Err(_) => walk.past_damage(bytes, end),
            };
        }
        walk
    }

    /// No section ends at `end`. Answers where the next good one with entries does.
    fn past_damage(&mut self, bytes: &[u8], end: usize) -> usize {
        let (behind, count) = self.empty_behind(end);
        // A section that ends within what was read as sections of no entries: these were other zeros.
        let within = (end + 1..behind).rev().find(|end| is_good(bytes, *end));
        let from = within.or_else(|| (ENTRY + TRAILER..end).rev().find(|end| is_good(bytes, *end))).unwrap_or(0);
        // No entry begins with zeros, so behind a section's end they are sections of no entries.
        let zeros = bytes[from..within.unwrap_or(end)].chunks_exact(TRAILER).take_while(|chunk| *chunk == [0; TRAILER]).count();
        let start = from + TRAILER * zeros;
        let mut end = end;
        if within.is_some() || (told(bytes, start, end).is_none() && self.were_zeros(bytes, start, end, behind)) {
            self.starts.truncate(self.starts.len() - count);
            end = behind;
        }
        self.damaged(bytes, start, end);
        self.starts.extend((from..start).step_by(TRAILER).rev());
        from
    }

    /// The damaged bytes between two good sections, as parts.
    fn damaged(&mut self, bytes: &[u8], start: usize, mut end: usize) {
        while let Some(entries) = told(bytes, start, end) {
            let begin = end - TRAILER - ENTRY * entries;
            self.push(told_damage(bytes, begin, end, entries));
            end = begin;
        }
        let (mut front, mut start) = (Vec::new(), start);
        while let Some(entries) = told_from_its_start(bytes, start, end) {
            let next = start + ENTRY * entries + TRAILER;
            front.push(told_damage(bytes, start, next, entries));
            start = next;
        }
        if start < end {
            self.push(untold(bytes, start, end));
        }
        front.into_iter().rev().for_each(|damage| self.push(damage));
    }

    fn push(&mut self, damage: Damage) {
        self.starts.push(damage.start);
        self.damages.push(damage);
    }

    /// Where the sections of no entries end that were read from `end` on, one behind the other, and how many they are.
    fn empty_behind(&self, end: usize) -> (usize, usize) {
        let (mut behind, mut count) = (end, 0);
        let mut starts = self.starts.iter().rev().copied().peekable();
        while starts.next_if_eq(&behind).is_some() && self.damages.last().is_none_or(|damage| damage.start != behind) {
            let next = starts.peek().copied().unwrap_or(self.length);
            if next - behind != TRAILER {
                break;
            }
            (behind, count) = (next, count + 1);
        }
        (behind, count)
    }

    /// Whether what was read behind damage as sections of no entries is rather the zeros of an entry: the damaged bytes have no section's shape, or the file
    /// was cut behind an entry that ends in zeros.
    fn were_zeros(&self, bytes: &[u8], start: usize, end: usize, behind: usize) -> bool {
        let length = behind - start;
        let is_cut = behind == self.length && length.is_multiple_of(ENTRY) && fitting(bytes, start, behind) == length / ENTRY;
        is_cut || !has_shape(bytes, start, end)
    }

    /// The sections of these numbers alone; how many there are, where there are too few.
    pub fn only(mut self, span: Span) -> Result<Walk, usize> {
        let all = self.sections();
        self.span = Some(span);
        if span.first > all || span.last.is_some_and(|last| last > all) { Err(all) } else { Ok(self) }
    }

    pub fn is_whole(&self) -> bool {
        self.span.is_none()
    }

    /// How many of the parts that are asked for are damaged.
    pub fn damages(&self) -> usize {
        self.numbered().filter(|(_, part)| matches!(part, Part::Damaged(_))).count()
    }

    /// How many of them count as sections.
    pub fn sections(&self) -> usize {
        self.numbered().filter(|(number, _)| *number > 0).count()
    }

    /// How many steps stand before them, as `show` counts them.
    pub fn skipped(&self) -> usize {
        let Some(span) = self.span else { return 0 };
        self.counted().take_while(|(_, seen, _)| *seen < span.first).map(|(_, _, part)| part.steps()).sum()
    }

    /// The parts that are asked for, in the order of the file, each with its section's number; 0 where it counts as none.
    pub fn numbered(&self) -> impl Iterator<Item = (usize, Part<'_>)> {
        let span = self.span.unwrap_or(Span { first: 0, last: None });
        // Bytes of no section are between two that are asked for.
        let asked = move |counts: bool, seen: usize| seen >= span.first && (seen < span.ends() || (counts && seen == span.ends()));
        self.counted()
            .filter(move |(counts, seen, _)| asked(*counts, *seen))
            .map(|(counts, seen, part)| (if counts { seen } else { 0 }, part))
    }

    /// All parts, each with whether it counts as a section, and how many there are up to it.
    fn counted(&self) -> impl Iterator<Item = (bool, usize, Part<'_>)> {
        let mut sections = 0;
        self.parts().map(move |part| {
            let counts = !matches!(part, Part::Damaged(Damage { flaw: Flaw::Shapeless { counts: false }, .. }));
            sections += usize::from(counts);
            (counts, sections, part)
        })
    }

    /// The parts in the order of the file.
    fn parts(&self) -> impl Iterator<Item = Part<'_>> {
        let mut damages = self.damages.iter().rev().peekable();
        let ends = self.starts.iter().rev().skip(1).copied().chain([self.length]);
        self.starts.iter().rev().copied().zip(ends).map(move |(start, end)| match damages.next_if(|damage| damage.start == start) {
            Some(damage) => Part::Damaged(damage),
            None => Part::Good { start, end },
        })
    }
}

/// How many entries the trailer before `end` tells, at least one, where they have room behind `from`.
fn told(bytes: &[u8], from: usize, end: usize) -> Option<usize> {
    let trailer: [u8; TRAILER] = bytes[from..end].last_chunk().copied()?;
    let number = u64::from_le_bytes(trailer);
    let (count, distance) = ((number & 0xffff_ffff) as usize, (number >> 32) as usize);
    let room = end - from - TRAILER;
    (count > 0 && count <= MOST && distance == ENTRY * count && distance <= room).then_some(count)
}

/// How many entries stand from `from` on before a trailer that tells just these, where it ends before `end`.
fn told_from_its_start(bytes: &[u8], from: usize, end: usize) -> Option<usize> {
    (1..=MOST).take_while(|entries| from + ENTRY * entries + TRAILER <= end).find(|entries| {
        let end = from + ENTRY * entries + TRAILER;
        told(bytes, from, end) == Some(*entries)
    })
}

/// A damaged section whose trailer is whole.
fn told_damage(bytes: &[u8], start: usize, end: usize, entries: usize) -> Damage {
    let first = (0..entries).find(|at| !is_entry(bytes, start + ENTRY * at)).unwrap_or(0);
    Damage { start, end, entries, flaw: Flaw::Entry(first) }
}

/// Whether a good section with entries ends there.
fn is_good(bytes: &[u8], end: usize) -> bool {
    told(bytes, 0, end).is_some() && Transcript::start(&bytes[..end]).is_ok()
}

/// Whether an entry stands there: the library's reader is given it with a trailer of its own.
fn is_entry(bytes: &[u8], at: usize) -> bool {
    let Some(entry) = bytes.get(at..at + ENTRY) else { return false };
    Transcript::start(&alone(entry)).is_ok()
}

/// An entry as a section of one.
pub fn alone(entry: &[u8]) -> Vec<u8> {
    [entry, &1u32.to_le_bytes(), &(ENTRY as u32).to_le_bytes()].concat()
}

/// Whether the bytes are as many as a section has, and begin with an entry.
fn has_shape(bytes: &[u8], start: usize, end: usize) -> bool {
    let entries = (end - start).saturating_sub(TRAILER) / ENTRY;
    entries > 0 && entries <= MOST && end - start == ENTRY * entries + TRAILER && is_entry(bytes, start)
}

/// How many entries stand one behind the other from `start` on.
fn fitting(bytes: &[u8], start: usize, end: usize) -> usize {
    (0..(end - start) / ENTRY).take_while(|at| is_entry(bytes, start + ENTRY * at)).count()
}

/// Damaged bytes without a trailer that tells where they begin.
fn untold(bytes: &[u8], start: usize, end: usize) -> Damage {
    let length = end - start;
    if has_shape(bytes, start, end) {
        return Damage { start, end, entries: (length - TRAILER) / ENTRY, flaw: Flaw::Trailer };
    }
    let entries = fitting(bytes, start, end);
    // A whole file without one entry is no file of sections.
    let is_other = entries == 0 && length == bytes.len();
    Damage { start, end, entries, flaw: Flaw::Shapeless { counts: length >= ENTRY + TRAILER && !is_other } }
}

#[cfg(test)]
mod tests {
    use super::*;
    use pasetone::{Script, Tuner, TunerKind};

    /// The sections of a bandwidth (3 entries), an initialisation (19) and a gain (7), twice, with one of no entries between.
    fn file() -> Vec<u8> {
        let (mut tuner, done) = (Tuner::new(TunerKind::R828d, 0x74, 28_800_000).unwrap(), Script::all_done());
        let three =
            [tuner.set_bandwidth(2_048_000, &done).transcript, tuner.initialize(&done).transcript, tuner.set_gain(29.7, &done).transcript];
        let once: Vec<u8> = three.iter().flat_map(|one| one.bytes()).copied().collect();
        [&once[..], &[0; TRAILER], &once].concat()
    }

    /// Start and end of each part, whether it counts as a section, and whether it is good. The parts lie one behind the other, from the first byte to the last.
    fn parts(bytes: &[u8]) -> Vec<(usize, usize, bool, bool)> {
        let walk = Walk::of(bytes);
        let mut all = Vec::new();
        let mut at = 0;
        for part in walk.parts() {
            let (start, end, counts, good) = match part {
                Part::Good { start, end } => (start, end, true, true),
                Part::Damaged(damage) => (damage.start, damage.end, damage.flaw != Flaw::Shapeless { counts: false }, false),
            };
            assert!(start == at && start < end, "{start} {at}");
            at = end;
            all.push((start, end, counts, good));
        }
        assert_eq!(at, bytes.len());
        assert_eq!(all.iter().filter(|(.., good)| !good).count(), walk.damages());
        all
    }

    #[test]
    fn spans() {
        let span = |first, last| Some(Span { first, last });
        assert_eq!([Span::read("3"), Span::read("3-5"), Span::read("3-")], [span(3, Some(3)), span(3, Some(5)), span(3, None)]);
        for text in ["", "-", "0", "0-1", "-3", "5-3", "3-5-7", "x", "3-x", "+3", " 3", "99999999999999999999999"] {
            assert_eq!(Span::read(text), None, "{text}");
        }
    }

    /// Whatever is damaged, the sections of some numbers are those that the whole walk has under these numbers, and all spans end to end are the whole.
    #[test]
    fn some_sections_are_those_of_all() {
        let file = file();
        for at in (0..file.len()).step_by(5) {
            let mut bytes = file.clone();
            bytes[at] ^= 0xff;
            bytes.remove(file.len() - 1 - at);
            let all: Vec<(usize, usize)> = Walk::of(&bytes).numbered().map(|(number, part)| (number, part.steps())).collect();
            let count = Walk::of(&bytes).sections();
            for first in 1..=count {
                for last in first..=count {
                    let walk = Walk::of(&bytes).only(Span { first, last: Some(last) }).ok().unwrap();
                    let from = all.iter().position(|(number, _)| *number == first).unwrap();
                    let to = all.iter().position(|(number, _)| *number == last).unwrap();
                    assert!(
                        walk.numbered().map(|(number, part)| (number, part.steps())).eq(all[from..=to].iter().copied()),
                        "{at} {first} {last}"
                    );
                    assert_eq!(walk.skipped(), all[..from].iter().map(|(_, steps)| steps).sum::<usize>());
                }
            }
            assert_eq!(Walk::of(&bytes).only(Span { first: 1, last: Some(count + 1) }).err(), Some(count));
        }
    }

    #[test]
    fn whole_file() {
        let good: Vec<bool> = parts(&file()).iter().map(|part| part.3).collect();
        assert_eq!(good, [true; 7]);
        assert_eq!(parts(&[]), []);
    }

    /// Whatever one byte becomes, every section stands where it stood, and all but its own are good. Only the trailer of no entries can be no section's.
    #[test]
    fn one_changed_byte() {
        let file = file();
        let whole = parts(&file);
        let empty = whole.iter().find(|part| part.1 - part.0 == TRAILER).copied().unwrap();
        for at in (0..file.len()).filter(|at| !(empty.0..empty.1).contains(at)) {
            for bit in 0..8 {
                let mut bytes = file.clone();
                bytes[at] ^= 1 << bit;
                for (part, was) in parts(&bytes).iter().zip(&whole) {
                    assert_eq!(part.0..part.1, was.0..was.1, "byte {at}, bit {bit}");
                    assert!(part.2 && (part.3 || (was.0..was.1).contains(&at)), "byte {at}, bit {bit}");
                }
            }
        }
    }

    /// A file that was cut has the sections before the cut, and one damaged part at most behind them.
    #[test]
    fn every_cut() {
        let file = file();
        let whole = parts(&file);
        for length in 0..file.len() {
            let before = whole.iter().take_while(|part| part.1 <= length).count();
            let cut = parts(&file[..length]);
            assert_eq!(cut[..before], whole[..before], "{length}");
            assert!(cut.len() == before + usize::from(cut[..before].last().map_or(0, |part| part.1) < length), "{length}");
            assert!(cut[before..].iter().all(|part| !part.3), "{length}");
        }
    }

    /// Bytes changed, lost and added anywhere: the parts still lie one behind the other.
    #[test]
    fn any_damage() {
        let mut seed = 1u64;
        let mut below = |n: usize| {
            seed = seed.wrapping_mul(6_364_136_223_846_793_005).wrapping_add(1_442_695_040_888_963_407);
            (seed >> 33) as usize % n
        };
        for _ in 0..20_000 {
            let mut bytes = file();
            for _ in 0..1 + below(6) {
                let at = below(bytes.len());
                match below(4).min(if bytes.len() > 1 { 3 } else { 0 }) {
                    0 => bytes[at] = below(256) as u8,
                    1 => drop(bytes.remove(at)),
                    2 => bytes.insert(at, below(256) as u8),
                    _ => bytes.truncate(at + 1),
                }
            }
            parts(&bytes);
        }
    }
}
