//! The sections of two nights, side by side. First those that the library's `parting` calls the same are aligned (align.rs); what is left between two of them is paired
//! in order by how it begins, and what finds no pair is of one night alone. Damaged sections are left out: what they did is not known.
use crate::files::sections::{ENTRY, TRAILER};
use crate::judged::align;
use crate::judged::nights::Night;
use pasetone::parting;
use std::collections::HashMap;
use std::hash::{DefaultHasher, Hash, Hasher};
use std::ops::Range;

/// Sections by their places in the nights.
#[derive(Debug, PartialEq)]
pub enum Beside {
    /// To be compared; most of them are the same.
    Both(usize, usize),
    /// Of one night alone, one behind the other; or across from damage, so that this is not known.
    Last(Range<usize>, bool),
    Tonight(Range<usize>, bool),
}

/// So many pairs of one stretch are weighed against each other; in a longer one the first stands beside the first, and so on.
const WEIGHED: usize = 1 << 22;

/// All sections that are whole, in the order of both nights. A damaged one has its place in it, where it is beside none.
pub fn sides(last: &Night, tonight: &Night) -> Vec<Beside> {
    let mut kinds = Kinds::default();
    let [a, b] = [last, tonight].map(|night| (0..night.sections.len()).map(|at| kinds.of(night, at)).collect::<Vec<_>>());
    let mut all = Vec::new();
    let (mut x, mut y) = (0, 0);
    for (to, other) in align::common(&a, &b).into_iter().chain([(a.len(), b.len())]) {
        between(last, x..to, tonight, y..other, &mut all);
        if to < a.len() {
            all.push(Beside::Both(to, other));
        }
        (x, y) = (to + 1, other + 1);
    }
    all
}

/// A number for all sections that are the same. Those that may be are found by a sum over what is compared, and the library says whether they are.
#[derive(Default)]
struct Kinds<'a> {
    by_sum: HashMap<u64, Vec<(u32, &'a [u8])>>,
    count: u32,
}

impl<'a> Kinds<'a> {
    /// A damaged section is of a kind of its own.
    fn of(&mut self, night: &'a Night, at: usize) -> u32 {
        if night.sections[at].good {
            return self.of_whole(night.section(at));
        }
        self.count += 1;
        self.count
    }

    fn of_whole(&mut self, section: &'a [u8]) -> u32 {
        let known = self.by_sum.entry(sum(section)).or_default();
        let same = known.iter().find(|(_, other)| parting(other, section).is_ok_and(|part| part.is_empty()));
        if let Some((number, _)) = same {
            return *number;
        }
        self.count += 1;
        known.push((self.count, section));
        self.count
    }
}

fn entries(section: &[u8]) -> impl Iterator<Item = &[u8]> {
    section[..section.len() - TRAILER].chunks_exact(ENTRY)
}

/// A step without its outcome and what a read gave.
fn step(entry: &[u8]) -> (u8, &[u8], &[u8]) {
    (entry[0], &entry[2..8], if matches!(entry[0], 3 | 8) { &[] } else { &entry[8..] })
}

fn sum(section: &[u8]) -> u64 {
    let mut hasher = DefaultHasher::new();
    entries(section).for_each(|entry| step(entry).hash(&mut hasher));
    hasher.finish()
}

/// What a step is about, whatever its bytes: kind, target, length, and the register that it goes to.
fn about(entry: &[u8]) -> (u8, u8, u8, [u8; 2], u8) {
    let address = if entry[0] == 9 { [0; 2] } else { [entry[4], entry[5]] };
    let first = if matches!(entry[0], 1 | 2) { entry[8] } else { 0 };
    (entry[0], entry[2], entry[3], address, first)
}

/// How much two sections are alike: the steps from the first on that are about the same, where these are at least half of the shorter section, and those of them
/// that are the same.
fn alike(first: &[u8], second: &[u8]) -> Option<usize> {
    let (mut about_same, mut same) = (0, 0);
    for (a, b) in entries(first).zip(entries(second)).take_while(|(a, b)| about(a) == about(b)) {
        about_same += 1;
        same += usize::from(step(a) == step(b));
    }
    let shorter = first.len().min(second.len()) / ENTRY;
    (2 * about_same >= shorter).then_some(about_same + same)
}

/// What stands between two sections that are the same, paired in order so that it is as much alike as can be.
fn between(last: &Night, first: Range<usize>, tonight: &Night, second: Range<usize>, all: &mut Vec<Beside>) {
    let whole = |night: &Night, places: Range<usize>| places.filter(|at| night.sections[*at].good).collect::<Vec<_>>();
    let is_damaged = |night: &Night, places: &Range<usize>| places.clone().any(|at| !night.sections[at].good);
    let (damaged, other_damaged) = (is_damaged(last, &first), is_damaged(tonight, &second));
    let (first, second) = (whole(last, first), whole(tonight, second));
    let alike = |x: usize, y: usize| alike(last.section(first[x]), tonight.section(second[y]));
    let pairs = if first.len().saturating_mul(second.len()) > WEIGHED {
        (0..first.len().min(second.len())).filter(|at| alike(*at, *at).is_some()).map(|at| (at, at)).collect()
    } else {
        weighed(first.len(), second.len(), alike)
    };
    let (mut x, mut y) = (0, 0);
    for (to, other) in pairs.into_iter().chain([(first.len(), second.len())]) {
        all.extend(runs(&first[x..to]).map(|run| Beside::Last(run, other_damaged)));
        all.extend(runs(&second[y..other]).map(|run| Beside::Tonight(run, damaged)));
        if to < first.len() {
            all.push(Beside::Both(first[to], second[other]));
        }
        (x, y) = (to + 1, other + 1);
    }
}

/// The pairs with the most weight, where each pair counts for one more than it is alike.
fn weighed(first: usize, second: usize, alike: impl Fn(usize, usize) -> Option<usize>) -> Vec<(usize, usize)> {
    let wide = second + 1;
    // The weight of what stands from a place of either on.
    let mut best = vec![0u32; (first + 1) * wide];
    let paired = |best: &[u32], x: usize, y: usize| alike(x, y).map_or(0, |same| 1 + same as u32 + best[(x + 1) * wide + y + 1]);
    for x in (0..first).rev() {
        for y in (0..second).rev() {
            let pair = paired(&best, x, y);
            best[x * wide + y] = pair.max(best[(x + 1) * wide + y]).max(best[x * wide + y + 1]);
        }
    }
    let (mut x, mut y, mut pairs) = (0, 0, Vec::new());
    while x < first && y < second {
        let here = best[x * wide + y];
        if here > 0 && here == paired(&best, x, y) {
            pairs.push((x, y));
            (x, y) = (x + 1, y + 1);
        } else if here == best[(x + 1) * wide + y] {
            x += 1;
        } else {
            y += 1;
        }
    }
    pairs
}

/// Places as runs: a damaged section between two of them ends one.
fn runs(places: &[usize]) -> impl Iterator<Item = Range<usize>> {
    places.chunk_by(|a, b| a + 1 == *b).map(|run| run[0]..run[0] + run.len())
}

#[cfg(test)]
mod tests {
    use super::*;
    use crate::files::filed::File;
    use crate::files::sections::Walk;
    use crate::printed::out::Out;
    use pasetone::{Script, Transcript, Tuner, TunerKind};

    fn night(sections: &[&[u8]], who: &'static str) -> Night {
        let file = File { name: String::new(), bytes: sections.concat() };
        let walk = Walk::of(&file.bytes);
        Night::of(file, &walk, who, &mut Out::standard())
    }

    /// A bandwidth, two gains, a tuning, a tuning that was cut, an initialisation, a reload, and one of no steps.
    fn calls() -> Vec<Vec<u8>> {
        let (mut tuner, done) = (Tuner::new(TunerKind::R828d, 0x74, 28_800_000).unwrap(), Script::all_done());
        let made = [
            tuner.set_bandwidth(2_048_000, &done).transcript,
            tuner.set_gain(29.7, &done).transcript,
            tuner.set_gain(10.0, &done).transcript,
            tuner.set_frequency(102_300_000, &done).transcript,
            tuner.set_frequency(102_300_000, &Script::all_done().failing(9).unwrap()).transcript,
            tuner.initialize(&done).transcript,
            tuner.reload(&done).transcript,
            Transcript::default(),
        ];
        made.iter().map(|one| one.bytes().to_vec()).collect()
    }

    /// Nights of sections drawn at random: each section is told once, in order, and as many stand beside one of the same steps as can.
    #[test]
    fn each_section_is_told_once() {
        let (calls, mut seed) = (calls(), 5u64);
        let mut below = |n: u64| {
            seed = seed.wrapping_mul(6_364_136_223_846_793_005).wrapping_add(1_442_695_040_888_963_407);
            (seed >> 33) % n
        };
        for _ in 0..2000 {
            let mut draw = || (0..below(12)).map(|_| calls[below(8) as usize].as_slice()).collect::<Vec<_>>();
            let (last, tonight) = (night(&draw(), "last"), night(&draw(), "tonight"));
            let (mut x, mut y, mut same) = (0, 0, 0);
            for beside in sides(&last, &tonight) {
                match beside {
                    Beside::Both(at, other) => {
                        assert_eq!((at, other), (x, y));
                        same += usize::from(parting(last.section(at), tonight.section(other)).unwrap().is_empty());
                        (x, y) = (x + 1, y + 1);
                    }
                    Beside::Last(run, _) => {
                        assert!(run.start == x && !run.is_empty());
                        x = run.end;
                    }
                    Beside::Tonight(run, _) => {
                        assert!(run.start == y && !run.is_empty());
                        y = run.end;
                    }
                }
            }
            assert_eq!((x, y), (last.sections.len(), tonight.sections.len()));
            let mut kinds = Kinds::default();
            let [a, b] = [&last, &tonight].map(|night| (0..night.sections.len()).map(|at| kinds.of(night, at)).collect::<Vec<_>>());
            assert!(same >= align::common(&a, &b).len());
        }
    }

    /// One section more or fewer moves none of the others; a reload is beside no gain, a gain beside the other gain, a cut tuning beside the whole one.
    #[test]
    fn what_stands_beside_what() {
        let all = calls();
        let [bandwidth, gain, other, tune, cut, initialise, reload, _]: [&[u8]; 8] = std::array::from_fn(|at| all[at].as_slice());
        let told = |last: &[&[u8]], tonight: &[&[u8]]| sides(&night(last, "last"), &night(tonight, "tonight"));
        use Beside::{Both, Last, Tonight};
        assert_eq!(
            told(&[initialise, gain, tune], &[initialise, reload, gain, tune]),
            [Both(0, 0), Tonight(1..2, false), Both(1, 2), Both(2, 3)]
        );
        assert_eq!(told(&[initialise, gain, tune], &[initialise, tune]), [Both(0, 0), Last(1..2, false), Both(2, 1)]);
        assert_eq!(told(&[gain], &[other]), [Both(0, 0)]);
        assert_eq!(told(&[tune], &[cut]), [Both(0, 0)]);
        assert_eq!(told(&[reload], &[gain]), [Last(0..1, false), Tonight(0..1, false)]);
        assert_eq!(
            told(&[reload, gain], &[bandwidth, other, bandwidth]),
            [Last(0..1, false), Tonight(0..1, false), Both(1, 1), Tonight(2..3, false)]
        );
        assert_eq!(told(&[], &[gain, gain]), [Tonight(0..2, false)]);
        assert_eq!(told(&[], &[]), []);
        // One that was changed among others like it stands beside what it became; across from damage nothing is known.
        assert_eq!(told(&[gain, gain, gain], &[gain, other, gain]), [Both(0, 0), Both(1, 1), Both(2, 2)]);
        let damaged: Vec<u8> = gain.iter().enumerate().map(|(at, byte)| if at == 16 { 0xff } else { *byte }).collect();
        assert_eq!(told(&[gain, gain, gain], &[gain, &damaged, gain]), [Both(0, 0), Last(1..2, true), Both(2, 2)]);
        assert_eq!(told(&[&damaged, tune], &[tune]), [Both(1, 0)]);
    }

    /// The sum tells apart what the library does, or the library is asked: an outcome and what a read gave change nothing of it.
    #[test]
    fn sections_that_differ_in_outcomes_are_one_kind() {
        let (mut tuner, done) = (Tuner::new(TunerKind::R828d, 0x74, 28_800_000).unwrap(), Script::all_done());
        let whole = tuner.set_frequency(102_300_000, &done).transcript.bytes().to_vec();
        for at in 0..whole.len() - TRAILER {
            let mut other = whole.clone();
            other[at] ^= 1;
            if Transcript::read(&other).is_err() {
                continue;
            }
            let equal = parting(&whole, &other).unwrap().is_empty();
            let mut kinds = Kinds::default();
            assert_eq!(kinds.of_whole(&whole) == kinds.of_whole(&other), equal, "{at}");
        }
    }
}
