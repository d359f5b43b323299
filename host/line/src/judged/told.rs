//! A receiver's night as it is told, in lines and on the page.
use crate::files::logged::Log;
use crate::files::parts::Parts;
use crate::judged::hops::Hop;
use crate::judged::verdict::Verdict;
use crate::printed::names::counted;
use pasetone::evidence::Lock;

/// A receiver, as far as it is judged.
pub struct Receiver {
    pub name: String,
    pub file: String,
    pub log: Option<Log>,
    pub logged: Option<String>,
    /// Kept for the page alone.
    pub hops: Vec<Hop>,
    pub parts: Option<Parts>,
    pub count: [usize; 5],
}

pub fn lock_words(lock: Lock, tries: u32) -> String {
    match lock {
        Lock::Locked => format!("at try {tries}"),
        Lock::Without => format!("NO at {tries}"),
        Lock::Unread => String::from("not read"),
    }
}

/// How many attempts there were, and why it is not right.
pub fn notes(hop: &Hop) -> Vec<String> {
    let mut notes = hop.why.clone();
    if hop.attempts > 1 {
        let since = hop.began.zip(hop.time).map_or(0, |(began, time)| time.saturating_sub(began));
        notes.push(format!("attempt {0} of {0}, {since} s behind the first", hop.attempts));
    }
    notes
}

/// How far the centre is from what was asked.
pub fn off(hop: &Hop) -> Option<i128> {
    Some(hop.centre? - i128::from(hop.asked?))
}

pub fn count_words(count: &[usize; 5]) -> String {
    let parts = Verdict::WORDS.iter().zip(count).filter(|(_, count)| **count > 0).map(|(word, count)| format!("{count} {word}"));
    let parts: Vec<String> = parts.collect();
    let hops = counted(count.iter().sum(), "hop");
    if parts.is_empty() { hops } else { format!("{hops}: {}", parts.join(", ")) }
}
