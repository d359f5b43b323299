//! The recorder: one per thread. A script (outcome byte per entry, reply bytes in order of reading) goes in before a
//! call; document 01's 16-byte entries, and the USB control transfers if asked for, come out after it.
//!
//! build.rs puts one `let _step = rusb::rec::step(..)` at the head of each leaf of device.rs's interface. It makes the
//! entry and settles its outcome; the transfers made before it is dropped belong to that entry and share its outcome.
//! A leaf called by another leaf (the repeater is a demod write) makes no entry of its own.
use crate::{Error, Result};
use std::cell::Cell;

pub type Entry = [u8; 16];

/// A USB control transfer as the original asked for it; `data` is what was written or read.
#[derive(Debug, Clone, PartialEq, Eq)]
pub struct Transfer {
    pub kind: u8,
    pub request: u8,
    pub value: u16,
    pub index: u16,
    pub data: Vec<u8>,
    pub done: bool,
}

#[derive(Default)]
pub struct Recorder {
    pub entries: Vec<Entry>,
    /// Past the script's end every entry is done and every reply is zero; `taken` tells how many replies were asked for.
    pub outcomes: Vec<u8>,
    pub replies: Vec<u8>,
    pub taken: usize,
    /// Transfers are kept only when asked for: they cost more than the entries.
    pub keep: bool,
    pub transfers: Vec<Transfer>,
    depth: u32,
}

thread_local! {
    // A leaked recorder behind a plain pointer: no destructor and no borrow count on the path that is measured.
    static HERE: Cell<*mut Recorder> = const { Cell::new(std::ptr::null_mut()) };
}

/// The thread's recorder. `work` must not make a step itself; no caller here does.
#[inline(always)]
pub fn with<T>(work: impl FnOnce(&mut Recorder) -> T) -> T {
    HERE.with(|cell| {
        if cell.get().is_null() {
            cell.set(fresh());
        }
        // Safe: the pointer is this thread's own, never freed, and no two borrows of it overlap (see above).
        work(unsafe { &mut *cell.get() })
    })
}

#[cold]
fn fresh() -> *mut Recorder {
    Box::leak(Box::new(Recorder { entries: Vec::with_capacity(4096), ..Default::default() }))
}

/// Start a run with this script.
pub fn begin(outcomes: &[u8], replies: &[u8]) {
    with(|r| {
        r.entries.clear();
        r.transfers.clear();
        r.outcomes.clear();
        r.outcomes.extend_from_slice(outcomes);
        r.replies.clear();
        r.replies.extend_from_slice(replies);
        r.taken = 0;
        r.depth = 0;
    })
}

/// The leaf that is running; the next leaf may make an entry once it is dropped.
pub struct Step;
impl Drop for Step {
    #[inline]
    fn drop(&mut self) {
        with(|r| r.depth -= 1)
    }
}

#[inline]
pub fn step(kind: u8, target: u16, n: usize, address: u16, data: &[u8]) -> Step {
    with(|r| {
        if r.depth == 0 {
            let scripted = r.outcomes.get(r.entries.len()).is_some_and(|&byte| byte != 0);
            let outcome = scripted && kind != 9; // a wait's outcome is ignored
            let head = [kind, outcome as u8, target as u8, n as u8, address as u8, (address >> 8) as u8, 0, 0];
            let entry = (u64::from_le_bytes(head) as u128 | (packed(data) as u128) << 64).to_le_bytes();
            r.entries.push(entry);
        }
        r.depth += 1;
    });
    Step
}

/// An entry's data bytes as one number. Built so because a copy of one or two bytes through memcpy costs more than the
/// rest of a step.
#[inline]
fn packed(data: &[u8]) -> u64 {
    assert!(data.len() <= 8, "an entry has room for eight bytes");
    data.iter().rev().fold(0, |word, &byte| word << 8 | byte as u64)
}

impl Recorder {
    /// The entry whose leaf is running, if one is.
    #[inline]
    fn current(&mut self) -> Option<&mut Entry> {
        if self.depth == 0 { None } else { self.entries.last_mut() }
    }
    #[inline]
    fn note(&mut self, kind: u8, request: u8, value: u16, index: u16, data: &[u8], done: bool) {
        if self.keep {
            self.transfers.push(Transfer { kind, request, value, index, data: data.to_vec(), done });
        }
    }
}

#[inline]
pub fn write(kind: u8, request: u8, value: u16, index: u16, data: &[u8]) -> Result<usize> {
    with(|r| {
        let done = r.current().is_none_or(|entry| entry[1] == 0);
        r.note(kind, request, value, index, data, done);
        if done { Ok(data.len()) } else { Err(Error::Io) }
    })
}

#[inline]
pub fn read(kind: u8, request: u8, value: u16, index: u16, data: &mut [u8]) -> Result<usize> {
    with(|r| {
        // Only the reads of document 01's table take replies; the demod's sync read behind each write gets zeros.
        let wanted = r.current().is_some_and(|entry| entry[0] == 3 || entry[0] == 8);
        let done = !wanted || r.current().is_some_and(|entry| entry[1] == 0);
        if wanted && done {
            for place in data.iter_mut() {
                *place = r.replies.get(r.taken).copied().unwrap_or(0);
                r.taken += 1;
            }
            if let Some(entry) = r.current() {
                entry[8..].copy_from_slice(&packed(data).to_le_bytes());
            }
        }
        r.note(kind, request, value, index, data, done);
        if done { Ok(data.len()) } else { Err(Error::Io) }
    })
}
