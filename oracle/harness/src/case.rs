//! A case, its answer, and their bytes in the stored list (docs/VECTORS.md).

/// A call with everything that is given to it.
#[derive(Debug, Clone, Default, PartialEq)]
pub struct Case {
    pub call: u8,
    pub a: u64,
    pub b: u64,
    pub c: u64,
    pub d: u32,
    pub e: u32,
    /// Length of the lent room, or of the slice lent for answered bytes.
    pub room: usize,
    pub outcomes: Vec<u8>,
    pub replies: Vec<u8>,
    pub tuner: Vec<u8>,
    pub driver: Vec<u8>,
    pub input: Vec<u8>,
}

/// Who decided an answer.
#[derive(Debug, Clone, Copy, Default, PartialEq, Eq)]
pub enum By {
    #[default]
    Rust = 0,
    /// Document 01, before the Rust is asked.
    Page = 1,
    /// Document 01, over a Rust that panics, wraps or cuts; or document 02, over one that answers as document 01.
    PageOverRust = 2,
    /// The Rust, but for the shadow in the record: it follows every write by document 02, #106.
    RustButShadow = 3,
}

#[derive(Debug, Clone, Default, PartialEq)]
pub struct Answer {
    pub by: By,
    pub refusal: u8,
    pub value: u64,
    pub index: usize,
    pub count: usize,
    /// What was written at the start of the room.
    pub section: Option<Vec<u8>>,
    pub tuner: Option<Vec<u8>>,
    pub driver: Option<Vec<u8>>,
    pub answered: Vec<u8>,
    /// #101, of a tune: how many tries there were, and whether one of them read the lock bit.
    pub tries: usize,
    pub locked: bool,
}

impl Answer {
    /// Refused with nothing done: "all unchanged".
    pub fn refused(refusal: u8, by: By) -> Self {
        Self { by, refusal, ..Self::default() }
    }
}

pub const MAGIC: &[u8; 8] = b"PASEVEC1";

pub fn bytes(case: &Case, answer: &Answer) -> Vec<u8> {
    let short = |n: usize| u16::try_from(n).expect("fits a case").to_le_bytes();
    let flags = answer.section.is_some() as u8 | (answer.tuner.is_some() as u8) << 1 | (answer.driver.is_some() as u8) << 2;
    let mut all = vec![0, 0, 0, 0, case.call, answer.by as u8, answer.refusal, flags];
    for word in [case.a, case.b, case.c] {
        all.extend(word.to_le_bytes());
    }
    all.extend(case.d.to_le_bytes());
    all.extend(case.e.to_le_bytes());
    all.extend(answer.value.to_le_bytes());
    let seen = [u8::try_from(answer.tries).expect("at most ten"), answer.locked as u8];
    let answered: &[u8] = if matches!(case.call, 3 | 42) { &seen } else { &answer.answered };
    let lengths = [answer.index, answer.count, case.room, case.outcomes.len(), case.replies.len()];
    let others = [case.tuner.len(), case.driver.len(), case.input.len(), answered.len()];
    for length in lengths.into_iter().chain(others) {
        all.extend(short(length));
    }
    all.extend([0; 6]);
    for part in [&case.outcomes, &case.replies, &case.tuner, &case.driver, &case.input] {
        all.extend(part);
    }
    for part in [&answer.section, &answer.tuner, &answer.driver] {
        all.extend(part.iter().flatten());
    }
    all.extend(answered);
    let length = all.len() as u32;
    assert!(length <= 2048, "call {}: a case of {length} bytes", case.call);
    all[..4].copy_from_slice(&length.to_le_bytes());
    all
}

/// One list: magic, count, cases.
pub fn list(cases: &[(Case, Answer)]) -> Vec<u8> {
    let mut all = MAGIC.to_vec();
    all.extend((cases.len() as u32).to_le_bytes());
    for (case, answer) in cases {
        all.extend(bytes(case, answer));
    }
    all
}
