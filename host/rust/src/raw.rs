//! The C boundary (crate pasetone-sys), and what a reply tells.
//!
//! What makes each call sound: every pointer comes from a Rust slice (never null, valid for its length), slices that are written come from
//! `&mut` (so no two overlap), and the library keeps nothing when a call has ended.

pub use pasetone_sys::*;

/// What a reply tells.
pub trait Told {
    /// The value, or why there is none.
    fn result(self) -> Result<u64, crate::Error>;
    /// Whether next records were written: done, or refused by a step, since the steps taken stand.
    fn stands(self) -> bool;
}

impl Told for Reply {
    fn result(self) -> Result<u64, crate::Error> {
        match crate::Error::of(self.refusal, self.index) {
            None => Ok(self.value),
            Some(error) => Err(error),
        }
    }

    fn stands(self) -> bool {
        self.refusal == 0 || self.count > 0
    }
}
