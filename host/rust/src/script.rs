use crate::{Error, Need};
use alloc::vec;
use alloc::vec::Vec;

/// How the steps of a call are to end, and what its reads are to give.
///
/// A script must be as long as its call's longest run needs, also where a run is shorter: at most [`Script::OUTCOMES`] outcomes and
/// [`Script::REPLIES`] replies, which is what [`Driver::tune_board`](crate::Driver::tune_board) needs; [`Need`] has the numbers of each call. Longer than needed is fine, so one script serves for all calls.
#[derive(Clone, Debug, PartialEq, Eq)]
#[must_use = "a script does nothing by itself"]
pub struct Script {
    outcomes: Vec<u8>,
    replies: Vec<u8>,
}

impl Script {
    /// Outcomes enough for every call.
    pub const OUTCOMES: usize = Need::TUNE_BOARD.outcomes;
    /// Replies enough for every call.
    pub const REPLIES: usize = Need::TUNE_BOARD.replies;

    /// Every step done, every reply 0: long enough for every call.
    pub fn all_done() -> Script {
        Script { outcomes: vec![0; Script::OUTCOMES], replies: vec![0; Script::REPLIES] }
    }

    /// A script of these outcomes (0 done, any other failed; byte i belongs to entry i) and replies (in the order of reading).
    pub fn new(outcomes: impl Into<Vec<u8>>, replies: impl Into<Vec<u8>>) -> Script {
        Script { outcomes: outcomes.into(), replies: replies.into() }
    }

    /// The same, with the step of entry `index` failing.
    ///
    /// An index that the script has no outcome for is an error: left alone, a caller would take a step for failed that no call is told to fail, and
    /// a script made longer for it would pass where a short one is refused. A call may still end before the entry: then its transcript has no entry
    /// `index`, and its result is not [`Error::Step`].
    ///
    /// ```
    /// use pasetone::{Error, Script};
    ///
    /// assert_eq!(Script::all_done().failing(2)?.outcomes()[..4], [0, 0, 1, 0]);
    /// assert_eq!(Script::all_done().failing(999), Err(Error::Outcomes));
    /// # Ok::<(), Error>(())
    /// ```
    ///
    /// # Errors
    ///
    /// - [`Error::Outcomes`] (9): the script has no outcome `index`.
    pub fn failing(mut self, index: usize) -> Result<Script, Error> {
        *self.outcomes.get_mut(index).ok_or(Error::Outcomes)? = 1;
        Ok(self)
    }

    /// The same, with `byte` as reply `index`. An index that the script has no reply for is an error, as in [`Script::failing`].
    ///
    /// # Errors
    ///
    /// - [`Error::Replies`] (10): the script has no reply `index`.
    pub fn replying(mut self, index: usize, byte: u8) -> Result<Script, Error> {
        *self.replies.get_mut(index).ok_or(Error::Replies)? = byte;
        Ok(self)
    }

    /// For a round: step `index` failed. The script is long enough for every call.
    pub(crate) fn fail(&mut self, index: usize) {
        self.outcomes[index] = 1;
    }

    /// For a round: the same, with step `index` and all behind it failing.
    pub(crate) fn failing_from(&self, index: usize) -> Script {
        let mut script = self.clone();
        script.outcomes[index..].fill(1);
        script
    }

    /// For a round: a read gave these replies, behind those that were read before.
    pub(crate) fn reply(&mut self, from: usize, bytes: &[u8]) {
        self.replies[from..from + bytes.len()].copy_from_slice(bytes);
    }

    /// The outcomes.
    pub fn outcomes(&self) -> &[u8] {
        &self.outcomes
    }

    /// The replies.
    pub fn replies(&self) -> &[u8] {
        &self.replies
    }
}

impl Default for Script {
    fn default() -> Script {
        Script::all_done()
    }
}
