//! How a receiver stands behind a run whose last call was done: what of it is not as a recording needs it, one line each on standard error, whatever else is
//! printed.
use crate::files::record::Records;
use crate::files::station::Station;
use crate::printed::out::{End, Out};
use crate::printed::registers::runs;
use pasetone::{Table, Tuner};

pub struct Standing {
    /// Each with the exit status that it leads to.
    lines: Vec<(End, String)>,
}

impl Standing {
    /// By the board's table, as [`Station::of`].
    pub fn of(records: &Records, table: Option<&Table>) -> Standing {
        let Records { tuner, owed, .. } = records;
        let doubtful: Vec<u8> = tuner.doubtful().collect();
        let all = Tuner::registers().count();
        let registers = (!doubtful.is_empty()).then(|| format!("{} of {all} registers doubtful: {}", doubtful.len(), runs(&doubtful)));
        // What is owed says why it is not known, where that is why.
        let station = Station::of(records, table);
        let beside = station.beside().filter(|_| station.is_known() || owed.words().is_none());
        let doubt: Vec<String> = owed.words().into_iter().chain(beside).chain(registers).collect();
        let mut lines = Vec::new();
        if !doubt.is_empty() {
            lines.push((End::Doubtful, format!("DOUBTFUL: {}", doubt.join("; "))));
        }
        // Of a tuning that is owed nothing is said twice.
        if !owed.tune && owed.unread {
            lines.push((
                End::NotLocked,
                String::from("LOCK NOT READ: every register was sent again, and no tuning has read the lock since"),
            ));
        } else if !owed.tune && !tuner.has_lock() {
            lines.push((End::NotLocked, String::from("NOT LOCKED: the last tuning ended without a lock")));
        }
        Standing { lines }
    }

    /// Every line, with what to do.
    pub fn tell(&self, to_do: &str, out: &mut Out) {
        for (end, line) in &self.lines {
            out.tell(*end, &format!("{line}; to do: {to_do}"));
        }
    }

    pub fn end(&self) -> End {
        self.lines.iter().map(|(end, _)| *end).max().unwrap_or(End::Done)
    }
}
