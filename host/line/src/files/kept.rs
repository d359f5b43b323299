//! The files that a run writes: sections, the night with its log, the record.
use crate::files::disk::{self, Sink};
use crate::files::log::{self, Line, Log};
use crate::files::record::{self, Records};
use crate::printed::out::{End, Out};
use crate::words::given::Given;
use crate::words::options::{Key, option};

impl Given {
    /// Told where two of the files that a run writes are one.
    pub fn names_other_files(&self, out: &mut Out) {
        let written = [Key::Section, Key::Append, Key::Log, Key::Keep, Key::State];
        for (at, key) in written.iter().enumerate().filter(|(_, key)| self.has(**key)) {
            for other in written[at + 1..].iter().filter(|other| self.word(**other) == self.word(*key)) {
                out.mistake(&format!("{} and {} name one file: name two", option(*key).name, option(*other).name));
            }
        }
        log::judge(self, out);
    }

    /// The files that a run writes, opened before its first call. One that is written behind what it holds comes last: to open it makes it.
    pub fn kept_files(&self, out: &mut Out) -> Kept {
        let judged = self.word(Key::Keep).map_or(Ok(()), record::replaces);
        if let Err(why) = judged {
            out.mistake(&format!("--keep {why}"));
        }
        let (section, record) = (self.sink(Key::Section, out), self.sink(Key::Keep, out));
        // With a state it is the state's.
        let name = self.target(Key::Append, out).filter(|_| !out.is_mistaken() && !self.has(Key::State));
        let append = name.and_then(|name| Sink::open_behind(name).map_err(|why| out.mistake(&format!("--append {why}"))).ok());
        let log = append.as_ref().and_then(|_| Log::open(self, out));
        Kept { section, append, log, record, begun: false }
    }
}

/// The files that a run writes when it has ended.
pub struct Kept {
    pub section: Option<Sink>,
    pub append: Option<Sink>,
    pub log: Option<Log>,
    pub record: Option<Sink>,
    /// Whether the record says that a run is under way.
    pub begun: bool,
}

impl Kept {
    /// Before a night gets the first sections of a run whose record is kept too: the record says that a run is under way. Killed between the two files, the run
    /// would else leave a record that calls registers sure which the night's last writes have changed. Where that cannot be written the night gets nothing.
    fn begin(&mut self, records: Option<&Records>, out: &mut Out) {
        let (Some(_), Some(record), Some(records), false) = (&self.append, &self.record, records, self.begun) else { return };
        self.begun = true;
        if let Err(why) = disk::put(record.name(), &record::write(&record::under_way(records))) {
            out.mistake(&format!("--keep {why}"));
            self.append = None;
        }
    }

    /// Some of the sections, before the last. A file that cannot be written any more is told of once.
    pub fn add(&mut self, sections: &[u8], records: Option<&Records>, out: &mut Out) {
        if !sections.is_empty() {
            self.begin(records, out);
        }
        for (sink, option) in [(&mut self.section, "--section"), (&mut self.append, "--append")] {
            if let Some(Err(why)) = sink.as_mut().map(|sink| sink.add(sections)) {
                out.mistake(&format!("{option} {why}"));
                *sink = None;
            }
        }
        if let (Some(night), Some(log)) = (&self.append, &mut self.log)
            && log.is_waiting()
        {
            log.placed(night.placed());
            if log.is_full() {
                log.write(night);
            }
        }
    }

    /// Lines for the log, of sections that are handed on next.
    pub fn note(&mut self, lines: impl IntoIterator<Item = Line>) {
        if let Some(log) = &mut self.log {
            lines.into_iter().for_each(|line| log.note(Some(line)));
        }
    }

    /// Hands the night's sections to the disk, then their lines.
    pub fn log(&mut self) {
        if let (Some(night), Some(log)) = (&self.append, &mut self.log) {
            log.write(night);
        }
    }

    /// The last sections and the records, also of a run that stopped.
    pub fn end(mut self, sections: &[u8], records: Option<&Records>, out: &mut Out) {
        self.add(sections, records, out);
        self.log();
        for (sink, option) in [(self.section, "--section"), (self.append, "--append")] {
            if let Some(sink) = sink {
                sink.keep_or_tell(&[], option, out);
            }
        }
        match (self.record, records) {
            (Some(sink), Some(records)) => sink.keep_or_tell(&record::write(records), "--keep", out),
            (Some(_), None) => out.tell(End::Refused, "--keep: no record was made, so none is written: see the answer"),
            (None, _) => {}
        }
        if let Some(log) = self.log {
            log.end(out);
        }
    }
}
