//! Files that options name, opened.
use crate::files::disk::{self, Sink, Source};
use crate::files::sections::Span;
use crate::printed::out::Out;
use crate::words::given::Given;
use crate::words::named::is_standard;
use crate::words::options::{Key, option};
use std::ffi::OsStr;

impl Given {
    /// The first bytes of the record's file, under its lock where the run keeps a record.
    pub fn record(&self, most: usize, out: &mut Out) -> Option<Vec<u8>> {
        let name = self.word(Key::Record)?;
        if !self.has(Key::Keep) || out.is_mistaken() {
            return self.start(Key::Record, most, out);
        }
        disk::start_locked(name, most, out).map_err(|why| out.mistake(&format!("--record {why}"))).ok()
    }

    /// The first bytes of a file that an option names. Nothing is read where words are at fault already: standard input might wait for somebody.
    pub fn start(&self, key: Key, most: usize, out: &mut Out) -> Option<Vec<u8>> {
        self.read(key, out, |name| disk::start(name, most))
    }

    /// All bytes of a file that an option names.
    pub fn whole(&self, key: Key, out: &mut Out) -> Option<Vec<u8>> {
        self.read(key, out, disk::read)
    }

    /// A file that an option names, to be read piece by piece.
    pub fn source(&self, key: Key, out: &mut Out) -> Option<Source> {
        self.read(key, out, Source::open)
    }

    fn read<T>(&self, key: Key, out: &mut Out, read: impl Fn(&OsStr) -> Result<T, String>) -> Option<T> {
        let name = self.word(key)?;
        if out.is_mistaken() && is_standard(name) {
            return None;
        }
        read(name).map_err(|why| out.mistake(&format!("{} {why}", option(key).name))).ok()
    }

    /// A file to be written, opened before anything is done.
    pub fn sink(&self, key: Key, out: &mut Out) -> Option<Sink> {
        let name = self.target(key, out)?;
        Sink::open(name).map_err(|why| out.mistake(&format!("{} {why}", option(key).name))).ok()
    }

    /// The numbers of `--sections`.
    pub fn sections(&self, out: &mut Out) -> Option<Span> {
        self.value(Key::Sections, out, Span::read)
    }
}
