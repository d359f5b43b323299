//! Files: read whole, from standard input too, and written so that a name never holds half of something. What goes wrong comes back as one line that
//! says what would be right.
use crate::files::sections::{ENTRY, MOST, Part, TRAILER, Walk};
use crate::files::terminal;
use crate::printed::out::{End, Out};
use crate::words::named::{called, is_standard, shown};
use pasetone::Transcript;
use std::ffi::{OsStr, OsString};
use std::fs::{self, File, OpenOptions, TryLockError};
use std::io::{self, ErrorKind, Read, Write};
use std::os::unix::fs::{FileExt, MetadataExt};
use std::path::{Path, PathBuf};
use std::process;

/// A stream says nothing of its length, and may have no end; a file's bytes are as many as they are.
const STREAM: u64 = 1 << 30;

/// All bytes of a file, or of standard input where the name is `-`. Of a stream no more than fit in memory without a doubt.
pub fn read(name: &OsStr) -> Result<Vec<u8>, String> {
    let (bytes, is_stream) = opened(name, STREAM + 1).map_err(|error| unread(name, &error))?;
    if is_stream && bytes.len() as u64 > STREAM {
        let name = called(name);
        return Err(format!("{name}: a stream of more than {STREAM} bytes: put it into a file, which may have any size"));
    }
    Ok(bytes)
}

/// The first bytes of a file or of standard input, `most` at most.
pub fn start(name: &OsStr, most: usize) -> Result<Vec<u8>, String> {
    Source::open(name)?.next(most)
}

/// The same of a file that this run writes anew behind its reading: its lock is held until the process ends, so that runs at once on one record come one behind the
/// other, and each reads what the one before has kept.
pub fn start_locked(name: &OsStr, most: usize, out: &mut Out) -> Result<Vec<u8>, String> {
    if is_standard(name) {
        return start(name, most);
    }
    loop {
        let file = File::open(name).map_err(|error| unread(name, &error))?;
        let is = file.metadata().map_err(|error| unread(name, &error))?;
        if !is.is_file() {
            return start(name, most);
        }
        locked(&file, name, out).map_err(|error| unread(name, &error))?;
        // Who held the lock may have put another file in its place.
        if fs::metadata(name).is_ok_and(|now| (now.dev(), now.ino()) == (is.dev(), is.ino())) {
            let mut bytes = Vec::new();
            (&file).take(most as u64).read_to_end(&mut bytes).map_err(|error| unread(name, &error))?;
            // The lock goes with the process.
            std::mem::forget(file);
            return Ok(bytes);
        }
    }
}

/// Waits for a file's lock, and says so where another run holds it.
pub fn locked(file: &File, name: &OsStr, out: &mut Out) -> io::Result<()> {
    match file.try_lock() {
        Ok(()) => Ok(()),
        Err(TryLockError::WouldBlock) => {
            waiting(name, out);
            file.lock()
        }
        Err(TryLockError::Error(error)) => Err(error),
    }
}

pub fn waiting(name: &OsStr, out: &mut Out) {
    out.tell(End::Done, &format!("waiting for another run, which holds {}", shown(name)));
}

/// A file, or standard input where the name is `-`, that is read piece by piece, and may have no end.
pub struct Source {
    name: OsString,
    from: Box<dyn Read + Send>,
}

impl Source {
    pub fn open(name: &OsStr) -> Result<Source, String> {
        let from: Box<dyn Read + Send> =
            if is_standard(name) { Box::new(io::stdin()) } else { Box::new(terminal::open(name).map_err(|error| unread(name, &error))?) };
        Ok(Source { name: name.to_os_string(), from })
    }

    /// One byte without end.
    pub fn of(byte: u8) -> Source {
        Source { name: OsString::new(), from: Box::new(io::repeat(byte)) }
    }

    /// The next bytes: `most`, or fewer where it ends.
    pub fn next(&mut self, most: usize) -> Result<Vec<u8>, String> {
        let mut bytes = Vec::new();
        self.from.by_ref().take(most as u64).read_to_end(&mut bytes).map_err(|error| unread(&self.name, &error))?;
        Ok(bytes)
    }

    /// The bytes that are there, `most` at most; it waits for the first of them. None where it ends.
    pub fn some(&mut self, most: usize) -> Result<Vec<u8>, String> {
        let mut bytes = vec![0; most];
        loop {
            match self.from.read(&mut bytes) {
                Ok(length) => {
                    bytes.truncate(length);
                    return Ok(bytes);
                }
                Err(error) if error.kind() == ErrorKind::Interrupted => {}
                Err(error) => return Err(unread(&self.name, &error)),
            }
        }
    }
}

/// A whole file, or as much of a stream; and whether it is one.
fn opened(name: &OsStr, most: u64) -> io::Result<(Vec<u8>, bool)> {
    let mut bytes = Vec::new();
    if is_standard(name) {
        return io::stdin().lock().take(most).read_to_end(&mut bytes).map(|_| (bytes, true));
    }
    let mut file = File::open(name)?;
    if file.metadata()?.is_file() {
        return file.read_to_end(&mut bytes).map(|_| (bytes, false));
    }
    file.take(most).read_to_end(&mut bytes).map(|_| (bytes, true))
}

pub fn unread(name: &OsStr, error: &io::Error) -> String {
    let name = called(name);
    match error.kind() {
        ErrorKind::NotFound => format!("{name}: there is no such file: name one that is there, or - for standard input"),
        ErrorKind::IsADirectory => format!("{name}: this is a folder: name a file in it"),
        ErrorKind::PermissionDenied => format!("{name}: you may not read it: have its owner allow it, or name another file"),
        _ => format!("{name}: it cannot be read ({error}): name another file"),
    }
}

pub fn unwritten(name: &OsStr, error: &io::Error) -> String {
    let (file, folder) = (shown(name), shown(folder_of(Path::new(name)).as_os_str()));
    match error.kind() {
        ErrorKind::NotFound => format!("{file}: there is no folder {folder}: make it, or name a file in another"),
        ErrorKind::NotADirectory => format!("{file}: {folder} is no folder: name a file in a folder"),
        ErrorKind::IsADirectory => format!("{file}: this is a folder: name a file in it"),
        ErrorKind::PermissionDenied => {
            format!("{file}: you may not write in {folder}: have its owner allow it, or name a file in another folder")
        }
        ErrorKind::ReadOnlyFilesystem => format!("{file}: nothing can be written there: name a file on another disk"),
        ErrorKind::StorageFull | ErrorKind::QuotaExceeded => format!("{file}: the disk is full: make room, or name a file on another"),
        _ => format!("{file}: it cannot be written ({error}): name another file"),
    }
}

fn folder_of(path: &Path) -> &Path {
    path.parent().filter(|folder| !folder.as_os_str().is_empty()).unwrap_or(Path::new("."))
}

/// A file that nobody may write is not replaced, whoever asks for it.
pub fn is_read_only(name: &OsStr) -> bool {
    fs::metadata(name).is_ok_and(|is| is.is_file() && is.permissions().readonly())
}

/// What is said of it.
pub fn read_only(name: &OsStr) -> String {
    format!("{}: it is read-only, and stays: have its owner allow it, or name another file", shown(name))
}

/// Bytes into a file where it lies, in one write, or into a new one: whoever waits for the file's lock waits on.
pub fn put(name: &OsStr, bytes: &[u8]) -> Result<(), String> {
    if !fs::metadata(name).is_ok_and(|is| is.is_file()) {
        return Sink::open(name)?.keep(bytes);
    }
    let written = || {
        let file = OpenOptions::new().write(true).open(name)?;
        file.write_all_at(bytes, 0)?;
        file.set_len(bytes.len() as u64)?;
        file.sync_data()
    };
    written().map_err(|error| unwritten(name, &error))
}

/// A file to be written: what is to stand there is first written beside it, and takes its place at once when it is whole and on the disk. A device or a pipe has no
/// place to be taken, and is written as it is. It is opened before a run, so that a name that cannot be written is told before anything is done.
pub struct Sink {
    name: OsString,
    file: File,
    place: Option<Place>,
    /// Whether it is a file that is written behind what it holds.
    behind: bool,
    /// Where the last bytes that were put behind it begin.
    placed: u64,
}

struct Place {
    beside: PathBuf,
    real: PathBuf,
}

impl Sink {
    pub fn open(name: &OsStr) -> Result<Sink, String> {
        if is_read_only(name) {
            return Err(read_only(name));
        }
        Sink::opened(name).map_err(|error| unwritten(name, &error))
    }

    fn opened(name: &OsStr) -> io::Result<Sink> {
        let owned = name.to_os_string();
        match fs::metadata(name) {
            Ok(is) if is.is_dir() => Err(ErrorKind::IsADirectory.into()),
            Ok(is) if is.is_file() => {
                // The file that a link leads to is the one to be replaced, and it keeps who may read it.
                let real = fs::canonicalize(name)?;
                let sink = Sink::beside(owned, real)?;
                sink.file.set_permissions(is.permissions())?;
                Ok(sink)
            }
            Ok(_) => Ok(Sink { name: owned, file: OpenOptions::new().write(true).open(name)?, place: None, behind: false, placed: 0 }),
            Err(_) => Sink::beside(owned, PathBuf::from(name)),
        }
    }

    /// Beside it under a name of its own: a run that was killed may have left one, with the number of this process.
    fn beside(name: OsString, real: PathBuf) -> io::Result<Sink> {
        let end = real.file_name().ok_or(ErrorKind::IsADirectory)?;
        let mut tries = 0;
        loop {
            let mut own = OsString::from(".");
            own.push(end);
            own.push(format!(".{}.{tries}", process::id()));
            let beside = folder_of(&real).join(own);
            match OpenOptions::new().write(true).create_new(true).open(&beside) {
                Err(error) if error.kind() == ErrorKind::AlreadyExists && tries < 1000 => tries += 1,
                opened => return Ok(Sink { name, file: opened?, place: Some(Place { beside, real }), behind: false, placed: 0 }),
            }
        }
    }

    /// What it is called.
    pub fn name(&self) -> &OsStr {
        &self.name
    }

    /// A file that is written behind what it holds, and made where it is not there: a night's sections, hop by hop. It is not written anew, so that a long
    /// night costs no more for each hop. One that does not end in a section is told, before anything is done.
    pub fn open_behind(name: &OsStr) -> Result<Sink, String> {
        let sink = Sink::open_unjudged(name)?;
        sink.judge()?;
        Ok(sink)
    }

    /// The same, whatever it ends in.
    pub fn open_unjudged(name: &OsStr) -> Result<Sink, String> {
        if is_read_only(name) {
            return Err(read_only(name));
        }
        // What cannot be read, as some devices, has nothing to be looked at.
        let opened = || {
            let with = |read: bool| OpenOptions::new().read(read).append(true).create(true).open(name);
            let file = with(true).or_else(|_| with(false))?;
            let behind = file.metadata()?.is_file();
            Ok(Sink { name: name.to_os_string(), file, place: None, behind, placed: 0 })
        };
        opened().map_err(|error| unwritten(name, &error))
    }

    /// Told where a file that is written behind what it holds does not end in a section: a run was killed while it wrote, or the file is another.
    pub fn judge(&self) -> Result<(), String> {
        if !self.behind || self.ends_in_section().map_err(|error| unread(&self.name, &error))? {
            return Ok(());
        }
        let (name, bytes) = (shown(&self.name), read(&self.name)?);
        let torn = Walk::of(&bytes).numbered().last().map_or(0, |(_, part)| match part {
            Part::Damaged(damage) => damage.start,
            Part::Good { .. } => 0,
        });
        if torn == 0 {
            return Err(format!(
                "{name}: it does not end in a section, and holds none before its end: name a file of sections, or a new one"
            ));
        }
        let lost = bytes.len() - torn;
        Err(format!(
            "{name}: its last {lost} bytes, from byte {torn} on, are no whole section: a run was killed there, or the disk was full; name another file, or cut them off by `truncate -s {torn}`"
        ))
    }

    /// Whether it is empty, or its last bytes are a section: what it tells of its own length is read, and no more. Zeros are sections of no entries, and other files end
    /// in zeros too: before a few of them there must be one with entries, or nothing.
    fn ends_in_section(&self) -> io::Result<bool> {
        const EMPTY: usize = 64;
        let mut length = self.file.metadata()?.len();
        for _ in 0..EMPTY {
            if length == 0 {
                return Ok(true);
            }
            let mut trailer = [0; TRAILER];
            if length < TRAILER as u64 {
                return Ok(false);
            }
            self.file.read_exact_at(&mut trailer, length - TRAILER as u64)?;
            let entries = u64::from(u32::from_le_bytes([trailer[0], trailer[1], trailer[2], trailer[3]]));
            let size = entries * ENTRY as u64 + TRAILER as u64;
            if size > length || entries > MOST as u64 {
                return Ok(false);
            }
            if trailer != [0; TRAILER] {
                let mut section = vec![0; size as usize];
                self.file.read_exact_at(&mut section, length - size)?;
                return Ok(Transcript::start(&section).is_ok());
            }
            length -= size;
        }
        Ok(false)
    }

    /// Writes the last of it, hands it to the disk and puts all into its place.
    pub fn keep(mut self, bytes: &[u8]) -> Result<(), String> {
        self.add(bytes)?;
        self.sync()?;
        if let Some(place) = &self.place {
            fs::rename(&place.beside, &place.real).map_err(|error| unwritten(&self.name, &error))?;
        }
        self.place = None;
        Ok(())
    }

    /// Hands what was written to the disk.
    pub fn sync(&self) -> Result<(), String> {
        if self.behind || self.place.is_some() { self.file.sync_data().map_err(|error| unwritten(&self.name, &error)) } else { Ok(()) }
    }

    /// Writes some of it, before the last. Behind what a file holds it is written under the file's lock, and what a failed writing has left is taken back: that, and
    /// nothing that another run wrote.
    pub fn add(&mut self, bytes: &[u8]) -> Result<(), String> {
        if !self.behind {
            return self.file.write_all(bytes).map_err(|error| unwritten(&self.name, &error));
        }
        if bytes.is_empty() {
            self.placed = self.length()?;
            return Ok(());
        }
        self.file.lock().map_err(|error| unwritten(&self.name, &error))?;
        let added = self.judge().and_then(|()| self.add_locked(bytes));
        let _ = self.file.unlock();
        added
    }

    fn add_locked(&mut self, bytes: &[u8]) -> Result<(), String> {
        let before = self.length()?;
        self.placed = before;
        let Err(error) = self.file.write_all(bytes) else { return Ok(()) };
        let left = self.length()? - before;
        let why = unwritten(&self.name, &error);
        match self.file.set_len(before) {
            Ok(()) => {
                Err(format!("{why}; the {left} of {} bytes that were written are taken back, and it has {before} as before", bytes.len()))
            }
            Err(_) => {
                Err(format!("{why}; {left} bytes from byte {before} on are no whole section: cut them off by `truncate -s {before}`"))
            }
        }
    }

    /// Where the last bytes that were put behind it begin; `None` where it is no file.
    pub fn placed(&self) -> Option<u64> {
        self.behind.then_some(self.placed)
    }

    /// Where the next bytes will begin; `None` where it is no file.
    pub fn end(&self) -> Option<u64> {
        self.length().ok().filter(|_| self.behind)
    }

    /// How long it is now.
    pub fn length(&self) -> Result<u64, String> {
        self.file.metadata().map(|is| is.len()).map_err(|error| unread(&self.name, &error))
    }

    /// A section that a run which died may have written from a byte on, or some of it: it stands there when this ends, or behind what others have written since.
    pub fn mend(&mut self, from: u64, section: &[u8]) -> Result<(), String> {
        if !self.behind || section.is_empty() {
            return self.add(section);
        }
        self.file.lock().map_err(|error| unwritten(&self.name, &error))?;
        let mended = self.mend_locked(from, section);
        let _ = self.file.unlock();
        mended
    }

    fn mend_locked(&mut self, from: u64, section: &[u8]) -> Result<(), String> {
        let length = self.length()?;
        let mut there = vec![0; length.saturating_sub(from).min(section.len() as u64) as usize];
        self.file.read_exact_at(&mut there, from.min(length)).map_err(|error| unread(&self.name, &error))?;
        if there == section {
            self.placed = from;
            return Ok(());
        }
        // A beginning of it and nothing behind: the run died while it wrote.
        if !there.is_empty() && length - from == there.len() as u64 && section.starts_with(&there) {
            self.file.set_len(from).map_err(|error| unwritten(&self.name, &error))?;
        }
        self.judge()?;
        self.add_locked(section)
    }
}

impl Sink {
    /// The same, told as a mistake of the option that names the file.
    pub fn keep_or_tell(self, bytes: &[u8], option: &str, out: &mut Out) {
        if let Err(why) = self.keep(bytes) {
            out.mistake(&format!("{option} {why}"));
        }
    }
}

/// What was not put into its place is not left beside it.
impl Drop for Sink {
    fn drop(&mut self) {
        if let Some(place) = &self.place {
            // It was made by this run; where it cannot be removed there is nothing better to do.
            let _ = fs::remove_file(&place.beside);
        }
    }
}
