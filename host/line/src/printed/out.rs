//! The one place that prints: standard output, mistakes, colours, and the exit status that they lead to.
use std::env;
use std::io::{self, BufWriter, ErrorKind, IsTerminal, Stdout, Write};
use std::process::ExitCode;

/// How the program ends. Where several hold the last of them here is the exit status: what has to be mended first.
#[derive(Clone, Copy, PartialEq, Eq, PartialOrd, Ord)]
pub enum End {
    /// Done, and locked where there was a tuning.
    Done,
    /// A tuning was done, and its PLL did not lock.
    NotLocked,
    /// A register is doubtful, or a call that the station hangs on is not done.
    Doubtful,
    /// A call was refused, a section is damaged, or two nights part.
    Refused,
    /// A step failed, and the call stopped there.
    Stopped,
    /// Words or files are at fault.
    Mistaken,
}

impl End {
    /// The exit status. 0 to 2 are those of earlier versions.
    pub fn status(self) -> u8 {
        match self {
            End::Done => 0,
            End::Refused => 1,
            End::Mistaken => 2,
            End::Stopped => 3,
            End::NotLocked => 4,
            End::Doubtful => 5,
        }
    }
}

pub struct Out {
    to: BufWriter<Stdout>,
    /// The first failure of standard output; behind it nothing more is written there.
    fault: Option<ErrorKind>,
    colour: bool,
    end: End,
    /// Of one that prints nothing: what it was told.
    kept: Option<Vec<String>>,
}

impl Out {
    /// One that prints nothing and keeps what it is told, for who tells it elsewhere.
    pub fn kept() -> Out {
        Out { kept: Some(Vec::new()), ..Out::standard() }
    }

    /// What it was told, line by line.
    pub fn told(self) -> Vec<String> {
        self.kept.unwrap_or_default()
    }

    /// How it would end.
    pub fn end(&self) -> End {
        self.end
    }

    pub fn standard() -> Out {
        let plain =
            env::var_os("NO_COLOR").is_some_and(|value| !value.is_empty()) || env::var_os("TERM").is_some_and(|term| term == "dumb");
        let colour = !plain && io::stdout().is_terminal();
        Out { to: BufWriter::with_capacity(1 << 16, io::stdout()), fault: None, colour, end: End::Done, kept: None }
    }

    /// A failure to write is kept for the end, so that a run goes on to its files whatever becomes of what it prints.
    pub fn text(&mut self, text: &str) {
        if self.fault.is_none() && self.kept.is_none() {
            self.fault = self.to.write_all(text.as_bytes()).err().map(|error| error.kind());
        }
    }

    pub fn line(&mut self, text: &str) {
        self.text(text);
        self.text("\n");
    }

    /// Hands on what was printed so far, for who waits for it.
    pub fn flush(&mut self) {
        if self.fault.is_none() {
            self.fault = self.to.flush().err().map(|error| error.kind());
        }
    }

    /// Whether nobody takes what is printed any more: a long listing may end then.
    pub fn is_closed(&self) -> bool {
        self.fault.is_some()
    }

    /// A word that stands out on a terminal. It is a word all the same, so nothing is told by the colour alone.
    pub fn loud(&self, word: &str) -> String {
        if self.colour { format!("\x1b[1;31m{word}\x1b[0m") } else { word.to_string() }
    }

    /// One line to standard error, behind what was printed so far.
    pub fn tell(&mut self, end: End, text: &str) {
        self.end = self.end.max(end);
        if let Some(kept) = &mut self.kept {
            return kept.push(text.to_string());
        }
        self.flush();
        // In one write, so that no other program's line falls into it. Where standard error cannot be written either, the exit status is all that is left.
        let _ = io::stderr().write_all(format!("pasetone: {text}\n").as_bytes());
    }

    pub fn mistake(&mut self, text: &str) {
        self.tell(End::Mistaken, text);
    }

    /// The exit status, without a line.
    pub fn ends(&mut self, end: End) {
        self.end = self.end.max(end);
    }

    pub fn is_mistaken(&self) -> bool {
        self.end == End::Mistaken
    }

    /// A reader that has gone, as `head` does, is no mistake.
    pub fn finish(mut self) -> ExitCode {
        let fault = self.fault.or_else(|| self.to.flush().err().map(|error| error.kind()));
        self.fault = fault;
        match fault {
            None | Some(ErrorKind::BrokenPipe) => {}
            Some(ErrorKind::StorageFull) => {
                self.mistake("the disk is full, and what was printed is not whole: make room, or print elsewhere")
            }
            Some(kind) => {
                self.mistake(&format!("standard output cannot be written ({kind}), and what was printed is not whole: print elsewhere"))
            }
        }
        let end = self.end;
        // What is left in the buffer cannot be written: dropped with the buffer it would be tried again.
        let _ = self.to.into_parts();
        ExitCode::from(end.status())
    }
}
