//! What a run reads: a file, or standard input for `-`. Also what the file is, by its first bytes, and the progress of
//! reading.

use std::{
    fs::{File, Metadata},
    io::{self, Cursor, IsTerminal, Read, Write},
    mem,
    path::Path,
    sync::mpsc::{self, RecvTimeoutError},
    thread,
    time::{Duration, Instant},
};

use crate::{
    fault::{Fault, Result, reason},
    out::shown,
};

/// How long a file may take before its progress is shown, and how often it is shown then.
const PATIENCE: Duration = Duration::from_secs(2);
const EVERY: Duration = Duration::from_millis(250);

/// What a file is, by its first bytes.
#[derive(Debug, Clone, Copy, PartialEq, Eq)]
pub enum FileKind {
    /// A trace.
    Trace,
    /// A log.
    Log,
    /// Saved settings.
    Settings,
    /// A page of this command.
    Page,
    /// A sound that is not raw samples, with its name.
    Encoded(&'static str),
    /// None of them, or too short to tell.
    Unknown,
}

/// Enough bytes to tell one kind from another.
const FIRST: u64 = 8;

impl FileKind {
    fn of(first: &[u8]) -> Self {
        let begins = |mark: &[u8]| first.starts_with(mark);
        match first {
            [0xa5, 0x1d, ..] => Self::Trace,
            [0x5e, 0x71, ..] => Self::Settings,
            _ if [&b"block="[..], b"log=", b"refused=", b"creation"]
                .into_iter()
                .any(begins) =>
            {
                Self::Log
            }
            _ if begins(b"<!DOCTYP") => Self::Page,
            _ if begins(b"RIFF") => Self::Encoded("a WAV file"),
            _ if begins(b"OggS") => Self::Encoded("an Ogg file"),
            _ if begins(b"fLaC") => Self::Encoded("a FLAC file"),
            _ if begins(b"ID3") => Self::Encoded("an MP3 file"),
            _ => Self::Unknown,
        }
    }

    /// The sentence for a file of this kind if another was wanted: what it is, and what reads it.
    fn says(self, wanted: &str, name: &str) -> Option<String> {
        let file = if name == STANDARD_INPUT { "-" } else { name };
        let (is, reads) = match self {
            Self::Encoded(name) => {
                return Some(format!(
                    "this is {name}, not {wanted}: 'ffmpeg -i {file} -ac 2 -f f32le lesson.f32' makes raw samples of it"
                ));
            }
            Self::Trace => (
                "this is a trace",
                format!("'cableowl replay {file}' plays it"),
            ),
            Self::Log => (
                "this is a log",
                format!("'cableowl report {file}' reads it"),
            ),
            Self::Settings => (
                "these are saved settings",
                format!("'cableowl settings show {file}' shows them"),
            ),
            Self::Page => ("this is a page", "a browser shows it".into()),
            Self::Unknown => return None,
        };
        Some(format!("{is}, not {wanted}: {reads}"))
    }
}

const STANDARD_INPUT: &str = "standard input";

/// A file that is being read.
pub struct Input {
    name: String,
    kind: FileKind,
    from: Box<dyn Read>,
    /// A file, and its length and date when it was opened.
    file: Option<(File, Metadata)>,
    read: u64,
    progress: Progress,
}

impl Input {
    /// Opens a file, or standard input for `-`.
    pub fn open(path: &Path) -> Result<Self> {
        if path == Path::new("-") {
            return Ok(Self::new(
                STANDARD_INPUT.into(),
                Box::new(io::stdin()),
                None,
            ));
        }
        let name = shown(path);
        let opened = File::open(path).and_then(|file| Ok((file.metadata()?, file)));
        let (metadata, file) = opened.map_err(|error| {
            Fault::refused(format!("{name}: cannot be read: {}", reason(&error)))
        })?;
        if metadata.is_dir() {
            return Err(Fault::refused(format!(
                "{name}: cannot be read: it is a directory"
            )));
        }
        let again = file.try_clone().ok().filter(|_| metadata.is_file());
        let known = again.map(|again| (again, metadata));
        Ok(Self::new(name, Box::new(file), known))
    }

    fn new(name: String, from: Box<dyn Read>, file: Option<(File, Metadata)>) -> Self {
        Self {
            progress: Progress::new(),
            name,
            kind: FileKind::Unknown,
            from,
            file,
            read: 0,
        }
    }

    /// The length of a file, when it was opened.
    pub fn length(&self) -> Option<u64> {
        self.file.as_ref().map(|(_, metadata)| metadata.len())
    }

    /// Whether the file was changed since it was opened; `read` bytes of it were read.
    pub fn has_changed(&self, read: u64) -> bool {
        let Some((file, before)) = &self.file else {
            return false;
        };
        let same = |after: Metadata| {
            let times = (before.modified().ok(), after.modified().ok());
            after.len() == before.len() && read == before.len() && times.0 == times.1
        };
        !file.metadata().is_ok_and(same)
    }

    /// Turns the progress off, for one of many files.
    pub fn without_progress(mut self, one_of_many: bool) -> Self {
        self.progress.terminal &= !one_of_many;
        self
    }

    /// Looks at its first bytes, and returns what it is. It consumes nothing.
    pub fn kind(&mut self) -> Result<FileKind> {
        self.kind = FileKind::of(&self.first()?);
        Ok(self.kind)
    }

    /// Its first bytes. It consumes nothing.
    pub fn first(&mut self) -> Result<Vec<u8>> {
        let mut first = Vec::new();
        let looked = (&mut self.from).take(FIRST).read_to_end(&mut first);
        looked.map_err(|error| self.unread(&error))?;
        let rest = mem::replace(&mut self.from, Box::new(io::empty()));
        self.from = Box::new(Cursor::new(first.clone()).chain(rest));
        Ok(first)
    }

    /// Refuses it if its first bytes show that it is none of these.
    pub fn must_be(&self, kinds: &[FileKind], wanted: &str) -> Result<()> {
        match self.kind.says(wanted, &self.name) {
            Some(says) if !kinds.contains(&self.kind) => Err(self.wrong(says)),
            _ => Ok(()),
        }
    }

    /// Its name for messages.
    pub fn name(&self) -> &str {
        &self.name
    }

    /// The rest of it.
    pub fn all(&mut self) -> Result<Vec<u8>> {
        let mut bytes = Vec::new();
        match self.read_to_end(&mut bytes) {
            Ok(_) => Ok(bytes),
            Err(error) => Err(self.unread(&error)),
        }
    }

    /// It could not be read.
    pub fn unread(&self, error: &io::Error) -> Fault {
        Fault::refused(format!(
            "{}: cannot be read after byte {}: {}",
            self.name,
            self.read,
            reason(error)
        ))
    }

    /// Its bytes are not what they should be.
    pub fn wrong(&self, words: impl std::fmt::Display) -> Fault {
        Fault::refused(format!("{}: {words}", self.name))
    }
}

impl Read for Input {
    fn read(&mut self, bytes: &mut [u8]) -> io::Result<usize> {
        let read = self.from.read(bytes)?;
        self.read += read as u64;
        self.progress.tell(&self.name, self.read, self.length());
        Ok(read)
    }
}

/// Shows the progress of a long reading on a terminal.
struct Progress {
    terminal: bool,
    began: Instant,
    said: Option<Instant>,
}

impl Progress {
    fn new() -> Self {
        Self {
            terminal: io::stderr().is_terminal(),
            began: Instant::now(),
            said: None,
        }
    }

    fn tell(&mut self, name: &str, read: u64, length: Option<u64>) {
        if !self.terminal || self.began.elapsed() < PATIENCE {
            return;
        }
        if self.said.is_some_and(|said| said.elapsed() < EVERY) {
            return;
        }
        self.said = Some(Instant::now());
        let far = match length {
            Some(length) if length > 0 => format!("{} %", read.saturating_mul(100) / length),
            _ => format!("{} MB read", read / 1_000_000),
        };
        // The progress is not important, so an error is ignored.
        let _ = write!(io::stderr(), "\r\x1b[K{name}: {far}");
    }
}

impl Drop for Progress {
    fn drop(&mut self) {
        if self.said.is_some() {
            let _ = write!(io::stderr(), "\r\x1b[K");
        }
    }
}

/// Does long work that reads nothing, and shows on a terminal how long it has taken.
pub fn working<T>(name: &str, work: impl FnOnce() -> T) -> T {
    if !io::stderr().is_terminal() {
        return work();
    }
    thread::scope(|scope| {
        let (done, ends) = mpsc::channel::<()>();
        let began = Instant::now();
        scope.spawn(move || {
            let mut wait = PATIENCE;
            while ends.recv_timeout(wait) == Err(RecvTimeoutError::Timeout) {
                wait = EVERY;
                let seconds = began.elapsed().as_secs();
                let _ = write!(
                    io::stderr(),
                    "\r\x1b[K{name}: read, at work for {seconds} s"
                );
            }
            if wait == EVERY {
                let _ = write!(io::stderr(), "\r\x1b[K");
            }
        });
        let worked = work();
        drop(done);
        worked
    })
}
