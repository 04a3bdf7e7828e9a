//! Why a run failed: one sentence, and the exit status.

use std::{fmt, io};

/// Why a run failed.
#[derive(Debug)]
pub enum Fault {
    /// The command line is wrong: exit 2.
    Usage(String),
    /// A file is not what it should be, or cannot be read or written: exit 1.
    Refused(String),
    /// An audit is UNKNOWN: exit 3.
    Unknown(String),
    /// The same, with its sentence already in the output.
    Unsaid,
    /// The reader of the output has closed the pipe: no message.
    Closed,
}

/// The result of a part of a run.
pub type Result<T> = std::result::Result<T, Fault>;

impl Fault {
    /// The command line is wrong.
    pub fn usage(words: impl Into<String>) -> Self {
        Self::Usage(words.into())
    }

    /// A file is wrong.
    pub fn refused(words: impl Into<String>) -> Self {
        Self::Refused(words.into())
    }

    /// Output could not be written.
    pub fn unwritten(name: &str, error: &io::Error) -> Self {
        match error.kind() {
            io::ErrorKind::BrokenPipe => Self::Closed,
            _ => Self::Refused(format!("{name}: cannot be written: {}", reason(error))),
        }
    }

    /// The exit status.
    pub fn status(&self) -> u8 {
        match self {
            Self::Usage(_) => 2,
            Self::Refused(_) => 1,
            Self::Unknown(_) | Self::Unsaid => 3,
            Self::Closed => 0,
        }
    }
}

impl fmt::Display for Fault {
    fn fmt(&self, f: &mut fmt::Formatter<'_>) -> fmt::Result {
        match self {
            Self::Usage(words) | Self::Refused(words) | Self::Unknown(words) => f.write_str(words),
            Self::Unsaid => f.write_str("nothing can be said of the box"),
            Self::Closed => f.write_str("the output was closed"),
        }
    }
}

/// The system's message about a file, without its number.
pub fn reason(error: &io::Error) -> String {
    let words = error.to_string();
    let bare = words.split(" (os error").next().unwrap_or(&words);
    let mut letters = bare.chars();
    match letters.next() {
        Some(first) => first.to_lowercase().chain(letters).collect(),
        None => words,
    }
}
