//! A trace of any length, read in bounded memory.

use std::{
    error::Error,
    fmt,
    io::{self, Read},
    ops::Range,
};

use super::{OtherSound, Record, Refused, Replay, Step, TraceVersion, values};
use crate::{Refusal, ffi};

/// The size of the buffer for a trace.
const ROOM: usize = 64 * 1_024;

/// Why reading a trace ended before the trace did.
#[derive(Debug)]
#[non_exhaustive]
pub enum TraceError {
    /// A record was refused.
    Refused(Refused),
    /// Its bytes could not be read.
    Io(io::Error),
}

impl fmt::Display for TraceError {
    fn fmt(&self, f: &mut fmt::Formatter<'_>) -> fmt::Result {
        match self {
            Self::Refused(refused) => refused.fmt(f),
            Self::Io(error) => error.fmt(f),
        }
    }
}

impl Error for TraceError {
    fn source(&self) -> Option<&(dyn Error + 'static)> {
        match self {
            Self::Refused(refused) => Some(refused),
            Self::Io(error) => Some(error),
        }
    }
}

/// Reads a trace record by record: the same records as [`Trace`](super::Trace), in memory that does not grow with the
/// trace. A refused record or a read error is the last result, unless the reader skips what is damaged
/// ([`TraceReader::skip_damage`]).
///
/// ```
/// use cableowl::{Commands, trace::{Record, TraceReader, write}};
///
/// let mut bytes = [0; 12];
/// write(&Record::Commands(Commands::new()), &mut bytes, 0)?;
/// let mut reader = TraceReader::new(&bytes[..]);
/// while let Some(at) = reader.read_next() {
///     assert_eq!(at.ok(), Some(0));
///     assert_eq!(reader.record(), Some(Record::Commands(Commands::new())));
///     assert_eq!(reader.bytes(), bytes);
/// }
/// # Ok::<(), cableowl::Refusal>(())
/// ```
#[derive(Debug)]
pub struct TraceReader<R> {
    version: TraceVersion,
    from: R,
    held: Box<[u8]>,
    at: usize,
    end: usize,
    /// The offset in the trace of the first byte in the buffer.
    base: u64,
    /// Whether nothing is left to read.
    ended: bool,
    /// Whether the record at `at` was refused.
    refused: bool,
    /// The bytes of the record before `at`.
    last: usize,
    /// The kind and the numbers of that record, if it was read and not played.
    found: Option<ffi::Record>,
}

impl<R: Read> TraceReader<R> {
    /// Reads the records of a file or of any other bytes, which need no buffer of their own.
    #[must_use]
    pub fn new(from: R) -> Self {
        Self::with_version(from, TraceVersion::Second)
    }

    /// The same, by the reader of this version.
    #[must_use]
    pub fn with_version(from: R, version: TraceVersion) -> Self {
        Self {
            version,
            from,
            held: vec![0; ROOM].into_boxed_slice(),
            at: 0,
            end: 0,
            base: 0,
            ended: false,
            refused: false,
            last: 0,
            found: None,
        }
    }

    /// Reads until the buffer contains a whole record, or to the trace's end.
    fn fill(&mut self) -> io::Result<()> {
        match self.ended || self.end - self.at >= self.version.max_record_bytes() {
            true => Ok(()),
            false => self.read_on(),
        }
    }

    /// Moves the remaining bytes to the front, and fills the space behind them.
    fn read_on(&mut self) -> io::Result<()> {
        (self.last, self.found) = (0, None);
        self.held.copy_within(self.at..self.end, 0);
        self.base = self.base.wrapping_add(self.at as u64);
        (self.end, self.at) = (self.end - self.at, 0);
        while !self.ended && self.end < self.held.len() {
            match self.from.read(&mut self.held[self.end..]) {
                Ok(0) => self.ended = true,
                Ok(got) => self.end += got,
                Err(error) if error.kind() == io::ErrorKind::Interrupted => {}
                Err(error) => return Err(error),
            }
        }
        Ok(())
    }

    /// Skips a refused record, one byte at a time as [`salvage`](super::salvage()) does, up to the next complete record
    /// or the trace's end. Reading continues there. Returns the skipped offsets, or `None` if no record was refused.
    ///
    /// ```
    /// use cableowl::{Commands, trace::{Record, TraceReader, write}};
    ///
    /// let mut bytes = [0xff; 3 + 12];
    /// write(&Record::Commands(Commands::new()), &mut bytes, 2)?;
    /// let mut reader = TraceReader::new(&bytes[..]);
    /// assert!(reader.read_next().is_some_and(|at| at.is_err()));
    /// assert!(reader.read_next().is_none());
    /// assert_eq!(reader.skip_damage().ok().flatten(), Some(0..2));
    /// assert!(reader.read_next().is_some_and(|at| at.is_ok()));
    /// # Ok::<(), cableowl::Refusal>(())
    /// ```
    ///
    /// # Errors
    ///
    /// Errors of reading.
    pub fn skip_damage(&mut self) -> io::Result<Option<Range<u64>>> {
        if !self.refused {
            return Ok(None);
        }
        let from = self.place();
        (self.last, self.found) = (0, None);
        loop {
            self.at += 1;
            self.fill()?;
            let held = &self.held[..self.end];
            let is_record = || self.version.found(held, self.at).is_ok();
            if self.at == self.end || is_record() {
                self.refused = false;
                return Ok(Some(from..self.place()));
            }
        }
    }

    /// Reads the next record and returns the offset of its first byte; `None` at the trace's end. A refused record or a
    /// read error is the last result.
    pub fn read_next(&mut self) -> Option<Result<u64, TraceError>> {
        if self.refused {
            return None;
        }
        // The records that were read before an error are returned before it.
        let failed = self.fill().err();
        (self.last, self.found) = (0, None);
        if self.at == self.end {
            return failed.map(|error| Err(self.broken(error)));
        }
        let at = self.place();
        match (self.version.found(&self.held[..self.end], self.at), failed) {
            (Ok(found), _) => {
                let next = found.next as usize;
                (self.last, self.at) = (next - self.at, next);
                self.found = Some(found);
                Some(Ok(at))
            }
            (Err(Refusal::Truncated), Some(error)) => Some(Err(self.broken(error))),
            (Err(refusal), _) => {
                self.refused = true;
                Some(Err(TraceError::Refused(Refused { refusal, at })))
            }
        }
    }

    /// The record that [`TraceReader::read_next`] read last; `None` after a refused one and at the end.
    #[must_use]
    pub fn record(&self) -> Option<Record<'_>> {
        let found = self.found.as_ref()?;
        Some(values::record(found, self.bytes()))
    }

    /// The bytes of the record that was read or played last.
    #[must_use]
    pub fn bytes(&self) -> &[u8] {
        &self.held[self.at - self.last..self.at]
    }

    /// Reads the next record, plays it, and returns what it did; `None` at the trace's end. The replay reads it in its
    /// own version. A refused record or a read error is the last result.
    ///
    /// ```
    /// use cableowl::{Commands, Refusal, trace::{Record, Replay, Step, TraceReader, write}};
    ///
    /// let mut bytes = [0; 12];
    /// write(&Record::Commands(Commands::new()), &mut bytes, 0)?;
    /// let (mut reader, mut replay) = (TraceReader::new(&bytes[..]), Replay::new());
    /// let step = reader.step(&mut replay).and_then(Result::ok);
    /// assert_eq!(step, Some(Step::Commands(Err(Refusal::State))));
    /// assert!(reader.step(&mut replay).is_none());
    /// # Ok::<(), Refusal>(())
    /// ```
    pub fn step(&mut self, replay: &mut Replay) -> Option<Result<Step, TraceError>> {
        if self.refused {
            return None;
        }
        loop {
            let (step, size) = replay.step(&self.held[self.at..self.end], self.ended);
            (self.at, self.last, self.found) = (self.at + size, size, None);
            match step {
                Step::End => return None,
                Step::More => {
                    if let Err(error) = self.read_on() {
                        return Some(Err(self.broken(error)));
                    }
                }
                Step::Refused(Refused { refusal, .. }) => {
                    self.refused = true;
                    let at = self.place();
                    return Some(Err(TraceError::Refused(Refused { refusal, at })));
                }
                Step::OtherSound(other) => {
                    let at = self.place().wrapping_sub(size as u64);
                    return Some(Ok(Step::OtherSound(OtherSound { at, ..other })));
                }
                step => return Some(Ok(step)),
            }
        }
    }

    /// Nothing more will be read.
    fn broken(&mut self, error: io::Error) -> TraceError {
        (self.ended, self.at) = (true, self.end);
        (self.last, self.found) = (0, None);
        TraceError::Io(error)
    }

    /// The offset in the trace of the next record.
    fn place(&self) -> u64 {
        self.base.wrapping_add(self.at as u64)
    }
}
