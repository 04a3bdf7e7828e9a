//! Traces: what a host did with one voice, as bytes (docs/formats/TRACE.md has their layout).
//!
//! A box records while it plays ([`RecordedPlayer`](crate::RecordedPlayer), [`Recorder`]). Support plays
//! the trace again ([`Replay`], [`replay`]), reads the lines that the box would have logged ([`Line`]),
//! and repairs a file with holes ([`salvage`]). A trace is one record after the other, so traces can be
//! appended and cut between records.
//!
//! A trace names its sound by frame count and digest. To record, give the sound with its digest
//! ([`Lesson`]). A replay needs no sound: lines, states, steps and positions depend on the sound only
//! through its frame count. To hear the evening again, give the replay its sounds ([`Sounds`]).
//!
//! ```
//! use cableowl::{Settings, trace::{Block, Lesson, Record, Replay, Trace, write}};
//!
//! let lesson = Lesson::new(vec![1.0, 1.0, 2.0, 2.0, 3.0, 3.0])?;
//! let settings = Settings::new(1);
//! let creation = Record::GivenCreation { settings, sound: lesson.id() };
//! let block = Record::Block(Block::new(6, 1.0));
//!
//! let mut bytes = [0; 112];
//! let next = write(&creation, &mut bytes, 0)?;
//! assert_eq!(write(&block, &mut bytes, next)?, 112);
//!
//! let mut replay = Replay::new().sounds(lesson);
//! for record in Trace::new(&bytes) {
//!     let (_, record) = record?;
//!     if let Some(line) = replay.play(&record) {
//!         assert_eq!(line.to_string(), "block=1 frames=6 steps=6 state=6 position=3");
//!     }
//! }
//! assert_eq!(replay.heard(), [1.0, 1.0, 2.0, 2.0, 3.0, 3.0, 0.0, 0.0, 0.0, 0.0, 0.0, 0.0]);
//! # Ok::<(), cableowl::Refusal>(())
//! ```

mod lesson;
mod line;
mod log;
mod record;
mod recorder;
mod replay;
mod salvage;
mod stream;
mod tape;
mod values;
mod version;

use std::{error::Error, fmt};

pub use lesson::{Digest, Lesson, OtherSound, SoundId, Sounds};
pub use line::Line;
pub use log::{LOG_HEAD, Log, LogLine, Since};
pub use record::{Block, FrameNumbers, LanedBlock, Record, ShortSound};
pub use recorder::{Recorded, Recorder};
pub use replay::{Lines, Replay, Step, lines, replay};
pub use salvage::{Salvaged, salvage};
pub use stream::{TraceError, TraceReader};
pub use version::TraceVersion;

pub(crate) use tape::Tape;

use crate::Refusal;

/// The largest number of frames of a sound that a record can contain: [`ShortSound`].
pub const MAX_SOUND_FRAMES: usize = 64;

/// The largest number of frames in a recorded block.
pub const MAX_TRACED_FRAMES: usize = 1_024;

/// The length in bytes of the longest record; [`TraceVersion::max_record_bytes`] is the limit of a version.
pub const MAX_RECORD_BYTES: usize = 24_598;

/// A record that the reader refuses, and its offset in the trace.
#[derive(Debug, Clone, Copy, PartialEq, Eq, Hash)]
pub struct Refused {
    /// Why: refusals 15 to 18.
    pub refusal: Refusal,
    /// The offset of the record's first byte.
    pub at: u64,
}

impl fmt::Display for Refused {
    fn fmt(&self, f: &mut fmt::Formatter<'_>) -> fmt::Result {
        write!(f, "the record at byte {}: {}", self.at, self.refusal)
    }
}

impl Error for Refused {}

impl From<Refused> for Refusal {
    fn from(refused: Refused) -> Self {
        refused.refusal
    }
}

/// Reads the record at an offset of the bytes, and returns it with the offset after it.
///
/// ```
/// use cableowl::{Refusal, trace::read};
///
/// assert_eq!(read(&[0], 0), Err(Refusal::Mark));
/// assert_eq!(read(&[0xa5, 0x1d, 6], 0), Err(Refusal::Kind));
/// assert_eq!(read(&[0xa5, 0x1d, 3, 0xff, 0xff], 0), Err(Refusal::Record));
/// assert_eq!(read(&[], 0), Err(Refusal::Truncated));
/// ```
///
/// # Errors
///
/// Refusals 15 to 18, byte by byte in reading order; 18 at the end of the bytes and beyond it.
pub fn read(bytes: &[u8], at: usize) -> Result<(Record<'_>, usize), Refusal> {
    TraceVersion::Second.read(bytes, at)
}

/// Writes a record at an offset of a buffer, and returns the offset after it. No other byte changes.
///
/// ```
/// use cableowl::{Commands, Refusal, trace::{Record, read, write}};
///
/// let record = Record::Commands(Commands::new().seek_to(2.5));
/// let mut buffer = [9; 22];
/// assert_eq!(write(&record, &mut buffer, 1), Ok(21));
/// assert_eq!((buffer[0], buffer[21]), (9, 9));
/// assert_eq!(read(&buffer, 1), Ok((record, 21)));
/// assert_eq!(write(&record, &mut buffer, 3), Err(Refusal::Room));
/// # Ok::<(), Refusal>(())
/// ```
///
/// # Errors
///
/// [`Refusal::Record`] if a block has more than [`MAX_TRACED_FRAMES`], or a [`LanedBlock`] no frames or
/// lanes that are not whole frames; then [`Refusal::Room`] if the buffer is too short. Nothing is
/// written then.
pub fn write(record: &Record<'_>, buffer: &mut [u8], at: usize) -> Result<usize, Refusal> {
    TraceVersion::Second.write(record, buffer, at)
}

/// The records of a trace, each with the offset of its first byte. A refused record is the last one.
///
/// ```
/// use cableowl::{Refusal, trace::{Refused, Trace}};
///
/// let a_line_feed = [0x0a];
/// let mut trace = Trace::new(&a_line_feed);
/// let refused = Refused { refusal: Refusal::Mark, at: 0 };
/// assert_eq!(trace.next(), Some(Err(refused)));
/// assert_eq!(trace.next(), None);
/// assert_eq!(Trace::new(&[]).next(), None);
/// ```
#[derive(Debug, Clone)]
pub struct Trace<'a> {
    version: TraceVersion,
    bytes: &'a [u8],
    at: usize,
}

impl<'a> Trace<'a> {
    /// The records of these bytes.
    #[must_use]
    pub fn new(bytes: &'a [u8]) -> Self {
        Self::with_version(bytes, TraceVersion::Second)
    }

    /// The same, by the reader of this version.
    #[must_use]
    pub fn with_version(bytes: &'a [u8], version: TraceVersion) -> Self {
        Self {
            version,
            bytes,
            at: 0,
        }
    }
}

impl<'a> Iterator for Trace<'a> {
    type Item = Result<(u64, Record<'a>), Refused>;

    fn next(&mut self) -> Option<Self::Item> {
        let at = self.at;
        if at >= self.bytes.len() {
            return None;
        }
        let read = self.version.read(self.bytes, at);
        self.at = read.map_or(self.bytes.len(), |(_, next)| next);
        let at = at as u64;
        Some(match read {
            Ok((record, _)) => Ok((at, record)),
            Err(refusal) => Err(Refused { refusal, at }),
        })
    }
}

impl std::iter::FusedIterator for Trace<'_> {}
