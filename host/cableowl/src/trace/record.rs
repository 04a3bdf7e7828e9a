//! A record: one thing that a host did.

use std::ops::Range;

use super::{MAX_SOUND_FRAMES, MAX_TRACED_FRAMES, SoundId};
use crate::{Commands, Refusal, Settings, Signals, StartAnswer};

/// One thing that a host did with a voice.
///
/// Records are equal if their bytes are: floats by their bits, so a NaN equals itself and minus zero is
/// not zero. The lanes of a [`LanedBlock`] are borrowed, all else is in the record itself, so reading
/// one allocates nothing.
///
/// ```
/// use cableowl::{Settings, trace::{Lesson, Record, TraceVersion, read, write}, Refusal};
///
/// let lesson = Lesson::new(vec![0.5; 2_000])?;
/// let record = Record::GivenCreation { settings: Settings::new(44_100), sound: lesson.id() };
/// let mut bytes = [0; 70];
/// assert_eq!(write(&record, &mut bytes, 0), Ok(70));
/// assert_eq!(read(&bytes, 0), Ok((record, 70)));
/// assert_eq!(TraceVersion::First.write(&record, &mut bytes, 0), Err(Refusal::Kind));
/// # Ok::<(), Refusal>(())
/// ```
#[derive(Debug, Clone, Copy)]
#[expect(
    clippy::large_enum_variant,
    reason = "a record is held by value: reading one allocates nothing"
)]
pub enum Record<'a> {
    /// Kind 1: a voice was created over this sound, or its creation refused.
    Creation {
        /// The settings of the creation.
        settings: Settings,
        /// The sound.
        sound: ShortSound,
    },
    /// Kind 2: a command set was given.
    Commands(Commands),
    /// Kind 3: a block with constant lanes was played, or refused.
    Block(Block),
    /// Kind 4: as kind 1, but the record only names the sound.
    GivenCreation {
        /// The settings of the creation.
        settings: Settings,
        /// The sound's frame count and digest.
        sound: SoundId,
    },
    /// Kind 5: a block whose lanes change was played, or refused.
    LanedBlock(LanedBlock<'a>),
}

/// A block whose lanes are constant: each number applies to every frame.
#[derive(Debug, Clone, Copy, PartialEq)]
pub struct Block {
    /// The frames, at most [`MAX_TRACED_FRAMES`](super::MAX_TRACED_FRAMES).
    pub frames: usize,
    /// The fade's amplitude.
    pub fade: f32,
    /// The volume's amplitude.
    pub volume: f32,
    /// The left channel's gain.
    pub left: f32,
    /// The right channel's gain.
    pub right: f32,
    /// The rate.
    pub rate: f64,
    /// The seconds of one frame.
    pub time_step: f64,
    /// Whether the fade of a pause, resume or stop has ended.
    pub finished: bool,
    /// The answer for the sound's own start: a tick is recorded as the answer that it gives.
    pub start: StartAnswer,
    /// The answer for a waiting resume.
    pub resume: StartAnswer,
}

impl Block {
    /// The bytes of its record.
    pub(crate) const BYTES: usize = 42;

    /// A block of this many frames: unit lanes, no signals.
    #[must_use]
    pub fn new(frames: usize, time_step: f64) -> Self {
        Self {
            frames,
            fade: 1.0,
            volume: 1.0,
            left: 1.0,
            right: 1.0,
            rate: 1.0,
            time_step,
            finished: false,
            start: StartAnswer::Waiting,
            resume: StartAnswer::Waiting,
        }
    }

    /// The same block with these signals.
    #[must_use]
    pub fn with_signals(mut self, signals: Signals) -> Self {
        self.finished = signals.finished;
        self.start = signals.start.answer();
        self.resume = signals.resume;
        self
    }

    /// The signals that the block gets.
    #[must_use]
    pub fn signals(&self) -> Signals {
        signals(self.finished, self.start, self.resume)
    }

    /// Whether the next block, with no command between them, can be recorded as the end of this one: it
    /// has the same numbers and no signals, and there is space for its frames.
    pub(super) fn joins(&self, next: &Self) -> bool {
        let waits = |answer| answer == StartAnswer::Waiting;
        let no_signals = !next.finished && waits(next.start) && waits(next.resume);
        no_signals && self.bits() == next.bits() && self.frames + next.frames <= MAX_TRACED_FRAMES
    }

    /// Whether the two have the same record.
    pub(super) fn is(&self, other: &Self) -> bool {
        let signals = |block: &Self| (block.finished, block.start, block.resume);
        self.frames == other.frames
            && self.bits() == other.bits()
            && signals(self) == signals(other)
    }

    /// Its numbers, by their bits.
    fn bits(&self) -> ([u32; 4], [u64; 2]) {
        (
            [self.fade, self.volume, self.left, self.right].map(f32::to_bits),
            [self.rate, self.time_step].map(f64::to_bits),
        )
    }

    /// The five numbers that apply to every frame.
    #[must_use]
    pub fn numbers(&self) -> FrameNumbers {
        FrameNumbers {
            fade: self.fade,
            volume: self.volume,
            left: self.left,
            right: self.right,
            rate: self.rate,
        }
    }
}

fn signals(finished: bool, start: StartAnswer, resume: StartAnswer) -> Signals {
    Signals::new()
        .finished(finished)
        .start(start)
        .resume(resume)
}

/// The numbers of the five lanes for one frame.
///
/// ```
/// use cableowl::trace::FrameNumbers;
///
/// let numbers = FrameNumbers { fade: 0.5, ..FrameNumbers::ONES };
/// assert_eq!(numbers.to_bytes()[..8], [0, 0, 0, 0x3f, 0, 0, 0x80, 0x3f]);
/// assert_eq!(FrameNumbers::from_bytes(&numbers.to_bytes()), numbers);
/// ```
#[derive(Debug, Clone, Copy, PartialEq)]
pub struct FrameNumbers {
    /// The fade's amplitude.
    pub fade: f32,
    /// The volume's amplitude.
    pub volume: f32,
    /// The left channel's gain.
    pub left: f32,
    /// The right channel's gain.
    pub right: f32,
    /// The rate.
    pub rate: f64,
}

impl FrameNumbers {
    /// Full amplitude and the sound's own speed.
    pub const ONES: Self = Self {
        fade: 1.0,
        volume: 1.0,
        left: 1.0,
        right: 1.0,
        rate: 1.0,
    };

    /// The bytes of a frame in a record.
    pub const BYTES: usize = 24;

    /// The numbers as bytes, in the order of docs/formats/TRACE.md.
    #[must_use]
    pub fn to_bytes(self) -> [u8; Self::BYTES] {
        let mut bytes = [0; Self::BYTES];
        let gains = [self.fade, self.volume, self.left, self.right];
        for (bytes, gain) in bytes.chunks_exact_mut(4).zip(gains) {
            bytes.copy_from_slice(&gain.to_le_bytes());
        }
        bytes[16..].copy_from_slice(&self.rate.to_le_bytes());
        bytes
    }

    /// The numbers that these bytes are.
    #[must_use]
    pub fn from_bytes(bytes: &[u8; Self::BYTES]) -> Self {
        let gain = |at: usize| {
            let [a, b, c, d] = [0, 1, 2, 3].map(|byte| bytes[at + byte]);
            f32::from_le_bytes([a, b, c, d])
        };
        let mut rate = [0; 8];
        rate.copy_from_slice(&bytes[16..]);
        Self {
            fade: gain(0),
            volume: gain(4),
            left: gain(8),
            right: gain(12),
            rate: f64::from_le_bytes(rate),
        }
    }
}

/// A block whose lanes are given frame by frame. The lanes are bytes of the trace, or of any other
/// buffer.
///
/// ```
/// use cableowl::trace::{FrameNumbers, LanedBlock, Record, read, write};
///
/// let fade = [1.0, 0.5].map(|fade| FrameNumbers { fade, ..FrameNumbers::ONES });
/// let lanes = fade.map(FrameNumbers::to_bytes).concat();
/// let block = LanedBlock::new(&lanes, 1.0);
/// assert_eq!(block.frames(), 2);
/// let mut bytes = [0; 70];
/// let record = Record::LanedBlock(block);
/// assert_eq!(write(&record, &mut bytes, 0), Ok(70));
/// assert_eq!(read(&bytes, 0), Ok((record, 70)));
/// assert!(block.numbers().eq(fade));
/// ```
#[derive(Debug, Clone, Copy, PartialEq)]
pub struct LanedBlock<'a> {
    /// The lanes: for each frame the bytes of its [`FrameNumbers`]. A record has 1 to
    /// [`MAX_TRACED_FRAMES`].
    pub lanes: &'a [u8],
    /// The seconds of one frame.
    pub time_step: f64,
    /// Whether the fade of a pause, resume or stop has ended.
    pub finished: bool,
    /// The answer for the sound's own start: a tick is recorded as the answer that it gives.
    pub start: StartAnswer,
    /// The answer for a waiting resume.
    pub resume: StartAnswer,
}

impl<'a> LanedBlock<'a> {
    /// A block with these lanes and without signals.
    #[must_use]
    pub fn new(lanes: &'a [u8], time_step: f64) -> Self {
        Self {
            lanes,
            time_step,
            finished: false,
            start: StartAnswer::Waiting,
            resume: StartAnswer::Waiting,
        }
    }

    /// The same block with these signals.
    #[must_use]
    pub fn with_signals(self, signals: Signals) -> Self {
        Self {
            finished: signals.finished,
            start: signals.start.answer(),
            resume: signals.resume,
            ..self
        }
    }

    /// The signals that the block gets.
    #[must_use]
    pub fn signals(&self) -> Signals {
        signals(self.finished, self.start, self.resume)
    }

    /// How many frames it has.
    #[must_use]
    pub fn frames(&self) -> usize {
        self.lanes.len() / FrameNumbers::BYTES
    }

    /// A part of the block, with the same signals.
    pub(super) fn part(mut self, part: Range<usize>) -> Self {
        let bytes = FrameNumbers::BYTES * part.start..FrameNumbers::BYTES * part.end;
        self.lanes = self.lanes.get(bytes).unwrap_or_default();
        self
    }

    /// The numbers of each frame.
    pub fn numbers(&self) -> impl ExactSizeIterator<Item = FrameNumbers> + use<'a> {
        let (frames, _) = self.lanes.as_chunks();
        frames.iter().map(FrameNumbers::from_bytes)
    }
}

/// A sound of at most [`MAX_SOUND_FRAMES`] frames, stored by value.
#[derive(Clone, Copy)]
pub struct ShortSound {
    frames: u8,
    samples: [f32; 2 * MAX_SOUND_FRAMES],
}

impl ShortSound {
    /// A sound of no frames, which creation refuses.
    pub const EMPTY: Self = Self {
        frames: 0,
        samples: [0.0; 2 * MAX_SOUND_FRAMES],
    };

    /// The sound of these samples, left and right in turn.
    ///
    /// # Errors
    ///
    /// [`Refusal::Record`]: their count is odd, or more than [`MAX_SOUND_FRAMES`] frames.
    pub fn new(samples: &[f32]) -> Result<Self, Refusal> {
        let mut sound = Self::EMPTY;
        match sound.samples.get_mut(..samples.len()) {
            Some(room) if samples.len().is_multiple_of(2) => room.copy_from_slice(samples),
            _ => return Err(Refusal::Record),
        }
        // At most 64.
        sound.frames = (samples.len() / 2) as u8;
        Ok(sound)
    }

    /// The samples, left and right in turn.
    #[must_use]
    pub fn samples(&self) -> &[f32] {
        &self.samples[..2 * self.frames()]
    }

    /// How many frames it has.
    #[must_use]
    pub fn frames(&self) -> usize {
        usize::from(self.frames)
    }
}

impl std::fmt::Debug for ShortSound {
    fn fmt(&self, f: &mut std::fmt::Formatter<'_>) -> std::fmt::Result {
        f.debug_tuple("ShortSound").field(&self.samples()).finish()
    }
}
