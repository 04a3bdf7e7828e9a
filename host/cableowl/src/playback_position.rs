//! Positions in a sound: docs/assurance/RULES.md, "Seconds to frames".

use std::ops::{Range, RangeFrom, RangeFull, RangeTo};

use crate::ffi;

/// A point in time in a piece of audio.
///
/// Seconds are multiplied by the sample rate and rounded, a half away from zero. A negative result
/// becomes frame 0.
#[derive(Debug, Clone, Copy, PartialEq)]
pub enum PlaybackPosition {
    /// The time in seconds.
    Seconds(f64),
    /// The time in frames.
    Samples(usize),
}

impl Default for PlaybackPosition {
    fn default() -> Self {
        Self::Samples(0)
    }
}

impl From<f64> for PlaybackPosition {
    fn from(seconds: f64) -> Self {
        Self::Seconds(seconds)
    }
}

/// A frame index, or a number of frames: `Frames(6)..Frames(11)` is a region of 5 frames, and
/// `6.0..11.0` one of 5 seconds. A bare integer is neither:
///
/// ```compile_fail
/// let region = cableowl::Region::from(6..11);
/// ```
///
/// ```
/// use cableowl::{Frames, PlaybackPosition, Region};
///
/// let region = Region::from(Frames(6)..Frames(11));
/// assert_eq!(region.start, PlaybackPosition::Samples(6));
/// ```
#[doc(alias = "Samples")]
#[derive(Debug, Clone, Copy, PartialEq, Eq, PartialOrd, Ord, Hash)]
pub struct Frames(pub usize);

impl From<Frames> for PlaybackPosition {
    fn from(frames: Frames) -> Self {
        Self::Samples(frames.0)
    }
}

/// Where a region ends.
#[derive(Debug, Clone, Copy, PartialEq)]
pub enum EndPosition {
    /// The end of the audio: all frames for a slice, the slice's frames for a loop.
    EndOfAudio,
    /// A given position.
    Custom(PlaybackPosition),
}

/// A part of a sound; the end is exclusive.
///
/// Ranges of seconds and of [`Frames`] convert to regions.
///
/// ```
/// use cableowl::{EndPosition, Frames, PlaybackPosition, Region};
///
/// let sentence = Region::from(2.5..4.0);
/// assert_eq!(sentence.start, PlaybackPosition::Seconds(2.5));
///
/// let rest = Region::from(Frames(100)..);
/// assert_eq!(rest.start, PlaybackPosition::Samples(100));
/// assert_eq!(rest.end, EndPosition::EndOfAudio);
///
/// assert_eq!(Region::from(..), Region::from(Frames(0)..));
/// ```
#[derive(Debug, Clone, Copy, PartialEq)]
pub struct Region {
    /// Where it starts.
    pub start: PlaybackPosition,
    /// Where it ends.
    pub end: EndPosition,
}

impl<T: Into<PlaybackPosition>> From<Range<T>> for Region {
    fn from(range: Range<T>) -> Self {
        Self {
            start: range.start.into(),
            end: EndPosition::Custom(range.end.into()),
        }
    }
}

impl<T: Into<PlaybackPosition>> From<RangeFrom<T>> for Region {
    fn from(range: RangeFrom<T>) -> Self {
        Self {
            start: range.start.into(),
            end: EndPosition::EndOfAudio,
        }
    }
}

impl<T: Into<PlaybackPosition>> From<RangeTo<T>> for Region {
    fn from(range: RangeTo<T>) -> Self {
        Self {
            start: PlaybackPosition::default(),
            end: EndPosition::Custom(range.end.into()),
        }
    }
}

impl From<RangeFull> for Region {
    fn from(_: RangeFull) -> Self {
        Self {
            start: PlaybackPosition::default(),
            end: EndPosition::EndOfAudio,
        }
    }
}

impl From<PlaybackPosition> for ffi::Place {
    fn from(position: PlaybackPosition) -> Self {
        match position {
            PlaybackPosition::Seconds(seconds) => Self {
                kind: 0,
                seconds,
                samples: 0,
            },
            PlaybackPosition::Samples(samples) => Self {
                kind: 1,
                seconds: 0.0,
                samples: samples as u64,
            },
        }
    }
}

impl From<EndPosition> for ffi::Place {
    fn from(position: EndPosition) -> Self {
        match position {
            EndPosition::EndOfAudio => Self {
                kind: 2,
                ..Self::default()
            },
            EndPosition::Custom(position) => position.into(),
        }
    }
}

impl From<Region> for ffi::Region {
    fn from(region: Region) -> Self {
        Self {
            start: region.start.into(),
            end: region.end.into(),
        }
    }
}
