// Stand-ins for what kira's sound module contains besides the two files that are kept.

use crate::{Frame, info::Info};

mod playback_position {
    // kira's sound/playback_position.rs, unchanged.
    #![allow(clippy::all, dead_code, missing_docs)]
    include!("../kira/src/sound/playback_position.rs");
}

pub mod static_sound;

pub mod transport;

pub use playback_position::PlaybackPosition;

/// Where a region ends.
#[derive(Debug, Clone, Copy, PartialEq)]
pub enum EndPosition {
    /// The end of the audio: all frames for a slice, the slice's frames for a loop.
    EndOfAudio,
    /// A given position.
    Custom(PlaybackPosition),
}

/// A part of a sound; the end is exclusive.
#[derive(Debug, Clone, Copy, PartialEq)]
pub struct Region {
    /// Where it starts.
    pub start: PlaybackPosition,
    /// Where it ends.
    pub end: EndPosition,
}

/// What kira's builders accept as a region.
pub trait IntoOptionalRegion {
    fn into_optional_region(self) -> Option<Region>;
}

impl IntoOptionalRegion for Option<Region> {
    fn into_optional_region(self) -> Option<Region> {
        self
    }
}

/// The seven states, under the rules' numbers.
#[derive(Debug, Clone, Copy, PartialEq, Eq)]
#[repr(u8)]
pub enum PlaybackState {
    /// 0, advances.
    Playing,
    /// 1, advances.
    Pausing,
    /// 2.
    Paused,
    /// 3.
    WaitingToResume,
    /// 4, advances.
    Resuming,
    /// 5, advances.
    Stopping,
    /// 6.
    Stopped,
}

impl PlaybackState {
    /// All seven, each at its number.
    pub const ALL: [Self; 7] = [
        Self::Playing,
        Self::Pausing,
        Self::Paused,
        Self::WaitingToResume,
        Self::Resuming,
        Self::Stopping,
        Self::Stopped,
    ];

    /// Whether a voice in this state advances.
    #[must_use]
    pub fn is_advancing(self) -> bool {
        matches!(
            self,
            Self::Playing | Self::Pausing | Self::Resuming | Self::Stopping
        )
    }

    /// The state's number.
    #[must_use]
    pub fn number(self) -> u8 {
        self as u8
    }

    /// The state with this number, if there is one.
    #[must_use]
    pub fn from_number(number: u8) -> Option<Self> {
        Self::ALL.get(usize::from(number)).copied()
    }
}

/// What kira's mixer calls on a sound.
pub trait Sound: Send {
    fn on_start_processing(&mut self);
    fn process(&mut self, out: &mut [Frame], dt: f64, info: &Info);
    fn finished(&self) -> bool;
}

/// What kira's manager turns into a sound.
pub trait SoundData {
    type Error;
    type Handle;

    #[allow(clippy::type_complexity, dead_code)]
    fn into_sound(self) -> Result<(Box<dyn Sound>, Self::Handle), Self::Error>;
}
